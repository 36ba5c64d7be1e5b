#include <deodarsieve.h>
#include <stdio.h>
#include <string.h>

int main(void)
{
    const char *err = "log\nthread 'main' panicked at src/lib.rs:4:5:\nboom\n";
    deodarsieve_test_view test = {.result = {DEODARSIEVE_RESULT_EXIT_CODE, 101}, .attempts = 1};
    deodarsieve_run_stats stats = DEODARSIEVE_RUN_STATS_INIT;
    deodarsieve_failed_counts failures;
    deodarsieve_final_stats summary;
    uint32_t outcome;
    deodarsieve_slice why;

    stats.initial_run_count = 1; /* the tests that are to run; the library counts those that finish */
    if (deodarsieve_run_stats_count_test(&stats, &test) != DEODARSIEVE_OK ||
        deodarsieve_run_stats_failed_counts(&stats, &failures) != DEODARSIEVE_OK ||
        deodarsieve_run_stats_summarize(&stats, &summary) != DEODARSIEVE_OK ||
        deodarsieve_outcome_of_sub_runs(&summary, 1, &outcome) != DEODARSIEVE_OK)
        return 1;
    deodarsieve_slice_extract(false, NULL, 0, true, (const uint8_t *)err, strlen(err), &why);
    printf("failed %zu: %.*s\n", failures.tests, (int)why.length, err + why.start);
    puts(outcome == DEODARSIEVE_OUTCOME_SUCCESS ? "the run succeeded" : "the run did not succeed");
    return 0;
}
