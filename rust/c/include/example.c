/* Counts a run of two tests, and finds why one of them failed. */
#include "deodarsieve.h"

#include <stdio.h>
#include <string.h>

/* Finds why a test failed, in output whose two streams were captured as one, and prints it. */
static uint32_t print_why(const char *text)
{
    const uint8_t *bytes = (const uint8_t *)text;
    size_t length = strlen(text);
    deodarsieve_slice why;
    uint32_t status = deodarsieve_slice_extract(true, bytes, length, true, bytes, length, &why);

    if (status == DEODARSIEVE_OK)
        printf("kind %u: %.*s\n", (unsigned)why.kind, (int)why.length, text + why.start);
    return status;
}

int main(void)
{
    deodarsieve_run_stats stats = DEODARSIEVE_RUN_STATS_INIT;
    deodarsieve_test_view passed = {.result = {DEODARSIEVE_RESULT_PASS, 0}, .attempts = 1};
    deodarsieve_test_view failed = {.result = {DEODARSIEVE_RESULT_EXIT_CODE, 101}, .attempts = 1};
    deodarsieve_failed_counts failures;
    deodarsieve_final_stats summary;

    stats.initial_run_count = 2;
    if (deodarsieve_run_stats_count_test(&stats, &passed) != DEODARSIEVE_OK ||
        deodarsieve_run_stats_count_test(&stats, &failed) != DEODARSIEVE_OK ||
        deodarsieve_run_stats_failed_counts(&stats, &failures) != DEODARSIEVE_OK ||
        deodarsieve_run_stats_summarize(&stats, &summary) != DEODARSIEVE_OK)
        return 1;
    printf("passed %zu failed %zu summary %u\n", stats.passed, failures.tests,
           (unsigned)summary.kind);
    return print_why("log\nthread 'main' panicked at src/lib.rs:4:5:\nboom\n") != DEODARSIEVE_OK;
}
