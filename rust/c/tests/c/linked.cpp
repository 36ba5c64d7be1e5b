// A program of C++ that links the library: counts a test, sums up the run, and finds its outcome.
#include "deodarsieve.h"

int main()
{
    deodarsieve_run_stats stats = DEODARSIEVE_RUN_STATS_INIT;
    deodarsieve_test_view test = {{DEODARSIEVE_RESULT_EXIT_CODE, 101}, 1, false,
                                  DEODARSIEVE_FLAKY_PASS};
    deodarsieve_final_stats summary;
    uint32_t outcome = DEODARSIEVE_OUTCOME_NO_TESTS_RUN;

    stats.initial_run_count = 1;
    if (deodarsieve_run_stats_count_test(&stats, &test) != DEODARSIEVE_OK ||
        deodarsieve_run_stats_summarize(&stats, &summary) != DEODARSIEVE_OK ||
        deodarsieve_outcome_of_sub_runs(&summary, 1, &outcome) != DEODARSIEVE_OK)
        return 2;
    return outcome == DEODARSIEVE_OUTCOME_FAILED_AT_TESTS ? 0 : 1;
}
