/*
 * Calls every function of deodarsieve.h with values that differ from one another, and compares what
 * it returns and writes with the header's comments and tables. Prints what differs.
 */
#include "deodarsieve.h"

#include <stdio.h>
#include <string.h>

static int failures;

#define CHECK(is_right) check((is_right), #is_right, __func__, __LINE__)

static void check(bool is_right, const char *text, const char *function, int line)
{
    if (is_right)
        return;
    failures++;
    printf("%s, line %d: not so: %s\n", function, line, text);
}

static const uint8_t *bytes_of(const char *text)
{
    return (const uint8_t *)text;
}

static void test_version(void)
{
    CHECK(deodarsieve_version() == DEODARSIEVE_VERSION);
    CHECK(DEODARSIEVE_VERSION == 1000);
}

/* ---- Output ---- */

static const char note[] = "log\nnote: test did not panic as expected\nmore\n";
static const char panicked[] = "log\nthread 'main' panicked at src/lib.rs:4:5:\nboom\n";
static const char failed[] = "log\nError: no\nmore\n";

static deodarsieve_slice extracted(const char *out, const char *err)
{
    deodarsieve_slice answer = {77, 77, 77};

    CHECK(deodarsieve_slice_extract(out != NULL, bytes_of(out), out ? strlen(out) : 0, err != NULL,
                                    bytes_of(err), err ? strlen(err) : 0,
                                    &answer) == DEODARSIEVE_OK);
    return answer;
}

static bool is_slice(deodarsieve_slice slice, uint32_t kind, size_t start, size_t length)
{
    return slice.kind == kind && slice.start == start && slice.length == length;
}

static void test_slice_extract(void)
{
    CHECK(is_slice(extracted(note, panicked), DEODARSIEVE_SLICE_PANIC_MESSAGE, 4, 46));
    CHECK(is_slice(extracted(note, failed), DEODARSIEVE_SLICE_ERROR_STR, 4, 14));
    CHECK(is_slice(extracted(note, "quiet\n"), DEODARSIEVE_SLICE_SHOULD_PANIC, 4, 36));
    CHECK(is_slice(extracted("quiet\n", "quiet\n"), DEODARSIEVE_SLICE_NONE, 0, 0));
    CHECK(is_slice(extracted(failed, NULL), DEODARSIEVE_SLICE_NONE, 0, 0));
    CHECK(is_slice(extracted(NULL, note), DEODARSIEVE_SLICE_NONE, 0, 0));
}

static void test_streams_that_were_not_captured(void)
{
    deodarsieve_slice answer = {77, 77, 77};

    CHECK(deodarsieve_slice_extract(false, bytes_of(note), sizeof note - 1, false,
                                    bytes_of(panicked), sizeof panicked - 1,
                                    &answer) == DEODARSIEVE_OK);
    CHECK(is_slice(answer, DEODARSIEVE_SLICE_NONE, 0, 0));
}

static void test_slice_extract_capped(void)
{
    const uint8_t *err = bytes_of(panicked);
    const size_t length = sizeof panicked - 1;
    deodarsieve_slice answer = {77, 78, 79};

    CHECK(deodarsieve_slice_extract_capped(false, NULL, 0, true, err, length, 0, &answer) ==
          DEODARSIEVE_BAD_CODE);
    CHECK(is_slice(answer, 77, 78, 79));
    CHECK(deodarsieve_slice_extract_capped(false, NULL, 0, true, err, length, 6, &answer) ==
          DEODARSIEVE_OK);
    CHECK(is_slice(answer, DEODARSIEVE_SLICE_PANIC_MESSAGE, 4, 6));
    CHECK(deodarsieve_slice_extract_capped(false, NULL, 0, true, err, length, 1000, &answer) ==
          DEODARSIEVE_OK);
    CHECK(is_slice(answer, DEODARSIEVE_SLICE_PANIC_MESSAGE, 4, 46));
    CHECK(deodarsieve_slice_extract_capped(true, bytes_of(note), sizeof note - 1, false, NULL, 0, 4,
                                           &answer) == DEODARSIEVE_OK);
    CHECK(is_slice(answer, DEODARSIEVE_SLICE_SHOULD_PANIC, 4, 4));
}

/*
 * The reads of the search in a head of 24 bytes: 10 for its two quotes, 7 for `thread `, 14 for what
 * follows the name, 1 for the name, and 1 for the byte after the head.
 */
static void test_reads(void)
{
    deodarsieve_head answer = {false, 77, 77, 77};

    CHECK(deodarsieve_head_find_last(bytes_of("thread 'a' panicked at x"), 24, &answer) ==
          DEODARSIEVE_OK);
    CHECK(answer.is_found && answer.start == 0 && answer.stop == 23 && answer.reads == 33);
    CHECK(deodarsieve_head_find_last(bytes_of("quiet\n"), 6, &answer) == DEODARSIEVE_OK);
    CHECK(!answer.is_found && answer.reads == 6);
}

static void test_head_find_last(void)
{
    static const char two[] = "thread 'a' panicked at x\nthread 'b' panicked at y";
    const size_t length = sizeof two - 1;
    deodarsieve_head answer = {false, 77, 77, 77};

    CHECK(deodarsieve_head_find_last(bytes_of(two), length, &answer) == DEODARSIEVE_OK);
    CHECK(answer.is_found && answer.start == 25 && answer.stop == 48);
    CHECK(answer.reads >= length && answer.reads <= 3 * length + 8);
    CHECK(deodarsieve_head_find_last(bytes_of("quiet\n"), 6, &answer) == DEODARSIEVE_OK);
    CHECK(!answer.is_found && answer.start == 0 && answer.stop == 0);
}

/* A null pointer with the length 0 is an empty stream, captured or not. */
static void test_null_with_length_0(void)
{
    deodarsieve_slice slice = {77, 77, 77};
    deodarsieve_head head = {true, 77, 77, 77};
    uint32_t outcome = 77;

    CHECK(deodarsieve_slice_extract(true, NULL, 0, true, NULL, 0, &slice) == DEODARSIEVE_OK);
    CHECK(is_slice(slice, DEODARSIEVE_SLICE_NONE, 0, 0));
    CHECK(deodarsieve_slice_extract(true, bytes_of(note), sizeof note - 1, true, NULL, 0, &slice) ==
          DEODARSIEVE_OK);
    CHECK(is_slice(slice, DEODARSIEVE_SLICE_SHOULD_PANIC, 4, 36));
    CHECK(deodarsieve_slice_extract(true, NULL, 0, true, bytes_of(failed), sizeof failed - 1,
                                    &slice) == DEODARSIEVE_OK);
    CHECK(is_slice(slice, DEODARSIEVE_SLICE_ERROR_STR, 4, 14));
    slice.kind = 77;
    CHECK(deodarsieve_slice_extract_capped(true, NULL, 0, true, NULL, 0, 9, &slice) ==
          DEODARSIEVE_OK);
    CHECK(is_slice(slice, DEODARSIEVE_SLICE_NONE, 0, 0));
    CHECK(deodarsieve_head_find_last(NULL, 0, &head) == DEODARSIEVE_OK);
    CHECK(!head.is_found && head.start == 0 && head.stop == 0 && head.reads <= 8);
    CHECK(deodarsieve_outcome_of_sub_runs(NULL, 0, &outcome) == DEODARSIEVE_OK);
    CHECK(outcome == DEODARSIEVE_OUTCOME_NO_TESTS_RUN);
}

/* ---- Counters ---- */

/* The bytes of the counters. They are the first members, and each is a size_t. */
#define COUNTERS_SIZE offsetof(deodarsieve_run_stats, cancel_reason)

/* Counters that all differ. */
static deodarsieve_run_stats different_counters(void)
{
    deodarsieve_run_stats stats = DEODARSIEVE_RUN_STATS_INIT;
    size_t counters[COUNTERS_SIZE / sizeof(size_t)];
    size_t i;

    for (i = 0; i < sizeof counters / sizeof counters[0]; i++)
        counters[i] = 101 + i;
    memcpy(&stats, counters, sizeof counters);
    stats.initial_run_count = 1001;
    stats.setup_scripts_initial_count = 1003;
    stats.cancel_reason = DEODARSIEVE_REASON_SIGNAL;
    return stats;
}

static bool are_same(const deodarsieve_run_stats *one, const deodarsieve_run_stats *other)
{
    return memcmp(one, other, COUNTERS_SIZE) == 0 && one->cancel_reason == other->cancel_reason;
}

/* Counters that all differ, after those of a unit are added. */
static deodarsieve_run_stats different_counters_with(const deodarsieve_run_stats *unit)
{
    deodarsieve_run_stats stats = different_counters();
    size_t counters[COUNTERS_SIZE / sizeof(size_t)], more[COUNTERS_SIZE / sizeof(size_t)];
    size_t i;

    memcpy(counters, &stats, sizeof counters);
    memcpy(more, unit, sizeof more);
    for (i = 0; i < sizeof counters / sizeof counters[0]; i++)
        counters[i] += more[i];
    memcpy(&stats, counters, sizeof counters);
    return stats;
}

static deodarsieve_test_view view_of(uint32_t kind, size_t attempts, bool is_slow, uint32_t flaky)
{
    deodarsieve_test_view test = {{0, 9}, 0, false, 0};

    test.result.kind = kind;
    test.attempts = attempts;
    test.is_slow = is_slow;
    test.flaky_result = flaky;
    return test;
}

/* Tests, and the counters that nextest's own code raises for each. tools/calls-from-outside writes the rows, from
   the data of the replay. */
static const struct {
    deodarsieve_test_view test;
    deodarsieve_run_stats raised;
} counted_tests[] = {
#include "counted_tests.h"
};

/* Counts one test, and compares the counters that this raises. */
static void expect_test(const deodarsieve_test_view *test, const deodarsieve_run_stats *raised)
{
    deodarsieve_run_stats stats = different_counters();
    const deodarsieve_run_stats expected = different_counters_with(raised);

    CHECK(deodarsieve_run_stats_count_test(&stats, test) == DEODARSIEVE_OK);
    CHECK(are_same(&stats, &expected));
}

/* A test with no attempt counts as one with one attempt, and a test with three as one with two. */
static void test_run_stats_count_test(void)
{
    deodarsieve_test_view test;
    size_t i;

    for (i = 0; i < sizeof counted_tests / sizeof *counted_tests; i++) {
        test = counted_tests[i].test;
        expect_test(&test, &counted_tests[i].raised);
        test.attempts = test.attempts == 1 ? 0 : 3;
        expect_test(&test, &counted_tests[i].raised);
    }
}

/* Counts one test whose status is not OK: nothing changes. */
static void expect_refusal(deodarsieve_run_stats stats, deodarsieve_test_view test, uint32_t status)
{
    const deodarsieve_run_stats before = stats;

    CHECK(deodarsieve_run_stats_count_test(&stats, &test) == status);
    CHECK(are_same(&stats, &before));
}

static void test_refused_tests(void)
{
    const deodarsieve_test_view good = view_of(DEODARSIEVE_RESULT_PASS, 1, false, 0);
    deodarsieve_run_stats stats = different_counters();

    expect_refusal(stats, view_of(10, 1, false, 0), DEODARSIEVE_BAD_CODE);
    expect_refusal(stats, view_of(UINT32_MAX, 1, false, 0), DEODARSIEVE_BAD_CODE);
    expect_refusal(stats, view_of(0, 1, false, 2), DEODARSIEVE_BAD_CODE);
    stats.cancel_reason = 1001;
    expect_refusal(stats, good, DEODARSIEVE_BAD_CODE);
    stats.passed = SIZE_MAX;
    expect_refusal(stats, good, DEODARSIEVE_BAD_CODE);
    stats.cancel_reason = DEODARSIEVE_REASON_SECOND_SIGNAL;
    expect_refusal(stats, good, DEODARSIEVE_COUNTER_FULL);
    stats.passed = 0;
    stats.finished_count = SIZE_MAX;
    expect_refusal(stats, good, DEODARSIEVE_COUNTER_FULL);
    stats.finished_count = SIZE_MAX - 1;
    stats.failed = SIZE_MAX;
    CHECK(deodarsieve_run_stats_count_test(&stats, &good) == DEODARSIEVE_OK);
    CHECK(stats.finished_count == SIZE_MAX && stats.passed == 1 && stats.failed == SIZE_MAX);
}

/* Results of setup scripts, and the counters that nextest's own code raises for each. tools/calls-from-outside writes
   these rows, too. */
static const struct {
    deodarsieve_result script;
    deodarsieve_run_stats raised;
} counted_scripts[] = {
#include "counted_scripts.h"
};

static void test_run_stats_count_script(void)
{
    size_t i;

    for (i = 0; i < sizeof counted_scripts / sizeof *counted_scripts; i++) {
        deodarsieve_run_stats stats = different_counters();
        const deodarsieve_run_stats expected = different_counters_with(&counted_scripts[i].raised);

        CHECK(deodarsieve_run_stats_count_script(&stats, &counted_scripts[i].script) == DEODARSIEVE_OK);
        CHECK(are_same(&stats, &expected));
    }
}

static void test_refused_scripts(void)
{
    const deodarsieve_result good = {DEODARSIEVE_RESULT_TIMEOUT_FAIL, 0}, bad = {11, 0};
    deodarsieve_run_stats stats = different_counters(), before;

    stats.setup_scripts_timed_out = SIZE_MAX;
    before = stats;
    CHECK(deodarsieve_run_stats_count_script(&stats, &bad) == DEODARSIEVE_BAD_CODE);
    CHECK(deodarsieve_run_stats_count_script(&stats, &good) == DEODARSIEVE_COUNTER_FULL);
    CHECK(are_same(&stats, &before));
}

static void test_run_stats_failed_counts(void)
{
    deodarsieve_run_stats stats = different_counters();
    const size_t other_tests = stats.failed_timed_out + stats.exec_failed;
    const size_t tests = stats.failed + other_tests;
    const size_t scripts = stats.setup_scripts_failed + stats.setup_scripts_exec_failed +
                           stats.setup_scripts_timed_out;
    deodarsieve_failed_counts answer = {77, 78};

    CHECK(deodarsieve_run_stats_failed_counts(&stats, &answer) == DEODARSIEVE_OK);
    CHECK(answer.tests == tests && answer.setup_scripts == scripts);
    stats.setup_scripts_failed = SIZE_MAX;
    CHECK(deodarsieve_run_stats_failed_counts(&stats, &answer) == DEODARSIEVE_COUNTER_FULL);
    stats.cancel_reason = 1002;
    CHECK(deodarsieve_run_stats_failed_counts(&stats, &answer) == DEODARSIEVE_BAD_CODE);
    CHECK(answer.tests == tests && answer.setup_scripts == scripts);
    stats = different_counters();
    stats.failed = SIZE_MAX - other_tests;
    CHECK(deodarsieve_run_stats_failed_counts(&stats, &answer) == DEODARSIEVE_OK);
    CHECK(answer.tests == SIZE_MAX);
    stats.failed++;
    CHECK(deodarsieve_run_stats_failed_counts(&stats, &answer) == DEODARSIEVE_COUNTER_FULL);
    CHECK(answer.tests == SIZE_MAX);
}

static void test_run_stats_has_failures(void)
{
    deodarsieve_run_stats stats = DEODARSIEVE_RUN_STATS_INIT;
    size_t *const failures_of[] = {&stats.failed,
                                   &stats.exec_failed,
                                   &stats.failed_timed_out,
                                   &stats.setup_scripts_failed,
                                   &stats.setup_scripts_exec_failed,
                                   &stats.setup_scripts_timed_out};
    bool answer = true;
    size_t i;

    stats.passed = stats.flaky = stats.leaky = stats.skipped = 5;
    CHECK(deodarsieve_run_stats_has_failures(&stats, &answer) == DEODARSIEVE_OK && !answer);
    for (i = 0; i < sizeof failures_of / sizeof *failures_of; i++) {
        *failures_of[i] = SIZE_MAX;
        answer = false;
        CHECK(deodarsieve_run_stats_has_failures(&stats, &answer) == DEODARSIEVE_OK && answer);
        *failures_of[i] = 0;
    }
    stats.cancel_reason = 1003;
    CHECK(deodarsieve_run_stats_has_failures(&stats, &answer) == DEODARSIEVE_BAD_CODE && answer);
}

/* ---- Outcomes ---- */

static bool is_summary(const deodarsieve_final_stats *stats, deodarsieve_final_stats expected)
{
    return stats->kind == expected.kind && stats->reason == expected.reason &&
           stats->step == expected.step && stats->initial_run_count == expected.initial_run_count &&
           stats->not_run == expected.not_run;
}

static void expect_summary(deodarsieve_run_stats stats, deodarsieve_final_stats expected)
{
    deodarsieve_final_stats answer = {77, 77, 77, 77, 77};

    CHECK(deodarsieve_run_stats_summarize(&stats, &answer) == DEODARSIEVE_OK);
    CHECK(is_summary(&answer, expected));
}

static void test_run_stats_summarize(void)
{
    const deodarsieve_final_stats none = {DEODARSIEVE_FINAL_NO_TESTS_RUN, 0, 0, 0, 0};
    const deodarsieve_final_stats success = {DEODARSIEVE_FINAL_SUCCESS, 0, 0, 0, 0};
    const deodarsieve_final_stats cancelled = {
        DEODARSIEVE_FINAL_CANCELLED, DEODARSIEVE_REASON_INTERRUPT, DEODARSIEVE_STEP_TEST, 9, 4};
    const deodarsieve_final_stats failed_test = {DEODARSIEVE_FINAL_FAILED, 0,
                                                 DEODARSIEVE_STEP_TEST, 9, 4};
    const deodarsieve_final_stats failed_script = {DEODARSIEVE_FINAL_FAILED, 0,
                                                   DEODARSIEVE_STEP_SETUP_SCRIPT, 0, 0};
    deodarsieve_run_stats stats = DEODARSIEVE_RUN_STATS_INIT;
    deodarsieve_final_stats answer = success;

    expect_summary(stats, none);
    stats.initial_run_count = 9;
    stats.finished_count = stats.passed = 9;
    expect_summary(stats, success);
    stats.finished_count = stats.passed = 5;
    stats.cancel_reason = DEODARSIEVE_REASON_INTERRUPT;
    expect_summary(stats, cancelled);
    stats.failed = 1;
    stats.passed = 4;
    expect_summary(stats, cancelled);
    stats.cancel_reason = DEODARSIEVE_REASON_TEST_FAILURE;
    expect_summary(stats, failed_test);
    stats.setup_scripts_initial_count = stats.setup_scripts_finished_count = 2;
    stats.setup_scripts_failed = 2;
    expect_summary(stats, failed_script);
    stats.cancel_reason = 1004;
    CHECK(deodarsieve_run_stats_summarize(&stats, &answer) == DEODARSIEVE_BAD_CODE);
    CHECK(is_summary(&answer, success));
}

/* A summary of this kind and step, with other members set. */
static deodarsieve_final_stats summary_of(uint32_t kind, uint32_t step)
{
    deodarsieve_final_stats stats = {0, DEODARSIEVE_REASON_SIGNAL, 0, 8, 3};

    stats.kind = kind;
    stats.step = step;
    return stats;
}

static void test_final_stats_summarize_stress(void)
{
    deodarsieve_final_stats last = summary_of(DEODARSIEVE_FINAL_NO_TESTS_RUN, 0);
    uint32_t kind, answer;

    for (kind = 0; kind < 4; kind++) {
        /* A last sub-run that failed, and was not counted as failed, leaves a success. */
        const uint32_t expected = kind == DEODARSIEVE_FINAL_FAILED ? DEODARSIEVE_FINAL_SUCCESS : kind;

        last.kind = kind;
        answer = 77;
        CHECK(deodarsieve_final_stats_summarize_stress(&last, 0, &answer) == DEODARSIEVE_OK);
        CHECK(answer == expected);
        CHECK(deodarsieve_final_stats_summarize_stress(&last, 1, &answer) == DEODARSIEVE_OK);
        CHECK(answer == DEODARSIEVE_FINAL_FAILED);
    }
    last.kind = 4;
    answer = 77;
    CHECK(deodarsieve_final_stats_summarize_stress(&last, 1, &answer) == DEODARSIEVE_BAD_CODE);
    last = summary_of(DEODARSIEVE_FINAL_CANCELLED, 2);
    CHECK(deodarsieve_final_stats_summarize_stress(&last, 1, &answer) == DEODARSIEVE_BAD_CODE);
    CHECK(answer == 77);
}

static void test_outcome_of_sub_runs(void)
{
    const deodarsieve_final_stats runs[] = {
        summary_of(DEODARSIEVE_FINAL_NO_TESTS_RUN, 9),
        summary_of(DEODARSIEVE_FINAL_SUCCESS, 9),
        summary_of(DEODARSIEVE_FINAL_CANCELLED, DEODARSIEVE_STEP_TEST),
        summary_of(DEODARSIEVE_FINAL_CANCELLED, DEODARSIEVE_STEP_SETUP_SCRIPT),
        summary_of(DEODARSIEVE_FINAL_FAILED, DEODARSIEVE_STEP_TEST),
        summary_of(DEODARSIEVE_FINAL_FAILED, DEODARSIEVE_STEP_SETUP_SCRIPT),
        summary_of(DEODARSIEVE_FINAL_SUCCESS, 9),
        summary_of(DEODARSIEVE_FINAL_FAILED, 2),
    };
    uint32_t answer = 77;
    uint32_t code;

    for (code = 0; code < 6; code++) {
        CHECK(deodarsieve_outcome_of_sub_runs(&runs[code], 1, &answer) == DEODARSIEVE_OK);
        CHECK(answer == code);
        CHECK(deodarsieve_outcome_of_sub_runs(runs, code + 1, &answer) == DEODARSIEVE_OK);
        CHECK(answer == code);
    }
    CHECK(deodarsieve_outcome_of_sub_runs(&runs[3], 4, &answer) == DEODARSIEVE_OK);
    CHECK(answer == DEODARSIEVE_OUTCOME_FAILED_AT_SETUP_SCRIPTS);
    answer = 77;
    CHECK(deodarsieve_outcome_of_sub_runs(runs, 8, &answer) == DEODARSIEVE_BAD_CODE);
    CHECK(answer == 77);
}

static void test_outcome_combine(void)
{
    uint32_t one, other, answer;

    for (one = 0; one < 6; one++) {
        for (other = 0; other < 6; other++) {
            answer = 77;
            CHECK(deodarsieve_outcome_combine(one, other, &answer) == DEODARSIEVE_OK);
            CHECK(answer == (one < other ? other : one));
        }
        answer = 77;
        CHECK(deodarsieve_outcome_combine(one, 6, &answer) == DEODARSIEVE_BAD_CODE);
        CHECK(deodarsieve_outcome_combine(UINT32_MAX, one, &answer) == DEODARSIEVE_BAD_CODE);
        CHECK(answer == 77);
    }
}

/* ---- Levels and display ---- */

static void expect_levels(deodarsieve_test_view test, uint32_t level, uint32_t final_level)
{
    uint32_t answer = 77;

    CHECK(deodarsieve_test_view_status_level(&test, &answer) == DEODARSIEVE_OK);
    CHECK(answer == level);
    answer = 77;
    CHECK(deodarsieve_test_view_final_status_level(&test, &answer) == DEODARSIEVE_OK);
    CHECK(answer == final_level);
}

static void test_levels(void)
{
    const deodarsieve_test_view bad = view_of(DEODARSIEVE_RESULT_PASS, 1, false, 2);
    uint32_t answer = 77;

    expect_levels(view_of(DEODARSIEVE_RESULT_PASS, 1, false, 0), DEODARSIEVE_STATUS_LEVEL_PASS,
                  DEODARSIEVE_FINAL_STATUS_LEVEL_PASS);
    expect_levels(view_of(DEODARSIEVE_RESULT_PASS, 1, true, 0), DEODARSIEVE_STATUS_LEVEL_PASS,
                  DEODARSIEVE_FINAL_STATUS_LEVEL_SLOW);
    expect_levels(view_of(DEODARSIEVE_RESULT_LEAK_PASS, 1, false, 0), DEODARSIEVE_STATUS_LEVEL_LEAK,
                  DEODARSIEVE_FINAL_STATUS_LEVEL_LEAK);
    expect_levels(view_of(DEODARSIEVE_RESULT_TIMEOUT_PASS, 0, false, 0),
                  DEODARSIEVE_STATUS_LEVEL_SLOW, DEODARSIEVE_FINAL_STATUS_LEVEL_SLOW);
    expect_levels(view_of(DEODARSIEVE_RESULT_PASS, 2, true, DEODARSIEVE_FLAKY_PASS),
                  DEODARSIEVE_STATUS_LEVEL_RETRY, DEODARSIEVE_FINAL_STATUS_LEVEL_FLAKY);
    expect_levels(view_of(DEODARSIEVE_RESULT_PASS, 2, true, DEODARSIEVE_FLAKY_FAIL),
                  DEODARSIEVE_STATUS_LEVEL_FAIL, DEODARSIEVE_FINAL_STATUS_LEVEL_FAIL);
    expect_levels(view_of(DEODARSIEVE_RESULT_EXEC_FAIL, 2, false, 0), DEODARSIEVE_STATUS_LEVEL_FAIL,
                  DEODARSIEVE_FINAL_STATUS_LEVEL_FAIL);
    CHECK(deodarsieve_test_view_status_level(&bad, &answer) == DEODARSIEVE_BAD_CODE);
    CHECK(deodarsieve_test_view_final_status_level(&bad, &answer) == DEODARSIEVE_BAD_CODE);
    CHECK(answer == 77);
}

/* A test that failed by SIGTERM, which a reporter at these levels writes, displays and stores. */
static deodarsieve_finished_test finished_test(void)
{
    deodarsieve_finished_test test;

    test.status_level = DEODARSIEVE_STATUS_LEVEL_PASS;
    test.final_status_level = DEODARSIEVE_FINAL_STATUS_LEVEL_FLAKY;
    test.display = DEODARSIEVE_DISPLAY_IMMEDIATE_FINAL;
    test.cancel_reason = DEODARSIEVE_REASON_NONE;
    test.test_status_level = DEODARSIEVE_STATUS_LEVEL_FAIL;
    test.test_final_status_level = DEODARSIEVE_FINAL_STATUS_LEVEL_FAIL;
    test.result.kind = DEODARSIEVE_RESULT_UNIX_SIGNAL;
    test.result.number = 15;
    return test;
}

static void expect_output(deodarsieve_finished_test test, bool line, bool shown, uint32_t stored)
{
    deodarsieve_output_on_test_finished answer = {!line, !shown, 77};

    CHECK(deodarsieve_finished_test_compute_output(&test, &answer) == DEODARSIEVE_OK);
    CHECK(answer.write_status_line == line && answer.show_immediate == shown);
    CHECK(answer.store_final == stored);
}

static void test_displays(void)
{
    deodarsieve_finished_test test = finished_test();

    expect_output(test, true, true, DEODARSIEVE_STORE_WITH_OUTPUT);
    test.display = DEODARSIEVE_DISPLAY_IMMEDIATE;
    expect_output(test, true, true, DEODARSIEVE_STORE_TEST);
    test.display = DEODARSIEVE_DISPLAY_FINAL;
    expect_output(test, true, false, DEODARSIEVE_STORE_WITH_OUTPUT);
    test.display = DEODARSIEVE_DISPLAY_NEVER;
    expect_output(test, true, false, DEODARSIEVE_STORE_TEST);
    test.test_final_status_level = DEODARSIEVE_FINAL_STATUS_LEVEL_SLOW;
    expect_output(test, true, false, DEODARSIEVE_STORE_NO);
    test.test_status_level = DEODARSIEVE_STATUS_LEVEL_SKIP;
    expect_output(test, false, false, DEODARSIEVE_STORE_NO);
}

static void test_displays_of_a_cancelled_run(void)
{
    deodarsieve_finished_test test = finished_test();

    test.cancel_reason = DEODARSIEVE_REASON_TEST_FAILURE_IMMEDIATE;
    expect_output(test, true, false, DEODARSIEVE_STORE_NO);
    test.result.number = 9;
    expect_output(test, true, true, DEODARSIEVE_STORE_WITH_OUTPUT);
    test.cancel_reason = DEODARSIEVE_REASON_SIGNAL;
    expect_output(test, true, true, DEODARSIEVE_STORE_TEST);
    test.cancel_reason = DEODARSIEVE_REASON_INTERRUPT;
    expect_output(test, true, false, DEODARSIEVE_STORE_NO);
    test.cancel_reason = DEODARSIEVE_REASON_SECOND_SIGNAL;
    expect_output(test, true, false, DEODARSIEVE_STORE_NO);
}

/* Each code of a finished test, one above those that its table has. */
static void test_codes_of_a_finished_test(void)
{
    static const uint32_t counts[] = {8, 8, 4, 10, 8, 8, 10};
    deodarsieve_output_on_test_finished answer = {true, false, 77};
    size_t i;

    for (i = 0; i < sizeof counts / sizeof *counts; i++) {
        deodarsieve_finished_test test = finished_test();
        uint32_t *const codes[] = {&test.status_level,
                                   &test.final_status_level,
                                   &test.display,
                                   &test.cancel_reason,
                                   &test.test_status_level,
                                   &test.test_final_status_level,
                                   &test.result.kind};

        *codes[i] = counts[i];
        CHECK(deodarsieve_finished_test_compute_output(&test, &answer) == DEODARSIEVE_BAD_CODE);
        CHECK(answer.write_status_line && !answer.show_immediate && answer.store_final == 77);
    }
}

static void test_results(void)
{
    static const bool succeeds[] = {true, true, false, false, false, false, false, false, true, false};
    deodarsieve_result result = {0, 15};
    bool answer = false;

    for (result.kind = 0; result.kind < 10; result.kind++) {
        const bool is_termination = result.kind == DEODARSIEVE_RESULT_UNIX_SIGNAL ||
                                    result.kind == DEODARSIEVE_RESULT_WINDOWS_JOB_OBJECT;

        CHECK(deodarsieve_result_is_success(&result, &answer) == DEODARSIEVE_OK);
        CHECK(answer == succeeds[result.kind]);
        CHECK(deodarsieve_result_is_termination_failure(&result, &answer) == DEODARSIEVE_OK);
        CHECK(answer == is_termination);
    }
    answer = true;
    CHECK(deodarsieve_result_is_success(&result, &answer) == DEODARSIEVE_BAD_CODE && answer);
    CHECK(deodarsieve_result_is_termination_failure(&result, &answer) == DEODARSIEVE_BAD_CODE &&
          answer);
    result.kind = DEODARSIEVE_RESULT_UNIX_SIGNAL;
    result.number = 9;
    CHECK(deodarsieve_result_is_termination_failure(&result, &answer) == DEODARSIEVE_OK && !answer);
}

/* ---- Repeated runs ---- */

static const deodarsieve_stress_progress progress = {
    DEODARSIEVE_STRESS_COUNT, 10, 3, {7, 250000000}, {2, 500000000}};

static void expect_remaining(deodarsieve_stress_progress run, deodarsieve_stress_remaining expected)
{
    deodarsieve_stress_remaining answer = {77, 77, {77, 77}};

    CHECK(deodarsieve_stress_progress_remaining(&run, &answer) == DEODARSIEVE_OK);
    CHECK(answer.kind == expected.kind && answer.count == expected.count);
    CHECK(answer.time.seconds == expected.time.seconds);
    CHECK(answer.time.nanoseconds == expected.time.nanoseconds);
}

static void test_stress_progress_remaining(void)
{
    const deodarsieve_stress_remaining sub_runs = {DEODARSIEVE_STRESS_COUNT, 7, {0, 0}};
    const deodarsieve_stress_remaining endless = {DEODARSIEVE_STRESS_INFINITE, 0, {0, 0}};
    const deodarsieve_stress_remaining time = {DEODARSIEVE_STRESS_TIME, 0, {4, 750000000}};
    const deodarsieve_stress_remaining nothing = {DEODARSIEVE_STRESS_NOTHING, 0, {0, 0}};
    deodarsieve_stress_progress run = progress;

    expect_remaining(run, sub_runs);
    run.completed = 10;
    expect_remaining(run, nothing);
    run.kind = DEODARSIEVE_STRESS_INFINITE;
    expect_remaining(run, endless);
    run.kind = DEODARSIEVE_STRESS_TIME;
    expect_remaining(run, time);
    run.elapsed.seconds = 8;
    expect_remaining(run, nothing);
}

static void expect_no_remaining(deodarsieve_stress_progress run)
{
    deodarsieve_stress_remaining answer = {77, 78, {79, 80}};

    CHECK(deodarsieve_stress_progress_remaining(&run, &answer) == DEODARSIEVE_BAD_CODE);
    CHECK(answer.kind == 77 && answer.count == 78);
    CHECK(answer.time.seconds == 79 && answer.time.nanoseconds == 80);
}

static void test_refused_progress(void)
{
    deodarsieve_stress_progress run = progress;
    deodarsieve_stress_remaining answer;

    run.kind = DEODARSIEVE_STRESS_NOTHING;
    expect_no_remaining(run);
    run = progress;
    run.total_count = 0;
    expect_no_remaining(run);
    run.kind = DEODARSIEVE_STRESS_INFINITE;
    CHECK(deodarsieve_stress_progress_remaining(&run, &answer) == DEODARSIEVE_OK);
    run.elapsed.nanoseconds = 1000000000;
    expect_no_remaining(run);
    run = progress;
    run.total.nanoseconds = 1000000000;
    CHECK(deodarsieve_stress_progress_remaining(&run, &answer) == DEODARSIEVE_OK);
    run.kind = DEODARSIEVE_STRESS_TIME;
    expect_no_remaining(run);
}

int main(void)
{
    test_version();
    test_slice_extract();
    test_streams_that_were_not_captured();
    test_slice_extract_capped();
    test_reads();
    test_head_find_last();
    test_null_with_length_0();
    test_run_stats_count_test();
    test_refused_tests();
    test_run_stats_count_script();
    test_refused_scripts();
    test_run_stats_failed_counts();
    test_run_stats_has_failures();
    test_run_stats_summarize();
    test_final_stats_summarize_stress();
    test_outcome_of_sub_runs();
    test_outcome_combine();
    test_levels();
    test_displays();
    test_displays_of_a_cancelled_run();
    test_codes_of_a_finished_test();
    test_results();
    test_stress_progress_remaining();
    test_refused_progress();
    return failures != 0;
}
