/*
 * Counts the tests of a run, decides its outcome, and finds the part of a failed test's output that
 * explains the failure.
 *
 * Two libraries have these functions. Rattle builds libdeodarsieve.a from proved sources, for Linux on
 * x86-64. Cargo builds libdeodarsieve_c.a and libdeodarsieve_c.so from the same sources without their
 * contracts. In libdeodarsieve.a each function has a proved contract. The comments of this header say
 * in words what the contracts say. Tests compare the header with the sources, and the libraries that
 * cargo builds with libdeodarsieve.a.
 *
 * Every function except deodarsieve_version and deodarsieve_layouts_1
 *
 * - returns a status, and writes its result through its last parameter, `answer`. The two functions
 *   that count change `stats` instead. With any status except DEODARSIEVE_OK, nothing is written;
 * - allocates no memory and keeps no state. Any thread may call it at any time.
 *
 * The caller must make sure of these preconditions, which no function checks:
 *
 * - A pointer to a struct, to a bool or to a number is aligned, and points to memory for all of it.
 * - Every member of a struct that a function reads is initialized, even if it is ignored. Every bool
 *   is true or false.
 * - `out` points to `out_length` bytes, `err` to `err_length` bytes, `bytes` to `length` bytes, and
 *   `sub_runs` to `length` structs. Each of these arrays has at most PTRDIFF_MAX bytes. Such a
 *   pointer may be null if its length is 0. No other pointer is null.
 * - What `answer` points to overlaps no other argument, and `stats` of a function that counts overlaps
 *   no other argument. While a function runs, no other thread writes the memory of its arguments, and
 *   none reads the memory that it writes. Two threads may read the same bytes at once.
 *
 * Lengths, offsets and limits are in bytes. An enumeration is a uint32_t. The constants of an
 * enumeration share a prefix, such as DEODARSIEVE_RESULT_, and are called its table. Any number may be
 * passed as a code: if it is not in the table and not ignored, the function returns
 * DEODARSIEVE_BAD_CODE.
 */
#ifndef DEODARSIEVE_H
#define DEODARSIEVE_H

#include <stdbool.h>
#include <stddef.h>
#include <stdint.h>

#ifdef __cplusplus
extern "C" {
#endif

/* ---- Versions ---- */

/* The version of this header. */
#define DEODARSIEVE_VERSION_MAJOR 0u
#define DEODARSIEVE_VERSION_MINOR 1u
#define DEODARSIEVE_VERSION_PATCH 0u
#define DEODARSIEVE_VERSION                                                                        \
    (DEODARSIEVE_VERSION_MAJOR * 1000000u + DEODARSIEVE_VERSION_MINOR * 1000u +                    \
     DEODARSIEVE_VERSION_PATCH)

/* Returns the version of the linked library, in the form of DEODARSIEVE_VERSION. */
uint32_t deodarsieve_version(void);

/*
 * Does nothing. The number in its name is raised when the layout of a struct or the signature of a
 * function changes. With GCC, Clang and compatible compilers, every file that includes this header
 * refers to it. So a program does not link with a library that has other layouts.
 */
void deodarsieve_layouts_1(void);

#if defined(__GNUC__)
#if defined(__ELF__) && defined(__has_attribute)
#if __has_attribute(retain)
/* Without this, a linker that drops unused sections would drop the reference. */
__attribute__((retain))
#endif
#endif
__attribute__((used)) static void (*const deodarsieve_layouts)(void) = deodarsieve_layouts_1;
#endif

/* ---- Codes ---- */

/* The status that a function returns. */
#define DEODARSIEVE_OK 0u
#define DEODARSIEVE_BAD_CODE 1u     /* a code is not in its table, or a number is not allowed: see the function */
#define DEODARSIEVE_COUNTER_FULL 2u /* a counter, or a sum of counters, does not fit size_t */

/* The kind of a slice. */
#define DEODARSIEVE_SLICE_NONE 0u          /* nothing was found */
#define DEODARSIEVE_SLICE_PANIC_MESSAGE 1u /* a panic message in standard error */
#define DEODARSIEVE_SLICE_ERROR_STR 2u     /* `Error: ..` and what follows, in standard error */
#define DEODARSIEVE_SLICE_SHOULD_PANIC 3u  /* the note that a test did not panic, in standard output */

/* The result of an attempt or of a setup script. */
#define DEODARSIEVE_RESULT_PASS 0u
#define DEODARSIEVE_RESULT_LEAK_PASS 1u          /* passed and left a handle open; counts as passed */
#define DEODARSIEVE_RESULT_LEAK_FAIL 2u          /* passed and left a handle open; counts as failed */
#define DEODARSIEVE_RESULT_EXIT_CODE 3u          /* failed; the number is the exit code */
#define DEODARSIEVE_RESULT_UNIX_SIGNAL 4u        /* failed; the number is that of the signal */
#define DEODARSIEVE_RESULT_WINDOWS_NT_STATUS 5u  /* failed; the number is the NTSTATUS code */
#define DEODARSIEVE_RESULT_WINDOWS_JOB_OBJECT 6u /* failed: its job object was terminated */
#define DEODARSIEVE_RESULT_EXEC_FAIL 7u          /* could not be executed */
#define DEODARSIEVE_RESULT_TIMEOUT_PASS 8u       /* timed out; counts as passed for a test */
#define DEODARSIEVE_RESULT_TIMEOUT_FAIL 9u       /* timed out; counts as failed */

/* How a flaky test counts. A test is flaky if it had more than one attempt and the last one succeeded. */
#define DEODARSIEVE_FLAKY_PASS 0u
#define DEODARSIEVE_FLAKY_FAIL 1u

/* Why a run is cancelled. */
#define DEODARSIEVE_REASON_NONE 0u /* it is not cancelled */
#define DEODARSIEVE_REASON_SETUP_SCRIPT_FAILURE 1u
#define DEODARSIEVE_REASON_TEST_FAILURE 2u
#define DEODARSIEVE_REASON_REPORT_ERROR 3u
#define DEODARSIEVE_REASON_OUTPUT_LIMIT 4u
#define DEODARSIEVE_REASON_TEST_FAILURE_IMMEDIATE 5u
#define DEODARSIEVE_REASON_GLOBAL_TIMEOUT 6u
#define DEODARSIEVE_REASON_SIGNAL 7u
#define DEODARSIEVE_REASON_INTERRUPT 8u
#define DEODARSIEVE_REASON_SECOND_SIGNAL 9u

/* The status level of a test that finishes, the most urgent first. NONE and ALL are settings. */
#define DEODARSIEVE_STATUS_LEVEL_NONE 0u
#define DEODARSIEVE_STATUS_LEVEL_FAIL 1u
#define DEODARSIEVE_STATUS_LEVEL_RETRY 2u
#define DEODARSIEVE_STATUS_LEVEL_SLOW 3u
#define DEODARSIEVE_STATUS_LEVEL_LEAK 4u
#define DEODARSIEVE_STATUS_LEVEL_PASS 5u
#define DEODARSIEVE_STATUS_LEVEL_SKIP 6u
#define DEODARSIEVE_STATUS_LEVEL_ALL 7u

/* The status level of a test at the end of the run, in the same way. */
#define DEODARSIEVE_FINAL_STATUS_LEVEL_NONE 0u
#define DEODARSIEVE_FINAL_STATUS_LEVEL_FAIL 1u
#define DEODARSIEVE_FINAL_STATUS_LEVEL_FLAKY 2u
#define DEODARSIEVE_FINAL_STATUS_LEVEL_SLOW 3u
#define DEODARSIEVE_FINAL_STATUS_LEVEL_SKIP 4u
#define DEODARSIEVE_FINAL_STATUS_LEVEL_LEAK 5u
#define DEODARSIEVE_FINAL_STATUS_LEVEL_PASS 6u
#define DEODARSIEVE_FINAL_STATUS_LEVEL_ALL 7u

/* When the captured output of a test is displayed. */
#define DEODARSIEVE_DISPLAY_IMMEDIATE 0u       /* as soon as the test finishes */
#define DEODARSIEVE_DISPLAY_IMMEDIATE_FINAL 1u /* then, and again at the end of the run */
#define DEODARSIEVE_DISPLAY_FINAL 2u           /* at the end of the run */
#define DEODARSIEVE_DISPLAY_NEVER 3u

/* What a reporter stores of a finished test for the end of the run. */
#define DEODARSIEVE_STORE_NO 0u          /* nothing: the test is not listed there */
#define DEODARSIEVE_STORE_TEST 1u        /* the test is listed, without its output */
#define DEODARSIEVE_STORE_WITH_OUTPUT 2u /* the test is listed, with its output */

/* The kind of a run's summary. */
#define DEODARSIEVE_FINAL_NO_TESTS_RUN 0u
#define DEODARSIEVE_FINAL_SUCCESS 1u
#define DEODARSIEVE_FINAL_CANCELLED 2u
#define DEODARSIEVE_FINAL_FAILED 3u

/* The step at which a run failed or was cancelled. */
#define DEODARSIEVE_STEP_TEST 0u
#define DEODARSIEVE_STEP_SETUP_SCRIPT 1u

/* The outcome of a run. The outcome of several runs is the highest of theirs. */
#define DEODARSIEVE_OUTCOME_NO_TESTS_RUN 0u
#define DEODARSIEVE_OUTCOME_SUCCESS 1u
#define DEODARSIEVE_OUTCOME_CANCELLED_AT_TESTS 2u
#define DEODARSIEVE_OUTCOME_CANCELLED_AT_SETUP_SCRIPTS 3u
#define DEODARSIEVE_OUTCOME_FAILED_AT_TESTS 4u
#define DEODARSIEVE_OUTCOME_FAILED_AT_SETUP_SCRIPTS 5u

/* The kind of a repeated run, or of what remains of it. */
#define DEODARSIEVE_STRESS_COUNT 0u    /* a number of sub-runs */
#define DEODARSIEVE_STRESS_INFINITE 1u /* until it is cancelled */
#define DEODARSIEVE_STRESS_TIME 2u     /* for a time */
#define DEODARSIEVE_STRESS_NOTHING 3u  /* nothing remains; not allowed in a progress */

/* ---- Output ---- */

/* A part of a captured stream. */
typedef struct deodarsieve_slice {
    uint32_t kind; /* DEODARSIEVE_SLICE_..., which also names the stream */
    size_t start;  /* the offset of the part in its stream; 0 if nothing was found */
    size_t length; /* its length, more than 0; 0 if nothing was found */
} deodarsieve_slice;

/*
 * Finds the part of a test's output that explains its failure. This is the first of these that is
 * present:
 *
 * - standard error from the head of the last panic message in it to the end of standard error, without
 *   the white space there. If the line before the head begins with `Error:`, the part begins at that
 *   line. Empty lines between the two are skipped, and the first line of standard error is not such a
 *   line;
 * - standard error from its first line that begins with `Error: ` to the end of standard error, without
 *   the white space there;
 * - the first line of standard output that has `note: test did not panic as expected`, without its line
 *   end.
 *
 * `out` is standard output and `err` standard error. The bytes of a stream that was not captured are
 * not read. Pass the same bytes twice if both streams were captured as one. The part lies within the
 * captured stream that its kind names. The status is always DEODARSIEVE_OK.
 */
uint32_t deodarsieve_slice_extract(bool is_out_captured, const uint8_t *out, size_t out_length,
                                   bool is_err_captured, const uint8_t *err, size_t err_length,
                                   deodarsieve_slice *answer);

/*
 * Finds the same part, cut to its first `limit` bytes if it is longer. The cut may be inside a
 * character. Returns DEODARSIEVE_BAD_CODE if the limit is 0, and otherwise DEODARSIEVE_OK.
 */
uint32_t deodarsieve_slice_extract_capped(bool is_out_captured, const uint8_t *out,
                                          size_t out_length, bool is_err_captured,
                                          const uint8_t *err, size_t err_length, size_t limit,
                                          deodarsieve_slice *answer);

/*
 * The head of a panic message: `thread '` at the start of a line, a name, `'`, and ` panicked at ` or
 * ` (N) panicked at `. The name is one or more UTF-8 characters other than `'`; line feeds are allowed. N
 * is one or more decimal digits, of Unicode too.
 */
typedef struct deodarsieve_head {
    bool is_found;  /* whether there is a head; if not, start and stop are 0 */
    size_t start;   /* the offset of `thread '` */
    size_t stop;    /* the offset after the last space of ` panicked at ` */
    uint64_t reads; /* how often the search read a byte, or UINT64_MAX if more often */
} deodarsieve_head;

/*
 * Matches heads of panic messages from left to right, each after the end of the one before, and finds
 * the last of these.
 * `reads` is the number of times that the search read a byte: at least `length`, since it reads each
 * byte, and at most 3 * length + 8. The status is always DEODARSIEVE_OK.
 */
uint32_t deodarsieve_head_find_last(const uint8_t *bytes, size_t length, deodarsieve_head *answer);

/* ---- Counters ---- */

/* The result of an attempt or of a setup script. */
typedef struct deodarsieve_result {
    uint32_t kind;  /* DEODARSIEVE_RESULT_... */
    int32_t number; /* the exit code, the signal or the status; ignored for other kinds */
} deodarsieve_result;

/* The part of a finished test that decides its counters and its levels. */
typedef struct deodarsieve_test_view {
    deodarsieve_result result; /* of the last attempt */
    size_t attempts;           /* the number of attempts; 0 counts as 1 */
    bool is_slow;              /* whether the last attempt took longer than the limit for slow tests */
    uint32_t flaky_result;     /* DEODARSIEVE_FLAKY_... */
} deodarsieve_test_view;

/*
 * The counters of a run, and four members that no function of this library changes: set
 * `initial_run_count`, `setup_scripts_initial_count`, `skipped` and `cancel_reason` yourself. If one
 * of the two initial counts is too low, the summary of a run that ended early can be a success.
 *
 * `leaky` also has tests that are in `failed`: flaky tests that count as failed and whose last result
 * is LEAK_PASS.
 */
typedef struct deodarsieve_run_stats {
    size_t initial_run_count;            /* tests that were to run */
    size_t finished_count;               /* tests that finished */
    size_t setup_scripts_initial_count;  /* setup scripts that were to run */
    size_t setup_scripts_finished_count; /* setup scripts that finished */
    size_t setup_scripts_passed;         /* setup scripts that passed, or leaked and count as passed */
    size_t setup_scripts_failed;         /* setup scripts that failed, or leaked and count as failed */
    size_t setup_scripts_exec_failed;    /* setup scripts that could not be executed */
    size_t setup_scripts_timed_out;      /* setup scripts that timed out, even if that counts as passed */
    size_t passed;                       /* tests that succeeded, except flaky tests that count as failed */
    size_t passed_slow;                  /* slow tests among `passed`, except timeouts */
    size_t passed_timed_out;             /* timeouts among `passed` */
    size_t flaky;                        /* flaky tests among `passed` */
    size_t failed;                       /* tests that failed or have LEAK_FAIL, and flaky tests that count as failed */
    size_t failed_slow;                  /* slow tests among `failed` */
    size_t failed_timed_out;             /* tests with TIMEOUT_FAIL, which are not in `failed` */
    size_t leaky;                        /* tests with LEAK_PASS */
    size_t leaky_failed;                 /* tests with LEAK_FAIL, which are in `failed` */
    size_t exec_failed;                  /* tests that could not be executed, which are not in `failed` */
    size_t skipped;                      /* tests that were skipped */
    uint32_t cancel_reason;              /* DEODARSIEVE_REASON_... */
} deodarsieve_run_stats;

/* The counters of a run that has not begun: all are 0, and it is not cancelled. */
#ifdef __cplusplus
#define DEODARSIEVE_RUN_STATS_INIT {}
#else
#define DEODARSIEVE_RUN_STATS_INIT {0}
#endif

/*
 * Counts a finished test: adds 1 to `finished_count`, and to each of the counters from `passed` to
 * `exec_failed` whose comment describes the test. A name such as LEAK_PASS is that of the test's last
 * result. Returns DEODARSIEVE_BAD_CODE if a code in `stats` or `test` is not in its table, even the
 * `flaky_result` of a test that is not flaky. Otherwise returns DEODARSIEVE_COUNTER_FULL if one of the
 * counters to raise is SIZE_MAX.
 */
uint32_t deodarsieve_run_stats_count_test(deodarsieve_run_stats *stats,
                                          const deodarsieve_test_view *test);

/*
 * Counts a finished setup script in the same way, in `setup_scripts_finished_count` and in the
 * counter of its result. The statuses are the same.
 */
uint32_t deodarsieve_run_stats_count_script(deodarsieve_run_stats *stats,
                                            const deodarsieve_result *script);

/* The numbers of tests and of setup scripts that did not pass. */
typedef struct deodarsieve_failed_counts {
    size_t tests;         /* failed + exec_failed + failed_timed_out */
    size_t setup_scripts; /* setup_scripts_failed + .._exec_failed + .._timed_out */
} deodarsieve_failed_counts;

/*
 * Adds up the tests that did not pass, and the setup scripts that did not pass. Returns
 * DEODARSIEVE_BAD_CODE if the code of the cancel reason is not in its table, and otherwise
 * DEODARSIEVE_COUNTER_FULL if one of the two sums does not fit size_t.
 */
uint32_t deodarsieve_run_stats_failed_counts(const deodarsieve_run_stats *stats,
                                             deodarsieve_failed_counts *answer);

/*
 * Writes true if any test or setup script did not pass. The six failure counters are compared with 0
 * one by one, so no sum can overflow. Returns DEODARSIEVE_BAD_CODE if the code of the cancel reason is
 * not in its table.
 */
uint32_t deodarsieve_run_stats_has_failures(const deodarsieve_run_stats *stats, bool *answer);

/* ---- Outcomes ---- */

/*
 * The summary of a finished run. A member whose comment does not name the kind or the step is 0 when it
 * is written, and ignored when it is read.
 */
typedef struct deodarsieve_final_stats {
    uint32_t kind;            /* DEODARSIEVE_FINAL_... */
    uint32_t reason;          /* DEODARSIEVE_REASON_..., of a cancelled run */
    uint32_t step;            /* DEODARSIEVE_STEP_..., of a cancelled or failed run */
    size_t initial_run_count; /* at the step of the tests, how many tests were to run */
    size_t not_run;           /* at the step of the tests, how many of them did not finish */
} deodarsieve_final_stats;

/*
 * Decides the summary of a finished run from its counters, for any values of them. The first line that
 * applies decides:
 *
 * - A setup script did not pass: failed at the step of the setup scripts.
 * - Not all setup scripts finished: cancelled at the step of the setup scripts.
 * - A test did not pass: failed at the step of the tests.
 * - Not all tests finished: cancelled at the step of the tests.
 * - No test finished: no tests run.
 * - None of these: success.
 *
 * If the cancel reason is not one of NONE, SETUP_SCRIPT_FAILURE, TEST_FAILURE and
 * TEST_FAILURE_IMMEDIATE, the run is cancelled instead of failed, at the same step.
 *
 * Returns DEODARSIEVE_BAD_CODE if the code of the cancel reason is not in its table.
 */
uint32_t deodarsieve_run_stats_summarize(const deodarsieve_run_stats *stats,
                                         deodarsieve_final_stats *answer);

/*
 * Sums up a repeated run, from the summary of its last sub-run and the number of its sub-runs that
 * were counted as failed. Writes a DEODARSIEVE_FINAL_...:
 *
 * - FAILED if that number is not 0;
 * - otherwise CANCELLED or NO_TESTS_RUN if that is the kind of the last summary;
 * - otherwise SUCCESS, even if the kind of the last summary is FAILED.
 *
 * Returns DEODARSIEVE_BAD_CODE if a code is not in its table.
 */
uint32_t deodarsieve_final_stats_summarize_stress(const deodarsieve_final_stats *last,
                                                  uint32_t failed_count, uint32_t *answer);

/*
 * Finds the outcome of a run from the summaries of all its sub-runs. Writes the highest of their
 * outcomes, a DEODARSIEVE_OUTCOME_..., or DEODARSIEVE_OUTCOME_NO_TESTS_RUN if there is no sub-run.
 * Pass one summary for the outcome of one run. Returns DEODARSIEVE_BAD_CODE if a code in any of the
 * summaries is not in its table.
 */
uint32_t deodarsieve_outcome_of_sub_runs(const deodarsieve_final_stats *sub_runs, size_t length,
                                         uint32_t *answer);

/* Writes the higher of two outcomes. Returns DEODARSIEVE_BAD_CODE if one is not in the table. */
uint32_t deodarsieve_outcome_combine(uint32_t outcome, uint32_t other, uint32_t *answer);

/* ---- Levels and display ---- */

/*
 * Finds the level of a test that finishes. Writes a DEODARSIEVE_STATUS_LEVEL_...:
 *
 * - FAIL if the last attempt did not succeed;
 * - for a flaky test, RETRY, or FAIL if it counts as failed;
 * - for a success at the first attempt, PASS, LEAK for LEAK_PASS, or SLOW for TIMEOUT_PASS. `is_slow`
 *   does not matter.
 *
 * Returns DEODARSIEVE_BAD_CODE if a code is not in its table.
 */
uint32_t deodarsieve_test_view_status_level(const deodarsieve_test_view *test, uint32_t *answer);

/*
 * Finds the level of a test at the end of the run. Writes a DEODARSIEVE_FINAL_STATUS_LEVEL_...:
 *
 * - FAIL if the last attempt did not succeed;
 * - for a flaky test, FLAKY, or FAIL if it counts as failed;
 * - for a success at the first attempt, SLOW if it was slow or its result is TIMEOUT_PASS, otherwise LEAK
 *   for LEAK_PASS, and otherwise PASS.
 *
 * Returns DEODARSIEVE_BAD_CODE if a code is not in its table.
 */
uint32_t deodarsieve_test_view_final_status_level(const deodarsieve_test_view *test,
                                                  uint32_t *answer);

/* A test that has just finished, and the reporter's settings that decide how it is displayed. */
typedef struct deodarsieve_finished_test {
    uint32_t status_level;            /* the reporter's DEODARSIEVE_STATUS_LEVEL_... */
    uint32_t final_status_level;      /* the reporter's DEODARSIEVE_FINAL_STATUS_LEVEL_... */
    uint32_t display;                 /* DEODARSIEVE_DISPLAY_... */
    uint32_t cancel_reason;           /* DEODARSIEVE_REASON_... */
    uint32_t test_status_level;       /* the test's DEODARSIEVE_STATUS_LEVEL_... */
    uint32_t test_final_status_level; /* the test's DEODARSIEVE_FINAL_STATUS_LEVEL_... */
    deodarsieve_result result;        /* of its last attempt */
} deodarsieve_finished_test;

/* What a reporter does with a test that has just finished. */
typedef struct deodarsieve_output_on_test_finished {
    bool write_status_line; /* whether it writes a line with the test's status */
    bool show_immediate;    /* whether it displays the test's output at once */
    uint32_t store_final;   /* what it stores for the end of the run: DEODARSIEVE_STORE_... */
} deodarsieve_output_on_test_finished;

/*
 * Decides what a reporter does with a test that has just finished.
 *
 * - It writes a line if `test_status_level` is at most `status_level`, whatever the cancel reason.
 * - It displays the output at once if `display` is IMMEDIATE or IMMEDIATE_FINAL.
 * - It stores the test with its output if `display` is FINAL or IMMEDIATE_FINAL. Otherwise it stores
 *   the test without its output if `test_final_status_level` is at most `final_status_level`.
 *
 * With these cancel reasons it does less:
 *
 * - TEST_FAILURE_IMMEDIATE: a test whose result is UNIX_SIGNAL with the number 15, or
 *   WINDOWS_JOB_OBJECT, is neither displayed nor stored.
 * - SIGNAL: a test whose output is displayed at once is stored without it.
 * - INTERRUPT and SECOND_SIGNAL: no test is displayed or stored.
 *
 * Returns DEODARSIEVE_BAD_CODE if a code is not in its table.
 */
uint32_t deodarsieve_finished_test_compute_output(const deodarsieve_finished_test *test,
                                                  deodarsieve_output_on_test_finished *answer);

/*
 * Writes true if an attempt succeeded: it passed, or it leaked or timed out and that counts as
 * passed. Returns DEODARSIEVE_BAD_CODE if the kind is not in its table.
 */
uint32_t deodarsieve_result_is_success(const deodarsieve_result *result, bool *answer);

/*
 * Writes true if a result is UNIX_SIGNAL with the number 15 (SIGTERM), or WINDOWS_JOB_OBJECT. In these
 * ways nextest ends a test, on Unix and on Windows. Returns DEODARSIEVE_BAD_CODE if the kind is not in
 * its table.
 */
uint32_t deodarsieve_result_is_termination_failure(const deodarsieve_result *result, bool *answer);

/* ---- Repeated runs ---- */

/* A duration. */
typedef struct deodarsieve_duration {
    uint64_t seconds;
    uint32_t nanoseconds; /* below 1,000,000,000 */
} deodarsieve_duration;

/* The progress of a repeated run. */
typedef struct deodarsieve_stress_progress {
    uint32_t kind;                /* DEODARSIEVE_STRESS_COUNT, .._INFINITE or .._TIME */
    uint32_t total_count;         /* for COUNT, the number of sub-runs; otherwise ignored */
    uint32_t completed;           /* the number of completed sub-runs */
    deodarsieve_duration total;   /* for TIME, the whole time; otherwise ignored */
    deodarsieve_duration elapsed; /* the time that the sub-runs have taken so far */
} deodarsieve_stress_progress;

/* What remains of a repeated run. */
typedef struct deodarsieve_stress_remaining {
    uint32_t kind;             /* DEODARSIEVE_STRESS_... */
    uint32_t count;            /* for COUNT, the number of sub-runs, at least 1; otherwise 0 */
    deodarsieve_duration time; /* for TIME, the time, more than 0; otherwise 0 */
} deodarsieve_stress_remaining;

/*
 * Finds what remains of a repeated run: the number of sub-runs that are not completed, or the time
 * that has not elapsed, or DEODARSIEVE_STRESS_NOTHING if nothing remains.
 *
 * Returns DEODARSIEVE_BAD_CODE if the kind is not COUNT, INFINITE or TIME, if it is COUNT and
 * `total_count` is 0, or if the member `nanoseconds` of `elapsed`, or for TIME of `total`, is
 * 1,000,000,000 or more.
 */
uint32_t deodarsieve_stress_progress_remaining(const deodarsieve_stress_progress *progress,
                                               deodarsieve_stress_remaining *answer);

/* ---- Sizes and offsets ---- */

/* The layouts that the library was compiled for, on targets whose pointers have 64 bits. */
#if defined(__cplusplus) && __cplusplus >= 201103L
#define DEODARSIEVE_ASSERT(condition) static_assert(condition, #condition)
#elif defined(__STDC_VERSION__) && __STDC_VERSION__ >= 201112L
#define DEODARSIEVE_ASSERT(condition) _Static_assert(condition, #condition)
#endif
#if defined(DEODARSIEVE_ASSERT) && UINTPTR_MAX == UINT64_MAX
#define DEODARSIEVE_SIZE(type, size) DEODARSIEVE_ASSERT(sizeof(type) == (size))
#define DEODARSIEVE_OFFSET(type, member, at) DEODARSIEVE_ASSERT(offsetof(type, member) == (at))
DEODARSIEVE_SIZE(deodarsieve_slice, 24);
DEODARSIEVE_OFFSET(deodarsieve_slice, start, 8);
DEODARSIEVE_OFFSET(deodarsieve_slice, length, 16);
DEODARSIEVE_SIZE(deodarsieve_head, 32);
DEODARSIEVE_OFFSET(deodarsieve_head, start, 8);
DEODARSIEVE_OFFSET(deodarsieve_head, stop, 16);
DEODARSIEVE_OFFSET(deodarsieve_head, reads, 24);
DEODARSIEVE_SIZE(deodarsieve_result, 8);
DEODARSIEVE_OFFSET(deodarsieve_result, number, 4);
DEODARSIEVE_SIZE(deodarsieve_test_view, 24);
DEODARSIEVE_OFFSET(deodarsieve_test_view, attempts, 8);
DEODARSIEVE_OFFSET(deodarsieve_test_view, is_slow, 16);
DEODARSIEVE_OFFSET(deodarsieve_test_view, flaky_result, 20);
DEODARSIEVE_SIZE(deodarsieve_run_stats, 160);
DEODARSIEVE_OFFSET(deodarsieve_run_stats, passed, 64);
DEODARSIEVE_OFFSET(deodarsieve_run_stats, skipped, 144);
DEODARSIEVE_OFFSET(deodarsieve_run_stats, cancel_reason, 152);
DEODARSIEVE_SIZE(deodarsieve_failed_counts, 16);
DEODARSIEVE_OFFSET(deodarsieve_failed_counts, setup_scripts, 8);
DEODARSIEVE_SIZE(deodarsieve_final_stats, 32);
DEODARSIEVE_OFFSET(deodarsieve_final_stats, step, 8);
DEODARSIEVE_OFFSET(deodarsieve_final_stats, initial_run_count, 16);
DEODARSIEVE_OFFSET(deodarsieve_final_stats, not_run, 24);
DEODARSIEVE_SIZE(deodarsieve_finished_test, 32);
DEODARSIEVE_OFFSET(deodarsieve_finished_test, test_final_status_level, 20);
DEODARSIEVE_OFFSET(deodarsieve_finished_test, result, 24);
DEODARSIEVE_SIZE(deodarsieve_output_on_test_finished, 8);
DEODARSIEVE_OFFSET(deodarsieve_output_on_test_finished, show_immediate, 1);
DEODARSIEVE_OFFSET(deodarsieve_output_on_test_finished, store_final, 4);
DEODARSIEVE_SIZE(deodarsieve_duration, 16);
DEODARSIEVE_OFFSET(deodarsieve_duration, nanoseconds, 8);
DEODARSIEVE_SIZE(deodarsieve_stress_progress, 48);
DEODARSIEVE_OFFSET(deodarsieve_stress_progress, completed, 8);
DEODARSIEVE_OFFSET(deodarsieve_stress_progress, total, 16);
DEODARSIEVE_OFFSET(deodarsieve_stress_progress, elapsed, 32);
DEODARSIEVE_SIZE(deodarsieve_stress_remaining, 24);
DEODARSIEVE_OFFSET(deodarsieve_stress_remaining, count, 4);
DEODARSIEVE_OFFSET(deodarsieve_stress_remaining, time, 8);
#undef DEODARSIEVE_SIZE
#undef DEODARSIEVE_OFFSET
#endif
#undef DEODARSIEVE_ASSERT

#ifdef __cplusplus
}
#endif

#endif
