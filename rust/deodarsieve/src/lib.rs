//! What a test run means: its events, its counters, its outcome, and which lines of a failed test's
//! output explain the failure.
//!
//! A test runner passes the result of each test and setup script to this crate. In return it gets
//!
//! - counters of what passed, failed, was flaky, slow or leaky ([`RunStats`]);
//! - the summary and the outcome of the run ([`FinalRunStats`], [`RunOutcome`]);
//! - the part of a failed test's output that explains the failure ([`TestOutputErrorSlice`]);
//! - which lines and which output a reporter shows ([`StatusLevels`]).
//!
//! The crate also declares the types of all events that reporters receive ([`TestEventKind`]).
//!
//! The names and the behaviour are those of the reporter of [nextest](https://nexte.st), except for
//! the items that the page `UPSTREAM.md` of the package lists as different or left out. The modules
//! are at nextest's paths, and every name is at the root of the crate too. A few items are not
//! nextest's. A runner that does not keep the attempts of a test can count it by a [`TestView`],
//! which borrows the result of the last attempt, or by a [`FinishedTest`], which owns it.
//! [`RunOutcome::of_sub_runs`] decides the outcome of a repeated run.
//!
//! # Example
//!
//! This counts a run of two tests. One of them failed, and the example prints why. A runner that
//! keeps the output and the times of its tests begins with [`ExecuteStatus::from_captured`].
//!
//! ```
//! use deodarsieve::{
//!     ExecutionResult, ExecutionResultDescription, FailureStatus, RunStats, TestOutputErrorSlice,
//!     TestView,
//! };
//!
//! let stderr = b"thread 'adds' panicked at src/lib.rs:7:5:\nassertion failed: 1 + 1 == 3\n";
//! let failed = ExecutionResult::Fail { failure_status: FailureStatus::ExitCode(101), leaked: false };
//! let mut stats = RunStats { initial_run_count: 2, ..RunStats::default() };
//! for result in [ExecutionResult::Pass, failed] {
//!     stats.on_test_view(&TestView::new(&ExecutionResultDescription::from(result)));
//! }
//! println!("{} passed, {} failed", stats.passed, stats.failed_count());
//! if let Some(slice) = TestOutputErrorSlice::heuristic_extract(None, Some(stderr)) {
//!     println!("{slice}");
//! }
//! # assert_eq!((stats.passed, stats.failed_count()), (1, 1));
//! # let slice = TestOutputErrorSlice::heuristic_extract(None, Some(stderr)).unwrap();
//! # assert!(slice.to_string().ends_with("assertion failed: 1 + 1 == 3"));
//! ```
//!
//! # The types by what they are for
//!
//! **Counters and outcome of a run**
//!
//! - Counting: [`RunStats`], [`RunStart`], [`FinishedRun`], [`FinishedUnit`], [`CounterFull`].
//! - The end of a run: [`FinalRunStats`], [`RunStatsFailureKind`], [`RunFailureStep`],
//!   [`CancelReason`], [`RunOutcome`], [`RunFinishedStats`].
//! - Repeated runs: [`StressRunStats`], [`StressFinalRunStats`], [`StressIndex`],
//!   [`StressProgress`], [`StressRemaining`], [`StressCount`], [`StressCondition`],
//!   [`NonZeroDuration`].
//!
//! **Results and attempts**
//!
//! - The result of an attempt, as the runner has it: [`ExecutionResult`], [`FailureStatus`],
//!   [`AbortStatus`], [`SIGTERM`].
//! - The same, as reporters get it: [`ExecutionResultDescription`], [`FailureDescription`],
//!   [`AbortDescription`].
//! - How a result counts: [`FlakyResult`], [`LeakTimeoutResult`], [`SlowTimeoutResult`].
//! - The attempts of a test: [`ExecuteStatus`], [`RetryData`], [`ExecutionStatuses`],
//!   [`ExecutionStatusesIter`], [`EmptyStatuses`], [`ExecutionDescription`].
//! - A test without its attempts: [`TestView`], [`FinishedTest`].
//! - A setup script: [`SetupScriptExecuteStatus`], [`SetupScriptEnvMap`].
//!
//! **Output and errors of a process**
//!
//! - Captured output, as the runner has it: [`ChildExecutionOutput`], [`ChildOutput`],
//!   [`ChildSplitOutput`], [`ChildSingleOutput`].
//! - The same, as reporters get it: [`ChildExecutionOutputDescription`],
//!   [`ChildOutputDescription`], [`OutputSpec`], [`LiveSpec`], `SerializableOutputSpec`.
//! - The part of output that explains a failure: [`TestOutputErrorSlice`], [`ByteSubslice`],
//!   [`OutputErrorSlice`], [`heuristic_panic_message`], [`heuristic_error_str`],
//!   [`heuristic_should_panic`].
//! - Errors of processes: [`ChildStartError`], [`ChildFdError`], [`ChildError`],
//!   [`ChildStartErrorDescription`], [`ChildErrorDescription`].
//! - All errors of a test or script: [`UnitErrorDescription`], [`UnitKind`], [`UnitError`],
//!   [`UnitAbortDescription`], [`ErrorSummary`].
//! - Errors as text: [`ErrorList`], [`SerializableError`], [`SerializableErrorSources`],
//!   `FromValueError`.
//!
//! **Display**
//!
//! - The level of a test: [`StatusLevel`], [`FinalStatusLevel`].
//! - What is shown of it: [`StatusLevels`], [`TestOutputDisplay`], [`OutputOnTestFinished`],
//!   [`OutputStoreFinal`].
//!
//! **Events**
//!
//! - An event: [`ReporterEvent`], [`TestEvent`], [`TestEventKind`], [`Moment`], `MomentOutOfRange`.
//! - Values in events: [`TestSlotAssignment`], [`TestsNotSeen`], [`TestList`], [`TestInstanceId`],
//!   [`OwnedTestInstanceId`], [`TestGroup`], [`ScriptId`], [`MismatchReason`],
//!   [`ReportSkipPolicy`], [`JunitFlakyFailStatus`], [`NextestRunMode`].
//! - The state of a running test or script: [`InfoResponse`], [`TestInfoResponse`],
//!   [`SetupScriptInfoResponse`], [`UnitState`], [`UnitTerminatingState`], [`UnitTerminateReason`],
//!   [`UnitTerminateMethod`], [`UnitTerminateSignal`].
//!
//! # Features
//!
//! - `std` (default): conversions from `std::process::ExitStatus`, `std::time::SystemTime` and
//!   `std::io::Error`, and [`ChildSingleOutput`]'s `as_str_lossy`. Without it the crate is `no_std` and
//!   needs `alloc`.
//! - `serde`: `Serialize` and `Deserialize` for the types that have them in nextest, with the same
//!   names, and `SerializableOutputSpec`. It turns on `chrono`.
//! - `serde_json`: `to_value` and `from_value` of [`SerializableError`], to and from JSON values.
//! - `chrono`: [`Moment`] from `chrono::DateTime` of any time zone, and to `DateTime<FixedOffset>`
//!   and `DateTime<Utc>`.
//! - `exhaustive`: the enums that are `#[non_exhaustive]` in nextest can be matched without an arm for
//!   other variants, as inside nextest. A new variant is then a breaking change.
//!
//! Any other feature only adds items and implementations of traits. No signature and no behaviour
//! changes with a feature.
//!
//! # Panics
//!
//! A function panics, in release builds too, if its caller breaks a condition that the types do not
//! express. The section `Panics` of its documentation has the condition. Most messages name a
//! function that tests the condition, such as `can_count_view`. Counters never wrap:
//! [`RunStats::try_on_test_view`] returns an error if a counter is full, and
//! [`RunStats::on_test_view`] panics.

#![no_std]
#![cfg_attr(docsrs, feature(doc_cfg))]
#![forbid(unsafe_code)]
#![warn(
    missing_docs,
    missing_debug_implementations,
    clippy::missing_errors_doc
)]
#![allow(
    clippy::len_without_is_empty,
    reason = "a list of errors or attempts is never empty"
)]
#![allow(
    unused_labels,
    clippy::manual_find,
    clippy::needless_borrow,
    clippy::question_mark,
    reason = "forms of the proved text, which `tools/erase` leaves as they are"
)]

extern crate alloc;
#[cfg(feature = "std")]
extern crate std;

mod decimal_digits;
mod moment;
mod output_slice;
mod run_events;
mod run_events_attempts;
mod run_events_results;
mod run_events_stats;
mod std_impls;

/// The mode of a run: tests or benchmarks.
pub mod run_mode {
    pub use crate::run_events_results::run_mode::NextestRunMode;
}

/// The types that reporters receive, and the decisions what to show.
pub mod reporter {
    pub use crate::output_slice::{
        ByteSubslice, TestOutputErrorSlice, heuristic_error_str, heuristic_panic_message,
        heuristic_should_panic,
    };
    pub use crate::run_events::config::TestOutputDisplay;
    pub use crate::run_events::unit_error::{
        UnitAbortDescription, UnitError, UnitErrorDescription,
    };
    pub use crate::run_events_results::levels::{FinalStatusLevel, StatusLevel};

    /// The events of a run, and the types in them: results, attempts, counters and outcomes.
    pub mod events {
        pub use crate::run_events::events::{
            InfoResponse, ReporterEvent, SetupScriptInfoResponse, TestEvent, TestEventKind,
            TestInfoResponse, TestSlotAssignment, TestsNotSeen, UnitState, UnitTerminateMethod,
            UnitTerminateReason, UnitTerminateSignal, UnitTerminatingState,
        };
        pub use crate::run_events::progress::{StressProgress, StressRemaining};
        pub use crate::run_events_attempts::attempts::{
            EmptyStatuses, ErrorSummary, ExecuteStatus, ExecutionDescription, ExecutionStatuses,
            ExecutionStatusesIter, OutputErrorSlice, RetryData, SetupScriptEnvMap,
            SetupScriptExecuteStatus,
        };
        pub use crate::run_events_attempts::chain::{SerializableError, SerializableErrorSources};
        pub use crate::run_events_attempts::child::{
            ChildErrorDescription, ChildExecutionOutputDescription, ChildOutputDescription,
            ChildStartErrorDescription,
        };
        pub use crate::run_events_results::results::{
            AbortDescription, AbortStatus, CancelReason, ExecutionResult,
            ExecutionResultDescription, FailureDescription, FailureStatus, SIGTERM, UnitKind,
        };
        pub use crate::run_events_results::stress::{NonZeroDuration, StressIndex};
        pub use crate::run_events_results::view::{FinishedTest, TestView};
        pub use crate::run_events_stats::outcome::{
            FinalRunStats, RunFailureStep, RunFinishedStats, RunOutcome, RunStatsFailureKind,
            StressFinalRunStats, StressRunStats,
        };
        pub use crate::run_events_stats::stats::{FinishedRun, FinishedUnit, RunStart, RunStats};
    }

    /// The display of a run on a terminal.
    pub mod displayer {
        /// Which lines and which output a reporter shows of a finished test.
        pub mod status_level {
            pub use crate::run_events_results::levels::{
                OutputOnTestFinished, OutputStoreFinal, StatusLevels,
            };
        }
    }
}

/// Settings of a run.
pub mod config {
    /// Settings that decide how a result counts, and settings that events only carry.
    pub mod elements {
        pub use crate::run_events::config::{
            FlakyResult, JunitFlakyFailStatus, LeakTimeoutResult, ReportSkipPolicy,
            SlowTimeoutResult, TestGroup,
        };
    }

    /// Settings of scripts.
    pub mod scripts {
        pub use crate::run_events::config::ScriptId;
    }
}

/// The tests that a runner knows.
pub mod list {
    pub use crate::run_events::config::{
        MismatchReason, OwnedTestInstanceId, TestInstanceId, TestList,
    };
}

/// Errors of child processes, lists of errors, and the errors of this crate's functions.
pub mod errors {
    #[cfg(feature = "serde_json")]
    pub use crate::run_events_attempts::chain::FromValueError;
    pub use crate::run_events_attempts::child::{
        ChildError, ChildFdError, ChildStartError, ErrorList,
    };
    pub use crate::run_events_stats::stats::CounterFull;
}

/// The forms in which events hold the output of a child process.
pub mod output_spec {
    pub use crate::run_events_attempts::child::{LiveSpec, OutputSpec};
    #[cfg(feature = "serde")]
    pub use crate::std_impls::serde::SerializableOutputSpec;
}

/// Settings of a runner.
pub mod runner {
    pub use crate::run_events::config::StressCondition;
    pub use crate::run_events::progress::StressCount;
}

/// The captured output of a child process, as a runner has it.
pub mod test_output {
    pub use crate::run_events_attempts::child::{
        ChildExecutionOutput, ChildOutput, ChildSingleOutput, ChildSplitOutput,
    };
}

/// Instants of the clock.
pub mod time {
    pub use crate::moment::Moment;
    #[cfg(feature = "chrono")]
    pub use crate::moment::MomentOutOfRange;
}

/// The search for panic messages with a count of the bytes that it reads. It has no stable API.
#[doc(hidden)]
pub mod counted {
    pub use crate::decimal_digits::is_decimal_digit;
    pub use crate::output_slice::{
        ByteSource, CountedBytes, HeadSpan, first_head::first_head, last_head::last_head,
        last_panic_head,
    };
}

/// Runs the example of the README as a test.
#[cfg(doctest)]
#[doc = include_str!("../README.md")]
struct FirstPage;

#[doc(no_inline)]
pub use crate::{
    config::elements::*, config::scripts::*, errors::*, list::*, output_spec::*,
    reporter::displayer::status_level::*, reporter::events::*, run_mode::*, runner::*,
    test_output::*, time::*,
};

#[doc(no_inline)]
pub use crate::reporter::{
    ByteSubslice, FinalStatusLevel, StatusLevel, TestOutputDisplay, TestOutputErrorSlice,
    UnitAbortDescription, UnitError, UnitErrorDescription, heuristic_error_str,
    heuristic_panic_message, heuristic_should_panic,
};
