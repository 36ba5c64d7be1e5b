//! What upstream's test functions find around them: the names of the crate, all values of small types, and
//! stored texts.

pub use bytes::Bytes;
pub use deodarsieve::*;
pub use std::fmt;
pub use std::time::Duration;

/// All values of a type that has few, or those of its values that differ in kind.
pub trait All: Sized {
    /// Returns the values.
    fn all() -> Vec<Self>;
}

macro_rules! all {
    ($type:ident: $($case:ident)*) => {
        impl All for $type {
            fn all() -> Vec<Self> {
                vec![$($type::$case),*]
            }
        }
    };
}

all!(TestOutputDisplay: Immediate ImmediateFinal Final Never);
all!(StatusLevel: None Fail Retry Slow Leak Pass Skip All);
all!(FinalStatusLevel: None Fail Flaky Slow Skip Leak Pass All);
all!(LeakTimeoutResult: Pass Fail);
all!(SlowTimeoutResult: Pass Fail);
all!(RunFailureStep: SetupScript Test);
all!(AbortDescription: WindowsJobObject);

/// The page that lists the variants that upstream does not have.
const SEMVER: &str = include_str!("SEMVER.md");

impl All for CancelReason {
    /// Returns upstream's reasons. An error of `serde` lists the words of all reasons.
    fn all() -> Vec<Self> {
        let error = serde_json::from_str::<Self>(r#""no-such-word""#)
            .expect_err("no reason has this word")
            .to_string();
        let words = error.split('`').skip(3).step_by(2);
        let reasons = words.map(|word| serde_json::from_str(&format!("{word:?}")));
        reasons
            .map(|reason: Result<Self, _>| reason.expect("a word names a reason"))
            .filter(|reason| !SEMVER.contains(&format!("`CancelReason::{reason:?}`")))
            .collect()
    }
}

impl All for bool {
    fn all() -> Vec<Self> {
        vec![false, true]
    }
}

impl<T: All> All for Option<T> {
    fn all() -> Vec<Self> {
        std::iter::once(None)
            .chain(T::all().into_iter().map(Some))
            .collect()
    }
}

impl All for RunOutcome {
    fn all() -> Vec<Self> {
        let cancelled = RunFailureStep::all()
            .into_iter()
            .map(|step| RunOutcome::Cancelled { step });
        let failed = RunFailureStep::all()
            .into_iter()
            .map(|step| RunOutcome::Failed { step });
        [RunOutcome::Success, RunOutcome::NoTestsRun]
            .into_iter()
            .chain(cancelled)
            .chain(failed)
            .collect()
    }
}

impl All for FailureDescription {
    fn all() -> Vec<Self> {
        let signals =
            [9, SIGTERM].map(|signal| AbortDescription::UnixSignal { signal, name: None });
        let status = AbortDescription::WindowsNtStatus {
            code: -1,
            message: Some("stopped".into()),
        };
        let aborts = AbortDescription::all()
            .into_iter()
            .chain(signals)
            .chain([status]);
        let codes = [0, 1, 101].map(|code| FailureDescription::ExitCode { code });
        aborts
            .map(|abort| FailureDescription::Abort { abort })
            .chain(codes)
            .collect()
    }
}

impl All for ExecutionResultDescription {
    fn all() -> Vec<Self> {
        use ExecutionResultDescription::{ExecFail, Fail, Leak, Pass, Timeout};
        let leaks = LeakTimeoutResult::all()
            .into_iter()
            .map(|result| Leak { result });
        let timeouts = SlowTimeoutResult::all()
            .into_iter()
            .map(|result| Timeout { result });
        let failures = FailureDescription::all().into_iter().flat_map(|failure| {
            bool::all().into_iter().map(move |leaked| Fail {
                failure: failure.clone(),
                leaked,
            })
        });
        [Pass, ExecFail]
            .into_iter()
            .chain(leaks)
            .chain(timeouts)
            .chain(failures)
            .collect()
    }
}

/// Asserts as `proptest` does, without its way to fail.
#[macro_export]
macro_rules! prop_assert {
    ($($arguments:tt)*) => { assert!($($arguments)*) };
}
pub use crate::prop_assert;

/// Compares texts with stored ones.
pub mod insta {
    /// The stored texts, each after a line `=== NAME`. They are the JSON that `serde` makes of the attributes that
    /// nextest's types have.
    const STORED: &str = include_str!("snapshots.txt");

    /// Returns the stored text of a name.
    pub fn stored(name: &str) -> &'static str {
        STORED
            .split("=== ")
            .find_map(|entry| entry.strip_prefix(name)?.strip_prefix('\n'))
            .unwrap_or_else(|| panic!("no text is stored for {name}"))
            .trim_end()
    }

    #[macro_export]
    macro_rules! assert_snapshot {
        ($name:literal, $text:expr) => {
            assert_eq!($text, $crate::adapters::insta::stored($name))
        };
    }
    pub use crate::assert_snapshot;
}
