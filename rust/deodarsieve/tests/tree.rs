//! Each name is the same item at nextest's path and at the root of the crate. Nothing here is
//! called: it compiles only if the items are the same.
#![allow(dead_code, reason = "that it compiles is the test")]

/// Returns a value of each type in the module `tree` as the type of the same name at the root.
macro_rules! same {
    ($($name:ident $(<$($argument:tt),+>)?),+ $(,)?) => {
        $(const _: fn(tree::$name $(<$($argument),+>)?) -> deodarsieve::$name $(<$($argument),+>)? =
            |same| same;)+
    };
}

mod run_mode {
    use deodarsieve::run_mode as tree;
    same!(NextestRunMode);
}

mod reporter {
    use deodarsieve::reporter as tree;
    same!(
        ByteSubslice<'static>,
        FinalStatusLevel,
        StatusLevel,
        TestOutputDisplay,
        TestOutputErrorSlice<'static>,
        UnitAbortDescription<'static>,
        UnitError<'static>,
        UnitErrorDescription<'static>,
    );

    /// A heuristic over output that lives as long as the program.
    type Heuristic = fn(&'static [u8]) -> Option<deodarsieve::ByteSubslice<'static>>;

    #[test]
    fn the_heuristics_are_at_both_places() {
        let pairs: [(Heuristic, Heuristic); 3] = [
            (tree::heuristic_error_str, deodarsieve::heuristic_error_str),
            (
                tree::heuristic_panic_message,
                deodarsieve::heuristic_panic_message,
            ),
            (
                tree::heuristic_should_panic,
                deodarsieve::heuristic_should_panic,
            ),
        ];
        let output =
            b"Error: e\nthread 'main' panicked at a\nnote: test did not panic as expected\n";
        for (in_tree, at_root) in pairs {
            let start = |find: Heuristic| find(output).expect("the output has all three").start;
            assert_eq!(start(in_tree), start(at_root));
        }
    }
}

mod events {
    use deodarsieve::LiveSpec;
    use deodarsieve::reporter::events as tree;
    same!(
        AbortDescription,
        AbortStatus,
        CancelReason,
        ChildErrorDescription,
        ChildExecutionOutputDescription<LiveSpec>,
        ChildOutputDescription,
        ChildStartErrorDescription,
        EmptyStatuses,
        ErrorSummary,
        ExecuteStatus<LiveSpec>,
        ExecutionDescription<'static, LiveSpec>,
        ExecutionResult,
        ExecutionResultDescription,
        ExecutionStatuses<LiveSpec>,
        ExecutionStatusesIter<'static, LiveSpec>,
        FailureDescription,
        FailureStatus,
        FinalRunStats,
        FinishedRun<'static>,
        FinishedTest,
        FinishedUnit<'static>,
        InfoResponse<'static>,
        NonZeroDuration,
        OutputErrorSlice,
        ReporterEvent<'static>,
        RetryData,
        RunFailureStep,
        RunFinishedStats,
        RunOutcome,
        RunStart,
        RunStats,
        RunStatsFailureKind,
        SerializableError,
        SerializableErrorSources<'static>,
        SetupScriptEnvMap,
        SetupScriptExecuteStatus<LiveSpec>,
        SetupScriptInfoResponse,
        StressFinalRunStats,
        StressIndex,
        StressProgress,
        StressRemaining,
        StressRunStats,
        TestEvent<'static>,
        TestEventKind<'static>,
        TestInfoResponse<'static>,
        TestSlotAssignment,
        TestView<'static>,
        TestsNotSeen,
        UnitKind,
        UnitState,
        UnitTerminateMethod,
        UnitTerminateReason,
        UnitTerminateSignal,
        UnitTerminatingState,
    );
    const _: () = assert!(tree::SIGTERM == deodarsieve::SIGTERM);
}

mod status_level {
    use deodarsieve::reporter::displayer::status_level as tree;
    same!(OutputOnTestFinished, OutputStoreFinal, StatusLevels);
}

mod elements {
    use deodarsieve::config::elements as tree;
    same!(
        FlakyResult,
        JunitFlakyFailStatus,
        LeakTimeoutResult,
        ReportSkipPolicy,
        SlowTimeoutResult,
        TestGroup,
    );
}

mod scripts {
    use deodarsieve::config::scripts as tree;
    same!(ScriptId);
}

mod list {
    use deodarsieve::list as tree;
    same!(
        MismatchReason,
        OwnedTestInstanceId,
        TestInstanceId<'static>,
        TestList<'static>
    );
}

mod errors {
    use deodarsieve::errors as tree;
    same!(ChildError, ChildFdError, ChildStartError, CounterFull);

    const _: fn(tree::ErrorList<u8>) -> deodarsieve::ErrorList<u8> = |same| same;

    #[cfg(feature = "serde_json")]
    same!(FromValueError);
}

mod output_spec {
    use deodarsieve::output_spec as tree;
    same!(LiveSpec);

    /// Takes any type that has the trait at the root, and so the trait at nextest's path.
    fn is_spec<S: tree::OutputSpec>() -> fn() {
        fn at_root<S: deodarsieve::OutputSpec>() {}
        at_root::<S>
    }

    #[cfg(feature = "serde")]
    fn is_serializable_spec<S: tree::SerializableOutputSpec>() -> fn() {
        fn at_root<S: deodarsieve::SerializableOutputSpec>() {}
        at_root::<S>
    }
}

mod runner {
    use deodarsieve::runner as tree;
    same!(StressCondition, StressCount);
}

mod test_output {
    use deodarsieve::test_output as tree;
    same!(
        ChildExecutionOutput,
        ChildOutput,
        ChildSingleOutput,
        ChildSplitOutput
    );
}

mod time {
    use deodarsieve::time as tree;
    same!(Moment);

    #[cfg(feature = "chrono")]
    same!(MomentOutOfRange);
}

/// The names that the tree of modules re-exports, by the text of the crate's root.
fn names_in_tree() -> impl Iterator<Item = &'static str> {
    let root = include_str!("../src/lib.rs");
    let start = root.find("pub mod run_mode {").expect("the tree begins so");
    let end = root
        .find("#[doc(hidden)]\npub mod counted")
        .expect("the tree ends so");
    root[start..end]
        .lines()
        .filter(|line| !line.trim_start().starts_with("///"))
        .flat_map(|line| line.split(|c: char| !c.is_alphanumeric() && c != '_'))
        .filter(|word| word.starts_with(|c: char| c.is_ascii_uppercase()))
}

#[test]
fn every_name_of_the_tree_is_compared_here() {
    let compared: Vec<_> = include_str!("tree.rs")
        .split(|c: char| !c.is_alphanumeric() && c != '_')
        .collect();
    let missing: Vec<_> = names_in_tree()
        .filter(|name| !compared.contains(name))
        .collect();
    assert!(names_in_tree().count() > 80);
    assert_eq!(missing, Vec::<&str>::new());
}

/// The names in the list of types on the root page. Each name is a link or needs a feature.
fn names_on_the_root_page() -> Vec<&'static str> {
    let root = include_str!("../src/lib.rs");
    let start = root
        .find("//! # The types by what they are for")
        .expect("the list begins so");
    let end = root.find("//! # Features").expect("the list ends so");
    root[start..end].split('`').skip(1).step_by(2).collect()
}

#[test]
fn the_root_page_lists_each_name_once() {
    let mut listed = names_on_the_root_page();
    listed.retain(|name| !name.starts_with("heuristic_"));
    let mut declared: Vec<_> = names_in_tree().collect();
    listed.sort_unstable();
    declared.sort_unstable();
    assert_eq!(listed, declared);
}
