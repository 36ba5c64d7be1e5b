//! Each type has the traits that it has in nextest-runner 0.129.0. Nothing here is called: it
//! compiles only if the types have the traits.
#![allow(dead_code, reason = "that it compiles is the test")]

use std::error::Error;
use std::fmt::{Debug, Display};
use std::hash::Hash;

use deodarsieve::*;

/// Compiles only if a type has the traits.
macro_rules! has {
    ($($name:ty: $($bound:path),+;)+) => {
        $(const _: () = {
            const fn asks<T: $($bound +)+>() {}
            asks::<$name>();
        };)+
    };
}

has! {
    AbortDescription: Clone, Debug, PartialEq, Eq, Display, From<AbortStatus>;
    AbortStatus: Clone, Copy, Debug, PartialEq, Eq;
    ByteSubslice<'static>: Clone, Copy, Debug;
    CancelReason: Clone, Copy, Debug, PartialEq, Eq, PartialOrd, Ord;
    ChildErrorDescription: Clone, Debug, PartialEq, Eq, Display, Error, From<ChildError>;
    ChildExecutionOutputDescription<LiveSpec>: Clone, Debug, PartialEq, Eq, From<ChildExecutionOutput>;
    ChildOutputDescription: Clone, Debug, From<ChildOutput>;
    ChildStartErrorDescription: Clone, Debug, PartialEq, Eq, Display, Error, From<ChildStartError>;
    ErrorList<ChildError>: Display, Error;
    ErrorSummary: Clone, Debug, PartialEq, Eq;
    ExecuteStatus<LiveSpec>: Clone, Debug, PartialEq, Eq;
    ExecutionDescription<'static, LiveSpec>: Clone, Copy, Debug;
    ExecutionResult: Clone, Copy, Debug, PartialEq, Eq;
    ExecutionResultDescription: Clone, Debug, PartialEq, Eq, From<ExecutionResult>;
    ExecutionStatuses<LiveSpec>: Clone, Debug, PartialEq, Eq, IntoIterator;
    FailureDescription: Clone, Debug, PartialEq, Eq, Display, From<FailureStatus>;
    FailureStatus: Clone, Copy, Debug, PartialEq, Eq;
    FinalRunStats: Clone, Copy, Debug, PartialEq, Eq;
    FinalStatusLevel: Clone, Copy, Debug, PartialEq, Eq, PartialOrd, Ord;
    InfoResponse<'static>: Clone, Debug;
    NextestRunMode: Clone, Copy, Debug, Default, PartialEq, Eq, Display;
    NonZeroDuration: Clone, Copy, Debug, PartialEq, Eq;
    OutputErrorSlice: Clone, Debug, PartialEq, Eq;
    OutputOnTestFinished: Debug, PartialEq, Eq;
    OutputStoreFinal: Debug, PartialEq, Eq;
    ReporterEvent<'static>: Clone, Debug;
    RetryData: Clone, Copy, Debug, PartialEq, Eq, PartialOrd, Ord;
    RunFailureStep: Clone, Copy, Debug, PartialEq, Eq, PartialOrd, Ord;
    RunFinishedStats: Clone, Copy, Debug, PartialEq, Eq;
    RunOutcome: Clone, Copy, Debug, PartialEq, Eq;
    RunStats: Clone, Copy, Debug, Default, PartialEq, Eq;
    RunStatsFailureKind: Clone, Copy, Debug, PartialEq, Eq;
    SerializableError: Clone, Debug, PartialEq, Eq, Display, Error;
    SerializableErrorSources<'static>: Debug, Iterator;
    SetupScriptEnvMap: Clone, Debug, PartialEq, Eq;
    SetupScriptExecuteStatus<LiveSpec>: Clone, Debug, PartialEq, Eq;
    SetupScriptInfoResponse: Clone, Debug;
    StatusLevel: Clone, Copy, Debug, PartialEq, Eq, PartialOrd, Ord;
    StressFinalRunStats: Clone, Copy, Debug, PartialEq, Eq;
    StressIndex: Clone, Copy, Debug, PartialEq, Eq, PartialOrd, Ord, Hash;
    StressProgress: Clone, Copy, Debug, PartialEq, Eq;
    StressRemaining: Clone, Debug, PartialEq, Eq;
    StressRunStats: Clone, Copy, Debug, PartialEq, Eq;
    TestEvent<'static>: Clone, Debug;
    TestEventKind<'static>: Clone, Debug;
    TestInfoResponse<'static>: Clone, Debug;
    TestOutputErrorSlice<'static>: Clone, Copy, Debug, Display, Error;
    TestSlotAssignment: Clone, Debug, PartialEq, Eq;
    TestsNotSeen: Clone, Debug;
    UnitAbortDescription<'static>: Clone, Debug, Display, Error;
    UnitErrorDescription<'static>: Clone, Debug;
    UnitKind: Clone, Copy, Debug, PartialEq, Eq;
    UnitState: Clone, Debug;
    UnitTerminateMethod: Clone, Copy, Debug;
    UnitTerminateReason: Clone, Copy, Debug, Display;
    UnitTerminateSignal: Clone, Copy, Debug, PartialEq, Eq, Display;
    UnitTerminatingState: Clone, Debug;
}

/// The traits of `serde`. `Serialized` is output that can be serialized.
#[cfg(feature = "serde")]
mod of_serde {
    use super::*;
    use deodarsieve::output_spec::SerializableOutputSpec;
    use serde::{Serialize, de::DeserializeOwned};

    struct Serialized;

    impl OutputSpec for Serialized {
        type ChildOutputDesc = String;
    }

    has! {
        Serialized: SerializableOutputSpec;
        AbortDescription: Serialize, DeserializeOwned;
        CancelReason: Serialize, DeserializeOwned;
        ChildErrorDescription: Serialize, DeserializeOwned;
        ChildExecutionOutputDescription<Serialized>: Serialize, DeserializeOwned;
        ChildStartErrorDescription: Serialize, DeserializeOwned;
        ErrorSummary: Serialize, DeserializeOwned;
        ExecuteStatus<Serialized>: Serialize, DeserializeOwned;
        ExecutionResultDescription: Serialize, DeserializeOwned;
        ExecutionStatuses<Serialized>: Serialize, DeserializeOwned;
        FailureDescription: Serialize, DeserializeOwned;
        FinalRunStats: Serialize, DeserializeOwned;
        FinalStatusLevel: DeserializeOwned;
        NextestRunMode: Serialize, DeserializeOwned;
        OutputErrorSlice: Serialize, DeserializeOwned;
        RetryData: Serialize, DeserializeOwned;
        RunFinishedStats: Serialize, DeserializeOwned;
        RunStats: Serialize, DeserializeOwned;
        RunStatsFailureKind: Serialize, DeserializeOwned;
        SerializableError: Serialize, DeserializeOwned;
        SetupScriptEnvMap: Serialize, DeserializeOwned;
        SetupScriptExecuteStatus<Serialized>: Serialize, DeserializeOwned;
        StatusLevel: DeserializeOwned;
        StressIndex: Serialize, DeserializeOwned;
        StressProgress: Serialize, DeserializeOwned;
        StressRunStats: Serialize, DeserializeOwned;
        TestSlotAssignment: Serialize, DeserializeOwned;
    }
}
