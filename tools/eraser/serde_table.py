"""How types are serialized with the feature `serde`: the traits and the attributes that nextest's own types have.

A trait is in `std_impls/serde` if attributes cannot say what that of nextest's type does.
"""

BOTH, READ, WRITTEN = "serde::Serialize, serde::Deserialize", "serde::Deserialize", "serde::Serialize"

# The output of a process is described by a type of the user: a record has the traits that this type has.
BY_OUTPUT = (
    ', bound(serialize = "S::ChildOutputDesc: serde::Serialize", '
    'deserialize = "S::ChildOutputDesc: serde::Deserialize<\'de>")'
)

# The traits of a type, and the attributes of its representation in addition to those of all types.
SERDE = dict.fromkeys(
    (
        "CancelReason", "ErrorSummary", "FlakyResult", "LeakTimeoutResult", "NextestRunMode", "OutputErrorSlice",
        "RetryData", "RunStats", "SetupScriptEnvMap", "SlowTimeoutResult", "StressIndex", "StressRunStats",
        "TestSlotAssignment",
    ),
    (BOTH, ""),
) | dict.fromkeys(("FinalStatusLevel", "StatusLevel", "TestOutputDisplay"), (READ, ""))
SERDE |= {
    "AbortDescription": (BOTH, ', tag = "kind"'),
    "ChildErrorDescription": (BOTH, ', tag = "kind"'),
    "ChildExecutionOutputDescription": (BOTH, ', tag = "type"' + BY_OUTPUT),
    "ChildStartErrorDescription": (BOTH, ', tag = "kind"'),
    "ExecuteStatus": (BOTH, BY_OUTPUT),
    "ExecutionResultDescription": (BOTH, ', tag = "status"'),
    "ExecutionStatuses": (WRITTEN, BY_OUTPUT),
    "FailureDescription": (BOTH, ', tag = "kind"'),
    "FinalRunStats": (BOTH, ', tag = "outcome"'),
    "RunFinishedStats": (BOTH, ', tag = "type"'),
    "RunStatsFailureKind": (BOTH, ', tag = "step"'),
    "SetupScriptExecuteStatus": (BOTH, BY_OUTPUT),
    "StressCount": (BOTH, ', tag = "kind"'),
    "StressProgress": (BOTH, ', tag = "progress-type"'),
}


def attribute_of(name):
    """Returns the attribute of the type `name`, which has a row."""
    traits, representation = SERDE[name]
    return f'#[cfg_attr(feature = "serde", derive({traits}), serde(rename_all = "kebab-case"{representation}))]'
