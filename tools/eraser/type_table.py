"""Derives, attributes and method names that types have only in Rust."""
from .table import PACKAGES, RUN

# Derives that all types of a crate have in Rust, and none in its sources: a derive costs seconds of each check, and
# promises nothing, or nothing that the proved code uses.
EQUAL = ("PartialEq", "Eq")
DERIVES_OF_ALL = dict.fromkeys(PACKAGES[RUN], ("Debug",)) | {"c_values": ("Debug", "Default") + EQUAL}

# Derives that a type has in Rust in addition to those of its source: users compare these, or keep them in maps.
KEY = EQUAL + ("PartialOrd", "Ord", "Hash")
ADDED_DERIVES = dict.fromkeys(
    (
        "ByteSubslice", "ChildError", "ChildExecutionOutput", "ChildFdError", "ChildOutput", "ChildOutputDescription",
        "ChildSplitOutput", "ChildStartError", "RunStart", "StatusLevels", "StressCondition", "TestList",
        "TestOutputErrorSlice", "TestsNotSeen", "UnitAbortDescription", "UnitTerminateMethod", "UnitTerminateReason",
        "CargoFailure", "Event", "Finish", "ProgramEnd", "RunEnd", "RunError", "RunNumbers", "SuiteEnd", "SuiteKey",
        "TestDetails",
    ),
    EQUAL,
) | dict.fromkeys(
    (
        "JunitFlakyFailStatus", "MismatchReason", "OwnedTestInstanceId", "ReportSkipPolicy", "ScriptId", "TestGroup",
        "TestInstanceId",
    ),
    KEY,
)
ADDED_DERIVES |= {"ErrorList": ("Clone", "Debug") + EQUAL, "SaidNumbers": ("Default",) + EQUAL}

# Derives that a type does not have. `Debug` and `Clone` are by hand: derived ones would call themselves for each cause
# of a chain, would write text as numbers or twice, or would show private fields. A source that is read must not be
# copied, a description has 72 bytes, and a sink borrows what it writes to exclusively.
REMOVED_DERIVES = {
    **dict.fromkeys(("ByteSubslice", "ChildSingleOutput", "ProgramRun", "SuiteNames", "TestRun"), ("Debug",)),
    "SerializableError": ("Clone", "Debug"),
    "MemorySource": ("Copy",),
    "UnitErrorDescription": ("Copy",),
    "MemorySink": ("Clone",),
}

# Types to which cases or fields may be added, and the attribute that says so: those of which nextest says so, whose
# cases nextest's own code matches without an arm for others, and three that nextest does not have.
NON_EXHAUSTIVE = dict.fromkeys(
    ("AbortDescription", "ExecutionResultDescription", "FailureDescription", "FinalStatusLevel", "StatusLevel"),
    '#[cfg_attr(not(feature = "exhaustive"), non_exhaustive)]',
) | dict.fromkeys(("FromValueError", "TestView", "UnitError"), "#[non_exhaustive]")

# Types that get `must_use`, and types of std that have it.
MUST_USE = ("RunOutcome",)
MUST_USE_BY_THEMSELVES = ("ExecutionStatusesIter", "Iter", "Result")

# Methods that have another name in Rust: `source` would hide the method of `std::error::Error`, and the methods with
# nextest's names return lists with items of another type, so they are written by hand and convert these lists.
RENAMED_METHODS = {
    "ChildErrorDescription::source": "cause",
    "ChildStartErrorDescription::source": "cause",
    "SerializableError::source": "cause",
    "UnitErrorDescription::all_error_list": "unit_errors",
    "UnitErrorDescription::exec_fail_error_list": "exec_fail_unit_errors",
    "UnitErrorDescription::child_process_error_list": "child_process_unit_errors",
}

# The files that call them, and their names there.
RENAMED_CALLS_OF = {
    "run_events_attempts/src/chain.rt": {"source": "cause"},
    "report_text/src/command.rt": {"add_str": "push_str", "add_char": "push"},
    "report_text/src/sequence.rt": {"add_str": "push_str", "add_char": "push"},
    "report_text/src/shown.rt": {"add_str": "push_str", "add_char": "push"},
    "report_text/src/text.rt": {"add_str": "push_str"},
}
