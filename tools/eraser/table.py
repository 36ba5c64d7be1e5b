"""The packages in rust/, and the names that are others there."""

LAYER = "deodarsieve"
RUN = "deodarsieve-run"

# The packages in rust/, each with the crates that become modules of it.
PACKAGES = {
    LAYER: (
        "output_slice", "run_events_results", "run_events_attempts", "run_events_stats", "run_events",
    ),
    "deodarsieve-cli": (
        "program_io", "run_digest_engine", "report_text", "template", "report_templates",
    ),
    RUN: ("test_report_events", "test_report_run_notes", "test_report_run", "test_report_programs"),
    "deodarsieve-c": ("c_values", "deodarsieve"),
}

# The folder in rust/ in which the modules of a package are.
FOLDERS = {LAYER: "deodarsieve/src", RUN: "run/src", "deodarsieve-cli": "cli/src", "deodarsieve-c": "c/src"}
PACKAGE_OF = {crate: package for package, crates in PACKAGES.items() for crate in crates}

# The path of a crate's modules in its package.
PATH_OF = {crate: ["exports" if crate == "deodarsieve" else crate] for crate in PACKAGE_OF}
PATH_OF |= {
    "test_report_events": ["events"],
    "test_report_run_notes": ["notes"],
    "test_report_run": ["run"],
    "test_report_programs": ["programs"],
}

# Files that are written by hand in the package.
BY_HAND = ("run_events_attempts/src/moment.rt",)

# Modules that plain Rust does not have: laws, which are for proofs, and the text that notes that memory ran out, which
# is a String.
NOT_IN_PLAIN_RUST = ("laws", "noted_text")

# Calls of std and of other crates that return a Result in Rattle, and a plain value in Rust.
PLAIN_CALLS = (
    "append", "entry", "push", "push_back", "push_str", "insert", "replace", "split_off", "extend_from_slice", "to_vec",
    "to_string", "String::from_str", "String::from_utf8_lossy", "reserve_exact", "Vec::with_capacity", "Box::new",
    "Rc::new", "Value::try_from_str",
)

# Calls that have another name in Rust. `(..)` is the place of the arguments.
RENAMED_CALLS = {
    "String::from_str": "String::from",
    "String::from_utf8_lossy": "String::from_utf8_lossy(..).into_owned()",
    "Value::try_from_str": "Value::from",
    "Value::from_str": "serde_json::from_str::<Value>",
}

# Statements that only say that a value holds nothing.
EMPTY_STATEMENTS = ("destroy_empty",)

# What an import of Rattle is in Rust: another path, or nothing.
IMPORTS = {
    "crate::noted_text::NotedText": None,
    "unicode::properties::GeneralCategory": ("output_slice", "is_decimal_digit"),
}

# Paths that are others in the packages.
RENAMED_PATHS = {
    "crate::output_slice::is_decimal_digit": "crate::decimal_digits::is_decimal_digit",
    "crate::run_events_attempts::moment::Moment": "crate::moment::Moment",
    "crate::run_events_attempts::KeptText": "crate::std_impls::KeptText",
}

# Names of types that are another one in Rust.
RENAMED_TYPES = {"NotedText": "String"}

# Traits whose methods are called without their names. Their imports stay.
TRAITS = ("ByteSlice", "ByteSource", "Sink", "Source")

# Modules of std that are in alloc, and names of its prelude that are in alloc.
ALLOC_MODULES = ("collections", "vec")
ALLOC_NAMES = {
    "Box": "alloc::boxed::Box",
    "String": "alloc::string::String",
    "Vec": "alloc::vec::Vec",
    "format!": "alloc::format",
}

# Names of the layer that are in its hidden module `counted`.
COUNTED = ("ByteSource", "CountedBytes", "HeadSpan", "is_decimal_digit", "first_head", "last_head", "last_panic_head")

# Words of contracts, proofs and refusals of memory, which no doc comment has.
WORDS_OF_PROOFS = (
    r"\b([Cc]ontracts?|[Cc]lauses?|[Pp]rove[ds]?|[Pp]rover|[Pp]roofs?|[Ll]emmas?|[Ll]aws?|[Aa]llocat\w+)\b"
    r"|[Mm]emory (is|was|for)\b|[Tt]akes? (no )?memory|enough memory|memory of\b"
)

# How paragraphs of doc comments begin that say when errors come.
ERRORS = ("The error is [`", "If several errors of [`")
