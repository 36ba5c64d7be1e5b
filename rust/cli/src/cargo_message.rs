//! What cargo writes to standard output while it builds, with a `--message-format` of JSON: an object in each line.

use serde::Deserialize;
use std::iter::successors;

/// A message of cargo.
#[derive(Debug, Deserialize)]
#[serde(tag = "reason", rename_all = "kebab-case")]
pub enum CargoMessage {
    /// The compiler says something about a target.
    CompilerMessage(CompilerMessage),

    /// A target is built.
    CompilerArtifact(Artifact),

    /// A build script has ended.
    BuildScriptExecuted,

    /// The build is over. Cargo says so to people after this.
    BuildFinished,
}

/// A message of the compiler.
#[derive(Debug, Deserialize)]
pub struct CompilerMessage {
    package_id: String,
    target: Target,

    /// What the compiler says.
    pub message: Diagnostic,
}

/// A target that is built.
#[derive(Debug, Deserialize)]
pub struct Artifact {
    package_id: String,
    target: Target,
    profile: Profile,

    /// The path of the manifest of its package.
    pub manifest_path: Option<String>,

    /// The path of the program, if the target is one.
    pub executable: Option<String>,
}

/// A target of a package, as cargo writes it.
#[derive(Debug, Deserialize)]
struct Target {
    kind: Vec<String>,
    name: String,
}

/// How a target is built.
#[derive(Debug, Deserialize)]
struct Profile {
    test: bool,
}

/// What the compiler says. Two errors that look alike differ in their places if they come from one macro.
#[derive(Clone, Debug, PartialEq, Eq, Hash, Deserialize)]
pub struct Diagnostic {
    level: Level,
    code: Option<Code>,
    pub message: String,
    spans: Vec<Span>,

    /// The whole text for a terminal, with its line feeds. It has colours if cargo was asked for them.
    #[serde(default)]
    rendered: Option<String>,
}

/// How severe a message of the compiler is.
#[derive(Clone, Copy, Debug, PartialEq, Eq, Hash, Deserialize)]
enum Level {
    #[serde(rename = "error")]
    Error,

    /// The compiler itself has failed.
    #[serde(rename = "error: internal compiler error")]
    InternalError,

    #[serde(rename = "warning")]
    Warning,

    /// An addition to other messages.
    #[serde(other)]
    Other,
}

/// The code of an error, or the name of a lint.
#[derive(Clone, Debug, PartialEq, Eq, Hash, Deserialize)]
struct Code {
    code: String,
}

/// A part of a source file.
#[derive(Clone, Debug, PartialEq, Eq, Hash, Deserialize)]
struct Span {
    file_name: String,
    line_start: u64,
    column_start: u64,
    is_primary: bool,
    expansion: Option<Box<Expansion>>,
}

/// The use of a macro from which a part of a source comes.
#[derive(Clone, Debug, PartialEq, Eq, Hash, Deserialize)]
struct Expansion {
    span: Span,
}

/// The place that a message of the compiler is about.
#[derive(Clone, Debug, PartialEq, Eq)]
pub struct SourcePlace {
    pub file: String,
    pub line: u64,
    pub column: u64,
}

/// A target of a package: a library, a program, an integration test and so on. Cargo compiles some of them twice: as
/// they are, and as a test program.
#[derive(Clone, Debug, PartialEq, Eq, Hash)]
pub struct TargetId {
    /// Cargo's identifier of the package.
    package_id: String,

    /// The first kind of the target. A target that is no library has one.
    pub kind: String,
    pub name: String,
}

/// The kinds of a library.
const LIBRARIES: [&str; 6] = ["lib", "rlib", "dylib", "cdylib", "staticlib", "proc-macro"];

impl CargoMessage {
    /// Returns the message in a line, or `None` if the line is none.
    pub fn read(line: &[u8]) -> Option<CargoMessage> {
        serde_json::from_slice(line).ok()
    }
}

impl CompilerMessage {
    /// Returns the target that was compiled. Cargo does not say whether it was compiled as a test program.
    pub fn target(&self) -> TargetId {
        self.target.id(&self.package_id)
    }
}

impl Artifact {
    /// Returns the target that is built.
    pub fn target(&self) -> TargetId {
        self.target.id(&self.package_id)
    }

    /// Returns true if the target is built as a test program.
    pub fn is_test(&self) -> bool {
        self.profile.test
    }
}

impl Target {
    /// Returns the target in the package with this identifier.
    fn id(&self, package_id: &str) -> TargetId {
        TargetId {
            package_id: package_id.to_string(),
            kind: self.kind.first().cloned().unwrap_or_default(),
            name: self.name.clone(),
        }
    }
}

impl TargetId {
    /// Returns the name of the package, or cargo's identifier of it if there is no name in that.
    pub fn package(&self) -> &str {
        package_of(&self.package_id).unwrap_or(&self.package_id)
    }

    /// Returns true for a library.
    pub fn is_library(&self) -> bool {
        LIBRARIES.contains(&self.kind.as_str())
    }

    /// Returns what cargo calls the target in its messages, without the name of the package.
    pub fn description(&self) -> String {
        match self.kind.as_str() {
            "custom-build" => "build script".to_string(),
            _ if self.is_library() => "lib".to_string(),
            kind => format!("{kind} \"{}\"", self.name),
        }
    }
}

impl Diagnostic {
    /// Returns true for an error.
    pub fn is_error(&self) -> bool {
        match self.level {
            Level::Error | Level::InternalError => true,
            Level::Warning | Level::Other => false,
        }
    }

    /// Returns true for a warning.
    pub fn is_warning(&self) -> bool {
        self.level == Level::Warning
    }

    /// Returns the code of an error or the name of a lint, if the message has one.
    pub fn code(&self) -> Option<&str> {
        self.code.as_ref().map(|code| code.code.as_str())
    }

    /// Returns the whole text for a terminal. It is empty if cargo gives none.
    pub fn rendered(&self) -> &str {
        self.rendered.as_deref().unwrap_or_default()
    }

    /// Returns the place of the message, if it has one. In a macro of another crate this is where the macro is used.
    pub fn place(&self) -> Option<SourcePlace> {
        let primary = self.spans.iter().find(|span| span.is_primary)?;
        let mut uses = successors(Some(primary), |span| Some(&span.expansion.as_ref()?.span));
        let span = uses.find(|span| !is_foreign(&span.file_name));
        let span = span.unwrap_or(primary);
        Some(SourcePlace {
            file: span.file_name.clone(),
            line: span.line_start,
            column: span.column_start,
        })
    }
}

/// Returns true for a file of the standard library, and for what is no file.
fn is_foreign(file: &str) -> bool {
    file.starts_with("/rustc/") || file.starts_with('<')
}

/// Returns the name of the package with this identifier: `NAME VERSION (SOURCE)`, as cargo before 1.77 writes it, or a
/// URL. After the `#` of a URL there is `NAME@VERSION`, or the version alone if the name is the last part of the
/// URL's path.
fn package_of(id: &str) -> Option<&str> {
    if let Some((name, _)) = id.split_once(' ') {
        return Some(name);
    }
    let (url, fragment) = id.rsplit_once('#')?;
    match fragment.split_once('@') {
        Some((name, _)) => Some(name),
        None => url.split('?').next()?.rsplit('/').next(),
    }
}

#[cfg(test)]
mod tests {
    use super::*;
    use serde_json::{Value, json};

    #[test]
    fn the_package_has_a_name_in_each_form_of_its_identifier() {
        let cases = [
            ("path+file:///a/money#0.1.0", "money"),
            ("path+file:///a/other#money@0.1.0", "money"),
            ("path+file:///a%20b/money#0.1.0+build.1", "money"),
            ("registry+https://github.com/a/index#money@1.0.0", "money"),
            ("git+https://b.c/money?branch=a/b#0.1.0", "money"),
            ("git+https://b.c/d.git?rev=1#money@0.1.0-a.1", "money"),
            ("money 0.1.0 (path+file:///a/other#x)", "money"),
            ("money 1.0.0 (registry+https://github.com/a/index)", "money"),
        ];
        for (id, name) in cases {
            assert_eq!(package_of(id), Some(name), "{id}");
        }
        assert_eq!(package_of("money"), None);
    }

    /// Returns a message of the compiler about a target of this kind.
    fn message(kind: &str, diagnostic: &Value) -> CompilerMessage {
        let message = json!({
            "reason": "compiler-message", "package_id": "path+file:///a/money#0.1.0", "manifest_path": "/a/Cargo.toml",
            "target": {"kind": [kind], "name": "it", "src_path": "/a/it.rs"}, "message": diagnostic,
        });
        match CargoMessage::read(message.to_string().as_bytes()) {
            Some(CargoMessage::CompilerMessage(message)) => message,
            other => panic!("{other:?}"),
        }
    }

    /// Returns what the compiler says at these parts of the sources.
    fn diagnostic(level: &str, code: &Value, spans: &[Value]) -> Value {
        json!({"level": level, "code": code, "message": "no", "spans": spans, "children": [], "rendered": "no\n"})
    }

    /// Returns a part of a file in the first column of this line, which comes from the use of a macro there.
    fn span(file: &str, line: u64, is_primary: bool, use_of_macro: Option<Value>) -> Value {
        let expansion = use_of_macro.map(|span| json!({"span": span, "macro_decl_name": "a!"}));
        json!({
            "file_name": file, "line_start": line, "column_start": 1, "is_primary": is_primary, "expansion": expansion,
        })
    }

    #[test]
    fn a_target_has_the_name_that_cargo_gives_it() {
        let cases = [
            ("lib", "lib"),
            ("rlib", "lib"),
            ("proc-macro", "lib"),
            ("bin", "bin \"it\""),
            ("test", "test \"it\""),
            ("bench", "bench \"it\""),
            ("example", "example \"it\""),
            ("custom-build", "build script"),
        ];
        let said = diagnostic("error", &json!(null), &[]);
        for (kind, name) in cases {
            let target = message(kind, &said).target();
            assert_eq!(
                (target.package(), target.description().as_str()),
                ("money", name)
            );
        }
    }

    #[test]
    fn an_error_is_known_by_its_level() {
        let levels = [
            ("error", true),
            ("error: internal compiler error", true),
            ("warning", false),
            ("failure-note", false),
            ("help", false),
        ];
        for (level, is_error) in levels {
            let code = json!({"code": "E0425", "explanation": null});
            let said = message("lib", &diagnostic(level, &code, &[])).message;
            assert_eq!(said.is_error(), is_error, "{level}");
            assert_eq!(said.code(), Some("E0425"));
            assert_eq!(said.place(), None);
        }
    }

    #[test]
    fn the_place_is_where_a_macro_of_another_crate_is_used() {
        let own = |line| span("src/lib.rs", line, true, None);
        let foreign = |file: &str, used| span(file, 46, true, Some(used));
        let core = "/rustc/59807616/library/core/src/macros/mod.rs";
        let cases = [
            (own(3), ("src/lib.rs", 3)),
            (span("src/lib.rs", 4, true, Some(own(9))), ("src/lib.rs", 4)),
            (foreign(core, own(5)), ("src/lib.rs", 5)),
            (
                foreign(core, foreign("<a macros>", own(6))),
                ("src/lib.rs", 6),
            ),
            (span(core, 7, true, None), (core, 7)),
        ];
        for (span_of_error, (file, line)) in cases {
            let spans = [span("src/other.rs", 1, false, None), span_of_error];
            let place = message("lib", &diagnostic("error", &json!(null), &spans))
                .message
                .place();
            let wanted = SourcePlace {
                file: file.to_string(),
                line,
                column: 1,
            };
            assert_eq!(place, Some(wanted));
        }
    }

    #[test]
    fn another_line_is_no_message() {
        for line in [
            "",
            "{",
            "a line",
            "{\"reason\":\"own\"}",
            "{\"type\":\"suite\"}",
            "{\"reason\":\"compiler-message\"}",
        ] {
            assert!(CargoMessage::read(line.as_bytes()).is_none(), "{line}");
        }
        let finished = CargoMessage::read(b"{\"reason\":\"build-finished\",\"success\":false}");
        assert!(matches!(finished, Some(CargoMessage::BuildFinished)));
        let executed =
            "{\"reason\":\"build-script-executed\",\"package_id\":\"a\",\"linked_libs\":[]}";
        let executed = CargoMessage::read(executed.as_bytes());
        assert!(matches!(executed, Some(CargoMessage::BuildScriptExecuted)));
    }
}
