//! The lines of a run that this program writes itself: what the stand-ins see of their programs, and what became of the
//! command.

use bstr::ByteSlice;
use serde::de::{IgnoredAny, MapAccess, Visitor};
use serde::{Deserialize, Deserializer, Serialize};
use serde_json::Value;
use std::borrow::Cow;
use std::fmt;
use std::io;
use std::time::Duration;

/// The values of the member `type` of these lines.
const TYPES: [&str; 2] = ["program", "command"];

/// The texts with which an event may begin after other text in its line.
const FRONTS: [&str; 2] = ["{\"type\"", "{ \"type\""];

/// A line of a run that this program writes.
#[derive(Debug, Serialize)]
#[serde(tag = "type", rename_all = "lowercase")]
pub enum RunLine<'a> {
    Program(ProgramLine<'a>),
    Command(CommandLine),
}

/// What a stand-in sees of its program.
#[derive(Debug, Serialize)]
#[serde(tag = "event", rename_all = "lowercase")]
pub enum ProgramLine<'a> {
    Started(StartedProgram<'a>),

    /// Tests that were to run again are no longer in a program, which may not start.
    Missing(MissingTests),
    Ended {
        #[serde(flatten)]
        end: ProcessEnd,

        /// The last of what the program wrote to standard error.
        stderr: Cow<'a, str>,
    },
}

/// Tests that a program no longer has.
#[derive(Debug, Default, PartialEq, Eq, Serialize, Deserialize)]
pub struct MissingTests {
    /// The name of the program.
    pub name: String,
    pub tests: Vec<String>,

    /// The documentation tests whose lines have moved.
    #[serde(default, skip_serializing_if = "Vec::is_empty")]
    pub moved: Vec<String>,

    /// The documentation tests of the same items, which run in place of these.
    #[serde(default, skip_serializing_if = "Vec::is_empty")]
    pub instead: Vec<String>,
}

impl MissingTests {
    /// Reads a line of this program about missing tests. Returns `None` for any other line.
    pub fn read(line: &[u8]) -> Option<MissingTests> {
        let event: Value = serde_json::from_slice(line).ok()?;
        let is_missing = event["type"] == "program" && event["event"] == "missing";
        serde_json::from_value(event).ok().filter(|_| is_missing)
    }
}

/// A program that starts. What is not known is left out.
#[derive(Debug, Default, Serialize)]
pub struct StartedProgram<'a> {
    #[serde(skip_serializing_if = "Option::is_none")]
    pub package: Option<Cow<'a, str>>,

    #[serde(skip_serializing_if = "Option::is_none")]
    pub target: Option<Cow<'a, str>>,

    #[serde(skip_serializing_if = "Option::is_none")]
    pub kind: Option<Cow<'a, str>>,

    #[serde(skip_serializing_if = "Option::is_none")]
    pub path: Option<Cow<'a, str>>,

    /// The name of its suites.
    #[serde(skip_serializing_if = "Option::is_none")]
    pub name: Option<Cow<'a, str>>,

    /// False if the program has a harness of its own.
    #[serde(skip_serializing_if = "is_true")]
    pub harness: bool,

    /// True if the harness is asked to list tests or options, and runs no test.
    #[serde(skip_serializing_if = "is_false")]
    pub list: bool,
}

/// What became of a command.
#[derive(Debug, Serialize)]
#[serde(tag = "event", rename_all = "lowercase")]
pub enum CommandLine {
    Started,
    Cancelled {
        cancelled: CancelledBy,
    },
    Ended {
        /// How it ended, or `None` if it was not started.
        #[serde(flatten)]
        end: Option<ProcessEnd>,

        /// Why it failed, in the words of cargo or, if it was not started, of the system.
        #[serde(skip_serializing_if = "Option::is_none")]
        error: Option<String>,

        /// For how many seconds its tests ran by the clock, unless it ran none.
        #[serde(skip_serializing_if = "Option::is_none")]
        time: Option<f64>,
    },
}

/// Why a run is cancelled.
#[derive(Clone, Copy, Debug, PartialEq, Eq, Serialize)]
pub enum CancelledBy {
    /// By Ctrl-C.
    Interrupt,

    /// By SIGTERM.
    Signal,
}

/// How a process ended. It is one member of a line.
#[derive(Clone, Copy, Debug, PartialEq, Eq, Serialize)]
#[serde(rename_all = "lowercase")]
pub enum ProcessEnd {
    Status(i32),
    Signal(i32),
}

/// Returns true for `true`, which a line leaves out.
fn is_true(value: &bool) -> bool {
    *value
}

/// Returns true for `false`, which a line leaves out.
fn is_false(value: &bool) -> bool {
    !value
}

impl RunLine<'_> {
    /// Returns the text of the line, without a line feed.
    ///
    /// Fails if serde_json cannot write it.
    pub fn text(&self) -> io::Result<Vec<u8>> {
        Ok(serde_json::to_vec(self)?)
    }
}

/// Returns the member `time` of a line about the end of a command, if it is one of [`CommandLine::Ended`].
pub fn time_in(line: &[u8]) -> Option<Duration> {
    #[derive(Deserialize)]
    struct Timed {
        time: f64,
    }
    let Timed { time } = serde_json::from_slice(line).ok()?;
    Duration::try_from_secs_f64(time).ok()
}

/// Returns true if a reader of the run takes a line as one that this program writes. `line` has no line feed.
///
/// The event of a line is the whole line if that is JSON, and otherwise what follows from the last front of an event on.
pub fn is_run_line(line: &[u8]) -> bool {
    // Nearly all lines are told apart without a copy of their texts.
    may_be_run_line(line) && event_of(line).is_some_and(|event| is_type(&event["type"]))
}

/// Returns true if this may be a line that this program writes, and false for all other lines but a few that no reader
/// takes as JSON, for example because a number in them is too large.
fn may_be_run_line(line: &[u8]) -> bool {
    line.contains(&b'{')
        && type_of(line)
            .or_else(|| type_of(last_event(line)?))
            .is_some_and(|kind| is_type(&kind))
}

/// Returns true for the type of a line that this program writes.
fn is_type(kind: &Value) -> bool {
    TYPES.iter().any(|it| kind == it)
}

/// Returns the event of a line as a reader of the run finds it, if it is JSON.
fn event_of(line: &[u8]) -> Option<Value> {
    let value_of = |bytes| serde_json::from_str(str::from_utf8(bytes).ok()?).ok();
    value_of(line).or_else(|| value_of(last_event(line)?))
}

/// Returns the end of a line from the last front of an event on.
fn last_event(line: &[u8]) -> Option<&[u8]> {
    let last = FRONTS.iter().filter_map(|front| line.rfind(front)).max()?;
    Some(&line[last..])
}

/// Returns the member `type` of an object, or `None` if there is none, or if this is no object.
fn type_of(bytes: &[u8]) -> Option<Value> {
    let TypeOf(kind) = serde_json::from_slice(bytes).ok()?;
    kind
}

/// The member `type` of an object. The other members are read and not kept.
struct TypeOf(Option<Value>);

impl<'de> Deserialize<'de> for TypeOf {
    fn deserialize<D: Deserializer<'de>>(deserializer: D) -> Result<TypeOf, D::Error> {
        deserializer.deserialize_map(TypeVisitor)
    }
}

/// Reads the members of an object.
struct TypeVisitor;

impl<'de> Visitor<'de> for TypeVisitor {
    type Value = TypeOf;

    fn expecting(&self, f: &mut fmt::Formatter) -> fmt::Result {
        f.write_str("an object")
    }

    /// Returns the last one of several members of this name, as readers do.
    fn visit_map<A: MapAccess<'de>>(self, mut members: A) -> Result<TypeOf, A::Error> {
        let mut kind = None;
        while let Some(name) = members.next_key::<Cow<str>>()? {
            if name == "type" {
                kind = Some(members.next_value()?);
            } else {
                members.next_value::<IgnoredAny>()?;
            }
        }
        Ok(TypeOf(kind))
    }
}

#[cfg(test)]
mod tests {
    use super::*;

    /// Asserts the text of a line.
    fn assert_text(line: RunLine, wanted: &str) {
        let text = line.text().expect("the line can be written");
        assert_eq!(text.as_bstr(), wanted);
    }

    /// Returns the line of the end of a program that wrote this to standard error.
    fn ended(end: ProcessEnd, stderr: &str) -> RunLine<'_> {
        let stderr = stderr.into();
        RunLine::Program(ProgramLine::Ended { end, stderr })
    }

    #[test]
    fn the_lines_of_programs_are_those_that_readers_know() {
        let program = StartedProgram {
            package: Some("money".into()),
            target: Some("it".into()),
            kind: Some("test".into()),
            path: Some("/a \"b\"/it-1".into()),
            name: Some("money::it".into()),
            harness: true,
            list: false,
        };
        assert_text(
            RunLine::Program(ProgramLine::Started(program)),
            r#"{"type":"program","event":"started","package":"money","target":"it","kind":"test","path":"/a \"b\"/it-1","name":"money::it"}"#,
        );
        let program = StartedProgram {
            list: true,
            ..StartedProgram::default()
        };
        assert_text(
            RunLine::Program(ProgramLine::Started(program)),
            r#"{"type":"program","event":"started","harness":false,"list":true}"#,
        );
        assert_text(
            ended(ProcessEnd::Status(-3), "a\n\u{fffd}"),
            "{\"type\":\"program\",\"event\":\"ended\",\"status\":-3,\"stderr\":\"a\\n\u{fffd}\"}",
        );
        assert_text(
            ended(ProcessEnd::Signal(6), ""),
            r#"{"type":"program","event":"ended","signal":6,"stderr":""}"#,
        );
    }

    #[test]
    fn a_line_says_which_tests_are_missing() {
        let missing = || MissingTests {
            name: "money".into(),
            tests: vec!["a \"b\"".into()],
            ..MissingTests::default()
        };
        let text = r#"{"type":"program","event":"missing","name":"money","tests":["a \"b\""]}"#;
        assert_text(RunLine::Program(ProgramLine::Missing(missing())), text);
        assert_eq!(MissingTests::read(text.as_bytes()), Some(missing()));
        assert_eq!(
            MissingTests::read(text.replace("missing", "ended").as_bytes()),
            None
        );
        assert_eq!(
            MissingTests::read(text.replace("program", "test").as_bytes()),
            None
        );
    }

    #[test]
    fn the_lines_of_a_command_are_those_that_readers_know() {
        let cancelled = |cancelled| RunLine::Command(CommandLine::Cancelled { cancelled });
        let ended = |end, error: Option<&str>| {
            let (error, time) = (error.map(String::from), error.map(|_| 1.25));
            RunLine::Command(CommandLine::Ended { end, error, time })
        };
        assert_text(
            RunLine::Command(CommandLine::Started),
            r#"{"type":"command","event":"started"}"#,
        );
        assert_text(
            cancelled(CancelledBy::Interrupt),
            r#"{"type":"command","event":"cancelled","cancelled":"Interrupt"}"#,
        );
        assert_text(
            cancelled(CancelledBy::Signal),
            r#"{"type":"command","event":"cancelled","cancelled":"Signal"}"#,
        );
        assert_text(
            ended(Some(ProcessEnd::Status(101)), Some("error: a")),
            r#"{"type":"command","event":"ended","status":101,"error":"error: a","time":1.25}"#,
        );
        assert_text(
            ended(Some(ProcessEnd::Signal(15)), None),
            r#"{"type":"command","event":"ended","signal":15}"#,
        );
        assert_text(ended(None, None), r#"{"type":"command","event":"ended"}"#);
    }

    #[test]
    fn the_time_of_a_command_is_that_of_its_end() {
        let time = |line: &str| time_in(line.as_bytes());
        let quarter = Duration::from_millis(1_250);
        assert_eq!(time(r#"{"type":"command","time":1.25}"#), Some(quarter));
        for line in [
            r#"{"time":-1}"#,
            r#"{"time":1e300}"#,
            r#"{"time":"1"}"#,
            "{}",
            "1",
        ] {
            assert_eq!(time(line), None, "{line}");
        }
    }

    #[test]
    fn a_line_is_of_the_run_wherever_its_event_begins_and_however_it_is_written() {
        for line in [
            r#"{"type":"program","event":"ended","status":0}"#,
            r#"{"type":"command","event":"ended","status":0}"#,
            "  \t{ \"event\" : \"ended\" , \"type\" : \"program\" } \r",
            r#"{"type":"program"}"#,
            r#"{"t\u0079pe":"pro\u0067ram","event":"ended"}"#,
            r#"{"type":"test","type":"command"}"#,
            r#"test adds ... {"type":"program","event":"ended","status":0}"#,
            r#"{"type":"test"} { "type":"c\u006fmmand"}"#,
            r#"{"type":"program"} {"type":"test"}{ "type": "program" }"#,
            r#"{"x":1e999} {"type":"program"}"#,
            r#"{"type":"program","x":{"type":"test"}}"#,
        ] {
            assert!(is_run_line(line.as_bytes()), "{line}");
        }
        assert!(is_run_line(b"\xff{\"type\":\"program\"}"));
    }

    #[test]
    fn other_lines_are_not_of_the_run() {
        for line in [
            "",
            "{",
            "program",
            r#"{"type":"suite","event":"ok","stdout":"{\"type\":\"program\"}"}"#,
            r#"{"type":"program","type":"test"}"#,
            r#"{"type":["program"]}"#,
            r#"{"type":null,"event":"program"}"#,
            r#"{"event":"program"}"#,
            r#""{\"type\":\"program\"}""#,
            r#"[{"type":"program"}]"#,
            r#"{"a":{"type":"program"}}"#,
            r#"{"type":"program"} and more"#,
            r#"{"type":"program"} {"type":"test"}"#,
            r#"a {"event":"ended","type":"program"}"#,
            r#"{"type":"programs"}"#,
            r#"{"type":"Program"}"#,
            // These are not JSON.
            r#"{"type":"program","x":1e999}"#,
            r#"{"type":"program","x":"\ud800"}"#,
            r#"{"type":"program","x":"#,
        ] {
            assert!(!is_run_line(line.as_bytes()), "{line}");
        }
        assert!(!is_run_line(b"{\"type\":\"program\",\"x\":\"\xff\"}"));
    }
}
