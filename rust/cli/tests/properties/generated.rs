//! Runs that a generator writes. They have all that a harness can say, contradictions, damaged lines, lines of cargo, and
//! texts that are meant to be taken for markup, for colours or for commands.

use crate::properties::random::Random;
use serde_json::{Value, json};

/// Pieces of names and of outputs.
const PIECES: [&str; 48] = [
    "a",
    "tests::adds",
    "log",
    " ",
    "  ",
    "\t",
    "\n",
    "\n",
    "\r\n",
    "\r",
    "\u{1b}[1m",
    "\u{1b}[38;5;9m",
    "\u{1b}[0m",
    "\u{1b}[22;31m",
    "\u{1b}[K",
    "\u{1b}]8;;http://x\u{7}",
    "\u{0}",
    "\u{7f}",
    "\u{85}",
    "\u{9b}2J",
    "\u{202e}",
    "\u{2066}",
    "\u{200f}",
    "\u{2028}",
    "\u{feff}",
    "\u{ffff}",
    "\u{3000}",
    "é€😀",
    ":",
    "::error::x",
    "::set-output name=a::b",
    "##[group]x",
    "##vso[task.complete]",
    "##teamcity[a]",
    "#",
    "[",
    "@team",
    "<script>alert(1)</script>",
    "</pre>",
    "]]>",
    "<!--",
    "&amp;",
    "\"'",
    "%0A%25",
    "| `x` *b* _c_ ~d~ [e](f)",
    "{{name}}{{/name}}",
    "\u{fffd}",
    "$",
];

/// Parts of outputs that may explain a failure.
const EXPLANATIONS: [&str; 7] = [
    "thread 'a' (7) panicked at src/a.rs:1:2:\nno money\n",
    "thread 'worker' (8) panicked at src/b.rs:3:4:\n::error::lost\nmore\n",
    "thread 'c' panicked at /abs/c.rs:5:6:\nwhy\nnote: run with `RUST_BACKTRACE=1`\n",
    "Error: \"no bank\"\n",
    "note: test did not panic as expected at src/d.rs:9:4\n",
    "error[E0308]: mismatched types\n --> src/lib.rs:1:2\n",
    "log\n\nlog\r\n\n",
];

/// Lines that are no events.
const OTHER_LINES: [&str; 11] = [
    "warning: unused",
    "::error::printed",
    "##[endgroup]",
    "thread 'main' (1) panicked at src/main.rs:7:8:\nout of memory",
    "error: test failed, to rerun pass `--lib`",
    "Caused by:\n  process didn't exit successfully: `a` (signal: 6, SIGABRT: process abort signal)",
    "error: could not compile `a` (lib) due to 1 previous error",
    "     Running unittests src/lib.rs (target/debug/deps/a-0123456789abcdef)",
    "     Running tests/it.rs (target/debug/deps/it-0123456789abcdef)",
    "   Doc-tests a@b",
    "{\"type\":\"test\",\"event\":\"failed\",\"name\":\"cut",
];

/// A generator of one run.
pub struct Generator {
    pub random: Random,
    lines: String,

    /// True if no test fails and no line is wrong.
    pub is_sound: bool,

    /// The names of tests that may be running, and whether a test has failed.
    pub names: Vec<String>,
    pub has_failed: bool,
}

/// A test while its lines are written.
struct Test {
    name: String,
    ends: bool,
}

/// What the lines of a suite say about it.
#[derive(Default)]
struct Counts {
    passed: usize,
    failed: usize,
    ignored: usize,
}

/// Returns the files of a run. Each seed has a run of its own.
pub fn run_of(seed: u64) -> Vec<Vec<u8>> {
    let mut generator = Generator::new(seed);
    let files = 1 + usize::from(generator.random.one_in(8));
    (0..files).map(|_| generator.file()).collect()
}

impl Generator {
    /// Returns a generator for a seed.
    pub fn new(seed: u64) -> Generator {
        let mut random = Random::new(seed);
        Generator {
            is_sound: random.one_in(6),
            random,
            lines: String::new(),
            names: Vec::new(),
            has_failed: false,
        }
    }

    /// Takes the lines that were written.
    pub fn take_lines(&mut self) -> Vec<u8> {
        std::mem::take(&mut self.lines).into_bytes()
    }

    /// Returns a file of the run.
    fn file(&mut self) -> Vec<u8> {
        self.lines.clear();
        for number in 0..self.random.below(4) {
            self.others();
            self.suite(number);
        }
        self.others();
        if self.is_wrong(6) {
            self.stray_end();
        }
        if self.random.one_in(4) {
            self.lines.pop();
        }
        self.take_lines()
    }

    /// Writes a line as it is.
    pub fn whole_line(&mut self, line: &Value) {
        self.lines.push_str(&line.to_string());
        self.lines.push('\n');
    }

    /// Writes an event as a line. Few have a text in front, or a damaged event.
    fn line(&mut self, event: &Value) {
        if self.is_wrong(15) {
            let front = self.random.one_of(&[
                "print ",
                "::error::x ",
                "{\"type\":\"test\",\"event\":\"failed\",\"name\":\"lost\"}",
            ]);
            self.lines.push_str(front);
        }
        self.whole_line(event);
    }

    /// Returns true with a probability of one in `count`, unless nothing in the run is wrong.
    pub fn is_wrong(&mut self, count: usize) -> bool {
        self.random.one_in(count) && !self.is_sound
    }

    /// Writes some lines that are no events.
    pub fn others(&mut self) {
        while self.is_wrong(3) {
            self.lines.push_str(self.random.one_of(&OTHER_LINES));
            self.lines.push('\n');
        }
    }

    /// Returns a text of a few pieces.
    fn text(&mut self, most: usize) -> String {
        (0..self.random.below(most + 1))
            .map(|_| self.random.one_of(&PIECES))
            .collect()
    }

    /// Returns a name. One in 40 is longer than is shown.
    pub fn name(&mut self) -> String {
        let mut name = self.text(3);
        if self.random.one_in(40) {
            name.push_str(&"né".repeat(400));
        }
        if self.random.one_in(30) {
            name = format!("src/{name}.rs - Item (line 12)");
        }
        name
    }

    /// Returns the output of a test.
    pub fn output(&mut self) -> String {
        let mut output = self.text(6);
        while self.random.one_in(2) {
            output.push_str(self.random.one_of(&EXPLANATIONS));
            output.push_str(&self.text(4));
        }
        if self.random.one_in(8) {
            let bytes = self.random.one_of(&[512, 513, 600, 3_000]);
            let line = format!("{}é", self.text(2)).repeat(bytes);
            let end = line.floor_char_boundary(bytes);
            output = format!("{}{output}", &line[..end]);
        }
        if self.random.one_in(12) {
            let line = self.text(3);
            output =
                output.replace('\n', &format!("\n{line}\n")) + &"a line of a log\n".repeat(300);
        }
        output
    }

    /// Writes the lines of a suite, whose tests run side by side.
    pub fn suite(&mut self, number: usize) {
        let key = self.random.one_in(3).then(|| {
            let binary = self.random.one_of(&["ledger", "a.b::c", "##[x]", "::b@c"]);
            json!({"crate": "c", "test_binary": binary, "kind": "test"})
        });
        let prefix = match &key {
            Some(key) => format!("c::{}$", key["test_binary"].as_str().unwrap_or("")),
            None => String::new(),
        };
        let tests = self.tests(number, &prefix);
        let count = tests.len() + usize::from(self.is_wrong(3));
        let mut start = json!({"type": "suite", "event": "started", "test_count": count});
        if let Some(key) = &key {
            start["nextest"] = key.clone();
        }
        self.line(&start);
        let counts = self.test_lines(&tests);
        self.suite_end(key, &counts);
    }

    /// Returns the tests of a suite. Their names differ.
    fn tests(&mut self, suite: usize, prefix: &str) -> Vec<Test> {
        (0..self.random.below(6))
            .map(|number| Test {
                name: format!("{prefix}{}{suite}.{number}", self.name()),
                ends: !self.is_wrong(9),
            })
            .collect()
    }

    /// Writes the lines of tests: all start, and then they end.
    fn test_lines(&mut self, tests: &[Test]) -> Counts {
        for test in tests {
            self.line(&json!({"type": "test", "event": "started", "name": test.name}));
            self.names.push(test.name.clone());
            if self.random.one_in(20) {
                self.others();
            }
        }
        let mut counts = Counts::default();
        for test in tests {
            if self.random.one_in(8) {
                self.line(&json!({"type": "test", "event": "timeout", "name": test.name}));
            }
            if test.ends {
                self.test_end(&test.name, &mut counts);
            }
        }
        counts
    }

    /// Writes the line of a test's end.
    fn test_end(&mut self, test: &str, counts: &mut Counts) {
        let name = match self.random.below(6) {
            0 => format!("{test}#{}", self.random.one_of(&[2, 3, 25])),
            _ => test.to_string(),
        };
        let event = match self.random.below(5) {
            0 => "ignored",
            1 | 2 if !self.is_sound => "failed",
            _ => "ok",
        };
        let mut end = json!({"type": "test", "event": event, "name": name});
        if !self.random.one_in(3) {
            let times = [0.0, 0.001, 0.25, 1.5, 59.999_999, 60.0, 1_234.567_8];
            end["exec_time"] = self.random.one_of(&times).into();
        }
        match event {
            "ok" => counts.passed += 1,
            "failed" => {
                counts.failed += 1;
                self.has_failed = true;
            }
            _ => counts.ignored += 1,
        }
        self.texts(&mut end, event);
        if event == "ok" && name != test && self.random.one_in(2) {
            end["stdout"] = self.attempts().into();
        }
        if end["stdout"].is_null() && self.is_wrong(2) {
            self.panics(test);
        }
        self.line(&end);
    }

    /// Returns the outputs of attempts of a test. Some of their lines may be those of other attempts.
    fn attempts(&mut self) -> String {
        let mut text = "--- ATTEMPT 1 FAILED ---\n".to_string();
        for line in ["2 FAILED", "2 PASSED", "3 FAILED", "3 PASSED"] {
            text.push_str(&self.output());
            if self.random.one_in(2) {
                text.push_str(&format!("\n--- ATTEMPT {line} ---\n"));
            }
        }
        text
    }

    /// Writes panics of threads as lines that are no events: of a test, and of others.
    fn panics(&mut self, test: &str) {
        let names = [test, test, "worker", "a"];
        while self.random.one_in(2) {
            // A name with a quote or a line feed would be the name of another thread.
            let name = self.random.one_of(&names).replace(['\'', '\n'], "");
            let line = self.random.below(90);
            let head = format!("thread '{name}' (7) panicked at src/a.rs:{line}:2:");
            self.lines.push_str(&format!("{head}\nlost\n\n"));
            self.others();
        }
    }

    /// Adds texts to the line of a test's end.
    fn texts(&mut self, end: &mut Value, event: &str) {
        if self.random.one_in(2) {
            end["stdout"] = self.output().into();
        }
        if event != "ok" && self.random.one_in(3) {
            end["message"] = self.output().into();
        }
        if event == "failed" && self.random.one_in(4) {
            end["reason"] = self
                .random
                .one_of(&["time limit exceeded", "::x\n##[y]"])
                .into();
        }
    }

    /// Writes the last line of a suite, which may be wrong or absent.
    fn suite_end(&mut self, key: Option<Value>, counts: &Counts) {
        if self.is_wrong(5) {
            return;
        }
        let lost = usize::from(self.is_wrong(3)).min(counts.passed);
        let failed = counts.failed + lost;
        let verdict = if failed > 0 { "failed" } else { "ok" };
        let mut end = json!({"type": "suite", "event": verdict});
        if !self.random.one_in(5) {
            end["passed"] = (counts.passed - lost).into();
            end["failed"] = failed.into();
            end["ignored"] = counts.ignored.into();
        }
        if self.random.one_in(2) {
            end["exec_time"] = 0.75.into();
        }
        if let Some(key) = key {
            end["nextest"] = key;
        }
        self.line(&end);
    }

    /// Writes the end of a test or of a suite that had not started.
    fn stray_end(&mut self) {
        let name = self.name();
        let end = match self.random.below(3) {
            0 => json!({"type": "test", "event": "started", "name": name}),
            1 => json!({"type": "test", "event": "failed", "name": name}),
            _ => json!({"type": "suite", "event": "failed"}),
        };
        self.line(&end);
    }
}
