//! Runs that a generator writes, in which lines say how each program, and the command, started and ended.

use crate::properties::generated::Generator;
use serde_json::{Value, json};

/// Returns the files of a run. Each seed has a run of its own.
pub fn run_of(seed: u64) -> Vec<Vec<u8>> {
    let mut generator = Generator::new(seed);
    let files = 1 + usize::from(generator.random.one_in(8));
    (0..files).map(|_| file(&mut generator)).collect()
}

/// Returns a file of the run.
fn file(generator: &mut Generator) -> Vec<u8> {
    if !generator.random.one_in(4) {
        generator.whole_line(&json!({"type": "command", "event": "started"}));
    }
    let cancelled = generator.random.below(8);
    for number in 0..1 + generator.random.below(3) {
        program(generator, number);
        if number == cancelled {
            let reasons = ["Interrupt", "Signal", "Rain"];
            let reason = generator.random.one_of(&reasons);
            generator
                .whole_line(&json!({"type": "command", "event": "cancelled", "cancelled": reason}));
        }
        generator.others();
    }
    if generator.is_wrong(8) {
        let end = with_end(json!({"type": "program", "event": "ended"}), generator);
        generator.whole_line(&end);
    }
    if !generator.is_wrong(8) {
        command_end(generator);
    }
    generator.take_lines()
}

/// Writes the lines of a program and of its suites.
fn program(generator: &mut Generator, number: usize) {
    generator.has_failed = false;
    let mut start = json!({"type": "program", "event": "started", "name": generator.name()});
    if generator.is_wrong(6) {
        start["harness"] = false.into();
    }
    if generator.is_wrong(8) {
        start["list"] = true.into();
    }
    generator.whole_line(&start);
    let suites = if generator.is_wrong(4) { 0 } else { 1 };
    for suite in 0..suites + usize::from(generator.random.one_in(5)) {
        generator.suite(number * 2 + suite);
    }
    if generator.is_wrong(8) {
        return;
    }
    let mut end = json!({"type": "program", "event": "ended", "stderr": stderr(generator)});
    end["status"] = if generator.has_failed { 101 } else { 0 }.into();
    if generator.is_wrong(4) {
        end = with_end(end, generator);
    }
    generator.whole_line(&end);
}

/// Returns a line with an end that may be unexpected.
fn with_end(mut line: Value, generator: &mut Generator) -> Value {
    if let Some(members) = line.as_object_mut() {
        members.remove("status");
    }
    match generator.random.below(3) {
        0 => line["status"] = generator.random.one_of(&[0, 3, 101, 130, -7]).into(),
        1 => line["signal"] = generator.random.one_of(&[2, 6, 11, 15, 99]).into(),
        _ => {}
    }
    line
}

/// Returns what a program wrote to standard error. It may name tests that ran.
fn stderr(generator: &mut Generator) -> String {
    let mut text = generator.output();
    for name in std::mem::take(&mut generator.names) {
        if generator.is_wrong(4) {
            let words = ["has overflowed its stack", "panicked at src/a.rs:1:2:"];
            let words = generator.random.one_of(&words);
            text.push_str(&format!("\nthread '{name}' (7) {words}\nlost\n"));
        }
    }
    text
}

/// Writes the line of the end of the command.
fn command_end(generator: &mut Generator) {
    let mut end = json!({"type": "command", "event": "ended", "status": 0});
    if generator.is_wrong(2) {
        end["status"] = 101.into();
    }
    if generator.is_wrong(6) {
        end = with_end(end, generator);
    }
    if generator.is_wrong(3) {
        end["error"] = format!("error: no bank\n{}", generator.output()).into();
    }
    if generator.is_wrong(10) {
        end["cancelled"] = "Interrupt".into();
    }
    generator.whole_line(&end);
}
