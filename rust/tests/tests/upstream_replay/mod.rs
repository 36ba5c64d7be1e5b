//! Replays the stored inputs of `run-digest` through its engines.
//!
//! `data/upstream_replay.txt` has a case in each line: the name of its kind, a space, and the case. A
//! line that begins with `#` describes the cases after it. A line that begins with `changed` has a
//! case with another result than the stored one, and a line that begins with `malformed` has no case.
//! These two kinds show that the replay notices a wrong line. `tools/generate` packs lines for the
//! crate `deodarsieve`, which replays them in its own tests. All other lines are replayed here.
//! `docs/PLAIN-RUST.md` has the number of lines, which `tools/documents` compares.

mod engine;
#[path = "../../../deodarsieve/tests/upstream_replay/lines.rs"]
mod lines;

use deodarsieve_cli::run_digest_engine::command::Command;
use lines::{agrees, unpacked};
use std::collections::HashSet;

const LINES: &str = include_str!("../../data/upstream_replay.txt");

/// The lines that the crate `deodarsieve` replays.
const PACKED: &[u8] = include_bytes!("../../../deodarsieve/tests/data/upstream_replay.txt.gz");

/// Returns true if the engine has the result of a case, or `None` if the text is not a case of a
/// program.
fn agrees_as_it_is(line: &str) -> Option<bool> {
    match line.split_once(' ')? {
        ("count", case) => engine::agrees(Command::Count, case),
        ("digest-extract", case) => engine::agrees(Command::Extract, case),
        _ => None,
    }
}

#[test]
fn all_lines_that_are_not_packed_agree() {
    let packed = unpacked(PACKED);
    let packed: HashSet<&str> = packed.lines().collect();
    let lines = (1..)
        .zip(LINES.lines())
        .filter(|(_, line)| !line.starts_with('#') && !packed.contains(line));
    let results: Vec<_> = lines
        .map(|(number, line)| (number, agrees(line, agrees_as_it_is)))
        .collect();
    let wrong: Vec<_> = results
        .iter()
        .filter(|(_, result)| *result != Some(true))
        .collect();
    assert!(wrong.is_empty(), "{wrong:?}");
    assert!(!results.is_empty());
}
