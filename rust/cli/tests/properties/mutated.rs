//! Stored runs, and the same with damage.

use crate::properties::random::Random;
use bstr::ByteSlice;
use std::fs;
use std::path::{Path, PathBuf};

/// Bytes that mean something to a reader of lines, of JSON, of names or of terminals.
const BYTES: [u8; 14] = [
    b'\n', b'"', b'{', b'}', b'\\', b'9', b'#', b':', b'$', b'<', b'@', 0x1b, 0x80, 0xff,
];

/// Returns the stored runs of this package and, inside the repository, of its examples, with their names. They have no
/// backtraces and no values with a diff, which JSON has whole and the other forms have not.
pub fn stored_runs() -> Vec<(String, Vec<u8>)> {
    let package = Path::new(env!("CARGO_MANIFEST_DIR"));
    let folders = ["tests/samples/test-report", "../../examples/test-report"];
    let mut paths: Vec<PathBuf> = folders
        .iter()
        .filter_map(|folder| fs::read_dir(package.join(folder)).ok())
        .flatten()
        .map(|entry| entry.expect("the folder can be read").path())
        .filter(|path| path.extension().is_some_and(|found| found == "jsonl"))
        .collect();
    paths.sort();
    paths
        .iter()
        .map(|path| {
            let run = fs::read(path).expect("the run can be read");
            let run = run
                .replace("stack backtrace:", "stack-backtrace:")
                .replace("left == right", "left is right");
            (path.display().to_string(), run)
        })
        .collect()
}

/// Returns a run with one to three changes. `other` is a run whose lines may be added.
pub fn mutated(run: &[u8], other: &[u8], random: &mut Random) -> Vec<u8> {
    let mut run = run.to_vec();
    for _ in 0..=random.below(3) {
        run = if random.one_in(2) {
            with_other_byte(run, random)
        } else {
            with_other_lines(&run, other, random)
        };
    }
    run
}

/// Returns a run with a byte that is changed, added or left out.
fn with_other_byte(mut run: Vec<u8>, random: &mut Random) -> Vec<u8> {
    if run.is_empty() {
        return run;
    }
    let at = random.below(run.len());
    match random.below(3) {
        0 => run[at] = random.one_of(&BYTES),
        1 => run.insert(at, random.one_of(&BYTES)),
        _ => {
            run.remove(at);
        }
    }
    run
}

/// Returns a run with a line that is left out, repeated, moved, or taken from another run, or with its beginning alone.
fn with_other_lines(run: &[u8], other: &[u8], random: &mut Random) -> Vec<u8> {
    let mut lines: Vec<&[u8]> = run.split_inclusive(|byte| *byte == b'\n').collect();
    let others: Vec<&[u8]> = other.split_inclusive(|byte| *byte == b'\n').collect();
    if lines.is_empty() || others.is_empty() {
        return other.to_vec();
    }
    let (at, to) = (random.below(lines.len()), random.below(lines.len()));
    match random.below(6) {
        0 => {
            lines.remove(at);
        }
        1 => lines.insert(to, lines[at]),
        2 => lines.swap(at, to),
        3 => lines.insert(at, others[random.below(others.len())]),
        4 => lines.truncate(at + 1),
        _ => lines[at] = &lines[at][..lines[at].len() - 1],
    }
    lines.concat()
}
