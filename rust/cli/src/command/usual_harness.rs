//! Finds out from a test program itself whether it has Rust's test harness. That is needed if the manifest of its package
//! cannot be read: cargo reads more of TOML than the crate `toml`.

use bstr::ByteSlice;
use std::fs::File;
use std::io::{self, Read};
use std::path::Path;

/// A variable that the harness reads for its option `--report-time`. Each program with the harness has this name in it,
/// optimized and without symbols, too.
const MARK: &[u8] = b"RUST_TEST_TIME_UNIT";

/// How many bytes are looked at in one piece.
const PIECE: usize = 65_536;

/// Returns true if the program at a path has Rust's test harness, or cannot be read.
pub fn has_usual_harness(program: &Path) -> bool {
    File::open(program).and_then(has_mark).unwrap_or(true)
}

/// Returns true if the mark is in what a reader has.
fn has_mark(mut reader: impl Read) -> io::Result<bool> {
    let mut piece = vec![0; PIECE];
    // The end of the piece before is kept at the front, because the mark may begin there.
    let mut kept = 0;
    loop {
        let count = reader.read(&mut piece[kept..])?;
        let end = kept + count;
        if piece[..end].contains_str(MARK) {
            return Ok(true);
        }
        if count == 0 {
            return Ok(false);
        }
        let start = end.saturating_sub(MARK.len() - 1);
        piece.copy_within(start..end, 0);
        kept = end - start;
    }
}

#[cfg(test)]
mod tests {
    use super::*;
    use std::env;

    #[test]
    fn the_mark_is_found_wherever_it_is() {
        for before in [
            0,
            1,
            PIECE - 19,
            PIECE - 18,
            PIECE - 1,
            PIECE,
            3 * PIECE - 5,
        ] {
            let text = [&vec![b'R'; before], MARK, b"_"].concat();
            assert!(
                has_mark(text.as_slice()).expect("it can be read"),
                "{before}"
            );
            let text = [&vec![b'R'; before], &MARK[1..], MARK[..1].as_ref()].concat();
            let wanted = before > 0;
            assert_eq!(
                has_mark(text.as_slice()).expect("it can be read"),
                wanted,
                "{before}"
            );
        }
        assert!(!has_mark(&b""[..]).expect("it can be read"));
    }

    #[test]
    fn a_program_that_has_tests_has_the_harness() {
        // This one also has the mark in this module, so the one of the harness is looked for in a real package, too.
        let program = env::current_exe().expect("this is a program");
        assert!(has_usual_harness(&program));
        assert!(!has_usual_harness(Path::new("/bin/sh")));
        assert!(has_usual_harness(Path::new("/no/such/program")));
    }
}
