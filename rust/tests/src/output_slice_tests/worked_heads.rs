//! Worked inputs, and the heads that the slow functions list for them.

use crate::output_slice_tests::met::Met;
use crate::output_slice_tests::trial::Trial;

/// The names of inputs, and their bytes.
const WORKED: [(&str, &[u8]); 7] = [
    ("a head", b"thread 'main' panicked at 'foo', src/lib.rs:1\n"),
    (
        "a head that begins in the name of a taken one",
        b"thread 'a\nthread ' panicked at x' panicked at y\n",
    ),
    (
        "a name over two lines, then another head",
        b"thread 'a\nthread ' panicked at x\nthread 'b' panicked at y",
    ),
    (
        "three heads of which the middle one crosses both others",
        b"thread 'a\nthread ' panicked at x\nthread ' panicked at y' panicked at z",
    ),
    ("an empty name", b"thread '' panicked at z"),
    (
        "a malformed name, then a head",
        b"thread '\xff\nthread 'b' panicked at q",
    ),
    ("empty bytes", b""),
];

/// Tries the worked inputs, and prints their heads and whether each head is taken.
pub(crate) fn worked_heads() -> Met {
    let mut trial = Trial::new();
    let mut met = Met::NONE;
    for (shows, bytes) in WORKED {
        trial.take(bytes);
        met.count(&mut trial);
        println!("{shows}");
        for head in trial.heads.as_slice() {
            let is_taken = trial.taken.as_slice().contains(head);
            println!("  {} to {}, taken: {is_taken}", head.start, head.stop);
        }
    }
    met
}
