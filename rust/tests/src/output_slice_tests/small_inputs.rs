//! All inputs of a few pieces.

use crate::output_slice_tests::met::Met;
use crate::output_slice_tests::trial::Trial;

/// Pieces, and the number of inputs that can be made of at most five or six of them.
pub(crate) struct Set {
    pub(crate) name: &'static str,
    pieces: &'static [&'static [u8]],
    inputs: usize,
}

pub(crate) const SETS: [Set; 3] = [
    Set {
        name: "pieces of one head",
        pieces: &[
            b"thread '",
            b"'",
            b" panicked at ",
            b"\n",
            b" (1)",
            b"a",
            b"\xff",
        ],
        inputs: 137_257,
    },
    Set {
        name: "pieces of many heads",
        pieces: &[
            b"thread 'a",
            b"thread '",
            b"' panicked at ",
            b"'",
            b"\n",
            b"thread ' panicked at x",
            b"' (1) panicked at ",
            b"Error:",
            b"\xff",
        ],
        inputs: 66_430,
    },
    Set {
        name: "lines with and without cuts",
        pieces: &[
            b"thread 'a\n",
            b"thread 'a' panicked at x\n",
            b"thread ' panicked at y\n",
            b"' panicked at z\n",
            b"b\n",
            b"'\n",
            b"thread 'a' b\n",
        ],
        inputs: 19_608,
    },
];

/// Tries the inputs of the set.
pub(crate) fn all_inputs(set: &Set) -> Met {
    let mut trial = Trial::new();
    let mut met = Met::NONE;
    for number in 0..set.inputs {
        join(&mut trial.bytes, set.pieces, number);
        met.count(&mut trial);
    }
    met
}

/// Joins the pieces of the input with this number. Input 0 has no piece. Then come the inputs of
/// one piece, those of two, and so on.
fn join(bytes: &mut Vec<u8>, pieces: &[&[u8]], number: usize) {
    bytes.clear();
    let mut left = number;
    while left > 0 {
        left -= 1;
        if let Some(piece) = pieces.get(left.checked_rem(pieces.len()).unwrap_or(0)) {
            bytes.extend_from_slice(piece);
        }
        left = left.checked_div(pieces.len()).unwrap_or(0);
    }
}
