//! Every beginning of outputs.

use crate::output_slice_tests::met::Met;
use crate::output_slice_tests::trial::Trial;

/// Outputs with heads that cross, with a decimal digit outside ASCII, and with a superscript digit,
/// which is not a decimal digit.
const CUT: [&[u8]; 4] = [
    b"thread 'a\nthread ' panicked at x' panicked at y\n",
    b"thread 'a\nthread ' panicked at x\nthread ' panicked at y' panicked at z",
    b"thread 'a' (\xf0\x9d\x9f\x8e) panicked at x",
    b"thread 'a' (\xc2\xb2) panicked at x",
];

/// Tries every beginning of the outputs, from no byte to all bytes.
pub(crate) fn beginnings() -> Met {
    let mut trial = Trial::new();
    let mut met = Met::NONE;
    for output in CUT {
        for size in 0..output.len() + 1 {
            trial.take(&output[..size]);
            met.count(&mut trial);
        }
    }
    met
}
