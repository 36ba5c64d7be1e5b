//! Outputs with one byte replaced.

use crate::output_slice_tests::met::Met;
use crate::output_slice_tests::trial::Trial;
use std::io::{self, BufRead, BufReader};

/// The bytes that replace each byte in turn.
const DAMAGE: [u8; 4] = [b'\'', b'\n', 0xff, b' '];

/// Tries each line of standard input with each byte replaced in turn.
pub(crate) fn damaged_outputs() -> io::Result<Met> {
    let mut trial = Trial::new();
    let mut met = Met::NONE;
    for line in BufReader::new(io::stdin()).lines() {
        let line = line?;
        match hex::decode(&line) {
            Ok(output) => count_damaged(&output, &mut trial, &mut met),
            Err(_) => {
                met.count_untried();
                println!("no hex: {line}");
            }
        }
    }
    Ok(met)
}

/// Tries an output with each byte replaced in turn.
fn count_damaged(output: &[u8], trial: &mut Trial, met: &mut Met) {
    for at in 0..output.len() {
        for byte in DAMAGE {
            trial.take(&output[..at]);
            trial.bytes.push(byte);
            trial.bytes.extend_from_slice(&output[at + 1..]);
            met.count(trial);
        }
    }
}
