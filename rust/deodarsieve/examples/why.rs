//! Prints the part of a test's output that explains its failure: `cargo run --example why FILE`. FILE
//! has the standard output and the standard error of the test, captured as one.

use std::env;
use std::error::Error;

use deodarsieve::TestOutputErrorSlice;

/// Returns the explanation in captured output, or a sentence if there is none.
pub fn explain(output: &[u8]) -> String {
    TestOutputErrorSlice::heuristic_extract(Some(output), Some(output)).map_or_else(
        || String::from("the output does not say why"),
        |slice| slice.to_string(),
    )
}

fn main() -> Result<(), Box<dyn Error>> {
    let path = env::args_os().nth(1).ok_or("usage: why FILE")?;
    println!("{}", explain(&std::fs::read(path)?));
    Ok(())
}
