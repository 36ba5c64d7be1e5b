//! The reads that a source of bytes counts.

use deodarsieve::counted::{ByteSource, CountedBytes, last_panic_head};

/// Reads one byte twice, and prints it and the number of counted reads.
pub(crate) fn counted_reads() {
    let mut source = CountedBytes::new(b"a'");
    let before = source.reads();
    let (first, again) = (source.byte(1), source.byte(1));
    println!(
        "counted reads\n  of {} bytes, byte 1: {first}, {again}",
        source.len()
    );
    println!("  reads: {before}, {}", source.reads());
}

/// Outputs whose reads are counted by hand in `data/output_slice_tests.stdout`: no bytes, no quote, a quote that begins no
/// name, a head, and a head with a number.
const OUTPUTS: [&str; 5] = [
    "",
    "no head",
    "it's",
    "thread 'a' panicked at b",
    "thread 'a' (7) panicked at b",
];

/// Searches each of the outputs for the last head, and prints the number of counted reads.
pub(crate) fn reads_of_searches() {
    println!("reads of searches");
    for output in &OUTPUTS {
        let mut source = CountedBytes::new(output.as_bytes());
        let has_head = last_panic_head(&mut source).is_some();
        println!(
            "  {} bytes, a head: {has_head}, reads: {}",
            output.len(),
            source.reads()
        );
    }
}
