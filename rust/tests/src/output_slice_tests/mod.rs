//! Tests of `output_slice` through its public calls only. Tests of one call on one short input are
//! lines of `data/upstream_replay.txt`. This program has the other tests. `tests/programs.rs` compares its
//! output with the file `data/output_slice_tests.stdout`.
//!
//! The head of a panic message is its beginning, such as `thread 'main' panicked at `. The program
//! compares the searches for the last head (`last_head`, `last_panic_head`,
//! `heuristic_panic_message`) with slow functions that are written as the definitions are. It does
//! so on
//!
//! - inputs that were chosen by hand, whose heads it prints;
//! - all inputs that are made of a few pieces;
//! - every beginning of a few outputs;
//! - damaged outputs.
//!
//! Standard input is a list of outputs in hexadecimal, one on each line. Each is tried with every
//! byte replaced in turn by a quote, a line feed, a byte 0xFF and a space.
//!
//! For each set it prints the number of inputs without heads, with one head, with several, with
//! heads that overlap, and so on. If the searches do not agree on an input, or if a line is not
//! hexadecimal, it prints that input first. The exit status is 0 if the searches agree on all
//! inputs, and otherwise 1.
//!
//! It also prints what the extraction finds in standard error, in standard output and in both as
//! one, how many reads a `CountedBytes` counts, and the results of searches in long inputs. A
//! search whose time grows faster than its input would not finish in a reasonable time on these.
//!
//! The expected heads in that file were worked out by hand. The expected numbers of inputs
//! of each kind were computed with a regular expression engine and nextest-runner's pattern. If the
//! program no longer made the inputs of some kind, its numbers would differ from these. The expected
//! greatest numbers of reads are the measured ones. For every input the program also checks that a
//! search takes few reads.

use crate::output_slice_tests::beginnings::beginnings;
use crate::output_slice_tests::damage::damaged_outputs;
use crate::output_slice_tests::long_inputs::{few_reads, linear_time};
use crate::output_slice_tests::parts::parts_of_each_stream;
use crate::output_slice_tests::reads::{counted_reads, reads_of_searches};
use crate::output_slice_tests::small_inputs::{SETS, all_inputs};
use crate::output_slice_tests::worked_heads::worked_heads;
use std::io;
use std::process::ExitCode;

mod beginnings;
mod damage;
mod long_inputs;
mod met;
mod parts;
mod reads;
mod slow;
mod small_inputs;
mod trial;
mod worked_heads;

pub fn main() -> io::Result<ExitCode> {
    parts_of_each_stream();
    counted_reads();
    reads_of_searches();
    few_reads();
    linear_time();
    let mut all_agree = worked_heads().print("worked heads");
    for set in &SETS {
        all_agree &= all_inputs(set).print(set.name);
    }
    all_agree &= beginnings().print("beginnings");
    all_agree &= damaged_outputs()?.print("damaged outputs");
    if all_agree {
        Ok(ExitCode::SUCCESS)
    } else {
        Ok(ExitCode::FAILURE)
    }
}
