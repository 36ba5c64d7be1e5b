//! The numbers of inputs of a set, by their kinds.

use crate::output_slice_tests::trial::{Reads, Trial};

/// The numbers of inputs of each kind, and the reads that exceed those of all other inputs.
#[derive(Clone, Copy)]
pub(crate) struct Met {
    inputs: u64,
    no_head: u64,
    one_taken: u64,
    more_taken: u64,
    overlapping: u64,
    crossing_line: u64,
    widened: u64,
    disagreeing: u64,
    most_reads: Reads,
}

impl Met {
    /// The numbers before any input.
    pub(crate) const NONE: Met = Met {
        inputs: 0,
        no_head: 0,
        one_taken: 0,
        more_taken: 0,
        overlapping: 0,
        crossing_line: 0,
        widened: 0,
        disagreeing: 0,
        most_reads: Reads::NONE,
    };

    /// Tries the bytes of the trial and counts them. Prints them in hexadecimal if the searches do
    /// not agree.
    pub(crate) fn count(&mut self, trial: &mut Trial) {
        trial.list();
        let taken = trial.taken.len();
        count_if(&mut self.inputs, true);
        count_if(&mut self.no_head, taken == 0);
        count_if(&mut self.one_taken, taken == 1);
        count_if(&mut self.more_taken, taken > 1);
        count_if(&mut self.overlapping, trial.overlaps());
        count_if(&mut self.crossing_line, trial.crosses_line());
        count_if(&mut self.widened, trial.is_widened());
        match trial.reads() {
            Some(reads) => {
                if reads.exceed(self.most_reads) {
                    self.most_reads = reads;
                }
            }
            None => {
                count_if(&mut self.disagreeing, true);
                let bytes = hex::encode(&trial.bytes);
                println!("the searches do not agree on {bytes}");
            }
        }
    }

    /// Counts an input that cannot be tried as one on which the searches do not agree.
    pub(crate) fn count_untried(&mut self) {
        count_if(&mut self.disagreeing, true);
    }

    /// Prints the numbers of the set with this name. Returns true if the searches agree on all
    /// inputs.
    pub(crate) fn print(&self, name: &str) -> bool {
        let Met {
            inputs,
            no_head,
            one_taken,
            more_taken,
            overlapping,
            crossing_line,
            widened,
            disagreeing,
            most_reads,
        } = *self;
        println!("{name}: {inputs} inputs");
        println!("  no head: {no_head}, one taken: {one_taken}, more taken: {more_taken}");
        println!(
            "  overlapping: {overlapping}, crossing a line: {crossing_line}, widened: {widened}"
        );
        println!(
            "  most reads: {} of {} bytes",
            most_reads.count, most_reads.bytes
        );
        println!("  the searches do not agree: {disagreeing}");
        disagreeing == 0
    }
}

/// Raises a counter by 1 if `holds`.
fn count_if(counter: &mut u64, holds: bool) {
    *counter = counter.wrapping_add(u64::from(holds));
}
