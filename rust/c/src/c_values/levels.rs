// Made by tools/erase from crates/c_values/src/levels.rt. Do not edit.
//! What a reporter shows and stores of finished tests.

use crate::c_values::codes;
use crate::c_values::layout::{FfiFinishedTest, FfiOutput};
use deodarsieve::{OutputOnTestFinished, StatusLevels};

/// Returns what is displayed and stored, or `None` if a code is not in its table.
pub fn output_of(test: &FfiFinishedTest) -> Option<OutputOnTestFinished> {
    let own = StatusLevels {
        status_level: codes::level(test.status_level)?,
        final_status_level: codes::final_level(test.final_status_level)?,
    };
    let display = codes::display(test.display)?;
    let level = codes::level(test.test_status_level)?;
    let final_level = codes::final_level(test.test_final_status_level)?;
    // If this came last, the compiler would not see that the result has no text, and the library would need an allocator.
    let ended = codes::described(test.result)?;
    let reason = codes::reason(test.cancel_reason)?;
    Some(own.compute_output_on_test_finished(display, reason, level, final_level, &ended))
}

/// Returns the struct of C with what is displayed and stored.
pub fn written_output(output: OutputOnTestFinished) -> FfiOutput {
    FfiOutput {
        write_status_line: output.write_status_line,
        show_immediate: output.show_immediate,
        store_final: codes::store_code(output.store_final),
    }
}
