//! The errors of a unit as errors of any type.

use crate::run_events::unit_error::{UnitError, UnitErrorDescription};
use crate::run_events_attempts::child::ErrorList;
use core::error::Error;

impl<'a> UnitErrorDescription<'a> {
    /// Returns the errors of [`Self::unit_errors`] as errors of any type, in the same order.
    #[must_use]
    pub fn all_error_list(&self) -> Option<ErrorList<&dyn Error>> {
        Some(self.unit_errors()?.map(|error| self.as_error(error)))
    }

    /// Returns the errors of [`Self::exec_fail_unit_errors`] as errors of any type, in the same
    /// order.
    #[must_use]
    pub fn exec_fail_error_list(&self) -> Option<ErrorList<&dyn Error>> {
        let errors = self.exec_fail_unit_errors()?;
        Some(errors.map(|error| self.as_error(error)))
    }

    /// Returns the errors of [`Self::child_process_unit_errors`] as errors of any type, in the same
    /// order.
    #[must_use]
    pub fn child_process_error_list(&self) -> Option<ErrorList<&dyn Error>> {
        let errors = self.child_process_unit_errors()?;
        Some(errors.map(|error| self.as_error(error)))
    }

    /// Returns an error of this unit as an error of any type, borrowed from the unit.
    fn as_error(&self, error: UnitError<'a>) -> &dyn Error {
        match error {
            UnitError::Start(error) => error,
            UnitError::Output(error) => error,
            UnitError::Abort(_) => self.abort.as_ref().expect("the unit lists its abort"),
            UnitError::Slice(_) => self
                .output_slice
                .as_ref()
                .expect("the unit lists its slice"),
        }
    }
}
