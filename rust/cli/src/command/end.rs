//! How a process ended.

use super::run_line::ProcessEnd;
use super::system::signal_of;
use deodarsieve_run::CommandEnd;
use std::process::ExitStatus;

/// Returns how a command with this status ended.
pub fn end_of(status: ExitStatus) -> CommandEnd {
    match process_end(status) {
        ProcessEnd::Status(code) => CommandEnd::Status {
            code: code.cast_unsigned(),
        },
        ProcessEnd::Signal(number) => CommandEnd::Signal {
            number: number.cast_unsigned(),
        },
    }
}

/// Returns how a process with this status ended.
pub fn process_end(status: ExitStatus) -> ProcessEnd {
    match status.code() {
        Some(code) => ProcessEnd::Status(code),
        None => ProcessEnd::Signal(signal_of(status).unwrap_or_default()),
    }
}

/// Returns how a command ended, or `None` if it was not started.
pub fn process_end_of(end: &CommandEnd) -> Option<ProcessEnd> {
    match end {
        CommandEnd::Status { code } | CommandEnd::Error { code, .. } => {
            Some(ProcessEnd::Status(code.cast_signed()))
        }
        CommandEnd::Signal { number } => Some(ProcessEnd::Signal(number.cast_signed())),
        CommandEnd::NotStarted { .. } => None,
    }
}

#[cfg(all(test, unix))]
mod tests {
    use super::*;
    use std::os::unix::process::ExitStatusExt;

    #[test]
    fn the_status_and_the_signal_are_those_of_the_system() {
        let end = |raw| end_of(ExitStatus::from_raw(raw));
        assert!(matches!(end(0), CommandEnd::Status { code: 0 }));
        assert!(matches!(end(255 << 8), CommandEnd::Status { code: 255 }));
        assert!(matches!(end(6), CommandEnd::Signal { number: 6 }));
    }

    #[test]
    fn a_status_may_be_negative() {
        let end = CommandEnd::Status {
            code: (-3_i32).cast_unsigned(),
        };
        assert_eq!(process_end_of(&end), Some(ProcessEnd::Status(-3)));
        let end = CommandEnd::Signal { number: 9 };
        assert_eq!(process_end_of(&end), Some(ProcessEnd::Signal(9)));
        let end = CommandEnd::NotStarted {
            error: String::new(),
        };
        assert_eq!(process_end_of(&end), None);
    }
}
