//! The words for how a program ended.

use deodarsieve_run::ProgramEnd;

/// The names of the signals from 1 on, as Linux has them.
const SIGNALS: &str = "\
    SIGHUP SIGINT SIGQUIT SIGILL SIGTRAP SIGABRT SIGBUS SIGFPE SIGKILL SIGUSR1 SIGSEGV SIGUSR2 SIGPIPE \
    SIGALRM SIGTERM SIGSTKFLT SIGCHLD SIGCONT SIGSTOP SIGTSTP SIGTTIN SIGTTOU SIGURG SIGXCPU SIGXFSZ \
    SIGVTALRM SIGPROF SIGWINCH SIGIO SIGPWR SIGSYS";

/// Returns the end of a crash, such as `status 7` or `signal: 6, SIGABRT`.
pub(crate) fn crash_end(end: ProgramEnd) -> String {
    match end {
        ProgramEnd::Status(code) => format!("status {code}"),
        ProgramEnd::Signal(number) => match signal_name(number) {
            Some(name) => format!("signal: {number}, {name}"),
            None => format!("signal: {number}"),
        },
    }
}

/// Returns how a program ended: `with status 3` or `by signal 11`.
pub(crate) fn ended_how(end: ProgramEnd) -> String {
    match end {
        ProgramEnd::Status(code) => format!("with status {code}"),
        ProgramEnd::Signal(number) => format!("by signal {number}"),
    }
}

/// Returns an end as a name of it: `status 3` or `signal 11`.
pub(crate) fn end_name(end: ProgramEnd) -> String {
    match end {
        ProgramEnd::Status(code) => format!("status {code}"),
        ProgramEnd::Signal(number) => format!("signal {number}"),
    }
}

/// Returns the name of a signal, if it has one.
fn signal_name(number: u64) -> Option<&'static str> {
    let place = usize::try_from(number.checked_sub(1)?).ok()?;
    SIGNALS.split(' ').nth(place)
}

#[cfg(test)]
mod tests {
    use super::*;

    #[test]
    fn signals_have_the_names_that_linux_gives_them() {
        let cases = [
            (0, "signal: 0"),
            (1, "signal: 1, SIGHUP"),
            (6, "signal: 6, SIGABRT"),
            (9, "signal: 9, SIGKILL"),
            (11, "signal: 11, SIGSEGV"),
            (15, "signal: 15, SIGTERM"),
            (31, "signal: 31, SIGSYS"),
            (32, "signal: 32"),
            (u64::MAX, "signal: 18446744073709551615"),
        ];
        for (number, words) in cases {
            assert_eq!(crash_end(ProgramEnd::Signal(number)), words);
        }
    }

    #[test]
    fn a_status_may_be_negative() {
        let end = ProgramEnd::Status(-1_073_741_819);
        assert_eq!(crash_end(end), "status -1073741819");
        assert_eq!(ended_how(end), "with status -1073741819");
        assert_eq!(end_name(end), "status -1073741819");
    }
}
