//! What systems do in different ways: signals, how a process ends, what becomes of those that it has started, and how it
//! becomes another program.

#[cfg(not(unix))]
mod elsewhere;
#[cfg(target_os = "linux")]
mod orphans;
#[cfg(not(target_os = "linux"))]
#[path = "no_orphans.rs"]
mod orphans;
#[cfg(unix)]
mod unix;

#[cfg(not(unix))]
pub use elsewhere::{Signals, become_program, end_as, is_ignored, signal_of, terminate};
#[cfg(unix)]
pub use unix::{Signals, become_program, end_as, is_ignored, signal_of, terminate};

pub use orphans::Orphans;

/// The part for other systems, so that it is compiled and tried on Unix, too.
#[cfg(all(test, unix))]
#[path = "elsewhere.rs"]
#[allow(
    dead_code,
    reason = "a test cannot call what ends the process of the test"
)]
mod elsewhere_on_unix;

/// The part for systems that are not Linux, so that it is compiled and tried on Linux, too.
#[cfg(all(test, target_os = "linux"))]
#[path = "no_orphans.rs"]
mod no_orphans_on_linux;

#[cfg(all(test, unix))]
mod tests {
    use super::elsewhere_on_unix as elsewhere;
    use std::os::unix::process::ExitStatusExt;
    use std::process::{Command, ExitStatus};

    #[test]
    fn on_other_systems_a_status_is_passed_on_and_no_signal_is_known() {
        let status = |raw| ExitStatus::from_raw(raw);
        assert_eq!(elsewhere::end_as(status(3 << 8)), 3);
        assert_eq!(elsewhere::end_as(status(9)), 1);
        assert_eq!(elsewhere::signal_of(status(9)), None);
        assert!(!elsewhere::is_ignored(2));
        let signals = elsewhere::Signals::catch().expect("nothing is done");
        assert!(!signals.take_terminate() && !signals.is_interrupted());
        assert!(!signals.is_left_alone() && !signals.are_end());
    }

    #[test]
    fn on_other_systems_a_process_that_is_asked_to_end_is_ended() {
        let mut child = Command::new("sleep").arg("100").spawn().expect("it starts");
        elsewhere::terminate(&mut child);
        assert!(!child.wait().expect("it is a child").success());
        elsewhere::terminate(&mut child);
    }

    #[test]
    #[cfg(target_os = "linux")]
    fn on_other_systems_no_process_is_known_that_was_left_behind() {
        assert!(super::no_orphans_on_linux::Orphans::adopt().end(true));
    }

    #[test]
    fn on_other_systems_a_program_that_is_not_there_cannot_be_become() {
        let error = elsewhere::become_program(Command::new("/no/such/program"));
        assert_eq!(error.kind(), std::io::ErrorKind::NotFound);
    }
}
