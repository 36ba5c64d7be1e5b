//! Processes on Unix.

use signal_hook::consts::{SIGINT, SIGTERM};
use signal_hook::flag::register;
use signal_hook::low_level::{emulate_default_handler, raise};
use std::io;
use std::mem::MaybeUninit;
use std::os::fd::AsRawFd;
use std::os::unix::process::{CommandExt, ExitStatusExt, parent_id};
use std::process::{Child, Command, ExitStatus};
use std::ptr;
use std::sync::Arc;
use std::sync::atomic::{AtomicBool, Ordering};

/// What a shell adds to the number of a signal that ended a process.
const BY_SIGNAL: i32 = 128;

/// What asks this process to end: signals, and that nobody needs it any more. From [`Signals::catch`] on the signals do
/// not end it.
#[derive(Debug)]
pub struct Signals {
    is_interrupted: Arc<AtomicBool>,

    /// True if SIGTERM has come and was not taken.
    is_terminated: Arc<AtomicBool>,

    /// True if SIGTERM was taken.
    was_taken: AtomicBool,

    /// The process that started this one.
    parent: u32,
}

impl Signals {
    /// Catches Ctrl-C and SIGTERM. A program that is started from now on has the default action of both, as this process
    /// had. A signal that this process ignores stays ignored, in the programs that it starts as well.
    ///
    /// Fails if the system refuses a handler.
    pub fn catch() -> io::Result<Signals> {
        let signals = Signals {
            is_interrupted: Arc::default(),
            is_terminated: Arc::default(),
            was_taken: AtomicBool::default(),
            parent: parent_id(),
        };
        for (signal, is_this) in [
            (SIGINT, &signals.is_interrupted),
            (SIGTERM, &signals.is_terminated),
        ] {
            if !is_ignored(signal) {
                register(signal, Arc::clone(is_this))?;
            }
        }
        Ok(signals)
    }

    /// Returns true, once for each time, if SIGTERM has come.
    pub fn take_terminate(&self) -> bool {
        let has_come = self.is_terminated.swap(false, Ordering::SeqCst);
        self.was_taken.fetch_or(has_come, Ordering::SeqCst);
        has_come
    }

    /// Returns true if SIGINT has come.
    pub fn is_interrupted(&self) -> bool {
        self.is_interrupted.load(Ordering::SeqCst)
    }

    /// Returns true if a signal has come, or if this process is left alone.
    pub fn are_end(&self) -> bool {
        self.is_interrupted()
            || self.is_terminated.load(Ordering::SeqCst)
            || self.was_taken.load(Ordering::SeqCst)
            || self.is_left_alone()
    }

    /// Returns true if the process that started this one has ended, or if nobody reads standard output any more.
    pub fn is_left_alone(&self) -> bool {
        parent_id() != self.parent || has_no_reader(io::stdout())
    }
}

/// Returns true for a pipe that nobody reads.
#[allow(
    unsafe_code,
    reason = "no safe call asks a pipe for its reader and writes nothing"
)]
fn has_no_reader(pipe: impl AsRawFd) -> bool {
    let mut asked = libc::pollfd {
        fd: pipe.as_raw_fd(),
        events: libc::POLLOUT,
        revents: 0,
    };
    // SAFETY: the call writes to this one structure, and does not wait.
    let count = unsafe { libc::poll(&raw mut asked, 1, 0) };
    count == 1 && asked.revents & (libc::POLLERR | libc::POLLHUP) != 0
}

/// Returns true if this process ignores a signal.
#[allow(unsafe_code, reason = "no safe call asks for the action of a signal")]
pub fn is_ignored(signal: i32) -> bool {
    let mut action = MaybeUninit::<libc::sigaction>::uninit();
    // SAFETY: without a new action, the call writes the old one to `action` and changes nothing.
    let status = unsafe { libc::sigaction(signal, ptr::null(), action.as_mut_ptr()) };
    // SAFETY: if the call returns 0, it has written the whole action.
    status == 0 && unsafe { action.assume_init() }.sa_sigaction == libc::SIG_IGN
}

/// Sends SIGTERM to a child that was not waited for.
#[allow(
    unsafe_code,
    reason = "the standard library has no call that sends SIGTERM"
)]
pub fn terminate(child: &mut Child) {
    // The number of a process is above 0, and fits.
    if let Ok(process) = i32::try_from(child.id()) {
        // SAFETY: the call takes two numbers and touches no memory.
        unsafe { libc::kill(process, SIGTERM) };
    }
}

/// Returns the number of the signal that ended a process.
pub fn signal_of(status: ExitStatus) -> Option<i32> {
    status.signal()
}

/// Returns the exit status with which this process has to end, so that it ends as a child did. If a signal ended the
/// child, the same one ends this process here.
pub fn end_as(status: ExitStatus) -> i32 {
    match (status.code(), status.signal()) {
        (Some(code), _) => code,
        (None, Some(signal)) => {
            end_by(signal);
            BY_SIGNAL + signal
        }
        (None, None) => 1,
    }
}

/// Ends this process by a signal. Returns only if the signal does not end it.
fn end_by(signal: i32) {
    write_no_core();
    // The signals that the crate does not know have their default action here.
    let _ = emulate_default_handler(signal);
    let _ = raise(signal);
}

/// Lets this process leave no memory dump: the one of its child may have the same name.
#[allow(
    unsafe_code,
    reason = "the standard library has no call that sets a limit"
)]
fn write_no_core() {
    let none = libc::rlimit {
        rlim_cur: 0,
        rlim_max: 0,
    };
    // SAFETY: the call reads the limit, and keeps nothing of it.
    unsafe { libc::setrlimit(libc::RLIMIT_CORE, &raw const none) };
}

/// Becomes a program. Returns only if that fails.
pub fn become_program(mut command: Command) -> io::Error {
    command.exec()
}
