//! What Ctrl-C and SIGTERM do.

use crate::command::system::is_ignored;
use deodarsieve::CancelReason;
use signal_hook::consts::{SIGINT, SIGTERM};
use signal_hook::flag::{register, register_conditional_default};
use std::io;
use std::sync::atomic::{AtomicBool, Ordering};
use std::sync::{Arc, Mutex, MutexGuard, PoisonError};
use std::thread;
use std::time::Duration;

/// How long a signal lasts. Until it is over, further signals do not end the program, because `timeout` sends a signal
/// to its command and then to the group of processes, and so the program can get it twice.
const DURATION: Duration = Duration::from_millis(200);

/// Whether the user or the system asked the program to end.
#[derive(Debug)]
pub struct Interrupt {
    /// True if Ctrl-C came.
    is_interrupted: Arc<AtomicBool>,

    /// True if SIGTERM came.
    is_terminated: Arc<AtomicBool>,

    /// True if SIGTERM was sent on.
    is_sent_on: AtomicBool,
    next: Arc<Next>,
}

/// What the next signal does.
#[derive(Debug, Default)]
struct Next {
    /// True if it ends the program.
    ends: Arc<AtomicBool>,

    /// Who has this lock may change that.
    lock: Mutex<()>,
}

impl Next {
    /// Lets the next signal end the program. If that is held off, waits until it is not.
    fn end_program(&self) {
        let _lock = self.lock();
        self.ends.store(true, Ordering::SeqCst);
    }

    /// Lets no signal end the program until the result is dropped.
    fn hold(&self) -> Held<'_> {
        let lock = self.lock();
        Held {
            next: self,
            ended: self.ends.swap(false, Ordering::SeqCst),
            _lock: lock,
        }
    }

    /// Returns the lock. It guards no data, so a thread that panicked with it has left nothing half done.
    fn lock(&self) -> MutexGuard<'_, ()> {
        self.lock.lock().unwrap_or_else(PoisonError::into_inner)
    }
}

/// While this is alive, no signal ends the program.
#[derive(Debug)]
pub struct Held<'a> {
    next: &'a Next,

    /// True if the next signal ended the program before.
    ended: bool,
    _lock: MutexGuard<'a, ()>,
}

impl Drop for Held<'_> {
    fn drop(&mut self) {
        self.next.ends.store(self.ended, Ordering::SeqCst);
    }
}

impl Interrupt {
    /// From now on the first Ctrl-C or SIGTERM does not end the program. One that comes more than 0.2 seconds later ends
    /// it by the default action of the signal. A signal that the program ignores stays ignored.
    ///
    /// Fails if the system refuses a handler, a pipe or a thread.
    pub fn catch_first() -> io::Result<Interrupt> {
        let interrupt = Interrupt {
            is_interrupted: Arc::default(),
            is_terminated: Arc::default(),
            is_sent_on: AtomicBool::default(),
            next: Arc::default(),
        };
        let mut caught = Vec::new();
        for (signal, has_come) in [
            (SIGINT, &interrupt.is_interrupted),
            (SIGTERM, &interrupt.is_terminated),
        ] {
            if !is_ignored(signal) {
                // This sets the handler, so the signal is noted before anything else.
                register(signal, Arc::clone(has_come))?;
                register_conditional_default(signal, Arc::clone(&interrupt.next.ends))?;
                caught.push(Arc::clone(has_come));
            }
        }
        let wait_for_first = waiter(caught)?;
        let next = Arc::clone(&interrupt.next);
        // The main thread may be blocked by a device when the signal is over. No thread starts before this one: a test waits
        // for it.
        let note_end = move || {
            wait_for_first();
            thread::sleep(DURATION);
            next.end_program();
        };
        thread::Builder::new().spawn(note_end)?;
        Ok(interrupt)
    }

    /// Lets no signal end the program until the result is dropped. Hold it while something must not be left half done.
    pub fn hold(&self) -> Held<'_> {
        self.next.hold()
    }

    /// Returns true if the first signal has come.
    pub fn has_come(&self) -> bool {
        self.reason().is_some()
    }

    /// Returns why the run is cancelled, if a signal has come. If both came, this is the more severe reason, Ctrl-C.
    pub fn reason(&self) -> Option<CancelReason> {
        if self.is_interrupted.load(Ordering::SeqCst) {
            Some(CancelReason::Interrupt)
        } else if self.is_terminated.load(Ordering::SeqCst) {
            Some(CancelReason::Signal)
        } else {
            None
        }
    }

    /// Returns the number of the signal that cancels the run, if one has come.
    pub fn signal(&self) -> Option<u32> {
        let signal = match self.reason()? {
            CancelReason::Interrupt => SIGINT,
            _ => SIGTERM,
        };
        Some(signal.cast_unsigned())
    }

    /// Returns true, once, if SIGTERM has come.
    pub fn take_terminate(&self) -> bool {
        self.is_terminated.load(Ordering::SeqCst) && !self.is_sent_on.swap(true, Ordering::SeqCst)
    }
}

/// Returns true if one of these signals has come.
fn have_come(caught: &[Arc<AtomicBool>]) -> bool {
    caught.iter().any(|signal| signal.load(Ordering::SeqCst))
}

/// Returns a function that returns when one of these signals has come. A command starts with the default action of both
/// signals, even if this program ignores them.
#[cfg(unix)]
fn waiter(caught: Vec<Arc<AtomicBool>>) -> io::Result<impl FnOnce() + Send + 'static> {
    use std::io::Read;
    use std::os::unix::net::UnixStream;
    let (mut woken, waker) = UnixStream::pair()?;
    for signal in [SIGINT, SIGTERM] {
        signal_hook::low_level::pipe::register(signal, waker.try_clone()?)?;
    }
    Ok(move || {
        // A signal that came before the pipe existed has woken nobody. A signal that is ignored also wakes this. The handlers
        // keep the other end open.
        while !have_come(&caught) {
            let _ = woken.read(&mut [0]);
        }
    })
}

/// Returns a function that returns when one of these signals has come.
#[cfg(not(unix))]
fn waiter(caught: Vec<Arc<AtomicBool>>) -> io::Result<impl FnOnce() + Send + 'static> {
    Ok(move || {
        while !have_come(&caught) {
            thread::sleep(DURATION);
        }
    })
}

#[cfg(test)]
mod tests {
    use super::*;

    /// Returns true if the next signal ends the program.
    fn ends(next: &Next) -> bool {
        next.ends.load(Ordering::SeqCst)
    }

    #[test]
    fn no_signal_ends_the_program_while_it_is_held_off() {
        let next = Next::default();
        drop(next.hold());
        assert!(!ends(&next), "the first signal ends nothing");
        next.end_program();
        assert!(ends(&next));
        let held = next.hold();
        assert!(!ends(&next));
        drop(held);
        assert!(ends(&next));
    }

    #[test]
    fn a_first_signal_that_is_over_while_it_is_held_off_counts_afterwards() {
        let next = Next::default();
        thread::scope(|scope| {
            let held = next.hold();
            let over = scope.spawn(|| next.end_program());
            thread::sleep(Duration::from_millis(50));
            assert!(!ends(&next));
            drop(held);
            over.join().expect("the thread ends");
            assert!(ends(&next));
        });
    }
}
