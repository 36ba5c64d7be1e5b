//! Standard input, standard output and standard error. If the program was started without one of them, each call on it
//! fails.

use std::io::{self, Read, Stderr, Stdin, StdoutLock, Write};

/// Finds out which streams are open before Rust's runtime starts, because the runtime opens the null device in place
/// of a closed one.
#[cfg(target_os = "linux")]
mod at_start {
    use std::io;
    use std::os::fd::AsFd;
    use std::sync::atomic::{AtomicBool, Ordering};

    /// True if standard input was closed when the program was started.
    static INPUT_IS_CLOSED: AtomicBool = AtomicBool::new(false);

    /// True if standard output was closed when the program was started.
    static OUTPUT_IS_CLOSED: AtomicBool = AtomicBool::new(false);

    /// True if standard error was closed when the program was started.
    static ERROR_IS_CLOSED: AtomicBool = AtomicBool::new(false);

    /// The number of the system's error for a descriptor that is not open.
    const EBADF: i32 = 9;

    /// The loader calls the functions in this section before the runtime starts.
    #[allow(unsafe_code, reason = "only this attribute can name the section")]
    #[used]
    #[unsafe(link_section = ".init_array")]
    static NOTE: extern "C" fn() = note;

    /// Notes which streams are closed.
    extern "C" fn note() {
        INPUT_IS_CLOSED.store(is_closed(&io::stdin()), Ordering::SeqCst);
        OUTPUT_IS_CLOSED.store(is_closed(&io::stdout()), Ordering::SeqCst);
        ERROR_IS_CLOSED.store(is_closed(&io::stderr()), Ordering::SeqCst);
    }

    /// Returns true if a stream is closed.
    fn is_closed(stream: &impl AsFd) -> bool {
        let copy = stream.as_fd().try_clone_to_owned();
        copy.is_err_and(|error| error.raw_os_error() == Some(EBADF))
    }

    /// Fails if there was no standard input.
    pub(super) fn check_input() -> io::Result<()> {
        fail_if(&INPUT_IS_CLOSED)
    }

    /// Fails if there was no standard output.
    pub(super) fn check_output() -> io::Result<()> {
        fail_if(&OUTPUT_IS_CLOSED)
    }

    /// Fails if there was no standard error.
    pub(super) fn check_error() -> io::Result<()> {
        fail_if(&ERROR_IS_CLOSED)
    }

    /// Fails if a stream was closed.
    fn fail_if(is_closed: &AtomicBool) -> io::Result<()> {
        match is_closed.load(Ordering::SeqCst) {
            true => Err(io::Error::from_raw_os_error(EBADF)),
            false => Ok(()),
        }
    }
}

/// On these systems a closed stream is not noticed.
#[cfg(not(target_os = "linux"))]
mod at_start {
    use std::io;

    /// Does nothing.
    pub(super) fn check_input() -> io::Result<()> {
        Ok(())
    }

    /// Does nothing.
    pub(super) fn check_output() -> io::Result<()> {
        Ok(())
    }

    /// Does nothing.
    pub(super) fn check_error() -> io::Result<()> {
        Ok(())
    }
}

/// Fails if the program was started without a standard output. On systems other than Linux this is not noticed.
pub fn check_output() -> io::Result<()> {
    at_start::check_output()
}

/// Standard input.
#[derive(Debug)]
pub struct StandardInput {
    stdin: Stdin,
}

impl StandardInput {
    /// Returns standard input.
    pub fn get() -> StandardInput {
        StandardInput { stdin: io::stdin() }
    }
}

impl Read for StandardInput {
    fn read(&mut self, buffer: &mut [u8]) -> io::Result<usize> {
        at_start::check_input()?;
        self.stdin.read(buffer)
    }
}

/// Standard output.
#[derive(Debug)]
pub struct StandardOutput {
    stdout: StdoutLock<'static>,
}

impl StandardOutput {
    /// Locks standard output.
    pub fn lock() -> StandardOutput {
        StandardOutput {
            stdout: io::stdout().lock(),
        }
    }
}

impl Write for StandardOutput {
    fn write(&mut self, buffer: &[u8]) -> io::Result<usize> {
        at_start::check_output()?;
        self.stdout.write(buffer)
    }

    fn flush(&mut self) -> io::Result<()> {
        self.stdout.flush()
    }
}

/// Standard error.
#[derive(Debug)]
pub struct StandardError {
    stderr: Stderr,
}

impl StandardError {
    /// Returns standard error.
    pub fn get() -> StandardError {
        StandardError {
            stderr: io::stderr(),
        }
    }
}

impl Write for StandardError {
    fn write(&mut self, buffer: &[u8]) -> io::Result<usize> {
        at_start::check_error()?;
        self.stderr.write(buffer)
    }

    fn flush(&mut self) -> io::Result<()> {
        self.stderr.flush()
    }
}
