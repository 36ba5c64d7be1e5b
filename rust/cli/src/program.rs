//! Code that both programs use: readers and writers that keep the system's error, the failures of a program,
//! and exit statuses.

use crate::program_io::fault::DeviceFault;
use crate::program_io::std_device::{StdSink, StdSource};
use crate::standard_streams::check_output;
use crate::{report, run_digest_engine};
use std::fmt;
use std::io::{self, ErrorKind, Read, Write};
use std::process::ExitCode;

/// A reader or writer that repeats interrupted calls. It keeps the error of the last call that failed, so
/// that the program can print it.
pub struct KeepError<T> {
    device: T,
    error: Option<io::Error>,
}

impl<T> KeepError<T> {
    /// Wraps a reader or writer of which no call has failed.
    pub fn new(device: T) -> KeepError<T> {
        KeepError {
            device,
            error: None,
        }
    }

    /// Returns the error of the last call that failed, if any did.
    pub fn into_error(self) -> Option<io::Error> {
        self.error
    }

    /// Makes a call, and repeats it while it is interrupted.
    fn call<R>(&mut self, mut call: impl FnMut(&mut T) -> io::Result<R>) -> io::Result<R> {
        loop {
            match call(&mut self.device) {
                Err(error) if error.kind() == ErrorKind::Interrupted => {}
                Err(error) => {
                    let kind = error.kind();
                    self.error = Some(error);
                    return Err(kind.into());
                }
                Ok(value) => return Ok(value),
            }
        }
    }
}

impl<T: Read> Read for KeepError<T> {
    fn read(&mut self, buffer: &mut [u8]) -> io::Result<usize> {
        self.call(|device| device.read(buffer))
    }
}

impl<T: Write> Write for KeepError<T> {
    fn write(&mut self, buffer: &[u8]) -> io::Result<usize> {
        self.call(|device| device.write(buffer))
    }

    fn flush(&mut self) -> io::Result<()> {
        self.call(Write::flush)
    }
}

/// The exit status after an argument that is invalid.
pub const BAD_ARGUMENT: u8 = 2;

/// The exit status after a read or a write that failed.
pub const DEVICE_FAILED: u8 = 3;

/// The reason why a program failed: an exit status and a message. It is displayed as the message, followed by
/// the text of the system's error if there was one.
#[derive(Debug)]
pub struct Failure {
    status: u8,
    message: String,
    error: Option<io::Error>,
}

impl Failure {
    /// Returns a failure with this exit status and this message.
    pub fn new(status: u8, message: impl Into<String>) -> Failure {
        Failure {
            status,
            message: message.into(),
            error: None,
        }
    }

    /// Returns the failure to write the file at `path`.
    pub fn unwritten(path: &str, error: io::Error) -> Failure {
        let message = format!("{path} cannot be written");
        Failure::new(DEVICE_FAILED, message).caused_by(Some(error))
    }

    /// Adds the text of the system's error to the message.
    pub fn caused_by(self, error: Option<io::Error>) -> Failure {
        Failure { error, ..self }
    }

    /// Writes the message to standard error, after `prefix`, and returns the exit status.
    pub fn exit(&self, prefix: &str) -> ExitCode {
        // If standard error cannot be written, the exit status still says what happened.
        let _ = writeln!(io::stderr(), "{prefix}{self}");
        ExitCode::from(self.status)
    }
}

impl From<run_digest_engine::fault::Fault> for Failure {
    fn from(fault: run_digest_engine::fault::Fault) -> Failure {
        Failure::new(fault.status(), fault.to_string())
    }
}

impl From<report::fault::Fault> for Failure {
    fn from(fault: report::fault::Fault) -> Failure {
        Failure::new(fault.status(), fault.to_string())
    }
}

impl fmt::Display for Failure {
    fn fmt(&self, f: &mut fmt::Formatter<'_>) -> fmt::Result {
        f.write_str(&self.message)?;
        match &self.error {
            Some(error) => write!(f, ": {error}"),
            None => Ok(()),
        }
    }
}

/// Runs an engine from a reader to a writer. Returns status 0 if the engine returns true, and status 1 if it
/// returns false. Calls that are interrupted are repeated. The failure has the exact text of the fault.
pub fn run_engine<R: Read, W: Write, E: Into<Failure>>(
    reader: R,
    writer: W,
    engine: impl FnOnce(
        &mut StdSource<&mut KeepError<R>>,
        &mut StdSink<&mut KeepError<W>>,
    ) -> Result<bool, E>,
) -> Result<ExitCode, Failure> {
    let mut reader = KeepError::new(reader);
    let mut writer = KeepError::new(writer);
    let mut source = StdSource::new(&mut reader);
    let mut sink = StdSink::new(&mut writer);
    let success = engine(&mut source, &mut sink).map_err(E::into)?;
    Ok(ExitCode::from(u8::from(!success)))
}

/// Prints a message of clap: the help, the version, or the error of an argument. Returns the exit status.
pub fn print_clap(message: &clap::Error) -> Result<ExitCode, Failure> {
    let (status, is_open) = if message.use_stderr() {
        (BAD_ARGUMENT, Ok(()))
    } else {
        (0, check_output())
    };
    match is_open.and_then(|()| message.print()) {
        Ok(()) => Ok(ExitCode::from(status)),
        Err(error) => {
            let message = DeviceFault::Write.to_string();
            Err(Failure::new(DEVICE_FAILED, message).caused_by(Some(error)))
        }
    }
}
