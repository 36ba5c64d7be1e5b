//! The two engines, over memory.

use deodarsieve_cli::program_io::device::Sink;
use deodarsieve_cli::program_io::memory_device::{MemorySink, MemorySource};
use deodarsieve_cli::run_digest_engine::count::count;
use deodarsieve_cli::run_digest_engine::extract::extract;
use deodarsieve_cli::run_digest_engine::fault::Fault;
use deodarsieve_tests::devices::Devices;

/// A run of two tests, of which one is flaky and one fails.
pub const RUN: &[u8] = b"run 2 0 -\ntest fail,pass\ntest fail slow\n";

/// The report of [`RUN`].
pub const REPORT: &[u8] =
    b"tests 2 passed 1 failed 1 flaky 1\nscripts 0 failed 0\nsummary failed test 2 0\n";

/// The output of a test that panicked.
pub const OUTPUT: &[u8] = b"foobar\nthread 'main' panicked at 'foo', src/lib.rs:1\n\n";

/// The text that `extract` writes for [`OUTPUT`].
pub const EXTRACT: &[u8] = b"panic-message 7 45\nthread 'main' panicked at 'foo', src/lib.rs:1\n";

/// Devices that do not fail, with room for every text.
pub const SOUND: Devices = Devices::sound(5_000);

/// The engine that reads the input.
#[derive(Clone, Copy)]
pub enum Engine {
    Count,
    Extract,
}

impl Engine {
    /// Returns true if the engine returns `wanted` with these devices and writes this text, and the
    /// sink has failed if and only if the engine returns [`Fault::Write`].
    pub fn gives(
        self,
        input: &[u8],
        devices: Devices,
        wanted: Result<bool, Fault>,
        text: &[u8],
    ) -> bool {
        let mut buffer = [0; 5_000];
        let mut source = MemorySource::new(input, devices.read_fails);
        let mut sink = MemorySink::new(&mut buffer[..devices.room.min(5_000)], devices.write_fails);
        let answer = match self {
            Engine::Count => count(&mut source, &mut sink),
            Engine::Extract => extract(&mut source, &mut sink),
        };
        answer == wanted
            && sink.written() == text
            && sink.has_failed() == (wanted == Err(Fault::Write))
    }
}
