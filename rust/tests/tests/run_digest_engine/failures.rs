//! The engines over devices that fail.

use crate::run_digest_engine::engine::{EXTRACT, Engine, OUTPUT, REPORT, RUN, SOUND};
use crate::run_digest_engine::long_runs::run_of;
use deodarsieve_cli::run_digest_engine::fault::Fault;
use deodarsieve_tests::devices::Devices;

/// Three sub-runs. Counted as one run, they would be cancelled by the interrupt.
const SUB_RUNS: &[u8] =
    b"run 1 0 -\ntest pass\nsub-run 1 0 -\ntest fail\nsub-run 2 0 interrupt\ntest pass\n";

/// The reports of [`SUB_RUNS`] and their outcome.
const SUB_REPORTS: &[u8] =
    b"tests 1 passed 1 failed 0 flaky 0\nscripts 0 failed 0\nsummary success\n\
      tests 1 passed 0 failed 1 flaky 0\nscripts 0 failed 0\nsummary failed test 1 0\n\
      tests 1 passed 1 failed 0 flaky 0\nscripts 0 failed 0\nsummary cancelled interrupt test 2 1\n\
      outcome failed test\n";

/// An engine and its input, with the answer and the text for that input.
type Case = (Engine, &'static [u8], bool, &'static [u8]);

const CASES: [Case; 3] = [
    (Engine::Count, RUN, false, REPORT),
    (Engine::Count, SUB_RUNS, false, SUB_REPORTS),
    (Engine::Extract, OUTPUT, true, EXTRACT),
];

/// Returns true if the engine returns a fault for each of the first `reads` reads that fails in
/// turn, and this answer and this text if a later read would fail.
fn answers_failed_reads(
    engine: Engine,
    input: &[u8],
    reads: usize,
    answer: bool,
    text: &[u8],
) -> bool {
    for at in 0..reads {
        let devices = Devices {
            read_fails: Some(at),
            ..SOUND
        };
        if !engine.gives(input, devices, Err(Fault::Read), b"") {
            return false;
        }
    }
    let devices = Devices {
        read_fails: Some(reads),
        ..SOUND
    };
    engine.gives(input, devices, Ok(answer), text)
}

#[test]
fn each_read_that_fails_is_answered() {
    assert!(answers_failed_reads(
        Engine::Count,
        SUB_RUNS,
        2,
        false,
        SUB_REPORTS
    ));
    // Three reads of the bytes, then the read that finds the end.
    let run = run_of(1_000, "test pass\n", (1_000, "", 0));
    let report = b"tests 1000 passed 1000 failed 0 flaky 0\nscripts 0 failed 0\nsummary success\n";
    assert!(answers_failed_reads(
        Engine::Count,
        run.as_bytes(),
        4,
        true,
        report
    ));
    let error = format!("Error: {:x>10000}", "x");
    let text = format!("error-str 0 4096\nError: {:x>4089}\n", "x");
    assert!(answers_failed_reads(
        Engine::Extract,
        error.as_bytes(),
        4,
        true,
        text.as_bytes()
    ));
}

#[test]
fn a_write_or_a_flush_that_fails_is_answered() {
    for (engine, input, answer, text) in CASES {
        // The write takes the whole text, then the flush follows.
        for (at, wanted, written) in [
            (0, Err(Fault::Write), b"".as_slice()),
            (1, Err(Fault::Write), text),
            (2, Ok(answer), text),
        ] {
            let devices = Devices {
                write_fails: Some(at),
                ..SOUND
            };
            assert!(
                engine.gives(input, devices, wanted, written),
                "call {at}, {} bytes",
                input.len()
            );
        }
    }
    // A bad line after good ones: the sink is not called.
    let input = b"run 2 0 -\ntest pass\ntest pass\ntest\n";
    let devices = Devices {
        write_fails: Some(0),
        ..SOUND
    };
    let wanted = Err(Fault::BadLine { number: 4 });
    assert!(Engine::Count.gives(input, devices, wanted, b""));
}

#[test]
fn a_sink_that_is_too_small_takes_what_it_can() {
    for (engine, input, answer, text) in CASES {
        for room in 0..text.len() {
            let devices = Devices { room, ..SOUND };
            let wanted = Err(Fault::Write);
            assert!(
                engine.gives(input, devices, wanted, &text[..room]),
                "room for {room} of {} bytes",
                text.len()
            );
        }
        let devices = Devices {
            room: text.len(),
            ..SOUND
        };
        assert!(engine.gives(input, devices, Ok(answer), text));
    }
}
