//! A chain of 100,000 causes is cloned, debugged, compared and dropped on a small stack.

use std::error::Error;
use std::thread;

use deodarsieve::SerializableError;

/// The number of causes of the chain.
const CAUSES: usize = 100_000;

/// The size of the stack, in bytes: a frame for each cause would need at least 16 times as many.
const STACK_SIZE: usize = 100_000;

/// Runs a task on a small stack, and returns its result.
fn on_small_stack<T: Send + 'static>(task: fn() -> T) -> T {
    thread::Builder::new()
        .stack_size(STACK_SIZE)
        .spawn(task)
        .expect("a thread is started")
        .join()
        .expect("the task does not panic")
}

/// An error with this number of causes.
fn chain_of(causes: usize) -> SerializableError {
    let causes = (0..causes)
        .map(|number| format!("cause {number}"))
        .collect();
    SerializableError::from_message_and_causes(String::from("outer"), causes)
}

/// An error with a long chain of causes.
fn long_chain() -> SerializableError {
    chain_of(CAUSES)
}

#[test]
fn it_is_cloned_compared_and_dropped() {
    let is_equal = on_small_stack(|| {
        let error = long_chain();
        let copy = error.clone();
        drop(error);
        copy == long_chain()
    });
    assert!(is_equal);
}

#[test]
fn it_is_debugged_on_one_line() {
    let line = on_small_stack(|| format!("{:?}", long_chain()));
    assert!(line.contains(r#""cause 99998", source: Some(SerializableError {"#));
    assert!(line.ends_with(&") }".repeat(CAUSES)));
}

/// Each cause is indented further than the one before it, so the text of 100,000 causes is too long
/// for a test. A call for each of 1,000 causes would need more than the small stack, too.
#[test]
fn a_shorter_one_is_debugged_on_many_lines() {
    let lines = on_small_stack(|| format!("{:#?}", chain_of(1_000)));
    assert_eq!(lines.lines().count(), 4 + 5 * 1_000);
}

#[test]
fn it_is_copied_from_its_sources() {
    let length = on_small_stack(|| {
        let error = long_chain();
        let copy = SerializableError::new(&error as &dyn Error);
        copy.sources().count()
    });
    assert_eq!(length, CAUSES);
}

#[cfg(feature = "serde")]
#[test]
fn it_is_serialized_and_deserialized() {
    let is_equal = on_small_stack(|| {
        let error = long_chain();
        let text = serde_json::to_string(&error).expect("it is written");
        serde_json::from_str::<SerializableError>(&text).is_ok_and(|read| read == error)
    });
    assert!(is_equal);
}

#[cfg(feature = "serde_json")]
#[test]
fn it_is_written_to_json_and_read_again() {
    let is_equal = on_small_stack(|| {
        let error = long_chain();
        SerializableError::from_value(&error.to_value()) == Ok(error)
    });
    assert!(is_equal);
}
