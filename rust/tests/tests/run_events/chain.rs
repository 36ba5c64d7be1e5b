//! Long errors.

use deodarsieve::SerializableError;

/// Returns an error with this many causes, which all differ.
fn long_error(count: u32) -> SerializableError {
    let causes = (0..count).map(|number| format!("cause {number}"));
    SerializableError::from_message_and_causes(String::from("m"), causes.collect())
}

// If a comparison or a drop called itself for each cause, the stack would overflow.
#[test]
fn long_errors_go_to_json_and_back() {
    for count in [1_000, 200_000] {
        let error = long_error(count);
        let read = SerializableError::from_value(&error.to_value());
        let read = read.expect("the value is an error");
        assert!(read == error, "{count} causes");
        assert!(read != long_error(count + 1), "{count} causes");
    }
}
