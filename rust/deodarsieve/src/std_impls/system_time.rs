//! Moments from the clock of the standard library.

use crate::moment::Moment;
use std::time::SystemTime;

/// The instant at offset 0.
///
/// A system time that a [`Moment`] cannot hold, some 292 billion years away, becomes the nearest
/// that it can.
impl From<SystemTime> for Moment {
    fn from(time: SystemTime) -> Self {
        // A duration has fewer than 2^94 nanoseconds.
        let nanoseconds = match time.duration_since(SystemTime::UNIX_EPOCH) {
            Ok(after) => after.as_nanos() as i128,
            Err(error) => -(error.duration().as_nanos() as i128),
        };
        let least = Moment::MIN.unix_nanoseconds();
        let greatest = Moment::MAX.unix_nanoseconds();
        Moment::from_unix_nanoseconds(nanoseconds.clamp(least, greatest), 0)
            .expect("the instant is between the least and the greatest")
    }
}
