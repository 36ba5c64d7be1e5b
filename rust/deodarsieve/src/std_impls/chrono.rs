//! Moments from the types of `chrono`, and back.

use crate::moment::{Moment, MomentOutOfRange};
use ::chrono::{DateTime, FixedOffset, Offset, TimeZone, Utc};

/// The same instant at the same offset, from any time zone. An instant inside a leap second becomes
/// one inside the second after it, as in Unix time.
impl<Z: TimeZone> From<DateTime<Z>> for Moment {
    fn from(time: DateTime<Z>) -> Self {
        let seconds = i128::from(time.timestamp());
        let nanoseconds = seconds * 1_000_000_000 + i128::from(time.timestamp_subsec_nanos());
        Moment::from_unix_nanoseconds(nanoseconds, time.offset().fix().local_minus_utc())
            .expect("every date and offset of chrono fits a moment")
    }
}

/// The same instant at the same offset, or [`MomentOutOfRange`] if `chrono` cannot hold the year:
/// it can hold those up to some 262,000 years before and after the epoch.
impl TryFrom<Moment> for DateTime<FixedOffset> {
    type Error = MomentOutOfRange;

    fn try_from(moment: Moment) -> Result<Self, MomentOutOfRange> {
        let offset = FixedOffset::east_opt(moment.offset_seconds()).ok_or(MomentOutOfRange)?;
        date_of(moment, offset)
    }
}

/// The same instant in UTC, or [`MomentOutOfRange`] if `chrono` cannot hold the year.
impl TryFrom<Moment> for DateTime<Utc> {
    type Error = MomentOutOfRange;

    fn try_from(moment: Moment) -> Result<Self, MomentOutOfRange> {
        date_of(moment, Utc)
    }
}

/// Returns the date of a moment in a time zone.
fn date_of<Z: TimeZone>(moment: Moment, zone: Z) -> Result<DateTime<Z>, MomentOutOfRange> {
    zone.timestamp_opt(moment.unix_seconds(), moment.subsecond_nanoseconds())
        .single()
        .ok_or(MomentOutOfRange)
}
