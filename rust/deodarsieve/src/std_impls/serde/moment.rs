//! Moments as texts in the form of RFC 3339, for example `2026-01-01T01:00:00.500+01:00`.

use crate::moment::{Moment, MomentOutOfRange};
use ::chrono::{DateTime, FixedOffset, SecondsFormat};
use ::serde::de::Error as _;
use ::serde::ser::Error as _;
use ::serde::{Deserialize, Deserializer, Serialize, Serializer};
use alloc::string::String;
use core::ops::RangeInclusive;

/// The seconds from 1970-01-01 00:00:00 to the first second of the year 0 and to the last of the
/// year 9999.
const WRITABLE_SECONDS: RangeInclusive<i64> = -62_167_219_200..=253_402_300_799;

/// Writes the date and time at the offset of the moment. The fraction of a second has 0, 3, 6 or 9
/// digits, and the offset 0 is `Z`.
///
/// An offset is written in whole minutes: its seconds are left out, and the instant is kept. A
/// moment whose date is before the year 0 or after the year 9999 is an error.
impl Serialize for Moment {
    fn serialize<S: Serializer>(&self, serializer: S) -> Result<S::Ok, S::Error> {
        let date = writable_date(*self).map_err(S::Error::custom)?;
        serializer.serialize_str(&date.to_rfc3339_opts(SecondsFormat::AutoSi, true))
    }
}

/// Reads a date and time with an offset.
impl<'de> Deserialize<'de> for Moment {
    fn deserialize<D: Deserializer<'de>>(deserializer: D) -> Result<Self, D::Error> {
        let date: DateTime<FixedOffset> = String::deserialize(deserializer)?
            .parse()
            .map_err(D::Error::custom)?;
        Ok(Moment::from(date))
    }
}

/// Returns the date of a moment at an offset in whole minutes.
fn writable_date(moment: Moment) -> Result<DateTime<FixedOffset>, MomentOutOfRange> {
    let offset = moment.offset_seconds() / 60 * 60;
    moment
        .unix_seconds()
        .checked_add(i64::from(offset))
        .filter(|seconds| WRITABLE_SECONDS.contains(seconds))
        .ok_or(MomentOutOfRange)?;
    moment
        .with_offset_seconds(offset)
        .ok_or(MomentOutOfRange)?
        .try_into()
}
