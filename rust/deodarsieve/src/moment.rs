//! Instants of the clock.

use core::cmp::Ordering;
use core::hash::{Hash, Hasher};

/// The number of nanoseconds in a second.
const NANOSECONDS_PER_SECOND: u32 = 1_000_000_000;

/// The number of seconds in a day.
const SECONDS_PER_DAY: i32 = 86_400;

/// An instant of the wall clock, with the offset from UTC at which it was read.
///
/// The instant is a number of seconds and nanoseconds since 1970-01-01 00:00:00 UTC. Leap seconds
/// are not counted, as in Unix time. The offset does not change the instant; it says how a reporter
/// shows it.
///
/// Two moments are equal if their instants are, and they are ordered by instant, as in `chrono`. The
/// offset does not count.
///
/// # Conversions
///
/// - From [`SystemTime`], at offset 0, with the feature `std`.
/// - From `chrono::DateTime` of any time zone, and to `DateTime<FixedOffset>` and `DateTime<Utc>`,
///   with the feature `chrono`.
/// - To and from text in the form of RFC 3339, by `serde`, with the feature `serde`.
/// - From and to the types of any other library by their numbers. For a `Zoned` of `jiff`, and for
///   a `Timestamp` from a moment:
///
///   ```text
///   let nanoseconds = zoned.timestamp().as_nanosecond();
///   Moment::from_unix_nanoseconds(nanoseconds, zoned.offset().seconds())
///
///   Timestamp::from_nanosecond(moment.unix_nanoseconds())
///   ```
///
/// ```
/// use deodarsieve::Moment;
///
/// // 2026-01-01 00:00:00.5 in UTC, read in a place one hour to the east.
/// let moment = Moment::new(1_767_225_600, 500_000_000, 3_600).expect("a valid moment");
/// assert!(moment > Moment::UNIX_EPOCH);
/// assert_eq!(moment.offset_seconds(), 3_600);
/// ```
///
/// [`SystemTime`]: https://doc.rust-lang.org/std/time/struct.SystemTime.html
#[derive(Clone, Copy, Debug)]
pub struct Moment {
    unix_seconds: i64,
    subsecond_nanoseconds: u32,
    offset_seconds: i32,
}

impl Moment {
    /// 1970-01-01 00:00:00 UTC, at offset 0.
    pub const UNIX_EPOCH: Moment = Moment {
        unix_seconds: 0,
        subsecond_nanoseconds: 0,
        offset_seconds: 0,
    };

    /// The earliest instant, at the least offset.
    pub const MIN: Moment = Moment {
        unix_seconds: i64::MIN,
        subsecond_nanoseconds: 0,
        offset_seconds: 1 - SECONDS_PER_DAY,
    };

    /// The latest instant, at the greatest offset.
    pub const MAX: Moment = Moment {
        unix_seconds: i64::MAX,
        subsecond_nanoseconds: NANOSECONDS_PER_SECOND - 1,
        offset_seconds: SECONDS_PER_DAY - 1,
    };

    /// Returns the instant `unix_seconds` seconds and `subsecond_nanoseconds` nanoseconds after the
    /// Unix epoch, at `offset_seconds` seconds east of UTC.
    ///
    /// Before the epoch `unix_seconds` is negative, and the nanoseconds still count forwards: half
    /// a second before the epoch is `(-1, 500_000_000)`.
    ///
    /// Returns `None` if there are 1,000,000,000 nanoseconds or more, or if the offset is a day or
    /// more in either direction.
    #[must_use]
    pub const fn new(
        unix_seconds: i64,
        subsecond_nanoseconds: u32,
        offset_seconds: i32,
    ) -> Option<Moment> {
        if subsecond_nanoseconds >= NANOSECONDS_PER_SECOND
            || offset_seconds <= -SECONDS_PER_DAY
            || offset_seconds >= SECONDS_PER_DAY
        {
            return None;
        }
        Some(Moment {
            unix_seconds,
            subsecond_nanoseconds,
            offset_seconds,
        })
    }

    /// Returns the instant `unix_nanoseconds` nanoseconds after the Unix epoch, at `offset_seconds`
    /// seconds east of UTC. A negative number is an instant before the epoch.
    ///
    /// Returns `None` if the instant is earlier than [`Moment::MIN`] or later than [`Moment::MAX`],
    /// or if the offset is a day or more in either direction.
    #[must_use]
    pub fn from_unix_nanoseconds(unix_nanoseconds: i128, offset_seconds: i32) -> Option<Moment> {
        let per_second = i128::from(NANOSECONDS_PER_SECOND);
        let seconds = i64::try_from(unix_nanoseconds.div_euclid(per_second)).ok()?;
        let nanoseconds = u32::try_from(unix_nanoseconds.rem_euclid(per_second)).ok()?;
        Moment::new(seconds, nanoseconds, offset_seconds)
    }

    /// Returns the whole seconds from the Unix epoch to the instant, rounded down: negative before
    /// the epoch.
    #[must_use]
    pub const fn unix_seconds(self) -> i64 {
        self.unix_seconds
    }

    /// Returns the nanoseconds of the instant after its whole second, below 1,000,000,000.
    #[must_use]
    pub const fn subsecond_nanoseconds(self) -> u32 {
        self.subsecond_nanoseconds
    }

    /// Returns the nanoseconds from the Unix epoch to the instant: negative before the epoch.
    #[must_use]
    pub const fn unix_nanoseconds(self) -> i128 {
        self.unix_seconds as i128 * NANOSECONDS_PER_SECOND as i128
            + self.subsecond_nanoseconds as i128
    }

    /// Returns the milliseconds from the Unix epoch to the instant, rounded down: negative before
    /// the epoch. If an `i64` cannot hold the number, returns the nearest that it can. That is some
    /// 292 million years away.
    #[must_use]
    pub fn timestamp_millis(self) -> i64 {
        let milliseconds = self.unix_nanoseconds().div_euclid(1_000_000);
        let nearest = if milliseconds < 0 { i64::MIN } else { i64::MAX };
        i64::try_from(milliseconds).unwrap_or(nearest)
    }

    /// Returns the offset in seconds east of UTC: less than a day in either direction.
    #[must_use]
    pub const fn offset_seconds(self) -> i32 {
        self.offset_seconds
    }

    /// Returns the same instant at another offset, or `None` if the offset is a day or more in
    /// either direction.
    #[must_use]
    pub const fn with_offset_seconds(self, offset_seconds: i32) -> Option<Moment> {
        Moment::new(
            self.unix_seconds,
            self.subsecond_nanoseconds,
            offset_seconds,
        )
    }
}

impl PartialEq for Moment {
    fn eq(&self, other: &Self) -> bool {
        self.unix_nanoseconds() == other.unix_nanoseconds()
    }
}

impl Eq for Moment {}

impl PartialOrd for Moment {
    fn partial_cmp(&self, other: &Self) -> Option<Ordering> {
        Some(self.cmp(other))
    }
}

impl Ord for Moment {
    fn cmp(&self, other: &Self) -> Ordering {
        self.unix_nanoseconds().cmp(&other.unix_nanoseconds())
    }
}

impl Hash for Moment {
    fn hash<H: Hasher>(&self, state: &mut H) {
        self.unix_nanoseconds().hash(state);
    }
}

/// A date or an offset of a [`Moment`] is outside the range of the type that it is converted to.
#[cfg(feature = "chrono")]
#[derive(Clone, Copy, Debug, PartialEq, Eq)]
pub struct MomentOutOfRange;

#[cfg(feature = "chrono")]
impl core::fmt::Display for MomentOutOfRange {
    fn fmt(&self, f: &mut core::fmt::Formatter<'_>) -> core::fmt::Result {
        f.write_str("the moment is outside the range of the type that it is converted to")
    }
}

#[cfg(feature = "chrono")]
impl core::error::Error for MomentOutOfRange {}
