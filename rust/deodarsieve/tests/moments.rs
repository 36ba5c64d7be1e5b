//! Moments: values that are refused, comparisons and conversions.

use std::cmp::Ordering;
use std::collections::HashSet;

use deodarsieve::Moment;

/// One hour, in seconds.
const HOUR: i32 = 3_600;

#[test]
fn numbers_out_of_range_are_refused() {
    assert!(Moment::new(0, 999_999_999, 86_399).is_some());
    assert!(Moment::new(i64::MIN, 0, -86_399).is_some());
    assert_eq!(Moment::new(0, 1_000_000_000, 0), None);
    assert_eq!(Moment::new(0, 0, 86_400), None);
    assert_eq!(Moment::new(0, 0, -86_400), None);
    assert_eq!(Moment::UNIX_EPOCH.with_offset_seconds(86_400), None);
    let beyond = Moment::MAX.unix_nanoseconds() + 1;
    assert_eq!(Moment::from_unix_nanoseconds(beyond, 0), None);
    assert_eq!(
        Moment::from_unix_nanoseconds(Moment::MIN.unix_nanoseconds() - 1, 0),
        None
    );
}

#[test]
fn nanoseconds_count_forwards_before_the_epoch() {
    let half_before = Moment::from_unix_nanoseconds(-500_000_000, HOUR).expect("it is in range");
    assert_eq!(Moment::new(-1, 500_000_000, HOUR), Some(half_before));
    assert_eq!(half_before.unix_seconds(), -1);
    assert_eq!(half_before.subsecond_nanoseconds(), 500_000_000);
    assert_eq!(half_before.offset_seconds(), HOUR);
    assert_eq!(half_before.unix_nanoseconds(), -500_000_000);
}

#[test]
fn every_moment_comes_back_from_its_nanoseconds() {
    for moment in [Moment::MIN, Moment::UNIX_EPOCH, Moment::MAX] {
        let offset = moment.offset_seconds();
        let back = Moment::from_unix_nanoseconds(moment.unix_nanoseconds(), offset);
        assert_eq!(back, Some(moment));
        assert_eq!(back.map(Moment::offset_seconds), Some(offset));
    }
}

#[test]
fn moments_are_compared_by_instant() {
    let mut moments = [
        Moment::MAX,
        Moment::new(1, 0, -HOUR).expect("it is in range"),
        Moment::new(0, 1, 0).expect("it is in range"),
        Moment::UNIX_EPOCH,
        Moment::MIN,
    ];
    moments.sort();
    assert!(moments.map(Moment::unix_nanoseconds).is_sorted());
    let elsewhere = Moment::new(0, 0, HOUR).expect("it is in range");
    assert_eq!(elsewhere, Moment::UNIX_EPOCH);
    assert_eq!(elsewhere.cmp(&Moment::UNIX_EPOCH), Ordering::Equal);
    assert!(HashSet::from([elsewhere]).contains(&Moment::UNIX_EPOCH));
}

#[test]
fn milliseconds_are_rounded_down() {
    let milliseconds = |nanoseconds| {
        Moment::from_unix_nanoseconds(nanoseconds, HOUR).map(Moment::timestamp_millis)
    };
    assert_eq!(milliseconds(1_999_999), Some(1));
    assert_eq!(milliseconds(-1), Some(-1));
    assert_eq!(milliseconds(-1_000_000), Some(-1));
    assert_eq!(Moment::MIN.timestamp_millis(), i64::MIN);
    assert_eq!(Moment::MAX.timestamp_millis(), i64::MAX);
}

#[cfg(feature = "std")]
#[test]
fn a_system_time_is_a_moment_at_utc() {
    use std::time::{Duration, SystemTime};

    let span = Duration::new(5, 250_000_000);
    let after = Moment::from(SystemTime::UNIX_EPOCH + span);
    let before = Moment::from(SystemTime::UNIX_EPOCH - span);
    assert_eq!(Some(after), Moment::new(5, 250_000_000, 0));
    assert_eq!(Some(before), Moment::new(-6, 750_000_000, 0));
    assert!(Moment::from(SystemTime::now()) > after);
}

#[cfg(feature = "chrono")]
mod with_chrono {
    use chrono::{DateTime, FixedOffset, NaiveDate, NaiveDateTime, TimeZone, Utc};
    use deodarsieve::{Moment, MomentOutOfRange};

    #[test]
    fn a_date_comes_back() {
        let offset = FixedOffset::east_opt(-12_600).expect("it is in range");
        for text in [
            "2026-11-25T09:30:00.123456789+05:45",
            "1969-12-31T20:00:00.5-03:30",
        ] {
            let time = DateTime::parse_from_rfc3339(text).expect("it is a date");
            let moment = Moment::from(time);
            let back = DateTime::<FixedOffset>::try_from(moment).expect("chrono had it");
            assert_eq!((back, back.offset()), (time, time.offset()));
            assert_eq!(moment.offset_seconds(), time.offset().local_minus_utc());
            assert!(back.with_timezone(&offset) == time);
        }
    }

    /// A time zone of the user, an hour to the east.
    #[derive(Clone, Debug)]
    struct East;

    impl TimeZone for East {
        type Offset = FixedOffset;

        fn from_offset(_: &FixedOffset) -> Self {
            East
        }

        fn offset_from_local_date(&self, _: &NaiveDate) -> chrono::LocalResult<FixedOffset> {
            chrono::LocalResult::Single(self.offset())
        }

        fn offset_from_local_datetime(
            &self,
            _: &NaiveDateTime,
        ) -> chrono::LocalResult<FixedOffset> {
            chrono::LocalResult::Single(self.offset())
        }

        fn offset_from_utc_date(&self, _: &NaiveDate) -> FixedOffset {
            self.offset()
        }

        fn offset_from_utc_datetime(&self, _: &NaiveDateTime) -> FixedOffset {
            self.offset()
        }
    }

    impl East {
        fn offset(&self) -> FixedOffset {
            FixedOffset::east_opt(3_600).expect("it is in range")
        }
    }

    #[test]
    fn a_date_of_any_zone_is_a_moment() {
        let utc = Utc.timestamp_opt(86_400, 7).single().expect("it is a date");
        assert_eq!(Some(Moment::from(utc)), Moment::new(86_400, 7, 0));
        let east = utc.with_timezone(&East);
        assert_eq!(Some(Moment::from(east)), Moment::new(86_400, 7, 3_600));
    }

    #[test]
    fn a_moment_is_a_date_in_utc() {
        let moment = Moment::new(-1, 999_000_000, 3_600).expect("it is in range");
        let utc = DateTime::<Utc>::try_from(moment).expect("chrono has it");
        assert_eq!(utc.to_rfc3339(), "1969-12-31T23:59:59.999+00:00");
        assert_eq!(utc.timestamp_millis(), moment.timestamp_millis());
        assert_eq!(
            DateTime::<Utc>::try_from(Moment::MAX),
            Err(MomentOutOfRange)
        );
    }

    #[test]
    fn a_leap_second_becomes_the_second_after_it() {
        let leap = NaiveDate::from_ymd_opt(2016, 12, 31)
            .and_then(|date| date.and_hms_milli_opt(23, 59, 59, 1_250))
            .expect("it is a leap second");
        let utc = FixedOffset::east_opt(0).expect("it is in range");
        let moment = Moment::from(utc.from_utc_datetime(&leap));
        assert_eq!(Some(moment), Moment::new(1_483_228_800, 250_000_000, 0));
    }

    #[test]
    fn a_year_that_chrono_cannot_hold_is_refused() {
        for moment in [Moment::MIN, Moment::MAX] {
            assert_eq!(
                DateTime::<FixedOffset>::try_from(moment),
                Err(MomentOutOfRange)
            );
        }
        let text = "the moment is outside the range of the type that it is converted to";
        assert_eq!(MomentOutOfRange.to_string(), text);
    }
}
