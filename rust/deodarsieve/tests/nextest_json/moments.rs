//! Moments, which are dates.

use crate::nextest_json::{is_json, read, refusal};
use deodarsieve::Moment;

#[test]
fn moments_are_dates_with_an_offset() {
    let moment = |seconds, nanoseconds, offset| {
        Moment::new(seconds, nanoseconds, offset).expect("it is in range")
    };
    is_json(
        &moment(1_767_225_600, 500_000_000, 3_600),
        r#""2026-01-01T01:00:00.500+01:00""#,
    );
    is_json(
        &moment(1_767_225_600, 123_456_789, -12_600),
        r#""2025-12-31T20:30:00.123456789-03:30""#,
    );
    is_json(&moment(-1, 1_000, 0), r#""1969-12-31T23:59:59.000001Z""#);
    let read_with_zeros: Moment = read(r#""2026-01-01T00:00:00.5+00:00""#);
    assert_eq!(read_with_zeros, moment(1_767_225_600, 500_000_000, 0));
    let odd_offset = serde_json::to_string(&moment(0, 0, 3_659)).expect("it is written");
    assert_eq!(odd_offset, r#""1970-01-01T01:00:00+01:00""#);
    assert!(refusal::<Moment>(r#""yesterday""#).contains("invalid"));
}

#[test]
fn a_leap_second_is_read_as_the_second_after_it() {
    let moment: Moment = read(r#""2016-12-31T23:59:60Z""#);
    is_json(&moment, r#""2017-01-01T00:00:00Z""#);
}

#[test]
fn only_years_of_four_digits_are_written() {
    let first = Moment::new(-62_167_219_200, 0, 0).expect("it is in range");
    let last = Moment::new(253_402_300_799, 999_999_999, 0).expect("it is in range");
    is_json(&first, r#""0000-01-01T00:00:00Z""#);
    is_json(&last, r#""9999-12-31T23:59:59.999999999Z""#);
    let east = last.with_offset_seconds(60).expect("it is in range");
    let west = first.with_offset_seconds(-60).expect("it is in range");
    for moment in [east, west, Moment::MIN, Moment::MAX] {
        let refused = serde_json::to_string(&moment).expect_err("it is not written");
        assert!(refused.to_string().contains("outside the range"));
    }
}
