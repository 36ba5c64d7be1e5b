//! The text of the header, and the values that the tests read from it.

/// The text of the header, with its comments.
pub const HEADER: &str = include_str!("../../include/deodarsieve.h");

/// Returns the value of a macro of the header that is one number.
pub fn number(name: &str) -> u32 {
    let found = numbers(name);
    assert!(
        found.len() == 1 && found[0].0.is_empty(),
        "{name}: {found:?}"
    );
    found[0].1
}

/// Returns the macros of the header whose names begin with `prefix` and whose values are one number:
/// the rest of the name, and the number.
pub fn numbers(prefix: &str) -> Vec<(&'static str, u32)> {
    HEADER
        .lines()
        .filter_map(|line| {
            let (name, value) = line.strip_prefix("#define ")?.split_once(' ')?;
            let number = value.split_whitespace().next()?.strip_suffix('u')?;
            Some((name.strip_prefix(prefix)?, number.parse().ok()?))
        })
        .collect()
}
