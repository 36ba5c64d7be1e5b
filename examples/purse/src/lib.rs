//! A purse of coins, with mistakes in it on purpose: its tests show how `test-report` reports failures.

use std::fmt;
use std::num::ParseIntError;
use std::str::FromStr;

/// A purse with an amount of cents.
#[derive(Clone, Copy, Debug, Default, PartialEq, Eq)]
pub struct Purse {
    cents: u64,
}

impl Purse {
    /// Puts cents into the purse.
    ///
    /// ```
    /// let mut purse = purse::Purse::default();
    /// purse.put(250);
    /// purse.put(5);
    /// assert_eq!(purse.to_string(), "2.55");
    /// ```
    pub fn put(&mut self, cents: u64) {
        self.cents += cents;
    }

    /// Takes cents out of the purse, or returns `None` if it has fewer.
    pub fn take(&mut self, cents: u64) -> Option<u64> {
        self.cents = self.cents.checked_sub(cents)?;
        Some(cents)
    }

    /// Divides the purse among this many people. The mistake: the cents that are left over are lost.
    pub fn share(self, people: u64) -> Vec<Purse> {
        let cents = self.cents / people;
        (0..people).map(|_| Purse { cents }).collect()
    }
}

impl fmt::Display for Purse {
    fn fmt(&self, f: &mut fmt::Formatter<'_>) -> fmt::Result {
        write!(f, "{}.{:02}", self.cents / 100, self.cents % 100)
    }
}

impl FromStr for Purse {
    type Err = ParseIntError;

    /// Reads an amount such as `2.55`. The mistake: an amount without cents, such as `2`, is refused.
    fn from_str(text: &str) -> Result<Purse, ParseIntError> {
        let (whole, cents) = text.split_once('.').unwrap_or((text, ""));
        let (whole, cents) = (whole.parse::<u64>()?, cents.parse::<u64>()?);
        Ok(Purse {
            cents: 100 * whole + cents,
        })
    }
}

#[cfg(test)]
mod tests {
    use super::*;
    use std::thread;

    /// Returns a purse with this many cents.
    fn with(cents: u64) -> Purse {
        let mut purse = Purse::default();
        purse.put(cents);
        purse
    }

    #[test]
    fn takes_what_was_put() {
        let mut purse = with(300);
        assert_eq!(purse.take(120), Some(120));
        assert_eq!(purse, with(180));
    }

    #[test]
    fn displays_two_digits_of_cents() {
        assert_eq!(with(205).to_string(), "2.05");
    }

    #[test]
    fn shares_every_cent() {
        let shares = with(100).share(3);
        println!("each of {} people has {}", shares.len(), shares[0]);
        let sum: u64 = shares.iter().map(|share| share.cents).sum();
        assert_eq!(sum, 100, "a cent is lost");
    }

    #[test]
    fn reads_an_amount_without_cents() -> Result<(), ParseIntError> {
        let purse: Purse = "2".parse()?;
        assert_eq!(purse, with(200));
        Ok(())
    }

    #[test]
    fn pays_from_another_thread() {
        let payer = thread::spawn(|| with(100).take(150).expect("the purse has too little"));
        assert_eq!(payer.join().unwrap(), 150);
    }

    #[test]
    #[should_panic(expected = "too little")]
    fn refuses_to_take_too_much() {
        with(100).take(150);
    }

    #[test]
    #[ignore = "needs a bank"]
    fn pays_by_card() {
        assert_eq!(with(100).take(100), Some(100));
    }
}
