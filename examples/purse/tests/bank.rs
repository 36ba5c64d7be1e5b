//! A test program that ends in the middle: one of its tests ends the process.

use purse::Purse;
use std::process;
use std::thread;
use std::time::Duration;

#[test]
fn a_deposit_is_kept() {
    let mut purse = Purse::default();
    purse.put(100);
    assert_eq!(purse.to_string(), "1.00");
}

#[test]
fn the_bank_hangs_up() {
    // The other test has ended by then.
    thread::sleep(Duration::from_millis(500));
    process::abort();
}
