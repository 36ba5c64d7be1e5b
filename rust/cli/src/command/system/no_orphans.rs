//! Processes that a program leaves behind, on systems that are not Linux: they are left alone.

/// The processes that children of this process leave behind when they end.
#[derive(Debug)]
pub struct Orphans;

impl Orphans {
    /// Does nothing.
    pub fn adopt() -> Orphans {
        Orphans
    }

    /// Returns true: no such process is known.
    pub fn end(&mut self, _kills: bool) -> bool {
        true
    }
}
