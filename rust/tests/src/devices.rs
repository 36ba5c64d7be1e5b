//! The devices of a test of an engine.

/// How much room the sink has, and which calls of the source and of the sink fail.
#[derive(Clone, Copy, Debug)]
pub struct Devices {
    pub room: usize,
    pub read_fails: Option<usize>,
    pub write_fails: Option<usize>,
}

impl Devices {
    /// Returns devices that do not fail, with this much room in the sink.
    #[must_use]
    pub const fn sound(room: usize) -> Devices {
        Devices {
            room,
            read_fails: None,
            write_fails: None,
        }
    }
}
