//! Times, each the least of several.

use std::time::Instant;

/// How often each step is timed.
const ROUNDS: usize = 15;

/// The least time in nanoseconds that is measured. A shorter step is repeated.
const LEAST_TIME: f64 = 1_000_000.0;

/// A step, which panics if its result is wrong.
pub type Step = Box<dyn FnMut()>;

/// The steps that are timed for a call.
pub struct Work {
    /// The call.
    pub call: Step,

    /// The same call of the proved library, if the library has it.
    pub archived: Option<Step>,

    /// One pass over the input of the call.
    pub pass: Step,
}

/// The most time that a call may take, as a multiple of the time of the library's.
const MOST_OF_ARCHIVE: f64 = 1.1;

/// The nanoseconds that a call may take in addition.
const LEEWAY: f64 = 25.0;

/// The most time that a call may take, as a multiple of its time at half the size. If the time were
/// in proportion to the square of the size, it would be 4 times as long.
pub const MOST_GROWTH: f64 = 2.5;

/// The least times of the steps, in nanoseconds.
pub struct Times {
    call: f64,
    half_call: f64,
    archived: Option<f64>,
    pass: f64,
}

impl Times {
    /// Returns the time of the call in milliseconds.
    pub fn milliseconds(&self) -> f64 {
        self.call / 1_000_000.0
    }

    /// Returns the time of the call as a multiple of that of a pass.
    pub fn passes(&self) -> f64 {
        self.call / self.pass
    }

    /// Returns the time of the call as a multiple of its time at half the size. A call that takes
    /// less than a millisecond has no growth.
    pub fn growth(&self) -> Option<f64> {
        (self.call >= LEAST_TIME).then(|| self.call / self.half_call)
    }

    /// Returns the time of the call as a multiple of that of the library's, if it has the call.
    pub fn of_archive(&self) -> Option<f64> {
        self.archived.map(|archived| self.call / archived)
    }

    /// Returns true if the call takes longer than it may, given the time of the library's.
    pub fn is_above_archive(&self) -> bool {
        self.archived
            .is_some_and(|archived| self.call > MOST_OF_ARCHIVE * archived + LEEWAY)
    }
}

/// A step that is timed.
struct Timed {
    step: Step,

    /// How often the step is done for one time.
    count: u32,

    /// The least time, in nanoseconds.
    least: f64,
}

impl Timed {
    /// Returns a step with the count that takes long enough to be timed.
    fn new(mut step: Step) -> Self {
        let start = Instant::now();
        step();
        let time = start.elapsed().as_nanos() as f64;
        Self {
            step,
            count: (LEAST_TIME / time.max(1.0)).ceil() as u32,
            least: f64::INFINITY,
        }
    }

    /// Times the step once more.
    fn measure(&mut self) {
        let start = Instant::now();
        for _ in 0..self.count {
            (self.step)();
        }
        let time = start.elapsed().as_nanos() as f64 / f64::from(self.count);
        self.least = self.least.min(time);
    }
}

/// Measures the steps of a call, and the call at half the size. They take turns, so that a load of
/// the machine slows all of them.
pub fn least_times(work: Work, half_call: Step) -> Times {
    let mut call = Timed::new(work.call);
    let mut half_call = Timed::new(half_call);
    let mut archived = work.archived.map(Timed::new);
    let mut pass = Timed::new(work.pass);
    for _ in 0..ROUNDS {
        call.measure();
        half_call.measure();
        if let Some(archived) = &mut archived {
            archived.measure();
        }
        pass.measure();
    }
    Times {
        call: call.least,
        half_call: half_call.least,
        archived: archived.map(|archived| archived.least),
        pass: pass.least,
    }
}
