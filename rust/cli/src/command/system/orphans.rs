//! Processes that a program leaves behind, on Linux.

use std::fs;
use std::ptr;

/// The processes that children of this process leave behind when they end. They become children of this process.
#[derive(Debug)]
pub struct Orphans {
    /// The numbers of the children that this process had before. A process that became this one may have started them.
    others: Vec<i32>,

    /// The numbers of the orphans that got SIGTERM.
    asked: Vec<i32>,
}

impl Orphans {
    /// Makes processes that are left behind from now on children of this process.
    #[allow(
        unsafe_code,
        reason = "no safe call makes a process adopt those that are left behind"
    )]
    pub fn adopt() -> Orphans {
        let others = children();
        // SAFETY: the call takes numbers and touches no memory. If it fails, no process is adopted.
        unsafe { libc::prctl(libc::PR_SET_CHILD_SUBREAPER, libc::c_ulong::from(1_u8)) };
        Orphans {
            others,
            asked: Vec::new(),
        }
    }

    /// Sends SIGTERM once to each process that was left behind and runs, or SIGKILL if `kills` is true. Returns false if
    /// there is one.
    pub fn end(&mut self, kills: bool) -> bool {
        let is_orphan = |process: &i32| !self.others.contains(process) && !has_ended(*process);
        let left: Vec<_> = children().into_iter().filter(is_orphan).collect();
        for process in &left {
            if kills {
                send(libc::SIGKILL, *process);
            } else if !self.asked.contains(process) {
                send(libc::SIGTERM, *process);
                self.asked.push(*process);
            }
        }
        left.is_empty()
    }
}

/// Returns the numbers of the children of this process that were not waited for. A system may not say them.
fn children() -> Vec<i32> {
    let threads = fs::read_dir("/proc/self/task").into_iter().flatten();
    let lists =
        threads.filter_map(|thread| fs::read_to_string(thread.ok()?.path().join("children")).ok());
    let numbers = |list: String| -> Vec<i32> {
        list.split_whitespace()
            .filter_map(|number| number.parse().ok())
            .collect()
    };
    lists.flat_map(numbers).collect()
}

/// Waits for a child if it has ended. Returns true if it has.
#[allow(
    unsafe_code,
    reason = "the standard library waits only for a child that it has started"
)]
fn has_ended(child: i32) -> bool {
    // SAFETY: the call takes numbers, and no place to write to.
    unsafe { libc::waitpid(child, ptr::null_mut(), libc::WNOHANG) != 0 }
}

/// Sends a signal to a child that was not waited for.
#[allow(
    unsafe_code,
    reason = "the standard library has no call that sends a signal"
)]
fn send(signal: i32, child: i32) {
    // SAFETY: the call takes two numbers and touches no memory.
    unsafe { libc::kill(child, signal) };
}
