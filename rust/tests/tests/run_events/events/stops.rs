//! A run is cancelled, paused and continued.

use super::{event_of, kind_of, so_far};
use deodarsieve::{CancelReason, ReporterEvent, RunStats, TestEventKind};

/// The counters of a run that is cancelled for this reason.
fn stats_at(reason: CancelReason) -> RunStats {
    RunStats {
        cancel_reason: Some(reason),
        ..so_far()
    }
}

fn cancelled() -> ReporterEvent<'static> {
    let kind = TestEventKind::RunBeginCancel {
        setup_scripts_running: 1,
        current_stats: stats_at(CancelReason::Interrupt),
        running: 6,
    };
    event_of(kind)
}

/// Returns true if its fields are those that `cancelled` put in.
fn is_cancelled(event: &ReporterEvent<'_>) -> bool {
    let Some(TestEventKind::RunBeginCancel {
        setup_scripts_running,
        current_stats,
        running,
    }) = kind_of(event)
    else {
        return false;
    };
    let counts = (*setup_scripts_running, *running) == (1, 6);
    counts && *current_stats == stats_at(CancelReason::Interrupt)
}

fn killed() -> ReporterEvent<'static> {
    let kind = TestEventKind::RunBeginKill {
        setup_scripts_running: 0,
        current_stats: stats_at(CancelReason::SecondSignal),
        running: 5,
    };
    event_of(kind)
}

/// Returns true if its fields are those that `killed` put in.
fn is_killed(event: &ReporterEvent<'_>) -> bool {
    let Some(TestEventKind::RunBeginKill {
        setup_scripts_running,
        current_stats,
        running,
    }) = kind_of(event)
    else {
        return false;
    };
    let counts = (*setup_scripts_running, *running) == (0, 5);
    counts && *current_stats == stats_at(CancelReason::SecondSignal)
}

fn paused() -> ReporterEvent<'static> {
    let kind = TestEventKind::RunPaused {
        setup_scripts_running: 2,
        running: 0,
    };
    event_of(kind)
}

/// Returns true if its fields are those that `paused` put in.
fn is_paused(event: &ReporterEvent<'_>) -> bool {
    let Some(TestEventKind::RunPaused {
        setup_scripts_running,
        running,
    }) = kind_of(event)
    else {
        return false;
    };
    (*setup_scripts_running, *running) == (2, 0)
}

fn continued() -> ReporterEvent<'static> {
    let kind = TestEventKind::RunContinued {
        setup_scripts_running: 1,
        running: 3,
    };
    event_of(kind)
}

/// Returns true if its fields are those that `continued` put in.
fn is_continued(event: &ReporterEvent<'_>) -> bool {
    let Some(TestEventKind::RunContinued {
        setup_scripts_running,
        running,
    }) = kind_of(event)
    else {
        return false;
    };
    (*setup_scripts_running, *running) == (1, 3)
}

#[test]
fn stops_are_read_back() {
    assert!(is_cancelled(&cancelled()), "RunBeginCancel");
    assert!(is_killed(&killed()), "RunBeginKill");
    assert!(is_paused(&paused()), "RunPaused");
    assert!(is_continued(&continued()), "RunContinued");
}
