//! Requests of the user in the middle of a run.

use super::states::{delayed, ending, is_as_made};
use super::{
    THIRD, are, event_of, instance, is_instance, is_silent, kind_of, owned, script_id, so_far,
};
use deodarsieve::{
    InfoResponse, ReporterEvent, RetryData, SetupScriptInfoResponse, TestEventKind,
    TestInfoResponse, UnitState,
};
use deodarsieve_tests::fixtures::{EXIT_ONE, LEAK_PASS, attempt};

const FIRST_OF_THREE: RetryData = RetryData {
    attempt: 1,
    total_attempts: 3,
};

/// Returns the response of a setup script that is being ended.
fn answer_of_script() -> SetupScriptInfoResponse {
    let script_id = script_id();
    let program = String::from("sh");
    let args = owned(&["-c", "make"]);
    SetupScriptInfoResponse {
        stress_index: THIRD,
        script_id,
        program,
        args,
        state: UnitState::Terminating(ending()),
        output: attempt(LEAK_PASS, 1, false).output,
    }
}

/// Returns true if it is that response.
fn is_script_that_ends(answer: &SetupScriptInfoResponse) -> bool {
    answer.stress_index == THIRD
        && answer.script_id.0.as_str() == "make-database"
        && answer.program.as_str() == "sh"
        && are(answer.args.as_slice(), &["-c", "make"])
        && matches!(answer.state, UnitState::Terminating(_))
        && is_as_made(&answer.state)
        && is_silent(&answer.output, LEAK_PASS)
}

/// Returns the response of a test that waits for its second attempt.
fn answer_of_test() -> TestInfoResponse<'static> {
    TestInfoResponse {
        stress_index: None,
        test_instance: instance("adds"),
        retry_data: FIRST_OF_THREE,
        state: delayed(),
        output: attempt(EXIT_ONE, 1, false).output,
    }
}

/// Returns true if it is that response.
fn is_test_that_waits(answer: &TestInfoResponse<'_>) -> bool {
    answer.stress_index.is_none()
        && is_instance(&answer.test_instance, "adds")
        && answer.retry_data == FIRST_OF_THREE
        && matches!(answer.state, UnitState::DelayBeforeNextAttempt { .. })
        && is_as_made(&answer.state)
        && is_silent(&answer.output, EXIT_ONE)
}

/// Returns the event of one of two responses, at this position.
fn answered(index: usize, response: InfoResponse<'_>) -> ReporterEvent<'_> {
    let kind = TestEventKind::InfoResponse {
        index,
        total: 2,
        response,
    };
    event_of(kind)
}

/// Returns the response of an event, if it is one of two and at this position.
fn answer_at<'e, 'a>(event: &'e ReporterEvent<'a>, wanted: usize) -> Option<&'e InfoResponse<'a>> {
    match kind_of(event)? {
        TestEventKind::InfoResponse {
            index,
            total: 2,
            response,
        } if *index == wanted => Some(response),
        _ => None,
    }
}

/// Returns true if it is the first response, that of the setup script.
fn is_answer_of_script(event: &ReporterEvent<'_>) -> bool {
    match answer_at(event, 0) {
        Some(InfoResponse::SetupScript(answer)) => is_script_that_ends(answer),
        _ => false,
    }
}

/// Returns true if it is the second response, that of the test.
fn is_answer_of_test(event: &ReporterEvent<'_>) -> bool {
    match answer_at(event, 1) {
        Some(InfoResponse::Test(answer)) => is_test_that_waits(answer),
        _ => false,
    }
}

#[test]
fn answers_are_read_back() {
    let of_script = InfoResponse::SetupScript(answer_of_script());
    let first = answered(0, of_script);
    assert!(is_answer_of_script(&first), "InfoResponse of a script");
    let second = answered(1, InfoResponse::Test(answer_of_test()));
    assert!(is_answer_of_test(&second), "InfoResponse of a test");
}

fn asked() -> ReporterEvent<'static> {
    let kind = TestEventKind::InfoStarted {
        total: 4,
        run_stats: so_far(),
    };
    event_of(kind)
}

/// Returns true if its fields are those that `asked` put in.
fn is_asked(event: &ReporterEvent<'_>) -> bool {
    match kind_of(event) {
        Some(TestEventKind::InfoStarted { total, run_stats }) => {
            *total == 4 && *run_stats == so_far()
        }
        _ => false,
    }
}

fn all_answered() -> ReporterEvent<'static> {
    event_of(TestEventKind::InfoFinished { missing: 2 })
}

/// Returns true if its field is that which `all_answered` put in.
fn is_all_answered(event: &ReporterEvent<'_>) -> bool {
    matches!(
        kind_of(event),
        Some(TestEventKind::InfoFinished { missing: 2 })
    )
}

fn entered() -> ReporterEvent<'static> {
    let kind = TestEventKind::InputEnter {
        current_stats: so_far(),
        running: 8,
    };
    event_of(kind)
}

/// Returns true if its fields are those that `entered` put in.
fn is_entered(event: &ReporterEvent<'_>) -> bool {
    let Some(TestEventKind::InputEnter {
        current_stats,
        running,
    }) = kind_of(event)
    else {
        return false;
    };
    *running == 8 && *current_stats == so_far()
}

#[test]
fn requests_are_read_back() {
    assert!(is_asked(&asked()), "InfoStarted");
    assert!(is_all_answered(&all_answered()), "InfoFinished");
    assert!(is_entered(&entered()), "InputEnter");
}
