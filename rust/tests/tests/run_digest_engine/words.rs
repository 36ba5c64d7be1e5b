//! The commands that arguments name, and the texts of faults.

use deodarsieve_cli::run_digest_engine::command::Command;
use deodarsieve_cli::run_digest_engine::fault::Fault;

#[test]
fn words_ask_for_a_command() {
    let bad = Err(Fault::BadWord);
    let rows: [(&[&str], Result<Command, Fault>); 7] = [
        (&[], Ok(Command::Count)),
        (&["count"], Ok(Command::Count)),
        (&["extract"], Ok(Command::Extract)),
        (&["Count"], bad),
        (&[""], bad),
        (&["count", "count"], bad),
        (&["count", "extract"], bad),
    ];
    for (words, wanted) in rows {
        let given: Vec<String> = words.iter().copied().map(String::from).collect();
        assert_eq!(Command::from_words(&given), wanted, "{words:?}");
    }
}

#[test]
fn faults_have_texts_and_statuses() {
    for (fault, status, text) in [
        (Fault::BadLine { number: 1 }, 2, "line 1: bad line"),
        (Fault::BadLine { number: 10_001 }, 2, "line 10001: bad line"),
        (Fault::BadWord, 2, "usage: run-digest extract|count"),
        (Fault::Read, 3, "read failed"),
        (Fault::Write, 3, "write failed"),
    ] {
        assert_eq!((fault.status(), fault.to_string().as_str()), (status, text));
    }
}
