//! What is timed is first held to give the same answers.
use crate::by_hand;
use crate::rows::{Reading, Row};
use crate::sides::{Port, Rust, words};
use oracle::answer::{Answer, Verdict};
use oracle::request::{Call, Request};
use port::compare;
use port::library::Answered;

/// The answer to a row, with its shapes, and its fields if recorded. It must be that of all sides, and
/// of the calls that are timed.
pub fn agreed(row: &Row, recording: bool) -> Answer {
    let call = Call {
        question: row.question(),
        offset: 0,
        recording,
        room: words(recording).len() as u32,
        bytes: row.bytes.clone(),
    };
    if let Reading::Scene = row.reading {
        by_hand::hold_to_port(&call);
    }
    let answer = compare::agreed(&Request::Call(call)).expect("the same answer");
    hold_calls(row, recording, &answer);
    answer
}

/// The calls are repeated: an update that is read must find its own shapes good, and leave them as
/// they are.
fn hold_calls(row: &Row, recording: bool, answer: &Answer) {
    let mut rust = Rust::new(row, recording);
    let mut port = Port::new(row, recording);
    for _ in 0..2 {
        assert_eq!(Verdict::from(rust.call()), answer.verdict);
        hold_port(port.call(), answer);
        if let Reading::Update { .. } = row.reading {
            assert_eq!(rust.shapes, answer.shapes);
            // The shapes of both are written alike.
            assert_eq!(format!("{:?}", port.shapes), format!("{:?}", rust.shapes));
        }
    }
}

fn hold_port(by_port: Answered, answer: &Answer) {
    assert_eq!(by_port.verdict(), Ok(answer.verdict.clone()));
    assert_eq!(by_port.counted, answer.count);
    assert_eq!(by_port.deepest, answer.deepest);
}
