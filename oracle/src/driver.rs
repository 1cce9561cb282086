//! Asks the Rust, and before it the questions that document 01 adds.
use crate::answer::{Answer, Field, Outcome, Verdict};
use crate::label;
use crate::names;
use crate::parents;
use crate::ranks;
use crate::request::{Call, Input, List, Question, Request, Shape};
use crate::show;
use apac::run::{End, Reading, Run};
use std::panic::{AssertUnwindSafe, catch_unwind};

/// The limits of the added questions.
pub const GREATEST_INPUT: usize = 8_388_608;
pub const GREATEST_COUNT: usize = 63;
pub const GREATEST_PRECISION: usize = 24;

/// How many words a recorded field takes.
pub const FIELD_WORDS: u32 = 5;

/// Document 01 takes a default shape to be all false and 0.
pub fn confirm_default_shape() {
    let zero = Shape {
        parent_dynamic: false,
        range_dynamic: false,
        position_precision: 0,
        rotation_precision: 0,
        parent: 0,
        polar: false,
    };
    assert_eq!(Shape::default(), zero, "PositionSyntax::default()");
}

pub fn answer(request: &Request) -> Answer {
    match request {
        Request::Call(call) => answer_call(call),
        Request::List(list) => answer_list(list),
        Request::Validation { at, shapes } => answer_validation(*at, shapes),
        Request::Parents {
            shapes,
            parents,
            room,
        } => parents::answer(shapes, parents, *room as usize),
        Request::Name { word, room } => answer_name(*word, *room as usize),
        Request::Show { bytes } => show::answer(bytes),
    }
}

/// The answer for an input, with recording off.
pub fn read(question: Question, input: Input) -> Answer {
    answer_call(&Call {
        question,
        offset: input.offset,
        recording: false,
        room: 0,
        bytes: input.bytes,
    })
}

/// The most fields of a packet of a list, as if the buffer were large enough.
pub fn most_fields(list: &List) -> usize {
    let unrecorded = List {
        recording: false,
        ..list.clone()
    };
    let counts = answer_list(&unrecorded).packets;
    counts.iter().map(|packet| packet.count).max().unwrap_or(0)
}

/// The fields of a call, as if its buffer were large enough.
pub fn all_fields(call: &Call) -> Vec<Field> {
    let recorded = Call {
        recording: true,
        room: u32::MAX,
        ..call.clone()
    };
    answer_call(&recorded).fields
}

fn answer_validation(at: u64, shapes: &[Shape]) -> Answer {
    let validated = || Verdict::from(End::of_validation(shapes, at as usize));
    let verdict = if shapes.len() > GREATEST_COUNT {
        Verdict::refused(2, 0)
    } else {
        guarded(validated).unwrap_or_else(Verdict::without_number)
    };
    ranked(Answer::bare("validation", verdict, &[]), shapes)
}

/// The answer with the largest rank of these shapes, if it has one and was read. That some of them
/// have no ranks would be `disagree`.
fn ranked(answer: Answer, shapes: &[Shape]) -> Answer {
    if answer.deepest.is_none() || answer.verdict.outcome != Outcome::Read {
        return answer;
    }
    match ranks::deepest(shapes) {
        None => Answer::bare(answer.kind, Verdict::without_number(Outcome::Disagree), &[]),
        deepest => Answer { deepest, ..answer },
    }
}

/// Questions 25 and 26. The Rust has no words, so the tables of docs/FIELDS.md answer.
fn answer_name(word: u64, room: usize) -> Answer {
    let refused = |number| Answer::of_text("name", Verdict::refused(number, 0), 0, None);
    match names::text(word) {
        None => refused(25),
        Some(text) if room < text.len() => refused(26),
        Some(text) => {
            let read = Verdict::without_number(Outcome::Read);
            Answer::of_text("name", read, text.len(), Some(text))
        }
    }
}

/// Each update is asked of the shapes that the packets before it left. That is what `graph_update`
/// left, if the packet was read, and else what it was handed. A scene that is not read leaves none.
fn answer_list(list: &List) -> Answer {
    let mut packets = vec![answer_call(&list.call(Question::Scene, &list.scene))];
    for update in &list.updates {
        let left = packets[packets.len() - 1].shapes.clone();
        packets.push(answer_call(&list.call(Question::Update(left), update)));
    }
    Answer::of_list(packets)
}

fn answer_call(call: &Call) -> Answer {
    let kind = call.question.kind();
    let given = call.question.shapes();
    if let Some(number) = entry_refusal(call) {
        return Answer::bare(kind, Verdict::refused(number, 0), given);
    }
    let run = guarded(|| agreed_run(call)).and_then(|run| run.ok_or(Outcome::Disagree));
    match run {
        Ok(run) => answer_run(call, run),
        Err(outcome) => Answer::bare(kind, Verdict::without_number(outcome), given),
    }
}

/// Questions 1 and 2. The Rust itself asks whether the offset is inside the input.
fn entry_refusal(call: &Call) -> Option<u8> {
    if call.bytes.len() > GREATEST_INPUT {
        Some(1)
    } else if !are_few_and_coarse(call.question.shapes()) {
        Some(2)
    } else {
        None
    }
}

/// Question 2 of shapes that are updated.
pub(crate) fn are_few_and_coarse(shapes: &[Shape]) -> bool {
    let is_coarse = |shape: &Shape| {
        shape.position_precision.max(shape.rotation_precision) <= GREATEST_PRECISION
    };
    shapes.len() <= GREATEST_COUNT && shapes.iter().all(is_coarse)
}

/// The run of the Rust, if recording or not makes no difference to it.
fn agreed_run(call: &Call) -> Option<Run> {
    let reading = match &call.question {
        Question::Scene => Reading::Scene,
        Question::Metadata => Reading::Metadata,
        Question::Update(shapes) => Reading::Update(shapes),
        Question::Position { full, shape } => Reading::Position { full: *full, shape },
        Question::Fields(ops) if label::stands_in(ops) => Reading::Metadata,
        Question::Fields(ops) => Reading::Script(ops),
    };
    let offset = call.offset as usize;
    let run = reading.run(&call.bytes, offset, true);
    let quiet = reading.run(&call.bytes, offset, false);
    let agreed = ends_alike(&run, &quiet) && graph_update_agrees(call, &run);
    agreed.then_some(run)
}

/// The replayed loop of an update must end as `graph_update` itself, recording or not.
fn graph_update_agrees(call: &Call, replayed: &Run) -> bool {
    let Question::Update(shapes) = &call.question else {
        return true;
    };
    let itself = |record| Run::of_graph_update(&call.bytes, call.offset as usize, shapes, record);
    let (loud, quiet) = (itself(true), itself(false));
    let read = matches!(replayed.end, End::Read { .. });
    let same_fields = !read || loud.fields == replayed.fields;
    ends_alike(replayed, &loud) && ends_alike(replayed, &quiet) && same_fields
}

fn ends_alike(a: &Run, b: &Run) -> bool {
    a.end == b.end && a.shapes == b.shapes
}

/// A panic of the Rust becomes an outcome.
fn guarded<T>(run: impl FnOnce() -> T) -> Result<T, Outcome> {
    catch_unwind(AssertUnwindSafe(run)).map_err(|_| Outcome::Panic)
}

fn answer_run(call: &Call, run: Run) -> Answer {
    let mut fields: Vec<Field> = run.fields.into_iter().map(Field::from).collect();
    if let Question::Fields(ops) = &call.question
        && label::stands_in(ops)
    {
        label::rename(ops, &mut fields);
    }
    let verdict = match full_at(call, &fields) {
        None => Verdict::from(run.end),
        Some(full) => {
            let over = &fields[full];
            let verdict = Verdict::refused(5, over.offset + over.length);
            fields.truncate(full);
            verdict
        }
    };
    let shapes = match verdict.outcome {
        Outcome::Read => &run.shapes,
        _ => call.question.shapes(),
    };
    let answer = Answer {
        count: fields.len(),
        fields: if call.recording { fields } else { Vec::new() },
        ..Answer::bare(call.question.kind(), verdict, shapes)
    };
    ranked(answer, shapes)
}

/// The field for which no five words remain, if the Rust records it.
fn full_at(call: &Call, fields: &[Field]) -> Option<usize> {
    let full = (call.room / FIELD_WORDS) as usize;
    (call.recording && full < fields.len()).then_some(full)
}

#[cfg(test)]
mod tests {
    use super::*;

    /// What the Rust never reads.
    #[test]
    fn shapes_without_ranks() {
        let circle = [Shape {
            parent: 1,
            ..Shape::default()
        }];
        let read = Verdict::without_number(Outcome::Read);
        let answer = |kind| ranked(Answer::bare(kind, read.clone(), &[]), &circle);
        assert_eq!(answer("update").verdict.outcome, Outcome::Disagree);
        assert_eq!(answer("position").verdict.outcome, Outcome::Read);
    }
}
