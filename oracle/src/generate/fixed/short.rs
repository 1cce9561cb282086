//! Short inputs: all of 0, 1 and 2 bytes, and some of them from every bit on.
use crate::generate::batch::{Batch, Record};
use crate::generate::drafts::positions::{some_shape, some_shapes};
use crate::request::{Input, Question, Shape};

const PLAIN: [Question; 2] = [Question::Scene, Question::Metadata];

pub fn short(batch: &mut Batch<'_>) {
    for question in PLAIN {
        every_input(batch, &question);
        every_offset(batch, &question);
    }
    for question in small_questions() {
        one_byte(batch, &question);
    }
    with_shapes(batch);
}

/// Every input of at most two bytes, read from its first bit on.
fn every_input(batch: &mut Batch<'_>, question: &Question) {
    batch.call(question, Input::from([].as_slice()), Record::Ample);
    for byte in 0..=u8::MAX {
        batch.call(question, Input::from([byte].as_slice()), Record::Ample);
    }
    for word in 0..=u16::MAX {
        let input = Input::from(word.to_be_bytes().as_slice());
        batch.call(question, input, Record::Ample);
    }
}

/// One byte, and some words of two, from every bit on and from past the end.
fn every_offset(batch: &mut Batch<'_>, question: &Question) {
    for byte in 0..=u8::MAX {
        for offset in 1..=9 {
            let bytes = vec![byte];
            batch.call(question, Input { offset, bytes }, Record::Ample);
        }
    }
    for word in (0..=u16::MAX).step_by(13) {
        let offset = 1 + batch.rng.below(17);
        let bytes = word.to_be_bytes().to_vec();
        let record = batch.some_record();
        batch.call(question, Input { offset, bytes }, record);
    }
}

fn one_byte(batch: &mut Batch<'_>, question: &Question) {
    for byte in 0..=u8::MAX {
        batch.call(question, Input::from([byte].as_slice()), Record::Ample);
    }
}

/// Updates and positions whose shortest packets fit into a byte.
fn small_questions() -> Vec<Question> {
    let still = Shape::default();
    let moving = Shape {
        parent_dynamic: true,
        ..Shape::default()
    };
    let open = Shape {
        range_dynamic: true,
        polar: true,
        ..moving.clone()
    };
    let mut questions = vec![
        Question::Update(vec![]),
        Question::Update(vec![moving.clone()]),
        Question::Update(vec![moving.clone(), still.clone()]),
        Question::Update(vec![open.clone(), moving.clone()]),
    ];
    for shape in [still, moving, open] {
        for full in [false, true] {
            let shape = shape.clone();
            questions.push(Question::Position { full, shape });
        }
    }
    questions
}

/// Two bytes against random shapes.
fn with_shapes(batch: &mut Batch<'_>) {
    for word in (0..=u16::MAX).step_by(11) {
        let question = match batch.rng.percent(50) {
            true => Question::Update(some_shapes(batch.rng)),
            false => Question::Position {
                full: batch.rng.percent(50),
                shape: some_shape(batch.rng),
            },
        };
        let offset = batch.rng.below(9);
        let bytes = word.to_be_bytes().to_vec();
        let record = batch.some_record();
        batch.call(&question, Input { offset, bytes }, record);
    }
}
