//! Requests put to the library, and what it gives back, checked, as answers.
use crate::buffer::Buffer;
use crate::library::{Answered, left, lent};
use crate::names;
use gateway::{
    FIELD_WORDS, FieldValue, Outcome, PositionSyntax, Scene, graph_update, read_metadata,
    read_position, read_scene, validate_graph, write_parents,
};
use oracle::answer::{Answer, Field};
use oracle::request::{Call, Input, List, Question, Request, Shape};
use std::{iter, slice};

/// The library's answer, and the shapes after the call.
type Left = (Answered, Vec<Shape>);

pub fn answer(request: &Request) -> Result<Answer, String> {
    match request {
        Request::Call(call) => answer_call(call),
        Request::List(list) => answer_list(list),
        Request::Validation { at, shapes } => {
            let answer = validate_graph(&lent(shapes), *at as usize);
            Answered::from(answer).with_shapes(request.kind(), &[])
        }
        Request::Parents {
            shapes,
            parents,
            room,
        } => answer_parents(shapes, parents, *room as usize),
        Request::Name { word, room } => names::answer(*word, *room as usize),
        Request::Show { .. } => Err("the library has no shows".into()),
    }
}

/// The lent shapes must stay as they are. If the packet is written, the library's own update must read
/// it to its last bit and give the shapes these parents.
fn answer_parents(shapes: &[Shape], parents: &[usize], room: usize) -> Result<Answer, String> {
    let given = Buffer::holding(lent(shapes));
    let mut bytes = Buffer::blank(room);
    let (answer, packet) = write_parents(given.held()?, parents, bytes.lent());
    let length = packet.len();
    if left(given.held()?) != shapes {
        return Err("a shape was written".into());
    }
    let packet = bytes.written(length)?;
    if answer.outcome == Outcome::Read {
        let mut updated = given.held()?.to_vec();
        let update = graph_update(packet, 0, false, &mut [], &mut updated);
        let is_whole = update.outcome == Outcome::Read && update.position == answer.counted;
        if !is_whole || !updated.iter().map(|shape| &shape.parent).eq(parents) {
            return Err(format!("the packet is read as {update:?}"));
        }
    }
    Ok(Answer {
        packet: packet.to_vec(),
        ..Answered::from(answer).with_shapes("parents", &[])?
    })
}

fn answer_call(call: &Call) -> Result<Answer, String> {
    let kind = call.question.kind();
    recorded(kind, call.recording, call.room, |words| asked(call, words))
}

/// The shapes that the scene declared are lent to one update after the other.
fn answer_list(list: &List) -> Result<Answer, String> {
    let (recording, room) = (list.recording, list.room);
    let mut shapes = Buffer::holding(Vec::new());
    let first = recorded("scene", recording, room, |words| {
        let Input { offset, bytes } = &list.scene;
        let scene = read_scene(bytes, *offset as usize, recording, words);
        shapes = Buffer::holding(scene.shapes().to_vec());
        Ok((scene.answer().into(), declared(&scene)?))
    });
    let others = list.updates.iter().map(|Input { offset, bytes }| {
        recorded("update", recording, room, |words| {
            updated(bytes, *offset, recording, words, &mut shapes)
        })
    });
    let packets: Result<Vec<Answer>, String> = iter::once(first).chain(others).collect();
    packets.map(Answer::of_list)
}

/// The answer of a reading that is lent so many words for its fields.
fn recorded(
    kind: &'static str,
    recording: bool,
    room: u32,
    read: impl FnOnce(&mut [u64]) -> Result<Left, String>,
) -> Result<Answer, String> {
    let mut words = Buffer::blank(room as usize);
    let (answer, shapes) = read(words.lent())?;
    let recorded = if recording { answer.counted } else { 0 };
    let words = words.written(recorded.saturating_mul(FIELD_WORDS))?;
    Ok(Answer {
        fields: fields(words)?,
        ..answer.with_shapes(kind, &shapes)?
    })
}

fn asked(call: &Call, words: &mut [u64]) -> Result<Left, String> {
    let (bytes, offset, recording) = (&call.bytes, call.offset as usize, call.recording);
    match &call.question {
        Question::Scene => {
            let scene = read_scene(bytes, offset, recording, words);
            Ok((scene.answer().into(), declared(&scene)?))
        }
        Question::Update(given) => {
            let mut shapes = Buffer::holding(lent(given));
            updated(bytes, call.offset, recording, words, &mut shapes)
        }
        Question::Position { full, shape } => {
            let mut shapes = Buffer::holding(lent(slice::from_ref(shape)));
            let shape = &mut shapes.lent()[0];
            let answer = read_position(bytes, offset, recording, words, shape, *full);
            Ok((answer.into(), left(shapes.held()?)))
        }
        Question::Metadata => {
            let answer = read_metadata(bytes, offset, recording, words);
            Ok((answer.into(), Vec::new()))
        }
        Question::Fields(_) => Err("the library has no fields".into()),
    }
}

/// An update of lent shapes, all of them.
fn updated(
    bytes: &[u8],
    offset: u64,
    recording: bool,
    words: &mut [u64],
    shapes: &mut Buffer<PositionSyntax>,
) -> Result<Left, String> {
    let answer = graph_update(bytes, offset as usize, recording, words, shapes.lent());
    Ok((answer.into(), left(shapes.held()?)))
}

/// The shapes of a scene; those beyond its count must be the default.
fn declared(scene: &Scene) -> Result<Vec<Shape>, String> {
    let is_default = |shape: &PositionSyntax| *shape == PositionSyntax::default();
    if !scene.beyond().iter().all(is_default) {
        return Err("a shape beyond the count isn't the default".into());
    }
    Ok(left(scene.shapes()))
}

/// The recorded fields, each named by the text of its word.
fn fields(words: &[u64]) -> Result<Vec<Field>, String> {
    words.chunks(FIELD_WORDS).map(field).collect()
}

fn field(words: &[u64]) -> Result<Field, String> {
    let missing = || format!("not the words of a field: {words:?}");
    let field = gateway::Field::at(words, 0).ok_or_else(missing)?;
    let (kind, value) = match field.value {
        FieldValue::Flag(flag) => (0, flag.into()),
        FieldValue::Number(number) => (1, number),
        FieldValue::Bits(count) => (2, count),
        FieldValue::Bytes(count) => (3, count),
    };
    Ok(Field {
        offset: field.bit_offset,
        length: field.bit_length,
        kind,
        value,
        name: names::text(field.name)?,
    })
}

#[cfg(test)]
mod tests {
    use super::*;
    use crate::compare::agreed;
    use oracle::{driver, generate};

    /// Number, position and count of fields of a request line.
    fn end(line: &str) -> (u8, u64, usize) {
        let request = Request::parse(line).expect("a request");
        let answer = agreed(&request).expect("the same answer");
        (answer.verdict.number, answer.verdict.position, answer.count)
    }

    #[test]
    fn corners_of_metadata() {
        for corner in generate::corners(1) {
            for request in &corner.requests {
                let answer = agreed(request).expect("the same answer");
                assert_eq!(answer.verdict.number, corner.number, "{}", corner.what);
            }
        }
    }

    #[test]
    fn entry_questions_of_metadata() {
        let long = "40".repeat(driver::GREATEST_INPUT + 1);
        assert_eq!(end(&format!("metadata 0 1 20 {long}")), (1, 0, 0));
        assert_eq!(end(&format!("metadata 0 1 20 {}", &long[2..])), (0, 7, 4));
        assert_eq!(end("metadata 8 1 20 40"), (3, 8, 0));
        assert_eq!(end("metadata 9 1 20 40"), (3, 0, 0));
        assert_eq!(end("metadata 18446744073709551615 0 0 40"), (3, 0, 0));
    }

    /// All shapes of a request are lent, also more than the library takes.
    #[test]
    fn lent_shapes_of_an_update() {
        let shapes = |count| vec!["1:1:24:24:0:1"; count].join(",");
        let update = |count| end(&format!("update 0 0 0 {} 0000000000000000", shapes(count)));
        assert_eq!(update(1), (0, 1, 1));
        assert_eq!(update(63), (0, 63, 63));
        assert_eq!(update(64), (2, 0, 0));
        assert_eq!(update(70), (2, 0, 0));
    }

    /// Document 01's scene and packets, and the validations of what they leave or would leave.
    #[test]
    fn largest_ranks() {
        let (on_first, free) = ("1:0:0:0:0:0,1:0:0:0:1:0", "1:0:0:0:0:0,1:0:0:0:0:0");
        for (line, expected) in [
            ("scene 0 0 0 0a0080800080".into(), Some(2)),
            ("scene 0 0 0 00".into(), Some(0)),
            ("scene 0 0 0 04000400".into(), Some(0)),
            (format!("update 0 0 0 {on_first} c100"), Some(0)),
            (format!("update 0 0 0 {on_first} 70"), Some(1)),
            (format!("update 0 0 0 {free} c100"), Some(2)),
            ("validation 77 -".into(), Some(0)),
            (format!("validation 77 {on_first}"), Some(2)),
            ("validation 77 0:0:0:0:2:0,0:0:0:0:1:0".into(), Some(0)),
            ("position 0 0 0 1 0:0:0:0:0:0 00000000".into(), None),
            ("metadata 0 0 0 40".into(), None),
        ] {
            let answer = agreed(&Request::parse(&line).expect("a request"));
            assert_eq!(answer.expect("the same answer").deepest, expected, "{line}");
        }
    }

    /// Document 01's show: its last update closes a circle, unless the one before it frees a position.
    #[test]
    fn shapes_of_a_list_are_carried_along() {
        for (updates, numbers) in [
            ("0:c100,0:70,0:c100", [0, 9, 0, 0]),
            ("0:c100,1:70,0:c100", [0, 9, 0, 9]),
        ] {
            let list = format!("list 1 100 0:0a0080800080 {updates}");
            let answer = agreed(&Request::parse(&list).expect("a request"));
            let packets = answer.expect("the same answer").packets;
            assert!(
                packets
                    .iter()
                    .map(|packet| packet.verdict.number)
                    .eq(numbers),
                "{list}"
            );
        }
    }

    /// Packets of document 01's show, each with as many bytes as it takes and with one fewer.
    #[test]
    fn packets() {
        let (before, freed) = ("1:0:0:0:0:0,1:0:0:0:1:0", "1:0:0:0:0:0,1:0:0:0:0:0");
        for (line, expected) in [
            ("parents 0 - -".into(), (0, 0, 0)),
            (format!("parents 1 {before} 0,0"), (0, 0, 7)),
            (format!("parents 0 {before} 0,0"), (38, 0, 0)),
            (format!("parents 2 {freed} 2,0"), (0, 0, 13)),
            (format!("parents 1 {freed} 2,0"), (38, 0, 0)),
            (format!("parents 1 {before} 2,1"), (9, 0, 0)),
            (
                format!("parents 1 {before} 18446744073709551615,1"),
                (8, 0, 0),
            ),
            (format!("parents 1 {before} 0"), (36, 0, 0)),
            ("parents 1 0:0:0:0:1:0 0".into(), (37, 0, 0)),
            ("parents 1 0:0:25:0:1:0 0".into(), (2, 0, 0)),
        ] {
            assert_eq!(end(&line), expected, "{line}");
        }
    }

    #[test]
    fn questions_of_names() {
        assert_eq!(end("name 257 27"), (0, 0, 27));
        assert_eq!(end("name 257 26"), (26, 0, 0));
        assert_eq!(end("name 258 0"), (25, 0, 0));
    }

    #[test]
    fn recorded_words_must_have_a_text() {
        assert!(field(&[0, 6, 1, 0, 257]).is_ok());
        assert!(field(&[0, 6, 1, 0, 258]).is_err());
    }

    #[test]
    fn room_for_fields_of_metadata() {
        assert_eq!(end("metadata 0 1 20 40"), (0, 7, 4));
        assert_eq!(end("metadata 0 1 19 40"), (5, 7, 3));
        assert_eq!(end("metadata 0 1 4 40"), (5, 1, 0));
        assert_eq!(end("metadata 0 0 4 40"), (0, 7, 4));
    }
}
