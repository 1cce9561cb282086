//! Requests with their answers as binary records, all numbers big-endian.
use crate::answer::{Answer, Field, Outcome};
use crate::driver::{GREATEST_COUNT, answer};
use crate::names;
use crate::request::{Call, Question, Request, Shape};
use apac::run::{Action, Op};

/// The kinds of requests that have records; the first byte of a record is the place of its kind here.
const KINDS: [&str; 9] = [
    "fields",
    "scene",
    "update",
    "position",
    "validation",
    "metadata",
    "name",
    "show",
    "parents",
];

/// The record of a request and the oracle's answer.
pub fn record(request: &Request) -> Result<Vec<u8>, String> {
    record_with(request, &answer(request))
}

/// The record of a request and its answer.
pub fn record_with(request: &Request, answer: &Answer) -> Result<Vec<u8>, String> {
    let mut record = Vec::new();
    put_arguments(&mut record, request)?;
    put_end(&mut record, answer)?;
    put_given(&mut record, request)?;
    put_result(&mut record, answer)?;
    Ok(record)
}

/// Kind, recording, room, offset, length of the input, and a number that each kind has of its own.
/// In the place of the offset a validation has its position, a name its word, and new parents their
/// number.
fn put_arguments(record: &mut Vec<u8>, request: &Request) -> Result<(), String> {
    let (recording, room, offset, bytes) = match request {
        Request::Call(call) => (call.recording, call.room, call.offset, call.bytes.len()),
        Request::Validation { at, .. } => (false, 0, *at, 0),
        Request::Parents { parents, room, .. } => (false, *room, parents.len() as u64, 0),
        Request::Name { word, room } => (false, *room, *word, 0),
        Request::Show { bytes } => (false, 0, 0, bytes.len()),
        Request::List(_) => return Err("no such kind of record: list".into()),
    };
    let kind = KINDS.iter().position(|&kind| kind == request.kind());
    record.push(kind.expect("every other kind has records") as u8);
    record.push(recording.into());
    record.extend(room.to_be_bytes());
    record.extend(offset.to_be_bytes());
    record.extend(fitting::<u32>(bytes)?.to_be_bytes());
    record.extend(fitting::<u16>(own_number(request))?.to_be_bytes());
    Ok(())
}

/// The number of operations, whether a position is a full one, or else the number of shapes.
fn own_number(request: &Request) -> usize {
    match question(request) {
        Some(Question::Fields(ops)) => ops.len(),
        Some(Question::Position { full, .. }) => (*full).into(),
        _ => request.shapes().len(),
    }
}

fn question(request: &Request) -> Option<&Question> {
    match request {
        Request::Call(call) => Some(&call.question),
        _ => None,
    }
}

/// The outcome with its number and position, and the count of fields, or the length of a text or of
/// a packet.
fn put_end(record: &mut Vec<u8>, answer: &Answer) -> Result<(), String> {
    let verdict = &answer.verdict;
    record.push(outcome_code(&verdict.outcome)?);
    record.push(verdict.number);
    record.extend(verdict.position.to_be_bytes());
    record.extend(fitting::<u32>(answer.count)?.to_be_bytes());
    Ok(())
}

fn fitting<T: TryFrom<usize>>(number: usize) -> Result<T, String> {
    T::try_from(number).map_err(|_| format!("too large for a record: {number}"))
}

fn outcome_code(outcome: &Outcome) -> Result<u8, String> {
    match outcome {
        Outcome::Read => Ok(0),
        Outcome::Refused => Ok(1),
        Outcome::Stopped => Ok(2),
        other => Err(format!("the Rust gave no answer: {other}")),
    }
}

/// The input, and the operations or the shapes that were handed in, or all shapes and new parents.
fn put_given(record: &mut Vec<u8>, request: &Request) -> Result<(), String> {
    if let Request::Call(Call { bytes, .. }) | Request::Show { bytes } = request {
        record.extend_from_slice(bytes);
    }
    if let Some(Question::Fields(ops)) = question(request) {
        ops.iter().for_each(|op| put_op(record, op));
    }
    let Request::Parents {
        shapes, parents, ..
    } = request
    else {
        return put_shapes(record, request.shapes());
    };
    let mut shapes = shapes.iter();
    shapes.try_for_each(|shape| put_shape(record, shape))?;
    let mut parents = parents.iter();
    parents.try_for_each(|&parent| put_parent(record, parent))
}

/// The largest rank, the shapes after the call, a scene's with their number before them, the
/// fields, the text of a name or a show, a packet.
fn put_result(record: &mut Vec<u8>, answer: &Answer) -> Result<(), String> {
    if let Some(deepest) = answer.deepest {
        record.push(fitting::<u8>(deepest)?);
    }
    if answer.kind == "scene" {
        record.extend(fitting::<u16>(answer.shapes.len())?.to_be_bytes());
    }
    put_shapes(record, &answer.shapes)?;
    answer
        .fields
        .iter()
        .try_for_each(|field| put_field(record, field))?;
    record.extend(answer.text.iter().flat_map(|text| text.bytes()));
    record.extend_from_slice(&answer.packet);
    Ok(())
}

fn put_op(record: &mut Vec<u8>, op: &Op) {
    let (code, numbers) = match op.action {
        Action::Take(width) => (0, [width, 0, 0]),
        Action::Flag => (1, [0; 3]),
        Action::Esc(widths) => (2, widths),
        Action::Payload(bits) => (3, [bits, 0, 0]),
        Action::Label => (4, [0; 3]),
        Action::Count { value, least } => (5, [value, least, 0]),
        Action::SetEnd(end) => (6, [end, 0, 0]),
        Action::Refuse(number) => (7, [number.into(), 0, 0]),
        Action::Stop(number) => (8, [number.into(), 0, 0]),
    };
    record.push(code);
    record.extend(op.repeat.to_be_bytes());
    record.extend(numbers.into_iter().flat_map(u32::to_be_bytes));
    record.extend(op.name.to_be_bytes());
}

/// No more shapes than the port takes.
fn put_shapes(record: &mut Vec<u8>, shapes: &[Shape]) -> Result<(), String> {
    let mut taken = shapes.iter().take(GREATEST_COUNT);
    taken.try_for_each(|shape| put_shape(record, shape))
}

fn put_shape(record: &mut Vec<u8>, shape: &Shape) -> Result<(), String> {
    let flags = [shape.parent_dynamic, shape.range_dynamic, shape.polar].map(u8::from);
    record.extend([flags[0] | flags[1] << 1 | flags[2] << 2, 0, 0, 0]);
    for precision in [shape.position_precision, shape.rotation_precision] {
        record.extend(fitting::<u32>(precision)?.to_be_bytes());
    }
    put_parent(record, shape.parent)
}

fn put_parent(record: &mut Vec<u8>, parent: usize) -> Result<(), String> {
    record.extend(fitting::<u64>(parent)?.to_be_bytes());
    Ok(())
}

fn put_field(record: &mut Vec<u8>, field: &Field) -> Result<(), String> {
    let words = [
        field.offset,
        field.length,
        field.kind.into(),
        field.value,
        names::word(&field.name)?,
    ];
    record.extend(words.into_iter().flat_map(u64::to_be_bytes));
    Ok(())
}

#[cfg(test)]
mod tests {
    use super::*;
    use crate::text::hex;

    fn recorded(line: &str) -> Vec<u8> {
        record(&Request::parse(line).expect("a request")).expect("an answer")
    }

    /// The record of a request, held to its parts in hexadecimal digits.
    fn check(line: &str, parts: &[&str]) {
        assert_eq!(hex(&recorded(line)), parts.concat(), "{line}");
    }

    const STILL: &str = "0100000000000000000000000000000000000000";
    const HUNG: &str = "0100000000000000000000000000000000000001";

    #[test]
    fn scenes() {
        let head = "01_01_00000005_0000000000000000_00000001_0000_00_00_0000000000000006_00000001";
        let words = digits([0, 6, 1, 0, 257]);
        check(
            "scene 0 1 5 00",
            &[&plain(head), "00", "00", "0000", &words],
        );
        let head = "01_00_00000000_0000000000000000_00000006_0000_00_00_0000000000000030_00000014";
        let input = "0a0080800080";
        let line = format!("scene 0 0 0 {input}");
        check(&line, &[&plain(head), input, "02", "0002", STILL, HUNG]);
        let head = "01_00_00000000_0000000000000000_00000004_0000_01_08_000000000000001e_0000000b";
        check(
            "scene 0 0 0 04000400",
            &[&plain(head), "04000400", "00", "0000"],
        );
    }

    fn plain(digits: &str) -> String {
        digits.replace('_', "")
    }

    /// The words of a field.
    fn digits(words: [u64; 5]) -> String {
        words.map(|word| format!("{word:016x}")).concat()
    }

    #[test]
    fn updates() {
        let head = "02_00_00000000_0000000000000000_00000001_0002_00_00_0000000000000007_00000007";
        let line = "update 0 0 0 1:0:0:0:0:0,1:0:0:0:1:0 70";
        let given = [&plain(head), "70", STILL, HUNG];
        check(line, &[&given[..], &["01", STILL, STILL]].concat());
        let head = "02_00_00000000_0000000000000000_00000002_0002_01_09_000000000000000d_00000008";
        let line = "update 0 0 0 1:0:0:0:0:0,1:0:0:0:1:0 c100";
        let given = [&plain(head), "c100", STILL, HUNG];
        check(line, &[&given[..], &["00", STILL, HUNG]].concat());
    }

    #[test]
    fn positions() {
        let head = "03_01_00000008_0000000000000009_00000001_0001_01_02_0000000000000000_00000000";
        let shape = "0600000000000018000000190000000000000003";
        check(
            "position 9 1 8 1 0:1:24:25:3:1 ff",
            &[&plain(head), "ff", shape, shape],
        );
    }

    #[test]
    fn validations() {
        let head = "04_00_00000000_000000000000004d_00000000_0001_01_09_000000000000004d_00000000";
        check("validation 77 1:0:0:0:1:0", &[&plain(head), HUNG, "00"]);
        let head = "04_00_00000000_000000000000004d_00000000_0002_00_00_000000000000004d_00000000";
        let line = "validation 77 1:0:0:0:0:0,1:0:0:0:1:0";
        check(line, &[&plain(head), STILL, HUNG, "02"]);
    }

    #[test]
    fn names() {
        let head = "06_00_00000020_0000000000000101_00000000_0000_00_00_0000000000000000_0000001b";
        let text = hex(b"ancillary.scene_graph.count");
        check("name 257 32", &[&plain(head), &text]);
        let head = "06_00_0000001a_0000000000000101_00000000_0000_01_1a_0000000000000000_00000000";
        check("name 257 26", &[&plain(head)]);
        let head = "06_00_00000000_ffffffffffffffff_00000000_0000_01_19_0000000000000000_00000000";
        check(&format!("name {} 0", u64::MAX), &[&plain(head)]);
    }

    #[test]
    fn shows() {
        let head = "07_00_00000000_0000000000000000_00000007_0000_00_00_0000000000000000_00000021";
        let (file, text) = (
            "00010000000600",
            hex(b"part 0 read 6 fields 1\ndeepest 0\n"),
        );
        check(&format!("show {file}"), &[&plain(head), file, &text]);
        let head = "07_00_00000000_0000000000000000_00000008_0000_00_00_0000000000000000_00000017";
        let (file, text) = ("0001000000060000", hex(b"part 0 refused 39 at 6\n"));
        check(&format!("show {file}"), &[&plain(head), file, &text]);
        let head = "07_00_00000000_0000000000000000_00000001_0000_01_18_0000000000000000_00000010";
        let text = hex(b"file refused 24\n");
        check("show 00", &[&plain(head), "00", &text]);
    }

    #[test]
    fn parents() {
        let head = "08_00_00000009_0000000000000002_00000000_0002_00_00_0000000000000000_00000007";
        let news = "0000000000000000".repeat(2);
        let line = "parents 9 1:0:0:0:0:0,1:0:0:0:1:0 0,0";
        check(line, &[&plain(head), STILL, HUNG, &news, "70"]);
        let head = "08_00_00000000_0000000000000001_00000000_0002_01_24_0000000000000000_00000000";
        let line = "parents 0 1:0:0:0:0:0,1:0:0:0:1:0 18446744073709551615";
        check(line, &[&plain(head), STILL, HUNG, "ffffffffffffffff"]);
    }

    #[test]
    fn lists_have_no_records() {
        let list = Request::parse("list 0 0 0:00 -").expect("a request");
        assert_eq!(record(&list), Err("no such kind of record: list".into()));
    }

    /// No more shapes than 63 are written, and their true number; but all those that are to have new
    /// parents.
    #[test]
    fn too_many_shapes() {
        let shapes = vec!["0:0:0:0:0:0"; 70].join(",");
        for (line, written) in [
            (format!("update 0 0 0 {shapes} -"), 2 * 63),
            (format!("validation 0 {shapes}"), 63),
        ] {
            let record = recorded(&line);
            assert_eq!(record.len(), 34 + 20 * written + 1);
            assert_eq!(record[18..20], [0, 70]);
        }
        let record = recorded(&format!("parents 0 {shapes} 0,0"));
        assert_eq!(record.len(), 34 + 20 * 70 + 8 * 2);
        assert_eq!(record[18..20], [0, 70]);
    }

    #[test]
    fn metadata() {
        let head = "05_01_00000005_0000000000000000_00000001_0000_01_05_0000000000000002_00000001";
        let words = digits([0, 1, 0, 0, 24 + 3 * 256]);
        check("metadata 0 1 5 00", &[&plain(head), "00", &words]);
        let head = "05_00_00000000_0000000000000001_00000001_0000_00_00_0000000000000008_00000004";
        check("metadata 1 0 0 a0", &[&plain(head), "a0"]);
        let head = "05_00_00000000_0000000000000000_00000002_0000_02_23_0000000000000010_00000005";
        check("metadata 0 0 0 8178", &[&plain(head), "8178"]);
    }
}
