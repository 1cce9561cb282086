//! Show files. Their header is document 01's, the printed lines are its and document 02's, and the
//! ranks are the oracle's; what the parts give is asked of the Rust, and then the rule of document 02
//! on what follows a part's end.
use crate::answer::{Answer, Outcome, Verdict};
use crate::bits::Bits;
use crate::driver::read;
use crate::ranks::ranks;
use crate::request::{Input, Question, Shape};

/// The most bytes of a file, and the most parts.
pub const GREATEST_FILE: usize = 65_536;
pub const GREATEST_PARTS: usize = 256;

/// Bytes of the number of parts, and of each offset.
pub const COUNT_BYTES: usize = 2;
pub const OFFSET_BYTES: usize = 4;

/// What `scene-show` prints for a file.
pub fn answer(file: &[u8]) -> Answer {
    match asked_parts(file) {
        Ok(parts) => shown(printed(&parts)),
        Err(number) => refused(number),
    }
}

/// The parts of a file, or the number by which it is refused. Question 23 is asked before 24.
pub fn asked_parts(file: &[u8]) -> Result<Vec<&[u8]>, u8> {
    if file.len() > GREATEST_FILE {
        return Err(23);
    }
    parts(file).ok_or(24)
}

/// The length of the header of so many parts.
pub fn header_length(parts: usize) -> usize {
    COUNT_BYTES + OFFSET_BYTES * parts
}

fn refused(number: u8) -> Answer {
    let text = format!("file refused {number}\n");
    answered(Verdict::refused(number, 0), text)
}

/// The answer for a file that is not refused.
fn shown(printed: Result<String, Outcome>) -> Answer {
    match printed {
        Ok(text) => answered(Verdict::without_number(Outcome::Read), text),
        Err(odd) => Answer::bare("show", Verdict::without_number(odd), &[]),
    }
}

fn answered(verdict: Verdict, text: String) -> Answer {
    Answer::of_text("show", verdict, text.len(), Some(text))
}

/// The parts of a file whose header is sound.
pub fn parts(file: &[u8]) -> Option<Vec<&[u8]>> {
    let count = usize::from(u16::from_be_bytes(*file.first_chunk()?));
    if !(1..=GREATEST_PARTS).contains(&count) {
        return None;
    }
    let header = header_length(count);
    let (offsets, _) = file.get(COUNT_BYTES..header)?.as_chunks();
    let mut bounds: Vec<usize> = offsets.iter().map(offset).collect();
    bounds.push(file.len());
    let sound = bounds[0] == header && bounds.is_sorted();
    let part = |bounds: &[usize]| &file[bounds[0]..bounds[1]];
    sound.then(|| bounds.windows(2).map(part).collect())
}

fn offset(bytes: &[u8; OFFSET_BYTES]) -> usize {
    u32::from_be_bytes(*bytes) as usize
}

/// The lines of a show. If the Rust gave no answer to a part, or a position has no rank, there are
/// none, and that is the outcome.
fn printed(parts: &[&[u8]]) -> Result<String, Outcome> {
    let answers = answers(parts);
    let mut text = String::new();
    for (k, answer) in answers.iter().enumerate() {
        text += &part_line(k, answer)?;
    }
    // After a part 0 that was not read nothing is asked, and no line follows its own.
    if let Some(Question::Update(shapes)) = next_question(&answers) {
        text += &position_lines(&shapes)?;
    }
    Ok(text)
}

/// The answers of the parts in their order, without recording; only that of part 0 if it was not read.
pub fn answers(parts: &[&[u8]]) -> Vec<Answer> {
    let mut answers = Vec::new();
    for part in parts {
        let Some(question) = next_question(&answers) else {
            break;
        };
        answers.push(read_part(question, part));
    }
    answers
}

/// What a part gives, read from its first bit on, without recording.
pub fn read_part(question: Question, part: &[u8]) -> Answer {
    let reading = read(question.clone(), Input::from(part));
    ended(&question, part, reading)
}

/// What a part gives whose reading gave this. 39 is asked after all other questions, so only of what
/// was read. If it refuses the part, the shapes are those from before, and the fields stay counted.
pub fn ended(question: &Question, part: &[u8], reading: Answer) -> Answer {
    let Verdict {
        outcome, position, ..
    } = &reading.verdict;
    if *outcome != Outcome::Read || may_follow(&Bits::from(part).after(*position as usize)) {
        return reading;
    }
    let refused = Verdict::refused(39, *position);
    Answer {
        count: reading.count,
        fields: reading.fields,
        ..Answer::bare(reading.kind, refused, question.shapes())
    }
}

/// Whether these may be all bits after a part's end: fewer than eight, all of them 0.
fn may_follow(bits: &Bits) -> bool {
    bits.len() < 8 && !bits.any()
}

/// What is asked of the part after those with these answers; nothing if part 0 was not read.
pub fn next_question(before: &[Answer]) -> Option<Question> {
    let (Some(scene), Some(last)) = (before.first(), before.last()) else {
        return Some(Question::Scene);
    };
    let read = scene.verdict.outcome == Outcome::Read;
    // An update that was refused hands back the shapes as they were.
    read.then(|| Question::Update(last.shapes.clone()))
}

fn part_line(k: usize, answer: &Answer) -> Result<String, Outcome> {
    let Verdict {
        outcome,
        number,
        position,
    } = &answer.verdict;
    match outcome {
        Outcome::Read => Ok(format!(
            "part {k} read {position} fields {}\n",
            answer.count
        )),
        Outcome::Refused | Outcome::Stopped => {
            Ok(format!("part {k} {outcome} {number} at {position}\n"))
        }
        odd => Err(odd.clone()),
    }
}

/// The part of a printed line, its outcome, and the number, 0 if it was read. Nothing if the line is
/// not a part's.
pub fn part_end(line: &str) -> Option<(&str, &str, u8)> {
    let words: Vec<&str> = line.split(' ').collect();
    match words.as_slice() {
        ["part", part, "read", _, "fields", _] => Some((part, "read", 0)),
        ["part", part, outcome, number, "at", _] => Some((part, outcome, number.parse().ok()?)),
        _ => None,
    }
}

/// One line for each position, and then the largest rank of these lines, 0 if there are none. The
/// Rust has validated the parents, so that all have a rank.
fn position_lines(shapes: &[Shape]) -> Result<String, Outcome> {
    let mut text = String::new();
    let mut deepest = 0;
    for (i, (shape, rank)) in shapes.iter().zip(ranks(shapes)).enumerate() {
        let (position, parent) = (i + 1, shape.parent);
        let rank = rank.ok_or(Outcome::Disagree)?;
        text += &format!("position {position} parent {parent} rank {rank}\n");
        deepest = deepest.max(rank);
    }
    Ok(text + &format!("deepest {deepest}\n"))
}

#[cfg(test)]
mod tests {
    use super::*;
    use crate::generate::file;
    use crate::ranks::hung;
    use crate::text::unhex;

    /// Document 01's show.
    const EXAMPLE: [u8; 29] = [
        0x00, 0x04, 0x00, 0x00, 0x00, 0x12, 0x00, 0x00, 0x00, 0x18, 0x00, 0x00, 0x00, 0x1A, 0x00,
        0x00, 0x00, 0x1B, 0x0A, 0x00, 0x80, 0x80, 0x00, 0x80, 0xC1, 0x00, 0x70, 0xC1, 0x00,
    ];

    const LINES: &str = "part 0 read 48 fields 20
part 1 refused 9 at 13
part 2 read 7 fields 7
part 3 read 13 fields 8
position 1 parent 2 rank 2
position 2 parent 0 rank 1
deepest 2
";

    fn text(file: &[u8]) -> String {
        answer(file).text.expect("what is printed")
    }

    #[test]
    fn example() {
        assert_eq!(text(&EXAMPLE), LINES);
        let line = LINES.replace('\n', "/");
        let length = LINES.len();
        assert_eq!(
            answer(&EXAMPLE).to_string(),
            format!("show read 0 0 {length} - 0 - {line}")
        );
    }

    #[test]
    fn files_of_the_greatest_size() {
        let mut file = EXAMPLE.to_vec();
        file.resize(GREATEST_FILE, 0xff);
        let lines = "part 0 read 48 fields 20
part 1 refused 9 at 13
part 2 read 7 fields 7
part 3 refused 39 at 13
position 1 parent 0 rank 1
position 2 parent 0 rank 1
deepest 1
";
        assert_eq!(text(&file), lines);
        file.push(0);
        assert_eq!(text(&file), "file refused 23\n");
        file[1] = 0;
        assert_eq!(text(&file), "file refused 23\n");
        file.pop();
        let line = answer(&file).to_string();
        assert_eq!(line, "show refused 24 0 16 - 0 - file refused 24/");
    }

    /// A file with these offsets, and after its header so many bytes of a scene of no positions.
    fn with_offsets(offsets: &[u32], after: usize) -> Vec<u8> {
        let mut file = (offsets.len() as u16).to_be_bytes().to_vec();
        file.extend(offsets.iter().flat_map(|offset| offset.to_be_bytes()));
        file.resize(file.len() + after, 0);
        file
    }

    #[test]
    fn unsound_headers() {
        let unsound = |file: &[u8]| assert_eq!(text(file), "file refused 24\n", "{file:x?}");
        unsound(&[]);
        unsound(&[0]);
        unsound(&with_offsets(&[], 9));
        unsound(&with_offsets(&[2 + 4 * 257; 257], 9));
        for first in [0, 5, 7, 6 << 8, 6 << 24, 0x0100_0006, u32::MAX] {
            unsound(&with_offsets(&[first], 9));
        }
        for second in [9, 0, 20, u32::MAX] {
            unsound(&with_offsets(&[10, second], 9));
        }
        unsound(&with_offsets(&[14, 16, 15], 9));
        unsound(&with_offsets(&[14, 24, 15], 9));
        let whole = with_offsets(&[10, 10], 0);
        for length in 0..whole.len() {
            unsound(&whole[..length]);
        }
    }

    #[test]
    fn sound_headers() {
        let empty = "part 0 refused 3 at 0\n";
        assert_eq!(text(&with_offsets(&[6], 0)), empty);
        assert_eq!(text(&with_offsets(&[10, 10], 1)), empty);
        assert_eq!(
            text(&with_offsets(&[10, 11], 1)),
            "part 0 read 6 fields 1\npart 1 read 0 fields 0\ndeepest 0\n"
        );
        let most = text(&with_offsets(&[2 + 4 * 256; 256], 9));
        assert_eq!(most, empty);
    }

    fn zeros(length: usize) -> Bits {
        let mut bits = Bits::default();
        bits.put(0, length);
        bits
    }

    #[test]
    fn bits_after_an_end() {
        for length in 0..=20 {
            assert_eq!(may_follow(&zeros(length)), length <= 7, "{length}");
            for place in 0..length {
                let mut bits = zeros(length);
                bits.flip(place);
                assert!(!may_follow(&bits), "{length} {place}");
            }
        }
    }

    /// An update of so many positions none of which is updated takes as many bits, all of them 0.
    #[test]
    fn every_end_within_a_byte() {
        for count in 0..=16 {
            let shapes = hung(&vec![0; count]);
            let is_given = |part: &Bits, number: u8| {
                let answer = read_part(Question::Update(shapes.clone()), &part.bytes());
                let Verdict {
                    number: found,
                    position,
                    ..
                } = answer.verdict;
                let end = (found, position, answer.count);
                assert_eq!(end, (number, count as u64, count), "{part:?}");
            };
            for more in 0..=2 {
                let part = zeros(8 * (count.div_ceil(8) + more));
                is_given(&part, if more == 0 { 0 } else { 39 });
                for place in count..part.len() {
                    let mut part = part.clone();
                    part.flip(place);
                    is_given(&part, 39);
                }
            }
        }
    }

    /// A file of these parts, in hexadecimal digits.
    fn of_parts(parts: &[&str]) -> Vec<u8> {
        let parts = parts.iter().map(|digits| unhex(digits).expect("digits"));
        file(&parts.collect::<Vec<_>>())
    }

    fn lines(parts: &[&str]) -> Vec<String> {
        text(&of_parts(parts)).lines().map(String::from).collect()
    }

    /// The scene hangs the second position on the first one. A packet that frees it, with a byte more,
    /// with another packet, with a 1 in its last byte; then one that closes a circle unless it was freed.
    #[test]
    fn shapes_from_before_a_part() {
        for spoilt in ["7000", "70c100", "71", "7080"] {
            let parts = ["0a0080800080", spoilt, "c100", "70", "c100"];
            let expected = [
                "part 0 read 48 fields 20",
                "part 1 refused 39 at 7",
                "part 2 refused 9 at 13",
                "part 3 read 7 fields 7",
                "part 4 read 13 fields 8",
                "position 1 parent 2 rank 2",
                "position 2 parent 0 rank 1",
                "deepest 2",
            ];
            assert_eq!(lines(&parts), expected, "{spoilt}");
        }
    }

    /// Coordinates become polar, and then a change of them has two numbers, not three.
    #[test]
    fn polar_from_before_a_part() {
        for (part, ends) in [
            ("d00000", ["read 24 fields 9", "read 10 fields 7"]),
            ("d0000000", ["refused 39 at 24", "read 11 fields 8"]),
        ] {
            let lines = lines(&["04000000", part, "e000"]);
            let ends = [1, 2].map(|k| format!("part {k} {}", ends[k - 1]));
            assert_eq!(lines[1..3], ends);
        }
    }

    /// Whatever follows, what the reading refuses is refused by its own number.
    #[test]
    fn the_last_question() {
        let scene = "0a0080800080";
        for (part, line) in [
            ("c1", "part 1 refused 3 at 3"),
            ("c107ff", "part 1 refused 9 at 13"),
            ("c18000", "part 1 refused 8 at 13"),
            ("71ff", "part 1 refused 39 at 7"),
        ] {
            assert_eq!(lines(&[scene, part])[1], line);
        }
        for (part, line) in [
            ("04ff", "part 0 refused 6 at 6"),
            ("04000400ff", "part 0 refused 8 at 30"),
            ("0400020000", "part 0 refused 9 at 30"),
            ("0400000000", "part 0 refused 39 at 30"),
            ("0000", "part 0 refused 39 at 6"),
            ("01", "part 0 refused 39 at 6"),
            ("02", "part 0 refused 39 at 6"),
        ] {
            assert_eq!(lines(&[part, "", "00"]), [line]);
        }
    }

    #[test]
    fn parts_where_there_are_no_positions() {
        let expected = [
            "part 0 read 6 fields 1",
            "part 1 read 0 fields 0",
            "part 2 refused 39 at 0",
            "part 3 refused 39 at 0",
            "part 4 read 0 fields 0",
            "deepest 0",
        ];
        assert_eq!(lines(&["00", "", "00", "80", ""]), expected);
    }

    /// The largest rank is not always that of the last position, nor of the first.
    #[test]
    fn deepest_of_the_lines() {
        let last = |parents: &[usize]| {
            let text = position_lines(&hung(parents)).expect("lines");
            String::from(text.lines().next_back().expect("a line"))
        };
        assert_eq!(last(&[]), "deepest 0");
        assert_eq!(last(&[0, 0]), "deepest 1");
        assert_eq!(last(&[0, 1, 2, 0]), "deepest 3");
        let chain: Vec<usize> = (0..63).collect();
        assert_eq!(last(&chain), "deepest 63");
    }

    /// The line is of the shapes that stay, also after a refused update, which itself gives 0.
    #[test]
    fn deepest_after_a_refused_update() {
        let mut file = with_offsets(&[10, 16], 0);
        file.extend(&EXAMPLE[18..26]);
        let lines = "part 0 read 48 fields 20
part 1 refused 9 at 13
position 1 parent 0 rank 1
position 2 parent 1 rank 2
deepest 2
";
        assert_eq!(text(&file), lines);
    }

    /// What the Rust never hands over: it would show as an outcome of the whole file.
    #[test]
    fn no_ranks() {
        for parents in [[1, 0], [2, 1], [0, 3]] {
            assert_eq!(position_lines(&hung(&parents)), Err(Outcome::Disagree));
        }
    }

    #[test]
    fn parts_without_an_answer() {
        for odd in [
            Outcome::Panic,
            Outcome::Disagree,
            Outcome::Unmapped("sync".into()),
        ] {
            let answer = Answer::bare("update", Verdict::without_number(odd.clone()), &[]);
            assert_eq!(part_line(1, &answer), Err(odd));
        }
        let line = shown(Err(Outcome::Panic)).to_string();
        assert_eq!(line, "show panic 0 0 0 - 0 - -");
        let stopped = Verdict {
            outcome: Outcome::Stopped,
            ..Verdict::refused(34, 5)
        };
        let answer = Answer::bare("update", stopped, &[]);
        let line = part_line(255, &answer).expect("a line");
        assert_eq!(line, "part 255 stopped 34 at 5\n");
        assert_eq!(part_end(line.trim_end()), Some(("255", "stopped", 34)));
    }
}
