//! What the program `scene-fields` must print: one line for each counted field, then the outcome.
//! What a reading gives is asked of the Rust, always with recording. The words of a number are read
//! from docs/NUMBERS.md, here called the paper.
use crate::answer::{Answer, Field, Outcome, Verdict};
use crate::driver::answer;
use crate::request::{Call, Input, Question, Request};
use crate::show;
use crate::text::cells;
use std::collections::HashSet;
use std::path::{Path, PathBuf};
use std::{fs, io};

const PAPER: &str = include_str!("../../docs/NUMBERS.md");

/// The words that the program lends: five for each of 16,384 fields.
const ROOM: u32 = 81_920;

/// The most digits of a number among the arguments.
const DIGITS: usize = 18;

const USAGE: &str = "usage: scene-fields scene|metadata|part K [BIT] < FILE\n";
const NO_PART: &str = "scene-fields: no such part in the show\n";
const NO_SCENE: &str = "scene-fields: part 0 of the show is not read, so no update is\n";

/// A run of the program.
#[derive(Clone, Debug, PartialEq, Eq, Hash)]
pub struct Case {
    /// Parted by one blank.
    arguments: String,
    input: Vec<u8>,
    /// What standard output gets.
    printed: String,
    /// What standard error gets.
    report: String,
}

impl Case {
    fn printed(arguments: String, input: &[u8], text: String) -> Self {
        Self {
            arguments,
            input: input.to_vec(),
            printed: text,
            report: String::new(),
        }
    }

    fn reported(arguments: String, input: &[u8], report: &str) -> Self {
        Self {
            arguments,
            input: input.to_vec(),
            printed: String::new(),
            report: report.into(),
        }
    }

    /// Writes the four files of a case, `N.args` and so on.
    fn write(&self, folder: &Path, n: usize) -> io::Result<()> {
        let put = |kind, bytes: &[u8]| fs::write(folder.join(format!("{n}.{kind}")), bytes);
        put("args", format!("{}\n", self.arguments).as_bytes())?;
        put("in", &self.input)?;
        put("out", self.printed.as_bytes())?;
        let lines: String = self
            .report
            .lines()
            .map(|line| format!("{line}\n"))
            .collect();
        put("report", lines.as_bytes())
    }
}

/// A folder of cases, numbered from 1. Requests that differ in their recording or their room only
/// make the same case, which is written once.
pub struct Folder {
    path: PathBuf,
    written: HashSet<Case>,
}

impl Folder {
    pub fn new(path: &str) -> Self {
        Self {
            path: path.into(),
            written: HashSet::new(),
        }
    }

    /// Writes the cases of a request.
    pub fn add(&mut self, request: &Request) -> Result<(), String> {
        for case in cases(request)? {
            if self.written.insert(case.clone()) {
                let written = case.write(&self.path, self.count());
                written.map_err(|error| format!("{}: {error}", self.path.display()))?;
            }
        }
        Ok(())
    }

    /// How many cases were written.
    pub fn count(&self) -> usize {
        self.written.len()
    }
}

/// The cases of a scene, of metadata or of a show; the program reads nothing else.
fn cases(request: &Request) -> Result<Vec<Case>, String> {
    match request {
        Request::Call(call) => match call.question {
            Question::Scene | Question::Metadata => Ok(vec![of_call(call)?]),
            _ => Ok(Vec::new()),
        },
        Request::Show { bytes } => of_show(bytes),
        _ => Ok(Vec::new()),
    }
}

fn of_call(call: &Call) -> Result<Case, String> {
    let arguments = with_bit(call.question.kind(), call.offset);
    if call.offset.to_string().len() > DIGITS {
        return Ok(Case::reported(arguments, &call.bytes, USAGE));
    }
    let input = Input::from(call.bytes.as_slice()).at_bit(call.offset);
    let text = listing(&recorded(call.question.clone(), input))?;
    Ok(Case::printed(arguments, &call.bytes, text))
}

/// The arguments with a bit at their end, which may be left out if it is 0.
fn with_bit(words: &str, bit: u64) -> String {
    match bit {
        0 => words.into(),
        bit => format!("{words} {bit}"),
    }
}

/// Every part, and one more than there are.
fn of_show(file: &[u8]) -> Result<Vec<Case>, String> {
    let parts = match show::asked_parts(file) {
        Ok(parts) => parts,
        Err(number) => {
            let line = outcome_line(&Verdict::refused(number, 0), 0)?;
            return Ok(vec![Case::printed("part 0".into(), file, line)]);
        }
    };
    let answers = show::answers(&parts);
    let mut cases = Vec::new();
    for (k, part) in parts.iter().enumerate() {
        let arguments = format!("part {k}");
        let Some(question) = answers.get(..k).and_then(show::next_question) else {
            cases.push(Case::reported(arguments, file, NO_SCENE));
            continue;
        };
        for bit in bits(part, k + 1 == parts.len()) {
            let reading = recorded(question.clone(), Input::from(*part).at_bit(bit));
            let text = listing(&show::ended(&question, part, reading))?;
            cases.push(Case::printed(with_bit(&arguments, bit), file, text));
        }
    }
    let beyond = format!("part {}", parts.len());
    cases.push(Case::reported(beyond, file, NO_PART));
    Ok(cases)
}

/// The bits from which a part is read: its first one, and if it is the last part also the second
/// one, the end, and one past it.
fn bits(part: &[u8], last: bool) -> Vec<u64> {
    let end = 8 * part.len() as u64;
    if last {
        vec![0, 1, end, end + 1]
    } else {
        vec![0]
    }
}

/// What is printed for an answer.
fn listing(answer: &Answer) -> Result<String, String> {
    let lines: String = answer.fields.iter().map(field_line).collect();
    Ok(lines + &outcome_line(&answer.verdict, answer.count)?)
}

fn recorded(question: Question, input: Input) -> Answer {
    answer(&Request::Call(Call {
        question,
        offset: input.offset,
        recording: true,
        room: ROOM,
        bytes: input.bytes,
    }))
}

fn field_line(field: &Field) -> String {
    let Field {
        offset,
        length,
        kind,
        value,
        name,
    } = field;
    let unit = match kind {
        2 => " bits",
        3 => " bytes",
        _ => "",
    };
    format!("{offset} {length} {value}{unit} {name}\n")
}

fn outcome_line(verdict: &Verdict, count: usize) -> Result<String, String> {
    let Verdict {
        outcome,
        number,
        position,
    } = verdict;
    match outcome {
        Outcome::Read => Ok(format!("read {position} fields {count}\n")),
        Outcome::Refused | Outcome::Stopped => {
            let words = words(*number)?;
            Ok(format!("{outcome} {number} at {position}: {words}\n"))
        }
        odd => Err(format!("the Rust gave no answer: {odd}")),
    }
}

/// What a number means.
fn words(number: u8) -> Result<&'static str, String> {
    let mut rows = PAPER.lines().filter_map(row);
    let row = rows.find(|row| row.0 == number);
    row.map(|row| row.1)
        .ok_or_else(|| format!("a number without words: {number}"))
}

/// A line of the paper's table, which begins with a number.
fn row(line: &'static str) -> Option<(u8, &'static str)> {
    let mut cells = cells(line)?;
    Some((cells.next()?.parse().ok()?, cells.next()?))
}

#[cfg(test)]
mod tests {
    use super::*;
    use crate::generate::{self, corners};
    use crate::text::hex;
    use apac::numbers::{REFUSALS, STOPS};

    /// Document 01's show.
    const EXAMPLE: &str = "00040000001200000018 0000001a0000001b 0a0080800080 c100 70 c100";

    /// The words of 39.
    const FOLLOWED: &str = "eight or more bits follow, or one of them is 1";

    fn asked(line: &str) -> Vec<Case> {
        let request = Request::parse(line).expect("a request");
        cases(&request).expect("an answer to each")
    }

    fn of_file(digits: &str) -> Vec<Case> {
        asked(&format!("show {}", digits.replace(' ', "")))
    }

    fn case_with<'a>(cases: &'a [Case], arguments: &str) -> &'a Case {
        let mut found = cases.iter().filter(|case| case.arguments == arguments);
        let case = found.next().expect(arguments);
        assert_eq!(found.next(), None, "{arguments}");
        case
    }

    /// The one case of a request: its arguments and what is printed.
    fn one(line: &str) -> [String; 2] {
        let cases = asked(line);
        let [case] = cases.as_slice() else {
            panic!("{} cases", cases.len());
        };
        assert_eq!(case.report, "");
        assert!(line.ends_with(&format!(" {}", hex(&case.input))));
        [case.arguments.clone(), case.printed.clone()]
    }

    /// An update that closes a circle. Its fields are listed although it is refused.
    #[test]
    fn a_part_of_the_example() {
        let cases = of_file(EXAMPLE);
        assert_eq!(
            case_with(&cases, "part 1").printed,
            "0 1 1 ancillary.scene_graph.positions[0].updated
1 1 1 ancillary.scene_graph.positions[0].parent_update
2 1 0 ancillary.scene_graph.positions[0].absolute_parent
3 6 2 ancillary.scene_graph.positions[0].parent_index
9 1 0 ancillary.scene_graph.positions[0].position_present
10 1 0 ancillary.scene_graph.positions[0].rotation_present
11 1 0 ancillary.scene_graph.positions[0].extensions_present
12 1 0 ancillary.scene_graph.positions[1].updated
refused 9 at 13: a chain of parents closes a circle
"
        );
    }

    /// Part 3 has the bytes of part 1, and is read after part 2 has freed position 2.
    #[test]
    fn parts_of_the_example() {
        let cases = of_file(EXAMPLE);
        let last = |arguments: &str| {
            let text = &case_with(&cases, arguments).printed;
            String::from(text.lines().next_back().expect("a line"))
        };
        assert_eq!(last("part 0"), "read 48 fields 20");
        assert_eq!(last("part 2"), "read 7 fields 7");
        assert_eq!(last("part 3"), "read 13 fields 8");
        let missing = "the bits asked for are not there";
        assert_eq!(last("part 3 1"), format!("refused 39 at 7: {FOLLOWED}"));
        assert_eq!(last("part 3 16"), format!("refused 3 at 16: {missing}"));
        assert_eq!(last("part 3 17"), format!("refused 3 at 0: {missing}"));
        let beyond = case_with(&cases, "part 4");
        assert_eq!([&*beyond.printed, &*beyond.report], ["", NO_PART]);
        assert_eq!(cases.len(), 8);
    }

    /// Two packets in one part. The fields of the first are listed, and the parts after it are read
    /// against the shapes of the scene: the position that it freed still hangs on the other.
    #[test]
    fn parts_with_more_after_their_end() {
        let cases = of_file("0003 0000000e 00000014 00000017 0a0080800080 70c100 c100");
        assert_eq!(
            case_with(&cases, "part 1").printed,
            format!(
                "0 1 0 ancillary.scene_graph.positions[0].updated
1 1 1 ancillary.scene_graph.positions[1].updated
2 1 1 ancillary.scene_graph.positions[1].parent_update
3 1 1 ancillary.scene_graph.positions[1].absolute_parent
4 1 0 ancillary.scene_graph.positions[1].position_present
5 1 0 ancillary.scene_graph.positions[1].rotation_present
6 1 0 ancillary.scene_graph.positions[1].extensions_present
refused 39 at 7: {FOLLOWED}
"
            )
        );
        let circle = "\nrefused 9 at 13: a chain of parents closes a circle\n";
        assert!(case_with(&cases, "part 2").printed.ends_with(circle));
    }

    /// From whatever bit a part is read, the bits after its end are asked for.
    #[test]
    fn bits_after_an_end_from_another_bit() {
        let cases = of_file("0002 0000000a 0000000b 00 00");
        let printed = |arguments: &str| &*case_with(&cases, arguments).printed;
        let followed = |at: u64| format!("refused 39 at {at}: {FOLLOWED}\n");
        assert_eq!(printed("part 1"), followed(0));
        assert_eq!(printed("part 1 1"), "read 1 fields 0\n");
        assert_eq!(printed("part 1 8"), "read 8 fields 0\n");
        let cases = of_file("0001 00000006 0100");
        let count = "0 6 0 ancillary.scene_graph.count\n";
        let next = "1 6 0 ancillary.scene_graph.count\n";
        let printed = |arguments: &str| &*case_with(&cases, arguments).printed;
        assert_eq!(printed("part 0"), [count, &followed(6)].concat());
        assert_eq!(printed("part 0 1"), [next, &followed(7)].concat());
    }

    /// Parts of the stored sample, most of them listed from their first bit on.
    #[test]
    fn what_follows_is_often_refused() {
        let requests = generate::sample(1).flatten();
        let shows = requests.filter(|request| request.kind() == "show");
        let cases = shows.flat_map(|show| cases(&show).expect("an answer to each"));
        let last = format!(": {FOLLOWED}\n");
        let refused: Vec<Case> = cases.filter(|case| case.printed.ends_with(&last)).collect();
        let words = |case: &&Case| case.arguments.split(' ').count();
        assert!(refused.iter().filter(|case| words(case) == 2).count() >= 300);
        assert!(refused.iter().filter(|case| words(case) == 3).count() >= 50);
    }

    /// Only part 0 has a listing if it is not read, or refused for what follows its end.
    #[test]
    fn parts_without_a_scene() {
        let cases = of_file("0003 0000000e 0000000f 0000000f 04 70");
        let scene = "0 6 1 ancillary.scene_graph.count\nrefused 6 at 6: ";
        assert!(case_with(&cases, "part 0").printed.starts_with(scene));
        for arguments in ["part 1", "part 2"] {
            let case = case_with(&cases, arguments);
            assert_eq!([&*case.printed, &*case.report], ["", NO_SCENE]);
        }
        assert_eq!(case_with(&cases, "part 3").report, NO_PART);
        assert_eq!(cases.len(), 4);
        let cases = of_file("0002 0000000a 0000000c 0000");
        let followed = format!("0 6 0 ancillary.scene_graph.count\nrefused 39 at 6: {FOLLOWED}\n");
        assert_eq!(case_with(&cases, "part 0").printed, followed);
        assert_eq!(case_with(&cases, "part 1").report, NO_SCENE);
    }

    /// Bits of a part are not bits of the file.
    #[test]
    fn the_only_part_is_the_last() {
        let cases = of_file("0001 00000006 80");
        let next = "1 6 0 ancillary.scene_graph.count\nread 7 fields 1\n";
        assert_eq!(case_with(&cases, "part 0 1").printed, next);
    }

    #[test]
    fn refused_files() {
        let line = "refused 24 at 0: header of the show file not sound\n";
        assert_eq!(one("show 00"), ["part 0", line]);
        let line = "refused 23 at 0: show file of more than 65,536 bytes\n";
        let long = hex(&[0; show::GREATEST_FILE + 1]);
        assert_eq!(one(&format!("show {long}")), ["part 0", line]);
    }

    /// Recording and room of a request make no difference; its offset does.
    #[test]
    fn scenes() {
        let text = "0 6 0 ancillary.scene_graph.count\nread 6 fields 1\n";
        for line in ["scene 0 0 0 00", "scene 0 1 4 00"] {
            assert_eq!(one(line), ["scene", text]);
        }
        let missing = "refused 3 at 0: the bits asked for are not there\n";
        assert_eq!(one("scene 9 1 0 00"), ["scene 9", missing]);
    }

    #[test]
    fn stops() {
        let stop = "stopped 35 at 16: LZW initial width above 15, or greatest width above 16";
        let [_, text] = one("metadata 0 0 0 8178");
        assert_eq!(text.lines().count(), 6);
        assert_eq!(text.lines().next_back(), Some(stop));
    }

    #[test]
    fn lines_of_each_kind() {
        let line = |kind, value| {
            field_line(&Field {
                offset: 8,
                length: 40,
                kind,
                value,
                name: "a.b[1]".into(),
            })
        };
        assert_eq!(line(0, 1), "8 40 1 a.b[1]\n");
        assert_eq!(line(1, u64::MAX), "8 40 18446744073709551615 a.b[1]\n");
        assert_eq!(line(2, 40), "8 40 40 bits a.b[1]\n");
        assert_eq!(line(3, 1), "8 40 1 bytes a.b[1]\n");
    }

    /// The greatest number of the arguments has 18 digits.
    #[test]
    fn long_offsets() {
        let greatest = 10_u64.pow(18) - 1;
        let [arguments, text] = one(&format!("metadata {greatest} 0 0 00"));
        assert_eq!(arguments, "metadata 999999999999999999");
        assert!(text.starts_with("refused 3 at 0: "));
        let cases = asked(&format!("metadata {} 0 0 00", greatest + 1));
        assert_eq!([&*cases[0].printed, &*cases[0].report], ["", USAGE]);
    }

    /// There are words for all fields that can be counted, so that 5 is never given.
    #[test]
    fn the_most_fields() {
        let corners = corners(1);
        let most = corners.iter().find(|corner| corner.what == "16385 fields");
        let requests = &most.expect("such a corner").requests;
        let cases = cases(&requests[0]).expect("an answer");
        let mut lines = cases[0].printed.lines();
        let last = lines.next_back().expect("a line");
        assert!(last.starts_with("refused 4 at "));
        assert_eq!(lines.count(), 16_384);
    }

    #[test]
    fn other_requests_are_passed_over() {
        for line in [
            "update 0 0 0 1:0:0:0:0:0 70",
            "position 0 0 0 1 0:0:0:0:0:0 70",
            "fields 0 0 0 f@1 70",
            "list 0 0 0:00 -",
            "validation 0 -",
            "name 257 32",
        ] {
            assert_eq!(asked(line), []);
        }
    }

    /// A number that the Rust can give has words, and so have those that documents 01 and 02 add.
    #[test]
    fn every_number_has_words() {
        let given = REFUSALS.iter().chain(&STOPS).map(|row| row.0);
        let mut numbers: Vec<u8> = given
            .chain([1, 2, 5, 23, 24, 25, 26, 36, 37, 38, 39])
            .collect();
        numbers.sort();
        let rows: Vec<u8> = PAPER.lines().filter_map(row).map(|row| row.0).collect();
        assert_eq!(rows, numbers);
        assert_eq!(words(3), Ok("the bits asked for are not there"));
        assert!(words(27).is_err());
    }

    #[test]
    fn what_the_rust_does_not_answer() {
        let panic = Verdict::without_number(Outcome::Panic);
        let told = "the Rust gave no answer: panic";
        assert_eq!(outcome_line(&panic, 0), Err(told.into()));
    }

    #[test]
    fn folders() {
        let path = std::env::temp_dir().join(format!("oracle-listings-{}", std::process::id()));
        fs::create_dir(&path).expect("a folder");
        let mut folder = Folder::new(path.to_str().expect("a path"));
        for line in ["scene 0 0 0 00", "scene 0 1 5 00", "name 257 32", "show 00"] {
            let request = Request::parse(line).expect("a request");
            folder.add(&request).expect("its cases");
        }
        assert_eq!(folder.count(), 2);
        let read = |name: &str| fs::read(path.join(name)).expect(name);
        assert_eq!(read("1.args"), b"scene\n");
        assert_eq!(read("1.in"), [0]);
        let text = b"0 6 0 ancillary.scene_graph.count\nread 6 fields 1\n";
        assert_eq!(read("1.out"), text);
        assert_eq!(read("1.report"), b"");
        assert_eq!(read("2.args"), b"part 0\n");
        assert_eq!(fs::read_dir(&path).expect("the folder").count(), 8);
        fs::remove_dir_all(&path).expect("the folder");
    }
}
