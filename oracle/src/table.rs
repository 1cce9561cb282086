//! How often each number occurs, by kind of request.
use crate::answer::Answer;
use crate::show::part_end;
use crate::text::{Words, number};
use apac::numbers::{REFUSALS, STOPS};
use std::collections::BTreeMap;
use std::fmt;

/// The kinds of requests with the numbers that each can give, beside 1, which takes an input of more
/// than 8 MiB. Of a list its scene counts as one answer, and each of its updates; of a show its file,
/// its scene, and each of its updates. Scripts can be told to end in any number, so that none is asked
/// of them.
const ENDS: [(&str, &[u8]); 13] = [
    ("scene", &[0, 3, 5, 6, 7, 8, 9]),
    ("update", &[0, 2, 3, 5, 7, 8, 9]),
    ("position", &[0, 2, 3, 5, 7]),
    (
        "metadata",
        &[
            0, 3, 4, 5, 6, 7, 10, 11, 12, 13, 14, 15, 16, 17, 18, 19, 20, 21, 22, 31, 32, 33, 34,
            35,
        ],
    ),
    ("validation", &[0, 2, 8, 9]),
    ("parents", &[0, 2, 8, 9, 36, 37, 38]),
    ("name", &[0, 25, 26]),
    ("show", &[0, 23, 24]),
    ("show scene", &[0, 3, 6, 7, 8, 9, 39]),
    ("show update", &[0, 3, 7, 8, 9, 39]),
    ("list scene", &[0, 3, 5, 6, 7, 8, 9]),
    ("list update", &[0, 3, 5, 7, 8, 9]),
    ("fields", &[]),
];

/// Each of these is to be reached at least so often.
const ENOUGH: usize = 5;

/// Read, and the questions that documents 01 and 02 add.
const ADDED: [u8; 12] = [0, 1, 2, 5, 23, 24, 25, 26, 36, 37, 38, 39];

/// The place of a list's packets in its answer line, and of what is printed for a show, counted from 0.
const LAST: usize = 8;

type Row = [usize; ENDS.len()];

#[derive(Default)]
pub struct Table {
    numbers: BTreeMap<u8, Row>,
    /// Panics, errors without a number, runs that disagree.
    odd: BTreeMap<String, Row>,
}

impl Table {
    /// Counts an answer; of a list those of its packets, and of a show those of its parts too.
    pub fn count(&mut self, answer: &Answer) -> Result<(), String> {
        let mut count = |within, Answer { kind, verdict, .. }: &Answer| {
            self.add(within, kind, &verdict.outcome.to_string(), verdict.number)
        };
        match answer.kind {
            "list" => answer
                .packets
                .iter()
                .try_for_each(|packet| count("list ", packet)),
            "show" => {
                count("", answer)?;
                self.count_parts(answer.text.iter().flat_map(|text| text.lines()))
            }
            _ => count("", answer),
        }
    }

    /// Counts the answer that a line carries.
    pub fn count_line(&mut self, line: &str) -> Result<(), String> {
        let mut count = |within, line| {
            let mut words = Words::new(line);
            let (kind, outcome) = (words.next()?, words.next()?);
            self.add(within, kind, outcome, number(words.next()?)?)
        };
        let last = || line.splitn(LAST + 1, ' ').nth(LAST).unwrap_or_default();
        match line.split(' ').next() {
            Some("list") => last()
                .split('|')
                .try_for_each(|packet| count("list ", packet)),
            Some("show") => {
                count("", line)?;
                self.count_parts(last().split('/'))
            }
            _ => count("", line),
        }
    }

    /// Counts the parts of which the printed lines of a show tell.
    fn count_parts<'a>(&mut self, mut lines: impl Iterator<Item = &'a str>) -> Result<(), String> {
        lines.try_for_each(|line| match part_end(line) {
            Some(("0", outcome, number)) => self.add("show ", "scene", outcome, number),
            Some((_, outcome, number)) => self.add("show ", "update", outcome, number),
            None => Ok(()),
        })
    }

    fn add(&mut self, within: &str, kind: &str, outcome: &str, number: u8) -> Result<(), String> {
        let name = format!("{within}{kind}");
        let column = ENDS.iter().position(|(kind, _)| *kind == name);
        let column = column.ok_or_else(|| format!("no such kind of answer: {name}"))?;
        let row = match outcome {
            "read" | "refused" | "stopped" => self.numbers.entry(number).or_default(),
            odd => self.odd.entry(odd.into()).or_default(),
        };
        row[column] += 1;
        Ok(())
    }

    /// Whether each number was reached often enough, and no answer is odd.
    pub fn is_sound(&self) -> bool {
        self.rare().is_empty() && self.odd.is_empty()
    }

    /// The numbers that a kind that was asked reached too rarely.
    fn rare(&self) -> Vec<String> {
        let asked = self.sums();
        let mut rare = Vec::new();
        for (column, (kind, ends)) in ENDS.iter().enumerate() {
            let few = |number: &&u8| asked[column] > 0 && self.row(**number)[column] < ENOUGH;
            let few = ends.iter().filter(few);
            rare.extend(few.map(|number| format!("{kind} {number}")));
        }
        rare
    }

    fn row(&self, number: u8) -> Row {
        self.numbers.get(&number).copied().unwrap_or_default()
    }

    fn sums(&self) -> Row {
        let rows = self.numbers.values().chain(self.odd.values());
        rows.fold(Row::default(), |sums, row| {
            std::array::from_fn(|i| sums[i] + row[i])
        })
    }
}

/// The table as Markdown, and below it which numbers were reached too rarely.
impl fmt::Display for Table {
    fn fmt(&self, f: &mut fmt::Formatter<'_>) -> fmt::Result {
        let kinds = ENDS.map(|(kind, _)| kind).join(" | ");
        writeln!(f, "| number | {kinds} | all |")?;
        writeln!(f, "|---:{}|", "|---:".repeat(ENDS.len() + 1))?;
        for number in every_number() {
            writeln!(f, "{}", line(&number.to_string(), &self.row(number)))?;
        }
        for (text, row) in &self.odd {
            writeln!(f, "{}", line(text, row))?;
        }
        writeln!(f, "{}\n", line("all", &self.sums()))?;
        match self.rare().as_slice() {
            [] => write!(
                f,
                "every number that these kinds can give was reached at least five times"
            ),
            rare => write!(f, "reached fewer than five times: {}", rare.join(", ")),
        }
    }
}

/// The numbers that a kind of request can give.
#[cfg(test)]
pub fn ends(kind: &str) -> &'static [u8] {
    let row = ENDS.iter().find(|row| row.0 == kind);
    row.expect("a kind of request").1
}

fn numbers_of_the_rust() -> impl Iterator<Item = u8> {
    REFUSALS.iter().chain(&STOPS).map(|row| row.0)
}

fn every_number() -> impl Iterator<Item = u8> {
    let mut numbers: Vec<u8> = numbers_of_the_rust().chain(ADDED).collect();
    numbers.sort_unstable();
    numbers.into_iter()
}

fn line(name: &str, row: &Row) -> String {
    let cells: Vec<String> = row.iter().map(usize::to_string).collect();
    let all: usize = row.iter().sum();
    format!("| {name} | {} | {all} |", cells.join(" | "))
}

#[cfg(test)]
mod tests {
    use super::*;
    use crate::driver::answer;
    use crate::request::Request;

    fn counted(lines: &[(usize, &str)]) -> Table {
        let mut table = Table::default();
        for (times, line) in lines {
            (0..*times).for_each(|_| table.count_line(line).expect("an answer"));
        }
        table
    }

    /// What is printed for shows that reach every number of their scenes and of their updates.
    const SHOWN: [&str; 7] = [
        "part 0 read 48 fields 20/part 1 read 7 fields 7/part 2 refused 3 at 3/part 3 refused 7 at 9/\
         part 4 refused 8 at 13/part 5 refused 9 at 13/part 6 refused 39 at 7/deepest 0/",
        "part 0 refused 3 at 0/",
        "part 0 refused 6 at 6/",
        "part 0 refused 7 at 9/",
        "part 0 refused 8 at 30/",
        "part 0 refused 9 at 30/",
        "part 0 refused 39 at 6/",
    ];

    #[test]
    fn shows() {
        let shown = SHOWN.map(|text| format!("show read 0 0 {} - 0 - {text}", text.len()));
        let files = [
            (4, "show refused 23 0 16 - 0 - file refused 23/"),
            (5, "show refused 24 0 16 - 0 - file refused 24/"),
        ];
        let shown = shown.iter().map(|line| (5, line.as_str()));
        let mut table = counted(&shown.chain(files).collect::<Vec<_>>());
        assert_eq!(table.rare(), ["show 23"]);
        assert!(!table.is_sound());
        let line = "show refused 23 0 16 - 0 - file refused 23/";
        table.count_line(line).expect("an answer");
        assert!(table.is_sound());
        table
            .count_line("show disagree 0 0 0 - 0 - -")
            .expect("an answer");
        assert!(!table.is_sound());
    }

    /// A number that only some parts of shows reach is missed.
    #[test]
    fn rare_parts_of_shows() {
        let shown = |line: &str| format!("show read 0 0 0 - 0 - {line}");
        let mut table = Table::default();
        for _ in 0..5 {
            for line in &SHOWN[..6] {
                table.count_line(&shown(line)).expect("an answer");
            }
        }
        assert_eq!(table.rare(), ["show 23", "show 24", "show scene 39"]);
    }

    /// Of a list each packet counts, by its answer as by its line.
    #[test]
    fn lists() {
        let list = Request::parse("list 1 100 0:0a0080800080 0:c100,0:70,9:-").expect("a request");
        let answer = answer(&list);
        let mut table = Table::default();
        table.count(&answer).expect("an answer");
        for table in [table, counted(&[(1, &answer.to_string())])] {
            let packets = |number| [table.row(number)[10], table.row(number)[11]];
            assert_eq!(
                [packets(0), packets(3), packets(9)],
                [[1, 1], [0, 1], [0, 1]]
            );
            assert_eq!(table.sums(), [0, 0, 0, 0, 0, 0, 0, 0, 0, 0, 1, 3, 0]);
        }
    }

    /// Of a show each part that was asked counts, and the file itself.
    #[test]
    fn parts_of_shows() {
        let header = "000400000012000000180000001a0000001b";
        for (file, files, scenes, updates) in [
            (
                [header, "0a0080800080c10070c100"],
                [1, 0],
                [1, 0, 0],
                [2, 1, 0],
            ),
            (
                [header, "0a0080800080c10071c100"],
                [1, 0],
                [1, 0, 0],
                [0, 2, 1],
            ),
            (
                ["00020000000a0000000b", "0100"],
                [1, 0],
                [0, 0, 1],
                [0, 0, 0],
            ),
            ([header, ""], [0, 1], [0, 0, 0], [0, 0, 0]),
        ] {
            let show = Request::parse(&format!("show {}", file.concat())).expect("a request");
            let answer = answer(&show);
            let mut table = Table::default();
            table.count(&answer).expect("an answer");
            for table in [table, counted(&[(1, &answer.to_string())])] {
                let column = |column: usize| [0, 9, 39].map(|number| table.row(number)[column]);
                assert_eq!([table.row(0)[7], table.row(24)[7]], files, "{show}");
                assert_eq!([column(8), column(9)], [scenes, updates], "{show}");
            }
        }
    }

    #[test]
    fn kinds_without_a_column() {
        for line in [
            "",
            "scene",
            "list read 0 0 0 - 0 - -",
            "list",
            "lists read 0 0 0 0 - -",
        ] {
            assert!(Table::default().count_line(line).is_err(), "{line}");
        }
    }
}
