//! Name words: 64-bit numbers for the texts by which the Rust names its fields. How they are made,
//! and their tables, is read from docs/FIELDS.md, here called the paper.
use crate::text::{cells, number};
use std::sync::LazyLock;

const PAPER: &str = include_str!("../../docs/FIELDS.md");

/// What the indices are called in the paper.
const LETTERS: [char; 4] = ['i', 'j', 'k', 'm'];

/// A part of a word: its lowest bit, and the greatest value that it has room for.
struct Part {
    low: u32,
    greatest: u64,
}

/// The parts of a word: the leaf, the block, and the four indices.
static PARTS: LazyLock<[Part; 6]> = LazyLock::new(|| {
    let parts: Vec<Part> = section("Words").filter_map(part).collect();
    parts.try_into().ok().expect("a word has six parts")
});

/// A block and a leaf that stands in it.
#[derive(Debug)]
pub struct Template {
    /// Block and leaf, as in a word.
    pub number: u64,
    /// The text; `[]` is the place of an index.
    form: String,
    /// The greatest value of each index that the text has.
    pub greatest: [Option<u64>; 4],
}

static TEMPLATES: LazyLock<Vec<Template>> = LazyLock::new(|| {
    let (blocks, leaves) = (table("Blocks"), table("Leaves"));
    let pairs = blocks
        .iter()
        .flat_map(|block| leaves.iter().map(move |leaf| (block, leaf)));
    pairs
        .filter(|(block, leaf)| leaf.blocks.contains(&block.number))
        .map(|(block, leaf)| Template::new(block, leaf))
        .collect()
});

pub fn templates() -> &'static [Template] {
    &TEMPLATES
}

/// The word of a field's name. The names of a script are words already.
pub fn word(name: &str) -> Result<u64, String> {
    if let Ok(word) = number(name) {
        return Ok(word);
    }
    let (form, indices) = apart(name)?;
    known_word(&form, indices).ok_or_else(|| format!("a name without a word: {name}"))
}

fn known_word(form: &str, indices: Vec<u64>) -> Option<u64> {
    let template = templates().iter().find(|template| template.form == form)?;
    let indices = template.placed(indices);
    template.has(indices).then(|| template.word(indices))
}

/// The text of a word, if it is known.
pub fn text(word: u64) -> Option<String> {
    let number = template_of(word);
    let template = templates()
        .iter()
        .find(|template| template.number == number)?;
    let indices = index_parts().each_ref().map(|part| part.of(word));
    template.has(indices).then(|| template.text(indices))
}

/// Block and leaf of a word.
pub fn template_of(word: u64) -> u64 {
    let [leaf, block, ..] = &*PARTS;
    template_number(block.of(word), leaf.of(word))
}

fn template_number(block_number: u64, leaf_number: u64) -> u64 {
    let [leaf, block, ..] = &*PARTS;
    leaf.with(leaf_number) + block.with(block_number)
}

/// The greatest index that a word has room for.
pub fn greatest_index() -> u64 {
    let [.., last] = index_parts();
    last.greatest
}

fn index_parts() -> &'static [Part; 4] {
    let [_, _, indices @ ..] = &*PARTS;
    indices
}

impl Part {
    /// The value of this part of a word.
    fn of(&self, word: u64) -> u64 {
        word >> self.low & self.greatest
    }

    /// A word with this value and nothing else.
    fn with(&self, value: u64) -> u64 {
        value << self.low
    }
}

impl Template {
    fn new(block: &Row, leaf: &Row) -> Self {
        let text = format!("{}.{}", block.text, leaf.text);
        let ranges = [block.ranges, leaf.ranges].join(", ");
        Self {
            number: template_number(block.number, leaf.number),
            form: LETTERS.iter().fold(text, |text, letter| {
                text.replace(&format!("[{letter}]"), "[]")
            }),
            greatest: LETTERS.map(|letter| greatest(&ranges, letter)),
        }
    }

    /// The word with these indices, in their range or not.
    pub fn word(&self, indices: [u64; 4]) -> u64 {
        let parts = indices.into_iter().zip(index_parts());
        self.number + parts.map(|(index, part)| part.with(index)).sum::<u64>()
    }

    /// Whether the indices are in their range.
    fn has(&self, indices: [u64; 4]) -> bool {
        let mut bounded = indices.into_iter().zip(self.greatest);
        bounded.all(|(index, greatest)| index <= greatest.unwrap_or(0))
    }

    fn text(&self, indices: [u64; 4]) -> String {
        let places = indices.into_iter().zip(self.greatest);
        let own = places.filter_map(|(index, greatest)| greatest.and(Some(index)));
        own.fold(self.form.clone(), |text, index| {
            text.replacen("[]", &format!("[{index}]"), 1)
        })
    }

    /// The indices of a text, 0 where it has none.
    fn placed(&self, indices: Vec<u64>) -> [u64; 4] {
        let mut indices = indices.into_iter();
        self.greatest
            .map(|greatest| greatest.and_then(|_| indices.next()).unwrap_or(0))
    }
}

/// A text without the indices in its brackets, and these in their order.
fn apart(text: &str) -> Result<(String, Vec<u64>), String> {
    let mut pieces = text.split('[');
    let mut form: String = pieces.next().unwrap_or_default().into();
    let mut indices = Vec::new();
    for piece in pieces {
        let (index, rest) = piece.split_once(']').ok_or("a bracket is open")?;
        indices.push(number(index)?);
        form += "[]";
        form += rest;
    }
    Ok((form, indices))
}

/// A row of one of the paper's tables.
struct Row {
    number: u64,
    text: &'static str,
    /// The greatest value of each index, as `i to 1,164, j to 127`.
    ranges: &'static str,
    /// The blocks that a leaf stands in.
    blocks: Vec<u64>,
}

/// The table of blocks or of leaves.
fn table(title: &str) -> Vec<Row> {
    section(title).filter_map(row).collect()
}

/// The lines of a section of the paper.
fn section(title: &str) -> impl Iterator<Item = &'static str> {
    let title = format!("## {title}");
    let lines = PAPER.lines().skip_while(move |line| *line != title).skip(1);
    lines.take_while(|line| !line.starts_with("## "))
}

/// A line that begins with bits, as `0 to 7`.
fn part(line: &'static str) -> Option<Part> {
    let mut cells = cells(line)?;
    let (low, _) = cells.next()?.split_once(" to ")?;
    let (_, greatest) = cells.nth(1)?.split_once(" to ")?;
    Some(Part {
        low: low.parse().ok()?,
        greatest: plain(greatest)?,
    })
}

/// A number whose thousands may be parted by commas.
fn plain(digits: &str) -> Option<u64> {
    digits.replace(',', "").parse().ok()
}

/// A line that begins with a number.
fn row(line: &'static str) -> Option<Row> {
    let mut cells = cells(line)?;
    Some(Row {
        number: cells.next()?.parse().ok()?,
        text: cells.next()?.trim_matches('`'),
        ranges: cells.next()?,
        blocks: cells.next()?.split(", ").flat_map(str::parse).collect(),
    })
}

fn greatest(ranges: &str, letter: char) -> Option<u64> {
    let mut ranges = ranges.split(", ");
    let digits = ranges.find_map(|range| range.strip_prefix(letter)?.strip_prefix(" to "))?;
    Some(plain(digits).expect("the greatest index in a table"))
}

#[cfg(test)]
mod tests {
    use super::*;
    use std::collections::BTreeSet;

    /// The parts stand one after the other, each with as many values as its bits have, and the
    /// paper's sum is made of them.
    #[test]
    fn parts_are_read_from_the_paper() {
        let ends = PARTS.iter().skip(1).map(|part| part.low);
        for (part, end) in PARTS.iter().zip(ends.chain([u64::BITS])) {
            assert_eq!(part.greatest + 1, 1 << (end - part.low));
            let bits = format!("| {} to {} |", part.low, end - 1);
            assert!(PAPER.contains(&bits), "{bits}");
        }
        let [_, block, i, j, k, m] = PARTS.each_ref().map(|part| part.low);
        let block = 1 << block;
        let sum = format!("leaf + {block} × block + 2^{i} × i + 2^{j} × j + 2^{k} × k + 2^{m} × m");
        assert!(PAPER.contains(&sum), "{sum}");
    }

    #[test]
    fn templates_are_read_from_the_paper() {
        assert!(PAPER.contains("There are 173 templates."));
        assert_eq!(templates().len(), 173);
        let forms: BTreeSet<&str> = templates().iter().map(|t| t.form.as_str()).collect();
        assert_eq!(forms.len(), 173, "a text has one word");
    }

    /// A place in a text has a letter, and a letter a range; one more than the greatest fits too.
    #[test]
    fn every_index_has_a_range() {
        for template in templates() {
            let ranges: Vec<u64> = template.greatest.into_iter().flatten().collect();
            assert_eq!(template.form.matches("[]").count(), ranges.len());
            assert_eq!(template.form.matches('[').count(), ranges.len());
            assert!(
                ranges
                    .into_iter()
                    .all(|g| (1..greatest_index()).contains(&g))
            );
        }
    }

    #[test]
    fn words_and_their_texts() {
        let position = "ancillary.scene_graph.positions[62]";
        let prefix = 2 * 256 + (62 << 12);
        let parameter = "ancillary.metadata.groups[1164].data.parameters[127]";
        let inner = 9 * 256 + (1_164 << 12) + (127 << 25);
        for (name, expected) in [
            ("ancillary.scene_graph.count".into(), 1 + 256),
            (format!("{position}.updated"), prefix + 23),
            (
                format!("{position}.extensions[31].payload"),
                prefix + 22 + (31 << 38),
            ),
            (
                format!("{parameter}.bands[581].encoded[1]"),
                inner + 111 + (581 << 38) + (1 << 51),
            ),
        ] {
            assert_eq!(word(&name), Ok(expected));
            assert_eq!(text(expected), Some(name));
        }
        assert_eq!(word("18446744073709551615"), Ok(u64::MAX));
    }

    #[test]
    fn every_template_has_a_text() {
        for template in templates() {
            let greatest = template.word(template.greatest.map(Option::unwrap_or_default));
            let name = text(greatest).expect("a known word");
            assert_eq!(word(&name), Ok(greatest), "{name}");
        }
    }

    #[test]
    fn names_without_a_word() {
        for name in [
            "",
            "ancillary.scene_graph",
            "ancillary.scene_graph.positions[0]",
            "ancillary.scene_graph.positions[0].colour",
            "ancillary.scene_graph.positions[0].count",
            "ancillary.scene_graph.positions[63].polar",
            "ancillary.scene_graph.positions[0].position_encoded[3]",
            "ancillary.scene_graph.positions[0.polar",
            "ancillary.scene_graph.positions[].polar",
            "ancillary.scene_graph.positions.polar",
            "cookie.count",
        ] {
            assert!(word(name).is_err(), "{name}");
        }
    }

    #[test]
    fn words_without_a_text() {
        let count = 1 + 256;
        let delta = 12 + 2 * 256;
        for word in [
            0,
            1,
            256,
            1 + 2 * 256,
            1 + 10 * 256,
            116 + 9 * 256,
            count + (1 << 12),
            delta + (63 << 12),
            delta + (1 << 25),
            delta + (1 << 38),
            delta + (1 << 51),
            14 + 2 * 256 + (3 << 38),
            u64::MAX,
        ] {
            assert_eq!(text(word), None, "{word}");
        }
    }
}
