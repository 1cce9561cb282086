//! Name words: every template at the edges of its indices, with enough bytes for its text or too few,
//! and every block with every leaf.
use crate::generate::batch::Batch;
use crate::names::{Template, greatest_index, templates, text};

/// More bytes than any text has.
pub const AMPLE: u32 = 128;

/// The numbers of one to four digits at either end.
const EDGES: [u64; 8] = [0, 1, 9, 10, 99, 100, 999, 1_000];

/// Every template, each index at its edges while the others are 0 or the greatest.
pub fn every_template(batch: &mut Batch<'_>) {
    for template in templates() {
        for others in [[0; 4], greatest(template)] {
            every_room(batch, template.word(others));
            for (place, greatest) in template.greatest.into_iter().enumerate() {
                for index in edges(greatest) {
                    let mut indices = others;
                    indices[place] = index;
                    every_room(batch, template.word(indices));
                }
            }
        }
    }
}

/// Every block with every leaf, and no index; and all bits.
pub fn every_pair(batch: &mut Batch<'_>) {
    for word in (0..1 << 12).chain([u64::MAX]) {
        batch.name(word, AMPLE);
    }
}

/// No bytes and many; if the word has a text, also as many as it takes, one fewer and one more.
fn every_room(batch: &mut Batch<'_>, word: u64) {
    let rooms = match length(word) {
        0 => vec![0, AMPLE],
        length => vec![0, length - 1, length, length + 1, AMPLE],
    };
    rooms.into_iter().for_each(|room| batch.name(word, room));
}

/// The length of a word's text, 0 if it has none.
pub fn length(word: u64) -> u32 {
    text(word).map_or(0, |text| text.len() as u32)
}

pub fn greatest(template: &Template) -> [u64; 4] {
    template.greatest.map(Option::unwrap_or_default)
}

/// Indices up to the greatest and beyond it; only such as are unknown if the text has none.
fn edges(greatest: Option<u64>) -> Vec<u64> {
    let Some(greatest) = greatest else {
        return vec![1, greatest_index()];
    };
    let below = EDGES.into_iter().filter(|&index| index < greatest);
    let last = [greatest, greatest + 1, greatest_index()];
    below.chain(last).collect()
}
