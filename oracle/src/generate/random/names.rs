//! Name words, known or not, with enough bytes for their texts or too few.
use crate::generate::batch::Batch;
use crate::generate::fixed::names::{AMPLE, greatest, length};
use crate::names::{Template, greatest_index, templates};
use crate::rng::Rng;

const ROUNDS: usize = 5_000;

pub fn names(batch: &mut Batch<'_>) {
    for _ in 0..ROUNDS {
        let template = some_template(batch.rng);
        let word = match batch.rng.below(8) {
            0 => batch.rng.next(),
            1 => known(batch.rng, template) ^ 1 << batch.rng.below(64),
            2 => beyond(batch.rng),
            _ => known(batch.rng, template),
        };
        let room = some_room(batch.rng, word);
        batch.name(word, room);
    }
}

fn some_template(rng: &mut Rng) -> &'static Template {
    &templates()[rng.below(templates().len() as u64) as usize]
}

/// A word whose indices are in their range, of few digits or many.
pub fn known(rng: &mut Rng, template: &Template) -> u64 {
    let indices = greatest(template).map(|greatest| {
        let most = rng.pick(&[9, 99, 999, greatest_index()]);
        rng.within(0..=greatest.min(most))
    });
    template.word(indices)
}

/// A word with one index beyond its range.
pub fn beyond(rng: &mut Rng) -> u64 {
    let template = some_template(rng);
    let mut indices = greatest(template);
    indices[rng.below(4) as usize] += 1;
    template.word(indices)
}

/// Mostly near the length of the text.
pub fn some_room(rng: &mut Rng, word: u64) -> u32 {
    match rng.below(4) {
        0 => rng.below(AMPLE.into()) as u32,
        1 => length(word).saturating_sub(1),
        2 => length(word),
        _ => length(word) + rng.below(9) as u32,
    }
}
