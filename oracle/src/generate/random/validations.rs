//! Validation called alone, of lists of parents that are mostly sound.
use crate::driver::GREATEST_COUNT;
use crate::generate::batch::Batch;
use crate::generate::drafts::positions::{some_parents, some_shape};
use crate::generate::fixed::validations::hung;
use crate::request::Shape;
use crate::rng::Rng;

const ROUNDS: usize = 6_000;

pub fn validations(batch: &mut Batch<'_>) {
    (0..ROUNDS).for_each(|_| some_list(batch));
}

pub fn some_list(batch: &mut Batch<'_>) {
    let count = some_count(batch.rng);
    list_of(batch, count);
}

/// A list of so many positions.
pub fn list_of(batch: &mut Batch<'_>, count: usize) {
    let parents = some_parents(batch.rng, count);
    let mut shapes: Vec<Shape> = parents.into_iter().map(|p| hung(p as usize)).collect();
    if count > 0 && batch.rng.percent(30) {
        let one = batch.rng.below(count as u64) as usize;
        shapes[one] = some_hung(batch.rng, count);
    }
    let at = batch.rng.pick(&[0, 1, 48, 67_108_864, u64::MAX]);
    batch.validation(at, shapes);
}

/// Few or many positions, rarely more than there may be.
pub fn some_count(rng: &mut Rng) -> usize {
    let most = GREATEST_COUNT as u64;
    let count = match rng.below(20) {
        0 => rng.within(most - 1..=most + 2),
        1 => rng.within(most + 1..=70),
        2..=6 => rng.within(0..=most),
        _ => rng.within(0..=10),
    };
    count as usize
}

/// Any shape: validation doesn't look at precisions, and parents may be of any size.
fn some_hung(rng: &mut Rng, count: usize) -> Shape {
    Shape {
        parent: rng.pick(&[count, count + 1, 63, 64, 255]),
        position_precision: rng.pick(&[0, 24, 25, 255]),
        ..some_shape(rng)
    }
}
