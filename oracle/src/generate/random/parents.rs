//! New parents: mostly such as have ranks, of shapes whose parents had ranks or not.
use super::validations::some_count;
use crate::driver::GREATEST_PRECISION;
use crate::generate::batch::Batch;
use crate::generate::drafts::positions::{shapes_of, some_parents};
use crate::generate::fixed::parents::{AMPLE, NUMBERS, Wanted, packet_bytes};
use crate::request::Shape;
use crate::rng::Rng;

const ROUNDS: usize = 8_000;

pub fn parents(batch: &mut Batch<'_>) {
    (0..ROUNDS).for_each(|_| some_wanted(batch));
}

pub fn some_wanted(batch: &mut Batch<'_>) {
    let count = some_count(batch.rng);
    wanted_of(batch, count);
}

/// New parents of so many positions.
pub fn wanted_of(batch: &mut Batch<'_>, count: usize) {
    let mut shapes = shapes_of(batch.rng, count);
    if batch.rng.percent(25) {
        some_elsewhere(batch.rng, &mut shapes);
    }
    let parents = some_new(batch.rng, &shapes);
    let mut wanted = (shapes, parents);
    if batch.rng.percent(75) {
        let pairs = wanted.0.iter_mut().zip(&wanted.1);
        pairs.for_each(|(shape, parent)| shape.parent_dynamic |= shape.parent != *parent);
    }
    if batch.rng.percent(8) {
        spoil(batch.rng, &mut wanted);
    }
    let room = some_room(batch.rng, &wanted);
    batch.parents(wanted, room);
}

/// All shapes on any number, or up to three of them.
fn some_elsewhere(rng: &mut Rng, shapes: &mut [Shape]) {
    if rng.percent(20) {
        shapes
            .iter_mut()
            .for_each(|shape| shape.parent = some_number(rng));
        return;
    }
    for _ in 0..rng.within(0..=3) {
        if !shapes.is_empty() {
            let one = rng.below(shapes.len() as u64) as usize;
            shapes[one].parent = some_number(rng);
        }
    }
}

fn some_number(rng: &mut Rng) -> usize {
    match rng.below(4) {
        0 => rng.next() as usize,
        1 => rng.below(70) as usize,
        _ => rng.pick(&NUMBERS),
    }
}

/// All anew, or the old ones but for up to three; rarely any number among them.
fn some_new(rng: &mut Rng, shapes: &[Shape]) -> Vec<usize> {
    let mut parents: Vec<usize> = if rng.percent(50) {
        let parents = some_parents(rng, shapes.len());
        parents.into_iter().map(|parent| parent as usize).collect()
    } else {
        shapes.iter().map(|shape| shape.parent).collect()
    };
    let count = parents.len() as u64;
    if count > 0 {
        for _ in 0..rng.pick(&[0, 0, 1, 1, 2, 3]) {
            let parent = match rng.below(12) {
                0 => some_number(rng),
                1 => 64 + rng.within(0..=count) as usize,
                _ => rng.within(0..=count) as usize,
            };
            parents[rng.below(count) as usize] = parent;
        }
    }
    parents
}

/// A precision above the greatest, or another number of new parents.
fn spoil(rng: &mut Rng, (shapes, parents): &mut Wanted) {
    let one = rng.below(shapes.len().max(1) as u64) as usize;
    let precision = rng.pick(&[GREATEST_PRECISION + 1, 32, 255]);
    match (rng.below(3), shapes.get_mut(one)) {
        (0, Some(shape)) => shape.position_precision = precision,
        (1, Some(shape)) => shape.rotation_precision = precision,
        _ => {
            let count = rng.within(0..=parents.len() as u64 + 2);
            parents.resize(count as usize, 0);
        }
    }
}

/// Mostly near the bytes of the packet.
fn some_room(rng: &mut Rng, wanted: &Wanted) -> u32 {
    let bytes = packet_bytes(wanted).unwrap_or(1);
    match rng.below(8) {
        0 => rng.below(AMPLE.into()) as u32,
        1 => bytes.saturating_sub(1),
        2 => bytes + rng.below(9) as u32,
        3 => AMPLE,
        _ => bytes,
    }
}
