//! Validation called alone: every small list of parents.
use crate::generate::batch::Batch;
use crate::request::Shape;

pub fn small(batch: &mut Batch<'_>) {
    every_list(batch, 4);
}

/// Every list of up to so many parents, each up to one more than the count.
pub fn every_list(batch: &mut Batch<'_>, most: usize) {
    for count in 0..=most {
        let base = count + 2;
        for index in 0..base.pow(count as u32) {
            let digit = |i: usize| index / base.pow(i as u32) % base;
            let at = batch.rng.below(100);
            batch.validation(at, (0..count).map(digit).map(hung).collect());
        }
    }
}

pub fn hung(parent: usize) -> Shape {
    Shape {
        parent,
        ..Shape::default()
    }
}
