//! Bytes at random: uniform, mostly zeros, mostly ones.
use crate::bits::Bits;
use crate::generate::batch::Batch;
use crate::generate::drafts::noisy;
use crate::generate::drafts::positions::{some_shape, some_shapes};
use crate::request::{Input, Question};
use crate::rng::Rng;

const ROUNDS: usize = 7_000;

pub fn noise(batch: &mut Batch<'_>) {
    for _ in 0..ROUNDS {
        let shape = some_shape(batch.rng);
        let shapes = some_shapes(batch.rng);
        let full = batch.rng.percent(50);
        for question in [
            Question::Scene,
            Question::Metadata,
            Question::Update(shapes),
            Question::Position { full, shape },
        ] {
            let most = batch.rng.pick(&[4, 16, 40]);
            let mut bits = noisy(batch.rng, most);
            let offset = batch.rng.pick(&[0, 0, 1, 2, 3, 4, 5, 6, 7, 19, 200]);
            if question == Question::Metadata {
                lead_inside(batch.rng, &mut bits, offset as usize);
            }
            let bytes = bits.bytes();
            let record = batch.some_record();
            batch.call(&question, Input { offset, bytes }, record);
        }
    }
}

/// Half of the time, a configuration that is present, without compression.
fn lead_inside(rng: &mut Rng, bits: &mut Bits, offset: usize) {
    if offset + 2 <= bits.len() && rng.percent(50) {
        bits.set(offset, 2, 0b01);
    }
}
