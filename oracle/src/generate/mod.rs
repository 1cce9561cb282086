//! Requests that follow from a seed.
//!
//! A part is a function that adds requests to a batch. Its folder tells whether what it asks is
//! `fixed` or `random`, and its module of which kind: `scripts`, `shows`, `lists`, `validations`,
//! `parents` and `names`; `labels` and `reads` are scripts too, `graphs` are scenes, updates and validations,
//! and what has another name is of scenes, updates, positions and metadata. Both folders write their inputs by
//! `drafts`, and ask around a good one by `variants`. The sample has parts of its own, made of the
//! same.
mod batch;
mod drafts;
mod fixed;
mod random;
mod sample;
#[cfg(test)]
mod tests;
mod variants;

use crate::request::Request;
use crate::rng::Rng;
use batch::Batch;
use fixed::corners;
#[cfg(test)]
pub(crate) use fixed::shows::file;

type Part = fn(&mut Batch<'_>);

/// What is fixed is asked once, what is random as often as the scale says, each time with other
/// choices.
pub fn generate(seed: u64, scale: u64) -> impl Iterator<Item = Vec<Request>> {
    let random = (0..scale).flat_map(|_| random::PARTS);
    requests(fixed::PARTS.into_iter().chain(random), seed)
}

/// A sample; that of seed 1 is stored in the repository.
pub fn sample(seed: u64) -> impl Iterator<Item = Vec<Request>> {
    requests(sample::PARTS.into_iter(), seed)
}

/// The requests of the parts, which draw their random numbers one after the other.
fn requests(parts: impl Iterator<Item = Part>, seed: u64) -> impl Iterator<Item = Vec<Request>> {
    let mut rng = Rng::new(seed);
    parts.map(move |part| {
        let mut batch = Batch::new(&mut rng);
        part(&mut batch);
        batch.requests
    })
}

/// A corner of a metadata configuration: what it is, its number, and requests that must give it.
pub struct Asked {
    pub what: String,
    pub number: u8,
    pub requests: Vec<Request>,
}

/// Every corner of a metadata configuration.
pub fn corners(seed: u64) -> Vec<Asked> {
    let mut rng = Rng::new(seed);
    let list = corners::corners(&mut rng);
    let asked = |corner: corners::Corner| {
        let mut batch = Batch::new(&mut rng);
        batch.corner(&corner);
        Asked {
            what: corner.what,
            number: corner.number,
            requests: batch.requests,
        }
    };
    list.into_iter().map(asked).collect()
}
