//! A scene and packets that update its shapes: valid, damaged, cut, random, closing a circle, hung on
//! a parent that is not declared.
use super::noisy;
use super::positions::{scene_of, update, update_to};
use crate::answer::{Answer, Outcome};
use crate::driver::GREATEST_COUNT;
use crate::generate::variants::Good;
use crate::request::{Input, Question, Shape};
use crate::rng::Rng;
use std::ops::RangeInclusive;

/// In so many of a hundred cases a scene or an update is damaged, cut or left to chance.
const SPOILT_SCENES: u64 = 15;
const SPOILT_UPDATES: u64 = 35;

/// How often an update is drafted at most until it ends as it should.
const TRIES: usize = 12;

/// What packets are: those of a list, or the parts of a show.
pub struct Form {
    /// A packet of good bits alone, in whole bytes.
    pub alone: fn(&mut Rng, &Good) -> Input,
    /// Such a packet, now and then with more after it.
    pub longer: fn(&mut Rng, &Good) -> Input,
    /// What a packet gives.
    pub read: fn(Question, &Input) -> Answer,
}

/// A scene of so many positions.
pub fn scene_of_some(rng: &mut Rng, count: RangeInclusive<u64>) -> Good {
    let count = rng.within(count);
    scene_of(rng, count as usize)
}

/// The scene, and so many updates of the shapes that the packets before each have left.
pub fn some_packets(rng: &mut Rng, scene: &Good, updates: u64, form: &Form) -> Vec<Input> {
    let first = packet(rng, scene, SPOILT_SCENES, form);
    let scene = (form.read)(Question::Scene, &first);
    let mut packets = vec![first];
    let mut shapes = scene.shapes;
    for _ in 0..updates {
        let good = match scene.verdict.outcome {
            Outcome::Read => some_update(rng, &shapes),
            _ => update(rng),
        };
        let packet = packet(rng, &good, SPOILT_UPDATES, form);
        shapes = (form.read)(Question::Update(shapes), &packet).shapes;
        packets.push(packet);
    }
    packets
}

/// An update that is read and changes something, closes a circle or leaves the declared numbers, if
/// tries find one.
fn some_update(rng: &mut Rng, shapes: &[Shape]) -> Good {
    let number = rng.pick(&[0, 0, 8, 9]);
    let ends = |good: &Good| {
        let answer = good.answer();
        answer.verdict.number == number && answer.count > shapes.len()
    };
    let mut good = changed(rng, shapes);
    for _ in 1..TRIES {
        if ends(&good) {
            break;
        }
        good = changed(rng, shapes);
    }
    good
}

/// An update that hangs up to three positions elsewhere, of those that may be.
pub fn changed(rng: &mut Rng, shapes: &[Shape]) -> Good {
    let mut parents: Vec<u64> = shapes.iter().map(|shape| shape.parent as u64).collect();
    let free: Vec<usize> = (0..shapes.len())
        .filter(|&i| shapes[i].parent_dynamic)
        .collect();
    if !free.is_empty() {
        for _ in 0..rng.within(0..=3) {
            let parent = rng.within(0..=shapes.len() as u64 + 1);
            parents[rng.pick(&free)] = parent.min(GREATEST_COUNT as u64);
        }
    }
    update_to(rng, shapes.to_vec(), &parents)
}

/// The good bits and perhaps more; in so many of a hundred cases they are damaged, cut or left to
/// chance.
fn packet(rng: &mut Rng, good: &Good, spoilt: u64, form: &Form) -> Input {
    if !rng.percent(spoilt) {
        return (form.longer)(rng, good);
    }
    let mut input = (form.alone)(rng, good);
    match rng.below(3) {
        0 if !good.bits.is_empty() => {
            let damaged = good.damaged(rng);
            input = (form.alone)(rng, &damaged);
        }
        1 => {
            let length = rng.below(input.bytes.len() as u64 + 1);
            input.bytes.truncate(length as usize);
        }
        _ => input.bytes = noisy(rng, 16).bytes(),
    }
    input
}
