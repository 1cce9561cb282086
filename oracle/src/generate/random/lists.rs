//! Lists: a scene and up to 200 packets that update its shapes, one after the other.
use crate::driver::read;
use crate::generate::batch::{Batch, Record};
use crate::generate::drafts::noisy;
use crate::generate::drafts::packets::{Form, scene_of_some, some_packets};
use crate::generate::fixed::lists::{MOST, enough, listed};
use crate::generate::variants::Good;
use crate::request::{Input, List};
use crate::rng::Rng;
use std::ops::RangeInclusive;

/// The most updates of a short list.
const FEW: u64 = 12;

/// How many random lists are asked for, of how many positions and with how many updates.
const ROUNDS: [(usize, RangeInclusive<u64>, RangeInclusive<u64>); 7] = [
    (100, 0..=0, 0..=FEW),
    (400, 1..=1, 0..=FEW),
    (2_000, 2..=12, 0..=FEW),
    (150, 13..=62, 0..=FEW),
    (50, 63..=63, 0..=FEW),
    (60, 1..=8, FEW + 1..=MOST),
    (20, 2..=63, MOST..=MOST),
];

/// Packets that begin and end within a byte, with any bits before and after them.
const PACKETS: Form = Form {
    alone,
    longer,
    read: |question, packet| read(question, packet.clone()),
};

pub fn lists(batch: &mut Batch<'_>) {
    for (rounds, positions, updates) in ROUNDS {
        for _ in 0..rounds {
            let scene = scene_of_some(batch.rng, positions.clone());
            let updates = batch.rng.within(updates.clone());
            let packets = some_packets(batch.rng, &scene, updates, &PACKETS);
            let list = listed(packets);
            let record = some_record(batch.rng, &list);
            batch.list(list, record);
        }
    }
}

fn alone(rng: &mut Rng, good: &Good) -> Input {
    let lead = some_lead(rng);
    good.input(rng, lead)
}

/// Now and then with more bytes.
fn longer(rng: &mut Rng, good: &Good) -> Input {
    let mut input = alone(rng, good);
    if rng.percent(15) {
        input.bytes.extend(noisy(rng, 4).bytes());
    }
    input
}

/// Mostly inside the first byte, now and then far from it.
fn some_lead(rng: &mut Rng) -> usize {
    let most = rng.pick(&[0, 7, 7, 7, 200]);
    rng.within(0..=most) as usize
}

/// Mostly with all fields or without; else the room is too small for the most fields, or any.
fn some_record(rng: &mut Rng, list: &List) -> Record {
    match rng.below(10) {
        0..=3 => Record::Off,
        4..=7 => Record::Ample,
        8 => Record::Room(enough(list).saturating_sub(rng.within(1..=10) as u32)),
        _ => Record::Room(rng.below(400) as u32),
    }
}
