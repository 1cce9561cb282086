//! Show files: random scenes followed by updates of their shapes.
use crate::bits::Bits;
use crate::generate::batch::Batch;
use crate::generate::drafts::noisy;
use crate::generate::drafts::packets::{Form, changed, scene_of_some, some_packets};
use crate::generate::drafts::positions::{scene, update};
use crate::generate::fixed::shows::{File, Packet, file, with_offset};
use crate::generate::variants::{Drafted, Good};
use crate::request::{Input, Question};
use crate::rng::Rng;
use crate::show::{GREATEST_PARTS, header_length, read_part};

/// How many random shows are asked for: of few parts, of many parts, of many positions.
const ROUNDS: usize = 4_000;
const LONG_ROUNDS: usize = 100;
const WIDE_ROUNDS: usize = 150;

/// The most updates of a show of few parts.
const FEW: u64 = 12;

/// The most bytes of a short show.
const SHORT: usize = 400;

/// In so many of a hundred good scenes and updates more may follow their end than zeros up to the next
/// byte. If it does, after a scene nothing is asked.
const LONGER_SCENES: u64 = 8;
const LONGER_UPDATES: u64 = 30;

/// The most bits that follow, beside those to the end of their last byte.
const BITS_MORE: u64 = 20;

/// Parts begin at their first bit, and zeros fill their last byte.
const PARTS: Form = Form {
    alone: |_, good| in_bytes(&good.bits),
    longer,
    read: |question, part| read_part(question, &part.bytes),
};

pub fn shows(batch: &mut Batch<'_>) {
    let most = GREATEST_PARTS as u64 - 1;
    for (rounds, draft, updates) in [
        (ROUNDS, scene as Drafted, 0..=FEW),
        (LONG_ROUNDS, |rng| scene_of_some(rng, 1..=8), FEW + 1..=most),
        (WIDE_ROUNDS, |rng| scene_of_some(rng, 13..=63), 0..=FEW),
    ] {
        for _ in 0..rounds {
            let updates = batch.rng.within(updates.clone());
            let show = some_show(batch.rng, draft, updates);
            batch.show(show);
        }
    }
}

pub fn short_show(rng: &mut Rng) -> File {
    loop {
        let updates = rng.within(0..=6);
        let show = some_show(rng, scene, updates);
        if show.len() <= SHORT {
            return show;
        }
    }
}

/// A scene and so many updates, now and then damaged as a file.
fn some_show(rng: &mut Rng, draft: Drafted, updates: u64) -> File {
    let scene = draft(rng);
    let packets = some_packets(rng, &scene, updates, &PARTS);
    let parts: Vec<Packet> = packets.into_iter().map(|packet| packet.bytes).collect();
    let file = file(&parts);
    if rng.percent(12) {
        damaged(rng, file, parts.len())
    } else {
        file
    }
}

fn in_bytes(bits: &Bits) -> Input {
    Input::from(bits.bytes().as_slice())
}

/// The good bits, now and then followed by zeros, a 1 among them, random bits up to the end of the byte,
/// or another packet, right after them or in the next byte.
fn longer(rng: &mut Rng, good: &Good) -> Input {
    let often = match good.question {
        Question::Scene => LONGER_SCENES,
        _ => LONGER_UPDATES,
    };
    let mut bits = good.bits.clone();
    if rng.percent(often) {
        match rng.below(4) {
            0 => bits.put(0, rng.within(1..=BITS_MORE) as usize),
            1 => {
                let more = rng.within(1..=BITS_MORE);
                bits.put(1 << rng.below(more), more as usize);
            }
            2 => (0..bits.spare()).for_each(|_| bits.push(rng.percent(50))),
            _ => {
                let between = if rng.percent(50) { bits.spare() } else { 0 };
                bits.put(0, between);
                bits.append(&another(rng, &good.question).bits);
            }
        }
    }
    in_bytes(&bits)
}

/// An update of the same shapes, or after a scene any.
fn another(rng: &mut Rng, question: &Question) -> Good {
    match question {
        Question::Update(shapes) => changed(rng, shapes),
        _ => update(rng),
    }
}

/// A file of so many parts with another byte, another offset, another length.
fn damaged(rng: &mut Rng, mut file: File, parts: usize) -> File {
    let length = file.len() as u64;
    match rng.below(5) {
        0 => file[rng.below(length) as usize] = rng.bits(8) as u8,
        1 => file[rng.below(header_length(parts) as u64) as usize] = rng.bits(8) as u8,
        2 => file.truncate(rng.below(length) as usize),
        3 => file.extend(noisy(rng, 9).bytes()),
        _ => {
            let part = rng.below(parts as u64) as usize;
            file = with_offset(&file, part, rng.below(length + 2) as usize);
        }
    }
    file
}
