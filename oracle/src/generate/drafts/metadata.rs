//! Drafts of metadata configurations.
use super::positions::write_position;
use super::{Draft, compression, drafted, renderer};
use crate::bits::Bits;
use crate::generate::variants::Good;
use crate::request::{Question, Shape};
use crate::rng::Rng;

/// The widths of most escaped numbers, and of lengths in bytes.
pub const ESC: [usize; 3] = [4, 7, 10];
pub const LONG: [usize; 3] = [4, 8, 16];

/// The greatest number that `ESC` can carry.
const GREATEST: u64 = 15 + 127 + 1023;

/// The global kinds with a meaning of their own; every other is a payload of bytes.
pub const KINDS: u64 = 16;
const HRTF: u64 = 7;
const LAYOUT: u64 = 9;
const HEADPHONES: u64 = 15;

/// The parts of a metadata configuration, each drafted for itself.
#[derive(Default)]
pub struct Metadata {
    pub compression: Option<Bits>,
    pub parameters: Option<Vec<Bits>>,
    pub groups: Vec<Bits>,
}

impl Metadata {
    pub fn bits(&self, rng: &mut Rng) -> Bits {
        drafted(rng, |d| {
            write_optional(d, self.compression.as_ref());
            d.flag(true);
            if d.flag(self.parameters.is_some()) {
                write_counted(d, self.parameters.iter().flatten());
            }
            write_counted(d, self.groups.iter());
        })
    }

    pub fn good(&self, rng: &mut Rng) -> Good {
        Good {
            question: Question::Metadata,
            bits: self.bits(rng),
        }
    }

    pub fn with_parameters(parameters: Vec<Bits>) -> Self {
        Self {
            parameters: Some(parameters),
            ..Self::default()
        }
    }

    pub fn with_compression(section: Bits) -> Self {
        Self {
            compression: Some(section),
            ..Self::default()
        }
    }

    pub fn with_groups(groups: Vec<Bits>) -> Self {
        Self {
            groups,
            ..Self::default()
        }
    }

    /// One group that holds nothing but these renderer parameters.
    pub fn with_renderer(rng: &mut Rng, parameters: &[Bits]) -> Self {
        let group = drafted(rng, |d| {
            d.any_esc(ESC);
            d.flag(true);
            d.flag(true);
            write_counted(d, parameters.iter());
        });
        Self::with_groups(vec![group])
    }
}

fn write_optional(d: &mut Draft<'_>, part: Option<&Bits>) {
    if d.flag(part.is_some()) {
        part.into_iter().for_each(|bits| d.append(bits));
    }
}

/// An escaped count and its members.
fn write_counted<'a>(d: &mut Draft<'_>, members: impl Iterator<Item = &'a Bits>) {
    let members: Vec<&Bits> = members.collect();
    d.esc(members.len() as u64, ESC);
    members.into_iter().for_each(|bits| d.append(bits));
}

/// A configuration of a few parts of all kinds.
pub fn some(rng: &mut Rng) -> Good {
    let kind = rng.below(8);
    let compression = rng.percent(25).then(|| compression::section(rng, kind));
    let count = rng.below(4);
    let parameters = rng.percent(70).then(|| some_parameters(rng, count));
    let count = rng.pick(&[0, 0, 1, 1, 2, 3]);
    let groups = (0..count).map(|_| group(rng)).collect();
    let metadata = Metadata {
        compression,
        parameters,
        groups,
    };
    metadata.good(rng)
}

fn some_parameters(rng: &mut Rng, count: u64) -> Vec<Bits> {
    let some = |_| {
        let kind = some_kind(rng, KINDS);
        parameter(rng, kind)
    };
    (0..count).map(some).collect()
}

/// One of the known kinds, the first unknown one, or any unknown one.
fn some_kind(rng: &mut Rng, known: u64) -> u64 {
    let kind = rng.below(known + 2);
    if kind > known {
        rng.within(known..=GREATEST)
    } else {
        kind
    }
}

/// A group; rarely of a reserved component type.
pub fn group(rng: &mut Rng) -> Bits {
    let count = rng.below(4);
    let kinds: Vec<u64> = (0..count)
        .map(|_| some_kind(rng, renderer::KINDS))
        .collect();
    let parameters: Vec<Bits> = kinds.iter().map(|&k| renderer::parameter(rng, k)).collect();
    drafted(rng, |d| {
        d.any_esc(ESC);
        if !d.maybe(40) {
            write_members(d);
        }
        if d.maybe(70) {
            write_counted(d, parameters.iter());
        }
    })
}

/// A group of the fewest bits.
pub fn least_group() -> Bits {
    let mut bits = Bits::default();
    bits.put(0b01_0110, 6);
    bits
}

/// A group of so many channels of the fewest bits, and nothing after them.
pub fn channel_group(rng: &mut Rng, channels: u64) -> Bits {
    drafted(rng, |d| {
        d.any_esc(ESC);
        d.put(0b00, 2);
        d.esc(channels - 1, ESC);
        d.flag(false);
        for _ in 0..channels {
            d.esc(7, ESC);
        }
    })
}

/// A group of the most channels, one after the other.
pub fn contiguous_group(rng: &mut Rng) -> Bits {
    drafted(rng, |d| {
        d.any_esc(ESC);
        d.put(0b00, 2);
        d.esc(GREATEST, ESC);
        d.flag(true);
        d.any_esc(ESC);
        d.flag(false);
    })
}

fn write_members(d: &mut Draft<'_>) {
    if d.coin() {
        d.any_esc(ESC);
        write_component(d);
        return;
    }
    let channels = d.rng.pick(&[1, 1, 2, 3, 15, 16, 17]);
    d.esc(channels - 1, ESC);
    if d.coin() {
        d.any_esc(ESC);
        return;
    }
    for _ in 0..channels {
        d.any_esc(ESC);
    }
}

fn write_component(d: &mut Draft<'_>) {
    let kind = if d.slip() {
        d.rng.within(5..=7)
    } else {
        d.rng.below(5)
    };
    write_component_of(d, kind);
}

/// A group that refers to a component of the type.
pub fn component_group(rng: &mut Rng, kind: u64) -> Bits {
    drafted(rng, |d| {
        d.any_esc(ESC);
        d.put(0b01, 2);
        d.any_esc(ESC);
        write_component_of(d, kind);
        d.flag(false);
    })
}

fn write_component_of(d: &mut Draft<'_>, kind: u64) {
    d.put(kind, 3);
    match kind {
        0 | 2 | 3 => drop(d.any_esc(ESC)),
        1 | 4 => {
            d.any_esc(ESC);
            if d.coin() {
                d.any_esc(ESC);
            }
        }
        _ => {}
    }
}

/// A parameter, global or of a renderer: its kind and what follows.
pub fn of_kind(rng: &mut Rng, kind: u64, write: impl FnOnce(&mut Draft<'_>)) -> Bits {
    drafted(rng, |d| {
        d.esc(kind, ESC);
        write(d);
    })
}

/// A global parameter of the kind.
pub fn parameter(rng: &mut Rng, kind: u64) -> Bits {
    of_kind(rng, kind, |d| write_fields(d, kind))
}

fn write_fields(d: &mut Draft<'_>, kind: u64) {
    match kind {
        0..=2 => d.values(&[1]),
        3 => d.values(&[5]),
        4 => d.values(&[3, 8, 8, 8, 3, 8, 8, 8]),
        5 => write_listener(d),
        6 => write_items(d),
        HRTF => write_hrtf(d),
        8 => write_resource(d),
        LAYOUT => {
            let length = d.rng.pick(&[0, 0, 1, 2, 5, 12]);
            let speakers = d.rng.pick(&[0, 1, 2, 3]);
            write_layout(d, length, speakers);
        }
        10 => d.values(&[3, 32, 32, 32, 1]),
        11 => {
            let parent = d.rng.bits(6);
            write_position(d, &Shape::default(), true, parent)
        }
        12 => {
            if d.coin() {
                d.any_esc([3, 6, 10]);
            } else {
                write_resource(d);
                d.any_esc([3, 6, 10]);
                d.any_esc(LONG);
            }
        }
        13 => d.values(&[6]),
        14 => d.values(&[4, 8]),
        HEADPHONES => write_some_headphones(d),
        _ => write_default_payload(d),
    }
}

fn write_listener(d: &mut Draft<'_>) {
    d.any(8);
    if !d.coin() {
        d.any(4);
    }
    if d.coin() {
        d.values(&[8, 8, 8, 7])
    } else {
        d.values(&[9, 8, 7, 8])
    }
}

fn write_items(d: &mut Draft<'_>) {
    d.values(&[2, 2, 3]);
    for _ in 0..9 {
        if !d.coin() {
            d.values(&[7; 5]);
        }
    }
    let bits = d.any(7) as usize + 1;
    d.payload(bits);
}

fn write_hrtf(d: &mut Draft<'_>) {
    let kind = if d.rng.percent(30) {
        d.rng.within(2..=7)
    } else {
        d.rng.below(2)
    };
    write_hrtf_of(d, kind);
}

/// A global parameter that declares an HRTF of the type.
pub fn hrtf(rng: &mut Rng, kind: u64) -> Bits {
    of_kind(rng, HRTF, |d| write_hrtf_of(d, kind))
}

fn write_hrtf_of(d: &mut Draft<'_>, kind: u64) {
    if d.coin() {
        d.any(32);
    }
    d.put(kind, 3);
    match kind {
        1 => drop(d.any(8)),
        2 => {
            write_resource(d);
            d.any(3);
        }
        _ => {}
    }
}

pub fn write_resource(d: &mut Draft<'_>) {
    d.any(2);
    d.any_esc([1, 3, 8]);
    d.any_esc([1, 3, 8]);
}

/// A global parameter with a label of so many non-zero bytes, and speakers.
pub fn layout(rng: &mut Rng, length: usize, speakers: u64) -> Bits {
    of_kind(rng, LAYOUT, |d| write_layout(d, length, speakers))
}

fn write_layout(d: &mut Draft<'_>, length: usize, speakers: u64) {
    write_resource(d);
    write_label(d, length);
    d.put(0, 8);
    d.any(4);
    d.put(speakers, 8);
    for _ in 0..speakers {
        d.values(&[4, 9, 8]);
        if !d.coin() {
            d.any(4);
        }
        d.values(&[7, 3]);
    }
}

/// Non-zero bytes, without the zero that ends them.
pub fn write_label(d: &mut Draft<'_>, length: usize) {
    for _ in 0..length {
        let byte = d.rng.within(1..=255);
        d.put(byte, 8);
    }
}

fn write_some_headphones(d: &mut Draft<'_>) {
    let bytes = d.rng.within(2..=16);
    let most = (8 * bytes - 8) / 3;
    let channels = if d.slip() {
        most + 1
    } else {
        d.rng.within(1..=most)
    };
    write_headphones(d, bytes, channels);
}

/// A global parameter of so many headphone bytes and channels.
pub fn headphones(rng: &mut Rng, bytes: u64, channels: u64) -> Bits {
    of_kind(rng, HEADPHONES, |d| write_headphones(d, bytes, channels))
}

fn write_headphones(d: &mut Draft<'_>, bytes: u64, channels: u64) {
    d.put(bytes - 1, 4);
    d.put(channels - 1, 8);
    d.payload((8 * bytes as usize - 8).max(3 * channels as usize));
}

pub fn write_default_payload(d: &mut Draft<'_>) {
    let bytes = d.rng.pick(&[1, 1, 2, 3, 16, 17]);
    d.esc(bytes - 1, LONG);
    d.payload(8 * bytes as usize);
}
