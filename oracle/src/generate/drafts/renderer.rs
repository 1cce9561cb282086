//! Drafts of renderer parameters.
use super::Draft;
use super::metadata::{of_kind, write_default_payload, write_resource};
use super::positions::write_position;
use crate::bits::Bits;
use crate::request::Shape;
use crate::rng::Rng;

/// The kinds with a meaning of their own; every other is a payload of bytes.
pub const KINDS: u64 = 25;

/// The kinds that have counts or types within.
const EXCLUSION: u64 = 7;
const REVERB: u64 = 9;
const RADIATION: u64 = 11;
const MATRIX: u64 = 22;

/// The widths of the counts of bands and sizes.
const COUNT: [usize; 3] = [3, 6, 9];

/// A renderer parameter of the kind.
pub fn parameter(rng: &mut Rng, kind: u64) -> Bits {
    of_kind(rng, kind, |d| write_fields(d, kind))
}

/// One parameter for each type within the kinds that have types.
pub fn one_of_each_type(rng: &mut Rng) -> Vec<Bits> {
    let mut list = Vec::new();
    for kind in 0..8 {
        list.push(reverb(rng, kind, 0));
        list.push(reverb(rng, kind, 1));
        list.push(radiation(rng, kind));
    }
    for precision in 0..4 {
        for pattern in [0, 1, 2, 3, 4, 31] {
            list.push(of_kind(rng, RADIATION, |d| {
                d.put(3, 3);
                write_pattern_of(d, precision, pattern);
            }));
        }
    }
    list.extend((0..4).map(|location| matrix_at(rng, location)));
    list.extend([false, true].map(|cartesian| regions(rng, cartesian, &[true, false])));
    list
}

pub fn reverb(rng: &mut Rng, kind: u64, fallback: u64) -> Bits {
    of_kind(rng, REVERB, |d| write_reverb_of(d, kind, fallback))
}

pub fn radiation(rng: &mut Rng, kind: u64) -> Bits {
    of_kind(rng, RADIATION, |d| write_radiation_of(d, kind))
}

pub fn matrix_at(rng: &mut Rng, location: u64) -> Bits {
    of_kind(rng, MATRIX, |d| write_matrix_at(d, location))
}

/// A radiation of one gain at the precision, and its angle.
pub fn gain(rng: &mut Rng, precision: u64) -> Bits {
    of_kind(rng, RADIATION, |d| {
        d.put(3, 3);
        d.put(precision, 2);
        d.put(3, 5);
        d.flag(false);
        d.values(&[8 << precision, 9]);
    })
}

fn write_fields(d: &mut Draft<'_>, kind: u64) {
    match kind {
        0 | 18 | 20 => {
            let parent = d.rng.bits(6);
            write_position(d, &Shape::default(), true, parent)
        }
        1 => write_spread(d),
        2 => d.values(&[7]),
        3 => d.values(&[8]),
        4 => write_if_present(d, 7),
        5 => d.values(&[8, 1, 8]),
        6 | 14 | 21 => d.values(&[1]),
        EXCLUSION => write_exclusion(d),
        8 | 15 => d.values(&[3]),
        REVERB => write_reverb_setting(d),
        10 => {
            if d.any(3) == 1 {
                write_if_present(d, 7);
            }
        }
        RADIATION => write_radiation(d),
        12 => {
            d.coin();
            write_if_present(d, 9);
        }
        13 => d.values(&[1, 1, 3]),
        16 => d.values(&[9]),
        17 => write_zone(d),
        19 => {
            if !d.coin() {
                d.any(4);
            }
            d.any(8);
        }
        MATRIX => write_matrix(d),
        23 => d.values(&[16]),
        24 => {
            if d.any(2) != 0 {
                write_if_present(d, 16);
            }
        }
        _ => write_default_payload(d),
    }
}

fn write_if_present(d: &mut Draft<'_>, width: usize) {
    if d.coin() {
        d.any(width);
    }
}

fn write_spread(d: &mut Draft<'_>) {
    if d.coin() {
        let height = d.coin();
        d.values(&[9, 8]);
        if height {
            d.any(6);
        }
        return;
    }
    d.coin();
    let width = 2 * d.any(4) as usize + 6;
    let third = d.coin();
    d.any(4);
    d.values(&[width, width]);
    if third {
        d.any(width);
    }
}

fn write_exclusion(d: &mut Draft<'_>) {
    if !d.maybe(80) || d.maybe(20) {
        return;
    }
    let cartesian = d.rng.percent(50);
    let count = d.rng.pick(&[0, 1, 2, 3, 15]);
    let predefined: Vec<bool> = (0..count).map(|_| d.rng.percent(50)).collect();
    write_regions(d, cartesian, &predefined);
}

/// Regions, each of them a predefined one or not.
fn write_regions(d: &mut Draft<'_>, cartesian: bool, predefined: &[bool]) {
    d.flag(cartesian);
    d.put(predefined.len() as u64, 4);
    for &predefined in predefined {
        if d.flag(predefined) {
            d.any(4);
        } else if cartesian {
            d.values(&[8; 6]);
        } else {
            d.values(&[9, 9, 8, 8]);
        }
    }
}

fn write_zone(d: &mut Draft<'_>) {
    if !d.maybe(80) {
        return;
    }
    if d.maybe(30) {
        d.any(4);
    } else if d.coin() {
        d.values(&[8; 6]);
    } else {
        d.values(&[9, 9, 8, 8, 8, 8]);
    }
}

fn write_reverb_setting(d: &mut Draft<'_>) {
    let kind = if d.slip() {
        d.rng.within(4..=7)
    } else {
        d.rng.below(4)
    };
    let fallback = if d.rng.percent(20) { d.rng.bits(3) } else { 0 };
    write_reverb_of(d, kind, fallback);
}

fn write_reverb_of(d: &mut Draft<'_>, kind: u64, fallback: u64) {
    d.put(kind, 3);
    match kind {
        1 => {
            d.any(10);
            write_reverb(d);
        }
        2 => {
            write_resource(d);
            d.any(10);
            write_reverb(d);
        }
        3 => {
            write_resource(d);
            d.put(fallback, 3);
            d.values(&[32; 32]);
        }
        _ => {}
    }
}

fn write_reverb(d: &mut Draft<'_>) {
    for width in [10, 10, 8, 9, 12] {
        write_if_present(d, width);
    }
    d.coin();
    for _ in 5..8 {
        write_if_present(d, 7);
    }
}

fn write_matrix(d: &mut Draft<'_>) {
    let location = if d.slip() {
        3
    } else {
        d.rng.pick(&[0, 1, 1, 2])
    };
    write_matrix_at(d, location);
}

fn write_matrix_at(d: &mut Draft<'_>, location: u64) {
    d.put(location, 2);
    match location {
        0 | 2 => {
            d.any_esc([1, 3, 8]);
            d.any_esc([1, 3, 8]);
        }
        1 => {
            let order = d.rng.pick(&[0, 0, 1, 2]);
            let channels = d.rng.pick(&[0, 0, 1, 2, 3]);
            let float = d.rng.percent(50);
            write_coefficients(d, order, channels, float);
        }
        _ => {}
    }
}

/// A renderer parameter with a matrix in place.
pub fn matrix(rng: &mut Rng, order: u64, channels: u64, float: bool) -> Bits {
    of_kind(rng, MATRIX, |d| {
        d.put(1, 2);
        write_coefficients(d, order, channels, float);
    })
}

/// The same without the matrix itself.
pub fn matrix_head(rng: &mut Rng, order: u64, channels: u64, float: bool) -> Bits {
    of_kind(rng, MATRIX, |d| {
        d.put(1, 2);
        write_matrix_head(d, order, channels, float);
    })
}

fn write_coefficients(d: &mut Draft<'_>, order: u64, channels: u64, float: bool) {
    write_matrix_head(d, order, channels, float);
    let count = channels * (order + 1) * (order + 1);
    d.payload(count as usize * if float { 32 } else { 16 });
}

/// What stands before a matrix; its layout has a random upper half.
fn write_matrix_head(d: &mut Draft<'_>, order: u64, channels: u64, float: bool) {
    d.put(order, 4);
    d.any(16);
    d.put(channels, 16);
    if !d.flag(float) {
        d.any(32);
    }
}

fn write_radiation(d: &mut Draft<'_>) {
    let kind = if d.slip() {
        d.rng.within(5..=7)
    } else {
        d.rng.below(5)
    };
    write_radiation_of(d, kind);
}

fn write_radiation_of(d: &mut Draft<'_>, kind: u64) {
    d.put(kind, 3);
    match kind {
        1 => drop(d.any(10)),
        2 => {
            write_resource(d);
            d.any(10);
        }
        3 => write_pattern(d),
        4 => write_some_sizes(d),
        _ => {}
    }
}

fn write_pattern(d: &mut Draft<'_>) {
    let precision = d.rng.pick(&[0, 0, 1, 1, 2, 2, 3]);
    let pattern = d.rng.pick(&[0, 1, 1, 2, 2, 3, 3, 4, 31]);
    write_pattern_of(d, precision, pattern);
}

fn write_pattern_of(d: &mut Draft<'_>, precision: u64, pattern: u64) {
    let width = 8 << precision;
    d.put(precision, 2);
    d.put(pattern, 5);
    match pattern {
        0 => {}
        1 | 2 => {
            let bands = d.rng.pick(&[1, 1, 2, 3, 8, 9]);
            d.esc(bands - 1, COUNT);
            for _ in 0..bands {
                write_band(d, pattern, width);
            }
        }
        3 => {
            if !d.coin() {
                d.values(&[width, 9]);
            }
        }
        _ => write_default_payload(d),
    }
}

fn write_band(d: &mut Draft<'_>, pattern: u64, width: usize) {
    let unity = d.coin();
    d.any_esc([10, 13, 17]);
    if unity {
        return;
    }
    if pattern == 2 {
        d.values(&[9, 9, width]);
    } else if d.coin() {
        d.values(&[3, 8]);
    } else {
        d.values(&[width, width]);
    }
}

fn write_some_sizes(d: &mut Draft<'_>) {
    let count = d.rng.pick(&[1, 1, 2, 3, 8]);
    let sizes: Vec<u64> = (0..count).map(|_| d.rng.pick(&[1, 1, 2, 3, 64])).collect();
    write_sizes(d, &sizes);
}

fn write_sizes(d: &mut Draft<'_>, sizes: &[u64]) {
    d.esc(sizes.len() as u64 - 1, COUNT);
    for size in sizes {
        d.esc(size - 1, [6, 9, 12]);
    }
    d.payload(32 * sizes.iter().sum::<u64>() as usize);
}

/// A radiation of so many bands of the fewest bits.
pub fn bands(rng: &mut Rng, count: u64) -> Bits {
    of_kind(rng, RADIATION, |d| {
        d.put(3, 3);
        d.put(0, 2);
        d.put(1, 5);
        d.esc(count - 1, COUNT);
        for _ in 0..count {
            d.flag(true);
            d.put(0, 10);
        }
    })
}

/// A radiation with coefficients of these sizes.
pub fn sizes(rng: &mut Rng, sizes: &[u64]) -> Bits {
    of_kind(rng, RADIATION, |d| {
        d.put(4, 3);
        write_sizes(d, sizes);
    })
}

/// An exclusion of regions, each of them a predefined one or not.
pub fn regions(rng: &mut Rng, cartesian: bool, predefined: &[bool]) -> Bits {
    of_kind(rng, EXCLUSION, |d| {
        d.put(0b10, 2);
        write_regions(d, cartesian, predefined);
    })
}
