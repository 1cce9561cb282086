//! Drafts of compression configurations.
use super::metadata::LONG;
use super::{Draft, drafted};
use crate::bits::Bits;
use crate::rng::Rng;

/// Widths of the escaped numbers of the window.
const SMALL: [usize; 3] = [3, 8, 16];
const WIDTH: [usize; 3] = [5, 8, 16];

/// The greatest symbol width.
const SYMBOL_WIDTH: u64 = 12;

/// The precision at which values are binary32.
const BINARY32: u64 = 32;
const ONE: u32 = 0x3f80_0000;
const TINY: u32 = 0x3380_0000;

/// A compression section of the kind: type, bytes, window.
pub fn section(rng: &mut Rng, kind: u64) -> Bits {
    drafted(rng, |d| {
        let window = drafted(d.rng, |d| match kind {
            0 => lzw(d),
            1..=3 => tables(d, kind),
            _ => write_bytes(d),
        });
        write_section(d, kind, &window);
    })
}

/// A section around a given window; rarely the number of bytes is wrong.
fn write_section(d: &mut Draft<'_>, kind: u64, window: &Bits) {
    let bytes = window.len().div_ceil(8) as u64;
    let declared = if d.slip() {
        d.rng.pick(&[bytes + 1, bytes.saturating_sub(1), 0, 70_000])
    } else {
        bytes
    };
    write_declared(d, kind, declared, window);
}

fn write_declared(d: &mut Draft<'_>, kind: u64, bytes: u64, window: &Bits) {
    d.put(kind, 3);
    d.esc(bytes, LONG);
    d.append(window);
    d.payload(window.spare());
}

/// A section with exactly this window.
pub fn exact(rng: &mut Rng, kind: u64, write: impl FnOnce(&mut Draft<'_>)) -> Bits {
    drafted(rng, |d| {
        let window = drafted(d.rng, write);
        write_declared(d, kind, window.len().div_ceil(8) as u64, &window);
    })
}

fn write_bytes(d: &mut Draft<'_>) {
    let bytes = d.rng.pick(&[0, 1, 2, 5, 20]);
    d.payload(8 * bytes);
}

/// An LZW window, mostly of widths within the limits.
fn lzw(d: &mut Draft<'_>) {
    let initial = if d.rng.percent(20) {
        d.rng.pick(&[15, 16, 30, 31, 40, 300])
    } else {
        d.rng.within(1..=15)
    };
    let room = 16_u64.saturating_sub(initial);
    let delta = if d.rng.percent(20) {
        d.rng.pick(&[room + 1, 6, 7, 8, 261, 262])
    } else {
        d.rng.within(0..=room)
    };
    lzw_window(d, initial, delta);
}

pub fn lzw_window(d: &mut Draft<'_>, initial: u64, delta: u64) {
    d.esc(initial - 1, WIDTH);
    d.esc(delta, SMALL);
}

fn tables(d: &mut Draft<'_>, kind: u64) {
    let count = d.rng.pick(&[1, 1, 1, 2, 3, 9]);
    d.esc(count - 1, SMALL);
    for _ in 0..count {
        let width = d.rng.pick(&[1, 1, 1, 2, 2, 3]);
        let width = if d.slip() { SYMBOL_WIDTH + 1 } else { width };
        match kind {
            3 => code_table(d, width),
            _ => value_table(d, width),
        }
    }
    if kind != 3 {
        write_parameter(d);
    }
}

/// Perhaps a parameter, mostly a finite one.
fn write_parameter(d: &mut Draft<'_>) {
    if d.coin() {
        let exponent = if d.slip() { 0xff } else { d.rng.below(0xff) };
        d.any(1);
        d.put(exponent, 8);
        d.any(23);
    }
}

/// The number of entries; nothing is read of a table that is too wide.
fn write_symbol_width(d: &mut Draft<'_>, width: u64) -> usize {
    d.esc(width - 1, WIDTH);
    if width > SYMBOL_WIDTH { 2 } else { 1 << width }
}

fn code_table(d: &mut Draft<'_>, width: u64) {
    for _ in 0..write_symbol_width(d, width) {
        let bits = d.rng.pick(&[1, 1, 2, 3, 8, 31, 32, 33, 64]);
        let bits = if d.slip() { 65 } else { bits };
        write_code(d, bits);
    }
}

fn write_code(d: &mut Draft<'_>, bits: u64) {
    d.esc(bits - 1, WIDTH);
    d.payload(bits as usize);
}

/// Symbol width, precision and values.
fn value_table(d: &mut Draft<'_>, width: u64) {
    let entries = write_symbol_width(d, width);
    let precisions = [1, 2, 5, 8, 16, 31, BINARY32, BINARY32, BINARY32];
    let precision = d.rng.pick(&precisions);
    d.put(precision - 1, 5);
    match precision {
        BINARY32 => probabilities(d, entries),
        _ => whole_numbers(d, entries, precision as usize),
    }
}

/// Random values, or zeros with a single 1 among them, or zeros only.
fn whole_numbers(d: &mut Draft<'_>, entries: usize, precision: usize) {
    if d.rng.percent(90) {
        d.values(&vec![precision; entries]);
        return;
    }
    let lone = d.rng.below(entries as u64 + 1) as usize;
    for i in 0..entries {
        d.put((i == lone).into(), precision);
    }
}

/// Values that mostly add up to exactly 1.
fn probabilities(d: &mut Draft<'_>, entries: usize) {
    let mut values = match d.rng.below(10) {
        0 => absorbed(entries),
        1 => absorbed(entries).into_iter().rev().collect(),
        2 => (0..entries).map(|_| d.rng.bits(32) as u32).collect(),
        _ => split(d.rng, entries),
    };
    let one = d.rng.below(entries as u64) as usize;
    match d.rng.below(20) {
        0 => values[one] = d.rng.pick(&[0x7f80_0000, 0x7fc0_0000, 0xff80_0000]),
        1 => values[one] = d.rng.pick(&[0x8000_0000, 0x8000_0001, 1, 0xbf80_0000]),
        2 => values[one] ^= 1,
        _ => {}
    }
    for value in values {
        d.put(value.into(), 32);
    }
}

/// 1, and then values too small to move it.
fn absorbed(entries: usize) -> Vec<u32> {
    (0..entries)
        .map(|i| if i == 0 { ONE } else { TINY })
        .collect()
}

/// Multiples of 2⁻²⁴ whose partial sums are exact and end at 1; zeros have either sign.
fn split(rng: &mut Rng, entries: usize) -> Vec<u32> {
    let mut left: u32 = 1 << 24;
    let mut values = Vec::new();
    for i in 0..entries {
        let part = if i + 1 == entries {
            left
        } else {
            rng.below(u64::from(left) + 1) as u32
        };
        left -= part;
        let value = part as f32 / (1 << 24) as f32;
        let signed = if part == 0 && rng.percent(30) {
            -value
        } else {
            value
        };
        values.push(signed.to_bits());
    }
    values
}

/// One table of binary32 values without a parameter, as in document 01's examples.
pub fn probability_window(d: &mut Draft<'_>, values: &[u32]) {
    value_window(d, BINARY32, values);
    d.flag(false);
}

/// One table of these values at the precision; the flag of the parameter is still to come.
pub fn value_window(d: &mut Draft<'_>, precision: u64, values: &[u32]) {
    d.esc(0, SMALL);
    d.esc(u64::from(values.len().ilog2()) - 1, WIDTH);
    d.put(precision - 1, 5);
    for &value in values {
        d.put(value.into(), precision as usize);
    }
}

/// A table without values of its own to speak of, and this parameter.
pub fn parameter_window(d: &mut Draft<'_>, parameter: u32) {
    value_window(d, 1, &[0, 1]);
    d.flag(true);
    d.put(parameter.into(), 32);
}

/// A declared number of tables, and zeros up to so many bytes.
pub fn zero_window(d: &mut Draft<'_>, tables: u64, bytes: usize) {
    let count = drafted(d.rng, |d| d.esc(tables - 1, SMALL));
    d.append(&count);
    for _ in count.len()..8 * bytes {
        d.flag(false);
    }
}

/// One-bit values, all ones: a table of each symbol width, with no parameter.
pub fn flat_window(d: &mut Draft<'_>, widths: &[u64]) {
    d.esc(widths.len() as u64 - 1, SMALL);
    for &width in widths {
        let entries = write_symbol_width(d, width);
        d.put(0, 5);
        (0..entries).for_each(|_| d.put(1, 1));
    }
    d.flag(false);
}

/// Tables of codes: the first code of each of the given length, the others of one bit.
pub fn code_window(d: &mut Draft<'_>, widths: &[u64], first: u64) {
    d.esc(widths.len() as u64 - 1, SMALL);
    for &width in widths {
        let entries = write_symbol_width(d, width);
        write_code(d, first);
        (1..entries).for_each(|_| write_code(d, 1));
    }
}
