//! Metadata configurations.
use crate::writer::{BYTES, ESC, Writer};

/// The widths of the escaped numbers of a compression's tables.
const COUNT: [usize; 3] = [3, 8, 16];
const WIDTH: [usize; 3] = [5, 8, 16];

/// Compressions by tables of values.
const TABLES: u64 = 1;

/// A kind of global parameter that is a payload of bytes, the most bytes of one, and of them those
/// that are left to what comes before the payload.
const PAYLOAD: u64 = 16;
const MAX_PARAMETER: usize = 65_536;
const HEADER: usize = 8;

/// No compression, no parameters, no groups.
pub fn least() -> Vec<u8> {
    let mut writer = Writer::default();
    write_presence(&mut writer, false);
    write_groups(&mut writer, 0, |_| {});
    writer.into_bytes()
}

/// Parameters that are large payloads, in so many bytes.
pub fn payloads(bytes: usize) -> Vec<u8> {
    let count = bytes.div_ceil(MAX_PARAMETER);
    let payload = bytes / count - HEADER;
    let mut writer = Writer::default();
    write_presence(&mut writer, true);
    writer.esc(count as u64, ESC);
    for _ in 0..count {
        writer.esc(PAYLOAD, ESC);
        writer.esc(payload as u64 - 1, BYTES);
        writer.payload(8 * payload);
    }
    write_groups(&mut writer, 0, |_| {});
    let mut input = writer.into_bytes();
    input.resize(bytes, 0);
    input
}

/// So many fields in so many groups of channels: four, and for each group six and the indices of its
/// channels.
pub fn channels(fields: usize, groups: usize) -> Vec<u8> {
    let channels = (fields - 4) / groups - 6;
    let mut writer = Writer::default();
    write_presence(&mut writer, false);
    write_groups(&mut writer, groups, |writer| {
        writer.esc(1, ESC);
        writer.put(0b00, 2);
        writer.esc(channels as u64 - 1, ESC);
        writer.flag(false);
        (0..channels).for_each(|_| writer.any_esc(ESC));
        writer.flag(false);
    });
    writer.into_bytes()
}

/// Tables with as many values as can be recorded, of one bit or in binary32: 16,384 fields.
pub fn tables(precision: usize) -> Vec<u8> {
    let mut writer = Writer::default();
    write_compression(&mut writer, &[12, 12, 12, 11, 10, 9, 8, 7, 6, 5], precision);
    writer.put(0b11, 2);
    writer.esc(1, ESC);
    writer.esc(14, ESC);
    writer.any(&[4, 8]);
    write_groups(&mut writer, 0, |_| {});
    writer.into_bytes()
}

/// A compression, a parameter of each kind that is common, and three groups with renderer data.
pub fn typical() -> Vec<u8> {
    let mut writer = Writer::default();
    write_compression(&mut writer, &[4, 4], 8);
    writer.put(0b11, 2);
    writer.esc(5, ESC);
    for (kind, widths) in [
        (3, &[5][..]),
        (4, &[3, 8, 8, 8, 3, 8, 8, 8]),
        (10, &[3, 32, 32, 32, 1]),
        (14, &[4, 8]),
    ] {
        writer.esc(kind, ESC);
        writer.any(widths);
    }
    write_layout(&mut writer, b"5.1.4 listening room", 10);
    write_groups(&mut writer, 3, write_group);
    writer.into_bytes()
}

/// Whether there is a compression (no), a configuration (yes), and whether there are parameters.
fn write_presence(writer: &mut Writer, parameters: bool) {
    writer.put(0b01, 2);
    writer.flag(parameters);
}

fn write_groups(writer: &mut Writer, count: usize, write: impl Fn(&mut Writer)) {
    writer.esc(count as u64, ESC);
    (0..count).for_each(|_| write(writer));
}

/// A compression by tables of these symbol widths, each of probabilities at the precision.
fn write_compression(writer: &mut Writer, widths: &[u64], precision: usize) {
    let mut window = Writer::default();
    window.esc(widths.len() as u64 - 1, COUNT);
    for &width in widths {
        window.esc(width - 1, WIDTH);
        window.put(precision as u64 - 1, 5);
        for _ in 0..1 << width {
            window.put(probability(width, precision), precision);
        }
    }
    window.flag(false);
    let window = window.into_bits();
    writer.flag(true);
    writer.put(TABLES, 3);
    writer.esc(window.len().div_ceil(8) as u64, BYTES);
    writer.append(&window);
    writer.put(0, window.spare());
}

/// One of 2^width probabilities that are all the same; they add up to 1 in binary32, else to more
/// than 0.
fn probability(width: u64, precision: usize) -> u64 {
    match precision {
        32 => (1.0 / (1 << width) as f32).to_bits().into(),
        _ => 1,
    }
}

/// A parameter of kind 9: a resource, a label, speakers.
fn write_layout(writer: &mut Writer, label: &[u8], speakers: u64) {
    writer.esc(9, ESC);
    writer.put(0, 2 + 1 + 1);
    label.iter().for_each(|&byte| writer.put(byte.into(), 8));
    writer.put(0, 8);
    writer.any(&[4]);
    writer.put(speakers, 8);
    for _ in 0..speakers {
        writer.any(&[4, 9, 8]);
        writer.flag(true);
        writer.any(&[7, 3]);
    }
}

/// A group of four channels with renderer data: a position, a spread, a gain, regions, reverb,
/// radiation.
fn write_group(writer: &mut Writer) {
    writer.esc(1, ESC);
    writer.put(0b00, 2);
    writer.esc(3, ESC);
    writer.flag(false);
    (0..4).for_each(|channel| writer.esc(channel, ESC));
    writer.flag(true);
    writer.esc(6, ESC);
    write_position(writer);
    write_spread(writer);
    writer.esc(3, ESC);
    writer.any(&[8]);
    write_regions(writer);
    write_reverb(writer);
    write_radiation(writer);
}

/// Kind 0: precisions of 12 and 8 bits, cartesian, rotated, no extensions.
fn write_position(writer: &mut Writer) {
    writer.esc(0, ESC);
    writer.put(0b00_0110_0100, 10);
    writer.flag(true);
    writer.any(&[4]);
    writer.put(0b10, 2);
    writer.any(&[18; 3]);
    writer.flag(true);
    writer.any(&[16; 4]);
    writer.flag(false);
}

/// Kind 1: three dimensions at a precision of 12 bits.
fn write_spread(writer: &mut Writer) {
    writer.esc(1, ESC);
    writer.put(0b00, 2);
    writer.put(3, 4);
    writer.flag(true);
    writer.any(&[4, 12, 12, 12]);
}

/// Kind 7: three cartesian regions.
fn write_regions(writer: &mut Writer) {
    writer.esc(7, ESC);
    writer.put(0b101, 3);
    writer.put(3, 4);
    for _ in 0..3 {
        writer.flag(false);
        writer.any(&[8; 6]);
    }
}

/// Kind 9: a reverb by its index, with all its parameters.
fn write_reverb(writer: &mut Writer) {
    writer.esc(9, ESC);
    writer.put(1, 3);
    writer.any(&[10]);
    for width in [10, 10, 8, 9, 12] {
        writer.flag(true);
        writer.any(&[width]);
    }
    writer.flag(false);
    for _ in 0..3 {
        writer.flag(true);
        writer.any(&[7]);
    }
}

/// Kind 11: a radiation of four bands with gains of 16 bits.
fn write_radiation(writer: &mut Writer) {
    writer.esc(11, ESC);
    writer.put(3, 3);
    writer.put(1, 2);
    writer.put(2, 5);
    writer.esc(3, [3, 6, 9]);
    for _ in 0..4 {
        writer.flag(false);
        writer.esc(500, [10, 13, 17]);
        writer.any(&[9, 9, 16]);
    }
}
