//! Walks over bytes in reads of 64 bits from bit 1 on: by the library's bit reader, by the plain one that reads bit by bit, and by
//! hand in C. Each gives the sum of what it reads.
use crate::clock::{best, side};
use crate::table::{digits, grouped, holds, print_cells, print_head};
use crate::writer::Writer;
use gateway::MAX_BYTES;
use std::hint::black_box;

const TITLE: &str = "Reading";

const INPUT: &str = "64 bits a read, from bit 1";

const COLUMNS: [&str; 8] = [
    "input",
    "bytes",
    "reads",
    "word reader, µs",
    "plain reader, µs",
    "C, µs",
    "word / plain",
    "word / C",
];

type Walk = unsafe extern "C" fn(bytes: *const u8, bytes_len: usize) -> u64;

unsafe extern "C" {
    fn walk_by_words(bytes: *const u8, bytes_len: usize) -> u64;
    fn walk_by_bits(bytes: *const u8, bytes_len: usize) -> u64;
    fn walk_by_hand(bytes: *const u8, bytes_len: usize) -> u64;
}

const WALKS: [Walk; 3] = [walk_by_words, walk_by_bits, walk_by_hand];

fn sum(walk: Walk, bytes: &[u8]) -> u64 {
    // SAFETY: the pointer is that of a borrow, with its length.
    unsafe { walk(bytes.as_ptr(), bytes.len()) }
}

/// Measures and prints the row if it holds all these words, and gives the number of rows.
pub fn print(words: &[String]) -> usize {
    if !holds(&format!("{TITLE} {INPUT}"), words) {
        return 0;
    }
    print_head(TITLE, &COLUMNS);
    print_cells(&cells(&largest()));
    1
}

fn cells(bytes: &[u8]) -> [String; 8] {
    let [words, bits, hand] = times(bytes);
    [
        INPUT.into(),
        grouped(bytes.len()),
        grouped((8 * bytes.len() - 1) / 64),
        digits(1e6 * words),
        digits(1e6 * bits),
        digits(1e6 * hand),
        digits(words / bits),
        digits(words / hand),
    ]
}

/// Of each walk, in seconds. The sums are held to be the same first.
fn times(bytes: &[u8]) -> [f64; 3] {
    hold_sums(bytes);
    let mut sides = WALKS.map(|walk| side(move || sum(walk, black_box(bytes))));
    let times = best(&mut sides);
    [times[0], times[1], times[2]]
}

fn hold_sums(bytes: &[u8]) {
    let [words, bits, hand] = WALKS.map(|walk| sum(walk, bytes));
    assert_eq!(words, bits, "{} bytes", bytes.len());
    assert_eq!(words, hand, "{} bytes", bytes.len());
}

/// As many bytes as an input can have, of any bits.
fn largest() -> Vec<u8> {
    let mut writer = Writer::default();
    writer.payload(8 * MAX_BYTES);
    writer.into_bytes()
}

#[cfg(test)]
mod tests {
    use super::*;

    /// Also where no read is whole, and with every number of bytes after the last one.
    #[test]
    fn short_inputs() {
        let bytes: Vec<u8> = (0..100_u8).map(|i| i.wrapping_mul(151) ^ 0xa5).collect();
        for length in 0..=bytes.len() {
            hold_sums(&bytes[..length]);
        }
        assert_eq!(sum(walk_by_bits, &bytes[..8]), 0);
        let first = u64::from_be_bytes(bytes[..8].try_into().expect("eight bytes"));
        let ninth = u64::from(bytes[8] >> 7);
        assert_eq!(sum(walk_by_bits, &bytes[..9]), first << 1 | ninth);
    }

    /// What is asked of the library's reader.
    #[test]
    fn words_take_at_most_half_the_time_of_bits() {
        let [words, bits, _] = times(&largest());
        assert!(words <= bits / 2.0, "{words} s by words, {bits} s by bits");
    }
}
