//! Single reads of the parser: every width from every bit of a byte, the input ended by any number of
//! bytes up to ten after the read, and far from its end.
use crate::driver::FIELD_WORDS;
use crate::generate::batch::{Batch, Record};
use crate::request::{Input, Question};
use apac::run::{Action, Op};
use std::sync::LazyLock;

/// The widest read.
const WIDEST: usize = 64;

/// The most bits from the end of a read to that of an input, if this is near.
const NEAR: usize = 80;

/// The bytes of an input whose end is far.
const FAR: usize = 256;

/// How many inputs are asked of each length, and the most bytes that they tell apart.
const INPUTS: usize = 8;
const TOLD: usize = 31;

/// The most bytes before the one in which a read starts.
const BEFORE: usize = TOLD - (7 + WIDEST + NEAR) / 8;

/// Going round, every eight bits but eight zeros stand here once; eight ones stand at the last bit and the
/// first seven. So of eight inputs that begin at the first eight bits, at each of 254 places one
/// has a 1 and another a 0, and at any two places one has different bits.
static BITS: LazyLock<[bool; 255]> = LazyLock::new(|| {
    let mut bits = [true; 255];
    for i in 7..255 {
        let before = |n| bits[(i + 255 - n) % 255];
        bits[i] = before(8) ^ before(6) ^ before(5) ^ before(4);
    }
    bits
});

pub fn reads(batch: &mut Batch<'_>) {
    for bit in 0..8 {
        for width in 0..=WIDEST {
            for before in [0, 1 + (width + bit) % BEFORE] {
                every_length(batch, 8 * before + bit, width);
            }
        }
        for first in 0..INPUTS {
            in_turn(batch, bit, first);
        }
    }
}

/// Few of them: every width and every bit of a byte near the end of the input and far from it, and so each
/// read that takes the last bit of its eighth byte, or some of a ninth.
pub fn few(batch: &mut Batch<'_>) {
    in_turn(batch, 3, 0);
    for width in 0..=WIDEST {
        followed(batch, 3 * width % 8, width, width % 9);
    }
    for width in 0..=WIDEST {
        for bit in (0..8).filter(|bit| bit + width >= 64) {
            followed(batch, bit, width, 0);
            followed(batch, bit, width, 11);
        }
    }
}

/// A read from this bit on, of every length of the input that does not end before it, and of a far longer one. Where
/// the read is refused one input is enough.
fn every_length(batch: &mut Batch<'_>, start: usize, width: usize) {
    let near = start.div_ceil(8)..=(start + width + NEAR) / 8;
    for bytes in near.chain([FAR]) {
        let is_read = start + width <= 8 * bytes;
        let inputs = if is_read { INPUTS } else { 1 };
        (0..inputs).for_each(|first| ask(batch, start, &[width], input(first, bytes)));
    }
}

/// All widths, one after the other, the end of the input far from the last.
fn in_turn(batch: &mut Batch<'_>, start: usize, first: usize) {
    let widths: Vec<usize> = (0..=WIDEST).collect();
    let end = start + widths.iter().sum::<usize>();
    ask(batch, start, &widths, input(first, end.div_ceil(8) + 11));
}

/// A read, with so many bytes after the one in which it ends.
fn followed(batch: &mut Batch<'_>, start: usize, width: usize, more: usize) {
    let bytes = (start + width).div_ceil(8) + more;
    ask(
        batch,
        start,
        &[width],
        input((width + more) % INPUTS, bytes),
    );
}

/// So many bytes of the bits, from one of the first on.
fn input(first: usize, bytes: usize) -> Vec<u8> {
    let bit = |i: usize| u8::from(BITS[(first + i) % BITS.len()]);
    let byte = |k: usize| (0..8).fold(0, |byte, i| byte << 1 | bit(8 * k + i));
    (0..bytes).map(byte).collect()
}

/// Reads of these widths from the bit on, recorded, each named by its width.
fn ask(batch: &mut Batch<'_>, start: usize, widths: &[usize], bytes: Vec<u8>) {
    let take = |&width: &usize| Op {
        action: Action::Take(width as u32),
        repeat: 1,
        name: width as u64,
    };
    let question = Question::Fields(widths.iter().map(take).collect());
    let input = Input {
        offset: start as u64,
        bytes,
    };
    let room = FIELD_WORDS * widths.len() as u32;
    batch.call(&question, input, Record::Room(room));
}
