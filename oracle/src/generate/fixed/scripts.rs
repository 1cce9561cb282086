//! Scripts that meet each limit of the parser's methods exactly, or miss it by one.
use crate::bits::Bits;
use crate::driver::FIELD_WORDS;
use crate::generate::batch::{Batch, Record};
use crate::generate::drafts::scripts::WIDTHS;
use crate::request::{Input, Question};
use crate::rng::Rng;
use crate::script;
use apac::numbers::{REFUSALS, STOPS};

/// The greatest count of fields of a reading.
const GREATEST_FIELDS: u16 = 16_384;

pub fn limits(batch: &mut Batch<'_>) {
    takes(batch);
    escapes(batch);
    payloads(batch);
    counts(batch);
    windows(batch);
    offsets(batch);
    ends(batch);
    field_limit(batch);
}

/// A script, written as in a request line.
fn ask(batch: &mut Batch<'_>, script: &str, input: Input, record: Record) {
    let ops = script::parse(script).expect("a script of the generator");
    batch.call(&Question::Fields(ops), input, record);
}

fn some_input(rng: &mut Rng, bytes: usize) -> Input {
    let bytes = (0..bytes).map(|_| rng.bits(8) as u8).collect();
    let offset = rng.below(8);
    Input { offset, bytes }
}

/// Every width, from two bits of a byte; the input just long enough, or cut one byte before.
fn takes(batch: &mut Batch<'_>) {
    for width in 0..=64 {
        let script = format!("t{width}@{width},f@7");
        for short in [0, 1] {
            let mut input = some_input(batch.rng, 0);
            let bits = input.offset as usize + width + 1;
            input.bytes = some_input(batch.rng, bits.div_ceil(8) - short).bytes;
            ask(batch, &script, input, Record::Ample);
        }
    }
}

/// Escaped numbers of ones only, of zeros only, and of ones up to a point.
fn escapes(batch: &mut Batch<'_>) {
    for [a, b, c] in WIDTHS {
        let script = format!("e{a}.{b}.{c}@{a}{b}{c},t3@1");
        let bits = (a + b + c) as usize + 3;
        for ones in [0, a, a + b, a + b + c].map(|n| n as usize) {
            for (before, after) in [(ones, bits), (ones.saturating_sub(1), bits), (ones, ones)] {
                let offset = batch.rng.below(8);
                let lead = offset as usize;
                let bytes = ones_then_zeros(lead + before, lead + after);
                ask(batch, &script, Input { offset, bytes }, Record::Ample);
            }
        }
    }
}

/// So many ones, then zeros up to the length and to the end of the byte.
fn ones_then_zeros(ones: usize, length: usize) -> Vec<u8> {
    let mut bits = Bits::default();
    (0..length).for_each(|i| bits.push(i < ones));
    bits.bytes()
}

fn payloads(batch: &mut Batch<'_>) {
    for bits in [0, 1, 7, 8, 9, 15, 16, 17, 64, 65, u32::MAX] {
        for bytes in [0, 1, 2, 3, 9] {
            let script = format!("p{bits}@{bits},t1@2");
            let input = some_input(batch.rng, bytes);
            ask(batch, &script, input, Record::Ample);
        }
    }
}

/// Counts that take all bits that are left, or one more than there are.
fn counts(batch: &mut Batch<'_>) {
    for value in [0, 1, 4_095, 4_096, 4_097, u32::MAX] {
        for least in [0, 1, 2, 4_096_u32] {
            let script = format!("c{value}.{least},f@3");
            let bytes = (u64::from(value) * u64::from(least)).div_ceil(8);
            let exact = if bytes < 600 { bytes as usize } else { 0 };
            for (offset, bytes) in [(0, 0), (7, 1), (0, exact), (1, exact), (1, exact + 1)] {
                let bytes = vec![0xa5; bytes];
                ask(batch, &script, Input { offset, bytes }, Record::Off);
            }
        }
    }
}

fn windows(batch: &mut Batch<'_>) {
    let scripts = [
        "u0,t0@1,t1@2",
        "u8,t8@1,t1@2",
        "u9,t8@1,t1@2,t1@3",
        "t8@1,u7,t1@2",
        "t8@1,u8,t0@2,f@3",
        "u8,u24,t24@1,f@2",
        "u24,t24@1",
        "u25,t8@1",
        "u10,p10@1,u24,p14@2",
        "u10,p11@1",
        "u10,c10.1,c11.1",
        "u10,c5.2,c6.2",
        "u12,e4.7.10@1,u24,e4.7.10@2",
        "u11,e4.7.10@1",
        "u3,e4.7.10@1",
        "u4294967295,t1@1",
    ];
    for script in scripts {
        for byte in [0x00, 0xff, 0xf0, 0xa5] {
            let input = Input::from([byte; 3].as_slice());
            ask(batch, script, input, Record::Ample);
        }
    }
}

/// From the last bit, from the end, and from past it.
fn offsets(batch: &mut Batch<'_>) {
    for script in ["-", "t0@1", "f@1", "p0@1", "c0.1", "u8", "x22"] {
        for offset in [7, 8, 9, 1 << 32, u64::MAX - 7, u64::MAX] {
            let bytes = vec![0xff];
            ask(batch, script, Input { offset, bytes }, Record::Ample);
        }
    }
}

/// Every refusal and stop by its number, with what came before it.
fn ends(batch: &mut Batch<'_>) {
    let refusals = REFUSALS.map(|row| format!("x{}", row.0));
    let stops = STOPS.map(|row| format!("s{}", row.0));
    for end in refusals.iter().chain(&stops) {
        for script in [end.clone(), format!("f@1,3*t2@2,{end},t1@3")] {
            for bytes in [0, 1, 2] {
                let input = some_input(batch.rng, bytes);
                ask(batch, &script, input, Record::Ample);
            }
        }
    }
}

/// Field 16,384 and field 16,385, of every kind; bits and room are asked for before and after.
fn field_limit(batch: &mut Batch<'_>) {
    let (last, over) = (GREATEST_FIELDS - 1, GREATEST_FIELDS);
    for op in [
        "t0@2",
        "t5@2",
        "f@2",
        "e4.7.10@2",
        "p3@2",
        "p0@2",
        "c1.1",
        "u8",
        "x22",
        "s34",
    ] {
        for before in [last, over] {
            let script = format!("{before}*t0@1,{op},t0@3");
            ask(batch, &script, Input::from([0xf3].as_slice()), Record::Off);
            ask(batch, &script, Input::from([].as_slice()), Record::Off);
        }
    }
    for repeat in [GREATEST_FIELDS, GREATEST_FIELDS + 1, u16::MAX] {
        let script = format!("{repeat}*f@1");
        let bytes = vec![0x5a; usize::from(GREATEST_FIELDS) / 8 + 1];
        ask(batch, &script, Input { offset: 3, bytes }, Record::Off);
    }
}

/// Recordings of 16,384 fields, with room for all of them, for more and for less.
pub fn full_buffers(batch: &mut Batch<'_>) {
    let enough = FIELD_WORDS * u32::from(GREATEST_FIELDS);
    for words in [enough + 5, enough, enough - 1, enough - 5] {
        for repeat in [GREATEST_FIELDS - 1, GREATEST_FIELDS, GREATEST_FIELDS + 1] {
            let script = format!("{repeat}*t0@1");
            let input = Input::from([].as_slice());
            ask(batch, &script, input, Record::Room(words));
        }
    }
    let bytes = vec![0x5a; 2_050];
    let input = Input { offset: 1, bytes };
    ask(
        batch,
        "16385*f@18446744073709551615",
        input,
        Record::Room(enough),
    );
}

/// Every width from every bit of a byte.
pub fn every_take(batch: &mut Batch<'_>) {
    for width in 0..=64 {
        for offset in 0..8 {
            let bytes = some_input(batch.rng, 9).bytes;
            let script = format!("t{width}@{offset}");
            ask(batch, &script, Input { offset, bytes }, Record::Ample);
        }
    }
}
