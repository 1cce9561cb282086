//! Scripts: the parser's own methods, called in any order.
use super::noisy;
use crate::bits::Bits;
use crate::driver::answer;
use crate::generate::variants::Good;
use crate::request::{Call, Question, Request};
use crate::rng::Rng;
use crate::script::makes_field;
use apac::numbers::{REFUSALS, STOPS};
use apac::run::{Action, Op};

/// The greatest number that the Rust accepts as a count.
const GREATEST_COUNTED: u32 = 4_096;

/// Widths of escaped numbers: those of the Rust that fit, and odd ones.
pub const WIDTHS: [[u32; 3]; 12] = [
    [4, 7, 10],
    [1, 3, 8],
    [5, 8, 16],
    [3, 8, 16],
    [4, 8, 16],
    [3, 6, 10],
    [6, 9, 12],
    [10, 13, 16],
    [0, 0, 0],
    [0, 2, 0],
    [1, 0, 3],
    [16, 16, 16],
];

/// Where a script stands: its place, the end of its window, the end of the input.
struct State {
    place: u64,
    end: u64,
    whole: u64,
}

impl State {
    fn after(ops: &[Op], bits: &Bits) -> Self {
        let whole = bits.len() as u64;
        let window = |op: &Op| match op.action {
            Action::SetEnd(end) => Some(end.into()),
            _ => None,
        };
        let call = Call {
            question: Question::Fields(ops.to_vec()),
            offset: 0,
            recording: false,
            room: 0,
            bytes: bits.bytes(),
        };
        Self {
            place: answer(&Request::Call(call)).verdict.position,
            end: ops.iter().rev().find_map(window).unwrap_or(whole),
            whole,
        }
    }

    fn left(&self) -> u64 {
        self.end.saturating_sub(self.place)
    }
}

/// A script made step by step, each step with an eye on the bits that are left.
pub fn some_script(rng: &mut Rng, most: u64) -> Good {
    let bits = noisy(rng, 24);
    let mut ops = Vec::new();
    for _ in 0..rng.within(1..=most) {
        let state = State::after(&ops, &bits);
        ops.push(some_op(rng, &state));
    }
    Good {
        question: Question::Fields(ops),
        bits,
    }
}

fn some_op(rng: &mut Rng, state: &State) -> Op {
    let action = match rng.below(40) {
        0..=9 => Action::Take(some_width(rng, state)),
        10..=15 => Action::Flag,
        16..=25 => Action::Esc(some_widths(rng)),
        26..=30 => Action::Payload(some_payload(rng, state)),
        31..=34 => some_counting(rng, state),
        35..=38 => Action::SetEnd(some_end(rng, state)),
        _ if rng.percent(70) => Action::Refuse(rng.pick(&REFUSALS).0),
        _ => Action::Stop(rng.pick(&STOPS).0),
    };
    let repeat = rng.pick(&[1, 1, 1, 1, 1, 1, 2, 3]);
    named(rng, action, repeat)
}

/// An operation with a random name, if it makes a field.
pub fn named(rng: &mut Rng, action: Action, repeat: u16) -> Op {
    let name = if makes_field(action) {
        some_name(rng)
    } else {
        0
    };
    Op {
        action,
        repeat,
        name,
    }
}

fn some_name(rng: &mut Rng) -> u64 {
    match rng.below(8) {
        0 => u64::MAX,
        1 => rng.next(),
        _ => rng.below(100),
    }
}

fn some_width(rng: &mut Rng, state: &State) -> u32 {
    let left = state.left();
    let width = match rng.below(6) {
        0 => left,
        1 => left + 1,
        2 => rng.pick(&[0, 1, 7, 8, 9, 32, 63, 64]),
        3 => rng.within(0..=64),
        _ => rng.within(0..=left.min(20)),
    };
    width.min(64) as u32
}

fn some_widths(rng: &mut Rng) -> [u32; 3] {
    if rng.percent(70) {
        rng.pick(&WIDTHS)
    } else {
        [0; 3].map(|_| rng.within(0..=16) as u32)
    }
}

fn some_payload(rng: &mut Rng, state: &State) -> u32 {
    let left = state.left();
    let bits = match rng.below(8) {
        0 => left,
        1 => left + 1,
        2 => rng.pick(&[0, u32::MAX.into()]),
        3 => rng.within(0..=1_000),
        _ => rng.within(0..=left),
    };
    bits as u32
}

/// A count that takes all bits that are left, or nearly, or any.
fn some_counting(rng: &mut Rng, state: &State) -> Action {
    let least = rng.pick(&[0, 1, 2, 5, 6, 11, 18, 33]);
    let value = match least {
        0 => rng.pick(&[0, GREATEST_COUNTED, GREATEST_COUNTED + 1, u32::MAX]),
        _ => (state.left() as u32 / least + rng.below(3) as u32).saturating_sub(1),
    };
    let value = if rng.percent(10) {
        rng.bits(32) as u32
    } else {
        value
    };
    Action::Count { value, least }
}

fn some_end(rng: &mut Rng, state: &State) -> u32 {
    let State { place, end, whole } = *state;
    let bit = match rng.below(10) {
        0 => place.saturating_sub(1),
        1 => place,
        2 => whole + 1,
        3 => end + 1,
        4 | 5 => whole,
        _ => place + rng.within(0..=whole.saturating_sub(place)),
    };
    bit as u32
}
