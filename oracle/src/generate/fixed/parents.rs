//! New parents: small lists, numbers of any size, packets of every length, all that can be wrong
//! together, and graphs of 63 positions. Most are asked with as many bytes as the packet takes, with
//! one fewer, and with more.
//!
//! They take nothing from the random numbers of a batch.
use super::graphs::{forms, spoilt_chains};
use crate::driver::{GREATEST_COUNT, GREATEST_PRECISION, answer};
use crate::generate::batch::Batch;
use crate::request::{Request, Shape};

/// More bytes than any packet takes.
pub const AMPLE: u32 = 128;

/// Shapes, and the parents that they are to have.
pub type Wanted = (Vec<Shape>, Vec<usize>);

/// Around the limits, and such as are the number of a position but for bits above the lowest six.
pub const NUMBERS: [usize; 20] = [
    0,
    1,
    2,
    3,
    62,
    63,
    64,
    64 + 1,
    64 + 2,
    127,
    128,
    128 + 1,
    255,
    256 + 2,
    1 << 32,
    (1 << 32) + 1,
    1 << 63,
    (1 << 63) + 2,
    usize::MAX - 62,
    usize::MAX,
];

/// Which shapes have a range that can change: none, every second, all.
const RANGES: [fn(usize) -> bool; 3] = [|_| false, |i| i % 2 == 1, |_| true];

/// What is asked, with how many bytes, and the number that it must give.
pub type Broken = (Wanted, u32, u8);

pub fn parents(batch: &mut Batch<'_>) {
    (0..=2).for_each(|count| every_small_list(batch, count));
    every_movable_list(batch);
    every_number(batch);
    every_length(batch);
    for (wanted, room, _) in broken() {
        batch.parents(wanted, room);
    }
    corners()
        .iter()
        .for_each(|wanted| in_every_room(batch, wanted));
    graphs(batch);
    counts(batch);
    precisions(batch);
}

/// With no byte and many; if there is a packet, also with as many as it takes, one fewer and one more.
fn in_every_room(batch: &mut Batch<'_>, wanted: &Wanted) {
    let mut rooms = vec![0, AMPLE];
    if let Some(bytes) = packet_bytes(wanted) {
        rooms.extend([bytes.saturating_sub(1), bytes, bytes + 1]);
    }
    rooms.sort_unstable();
    rooms.dedup();
    rooms
        .into_iter()
        .for_each(|room| batch.parents(wanted.clone(), room));
}

/// The bytes of the packet, if there is one.
pub fn packet_bytes((shapes, parents): &Wanted) -> Option<u32> {
    let answer = answer(&Request::Parents {
        shapes: shapes.clone(),
        parents: parents.clone(),
        room: AMPLE,
    });
    (answer.verdict.number == 0).then_some(answer.packet.len() as u32)
}

/// A shape whose parent can change.
fn movable(parent: usize) -> Shape {
    Shape {
        parent_dynamic: true,
        parent,
        ..Shape::default()
    }
}

/// So many positions with every choice of what may change, each hung on every parent up to one more
/// than the count and to be hung on every such.
fn every_small_list(batch: &mut Batch<'_>, count: usize) {
    let base = count + 2;
    let choices = 4 * base * base;
    for index in 0..choices.pow(count as u32) {
        let choice = |i| index / choices.pow(i as u32) % choices;
        let shape = |i| Shape {
            parent_dynamic: choice(i) % 2 == 1,
            range_dynamic: choice(i) / 2 % 2 == 1,
            parent: choice(i) / 4 % base,
            ..Shape::default()
        };
        let shapes = (0..count).map(shape).collect();
        let parents = (0..count).map(|i| choice(i) / 4 / base).collect();
        exactly_and_short(batch, (shapes, parents));
    }
}

/// Three positions that can be hung elsewhere, likewise. The second has a range that can change.
fn every_movable_list(batch: &mut Batch<'_>) {
    let base = 5;
    for index in 0..usize::pow(base, 6) {
        let digit = |i: usize| index / base.pow(i as u32) % base;
        let mut shapes = [0, 1, 2].map(digit).map(movable).to_vec();
        shapes[1].range_dynamic = true;
        let parents = [3, 4, 5].map(digit).to_vec();
        exactly_and_short(batch, (shapes, parents));
    }
}

/// With as many bytes as the packet takes, and with one fewer; with many if there is no packet.
pub fn exactly_and_short(batch: &mut Batch<'_>, wanted: Wanted) {
    let bytes = packet_bytes(&wanted);
    if let Some(bytes) = bytes.filter(|&bytes| bytes > 0) {
        batch.parents(wanted.clone(), bytes - 1);
    }
    batch.parents(wanted, bytes.unwrap_or(AMPLE));
}

/// Every pair of an old and a new parent, of the first of two positions and of the second.
fn every_number(batch: &mut Batch<'_>) {
    for old in NUMBERS {
        for new in NUMBERS {
            for parent_dynamic in [false, true] {
                let one = Shape {
                    parent_dynamic,
                    ..movable(old)
                };
                let other = Shape::default();
                let first = (vec![one.clone(), other.clone()], vec![new, 0]);
                let second = (vec![other, one], vec![0, new]);
                for wanted in [first, second] {
                    in_every_room(batch, &wanted);
                }
            }
        }
    }
}

/// Up to 63 positions of which none changes, the first is freed, the last is hung on the first.
fn every_length(batch: &mut Batch<'_>) {
    for count in 0..=GREATEST_COUNT {
        let still = (vec![Shape::default(); count], vec![0; count]);
        in_every_room(batch, &still);
        if count > 1 {
            let (mut freed, mut hung) = (still.clone(), still);
            freed.0[0] = movable(count);
            in_every_room(batch, &freed);
            hung.0[count - 1] = movable(0);
            hung.1[count - 1] = 1;
            in_every_room(batch, &hung);
        }
    }
}

/// Six positions of which three change, with everything that can be wrong alone and together.
pub fn broken() -> Vec<Broken> {
    let mut list = Vec::new();
    for others in [0, -1, 1] {
        for shapes in [well, precise, many] {
            for fixed in [false, true] {
                for parents in [([1, 2], 0), ([7, 2], 8), ([64 + 1, 2], 8), ([3, 2], 9)] {
                    for room in [5, 4] {
                        list.push(six(others, shapes, fixed, parents, room));
                    }
                }
            }
        }
    }
    list
}

/// There are so many new parents more than shapes; the shapes may be too precise or too many, and one
/// whose parent changes may be fixed. Two have these parents, which give a number. The packet takes 39
/// bits.
fn six(
    others: isize,
    shapes: fn(&mut Wanted) -> bool,
    fixed: bool,
    ([second, third], number): ([usize; 2], u8),
    room: u32,
) -> Broken {
    let mut wanted = (vec![Shape::default(); 6], vec![0, second, third, 0, 1, 0]);
    for (i, can_change) in [(1, true), (2, true), (4, !fixed)] {
        wanted.0[i].parent_dynamic = can_change;
    }
    let questions = [
        (36, others == 0),
        (2, shapes(&mut wanted)),
        (37, !fixed),
        (number, number == 0),
        (38, room == 5),
    ];
    let count = wanted.1.len().saturating_add_signed(others);
    wanted.1.resize(count, 0);
    let unmet = questions.into_iter().find(|(_, is_met)| !is_met);
    (wanted, room, unmet.map_or(0, |(number, _)| number))
}

/// Changes the shapes, and tells whether they are still good.
fn well(_: &mut Wanted) -> bool {
    true
}

fn precise((shapes, _): &mut Wanted) -> bool {
    shapes[3].rotation_precision = GREATEST_PRECISION + 1;
    false
}

fn many((shapes, parents): &mut Wanted) -> bool {
    shapes.resize(GREATEST_COUNT + 1, Shape::default());
    parents.resize(GREATEST_COUNT + 1, 0);
    false
}

/// No positions; 63 that all change, 63 that keep their parents, and one more; old parents that close a
/// circle; a parent above 63 that stays, that changes, and that is new.
pub fn corners() -> Vec<Wanted> {
    let [chain, turned, ..] = forms().map(numbers);
    let longer: Vec<usize> = (0..=GREATEST_COUNT).collect();
    let small = |old: &[usize], new: &[usize]| between(old, new, RANGES[1], false);
    vec![
        (vec![], vec![]),
        between(&chain, &turned, RANGES[1], true),
        between(&chain, &chain, RANGES[1], false),
        between(&longer, &longer, RANGES[1], false),
        small(&[2, 3, 1], &[0, 1, 2]),
        small(&[70, 0], &[70, 1]),
        small(&[70, 0], &[2, 0]),
        small(&[0, usize::MAX], &[0, 0]),
        small(&[0, 0], &[64 + 2, 0]),
    ]
}

/// From each form, and from parents that have no ranks, to each form; and to chains that are spoilt.
/// What does not change cannot, or can.
fn graphs(batch: &mut Batch<'_>) {
    let forms = forms().map(numbers);
    for old in forms.iter().chain(&unranked()) {
        for new in forms.iter().chain([old]) {
            for range in RANGES {
                for all in [false, true] {
                    in_every_room(batch, &between(old, new, range, all));
                }
            }
        }
    }
    for spoilt in spoilt_chains().map(numbers) {
        let chain: Vec<usize> = (0..spoilt.len()).collect();
        for [old, new] in [[&chain, &spoilt], [&spoilt, &chain], [&spoilt, &spoilt]] {
            in_every_room(batch, &between(old, new, RANGES[1], true));
        }
    }
}

fn numbers(parents: Vec<u64>) -> Vec<usize> {
    parents.into_iter().map(|parent| parent as usize).collect()
}

/// A circle of all positions; all on one that is not declared; all on the largest number; a chain whose
/// first position is above the greatest number of a packet.
fn unranked() -> [Vec<usize>; 4] {
    let circle = (1..=GREATEST_COUNT).map(|i| i % GREATEST_COUNT + 1);
    let chain = [64].into_iter().chain(1..GREATEST_COUNT);
    [
        circle.collect(),
        vec![64; GREATEST_COUNT],
        vec![usize::MAX; GREATEST_COUNT],
        chain.collect(),
    ]
}

/// Shapes on the old parents, to be hung on the new ones.
fn between(old: &[usize], new: &[usize], range: fn(usize) -> bool, all: bool) -> Wanted {
    let shape = |(i, (&old, new)): (usize, (&usize, &usize))| Shape {
        parent_dynamic: all || old != *new,
        range_dynamic: range(i),
        position_precision: i % (GREATEST_PRECISION + 1),
        rotation_precision: GREATEST_PRECISION - i % (GREATEST_PRECISION + 1),
        polar: i.is_multiple_of(3),
        parent: old,
    };
    let pairs = old.iter().zip(new);
    (pairs.enumerate().map(shape).collect(), new.to_vec())
}

/// More positions than there may be, with as many new parents or not.
fn counts(batch: &mut Batch<'_>) {
    for count in [GREATEST_COUNT + 1, GREATEST_COUNT + 2, 70] {
        for others in [count - 1, count, count + 1, 0] {
            let wanted = (vec![movable(0); count], vec![0; others]);
            in_every_room(batch, &wanted);
        }
    }
}

/// The greatest precision, and greater ones, of a position that is hung on another and of that.
fn precisions(batch: &mut Batch<'_>) {
    let greatest = GREATEST_PRECISION;
    for precision in [greatest, greatest + 1, 64, 255, 1 << 32, usize::MAX] {
        for one in [0, 1] {
            for rotation in [false, true] {
                let mut shapes = vec![movable(0); 2];
                if rotation {
                    shapes[one].rotation_precision = precision;
                } else {
                    shapes[one].position_precision = precision;
                }
                in_every_room(batch, &(shapes, vec![2, 0]));
            }
        }
    }
}
