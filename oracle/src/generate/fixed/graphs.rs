//! Graphs of 63 positions: chains, a star, and none hung on another; and of 62, refused for their
//! parents. As scenes, as updates of such graphs, and as validations.
//!
//! They take nothing from the random numbers of a batch, so that no other request depends on them.
use super::lists::after_ones;
use super::validations::hung;
use crate::bits::Bits;
use crate::driver::{FIELD_WORDS, GREATEST_COUNT, GREATEST_PRECISION};
use crate::generate::batch::{Batch, Record};
use crate::generate::drafts::positions::{EXTENSIONS, write_extensions};
use crate::generate::drafts::{Draft, drafted};
use crate::generate::variants::Good;
use crate::request::{Question, Shape};
use crate::rng::Rng;

/// The parents of all positions.
type Parents = Vec<u64>;

/// Which positions of a chain of 62 are hung elsewhere, and on which: on one that is not declared,
/// or so that a circle closes. The last two lists do both, and the lower position decides.
const SPOILT: [&[(usize, u64)]; 6] = [
    &[(1, 63)],
    &[(62, 63)],
    &[(1, 62)],
    &[(62, 62)],
    &[(60, 63), (61, 61)],
    &[(60, 60), (61, 63)],
];

/// All that are written out here, from every bit of a byte on with room for all fields, then with a
/// word less, and cut before the last bit.
pub fn graphs(batch: &mut Batch<'_>) {
    let graphs = [
        scenes(),
        spoilt_scenes(),
        changes(),
        steps(),
        spoilt_updates(),
    ];
    for good in graphs.into_iter().flatten().chain(unasked_updates()) {
        let enough = FIELD_WORDS * good.fields().len() as u32;
        let mut ask = |good: &Good, lead, room| {
            let input = after_ones(&good.bits, lead);
            batch.call(&good.question, input, Record::Room(room));
        };
        (0..8).for_each(|lead| ask(&good, lead, enough));
        ask(&good, 0, enough.saturating_sub(1));
        let cut = good.cut(good.bits.len() - 1);
        ask(&cut, cut.flush_lead(), enough);
    }
    for shapes in [validations(), spoilt_validations()].concat() {
        for at in [0, 77, u64::MAX] {
            batch.validation(at, shapes.clone());
        }
    }
}

/// Each position hangs on the one before it; on the one after it; on the second one before it, which
/// makes two chains; on the first one; on none.
pub fn forms() -> [Parents; 5] {
    let count = GREATEST_COUNT as u64;
    [
        (0..count).collect(),
        (2..=count).chain([0]).collect(),
        (1..=count).map(|i| i.saturating_sub(2)).collect(),
        (0..count).map(|i| i.min(1)).collect(),
        vec![0; GREATEST_COUNT],
    ]
}

/// Each form with the next one.
pub fn pairs() -> impl Iterator<Item = (Parents, Parents)> {
    let next = forms().into_iter().cycle().skip(1);
    forms().into_iter().zip(next)
}

/// Chains of 62 that leave the declared numbers or close a circle.
pub fn spoilt_chains() -> [Parents; SPOILT.len()] {
    SPOILT.map(spoilt)
}

/// The chain of 62 with some of its positions hung elsewhere.
fn spoilt(elsewhere: &[(usize, u64)]) -> Parents {
    let mut parents = chain_of_62();
    for &(position, parent) in elsewhere {
        parents[position - 1] = parent;
    }
    parents
}

fn chain_of_62() -> Parents {
    (0..GREATEST_COUNT as u64 - 1).collect()
}

pub fn scenes() -> Vec<Good> {
    forms().iter().map(|parents| scene(parents)).collect()
}

fn spoilt_scenes() -> Vec<Good> {
    spoilt_chains().iter().map(|chain| scene(chain)).collect()
}

fn scene(parents: &[u64]) -> Good {
    Good {
        question: Question::Scene,
        bits: scene_on(parents, 0),
    }
}

/// Updates that make the next form of each.
pub fn changes() -> Vec<Good> {
    let change = |(before, after): (Parents, Parents)| {
        let all: Vec<Option<u64>> = after.into_iter().map(Some).collect();
        update(&before, update_on(&all, 0))
    };
    pairs().map(change).collect()
}

/// Updates of each form: none moved, the first hung on the last, the last freed, one amid freed,
/// the second hung on the last but one.
pub fn steps() -> Vec<Good> {
    let count = GREATEST_COUNT as u64;
    let moves = [(1, count), (GREATEST_COUNT, 0), (32, 0), (2, count - 1)];
    let of_form = |before: Parents| {
        let still = update_on(&[None; GREATEST_COUNT], 0);
        let moved = moves.map(|(one, parent)| one_on(GREATEST_COUNT, one, parent));
        let packets = [still].into_iter().chain(moved);
        packets.map(move |packet| update(&before, packet))
    };
    forms().into_iter().flat_map(of_form).collect()
}

/// Updates of the chain of 62, which is what a refused one leaves.
fn spoilt_updates() -> Vec<Good> {
    let moved = |some: &[(usize, u64)]| {
        let mut parents = [None; GREATEST_COUNT - 1];
        for &(position, parent) in some {
            parents[position - 1] = Some(parent);
        }
        update(&chain_of_62(), update_on(&parents, 0))
    };
    SPOILT.into_iter().map(moved).collect()
}

/// Updates of a chain of one position more than there may be, and of one with a precision above the
/// greatest.
fn unasked_updates() -> [Good; 2] {
    let longer: Parents = (0..=GREATEST_COUNT as u64).collect();
    let many = update(&longer, update_on(&[None; GREATEST_COUNT + 1], 0));
    let [chain, ..] = forms();
    let mut precise = update(&chain, update_on(&[None; GREATEST_COUNT], 0));
    if let Question::Update(shapes) = &mut precise.question {
        shapes[GREATEST_COUNT - 1].position_precision = GREATEST_PRECISION + 1;
    }
    [many, precise]
}

fn update(before: &[u64], bits: Bits) -> Good {
    let movable = |shape| Shape {
        parent_dynamic: true,
        ..shape
    };
    Good {
        question: Question::Update(shapes(before).into_iter().map(movable).collect()),
        bits,
    }
}

pub fn validations() -> Vec<Vec<Shape>> {
    forms().iter().map(|parents| shapes(parents)).collect()
}

/// The chain of 62 spoilt, and one position too many.
fn spoilt_validations() -> Vec<Vec<Shape>> {
    let longer: Parents = (0..=GREATEST_COUNT as u64).collect();
    let lists = spoilt_chains().into_iter().chain([longer]);
    lists.map(|parents| shapes(&parents)).collect()
}

fn shapes(parents: &[u64]) -> Vec<Shape> {
    let shapes = parents.iter().map(|&parent| hung(parent as usize));
    shapes.collect()
}

/// What a closure writes, with random numbers of its own.
pub fn written(write: impl FnOnce(&mut Draft<'_>)) -> Bits {
    drafted(&mut Rng::new(1), write)
}

/// A scene of positions that hang on these parents and may be hung elsewhere. The last one has so
/// many extensions.
pub fn scene_on(parents: &[u64], extensions: usize) -> Bits {
    written(|d| {
        d.put(parents.len() as u64, 6);
        for (i, &parent) in parents.iter().enumerate() {
            write_head(d, parent);
            let last = i + 1 == parents.len();
            write_rest(d, if last { extensions } else { 0 });
        }
    })
}

/// The parent may change, the range may not; precisions of 0, the parent, a range.
pub fn write_head(d: &mut Draft<'_>, parent: u64) {
    d.put(0b10_0000_0000, 10);
    d.put(parent, 7);
    d.put(0, 4);
}

/// An update of such a scene: positions are hung on a parent or left. The last one has so many
/// extensions.
pub fn update_on(parents: &[Option<u64>], extensions: usize) -> Bits {
    written(|d| {
        for (i, parent) in parents.iter().enumerate() {
            let last = i + 1 == parents.len();
            let extensions = if last { extensions } else { 0 };
            if d.flag(parent.is_some() || extensions > 0) {
                if d.flag(parent.is_some()) {
                    d.put(parent.unwrap_or(0), 7);
                }
                write_rest(d, extensions);
            }
        }
    })
}

/// No coordinates and no rotation, but so many extensions.
fn write_rest(d: &mut Draft<'_>, extensions: usize) {
    d.put(0, 2);
    if d.flag(extensions > 0) {
        write_extensions(d, extensions);
        d.put(0, if extensions < EXTENSIONS { 4 } else { 0 });
    }
}

/// An update of so many positions that hangs one of them on a parent.
pub fn one_on(count: usize, one: usize, parent: u64) -> Bits {
    let mut parents = vec![None; count];
    parents[one - 1] = Some(parent);
    update_on(&parents, 0)
}
