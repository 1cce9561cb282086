//! That no packet of fewer bits does it, by brute force on the Rust.
use super::*;
use apac::run::{End, Reading};
use std::collections::BTreeMap;
use std::slice;

/// What happens to a position's parent.
#[derive(Clone, Copy, Debug, PartialEq)]
enum Change {
    Kept,
    Freed,
    Hung,
}

use Change::{Freed, Hung, Kept};

/// Which ranges can change: none, that of the second position, all.
const RANGES: [fn(usize) -> bool; 3] = [|_| false, |i| i == 1, |_| true];

/// Precisions of coordinates and rotations. The larger they are, the fewer strings are read.
const PRECISIONS: [[usize; 2]; 3] = [[0, 0], [5, 2], FINEST];
const FINEST: [usize; 2] = [24, 24];

/// The most bits of a packet for which each shorter string is tried by itself; and for which all are
/// tried, at other precisions than the finest and at these.
const SHORT: usize = 14;
const LONG: usize = 20;
const LONGEST: usize = 25;

/// Shapes, and the same with the new parents.
struct Case {
    before: Vec<Shape>,
    after: Vec<Shape>,
    packet: Bits,
}

impl Case {
    /// Those that are hung are hung on the first one that is not, which has no parent then.
    fn new(changes: &[Change], can_change: fn(usize) -> bool, precisions: [usize; 2]) -> Self {
        let free = changes.iter().position(|&change| change != Hung);
        let parents = |(i, change): (usize, &Change)| match change {
            Kept => (0, 0),
            Freed => ([2, 70, usize::MAX][i], 0),
            Hung => ([0, 64, 0][i], 1 + free.expect("one that is not hung")),
        };
        let (old, new): (Vec<_>, Vec<_>) = changes.iter().enumerate().map(parents).unzip();
        let shape = |(i, parent)| Shape {
            parent_dynamic: changes[i] != Kept || i == 1,
            range_dynamic: can_change(i),
            position_precision: precisions[0],
            rotation_precision: precisions[1],
            parent,
            polar: i == 1,
        };
        let before: Vec<Shape> = old.into_iter().enumerate().map(shape).collect();
        let asked = Asked {
            shapes: &before,
            parents: &new,
            room: usize::MAX,
        };
        assert_eq!(asked.answer().verdict.outcome, Outcome::Read, "{changes:?}");
        let (after, packet) = (asked.hung(), asked.packet());
        Self {
            before,
            after,
            packet,
        }
    }

    fn has_at_most(&self, bits: usize) -> bool {
        self.packet.len() <= bits
    }

    /// Whether an update that is this string of so many bits does what the packet does.
    fn does(&self, string: u64, length: usize) -> bool {
        let mut shapes = self.before.clone();
        let (end, _) = update(&mut shapes, string, length);
        matches!(end, End::Read { .. }) && shapes == self.after
    }

    /// The strings of so many bits that do what the packet does. A shorter one that does it is found
    /// with zeros after it.
    ///
    /// The Rust reads from the front, and looks neither at what comes after its end nor at a field of
    /// more bits than are left. So strings that are alike up to there end alike, and one of them is
    /// tried.
    fn found(&self, length: usize) -> Vec<u64> {
        let mut shapes = self.before.clone();
        let mut found = Vec::new();
        let mut string = 0;
        while string < 1 << length {
            let (end, read) = update(&mut shapes, string, length);
            if let End::Read { .. } = end {
                if shapes == self.after {
                    found.push(string);
                }
                shapes.clone_from_slice(&self.before);
            }
            let rest = length - read;
            string = ((string >> rest) + 1) << rest;
        }
        found
    }
}

fn number(bits: &Bits) -> u64 {
    let bytes = bits.bytes();
    let all = bytes
        .iter()
        .fold(0, |all, &byte| all << 8 | u64::from(byte));
    all >> bits.spare()
}

/// A string is so many of the low bits of a number. It is handed on as bytes, which end with its last
/// bit, and the bit at which it begins.
fn given<T>(string: u64, length: usize, read: impl FnOnce(&[u8], usize) -> T) -> T {
    let lead = length.wrapping_neg() % 8;
    read(&string.to_be_bytes()[8 - (lead + length) / 8..], lead)
}

/// The end of an update that is this string, and how many of its bits come before that.
fn update(shapes: &mut [Shape], string: u64, length: usize) -> (End, usize) {
    given(string, length, |bytes, lead| {
        let end = End::of_graph_update(bytes, lead, shapes, false);
        let position = match end {
            End::Read { position } | End::Invalid { position, .. } => position,
            End::Stopped { .. } => panic!("an update stopped"),
        };
        (end, position - lead)
    })
}

/// Every list of up to three changes of which not all are hung.
fn changes() -> Vec<Vec<Change>> {
    let mut all = vec![vec![]];
    let mut longest = all.clone();
    for _ in 0..3 {
        let longer = |list: &Vec<Change>| {
            [Kept, Freed, Hung].map(|change| [list.as_slice(), &[change]].concat())
        };
        longest = longest.iter().flat_map(longer).collect();
        all.extend_from_slice(&longest);
    }
    all.retain(|list| list.is_empty() || list.iter().any(|&change| change != Hung));
    all
}

fn cases() -> impl Iterator<Item = ([usize; 2], Case)> {
    let of_ranges = |changes: Vec<Change>| RANGES.map(|range| (changes.clone(), range));
    let kinds = changes().into_iter().flat_map(of_ranges);
    kinds.flat_map(|(changes, range)| {
        PRECISIONS.map(|precisions| (precisions, Case::new(&changes, range, precisions)))
    })
}

/// Each string of fewer bits is tried by itself. Of those that have as many, the packet alone does it.
#[test]
fn each_string_that_is_shorter_than_a_short_packet() {
    let mut short = 0;
    for (_, case) in cases().filter(|(_, case)| case.has_at_most(SHORT)) {
        let length = case.packet.len();
        for shorter in 0..length {
            let found = (0..1 << shorter).find(|&string| case.does(string, shorter));
            assert_eq!(found, None, "{:?}", case.before);
        }
        let all = (0..1 << length).filter(|&string| case.does(string, length));
        assert!(all.eq([number(&case.packet)]), "{:?}", case.before);
        assert_eq!(case.found(length), [number(&case.packet)]);
        short += 1;
    }
    assert_eq!(short, 150);
}

#[test]
fn all_strings_that_are_shorter_than_a_packet() {
    let mut long = 0;
    for (precisions, case) in cases() {
        let most = if precisions == FINEST { LONGEST } else { LONG };
        if case.has_at_most(most) && !case.packet.is_empty() {
            let found = case.found(case.packet.len() - 1);
            assert!(found.is_empty(), "{:?}", case.before);
            long += 1;
        }
    }
    assert_eq!(long, 239);
}

/// The longest packet of three positions whose ranges cannot change, and a packet of some whose can.
#[test]
fn all_strings_that_are_shorter_than_a_long_packet() {
    let [none, _, all] = RANGES;
    for (changes, can_change, length) in [
        ([Hung, Freed, Hung], none, 30),
        ([Hung, Kept, Hung], all, 27),
    ] {
        let case = Case::new(&changes, can_change, FINEST);
        assert_eq!(case.packet.len(), length);
        assert!(case.found(length - 1).is_empty(), "{changes:?}");
    }
}

/// An update reads position by position, so that a packet is the shortest if the part of each position
/// is. Here the Rust's `position`, which comes after the flag `updated`, is given every string that is
/// not longer than such a part.
#[test]
fn no_position_has_a_shorter_part() {
    for shape in single_shapes() {
        let movable = if shape.parent_dynamic { 64 } else { 0 };
        let new = (0..movable).filter(|&parent| parent != shape.parent);
        let parts = new.map(|parent| (parent, part(&shape, parent)));
        assert!(shortest(&shape).into_iter().eq(parts), "{shape:?}");
    }
}

/// The bits of a position's part of a packet.
fn part(shape: &Shape, parent: usize) -> usize {
    let asked = Asked {
        shapes: slice::from_ref(shape),
        parents: &[parent],
        room: 0,
    };
    asked.packet().len()
}

/// The fewest bits of an updated position that gives each parent and leaves all else as it was.
fn shortest(shape: &Shape) -> BTreeMap<usize, usize> {
    let mut shortest = BTreeMap::new();
    let reading = Reading::Position { full: false, shape };
    for length in 0..part(shape, 63) {
        for string in 0..1 << length {
            let run = given(string, length, |bytes, lead| {
                reading.run(bytes, lead, false)
            });
            let parent = run.shapes[0].parent;
            let hung = Shape {
                parent,
                ..shape.clone()
            };
            let is_read = matches!(run.end, End::Read { .. });
            if is_read && parent != shape.parent && run.shapes == [hung] {
                shortest.entry(parent).or_insert(1 + length);
            }
        }
    }
    shortest
}

fn single_shapes() -> Vec<Shape> {
    let mut shapes = Vec::new();
    for [position_precision, rotation_precision] in PRECISIONS {
        for flags in 0..8 {
            for parent in [0, 1, 7, 64] {
                shapes.push(Shape {
                    parent_dynamic: flags & 1 != 0,
                    range_dynamic: flags & 2 != 0,
                    polar: flags & 4 != 0,
                    position_precision,
                    rotation_precision,
                    parent,
                });
            }
        }
    }
    shapes
}
