//! Drafts of scenes, updates and positions.
use super::{Draft, drafted};
use crate::generate::variants::Good;
use crate::request::{Question, Shape};
use crate::rng::Rng;

/// Bits of the count of a scene and of a parent.
const COUNT_BITS: usize = 6;
const PARENT_BITS: usize = 6;

/// How many extensions a position may declare before it is refused.
pub const EXTENSIONS: usize = 32;

pub fn scene(rng: &mut Rng) -> Good {
    let count = some_count(rng);
    scene_of(rng, count)
}

pub fn scene_of(rng: &mut Rng, count: usize) -> Good {
    let parents = some_parents(rng, count);
    let bits = drafted(rng, |d| write_scene(d, &parents));
    Good {
        question: Question::Scene,
        bits,
    }
}

pub fn update(rng: &mut Rng) -> Good {
    let shapes = some_shapes(rng);
    update_of(rng, shapes)
}

pub fn update_of(rng: &mut Rng, shapes: Vec<Shape>) -> Good {
    let parents = some_parents(rng, shapes.len());
    update_to(rng, shapes, &parents)
}

/// An update that hangs positions on these parents, as far as it changes parents at all.
pub fn update_to(rng: &mut Rng, shapes: Vec<Shape>, parents: &[u64]) -> Good {
    let bits = drafted(rng, |d| write_update(d, &shapes, parents));
    Good {
        question: Question::Update(shapes),
        bits,
    }
}

pub fn alone(rng: &mut Rng) -> Good {
    let shape = some_shape(rng);
    let full = rng.percent(40);
    let parent = rng.bits(PARENT_BITS);
    let bits = drafted(rng, |d| write_position(d, &shape, full, parent));
    Good {
        question: Question::Position { full, shape },
        bits,
    }
}

pub fn write_scene(d: &mut Draft<'_>, parents: &[u64]) {
    d.put(parents.len() as u64, COUNT_BITS);
    for &parent in parents {
        write_position(d, &Shape::default(), true, parent);
    }
}

fn write_update(d: &mut Draft<'_>, shapes: &[Shape], parents: &[u64]) {
    let eager = d.rng.pick(&[0, 30, 70, 100]);
    for (shape, &parent) in shapes.iter().zip(parents) {
        if d.maybe(eager) {
            write_position(d, shape, false, parent);
        }
    }
}

/// A position in either mode, against the shape that it is read with.
pub fn write_position(d: &mut Draft<'_>, given: &Shape, full: bool, parent: u64) {
    let mut shape = given.clone();
    if full {
        shape.parent_dynamic = d.coin();
        shape.range_dynamic = d.coin();
        shape.position_precision = write_precision(d);
        shape.rotation_precision = write_precision(d);
    }
    if full || (shape.parent_dynamic && d.coin()) {
        write_parent(d, parent);
    }
    if full || (shape.range_dynamic && d.coin()) {
        d.any(4);
    }
    if d.maybe(60) {
        write_coordinates(d, &mut shape, full);
    }
    if d.coin() {
        let delta = !full && d.coin();
        let width = 8 + shape.rotation_precision - if delta { 4 } else { 0 };
        d.values(&[width; 4]);
    }
    if d.maybe(20) {
        let count = d.rng.pick(&[0, 0, 1, 1, 2, 3]);
        write_extensions(d, count);
        d.put(0, 4);
    }
}

/// Extensions without the type 0 that ends them.
pub fn write_extensions(d: &mut Draft<'_>, count: usize) {
    for _ in 0..count {
        let kind = d.rng.within(1..=15);
        d.put(kind, 4);
        let width = d.rng.pick(&[0, 0, 1, 2, 5, 15]);
        d.put(width, 4);
        let bits = d.rng.within(1..=16) as usize;
        d.put(bits as u64 - 1, width as usize + 4);
        d.payload(bits);
    }
}

fn write_precision(d: &mut Draft<'_>) -> usize {
    let encoded = d.rng.pick(&[0, 0, 1, 3, 8, 11, 12, 13, 15]);
    d.put(encoded, 4);
    (2 * encoded as usize).min(24)
}

fn write_parent(d: &mut Draft<'_>, parent: u64) {
    let absolute = parent == 0 && d.rng.percent(50);
    if !d.flag(absolute) {
        d.put(parent, PARENT_BITS);
    }
}

fn write_coordinates(d: &mut Draft<'_>, shape: &mut Shape, full: bool) {
    let delta = !full && d.coin();
    if !delta {
        shape.polar = d.coin();
    }
    let bases = if shape.polar { [7, 6, 5] } else { [6; 3] };
    for (i, base) in bases.into_iter().enumerate() {
        let radius_left_out = delta && shape.polar && shape.position_precision == 0 && i == 2;
        if !radius_left_out {
            d.any(base + shape.position_precision - if delta { 4 } else { 0 });
        }
    }
}

/// Parents for a count: mostly such as have ranks.
pub fn some_parents(rng: &mut Rng, count: usize) -> Vec<u64> {
    let mut parents = forest(rng, count);
    if count == 0 {
        return parents;
    }
    let one = rng.below(count as u64) as usize;
    match rng.below(20) {
        0 => parents[one] = one as u64 + 1,
        1 | 2 => parents[one] = rng.within(0..=count as u64),
        3 => parents[one] = (count as u64 + 1).min(63),
        4 => parents[one] = rng.bits(PARENT_BITS),
        _ => {}
    }
    parents
}

/// Each position hangs on none or on one that comes before it in a random order.
fn forest(rng: &mut Rng, count: usize) -> Vec<u64> {
    let mut order: Vec<usize> = (0..count).collect();
    for i in (1..count).rev() {
        order.swap(i, rng.below(i as u64 + 1) as usize);
    }
    let chain = rng.percent(30);
    let mut parents = vec![0; count];
    for (i, &position) in order.iter().enumerate().skip(1) {
        let before = if chain {
            i - 1
        } else {
            rng.below(i as u64) as usize
        };
        if rng.percent(75) {
            parents[position] = order[before] as u64 + 1;
        }
    }
    parents
}

fn some_count(rng: &mut Rng) -> usize {
    let count = match rng.below(20) {
        0 => rng.within(13..=63),
        1..=4 => rng.within(5..=12),
        _ => rng.within(0..=4),
    };
    count as usize
}

pub fn some_shapes(rng: &mut Rng) -> Vec<Shape> {
    let count = some_count(rng);
    shapes_of(rng, count)
}

pub fn shapes_of(rng: &mut Rng, count: usize) -> Vec<Shape> {
    let parents = some_parents(rng, count);
    let with = |parent| Shape {
        parent: parent as usize,
        ..some_shape(rng)
    };
    parents.into_iter().map(with).collect()
}

/// A shape as it may be handed in: precisions up to 24, even or not.
pub fn some_shape(rng: &mut Rng) -> Shape {
    Shape {
        parent_dynamic: rng.percent(60),
        range_dynamic: rng.percent(40),
        position_precision: rng.pick(&[0, 0, 1, 2, 7, 16, 24]),
        rotation_precision: rng.pick(&[0, 2, 5, 12, 24]),
        parent: rng.bits(PARENT_BITS) as usize,
        polar: rng.percent(50),
    }
}

/// A position of the most fields: all that may be present is, with so many extensions.
pub fn write_largest(d: &mut Draft<'_>, full: bool, extensions: usize) {
    let header = if full { 10 } else { 0 };
    let asked = usize::from(!full); // update and delta flags stand in an update only
    d.put(0, header);
    d.put(1, asked);
    d.put(0, 1 + PARENT_BITS);
    d.put(1, asked);
    d.put(0, 4);
    d.flag(true);
    d.put(0, asked + 1);
    d.values(&[6; 3]);
    d.flag(true);
    d.put(0, asked);
    d.values(&[8; 4]);
    d.flag(true);
    write_extensions(d, extensions);
    if extensions < EXTENSIONS {
        d.put(0, 4);
    }
}
