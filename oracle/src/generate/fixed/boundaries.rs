//! The worked examples and the limits that document 01 names, met exactly and missed by one.
use crate::bits::Bits;
use crate::driver::{GREATEST_COUNT, GREATEST_INPUT, GREATEST_PRECISION};
use crate::generate::batch::{Batch, Record};
use crate::generate::drafts::compression::{code_window, exact, flat_window, lzw_window, section};
use crate::generate::drafts::metadata::{self, Metadata, least_group, of_kind};
use crate::generate::drafts::positions::{EXTENSIONS, some_shape, write_largest};
use crate::generate::drafts::{Draft, drafted, renderer};
use crate::generate::variants::Good;
use crate::request::{Input, Question, Shape};
use crate::rng::Rng;
use crate::text::unhex;

pub fn boundaries(batch: &mut Batch<'_>) {
    examples().iter().for_each(|good| batch.every_offset(good));
    extensions(batch);
    shape_counts(batch, &[0, 1, GREATEST_COUNT, GREATEST_COUNT + 1, 70]);
    precisions(batch);
    labels(batch);
    parameter_counts(batch);
    group_counts(batch);
    headphones(batch);
    matrices(batch);
    radiations(batch);
    lzw_windows(batch);
    empty_windows(batch);
    tables(batch);
    field_limit(batch);
    most_fields(batch);
    input_limit(batch);
}

pub fn bytes(hex: &str) -> Vec<u8> {
    unhex(hex).expect("digits of the generator")
}

/// The scenes of document 01, and its packets against the shapes that its show goes through.
pub fn examples() -> Vec<Good> {
    let moving = |parent| Shape {
        parent_dynamic: true,
        parent,
        ..Shape::default()
    };
    let scenes = ["-", "00", "04", "04000400", "04000000", "0a0080800080"];
    let mut list = scenes.map(|hex| example(Question::Scene, hex)).to_vec();
    for parents in [[0, 1], [0, 0], [2, 0]] {
        let question = Question::Update(parents.map(moving).to_vec());
        list.extend(["c100", "70"].map(|hex| example(question.clone(), hex)));
    }
    list
}

fn example(question: Question, hex: &str) -> Good {
    let bits = Bits::from(bytes(hex).as_slice());
    Good { question, bits }
}

/// Around 32 extensions: up to 31 are ended by a type 0, after 32 none is read.
fn extensions(batch: &mut Batch<'_>) {
    for count in [0, 1, EXTENSIONS - 1, EXTENSIONS, EXTENSIONS + 1] {
        for full in [true, false] {
            let good = extended_position(batch.rng, full, count);
            batch.every_offset(&good);
        }
        for good in extended(batch.rng, count) {
            batch.every_offset(&good);
        }
    }
}

/// A shape whose parent and range may change.
fn dynamic() -> Shape {
    Shape {
        parent_dynamic: true,
        range_dynamic: true,
        ..Shape::default()
    }
}

/// A position with so many extensions, called alone.
pub fn extended_position(rng: &mut Rng, full: bool, count: usize) -> Good {
    let shape = dynamic();
    let bits = drafted(rng, |d| write_largest(d, full, count));
    let question = Question::Position { full, shape };
    Good { question, bits }
}

/// Such a position in a scene, in an update, in both kinds of parameter.
fn extended(rng: &mut Rng, count: usize) -> [Good; 4] {
    let position = drafted(rng, |d| write_largest(d, true, count));
    let [scene, update] = extended_graphs(rng, &position, count);
    let [global, rendered] = extended_parameters(rng, count).map(|metadata| metadata.good(rng));
    [scene, update, global, rendered]
}

/// A global parameter and one of a renderer, each a position with so many extensions.
pub fn extended_parameters(rng: &mut Rng, count: usize) -> [Metadata; 2] {
    let [global, rendered] =
        [11, 18].map(|kind| of_kind(rng, kind, |d| write_largest(d, true, count)));
    [
        Metadata::with_parameters(vec![global]),
        Metadata::with_renderer(rng, &[rendered]),
    ]
}

/// A scene of one full position, and an update of one with so many extensions.
pub fn extended_graphs(rng: &mut Rng, position: &Bits, count: usize) -> [Good; 2] {
    let scene = drafted(rng, |d| {
        d.put(1, 6);
        d.append(position);
    });
    let update = drafted(rng, |d| {
        d.flag(true);
        write_largest(d, false, count);
    });
    graphs(scene, update, 1)
}

/// A scene, and an update of so many shapes that may change.
fn graphs(scene: Bits, update: Bits, count: usize) -> [Good; 2] {
    let shapes = vec![dynamic(); count];
    let scene = (Question::Scene, scene);
    let update = (Question::Update(shapes), update);
    [scene, update].map(|(question, bits)| Good { question, bits })
}

/// Updates of so many shapes.
pub fn shape_counts(batch: &mut Batch<'_>, counts: &[usize]) {
    let input = Input::from([0; 9].as_slice());
    for &count in counts {
        let question = Question::Update(vec![Shape::default(); count]);
        batch.call(&question, input.clone(), Record::Ample);
        batch.call(&question, input.at_bit(73), Record::Off);
    }
}

/// The greatest precision, and greater ones.
pub fn precisions(batch: &mut Batch<'_>) {
    for precision in [GREATEST_PRECISION, GREATEST_PRECISION + 1, 64, 255] {
        for rotation in [false, true] {
            let mut shape = some_shape(batch.rng);
            if rotation {
                shape.rotation_precision = precision;
            } else {
                shape.position_precision = precision;
            }
            imprecise(batch, shape);
        }
    }
}

fn imprecise(batch: &mut Batch<'_>, shape: Shape) {
    let input = Input::from([0; 9].as_slice());
    let shapes = vec![Shape::default(), shape.clone()];
    batch.call(&Question::Update(shapes), input.clone(), Record::Ample);
    for full in [false, true] {
        let shape = shape.clone();
        let question = Question::Position { full, shape };
        batch.call(&question, input.clone(), Record::Ample);
        batch.call(&question, input.at_bit(73), Record::Off);
    }
}

fn labels(batch: &mut Batch<'_>) {
    for length in [0, 1, 4_095, 4_096, 4_097, 4_098] {
        for speakers in [0, 1, 255] {
            let layout = metadata::layout(batch.rng, length, speakers);
            let good = Metadata::with_parameters(vec![layout]).good(batch.rng);
            batch.somewhere(&good);
            batch.rooms_near(&good);
        }
    }
}

fn parameter_counts(batch: &mut Batch<'_>) {
    for count in [0, 1, 15, 127, 128, 129, 141, 142, 1_165] {
        let parameters = vec![metadata::parameter(batch.rng, 0); count];
        let global = Metadata::with_parameters(parameters).good(batch.rng);
        batch.somewhere(&global);
        batch.rooms_near(&global);
        let parameters = vec![renderer::parameter(batch.rng, 6); count];
        let rendered = Metadata::with_renderer(batch.rng, &parameters).good(batch.rng);
        batch.somewhere(&rendered);
        batch.rooms_near(&rendered);
    }
}

/// Groups of the fewest bits: their count times six is exactly what is left.
fn group_counts(batch: &mut Batch<'_>) {
    for count in [1, 2, 14, 15, 100, 1_165] {
        let good = Metadata::with_groups(vec![least_group(); count]).good(batch.rng);
        for missing in 0..8 {
            batch.cut_at(&good, good.bits.len() - missing);
        }
    }
}

/// As many channels as the bytes can hold, and one more.
fn headphones(batch: &mut Batch<'_>) {
    for bytes in 1..=16 {
        let most = (8 * bytes - 8) / 3;
        for channels in [most.max(1), most + 1] {
            let parameter = metadata::headphones(batch.rng, bytes, channels);
            let good = Metadata::with_parameters(vec![parameter]).good(batch.rng);
            batch.somewhere(&good);
            batch.cut_at(&good, good.bits.len() - 5);
        }
    }
}

/// Layouts with a low half of 0, and larger ones.
fn matrices(batch: &mut Batch<'_>) {
    for (order, channels) in [(0, 0), (15, 0), (0, 1), (1, 1), (3, 2), (15, 1)] {
        for float in [false, true] {
            let matrix = renderer::matrix(batch.rng, order, channels, float);
            let good = Metadata::with_renderer(batch.rng, &[matrix]).good(batch.rng);
            batch.every_offset(&good);
            batch.cut_at(&good, good.bits.len() - 5);
        }
    }
}

/// Bands and sizes in all parts of their escaped numbers, up to the greatest count.
fn radiations(batch: &mut Batch<'_>) {
    for count in [1, 7, 8, 9, 70, 71, 72, 300, 582] {
        let bands = renderer::bands(batch.rng, count);
        rendered(batch, bands);
        let many = renderer::sizes(batch.rng, &vec![1; count as usize]);
        rendered(batch, many);
    }
    for size in [1, 63, 64, 65, 573, 574, 575, 576, 577, 1_000, 4_670] {
        let large = renderer::sizes(batch.rng, &[1, size]);
        rendered(batch, large);
    }
}

/// A configuration with just this renderer parameter, whole and a little too short.
fn rendered(batch: &mut Batch<'_>, parameter: Bits) {
    let good = Metadata::with_renderer(batch.rng, &[parameter]).good(batch.rng);
    batch.somewhere(&good);
    batch.cut_at(&good, good.bits.len());
    batch.cut_at(&good, good.bits.len() - 1);
}

fn lzw_windows(batch: &mut Batch<'_>) {
    for initial in [1, 2, 8, 9, 10, 14, 15, 16, 31, 32, 33, 287] {
        for delta in [0, 1, 2, 6, 7, 8, 14, 15, 16, 261, 262, 300] {
            compressed(batch, 0, |d| lzw_window(d, initial, delta));
        }
    }
}

/// A configuration with just this window.
fn compressed(batch: &mut Batch<'_>, kind: u64, write: impl FnOnce(&mut Draft<'_>)) {
    let section = exact(batch.rng, kind, write);
    let good = Metadata::with_compression(section).good(batch.rng);
    batch.somewhere(&good);
    batch.somewhere(&good);
}

/// Windows of few bytes, of every type, whatever they hold.
fn empty_windows(batch: &mut Batch<'_>) {
    for kind in 0..8 {
        for bytes in 0..4 {
            for byte in [0x00, 0x08, 0x3f, 0xff] {
                compressed(batch, kind, |d| (0..bytes).for_each(|_| d.put(byte, 8)));
            }
        }
    }
}

/// Symbol widths and codewords around their limits and in all parts of their escaped numbers.
fn tables(batch: &mut Batch<'_>) {
    for width in (1..=13).chain([31, 32, 33, 286, 287, 288, 5_000]) {
        compressed(batch, 1, |d| flat_window(d, &[width]));
        compressed(batch, 3, |d| code_window(d, &[width], 1));
    }
    for bits in [1, 2, 3, 4, 5, 6, 7, 8, 9, 31, 32, 33, 63, 64, 65, 66, 287] {
        compressed(batch, 3, |d| code_window(d, &[1], bits));
    }
    for count in 1..=17 {
        compressed(batch, 2, |d| flat_window(d, &vec![1; count]));
    }
    for kind in 1..=3 {
        let good = Metadata::with_compression(section(batch.rng, kind)).good(batch.rng);
        batch.every_offset(&good);
    }
}

/// Around 16,384 fields: with parameters the limit is crossed field by field.
fn field_limit(batch: &mut Batch<'_>) {
    for kinds in [&[][..], &[1], &[14], &[1, 1], &[1, 14]] {
        let good = long_tables(batch.rng, kinds);
        batch.at(&good, kinds.len(), Record::Off);
    }
    let exact = long_tables(batch.rng, &[14]);
    batch.rooms_near(&exact);
    for first in 1..8 {
        compressed(batch, 1, |d| flat_window(d, &[12; 5]));
        compressed(batch, 3, |d| code_window(d, &[12; 3], first));
    }
}

/// Tables that hold nearly 16,384 values, and parameters of the kinds.
pub fn long_tables(rng: &mut Rng, kinds: &[u64]) -> Good {
    let widths = [12, 12, 12, 11, 10, 9, 8, 7, 6, 5];
    let parameters = kinds.iter().map(|&kind| metadata::parameter(rng, kind));
    let metadata = Metadata {
        parameters: Some(parameters.collect()),
        compression: Some(exact(rng, 1, |d| flat_window(d, &widths))),
        groups: vec![],
    };
    metadata.good(rng)
}

fn most_fields(batch: &mut Batch<'_>) {
    for last in [EXTENSIONS - 1, EXTENSIONS] {
        for good in fullest(batch.rng, last) {
            batch.rooms_near(&good);
            batch.at(&good, 5, Record::Off);
        }
    }
}

/// 63 positions of the most fields; the last has so many extensions, 31 or 32.
pub fn fullest(rng: &mut Rng, last: usize) -> [Good; 2] {
    let scene = drafted(rng, |d| {
        d.put(GREATEST_COUNT as u64, 6);
        write_most(d, true, last);
    });
    let update = drafted(rng, |d| write_most(d, false, last));
    graphs(scene, update, GREATEST_COUNT)
}

fn write_most(d: &mut Draft<'_>, full: bool, last: usize) {
    let mut extensions = [EXTENSIONS - 1; GREATEST_COUNT];
    extensions[GREATEST_COUNT - 1] = last;
    for count in extensions {
        if !full {
            d.flag(true);
        }
        write_largest(d, full, count);
    }
}

/// The longest input, read near its end, and one byte more.
fn input_limit(batch: &mut Batch<'_>) {
    let update = Question::Update(vec![Shape::default(); 5]);
    let alone = Question::Position {
        full: true,
        shape: Shape::default(),
    };
    for question in [Question::Scene, Question::Metadata, update, alone] {
        for length in [GREATEST_INPUT, GREATEST_INPUT + 1] {
            let bytes = vec![0; length];
            let offset = 8 * GREATEST_INPUT as u64 - 25;
            batch.call(&question, Input { offset, bytes }, Record::Ample);
        }
    }
}
