//! Scene, renderer and compression declarations of the APAC audio codec, read by `libgateway.a`.
//!
//! The functions borrow what they are lent for the call only, allocate nothing and have no state of
//! their own. The C header `gateway.h` tells what each gives and writes, and what the numbers mean.
//!
//! ```
//! use gateway::{Outcome, graph_update, read_scene};
//!
//! let mut scene = read_scene(&[0x0a, 0x00, 0x80, 0x80, 0x00, 0x80], 0, false, &mut []);
//! assert_eq!(scene.answer().outcome, Outcome::Read);
//! assert_eq!(scene.answer().deepest, 2);
//! let circle = graph_update(&[0xc1, 0x00], 0, false, &mut [], scene.shapes_mut());
//! assert_eq!((circle.outcome, circle.deepest), (Outcome::Refused(9), 0));
//! let freed = graph_update(&[0x70], 0, false, &mut [], scene.shapes_mut());
//! assert_eq!((freed.outcome, freed.deepest), (Outcome::Read, 1));
//! ```
#![no_std]

pub mod raw;

pub use raw::{MAX_POSITIONS, PositionSyntax};

/// The greatest input, in bytes.
pub const MAX_BYTES: usize = 8_388_608;

/// The greatest number of fields of a reading, and the words that each takes if recorded.
pub const MAX_FIELDS: usize = 16_384;
pub const FIELD_WORDS: usize = 5;

/// The greatest precision of a lent shape.
pub const MAX_PRECISION: usize = 24;

/// The greatest length of a name's text, in bytes.
pub const MAX_NAME: usize = 128;

/// How a call ended, with its number unless read.
#[derive(Clone, Copy, Debug, PartialEq, Eq)]
pub enum Outcome {
    Read,
    Refused(u64),
    Stopped(u64),
}

impl Outcome {
    /// The outcome of these words of an answer.
    fn new(outcome: u64, number: u64) -> Self {
        match outcome {
            0 => Self::Read,
            1 => Self::Refused(number),
            2 => Self::Stopped(number),
            other => unreachable!("outcome {other}"),
        }
    }
}

/// What a position, metadata, a name or new parents answer. The last two are read if they are
/// written.
#[derive(Clone, Copy, Debug, PartialEq, Eq)]
pub struct Answer {
    pub outcome: Outcome,
    /// In bits from the first bit of the input; the end, if read.
    pub position: usize,
    /// The fields counted, recorded or not; of a name the bytes of its text; of new parents the bits
    /// of their packet.
    pub counted: usize,
}

impl From<raw::GatewayAnswer> for Answer {
    fn from(answer: raw::GatewayAnswer) -> Self {
        Self {
            outcome: Outcome::new(answer.outcome, answer.number),
            position: answer.position,
            counted: answer.counted,
        }
    }
}

/// What a scene, an update or a validation answers.
#[derive(Clone, Copy, Debug, PartialEq, Eq)]
pub struct GraphAnswer {
    pub outcome: Outcome,
    /// As in [`Answer`].
    pub position: usize,
    /// The fields counted, recorded or not.
    pub counted: usize,
    /// The largest rank of the shapes, 0 unless read and where there are none.
    pub deepest: usize,
}

impl From<raw::GatewayGraphAnswer> for GraphAnswer {
    fn from(answer: raw::GatewayGraphAnswer) -> Self {
        Self {
            outcome: Outcome::new(answer.outcome, answer.number),
            position: answer.position,
            counted: answer.counted,
            deepest: answer.deepest,
        }
    }
}

/// What a scene answers. It is kept as the library gives it, so that its shapes are not copied.
#[derive(Clone, Debug, PartialEq, Eq)]
pub struct Scene(raw::GatewayScene);

impl Scene {
    pub fn answer(&self) -> GraphAnswer {
        self.0.answer.into()
    }

    /// The shapes of the declared positions; none unless the scene was read.
    pub fn shapes(&self) -> &[PositionSyntax] {
        &self.0.shapes[..self.0.count]
    }

    /// The same, to be lent to [`graph_update`].
    pub fn shapes_mut(&mut self) -> &mut [PositionSyntax] {
        &mut self.0.shapes[..self.0.count]
    }

    /// The shapes beyond the count, which are the default.
    pub fn beyond(&self) -> &[PositionSyntax] {
        &self.0.shapes[self.0.count..]
    }
}

/// Calls a reading with what every reading takes, and what this one takes more.
macro_rules! reading {
    ($function:ident($bytes:ident, $offset:ident, $recording:ident, $words:ident $(; $($more:expr),+)?)) => {
        // SAFETY: every pointer is that of a borrow, with its length. So what it points to is there
        // and aligned, is not null, and is apart from all that the call writes.
        unsafe {
            raw::$function(
                $bytes.as_ptr(),
                $bytes.len(),
                $offset,
                $recording,
                $words.as_mut_ptr(),
                $words.len(),
                $($($more),+)?
            )
        }
    };
}

/// Reads a scene, from the bit `offset` on. If `recording`, its fields are put into the words.
pub fn read_scene(bytes: &[u8], offset: usize, recording: bool, words: &mut [u64]) -> Scene {
    Scene(reading!(gateway_scene(bytes, offset, recording, words)))
}

/// Reads an update of these shapes, all of them, and changes them only if it is read. The largest
/// rank is that of the shapes that it leaves, 0 if it is refused.
pub fn graph_update(
    bytes: &[u8],
    offset: usize,
    recording: bool,
    words: &mut [u64],
    shapes: &mut [PositionSyntax],
) -> GraphAnswer {
    let (first, count) = (shapes.as_mut_ptr(), shapes.len());
    reading!(gateway_update(bytes, offset, recording, words; first, count)).into()
}

/// Reads one position alone, full or as of an update, and changes its shape only if it is read.
pub fn read_position(
    bytes: &[u8],
    offset: usize,
    recording: bool,
    words: &mut [u64],
    shape: &mut PositionSyntax,
    full: bool,
) -> Answer {
    reading!(gateway_position(bytes, offset, recording, words; shape, full)).into()
}

/// Reads a metadata configuration.
pub fn read_metadata(bytes: &[u8], offset: usize, recording: bool, words: &mut [u64]) -> Answer {
    reading!(gateway_metadata(bytes, offset, recording, words)).into()
}

/// Whether all positions have ranks, and the largest; the answer gives back the position `at`.
pub fn validate_graph(shapes: &[PositionSyntax], at: usize) -> GraphAnswer {
    // SAFETY: as for a reading.
    unsafe { raw::gateway_validation(shapes.as_ptr(), shapes.len(), at) }.into()
}

/// Writes the text of a name word into these bytes, and gives it back; it is empty if refused.
pub fn name_text(word: u64, bytes: &mut [u8]) -> (Answer, &str) {
    // SAFETY: as for a reading.
    let answer = unsafe { raw::gateway_name(word, bytes.as_mut_ptr(), bytes.len()) };
    let text = str::from_utf8(&bytes[..answer.counted]).expect("a text in ASCII");
    (answer.into(), text)
}

/// Writes the packet of fewest bits that gives the shapes new parents into these bytes, and gives its
/// own back; there are none if it is refused, and for no shapes. [`graph_update`] reads it.
pub fn write_parents<'p>(
    shapes: &[PositionSyntax],
    parents: &[usize],
    packet: &'p mut [u8],
) -> (Answer, &'p [u8]) {
    // SAFETY: as for a reading.
    let answer = unsafe {
        raw::gateway_parents(
            shapes.as_ptr(),
            shapes.len(),
            parents.as_ptr(),
            parents.len(),
            packet.as_mut_ptr(),
            packet.len(),
        )
    };
    (answer.into(), &packet[..answer.counted.div_ceil(8)])
}

/// The value of a field; of a payload the count of its bits, of a label that of its bytes.
#[derive(Clone, Copy, Debug, PartialEq, Eq)]
pub enum FieldValue {
    Flag(bool),
    Number(u64),
    Bits(u64),
    Bytes(u64),
}

/// A recorded field.
#[derive(Clone, Copy, Debug, PartialEq, Eq)]
pub struct Field {
    pub bit_offset: u64,
    pub bit_length: u64,
    pub value: FieldValue,
    /// A name word, for [`name_text`].
    pub name: u64,
}

impl Field {
    /// The field with this index, counted from 0; nothing where no five words make one.
    pub fn at(words: &[u64], index: usize) -> Option<Self> {
        let words = words.get(index.checked_mul(FIELD_WORDS)?..)?;
        let &[bit_offset, bit_length, kind, value, name] = words.first_chunk()?;
        let value = match (kind, value) {
            (0, 0 | 1) => FieldValue::Flag(value == 1),
            (1, _) => FieldValue::Number(value),
            (2, _) => FieldValue::Bits(value),
            (3, _) => FieldValue::Bytes(value),
            _ => return None,
        };
        Some(Self {
            bit_offset,
            bit_length,
            value,
            name,
        })
    }
}

/// The counted fields of a recording.
pub fn fields(words: &[u64], counted: usize) -> impl Iterator<Item = Field> {
    (0..counted).map_while(|index| Field::at(words, index))
}
