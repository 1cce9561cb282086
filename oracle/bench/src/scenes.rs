//! Scenes and their updates.
use crate::writer::Writer;
use gateway::MAX_POSITIONS;

/// The most extensions of a position that is read.
const MAX_EXTENSIONS: usize = 31;

/// The precisions of every position, as they are encoded.
const POSITION_PRECISION: u64 = 6;
const ROTATION_PRECISION: u64 = 4;

/// Bits of the coordinates, polar or not, and of the rotation, at these precisions.
const POLAR: [usize; 3] = [19, 18, 17];
const CARTESIAN: [usize; 3] = [18; 3];
const ROTATION: [usize; 4] = [16; 4];

/// How positions hang together: the parent of each, 0 for none.
type Parents = fn(position: usize) -> usize;

/// Two positions hang on each, the first on none.
pub fn tree(position: usize) -> usize {
    position / 2
}

/// Each position hangs on the one before it.
pub fn chain(position: usize) -> usize {
    position - 1
}

/// Each of 63 positions hangs on the one after it.
pub fn turned(position: usize) -> usize {
    (position + 1) % (MAX_POSITIONS + 1)
}

/// What the positions of an input declare.
#[derive(Clone, Copy)]
pub enum Content {
    /// Two of three are cartesian, every second is rotated, every eighth has an extension.
    Mixed,
    /// All that can be present is, with as many extensions as are read; the last position has so
    /// many more.
    Fullest { more: usize },
    /// Extensions that together take so many bytes.
    Large { bytes: usize },
}

/// A position of an input.
struct Position {
    parent: usize,
    polar: bool,
    rotated: bool,
    extensions: Vec<usize>,
}

impl Content {
    /// The position with this number, of so many.
    fn position(self, number: usize, count: usize, parents: Parents) -> Position {
        let mixed = matches!(self, Self::Mixed);
        Position {
            parent: parents(number),
            polar: mixed && number.is_multiple_of(3),
            rotated: !mixed || number.is_multiple_of(2),
            extensions: self.extensions(number, count),
        }
    }

    /// The bits of the payload of each extension.
    fn extensions(self, number: usize, count: usize) -> Vec<usize> {
        match self {
            Self::Mixed if number.is_multiple_of(8) => vec![100],
            Self::Mixed => vec![],
            Self::Fullest { more } if number == count => vec![16; MAX_EXTENSIONS + more],
            Self::Fullest { .. } => vec![16; MAX_EXTENSIONS],
            Self::Large { bytes } => vec![8 * bytes / count / 3; 3],
        }
    }
}

pub fn scene(count: usize, parents: Parents, content: Content) -> Vec<u8> {
    let mut writer = Writer::default();
    writer.put(count as u64, 6);
    for number in 1..=count {
        writer.flag(true);
        writer.flag(true);
        writer.put(POSITION_PRECISION, 4);
        writer.put(ROTATION_PRECISION, 4);
        write_position(&mut writer, &content.position(number, count, parents), true);
    }
    writer.into_bytes()
}

/// An update of the positions of such a scene that the closure names.
pub fn update(
    count: usize,
    parents: Parents,
    content: Content,
    updated: fn(usize) -> bool,
) -> Vec<u8> {
    let mut writer = Writer::default();
    for number in 1..=count {
        if writer.flag(updated(number)) {
            write_position(
                &mut writer,
                &content.position(number, count, parents),
                false,
            );
        }
    }
    writer.into_bytes()
}

/// A position after its flags and precisions. In an update, parent, range and coordinates are all
/// given anew.
fn write_position(writer: &mut Writer, position: &Position, full: bool) {
    let asked = usize::from(!full);
    writer.put(1, asked);
    writer.flag(false);
    writer.put(position.parent as u64, 6);
    writer.put(1, asked);
    writer.any(&[4]);
    writer.flag(true);
    writer.put(0, asked);
    let polar = writer.flag(position.polar);
    writer.any(if polar { &POLAR } else { &CARTESIAN });
    if writer.flag(position.rotated) {
        writer.put(0, asked);
        writer.any(&ROTATION);
    }
    if writer.flag(!position.extensions.is_empty()) {
        write_extensions(writer, &position.extensions);
    }
}

/// Extensions with payloads of so many bits; type 0 ends them unless they are too many.
fn write_extensions(writer: &mut Writer, payloads: &[usize]) {
    for &bits in payloads {
        writer.put(1, 4);
        let width = bits.next_power_of_two().ilog2().max(4) as usize;
        writer.put(width as u64 - 4, 4);
        writer.put(bits as u64 - 1, width);
        writer.payload(bits);
    }
    if payloads.len() <= MAX_EXTENSIONS {
        writer.put(0, 4);
    }
}
