//! Show files that are fixed: every fault and limit of the header, refusals of each kind, the
//! greatest graphs, document 01's show with what becomes of it, and those with `followed` parts.
//!
//! They take nothing from the random numbers of a batch, so that no other request depends on them.
use super::boundaries::{bytes, fullest};
use super::followed;
use super::graphs::{one_on, pairs, scene_on, update_on, write_head, written};
use crate::bits::Bits;
use crate::driver::GREATEST_COUNT;
use crate::generate::batch::Batch;
use crate::generate::drafts::positions::EXTENSIONS;
use crate::rng::Rng;
use crate::show::{COUNT_BYTES, GREATEST_FILE, GREATEST_PARTS, OFFSET_BYTES, header_length};
use std::slice;

pub type File = Vec<u8>;
pub type Packet = Vec<u8>;

/// The parts of document 01's show.
const EXAMPLE: [&str; 4] = ["0a0080800080", "c100", "70", "c100"];

/// Too few bytes for a count, no parts, and headers of one part with another count.
const COUNTS: [&str; 12] = [
    "-",
    "00",
    "01",
    "0000",
    "0001",
    "00000000000200",
    "00000000000600",
    "01000000000600",
    "01010000000600",
    "02010000000600",
    "ff010000000600",
    "ffff0000000600",
];

/// Bits of the type of an extension, and of its greatest length.
const TYPE_BITS: usize = 4;
const LENGTH_BITS: usize = 19;

/// All that are written out here.
pub fn shows(batch: &mut Batch<'_>) {
    small().into_iter().for_each(|file| batch.show(file));
    large().into_iter().for_each(|(file, _)| batch.show(file));
}

/// A file of these parts. Its header is sound, unless there are too many.
pub fn file(parts: &[Packet]) -> File {
    let mut file = (parts.len() as u16).to_be_bytes().to_vec();
    let mut offset = header_length(parts.len());
    for part in parts {
        file.extend((offset as u32).to_be_bytes());
        offset += part.len();
    }
    file.extend(parts.concat());
    file
}

/// The file with another offset of a part.
pub fn with_offset(file: &[u8], part: usize, offset: usize) -> File {
    let mut file = file.to_vec();
    let at = COUNT_BYTES + OFFSET_BYTES * part;
    file[at..at + OFFSET_BYTES].copy_from_slice(&(offset as u32).to_be_bytes());
    file
}

/// All that are not large.
pub fn small() -> Vec<File> {
    [unsound(), sound(), around_the_example(), followed::shows()].concat()
}

/// Files whose header is not sound.
pub fn unsound() -> Vec<File> {
    let mut files = COUNTS.map(bytes).to_vec();
    files.extend([257, 258, 300, 512, 513].map(many));
    let header = file(&[vec![], vec![], vec![]]);
    files.extend((0..header.len()).map(|length| header[..length].to_vec()));
    files.extend([1, 3].into_iter().flat_map(other_beginnings));
    files.extend(other_offsets());
    files
}

/// A scene of no positions, and then parts without a byte; so many in all.
fn many(count: usize) -> File {
    let mut parts = vec![vec![]; count];
    parts[0] = vec![0];
    file(&parts)
}

/// Files of so many parts whose first offset is not the length of the header. The first part is
/// long, so that most of these offsets stand inside it.
fn other_beginnings(count: usize) -> Vec<File> {
    let mut parts = vec![vec![0]; count];
    parts[0] = vec![0; 300];
    let whole = file(&parts);
    let header = header_length(count);
    let near = [header - 4, header - 1, header + 1, header + 4];
    let moved = [8, 16, 24].map(|bit| header << bit);
    let beside = [8, 16, 24].map(|bit| header ^ 1 << bit);
    let offsets = [&near[..], &moved, &beside, &[0, u32::MAX as usize]].concat();
    let files = offsets.into_iter();
    files.map(|offset| with_offset(&whole, 0, offset)).collect()
}

/// Document 01's show with one of the later offsets before the one that it follows, or past the end.
fn other_offsets() -> Vec<File> {
    let whole = file(&example());
    let mut before = header_length(EXAMPLE.len());
    let mut files = Vec::new();
    for (part, packet) in example().iter().enumerate().skip(1) {
        for offset in [0, before - 1, whole.len() + 1, u32::MAX as usize] {
            files.push(with_offset(&whole, part, offset));
        }
        before += packet.len();
    }
    files
}

fn example() -> [Packet; 4] {
    EXAMPLE.map(bytes)
}

/// Files with a sound header.
pub fn sound() -> Vec<File> {
    let plain = [
        vec![vec![]],
        example().to_vec(),
        vec![vec![0; 300], vec![0]],
    ];
    let mut files: Vec<File> = plain.iter().map(|parts| file(parts)).collect();
    files.extend([1, 2, 255, GREATEST_PARTS].map(many));
    files.push(file(&["00", "-", "ff", "00", "ff00ff"].map(bytes)));
    files.extend(empty_parts());
    files.extend(longer_parts());
    files.extend(refused_scenes());
    files.extend(refused_updates());
    files.extend(graphs());
    files.extend(most_fields());
    files.push(many_updates());
    files
}

/// Document 01's show with one and with two parts without a byte, in every place.
fn empty_parts() -> Vec<File> {
    let mut files = Vec::new();
    for place in 0..=EXAMPLE.len() {
        let mut parts = example().to_vec();
        for _ in 0..2 {
            parts.insert(place, vec![]);
            files.push(file(&parts));
        }
    }
    files
}

/// Document 01's show with ones after the end of each part: bits, whole bytes, both.
fn longer_parts() -> [File; 3] {
    let bits = ["0a0080800080", "c107", "71", "c107"].map(bytes);
    let ones = |part: Packet| [part, vec![0xff; 9]].concat();
    let (long, both) = (example().map(ones), bits.clone().map(ones));
    [bits, long, both].map(|parts| file(&parts))
}

/// Scenes that end in 3, 6, 7, 8 and 9, and one of the most extensions, alone and before updates.
fn refused_scenes() -> Vec<File> {
    let mut scenes = ["-", "040000", "04", "04000400"].map(bytes).to_vec();
    scenes.extend([EXTENSIONS - 1, EXTENSIONS].map(|count| scene_on(&[0, 1], count).bytes()));
    scenes.extend([&[0, 3][..], &[1], &[2, 1]].map(|parents| scene_on(parents, 0).bytes()));
    let mut files = Vec::new();
    for scene in scenes {
        let mut parts = example();
        parts[0] = scene.clone();
        files.extend([file(&[scene]), file(&parts)]);
    }
    files
}

/// Updates that end in 3, 7, 8 and 9, and one of the most extensions, in every place of document
/// 01's show.
fn refused_updates() -> Vec<File> {
    let short = bytes("c1");
    let extended = [EXTENSIONS - 1, EXTENSIONS].map(|count| update_on(&[None; 2], count).bytes());
    let hung = [[Some(3), None], [None, Some(63)], [None, Some(2)]];
    let hung = hung.map(|parents| update_on(&parents, 0).bytes());
    let mut files = Vec::new();
    for update in [&[short], &extended[..], &hung].concat() {
        for place in 1..=EXAMPLE.len() {
            let mut parts = example().to_vec();
            parts.insert(place, update.clone());
            files.push(file(&parts));
        }
    }
    files
}

/// Each form of 63 positions alone, and with updates that hang the first position on the last and
/// all of them as the next form has them. And 62, of which one leaves the declared numbers, closes
/// a circle, is hung elsewhere.
fn graphs() -> Vec<File> {
    let mut files = Vec::new();
    for (form, next) in pairs() {
        let scene = scene_on(&form, 0).bytes();
        let all: Vec<Option<u64>> = next.into_iter().map(Some).collect();
        let first_on_last = one_on(GREATEST_COUNT, 1, GREATEST_COUNT as u64);
        let updates = [first_on_last, update_on(&all, 0)].map(|update| update.bytes());
        files.push(file(slice::from_ref(&scene)));
        files.push(file(&[&[scene], &updates[..]].concat()));
    }
    let fewer = GREATEST_COUNT - 1;
    let chain: Vec<u64> = (0..fewer as u64).collect();
    let scene = scene_on(&chain, 0).bytes();
    let updates =
        [(1, 63), (1, 62), (62, 7)].map(|(one, parent)| one_on(fewer, one, parent).bytes());
    files.push(file(&[&[scene], &updates[..]].concat()));
    files
}

/// 63 positions of the most fields, and an update of the most fields; the last position has the most
/// extensions, or one too many.
fn most_fields() -> Vec<File> {
    let dynamic = written(|d| {
        d.put(GREATEST_COUNT as u64, 6);
        for _ in 0..GREATEST_COUNT {
            d.put(0b11_0000_0000, 10);
            d.put(0, 7 + 4 + 3);
        }
    });
    let mut files = Vec::new();
    for last in [EXTENSIONS - 1, EXTENSIONS] {
        let [scene, update] = fullest(&mut Rng::new(1), last).map(|good| good.bits.bytes());
        files.push(file(&[scene]));
        files.push(file(&[dynamic.bytes(), update]));
    }
    files
}

/// 63 positions and the most parts, each of which hangs a position elsewhere or is refused.
fn many_updates() -> File {
    let mut parts = vec![scene_on(&[0; GREATEST_COUNT], 0).bytes()];
    for i in 1..GREATEST_PARTS {
        let one = 1 + i % GREATEST_COUNT;
        parts.push(one_on(GREATEST_COUNT, one, 7 * i as u64 % 64).bytes());
    }
    file(&parts)
}

/// Document 01's show cut after every byte, with every bit turned, with each offset anywhere.
fn around_the_example() -> Vec<File> {
    let whole = file(&example());
    let mut files: Vec<File> = (0..whole.len()).map(|end| whole[..end].to_vec()).collect();
    for bit in 0..8 * whole.len() {
        let mut bits = Bits::from(whole.as_slice());
        bits.flip(bit);
        files.push(bits.bytes());
    }
    for part in 0..EXAMPLE.len() {
        files.extend((0..=whole.len() + 1).map(|offset| with_offset(&whole, part, offset)));
    }
    files
}

/// Files around the greatest size and much larger, each with the number that it must give.
pub fn large() -> Vec<(File, u8)> {
    let most = GREATEST_FILE;
    let past = |length| with_offset(&filled(length), 2, length + 1);
    let late = |length| with_offset(&padded(length), 0, header_length(EXAMPLE.len()) + 1);
    vec![
        (filled(most - 1), 0),
        (filled(most), 0),
        (filled(most + 1), 23),
        (past(most - 1), 24),
        (past(most), 24),
        (past(most + 1), 23),
        (padded(most), 0),
        (padded(most + 1), 23),
        (padded(200_000), 23),
        (late(most), 24),
        (late(most + 1), 23),
        (late(200_000), 23),
        (vec![0; most], 24),
        (vec![0; most + 1], 23),
        (vec![0xff; most], 24),
        (many(16_383), 24),
        (many(16_384), 23),
    ]
}

/// Document 01's show, with zeros after its last part up to so many bytes.
fn padded(length: usize) -> File {
    let mut whole = file(&example());
    whole.resize(length, 0);
    whole
}

/// A show of so many bytes: a scene of one position with an extension of zeros up to its last bit, an
/// update of one byte, and an update without a byte, so that its offset is the length of the file.
pub fn filled(length: usize) -> File {
    let update = vec![0];
    let end = 8 * (length - header_length(3) - update.len());
    let mut scene = written(|d| {
        d.put(1, 6);
        write_head(d, 0);
        d.put(0b001, 3);
        d.put(0b0001_1111, 8);
    });
    let payload = end - scene.len() - LENGTH_BITS - TYPE_BITS;
    scene.put(payload as u64 - 1, LENGTH_BITS);
    (0..payload + TYPE_BITS).for_each(|_| scene.push(false));
    file(&[scene.bytes(), update, vec![]])
}
