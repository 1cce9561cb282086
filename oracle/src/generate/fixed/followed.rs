//! Show files in which bits follow the end of a part: such as may, and such as are refused; two packets
//! in one part; and after a part that is refused others that tell whether the shapes stayed.
//!
//! They take nothing from the random numbers of a batch, so that no other request depends on them.
use super::boundaries::bytes;
use super::graphs::{one_on, scene_on, update_on, write_head, written};
use super::shows::{File, Packet, file};
use crate::bits::Bits;
use crate::driver::GREATEST_COUNT;
use crate::generate::drafts::positions::EXTENSIONS;
use std::iter;
use std::ops::RangeInclusive;

/// The most whole bytes after the last byte of a packet.
const BYTES_MORE: usize = 2;

/// How many positions there are where an update that hangs one of them takes 13 to 20 bits, and so
/// ends at every place within a byte.
const COUNTS: RangeInclusive<usize> = 2..=9;

/// Document 01's scene, whose second position hangs on the first, and updates of it: one frees the
/// second, one hangs the first on it, which closes a circle unless it is free.
const SCENE: &str = "0a0080800080";
const FREE: &str = "70";
const CLOSE: &str = "c100";

/// All that are written out here.
pub fn shows() -> Vec<File> {
    [
        updates(),
        scenes(),
        joined_updates(),
        joined_scenes(),
        no_positions(),
        refused(),
        shapes_from_before(),
        vec![greatest()],
    ]
    .concat()
}

/// What can follow a packet up to the end of its last byte and so many whole bytes: zeros, and then a
/// 1 in each place.
fn rests(packet: &Bits, bytes_more: usize) -> Vec<Bits> {
    let mut zeros = Bits::default();
    zeros.put(0, packet.spare() + 8 * bytes_more);
    let ones = (0..zeros.len()).map(|place| {
        let mut bits = zeros.clone();
        bits.flip(place);
        bits
    });
    iter::once(zeros.clone()).chain(ones).collect()
}

fn followed(packet: &Bits, rest: &Bits) -> Packet {
    let mut bits = packet.clone();
    bits.append(rest);
    bits.bytes()
}

/// Updates that end at every place within a byte, with every rest. Those that are refused would hang
/// the first position on the second. Then one comes that hangs the second on the first, with zeros up
/// to the end of its byte: it closes a circle if any before it was accepted.
fn updates() -> Vec<File> {
    let mut files = Vec::new();
    for count in COUNTS {
        let [hung, last] = [one_on(count, 1, 2), one_on(count, 2, 1)];
        for bytes_more in 0..=BYTES_MORE {
            let mut rests = rests(&hung, bytes_more);
            if bytes_more == 0 {
                rests.remove(0);
            }
            let mut parts = vec![scene_on(&vec![0; count], 0).bytes()];
            parts.extend(rests.iter().map(|rest| followed(&hung, rest)));
            parts.push(last.bytes());
            files.push(file(&parts));
        }
    }
    files
}

/// Scenes that end at every place within a byte: with every rest up to the end of the byte, and with a
/// byte more, of zeros or with a 1 as its first or last bit. An update follows.
fn scenes() -> Vec<File> {
    let mut files = Vec::new();
    for length in 1..=8 {
        let scene = scene_with(length);
        let long = rests(&scene, 1);
        let first = long.len() - 8;
        let some = [&long[0], &long[first], &long[long.len() - 1]];
        for rest in rests(&scene, 0).iter().chain(some) {
            files.push(file(&[followed(&scene, rest), vec![0]]));
        }
    }
    files
}

/// A scene of one position with an extension whose payload has so many bits, all of them 1.
fn scene_with(length: usize) -> Bits {
    written(|d| {
        d.put(1, 6);
        write_head(d, 0);
        d.put(0b001, 3);
        d.put(0b0001_0000, 8);
        d.put(length as u64 - 1, 4);
        d.put(u64::MAX, length);
        d.put(0, 4);
    })
}

/// Two packets as one part, the second in the next byte, and right after the last bit of the first.
fn joined(first: &Bits, second: &Bits) -> [Packet; 2] {
    let bytes = [first.bytes(), second.bytes()].concat();
    [bytes, followed(first, second)]
}

/// Two updates in one part, and others that tell whether the first was accepted: it would hang the
/// first position on the second, so that the next part would close a circle. Then one part frees the
/// second position and has another update after that, which changes nothing and is all zeros. Where
/// these and the zeros after them are fewer than eight, the last part closes no circle.
fn joined_updates() -> Vec<File> {
    let mut files = Vec::new();
    for count in COUNTS {
        let hung = |one, parent| one_on(count, one, parent);
        let still = update_on(&vec![None; count], 0);
        let two = joined(&hung(1, 2), &hung(2, 0));
        let free = joined(&hung(2, 0), &still);
        for (two, free) in iter::zip(two, free) {
            files.push(file(&[
                scene_on(&vec![0; count], 0).bytes(),
                two,
                hung(2, 1).bytes(),
                free,
                hung(1, 2).bytes(),
            ]));
        }
    }
    // Both are the same where the first packet ends with a byte.
    files.dedup();
    files
}

/// A scene and an update, or two scenes, in part 0, and an update after them.
fn joined_scenes() -> Vec<File> {
    let scene = scene_on(&[0, 1], 0);
    let parts = [one_on(2, 2, 0), scene.clone()].map(|second| joined(&scene, &second));
    let parts = parts.into_iter().flatten();
    parts.map(|part| file(&[part, bytes(FREE)])).collect()
}

/// Where there are no positions an update has no bits. A scene of none has six.
fn no_positions() -> Vec<File> {
    let parts = ["00", "-", "00", "-", "80", "01", "0000", "-"].map(bytes);
    let scenes = ["01", "02", "03", "0000", "0001", "00ff"];
    let mut files = vec![file(&parts)];
    files.extend(scenes.map(|scene| file(&[bytes(scene), vec![]])));
    files
}

/// Packets that their readings refuse, updates by 3, 7, 8 and 9 and scenes by 6 too, and bits after
/// that place.
fn refused() -> Vec<File> {
    let hung = [[Some(3), None], [None, Some(63)], [Some(2), None]];
    let updates = hung.map(|parents| update_on(&parents, 0));
    let mut parts = vec![bytes(SCENE), bytes("c1")];
    parts.extend(with_more(&update_on(&[None; 2], EXTENSIONS)));
    parts.extend(updates.iter().flat_map(with_more));
    parts.extend([FREE, CLOSE].map(bytes));
    let scenes = [
        scene_on(&[0, 1], EXTENSIONS),
        scene_on(&[0, 3], 0),
        scene_on(&[2, 1], 0),
    ];
    let short = ["040001", "04ff"].map(bytes);
    let scenes = scenes.iter().flat_map(with_more).chain(short);
    let mut files = vec![file(&parts)];
    files.extend(scenes.map(|scene| file(&[scene, bytes(FREE)])));
    files
}

/// The packet with a 1 as the last bit of its last byte, unless that is its own; with a byte of zeros;
/// and with a byte more whose last bit is 1.
fn with_more(packet: &Bits) -> [Packet; 3] {
    let [short, long] = [0, 1].map(|bytes_more| rests(packet, bytes_more));
    let some = [short.last(), long.first(), long.last()];
    some.map(|rest| followed(packet, rest.expect("zeros")))
}

/// Parts that are refused, and parts that would be read otherwise if those had been accepted: by a
/// free position that closes no circle, or by coordinates that are polar or not.
fn shapes_from_before() -> Vec<File> {
    let mut files = Vec::new();
    for part in with_more(&one_on(2, 2, 0)) {
        let parts = [bytes(SCENE), part, bytes(CLOSE), bytes(FREE), bytes(CLOSE)];
        files.push(file(&parts));
    }
    let [plain, polar] = [false, true].map(coordinates);
    // Coordinates that are changed, not set: three numbers, or two if they are polar.
    let changed = bytes("b000");
    for (before, after) in [(&plain, &polar), (&polar, &plain)] {
        let mut parts = vec![scene_on(&[0], 0).bytes(), before.bytes(), changed.clone()];
        for part in with_more(after).into_iter().chain(joined(after, after)) {
            parts.extend([part, changed.clone()]);
        }
        parts.extend([after.bytes(), changed.clone()]);
        files.push(file(&parts));
    }
    files
}

/// An update of one position that sets its coordinates, polar or not.
fn coordinates(polar: bool) -> Bits {
    written(|d| {
        d.put(0b1010, 4);
        d.flag(polar);
        d.put(0, 7 + 6 + 5 + 2);
    })
}

/// An update of 63 positions that changes nothing: a 0 follows, or a 1, or a byte and one bit.
fn greatest() -> File {
    let scene = scene_on(&[0; GREATEST_COUNT], 0).bytes();
    let still = update_on(&[None; GREATEST_COUNT], 0);
    let mut parts = vec![scene, still.bytes()];
    parts.extend(with_more(&still));
    file(&parts)
}
