//! Lists of the fixed shows' parts.
use super::shows::sound;
use crate::bits::Bits;
use crate::driver::{FIELD_WORDS, most_fields};
use crate::generate::batch::{Batch, Record};
use crate::request::{Input, List};
use crate::show::parts;

/// The most updates of a list.
pub const MOST: u64 = 200;

/// The parts of the fixed shows as packets, from every bit of a byte on, with room for the fields of
/// each and with a word less.
pub fn lists(batch: &mut Batch<'_>) {
    for file in sound() {
        let mut parts = parts(&file).expect("a sound header");
        parts.truncate(1 + MOST as usize);
        for lead in 0..8 {
            let after = |part: &&[u8]| after_ones(&Bits::from(*part), lead);
            let list = listed(parts.iter().map(after).collect());
            let enough = enough(&list);
            batch.list(list.clone(), Record::Room(enough));
            batch.list(list, Record::Room(enough.saturating_sub(1)));
        }
    }
}

/// The bits after so many ones.
pub fn after_ones(bits: &Bits, lead: usize) -> Input {
    let mut after = Bits::default();
    after.put(u64::MAX, lead);
    after.append(bits);
    Input {
        offset: lead as u64,
        bytes: after.bytes(),
    }
}

/// The words that the packet of the most fields takes.
pub fn enough(list: &List) -> u32 {
    FIELD_WORDS * most_fields(list) as u32
}

/// The first packet as a scene, and the others as its updates.
pub fn listed(mut packets: Vec<Input>) -> List {
    List {
        recording: false,
        room: 0,
        scene: packets.remove(0),
        updates: packets,
    }
}
