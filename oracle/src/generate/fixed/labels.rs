//! Scripts with a label, each of the one form that such a script can have.
use crate::generate::batch::Batch;
use crate::generate::drafts::metadata::{write_label, write_resource};
use crate::generate::drafts::scripts::named;
use crate::generate::drafts::{Draft, drafted};
use crate::generate::variants::Good;
use crate::label;
use crate::request::Question;
use crate::rng::Rng;

/// Short labels with every cut, long ones around their limit.
pub fn labels(batch: &mut Batch<'_>) {
    for length in [0, 1, 2, 5] {
        let script = labelled(batch.rng, length);
        batch.every_cut(&script);
        batch.every_offset(&script);
        batch.every_room(&script);
    }
    for length in [4_095, 4_096, 4_097, 4_100] {
        let script = labelled(batch.rng, length);
        batch.every_offset(&script);
        let bits = script.bits.len();
        for inside in [20, 30, 40, 4_000, 32_000] {
            batch.cut_at(&script, inside);
        }
        for end in bits - 60..=bits {
            batch.cut_at(&script, end);
        }
    }
}

/// The script of a metadata configuration that holds a label of so many non-zero bytes.
pub fn labelled(rng: &mut Rng, length: usize) -> Good {
    let ops = label::FORM.map(|action| named(rng, action, 1));
    let bits = drafted(rng, |d| write_labelled(d, length));
    Good {
        question: Question::Fields(ops.to_vec()),
        bits,
    }
}

fn write_labelled(d: &mut Draft<'_>, length: usize) {
    d.put(0b011, 3);
    d.put(1, 4);
    d.put(9, 4);
    write_resource(d);
    write_label(d, length);
    d.put(0, 8);
    d.any(4);
    d.put(0, 8);
    d.put(0, 4);
}
