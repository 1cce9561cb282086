//! Random scripts, each with what can be made of it.
use crate::generate::batch::Batch;
use crate::generate::drafts::scripts::some_script;

pub fn scripts(batch: &mut Batch<'_>) {
    for _ in 0..3_000 {
        let script = some_script(batch.rng, 8);
        batch.around(&script);
    }
    for _ in 0..100 {
        let script = some_script(batch.rng, 8);
        batch.every_cut(&script);
        batch.rooms_near(&script);
    }
    for _ in 0..60 {
        let script = some_script(batch.rng, 5);
        batch.every_room(&script);
        batch.every_offset(&script);
    }
}
