//! Readings of random structures, each with what can be made of it.
use crate::generate::batch::Batch;
use crate::generate::drafts::metadata::{self, Metadata};
use crate::generate::drafts::{compression, positions, renderer};
use crate::generate::variants::{Drafted, Good};
use crate::rng::Rng;
use std::ops::RangeInclusive;

/// The most fields of an input that is asked for with every cut or room.
const SMALL: usize = 60;

/// Scenes, updates and positions called alone.
pub fn scenes_and_updates(batch: &mut Batch<'_>) {
    for draft in [positions::scene, positions::update, positions::alone] {
        for _ in 0..1_800 {
            let good = draft(batch.rng);
            batch.around(&good);
        }
        for _ in 0..60 {
            let good = small(batch.rng, draft);
            batch.every_cut(&good);
            batch.every_offset(&good);
            batch.rooms_near(&good);
        }
        for _ in 0..20 {
            let good = small(batch.rng, draft);
            batch.every_room(&good);
        }
    }
}

/// A draft of few fields, so that all its cuts and rooms can be asked for.
pub fn small(rng: &mut Rng, draft: Drafted) -> Good {
    of_fields(rng, draft, 0..=SMALL)
}

/// A draft of so many fields.
pub fn of_fields(rng: &mut Rng, draft: Drafted, fields: RangeInclusive<usize>) -> Good {
    loop {
        let good = draft(rng);
        if fields.contains(&good.fields().len()) {
            return good;
        }
    }
}

/// Metadata of mixed parts.
pub fn configurations(batch: &mut Batch<'_>) {
    for _ in 0..5_000 {
        let good = metadata::some(batch.rng);
        batch.around(&good);
    }
    for _ in 0..40 {
        let good = small(batch.rng, metadata::some);
        batch.every_cut(&good);
        batch.every_room(&good);
    }
}

/// Metadata of one part, for each kind of parameter, compression and group.
pub fn each_kind(batch: &mut Batch<'_>) {
    for _ in 0..3 {
        for good in one_of_each(batch.rng) {
            batch.every_cut(&good);
            batch.every_offset(&good);
            batch.rooms_near(&good);
            batch.around(&good);
        }
    }
}

pub fn one_of_each(rng: &mut Rng) -> Vec<Good> {
    let mut list = Vec::new();
    for kind in 0..=metadata::KINDS {
        let parameter = metadata::parameter(rng, kind);
        list.push(Metadata::with_parameters(vec![parameter]));
    }
    let mut rendered = renderer::one_of_each_type(rng);
    rendered.extend((0..=renderer::KINDS).map(|kind| renderer::parameter(rng, kind)));
    for parameter in rendered {
        list.push(Metadata::with_renderer(rng, &[parameter]));
    }
    for kind in 0..8 {
        list.push(Metadata::with_parameters(vec![metadata::hrtf(rng, kind)]));
        list.push(Metadata::with_compression(compression::section(rng, kind)));
        let groups = [metadata::component_group(rng, kind), metadata::group(rng)];
        list.extend(groups.map(|group| Metadata::with_groups(vec![group])));
    }
    list.iter().map(|metadata| metadata.good(rng)).collect()
}
