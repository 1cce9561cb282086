//! The sample of requests. That of seed 1 is stored in the repository, so it is kept small.
use super::Part;
use super::batch::{Batch, Record};
use super::drafts::positions::{EXTENSIONS, alone, scene, scene_of, shapes_of, update, update_of};
use super::drafts::scripts::some_script;
use super::drafts::{metadata, renderer};
use super::fixed::boundaries::{
    examples, extended_graphs, extended_position, precisions, shape_counts,
};
use super::fixed::corners::corners;
use super::fixed::graphs::{changes, scenes, steps, validations};
use super::fixed::labels::labelled;
use super::fixed::names::{AMPLE, greatest, length};
use super::fixed::parents::{broken, corners as corners_of_parents, exactly_and_short};
use super::fixed::reads;
use super::fixed::scripts::limits;
use super::fixed::shows::{filled, small as small_shows};
use super::fixed::validations::every_list;
use super::random::names::{beyond, known, some_room};
use super::random::parents::wanted_of;
use super::random::readings::{of_fields, one_of_each, small};
use super::random::shows::short_show;
use super::random::validations::{list_of, some_list};
use super::variants::{Drafted, Good};
use crate::answer::Field;
use crate::driver::GREATEST_COUNT;
use crate::names::{template_of, templates, text, word};
use crate::record::record;
use crate::request::Request;
use crate::rng::Rng;
use crate::show::GREATEST_FILE;
use std::collections::BTreeSet;
use std::slice;

/// In the order in which they draw from the seed.
pub const PARTS: [Part; 7] = [
    scripts,
    reads::few,
    readings,
    metadata,
    names,
    shows,
    parents,
];

/// About how large the records are: of scripts, of the drafts of each reading, of validations, of
/// metadata, of random shows and of random new parents.
const SCRIPTS: usize = 118_000;
const DRAFTS: usize = 22_000;
const VALIDATIONS: usize = 22_000;
const METADATA: usize = 115_000;
const SHOWS: usize = 10_000;
const PARENTS: usize = 15_000;

/// The most positions of random new parents.
const FEW_POSITIONS: u64 = 10;

/// Records of more bytes are mostly replaced by such without fields.
const LONG: usize = 250;

/// How often each number of a reading is reached at least.
const ENOUGH: usize = 5;

/// Corners and kinds of more fields are asked for without them.
const FEW: usize = 40;

/// The most bits of metadata that is asked for with every cut.
const SHORT: usize = 160;

/// All limits, a few labels, and small scripts as long as they fit.
fn scripts(batch: &mut Batch<'_>) {
    limits(batch);
    few_labels(batch);
    let script = some_script(batch.rng, 3);
    batch.every_cut(&script);
    batch.rooms_near(&script);
    fill(batch, 0, SCRIPTS, |batch| {
        let script = some_script(batch.rng, 4);
        batch.somewhere(&script);
        batch.cut_somewhere(&script);
    });
}

/// A short label with its cuts, and the greatest one and the next.
fn few_labels(batch: &mut Batch<'_>) {
    let script = labelled(batch.rng, 2);
    for cut in (0..=script.bits.len()).step_by(5) {
        batch.cut_at(&script, cut);
    }
    for (length, lead) in [(4_096, 6), (4_097, 3)] {
        let script = labelled(batch.rng, length);
        batch.at(&script, lead, Record::Ample);
    }
}

/// Scenes, updates, positions and validations.
fn readings(batch: &mut Batch<'_>) {
    for good in examples() {
        every_lead(batch, &good);
    }
    shape_counts(batch, &[GREATEST_COUNT + 1]);
    precisions(batch);
    extensions(batch);
    widest(batch);
    for draft in [scene, update] {
        for number in [8, 9] {
            for _ in 0..ENOUGH {
                let good = ending(batch.rng, number, |rng| small(rng, draft));
                batch.at(&good, 2, Record::Off);
            }
        }
    }
    for draft in [scene, update, alone] {
        let from = batch.requests.len();
        few_fields(batch, draft);
        fill(batch, from, DRAFTS, |batch| around_one(batch, draft));
    }
    let from = batch.requests.len();
    every_list(batch, 3);
    for count in GREATEST_COUNT..=GREATEST_COUNT + ENOUGH {
        list_of(batch, count);
    }
    fill(batch, from, VALIDATIONS, some_list);
    graphs(batch);
}

/// From every bit of a byte on, once with its fields.
fn every_lead(batch: &mut Batch<'_>, good: &Good) {
    batch.at(good, 0, Record::Ample);
    (1..8).for_each(|lead| batch.at(good, lead, Record::Off));
}

/// A draft that ends in the number.
fn ending(rng: &mut Rng, number: u8, draft: impl Fn(&mut Rng) -> Good) -> Good {
    loop {
        let good = draft(rng);
        if good.answer().verdict.number == number {
            return good;
        }
    }
}

/// Metadata: its corners, every kind of part, and drafts as long as they fit.
fn metadata(batch: &mut Batch<'_>) {
    let from = batch.requests.len();
    every_corner(batch);
    every_name(batch);
    few_fields(batch, short_metadata);
    fill(batch, from, METADATA, |batch| {
        around_one(batch, metadata::some)
    });
}

/// Every corner at one of its offsets; the first that gives a number at several, once with its
/// fields if they are few.
fn every_corner(batch: &mut Batch<'_>) {
    let mut met = BTreeSet::new();
    for corner in corners(batch.rng) {
        let leads = corner.leads();
        if !met.insert(corner.number) {
            let lead = batch.rng.pick(&leads);
            batch.at(&corner.good, lead, Record::Off);
            continue;
        }
        let few = corner.good.fields().len() <= FEW;
        let mut record = if few { Record::Ample } else { Record::Off };
        for lead in leads.into_iter().take(ENOUGH) {
            batch.at(&corner.good, lead, record);
            record = Record::Off;
        }
    }
}

/// Every kind of part, with its fields if it tells a kind that was not told before, or if they are
/// few and have a name that was not recorded before; and more until every name was.
fn every_name(batch: &mut Batch<'_>) {
    let mut left = names_of_metadata();
    let mut kinds = BTreeSet::new();
    let mut first = true;
    while first || !left.is_empty() {
        for good in one_of_each(batch.rng) {
            let fields = good.fields();
            let few = fields.len() <= FEW;
            let mut new = false;
            for Field { name, value, .. } in fields {
                let template = template_of(word(&name).expect("a name with a word"));
                let kind = name.contains("parameters[") && name.ends_with("].id");
                new |= kind && kinds.insert((template, value.min(renderer::KINDS)));
                new |= few && left.remove(&template);
            }
            if first || new {
                let lead = batch.rng.below(8) as usize;
                batch.at(&good, lead, if new { Record::Ample } else { Record::Off });
            }
        }
        first = false;
    }
}

/// Block and leaf of every name of metadata.
fn names_of_metadata() -> BTreeSet<u64> {
    let names = templates().iter().filter(|template| {
        let name = text(template.word([0; 4])).expect("a template's text");
        name.starts_with("ancillary.metadata.")
    });
    names.map(|template| template.number).collect()
}

/// Metadata of few bits, so that most cuts leave more than a part of its first payload.
fn short_metadata(rng: &mut Rng) -> Good {
    loop {
        let good = metadata::some(rng);
        if good.bits.len() <= SHORT {
            return good;
        }
    }
}

/// Every template with enough bytes and with one too few, and unknown words.
fn names(batch: &mut Batch<'_>) {
    for template in templates() {
        let word = template.word(greatest(template));
        batch.name(word, length(word));
        batch.name(word, length(word) - 1);
        let word = known(batch.rng, template);
        batch.name(word, AMPLE);
    }
    for _ in 0..60 {
        let word = beyond(batch.rng);
        let room = some_room(batch.rng, word);
        batch.name(word, room);
    }
    for word in [0, u64::MAX] {
        batch.name(word, AMPLE);
    }
    for _ in 0..20 {
        let word = batch.rng.next();
        batch.name(word, AMPLE);
    }
}

/// The fixed ones, but of the large files two only, and short random ones.
fn shows(batch: &mut Batch<'_>) {
    small_shows().into_iter().for_each(|file| batch.show(file));
    batch.show(filled(GREATEST_FILE));
    batch.show(filled(GREATEST_FILE + 1));
    let from = batch.requests.len();
    fill(batch, from, SHOWS, |batch| {
        let show = short_show(batch.rng);
        batch.show(show);
    });
}

/// All that can be wrong together, but for too many positions; the corners; and random new parents of
/// few positions.
fn parents(batch: &mut Batch<'_>) {
    let broken = broken().into_iter();
    for (wanted, room, _) in broken.filter(|((shapes, _), ..)| shapes.len() < GREATEST_COUNT) {
        batch.parents(wanted, room);
    }
    let corners = corners_of_parents().into_iter();
    corners.for_each(|wanted| exactly_and_short(batch, wanted));
    let from = batch.requests.len();
    fill(batch, from, PARENTS, |batch| {
        let count = batch.rng.within(0..=FEW_POSITIONS);
        wanted_of(batch, count as usize);
    });
}

/// Asks on until the requests from that one on take so many bytes.
fn fill(batch: &mut Batch<'_>, from: usize, bytes: usize, ask: impl Fn(&mut Batch<'_>)) {
    let mut size = stored_size(&batch.requests[from..]);
    while size < bytes {
        let before = batch.requests.len();
        ask(batch);
        size += stored_size(&batch.requests[before..]);
    }
}

/// How many bytes the records of these requests take.
fn stored_size(requests: &[Request]) -> usize {
    let size = |request| record(request).expect("an answer").len();
    requests.iter().map(size).sum()
}

/// 31 extensions, and 32, which are refused.
fn extensions(batch: &mut Batch<'_>) {
    for (count, leads) in [(EXTENSIONS - 1, 1), (EXTENSIONS, ENOUGH)] {
        let [full, changed] = [true, false].map(|full| extended_position(batch.rng, full, count));
        let [scene, update] = extended_graphs(batch.rng, &full.bits, count);
        for good in [full, changed, scene, update] {
            (0..leads).for_each(|lead| batch.at(&good, lead, Record::Off));
        }
    }
}

/// A scene and an update of 63 positions, both of them read.
fn widest(batch: &mut Batch<'_>) {
    let scene = ending(batch.rng, 0, |rng| scene_of(rng, GREATEST_COUNT));
    let update = ending(batch.rng, 0, |rng| {
        let shapes = shapes_of(rng, GREATEST_COUNT);
        update_of(rng, shapes)
    });
    for good in [scene, update] {
        batch.at(&good, 3, Record::Off);
    }
}

/// Scenes of 63 positions in a chain from either end; an update that parts the second chain, one
/// that makes the first, one that is refused and so leaves it, and one that hangs a position lower
/// in a star; every form as a validation.
fn graphs(batch: &mut Batch<'_>) {
    let chains = scenes().into_iter().take(2);
    let parted_and_made = changes().into_iter().skip(1).step_by(3);
    let refused_and_lower = steps().into_iter().skip(1).step_by(18).take(2);
    for good in chains.chain(parted_and_made).chain(refused_and_lower) {
        let lead = batch.rng.below(8) as usize;
        batch.at(&good, lead, Record::Off);
    }
    for shapes in validations() {
        batch.validation(77, shapes);
    }
}

/// Drafts of few fields: every cut of one, and rooms around what two others take.
fn few_fields(batch: &mut Batch<'_>, draft: Drafted) {
    let good = of_fields(batch.rng, draft, 8..=16);
    let from = batch.requests.len();
    batch.every_cut(&good);
    thin(batch, from);
    for _ in 0..2 {
        let good = of_fields(batch.rng, draft, 6..=12);
        batch.rooms_near(&good);
    }
}

/// A draft with what can be made of it.
fn around_one(batch: &mut Batch<'_>, draft: Drafted) {
    let good = small(batch.rng, draft);
    let from = batch.requests.len();
    batch.around(&good);
    thin(batch, from);
}

/// Most of the requests from that one on whose records are long no longer record.
fn thin(batch: &mut Batch<'_>, from: usize) {
    for request in &mut batch.requests[from..] {
        let long = stored_size(slice::from_ref(request)) > LONG;
        if let Request::Call(call) = request
            && long
            && batch.rng.percent(90)
        {
            call.recording = false;
        }
    }
}
