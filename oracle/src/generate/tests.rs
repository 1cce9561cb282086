//! Document 01's boundary list, and what holds of all that is generated.
use super::batch::Batch;
use super::drafts::positions::{EXTENSIONS, write_largest};
use super::drafts::{drafted, metadata, renderer};
use super::random::readings;
use super::variants::Good;
use super::{Part, fixed, random};
use crate::answer::{Answer, Outcome};
use crate::bits::Bits;
use crate::driver::answer;
use crate::names;
use crate::ranks::deepest;
use crate::record::record;
use crate::request::{List, Question, Request, Shape};
use crate::rng::Rng;
use crate::show::{self, part_end};
use crate::table::{Table, ends};
use apac::run::{Action, Op};
use std::collections::{BTreeMap, BTreeSet};
use std::ops::RangeInclusive;
use std::sync::LazyLock;

#[test]
fn extensions() {
    let position = |count| {
        let question = Question::Position {
            full: true,
            shape: Shape::default(),
        };
        let bits = drafted(&mut Rng::new(1), |d| write_largest(d, true, count));
        Good { question, bits }.answer()
    };
    assert_eq!(position(EXTENSIONS - 1).verdict.number, 0);
    assert_eq!(position(EXTENSIONS).verdict.number, 7);
    assert_eq!(position(EXTENSIONS - 1).count, 143);
    assert_eq!(position(EXTENSIONS).count, 146);
}

/// Each corner gives its number, at the same place whatever its offset.
#[test]
fn corners() {
    for corner in super::corners(1) {
        let mut ends = Vec::new();
        for request in &corner.requests {
            let answer = answer(request);
            assert_eq!(answer.verdict.number, corner.number, "{}", corner.what);
            ends.push((answer.verdict.position - offset(request), answer.count));
        }
        assert!(ends.iter().all(|end| *end == ends[0]), "{}", corner.what);
    }
}

fn offset(request: &Request) -> u64 {
    match request {
        Request::Call(call) => call.offset,
        _ => 0,
    }
}

/// The fields of corners where their count tells what was read: limits, payloads of 0 bits, and
/// counts asked of a window.
const COUNTS: [(&str, usize); 14] = [
    ("16384 fields", 16_384),
    ("16385 fields", 16_384),
    ("31 extensions, global", 143 + 6),
    ("a label of 4096 bytes, 0 speakers", 12),
    ("a label of 4097 bytes, 0 speakers", 8),
    ("16 headphone bytes with 40 channels", 8 + 40),
    ("2 headphone bytes with 1 channels", 8 + 2),
    ("a layout with low half 0, float true", 13),
    ("a layout with low half 0, float false", 14),
    ("type 3, 1 tables in 1 bytes", 5),
    ("type 3, 2 tables in 1 bytes", 4),
    ("type 3, 10 tables in 7 bytes", 4),
    ("type 3, 4097 tables in 2600 bytes", 4),
    ("type 4 without its last bit", 3),
];

#[test]
fn fields_of_corners() {
    let list = super::corners(1);
    for (what, count) in COUNTS {
        let corner = list.iter().find(|corner| corner.what == what).expect(what);
        let mut answers = corner.requests.iter().map(answer);
        assert!(answers.all(|answer| answer.count == count), "{what}");
    }
}

/// The requests of one part.
fn requests(part: Part) -> Vec<Request> {
    let rng = &mut Rng::new(1);
    let mut batch = Batch::new(rng);
    part(&mut batch);
    batch.requests
}

#[test]
fn lines_can_be_read_back() {
    for part in fixed::PARTS.into_iter().chain(random::PARTS).skip(1) {
        for request in requests(part).iter().step_by(7) {
            let line = request.to_string();
            assert_eq!(Request::parse(&line).as_ref(), Ok(request), "{line}");
        }
    }
}

/// The requests of the sample with seed 1.
fn sample() -> Vec<Request> {
    let rng = &mut Rng::new(1);
    let mut batch = Batch::new(rng);
    let parts = super::sample::PARTS;
    parts.iter().for_each(|part| part(&mut batch));
    batch.requests
}

#[test]
fn sample_is_bounded() {
    let requests = sample();
    let size = |request| record(request).expect("an answer").len();
    assert!((2_500..=4_000).contains(&requests.len()));
    assert!(requests.iter().map(size).sum::<usize>() <= 840_000);
}

#[test]
fn sample_reaches_every_number() {
    let answers: Vec<Answer> = sample().iter().map(answer).collect();
    for kind in [
        "scene",
        "update",
        "position",
        "validation",
        "metadata",
        "name",
        "parents",
    ] {
        let numbers = ends(kind);
        let of_kind = answers.iter().filter(|answer| answer.kind == kind);
        let found: Vec<u8> = of_kind.map(|answer| answer.verdict.number).collect();
        let times = |number| found.iter().filter(|&&n| n == number).count();
        assert!(numbers.iter().all(|&number| times(number) >= 5), "{kind}");
        assert!(found.iter().all(|n| numbers.contains(n)), "{kind}");
    }
    let widest = |answer: &Answer| answer.kind == "scene" && answer.shapes.len() == 63;
    assert!(answers.iter().any(widest));
    for kind in ["scene", "update", "validation"] {
        let of_kind = answers.iter().filter(|answer| answer.kind == kind);
        let deepest: BTreeSet<_> = of_kind.filter_map(|answer| answer.deepest).collect();
        assert!(
            [0, 1, 2, 3, 63].iter().all(|rank| deepest.contains(rank)),
            "{kind}"
        );
    }
}

/// Block and leaf of every template.
fn every_template() -> BTreeSet<u64> {
    let templates = names::templates().iter();
    templates.map(|template| template.number).collect()
}

/// Block and leaf of every field that is listed in the answers; its word must have its name as text.
fn recorded_templates(requests: impl IntoIterator<Item = Request>) -> BTreeSet<u64> {
    let requests = requests.into_iter();
    let fields = requests.flat_map(|request| answer(&request).fields);
    let named = fields.filter(|field| field.name.parse::<u64>().is_err());
    let words = named.map(|field| {
        let word = names::word(&field.name).expect("a name with a word");
        assert_eq!(names::text(word), Some(field.name));
        word
    });
    words.map(names::template_of).collect()
}

#[test]
fn every_template_is_recorded() {
    let parts: [Part; 3] = [
        readings::scenes_and_updates,
        readings::each_kind,
        readings::configurations,
    ];
    let generated = parts.into_iter().flat_map(requests).step_by(7);
    assert_eq!(recorded_templates(generated), every_template());
    assert_eq!(recorded_templates(sample()), every_template());
}

/// Block and leaf of every name word that is asked for and answered by this number.
fn asked_templates(requests: &[Request], number: u8) -> BTreeSet<u64> {
    let words = requests.iter().filter_map(|request| match request {
        Request::Name { word, .. } if answer(request).verdict.number == number => Some(*word),
        _ => None,
    });
    words.map(names::template_of).collect()
}

#[test]
fn every_template_is_asked_for_its_text() {
    let (generated, stored) = (requests(fixed::names::every_template), sample());
    for (requests, numbers) in [(generated, [0, 25, 26].as_slice()), (stored, &[0, 26])] {
        for &number in numbers {
            let asked = asked_templates(&requests, number);
            assert_eq!(asked, every_template(), "{number}");
        }
    }
    let pairs = requests(fixed::names::every_pair);
    assert_eq!(asked_templates(&pairs, 0), every_template());
    assert!(asked_templates(&pairs, 25).is_disjoint(&every_template()));
}

/// The kinds of parameters that the sample's metadata reads, those without a meaning as one.
#[test]
fn sample_has_every_kind() {
    let answers: Vec<Answer> = sample().iter().map(answer).collect();
    let read = |block: u64, kinds: u64| -> BTreeSet<u64> {
        let id = |name: &str| {
            names::word(name).is_ok_and(|word| names::template_of(word) == 48 + (block << 8))
        };
        let fields = answers.iter().flat_map(|answer| &answer.fields);
        let ids = fields.filter(|field| id(&field.name));
        ids.map(|field| field.value.min(kinds)).collect()
    };
    for (block, kinds) in [(6, metadata::KINDS), (9, renderer::KINDS)] {
        assert!(read(block, kinds).into_iter().eq(0..=kinds));
    }
}

/// Document 01's scenes, and the updates of its show against the shapes that each part left.
#[test]
fn sample_has_the_examples() {
    let calls: Vec<String> = sample().iter().map(from_the_first_bit).collect();
    let asked = |call: String| calls.contains(&call);
    for hex in ["-", "00", "04", "04000400", "04000000", "0a0080800080"] {
        assert!(asked(format!("scene {hex}")), "{hex}");
    }
    let (before, freed) = ("1:0:0:0:0:0,1:0:0:0:1:0", "1:0:0:0:0:0,1:0:0:0:0:0");
    for (shapes, hex) in [(before, "c100"), (before, "70"), (freed, "c100")] {
        assert!(asked(format!("update {shapes} {hex}")), "{shapes} {hex}");
    }
    let show = "show 000400000012000000180000001a0000001b0a0080800080c10070c100";
    assert!(sample().iter().any(|request| request.to_string() == show));
}

/// A request line without offset, recording and room; empty if it has another offset.
fn from_the_first_bit(request: &Request) -> String {
    let line = request.to_string();
    match line.split(' ').collect::<Vec<_>>().as_slice() {
        [kind, "0", _, _, rest @ ..] => format!("{kind} {}", rest.join(" ")),
        _ => String::new(),
    }
}

/// Each of the forms, and each made of the one before it.
#[test]
fn graphs_have_their_ranks() {
    let deepest = |graphs: Vec<Good>| -> Vec<Option<usize>> {
        graphs.iter().map(|good| good.answer().deepest).collect()
    };
    let forms = [63, 63, 32, 2, 1].map(Some);
    assert_eq!(deepest(fixed::graphs::scenes()), forms);
    let next = [63, 32, 2, 1, 63].map(Some);
    assert_eq!(deepest(fixed::graphs::changes()), next);
    // None moved, the first on the last, the last freed, one amid, the second on the last but one.
    let steps = [
        [63, 0, 62, 32, 0],
        [63, 62, 63, 32, 61],
        [32, 0, 31, 32, 0],
        [2, 0, 2, 2, 3],
        [1, 2, 1, 1, 2],
    ];
    let steps = steps.concat().into_iter().map(Some);
    assert!(deepest(fixed::graphs::steps()).into_iter().eq(steps));
}

/// The numbers that the graphs of a kind end in; if they are refused the largest rank is 0.
#[test]
fn graphs_reach_every_refusal() {
    let answers: Vec<Answer> = requests(fixed::graphs::graphs).iter().map(answer).collect();
    for (kind, numbers) in [
        ("scene", [0, 3, 5, 8, 9].as_slice()),
        ("update", &[0, 2, 3, 5, 8, 9]),
        ("validation", &[0, 2, 8, 9]),
    ] {
        let of_kind = answers.iter().filter(|answer| answer.kind == kind);
        let (read, refused): (Vec<&Answer>, Vec<&Answer>) =
            of_kind.partition(|answer| answer.verdict.outcome == Outcome::Read);
        assert!(read.iter().all(|answer| answer.deepest > Some(0)));
        assert!(refused.iter().all(|answer| answer.deepest == Some(0)));
        let found = read.iter().chain(&refused);
        let found: BTreeSet<u8> = found.map(|answer| answer.verdict.number).collect();
        assert!(found.iter().eq(numbers), "{kind} {found:?}");
    }
}

/// The length of a show file, its number, and what is printed for it.
struct Shown {
    length: usize,
    number: u8,
    text: String,
}

fn shown(request: &Request) -> Option<Shown> {
    let Request::Show { bytes } = request else {
        return None;
    };
    let answer = answer(request);
    Some(Shown {
        length: bytes.len(),
        number: answer.verdict.number,
        text: answer.text.expect("what is printed"),
    })
}

/// The shows that are generated, and those of the sample.
static SHOWS: LazyLock<[Vec<Shown>; 2]> = LazyLock::new(|| {
    let generated = [fixed::shows::shows, random::shows::shows]
        .map(requests)
        .concat();
    [generated, sample()].map(|requests| requests.iter().filter_map(shown).collect())
});

#[test]
fn fixed_shows() {
    for file in fixed::shows::unsound() {
        let number = crate::show::answer(&file).verdict.number;
        assert_eq!(number, 24, "{file:x?}");
    }
    for file in fixed::shows::sound() {
        let outcome = crate::show::answer(&file).verdict.outcome;
        assert_eq!(outcome, Outcome::Read, "{file:x?}");
    }
    for (i, (file, number)) in fixed::shows::large().iter().enumerate() {
        assert_eq!(crate::show::answer(file).verdict.number, *number, "{i}");
    }
}

/// What is asked after them stays as it was before there were graphs, shows, lists, new parents and single
/// reads.
#[test]
fn some_fixed_parts_take_no_random_numbers() {
    let rng = &mut Rng::new(1);
    fixed::graphs::graphs(&mut Batch::new(rng));
    fixed::shows::shows(&mut Batch::new(rng));
    fixed::lists::lists(&mut Batch::new(rng));
    fixed::parents::parents(&mut Batch::new(rng));
    fixed::reads::reads(&mut Batch::new(rng));
    fixed::reads::few(&mut Batch::new(rng));
    assert_eq!(rng.next(), Rng::new(1).next());
}

/// Of files that are too large the sample has one.
#[test]
fn shows_reach_every_number() {
    for (shows, large) in SHOWS.iter().zip([5, 1]) {
        let times = |number| shows.iter().filter(|show| show.number == number).count();
        assert!(times(0) >= 5 && times(23) >= large && times(24) >= 5);
        assert_eq!(times(0) + times(23) + times(24), shows.len());
    }
}

#[test]
fn shows_reach_every_line() {
    for shows in &*SHOWS {
        let lines: Vec<&str> = shows.iter().flat_map(|show| show.text.lines()).collect();
        let ends = |scene| -> BTreeSet<u8> { part_ends(shows, scene).collect() };
        assert!(ends(true).into_iter().eq([0, 3, 6, 7, 8, 9, 39]));
        assert!(ends(false).into_iter().eq([0, 3, 7, 8, 9, 39]));
        assert!(lines.iter().any(|line| line.ends_with(" rank 63")));
        for deepest in ["deepest 0", "deepest 1", "deepest 2", "deepest 63"] {
            assert!(lines.contains(&deepest), "{deepest}");
        }
    }
}

/// The numbers of the scenes or of the updates of shows.
fn part_ends(shows: &[Shown], scene: bool) -> impl Iterator<Item = u8> {
    let lines = shows.iter().flat_map(|show| show.text.lines());
    let ends = lines.filter_map(part_end);
    ends.filter_map(move |(part, _, number)| ((part == "0") == scene).then_some(number))
}

#[test]
fn shows_are_often_refused_for_what_follows() {
    for shows in &*SHOWS {
        for (scene, least) in [(true, 50), (false, 300)] {
            let followed = part_ends(shows, scene).filter(|&number| number == 39);
            assert!(followed.count() >= least, "{scene}");
        }
    }
}

/// What follows the end of a part that its reading read, and the number of the part.
struct Followed {
    scene: bool,
    rest: Bits,
    number: u8,
}

fn followed(file: &[u8]) -> Vec<Followed> {
    let parts = show::parts(file).expect("a sound header");
    let answers = show::answers(&parts);
    let asked = parts.iter().zip(&answers).enumerate();
    let read = asked.filter(|(_, (_, answer))| [0, 39].contains(&answer.verdict.number));
    let followed = read.map(|(k, (part, Answer { verdict, .. }))| Followed {
        scene: k == 0,
        rest: Bits::from(*part).after(verdict.position as usize),
        number: verdict.number,
    });
    followed.collect()
}

/// Scenes and updates end at every place within a byte, and up to the end of the byte zeros follow, or
/// zeros with a 1 in every place. So it is with one and with two bytes more, but that scenes have few of
/// these.
#[test]
fn every_rest_follows() {
    let shows = fixed::followed::shows();
    let all: Vec<Followed> = shows.iter().flat_map(|file| followed(file)).collect();
    let check = |scene, rest: &Bits, number| {
        let same = |one: &&Followed| one.scene == scene && one.rest == *rest;
        let numbers: BTreeSet<u8> = all.iter().filter(same).map(|one| one.number).collect();
        assert!(numbers.into_iter().eq([number]), "{scene} {rest:?}");
    };
    for length in 0..8 + 16 {
        let mut zeros = Bits::default();
        zeros.put(0, length);
        let number = if length < 8 { 0 } else { 39 };
        check(false, &zeros, number);
        if length < 16 {
            check(true, &zeros, number);
        }
        for place in 0..length {
            let mut rest = zeros.clone();
            rest.flip(place);
            check(false, &rest, 39);
            if length < 8 || length < 16 && [length - 8, length - 1].contains(&place) {
                check(true, &rest, 39);
            }
        }
    }
}

#[test]
fn shows_reach_their_limits() {
    for shows in &*SHOWS {
        let any = |wanted: fn(&Shown) -> bool| shows.iter().any(wanted);
        assert!(any(|show| show.number == 0 && show.length == 65_536));
        assert!(any(|show| show.number == 23 && show.length == 65_537));
        assert!(any(|show| {
            show.text.contains("\npart 255 ") && show.text.contains("\nposition 63 ")
        }));
    }
}

/// Records of shows and of new parents take no more than their share of the sample.
#[test]
fn stored_shows_and_parents_are_bounded() {
    let requests = sample();
    for (kind, most) in [("show", 335_000), ("parents", 45_000)] {
        let of_kind = requests.iter().filter(|request| request.kind() == kind);
        let size = |request| record(request).expect("an answer").len();
        assert!(of_kind.map(size).sum::<usize>() <= most, "{kind}");
    }
}

/// The random lists with the answers of their packets.
static LISTS: LazyLock<Vec<(List, Vec<Answer>)>> = LazyLock::new(|| {
    let listed = |request| match &request {
        Request::List(list) => Some((list.clone(), answer(&request).packets)),
        _ => None,
    };
    let requests = requests(random::lists::lists).into_iter();
    requests.filter_map(listed).collect()
});

#[test]
fn lists_reach_every_number() {
    let mut table = Table::default();
    let fixed = requests(fixed::lists::lists);
    for answer in fixed.iter().map(answer) {
        table.count(&answer).expect("an answer");
    }
    for (_, packets) in &*LISTS {
        let answer = Answer::of_list(packets.clone());
        table.count(&answer).expect("an answer");
    }
    assert!(table.is_sound(), "{table}");
}

/// Whether there is a list whose scene has so many positions, with so many updates.
fn listed(positions: RangeInclusive<usize>, updates: RangeInclusive<usize>) -> bool {
    LISTS.iter().any(|(list, packets)| {
        packets[0].verdict.outcome == Outcome::Read
            && positions.contains(&packets[0].shapes.len())
            && updates.contains(&list.updates.len())
    })
}

#[test]
fn lists_reach_their_limits() {
    for positions in [0..=0, 1..=1, 2..=5, 6..=62, 63..=63] {
        for updates in [0..=0, 1..=12] {
            let what = format!("{positions:?} {updates:?}");
            assert!(listed(positions.clone(), updates), "{what}");
        }
    }
    assert!(listed(1..=8, 13..=199) && listed(2..=63, 200..=200));
    assert!(LISTS.iter().all(|(list, _)| list.updates.len() <= 200));
}

/// In some lists the longest chain grows, in some it shrinks, and in some a packet is refused and so
/// gives 0, after which one is read that gives more than 0 for what the others have left.
#[test]
fn lists_change_their_ranks() {
    let deepest = |(_, packets): &(List, Vec<Answer>)| -> Vec<usize> {
        let ranks = packets.iter().map(|packet| packet.deepest);
        ranks.map(|rank| rank.expect("a largest rank")).collect()
    };
    let lists: Vec<Vec<usize>> = LISTS.iter().map(deepest).collect();
    let times = |wanted: fn(&[usize]) -> bool| {
        let lists = lists.iter().filter(|ranks| ranks.windows(3).any(wanted));
        lists.count()
    };
    assert!(times(|ranks| ranks[0] > 0 && ranks[1] > ranks[0]) >= 100);
    assert!(times(|ranks| ranks[1] > 0 && ranks[0] > ranks[1]) >= 100);
    assert!(times(|ranks| ranks[0] > 0 && ranks[1] == 0 && ranks[2] > 0) >= 100);
}

/// The shapes change often, also late in a long list, by packets from every bit of a byte on.
#[test]
fn lists_change_their_shapes() {
    let mut offsets = BTreeSet::new();
    let mut latest = 0;
    for (list, packets) in &*LISTS {
        for (k, pair) in packets.windows(2).enumerate() {
            if pair[0].shapes != pair[1].shapes {
                offsets.insert(list.updates[k].offset);
                latest = latest.max(k);
            }
        }
    }
    assert!((0..8).all(|offset| offsets.contains(&offset)));
    assert!(
        offsets.len() >= 100 && latest >= 190,
        "{} {latest}",
        offsets.len()
    );
}

/// A request for new parents, with its answer.
struct Wanted {
    shapes: Vec<Shape>,
    parents: Vec<usize>,
    room: u32,
    answer: Answer,
}

impl Wanted {
    fn new(request: Request) -> Option<Self> {
        let answer = answer(&request);
        match request {
            Request::Parents {
                shapes,
                parents,
                room,
            } => Some(Self {
                shapes,
                parents,
                room,
                answer,
            }),
            _ => None,
        }
    }

    fn is_answered_by(&self, number: u8) -> bool {
        self.answer.verdict.number == number
    }

    /// How many bytes are lent beyond those of the packet.
    fn bytes_more(&self) -> usize {
        self.room as usize - self.answer.packet.len()
    }

    fn pairs(&self) -> impl Iterator<Item = (&Shape, usize)> {
        self.shapes.iter().zip(self.parents.iter().copied())
    }

    /// Whether any position, or each, is such and is to have such a parent.
    fn any(&self, is_such: fn(&Shape, usize) -> bool) -> bool {
        self.pairs().any(|(shape, parent)| is_such(shape, parent))
    }

    fn all(&self, are_such: fn(&Shape, usize) -> bool) -> bool {
        self.pairs().all(|(shape, parent)| are_such(shape, parent))
    }
}

/// The fixed requests for new parents, and one round of the random ones.
static PARENTS: LazyLock<Vec<Wanted>> = LazyLock::new(|| {
    let requests = [fixed::parents::parents, random::parents::parents].map(requests);
    let requests = requests.into_iter().flatten();
    requests.filter_map(Wanted::new).collect()
});

fn answered_by(number: u8) -> impl Iterator<Item = &'static Wanted> {
    let wanted = PARENTS.iter();
    wanted.filter(move |wanted| wanted.is_answered_by(number))
}

#[test]
fn parents_reach_every_number() {
    for &number in ends("parents") {
        let times = answered_by(number).count();
        assert!(times >= 100, "{number}: {times}");
    }
}

/// Of all that is wrong together the first decides.
#[test]
fn broken_parents_give_the_first_number() {
    let broken = fixed::parents::broken();
    for ((shapes, parents), room, number) in &broken {
        let request = Request::Parents {
            shapes: shapes.clone(),
            parents: parents.clone(),
            room: *room,
        };
        let verdict = answer(&request).verdict;
        assert_eq!(
            (verdict.number, verdict.position),
            (*number, 0),
            "{request}"
        );
    }
    let numbers: BTreeSet<u8> = broken.iter().map(|(_, _, number)| *number).collect();
    assert!(numbers.iter().eq(ends("parents")));
}

/// A position of a packet that stays, is freed or is hung, whatever may change of it.
#[test]
fn packets_have_every_part() {
    let mut parts = BTreeMap::new();
    for (shape, parent) in answered_by(0).flat_map(Wanted::pairs) {
        let part = match parent {
            _ if parent == shape.parent => "kept",
            0 => "freed",
            _ => "hung",
        };
        let part = (part, shape.parent_dynamic, shape.range_dynamic);
        *parts.entry(part).or_insert(0) += 1;
    }
    assert!(parts.len() == 8, "{parts:?}");
    assert!(parts.values().all(|&times| times >= 100), "{parts:?}");
}

/// Every count of positions, every length up to 64 bits, every parent.
#[test]
fn packets_reach_their_limits() {
    let each = |value: fn(&Wanted) -> usize| answered_by(0).map(value).collect::<BTreeSet<_>>();
    assert!(each(|wanted| wanted.shapes.len()).into_iter().eq(0..=63));
    let lengths = each(|wanted| wanted.answer.count);
    assert!((0..=64).all(|length| lengths.contains(&length)));
    let parents = answered_by(0).flat_map(|wanted| wanted.parents.clone());
    assert!(parents.collect::<BTreeSet<_>>().into_iter().eq(0..=63));
}

/// Buffers as long as the packet and a byte longer, all positions kept and all changed, and old parents
/// above 63 and without ranks.
#[test]
fn packets_reach_their_corners() {
    for (count, bytes_more) in [0, 1, 63].into_iter().flat_map(|n| [(n, 0), (n, 1)]) {
        let has =
            |wanted: &Wanted| wanted.shapes.len() == count && wanted.bytes_more() == bytes_more;
        assert!(answered_by(0).any(has), "{count} {bytes_more}");
    }
    let of_63 = || answered_by(0).filter(|wanted| wanted.shapes.len() == 63);
    assert!(of_63().any(|wanted| wanted.all(|shape, parent| shape.parent == parent)));
    assert!(of_63().any(|wanted| wanted.all(|shape, parent| shape.parent != parent)));
    assert!(of_63().any(|wanted| wanted.any(|shape, _| shape.parent > 63)));
    assert!(of_63().any(|wanted| deepest(&wanted.shapes).is_none()));
}

/// Parents that are not declared: one above 63 that stays or is new, and one whose lowest six bits
/// are the number of a position.
#[test]
fn parents_above_63_are_refused() {
    let times = |is_such: fn(&Shape, usize) -> bool| {
        answered_by(8).filter(|wanted| wanted.any(is_such)).count()
    };
    assert!(times(|shape, parent| parent > 63 && shape.parent == parent) >= 100);
    assert!(times(|shape, parent| parent > 63 && shape.parent != parent) >= 100);
    let wrapped = |wanted: &&Wanted| {
        let mut pairs = wanted.pairs();
        pairs.any(|(_, parent)| parent > 63 && (1..=wanted.shapes.len()).contains(&(parent % 64)))
    };
    assert!(answered_by(8).filter(wrapped).count() >= 100);
}

/// A read that is a script of its own.
struct Alone<'a> {
    start: usize,
    width: usize,
    bytes: &'a [u8],
    request: &'a Request,
}

impl<'a> Alone<'a> {
    fn new(request: &'a Request) -> Option<Self> {
        let Request::Call(call) = request else {
            return None;
        };
        let Question::Fields(ops) = &call.question else {
            return None;
        };
        match ops.as_slice() {
            [op] => Some(Self {
                start: call.offset as usize,
                width: taken(op),
                bytes: &call.bytes,
                request,
            }),
            _ => None,
        }
    }

    /// How many bits of the input are after the read, below 0 if some of its own are missing.
    fn left(&self) -> isize {
        8 * self.bytes.len() as isize - (self.start + self.width) as isize
    }
}

fn taken(op: &Op) -> usize {
    match op.action {
        Action::Take(width) => width as usize,
        action => panic!("not a read: {action:?}"),
    }
}

/// Every width from every bit of the first byte and of a later one: eight inputs of each length that has
/// the read and up to ten bytes more, and of one far longer; one input of each length that doesn't end before
/// the read and misses some of it.
#[test]
fn reads_end_everywhere() {
    let requests = requests(fixed::reads::reads);
    let mut times = BTreeMap::new();
    for read in requests.iter().filter_map(Alone::new) {
        let left = read.left();
        let place = (read.width, read.start % 8, read.start < 8);
        let left = if left > 80 { None } else { Some(left) };
        *times.entry((place, left)).or_insert(0) += 1;
    }
    let mut all = BTreeMap::new();
    for width in 0..=64 {
        for (bit, first) in (0..8).flat_map(|bit| [(bit, false), (bit, true)]) {
            let end = (bit + width) as isize;
            let lefts = (-(width as isize)..=80).filter(|left| (end + left) % 8 == 0);
            let ends = lefts.map(|left| (Some(left), if left < 0 { 1 } else { 8 }));
            for (left, inputs) in ends.chain([(None, 8)]) {
                all.insert(((width, bit, first), left), inputs);
            }
        }
    }
    assert!(times == all);
}

/// Each is refused if it ends behind the input, and recorded else.
#[test]
fn reads_are_recorded() {
    let requests = requests(fixed::reads::reads);
    for read in requests.iter().filter_map(Alone::new) {
        let answer = answer(read.request);
        let ended = (answer.verdict.number, answer.fields.len());
        let wanted = if read.left() < 0 { (3, 0) } else { (0, 1) };
        assert_eq!(ended, wanted, "{}", read.request);
    }
}

/// The bits of an input at the same place in each of eight, as one number: no two alike, and none of
/// zeros or of ones only. So one input shows it if a reader takes another bit for one of its own, or takes
/// it for always the same.
#[test]
fn inputs_of_reads_tell_bits_apart() {
    let requests = requests(fixed::reads::reads);
    let mut inputs: BTreeMap<_, Vec<&[u8]>> = BTreeMap::new();
    let near = |read: &Alone<'_>| (0..=80).contains(&read.left());
    for read in requests.iter().filter_map(Alone::new).filter(near) {
        let same = inputs.entry((read.start, read.width, read.bytes.len()));
        same.or_default().push(read.bytes);
    }
    for ((_, _, bytes), inputs) in inputs {
        let bit = |input: &[u8], i: usize| input[i / 8] >> (7 - i % 8) & 1;
        let at = |i| {
            inputs
                .iter()
                .fold(0, |bits, input| bits << 1 | bit(input, i))
        };
        let met: BTreeSet<u8> = (0..8 * bytes).map(at).collect();
        assert_eq!(met.len(), 8 * bytes);
        assert!(!met.contains(&0) && !met.contains(&u8::MAX));
    }
}

/// Every width, every bit of a byte, and each of both that takes eight bytes to their last bit or nine, with
/// at most ten bytes after the read and with more.
#[test]
fn sample_reads_near_and_far() {
    let [mut near, mut far] = [BTreeSet::new(), BTreeSet::new()];
    for request in sample() {
        let Request::Call(call) = &request else {
            continue;
        };
        // A number that is taken at once is one read.
        let Question::Fields(ops) = &call.question else {
            continue;
        };
        if !ops.iter().all(|op| matches!(op.action, Action::Take(_))) {
            continue;
        }
        for field in answer(&request).fields {
            let left = 8 * call.bytes.len() as u64 - field.offset - field.length;
            let reads = if left <= 80 { &mut near } else { &mut far };
            reads.insert((field.length, field.offset % 8));
        }
    }
    for reads in [near, far] {
        let widths: BTreeSet<u64> = reads.iter().map(|read| read.0).collect();
        assert!(widths.into_iter().eq(0..=64));
        let bits: BTreeSet<u64> = reads.iter().map(|read| read.1).collect();
        assert!(bits.into_iter().eq(0..8));
        let mut long = (57..=64).flat_map(|width| (64 - width..8).map(move |bit| (width, bit)));
        assert!(long.all(|read| reads.contains(&read)));
    }
}
