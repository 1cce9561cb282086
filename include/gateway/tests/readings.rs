//! Document 01's worked scene and updates, and what each function writes and what it leaves alone.
use gateway::FieldValue::Flag;
use gateway::Outcome::{self, Read, Refused, Stopped};
use gateway::{
    Answer, FIELD_WORDS, Field, GraphAnswer, MAX_NAME, MAX_POSITIONS, MAX_PRECISION,
    PositionSyntax, Scene, fields, graph_update, name_text, read_metadata, read_position,
    read_scene, validate_graph, write_parents,
};

/// Two positions with dynamic parents, the second hung on the first.
const SCENE: [u8; 6] = [0x0a, 0x00, 0x80, 0x80, 0x00, 0x80];

/// Updates of it: position 1 is hung on position 2; position 2 gets no parent.
const FIRST_ON_SECOND: [u8; 2] = [0xc1, 0x00];
const SECOND_FREED: [u8; 1] = [0x70];

/// The shortest metadata configuration.
const METADATA: [u8; 1] = [0x40];

/// What a lent word holds before the call.
const BLANK: u64 = 0xa5a5_a5a5_a5a5_a5a5;

/// A shape that no reading gives.
const STRANGE: PositionSyntax = PositionSyntax {
    parent_dynamic: false,
    range_dynamic: true,
    position_precision: 23,
    rotation_precision: 21,
    parent: 99,
    polar: true,
};

fn ends(outcome: Outcome, position: usize, counted: usize) -> Answer {
    Answer {
        outcome,
        position,
        counted,
    }
}

/// The end of a graph whose largest rank this is.
fn ranked(outcome: Outcome, position: usize, counted: usize, deepest: usize) -> GraphAnswer {
    GraphAnswer {
        outcome,
        position,
        counted,
        deepest,
    }
}

fn scene(bytes: &[u8]) -> Scene {
    read_scene(bytes, 0, false, &mut [])
}

fn update(bytes: &[u8], shapes: &mut [PositionSyntax]) -> GraphAnswer {
    graph_update(bytes, 0, false, &mut [], shapes)
}

/// The shape of a position of the worked scene, with this parent.
fn on(parent: usize) -> PositionSyntax {
    PositionSyntax {
        parent_dynamic: true,
        parent,
        ..PositionSyntax::default()
    }
}

#[test]
fn a_scene_gives_its_shapes() {
    let scene = scene(&SCENE);
    assert_eq!(scene.answer(), ranked(Read, 48, 20, 2));
    assert_eq!(scene.shapes(), [on(0), on(1)]);
    assert_eq!(scene.beyond(), [PositionSyntax::default(); 61]);
}

#[test]
fn a_scene_of_no_positions_is_read() {
    let scene = scene(&[0x00]);
    assert_eq!(scene.answer(), ranked(Read, 6, 1, 0));
    assert_eq!(scene.shapes(), []);
}

#[test]
fn a_refused_scene_gives_none() {
    for (bytes, answer) in [
        ([].as_slice(), ranked(Refused(3), 0, 0, 0)),
        (&[0x04], ranked(Refused(6), 6, 1, 0)),
        (&[0x04, 0x00, 0x04, 0x00], ranked(Refused(8), 30, 11, 0)),
        (&[0x04, 0x00, 0x02, 0x00], ranked(Refused(9), 30, 11, 0)),
    ] {
        let scene = scene(bytes);
        assert_eq!(scene.answer(), answer);
        assert_eq!(scene.shapes(), []);
        assert_eq!(scene.beyond(), [PositionSyntax::default(); 63]);
    }
}

#[test]
fn a_refused_update_leaves_every_shape() {
    let mut scene = scene(&SCENE);
    let shapes = scene.shapes_mut();
    assert_eq!(
        update(&FIRST_ON_SECOND, shapes),
        ranked(Refused(9), 13, 8, 0)
    );
    assert_eq!(shapes, [on(0), on(1)]);
    assert_eq!(update(&SECOND_FREED, shapes), ranked(Read, 7, 7, 1));
    assert_eq!(shapes, [on(0), on(0)]);
    assert_eq!(update(&FIRST_ON_SECOND, shapes), ranked(Read, 13, 8, 2));
    assert_eq!(shapes, [on(2), on(0)]);
}

#[test]
fn an_update_begins_at_its_offset() {
    let mut shapes = [on(0), on(1)];
    let answer = graph_update(&[0x03, 0x80], 5, false, &mut [], &mut shapes);
    assert_eq!(answer, ranked(Read, 12, 7, 1));
    assert_eq!(shapes, [on(0), on(0)]);
}

#[test]
fn more_than_63_shapes_are_refused() {
    let mut shapes = [STRANGE; MAX_POSITIONS + 1];
    assert_eq!(update(&[0; 8], &mut shapes), ranked(Refused(2), 0, 0, 0));
    assert_eq!(shapes, [STRANGE; 64]);
    shapes.fill(on(0));
    assert_eq!(update(&[0; 8], &mut shapes[1..]), ranked(Read, 63, 63, 1));
}

#[test]
fn shapes_that_are_not_lent_are_left_alone() {
    let mut shapes = [STRANGE, on(1), STRANGE];
    assert_eq!(update(&[0xe0], &mut shapes[1..2]), ranked(Read, 6, 6, 1));
    assert_eq!(shapes, [STRANGE, on(0), STRANGE]);
    assert_eq!(update(&[0xe0], &mut shapes[1..1]), ranked(Read, 0, 0, 0));
    assert_eq!(shapes, [STRANGE, on(0), STRANGE]);
}

#[test]
fn a_position_is_read_into_its_shape() {
    let mut shape = PositionSyntax::default();
    let full = read_position(&SCENE, 24, false, &mut [], &mut shape, true);
    assert_eq!((full, shape), (ends(Read, 48, 10), on(1)));
    let short = read_position(&SCENE, 46, false, &mut [], &mut shape, true);
    assert_eq!((short, shape), (ends(Refused(3), 48, 2), on(1)));
    let freed = read_position(&SECOND_FREED, 2, false, &mut [], &mut shape, false);
    assert_eq!((freed, shape), (ends(Read, 7, 5), on(0)));
}

#[test]
fn a_precision_above_24_is_refused() {
    let mut shape = PositionSyntax {
        rotation_precision: MAX_PRECISION + 1,
        ..STRANGE
    };
    let before = shape;
    for full in [false, true] {
        let answer = read_position(&SCENE, 6, false, &mut [], &mut shape, full);
        assert_eq!((answer, shape), (ends(Refused(2), 0, 0), before));
    }
}

#[test]
fn a_validation_gives_back_its_position() {
    let validate = |parents: &[usize]| {
        let shapes: Vec<PositionSyntax> = parents.iter().copied().map(on).collect();
        validate_graph(&shapes, 77)
    };
    assert_eq!(validate(&[]), ranked(Read, 77, 0, 0));
    assert_eq!(validate(&[2, 0]), ranked(Read, 77, 0, 2));
    assert_eq!(validate(&[2, 3]), ranked(Refused(8), 77, 0, 0));
    assert_eq!(validate(&[2, 1]), ranked(Refused(9), 77, 0, 0));
    assert_eq!(validate(&[0; 63]), ranked(Read, 77, 0, 1));
    assert_eq!(validate(&[0; 64]), ranked(Refused(2), 0, 0, 0));
}

/// Each position hung on the one before it, or on the one after it; then the chain parted before or
/// after position 41.
#[test]
fn the_longest_chain_gives_the_largest_rank() {
    let before: Vec<PositionSyntax> = (1..=63).map(|i| on(i - 1)).collect();
    let after: Vec<PositionSyntax> = (1..=63).map(|i| on((i + 1) % 64)).collect();
    for (mut shapes, parted) in [(before, 40), (after, 41)] {
        assert_eq!(validate_graph(&shapes, 0), ranked(Read, 0, 0, 63));
        shapes[40] = on(0);
        assert_eq!(validate_graph(&shapes, 0), ranked(Read, 0, 0, parted));
    }
}

#[test]
fn metadata_is_read_refused_or_stopped() {
    let metadata = |bytes: &[u8], offset| read_metadata(bytes, offset, false, &mut []);
    assert_eq!(metadata(&METADATA, 0), ends(Read, 7, 4));
    assert_eq!(metadata(&[0x01, 0x00], 6), ends(Read, 13, 4));
    assert_eq!(metadata(&[0x00], 0), ends(Refused(10), 2, 2));
    assert_eq!(metadata(&[0x62, 0xe6], 0), ends(Stopped(34), 15, 7));
    assert_eq!(metadata(&METADATA, 9), ends(Refused(3), 0, 0));
}

#[test]
fn only_the_words_of_counted_fields_are_written() {
    let mut words = [BLANK; 25];
    let mut record = |room| {
        words.fill(BLANK);
        (read_metadata(&METADATA, 0, true, &mut words[..room]), words)
    };
    let (answer, words) = record(19);
    assert_eq!(answer, ends(Refused(5), 7, 3));
    assert_eq!(words[10..15], [2, 1, 0, 0, 26 + 3 * 256]);
    assert_eq!(words[15..], [BLANK; 10]);
    let (answer, words) = record(25);
    assert_eq!(answer, ends(Read, 7, 4));
    assert_eq!(words[15..20], [3, 4, 1, 0, 28 + 3 * 256]);
    assert_eq!(words[20..], [BLANK; 5]);
}

#[test]
fn no_word_is_touched_with_recording_off() {
    let mut words = [BLANK; 100];
    let scene = read_scene(&SCENE, 0, false, &mut words);
    assert_eq!(scene.answer(), ranked(Read, 48, 20, 2));
    assert_eq!(words, [BLANK; 100]);
}

/// The fields of metadata: bit offset, bit length, value and the text of the name.
fn recorded(bytes: &[u8]) -> Vec<String> {
    let mut words = [BLANK; 100];
    let answer = read_metadata(bytes, 0, true, &mut words);
    let told = |field: Field| {
        let mut bytes = [0; MAX_NAME];
        let (_, name) = name_text(field.name, &mut bytes);
        let (offset, length) = (field.bit_offset, field.bit_length);
        format!("{offset}:{length} {:?} {name}", field.value)
    };
    fields(&words, answer.counted).map(told).collect()
}

#[test]
fn fields_are_read_back() {
    let payload = [
        "0:1 Flag(true) ancillary.metadata.compression_present",
        "1:3 Number(4) ancillary.metadata.compression.type",
        "4:4 Number(1) ancillary.metadata.compression.bytes",
        "8:8 Bits(8) ancillary.metadata.compression.payload",
        "16:1 Flag(true) ancillary.metadata.configuration_present",
        "17:1 Flag(false) ancillary.metadata.parameters_present",
        "18:4 Number(0) ancillary.metadata.group_count",
    ];
    assert_eq!(recorded(&[0xc1, 0xff, 0x80]), payload);
    let label = recorded(&[0x63, 0x20, 0x82, 0x00, 0x00, 0x00]);
    let last = [
        "15:16 Bytes(2) ancillary.metadata.parameters[0].label",
        "31:4 Number(0) ancillary.metadata.parameters[0].layout_encoded",
        "35:8 Number(0) ancillary.metadata.parameters[0].speaker_count",
        "43:4 Number(0) ancillary.metadata.group_count",
    ];
    assert_eq!(label[8..], last);
}

#[test]
fn words_that_make_no_field() {
    let flag = [3, 1, 0, 1, 257];
    let neither_0_nor_1 = [4, 1, 0, 2, 257];
    let no_kind = [5, 1, 4, 1, 257];
    let words = [flag, neither_0_nor_1, no_kind, flag].concat();
    let words = &words[..4 * FIELD_WORDS - 1];
    let field = Field {
        bit_offset: 3,
        bit_length: 1,
        value: Flag(true),
        name: 257,
    };
    assert_eq!(Field::at(words, 0), Some(field));
    // Five times the last index is 1, but for the overflow.
    for index in [1, 2, 3, 4, usize::MAX / 5 * 4 + 1] {
        assert_eq!(Field::at(words, index), None, "{index}");
    }
    assert_eq!(fields(words, 3).collect::<Vec<_>>(), [field]);
}

#[test]
fn a_name_is_written_in_front() {
    let name = "ancillary.scene_graph.count";
    let mut bytes = [b'-'; 30];
    assert_eq!(name_text(258, &mut bytes), (ends(Refused(25), 0, 0), ""));
    assert_eq!(
        name_text(257, &mut bytes[..26]),
        (ends(Refused(26), 0, 0), "")
    );
    assert_eq!(bytes, [b'-'; 30]);
    assert_eq!(name_text(257, &mut bytes), (ends(Read, 0, 27), name));
    assert_eq!(bytes, *b"ancillary.scene_graph.count---");
}

/// The packets of the worked scene, and their refusals.
#[test]
fn a_packet_is_written_in_front() {
    let mut bytes = [0xff; 4];
    let mut write = |shapes: &[PositionSyntax], parents: &[usize], room: usize| {
        bytes.fill(0xff);
        let (answer, packet) = write_parents(shapes, parents, &mut bytes[..room]);
        let packet = packet.to_vec();
        assert!(bytes[packet.len()..].iter().all(|&byte| byte == 0xff));
        (answer, packet)
    };
    let (before, freed) = ([on(0), on(1)], [on(0), on(0)]);
    let packet = |bits, bytes: &[u8]| (ends(Read, 0, bits), bytes.to_vec());
    assert_eq!(write(&before, &[0, 0], 1), packet(7, &SECOND_FREED));
    assert_eq!(write(&freed, &[2, 0], 4), packet(13, &FIRST_ON_SECOND));
    assert_eq!(write(&before, &[0, 1], 2), packet(2, &[0x00]));
    assert_eq!(write(&[], &[], 0), packet(0, &[]));
    let refused = |number| (ends(Refused(number), 0, 0), Vec::new());
    assert_eq!(write(&before, &[0], 4), refused(36));
    assert_eq!(write(&[on(0); 64], &[0; 64], 4), refused(2));
    assert_eq!(write(&[STRANGE], &[9], 4), refused(37));
    assert_eq!(write(&[STRANGE], &[99], 4), refused(8));
    assert_eq!(write(&before, &[66, 0], 4), refused(8));
    assert_eq!(write(&before, &[2, 1], 4), refused(9));
    assert_eq!(write(&freed, &[2, 0], 1), refused(38));
}

/// A chain of 63 is turned and turned back: what is written is read to its end.
#[test]
fn what_is_written_is_read() {
    let before: Vec<usize> = (0..63).collect();
    let after: Vec<usize> = (2..=63).chain([0]).collect();
    let mut shapes: Vec<PositionSyntax> = before.iter().copied().map(on).collect();
    for (i, shape) in shapes.iter_mut().enumerate() {
        shape.range_dynamic = i % 2 == 0;
    }
    for parents in [&after, &before] {
        let mut bytes = [0; 100];
        let (answer, packet) = write_parents(&shapes, parents, &mut bytes);
        assert_eq!(answer, ends(Read, 0, 62 * 12 + 6 + 32));
        let update = update(packet, &mut shapes);
        assert_eq!(update, ranked(Read, answer.counted, 62 * 7 + 6 + 32, 63));
        assert!(shapes.iter().map(|shape| &shape.parent).eq(parents));
    }
}
