//! Document 01's worked examples and the known corners of the Rust, as request lines.
use crate::answer::Answer;
use crate::bits::Bits;
use crate::driver::answer;
use crate::request::Request;
use crate::text::hex;

fn ask(line: &str) -> Answer {
    answer(&Request::parse(line).expect("a request"))
}

/// Outcome, number, position and count of fields.
fn verdict(line: &str) -> String {
    let text = ask(line).to_string();
    let words: Vec<&str> = text.split(' ').collect();
    words[1..5].join(" ")
}

#[test]
fn scenes() {
    assert_eq!(verdict("scene 0 1 100 -"), "refused 3 0 0");
    assert_eq!(verdict("scene 0 1 100 00"), "read 0 6 1");
    assert_eq!(verdict("scene 0 1 100 04"), "refused 6 6 1");
    assert_eq!(verdict("scene 0 1 100 04000400"), "refused 8 30 11");
    assert_eq!(verdict("scene 0 1 100 04000000"), "read 0 30 11");
    assert_eq!(ask("scene 0 1 100 04000000").shapes[0].parent, 0);
}

#[test]
fn show_parts() {
    let scene = ask("scene 0 0 0 0a0080800080");
    assert_eq!(
        scene.to_string(),
        "scene read 0 48 20 2 2 1:0:0:0:0:0,1:0:0:0:1:0 -"
    );
    let before = "1:0:0:0:0:0,1:0:0:0:1:0";
    let cycle = format!("update 0 0 0 {before} c100");
    assert_eq!(
        ask(&cycle).to_string(),
        format!("update refused 9 13 8 0 0 {before} -")
    );
    let freed = "1:0:0:0:0:0,1:0:0:0:0:0";
    assert_eq!(
        ask(&format!("update 0 0 0 {before} 70")).to_string(),
        format!("update read 0 7 7 1 0 {freed} -")
    );
    assert_eq!(
        ask(&format!("update 0 0 0 {freed} c100")).to_string(),
        "update read 0 13 8 2 0 1:0:0:0:2:0,1:0:0:0:0:0 -"
    );
}

/// The answers of a list's packets.
fn packets(line: &str) -> Vec<String> {
    let text = ask(line).to_string();
    let (head, packets) = text.split_at("list read 0 0 N - 0 - ".len());
    let packets: Vec<String> = packets.split('|').map(String::from).collect();
    assert_eq!(head, format!("list read 0 0 {} - 0 - ", packets.len()));
    packets
}

/// Document 01's show and an offset past the end, at other bits: an update meets what the packets
/// before it left.
#[test]
fn lists() {
    let before = "1:0:0:0:0:0,1:0:0:0:1:0";
    let freed = "1:0:0:0:0:0,1:0:0:0:0:0";
    assert_eq!(
        packets("list 0 0 0:0a0080800080 0:c100,3:ee00,9:-,1:6080"),
        [
            format!("scene read 0 48 20 2 2 {before} -"),
            format!("update refused 9 13 8 0 0 {before} -"),
            format!("update read 0 10 7 1 0 {freed} -"),
            format!("update refused 3 0 0 0 0 {freed} -"),
            "update read 0 14 8 2 0 1:0:0:0:2:0,1:0:0:0:0:0 -".into(),
        ]
    );
}

#[test]
fn lists_without_shapes() {
    let empty = ["scene refused 6 6 1 0 0 - -", "update read 0 5 0 0 0 - -"];
    assert_eq!(packets("list 0 0 0:04 5:ff"), empty);
    assert_eq!(packets("list 0 0 0:04 -"), empty[..1]);
}

/// The first update has the most fields, 24. If it is refused for its room, the second one meets the
/// shapes of the scene and closes a circle.
#[test]
fn room_for_fields_of_a_list() {
    let numbers = |record: &str| -> Vec<u8> {
        let list = ask(&format!(
            "list {record} 0:0a0080800080 0:7220010008004000,0:c100"
        ));
        let packets = list.packets.iter();
        packets.map(|packet| packet.verdict.number).collect()
    };
    assert_eq!(numbers("1 120"), [0, 0, 0]);
    assert_eq!(numbers("1 119"), [0, 5, 9]);
    assert_eq!(numbers("0 119"), [0, 0, 0]);
}

#[test]
fn lines_of_lists() {
    for line in [
        "list 0 0 0:00 -",
        "list 1 9 7:- 0:-,18446744073709551615:0a",
    ] {
        let list = Request::parse(line).expect("a request");
        assert_eq!(list.to_string(), line);
    }
    for line in [
        "list 0 0 0:00",
        "list 0 0 - -",
        "list 0 0 00 -",
        "list 0 0 0:00 00",
        "list 0 0 0:00 0:00,",
        "list 0 0 0:00 0:00,-",
        "list 0 0 0:00 0:00 0:00",
        "list 0 0 0 0:00 -",
        "list 2 0 0:00 -",
    ] {
        assert!(Request::parse(line).is_err(), "{line}");
    }
}

#[test]
fn escaped_number() {
    let line = ask("fields 0 1 5 e4.7.10@42 f000").to_string();
    assert_eq!(line, "fields read 0 11 1 - 0 - 0:11:1:15:42");
}

/// A configuration with one table of binary32 values and nothing else.
fn probabilities(values: &[u32]) -> String {
    let mut window = Bits::default();
    window.put(0, 3);
    window.put(u64::from(values.len().ilog2()) - 1, 5);
    window.put(31, 5);
    values.iter().for_each(|&v| window.put(v.into(), 32));
    window.put(0, 1);
    window.put(0, window.spare());
    let bytes = window.len() as u64 / 8;
    let mut bits = Bits::default();
    bits.put(0b1001, 4);
    if bytes < 15 {
        bits.put(bytes, 4)
    } else {
        bits.put(15 << 8 | (bytes - 15), 12)
    }
    bits.append(&window);
    bits.put(0b10_0000, 6);
    format!("metadata 0 0 0 {}", hex(&bits.bytes()))
}

#[test]
fn binary32_sums_in_order() {
    let absorbed = [0x3f80_0000, 0x3380_0000, 0x3380_0000, 0];
    let carried = [0x3380_0000, 0x3380_0000, 0x3f80_0000, 0];
    let minus_zero = [0x8000_0000, 0x3f80_0000];
    assert_eq!(ask(&probabilities(&absorbed)).verdict.number, 0);
    assert_eq!(ask(&probabilities(&carried)).verdict.number, 22);
    assert_eq!(ask(&probabilities(&minus_zero)).verdict.number, 0);
}

#[test]
fn speakers_are_asked_for_33_bits() {
    let short = "metadata 1 0 0 3190000055048443b5048443b5048443b5048443b5048443b0";
    let long = "metadata 0 0 0 63200000aa0908876a0908876a0908876a0908876a09088760";
    assert_eq!(verdict(short), "refused 6 36 11");
    assert_eq!(verdict(long), "read 0 199 42");
}

#[test]
fn renderer_precision_has_no_cap() {
    let answer = ask("metadata 0 1 80 421889e0ffffffffffffffffff");
    let last = answer.fields.last().expect("fields");
    assert_eq!((last.length, last.value), (36, (1 << 36) - 1));
}

#[test]
fn polar_of_a_position_called_alone() {
    let kept = ask("position 0 0 0 1 0:0:0:0:0:1 00000000");
    assert!(kept.shapes[0].polar);
    let delta = "position 0 0 0 0 0:0:0:0:0:1 c000";
    assert_eq!(verdict(delta), "read 0 9 6");
    let precise = "position 0 0 0 0 0:0:1:0:0:1 c000";
    assert_eq!(verdict(precise), "read 0 13 7");
    let whole = "position 0 0 0 0 0:0:0:0:0:0 a00000";
    assert_eq!(verdict(whole), "read 0 23 8");
}

#[test]
fn update_of_no_shapes() {
    assert_eq!(verdict("update 5 1 0 - 00"), "read 0 5 0");
}

#[test]
fn short_windows() {
    for kind in 0..8_u64 {
        let mut bits = Bits::default();
        bits.put(1, 1);
        bits.put(kind, 3);
        bits.put(0, 4);
        bits.put(0b10_0000, 6);
        let line = format!("metadata 0 0 0 {}", hex(&bits.bytes()));
        let expected = if kind < 4 {
            "refused 3 8 3"
        } else {
            "read 0 14 6"
        };
        assert_eq!(verdict(&line), expected);
    }
}

#[test]
fn entry_questions() {
    let long = "00".repeat(8_388_609);
    assert_eq!(verdict(&format!("scene 0 1 9 {long}")), "refused 1 0 0");
    let full = &long[2..];
    assert_eq!(verdict(&format!("scene 0 1 9 {full}")), "read 0 6 1");
    let shapes = vec!["0:0:0:0:0:0"; 64].join(",");
    let many = format!("update 0 1 0 {shapes} -");
    assert_eq!(verdict(&many), "refused 2 0 0");
    assert_eq!(ask(&many).shapes.len(), 64);
    assert_eq!(verdict("update 9 1 0 0:0:25:0:0:0 00"), "refused 2 0 0");
    assert_eq!(verdict("position 9 1 0 1 0:0:0:25:0:0 00"), "refused 2 0 0");
    assert_eq!(verdict("update 9 1 0 0:0:24:0:0:0 00"), "refused 3 0 0");
    assert_eq!(verdict(&format!("validation 7 {shapes}")), "refused 2 0 0");
    let past = u64::MAX;
    assert_eq!(verdict(&format!("metadata {past} 1 0 00")), "refused 3 0 0");
}

#[test]
fn validation() {
    assert_eq!(verdict("validation 77 -"), "read 0 77 0");
    assert_eq!(verdict("validation 77 0:0:0:0:2:0"), "refused 8 77 0");
    assert_eq!(verdict("validation 77 0:0:0:0:1:0"), "refused 9 77 0");
    let line = ask("validation 77 1:0:0:0:0:0,1:0:0:0:1:0").to_string();
    assert_eq!(line, "validation read 0 77 0 2 0 - -");
}

/// Each update is asked of three positions, each hung on the next: none is hung elsewhere, the first
/// is freed, the second is, the first is hung on the last, and the last on the first.
#[test]
fn largest_ranks() {
    let deepest = |line: &str| ask(line).deepest;
    assert_eq!(deepest("scene 0 0 0 00"), Some(0));
    assert_eq!(deepest("scene 0 0 0 0a0080800080"), Some(2));
    for refused in ["04000400", "04000200", "04", "-"] {
        assert_eq!(deepest(&format!("scene 0 0 0 {refused}")), Some(0));
    }
    let chain = "1:0:0:0:2:0,1:0:0:0:3:0,1:0:0:0:0:0";
    for (packet, expected) in [("00", 3), ("e0", 2), ("70", 2), ("c180", 2), ("3020", 0)] {
        let line = format!("update 0 0 0 {chain} {packet}");
        assert_eq!(deepest(&line), Some(expected), "{packet}");
    }
    assert_eq!(deepest("update 0 0 0 - -"), Some(0));
    assert_eq!(deepest("validation 77 -"), Some(0));
    let shapes = vec!["0:0:0:0:0:0"; 64].join(",");
    assert_eq!(deepest(&format!("update 0 0 0 {shapes} -")), Some(0));
    assert_eq!(deepest(&format!("validation 7 {shapes}")), Some(0));
}

/// Document 01's show backwards: the packets that its parts are. The last two refused for the buffer,
/// and for the circle that part 1 would close.
#[test]
fn parents() {
    let (before, freed) = ("1:0:0:0:0:0,1:0:0:0:1:0", "1:0:0:0:0:0,1:0:0:0:0:0");
    for (shapes, parents, room, expected) in [
        (before, "0,0", 1, "read 0 0 7 - 0 - 70"),
        (freed, "2,0", 9, "read 0 0 13 - 0 - c100"),
        (freed, "2,0", 1, "refused 38 0 0 - 0 - -"),
        (before, "2,1", 0, "refused 9 0 0 - 0 - -"),
    ] {
        let line = format!("parents {room} {shapes} {parents}");
        assert_eq!(ask(&line).to_string(), format!("parents {expected}"));
    }
}

/// Nothing to do takes a bit for each position, so none where there are none.
#[test]
fn parents_that_stay() {
    let shapes = |count| vec!["0:1:24:24:0:1"; count].join(",");
    let still = |count| format!("{} {}", shapes(count), vec!["0"; count].join(","));
    assert_eq!(verdict("parents 0 - -"), "read 0 0 0");
    assert_eq!(verdict(&format!("parents 8 {}", still(63))), "read 0 0 63");
    assert_eq!(
        verdict(&format!("parents 7 {}", still(63))),
        "refused 38 0 0"
    );
    assert_eq!(
        verdict(&format!("parents 8 {}", still(64))),
        "refused 2 0 0"
    );
    assert_eq!(
        verdict(&format!("parents 8 {} 0", shapes(2))),
        "refused 36 0 0"
    );
    assert_eq!(verdict("parents 9 0:0:0:0:1:0 1"), "refused 9 0 0");
    assert_eq!(verdict("parents 9 0:0:0:0:70:0 70"), "refused 8 0 0");
}

/// Whatever the old parent was. A range that can change takes a bit more.
#[test]
fn parents_that_change() {
    let past = u64::MAX;
    for (shape, parent, expected) in [
        ("1:0:0:0:1:0".into(), 0, "read 0 0 6 - 0 - e0"),
        ("1:1:0:0:1:0".into(), 0, "read 0 0 7 - 0 - e0"),
        (format!("1:1:24:24:{past}:1"), 0, "read 0 0 7 - 0 - e0"),
        (format!("0:1:24:24:{past}:1"), 0, "refused 37 0 0 - 0 - -"),
        ("1:0:0:0:0:0".into(), 64, "refused 8 0 0 - 0 - -"),
        ("1:0:0:0:0:0".into(), past, "refused 8 0 0 - 0 - -"),
        ("0:0:0:0:0:0".into(), past, "refused 37 0 0 - 0 - -"),
    ] {
        let line = ask(&format!("parents 1 {shape} {parent}")).to_string();
        assert_eq!(line, format!("parents {expected}"), "{shape} {parent}");
    }
}

#[test]
fn lines_of_parents() {
    for line in [
        "parents 0 - -",
        "parents 9 1:0:0:0:0:0 18446744073709551615,0",
    ] {
        let parents = Request::parse(line).expect("a request");
        assert_eq!(parents.to_string(), line);
    }
    for line in [
        "parents 0 -",
        "parents 0 - - -",
        "parents 0 - 0,",
        "parents - - -",
    ] {
        assert!(Request::parse(line).is_err(), "{line}");
    }
}

#[test]
fn kinds_without_a_largest_rank() {
    for line in [
        "position 0 0 0 1 0:0:0:0:0:0 00000000",
        "metadata 0 0 0 40",
        "parents 0 - -",
        "name 257 27",
        "show 00",
        "fields 0 0 0 f@1 00",
        "list 0 0 0:00 -",
    ] {
        assert_eq!(ask(line).deepest, None, "{line}");
    }
}

#[test]
fn names() {
    let line = ask("name 257 27").to_string();
    assert_eq!(line, "name read 0 0 27 - 0 - ancillary.scene_graph.count");
    let line = ask("name 257 26").to_string();
    assert_eq!(line, "name refused 26 0 0 - 0 - -");
    assert_eq!(verdict("name 258 26"), "refused 25 0 0");
}

#[test]
fn shows() {
    let line = ask("show 00010000000600").to_string();
    assert_eq!(
        line,
        "show read 0 0 33 - 0 - part 0 read 6 fields 1/deepest 0/"
    );
    let line = ask("show -").to_string();
    assert_eq!(line, "show refused 24 0 16 - 0 - file refused 24/");
    let long = "00".repeat(65_537);
    assert_eq!(verdict(&format!("show {long}")), "refused 23 0 16");
    for line in ["show", "show 0", "show 00 00", "show 0 0 0 00"] {
        assert!(Request::parse(line).is_err(), "{line}");
    }
}

#[test]
fn room_for_fields() {
    assert_eq!(verdict("scene 0 1 5 00"), "read 0 6 1");
    assert_eq!(verdict("scene 0 1 4 00"), "refused 5 6 0");
    assert_eq!(verdict("scene 0 0 4 00"), "read 0 6 1");
    assert_eq!(verdict("scene 0 1 54 04000400"), "refused 5 30 10");
    assert_eq!(verdict("fields 0 1 14 3*f@7,x22 a0"), "refused 5 3 2");
    assert_eq!(verdict("fields 0 1 15 3*f@7,x22 a0"), "refused 22 3 3");
}

#[test]
fn field_limit() {
    assert_eq!(verdict("fields 0 0 0 16384*t0@1 -"), "read 0 0 16384");
    assert_eq!(verdict("fields 0 0 0 16385*t0@1 -"), "refused 4 0 16384");
    let short = "fields 0 0 0 16384*t0@1,f@1 -";
    assert_eq!(verdict(short), "refused 3 0 16384");
    let long = "fields 0 0 0 16384*t0@1,f@1 00";
    assert_eq!(verdict(long), "refused 4 1 16384");
}

/// What stands before the resource and the label: the flags, one parameter, kind 9.
const LABEL_HEAD: u64 = 0b011_0001_1001;

/// The request of a script with a label of so many non-zero bytes.
fn labelled(head: u64, length: usize) -> String {
    let mut bits = Bits::default();
    bits.put(head, 11);
    bits.put(0, 4);
    (0..length).for_each(|_| bits.put(65, 8));
    bits.put(0, 8 + 4 + 8 + 4);
    let script = "f@1,f@2,f@3,e4.7.10@4,e4.7.10@5,t2@6,e1.3.8@7,e1.3.8@8,l@9,t4@10,t8@11,\
                  c0.33,e4.7.10@12";
    format!("fields 0 1 60 {script} {}", hex(&bits.bytes()))
}

#[test]
fn labels() {
    let greatest = ask(&labelled(LABEL_HEAD, 4_096));
    assert_eq!(greatest.verdict.number, 0);
    let label = &greatest.fields[8];
    assert_eq!(
        (label.kind, label.value, label.length),
        (3, 4_097, 8 * 4_097)
    );
    assert_eq!(label.name, "9");
    let long = ask(&labelled(LABEL_HEAD, 4_097));
    assert_eq!((long.verdict.number, long.count), (17, 8));
    assert_eq!(long.verdict.position, 15 + 8 * 4_097);
}

#[test]
fn labels_elsewhere_are_no_request() {
    assert!(Request::parse("fields 0 1 60 l@1 00").is_err());
    assert!(Request::parse("fields 0 1 60 f@1,l@2 00").is_err());
}

#[test]
#[should_panic]
fn bytes_of_another_form_are_no_label() {
    ask(&labelled(LABEL_HEAD ^ 1, 1));
}

#[test]
fn default_shape() {
    crate::driver::confirm_default_shape();
}
