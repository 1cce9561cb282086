//! The corners of a metadata configuration, each with the number that it must give: document 01's
//! boundary list, its probabilities, and what is easily misread.
use super::boundaries::{bytes, extended_parameters, long_tables};
use crate::bits::Bits;
use crate::generate::batch::Batch;
use crate::generate::drafts::Draft;
use crate::generate::drafts::compression::{
    code_window, exact, flat_window, lzw_window, parameter_window, probability_window,
    value_window, zero_window,
};
use crate::generate::drafts::metadata::{
    self, Metadata, channel_group, contiguous_group, headphones, layout, least_group,
};
use crate::generate::drafts::positions::EXTENSIONS;
use crate::generate::drafts::renderer::{self, matrix, matrix_head};
use crate::generate::variants::Good;
use crate::request::Question;
use crate::rng::Rng;

/// Binary32 values of a table: those of document 01, and the edges of its rules.
const PROBABILITIES: [(&[u32], u8); 18] = [
    (&[0x3f80_0000, 0x3380_0000, 0x3380_0000, 0], 0),
    (&[0x3380_0000, 0x3380_0000, 0x3f80_0000, 0], 22),
    (&[0x8000_0000, 0x3f80_0000], 0),
    (&[0x3f80_0000, 0x8000_0000], 0),
    (&[0x3f00_0000, 0x3f00_0000], 0),
    (&[0x3f00_0000, 0x3eff_ffff], 0),
    (&[0x3f00_0000, 0x3eff_fffe], 22),
    (&[0x3f80_0000, 0x0000_0001], 0),
    (&[0x3f80_0000, 0x8000_0001], 22),
    (&[0xbf80_0000, 0x4000_0000], 22),
    (&[0, 0], 22),
    (&[0x8000_0000, 0x8000_0000], 22),
    (&[0x7f80_0000, 0x3f80_0000], 22),
    (&[0x3f80_0000, 0xff80_0000], 22),
    (&[0x7fc0_0000, 0x3f80_0000], 22),
    (&[0x3f80_0000, 0x7f80_0001], 22),
    (&[0x3f80_0000, 0xffc0_0000], 22),
    (&[0x7f7f_ffff, 0x7f7f_ffff], 22),
];

/// Values at other precisions.
const WHOLE_NUMBERS: [(u64, &[u32], u8); 5] = [
    (1, &[0, 0], 22),
    (1, &[0, 1], 0),
    (31, &[0, 0, 0, 0], 22),
    (31, &[0x3f80_0000, 0x7f80_0000], 0),
    (31, &[0x7fff_ffff, 0x7fff_ffff, 0x7fff_ffff, 0x7fff_ffff], 0),
];

/// Parameters of a window: finite ones, infinities, and NaN both quiet and not.
const PARAMETERS: [(u32, u8); 9] = [
    (0x0000_0000, 0),
    (0x8000_0000, 0),
    (0xbf80_0000, 0),
    (0x7f7f_ffff, 0),
    (0x7f80_0000, 22),
    (0xff80_0000, 22),
    (0x7fc0_0000, 22),
    (0x7f80_0001, 22),
    (0xffff_ffff, 22),
];

/// Initial width and the difference to the greatest: windows of one byte, of two, and too wide.
const LZW: [(u64, u64, u8); 10] = [
    (1, 0, 0),
    (10, 6, 0),
    (15, 1, 0),
    (9, 7, 0),
    (1, 15, 0),
    (15, 2, 35),
    (16, 0, 35),
    (1, 16, 35),
    (32, 0, 35),
    (1, 262, 35),
];

/// So many declared tables in a window of so many bytes. Five bits each are asked of the window,
/// though more of the input follows; and no more than 4,096 tables.
const TABLE_COUNTS: [(u64, usize, u8); 6] = [
    (1, 1, 3),
    (2, 1, 6),
    (9, 7, 3),
    (10, 7, 6),
    (4_096, 2_600, 3),
    (4_097, 2_600, 6),
];

/// Speakers are asked for 33 bits each, though these take 32. A spread of 36 bits a value.
const FINDINGS: [(usize, &str, u8); 3] = [
    (1, "3190000055048443b5048443b5048443b5048443b5048443b0", 6),
    (0, "63200000aa0908876a0908876a0908876a0908876a09088760", 0),
    (0, "421889e0ffffffffffffffffff", 0),
];

pub struct Corner {
    pub what: String,
    pub good: Good,
    pub number: u8,
    /// Whether it matters that the input ends with the last bit.
    ends: bool,
}

impl Corner {
    /// The offsets at which it gives its number.
    pub fn leads(&self) -> Vec<usize> {
        if self.ends {
            let least = self.good.flush_lead();
            vec![least, least + 8]
        } else {
            (0..8).collect()
        }
    }
}

struct Corners<'r> {
    rng: &'r mut Rng,
    list: Vec<Corner>,
}

pub fn corners(rng: &mut Rng) -> Vec<Corner> {
    let list = Vec::new();
    let mut corners = Corners { rng, list };
    corners.add_extensions();
    corners.add_types();
    corners.add_renderer_types();
    corners.add_parameters();
    corners.add_sizes();
    corners.add_fields();
    corners.add_findings();
    corners.add_tables();
    corners.add_probabilities();
    corners.add_windows();
    corners.add_last_windows();
    corners.add_table_counts();
    corners.add_counts();
    corners.list
}

/// Every corner at its offsets.
pub fn every_corner(batch: &mut Batch<'_>) {
    for corner in corners(batch.rng) {
        batch.corner(&corner);
    }
}

impl Batch<'_> {
    pub fn corner(&mut self, corner: &Corner) {
        for lead in corner.leads() {
            let record = self.some_record();
            self.at(&corner.good, lead, record);
        }
    }
}

impl Corners<'_> {
    fn push(&mut self, what: String, bits: Bits, number: u8, ends: bool) {
        let question = Question::Metadata;
        self.list.push(Corner {
            what,
            good: Good { question, bits },
            number,
            ends,
        });
    }

    fn add(&mut self, what: String, metadata: Metadata, number: u8) {
        let bits = metadata.bits(self.rng);
        self.push(what, bits, number, false);
    }

    fn add_global(&mut self, what: String, parameter: Bits, number: u8) {
        self.add(what, Metadata::with_parameters(vec![parameter]), number);
    }

    fn add_rendered(&mut self, what: String, parameter: Bits, number: u8) {
        let metadata = Metadata::with_renderer(self.rng, &[parameter]);
        self.add(what, metadata, number);
    }

    /// A window with a parameter after it.
    fn window(&mut self, what: String, kind: u64, number: u8, write: impl FnOnce(&mut Draft<'_>)) {
        let metadata = Metadata {
            compression: Some(exact(self.rng, kind, write)),
            ..Metadata::with_parameters(vec![layout(self.rng, 30, 0)])
        };
        self.add(format!("type {kind}, {what}"), metadata, number);
    }

    /// Input that ends with the last bit that a count asks for, so many before the end, and with
    /// one bit less.
    fn exactly(&mut self, what: &str, metadata: Metadata, after: usize, number: u8) {
        let bits = metadata.bits(self.rng);
        let length = bits.len() - after;
        self.push(what.into(), bits.cut(length), number, true);
        let short = format!("{what}, one bit less");
        self.push(short, bits.cut(length - 1), 6, true);
    }

    fn add_extensions(&mut self) {
        for (count, number) in [(EXTENSIONS - 1, 0), (EXTENSIONS, 7)] {
            let [global, rendered] = extended_parameters(self.rng, count);
            self.add(format!("{count} extensions, global"), global, number);
            self.add(format!("{count} extensions, renderer"), rendered, number);
        }
    }

    /// The last types that are read, and those after them.
    fn add_types(&mut self) {
        for (kind, number) in [(1, 0), (2, 33), (3, 34), (7, 34)] {
            let hrtf = metadata::hrtf(self.rng, kind);
            self.add_global(format!("HRTF type {kind}"), hrtf, number);
        }
        for (kind, number) in [(4, 0), (5, 16), (7, 16)] {
            let group = metadata::component_group(self.rng, kind);
            let what = format!("component type {kind}");
            self.add(what, Metadata::with_groups(vec![group]), number);
        }
        let absent = Bits::from([0].as_slice());
        self.push("no configuration".into(), absent, 10, false);
    }

    fn add_renderer_types(&mut self) {
        for (kind, fallback, number) in [(3, 0, 0), (3, 1, 31), (4, 0, 13), (7, 0, 13)] {
            let reverb = renderer::reverb(self.rng, kind, fallback);
            let what = format!("reverb type {kind}, fallback {fallback}");
            self.add_rendered(what, reverb, number);
        }
        for (kind, number) in [(4, 0), (5, 15), (7, 15)] {
            let radiation = renderer::radiation(self.rng, kind);
            self.add_rendered(format!("radiation type {kind}"), radiation, number);
        }
        for (precision, number) in [(2, 0), (3, 32)] {
            let gain = renderer::gain(self.rng, precision);
            self.add_rendered(format!("radiation precision {precision}"), gain, number);
        }
        for (location, number) in [(2, 0), (3, 14)] {
            let matrix = renderer::matrix_at(self.rng, location);
            self.add_rendered(format!("matrix location {location}"), matrix, number);
        }
    }

    /// The counts of parameters.
    fn add_parameters(&mut self) {
        for (count, globally, in_group) in [(128, 0, 0), (129, 11, 12)] {
            let global = vec![metadata::parameter(self.rng, 0); count];
            let what = format!("{count} global parameters");
            self.add(what, Metadata::with_parameters(global), globally);
            let rendered = vec![renderer::parameter(self.rng, 6); count];
            let rendered = Metadata::with_renderer(self.rng, &rendered);
            self.add(format!("{count} renderer parameters"), rendered, in_group);
        }
    }

    /// Labels, headphones, matrices.
    fn add_sizes(&mut self) {
        for (length, speakers, number) in [(4_096, 0, 0), (4_097, 0, 17), (3, 12, 0)] {
            let layout = layout(self.rng, length, speakers);
            let what = format!("a label of {length} bytes, {speakers} speakers");
            self.add_global(what, layout, number);
        }
        for (bytes, channels, number) in [(16, 40, 0), (16, 41, 18), (2, 1, 0), (1, 1, 18)] {
            let parameter = headphones(self.rng, bytes, channels);
            let what = format!("{bytes} headphone bytes with {channels} channels");
            self.add_global(what, parameter, number);
        }
        for float in [false, true] {
            let empty = matrix(self.rng, 15, 0, float);
            let what = format!("a layout with low half 0, float {float}");
            self.add_rendered(what, empty, 0);
            let greatest = matrix_head(self.rng, 15, 0xffff, float);
            let what = format!("the greatest matrix missing, float {float}");
            self.add_rendered(what, greatest, 3);
        }
    }

    /// The last field that is counted, and one more.
    fn add_fields(&mut self) {
        for (kinds, fields, number) in [(&[14][..], 16_384, 0), (&[1, 1], 16_385, 4)] {
            let bits = long_tables(self.rng, kinds).bits;
            self.push(format!("{fields} fields"), bits, number, false);
        }
    }

    fn add_findings(&mut self) {
        for (offset, hex, number) in FINDINGS {
            let bits = Bits::from(bytes(hex).as_slice()).after(offset);
            self.push(hex.into(), bits, number, true);
        }
    }

    fn add_tables(&mut self) {
        for (width, number) in [(12, 0), (13, 20)] {
            let what = format!("symbol width {width}");
            self.window(what.clone(), 1, number, |d| flat_window(d, &[width]));
            self.window(what.clone(), 2, number, |d| flat_window(d, &[width]));
            self.window(what, 3, number, |d| code_window(d, &[width], 1));
        }
        for (bits, number) in [(64, 0), (65, 21)] {
            let what = format!("a codeword of {bits} bits");
            self.window(what, 3, number, |d| code_window(d, &[1], bits));
        }
    }

    fn add_probabilities(&mut self) {
        for kind in [1, 2] {
            for (values, number) in PROBABILITIES {
                let what = format!("probabilities {values:x?}");
                self.window(what, kind, number, |d| probability_window(d, values));
            }
            for (precision, values, number) in WHOLE_NUMBERS {
                let what = format!("values {values:x?} of {precision} bits");
                self.window(what, kind, number, |d| {
                    value_window(d, precision, values);
                    d.flag(false);
                });
            }
            for (parameter, number) in PARAMETERS {
                let what = format!("parameter {parameter:x}");
                self.window(what, kind, number, |d| parameter_window(d, parameter));
            }
        }
    }

    /// Windows of no byte, and with a byte too many.
    fn add_windows(&mut self) {
        for (initial, delta, number) in LZW {
            let what = format!("initial width {initial}, delta {delta}");
            self.window(what, 0, number, |d| lzw_window(d, initial, delta));
        }
        for kind in 0..8 {
            let number = if kind < 4 { 3 } else { 0 };
            self.window("no byte".into(), kind, number, |_| {});
        }
        for kind in 0..4 {
            self.window("a byte too many".into(), kind, 19, |d| {
                match kind {
                    0 => lzw_window(d, 1, 0),
                    3 => code_window(d, &[1], 1),
                    _ => flat_window(d, &[1]),
                }
                d.put(0, 8);
            });
        }
    }

    /// Nothing follows the window, or its last bit is missing.
    fn add_last_windows(&mut self) {
        for kind in 0..8 {
            let section = exact(self.rng, kind, |d| d.put(0x7f, 8));
            let mut bits = Bits::default();
            bits.push(true);
            bits.append(&section);
            let short = bits.cut(bits.len() - 1);
            self.push(format!("type {kind} without its last bit"), short, 19, true);
            if kind > 3 {
                self.push(format!("type {kind} and no more"), bits, 3, true);
            }
        }
    }

    fn add_table_counts(&mut self) {
        for (tables, bytes, number) in TABLE_COUNTS {
            let what = format!("{tables} tables in {bytes} bytes");
            self.window(what, 3, number, |d| zero_window(d, tables, bytes));
        }
    }

    /// As many bits as a count asks for; what is not read of them is missing later.
    fn add_counts(&mut self) {
        for count in [1, 14, 15, 200] {
            let groups = Metadata::with_groups(vec![least_group(); count]);
            self.exactly(&format!("{count} groups"), groups, 0, 0);
        }
        let contiguous = Metadata::with_groups(vec![contiguous_group(self.rng)]);
        self.add("a count that asks for nothing".into(), contiguous, 0);
        for count in [2, 15, 16, 200] {
            let group = channel_group(self.rng, count);
            let channels = Metadata::with_groups(vec![group]);
            self.exactly(&format!("{count} channels"), channels, 0, 3);
            let bands = renderer::bands(self.rng, count);
            self.exactly_rendered(&format!("{count} bands"), bands, 0, 0);
            let sizes = renderer::sizes(self.rng, &vec![1; count as usize]);
            self.exactly_rendered(&format!("{count} sizes"), sizes, 32 * count as usize, 3);
        }
        for count in [1, 2, 15] {
            let regions = renderer::regions(self.rng, false, &vec![true; count]);
            self.exactly_rendered(&format!("{count} regions"), regions, 0, 0);
        }
    }

    /// The same with a renderer parameter.
    fn exactly_rendered(&mut self, what: &str, parameter: Bits, after: usize, number: u8) {
        let metadata = Metadata::with_renderer(self.rng, &[parameter]);
        self.exactly(what, metadata, after, number);
    }
}
