//! Inputs for both folders of parts. Structures are written field by field, and what is free in them
//! is drawn from the seed.
pub mod compression;
pub mod metadata;
pub mod packets;
pub mod positions;
pub mod renderer;
pub mod scripts;

use crate::bits::Bits;
use crate::rng::Rng;

/// A structure that is being written.
pub struct Draft<'r> {
    pub rng: &'r mut Rng,
    bits: Bits,
}

/// What a closure writes, as bits of its own.
pub fn drafted(rng: &mut Rng, write: impl FnOnce(&mut Draft<'_>)) -> Bits {
    let mut draft = Draft {
        rng,
        bits: Bits::default(),
    };
    write(&mut draft);
    draft.bits
}

/// At most so many bytes, with ones as frequent as chance has it.
pub fn noisy(rng: &mut Rng, most: u64) -> Bits {
    let ones = rng.pick(&[50, 50, 50, 10, 90, 0, 100]);
    let length = 8 * rng.below(most + 1);
    let mut bits = Bits::default();
    (0..length).for_each(|_| bits.push(rng.percent(ones)));
    bits
}

impl Draft<'_> {
    pub fn put(&mut self, value: u64, width: usize) {
        self.bits.put(value, width);
    }

    pub fn append(&mut self, bits: &Bits) {
        self.bits.append(bits);
    }

    /// A random number of that width.
    pub fn any(&mut self, width: usize) -> u64 {
        let value = self.rng.bits(width);
        self.put(value, width);
        value
    }

    /// Random bits, as many as asked for.
    pub fn payload(&mut self, count: usize) {
        for _ in 0..count {
            self.any(1);
        }
    }

    /// Random numbers of the widths.
    pub fn values(&mut self, widths: &[usize]) {
        for &width in widths {
            self.any(width);
        }
    }

    pub fn flag(&mut self, value: bool) -> bool {
        self.bits.push(value);
        value
    }

    /// A flag that is set in so many of a hundred cases.
    pub fn maybe(&mut self, chance: u64) -> bool {
        let value = self.rng.percent(chance);
        self.flag(value)
    }

    pub fn coin(&mut self) -> bool {
        self.maybe(50)
    }

    /// An escaped number.
    pub fn esc(&mut self, value: u64, widths: [usize; 3]) {
        self.bits.esc(value, widths);
    }

    /// An escaped number that ends in its first, second or third part.
    pub fn any_esc(&mut self, widths: [usize; 3]) -> u64 {
        let parts = self.rng.pick(&[1, 1, 1, 1, 2, 2, 3]);
        let full: u64 = widths[..parts - 1].iter().map(|w| (1 << w) - 1).sum();
        let value = full + self.rng.below((1 << widths[parts - 1]).max(2) - 1);
        self.esc(value, widths);
        value
    }

    /// Whether to leave the rules here: a rare choice.
    pub fn slip(&mut self) -> bool {
        self.rng.percent(2)
    }
}
