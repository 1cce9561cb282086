//! A list of bits that grows, most significant bit first.

#[derive(Clone, Default, Debug, PartialEq)]
pub struct Bits(Vec<bool>);

impl Bits {
    pub fn len(&self) -> usize {
        self.0.len()
    }

    pub fn is_empty(&self) -> bool {
        self.0.is_empty()
    }

    /// Whether any of them is 1.
    pub fn any(&self) -> bool {
        self.0.contains(&true)
    }

    pub fn push(&mut self, bit: bool) {
        self.0.push(bit);
    }

    /// Appends the low `width` bits of a value.
    pub fn put(&mut self, value: u64, width: usize) {
        self.0
            .extend((0..width).rev().map(|i| (value >> i) & 1 == 1));
    }

    /// Appends an escaped number; a value too large for its widths becomes their greatest.
    pub fn esc(&mut self, value: u64, widths: [usize; 3]) {
        let mut left = value;
        for width in widths {
            let ones = (1 << width) - 1;
            let part = left.min(ones);
            self.put(part, width);
            left -= part;
            if part != ones {
                break;
            }
        }
    }

    pub fn append(&mut self, other: &Bits) {
        self.0.extend_from_slice(&other.0);
    }

    /// Overwrites `width` bits from `at` on.
    pub fn set(&mut self, at: usize, width: usize, value: u64) {
        for i in 0..width {
            self.0[at + i] = (value >> (width - 1 - i)) & 1 == 1;
        }
    }

    pub fn flip(&mut self, at: usize) {
        self.0[at] = !self.0[at];
    }

    /// The first `length` bits.
    pub fn cut(&self, length: usize) -> Bits {
        Bits(self.0[..length].to_vec())
    }

    /// What follows the first bits.
    pub fn after(&self, first: usize) -> Bits {
        Bits(self.0[first..].to_vec())
    }

    /// How many zero bits it would take to fill the last byte.
    pub fn spare(&self) -> usize {
        self.len().wrapping_neg() % 8
    }

    /// The bytes, the last one filled with zeros.
    pub fn bytes(&self) -> Vec<u8> {
        self.0.chunks(8).map(byte).collect()
    }
}

impl From<&[u8]> for Bits {
    fn from(bytes: &[u8]) -> Self {
        let mut bits = Bits::default();
        for &byte in bytes {
            bits.put(byte.into(), 8);
        }
        bits
    }
}

fn byte(bits: &[bool]) -> u8 {
    bits.iter()
        .enumerate()
        .fold(0, |byte, (i, &bit)| byte | u8::from(bit) << (7 - i))
}
