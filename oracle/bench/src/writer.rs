//! Inputs are written bit by bit. What is free is left to chance, which is the same each time.
use oracle::bits::Bits;

/// The widths of most escaped numbers of metadata, and of lengths in bytes.
pub const ESC: [usize; 3] = [4, 7, 10];
pub const BYTES: [usize; 3] = [4, 8, 16];

#[derive(Default)]
pub struct Writer {
    bits: Bits,
    state: u64,
}

impl Writer {
    pub fn put(&mut self, value: u64, width: usize) {
        self.bits.put(value, width);
    }

    pub fn flag(&mut self, value: bool) -> bool {
        self.bits.push(value);
        value
    }

    /// An escaped number.
    pub fn esc(&mut self, value: u64, widths: [usize; 3]) {
        self.bits.esc(value, widths);
    }

    /// An escaped number that ends in its first part.
    pub fn any_esc(&mut self, widths: [usize; 3]) {
        let value = self.next() % ((1 << widths[0]) - 1);
        self.esc(value, widths);
    }

    /// Numbers of these widths.
    pub fn any(&mut self, widths: &[usize]) {
        for &width in widths {
            let value = self.next();
            self.put(value, width);
        }
    }

    pub fn payload(&mut self, bits: usize) {
        let rest = bits % 64;
        (0..bits / 64).for_each(|_| self.any(&[64]));
        self.any(&[rest]);
    }

    /// What another one has written.
    pub fn append(&mut self, bits: &Bits) {
        self.bits.append(bits);
    }

    pub fn into_bits(self) -> Bits {
        self.bits
    }

    pub fn into_bytes(self) -> Vec<u8> {
        self.bits.bytes()
    }

    /// The next number of a Weyl sequence, its bits mixed.
    fn next(&mut self) -> u64 {
        self.state = self.state.wrapping_add(0x9e37_79b9_7f4a_7c15);
        let mixed = (self.state ^ self.state >> 32).wrapping_mul(0xd6e8_feb8_6659_fd93);
        mixed ^ mixed >> 32
    }
}
