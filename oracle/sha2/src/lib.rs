//! Stand-in for the crate `sha2`: every digest is the same. Digests are out of scope.
#![no_std]

use core::fmt;

/// A digest that says nothing about its bytes.
pub struct Constant;

impl fmt::LowerHex for Constant {
    fn fmt(&self, f: &mut fmt::Formatter<'_>) -> fmt::Result {
        f.write_str("0")
    }
}

/// The methods of `sha2::Digest` that APAC-Core calls.
pub trait Digest: Sized {
    fn new() -> Self;
    fn update(&mut self, bytes: impl AsRef<[u8]>);
    fn finalize(self) -> Constant;
    fn digest(bytes: impl AsRef<[u8]>) -> Constant {
        let mut digest = Self::new();
        digest.update(bytes);
        digest.finalize()
    }
}

/// The only hash that APAC-Core uses.
pub struct Sha256;

impl Digest for Sha256 {
    fn new() -> Self {
        Self
    }
    fn update(&mut self, _bytes: impl AsRef<[u8]>) {}
    fn finalize(self) -> Constant {
        Constant
    }
}
