//! Stand-in: equalizers of the loudness section, which is out of scope.
use super::drc::Downmix;
use super::parser::{PResult, Parser};

impl Parser<'_> {
    pub(super) fn drc_loudness_eq(&mut self, _prefix: &str, _channels: usize) -> PResult<()> {
        unimplemented!("loudness equalizers are out of scope")
    }
    pub(super) fn drc_eq(
        &mut self,
        _prefix: &str,
        _channels: usize,
        _downmixes: &[Downmix],
    ) -> PResult<()> {
        unimplemented!("equalizers are out of scope")
    }
}
