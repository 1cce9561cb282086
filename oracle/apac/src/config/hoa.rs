//! Stand-in: ambisonic components, a section of the cookie that is out of scope.
use super::parser::{PResult, Parser};

impl Parser<'_> {
    pub(super) fn hoa_component(
        &mut self,
        _prefix: &str,
        _start: u64,
        _channels: u64,
    ) -> PResult<u64> {
        unimplemented!("ambisonic components are out of scope")
    }
}
