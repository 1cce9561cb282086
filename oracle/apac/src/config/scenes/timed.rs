//! The readings of the Rust by themselves, to be timed: nothing is copied, and what they make is
//! dropped.
use crate::config::parser::{PResult, Parser};
use crate::config::passive::{self, PositionSyntax};
use crate::run::End;
use core::hint::black_box;

impl End {
    /// `scene_graph` on a fresh parser, set to the offset.
    pub fn of_scene(data: &[u8], offset: usize, record: bool) -> Self {
        Self::of(data, offset, record, Parser::scene_graph)
    }

    /// `metadata_configuration` on a fresh parser, set to the offset.
    pub fn of_metadata(data: &[u8], offset: usize, record: bool) -> Self {
        Self::of(data, offset, record, Parser::metadata_configuration)
    }

    /// `graph_update` of these shapes, which are changed if it is read.
    pub fn of_graph_update(
        data: &[u8],
        offset: usize,
        shapes: &mut [PositionSyntax],
        record: bool,
    ) -> Self {
        match passive::graph_update(data, offset, shapes, record) {
            Err(error) => error.into(),
            Ok((in_band, position)) => {
                black_box(&in_band.fields);
                Self::of_update(in_band.reason, position)
            }
        }
    }

    fn of<'a>(
        data: &'a [u8],
        offset: usize,
        record: bool,
        read: impl FnOnce(&mut Parser<'a>) -> PResult<()>,
    ) -> Self {
        let mut parser = Parser::new(data, record);
        let skipped = parser.bits.skip(offset).map_err(Into::into);
        let end = match skipped.and_then(|()| read(&mut parser)) {
            Ok(()) => parser.end(),
            Err(stop) => stop.into(),
        };
        black_box(&parser);
        end
    }
}
