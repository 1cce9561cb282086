//! Stand-in: audio scenes, a section of the cookie that is out of scope.
//!
//! Its children are the driver and what is timed: a child of `config` may call the methods of the
//! parser.
#![warn(dead_code, unused_imports)]

mod driver;
mod timed;

use super::parser::{PResult, Parser};

impl Parser<'_> {
    pub(super) fn audio_scenes(&mut self) -> PResult<()> {
        unimplemented!("audio scenes are out of scope")
    }
}
