//! APAC-Core's configuration readers, unchanged, and a driver that runs them.
//!
//! `record.rs`, `model.rs` and nine files of `config/` are copies of files of `docs/src`. What they
//! name and `docs/src` lacks stands beside them as thin stand-ins. The driver has to be a child of
//! `config` to call its methods; it hands out its answers by the types of `run`.
#![no_std]

extern crate alloc;

mod channel_layout;
mod frame;
pub mod numbers;
mod prelude;
pub mod run;

// The compared files stay as they came: no warning about them, and no formatting.
#[allow(dead_code, unused_imports)]
#[rustfmt::skip]
mod config;
#[allow(dead_code)]
#[rustfmt::skip]
mod model;
#[allow(dead_code)]
#[rustfmt::skip]
mod record;

pub use config::PositionSyntax;
pub use record::{ConfigField, DigestUnit, FieldValue};
