//! The port, asked as the oracle is: by requests, with answers of the same form.
pub mod ask;
mod buffer;
pub mod compare;
pub mod library;
mod names;
pub mod replay;
