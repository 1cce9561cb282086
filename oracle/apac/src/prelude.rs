//! Stand-in: the names of `alloc` that the compared files use.
pub use alloc::borrow::Cow;
pub use alloc::boxed::Box;
pub use alloc::string::{String, ToString};
pub use alloc::vec::Vec;
pub use alloc::{format, vec};
