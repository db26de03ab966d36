//! The library, as its binding for Rust calls it.

pub use robots::*;
