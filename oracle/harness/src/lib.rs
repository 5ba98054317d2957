//! The original, this library and a plain scan side by side.

pub mod maps;
pub mod original;
#[cfg(ours)]
pub mod ours;
pub mod random;
pub mod rule;
