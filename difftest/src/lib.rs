//! The proved library, called through its C interface, and what the comparisons share.
#![deny(clippy::undocumented_unsafe_blocks)]

pub mod counts;
pub mod proved;
pub mod random;
