//! The library beside the peer: what the comparison tests, the benchmark and the printed cases share.
//!
//! [`library`] has the functions of the C boundary in the peer's types, so that both sides are called in the same way.
//! [`RunBuffers`], [`StartsBuffers`] and [`DrainBuffers`] make the rows of a call from its graph.

mod buffers;
pub mod library;

pub use buffers::{own_starts, DrainBuffers, RunBuffers, StartsBuffers};
