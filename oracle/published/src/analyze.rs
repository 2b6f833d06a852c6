//! Stands in for src/analyze.rs, which is not among the published texts.

pub mod importance;
pub mod inter;
