//! The three columns of frame runs.

use cases::Frame;

use crate::{
    column::Column,
    ours::Ours,
    published::{Plain, Simd},
};

/// The names of the columns, in their order.
pub const NAMES: [&str; 3] = ["1 rust", "2 rust simd", "3 ours"];

pub fn columns(frame: &Frame) -> [Box<dyn Column + '_>; 3] {
    [
        Box::new(Plain::new(frame)),
        Box::new(Simd::new(frame)),
        Box::new(Ours::new(frame)),
    ]
}
