//! The published routines over plain slices, in document 01's terms.
//!
//! Nothing here refuses: callers stay inside document 01's domain, and what the
//! published text does there, a panic included, is what comes out. The functions
//! named `ready_` make everything ready before the published routine alone is called,
//! so that it can be timed.

mod block;
mod frame;
mod grid;
mod planes;
mod predictors;
mod refine;
mod search;

pub use block::{BlockAt, MvRange};
pub use frame::Oracle;
pub use grid::Grid;
pub use planes::PAD;
pub use predictors::Predictors;
pub use search::{Found, Search};

use crate::{analyze::inter, data::motion::MotionVector};

/// `get_mv_rate` against the zero vector.
pub fn rate(row: i16, col: i16) -> u32 {
    inter::get_mv_rate(MotionVector { row, col }, MotionVector::default())
}
