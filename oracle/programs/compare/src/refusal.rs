//! Document 01's numbers 1 to 9, written from its text alone.

mod block;
mod list;
mod rules;
mod run;
mod step;

pub use block::Asked;
pub use list::refusal_of_list;
pub use rules::{GridLens, frame_is_valid, superblocks};
pub use run::AskedRun;
pub use step::AskedStep;
