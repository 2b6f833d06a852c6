//! What the programs of oracle/ and bench/ share: random draws, contents, frames, grids
//! and lists; buffers lent at unreadable pages; and the loop of a comparison, with a
//! trap for faults.

#[cfg(feature = "published")]
mod cells;
mod comparison;
#[cfg(feature = "published")]
mod draw;
#[cfg(feature = "published")]
mod frame;
mod lend;
mod order;
mod pages;
mod random;
#[cfg(feature = "published")]
mod sample;
mod trap;

#[cfg(feature = "published")]
pub use cells::{CELL_SEEDS, FILLS, cells};
pub use comparison::{Answer, Answers, Comparison, Told, run};
#[cfg(feature = "published")]
pub use draw::{
    WEIGHTS, block, component, mostly_between, refined_block, searched_block, side, stored_ends,
};
#[cfg(feature = "published")]
pub use frame::Frame;
pub use lend::{Memory, Place};
pub use order::{ACCEPTED, ORDERS, order};
pub use random::Random;
#[cfg(feature = "published")]
pub use sample::{CONTENTS, SEEDS, sample};
