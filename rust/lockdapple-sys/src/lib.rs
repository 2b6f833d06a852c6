//! The functions that the proved crates export, declared once and called over slices:
//! each as include/lockdapple.h names it, without `lockdapple_`. A feature for each
//! static library that is linked: `inter`, `gridfile`, `reader`, `compare`.
//!
//! No function asks anything of its caller, and slices that are written overlap no
//! other, so every call is safe. A buffer's length is that of its slice.
//!
//! The libraries are for x86-64. An answer of more than 16 bytes is written through a
//! pointer that is passed first, and a parameter of more stands on the stack.

#[cfg(feature = "inter")]
mod block;
#[cfg(feature = "compare")]
mod compare;
#[cfg(feature = "inter")]
mod frame;
mod given;
#[cfg(feature = "gridfile")]
mod gridfile;
#[cfg(feature = "reader")]
mod reader;
mod records;

#[cfg(feature = "inter")]
pub use block::{candidate, diamond, hexagon, multi_hexagon, predictors, range, rate, refine};
#[cfg(feature = "compare")]
pub use compare::{grids_compare, grids_next};
#[cfg(feature = "inter")]
pub use frame::{frame_run, superblock_step};
pub use given::{Block, Grid, GridMut, Planes, Previous, Step};
#[cfg(feature = "gridfile")]
pub use gridfile::{grid_peek, grid_read, grid_write};
#[cfg(feature = "reader")]
pub use reader::{reader_end, reader_new, reader_take};
pub use records::{
    Comparison, Ends, Found, Peek, Place, Reader, Shape, Subsets, Vector, Written,
};
