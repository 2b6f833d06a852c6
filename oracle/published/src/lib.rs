//! The published search of av-scenechange 0.24.1, opened, with an interface
//! over plain slices in document 01's terms.

mod analyze;
mod api;
mod data;
mod hooks;
mod math;

pub use api::*;
