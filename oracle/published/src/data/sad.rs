//! Stands in for src/data/sad.rs, which is not among the published texts:
//! forwards to the published src/data/sad/rust.rs.

mod rust;

use v_frame::pixel::Pixel;

use crate::data::plane::PlaneRegion;

pub fn get_sad<T: Pixel>(
    plane_org: &PlaneRegion<'_, T>,
    plane_ref: &PlaneRegion<'_, T>,
    w: usize,
    h: usize,
    bit_depth: usize,
) -> u32 {
    rust::get_sad_internal(plane_org, plane_ref, w, h, bit_depth)
}
