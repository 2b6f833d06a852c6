//! Stands in for src/data/satd.rs, which is not among the published texts:
//! forwards to the published src/data/satd/rust.rs.

mod rust;

use v_frame::pixel::Pixel;

use crate::data::plane::PlaneRegion;

pub fn get_satd<T: Pixel>(
    plane_org: &PlaneRegion<'_, T>,
    plane_ref: &PlaneRegion<'_, T>,
    w: usize,
    h: usize,
    bit_depth: usize,
) -> u32 {
    rust::get_satd_internal(plane_org, plane_ref, w, h, bit_depth)
}
