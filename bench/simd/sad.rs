//! Stands in for src/data/sad.rs: bytes go to a kernel in the processor's own
//! instructions, as the crate sends them to its assembly.

mod kernel;
mod rust;

use v_frame::pixel::Pixel;

use crate::data::plane::PlaneRegion;

pub fn get_sad<T: Pixel>(
    plane_org: &PlaneRegion<'_, T>,
    plane_ref: &PlaneRegion<'_, T>,
    w: usize,
    h: usize,
    bit_depth: usize,
) -> u32 {
    if size_of::<T>() != 1 {
        return rust::get_sad_internal(plane_org, plane_ref, w, h, bit_depth);
    }
    let rows = |region: &PlaneRegion<'_, T>| kernel::Rows {
        first: region.data_ptr().cast(),
        stride: region.plane_cfg.stride(),
    };
    // SAFETY: as in the published loop, w by h samples of both regions can be read.
    unsafe { kernel::sad(rows(plane_org), rows(plane_ref), w, h) }
}
