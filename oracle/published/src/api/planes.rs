//! Lent planes, set into larger ones for the published text.
//!
//! The samples round a lent plane are junk, other junk each time, so a read
//! past document 01's padding shows up as an unsteady answer.

use std::cell::Cell;

use v_frame::plane::{Plane, PlaneGeometry};

/// Document 01's padding at shift 0, 1, 2.
pub const PAD: [usize; 3] = [48, 40, 20];

/// Junk round a lent plane; with the padding it is wide enough for the
/// assertion in `Tile::new`, which rounds a frame up to whole superblocks.
const JUNK: usize = 64;

fn junk_sample() -> u8 {
    thread_local!(static STATE: Cell<u64> = const { Cell::new(0x9E37_79B9_7F4A_7C15) });
    let mut s = STATE.get();
    s ^= s << 13;
    s ^= s >> 7;
    s ^= s << 17;
    STATE.set(s);
    (s >> 24) as u8
}

/// The lent plane of a width by height frame at shift `s`.
pub fn embed(lent: &[u8], width: usize, height: usize, s: usize) -> Plane<u8> {
    let (width, height, pad) = (width >> s, height >> s, PAD[s]);
    let (lent_stride, lent_rows) = (width + 2 * pad, height + 2 * pad);
    let geometry = PlaneGeometry {
        width,
        height,
        stride: lent_stride + 2 * JUNK,
        alloc_height: lent_rows + 2 * JUNK,
        pad_left: pad + JUNK,
        pad_top: pad + JUNK,
    };
    let stride = geometry.stride;
    let mut data: Vec<u8> = (0..stride * geometry.alloc_height)
        .map(|_| junk_sample())
        .collect();
    for (y, row) in lent.chunks_exact(lent_stride).take(lent_rows).enumerate() {
        data[(y + JUNK) * stride + JUNK..][..lent_stride].copy_from_slice(row);
    }
    Plane::from_parts(data, geometry)
}
