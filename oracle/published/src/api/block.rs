//! A block's size and range, in numbers alone.

use crate::{
    analyze::inter,
    data::{
        block::BlockOffset, frame::FrameInvariants, plane::PlaneBlockOffset, superblock::MI_SIZE,
    },
};

/// The block at cell (bx, by) of a width by height frame: the one that `level`
/// searches or, with `refined`, the larger one that it refines first.
#[derive(Clone, Copy, Debug, PartialEq, Eq)]
pub struct BlockAt {
    pub width: usize,
    pub height: usize,
    pub level: usize,
    pub refined: bool,
    pub bx: usize,
    pub by: usize,
}

/// The ends, both allowed, that a vector keeps to.
#[derive(Clone, Copy, Debug, PartialEq, Eq)]
pub struct MvRange {
    pub mvx_min: isize,
    pub mvx_max: isize,
    pub mvy_min: isize,
    pub mvy_max: isize,
}

impl BlockAt {
    pub fn ssdec(&self) -> u8 {
        match self.level {
            4 => 2,
            3 => 1,
            2 => 0,
            level => panic!("level {level}"),
        }
    }

    /// Side of an uncropped block in full-size pixels.
    pub fn mv_size(&self) -> usize {
        MI_SIZE << (self.level + usize::from(self.refined))
    }

    pub(super) fn offset(&self) -> BlockOffset {
        BlockOffset {
            x: self.bx,
            y: self.by,
        }
    }

    /// Width and height at the level's shift, cropped at the frame's edge. The
    /// source rounds up here, which sides that are multiples of 8 never need.
    pub fn size(&self) -> (usize, usize) {
        let cropped = |cell: usize, side: usize| self.mv_size().min(side - cell * MI_SIZE);
        let (bw, bh) = (cropped(self.bx, self.width), cropped(self.by, self.height));
        (bw >> self.ssdec(), bh >> self.ssdec())
    }

    /// `get_mv_range`, then the level's shift.
    pub fn range(&self) -> MvRange {
        let fi = FrameInvariants::<u8>::new(self.width, self.height);
        let bo = PlaneBlockOffset(self.offset());
        let ((w, h), ssdec) = (self.size(), self.ssdec());
        let (bw, bh) = (w << ssdec, h << ssdec);
        let full = inter::get_mv_range(fi.w_in_b, fi.h_in_b, bo, bw, bh);
        MvRange {
            mvx_min: full.0 >> ssdec,
            mvx_max: full.1 >> ssdec,
            mvy_min: full.2 >> ssdec,
            mvy_max: full.3 >> ssdec,
        }
    }
}
