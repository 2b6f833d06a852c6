//! One refinement.

use super::{
    block::BlockAt,
    frame::{BIT_DEPTH, Oracle, REFERENCE},
    grid::Grid,
    search::Found,
};
use crate::{
    analyze::inter,
    data::tile::{TileBlockOffset, TileStateMut},
};

impl Oracle {
    /// `refine_subsampled_motion_estimate` of a refined block, at shift s.
    ///
    /// The published routine shifts its vector left by s; that is undone here,
    /// exactly, since every vector in range is below 2^14 >> s.
    pub fn refinement(&self, at: &BlockAt, grid: &Grid, weight: u32) -> Found {
        assert!(at.refined);
        self.check(at);
        let ((w, h), ssdec) = (at.size(), at.ssdec());
        let bo = TileBlockOffset(at.offset());
        let refine = |ts: &mut TileStateMut<'_, u8>| {
            inter::refine_subsampled_motion_estimate(
                &self.fi, ts, w, h, bo, REFERENCE, ssdec, weight, BIT_DEPTH,
            )
            .unwrap()
        };
        let found = Found::from(self.on_grid(grid, None, refine).0);
        Found {
            row: found.row >> ssdec,
            col: found.col >> ssdec,
            ..found
        }
    }
}
