//! Two frames in the published containers; runs and steps.

use std::sync::Arc;

use v_frame::{frame::Frame, plane::Plane};

use super::{
    block::BlockAt,
    grid::{Grid, fill, read},
    planes::embed,
};
use crate::{
    analyze::inter,
    data::{
        frame::{FrameInvariants, FrameState, RefType},
        motion::{FrameMEStats, ReferenceFrame},
        superblock::{
            MI_SIZE, PlaneSuperBlockOffset, SB_SIZE, SuperBlockOffset, TileSuperBlockOffset,
        },
        tile::TileStateMut,
    },
    hooks,
};

/// Bytes only.
pub const BIT_DEPTH: usize = 8;

/// The one reference that the published text searches.
pub const REFERENCE: RefType = RefType::LAST_FRAME;

/// Two frames, ready for the published routines.
pub struct Oracle {
    width: usize,
    height: usize,
    pub(super) fi: FrameInvariants<u8>,
    fs: FrameState<u8>,
}

impl Oracle {
    /// Planes at full, half and quarter size with document 01's padding.
    pub fn new(width: usize, height: usize, cur: [&[u8]; 3], reference: [&[u8]; 3]) -> Self {
        let plane = |lent: [&[u8]; 3], s: usize| embed(lent[s], width, height, s);
        let frame = |lent| {
            Arc::new(Frame {
                y_plane: plane(lent, 0),
            })
        };

        // The published constructors make every entry of ref_frames the same slot.
        let key = FrameInvariants::new_key_frame(width, height);
        let mut fi = FrameInvariants::new_inter_frame(&key, 1).unwrap();
        let slot = fi.ref_frames[REFERENCE.to_index()] as usize;
        fi.rec_buffer.frames[slot] = Some(Arc::new(ReferenceFrame {
            frame: frame(reference),
            input_hres: Arc::new(plane(reference, 1)),
            input_qres: Arc::new(plane(reference, 2)),
            frame_me_stats: FrameMEStats::new_arc_array(width / MI_SIZE, height / MI_SIZE),
        }));

        let fs = FrameState {
            input: frame(cur),
            input_hres: Some(Arc::new(plane(cur, 1))),
            input_qres: Some(Arc::new(plane(cur, 2))),
            frame_me_stats: FrameMEStats::new_arc_array(1, 1),
        };
        Self {
            width,
            height,
            fi,
            fs,
        }
    }

    pub(super) fn tile<'a>(&'a self, stats: &'a mut [FrameMEStats]) -> TileStateMut<'a, u8> {
        let origin = PlaneSuperBlockOffset(SuperBlockOffset { x: 0, y: 0 });
        TileStateMut::new(&self.fs, origin, self.width, self.height, stats)
    }

    fn slot(&self) -> &ReferenceFrame<u8> {
        let slot = self.fi.ref_frames[REFERENCE.to_index()] as usize;
        self.fi.rec_buffer.frames[slot].as_ref().unwrap()
    }

    /// The reference plane at shift `ssdec`.
    pub(super) fn reference(&self, ssdec: u8) -> &Plane<u8> {
        let rec = self.slot();
        [&rec.frame.y_plane, &rec.input_hres, &rec.input_qres][usize::from(ssdec)]
    }

    /// A block given for another frame is a caller's mistake.
    pub(super) fn check(&self, at: &BlockAt) {
        assert_eq!((at.width, at.height), (self.width, self.height));
    }

    /// Runs `body` on a tile over a copy of `grid`; gives `body`'s answer and
    /// the grid afterwards. The slot keeps the last previous grid that it was
    /// given, so that one that is absent still has contents.
    pub(super) fn on_grid<R>(
        &self,
        grid: &Grid,
        previous: Option<&Grid>,
        body: impl FnOnce(&mut TileStateMut<'_, u8>) -> R,
    ) -> (R, Grid) {
        if let Some(cells) = previous {
            let mut stats = self.slot().frame_me_stats.write().unwrap();
            fill(&mut stats[REFERENCE.to_index()], cells);
        }
        let mut stats = [FrameMEStats::new(
            self.width / MI_SIZE,
            self.height / MI_SIZE,
        )];
        fill(&mut stats[0], grid);
        let answer = hooks::with_previous(previous.is_some(), || body(&mut self.tile(&mut stats)));
        (answer, read(&stats[0]))
    }

    /// `estimate_tile_motion`: every level, superblocks in raster order.
    pub fn frame_run(&self, grid: &Grid, previous: Option<&Grid>) -> Grid {
        self.ready_run(grid, previous, |run| run()).1
    }

    /// Runs `body` with everything ready for a frame run: what it is given makes
    /// one, and nothing else, from the grid that the last one left.
    pub fn ready_run<R>(
        &self,
        grid: &Grid,
        previous: Option<&Grid>,
        body: impl FnOnce(&mut dyn FnMut()) -> R,
    ) -> (R, Grid) {
        self.on_grid(grid, previous, |ts| {
            body(&mut || inter::estimate_tile_motion(&self.fi, ts, BIT_DEPTH))
        })
    }

    /// One superblock at one level, at the weight of a run:
    /// `refine_subsampled_sb_motion` (levels 3 and 2), then `estimate_sb_motion`.
    pub fn superblock_step(
        &self,
        level: usize,
        superblock: usize,
        grid: &Grid,
        previous: Option<&Grid>,
    ) -> Grid {
        let across = self.width.div_ceil(SB_SIZE);
        let (sbx, sby) = (superblock % across, superblock / across);
        let tile_bo = TileSuperBlockOffset(SuperBlockOffset { x: sbx, y: sby }).block_offset(0, 0);
        let first = BlockAt {
            width: self.width,
            height: self.height,
            level,
            refined: false,
            bx: tile_bo.0.x,
            by: tile_bo.0.y,
        };
        let (fi, ssdec, lambda) = (&self.fi, first.ssdec(), 0);
        let init = level == 4;
        let step = |ts: &mut TileStateMut<'_, u8>| {
            if !init {
                inter::refine_subsampled_sb_motion(
                    fi,
                    ts,
                    REFERENCE,
                    level + 1,
                    tile_bo,
                    ssdec,
                    lambda,
                    BIT_DEPTH,
                );
            }
            inter::estimate_sb_motion(
                fi, ts, REFERENCE, level, tile_bo, init, ssdec, lambda, BIT_DEPTH,
            );
        };
        self.on_grid(grid, previous, step).1
    }
}
