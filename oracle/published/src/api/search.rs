//! One block: the SAD and the cost of a candidate, and the searches.

use std::hint::black_box;

use v_frame::plane::Plane;

use super::{
    block::{BlockAt, MvRange},
    frame::{BIT_DEPTH, Oracle},
};
use crate::{
    analyze::inter,
    data::{
        motion::MotionVector,
        plane::{Area, AsRegion, PlaneOffset, PlaneRegion},
        sad::get_sad,
    },
};

/// Vector, SAD and cost at shift s.
#[derive(Clone, Copy, Debug, PartialEq, Eq)]
pub struct Found {
    pub row: i16,
    pub col: i16,
    pub sad: u32,
    pub cost: u64,
}

#[derive(Clone, Copy, Debug, PartialEq, Eq)]
pub enum Search {
    Diamond,
    Hexagon,
    /// Reach 24.
    UnevenMultiHexagon,
}

/// What the published routines want of one block.
struct Block<'a> {
    po: PlaneOffset,
    org_region: PlaneRegion<'a, u8>,
    p_ref: &'a Plane<u8>,
    w: usize,
    h: usize,
    range: MvRange,
}

impl From<inter::MotionSearchResult> for Found {
    fn from(result: inter::MotionSearchResult) -> Self {
        Found {
            row: result.mv.row,
            col: result.mv.col,
            sad: result.rd.sad,
            cost: result.rd.cost,
        }
    }
}

impl Block<'_> {
    fn rd(&self, mv: MotionVector, lambda: u32) -> inter::MVCandidateRD {
        let r = self.range;
        inter::get_fullpel_mv_rd(
            self.po,
            &self.org_region,
            self.p_ref,
            BIT_DEPTH,
            lambda,
            false,
            r.mvx_min,
            r.mvx_max,
            r.mvy_min,
            r.mvy_max,
            self.w,
            self.h,
            mv,
        )
    }
}

impl Block<'_> {
    fn search(&self, search: Search, mv: MotionVector, weight: u32) -> Found {
        let mut current = inter::MotionSearchResult {
            mv,
            rd: self.rd(mv, weight),
        };
        let MvRange {
            mvx_min: x0,
            mvx_max: x1,
            mvy_min: y0,
            mvy_max: y1,
        } = self.range;
        let (po, org, p_ref, best) = (self.po, &self.org_region, self.p_ref, &mut current);
        let (w, h) = (self.w, self.h);
        match search {
            Search::Diamond => inter::fullpel_diamond_search(
                po, org, p_ref, best, BIT_DEPTH, weight, x0, x1, y0, y1, w, h,
            ),
            Search::Hexagon => inter::hexagon_search(
                po, org, p_ref, best, BIT_DEPTH, weight, x0, x1, y0, y1, w, h,
            ),
            Search::UnevenMultiHexagon => inter::uneven_multi_hex_search(
                po, org, p_ref, best, BIT_DEPTH, weight, x0, x1, y0, y1, w, h, 24,
            ),
        }
        current.into()
    }
}

impl Oracle {
    /// Sets a block up as `estimate_motion` and
    /// `refine_subsampled_motion_estimate` do.
    fn on_block<R>(&self, at: &BlockAt, body: impl FnOnce(Block<'_>) -> R) -> R {
        self.check(at);
        let ((w, h), ssdec, bo) = (at.size(), at.ssdec(), at.offset());
        let full = bo.to_luma_plane_offset();
        let (x, y) = (full.x >> ssdec, full.y >> ssdec);
        let po = PlaneOffset { x, y };
        let ts = self.tile(&mut []);
        let from_start = Area::StartingAt { x, y };
        let y_plane = &ts.input_tile.y_plane;
        let org_region = match ssdec {
            0 => y_plane.subregion(Area::BlockStartingAt { bo }),
            1 => ts.input_hres.unwrap().region(from_start),
            _ => ts.input_qres.unwrap().region(from_start),
        };
        body(Block {
            po,
            org_region,
            p_ref: self.reference(ssdec),
            w,
            h,
            range: at.range(),
        })
    }

    /// `get_sad` on the block and the reference block that a vector in range
    /// leads to.
    pub fn sad(&self, at: &BlockAt, row: i16, col: i16) -> u32 {
        self.ready_sads(at, &[(row, col)], |sads| sads())
    }

    /// Runs `body` with the regions of several such vectors ready: what it is
    /// given sums their SADs, and does nothing else.
    pub fn ready_sads<R>(
        &self,
        at: &BlockAt,
        vectors: &[(i16, i16)],
        body: impl FnOnce(&mut dyn FnMut() -> u32) -> R,
    ) -> R {
        self.on_block(at, |b| {
            let region = |&(row, col): &(i16, i16)| {
                let (x, y) = (b.po.x + isize::from(col / 8), b.po.y + isize::from(row / 8));
                b.p_ref.region(Area::StartingAt { x, y })
            };
            let regions: Vec<_> = vectors.iter().map(region).collect();
            // The block is opaque, or a loop over regions would load it once for all.
            let sad = |region| get_sad(black_box(&b.org_region), region, b.w, b.h, BIT_DEPTH);
            body(&mut || regions.iter().map(sad).sum())
        })
    }

    /// Runs `body` with a block ready: what it is given sums the costs of the
    /// vectors, as `get_fullpel_mv_rd` tells them, and does nothing else.
    pub fn ready_costs<R>(
        &self,
        at: &BlockAt,
        vectors: &[(i16, i16)],
        body: impl FnOnce(&mut dyn FnMut() -> u64) -> R,
    ) -> R {
        self.on_block(at, |b| {
            let cost =
                |&(row, col): &(i16, i16)| black_box(&b).rd(MotionVector { row, col }, 0).cost;
            body(&mut || vectors.iter().map(cost).fold(0, u64::wrapping_add))
        })
    }

    /// `get_fullpel_mv_rd`: SAD and cost of one candidate.
    pub fn candidate(&self, at: &BlockAt, row: i16, col: i16, weight: u32) -> Found {
        self.on_block(at, |b| {
            let mv = MotionVector { row, col };
            let rd = b.rd(mv, weight);
            inter::MotionSearchResult { mv, rd }.into()
        })
    }

    /// One search from a start vector at shift s.
    pub fn search(&self, search: Search, at: &BlockAt, row: i16, col: i16, weight: u32) -> Found {
        self.ready_search(search, at, row, col, weight, |found| found())
    }

    /// Runs `body` with a block ready: what it is given searches from the start vector,
    /// and does nothing else.
    pub fn ready_search<R>(
        &self,
        search: Search,
        at: &BlockAt,
        row: i16,
        col: i16,
        weight: u32,
        body: impl FnOnce(&mut dyn FnMut() -> Found) -> R,
    ) -> R {
        self.on_block(at, |b| {
            body(&mut || black_box(&b).search(search, MotionVector { row, col }, weight))
        })
    }
}
