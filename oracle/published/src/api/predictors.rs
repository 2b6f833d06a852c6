//! The predictor lists and the stop threshold.

use super::{
    block::{BlockAt, MvRange},
    frame::{Oracle, REFERENCE},
    grid::Grid,
};
use crate::{
    analyze::inter,
    data::{
        motion::{MVSamplingMode, MotionVector},
        superblock::{MI_SIZE, SB_SIZE},
        tile::{TileBlockOffset, TileStateMut},
    },
    hooks,
};

/// (row, col) vectors at shift s. `centre` is the source's `median`: the
/// current grid's centre at levels 3 and 2, nothing at level 4.
#[derive(Clone, Debug, PartialEq, Eq)]
pub struct Predictors {
    pub centre: Option<(i16, i16)>,
    pub b: Vec<(i16, i16)>,
    pub c: Vec<(i16, i16)>,
    pub min_sad: u32,
    pub threshold: u32,
}

fn pair(mv: &MotionVector) -> (i16, i16) {
    (mv.row, mv.col)
}

impl Oracle {
    /// `get_subset_predictors` as `full_pixel_me` calls it, with the threshold
    /// that `full_pixel_me` works out at level 4.
    pub fn predictors(&self, at: &BlockAt, grid: &Grid, previous: Option<&Grid>) -> Predictors {
        self.check(at);
        let ((w, h), ssdec) = (at.size(), at.ssdec());
        let MvRange {
            mvx_min: x0,
            mvx_max: x1,
            mvy_min: y0,
            mvy_max: y1,
        } = at.range();
        let odd = |cell: usize| cell * MI_SIZE % SB_SIZE / at.mv_size() % 2 == 1;
        let (right, bottom) = (odd(at.bx), odd(at.by));
        let corner = match at.level {
            4 => MVSamplingMode::INIT,
            _ => MVSamplingMode::CORNER { right, bottom },
        };
        let index = REFERENCE.to_index();
        let bo = TileBlockOffset(at.offset());
        let ask = |ts: &mut TileStateMut<'_, u8>| {
            let frame_ref = self.fi.rec_buffer.frames[self.fi.ref_frames[0] as usize]
                .as_ref()
                .map(|frame_ref| frame_ref.frame_me_stats.read().unwrap())
                .filter(|_| hooks::previous_present());
            let tile_me_stats = &ts.me_stats[index].as_const();
            inter::get_subset_predictors(
                bo,
                tile_me_stats,
                frame_ref,
                index,
                w,
                h,
                x0,
                x1,
                y0,
                y1,
                corner,
                ssdec,
            )
        };
        let subsets = self.on_grid(grid, previous, ask).0;
        let six_fifths = (subsets.min_sad as f32 * 1.2) as u32;
        Predictors {
            centre: subsets.median.as_ref().map(pair),
            b: subsets.subset_b.iter().map(pair).collect(),
            c: subsets.subset_c.iter().map(pair).collect(),
            min_sad: subsets.min_sad,
            threshold: six_fifths + (w * h) as u32,
        }
    }
}
