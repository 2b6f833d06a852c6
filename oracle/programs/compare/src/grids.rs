//! The two grids of a call: the previous one, if present, and the current one.

use cases::{CELL_SEEDS, CONTENTS, FILLS, Random, SEEDS, cells};
use oracle::Grid;

use crate::{
    call::lengths,
    grid::LentGrid,
    kind::Numbers,
    lend::LONGER,
    refusal::GridLens,
    scenes::{Scenes, Setting},
};

pub struct Grids {
    pub present: usize,
    pub previous: LentGrid,
    pub current: LentGrid,
    previous_fill: usize,
}

/// The fill past those of `cases`: what the published run leaves on a frame of
/// the same size, whose content and seed are the number.
const RUN: usize = FILLS.len();

/// The cells, or None where there is no such fill.
fn filled(fill: usize, seed: u64, setting: Setting, scenes: &mut Scenes) -> Option<Grid> {
    let (width, height) = (setting.width, setting.height);
    match fill {
        0..RUN => Some(cells(fill, seed, width, height)),
        RUN => {
            let before = Setting {
                content: seed as usize % CONTENTS.len(),
                seed: seed / CONTENTS.len() as u64 % SEEDS,
                ..setting
            };
            let first = cells(0, seed, width, height);
            Some(scenes.get(before).oracle.frame_run(&first, None))
        }
        _ => None,
    }
}

/// A fill and its seed; a run before is of the same frame in every other draw.
fn draw_fill(random: &mut Random, setting: &Setting) -> [i128; 2] {
    if random.one_in(4) {
        let same = setting.seed * CONTENTS.len() as u64 + setting.content as u64;
        let any = random.word() % (SEEDS * CONTENTS.len() as u64);
        return [RUN as i128, random.pick(&[same, any]).into()];
    }
    let fill = random.below(FILLS.len()) as i128;
    [fill, (random.word() % CELL_SEEDS).into()]
}

/// The lengths of a grid's buffers: exact or longer, but where they `may_lack` in
/// one draw of sixteen or so.
fn grid_lens(random: &mut Random, guarded: bool, full: usize, may_lack: bool) -> [usize; 3] {
    if may_lack && random.one_in(4) {
        return lengths(random, guarded, full);
    }
    let most = if guarded { 0 } else { LONGER };
    [0; 3].map(|_| {
        let longer = full + random.below(most + 1);
        random.pick(&[full, longer])
    })
}

impl Grids {
    /// The names of the numbers.
    pub const COLUMNS: [&'static str; 11] = [
        "present",
        "prev_rows_len",
        "prev_cols_len",
        "prev_sads_len",
        "prev_fill",
        "prev_seed",
        "rows_len",
        "cols_len",
        "sads_len",
        "fill",
        "cells_seed",
    ];

    /// The numbers of grids for a frame; the previous one is absent in one draw of
    /// three. One that the call uses may be too short where they `may_lack`.
    pub fn draw(
        random: &mut Random,
        setting: &Setting,
        guarded: bool,
        may_lack: bool,
    ) -> Vec<i128> {
        let full = setting.width / 4 * (setting.height / 4);
        let present = match random.below(3) {
            0 => 0,
            _ => random.pick(&[1, 1, 1, 1, 2, 1 << 32, usize::MAX]),
        };
        // Nothing is asked of a grid that is absent.
        let previous = if present == 0 && random.one_in(2) {
            [0; 3].map(|_| {
                let any = random.below(full);
                random.pick(&[0, any, full - 1, full])
            })
        } else {
            grid_lens(random, guarded, full, may_lack)
        };
        let previous_fill = draw_fill(random, setting);
        let current = grid_lens(random, guarded, full, may_lack);
        let fill = draw_fill(random, setting);
        [
            &[present as i128][..],
            &previous.map(|len| len as i128),
            &previous_fill,
            &current.map(|len| len as i128),
            &fill,
        ]
        .concat()
    }

    /// A current grid, exactly long enough, and no previous one.
    pub fn alone(cells: Grid, guarded: bool) -> Self {
        let none = Grid {
            rows: Vec::new(),
            cols: Vec::new(),
            sads: Vec::new(),
        };
        let lens = [cells.sads.len(); 3];
        Grids {
            present: 0,
            previous: LentGrid::new(none, [0; 3], guarded).protected(),
            current: LentGrid::new(cells, lens, guarded),
            previous_fill: 0,
        }
    }

    /// The grids of a frame, the previous and the current one as `arrange` leaves
    /// them.
    pub fn take(
        numbers: &mut Numbers<'_>,
        setting: Setting,
        guarded: bool,
        scenes: &mut Scenes,
        arrange: impl FnOnce(&mut Grid, &mut Grid),
    ) -> Option<Self> {
        let present = numbers.take()?;
        let mut one = || {
            let lens = [numbers.take()?, numbers.take()?, numbers.take()?];
            let (fill, seed) = (numbers.take()?, numbers.take()?);
            Some((lens, fill, filled(fill, seed, setting, scenes)?))
        };
        let (previous_lens, previous_fill, mut previous) = one()?;
        let (lens, _, mut current) = one()?;
        arrange(&mut previous, &mut current);
        Some(Grids {
            present,
            previous: LentGrid::new(previous, previous_lens, guarded).protected(),
            current: LentGrid::new(current, lens, guarded),
            previous_fill,
        })
    }

    pub fn lens(&self) -> GridLens {
        GridLens {
            present: self.present,
            previous: self.previous.lens,
            current: self.current.lens,
        }
    }

    /// The previous grid for the published Rust.
    pub fn previous(&self) -> Option<&Grid> {
        (self.present != 0).then_some(&self.previous.cells)
    }

    /// What the previous grid was, in words.
    pub fn seen(&self) -> (&'static str, &'static str) {
        let which = match self.present {
            0 => "absent",
            _ => FILLS.get(self.previous_fill).copied().unwrap_or("of a run"),
        };
        ("previous grid", which)
    }
}
