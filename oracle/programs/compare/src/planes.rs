//! The six planes of a call, current and reference at full, half and quarter size.

use cases::{CONTENTS, Random, SEEDS};
use lockdapple_sys as sys;
use oracle::PAD;

use crate::{
    kind::Numbers,
    lend::LONGER,
    refusal::frame_is_valid,
    scenes::{Scene, Setting},
};

/// The samples of a plane at shift s.
pub fn plane_len(width: usize, height: usize, s: usize) -> usize {
    ((width >> s) + 2 * PAD[s]) * ((height >> s) + 2 * PAD[s])
}

/// The frame that what is lent is of: the smallest where none is described.
pub fn setting_of(width: usize, height: usize, content: usize, seed: u64) -> Setting {
    let valid = frame_is_valid(width, height);
    Setting {
        width: if valid { width } else { 8 },
        height: if valid { height } else { 8 },
        content,
        seed,
    }
}

pub struct Planes {
    pub content: usize,
    pub seed: u64,
    /// What is lent ends at an unreadable page.
    pub guarded: bool,
    /// Current at shift 0, 1, 2, then the reference.
    pub lens: [usize; 6],
}

impl Planes {
    /// The names of `numbers`.
    pub const COLUMNS: [&'static str; 9] = [
        "content",
        "seed",
        "guarded",
        "cur_len",
        "cur_half_len",
        "cur_quarter_len",
        "reference_len",
        "reference_half_len",
        "reference_quarter_len",
    ];

    /// Planes that are long enough, but where they `may_lack` in one draw of twelve
    /// or so; those at a shift that is not `used` may be of any length.
    pub fn draw(
        random: &mut Random,
        setting: &Setting,
        used: Option<usize>,
        may_lack: bool,
    ) -> Self {
        let guarded = random.one_in(4);
        let (fault, any) = (may_lack && random.one_in(10), random.one_in(2));
        let lens = [0, 1, 2, 0, 1, 2].map(|s: usize| {
            let full = plane_len(setting.width, setting.height, s);
            let longer = if guarded { 0 } else { random.below(LONGER + 1) };
            let shorter = random.below(full);
            if any && used.is_some_and(|used| used != s) {
                random.pick(&[0, shorter, full - 1, full])
            } else if fault && random.one_in(4) {
                random.pick(&[shorter, full - 1])
            } else {
                random.pick(&[full, full, full + longer])
            }
        });
        Planes {
            content: setting.content,
            seed: setting.seed,
            guarded,
            lens,
        }
    }

    pub fn numbers(&self) -> Vec<i128> {
        let mut numbers = vec![self.content as i128, self.seed.into(), self.guarded.into()];
        numbers.extend(self.lens.map(|len| len as i128));
        numbers
    }

    pub fn take(numbers: &mut Numbers<'_>) -> Option<Self> {
        let (content, seed) = (numbers.take()?, numbers.take()?);
        let guarded = numbers.take::<u8>()? != 0;
        let mut lens = [0; 6];
        for len in &mut lens {
            *len = numbers.take()?;
        }
        let planes = Planes {
            content,
            seed,
            guarded,
            lens,
        };
        (content < CONTENTS.len() && seed < SEEDS).then_some(planes)
    }

    /// Those of the current frame and of the reference, or None where the scene has
    /// none so long.
    pub fn lend<'a>(&self, scene: &'a Scene) -> Option<[sys::Planes<'a>; 2]> {
        let lend = |which: usize, s: usize| {
            scene.lent[which][s].lend(self.guarded, self.lens[3 * which + s])
        };
        let frame = |which| {
            Some(sys::Planes {
                full: lend(which, 0)?,
                half: lend(which, 1)?,
                quarter: lend(which, 2)?,
            })
        };
        Some([frame(0)?, frame(1)?])
    }
}
