//! A call on one block that is lent the two planes of its level and a vector.

use cases::{Answers, CONTENTS, Random, SEEDS, WEIGHTS};
use oracle::BlockAt;

use crate::{
    kind::{Numbers, Outcome},
    lend::LONGER,
    planes::{plane_len, setting_of},
    refusal::Asked,
    scenes::{Scene, Setting},
};

pub struct Call {
    pub asked: Asked,
    pub content: usize,
    pub seed: u64,
    /// What is lent ends at an unreadable page.
    pub guarded: bool,
    /// Lengths of the current plane and the reference.
    pub lens: [usize; 2],
    pub row: i16,
    pub col: i16,
    pub weight: u32,
}

/// The shift whose planes are lent; at a level that there is not, the full size.
pub fn shift(level: usize) -> usize {
    match level {
        4 => 2,
        3 => 1,
        _ => 0,
    }
}

/// The lengths of buffers that must have `full` items each: right in three draws
/// of four.
pub fn lengths<const N: usize>(random: &mut Random, guarded: bool, full: usize) -> [usize; N] {
    if !random.one_in(4) {
        return [full; N];
    }
    [0; N].map(|_| {
        let longer = if guarded { 0 } else { 1 + random.below(LONGER) };
        let any = random.below(full);
        random.pick(&[full, full, full + longer, full - 1, any, 0])
    })
}

impl Call {
    /// A call that nothing refuses: a block of `setting`, planes exactly full
    /// and guarded in one call of four, weight 0.
    pub fn new(random: &mut Random, setting: &Setting, at: BlockAt, row: i16, col: i16) -> Self {
        let mut call = Call {
            asked: Asked::from(at),
            content: setting.content,
            seed: setting.seed,
            guarded: random.one_in(4),
            lens: [0; 2],
            row,
            col,
            weight: 0,
        };
        call.lens = [call.full_len(); 2];
        call
    }

    /// The call with any weight and, in three draws of eight or so, numbers or
    /// lengths that are wrong or nearly so.
    pub fn vary(mut self, random: &mut Random) -> Self {
        self.weight = match random.below(6) {
            0 => random.word() as u32,
            1 => random.below(1_000) as u32,
            // A frame run's weight, and the one where most costs tie.
            2 => 0,
            _ => random.pick(&WEIGHTS),
        };
        for _ in 0..random.pick(&[0, 0, 0, 0, 0, 0, 1, 2]) {
            self.asked.spoil(random);
        }
        let full = self.full_len();
        self.lens = lengths(random, self.guarded, full);
        self
    }

    /// The frame that the planes are of.
    pub fn setting(&self) -> Setting {
        setting_of(self.asked.width, self.asked.height, self.content, self.seed)
    }

    fn full_len(&self) -> usize {
        let setting = self.setting();
        plane_len(setting.width, setting.height, shift(self.asked.level))
    }

    /// The current plane and the reference, or None where the scene has none so long.
    pub fn planes<'a>(&self, scene: &'a Scene) -> Option<[&'a [u8]; 2]> {
        let s = shift(self.asked.level);
        let [cur, reference] = &scene.lent;
        Some([
            cur[s].lend(self.guarded, self.lens[0])?,
            reference[s].lend(self.guarded, self.lens[1])?,
        ])
    }

    /// What the call came to; the block, where one was worked on.
    pub fn outcome(&self, answers: Answers, refusal: u32, block: Option<BlockAt>) -> Outcome {
        Outcome {
            content: Some(self.content),
            guarded: self.guarded,
            block,
            ..Outcome::new(answers, refusal)
        }
    }

    /// The names of `numbers`.
    pub fn columns() -> Vec<&'static str> {
        let rest = [
            "content",
            "seed",
            "guarded",
            "cur_len",
            "reference_len",
            "row",
            "col",
            "weight",
        ];
        [&Asked::COLUMNS[..], &rest].concat()
    }

    pub fn numbers(&self) -> Vec<i128> {
        let mut numbers = self.asked.numbers();
        numbers.extend([
            self.content as i128,
            self.seed.into(),
            self.guarded.into(),
            self.lens[0] as i128,
            self.lens[1] as i128,
            self.row.into(),
            self.col.into(),
            self.weight.into(),
        ]);
        numbers
    }

    pub fn take(numbers: &mut Numbers<'_>) -> Option<Self> {
        let call = Call {
            asked: Asked::take(numbers)?,
            content: numbers.take()?,
            seed: numbers.take()?,
            guarded: numbers.take::<u8>()? != 0,
            lens: [numbers.take()?, numbers.take()?],
            row: numbers.take()?,
            col: numbers.take()?,
            weight: numbers.take()?,
        };
        (call.content < CONTENTS.len() && call.seed < SEEDS).then_some(call)
    }
}
