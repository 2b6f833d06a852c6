//! Draws that document 01 accepts, with the edges often among them.

use oracle::BlockAt;

use crate::random::Random;

/// The weights that every run tries.
pub const WEIGHTS: [u32; 4] = [0, 1, 16, u32::MAX];

/// A frame's width or height: mostly small, so that many blocks are cropped.
pub fn side(random: &mut Random) -> usize {
    let most = match random.below(40) {
        0 => 128,
        1..6 => 40,
        _ => 17,
    };
    8 * (1 + random.below(most))
}

/// The levels whose blocks are searched, those that refine, and both.
const SEARCHED: [(usize, bool); 3] = [(4, false), (3, false), (2, false)];
const REFINED: [(usize, bool); 2] = [(3, true), (2, true)];
const BOTH: [(usize, bool); 5] = [(4, false), (3, false), (3, true), (2, false), (2, true)];

/// A block of a width by height frame, refined or not.
pub fn block(random: &mut Random, width: usize, height: usize) -> BlockAt {
    block_among(random, width, height, &BOTH)
}

/// A block that a level searches.
pub fn searched_block(random: &mut Random, width: usize, height: usize) -> BlockAt {
    block_among(random, width, height, &SEARCHED)
}

/// A block that a level refines.
pub fn refined_block(random: &mut Random, width: usize, height: usize) -> BlockAt {
    block_among(random, width, height, &REFINED)
}

/// At the frame's last column or row in one draw of three.
fn block_among(
    random: &mut Random,
    width: usize,
    height: usize,
    among: &[(usize, bool)],
) -> BlockAt {
    let (level, refined) = random.pick(among);
    let mut at = BlockAt {
        width,
        height,
        level,
        refined,
        bx: 0,
        by: 0,
    };
    let mut cell = |side: usize| {
        let blocks = side.div_ceil(at.mv_size());
        let last = random.one_in(3);
        let number = if last {
            blocks - 1
        } else {
            random.below(blocks)
        };
        number * at.mv_size() / 4
    };
    (at.bx, at.by) = (cell(width), cell(height));
    at
}

/// A component at, just inside or just outside an end of its range, anywhere in
/// it, or (one in ten) anywhere at all.
pub fn component(random: &mut Random, min: isize, max: isize) -> i16 {
    let value = match random.below(20) {
        0 => min,
        1 => min - 1,
        2 => min + 1,
        3 => max,
        4 => max + 1,
        5 => max - 1,
        6 => random.between(i16::MIN.into(), i16::MAX.into()),
        7 => random.pick(&[i16::MIN.into(), i16::MAX.into()]),
        _ => random.between(min, max),
    };
    value as i16
}

/// A component between ends that are far apart: near an end, near zero or near a
/// whole pixel often, or (one in six) as `component` draws it.
pub fn mostly_between(random: &mut Random, min: isize, max: isize) -> i16 {
    let value = match random.below(12) {
        0 | 1 => return component(random, min, max),
        2 => min + random.between(0, 16),
        3 => max - random.between(0, 16),
        4 | 5 => random.between(-64, 64),
        6 | 7 => 8 * random.between(-8, 8) + random.between(-2, 2),
        8 | 9 => 8 * random.between(min / 8, max / 8) + random.between(-2, 2),
        _ => random.between(min, max),
    };
    value.clamp(min, max) as i16
}

/// The ends, both included, of the stored components whose refinement window is
/// not empty, for a component's range at shift s.
pub fn stored_ends(min: isize, max: isize, s: u8) -> (isize, isize) {
    // The first component that is cut to min/8 - 2 pixels, and the last cut to max/8 + 1.
    let first = (8 * (min / 8 - 3) + 1) << s;
    let last = ((8 * (max / 8 + 2)) << s) - 1;
    (first, last)
}
