//! Draws that writing and reading share.

use cases::Random;

use crate::lent::LONGER;

/// Columns or rows of cells: mostly few, since a large file costs as much as many
/// small ones.
fn side(random: &mut Random) -> usize {
    let most = match random.below(32) {
        0 => 128,
        1..6 => 16,
        _ => 4,
    };
    2 * (1 + random.below(most))
}

pub fn shape(random: &mut Random) -> (usize, usize) {
    match random.below(1_000) {
        0 => (256, 256),
        _ => (side(random), side(random)),
    }
}

/// The length of a buffer that must have `full` items: right, longer or shorter.
pub fn length(random: &mut Random, full: usize) -> usize {
    let longer = full + 1 + random.below(LONGER);
    let shorter = random.below(full);
    match random.below(8) {
        0 => full - 1,
        1 => random.pick(&[shorter, 0]),
        2 | 3 => random.pick(&[full + 1, longer]),
        _ => full,
    }
}

/// The lengths of a grid's buffers: in one draw of four each its own, else none is
/// too short.
pub fn lengths(random: &mut Random, full: usize) -> [usize; 3] {
    let may_lack = random.one_in(4);
    [0; 3].map(|_| match length(random, full) {
        len if may_lack => len,
        len => len.max(full),
    })
}
