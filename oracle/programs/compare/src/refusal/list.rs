//! The numbers of a list of superblocks: 6 and 7.

use super::rules::superblocks;

/// Numbers 6 and 7 of a list for a frame that there is.
pub fn refusal_of_list(width: usize, height: usize, list: &[u16]) -> u32 {
    let (across, down) = superblocks(width, height);
    let list: Vec<usize> = list.iter().map(|&n| n.into()).collect();
    let mut sorted = list.clone();
    sorted.sort();
    if !sorted.into_iter().eq(0..across * down) {
        return 6;
    }
    let share_an_edge = |a: usize, b: usize| {
        let (ax, ay, bx, by) = (a % across, a / across, b % across, b / across);
        ax.abs_diff(bx) + ay.abs_diff(by) == 1
    };
    for (place, &a) in list.iter().enumerate() {
        let against = |&b: &usize| b < a && share_an_edge(a, b);
        if list[place..].iter().any(against) {
            return 7;
        }
    }
    0
}
