//! Lists of superblocks: orders in which a run may go, and lists that it refuses.

use crate::random::Random;

/// Those up to `ACCEPTED` name each superblock once, with no pair that shares an
/// edge against raster order. Others may as well, as in a frame of one superblock.
pub const ORDERS: [&str; 18] = [
    "raster",
    "any accepted",
    "by columns",
    "by diagonals",
    "swapped pair",
    "any permutation",
    "backwards",
    "duplicate",
    "equal sum",
    "past the count",
    "shorter",
    "longer",
    "empty",
    "duplicate and swapped pair",
    "longer and swapped pair",
    "next two swapped",
    "any two swapped",
    "any numbers",
];

pub const ACCEPTED: usize = 4;

/// Any superblock whose left and upper neighbours have been taken, again and again.
fn any_accepted(random: &mut Random, across: usize, down: usize) -> Vec<usize> {
    let mut taken = vec![false; across * down];
    let mut list = Vec::new();
    while list.len() < taken.len() {
        let free = |&n: &usize| {
            let left = n % across == 0 || taken[n - 1];
            let upper = n < across || taken[n - across];
            !taken[n] && left && upper
        };
        let ready: Vec<usize> = (0..taken.len()).filter(free).collect();
        let next = random.pick(&ready);
        taken[next] = true;
        list.push(next);
    }
    list
}

/// The list of one of the orders up to `ACCEPTED`.
fn accepted(order: usize, random: &mut Random, across: usize, down: usize) -> Vec<usize> {
    let mut list: Vec<usize> = (0..across * down).collect();
    match order {
        1 => list = any_accepted(random, across, down),
        2 => list.sort_by_key(|n| (n % across, n / across)),
        3 => list.sort_by_key(|n| (n % across + n / across, n % across)),
        _ => {}
    }
    list
}

/// An accepted list in which a pair that shares an edge has changed places.
fn swapped_pair(random: &mut Random, across: usize, down: usize) -> Vec<usize> {
    let mut list = any_accepted(random, across, down);
    let right = (0..list.len()).filter(|n| (n + 1) % across != 0);
    let mut pairs: Vec<_> = right.map(|n| (n, n + 1)).collect();
    pairs.extend((across..list.len()).map(|n| (n - across, n)));
    if !pairs.is_empty() {
        let (a, b) = random.pick(&pairs);
        let place = |of| list.iter().position(|&n| n == of).unwrap();
        let (a, b) = (place(a), place(b));
        list.swap(a, b);
    }
    list
}

/// One entry becomes another that the list has too.
fn duplicate(random: &mut Random, list: &mut [usize]) {
    let (from, to) = (random.below(list.len()), random.below(list.len()));
    list[to] = list[from];
}

/// A number that no superblock of `count` has, `like` modulo 256 often.
fn past(random: &mut Random, count: usize, like: usize) -> usize {
    let any = random.below(count);
    random.pick(&[
        count,
        count,
        count + 1 + any,
        like + 256,
        like + 1_024,
        65_535,
    ])
}

/// Numbers up to `count`, as many or any number of them.
fn any_numbers(random: &mut Random, count: usize) -> Vec<usize> {
    let any = random.below(2 * count + 1);
    let len = random.pick(&[count, any]);
    (0..len).map(|_| random.below(count + 1)).collect()
}

/// The list of that order and seed for across by down superblocks.
pub fn order(order: usize, seed: u64, across: usize, down: usize) -> Vec<u16> {
    let random = &mut Random::new(seed);
    let count = across * down;
    let mut list: Vec<usize> = match order {
        0..ACCEPTED => accepted(order, random, across, down),
        4 | 13 | 14 => swapped_pair(random, across, down),
        7..=11 if random.one_in(2) => any_accepted(random, across, down),
        12 => Vec::new(),
        15 | 16 => {
            let order = random.below(ACCEPTED);
            accepted(order, random, across, down)
        }
        17 => any_numbers(random, count),
        _ => (0..count).collect(),
    };
    match order {
        5 => (1..count).for_each(|i| list.swap(i, random.below(i + 1))),
        6 => list.reverse(),
        7 | 13 => duplicate(random, &mut list),
        8 if count >= 3 => {
            let middle = 1 + random.below(count - 2);
            for (n, becomes) in [(middle - 1, middle), (middle + 1, middle)] {
                let place = list.iter().position(|&m| m == n).unwrap();
                list[place] = becomes;
            }
        }
        9 => {
            let place = random.below(count);
            list[place] = past(random, count, list[place]);
        }
        10 => {
            let place = random.below(count);
            list.remove(place);
        }
        11 | 14 => {
            let any = random.below(count);
            let none = past(random, count, any);
            let extra = random.pick(&[any, list[count - 1], none]);
            let place = random.pick(&[0, count]);
            list.insert(place, extra);
        }
        15 if count >= 2 => {
            let place = random.below(count - 1);
            list.swap(place, place + 1);
        }
        16 => list.swap(random.below(count), random.below(count)),
        _ => {}
    }
    list.into_iter().map(|n| n as u16).collect()
}
