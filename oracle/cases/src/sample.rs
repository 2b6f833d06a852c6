//! What planes hold. Numbers stay below 2^64 and no difference is negative, so
//! that a Rattle program can repeat every sample.

use oracle::PAD;

pub const CONTENTS: [&str; 11] = [
    "flat",
    "gradient",
    "noise",
    "saturated",
    "shifted copy",
    "plateaus",
    "periodic",
    "diagonal",
    "moving blocks",
    "sparse spots",
    "flat areas",
];

/// Seeds are below this.
pub const SEEDS: u64 = 1 << 16;

const PRIME: u64 = (1 << 31) - 1;

/// Squaring twice, since without it nearby samples are visibly related.
fn noise(k: u64, x: u64, y: u64) -> u64 {
    let v = (x * 73_856_093 + y * 19_349_663 + k * 83_492_791 + 12_345) % PRIME;
    let v = (v * v + 7) % PRIME;
    let v = (v * v + 7) % PRIME;
    v / 4096 % 256
}

/// The full-size pixel at column or row `at` of a padded plane at shift s,
/// counted from 128 pixels before the frame.
fn pixel(at: u64, s: usize) -> u64 {
    (at << s) + 128 - ((PAD[s] as u64) << s)
}

/// Plateaus of 8 by 8 pixels, moved alike at every shift, each 32 by 32 pixels
/// of the reference by vectors of their own, under a little noise.
fn moving(seed: u64, plane: u64, s: usize, x: u64, y: u64) -> u64 {
    let (px, py) = (pixel(x, s), pixel(y, s));
    let moved = |which: u64| match plane {
        0 => 16,
        _ => 4 * (noise(seed + which * SEEDS, px / 32, py / 32) % 9),
    };
    let texture = noise(seed, (px + moved(1)) / 8, (py + moved(2)) / 8);
    texture * 15 / 16 + noise(seed + (3 + plane) * SEEDS, x, y) % (1 + seed % 16)
}

/// The sample in column x and row y of a padded plane at shift s, the current
/// one (0) or the reference (1).
pub fn sample(content: usize, seed: u64, plane: u64, s: usize, x: u64, y: u64) -> u8 {
    let own = seed + SEEDS * plane;
    let value = match content {
        0 => (seed + 5 * plane) % 256,
        1 => (x * (1 + seed % 7) + y * (seed / 7 % 5) + 3 * plane) % 256,
        2 => noise(own, x, y),
        3 if noise(own, x, y) >= 128 => 255,
        3 => 0,
        4 if plane == 0 => noise(seed, x + 16, y + 16),
        4 => noise(seed, x + 12 + seed % 9, y + 12 + seed / 9 % 9),
        5 => 60 * (noise(seed + SEEDS * (plane * (seed % 2)), x / 8, y / 8) % 4),
        // Points on both sides of a centre tie.
        6 => {
            let (across, down) = (2 + seed % 5, 2 + seed / 5 % 5);
            let (x, y) = (x + plane * (seed / 25 % 7), y + plane * (seed / 175 % 7));
            60 * (noise(seed, x % across, y % down) % 4)
        }
        // Waves along a diagonal: a step across ties with a step down, or up.
        7 => {
            let line = if seed % 2 == 1 { x + 2_048 - y } else { x + y };
            let half = 4 + seed / 18 % 16;
            let phase = (line + plane * (seed / 2 % 9)) % (2 * half);
            13 * phase.min(2 * half - phase)
        }
        8 => moving(seed, plane, s, x, y),
        // Most candidates tie, and a SAD is a few spots.
        9 => {
            let (x, y) = (x + plane * (seed % 9), y + plane * (seed / 9 % 9));
            let spot = noise(seed, x, y) < 1 + seed / 81 % 4;
            if spot { 255 } else { seed / 324 % 2 * 128 }
        }
        // A few whole differences, so that SADs meet the threshold exactly.
        _ => {
            let (side, most) = (16 << (seed % 3), 2 + seed / 3 % 7);
            100 + plane * (noise(seed, pixel(x, s) / side, pixel(y, s) / side) % most)
        }
    };
    value as u8
}
