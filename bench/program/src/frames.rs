//! The frames that are timed.

use cases::{Frame, Random};
use oracle::PAD;

#[derive(Clone, Copy, Debug, PartialEq, Eq)]
pub enum Content {
    /// Two frames of independent samples.
    Noise,
    /// A smooth texture that moves as a whole.
    Global,
    /// A smooth texture whose blocks of 16 move each on its own, under noise.
    Blocks,
    Flat,
    /// A still background with a little noise, and one figure that walks.
    Lobby,
    /// The same, the second frame brighter.
    Lights,
}

impl Content {
    pub const ALL: [Content; 6] = [
        Content::Noise,
        Content::Global,
        Content::Blocks,
        Content::Flat,
        Content::Lobby,
        Content::Lights,
    ];

    /// Those that a camera which stands still gives, one frame after the other.
    pub const STILL: [Content; 2] = [Content::Lobby, Content::Lights];

    pub fn name(self) -> &'static str {
        match self {
            Content::Noise => "noise",
            Content::Global => "global",
            Content::Blocks => "blocks",
            Content::Flat => "flat",
            Content::Lobby => "lobby",
            Content::Lights => "lights",
        }
    }
}

/// Pixels round the frame out of which the padding of all sizes is averaged.
const MARGIN: usize = 80;

/// How far the reference's content lies to the right of the current frame's and
/// below it, and the most that a block or a sample is off on its own.
const MOVED: (isize, isize) = (5, -3);
const BLOCK_MOVED: isize = 6;
const NOISE: isize = 4;

/// Of a still camera: the most that a sample is off, how much brighter the second frame
/// is where the lights come up, and the figure: its first column and row from the
/// frame's, its columns and rows, and how far it walks from the reference to the
/// current frame.
const STILL_NOISE: isize = 2;
const BRIGHTER: isize = 12;
const FIGURE_AT: (isize, isize) = (104, 72);
const FIGURE: (isize, isize) = (48, 112);
const WALKED: isize = 3;

/// A number that hangs on the place alone.
fn random_at(what: u64, x: usize, y: usize) -> Random {
    Random::new(what << 40 | (y as u64) << 20 | x as u64)
}

/// Random values `cell` pixels apart, joined by straight lines.
fn waves(cell: usize, x: usize, y: usize) -> usize {
    let (left, top, right, down) = (x / cell, y / cell, x % cell, y % cell);
    let at = |x, y| random_at(cell as u64, x, y).below(256);
    let across = |y| at(left, y) * (cell - right) + at(left + 1, y) * right;
    (across(top) * (cell - down) + across(top + 1) * down) / (cell * cell)
}

fn texture(x: isize, y: isize) -> isize {
    let (x, y) = ((x + 64) as usize, (y + 64) as usize);
    ((3 * waves(24, x, y) + 2 * waves(6, x, y)) / 5) as isize
}

/// The background, or the figure in front of it, which has a texture of its own.
fn lobby(which: u64, col: isize, row: isize) -> isize {
    let walked = if which == 0 { WALKED } else { 0 };
    let margin = MARGIN as isize;
    let (x, y) = (
        col - margin - FIGURE_AT.0 - walked,
        row - margin - FIGURE_AT.1,
    );
    match (0..FIGURE.0).contains(&x) && (0..FIGURE.1).contains(&y) {
        true => texture(x + 2_048, y + 2_048),
        false => texture(col, row),
    }
}

/// A full-size sample of the current frame (0) or the reference (1), its place
/// counted from MARGIN pixels before the frame.
fn sample(content: Content, which: u64, x: usize, y: usize) -> u8 {
    let (col, row) = (x as isize, y as isize);
    let value = match (content, which) {
        (Content::Noise, _) => random_at(1 + which, x, y).below(256) as isize,
        (Content::Flat, _) => 90,
        (Content::Lobby | Content::Lights, _) => {
            let noise = random_at(5 + which, x, y).between(-STILL_NOISE, STILL_NOISE);
            let lit = content == Content::Lights && which == 0;
            lobby(which, col, row) + noise + if lit { BRIGHTER } else { 0 }
        }
        (_, 1) => texture(col, row),
        (Content::Global, _) => texture(col + MOVED.0, row + MOVED.1),
        (Content::Blocks, _) => {
            let mut block = random_at(3, x / 16, y / 16);
            let mut moved = || block.between(-BLOCK_MOVED, BLOCK_MOVED);
            let noise = random_at(4, x, y).between(-NOISE, NOISE);
            texture(col + moved(), row + moved()) + noise
        }
    };
    value.clamp(0, 255) as u8
}

/// The plane at shift `s` out of a full-size one with MARGIN pixels round it: each
/// sample is the mean of a square, rounded.
fn plane(full: &[u8], width: usize, height: usize, s: usize) -> Vec<u8> {
    let (stride, rows) = ((width >> s) + 2 * PAD[s], (height >> s) + 2 * PAD[s]);
    let (full_stride, first) = (width + 2 * MARGIN, MARGIN - (PAD[s] << s));
    let (side, area) = (1 << s, 1 << (2 * s));
    let mean = |x: usize, y: usize| {
        let row = |y: usize| &full[y * full_stride + first + (x << s)..][..side];
        let down = first + (y << s);
        let samples = (down..down + side).flat_map(row);
        let sum: usize = samples.map(|&sample| usize::from(sample)).sum();
        ((sum + area / 2) / area) as u8
    };
    (0..stride * rows)
        .map(|i| mean(i % stride, i / stride))
        .collect()
}

pub fn frame(content: Content, width: usize, height: usize) -> Frame {
    let planes = [0, 1].map(|which| {
        let stride = width + 2 * MARGIN;
        let full: Vec<u8> = (0..stride * (height + 2 * MARGIN))
            .map(|i| sample(content, which, i % stride, i / stride))
            .collect();
        [0, 1, 2].map(|s| plane(&full, width, height, s))
    });
    Frame {
        width,
        height,
        planes,
    }
}
