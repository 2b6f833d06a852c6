//! A pair of frames of one content.

use oracle::{Oracle, PAD};

use crate::sample::sample;

/// Current and reference planes at full, half and quarter size.
pub struct Frame {
    pub width: usize,
    pub height: usize,
    pub planes: [[Vec<u8>; 3]; 2],
}

impl Frame {
    pub fn new(width: usize, height: usize, content: usize, seed: u64) -> Self {
        let plane = |which: u64, s: usize| {
            let (stride, rows) = (
                (width >> s) as u64 + 2 * PAD[s] as u64,
                (height >> s) as u64 + 2 * PAD[s] as u64,
            );
            (0..rows)
                .flat_map(|y| (0..stride).map(move |x| sample(content, seed, which, s, x, y)))
                .collect()
        };
        Frame {
            width,
            height,
            planes: [0, 1].map(|which| [0, 1, 2].map(|s| plane(which, s))),
        }
    }

    /// The published routines over these planes.
    pub fn oracle(&self) -> Oracle {
        let [cur, reference] = self.planes.each_ref().map(|p| p.each_ref().map(|v| &v[..]));
        Oracle::new(self.width, self.height, cur, reference)
    }
}
