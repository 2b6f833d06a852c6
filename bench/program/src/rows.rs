//! The rows of frame runs: what each is of, and its times.

use crate::{
    columns::columns,
    frames::{Content, frame},
    lent::zeros,
    rounds::{Round, Times, rounds},
};

const SIZES: [(usize, usize); 2] = [(256, 256), (1_024, 1_024)];

/// The growth has these sizes too, of two contents and with no previous grid.
const GROWTH_SIZES: [(usize, usize); 3] = [(64, 64), (128, 128), (512, 512)];
pub const GROWTH: [Content; 2] = [Content::Noise, Content::Blocks];

/// Sizes with blocks that the frame's edge crops, so that all widths are met.
const CROPPED: [(usize, usize); 6] = [
    (8, 8),
    (24, 40),
    (72, 88),
    (136, 56),
    (176, 208),
    (248, 120),
];

#[derive(Clone, Copy)]
pub struct Row {
    pub width: usize,
    pub height: usize,
    pub content: Content,
    pub previous: bool,
}

impl Row {
    fn each(sizes: &[(usize, usize)], contents: &[Content], previous: &[bool]) -> Vec<Row> {
        let mut rows = Vec::new();
        for &(width, height) in sizes {
            for &content in contents {
                rows.extend(previous.iter().map(|&previous| Row {
                    width,
                    height,
                    content,
                    previous,
                }));
            }
        }
        rows
    }

    /// The rows of the table; a still camera has a frame before.
    pub fn table() -> Vec<Row> {
        let still = |row: &Row| Content::STILL.contains(&row.content);
        let mut rows = Row::each(&SIZES, &Content::ALL, &[false, true]);
        rows.retain(|row| row.previous || !still(row));
        rows
    }

    /// The rows that only the growth has.
    pub fn growth() -> Vec<Row> {
        Row::each(&GROWTH_SIZES, &GROWTH, &[false])
    }

    pub fn name(&self) -> String {
        let previous = if self.previous { "previous" } else { "none" };
        let (width, height, content) = (self.width, self.height, self.content.name());
        format!("{width}x{height} {content} {previous}")
    }

    pub fn pixels(&self) -> f64 {
        (self.width * self.height) as f64
    }

    /// The times of the columns in turn; or, where they leave different grids, what
    /// they differ on.
    pub fn time(&self) -> Result<Times, String> {
        self.on_columns(rounds)
    }

    /// Runs `body` with the columns made ready: what it is given makes a round, so
    /// many runs of each column, and compares the grids.
    fn on_columns<R>(
        &self,
        body: impl FnOnce(&Round<'_>) -> Result<R, String>,
    ) -> Result<R, String> {
        let frame = frame(self.content, self.width, self.height);
        let columns = columns(&frame);
        let first = zeros(self.width / 4 * (self.height / 4));
        let run = |i: usize, previous, turns| columns[i].frame_runs(&first, previous, turns);
        // What the same frames leave: motion that goes on.
        let left = run(0, None, 1).1;
        let previous = self.previous.then_some(&left);
        let expected = run(0, previous, 1).1;
        body(&|turns| {
            let runs = [0, 1, 2].map(|i| run(i, previous, turns[i]));
            match runs.iter().all(|(_, grid)| *grid == expected) {
                true => Ok(runs.map(|(time, _)| time)),
                false => Err(self.name()),
            }
        })
    }
}

/// How many frames with cropped blocks the three leave the same grid on.
pub fn check_cropped() -> Result<usize, String> {
    let rows = Row::each(&CROPPED, &Content::ALL, &[false, true]);
    for row in &rows {
        row.on_columns(|one| one([1; 3]))?;
    }
    Ok(rows.len())
}
