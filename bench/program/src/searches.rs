//! The rows of single searches, from a start far from what they find.

use oracle::Search;

use crate::{
    column::Vector,
    columns::columns,
    frames::{Content, frame},
    rounds::{Times, rounds},
    sads::{SIDE, blocks},
};

/// Whole pixels in eighths, 13 down and 17 to the left.
const START: Vector = (8 * 13, -8 * 17);

const CONTENTS: [Content; 2] = [Content::Noise, Content::Lobby];
const SEARCHES: [(&str, Search); 3] = [
    ("diamond", Search::Diamond),
    ("hexagon", Search::Hexagon),
    ("multi-hexagon", Search::UnevenMultiHexagon),
];

#[derive(Clone, Copy)]
pub struct Row {
    called: &'static str,
    search: Search,
    content: Content,
}

impl Row {
    pub fn all() -> Vec<Row> {
        let on = |content| {
            SEARCHES.map(|(called, search)| Row {
                called,
                search,
                content,
            })
        };
        CONTENTS.into_iter().flat_map(on).collect()
    }

    pub fn name(&self) -> String {
        format!("{} {}", self.called, self.content.name())
    }

    /// The mean over the blocks; or, where the columns find different vectors, what they
    /// differ on.
    pub fn time(&self) -> Result<Times, String> {
        let frame = frame(self.content, SIDE, SIDE);
        let columns = columns(&frame);
        let piece = |i: usize, turns: usize| {
            let on = |at| columns[i].searches(self.search, &at, START, turns);
            let (times, found): (Vec<f64>, Vec<_>) = blocks().map(on).unzip();
            (times.iter().sum::<f64>() / times.len() as f64, found)
        };
        let (_, expected) = piece(0, 1);
        rounds(&|turns| {
            // All blocks together take as long as a piece is to take.
            let pieces = [0, 1, 2].map(|i| piece(i, turns[i].div_ceil(expected.len())));
            match pieces.iter().all(|(_, found)| *found == expected) {
                true => Ok(pieces.map(|(time, _)| time)),
                false => Err(self.name()),
            }
        })
    }
}
