//! Both answers of a call that finds a vector, and of one that writes a grid.

use cases::{Answer, Answers};
use lockdapple_sys as sys;
use oracle::{Found, Grid};

use crate::{grid::Difference, grids::Grids};

fn answer(code: u32, row: i16, col: i16, sad: u32, cost: u64) -> Answer {
    vec![
        ("code", code.into()),
        ("row", row.into()),
        ("col", col.into()),
        ("sad", sad.into()),
        ("cost", cost.into()),
    ]
}

/// A vector with its SAD and cost; document 01's refusal where the published Rust was
/// not asked.
pub fn found(refusal: u32, published: Option<Found>, proved: sys::Found) -> Answers {
    Answers {
        expected: match published {
            None => answer(refusal, 0, 0, 0, 0),
            Some(f) => answer(refusal, f.row, f.col, f.sad, f.cost),
        },
        proved: answer(proved.code, proved.row, proved.col, proved.sad, proved.cost),
    }
}

/// The codes and, where a buffer does not hold what it should, the first such item.
pub fn written(expected: u32, proved: u32, grids: &Grids, should: &Grid) -> Answers {
    let mut answers = Answers::default();
    answers.add("code", expected, proved);
    let mut add = |which, difference: Difference| {
        let place = difference.place as i128;
        answers.add(which, place, place);
        answers.add(difference.buffer, difference.should, difference.is);
    };
    let current = grids.current.first_difference(should);
    current.into_iter().for_each(|d| add("cell", d));
    let previous = &grids.previous;
    let written = previous.first_difference(&previous.cells);
    written.into_iter().for_each(|d| add("previous cell", d));
    answers
}
