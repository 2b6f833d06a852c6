//! Writes and reads grid files, whole and in fragments, and compares grids, by the
//! proved code and by the judges, and compares their answers and all memory that was
//! lent.

mod case;
mod compare;
mod draw;
mod fragments;
mod grid;
mod judge;
mod lent;
mod link;
mod read;
mod reader;
mod state;
mod tally;
mod told;
mod write;

use std::{iter::repeat_n, process::ExitCode};

use cases::{Answers, Comparison, Random, Told};

use crate::{
    case::Case, compare::Compare, fragments::Fragments, lent::Lent, read::Read, state::State,
    tally::Tally, write::Write,
};

/// Draws a case for the round of that number.
type Draw = fn(&mut Random, usize) -> Box<dyn Case>;

/// Every kind of case with its cases in a round: one, where it goes through a list.
const KINDS: [(&str, usize, Draw); 11] = [
    ("write", 4, Write::draw),
    ("read", 4, Read::draw),
    ("cut", 1, Read::cut),
    ("changed", 1, Read::changed),
    ("fragments", 9, Fragments::draw),
    ("in_two", 1, Fragments::in_two),
    ("in_three", 1, Fragments::in_three),
    ("bytes", 1, Fragments::bytes),
    ("short", 1, Fragments::short),
    ("state", 2, State::draw),
    ("compare", 4, Compare::draw),
];

struct GridFiles {
    random: Random,
    round: Vec<(&'static str, Draw)>,
    lent: Lent,
    tally: Tally,
}

/// The kinds in turn, each as often as its share says.
fn round() -> Vec<(&'static str, Draw)> {
    let share = |(name, share, draw)| repeat_n((name, draw), share);
    KINDS.into_iter().flat_map(share).collect()
}

impl Comparison for GridFiles {
    const COMMAND: &'static str = "gridfiles";

    /// With the kind that drew it.
    type Case = (&'static str, Box<dyn Case>);

    fn new(seed: u64, kind: Option<&str>) -> Result<Self, String> {
        match kind {
            Some(_) => Err("all kinds come in turn".into()),
            None => Ok(GridFiles {
                random: Random::new(seed),
                round: round(),
                lent: Lent::new(),
                tally: Tally::default(),
            }),
        }
    }

    fn draw(&mut self, number: usize) -> Self::Case {
        let (kind, draw) = self.round[number % self.round.len()];
        (kind, draw(&mut self.random, number / self.round.len()))
    }

    fn case(kind: &str, numbers: Vec<i128>) -> Result<Self::Case, String> {
        let numbers: Result<Vec<u64>, _> = numbers.into_iter().map(u64::try_from).collect();
        let numbers = numbers.map_err(|_| "a case is whole numbers")?;
        let case = match kind {
            "write" => Write::take(&numbers),
            "read" => Read::take(&numbers),
            "fragments" => Fragments::take(&numbers),
            "state" => State::take(&numbers),
            "compare" => Compare::take(&numbers),
            _ => {
                return Err(format!(
                    "no kind {kind:?} to replay; there are write, read, fragments, state, compare"
                ));
            }
        };
        let case = case.ok_or("these numbers are no case")?;
        Ok((case.name(), case))
    }

    fn told((drawn_as, case): &Self::Case) -> Told {
        Told {
            drawn_as,
            kind: case.name(),
            numbers: case.numbers().iter().map(u64::to_string).collect(),
        }
    }

    fn columns((_, case): &Self::Case) -> Vec<&'static str> {
        case.columns()
    }

    fn run(&mut self, (kind, case): &Self::Case) -> Option<Answers> {
        let outcome = case.run(&mut self.lent);
        self.tally.add(kind, &outcome);
        Some(outcome.answers)
    }

    fn print(&self) {
        self.tally.print();
    }

    fn never(&self) -> Option<String> {
        self.tally.never()
    }
}

fn main() -> ExitCode {
    cases::run::<GridFiles>()
}
