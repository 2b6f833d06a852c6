//! Runs the published Rust and the proved code on the same inputs and compares
//! every field of their answers.

mod answers;
mod call;
mod calls;
mod grid;
mod grids;
mod kind;
mod kinds;
mod lend;
mod planes;
mod refusal;
mod runs;
mod scenes;
mod tally;

use std::process::ExitCode;

use cases::{Answers, Comparison, Random, Told};

use crate::{
    kind::{Kind, Numbers},
    kinds::KINDS,
    scenes::{Scenes, Setting},
    tally::Tally,
};

/// Cases in turn that share a frame.
const CASES_PER_FRAME: usize = 6;

struct Compare {
    random: Random,
    kinds: Vec<&'static dyn Kind>,
    setting: Setting,
    scenes: Scenes,
    tally: Tally,
}

fn find(name: &str) -> Result<&'static dyn Kind, String> {
    let mut kinds = KINDS.map(|(kind, _)| kind).into_iter();
    let names: Vec<_> = kinds.clone().map(|kind| kind.name()).collect();
    let kind = kinds.find(|kind| kind.name() == name);
    kind.ok_or(format!("no kind {name:?}; there are {}", names.join(", ")))
}

/// The kinds in turn, each as often as its share says.
fn round() -> Vec<&'static dyn Kind> {
    let most = KINDS.iter().map(|(_, share)| *share).max().unwrap_or(0);
    let turn = |turn| KINDS.iter().filter(move |(_, share)| turn < *share);
    (0..most).flat_map(turn).map(|(kind, _)| *kind).collect()
}

impl Comparison for Compare {
    const COMMAND: &'static str = "compare";

    type Case = (&'static dyn Kind, Vec<i128>);

    fn new(seed: u64, kind: Option<&str>) -> Result<Self, String> {
        let mut random = Random::new(seed);
        let kinds = match kind {
            None => round(),
            Some(name) => vec![find(name)?],
        };
        Ok(Compare {
            setting: Setting::draw(&mut random),
            random,
            kinds,
            scenes: Scenes::default(),
            tally: Tally::default(),
        })
    }

    fn draw(&mut self, number: usize) -> Self::Case {
        if number.is_multiple_of(CASES_PER_FRAME) {
            self.setting = Setting::draw(&mut self.random);
        }
        let kind = self.kinds[number % self.kinds.len()];
        (kind, kind.draw(&mut self.random, &self.setting))
    }

    fn case(kind: &str, numbers: Vec<i128>) -> Result<Self::Case, String> {
        Ok((find(kind)?, numbers))
    }

    fn told((kind, numbers): &Self::Case) -> Told {
        Told {
            drawn_as: kind.name(),
            kind: kind.name(),
            numbers: numbers.iter().map(i128::to_string).collect(),
        }
    }

    fn columns((kind, _): &Self::Case) -> Vec<&'static str> {
        kind.columns()
    }

    fn run(&mut self, (kind, numbers): &Self::Case) -> Option<Answers> {
        if numbers.len() != kind.columns().len() {
            return None;
        }
        let outcome = kind.run(&mut Numbers::new(numbers), &mut self.scenes)?;
        self.tally.add(kind.name(), &outcome);
        Some(outcome.answers)
    }

    fn print(&self) {
        self.tally.print();
    }

    /// What comes up is told, and nothing must.
    fn never(&self) -> Option<String> {
        None
    }
}

fn main() -> ExitCode {
    cases::run::<Compare>()
}
