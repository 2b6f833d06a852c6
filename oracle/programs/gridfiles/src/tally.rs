//! What a run has covered.

use std::collections::BTreeMap;

use cases::Place;

use crate::{
    case::{Given, Outcome},
    fragments::{IN_THREE, IN_TWO},
    read::{CHANGES, CUTS},
    state::ODD,
};

/// Every refusal that a grid file can meet, and that a reader can.
const REFUSALS: [u32; 6] = [1, 5, 10, 11, 12, 13];
const READERS_REFUSALS: [u32; 4] = [10, 11, 12, 13];
/// And what a comparison hands on or gives.
const COMPARED_REFUSALS: [u32; 6] = [10, 11, 12, 13, 14, 99];

/// The kinds that go through a list, again from its start once all is done.
const LISTS: [(&str, &str, usize); 4] = [
    ("cut", "lengths of small files", CUTS),
    ("changed", "values of the smallest file's bytes", CHANGES),
    (
        "in_two",
        "cuts in two, with each byte changed or none",
        IN_TWO,
    ),
    ("in_three", "cuts in three", IN_THREE),
];

#[derive(Default)]
pub struct Tally {
    kinds: BTreeMap<&'static str, usize>,
    /// Columns and rows of the grids that were written or read.
    shapes: BTreeMap<(usize, usize), usize>,
    at_end: usize,
    at_start: usize,
    refusals: BTreeMap<u32, usize>,
    /// Files in fragments, the calls that they took, and those read whole as well.
    readings: usize,
    calls: usize,
    whole: usize,
    /// Those that were refused once cells had been taken in, and those with 13.
    kept: usize,
    kept_13: usize,
    readings_refusals: BTreeMap<u32, usize>,
    states: States,
    compared: Compared,
}

/// Pairs of grids.
#[derive(Default)]
struct Compared {
    all: usize,
    /// How many differed in so many places; of the others, with which refusal.
    places: BTreeMap<usize, usize>,
    refusals: BTreeMap<u32, usize>,
}

impl Compared {
    fn add(&mut self, places: usize, refusal: u32) {
        self.all += 1;
        match refusal {
            0 => *self.places.entry(places).or_default() += 1,
            number => *self.refusals.entry(number).or_default() += 1,
        }
    }

    fn print(&self) {
        println!("pairs of grids compared: {}", self.all);
        for (places, cases) in &self.places {
            println!("pairs that differ in {places} places: {cases}");
        }
        for (number, cases) in &self.refusals {
            println!("pairs refused {number}: {cases}");
        }
    }

    fn never(&self) -> Option<String> {
        let refusal = COMPARED_REFUSALS.into_iter().find(|number| !self.refusals.contains_key(number));
        let refusal = refusal.map(|number| format!("a pair refused {number}"));
        let places = (0..3).find(|places| !self.places.contains_key(places));
        refusal.or(places.map(|places| format!("a pair that differs in {places} places")))
    }
}

/// The calls with a state that no call need have given back.
#[derive(Default)]
struct States {
    all: usize,
    wrote: usize,
    /// Those that were refused before, and the numbers of all others, 0 for none.
    refused: usize,
    numbers: BTreeMap<u32, usize>,
    /// The others that have each of `ODD`, given to a take call and to an end call.
    odd: [[usize; 2]; ODD.len()],
}

impl States {
    fn add(&mut self, given: &Given, number: u32) {
        self.all += 1;
        self.wrote += usize::from(given.wrote);
        if given.state.code != 0 {
            self.refused += 1;
            return;
        }
        *self.numbers.entry(number).or_default() += 1;
        for ((_, test), odd) in ODD.iter().zip(&mut self.odd) {
            odd[usize::from(given.ends)] += usize::from(test(&given.state));
        }
    }

    fn print(&self) {
        let (all, wrote, refused) = (self.all, self.wrote, self.refused);
        println!("states: {all}, refused before: {refused}, that cells came to: {wrote}");
        for ((name, _), [taken, ended]) in ODD.iter().zip(self.odd) {
            println!("states with {name}: {taken} to take, {ended} to end");
        }
        for (number, cases) in &self.numbers {
            match number {
                0 => println!("states not refused: {cases}"),
                _ => println!("states refused {number}: {cases}"),
            }
        }
    }

    fn never(&self) -> Option<String> {
        let mut odd = ODD.iter().zip(self.odd);
        let found = odd.find(|(_, cases)| cases.contains(&0));
        found.map(|((name, _), _)| format!("a state with {name}"))
    }
}

impl Tally {
    pub fn add(&mut self, kind: &'static str, outcome: &Outcome) {
        *self.kinds.entry(kind).or_default() += 1;
        match outcome.place {
            Place::AmongJunk => {}
            Place::End => self.at_end += 1,
            Place::Start => self.at_start += 1,
        }
        if let Some(given) = &outcome.given {
            self.states.add(given, outcome.refusal);
            return;
        }
        if let Some(places) = outcome.compared {
            self.compared.add(places, outcome.refusal);
            return;
        }
        let in_fragments = outcome.calls > 0;
        self.readings += usize::from(in_fragments);
        self.calls += outcome.calls;
        self.whole += usize::from(outcome.whole);
        self.kept += usize::from(outcome.kept > 0);
        self.kept_13 += usize::from(outcome.kept > 0 && outcome.refusal == 13);
        let refusals = match in_fragments {
            true => &mut self.readings_refusals,
            false => &mut self.refusals,
        };
        match outcome.shape {
            Some(shape) => *self.shapes.entry(shape).or_default() += 1,
            None => *refusals.entry(outcome.refusal).or_default() += 1,
        }
    }

    pub fn print(&self) {
        for (kind, cases) in &self.kinds {
            println!("kind {kind}: {cases}");
        }
        for (kind, what, all) in LISTS {
            let cases = self.kinds.get(kind).copied().unwrap_or(0);
            println!("{what}: {} of {all}", cases.min(all));
        }
        let (readings, calls) = (self.readings, self.calls);
        let cases: usize = self.kinds.values().sum();
        let whole = cases - readings - self.states.all - self.compared.all;
        println!("files written or read whole: {whole}");
        println!("readings in fragments: {readings}, in {calls} calls");
        println!("readings compared with the file read whole: {}", self.whole);
        let (kept, kept_13) = (self.kept, self.kept_13);
        println!("readings refused after cells came: {kept}, with 13: {kept_13}");
        let accepted: usize = self.shapes.values().sum();
        let largest = self.shapes.get(&(256, 256)).copied().unwrap_or(0);
        println!("files accepted: {accepted}, of 256 by 256 cells: {largest}");
        println!("shapes of these: {} of {}", self.shapes.len(), 128 * 128);
        println!("buffers that end at an unreadable page: {}", self.at_end);
        println!("buffers that start at one: {}", self.at_start);
        for (number, cases) in &self.refusals {
            println!("refused {number}: {cases}");
        }
        for (number, cases) in &self.readings_refusals {
            println!("readings refused {number}: {cases}");
        }
        self.states.print();
        self.compared.print();
    }

    /// The first that did not come up: a refusal, or what states must have.
    pub fn never(&self) -> Option<String> {
        let in_files = REFUSALS.map(|number| (number, &self.refusals));
        let in_readings = READERS_REFUSALS.map(|number| (number, &self.readings_refusals));
        let of_states = READERS_REFUSALS.map(|number| (number, &self.states.numbers));
        let mut all = in_files.into_iter().chain(in_readings).chain(of_states);
        let refusal = all.find(|(number, seen)| !seen.contains_key(number));
        let refusal = refusal.map(|(number, _)| format!("refused {number}"));
        let refusal = refusal.or_else(|| self.states.never());
        refusal.or_else(|| self.compared.never())
    }
}
