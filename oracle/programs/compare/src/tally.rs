//! What a run has covered.

use std::collections::{BTreeMap, BTreeSet};

use cases::CONTENTS;

use crate::kind::Outcome;

#[derive(Default)]
pub struct Tally {
    kinds: BTreeMap<&'static str, usize>,
    contents: [usize; CONTENTS.len()],
    guarded: usize,
    cells: usize,
    /// What else there was, by kind.
    seen: BTreeMap<(&'static str, &'static str, &'static str), usize>,
    refusals: BTreeMap<u32, usize>,
    /// Cropped widths and heights by level and by whether refined.
    sizes: BTreeMap<(usize, bool), BTreeSet<(usize, usize)>>,
}

impl Tally {
    pub fn add(&mut self, kind: &'static str, outcome: &Outcome) {
        *self.kinds.entry(kind).or_default() += 1;
        if let Some(content) = outcome.content {
            self.contents[content] += 1;
        }
        self.guarded += usize::from(outcome.guarded);
        self.cells += outcome.cells;
        for &(what, which) in &outcome.seen {
            *self.seen.entry((kind, what, which)).or_default() += 1;
        }
        if outcome.refusal != 0 {
            *self.refusals.entry(outcome.refusal).or_default() += 1;
        }
        if let Some(at) = outcome.block {
            let seen = self.sizes.entry((at.level, at.refined)).or_default();
            seen.insert(at.size());
        }
    }

    pub fn print(&self) {
        for (kind, cases) in &self.kinds {
            println!("kind {kind}: {cases}");
        }
        for (content, cases) in CONTENTS.iter().zip(self.contents) {
            println!("content {content}: {cases}");
        }
        for ((kind, what, which), cases) in &self.seen {
            println!("{kind}, {what} {which}: {cases}");
        }
        println!("cells written and compared: {}", self.cells);
        println!("buffers that end at an unreadable page: {}", self.guarded);
        for (number, cases) in &self.refusals {
            println!("refused {number}: {cases}");
        }
        for ((level, refined), seen) in &self.sizes {
            // Sides are multiples of 8, so a block's cropped side takes every multiple of 8 up to its own.
            let sides = (4 << (level + usize::from(*refined))) / 8;
            let (which, all) = (if *refined { ", refined" } else { "" }, sides * sides);
            println!(
                "cropped sizes at level {level}{which}: {} of {all}",
                seen.len()
            );
        }
    }
}
