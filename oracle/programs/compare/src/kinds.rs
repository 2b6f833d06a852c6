//! The kinds of case, one file each but for the searches.

mod candidate;
mod limit;
mod lists;
mod predictors;
mod range;
mod rate;
mod refine;
mod run;
mod sad;
mod search;
mod step;
mod steps;

use crate::kind::Kind;

/// Every kind there is, with its cases in a round: a run costs as much as many
/// of the others.
pub const KINDS: [(&dyn Kind, usize); 14] = [
    (&rate::Rate, 4),
    (&range::Range, 4),
    (&sad::Sad, 4),
    (&candidate::Candidate, 4),
    (&search::DIAMOND, 4),
    (&search::HEXAGON, 4),
    (&search::MULTI_HEXAGON, 4),
    (&limit::Limit, 4),
    (&refine::Refine, 4),
    (&predictors::Predictors, 8),
    (&step::Step, 6),
    (&run::Run, 4),
    (&steps::Steps, 4),
    (&lists::Lists, 6),
];
