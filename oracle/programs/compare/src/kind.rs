//! What a kind of case is: numbers are drawn, and both sides answer them.

use cases::{Answers, Random};
use oracle::BlockAt;

use crate::scenes::{Scenes, Setting};

/// One kind. A case is its numbers and nothing else, so any case can be replayed.
pub trait Kind {
    fn name(&self) -> &'static str;

    /// The names of a case's numbers.
    fn columns(&self) -> Vec<&'static str>;

    /// A case; where it has planes they are of `setting`.
    fn draw(&self, random: &mut Random, setting: &Setting) -> Vec<i128>;

    /// Both answers, or None where the numbers are no case of this kind.
    fn run(&self, numbers: &mut Numbers<'_>, scenes: &mut Scenes) -> Option<Outcome>;
}

pub struct Outcome {
    /// Expected is the published Rust's, or that of document 01's table of refusals.
    pub answers: Answers,
    /// The refusal that was expected; 0 for none.
    pub refusal: u32,
    pub content: Option<usize>,
    /// The buffers ended at an unreadable page.
    pub guarded: bool,
    /// The block, where one was worked on.
    pub block: Option<BlockAt>,
    /// The cells of a grid that was written and compared.
    pub cells: usize,
    /// What else the case had, each a word for what and one for which.
    pub seen: Vec<(&'static str, &'static str)>,
}

impl Outcome {
    /// Of a case that has no more.
    pub fn new(answers: Answers, refusal: u32) -> Self {
        Outcome {
            answers,
            refusal,
            content: None,
            guarded: false,
            block: None,
            cells: 0,
            seen: Vec::new(),
        }
    }
}

/// A case's numbers, taken one by one.
pub struct Numbers<'a>(std::slice::Iter<'a, i128>);

impl<'a> Numbers<'a> {
    pub fn new(numbers: &'a [i128]) -> Self {
        Numbers(numbers.iter())
    }

    /// The next number, or None where there is none or it does not fit.
    pub fn take<T: TryFrom<i128>>(&mut self) -> Option<T> {
        T::try_from(*self.0.next()?).ok()
    }
}
