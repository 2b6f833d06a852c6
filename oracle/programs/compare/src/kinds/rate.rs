//! The rate of a vector. The published rate panics for no vector.

use cases::{Answers, Random};
use lockdapple_sys as sys;

use crate::{
    kind::{Kind, Numbers, Outcome},
    scenes::{Scenes, Setting},
};

pub struct Rate;

/// Anywhere, near a power of two (where the bit length changes), or at a limit.
fn component(random: &mut Random) -> i16 {
    let value = match random.below(4) {
        0 => 1 << random.below(15),
        1 => -(1 << random.below(15)),
        2 => random.pick(&[0, i16::MIN.into(), i16::MAX.into(), -16_383, 16_383]),
        _ => random.between(i16::MIN.into(), i16::MAX.into()),
    };
    (value + random.between(-2, 2)).clamp(i16::MIN.into(), i16::MAX.into()) as i16
}

impl Kind for Rate {
    fn name(&self) -> &'static str {
        "rate"
    }

    fn columns(&self) -> Vec<&'static str> {
        vec!["row", "col"]
    }

    fn draw(&self, random: &mut Random, _: &Setting) -> Vec<i128> {
        vec![component(random).into(), component(random).into()]
    }

    fn run(&self, numbers: &mut Numbers<'_>, _: &mut Scenes) -> Option<Outcome> {
        let (row, col) = (numbers.take()?, numbers.take()?);
        let mut answers = Answers::default();
        answers.add("rate", oracle::rate(row, col), sys::rate(row, col));
        Some(Outcome::new(answers, 0))
    }
}
