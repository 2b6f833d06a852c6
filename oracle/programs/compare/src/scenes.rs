//! The frame under comparison, with its planes ready to be lent.

use cases::{CONTENTS, Frame, Random, SEEDS, side};
use oracle::Oracle;

use crate::lend::LentTwice;

/// A frame in four numbers, from which everything in it follows.
#[derive(Clone, Copy, PartialEq, Eq)]
pub struct Setting {
    pub width: usize,
    pub height: usize,
    pub content: usize,
    pub seed: u64,
}

/// The contents on which stages of a search come close to each other: plateaus
/// and the last three.
const CLOSE: [usize; 4] = [5, 8, 9, 10];

impl Setting {
    pub fn draw(random: &mut Random) -> Self {
        let (any, close) = (random.below(CONTENTS.len()), random.pick(&CLOSE));
        Setting {
            width: side(random),
            height: side(random),
            content: random.pick(&[any, any, close]),
            seed: random.word() % SEEDS,
        }
    }
}

pub struct Scene {
    pub oracle: Oracle,
    /// Current and reference, each at shift 0, 1, 2.
    pub lent: [[LentTwice<u8>; 3]; 2],
}

impl Scene {
    fn new(setting: Setting) -> Self {
        let Setting {
            width,
            height,
            content,
            seed,
        } = setting;
        let frame = Frame::new(width, height, content, seed);
        Scene {
            oracle: frame.oracle(),
            lent: frame
                .planes
                .each_ref()
                .map(|p| p.each_ref().map(|v| LentTwice::new(v))),
        }
    }
}

/// Keeps the last three scenes, since many cases in turn are of one frame, but
/// for those that describe none and get the smallest, and for runs before.
#[derive(Default)]
pub struct Scenes(Vec<(Setting, Scene)>);

const KEPT: usize = 3;

impl Scenes {
    pub fn get(&mut self, setting: Setting) -> &Scene {
        let known = self.0.iter().position(|(of, _)| *of == setting);
        let latest = match known {
            Some(place) => self.0.remove(place),
            None => (setting, Scene::new(setting)),
        };
        self.0.insert(0, latest);
        self.0.truncate(KEPT);
        &self.0[0].1
    }
}
