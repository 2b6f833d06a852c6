//! Rounds: a piece of each column in turn, again and again.

use crate::clock::Summary;

pub const ROUNDS: usize = 25;

/// Nanoseconds that a timed piece takes at least.
const PIECE: f64 = 5e6;

/// A summary for each column.
pub type Times<const N: usize = 3> = [Summary; N];

/// Makes a round, so many calls of each column, and gives the time of one call of
/// each; or says what they differ on.
pub type Round<'a, const N: usize = 3> = dyn Fn([usize; N]) -> Result<[f64; N], String> + 'a;

/// The times of all rounds, pieces of the columns in turn.
pub fn rounds<const N: usize>(one: &Round<'_, N>) -> Result<Times<N>, String> {
    // The first round also brings everything into the caches.
    let turns = one([1; N])?.map(|time| (PIECE / time).ceil() as usize);
    let mut rounds = [(); N].map(|()| Vec::new());
    for _ in 0..ROUNDS {
        let times = one(turns)?;
        rounds.iter_mut().zip(times).for_each(|(r, t)| r.push(t));
    }
    Ok(rounds.map(Summary::of))
}
