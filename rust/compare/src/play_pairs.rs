//! Pairs of runs under full provenance: what an adversary can do is not seen
//! in a protected slot.
//!
//! The adversary is any one principal. A slot is protected when its owner does
//! not stand at or below the adversary; a block is within reach when its
//! region does. Two stores agree in the protected slots, no endorsed block
//! outside reach has a floor at or below the adversary, and in each of two
//! replacements the blocks within reach are any blocks within reach. Budgets are
//! any, and journals of different lengths are lent. If both runs finish, they end
//! alike in the protected slots, counts of writes included, and the entries that
//! name these are the same list.
//!
//! So says one direction of demand 3. The other: two stores that differ in a
//! protected slot have a programme that shows it. One with no blocks does.
//!
//! The demand is also played with a condition left out. Then some pairs must
//! leave a protected slot differently, or the condition would not be needed.
//!
//! Some pairs are also played in stretches of random budgets (`stretched`).

mod chains;
mod counts;
mod endorsed;
mod making;
mod pair;
mod stretched;
mod tainted;
mod terms;
mod traces;

use self::counts::{Played, Rules, Without};
use self::pair::{Leak, Pair};
use crate::calls::{Call, Difference};
use crate::random::Random;

/// Why the play stopped.
#[derive(Debug, Clone)]
pub enum Stopped {
    Differs(Box<Difference>),
    /// Runs that demand 3 says end alike don't, or their entries are not alike.
    Leaks(Box<Leak>),
    /// Runs that demand 3 says end differently don't.
    Hides(Box<[Call; 2]>),
}

/// One pair of so many is played in stretches too.
const ONE_IN_STRETCHES: u64 = 10;

/// Plays so many pairs under each rule, without each of the conditions, and
/// back.
pub fn play(seed: u64, count: u64) -> Result<Played, Stopped> {
    let mut played = Played::default();
    for case in 0..count {
        let random = &mut Random::of_case(seed, case);
        let pair = Pair::random(random, None);
        played.pairs += 1;
        for (place, rules) in Rules::ALL.into_iter().enumerate() {
            let leak = pair.play(rules, &mut played.rules[place])?;
            if let (true, Some(leak)) = (rules.isolate(), leak) {
                return Err(Stopped::Leaks(Box::new(leak)));
            }
        }
        for (place, without) in Without::ALL.into_iter().enumerate() {
            let pair = Pair::random(random, Some(without));
            pair.play(Rules::FULL_PROVENANCE, &mut played.without[place])?;
        }
        if let Some(pair) = Pair::of_unlike_stores(random) {
            for rules in Rules::isolating() {
                pair.play_back(rules)?;
            }
            played.shown += 1;
            played.shown_by_high_bytes += u64::from(pair.opens_apart_by_high_bytes());
        }
        if case % ONE_IN_STRETCHES == 0 {
            played.stretched.play(&pair, random)?;
        }
    }
    Ok(played)
}

#[cfg(test)]
mod tests {
    use super::*;
    use crate::DEFAULT_SEED;

    #[test]
    fn pairs_finish_and_other_rules_leak() {
        let played = play(DEFAULT_SEED, 5_000).expect("no difference and no leak");
        let complaints = played.complaints();
        assert!(complaints.is_empty(), "{complaints:?}");
    }
}
