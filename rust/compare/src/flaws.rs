//! Order tables that are not good.

use crate::lattices::{
    has, masks_of, random_parents, renumbered, tree_masks, Lattice, MOST_PRINCIPALS,
};
use crate::random::Random;

/// What makes a table bad.
#[derive(Debug, Clone, Copy, PartialEq, Eq)]
pub enum Flaw {
    BitPastPrincipals,
    NotBelowItself,
    BelowEachOther,
    NotTransitive,
    NoTop,
    NoCommonLower,
    NoGreatestLower,
    /// One bit is turned. The table may still be good.
    BitTurned,
}

impl Flaw {
    pub const ALL: [Flaw; 8] = [
        Flaw::BitPastPrincipals,
        Flaw::NotBelowItself,
        Flaw::BelowEachOther,
        Flaw::NotTransitive,
        Flaw::NoTop,
        Flaw::NoCommonLower,
        Flaw::NoGreatestLower,
        Flaw::BitTurned,
    ];

    /// A table with this flaw.
    pub fn masks(self, random: &mut Random) -> Vec<u32> {
        let size = random.between(3, 12);
        let masks = match self {
            Flaw::NoTop => tree_masks(&random_parents(random, size)),
            Flaw::NoCommonLower => upside_down(&tree_masks(&random_parents(random, size))),
            Flaw::NoGreatestLower => crossed(size + 3),
            Flaw::BelowEachOther => with_twin(random),
            _ => return self.in_good_table(random),
        };
        renumbered(random, &masks)
    }

    /// A good table with one bit turned.
    fn in_good_table(self, random: &mut Random) -> Vec<u32> {
        loop {
            let mut masks = Lattice::random(random).masks().to_vec();
            if let Some((upper, lower)) = self.bit_to_turn(random, &masks) {
                masks[upper] ^= 1 << lower;
                return masks;
            }
        }
    }

    /// Whose mask and which of its bits, if this table can have the flaw.
    fn bit_to_turn(self, random: &mut Random, masks: &[u32]) -> Option<(usize, usize)> {
        let principals = masks.len();
        let upper = random.below(principals);
        match self {
            Flaw::NotBelowItself => Some((upper, upper)),
            Flaw::NotTransitive => random.pick_any(&passed_over(masks)),
            Flaw::BitPastPrincipals => (principals < MOST_PRINCIPALS)
                .then(|| (upper, random.between(principals, MOST_PRINCIPALS - 1))),
            _ => Some((upper, random.below(principals))),
        }
    }
}

/// Every upper and lower principal with another one strictly between.
fn passed_over(masks: &[u32]) -> Vec<(usize, usize)> {
    let all = 0..masks.len();
    let above = |upper: usize, lower: usize| upper != lower && has(masks[upper], lower);
    let pairs = all
        .clone()
        .flat_map(|upper| all.clone().map(move |lower| (upper, lower)));
    pairs
        .filter(|(upper, lower)| {
            let mut between = all.clone();
            between.any(|other| above(*upper, other) && above(other, *lower))
        })
        .collect()
}

fn upside_down(masks: &[u32]) -> Vec<u32> {
    let places: Vec<usize> = (0..masks.len()).collect();
    masks_of(&places, |lower, upper| has(masks[*lower], *upper))
}

/// A bottom, two above it, two above both of those, and a chain up to the top.
/// The upper two have common lower principals, and none is the greatest.
fn crossed(principals: usize) -> Vec<u32> {
    let level = |place: usize| match place {
        0 => 0,
        1 | 2 => 1,
        3 | 4 => 2,
        _ => place,
    };
    let places: Vec<usize> = (0..principals).collect();
    masks_of(&places, |lower, upper| {
        lower == upper || level(*lower) < level(*upper)
    })
}

/// A good table in which one principal is there twice.
fn with_twin(random: &mut Random) -> Vec<u32> {
    let good = loop {
        let good = Lattice::random(random);
        if good.principals() < MOST_PRINCIPALS {
            break good;
        }
    };
    let masks = good.masks();
    let mut elements: Vec<usize> = (0..masks.len()).collect();
    elements.push(random.below(masks.len()));
    masks_of(&elements, |lower, upper| has(masks[*upper], *lower))
}

#[cfg(test)]
mod tests {
    use super::*;
    use crate::lattices::tests::verdict;

    #[test]
    fn flawed_tables_are_refused() {
        for flaw in Flaw::ALL {
            let verdicts: Vec<u32> = (0..200)
                .map(|case| verdict(&flaw.masks(&mut Random::of_case(4, case))))
                .collect();
            let refused = verdicts.iter().filter(|number| **number == 3).count();
            if flaw == Flaw::BitTurned {
                assert!(refused > 100, "{refused}");
            } else {
                assert_eq!(refused, 200, "{flaw:?}");
            }
        }
    }
}
