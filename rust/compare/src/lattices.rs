//! Good order tables of many shapes.
//!
//! A table is its masks: bit j of mask i is set when principal j stands at or
//! below principal i. Whether one is good is for the runners to judge; here it
//! is good because of how it was built.

use crate::random::Random;

pub const MOST_PRINCIPALS: usize = 32;

#[derive(Debug, Clone, Copy, PartialEq, Eq)]
enum Shape {
    Chain,
    Diamond,
    Product,
    TreeWithTop,
    FamilyOfSets,
}

impl Shape {
    /// Families of sets twice, since every shape is among them.
    const ALL: [Shape; 6] = [
        Shape::Chain,
        Shape::Diamond,
        Shape::Product,
        Shape::TreeWithTop,
        Shape::FamilyOfSets,
        Shape::FamilyOfSets,
    ];

    /// The masks of a lattice of this shape, of at most so many principals.
    fn masks(self, random: &mut Random, most: usize) -> Vec<u32> {
        match self {
            Shape::Chain => Lattice::chain(most).masks,
            Shape::Diamond => diamond(most),
            Shape::Product => product(random, most),
            Shape::TreeWithTop => tree_with_top(random, most),
            Shape::FamilyOfSets => family_of_sets(random, most),
        }
    }
}

/// A good order table.
#[derive(Debug, Clone)]
pub struct Lattice {
    masks: Vec<u32>,
}

impl Lattice {
    pub fn chain(principals: usize) -> Lattice {
        let places: Vec<usize> = (0..principals).collect();
        Lattice {
            masks: masks_of(&places, |lower, upper| lower <= upper),
        }
    }

    /// A lattice of any shape and size, its principals numbered at random.
    pub fn random(random: &mut Random) -> Lattice {
        let most = random_size(random);
        let shape = random.pick(&Shape::ALL);
        let masks = shape.masks(random, most);
        Lattice {
            masks: renumbered(random, &masks),
        }
    }

    /// The lattice of a table that is good.
    pub fn of_good_table(masks: Vec<u32>) -> Lattice {
        Lattice { masks }
    }

    pub fn masks(&self) -> &[u32] {
        &self.masks
    }

    /// n, the number of principals.
    pub fn principals(&self) -> usize {
        self.masks.len()
    }

    pub fn at_or_below(&self, lower: u8, upper: u8) -> bool {
        has(self.masks[usize::from(upper)], usize::from(lower))
    }

    /// What stands at or below both stands at or below their meet, so its mask
    /// is what the two masks share.
    pub fn meet(&self, one: u8, other: u8) -> u8 {
        let shared = self.masks[usize::from(one)] & self.masks[usize::from(other)];
        self.with_mask(shared)
    }

    pub fn top(&self) -> u8 {
        let all = self.masks.iter().fold(0, |all, mask| all | mask);
        self.with_mask(all)
    }

    /// The meet of all principals.
    pub fn bottom(&self) -> u8 {
        let shared = self
            .masks
            .iter()
            .fold(u32::MAX, |shared, mask| shared & mask);
        self.with_mask(shared)
    }

    /// No two principals of a good table have the same mask.
    fn with_mask(&self, mask: u32) -> u8 {
        let found = self.masks.iter().position(|own| *own == mask);
        found.expect("a good table has all its meets and a top") as u8
    }

    pub fn are_unrelated(&self, one: u8, other: u8) -> bool {
        !self.at_or_below(one, other) && !self.at_or_below(other, one)
    }

    /// Whether it is no chain.
    pub fn has_unrelated(&self) -> bool {
        let others = |one| self.principals_where(|other| self.are_unrelated(one, other));
        !self
            .principals_where(|one| !others(one).is_empty())
            .is_empty()
    }

    /// Every principal that the test holds of.
    pub fn principals_where(&self, test: impl Fn(u8) -> bool) -> Vec<u8> {
        let all = 0..self.principals() as u8;
        all.filter(|principal| test(*principal)).collect()
    }
}

/// Mostly few principals, now and then as many as there may be.
fn random_size(random: &mut Random) -> usize {
    match random.below(100) {
        0..=64 => random.between(1, 6),
        65..=91 => random.between(1, 12),
        92..=97 => random.between(1, MOST_PRINCIPALS),
        _ => MOST_PRINCIPALS,
    }
}

pub fn has(mask: u32, principal: usize) -> bool {
    (mask >> principal) & 1 == 1
}

/// The masks of the principals that stand for these elements.
pub fn masks_of<T>(elements: &[T], at_or_below: impl Fn(&T, &T) -> bool) -> Vec<u32> {
    let mask = |upper| {
        let below = elements.iter().map(|lower| at_or_below(lower, upper));
        below.enumerate().fold(0, |mask, (place, is_below)| {
            mask | (u32::from(is_below) << place)
        })
    };
    elements.iter().map(mask).collect()
}

/// A bottom, a top, and between them principals that are unrelated.
fn diamond(principals: usize) -> Vec<u32> {
    let last = principals - 1;
    let places: Vec<usize> = (0..principals).collect();
    masks_of(&places, |lower, upper| {
        lower == upper || *lower == 0 || *upper == last
    })
}

/// Pairs from two chains, compared in both places.
fn product(random: &mut Random, most: usize) -> Vec<u32> {
    let one = random.between(1, most);
    let other = most / one;
    let pairs: Vec<(usize, usize)> = (0..one)
        .flat_map(|first| (0..other).map(move |second| (first, second)))
        .collect();
    masks_of(&pairs, |lower, upper| {
        lower.0 <= upper.0 && lower.1 <= upper.1
    })
}

/// Sets under inclusion: the whole set, and others such that what two of them
/// share is there too. Every lattice is like one of these.
fn family_of_sets(random: &mut Random, most: usize) -> Vec<u32> {
    let members = random.between(1, 6);
    let whole = (1_usize << members) - 1;
    let mut family = vec![whole];
    for _ in 0..2 * most {
        let set = random.below(whole + 1);
        let mut wider = family.clone();
        wider.extend(family.iter().map(|other| other & set));
        wider.sort_unstable();
        wider.dedup();
        if wider.len() <= most {
            family = wider;
        }
    }
    masks_of(&family, |lower, upper| lower & upper == *lower)
}

/// At each place its own parent, which stands before it. The first two places
/// after the root hang from the root, so the tree has no top.
pub fn random_parents(random: &mut Random, principals: usize) -> Vec<usize> {
    let parent = |place: usize| match place {
        0..=2 => 0,
        _ => random.below(place),
    };
    (0..principals).map(parent).collect()
}

/// Each stands above what lies on its way to the root.
pub fn tree_masks(parents: &[usize]) -> Vec<u32> {
    let mut masks = vec![1];
    for (place, parent) in parents.iter().enumerate().skip(1) {
        masks.push(masks[*parent] | (1 << place));
    }
    masks
}

/// Two places of a tree meet where their ways to the root do.
fn tree_with_top(random: &mut Random, principals: usize) -> Vec<u32> {
    if principals == 1 {
        return vec![1];
    }
    let mut masks = tree_masks(&random_parents(random, principals - 1));
    masks.push(((1_u64 << principals) - 1) as u32);
    masks
}

/// The same order with its principals numbered otherwise.
pub fn renumbered(random: &mut Random, masks: &[u32]) -> Vec<u32> {
    let mut numbers: Vec<usize> = (0..masks.len()).collect();
    random.shuffle(&mut numbers);
    masks_of(&numbers, |lower, upper| has(masks[*upper], *lower))
}

#[cfg(test)]
pub mod tests {
    use super::*;
    use second_runner::check_table;

    pub fn verdict(masks: &[u32]) -> u32 {
        let mut sheet = vec![masks.len() as u8, 0, 0];
        sheet.extend(masks.iter().flat_map(|mask| mask.to_le_bytes()));
        check_table(&sheet)
    }

    #[test]
    fn good_tables_are_good_and_of_every_size() {
        let mut seen = [false; MOST_PRINCIPALS + 1];
        for case in 0..3_000 {
            let lattice = Lattice::random(&mut Random::of_case(1, case));
            assert_eq!(verdict(lattice.masks()), 0, "{lattice:?}");
            seen[lattice.principals()] = true;
        }
        assert!(seen[1..].iter().all(|size| *size), "{seen:?}");
    }

    #[test]
    fn every_shape_comes_with_one_principal_and_with_all() {
        for shape in Shape::ALL {
            for size in [1, MOST_PRINCIPALS] {
                let tables: Vec<Vec<u32>> = (0..100)
                    .map(|case| shape.masks(&mut Random::of_case(5, case), size))
                    .collect();
                assert!(tables.iter().all(|masks| verdict(masks) == 0));
                let reached = tables.iter().any(|masks| masks.len() == size);
                assert!(reached, "{shape:?} of {size}");
            }
        }
    }

    #[test]
    fn good_tables_know_their_meets_top_and_bottom() {
        for case in 0..300 {
            let lattice = Lattice::random(&mut Random::of_case(2, case));
            let all = lattice.principals_where(|_| true);
            for one in &all {
                assert!(lattice.at_or_below(*one, lattice.top()));
                assert!(lattice.at_or_below(lattice.bottom(), *one));
                for other in &all {
                    let meet = lattice.meet(*one, *other);
                    let common = lattice.principals_where(|lower| {
                        lattice.at_or_below(lower, *one) && lattice.at_or_below(lower, *other)
                    });
                    assert!(common.contains(&meet));
                    assert!(common.iter().all(|lower| lattice.at_or_below(*lower, meet)));
                }
            }
        }
    }

    #[test]
    fn the_meet_is_often_not_the_smaller_number() {
        let unrelated = |case: &u64| {
            let lattice = Lattice::random(&mut Random::of_case(3, *case));
            let meets_low = |one: u8| {
                let other_meet = |other: u8| lattice.meet(one, other) != one.min(other);
                !lattice.principals_where(other_meet).is_empty()
            };
            !lattice.principals_where(meets_low).is_empty()
        };
        assert!((0..300).filter(unrelated).count() > 150);
    }
}
