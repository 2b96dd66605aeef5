//! Makes pairs of runs at random.

use super::counts::Without;
use super::pair::{is_protected, Pair};
use super::terms::{same_again, Terms};
use crate::author::{Author, Care};
use crate::budgets::MOST_BUDGET;
use crate::code::Block;
use crate::lattices::Lattice;
use crate::random::Random;
use crate::sheets::{Store, Table};
use crate::values::{Kind, Value};

impl Pair {
    pub fn random(random: &mut Random, without: Option<Without>) -> Pair {
        let endorses = random.percent(70);
        let (adversary, table) = random_table(random, without, endorses);
        let first = Store::with_table(random, table);
        let second = altered(random, &first, adversary);
        let stores = [first, second];
        let care = Care {
            authority: random.pick(&[100, 100, 95, 85]),
            labels: random.pick(&[100, 90, 60, 0]),
            branches: random.pick(&[100, 60, 0]),
            ..Care::FULL
        };
        let terms = Terms {
            adversary,
            without,
            endorses,
        };
        let replacements = random_replacements(random, &stores, care, terms);
        let budgets = [random_budget(random), random_budget(random)];
        Pair {
            adversary,
            stores,
            replacements,
            budgets,
            journals: random_journals(random),
        }
    }

    /// Stores that differ in a protected slot too, if there is one, and no
    /// blocks.
    pub fn of_unlike_stores(random: &mut Random) -> Option<Pair> {
        let mut pair = Pair::random(random, None);
        let protected: Vec<usize> = pair.protected().collect();
        let slot = random.pick_any(&protected)?;
        let old = pair.stores[1].values[slot];
        let slots = pair.stores[1].table.slots();
        let kind = Kind::random(random, slots);
        let new = another(random, old, kind, slots);
        pair.stores[1].values[slot] = new;
        pair.replacements = [Vec::new(), Vec::new()];
        (new != old).then_some(pair)
    }
}

/// An adversary that isn't the top, nor the bottom where something is to stand
/// below it, and some slots. Where blocks may be endorsed, two principals or more
/// stand beside the adversary: a floor and an owner that is not below it.
fn random_table(random: &mut Random, without: Option<Without>, endorses: bool) -> (u8, Table) {
    let least = if endorses { 3 } else { 2 };
    let (adversary, lattice) = loop {
        let lattice = Lattice::random(random);
        if lattice.principals() < least {
            continue;
        }
        let mut adversaries = lattice.principals_where(|principal| principal != lattice.top());
        if without == Some(Without::NoFloorBelow) {
            adversaries.retain(|principal| *principal != lattice.bottom());
        }
        if let Some(adversary) = random.pick_any(&adversaries) {
            break (adversary, lattice);
        }
    };
    let slots = random.between(2, 12);
    (adversary, Table::with_slots(random, lattice, slots))
}

/// The same store with other values in slots that aren't protected, mostly of
/// the same kinds, so that runs go on.
fn altered(random: &mut Random, store: &Store, adversary: u8) -> Store {
    let mut other = store.clone();
    let slots = store.table.slots();
    for (slot, value) in other.values.iter_mut().enumerate() {
        if is_protected(&store.table, slot, adversary) || random.one_in(3) {
            continue;
        }
        let kind = match random.one_in(12) {
            true => Kind::random(random, slots),
            false => value.kind(),
        };
        *value = another(random, *value, kind, slots);
    }
    other
}

/// Any value of this kind in place of another; often one bit in the high bytes
/// of an integer is turned.
fn another(random: &mut Random, old: Value, kind: Kind, slots: usize) -> Value {
    match old {
        Value::Integer(integer) if kind == Kind::Integer && random.one_in(3) => {
            let bit = random.between(8 * Value::LOW, 8 * Value::PAYLOAD - 1);
            Value::Integer(integer ^ (1 << bit))
        }
        _ => Value::random_of(random, kind, slots),
    }
}

/// Enough for runs that end, sometimes too little.
fn random_budget(random: &mut Random) -> u32 {
    match random.below(20) {
        0 => random.below(12) as u32,
        _ if random.one_in(400) => MOST_BUDGET,
        _ => random.between(300, 1_000) as u32,
    }
}

/// Two lengths, mostly enough for runs that end. They are never the same.
fn random_journals(random: &mut Random) -> [usize; 2] {
    let mut length = || match random.below(20) {
        0 => random.below(12),
        1 => random.between(100, 600),
        _ => random.between(24, 90),
    };
    let one = length();
    loop {
        let other = length();
        if other != one {
            return [one, other];
        }
    }
}

/// Two replacements of a programme. They share the blocks outside the adversary's
/// reach and now and then one within it, unless a condition is left out.
fn random_replacements(
    random: &mut Random,
    stores: &[Store; 2],
    care: Care,
    terms: Terms,
) -> [Vec<Block>; 2] {
    let mut other_random = random.split();
    let mut one = Author::new(random, &stores[0], care);
    let mut other = Author::new(&mut other_random, &stores[1], care);
    let mut replacements = [Vec::new(), Vec::new()];
    for _ in 0..random_count(one.random()) {
        let within = one.random().one_in(2);
        let block = match within {
            true => terms.block_within_reach(&mut one),
            false => terms.block_outside_reach(&mut one),
        };
        let again = match within {
            true => one.random().one_in(6),
            false => terms.without != Some(Without::Unchanged) || one.random().one_in(2),
        };
        let in_its_place = match (again, within) {
            (true, _) => same_again(&mut other, &block),
            (false, true) => terms.block_within_reach(&mut other),
            (false, false) => terms.block_outside_reach(&mut other),
        };
        replacements[0].push(block);
        replacements[1].push(in_its_place);
    }
    replacements
}

/// Mostly few blocks, now and then none or up to as many as there may be.
fn random_count(random: &mut Random) -> usize {
    match random.below(50) {
        0 => 0,
        1 => random.between(8, Block::MOST),
        _ => random.between(1, 7),
    }
}

#[cfg(test)]
mod tests {
    use super::*;
    use crate::code::Command;

    /// What makes a block what it is: not the byte for a floor that is ignored.
    fn meaning(block: &Block) -> (u8, Option<u8>, &Command) {
        (block.region, block.endorsement.floor(), &block.command)
    }

    #[test]
    fn a_pair_differs_only_where_the_adversary_reaches() {
        for case in 0..500 {
            let pair = Pair::random(&mut Random::of_case(13, case), None);
            let [one, other] = &pair.stores;
            assert_eq!(one.table.sheet().bytes, other.table.sheet().bytes);
            assert!(pair
                .protected()
                .all(|slot| one.values[slot] == other.values[slot]));
            assert_ne!(pair.journals[0], pair.journals[1]);
            let [blocks, others] = &pair.replacements;
            assert_eq!(blocks.len(), others.len());
            let within = |block: &Block| is_below(&pair, block.region);
            for (block, other) in blocks.iter().zip(others) {
                assert_eq!(within(block), within(other));
                assert!(within(block) || meaning(block) == meaning(other));
            }
        }
    }

    fn is_below(pair: &Pair, principal: u8) -> bool {
        let lattice = &pair.stores[0].table.lattice;
        lattice.at_or_below(principal, pair.adversary)
    }

    /// How the floors of blocks stand to the adversary, for blocks within its reach
    /// and others: at it, below it, neither.
    fn floors(without: Option<Without>) -> [[usize; 3]; 2] {
        let mut seen = [[0; 3]; 2];
        for case in 0..500 {
            let pair = Pair::random(&mut Random::of_case(29, case), without);
            for block in pair.replacements.iter().flatten() {
                let outside = usize::from(!is_below(&pair, block.region));
                match block.endorsement.floor() {
                    Some(floor) if floor == pair.adversary => seen[outside][0] += 1,
                    Some(floor) if is_below(&pair, floor) => seen[outside][1] += 1,
                    Some(_) => seen[outside][2] += 1,
                    None => (),
                }
            }
        }
        seen
    }

    #[test]
    fn floors_outside_reach_keep_to_the_terms() {
        let known = [
            (None, [false, false, true]),
            (Some(Without::NoFloorAt), [true, false, true]),
            (Some(Without::NoFloorBelow), [false, true, true]),
            (Some(Without::Unchanged), [false, false, true]),
        ];
        for (without, outside) in known {
            let seen = floors(without).map(|counts| counts.map(|count| count > 0));
            assert_eq!(seen, [[true; 3], outside], "{without:?}");
        }
    }

    #[test]
    fn some_pairs_have_no_endorsed_block_and_some_ignored_bytes_differ() {
        let (mut plain, mut unlike) = (0, 0);
        for case in 0..500 {
            let pair = Pair::random(&mut Random::of_case(30, case), None);
            let [blocks, others] = &pair.replacements;
            let outside = |block: &&Block| !is_below(&pair, block.region);
            let mut shared = blocks.iter().filter(outside);
            plain += usize::from(shared.all(|block| block.endorsement.floor().is_none()));
            let mut both = blocks.iter().zip(others).filter(|(one, _)| outside(one));
            unlike += usize::from(both.any(|(one, other)| one.endorsement != other.endorsement));
        }
        assert!(plain > 100 && unlike > 100, "{plain} {unlike}");
    }
}
