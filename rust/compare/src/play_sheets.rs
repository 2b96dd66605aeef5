//! Random sheets, good and damaged, to the three checks.

use crate::author::{Author, Care};
use crate::calls::{Call, Difference};
use crate::code::programme_sheet;
use crate::damage::damaged;
use crate::floors::Headers;
use crate::high_bytes::HighBytes;
use crate::lattices::MOST_PRINCIPALS;
use crate::limits::{formless_programme, programme_at_limit};
use crate::operations::Places;
use crate::random::Random;
use crate::sheets::{
    flawed_store_sheet, flawed_table_sheet, store_sheet_at_limit, Sheet, Store, Table, MOST_SLOTS,
};
use crate::tally::{Tally, NUMBERS};

/// Counts of the three checks. The numbers that aren't due cannot come up.
#[derive(Debug, Clone)]
pub struct Played {
    store: Tally,
    table: Tally,
    programme: Tally,
    pub high_bytes: HighBytes,
    pub places: Places,
    pub headers: Headers,
}

impl Played {
    fn new() -> Played {
        let others = |due: &[u32]| -> Vec<u32> {
            let all = 0..NUMBERS as u32;
            all.filter(|number| !due.contains(number)).collect()
        };
        let tally = |name, due: &[u32]| Tally::new(name, due, &others(due));
        Played {
            store: tally("check_store", &[0, 1, 2, 3, 4, 5]),
            table: tally("check_table", &[0, 1, 2, 3, 4]),
            programme: tally("check_programme", &[0, 6, 7, 8, 9, 10]),
            high_bytes: HighBytes::default(),
            places: Places::default(),
            headers: Headers::default(),
        }
    }

    pub fn tallies(&self) -> [&Tally; 3] {
        [&self.store, &self.table, &self.programme]
    }

    /// What is wrong with these counts, in words.
    pub fn complaints(&self) -> Vec<String> {
        let tallies = self.tallies().map(Tally::complaints).concat();
        let others = [
            self.high_bytes.complaints(),
            self.places.complaints(),
            self.headers.complaints(),
        ];
        [tallies, others.concat()].concat()
    }
}

/// Plays so many sheets.
pub fn play(seed: u64, count: u64) -> Result<Played, Box<Difference>> {
    let mut played = Played::new();
    for case in 0..count {
        let call = random_call(&mut Random::of_case(seed, case));
        let answer = call.compare()?.answer;
        played.high_bytes.count(&call, answer);
        played.places.count(&call, answer);
        played.headers.count(&call, answer);
        match call {
            Call::CheckStore { .. } => played.store.count(answer.number),
            Call::CheckTable { .. } => played.table.count(answer.number),
            _ => played.programme.count(answer.number),
        }
    }
    Ok(played)
}

fn random_call(random: &mut Random) -> Call {
    match random.below(5) {
        0 => Call::CheckStore {
            sheet: random_store(random),
        },
        1 => Call::CheckTable {
            sheet: random_table(random),
        },
        _ => random_programme_check(random),
    }
}

pub fn random_store(random: &mut Random) -> Vec<u8> {
    match random.below(20) {
        0..=4 => Store::random(random).bytes(),
        5 | 6 => flawed_store_sheet(random).bytes,
        7 => store_sheet_at_limit(random).bytes,
        8 => formless(random),
        _ => {
            let sheet = Store::random(random).sheet();
            damaged(random, &sheet)
        }
    }
}

fn random_table(random: &mut Random) -> Vec<u8> {
    match random.below(20) {
        0..=4 => Table::random(random).sheet().bytes,
        5..=8 => flawed_table_sheet(random).bytes,
        // A store sheet is too long, unless it has no slots.
        9 => store_sheet_at_limit(random).bytes,
        10 => formless(random),
        _ => {
            let sheet = Table::random(random).sheet();
            damaged(random, &sheet)
        }
    }
}

/// Bytes without any form; small ones, so that they look like sizes.
fn formless(random: &mut Random) -> Vec<u8> {
    let count = random.below(24);
    let most = random.pick(&[2, 4, 255]);
    (0..count).map(|_| random.between(0, most) as u8).collect()
}

fn random_programme_check(random: &mut Random) -> Call {
    let store = Store::random(random);
    let (principals, slots) = (store.table.lattice.principals(), store.table.slots());
    Call::CheckProgramme {
        sheet: random_programme(random, &store),
        principals: nearby(random, principals, 1, MOST_PRINCIPALS),
        slots: nearby(random, slots, 0, MOST_SLOTS),
    }
}

/// Mostly the size for which the programme was written, sometimes another, so
/// that its regions or views are too high.
fn nearby(random: &mut Random, size: usize, least: usize, most: usize) -> usize {
    match random.below(20) {
        0 => size.saturating_sub(1).max(least),
        1 => random.between(least, most),
        _ => size,
    }
}

pub fn random_programme(random: &mut Random, store: &Store) -> Vec<u8> {
    match random.below(20) {
        0..=5 => good_programme(random, store).bytes,
        6 => programme_at_limit(random, store).bytes,
        7 => large_programme(random, store).bytes,
        8 => formless_programme(random, store.table.lattice.principals()).bytes,
        9 => formless(random),
        10 => {
            let sheet = programme_at_limit(random, store);
            damaged(random, &sheet)
        }
        11 => {
            let sheet = large_programme(random, store);
            damaged(random, &sheet)
        }
        _ => {
            let sheet = good_programme(random, store);
            damaged(random, &sheet)
        }
    }
}

/// A good programme that is deep or long.
pub fn large_programme(random: &mut Random, store: &Store) -> Sheet {
    let care = Care::random(random);
    programme_sheet(&Author::new(random, store, care).large_programme())
}

pub fn good_programme(random: &mut Random, store: &Store) -> Sheet {
    let care = Care::random(random);
    programme_sheet(&Author::new(random, store, care).programme())
}

#[cfg(test)]
mod tests {
    use super::*;
    use crate::DEFAULT_SEED;

    #[test]
    fn every_verdict_comes_up() {
        let played = play(DEFAULT_SEED, 5_000).expect("no difference");
        let complaints = played.complaints();
        assert!(complaints.is_empty(), "{complaints:?}");
    }
}
