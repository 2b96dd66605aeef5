//! Store sheets and table sheets.

use crate::flaws::Flaw;
use crate::lattices::{Lattice, MOST_PRINCIPALS};
use crate::random::Random;
use crate::rehearsal::Rehearsal;
use crate::values::Value;

pub const MOST_SLOTS: usize = 256;

/// What a byte of a sheet says, so that damage can be aimed at it.
#[derive(Debug, Clone, Copy, PartialEq, Eq)]
pub enum Part {
    Size,
    Mask,
    Owner,
    Kind,
    Payload,
    Region,
    Length,
    Floor,
    Command,
    Count,
    Expression,
}

/// The bytes of a sheet and, at the same places, what they say.
#[derive(Debug, Clone, Default)]
pub struct Sheet {
    pub bytes: Vec<u8>,
    parts: Vec<Part>,
}

impl Sheet {
    pub fn push(&mut self, part: Part, bytes: &[u8]) {
        self.bytes.extend_from_slice(bytes);
        self.parts.resize(self.bytes.len(), part);
    }

    /// A size of two bytes.
    pub fn push_size(&mut self, part: Part, size: usize) {
        let size = u16::try_from(size).expect("a size of two bytes");
        self.push(part, &size.to_le_bytes());
    }

    pub fn push_value(&mut self, value: Value) {
        self.push(Part::Kind, &[value.kind_byte()]);
        self.push(Part::Payload, &value.payload());
    }

    pub fn append(&mut self, other: &Sheet) {
        self.bytes.extend_from_slice(&other.bytes);
        self.parts.extend_from_slice(&other.parts);
    }

    /// Where bytes stand that say this.
    pub fn places(&self, part: Part) -> Vec<usize> {
        let all = self.parts.iter().enumerate();
        all.filter(|(_, own)| **own == part)
            .map(|(place, _)| place)
            .collect()
    }
}

/// A table sheet of any masks and owners.
fn table_sheet(masks: &[u32], owners: &[u8]) -> Sheet {
    let mut sheet = Sheet::default();
    sheet.push(Part::Size, &[masks.len() as u8]);
    sheet.push_size(Part::Size, owners.len());
    for mask in masks {
        sheet.push(Part::Mask, &mask.to_le_bytes());
    }
    sheet.push(Part::Owner, owners);
    sheet
}

fn store_sheet(masks: &[u32], owners: &[u8], values: &[Value]) -> Sheet {
    let mut sheet = table_sheet(masks, owners);
    for value in values {
        sheet.push_value(*value);
    }
    sheet
}

/// An order and the owner of each slot.
#[derive(Debug, Clone)]
pub struct Table {
    pub lattice: Lattice,
    pub owners: Vec<u8>,
}

impl Table {
    pub fn random(random: &mut Random) -> Table {
        let lattice = Lattice::random(random);
        let slots = random_slots(random);
        Table::with_slots(random, lattice, slots)
    }

    pub fn with_slots(random: &mut Random, lattice: Lattice, slots: usize) -> Table {
        let principals = lattice.principals();
        let owners = (0..slots).map(|_| random.below(principals) as u8).collect();
        Table { lattice, owners }
    }

    /// m, the number of slots.
    pub fn slots(&self) -> usize {
        self.owners.len()
    }

    pub fn owner(&self, slot: u8) -> u8 {
        self.owners[usize::from(slot)]
    }

    pub fn sheet(&self) -> Sheet {
        table_sheet(self.lattice.masks(), &self.owners)
    }
}

/// Mostly few slots, now and then none or as many as there may be.
fn random_slots(random: &mut Random) -> usize {
    match random.below(100) {
        0..=3 => 0,
        4..=81 => random.between(1, 10),
        82..=94 => random.between(1, 40),
        95..=98 => random.between(1, MOST_SLOTS),
        _ => MOST_SLOTS,
    }
}

/// A good store: a table and what each slot holds.
#[derive(Debug, Clone)]
pub struct Store {
    pub table: Table,
    pub values: Vec<Value>,
}

impl Store {
    pub fn random(random: &mut Random) -> Store {
        let table = Table::random(random);
        Store::with_table(random, table)
    }

    /// Some slots, and principals of which two at least are unrelated.
    pub fn with_unrelated(random: &mut Random) -> Store {
        let lattice = loop {
            let lattice = Lattice::random(random);
            if lattice.has_unrelated() {
                break lattice;
            }
        };
        let slots = random.between(3, 10);
        let table = Table::with_slots(random, lattice, slots);
        Store::with_table(random, table)
    }

    /// Any values. Some stores have a chain of read views, so that reads in a
    /// row go far.
    pub fn with_table(random: &mut Random, table: Table) -> Store {
        let slots = table.slots();
        let mut values: Vec<Value> = (0..slots).map(|_| Value::random(random, slots)).collect();
        if slots > 1 && random.one_in(3) {
            chain_views(random, &mut values);
        }
        Store { table, values }
    }

    /// A rehearsal that opens with it.
    pub fn stage(&self) -> Rehearsal<'_> {
        Rehearsal {
            table: &self.table,
            values: self.values.clone(),
        }
    }

    pub fn sheet(&self) -> Sheet {
        store_sheet(self.table.lattice.masks(), &self.table.owners, &self.values)
    }

    pub fn bytes(&self) -> Vec<u8> {
        self.sheet().bytes
    }
}

/// Slots in some order, each with a read view of the one before; the first
/// keeps its value or views itself.
fn chain_views(random: &mut Random, values: &mut [Value]) {
    let mut order: Vec<u8> = (0..values.len()).map(|slot| slot as u8).collect();
    random.shuffle(&mut order);
    order.truncate(random.between(2, 12));
    if random.one_in(3) {
        values[usize::from(order[0])] = Value::ReadView(order[0]);
    }
    for pair in order.windows(2) {
        values[usize::from(pair[1])] = Value::ReadView(pair[0]);
    }
}

/// A store sheet whose order table has a flaw, the rest being good.
pub fn flawed_store_sheet(random: &mut Random) -> Sheet {
    let masks = flawed_masks(random);
    let (owners, values) = random_slots_of(random, masks.len());
    store_sheet(&masks, &owners, &values)
}

pub fn flawed_table_sheet(random: &mut Random) -> Sheet {
    let masks = flawed_masks(random);
    let (owners, _) = random_slots_of(random, masks.len());
    table_sheet(&masks, &owners)
}

fn flawed_masks(random: &mut Random) -> Vec<u32> {
    random.pick(&Flaw::ALL).masks(random)
}

fn random_slots_of(random: &mut Random, principals: usize) -> (Vec<u8>, Vec<Value>) {
    let slots = random.below(6);
    let owner = |random: &mut Random| random.below(principals.max(1)) as u8;
    let owners = (0..slots).map(|_| owner(random)).collect();
    let values = (0..slots).map(|_| Value::random(random, slots)).collect();
    (owners, values)
}

/// A store sheet with n or m at its limit or one past it. Its length is what
/// its sizes say, and nothing else in it is wrong but what follows from n.
pub fn store_sheet_at_limit(random: &mut Random) -> Sheet {
    let (principals, slots) = random.pick(&[
        (0, 0),
        (0, 3),
        (MOST_PRINCIPALS, MOST_SLOTS),
        (MOST_PRINCIPALS + 1, 2),
        (1, MOST_SLOTS),
        (1, MOST_SLOTS + 1),
        (2, 2 * MOST_SLOTS),
        (MOST_PRINCIPALS, 0),
    ]);
    // A chain; in the 33rd mask there is no room for the last bit.
    let masks: Vec<u32> = (0..principals)
        .map(|last| ((2_u64 << last) - 1) as u32)
        .collect();
    let owners = vec![0; slots];
    let in_limits = slots.min(MOST_SLOTS);
    let values: Vec<Value> = (0..slots)
        .map(|_| Value::random(random, in_limits))
        .collect();
    store_sheet(&masks, &owners, &values)
}

/// A store sheet with this many principals in a chain and this many slots,
/// all of them integer 0.
pub fn plain_store(principals: usize, slots: usize) -> Store {
    Store {
        table: Table {
            lattice: Lattice::chain(principals),
            owners: vec![0; slots],
        },
        values: vec![Value::Integer(0); slots],
    }
}

#[cfg(test)]
mod tests {
    use super::*;
    use second_runner::{check_store, check_table};

    #[test]
    fn good_sheets_are_taken() {
        let mut full = 0;
        let mut empty = 0;
        for case in 0..3_000 {
            let store = Store::random(&mut Random::of_case(1, case));
            assert_eq!(check_store(&store.bytes()), 0, "{store:?}");
            assert_eq!(check_table(&store.table.sheet().bytes), 0);
            full += u32::from(store.table.slots() == MOST_SLOTS);
            empty += u32::from(store.table.slots() == 0);
        }
        assert!(full > 0 && empty > 0);
    }

    #[test]
    fn plain_stores_are_good() {
        for principals in 1..=MOST_PRINCIPALS {
            assert_eq!(check_store(&plain_store(principals, 7).bytes()), 0);
        }
        assert_eq!(check_store(&plain_store(1, MOST_SLOTS).bytes()), 0);
        assert_eq!(check_store(&plain_store(1, 0).bytes()), 0);
    }

    #[test]
    fn limits_are_met_and_passed() {
        let verdicts: Vec<u32> = (0..100)
            .map(|case| store_sheet_at_limit(&mut Random::of_case(2, case)))
            .map(|sheet| check_store(&sheet.bytes))
            .collect();
        assert!(verdicts.contains(&0) && verdicts.contains(&2));
        assert!(verdicts.iter().all(|number| matches!(number, 0 | 2)));
    }
}
