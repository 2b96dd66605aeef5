//! The store sheet and the table sheet: refusals 1 to 5.

use crate::answer::Refusal;
use crate::bytes::{number, take};
use crate::order::{Order, Principal};
use crate::value::{SlotNumber, Value};

/// The sizes a store sheet or a table sheet starts with.
#[derive(Debug, Clone, Copy)]
pub(crate) struct StoreSizes {
    principals: usize,
    pub slots: usize,
}

impl StoreSizes {
    const PRINCIPALS_BYTES: usize = 1;
    const SLOTS_BYTES: usize = 2;
    const OWNER_BYTES: usize = 1;

    /// The sizes on the sheet, or None if it can't hold them.
    pub fn from_sheet(sheet: &[u8]) -> Option<StoreSizes> {
        let mut rest = sheet;
        Some(StoreSizes {
            principals: number(take(&mut rest, StoreSizes::PRINCIPALS_BYTES)?) as usize,
            slots: number(take(&mut rest, StoreSizes::SLOTS_BYTES)?) as usize,
        })
    }

    /// Sizes judged in the order of document 01: "store sizes present (1), in
    /// limits (2), total length (1)". What is after them is handed back too.
    fn judge(
        sheet: &[u8],
        length: fn(&StoreSizes) -> usize,
    ) -> Result<(StoreSizes, &[u8]), Refusal> {
        let sizes = StoreSizes::from_sheet(sheet).ok_or(Refusal::StoreLength)?;
        if !sizes.are_in_limits() {
            return Err(Refusal::StoreLimits);
        }
        if sheet.len() != length(&sizes) {
            return Err(Refusal::StoreLength);
        }
        let mut rest = sheet;
        take(&mut rest, StoreSizes::bytes()).ok_or(Refusal::StoreLength)?;
        Ok((sizes, rest))
    }

    fn are_in_limits(&self) -> bool {
        let principals = Order::FEWEST_PRINCIPALS..=Order::MOST_PRINCIPALS;
        principals.contains(&self.principals) && self.slots <= Store::MOST_SLOTS
    }

    fn bytes() -> usize {
        StoreSizes::PRINCIPALS_BYTES + StoreSizes::SLOTS_BYTES
    }

    fn masks_bytes(&self) -> usize {
        self.principals * Order::MASK_BYTES
    }

    fn owners_bytes(&self) -> usize {
        self.slots * StoreSizes::OWNER_BYTES
    }

    /// "A table sheet is a store sheet that ends after its owners."
    fn table_bytes(&self) -> usize {
        StoreSizes::bytes() + self.masks_bytes() + self.owners_bytes()
    }

    pub fn store_bytes(&self) -> usize {
        self.table_bytes() + self.slots * Value::BYTES
    }
}

/// What a table sheet says: the order and the owner of each slot.
#[derive(Debug, Clone)]
pub(crate) struct Table {
    pub order: Order,
    owners: Vec<Principal>,
}

impl Table {
    /// "it is judged by the same numbers in the same order"
    pub fn from_sheet(sheet: &[u8]) -> Result<Table, Refusal> {
        let (sizes, mut rest) = StoreSizes::judge(sheet, StoreSizes::table_bytes)?;
        let order = read_order(&sizes, &mut rest)?;
        let owners = rest.iter().map(|byte| read_owner(&order, *byte));
        let owners = owners.collect::<Result<_, _>>()?;
        Ok(Table { order, owners })
    }

    /// m, the number of slots.
    pub fn slots(&self) -> usize {
        self.owners.len()
    }

    /// Views are only made for slots below m, so every one has an owner.
    pub fn owner(&self, slot: SlotNumber) -> Principal {
        self.owners[slot.index()]
    }

    pub fn owners(&self) -> &[Principal] {
        &self.owners
    }
}

/// What a slot holds, apart from its owner. Labels are not kept in slots.
#[derive(Debug, Clone, Copy)]
pub(crate) struct Slot {
    pub value: Value,
    /// How often it was written.
    pub writes: u32,
}

impl Slot {
    /// "output gains 4 bytes of it after each value, so a slot takes 13 bytes"
    /// (document 02, N7)
    pub const OUTPUT_BYTES: usize = Value::BYTES + Slot::WRITES_BYTES;
    const WRITES_BYTES: usize = size_of::<u32>();
    const UNUSED: Slot = Slot::opening(Value::Integer(0));

    /// A slot that was not written yet: its count is "0 at opening".
    const fn opening(value: Value) -> Slot {
        Slot { value, writes: 0 }
    }

    fn write(&mut self, value: Value) {
        self.value = value;
        self.writes += 1;
    }

    fn write_to(self, output: &mut [u8]) {
        let (value, writes) = output.split_at_mut(Value::BYTES);
        value.copy_from_slice(&self.value.to_bytes());
        writes.copy_from_slice(&self.writes.to_le_bytes());
    }

    /// The slot that these output bytes show, among `slots` slots.
    pub fn from_output(bytes: &[u8], slots: usize) -> Option<Slot> {
        let mut rest = bytes;
        Some(Slot {
            value: Value::from_bytes(take(&mut rest, Value::BYTES)?, slots)?,
            writes: number(take(&mut rest, Slot::WRITES_BYTES)?) as u32,
        })
    }
}

/// A good store: the table and what each slot holds.
#[derive(Debug, Clone)]
pub(crate) struct Store {
    pub table: Table,
    /// "Slots from m up to 255 are held as integer 0."
    held: [Slot; Store::MOST_SLOTS],
}

impl Store {
    pub const MOST_SLOTS: usize = 256;

    pub fn from_sheet(sheet: &[u8]) -> Result<Store, Refusal> {
        let (sizes, mut rest) = StoreSizes::judge(sheet, StoreSizes::store_bytes)?;
        let order = read_order(&sizes, &mut rest)?;
        let owner_bytes = take(&mut rest, sizes.owners_bytes()).ok_or(Refusal::StoreLength)?;
        let mut owners = Vec::new();
        let mut held = [Slot::UNUSED; Store::MOST_SLOTS];
        // "then slot by slot 4 before 5"
        let sheet_slots = owner_bytes.iter().zip(rest.chunks_exact(Value::BYTES));
        for ((owner, value), slot) in sheet_slots.zip(&mut held) {
            owners.push(read_owner(&order, *owner)?);
            let value = Value::from_bytes(value, sizes.slots).ok_or(Refusal::Value)?;
            *slot = Slot::opening(value);
        }
        let table = Table { order, owners };
        Ok(Store { table, held })
    }

    /// The present value of a slot.
    pub fn value(&self, slot: SlotNumber) -> Value {
        self.held[slot.index()].value
    }

    pub fn assign(&mut self, slot: SlotNumber, value: Value) {
        self.held[slot.index()].write(value);
    }

    /// The same table with the slots that an output shows, its counts adding up to
    /// no more than these steps; else "a value is ill-formed, or counts add up to
    /// more than the steps" (document 02, N8).
    pub fn holding(mut self, output: &[u8], steps: u32) -> Option<Store> {
        let slots = self.table.slots();
        let mut writes = 0;
        for (bytes, slot) in output.chunks_exact(Slot::OUTPUT_BYTES).zip(&mut self.held) {
            *slot = Slot::from_output(bytes, slots)?;
            writes += u64::from(slot.writes);
        }
        (writes <= u64::from(steps)).then_some(self)
    }

    /// The length the output must have.
    pub fn output_bytes(&self) -> usize {
        self.table.slots() * Slot::OUTPUT_BYTES
    }

    /// Writes the slots below m to an output of just that length.
    pub fn write_to(&self, output: &mut [u8]) {
        for (bytes, slot) in output.chunks_exact_mut(Slot::OUTPUT_BYTES).zip(&self.held) {
            slot.write_to(bytes);
        }
    }
}

/// Takes the masks off `rest` and judges them by 3.
fn read_order(sizes: &StoreSizes, rest: &mut &[u8]) -> Result<Order, Refusal> {
    let bytes = take(rest, sizes.masks_bytes()).ok_or(Refusal::StoreLength)?;
    let masks: Vec<u32> = bytes
        .chunks_exact(Order::MASK_BYTES)
        .map(|mask| number(mask) as u32)
        .collect();
    Order::from_masks(&masks).ok_or(Refusal::OrderTable)
}

fn read_owner(order: &Order, byte: u8) -> Result<Principal, Refusal> {
    order.principal(byte).ok_or(Refusal::Owner)
}
