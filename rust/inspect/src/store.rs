//! The store sheet: refusals 1 to 5.

use model::{order, Names, Slot, Store, Value};
use muntyzhap::sheet::{MOST_PRINCIPALS, MOST_SLOTS};

use crate::item::{Item, Refused};
use crate::layout::{self, number, Sizes};
use crate::sizes::{Size, Sizing};
use crate::text;
use crate::walk::{Fault, Half, Line, Stage, Walk};
use crate::words::{self, count, there_are};

/// The refusals of a store sheet, as document 01 numbers them.
pub(crate) const LENGTH: u32 = 1;
pub(crate) const LIMITS: u32 = 2;
const ORDER: u32 = 3;
const OWNER: u32 = 4;
const VALUE: u32 = 5;

/// What the bytes of a store sheet are.
#[derive(Debug, Clone, PartialEq, Eq)]
pub struct StoreRead {
    pub items: Vec<Item>,
    /// The sizes that it says, if it can hold them and they are in limits.
    pub sizes: Option<Sizes>,
    /// What a good sheet says.
    pub model: Option<Store>,
    pub refused: Option<Refused>,
}

/// Reads a store sheet, as far as it goes.
pub fn store(sheet: &[u8], names: &Names) -> StoreRead {
    let mut walk = Walk::new(sheet);
    let sizing = sizing();
    let said = sizing.read(&mut walk);
    let sizes = said.map(|[principals, slots]| Sizes { principals, slots });
    let mut reader = Reader { walk, names };
    let model = sizes.and_then(|sizes| {
        let model = reader.tables(sizes);
        let (said, wanted) = ([sizes.principals, sizes.slots], layout::store_bytes(sizes));
        sizing.judge_length(&mut reader.walk, said, wanted);
        model.filter(|_| reader.walk.is_good())
    });
    let (items, refused) = reader.walk.finish();
    StoreRead {
        items,
        sizes,
        model,
        refused,
    }
}

/// What a good store sheet says; None of one that is refused.
pub fn store_model(sheet: &[u8]) -> Option<Store> {
    store(sheet, &Names::default()).model
}

fn sizing() -> Sizing {
    let fewest = 1;
    let principals = Size {
        letter: "n",
        bytes: layout::FIRST_SIZE,
        limits: fewest..=MOST_PRINCIPALS,
        most: format!("a store has {fewest} to {MOST_PRINCIPALS} principals"),
        words: |principals| count(principals, "principal"),
    };
    let slots = Size {
        letter: "m",
        bytes: layout::SECOND_SIZE,
        limits: 0..=MOST_SLOTS,
        most: format!("a store has at most {MOST_SLOTS} slots"),
        words: |slots| count(slots, "slot"),
    };
    Sizing {
        length: LENGTH,
        limits: LIMITS,
        sizes: [principals, slots],
    }
}

struct Reader<'a> {
    walk: Walk<'a>,
    names: &'a Names,
}

impl Reader<'_> {
    /// What is after sizes in limits, if it is all there and its values are good.
    fn tables(&mut self, sizes: Sizes) -> Option<Store> {
        let masks = self.masks(sizes.principals);
        let owners = self.owners(sizes);
        let slots = self.values(sizes, &owners);
        Some(Store {
            masks: masks?,
            slots: slots?,
        })
    }

    /// The order table, if all of it is there.
    fn masks(&mut self, principals: usize) -> Option<Vec<u32>> {
        let bytes = self.walk.rest().chunks_exact(layout::MASK).take(principals);
        let masks: Vec<u32> = bytes.map(|bytes| number(bytes) as u32).collect();
        let whole = masks.len() == principals;
        let fault = whole.then(|| order::fault(&masks)).flatten();
        for (principal, mask) in masks.iter().enumerate() {
            let fault = fault.as_ref().filter(|fault| place(fault) == principal);
            let fault = fault.map(|fault| Fault {
                stage: Stage::Order,
                number: ORDER,
                reason: fault.tell(self.names),
            });
            let line = Line::note(self.mask_words(principal, *mask)).with(fault);
            self.walk.item(layout::MASK, line);
        }
        if whole && fault.is_none() {
            for line in text::principals(&masks, self.names).lines() {
                self.walk.line(Line::text(line.to_string()));
            }
        }
        whole.then_some(masks)
    }

    fn mask_words(&self, principal: usize, mask: u32) -> String {
        let below = (0..MOST_PRINCIPALS).filter(|lower| mask >> lower & 1 == 1);
        let below: Vec<String> = below.map(|lower| self.names.principal(lower)).collect();
        let below = match below.is_empty() {
            true => "none".to_string(),
            false => below.join(", "),
        };
        format!("at or below {}: {below}", self.names.principal(principal))
    }

    /// The owners that are there; None for one that is no principal.
    fn owners(&mut self, sizes: Sizes) -> Vec<Option<u8>> {
        let bytes = self.walk.rest().iter().take(sizes.slots * layout::OWNER);
        let owners = bytes.enumerate().map(|(slot, owner)| {
            let is_principal = usize::from(*owner) < sizes.principals;
            let name = self.names.slot(slot);
            let fault = (!is_principal).then(|| Fault {
                stage: Stage::Entry(slot, Half::First),
                number: OWNER,
                reason: format!(
                    "slot {name} is owned by principal {owner}, and {}",
                    there_are(sizes.principals, "principal")
                ),
            });
            let owner_name = self.names.principal((*owner).into());
            let words = format!("slot {name} is owned by {owner_name}");
            self.walk.item(layout::OWNER, Line::note(words).with(fault));
            is_principal.then_some(*owner)
        });
        owners.collect()
    }

    /// The slots, if all are there and good.
    fn values(&mut self, sizes: Sizes, owners: &[Option<u8>]) -> Option<Vec<Slot>> {
        let bytes = self
            .walk
            .rest()
            .chunks_exact(Value::BYTES)
            .take(sizes.slots);
        let read = bytes.zip(owners).enumerate().map(|(slot, (bytes, owner))| {
            let (kind, payload) = bytes.split_first()?;
            let value = words::value(*kind, number(payload), sizes.slots);
            let made = value.as_ref().ok().zip(*owner);
            let made = made.map(|(value, owner)| Slot {
                owner,
                value: *value,
            });
            let line = self.slot_line(slot, value, made);
            self.walk.item(Value::BYTES, line);
            made
        });
        // All are gone through, those after a bad one too.
        let slots: Vec<Option<Slot>> = read.collect();
        slots.into_iter().collect()
    }

    /// A slot's line, or what is known of the slot and what is wrong.
    fn slot_line(&self, slot: usize, value: Result<Value, String>, made: Option<Slot>) -> Line {
        let name = self.names.slot(slot);
        match (made, value) {
            (Some(made), _) => Line::text(text::slot(slot, &made, self.names)),
            (None, Ok(value)) => {
                Line::note(format!("slot {name} holds {}", self.names.value(value)))
            }
            (None, Err(reason)) => Line::fault(Fault {
                stage: Stage::Entry(slot, Half::Second),
                number: VALUE,
                reason: format!("slot {name} has {reason}"),
            }),
        }
    }
}

/// The principal at whose mask a fault of the order is marked.
fn place(fault: &order::Fault) -> usize {
    match fault {
        order::Fault::BitBeyond { principal, .. } => *principal,
        order::Fault::NotBelowItself(principal) => *principal,
        order::Fault::Cycle(one, _) => *one,
        order::Fault::NotTransitive(_, _, upper) => *upper,
        order::Fault::NoMeet { first, .. } => *first,
        order::Fault::NoTop(highest) => highest.first().copied().unwrap_or_default(),
    }
}
