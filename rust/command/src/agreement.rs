//! A programme's text may have `principals` and `slot` lines of its own, without
//! values. Beside a store they have to say what the store says.

use model::{count, Names, Store};
use notation::{Assembled, Tables};

use crate::ending::Failure;

/// What a programme's text and a store say of the same things.
pub struct Beside<'a> {
    pub store_name: &'a str,
    pub store: &'a [u8],
    /// The names that the store's text gives; none of a sheet.
    pub store_names: &'a Names,
    pub name: &'a str,
    pub assembled: &'a Assembled,
}

impl Beside<'_> {
    /// Refuses a programme's tables that are not the store's. Of a store that is
    /// not good nothing is said here: it is refused itself.
    pub fn agree(&self) -> Result<(), Failure> {
        let Some(own) = &self.assembled.tables else {
            return self.numbers_are_the_stores();
        };
        let Some(store) = inspect::store_model(self.store) else {
            return Ok(());
        };
        let differs = self.numbers(own, &store).or_else(|| self.names());
        match differs.or_else(|| self.tables(own, &store)) {
            Some(words) => Err(Failure::told(format!(
                "{} declares principals and slots of its own, which are not those of {}: {words}",
                self.name, self.store_name
            ))),
            None => Ok(()),
        }
    }

    /// A programme's text without tables calls principals and slots by their numbers.
    /// The store's text may not mean others by these names.
    fn numbers_are_the_stores(&self) -> Result<(), Failure> {
        let names = [
            (&self.store_names.principals, Names::PRINCIPAL, "principal"),
            (&self.store_names.slots, Names::SLOT, "slot"),
        ];
        for (names, letter, what) in names {
            for (number, name) in names.iter().enumerate() {
                let digits = name.strip_prefix(letter).unwrap_or_default();
                if let Some(meant) = digits.parse().ok().filter(|meant: &usize| *meant != number) {
                    return Err(Failure::told(format!(
                        "{} declares no principals and slots, so {name} is {what} {meant} there, and in {} it is {what} \
                         {number}: declare them in {0} as well, without values",
                        self.name, self.store_name
                    )));
                }
            }
        }
        Ok(())
    }

    fn numbers(&self, own: &Tables, store: &Store) -> Option<String> {
        let numbers = [
            (own.masks.len(), store.masks.len(), "principal"),
            (own.owners.len(), store.slots.len(), "slot"),
        ];
        let differs = numbers.iter().find(|(own, store, _)| own != store);
        differs.map(|(own, store, what)| format!("{}, and there {store}", count(*own, what)))
    }

    /// The first name that stands for another number than in the store's text.
    fn names(&self) -> Option<String> {
        let names = &self.assembled.names;
        let both = [
            (&names.principals, &self.store_names.principals, "principal"),
            (&names.slots, &self.store_names.slots, "slot"),
        ];
        let differs = both.iter().find_map(|(own, store, what)| {
            let mut pairs = own.iter().zip(*store).enumerate();
            let (number, (own, store)) = pairs.find(|(_, (own, store))| own != store)?;
            Some(format!("{what} {number} is {own}, and there {store}"))
        });
        differs
    }

    /// The first principal with others below it, or slot with another owner.
    fn tables(&self, own: &Tables, store: &Store) -> Option<String> {
        let names = &self.assembled.names;
        let mut masks = own.masks.iter().zip(&store.masks);
        if let Some(principal) = masks.position(|(own, store)| own != store) {
            let name = names.principal(principal);
            return Some(format!("others stand below {name} there"));
        }
        let mut slots = own.owners.iter().zip(&store.slots).enumerate();
        let (slot, (own, store)) = slots.find(|(_, (own, store))| **own != store.owner)?;
        let owner = |owner: u8| names.principal(owner.into());
        let (slot, own, other) = (names.slot(slot), owner(*own), owner(store.owner));
        Some(format!("{own} owns {slot}, and there {other}"))
    }
}
