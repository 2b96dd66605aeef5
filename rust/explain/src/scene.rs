//! What a refusal or a step is told over: the names, the order, and the code.

use model::{Block, Code, Command, Names};
use muntyzhap::Rule;
use second_runner::{ReadSeen, Seen, Stopped, Value};

use crate::words;

/// A store and a programme as people know them.
pub struct Scene<'a> {
    pub names: &'a Names,
    /// The store's order table, which is good.
    pub masks: &'a [u32],
    /// The owner of each slot.
    pub owners: &'a [u8],
    /// The programme's, their commands with offsets.
    pub blocks: &'a [Block],
    /// Where in somebody's file a block's offset stands: `deputy.mz:6:14`, or
    /// `deputy.bin: byte 61`.
    pub place: &'a dyn Fn(usize, usize) -> String,
    /// The rule set that was run under.
    pub rule: Rule,
    /// A spent budget is a pause here: where the run stands is kept, and whoever
    /// shows the text says how to carry on.
    pub paused: bool,
}

impl Scene<'_> {
    pub(crate) fn principal(&self, number: u8) -> String {
        self.names.principal(usize::from(number))
    }

    /// The same where a sentence could take the name for a word: "the principal
    /// nobody".
    pub(crate) fn called(&self, number: u8) -> String {
        words::called(&self.principal(number))
    }

    pub(crate) fn slot(&self, number: usize) -> String {
        self.names.slot(number)
    }

    /// A value as the notation has it.
    pub(crate) fn value(&self, value: Value) -> String {
        match muntyzhap::Value::from_parts(value.kind, value.payload) {
            Some(value) => self.names.value(value),
            None => format!("kind {} payload {}", value.kind, value.payload),
        }
    }

    /// "place, which digA owns"
    pub(crate) fn slot_with_owner(&self, slot: usize) -> String {
        match self.owners.get(slot) {
            Some(owner) => format!("{}, which {} owns", self.slot(slot), self.called(*owner)),
            None => self.slot(slot),
        }
    }

    pub(crate) fn is_at_or_above(&self, upper: u8, lower: u8) -> bool {
        let known = |number: u8| usize::from(number) < self.masks.len().min(u32::BITS as usize);
        known(upper)
            && known(lower)
            && model::order::at_or_below(self.masks, usize::from(lower), usize::from(upper))
    }

    fn principals(&self) -> impl Iterator<Item = u8> + use<> {
        (0..=u8::MAX).take(self.masks.len())
    }

    /// All principals at or above this one.
    fn at_or_above(&self, lower: u8) -> impl Iterator<Item = u8> + use<'_> {
        let above = self.principals();
        above.filter(move |upper| self.is_at_or_above(*upper, lower))
    }

    /// "lab and the principal nobody"
    pub(crate) fn those_above(&self, lower: u8) -> String {
        let above = self.at_or_above(lower).map(|upper| self.called(upper));
        words::list(&above.collect::<Vec<_>>())
    }

    /// "region lab or nobody"
    pub(crate) fn regions_above(&self, lower: u8) -> String {
        let above = self.at_or_above(lower).map(|upper| self.principal(upper));
        format!("region {}", words::list_or(&above.collect::<Vec<_>>()))
    }

    /// The greatest of those that stand below both.
    pub(crate) fn meet(&self, one: u8, other: u8) -> Option<u8> {
        let below =
            |lower: &u8| self.is_at_or_above(one, *lower) && self.is_at_or_above(other, *lower);
        let mut greatest = self.principals().filter(below);
        greatest.find(|greatest| {
            let mut lower = self.principals().filter(below);
            lower.all(|lower| self.is_at_or_above(*greatest, lower))
        })
    }

    /// Whether this one stands below all.
    pub(crate) fn is_bottom(&self, lowest: u8) -> bool {
        self.principals()
            .all(|upper| self.is_at_or_above(upper, lowest))
    }

    /// The names of the slots whose owners stand at or below this principal.
    pub(crate) fn slots_at_or_below(&self, upper: u8) -> Vec<String> {
        let slots = self.owners.iter().enumerate();
        slots
            .filter(|(_, owner)| self.is_at_or_above(upper, **owner))
            .map(|(slot, _)| self.slot(slot))
            .collect()
    }

    pub(crate) fn place_of(&self, block: usize, offset: u32) -> String {
        (self.place)(block, offset as usize)
    }

    pub(crate) fn command(&self, block: usize, offset: u32) -> Option<&Command> {
        match &self.blocks.get(block)?.code {
            Code::Command(command) => command.find(offset as usize),
            Code::Raw(_) => None,
        }
    }

    /// A command in the notation, without those inside; none where no command of a
    /// block stands there.
    pub(crate) fn text(&self, block: usize, offset: u32) -> Option<String> {
        let command = self.command(block, offset)?;
        Some(notation::text::command_line(command, self.names))
    }

    /// The same with something before it, or nothing.
    pub(crate) fn text_after(&self, block: usize, offset: u32, before: &str) -> String {
        let text = self.text(block, offset);
        text.map_or(String::new(), |text| format!("{before}{text}"))
    }

    /// "block 1 (region lab)", with its name and its floor if it has them.
    pub(crate) fn block_words(&self, stopped: &Stopped) -> String {
        let name = self.names.block(stopped.block);
        let name = name.map_or(String::new(), |name| format!("{name}, "));
        let region = self.principal(stopped.region);
        let floor = stopped.floor.map_or(String::new(), |floor| {
            format!(", endorsed down to {}", self.principal(floor))
        });
        format!("block {} ({name}region {region}{floor})", stopped.block)
    }

    /// "read from place, which digA owns, and from curve, which lab owns": those of
    /// the slots read whose owners are as they should be. None if there is none.
    pub(crate) fn read_from(&self, seen: &Seen, which: impl Fn(u8) -> bool) -> Option<String> {
        let mut slots: Vec<usize> = Vec::new();
        for ReadSeen { slot, owner, .. } in &seen.reads {
            if which(*owner) && !slots.contains(slot) {
                slots.push(*slot);
            }
        }
        let slots: Vec<String> = slots
            .into_iter()
            .map(|slot| format!("from {}", self.slot_with_owner(slot)))
            .collect();
        (!slots.is_empty()).then(|| format!("read {}", words::clauses(&slots)))
    }
}
