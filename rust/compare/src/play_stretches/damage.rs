//! Damage to a checkpoint.

use std::fmt::{self, Display, Formatter};

use crate::calls::Stretch;
use crate::checkpoints::{Checkpoint, Place};
use crate::decode::store_in;
use crate::outputs::Record;
use crate::random::Random;
use crate::values::{Kind, Value};

/// As long as a path can be with a byte behind it that is not used.
const MOST_LENGTH: usize = (Place::WIDTH - Place::HEAD) / 2 - 1;

/// What is changed.
#[derive(Debug, Clone, Copy, PartialEq, Eq)]
pub enum Damage {
    /// The steps so far.
    Steps,
    PathLength,
    Block,
    Child,
    /// A label becomes another principal.
    Label,
    /// All labels from one on become the top.
    Forged,
    /// A label becomes a number that is no principal's.
    UnknownLabel,
    Unused,
    Kind,
    Payload,
    Count,
    /// Two counts that add up to more than four bytes hold.
    Wrapping,
    AnyByte,
}

impl Damage {
    pub const ALL: [Damage; 13] = [
        Damage::Steps,
        Damage::PathLength,
        Damage::Block,
        Damage::Child,
        Damage::Label,
        Damage::Forged,
        Damage::UnknownLabel,
        Damage::Unused,
        Damage::Kind,
        Damage::Payload,
        Damage::Count,
        Damage::Wrapping,
        Damage::AnyByte,
    ];

    /// Those that are always refused by 19, where there is anything to change.
    pub const NEVER_GOOD: [Damage; 3] = [Damage::UnknownLabel, Damage::Unused, Damage::Wrapping];

    pub fn random(random: &mut Random) -> Damage {
        random.pick(&Damage::ALL)
    }

    /// The checkpoint with this damage, or as it was where there is nothing to change.
    pub fn done(self, random: &mut Random, stretch: &Stretch, good: &Checkpoint) -> Checkpoint {
        let mut bad = good.clone();
        match self {
            Damage::Kind | Damage::Payload | Damage::Count | Damage::Wrapping => {
                self.change_output(random, &mut bad.output);
            }
            Damage::AnyByte if random.one_in(2) && !bad.output.is_empty() => {
                let place = random.below(bad.output.len());
                bad.output[place] ^= random.between(1, 255) as u8;
            }
            Damage::AnyByte => {
                let place = random.below(bad.pause.len());
                bad.pause[place] ^= random.between(1, 255) as u8;
            }
            _ => self.change_sheet(random, stretch, &mut bad.pause),
        }
        bad
    }

    fn change_sheet(self, random: &mut Random, stretch: &Stretch, sheet: &mut [u8]) {
        let length = usize::from(sheet[Place::LENGTH]).min(MOST_LENGTH);
        let labels = Place::HEAD + length;
        let near = |random: &mut Random, byte: u8| match random.below(4) {
            0 => byte.wrapping_add(1),
            1 => byte.wrapping_sub(1),
            2 => random.below(4) as u8,
            _ => random.byte(),
        };
        let mut change = |random: &mut Random, place: usize| {
            sheet[place] = near(random, sheet[place]);
        };
        match (self, length) {
            (Damage::Steps, _) => {
                let steps = random.pick(&[0, 1, 2, 1_000_000, 1_000_001, u32::MAX]);
                sheet[..4].copy_from_slice(&steps.to_le_bytes());
            }
            (Damage::PathLength, _) => change(random, Place::LENGTH),
            (Damage::Block, _) => change(random, Place::BLOCK),
            (Damage::Unused, _) => {
                let place = random.between(Place::HEAD + 2 * length, Place::WIDTH - 1);
                sheet[place] = random.between(1, 255) as u8;
            }
            (_, 0) => (),
            (Damage::Child, _) => {
                let place = Place::HEAD + random.below(length);
                change(random, place);
            }
            (Damage::UnknownLabel, _) => {
                let principals = principals(stretch);
                let unknown = [principals as u8, 32, 0x80, 255];
                sheet[labels + random.below(length)] = random.pick(&unknown);
            }
            (Damage::Forged, _) => {
                let from = random.below(length);
                let top = store_in(&stretch.store).map_or(0, |store| store.table.lattice.top());
                sheet[labels + from..labels + length].fill(top);
            }
            (_, _) => {
                let label = random.below(principals(stretch)) as u8;
                sheet[labels + random.below(length)] = label;
            }
        }
    }

    fn change_output(self, random: &mut Random, output: &mut [u8]) {
        let slots = output.len() / Record::WIDTH;
        if slots == 0 {
            return;
        }
        let slot = random.below(slots) * Record::WIDTH;
        let count = slot + Value::WIDTH..slot + Record::WIDTH;
        match self {
            Damage::Kind => output[slot] = random.between(0, usize::from(Kind::UNKNOWN)) as u8,
            Damage::Payload => {
                let place = random.between(1, Value::PAYLOAD);
                output[slot + place] = random.pick(&[0, 1, 2, slots as u8, 255]);
            }
            Damage::Wrapping if slots > 1 => {
                let other = (slot + Record::WIDTH) % output.len();
                let half = (1u32 << 31).to_le_bytes();
                output[count].copy_from_slice(&half);
                output[other + Value::WIDTH..][..half.len()].copy_from_slice(&half);
            }
            _ => {
                let writes = random.pick(&[0, 1, 2, 256, 1 << 16, 1 << 24, u32::MAX]);
                output[count].copy_from_slice(&writes.to_le_bytes());
            }
        }
    }
}

/// n of a good store sheet.
fn principals(stretch: &Stretch) -> usize {
    stretch.store.first().map_or(1, |n| usize::from(*n).max(1))
}

impl Display for Damage {
    fn fmt(&self, out: &mut Formatter) -> fmt::Result {
        out.write_str(match self {
            Damage::Steps => "steps",
            Damage::PathLength => "path length",
            Damage::Block => "block",
            Damage::Child => "child",
            Damage::Label => "label",
            Damage::Forged => "forged labels",
            Damage::UnknownLabel => "unknown label",
            Damage::Unused => "unused byte",
            Damage::Kind => "kind",
            Damage::Payload => "payload",
            Damage::Count => "count",
            Damage::Wrapping => "counts that wrap",
            Damage::AnyByte => "any byte",
        })
    }
}
