//! Holds what a run tells to the rules, from the sheets' parts alone: labels are
//! meets of owners, and what is told of slots is what they held.

// Each test file uses its own share of this.
#![allow(dead_code)]

use crate::random::{principals, region, stands_below, top, Parts};
use second_runner::{Guarding, ReadSeen, Seen, Step, StepKind, Stopped, Value, Why};

/// What the slots hold while the steps told are played again.
pub struct Retold<'a> {
    parts: &'a Parts,
    pub held: Vec<Value>,
    pub writes: Vec<u32>,
    /// How many steps there were.
    pub steps: u32,
}

/// A value's nine bytes as a kind and a payload.
pub fn value(bytes: &[u8]) -> Value {
    let payload = bytes[1..].try_into().expect("eight bytes");
    Value {
        kind: bytes[0],
        payload: u64::from_le_bytes(payload),
    }
}

/// The greatest of those that stand below both.
pub fn meet(masks: &[u32], one: u8, other: u8) -> u8 {
    let common = principals(masks)
        .filter(|lower| stands_below(masks, *lower, one) && stands_below(masks, *lower, other));
    let mut all = common.clone();
    all.find(|greatest| {
        common
            .clone()
            .all(|lower| stands_below(masks, lower, *greatest))
    })
    .expect("a meet")
}

impl<'a> Retold<'a> {
    pub fn opening(parts: &'a Parts) -> Retold<'a> {
        Retold {
            parts,
            held: parts.slots.iter().map(|(_, bytes)| value(bytes)).collect(),
            writes: vec![0; parts.slots.len()],
            steps: 0,
        }
    }

    fn meet(&self, one: u8, other: u8) -> u8 {
        meet(self.parts.masks, one, other)
    }

    fn owner(&self, slot: usize) -> u8 {
        self.parts.slots[slot].0
    }

    pub fn is_below(&self, lower: u8, upper: u8) -> bool {
        stands_below(self.parts.masks, lower, upper)
    }

    #[track_caller]
    fn assert_reads(&self, reads: &[ReadSeen]) {
        for read in reads {
            assert_eq!(read.owner, self.owner(read.slot));
            assert_eq!(read.value, self.held[read.slot]);
        }
    }

    /// "its label is the meet of the top and the owners of all the slots read"
    #[track_caller]
    pub fn assert_seen(&self, seen: &Seen) {
        self.assert_reads(&seen.reads);
        let owners = seen.reads.iter().map(|read| read.owner);
        let label = owners.fold(top(self.parts.masks), |label, owner| {
            self.meet(label, owner)
        });
        assert_eq!(seen.label, label, "{seen:?}");
    }

    /// Plays a step again.
    #[track_caller]
    pub fn step(&mut self, step: &Step) {
        self.steps += 1;
        assert_eq!(step.number, self.steps);
        match &step.what {
            StepKind::Guard {
                guard,
                holds,
                inside,
            } => {
                self.assert_seen(guard);
                let truth = u64::from(*holds);
                assert_eq!((guard.value.kind, guard.value.payload), (1, truth));
                assert_eq!(*inside, self.meet(step.branch, guard.label));
            }
            StepKind::Write {
                slot,
                owner,
                old,
                target,
                value,
            } => {
                self.assert_seen(target);
                self.assert_seen(value);
                let view = (target.value.kind, target.value.payload);
                assert_eq!(view, (3, *slot as u64));
                assert_eq!((*owner, *old), (self.owner(*slot), self.held[*slot]));
                self.held[*slot] = value.value;
                self.writes[*slot] += 1;
            }
        }
    }

    /// Of a run whose guards were all judged in it: "the meet of the outer one and
    /// the guard's label".
    #[track_caller]
    pub fn assert_branch(&self, stopped: &Stopped) {
        let mut outside = top(self.parts.masks);
        for Guarding { label, guard, .. } in &stopped.guards {
            let guard = guard.as_ref().expect("judged in this run");
            assert_eq!(*label, self.meet(outside, guard.label));
            outside = *label;
        }
        assert_eq!(stopped.branch, outside);
    }

    /// The block's region and floor, and a cause that the rules do forbid.
    #[track_caller]
    pub fn assert_stopped(&self, stopped: &Stopped) {
        let block = &self.parts.blocks[stopped.block];
        assert_eq!(stopped.steps, self.steps);
        assert_eq!(stopped.region, region(block));
        let endorsed = crate::random::is_endorsed(block);
        assert_eq!(stopped.floor, endorsed.then_some(block.1));
        match &stopped.why {
            Why::WrongKind { reads, .. } => self.assert_reads(reads),
            Why::NoAuthority {
                slot,
                owner,
                target,
            } => {
                self.assert_seen(target);
                assert_eq!(
                    (*owner, target.value.payload),
                    (self.owner(*slot), *slot as u64)
                );
                assert!(!self.is_below(*owner, stopped.region));
            }
            Why::WriteViewNotAllowed {
                slot,
                owner,
                read_from,
                ..
            } => {
                assert_eq!(*owner, self.owner(*slot));
                assert!(!self.is_below(*owner, stopped.region));
                let view = Value {
                    kind: 3,
                    payload: *slot as u64,
                };
                assert!(read_from.is_none_or(|from| self.held[from] == view));
            }
            Why::ProvenanceTooLow { .. } => self.assert_too_low(stopped),
            Why::BudgetSpent { budget } => assert!(self.steps >= *budget),
            Why::JournalFull { entries } => {
                let writes: u32 = self.writes.iter().sum();
                assert_eq!(*entries, writes as usize);
            }
        }
    }

    #[track_caller]
    fn assert_too_low(&self, stopped: &Stopped) {
        let Why::ProvenanceTooLow {
            slot,
            owner,
            target,
            value,
            branch_judged,
            meet,
        } = &stopped.why
        else {
            panic!("{stopped:?}");
        };
        self.assert_seen(target);
        self.assert_seen(value);
        assert_eq!(*owner, self.owner(*slot));
        let explicit = self.meet(target.label, value.label);
        let judged = match branch_judged {
            true => self.meet(explicit, stopped.branch),
            false => explicit,
        };
        assert_eq!(*meet, judged);
        assert!(!self.is_below(*owner, *meet));
        assert!(stopped
            .floor
            .is_none_or(|floor| !self.is_below(floor, *meet)));
        assert!(self.is_below(*owner, stopped.region));
    }
}
