//! What slots keep, at random. Under rule 1, and under rule 2, slots that are
//! protected from an adversary (document 01: a stranger) hold their opening
//! values and are not written at all, on conditions of which each is needed. Under
//! every rule, a slot that a block writes is owned at or below the block's region.
//!
//! The runner shows the store of a finished run only. So the first blocks of a
//! programme are played too, none of them, one, two and so on: that shows the
//! store after each block, also of a run that is refused in a later one. Most
//! blocks of `views_go_round` are of one step.

mod play;
mod random;

use play::*;
use random::views::views_go_round;
use random::*;
use sheets::*;

/// How many programmes of each kind are played.
const PROGRAMMES: u64 = 20_000;

/// The slots at the start, and after each block that the run comes through:
/// what they hold, and their counts.
fn stores(parts: &Parts, rule: u32) -> Vec<Bytes> {
    let whole = parts.call().rule(rule);
    let first = |count: usize| Call {
        programme: programme_with_floors(&parts.blocks[..count]),
        ..whole.clone()
    };
    let runs = (0..=parts.blocks.len()).map(|count| first(count).play());
    let finished = runs.take_while(|played| played.answer.number == 0);
    finished.map(|played| played.output).collect()
}

/// The slots in which two stores differ, in the value or in the count.
fn changed(before: &[u8], after: &[u8]) -> Vec<usize> {
    let slots = before.chunks(OUTPUT_SLOT).zip(after.chunks(OUTPUT_SLOT));
    let differ = slots.enumerate().filter(|(_, (one, other))| one != other);
    differ.map(|(slot, _)| slot).collect()
}

fn finishes(parts: &Parts, stores: &[Bytes]) -> bool {
    stores.len() == parts.blocks.len() + 1
}

/// Runs in which some slot was seen to change: finished ones, and those that
/// were refused after that.
#[derive(Debug, Default)]
struct Seen {
    finished: u32,
    refused: u32,
}

impl Seen {
    fn count(&mut self, parts: &Parts, stores: &[Bytes]) {
        if stores.iter().all(|store| *store == stores[0]) {
            return;
        }
        if finishes(parts, stores) {
            self.finished += 1;
        } else {
            self.refused += 1;
        }
    }

    fn enough(&self) -> bool {
        self.finished > 1_000 && self.refused > 500
    }
}

/// The parts of a call, as an adversary meets them.
struct Met<'a> {
    parts: &'a Parts,
    adversary: u8,
}

impl Met<'_> {
    /// A block of this region is outside the adversary's reach: it does not
    /// stand at or below it. A slot of this owner is protected.
    fn is_outside(&self, principal: u8) -> bool {
        !stands_below(self.parts.masks, principal, self.adversary)
    }

    fn protected(&self) -> impl Iterator<Item = usize> + '_ {
        let owners = self.parts.slots.iter().map(|(owner, _)| *owner);
        let protected = owners.enumerate().filter(|(_, by)| self.is_outside(*by));
        protected.map(|(slot, _)| slot)
    }

    fn blocks_outside(&self) -> impl Iterator<Item = &FlooredBlock> {
        let blocks = self.parts.blocks.iter();
        blocks.filter(|block| self.is_outside(region(block)))
    }

    /// The slot opens with no write view of a protected slot.
    fn slot_spares(&self, slot: usize) -> bool {
        let value = &self.parts.slots[slot].1;
        self.protected().all(|to| *value != write_view(to as i64))
    }

    fn slots_spare(&self) -> bool {
        (0..self.parts.slots.len()).all(|slot| self.slot_spares(slot))
    }

    fn protected_slots_spare(&self) -> bool {
        self.protected().all(|slot| self.slot_spares(slot))
    }

    /// No block outside reach has a literal that is a write view of a protected
    /// slot: the bytes of one stand nowhere in its code.
    fn blocks_spare(&self) -> bool {
        let views = self.protected().map(|to| literal(write_view(to as i64)));
        let views: Vec<Bytes> = views.collect();
        let is_view = |bytes: &[u8]| views.iter().any(|view| bytes == view);
        let mut outside = self.blocks_outside();
        outside.all(|(_, _, code)| !code.windows(LITERAL).any(is_view))
    }

    /// The same parts, but the adversary is the floor of every block outside reach.
    fn on_the_adversary_s_floor(&self) -> Parts {
        let mut parts = self.parts.clone();
        for block in &mut parts.blocks {
            if self.is_outside(region(block)) {
                block.1 = self.adversary;
            }
        }
        parts
    }

    /// Protected slots hold in all these stores what they hold in the first.
    fn keeps_protected(&self, stores: &[Bytes]) -> bool {
        stores.iter().all(|store| {
            let changed = changed(&stores[0], store);
            self.protected().all(|slot| !changed.contains(&slot))
        })
    }

    /// No endorsed block outside reach has a floor at or below the adversary.
    fn floors_spare(&self) -> bool {
        let mut endorsed = self.blocks_outside().filter(|block| is_endorsed(block));
        endorsed.all(|(_, floor, _)| self.is_outside(*floor))
    }
}

/// Whoever the adversary is: where all conditions hold, protected slots hold
/// their opening values after each block. Where only one does not, some finished
/// run changes a protected slot: so the condition is needed, and such a change
/// would be seen.
fn protected_slots_are_kept<const N: usize>(rule: u32, conditions: fn(&Met) -> [bool; N]) {
    let mut seen = Seen::default();
    let mut lost = [0; N];
    for parts in programmes() {
        let stores = stores(&parts, rule);
        let finished = finishes(&parts, &stores);
        for adversary in 0..parts.masks.len() as u8 {
            let parts = &parts;
            let met = Met { parts, adversary };
            if met.protected().next().is_none() {
                continue;
            }
            let kept = met.keeps_protected(&stores);
            let holding = conditions(&met);
            let missing: Vec<usize> = (0..N).filter(|at| !holding[*at]).collect();
            match missing[..] {
                [] => {
                    assert!(kept);
                    seen.count(parts, &stores);
                }
                [only] if finished && !kept => lost[only] += 1,
                _ => (),
            }
        }
    }
    assert!(seen.enough(), "{seen:?}");
    assert!(lost.iter().all(|count| *count > 20), "{lost:?}");
}

/// "Under rule 1, let no opening slot hold a write view of a protected slot,
/// and let no block outside the stranger's reach contain one. Then protected
/// slots still hold their opening values at every step." (document 02, N2)
#[test]
fn rule_1_keeps_protected_slots() {
    protected_slots_are_kept(1, |met| [met.slots_spare(), met.blocks_spare()]);
}

/// Under rule 2 it is enough that no protected slot opens with such a view; but
/// of the endorsed blocks outside reach "none of their floors stands at or below
/// the stranger" (document 02, N6), and these blocks too contain no such view.
fn rule_2_conditions(met: &Met) -> [bool; 3] {
    [
        met.protected_slots_spare(),
        met.blocks_spare(),
        met.floors_spare(),
    ]
}

#[test]
fn rule_2_keeps_protected_slots() {
    protected_slots_are_kept(2, rule_2_conditions);
}

/// Among the runs of rule 2 that the conditions hold of are such that floors keep
/// from changing a protected slot: had the endorsed blocks outside reach the
/// adversary as floor, one would change.
#[test]
fn floors_keep_protected_slots() {
    let mut by_floors = 0;
    for parts in programmes() {
        for adversary in 0..parts.masks.len() as u8 {
            let parts = &parts;
            let met = Met { parts, adversary };
            if rule_2_conditions(&met) == [true; 3] {
                let stores = stores(&met.on_the_adversary_s_floor(), 2);
                by_floors += u32::from(!met.keeps_protected(&stores));
            }
        }
    }
    assert!(by_floors > 20, "{by_floors}");
}

/// The owner of a slot that a block changes stands at or below the block's
/// region; so a slot that ends otherwise than it began is owned at or below the
/// region of some block. Often another block of the programme could not have
/// changed the slot: which block it was is needed.
#[test]
fn a_block_changes_only_slots_at_or_below_its_region() {
    for rule in RULES {
        let mut seen = Seen::default();
        let mut not_by_another = 0;
        for parts in programmes() {
            let may_change = |block: &FlooredBlock, slot: usize| {
                stands_below(parts.masks, parts.slots[slot].0, region(block))
            };
            let stores = stores(&parts, rule);
            for (block, pair) in parts.blocks.iter().zip(stores.windows(2)) {
                for slot in changed(&pair[0], &pair[1]) {
                    assert!(may_change(block, slot));
                    let mut blocks = parts.blocks.iter();
                    if blocks.any(|another| !may_change(another, slot)) {
                        not_by_another += 1;
                    }
                }
            }
            seen.count(&parts, &stores);
        }
        assert!(seen.enough(), "rule {rule}: {seen:?}");
        assert!(not_by_another > 500, "rule {rule}: {not_by_another}");
    }
}

/// Programmes of the grammar, and such in which write views go round.
fn programmes() -> impl Iterator<Item = Parts> {
    let of_grammar = (0..PROGRAMMES).map(good_parts);
    of_grammar.chain((0..PROGRAMMES).map(views_go_round))
}
