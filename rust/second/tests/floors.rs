//! Document 02, N6: what a floor lets pass, over all principals of small tables
//! and at random.

mod play;
mod random;

use play::*;
use random::flows::flowing_parts;
use random::*;
use sheets::*;

/// Streams apart from those of the other test files.
const IGNORED: u64 = 11 << 32;
const LOWERED: u64 = 12 << 32;
/// How many calls are played.
const CALLS: u64 = 20_000;

/// Where a block's only assignment takes what is judged from: the slots of its
/// target, its value and its guard; and whose slot it writes, with which floor.
struct Flow {
    target: u8,
    value: u8,
    branch: u8,
    owner: u8,
    floor: u8,
}

/// All flows between a table's principals.
fn flows(masks: &[u32]) -> impl Iterator<Item = Flow> {
    let n = masks.len();
    (0..n.pow(5)).map(move |number| {
        let digit = |place| (number / n.pow(place) % n) as u8;
        Flow {
            target: digit(0),
            value: digit(1),
            branch: digit(2),
            owner: digit(3),
            floor: digit(4),
        }
    })
}

/// Slots 0 to 2 are the target, the value and the guard, slot 3 is the owner's.
/// The top's endorsed block writes it in a then-part.
#[track_caller]
fn check_flow(masks: &[u32], flow: &Flow, rule: u32, passes: bool) {
    let slots = [
        (flow.target, write_view(3)),
        (flow.value, integer(5)),
        (flow.branch, truth(true)),
        (flow.owner, integer(0)),
    ];
    let region = region_byte(top(masks), true);
    let code = if_else(slot(2), assign(slot(0), slot(1)), skip());
    let call = call_floored(&store(masks, &slots), region, flow.floor, code, rule);
    if passes {
        let held = [write_view(3), integer(5), truth(true)].map(kept);
        call.finishes(2, &[&held[..], &[once(integer(5))]].concat());
    } else {
        call.refused(16, 0, 1 + slot(2).len(), 1);
    }
}

/// "an endorsed assignment passes under rules 2 and 3 when the meet of all labels
/// judged stands at or above the slot's owner, or at or above the floor": when
/// all labels stand at or above the one, or all of them at or above the other.
#[test]
fn the_owner_or_the_floor_is_enough() {
    for masks in TABLES {
        for flow in flows(masks) {
            let explicit = [flow.target, flow.value];
            let all = [flow.target, flow.value, flow.branch];
            for (rule, labels) in [(2, &explicit[..]), (3, &all)] {
                let above = |bound, label| stands_below(masks, bound, label);
                let all_above = |bound| labels.iter().all(|label| above(bound, *label));
                let passes = all_above(flow.owner) || all_above(flow.floor);
                check_flow(masks, &flow, rule, passes);
            }
        }
    }
}

/// Calls and what came of them when their headers were altered: how often each
/// number stayed the answer, and how often it did not.
#[derive(Debug, Default)]
struct Compared {
    same: [u32; NUMBERS],
    other: u32,
}

impl Compared {
    /// The altered parts answer as the parts do, unless these are refused by 16 and
    /// the altered ones need not be.
    fn count(&mut self, parts: &Parts, altered: &Parts, may_pass: bool) {
        let (was, now) = (parts.call().play(), altered.call().play());
        if was == now {
            self.same[was.answer.number as usize] += 1;
        } else {
            let (was, now) = (was.answer, now.answer);
            assert!(may_pass && was.number == 16, "{was:?} {now:?}");
            assert!(was.steps < now.steps);
            self.other += 1;
        }
    }
}

/// Calls in which values flow, under rules 2 and 3, which judge them.
fn judged_parts(seed: u64) -> Parts {
    let mut parts = flowing_parts(seed);
    parts.rule = 2 + (seed % 2) as u32;
    parts
}

/// "ignored unless the block is endorsed": any byte may stand there.
#[test]
fn the_floor_of_a_block_that_is_not_endorsed_alters_nothing() {
    let mut random = Random::stream(IGNORED);
    let mut compared = Compared::default();
    for seed in 0..CALLS {
        let parts = judged_parts(seed);
        let mut altered = parts.clone();
        for block in &mut altered.blocks {
            if !is_endorsed(block) {
                block.1 = random.next() as u8;
            }
        }
        compared.count(&parts, &altered, false);
    }
    assert!(
        compared.same[0] > 1_000 && compared.same[16] > 500,
        "{compared:?}"
    );
}

/// The same with this floor for every block.
fn with_floor(parts: &Parts, floor: u8) -> Parts {
    let mut parts = parts.clone();
    for block in &mut parts.blocks {
        block.1 = floor;
    }
    parts
}

/// The same with no block endorsed.
fn unendorsed(parts: &Parts) -> Parts {
    let mut parts = parts.clone();
    for block in &mut parts.blocks {
        block.0 = region(block);
    }
    parts
}

/// Whether the run is refused by 16 in an endorsed block.
fn is_refused_endorsed(parts: &Parts) -> bool {
    let answer = parts.call().play().answer;
    answer.number == 16 && is_endorsed(&parts.blocks[answer.block as usize])
}

/// With the top as floor an endorsed block is judged as any other: what stands at
/// or above the top stands at or above the owner. With the bottom as floor no
/// label is too low.
#[test]
fn the_top_as_floor_spares_nothing_and_the_bottom_all() {
    let mut compared = Compared::default();
    let mut refused = 0;
    for seed in 0..CALLS {
        let parts = judged_parts(seed);
        let at_top = with_floor(&parts, top(parts.masks));
        let at_bottom = with_floor(&parts, bottom(parts.masks));
        compared.count(&unendorsed(&parts), &at_top, false);
        refused += u32::from(is_refused_endorsed(&at_top));
        assert!(!is_refused_endorsed(&at_bottom));
    }
    assert!(compared.same[0] > 1_000 && refused > 500, "{compared:?}");
}

/// A lower floor lets through what the higher one did, and now and then more.
#[test]
fn a_lower_floor_alters_only_16() {
    let mut random = Random::stream(LOWERED);
    let mut compared = Compared::default();
    for seed in 0..CALLS {
        let parts = judged_parts(seed);
        let mut lowered = parts.clone();
        for block in lowered.blocks.iter_mut().filter(|block| is_endorsed(block)) {
            let lower =
                principals(parts.masks).filter(|to| stands_below(parts.masks, *to, block.1));
            let lower: Vec<u8> = lower.collect();
            block.1 = lower[random.below(lower.len())];
        }
        compared.count(&parts, &lowered, true);
    }
    assert!(
        compared.same[0] > 1_000 && compared.other > 100,
        "{compared:?}"
    );
}
