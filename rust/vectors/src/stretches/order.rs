//! The order: 11; 1 to 5; 6 to 10; 12 over all buffers; 19, "judged after 12"; then
//! the run.

use crate::case::{case, Case, Draft};
use sheets::*;

pub fn cases() -> Vec<Case> {
    let mut cases = arguments();
    for late in [Late::Pause, Late::OldPause, Late::Sheet] {
        cases.extend(sheets_before(late));
    }
    cases.extend(lengths_before_19());
    cases.extend(nineteen_before_the_run());
    cases
}

const AFTER: &str = "judged after 12";

/// What is wrong with a call besides.
#[derive(Clone, Copy)]
enum Late {
    /// The first stretch, with a pause buffer that is too short.
    Pause,
    /// A later one, with an old pause sheet that is too short.
    OldPause,
    /// A later one, with an old pause sheet of no step.
    Sheet,
}

impl Late {
    fn words(self) -> &'static str {
        match self {
            Late::Pause => "12 of the pause buffer",
            Late::OldPause => "12 of the old pause sheet",
            Late::Sheet => "19",
        }
    }

    /// The call with that fault, its budget spent.
    fn put(self, draft: Draft) -> Draft {
        let old = || output(&[integer(5), integer(7)].map(kept));
        match self {
            Late::Pause => draft.start().pause(PAUSE - 1),
            Late::OldPause => draft.carry_on(old(), pause(0, 0, &[])[1..].to_vec()),
            Late::Sheet => draft.carry_on(old(), pause(0, 1, &[])),
        }
    }

    fn number(self) -> u32 {
        match self {
            Late::Pause | Late::OldPause => 12,
            Late::Sheet => 19,
        }
    }
}

/// With no bytes in any sheet or buffer.
fn arguments() -> Vec<Case> {
    let first = |name: &str| {
        let draft = case(name, "Order: 11; store sizes present (1)");
        draft.store(vec![]).programme(vec![]).output(0)
    };
    let start = |name| first(name).start().pause(0);
    let next = |name| first(name).carry_on(vec![], vec![]).pause(0);
    vec![
        start("start, rule before all").rule(4).refused_early(11),
        start("start, wide rule before all")
            .rule(256)
            .refused_early(11),
        start("start, budget before all")
            .budget(1_000_001)
            .refused_early(11),
        start("start, store sheet before the rest").refused_early(1),
        next("carry on, rule before all").rule(4).refused_early(11),
        next("carry on, wide rule before all")
            .rule(3 << 24 | 3)
            .refused_early(11),
        next("carry on, budget before all")
            .budget(1_000_001)
            .refused_early(11),
        next("carry on, store sheet before the rest").refused_early(1),
    ]
}

/// 11 and every number of a sheet before 12, and before 19.
fn sheets_before(late: Late) -> Vec<Case> {
    let call = |number: u32| {
        let name = format!("{number} before {}", late.words());
        let draft = case(name, "9 or 10 in byte order; 12; run");
        late.put(draft.block(0, set_integer(0, 9)).budget(0))
    };
    let pair = |owner, value: Bytes| store(&PAIR, &[(owner, value), (1, integer(7))]);
    let write = || (0, set_integer(0, 9));
    let too_many = vec![(0, skip()); 65];
    let deep = while_do(reads(9, 0), skip());
    vec![
        call(11).rule(5).refused_early(11),
        call(1).store(vec![2, 2]).refused_early(1),
        call(2)
            .store(store(&[1], &vec![(0, integer(0)); 257]))
            .refused_early(2),
        call(3)
            .store(store(&[1, 2], &[(0, integer(5)), (1, integer(7))]))
            .refused_early(3),
        call(4).store(pair(2, integer(5))).refused_early(4),
        call(5).store(pair(0, value(4, 0))).refused_early(5),
        call(6).programme(vec![1, 1]).refused_early(6),
        call(7).blocks(&too_many).refused_early(7),
        call(8).blocks(&[write(), (2, skip())]).refused_early(8),
        call(9)
            .blocks(&[write(), (0, vec![0x25])])
            .refused(9, 1, 0, 0),
        call(10)
            .blocks(&[write(), (0, deep)])
            .refused(10, 1, 1 + 8, 0),
        call(late.number())
            .variant("alone")
            .refused_early(late.number()),
    ]
}

/// Each of the four buffers too short, with an old pause sheet of no step and an old
/// output of no value.
fn lengths_before_19() -> Vec<Case> {
    let right = [2 * OUTPUT_SLOT, PAUSE, 2 * OUTPUT_SLOT, PAUSE];
    let names = ["old output", "old pause sheet", "output", "pause buffer"];
    let bad = |lengths: [usize; 4], name: String| {
        let [old_output, old_pause, output, pause] = lengths;
        case(name, AFTER)
            .programme(example_programme([0, 1]))
            .carry_on(vec![0xEE; old_output], vec![0xEE; old_pause])
            .output(output)
            .pause(pause)
    };
    let mut cases = vec![bad(right, "19 of bytes without any form".into()).refused_early(19)];
    for (place, name) in names.into_iter().enumerate() {
        let mut lengths = right;
        lengths[place] -= 1;
        cases.push(bad(lengths, format!("12 of the {name} before 19")).refused_early(12));
    }
    cases
}

/// Before 17, and before what the next step is refused by.
fn nineteen_before_the_run() -> Vec<Case> {
    let next = |what: &str, code: Bytes| {
        let old = output(&[written(4, integer(5)), kept(integer(7))]);
        let draft = case(format!("19 before {what}"), AFTER).block(0, code);
        draft.carry_on(old, pause(3, 0, &[]))
    };
    vec![
        next("17", set_integer(0, 9)).budget(3).refused_early(19),
        next("17 of no budget", set_integer(0, 9))
            .budget(0)
            .refused_early(19),
        next("13", while_do(literal(integer(0)), skip())).refused_early(19),
        next("14", set_integer(1, 9)).refused_early(19),
        next("15", set_integer(1, 9)).rule(1).refused_early(19),
        next("finishing", set_integer(0, 9)).refused_early(19),
    ]
}
