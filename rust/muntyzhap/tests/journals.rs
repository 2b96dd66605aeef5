//! Journals of every length, by what document 02 says of them (N7).

mod parts;

use muntyzhap::code::*;
use muntyzhap::raw;
use muntyzhap::sheet::command_at;
use muntyzhap::{run, Entry, Integer, Limits, Place, Refusal, Rule, Value, MOST_BUDGET};
use parts::lent::*;
use parts::*;

fn store() -> Vec<u8> {
    store_of(&MASKS, &slots())
}

/// The low principal's block: slot 0 := 1; if true then slot 0 := 2 else skip.
/// The high one's: slot 1 := slot 0; while slot 1 < 4 do slot 1 := slot 1 + 1.
fn writing() -> Vec<u8> {
    let second = if_command(truth(true), assign(0, integer(2)), skip());
    let low = sequence(&[assign(0, integer(1)), built(second)]);
    let guard = less_than(read(1), integer(4));
    let more = assign(1, built(sum(read(1), integer(1))));
    let counted = while_command(built(guard), more);
    let high = sequence(&[assign(1, read(0)), built(counted)]);
    programme_of(&[block(LOW, built(low)), block(HIGH, built(high))])
}

/// A step of that programme: its block, the offset of its command, and whether
/// it is an assignment.
type Step = (usize, usize, bool);

/// Its steps, and for each assignment the slot and the integers before and after
/// it. A sequence has two bytes before its first command, a literal has ten, a
/// read eleven.
const STEPS: [Step; 9] = [
    (0, 2, true),
    (0, 23, false),
    (0, 34, true),
    (1, 2, true),
    (1, 24, false),
    (1, 47, true),
    (1, 24, false),
    (1, 47, true),
    (1, 24, false),
];
const WRITES: [(u8, Integer, Integer); 5] = [(0, 5, 1), (0, 1, 2), (1, 7, 2), (1, 2, 3), (1, 3, 4)];

fn entries() -> Vec<Entry> {
    let places = STEPS.iter().filter(|(_, _, writes)| *writes);
    let entry = |((block, offset, _), (slot, old, new)): (&Step, &(u8, Integer, Integer))| Entry {
        place: Place {
            block: *block,
            offset: *offset,
        },
        slot: *slot,
        old: Value::Integer(*old),
        new: Value::Integer(*new),
    };
    places.zip(&WRITES).map(entry).collect()
}

/// The refusal of that programme with this budget and so many entries, if it is
/// refused: "18 when an assignment comes and no entry is free, judged after 17".
fn expected_refusal(budget: usize, room: usize) -> Option<Refusal> {
    let mut writes = 0;
    for (steps, (block, offset, is_write)) in STEPS.into_iter().enumerate() {
        let stop = stop(block, offset, steps as u32);
        if steps == budget {
            return Some(Refusal::BudgetSpent(stop));
        }
        if is_write && writes == room {
            return Some(Refusal::JournalFull(stop));
        }
        writes += usize::from(is_write);
    }
    None
}

/// Every budget and every length around what the run takes.
fn limits() -> impl Iterator<Item = (usize, usize)> {
    let budgets = 0..STEPS.len() + 3;
    budgets.flat_map(|budget| (0..WRITES.len() + 4).map(move |room| (budget, room)))
}

#[test]
fn a_journal_of_every_length_is_filled_or_refused() {
    let all = Some(entries());
    for (budget, room) in limits() {
        let given = Limits::budget(budget as u32).journal(room);
        let ran = run(&store(), &writing(), Rule::AccessControl, given);
        let expected = expected_refusal(budget, room);
        assert_eq!(ran.as_ref().err(), expected.as_ref(), "{given:?}");
        let journal = ran.ok().map(|finished| finished.journal);
        assert!(journal.is_none() || journal == all, "{given:?}");
    }
}

/// "A refusal leaves the journal untouched too", and "in any lent buffer, what no
/// rule writes keeps what it held".
#[test]
fn a_lent_journal_holds_the_entries_and_then_what_it_held() {
    for (budget, room) in limits() {
        let lent = Lent::to_run(&store(), &writing(), 0, budget as u32, room);
        assert_eq!((lent.out.len(), lent.journal.len()), (2 * 13, room));
        let refusal = expected_refusal(budget, room);
        let number = refusal.map_or(0, |refusal| refusal.number());
        assert_eq!(lent.answer.number, number, "{budget}, {room}");
        if refusal.is_some() {
            assert!(lent.is_untouched(), "{budget}, {room}: {lent:?}");
            continue;
        }
        let (filled, rest) = lent.journal.split_at(WRITES.len());
        let filled: Option<Vec<Entry>> = filled.iter().map(Entry::from_raw).collect();
        assert_eq!(filled, Some(entries()), "{budget}, {room}");
        assert!(rest.iter().all(|entry| *entry == MARK), "{rest:?}");
        assert_eq!(lent.out[9..13], [2, 0, 0, 0], "slot 0's count");
        assert_eq!(lent.out[22..], [3, 0, 0, 0], "slot 1's count");
    }
}

/// A budget alone lends as many entries as it has steps, and longer journals
/// change nothing.
#[test]
fn a_journal_as_long_as_the_budget_is_never_too_short() {
    let steps = STEPS.len() as u32;
    let ran = |limits: Limits| run(&store(), &writing(), Rule::AccessControl, limits);
    let finished = ran(steps.into()).expect("budget enough");
    assert_eq!((finished.blocks, finished.steps), (2, steps));
    for room in [WRITES.len(), 1000, usize::MAX] {
        let given = Limits::budget(steps).journal(room);
        assert_eq!(ran(given).as_ref(), Ok(&finished), "{room}");
    }
    assert_eq!(ran(MOST_BUDGET.into()), Ok(finished));
    let past = Limits::budget(MOST_BUDGET + 1).journal(0);
    assert_eq!(ran(past), Err(Refusal::Arguments));
    // Each step is a write.
    let only = built(sequence(&vec![assign(0, integer(1)); 255]));
    let all = run(&store(), &programme_by(LOW, only), Rule::Default, 255);
    assert_eq!(all.map(|finished| finished.journal.len()), Ok(255));
}

/// "18 [..] judged after 17 and before the target is evaluated"
#[test]
fn a_full_journal_is_judged_before_the_target_and_after_the_budget() {
    let unreadable = built(read_through(integer(0)));
    let bad = [
        (13, Rule::AccessControl, assignment(integer(0), integer(1))),
        (13, Rule::Capability, assignment(unreadable, integer(1))),
        (
            13,
            Rule::AccessControl,
            assign(0, built(read_through(integer(0)))),
        ),
        (14, Rule::AccessControl, assign(1, integer(1))),
        (15, Rule::Capability, assign(1, integer(1))),
    ];
    for (number, rule, command) in bad {
        let programme = programme_by(LOW, command);
        let refused = |budget, room| {
            let limits = Limits::budget(budget).journal(room);
            let refused = run(&store(), &programme, rule, limits);
            refused.expect_err("a bad assignment").number()
        };
        assert_eq!(refused(0, 0), 17);
        assert_eq!(refused(0, 1), 17);
        assert_eq!(refused(1, 0), 18);
        assert_eq!(refused(1, 1), number);
    }
    let low = programme_by(HIGH, assign(1, read(0)));
    let refused = |room| {
        run(
            &store(),
            &low,
            Rule::Default,
            Limits::budget(1).journal(room),
        )
    };
    assert_eq!(refused(0), Err(Refusal::JournalFull(stop(0, 0, 0))));
    assert_eq!(refused(1), Err(Refusal::ProvenanceTooLow(stop(0, 0, 0))));
}

#[test]
fn a_guard_needs_no_entry() {
    let none = |guard| {
        let code = built(if_command(guard, skip(), skip()));
        let limits = Limits::budget(5).journal(0);
        run(&store(), &programme_by(LOW, code), Rule::Default, limits)
    };
    let finished = none(truth(true)).expect("nothing is written");
    assert_eq!((finished.steps, finished.journal.len()), (1, 0));
    assert!(finished.slots.iter().all(|slot| slot.writes() == 0));
    assert_eq!(none(integer(1)), Err(Refusal::WrongKind(stop(0, 0, 0))));
}

/// The first refusals come before any step, whatever the journal.
#[test]
fn sheets_and_arguments_are_judged_before_the_journal() {
    let good = (store(), writing());
    let cases = [
        (vec![0, 0, 0], good.1.clone(), 0, 2),
        (good.0.clone(), vec![0, 0], 0, 6),
        (good.0.clone(), good.1.clone(), 4, 11),
        (good.0.clone(), good.1.clone(), 0, 18),
    ];
    for (store, programme, rule, number) in cases {
        let lent = Lent::to_run(&store, &programme, rule, 9, 0);
        assert_eq!(lent.answer.number, number);
        assert!(lent.is_untouched());
    }
    let no_output = Lent::new(0, 0).run(&good.0, &good.1, 0, 9);
    assert_eq!(no_output.answer.number, 12);
}

/// Each kind of value, and every integer, as old value and as new one.
#[test]
fn an_entry_has_values_of_every_kind() {
    let kinds = [false, true].map(Value::Truth);
    let views = [0, 1].map(Value::ReadView).into_iter();
    let views = views.chain([0, 1].map(Value::WriteView));
    let integers = TELLING.map(Value::Integer).into_iter();
    let values: Vec<Value> = integers.chain(kinds).chain(views).collect();
    let commands: Vec<Command> = values
        .iter()
        .map(|value| assign(1, literal(*value)))
        .collect();
    let programme = programme_by(HIGH, built(sequence(&commands)));
    let finished = run(&store(), &programme, Rule::Default, 100).expect("high enough");
    assert_eq!(finished.journal.len(), values.len());
    let mut held = Value::Integer(7);
    for (entry, value) in finished.journal.iter().zip(values) {
        assert_eq!((entry.slot, entry.old, entry.new), (1, held, value));
        let command = command_at(&programme, entry.place);
        assert_eq!(command, Some(CommandKind::Assignment));
        held = value;
    }
    assert_eq!(finished.slots[1].value(), held);
}

/// "That total equals the entries filled, and for each slot the count equals the
/// entries that name it. Walking the entries backwards restores the opening
/// values."
#[test]
fn the_entries_lead_back_to_the_opening_store() {
    let opening = slots().map(|slot| slot.value());
    let programmes = [writing(), programme_of(&[])];
    for programme in programmes {
        let finished = run(&store(), &programme, Rule::AccessControl, 100).expect("allowed");
        let mut held: Vec<Value> = finished.slots.iter().map(|slot| slot.value()).collect();
        let mut writes = vec![0; held.len()];
        for entry in finished.journal.iter().rev() {
            let slot = usize::from(entry.slot);
            assert_eq!(held[slot], entry.new);
            held[slot] = entry.old;
            writes[slot] += 1;
        }
        assert_eq!(held, opening);
        let counts: Vec<u32> = finished.slots.iter().map(|slot| slot.writes()).collect();
        assert_eq!(writes, counts);
    }
}

/// A loop writes two slots in each round, more often than a byte can count.
#[test]
fn counts_have_all_their_bytes() {
    const ROUNDS: u32 = 70_000;
    let (i, n, last) = (0, 1, 2);
    let slots = [0, ROUNDS.into(), 0].map(|integer| slot(LOW, Value::Integer(integer)));
    let body = built(sequence(&[
        assign(last, read(i)),
        assign(i, built(sum(read(i), integer(1)))),
    ]));
    let guard = built(less_than(read(i), read(n)));
    let programme = programme_by(LOW, built(while_command(guard, body)));
    let store = store_of(&MASKS, &slots);
    let finished = run(&store, &programme, Rule::Default, MOST_BUDGET).expect("rounds enough");
    let counts: Vec<u32> = finished.slots.iter().map(|slot| slot.writes()).collect();
    assert_eq!(counts, [ROUNDS, 0, ROUNDS]);
    assert_eq!(finished.journal.len(), 2 * ROUNDS as usize);
    let last = finished.journal.last().map(|entry| entry.new);
    assert_eq!(last, Some(Value::Integer(ROUNDS.into())));
}

#[test]
fn an_entry_that_no_run_leaves_is_none() {
    let good = raw::Entry {
        slot: 255,
        ..raw::Entry::default()
    };
    let read_as = |entry: raw::Entry| Entry::from_raw(&entry).map(|entry| entry.slot);
    assert_eq!(read_as(good), Some(255));
    assert_eq!(read_as(raw::Entry { slot: 256, ..good }), None);
    let (kind, payload) = (Value::TRUTH, 2);
    let bad = raw::Value { kind, payload };
    let (old_value, new_value) = (bad, bad);
    assert_eq!(read_as(raw::Entry { old_value, ..good }), None);
    assert_eq!(read_as(raw::Entry { new_value, ..good }), None);
    assert_eq!(read_as(MARK), None);
}
