//! The second runner answers each case as the list says, the stored files are
//! the list's, and the list has what it should.

use std::collections::BTreeSet;
use std::fs;

use second_runner::{carry_on, check_store, run, start, Entry, Value};
use sheets::{
    end_slots, integer, kept, read_view, store, written, AMPLE_ENTRIES, OUTPUT_SLOT, RULES,
};

use crate::case::{self, case, Answer, Case, Checkpoint, Stretch};
use crate::paper::{self, Verdict};
use crate::{file, layout, list, LINES, LIST};

/// What an output and a journal hold before the call. No value has that kind, so
/// no entry that a run fills is as it was lent.
const LENT: u8 = 0xEE;
const LENT_VALUE: Value = Value {
    kind: LENT,
    payload: u64::MAX / 3,
};
const LENT_ENTRY: Entry = Entry {
    block: usize::MAX,
    offset: usize::MAX,
    slot: usize::MAX,
    old: LENT_VALUE,
    new: LENT_VALUE,
};

/// What the second runner makes of a case: the answer, and what was lent. The pause
/// buffer of a run has no bytes.
struct Played {
    answer: Answer,
    output: Vec<u8>,
    journal: Vec<Entry>,
    pause: Vec<u8>,
}

/// How long a case's pause buffer is.
fn pause_length(case: &Case) -> usize {
    case.stretch.as_ref().map_or(0, |stretch| stretch.pause)
}

fn play(case: &Case) -> Played {
    let (store, programme) = (&case.call.store, &case.call.programme);
    let (rule, budget) = (case.call.rule, case.call.budget);
    let output = &mut vec![LENT; case.output];
    let journal = &mut vec![LENT_ENTRY; case.call.journal];
    let pause = &mut vec![LENT; pause_length(case)];
    let given = match &case.stretch {
        None => run(store, programme, rule, budget, output, journal),
        Some(Stretch { old: None, .. }) => start(store, programme, rule, budget, output, pause),
        Some(Stretch { old: Some(old), .. }) => {
            let Checkpoint {
                output: old_output,
                pause: old_pause,
            } = old;
            carry_on(
                store, programme, rule, budget, old_output, old_pause, output, pause,
            )
        }
    };
    let answer = Answer {
        number: given.number,
        block: given.block,
        offset: given.offset,
        steps: given.steps,
    };
    Played {
        answer,
        output: output.clone(),
        journal: journal.clone(),
        pause: pause.clone(),
    }
}

/// The cases that are played in one stretch, with a journal.
fn runs() -> Vec<Case> {
    let mut cases = list::cases();
    cases.retain(|case| case.stretch.is_none());
    cases
}

fn numbers() -> BTreeSet<u32> {
    let cases = list::cases();
    cases
        .iter()
        .map(|case| case.expected.answer.number)
        .collect()
}

fn case_named<'a>(cases: &'a [Case], name: &str) -> &'a Case {
    let found = cases.iter().find(|case| case.name == name);
    found.unwrap_or_else(|| panic!("no case {name}"))
}

#[test]
fn the_second_runner_answers_each_case_as_the_list_says() {
    for case in list::cases() {
        let played = play(&case);
        let about = format!("{}: {}", case.name, case.says);
        assert_eq!(played.answer, case.expected.answer, "{about}");
        let lent = [case.output, pause_length(&case)].map(|length| vec![LENT; length]);
        let [output, pause] = lent;
        assert_eq!(
            played.output,
            case.expected.end.unwrap_or(output),
            "{about}"
        );
        assert_eq!(
            played.pause,
            case.expected.pause.unwrap_or(pause),
            "{about}"
        );
    }
}

/// "That total equals the entries filled, and for each slot the count equals the
/// entries that name it. [..] A refusal leaves the journal untouched too."
#[test]
fn each_case_s_counts_are_those_of_its_entries() {
    for case in runs() {
        let Played { journal, .. } = play(&case);
        let end = end_slots(&case.expected.end.unwrap_or_default());
        let total: u32 = end.iter().map(|slot| slot.writes).sum();
        let (filled, beyond) = journal.split_at(total as usize);
        let untouched = beyond.iter().all(|entry| *entry == LENT_ENTRY);
        assert!(untouched, "{}", case.name);
        for (number, slot) in end.iter().enumerate() {
            let naming = filled.iter().filter(|entry| entry.slot == number);
            assert_eq!(naming.count(), slot.writes as usize, "{}", case.name);
        }
    }
}

/// An entry of the list as the second runner fills it.
fn filled(entry: &case::Entry) -> Entry {
    let value = |bytes: &[u8]| Value {
        kind: bytes[0],
        payload: u64::from_le_bytes(bytes[1..].try_into().expect("eight bytes")),
    };
    Entry {
        block: entry.block,
        offset: entry.offset,
        slot: entry.slot,
        old: value(&entry.old),
        new: value(&entry.new),
    }
}

#[test]
fn the_second_runner_fills_the_entries_that_the_list_says() {
    let mut worked = 0;
    for case in list::cases() {
        let Some(entries) = &case.entries else {
            continue;
        };
        let expected: Vec<Entry> = entries.iter().map(filled).collect();
        let Played { journal, .. } = play(&case);
        assert_eq!(journal[..expected.len()], expected, "{}", case.name);
        worked += expected.len();
    }
    assert!(worked > 10, "{worked} entries");
}

/// A store sheet that a run refuses is refused by the check alone too, and by
/// the same number; one that it does not, is not. 11 is judged before it.
#[test]
fn a_store_sheet_is_checked_as_a_run_judges_it() {
    for case in list::cases() {
        let number = match case.expected.answer.number {
            11 => continue,
            number @ 1..=5 => number,
            _ => 0,
        };
        assert_eq!(check_store(&case.call.store), number, "{}", case.name);
    }
}

/// `cargo run` writes them anew.
#[test]
fn the_stored_files_are_those_of_the_list() {
    let cases = list::cases();
    let bytes = fs::read(file(LIST)).expect("the list of cases");
    assert!(bytes == layout::list_bytes(&cases), "{LIST} differs");
    let lines = fs::read_to_string(file(LINES)).expect("the lines");
    assert_eq!(lines, layout::lines(&cases), "{LINES} differs");
}

#[test]
fn every_number_comes_up() {
    let all: BTreeSet<u32> = (0..=19).collect();
    assert_eq!(numbers(), all);
}

/// The byte at which a programme sheet's code is refused.
fn refused_byte(case: &Case) -> u8 {
    let Answer { block, offset, .. } = case.expected.answer;
    let (sheet, block) = (&case.call.programme, block as usize);
    let blocks = usize::from(sheet[0]);
    let lengths = sheet[3 + blocks..].chunks(2).take(block);
    let before = lengths.map(|length| usize::from(u16::from_le_bytes([length[0], length[1]])));
    sheet[3 + 4 * blocks + before.sum::<usize>() + offset as usize]
}

/// "Expressions may now nest 8 deep, reads and operations together; the ninth is
/// refused by 10 as before": by each byte that can be the ninth.
#[test]
fn every_byte_is_a_ninth_somewhere() {
    let cases = list::cases();
    let too_deep = cases
        .iter()
        .filter(|case| case.expected.answer.number == 10);
    let bytes: BTreeSet<u8> = too_deep.map(refused_byte).collect();
    assert!((0x11..=0x15).all(|byte| bytes.contains(&byte)), "{bytes:?}");
}

/// What the program has room for: an output and a pause buffer of a slot more than
/// any end store has, as many entries as the printing program lends, and 32,768 bytes
/// of name and sheets, the old output among them.
#[test]
fn every_case_fits() {
    const MOST_OUTPUT: usize = (256 + 1) * OUTPUT_SLOT;
    const MOST_BODY: usize = 32_768;
    for case in list::cases() {
        let Case {
            name, call, output, ..
        } = &case;
        let pause = pause_length(&case);
        assert!(*output.max(&pause) <= MOST_OUTPUT, "{name}");
        assert!(call.journal <= AMPLE_ENTRIES, "{name}: {}", call.journal);
        let old = case
            .stretch
            .as_ref()
            .and_then(|stretch| stretch.old.as_ref());
        let old = old.map_or(0, |old| old.output.len() + old.pause.len());
        let body = name.len() + call.store.len() + call.programme.len() + old;
        assert!(body <= MOST_BODY, "{name}: {body}");
    }
}

/// 18 comes up under each rule, and journals of every length from none to one more
/// than a run fills.
#[test]
fn journals_of_each_length_are_lent() {
    let cases = runs();
    let full = cases
        .iter()
        .filter(|case| case.expected.answer.number == 18);
    let rules: BTreeSet<u32> = full.map(|case| case.call.rule).collect();
    assert_eq!(rules, BTreeSet::from(RULES));
    // For a finished run how many entries are left.
    let left = cases.iter().filter_map(|case| {
        let end = end_slots(case.expected.end.as_ref()?);
        let total: u32 = end.iter().map(|slot| slot.writes).sum();
        Some((total, case.call.journal - total as usize))
    });
    let left: BTreeSet<(u32, usize)> = left.collect();
    for (writes, entries) in [(0, 0), (0, 1), (3, 0), (3, 1), (64, 0), (64, 1), (512, 0)] {
        assert!(left.contains(&(writes, entries)), "{writes} {entries}");
    }
}

#[test]
fn names_are_single_lines_and_stand_once() {
    let mut names = BTreeSet::new();
    for case in list::cases() {
        let printable = |byte: u8| (0x20..0x7F).contains(&byte);
        assert!(case.name.bytes().all(printable), "{}", case.name);
        assert!(names.insert(case.name.clone()), "{} twice", case.name);
    }
}

/// The paper's table, against the answers that the list has for its examples.
#[test]
fn the_paper_s_table_comes_out() {
    let cases = list::cases();
    for (row, example) in paper::TABLE.iter().zip(1..) {
        for (rule, verdict) in row.iter().enumerate() {
            let name = paper::name(example, rule);
            let finishes = case_named(&cases, &name).expected.answer.number == 0;
            match verdict {
                Verdict::Accepted => assert!(finishes, "{name}"),
                Verdict::Rejected => assert!(!finishes, "{name}"),
                Verdict::NotProtected => (),
            }
        }
    }
}

/// Of 3 + 4 × 32 + 256 + 9 × 256 and of 3 + 64 + 2 × 64 + 64 + 16,384 bytes, with
/// an output of 13 × 256.
#[test]
fn the_largest_good_sheets_are_played() {
    let cases = list::cases();
    let Case { call, output, .. } = case_named(&cases, "all at its limit");
    let lengths = [call.store.len(), call.programme.len(), *output];
    assert_eq!(lengths, [2691, 16_643, 3328]);
}

mod layouts;
mod stretches;
