//! Inputs from a fixed stream of random numbers: programmes built by the
//! grammar, the same with bytes altered, and bytes without any form. Whatever
//! comes, the runner answers within its contract.

mod play;
mod random;

use play::*;
use random::*;
use second_runner::{check_store, check_table, print, Answer};
use sheets::*;

/// Streams apart from those of the good calls, which start at 0.
const ALTERED: u64 = 1 << 32;
const FORMLESS: u64 = 2 << 32;
const FORMLESS_CODE: u64 = 3 << 32;

/// The same with a few bytes altered, left out or put in.
fn altered_call(seed: u64) -> Call {
    let mut random = Random::stream(seed + ALTERED);
    let mut call = good_call(seed);
    for _ in 0..1 + random.below(2) {
        let in_store = random.one_in(3);
        let sheet = if in_store {
            &mut call.store
        } else {
            &mut call.programme
        };
        let at = random.below(sheet.len());
        match random.below(6) {
            0 => drop(sheet.remove(at)),
            1 => sheet.insert(at, random.next() as u8),
            2 => sheet[at] = sheet[at].wrapping_add(1),
            3 => {
                let known = [0x10, 0x11, 0x20, 0x21, 0x22, 0x24, random.operation()];
                sheet[at] = known[random.below(known.len())];
            }
            _ => sheet[at] = random.next() as u8,
        }
    }
    call
}

/// What document 01 says of any answer, whatever the sheets hold.
fn check_contract(call: &Call) -> Answer {
    let played = call.play();
    let answer = played.answer;
    let place = (answer.block, answer.offset, answer.steps);
    match answer.number {
        0 => {
            assert_eq!(answer.block, u32::from(call.programme[0]));
            assert_eq!(answer.offset, 0);
            assert!(answer.steps <= call.budget);
            assert_eq!(check_store(&end_sheet(call, &played.output)), 0);
        }
        1..=8 | 11 | 12 => assert_eq!(place, (0, 0, 0)),
        9 | 10 => assert_eq!(answer.steps, 0),
        13..=16 => assert!(answer.steps < call.budget),
        17 => assert_eq!(answer.steps, call.budget),
        18 => {
            assert!(answer.steps < call.budget);
            assert!(call.journal <= answer.steps as usize);
        }
        other => panic!("an unknown number {other}"),
    }
    if answer.number != 0 {
        played.assert_untouched();
    }
    if matches!(answer.number, 9 | 10 | 13..=18) {
        let length = block_length(call, answer.block);
        let may_be_past = answer.number == 9;
        assert!(answer.offset < length || may_be_past && answer.offset == length);
    }
    check_printed(call, &played);
    answer
}

/// The store sheet with the output's values in place of its own.
fn end_sheet(call: &Call, output: &[u8]) -> Bytes {
    let values: Vec<Bytes> = end_slots(output)
        .into_iter()
        .map(|slot| slot.value)
        .collect();
    let values = values.concat();
    let start = call.store.len() - values.len();
    join(&[&call.store[..start], &values])
}

fn block_length(call: &Call, block: u32) -> u32 {
    let blocks = usize::from(call.programme[0]);
    let block = block as usize;
    assert!(block < blocks);
    let at = 3 + blocks + 2 * block;
    u32::from(u16::from_le_bytes([
        call.programme[at],
        call.programme[at + 1],
    ]))
}

/// The printing program says what the run does, wherever it splits its input
/// into the same two sheets, and its journal is not longer where this one was
/// full.
fn check_printed(call: &Call, played: &Played) {
    let rule = u8::try_from(call.rule).expect("a rule byte");
    let arguments = join(&[&[rule], &call.budget.to_le_bytes()]);
    let text = print(&join(&[&arguments, &call.store, &call.programme]));
    let text = String::from_utf8(text).expect("plain letters");
    assert!(text.starts_with("end ") && text.ends_with('\n'));
    let Answer {
        number,
        block,
        offset,
        steps,
    } = played.answer;
    let full = number == 18 && call.journal < AMPLE_ENTRIES;
    if matches!(number, 1..=5) || full {
        return;
    }
    let mut lines = text.lines();
    let first = format!("end {number} block {block} at {offset} steps {steps}");
    assert_eq!(lines.next(), Some(&first[..]));
    if number == 0 {
        let slots = end_slots(&played.output);
        assert_eq!(lines.clone().count(), slots.len() + 1);
        let total = slots.iter().map(|slot| slot.writes).sum::<u32>();
        assert_eq!(lines.next_back(), Some(&total.to_string()[..]));
    } else {
        assert_eq!(lines.next(), None);
    }
}

/// How often each number was the answer.
fn tally(calls: impl Iterator<Item = Call>) -> [u32; NUMBERS] {
    let mut counts = [0; NUMBERS];
    for call in calls {
        counts[check_contract(&call).number as usize] += 1;
    }
    counts
}

#[test]
fn good_sheets_end_finished_or_in_a_step() {
    let counts = tally((0..30_000).map(good_call));
    for (number, count) in counts.iter().enumerate() {
        let expected = number == 0 || number >= 13;
        assert_eq!(*count > 0, expected, "number {number}: {count}");
    }
}

#[test]
fn altered_sheets_meet_nearly_every_refusal() {
    let counts = tally((0..60_000).map(altered_call));
    for (number, count) in counts.iter().enumerate() {
        // Nothing here nests so deep, calls wrongly or lends another length.
        let expected = !matches!(number, 10..=12);
        assert_eq!(*count > 0, expected, "number {number}: {count}");
    }
}

#[test]
fn formless_bytes_are_answered() {
    let mut random = Random::stream(FORMLESS);
    for _ in 0..50_000 {
        let (one, two) = (random.bytes(40), random.bytes(40));
        let length = random.below(30);
        let rule = (random.next() as u32) >> (8 * random.below(4));
        let formless = call(&one, &two, rule).budget(random.next() as u32);
        let played = formless.journal(random.below(3)).lend(length);
        assert!((played.answer.number as usize) < NUMBERS);
        if played.answer.number != 0 {
            played.assert_untouched();
        }
        assert!(check_store(&one) <= 5);
        assert!(check_table(&two) <= 4);
        assert!(print(&one).starts_with(b"end "));
    }
}

/// Pieces of code, each repeated some times, without any form.
fn formless_code(random: &mut Random) -> Bytes {
    let pieces = [
        vec![0x10],
        literal(truth(false)),
        vec![0x11],
        vec![random.operation()],
        join(&[&[random.operation()], &literal(integer(7))]),
        vec![0x20],
        vec![0x21],
        vec![0x22, 0x02],
        join(&[&[0x23], &literal(truth(true))]),
        join(&[&[0x24], &literal(truth(false))]),
        vec![0x00],
    ];
    let mut code = Bytes::new();
    for _ in 0..1 + random.below(4) {
        let piece = &pieces[random.below(pieces.len())];
        code.extend(piece.repeat(1 + random.below(40)));
    }
    code
}

#[test]
fn formless_code_is_refused_inside_its_block() {
    let mut random = Random::stream(FORMLESS_CODE);
    let calls = (0..20_000).map(|_| {
        let code = formless_code(&mut random);
        call_block(&example_store(), 1, code, 3)
    });
    let counts = tally(calls);
    assert!(counts[9] > 0 && counts[10] > 0);
    assert_eq!(
        counts[1..9].iter().sum::<u32>() + counts[11] + counts[12],
        0
    );
}
