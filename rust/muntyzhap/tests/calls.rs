//! The wrapped calls, by what documents 01 and 02 say of them.

mod parts;

use muntyzhap::code::{
    assign, assignment, if_command, literal, read, sequence, skip, while_command, Code, CommandKind,
};
use muntyzhap::sheet::{command_at, output_bytes, MOST_BLOCKS};
use muntyzhap::{
    check_programme, check_store, check_table, run, Finished, Place, Refusal, Rule, Value,
    MOST_BUDGET,
};
use parts::lent::*;
use parts::*;

fn store() -> Vec<u8> {
    store_of(&MASKS, &slots())
}

/// The answer of a run; if it is refused, what it was lent must be as it was.
fn answer(store: &[u8], programme: &[u8], rule: Rule, budget: u32) -> Result<Finished, Refusal> {
    let answer = run(store, programme, rule, budget);
    let lent = Lent::to_run(store, programme, rule.number(), budget, ROOM);
    let number = answer.as_ref().map_or_else(Refusal::number, |_| 0);
    assert_eq!(lent.answer.number, number);
    assert!(answer.is_ok() || lent.is_untouched(), "{lent:?}");
    answer
}

/// The answer over document 01's store with budget enough.
fn ran(programme: &[u8], rule: Rule) -> Result<Finished, Refusal> {
    answer(&store(), programme, rule, MOST_BUDGET)
}

#[test]
fn the_written_sheets_are_those_of_the_repository_s_example() {
    let example = include_bytes!("../../../examples/two-blocks.bin");
    let rule = u8::try_from(Rule::AccessControl.number()).expect("a rule byte");
    let head = [[rule].as_slice(), &10_u32.to_le_bytes()].concat();
    assert_eq!([head, store(), two_blocks()].concat(), example);
}

/// A truth value or a view in its bytes, with one byte of its payload set. The
/// lowest is left: another one there may be good.
fn with_a_byte_set(value: Value) -> impl Iterator<Item = [u8; Value::BYTES]> {
    let places = 2..Value::BYTES;
    places.flat_map(move |place| {
        [1, 0x80].map(|byte| {
            let mut bytes = value.to_bytes();
            bytes[place] = byte;
            bytes
        })
    })
}

#[test]
fn every_byte_of_a_payload_is_judged() {
    for value in [
        Value::Truth(false),
        Value::Truth(true),
        Value::ReadView(1),
        Value::WriteView(0),
    ] {
        for bytes in with_a_byte_set(value) {
            let mut sheet = store();
            let start = sheet.len() - bytes.len();
            sheet[start..].copy_from_slice(&bytes);
            assert_eq!(check_store(&sheet), Err(Refusal::Value), "{bytes:?}");

            let mut code = assign(0, literal(value)).bytes().to_vec();
            let offset = code.len() - bytes.len();
            code[offset..].copy_from_slice(&bytes);
            let refused = Refusal::IllFormedCode(Place { block: 0, offset });
            let altered = block(LOW, Code::unjudged(code));
            let judged = check_programme(&programme_of(&[altered]), 2, 2);
            assert_eq!(judged, Err(refused), "{bytes:?}");
        }
    }
}

#[test]
fn store_sheets_are_judged() {
    let too_long = [store(), vec![0]].concat();
    // The first owner and the last value's kind.
    let with = |place, byte| {
        let mut sheet = store();
        sheet[place] = byte;
        sheet
    };
    let (owner, kind) = (3 + 4 * 2, store().len() - Value::BYTES);
    let cases = [
        (store(), Ok(())),
        (too_long, Err(Refusal::StoreLength)),
        (vec![2, 2], Err(Refusal::StoreLength)),
        (vec![0, 0, 0], Err(Refusal::StoreLimits)),
        (store_of(&[1, 2], &[]), Err(Refusal::OrderTable)),
        (with(owner, 2), Err(Refusal::Owner)),
        (with(kind, 4), Err(Refusal::Value)),
    ];
    for (sheet, expected) in cases {
        assert_eq!(check_store(&sheet), expected, "{sheet:?}");
        let run = answer(&sheet, &programme_of(&[]), Rule::FullProvenance, 0);
        assert_eq!(run.map(|_| ()), expected, "{sheet:?}");
    }
}

#[test]
fn table_sheets_are_judged() {
    let table = [vec![2, 1, 0], store()[3..11].to_vec(), vec![HIGH]].concat();
    assert_eq!(check_table(&table), Ok(()));
    assert_eq!(check_table(&table[..11]), Err(Refusal::StoreLength));
    let unknown_owner = [&table[..11], &[2]].concat();
    assert_eq!(check_table(&unknown_owner), Err(Refusal::Owner));
}

#[test]
fn programme_sheets_are_judged() {
    let place = |block, offset| Place { block, offset };
    let bytes = |second: &[u8]| {
        let second = block(LOW, Code::unjudged(second));
        programme_of(&[block(LOW, skip()), second])
    };
    let (blocks, code) = (MOST_BLOCKS as u8 + 1, [0x20]);
    let cases = [
        (bytes(skip().bytes()), Ok(())),
        (vec![0, 0], Err(Refusal::ProgrammeLength)),
        (
            vec![1, 2, 0, 0, 1, 0, 0, 0x20, 0x20],
            Err(Refusal::ProgrammeLength),
        ),
        (vec![blocks, 0, 0], Err(Refusal::ProgrammeLimits)),
        (programme_of(&[block(2, skip())]), Err(Refusal::Region)),
        (bytes(&[0x25]), Err(Refusal::IllFormedCode(place(1, 0)))),
        (bytes(&[]), Err(Refusal::IllFormedCode(place(1, 0)))),
        (
            bytes(&code.repeat(2)),
            Err(Refusal::IllFormedCode(place(1, 1))),
        ),
        (
            bytes(&[&[0x24], [0x11].repeat(9).as_slice()].concat()),
            Err(Refusal::NestedTooDeep(place(1, 9))),
        ),
    ];
    for (sheet, expected) in cases {
        assert_eq!(check_programme(&sheet, 2, 2), expected, "{sheet:?}");
        let run = answer(&store(), &sheet, Rule::FullProvenance, 0);
        assert_eq!(run.map(|_| ()), expected, "{sheet:?}");
    }
}

#[test]
fn arguments_are_judged() {
    let (store, programme) = (store(), two_blocks());
    let past = answer(&store, &programme, Rule::AccessControl, MOST_BUDGET + 1);
    assert_eq!(past, Err(Refusal::Arguments));
    assert!(answer(&store, &programme, Rule::AccessControl, MOST_BUDGET).is_ok());
    assert_eq!(output_bytes(&store), OUTPUT);
    for length in (0..2 * OUTPUT).filter(|length| *length != OUTPUT) {
        let rule = Rule::Default.number();
        let lent = Lent::new(length, ROOM).run(&store, &programme, rule, 10);
        assert_eq!(lent.answer.number, Refusal::OutputLength.number());
        assert!(lent.is_untouched(), "{lent:?}");
    }
}

#[test]
fn every_rule_is_known_and_no_other_number() {
    // The lowest byte of each of these is the number of a rule; the last is what
    // an int of -1 becomes.
    let wide = [1 << 16, 3 << 24 | 3, -1_i32 as u32];
    for number in (0..=0x1FF).chain(wide) {
        let lent = Lent::to_run(&store(), &programme_of(&[]), number, 0, ROOM);
        let known = Rule::from_number(number).is_some();
        let expected = if known { 0 } else { 11 };
        assert_eq!(lent.answer.number, expected, "rule {number}");
        assert_eq!(lent.is_untouched(), !known, "rule {number}");
    }
}

#[test]
fn a_step_that_is_forbidden_is_refused_at_its_place() {
    let no_guard = built(if_command(integer(1), skip(), skip()));
    let expected = Err(Refusal::WrongKind(stop(0, 0, 0)));
    assert_eq!(
        ran(&programme_by(HIGH, no_guard), Rule::AccessControl),
        expected
    );

    let (own, other) = (assign(0, integer(1)), assign(1, integer(9)));
    // After 22 and a count.
    let second = 2 + own.bytes().len();
    let low = programme_by(LOW, built(sequence(&[own, other])));
    let expected = Err(Refusal::NoAuthority(stop(0, second, 1)));
    assert_eq!(ran(&low, Rule::AccessControl), expected);
    let expected = Err(Refusal::WriteViewNotAllowed(stop(0, second, 1)));
    assert_eq!(ran(&low, Rule::Capability), expected);

    let expected = Err(Refusal::ProvenanceTooLow(stop(1, 0, 1)));
    assert_eq!(ran(&two_blocks(), Rule::ExplicitProvenance), expected);
    assert_eq!(ran(&two_blocks(), Rule::FullProvenance), expected);
    assert_eq!(ran(&two_blocks(), Rule::Default), expected);

    let endless = built(while_command(truth(true), skip()));
    let spent = answer(
        &store(),
        &programme_by(LOW, endless),
        Rule::AccessControl,
        3,
    );
    assert_eq!(spent, Err(Refusal::BudgetSpent(stop(0, 0, 3))));
}

#[test]
fn the_command_at_a_place_is_named() {
    let through = assignment(read(0), integer(1));
    // After 22, a count and a skip; and after 23 and a literal of ten bytes.
    let (if_place, then_place) = (3, 3 + 1 + 10);
    let choice = built(if_command(truth(true), through, skip()));
    let whole = built(sequence(&[skip(), choice]));
    let sheet = programme_of(&[block(LOW, skip()), endorsed(HIGH, LOW, whole)]);
    let at = |block, offset| command_at(&sheet, Place { block, offset });
    assert_eq!(at(0, 0), Some(CommandKind::Skip));
    assert_eq!(at(0, 1), None, "the next block's byte");
    assert_eq!(at(1, 0), Some(CommandKind::Sequence));
    assert_eq!(at(1, 1), None, "a count");
    assert_eq!(at(1, if_place), Some(CommandKind::If));
    assert_eq!(at(1, then_place), Some(CommandKind::Assignment));
    assert_eq!(at(2, 0), None, "past the last block");
    let first = Place {
        block: 0,
        offset: 0,
    };
    assert_eq!(command_at(&[2, 0], first), None);
}
