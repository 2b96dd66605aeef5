//! The printing program: how it splits its input, and the lines that it
//! prints.

use second_runner::{print, Input};
use sheets::*;

const NO_PLACE: &str = "block 0 at 0 steps 0\n";

fn input(rule: u8, budget: u32, store: &[u8], programme: &[u8]) -> Bytes {
    join(&[&[rule], &budget.to_le_bytes(), store, programme])
}

#[track_caller]
fn prints(input: &[u8], lines: &str) {
    let printed = String::from_utf8(print(input)).expect("plain letters");
    assert_eq!(printed, lines);
}

/// Refused ahead of the code: three zeros after the number.
#[track_caller]
fn prints_refusal(input: &[u8], number: u32) {
    prints(input, &format!("end {number} {NO_PLACE}"));
}

/// The example's input and what it prints, byte for byte.
#[test]
fn the_stored_files_are_the_example() {
    let example = input(0, 10, &example_store(), &example_programme([0, 1]));
    let lines = "end 0 block 2 at 0 steps 2\n0 0 0 42 1 2\n1 1 0 42 1 1\n2\n";
    prints(&example, lines);
    assert_eq!(
        include_bytes!("../../../examples/two-blocks.bin")[..],
        example
    );
    assert_eq!(
        include_bytes!("../../../crates/blockrun/stdin")[..],
        example
    );
    assert_eq!(include_str!("../../../crates/blockrun/stdout"), lines);
}

#[test]
fn fewer_than_5_bytes_print_refusal_1() {
    for length in 0..5 {
        prints_refusal(&[0x00; 5][..length], 1);
        prints_refusal(&[0xFE; 5][..length], 1);
    }
}

#[test]
fn from_5_bytes_on_the_arguments_are_judged_first() {
    prints_refusal(&[4, 0, 0, 0, 0], 11);
    prints_refusal(&[0, 0x41, 0x42, 0x0F, 0], 11);
    prints_refusal(&[0, 0x40, 0x42, 0x0F, 0], 1);
    prints_refusal(&[0, 0, 0, 0, 0, 33, 0], 1);
    prints_refusal(&[0, 0, 0, 0, 0, 33, 0, 0], 2);
}

#[test]
fn a_store_sheet_cut_short_takes_all_the_bytes() {
    let sheet = example_store();
    for length in 3..sheet.len() {
        prints_refusal(&input(0, 10, &sheet[..length], &[]), 1);
    }
    prints_refusal(&input(0, 10, &sheet, &[]), 6);
}

/// Values of five bytes, as they were laid out before: the store sheet takes
/// eight bytes of the programme's, which then says 4,129 bytes of code.
#[test]
fn values_of_five_bytes_are_refused_in_the_programme() {
    let store = hex("02 0200 01000000 03000000 00 01 0005000000 0007000000");
    let programme = "02 1B00 00 01 0D00 0E00 \
        21 10 0300000000 10 002A000000 \
        21 10 0301000000 11 10 0200000000";
    prints_refusal(&input(0, 10, &store, &hex(programme)), 6);
}

/// Without floors, as it was laid out before, the programme is two bytes short.
#[test]
fn a_programme_without_floors_is_refused() {
    let with_floors = example_programme([0, 1]);
    let arrays = 3 + 2 + 4;
    let without = join(&[&with_floors[..arrays], &with_floors[arrays + 2..]]);
    prints_refusal(&input(0, 10, &example_store(), &without), 6);
}

/// "For P5, floor 0 still finishes and floor 1 gives 16." (document 02, N6)
#[test]
fn an_endorsed_block_goes_by_its_floor() {
    let p5 = |floor| {
        let sheet = example_with_floors([0, 0x81], [0, floor]);
        input(3, 10, &example_store(), &sheet)
    };
    let lines = "end 0 block 2 at 0 steps 2\n0 0 0 42 1 2\n1 1 0 42 1 1\n2\n";
    prints(&p5(0), lines);
    prints(&p5(1), "end 16 block 1 at 0 steps 1\n");
    prints_refusal(&p5(2), 8);
}

#[test]
fn values_of_each_kind_are_printed() {
    let slots = [
        (1, integer(-1)),
        (0, integer(LEAST)),
        (1, integer(GREATEST)),
        (0, truth(false)),
        (1, truth(true)),
        (0, read_view(7)),
        (1, write_view(0)),
        (0, integer(0)),
    ];
    let sheet = store(&PAIR, &slots);
    let lines = "end 0 block 0 at 0 steps 0\n\
                 0 1 0 -1 0 1\n\
                 1 0 0 -9223372036854775808 0 2\n\
                 2 1 0 9223372036854775807 0 1\n\
                 3 0 1 0 0 2\n\
                 4 1 1 1 0 1\n\
                 5 0 2 7 0 2\n\
                 6 1 3 0 0 1\n\
                 7 0 0 0 0 2\n\
                 0\n";
    prints(&input(3, 0, &sheet, &programme(&[])), lines);
}

/// From the sheet, and as a literal that a run writes.
#[test]
fn an_integer_is_printed_whole() {
    let lines = [
        (LEAST, "-9223372036854775808"),
        (GREATEST, "9223372036854775807"),
        (-17, "-17"),
        (1_176_000_000_000, "1176000000000"),
        (1 << 31, "2147483648"),
        (-(1 << 31) - 1, "-2147483649"),
        (1 << 32, "4294967296"),
        ((1 << 32) - 1, "4294967295"),
    ];
    for (payload, line) in lines {
        let sheet = store(&[1], &[(0, integer(payload)), (0, integer(0))]);
        let code = programme(&[(0, set_integer(1, payload))]);
        let text = format!("end 0 block 1 at 0 steps 1\n0 0 0 {line} 0 1\n1 0 0 {line} 1 1\n1\n");
        prints(&input(3, 1, &sheet, &code), &text);
    }
}

#[test]
fn a_refusal_prints_the_first_line_only() {
    let sheet = store(&PAIR, &[(0, truth(true)), (1, integer(7))]);
    let choice = if_else(slot(0), set_integer(1, 41), set_integer(1, 42));
    let code = programme(&[(0, skip()), (1, choice)]);
    let refused = "end 16 block 1 at 12 steps 1\n";
    prints(&input(3, 10, &sheet, &code), refused);
    let bad = programme(&[(0, skip()), (1, vec![0x22, 2, 0x20])]);
    prints(&input(3, 10, &sheet, &bad), "end 9 block 1 at 3 steps 0\n");
}

#[test]
fn the_budget_has_four_bytes_lowest_first() {
    let code = programme(&[(0, while_do(literal(truth(true)), skip()))]);
    let sheet = store(&[1], &[]);
    let lines = "end 17 block 0 at 0 steps 66051\n";
    prints(&input(0, 0x0001_0203, &sheet, &code), lines);
}

#[test]
fn no_slots_print_the_total_only() {
    let sheet = store(&[1], &[]);
    let lines = "end 0 block 0 at 0 steps 0\n0\n";
    prints(&input(2, 0, &sheet, &programme(&[])), lines);
}

#[test]
fn all_256_slots_are_printed() {
    let sheet = store(&[1], &vec![(0, write_view(255)); 256]);
    let lines = (0..256).map(|slot| format!("{slot} 0 3 255 0 1\n"));
    let lines: String = lines.collect();
    let first = "end 0 block 0 at 0 steps 0\n";
    prints(
        &input(0, 0, &sheet, &programme(&[])),
        &format!("{first}{lines}0\n"),
    );
}

/// "how many principals stand at or above its owner" (document 02, N7), the owner
/// among them. Each principal owns the slot of its number.
#[test]
fn principals_at_or_above_the_owner_are_counted() {
    // 32 in a chain, the top first: each stands above those with greater numbers.
    let top_first = (0..32).map(|i| u32::MAX << i);
    let tables = [
        (vec![1], vec![1]),
        // Left, right, bottom and top; in the kite the stem too.
        (DIAMOND.to_vec(), vec![2, 2, 4, 1]),
        (KITE.to_vec(), vec![2, 2, 5, 1, 4]),
        (chain(32), (1..=32).rev().collect()),
        (top_first.collect(), (1..=32).collect()),
    ];
    for (masks, above) in tables {
        let owners = 0..masks.len() as u8;
        let slots: Vec<(u8, Bytes)> = owners.map(|owner| (owner, truth(true))).collect();
        let lines = above.iter().enumerate();
        let lines = lines.map(|(owner, above)| format!("{owner} {owner} 1 1 0 {above}\n"));
        let lines: String = lines.collect();
        prints(
            &input(0, 0, &store(&masks, &slots), &programme(&[])),
            &format!("end 0 {NO_PLACE}{lines}0\n"),
        );
    }
}

/// Slot 0 is written in each round of a while, slot 1 once before it, by its own
/// value.
#[test]
fn counts_and_their_total_are_printed() {
    let sheet = store(&PAIR, &[(0, integer(0)), (1, integer(7)), (1, integer(8))]);
    let add = set(0, sum(slot(0), literal(integer(1))));
    let rounds = while_do(less_than(slot(0), literal(integer(12))), add);
    let code = programme(&[(1, set(1, slot(1))), (1, rounds)]);
    let lines = "end 0 block 2 at 0 steps 26\n\
                 0 0 0 12 12 2\n\
                 1 1 0 7 1 1\n\
                 2 1 0 8 0 1\n\
                 13\n";
    prints(&input(3, 1_000, &sheet, &code), lines);
}

/// "The printing program lends 512 entries" (document 02, N7): the 513th
/// assignment is refused by 18, after 513 guards and 512 assignments.
#[test]
fn the_journal_has_512_entries() {
    assert_eq!(Input::LENT_ENTRIES, 512);
    let sheet = store(&[1], &[(0, integer(0))]);
    let add = set(0, sum(slot(0), literal(integer(1))));
    let rounds = |count: i64| {
        let code = while_do(less_than(slot(0), literal(integer(count))), add.clone());
        input(3, 1_000_000, &sheet, &programme(&[(0, code)]))
    };
    let lines = "end 0 block 1 at 0 steps 1025\n0 0 0 512 512 1\n512\n";
    prints(&rounds(512), lines);
    // The while's byte and its guard stand before the assignment.
    let offset = 1 + less_than(slot(0), literal(integer(0))).len();
    let refused = format!("end 18 block 0 at {offset} steps 1025\n");
    prints(&rounds(513), &refused);
}

#[test]
fn bytes_beyond_the_first_32768_are_not_read() {
    assert_eq!(Input::MOST_BYTES, 32_768);
    let good = input(0, 10, &example_store(), &example_programme([0, 1]));
    let mut long = good.clone();
    long.resize(100_000, 0);
    prints_refusal(&long, 6);
    assert_eq!(print(&long), print(&long[..32_768]));
}
