//! Every byte where a command or an expression starts, and sheets cut to every
//! length.

mod play;

use play::*;
use second_runner::{check_store, check_table};
use sheets::*;

/// "Every command is known by its first byte."
const COMMANDS: [u8; 5] = [0x20, 0x21, 0x22, 0x23, 0x24];
/// "An expression is 10 and a value [..], or 11 (read) and an expression";
/// "Expressions gain four forms" (document 02, N5).
const EXPRESSIONS: [u8; 6] = [0x10, 0x11, 0x12, 0x13, 0x14, 0x15];

/// The code as the first of two blocks, and as the second; the other one is a
/// skip.
fn as_either_block(code: &[u8]) -> [Call; 2] {
    let (this, other) = ((0, code.to_vec()), (0, skip()));
    let orders = [[this.clone(), other.clone()], [other, this]];
    orders.map(|blocks| call(&example_store(), &programme(&blocks), 3))
}

/// "An unknown byte [..] is placed at that byte", and "code that ends early" at
/// the block's length.
#[track_caller]
fn ill_formed(code: &[u8], offset: usize) {
    refused(9, code, offset);
}

/// "nested too deep or a ninth 11, at that byte"; of reads and operations "the
/// ninth is refused by 10 as before" (document 02, N5)
#[track_caller]
fn too_deep(code: &[u8], offset: usize) {
    refused(10, code, offset);
}

#[track_caller]
fn refused(number: u32, code: &[u8], offset: usize) {
    for (block, call) in (0..).zip(as_either_block(code)) {
        call.refused(number, block, offset, 0);
    }
}

/// After a known byte there is no more: only a skip is whole.
#[test]
fn a_command_is_known_by_its_first_byte() {
    for byte in 0..=u8::MAX {
        let code = [byte];
        match COMMANDS.contains(&byte) {
            true if code[..] == skip() => {
                for call in as_either_block(&code) {
                    call.finishes(0, &[kept(integer(5)), kept(integer(7))]);
                }
            }
            true => ill_formed(&code, 1),
            false => ill_formed(&code, 0),
        }
    }
}

/// As a target, a value, the guard of an if and of a while, what is read, and
/// what an operation is of.
#[test]
fn an_expression_is_known_by_its_first_byte() {
    let value = join(&[&[0x21], &literal(write_view(0))]);
    let mut heads = vec![vec![0x21], value, vec![0x23], vec![0x24], vec![0x24, 0x11]];
    heads.extend(OPERATIONS.map(|byte| vec![0x24, byte]));
    heads.extend(OPERATIONS.map(|byte| join(&[&[0x24, byte], &literal(integer(5))])));
    for head in heads {
        for byte in 0..=u8::MAX {
            let known = EXPRESSIONS.contains(&byte);
            let offset = head.len() + usize::from(known);
            ill_formed(&join(&[&head, &[byte]]), offset);
        }
    }
}

/// "the ninth is refused by 10 as before", and "an unknown byte is 9 at any
/// depth". After eight of one byte, in the left operand of each, and in the
/// right one of the last.
#[test]
fn the_ninth_is_known_by_its_byte_too() {
    let nine = literal(integer(9));
    for outer in &EXPRESSIONS[1..] {
        let left = join(&[&[0x24], &[*outer; 8]]);
        let right = join(&[&left, &nine]);
        let heads = [Some(left), (*outer != 0x11).then_some(right)];
        for (head, byte) in heads.into_iter().flatten().flat_map(with_each_byte) {
            let code = join(&[&head, &[byte]]);
            match byte {
                0x10 => ill_formed(&code, head.len() + 1),
                0x11..=0x15 => too_deep(&code, head.len()),
                _ => ill_formed(&code, head.len()),
            }
        }
    }
}

fn with_each_byte(head: Bytes) -> impl Iterator<Item = (Bytes, u8)> {
    (0..=u8::MAX).map(move |byte| (head.clone(), byte))
}

/// "store sizes present (1), in limits (2), total length (1)": sizes past their
/// limits are judged once they are there.
#[test]
fn a_store_sheet_cut_to_any_length_is_refused() {
    let slots = [(0, integer(5)), (9, value(9, 9))];
    let sheets = [
        (example_store(), 1),
        // Its order, its second owner and its second value are bad too.
        (store(&[1, 2], &slots), 1),
        (store(&[], &slots), 2),
        (store(&[1; 33], &slots), 2),
        (store(&[1], &vec![(0, integer(5)); 257]), 2),
    ];
    for (sheet, number) in sheets {
        for length in 0..sheet.len() {
            let cut = &sheet[..length];
            let number = if length < 3 { 1 } else { number };
            assert_eq!(check_store(cut), number, "{length}");
            // The programme sheet has no sizes, which is judged later.
            call(cut, &[], 3).refused(number, 0, 0, 0);
        }
    }
}

#[test]
fn a_table_sheet_cut_to_any_length_is_refused() {
    let sheets = [
        (table(&PAIR, &[0, 1]), 1),
        (table(&[1, 2], &[0, 9]), 1),
        (table(&[1; 33], &[0]), 2),
        (table(&[1], &[0; 257]), 2),
    ];
    for (sheet, number) in sheets {
        for length in 0..sheet.len() {
            let number = if length < 3 { 1 } else { number };
            assert_eq!(check_table(&sheet[..length]), number, "{length}");
        }
    }
}

/// "An endorsed block's floor must be below n, else 8, right after its region"
/// (document 02, N6): the whole byte. Of a block that is not endorsed it is
/// "ignored".
#[test]
fn a_floor_is_below_n_if_its_block_is_endorsed() {
    for masks in [1, 2, 5, 32].map(chain) {
        let sheet = store(&masks, &[]);
        for floor in 0..=u8::MAX {
            check_floor(&sheet, 0x00, floor, true);
            check_floor(&sheet, 0x80, floor, usize::from(floor) < masks.len());
        }
    }
}

/// The header of either of two blocks, a skip each, with lengths that add up and
/// with others: 8 is judged before these.
#[track_caller]
fn check_floor(store: &[u8], region: u8, floor: u8, good: bool) {
    for (regions, floors) in [([region, 0], [floor, 0]), ([0, region], [0, floor])] {
        let of_lengths = |lengths: [usize; 2]| {
            let sheet = programme_of_arrays(&regions, &lengths, &floors, &[0x20, 0x20]);
            call(store, &sheet, 3)
        };
        if good {
            of_lengths([1, 1]).finishes(0, &[]);
            of_lengths([1, 2]).refused(6, 0, 0, 0);
        } else {
            of_lengths([1, 1]).refused(8, 0, 0, 0);
            of_lengths([1, 2]).refused(8, 0, 0, 0);
        }
    }
}

/// "programme sizes (6, 7), length (6); 8 in block order": the same of k and c.
#[test]
fn a_programme_sheet_cut_to_any_length_is_refused() {
    let skips = |bytes| vec![0x20; bytes];
    let sheets = [
        (example_programme([0, 1]), 6),
        // Its second region, its first floor and its code are bad too.
        (
            programme_with_floors(&[(0x80, 9, skips(2)), (9, 0, vec![0xFF])]),
            6,
        ),
        (programme(&vec![(0, skip()); 65]), 7),
        (programme(&[(0, skips(16_385))]), 7),
    ];
    for (sheet, number) in sheets {
        for length in 0..sheet.len() {
            let number = if length < 3 { 6 } else { number };
            call(&example_store(), &sheet[..length], 3).refused(number, 0, 0, 0);
        }
    }
}
