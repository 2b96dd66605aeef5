//! The reason of each refusal of sizes and tables: what was found and what was
//! wanted, and the byte that it is at.

mod written;

use inspect::{programme, store, Refused};
use written::{bytes, names};

fn refused(number: u32, at: usize, reason: &str) -> Option<Refused> {
    Some(Refused {
        number,
        block: 0,
        offset: 0,
        at,
        reason: reason.to_string(),
    })
}

#[test]
fn of_a_store_sheet() {
    let five = "00 0500000000000000";
    let table = "02 0200 01000000 03000000";
    let cases = [
        ("", 1, 0, "the sheet has 0 bytes, and its sizes alone take 3"),
        ("02", 1, 1, "the sheet has 1 byte, and its sizes alone take 3"),
        // That the sizes are there is judged before their limits.
        ("FF 00", 1, 2, "the sheet has 2 bytes, and its sizes alone take 3"),
        ("00 0000", 2, 0, "n is 0, and a store has 1 to 32 principals"),
        ("21 0000", 2, 0, "n is 33, and a store has 1 to 32 principals"),
        ("02 0101", 2, 1, "m is 257, and a store has at most 256 slots"),
        ("FF FFFF", 2, 0, "n is 255, and a store has 1 to 32 principals"),
        (
            &format!("{table} 00 01 {five}"),
            1,
            22,
            "the sheet has 22 bytes, and its sizes (2 principals, 2 slots) ask for 31",
        ),
        // Of bytes that are too many it is at the first; the owner comes later.
        (
            &format!("01 0100 01000000 09 {five} 00"),
            1,
            17,
            "the sheet has 18 bytes, and its sizes (1 principal, 1 slot) ask for 17",
        ),
        (
            "02 0000 01000000 02000000",
            3,
            3,
            "dig and lab have no common lower principal, so they have no meet: add one below both, as in \
             `principals nobody < dig, lab`",
        ),
        (
            "02 0000 01000000 07000000",
            3,
            7,
            "the mask of principal lab has bit 2, and there is no principal 2",
        ),
        (
            &format!("{table} 05 01 {five} 07 0000000000000000"),
            4,
            11,
            "slot age is owned by principal 5, and there are 2 principals, 0 and 1",
        ),
        // Slot by slot, so the value of the first before the owner of the second.
        (
            &format!("{table} 00 05 07 0000000000000000 {five}"),
            5,
            13,
            "slot age has a value of kind 07; kinds are 00 to 03",
        ),
        (
            &format!("{table} 00 01 {five} 01 0200000000000000"),
            5,
            22,
            "slot curve has a truth value with payload 2; it is 0 for false or 1 for true",
        ),
        (
            &format!("{table} 00 01 {five} 02 0200000000000000"),
            5,
            22,
            "slot curve has a read view of slot 2, and there are 2 slots, 0 and 1",
        ),
        (
            "01 0100 01000000 00 03 0000000000000080",
            5,
            8,
            "slot age has a write view of slot 9223372036854775808, and there is 1 slot, 0",
        ),
    ];
    for (sheet, number, at, reason) in cases {
        let read = store(&bytes(sheet), &names());
        assert_eq!(read.refused, refused(number, at, reason), "{sheet}");
        assert_eq!(read.model, None, "{sheet}");
    }
}

#[test]
fn of_a_programme_sheet_before_its_code() {
    let cases = [
        (
            "01",
            6,
            1,
            "the sheet has 1 byte, and its sizes alone take 3",
        ),
        (
            "41 0000",
            7,
            0,
            "k is 65, and a programme has at most 64 blocks",
        ),
        (
            "00 0140",
            7,
            1,
            "c is 16385, and a programme has at most 16384 bytes of code",
        ),
        (
            "01 0200 00 0200 00 20",
            6,
            8,
            "the sheet has 8 bytes, and its sizes (1 block, 2 bytes of code) ask for 9",
        ),
        (
            "00 0000 20 20",
            6,
            3,
            "the sheet has 5 bytes, and its sizes (0 blocks, 0 bytes of code) ask for 3",
        ),
        (
            "02 0200 00 02 0100 0100 00 00 20 20",
            8,
            4,
            "block 1 (edit) has principal 2 as its region, and there are 2 principals, 0 and 1",
        ),
        // A block's floor before the next one's region.
        (
            "02 0200 81 85 0100 0100 09 09 20 20",
            8,
            9,
            "block 0 is endorsed down to principal 9, and there are 2 principals, 0 and 1",
        ),
        // A region before its own block's floor.
        (
            "01 0100 85 0100 09 20",
            8,
            3,
            "block 0 has principal 5 as its region, and there are 2 principals, 0 and 1",
        ),
        // Before the sum of the lengths.
        (
            "01 0200 02 0100 00 20 20",
            8,
            3,
            "block 0 has principal 2 as its region, and there are 2 principals, 0 and 1",
        ),
        (
            "02 0300 00 00 0100 0100 00 00 20 27 20",
            6,
            13,
            "the blocks' lengths add up to 2, and the code has 3 bytes",
        ),
        (
            "02 0100 00 00 0100 0400 00 00 20",
            6,
            7,
            "the blocks' lengths add up to 5, and the code has 1 byte",
        ),
    ];
    for (sheet, number, at, reason) in cases {
        let read = programme(&bytes(sheet), 2, 2, &names());
        assert_eq!(read.refused, refused(number, at, reason), "{sheet}");
        assert_eq!(read.model, None, "{sheet}");
    }
}
