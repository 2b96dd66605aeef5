//! The reason of each refusal of code, and its place.

mod written;

use inspect::{programme, Refused};
use model::Names;
use written::{bytes, names};

#[test]
fn of_code() {
    let (left, truth) = ("21 10 03 0000000000000000", "10 01 0100000000000000");
    let deep_reads = format!("{left} {} {truth}", "11".repeat(9));
    let deep_whiles = format!("{} 20", format!("24 {truth}").repeat(32));
    let unknown_deep = format!("{} 25", format!("24 {truth}").repeat(32));
    let cases = [
        (
            "",
            9,
            0,
            "the block has no code, and a block is exactly one command",
        ),
        ("27", 9, 0, "27 is no command's first byte (20 to 24)"),
        ("10", 9, 0, "10 is no command's first byte (20 to 24)"),
        ("21 16", 9, 1, "16 is no expression's first byte (10 to 15)"),
        (
            "22",
            9,
            1,
            "the code ends where a sequence's count should stand",
        ),
        (
            "22 01 20",
            9,
            1,
            "a sequence's count is 1; it has 2 to 255 commands",
        ),
        (
            "22 02 20",
            9,
            3,
            "the code ends where a command should start",
        ),
        (
            "24 12",
            9,
            2,
            "the code ends where an expression should start",
        ),
        (
            "24 10",
            9,
            2,
            "the code ends where a value's kind should stand",
        ),
        // The kind is judged before the payload's bytes are counted.
        ("24 10 04", 9, 2, "a value of kind 04; kinds are 00 to 03"),
        (
            "24 10 00 05000000",
            9,
            7,
            "the code ends where a value's payload should go on: 4 of 8 bytes",
        ),
        (
            "24 10 01 0300000000000000 20",
            9,
            2,
            "a truth value with payload 3; it is 0 for false or 1 for true",
        ),
        (
            "24 10 02 0900000000000000 20",
            9,
            2,
            "a read view of slot 9, and there are 2 slots, 0 and 1",
        ),
        (
            "20 20",
            9,
            1,
            "1 byte is left over after the block's command",
        ),
        (
            "20 20 FF 01",
            9,
            1,
            "3 bytes are left over after the block's command",
        ),
        (
            &deep_whiles,
            10,
            352,
            "a command 33 deep; commands nest at most 32 deep",
        ),
        // "an unknown byte is 9 at any depth"
        (
            &unknown_deep,
            9,
            352,
            "25 is no command's first byte (20 to 24)",
        ),
        (
            &deep_reads,
            10,
            19,
            "a read or an operation 9 deep; in an expression they nest at most 8 deep",
        ),
    ];
    for (code, number, offset, reason) in cases {
        let code = bytes(code);
        let length = (code.len() as u16).to_le_bytes();
        let whole = (1 + code.len() as u16).to_le_bytes();
        let head = [
            &[2],
            whole.as_slice(),
            &[0, 1],
            &[1, 0],
            &length,
            &[0, 0],
            &[0x20],
        ]
        .concat();
        let read = programme(&[head.as_slice(), &code].concat(), 2, 2, &names());
        let refused = Refused {
            number,
            block: 1,
            offset,
            at: head.len() + offset,
            reason: reason.to_string(),
        };
        assert_eq!(read.refused, Some(refused), "{code:02X?}");
    }
}

/// A store without slots has none for a view.
#[test]
fn of_a_view_where_there_are_no_slots() {
    let sheet = bytes("01 0C00 00 0C00 00 24 10 03 0000000000000000 20");
    let read = programme(&sheet, 1, 0, &Names::default());
    let reason = read.refused.map(|refused| refused.reason);
    assert_eq!(
        reason.as_deref(),
        Some("a write view of slot 0, and there are no slots")
    );
}
