//! The bytes of a case, and its line.

use super::*;
use ::sheets::{pause, PAUSE};

/// Of a run: its kind is 0, and it has no pause buffer and nothing old.
#[test]
fn a_run_has_the_bytes_that_the_program_reads() {
    let cases = [case("ab", "")
        .store(vec![0x51])
        .programme(vec![0x61, 0x62])
        .rule(0x0403_0201)
        .budget(0x0807_0605)
        .output(0x0A09)
        .journal(0x0C0B)
        .refused(17, 1, 2, 3)];
    let bytes = [
        b"\x01\x00".as_slice(),
        b"case\x00\x02\x01\x02\x03\x04\x05\x06\x07\x08\x09\x0A\x0B\x0C",
        b"\x00\x00\x01\x00\x02\x00\x00\x00\x00\x00",
        b"ab\x51\x61\x62",
    ];
    assert_eq!(layout::list_bytes(&cases), bytes.concat());
}

/// Of a start, kind 1, and of carrying on, kind 2.
#[test]
fn a_stretch_has_the_bytes_that_the_program_reads() {
    let draft = || case("ab", "").store(vec![0x51]).programme(vec![0x61, 0x62]);
    let draft = || draft().rule(3).budget(0x0807_0605).output(0x0A09);
    let cases = [
        draft().start().pause(0x0E0D).refused_early(12),
        draft()
            .carry_on(vec![0x71, 0x72, 0x73], vec![0x81])
            .pause(0x0E0D)
            .refused_early(12),
    ];
    let head = b"\x02\x03\x00\x00\x00\x05\x06\x07\x08\x09\x0A\x00\x00\x0D\x0E\x01\x00\x02\x00";
    let bytes = [
        b"\x02\x00".as_slice(),
        b"case\x01",
        head,
        b"\x00\x00\x00\x00",
        b"ab\x51\x61\x62",
        b"case\x02",
        head,
        b"\x03\x00\x01\x00",
        b"ab\x51\x61\x62\x71\x72\x73\x81",
    ];
    assert_eq!(layout::list_bytes(&cases), bytes.concat());
}

#[test]
fn a_line_tells_the_answer_and_the_output() {
    let two = store(&[1], &[(0, integer(-2)), (0, read_view(1))]);
    let none = store(&[1], &[]);
    let cases = [
        case("refused", "").refused(17, 1, 2, 3),
        case("two slots", "")
            .store(two)
            .finishes(4, &[written(258, integer(-2)), kept(read_view(1))]),
        case("no slots", "").store(none).finishes(0, &[]),
    ];
    let lines = "refused: end 17 block 1 at 2 steps 3 output untouched\n\
        two slots: end 0 block 0 at 0 steps 4 output \
        00feffffffffffffff02010000 02010000000000000000000000\n\
        no slots: end 0 block 0 at 0 steps 0 output empty\n\
        cases played: 3\n";
    assert_eq!(layout::lines(&cases), lines);
}

/// The pause sheet's bytes stand in one word behind the output.
#[test]
fn a_line_of_a_stretch_tells_the_pause_sheet_too() {
    let one = || case("one slot", "").store(store(&[1], &[(0, integer(5))]));
    let none = || case("no slots", "").store(store(&[1], &[]));
    let held = [written(2, integer(9))];
    let old = || (vec![], pause(7, 0, &[]));
    let (output, sheet) = old();
    let cases = [
        one().start().finishes(4, &held),
        one().start().pauses(258, 2, &[(1, 3), (0, 4)], 21, &held),
        none().carry_on(output, sheet).pauses(7, 0, &[], 0, &[]),
        none().start().refused_early(12),
    ];
    let zeros = |count: usize| "00".repeat(count);
    let path = format!("02010000020201000304{}", zeros(PAUSE - 10));
    let no_path = format!("07{}", zeros(PAUSE - 1));
    let slot = "00090000000000000002000000";
    let lines = format!(
        "one slot: end 0 block 0 at 0 steps 4 output {slot} pause untouched\n\
         one slot: end 17 block 2 at 21 steps 258 output {slot} pause {path}\n\
         no slots: end 17 block 0 at 0 steps 7 output empty pause {no_path}\n\
         no slots: end 12 block 0 at 0 steps 0 output untouched pause untouched\n\
         cases played: 4\n"
    );
    assert_eq!(layout::lines(&cases), lines);
}
