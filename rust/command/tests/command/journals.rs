//! `muntyzhap journal`.

use crate::desk::{Desk, COUNTING, DEPUTY};

#[test]
fn writes_are_told_in_their_order() {
    let desk = Desk::with("deputy.mz", DEPUTY);
    let expected = "\
finished: 2 blocks, 2 steps, 2 writes
1  block 0 (digA) at deputy.mz:5:14 wrote place: write result -> write curve
2  block 1 (lab) at deputy.mz:6:14 wrote curve: 50000 -> 42
";
    desk.run(&["journal", "deputy.mz", "--rule=0"])
        .is(0, expected, "");
    desk.run(&["journal", "deputy.mz", "--rule=0", "--by=order"])
        .is(0, expected, "");
}

#[test]
fn writes_are_told_by_slot_and_by_block() {
    let text = DEPUTY.replace("block digA", "block sends : digA") + "block digB { skip }\n";
    let desk = Desk::with("deputy.mz", text);
    let by_slot = "\
finished: 3 blocks, 2 steps, 2 writes
place, which digA owns: 1 write
  1  block 0 (sends, digA) at deputy.mz:5:22: write result -> write curve
curve, which lab owns: 1 write
  2  block 1 (lab) at deputy.mz:6:14: 50000 -> 42
not written: result
";
    desk.run(&["journal", "deputy.mz", "--rule=0", "--by=slot"])
        .is(0, by_slot, "");
    let by_block = "\
finished: 3 blocks, 2 steps, 2 writes
block 0 (sends, digA): 1 write
  1  at deputy.mz:5:22 wrote place: write result -> write curve
block 1 (lab): 1 write
  2  at deputy.mz:6:14 wrote curve: 50000 -> 42
wrote nothing: block 2 (digB)
";
    desk.run(&["journal", "deputy.mz", "--rule=0", "--by=block"])
        .is(0, by_block, "");
}

#[test]
fn the_journal_of_sheets_has_numbers_for_names() {
    let desk = Desk::new();
    desk.put("deputy.bin", desk.sheets(DEPUTY));
    let expected = "2  block 1 (p3) at deputy.bin: byte 81 wrote s2: 50000 -> 42\n";
    desk.run(&["journal", "deputy.bin", "--rule=0"])
        .says(0, expected);
}

#[test]
fn numbers_are_as_wide_as_the_last() {
    let desk = Desk::with("counting.mz", COUNTING);
    let ran = desk.run(&["journal", "counting.mz"]);
    ran.says(
        0,
        "\n   1  block 0 (counting, lab) at counting.mz:3:41 wrote i: 0 -> 1\n",
    );
    ran.says(
        0,
        "\n1000  block 0 (counting, lab) at counting.mz:3:41 wrote i: 999 -> 1000\n",
    );
    assert_eq!(ran.out().lines().count(), 1001);
}

#[test]
fn a_refused_run_has_no_journal() {
    let desk = Desk::with("deputy.mz", DEPUTY);
    let ran = desk.run(&["journal", "deputy.mz"]);
    assert_eq!(ran, desk.run(&["explain", "deputy.mz"]));
    assert_eq!(ran.status, Some(1));
    desk.put("counting.mz", COUNTING);
    desk.run(&["journal", "counting.mz", "--entries=999"])
        .says(1, "refused by 18: ");
}

#[test]
fn a_run_that_writes_nothing_has_an_empty_journal() {
    let desk = Desk::with(
        "none.mz",
        "principals lab slot x : lab = 1 block lab { skip }",
    );
    let line = "finished: 1 block, 0 steps, 0 writes\n";
    desk.run(&["journal", "none.mz"]).is(0, line, "");
    desk.run(&["journal", "none.mz", "--by=slot"])
        .is(0, &format!("{line}not written: x\n"), "");
    desk.run(&["journal", "none.mz", "--by=block"]).is(
        0,
        &format!("{line}wrote nothing: block 0 (lab)\n"),
        "",
    );
}
