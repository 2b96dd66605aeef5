//! Checkpoint files that are damaged, or hold what no run leaves.

use crate::desk::{Desk, Ran};
use crate::resuming::{paused, OUTPUT_AT, PAUSE_AT};

#[test]
fn a_damaged_file_is_told() {
    let desk = paused();
    let kept = desk.read("kept");
    let cases = [
        (kept[..10].to_vec(), "it does not start with the line `muntyzhap checkpoint 1`".to_string()),
        (vec![], "it does not start with the line `muntyzhap checkpoint 1`".to_string()),
        (
            [b"muntyzhap checkpoint 2\n", &kept[23..]].concat(),
            "it is of version 2, and this command reads version 1".to_string(),
        ),
        (
            kept[..kept.len() - 1].to_vec(),
            format!("it ends early: at byte {PAUSE_AT} come 256 bytes of the pause sheet, and 255 are left"),
        ),
        (kept[..25].to_vec(), "it ends early: at byte 23 come 4 bytes of the rule, and 2 are left".to_string()),
        ([&kept[..], b"\n"].concat(), "it goes on after its end, by 1 byte".to_string()),
    ];
    for (bytes, words) in cases {
        desk.put("damaged", bytes);
        let ran = desk.run(&["run", "--resume=damaged"]);
        ran.fails(&format!("damaged: no checkpoint to carry on from: {words}"));
    }
}

/// Changes one byte and carries on.
fn changed(desk: &Desk, at: usize, byte: u8) -> Ran {
    let mut kept = desk.read("kept");
    kept[at] = byte;
    desk.put("changed", kept);
    desk.run(&["run", "--resume=changed", "--budget=3000", "--rule=3"])
}

/// A byte of the checkpoint file, what it becomes, and the test that then fails.
const DAMAGE: [(usize, u8, &str); 6] = [
    (
        PAUSE_AT + 4,
        40,
        "the path has 40 parts, and commands nest at most 32 deep, so it has at most 31",
    ),
    (PAUSE_AT + 4, 1, ""),
    (
        PAUSE_AT + 5,
        1,
        "the path is in block 1, and there is 1 block",
    ),
    (
        PAUSE_AT + 200,
        7,
        "byte 200 of the pause sheet is 07, and after the path every byte is 00",
    ),
    (
        PAUSE_AT + 1,
        0,
        "the counts of writes add up to 500, and the steps so far are 232",
    ),
    (
        OUTPUT_AT,
        9,
        "the value of slot s0 is ill-formed: 09 F4 01 00 00 00 00 00 00",
    ),
];

#[test]
fn a_checkpoint_that_is_not_good_is_refused_by_19_with_the_test_that_fails() {
    let desk = paused();
    for (at, byte, words) in DAMAGE {
        let ran = changed(&desk, at, byte);
        if words.is_empty() {
            // Inside the body: a good place to carry on from, too.
            assert_eq!(ran.status, Some(0), "{ran:?}");
            continue;
        }
        assert!(
            ran.out()
                .starts_with("refused by 19: the checkpoint is not good"),
            "{ran:?}"
        );
        assert!(
            ran.out().contains(&format!(
                "\n  at changed, the checkpoint to carry on from\n  in the checkpoint {words}\n"
            )),
            "{ran:?}"
        );
        let last = "\n  What to do: take an older checkpoint, or start anew.\n";
        assert!(ran.out().ends_with(last), "{ran:?}");
        assert_eq!(ran.status, Some(1));
    }
}

#[test]
fn a_checkpoint_of_another_length_is_refused_by_12() {
    let desk = paused();
    let kept = desk.read("kept");
    let mut short = kept[..OUTPUT_AT - 4].to_vec();
    short.extend([0; 4]);
    short.extend(&kept[OUTPUT_AT + 13..]);
    desk.put("short", short);
    let ran = desk.run(&["run", "--resume=short"]);
    let expected = "\
refused by 12: an output must have 13 bytes for each slot of the store, and a pause sheet 256 bytes
  at short, the checkpoint to carry on from
  the checkpoint's output has 0 bytes, and the store asks for 13
  What to do: take an older checkpoint, or start anew.
";
    ran.is(1, expected, "");
    desk.run(&["explain", "--resume=short"]).is(1, expected, "");
}

/// A rule or budget that there is not, of the checkpoint or of the command.
#[test]
fn a_checkpoints_own_rule_and_budget_are_told_as_its_own() {
    let desk = paused();
    let mut kept = desk.read("kept");
    (kept[23], kept[30]) = (7, 1);
    desk.put("odd", kept);
    let rule = "  the rule comes from the checkpoint odd: give another with --rule\n";
    let budget = "  the budget comes from the checkpoint odd: give another with --budget\n";
    let ran = desk.run(&["run", "--resume=odd"]);
    ran.says(1, "\n  the rule is 7, and the rules are ");
    ran.says(
        1,
        "\n  the budget is 16778216, and the largest is 1000000\n",
    );
    ran.says(1, rule);
    assert!(ran.out().ends_with(budget), "{ran:?}");
    let ran = desk.run(&["explain", "--resume=odd", "--budget=9"]);
    assert!(ran.out().ends_with(rule), "{ran:?}");
    let ran = desk.run(&["run", "--resume=odd", "--rule=9", "--budget=2000000"]);
    assert!(ran.out().starts_with("refused by 11: "), "{ran:?}");
    assert!(!ran.out().contains("comes from"), "{ran:?}");
}

/// Two ifs around a sequence, paused before its second command. The path has three
/// parts.
const NESTED: &str = "\
principals low < lab
slot a : low = true
slot b : low = 0
block lab { if a { if a { b := 1; b := 2 } } }
";

#[test]
fn a_path_that_leads_nowhere_is_told() {
    let desk = Desk::with("nested.mz", NESTED);
    desk.run(&["run", "nested.mz", "--budget=3", "--checkpoint=kept"]);
    let pause = desk.read("kept").len() - 256;
    assert_eq!(
        desk.read("kept")[pause..][..12],
        [3, 0, 0, 0, 3, 0, 0, 0, 1, 0, 0, 0]
    );
    let cases = [
        (6, 2, "the path takes part 2 of the if at offset 0 of block 0, which has 2 parts"),
        (8, 2, "the path takes part 2 of the sequence at offset 24 of block 0, which has 2 parts"),
        (7, 1, "the path takes part 1 of the skip at offset 68 of block 0, which has 0 parts"),
        (4, 2, "the path leads to the sequence at offset 24 of block 0, and a run is paused at an assignment, an if or a while"),
        (9, 2, "a label of the path is 2, and there are 2 principals"),
        (10, 1, "the label inside the if at offset 12 is p1, which does not stand at or below p0, the one outside"),
        (11, 1, "the label inside the sequence at offset 24 is p1, and outside it is p0: they have to be equal"),
        (3, 1, ""),
    ];
    for (at, byte, words) in cases {
        let ran = changed(&desk, pause + at, byte);
        let told = format!("\n  in the checkpoint {words}\n");
        let expected = if words.is_empty() {
            "paused by 17: "
        } else {
            &told
        };
        assert!(ran.out().contains(expected), "{at} {byte} {}", ran.out());
        assert_eq!(ran.status, Some(1));
    }
}
