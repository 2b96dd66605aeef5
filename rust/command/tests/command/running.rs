//! `muntyzhap run` of one file.

use crate::desk::{Desk, COUNTING, DEPUTY};

const ACCESS: &str = "\
finished: 2 blocks, 2 steps, 2 writes
slot    owner  value        writes
place   digA   write curve       1
result  digA   0                 0
curve   lab    42                1
";

#[test]
fn the_example_finishes_under_access_control() {
    let desk = Desk::with("deputy.mz", DEPUTY);
    for rule in ["access", "0"] {
        desk.run(&["run", "deputy.mz", "--rule", rule])
            .is(0, ACCESS, "");
    }
}

#[test]
fn the_example_is_refused_under_the_other_rules_with_the_reason() {
    let desk = Desk::with("deputy.mz", DEPUTY);
    let rules = [
        (
            "capability",
            15,
            "5:14, block 0 (region digA), offset 0, after 0 steps: place := write curve",
        ),
        (
            "explicit",
            16,
            "6:14, block 1 (region lab), offset 0, after 1 step: [place] := 42",
        ),
        (
            "full",
            16,
            "6:14, block 1 (region lab), offset 0, after 1 step: [place] := 42",
        ),
        (
            "default",
            16,
            "6:14, block 1 (region lab), offset 0, after 1 step: [place] := 42",
        ),
    ];
    for (rule, number, place) in rules {
        let ran = desk.run(&["run", "deputy.mz", &format!("--rule={rule}")]);
        ran.says(1, &format!("refused by {number}: "));
        ran.says(1, &format!("\n  at deputy.mz:{place}\n"));
    }
}

/// A person can mend the example in either way that the text under it says.
#[test]
fn the_example_can_be_mended() {
    let desk = Desk::new();
    let by_name = DEPUTY.replace("[place] := 42", "result := 42");
    let endorsed = DEPUTY.replace("block lab ", "block lab endorsed down to digA ");
    desk.put("by_name.mz", by_name);
    desk.put("endorsed.mz", endorsed);
    desk.run(&["run", "by_name.mz"])
        .says(0, "result  digA   42                1\n");
    desk.run(&["run", "endorsed.mz"])
        .says(0, "curve   lab    42                1\n");
}

#[test]
fn the_rule_is_full_if_none_is_given() {
    let desk = Desk::with("deputy.mz", DEPUTY);
    let full = desk.run(&["run", "deputy.mz", "--rule", "full"]);
    assert_eq!(desk.run(&["run", "deputy.mz"]), full);
    full.says(
        1,
        "    target  digA  too low: read from place, which digA owns\n",
    );
    full.says(1, "    branch  lab   enough: no guard is open around it\n");
}

#[test]
fn a_text_is_read_from_standard_input() {
    let ran = Desk::new().run_with(&["run", "-", "--rule=0"], DEPUTY.as_bytes());
    ran.is(0, ACCESS, "");
    let ran = Desk::new().run_with(&["run", "-"], DEPUTY.as_bytes());
    ran.says(1, "\n  at standard input:6:14, block 1");
}

#[test]
fn sheets_are_run_without_names() {
    let desk = Desk::new();
    desk.put("deputy.bin", desk.sheets(DEPUTY));
    let expected = "\
finished: 2 blocks, 2 steps, 2 writes
slot  owner  value     writes
s0    p1     write s2       1
s1    p1     0              0
s2    p3     42             1
";
    desk.run(&["run", "deputy.bin", "--rule=0"])
        .is(0, expected, "");
    let refused = desk.run(&["run", "deputy.bin"]);
    refused.says(
        1,
        "\n  at deputy.bin: byte 81, block 1 (region p3), offset 0, after 1 step: [s0] := 42\n",
    );
}

#[test]
fn a_store_without_slots_has_no_table() {
    let desk = Desk::with("none.mz", "principals lab\nno blocks\n");
    let expected = "finished: 0 blocks, 0 steps, 0 writes\nthe store has no slots\n";
    desk.run(&["run", "none.mz"]).is(0, expected, "");
}

/// What README shows of the printing program, and more that it has to print.
#[test]
fn plain_is_what_the_printing_program_prints() {
    let desk = Desk::new();
    let input = include_bytes!("../../../../examples/two-blocks.bin");
    // Rule and budget come first, in five bytes.
    desk.put("two.bin", &input[5..]);
    let plain = ["run", "two.bin", "--plain", "--rule=0", "--budget=10"];
    let expected = "end 0 block 2 at 0 steps 2\n0 0 0 42 1 2\n1 1 0 42 1 1\n2\n";
    desk.run(&plain).is(0, expected, "");
    let full = desk.run(&["run", "two.bin", "--plain"]);
    full.is(1, "end 16 block 1 at 0 steps 1\n", "");
    let text = "principals low < top\nslot a : low = -9223372036854775808\nslot b : top = true\n\
                slot c : low = read b\nno blocks";
    desk.put("kinds.mz", text);
    let expected =
        "end 0 block 0 at 0 steps 0\n0 0 0 -9223372036854775808 0 2\n1 1 1 1 0 1\n2 0 2 1 0 2\n0\n";
    desk.run(&["run", "kinds.mz", "--plain"])
        .is(0, expected, "");
}

/// The printing program lends 512 entries, and there are 1000 writes.
#[test]
fn plain_has_the_printing_programs_journal() {
    let desk = Desk::with("counting.mz", COUNTING);
    let ran = desk.run(&["run", "counting.mz", "--plain"]);
    let note =
        "the journal is full: the printing program lends 512 entries; --entries N lends more\n";
    ran.is(1, "end 18 block 0 at 23 steps 1025\n", note);
    let ran = desk.run(&["run", "counting.mz", "--plain", "--entries=512"]);
    ran.is(1, "end 18 block 0 at 23 steps 1025\n", "");
    let ran = desk.run(&["run", "counting.mz", "--plain", "--entries=1000"]);
    ran.is(
        0,
        "end 0 block 1 at 0 steps 2001\n0 0 0 1000 1000 1\n1000\n",
        "",
    );
    let ran = desk.run(&["run", "counting.mz", "--entries", "999"]);
    ran.says(1, "refused by 18: ");
    ran.says(
        1,
        "\n  at counting.mz:3:41, block 0 (counting, region lab), offset 23, after 1999 steps: ",
    );
}

/// Both sheets are given to the printing program as one, so a store sheet that is
/// too long is split there.
#[test]
fn plain_splits_two_sheets_as_the_printing_program_does() {
    let desk = Desk::new();
    let sheets = desk.sheets(DEPUTY);
    desk.put("store.bin", &sheets[..50]);
    desk.put("programme.bin", &sheets[50..]);
    let files = ["run", "store.bin", "programme.bin", "--rule=0"];
    desk.run(&files).says(1, "refused by 1: ");
    let plain = desk.run(&[&files[..], &["--plain"]].concat());
    assert!(
        plain.out().starts_with("end 0 block 2 at 0 steps 2\n"),
        "{plain:?}"
    );
}

#[test]
fn a_budget_that_is_spent_is_told() {
    let desk = Desk::with("counting.mz", COUNTING);
    desk.run(&["run", "counting.mz", "--budget=2001"])
        .says(0, "finished: 1 block, 2001 steps");
    let ran = desk.run(&["run", "counting.mz", "--budget=2000"]);
    ran.says(1, "refused by 17: ");
    ran.says(1, "after 2000 steps");
    assert_eq!(desk.files(), ["counting.mz"]);
}

#[test]
fn a_rule_or_budget_that_there_is_not_is_refused_by_11() {
    let desk = Desk::with("deputy.mz", DEPUTY);
    let expected = "\
refused by 11: the rule must be 0, 1, 2, 3 or 255, and the budget at most 1,000,000 steps
  the rule is 4, and the rules are 0 (access), 1 (capability), 2 (explicit), 3 (full), 255 (default)
  the budget is 1000001, and the largest is 1000000
";
    let arguments = ["run", "deputy.mz", "--rule=4", "--budget=1000001"];
    desk.run(&arguments).is(1, expected, "");
    let sliced = [&arguments[..], &["--slice=10"]].concat();
    desk.run(&sliced).is(1, expected, "");
    let plain = [&arguments[..], &["--plain"]].concat();
    desk.run(&plain).is(1, "end 11 block 0 at 0 steps 0\n", "");
}

#[test]
fn a_trace_has_a_line_for_each_step() {
    let desk = Desk::with("deputy.mz", DEPUTY);
    let ran = desk.run(&["run", "deputy.mz", "--rule=0", "--trace"]);
    let lines: Vec<&str> = ran.error.lines().collect();
    assert_eq!((ran.out(), lines.len()), (ACCESS, 2));
    assert!(
        lines[0].starts_with("step 1  deputy.mz:5:14  block 0 (digA)  place := write curve  |"),
        "{lines:?}"
    );
    assert!(lines[1].contains("curve: 50000 -> 42"), "{lines:?}");
    let ran = desk.run(&["run", "deputy.mz", "--trace"]);
    assert_eq!((ran.status, ran.error.lines().count()), (Some(1), 1));
}

#[test]
fn a_trace_in_slices_is_the_trace_in_one_go() {
    let desk = Desk::with("counting.mz", COUNTING);
    let whole = desk.run(&["run", "counting.mz", "--trace"]);
    let sliced = desk.run(&["run", "counting.mz", "--trace", "--slice=700"]);
    assert_eq!(sliced.out(), whole.out());
    let steps = sliced
        .error
        .lines()
        .filter(|line| line.starts_with("step "));
    assert_eq!(
        steps.collect::<Vec<_>>(),
        whole.error.lines().collect::<Vec<_>>()
    );
}
