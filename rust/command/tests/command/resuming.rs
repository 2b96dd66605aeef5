//! Runs that are carried on from a checkpoint file.

use crate::desk::{Desk, COUNTING, DEPUTY};

/// The counting run, paused after 1000 of its 2001 steps.
pub fn paused() -> Desk {
    let desk = Desk::with("counting.mz", COUNTING);
    let ran = desk.run(&["run", "counting.mz", "--budget=1000", "--checkpoint=kept"]);
    assert_eq!(ran.status, Some(1));
    desk
}

/// Line, rule and budget; then of each part its length and its bytes.
const HEAD: usize = 23 + 8;
const STORE: usize = 3 + 4 + 10;
const PROGRAMME: usize = 3 + 4 + 56;
pub const OUTPUT_AT: usize = HEAD + 4 + STORE + 4 + PROGRAMME + 4;
pub const PAUSE_AT: usize = OUTPUT_AT + 13 + 4;

#[test]
fn a_resumed_run_ends_as_in_one_go() {
    let desk = paused();
    let whole = desk.run(&["run", "counting.mz"]);
    let note = "carried on with budget 3000; it was 1000 until the pause\n";
    let resume = ["run", "counting.mz", "--resume=kept", "--budget=3000"];
    desk.run(&resume).is(0, whole.out(), note);
    let sliced = desk.run(&[&resume[..], &["--slice=600"]].concat());
    let progress = format!("{note}1600 of 3000 steps, block 0 (counting, lab)\n");
    sliced.is(0, whole.out(), &progress);
    let nameless = desk.run(&["run", "--resume=kept", "--budget=3000"]);
    let expected = "\
finished: 1 block, 2001 steps, 1000 writes
slot  owner  value  writes
s0    p0     1000     1000
";
    nameless.is(0, expected, note);
    assert_eq!(desk.files(), ["counting.mz", "kept"]);
}

#[test]
fn the_file_has_what_is_documented() {
    let desk = paused();
    let (kept, sheets) = (desk.read("kept"), desk.sheets(COUNTING));
    assert_eq!(kept[..23], *b"muntyzhap checkpoint 1\n");
    assert_eq!(kept[23..HEAD], [3, 0, 0, 0, 0xE8, 3, 0, 0]);
    let (store, programme) = sheets.split_at(STORE);
    assert_eq!(kept[HEAD..HEAD + 4], [STORE as u8, 0, 0, 0]);
    assert_eq!(kept[HEAD + 4..][..STORE], *store);
    assert_eq!(kept[HEAD + 4 + STORE + 4..][..PROGRAMME], *programme);
    assert_eq!(
        kept[OUTPUT_AT..][..13],
        [0, 0xF4, 1, 0, 0, 0, 0, 0, 0, 0xF4, 1, 0, 0]
    );
    assert_eq!(kept[PAUSE_AT - 4..][..8], [0, 1, 0, 0, 0xE8, 3, 0, 0]);
    assert_eq!(kept.len(), PAUSE_AT + 256);
}

#[test]
fn rule_and_budget_are_the_checkpoints_unless_given() {
    let desk = paused();
    let ran = desk.run(&["run", "--resume=kept"]);
    ran.says(1, "paused by 17: ");
    ran.says(1, "after 1000 steps");
    let ran = desk.run(&["explain", "--resume=kept"]);
    ran.says(1, "refused by 17: ");
    let ran = desk.run(&["run", "--resume=kept", "--budget=7"]);
    assert!(ran.out().contains("after 1000 steps"), "{ran:?}");
    let desk = paused();
    let ran = desk.run(&["run", "--resume=kept", "--budget=1000", "--rule=access"]);
    assert_eq!(
        ran.error,
        "carried on under rule access; it was full until the pause\n"
    );
    let ran = desk.run(&["explain", "--resume=kept", "--rule=9"]);
    assert!(ran.out().starts_with("refused by 11: "), "{ran:?}");
}

/// With slices or without, with a file or without.
#[test]
fn the_checkpoint_is_carried_on_in_its_place() {
    let desk = paused();
    let cases = [
        (1500, "", "--slice=400"),
        (1600, "", "--trace"),
        (1700, " counting.mz", "--slice=400"),
        (1800, " counting.mz", "--trace"),
    ];
    for (steps, file, option) in cases {
        let budget = format!("--budget={steps}");
        let mut arguments = vec!["run", "--resume=kept", &budget, option];
        arguments.extend(file.split_whitespace());
        let ran = desk.run(&arguments);
        let last = format!(
            "paused after {steps} steps: carry on with: muntyzhap run{file} --resume kept --budget N, where N is above {steps}\n"
        );
        assert!(ran.out().ends_with(&last), "{ran:?}");
        assert_eq!(ran.status, Some(1));
        assert_eq!(desk.read("kept")[PAUSE_AT..][..4], u32::to_le_bytes(steps));
        assert_eq!(desk.files(), ["counting.mz", "kept"]);
    }
}

#[test]
fn a_checkpoint_may_be_carried_on_in_another_place() {
    let desk = paused();
    let kept = desk.read("kept");
    desk.run(&[
        "run",
        "counting.mz",
        "--resume=kept",
        "--budget=3000",
        "--checkpoint=other",
    ])
    .out();
    let ran = desk.run(&[
        "run",
        "counting.mz",
        "--resume=kept",
        "--budget=1600",
        "--checkpoint=other",
    ]);
    assert_eq!(ran.status, Some(1));
    assert_eq!(desk.files(), ["counting.mz", "kept", "other"]);
    assert_eq!(desk.read("kept"), kept);
    // One that was read from standard input cannot go back there.
    let run = ["run", "counting.mz", "--resume=-", "--budget=1600"];
    desk.run_with(&run, &kept);
    assert_eq!(desk.read("counting.mz.checkpoint"), desk.read("other"));
    desk.run_with(&run, &kept).is(2, "", "\
carried on with budget 1600; it was 1000 until the pause
muntyzhap: counting.mz.checkpoint is there already, a checkpoint after 1600 steps: carry on with --resume counting.mz.checkpoint, or give another place with --checkpoint
");
}

/// Explaining, and a run that ends, leave the checkpoint as it was.
#[test]
fn only_a_pause_is_kept() {
    let desk = paused();
    let kept = desk.read("kept");
    desk.run(&["explain", "--resume=kept", "--budget=1500"]);
    desk.run(&["run", "--resume=kept", "--budget=3000"]);
    desk.run(&["run", "--resume=kept", "--rule=9"]);
    assert_eq!(desk.read("kept"), kept);
    assert_eq!(desk.files(), ["counting.mz", "kept"]);
}

#[test]
fn other_sheets_are_told() {
    let desk = paused();
    let words = |differs: &str| {
        format!("kept is a checkpoint of another run: {differs}; without the file, its own sheets are run")
    };
    let cases = [
        (COUNTING.replace("= 0", "= 1"), "the store differs"),
        (
            COUNTING.replace("i + 1", "i + 2"),
            "the programme differs (give the same --block)",
        ),
        (DEPUTY.to_string(), "store and programme differ"),
    ];
    for (text, differs) in cases {
        desk.put("other.mz", text);
        desk.run(&["run", "other.mz", "--resume=kept"])
            .fails(&words(differs));
    }
    let ran = desk.run(&["run", "--resume=kept", "--block=p0=x"]);
    ran.fails(
        "--block: give the file with the programme too\n`muntyzhap help run` says how to use it",
    );
}
