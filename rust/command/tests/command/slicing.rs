//! Runs in slices, and signals.

use std::io::{BufRead, BufReader, Read};
use std::os::unix::process::ExitStatusExt;
use std::process::{Child, Command, Stdio};
use std::thread::sleep;
use std::time::Duration;

use crate::desk::{ended, Desk, Ran, COUNTING, ENDLESS};

#[test]
fn slices_come_to_what_one_go_comes_to() {
    let desk = Desk::with("counting.mz", COUNTING);
    let whole = desk.run(&["run", "counting.mz"]);
    let progress = "\
700 of 1000000 steps, block 0 (counting, lab)
1400 of 1000000 steps, block 0 (counting, lab)
";
    desk.run(&["run", "counting.mz", "--slice", "700"])
        .is(0, whole.out(), progress);
    desk.run(&["run", "counting.mz", "--slice=2001"])
        .is(0, whole.out(), "");
    let each = desk.run(&["run", "counting.mz", "--slice=1"]);
    assert_eq!(
        (each.out(), each.error.lines().count()),
        (whole.out(), 2000)
    );
    assert_eq!(desk.files(), ["counting.mz"]);
}

#[test]
fn a_spent_budget_leaves_a_checkpoint() {
    let desk = Desk::with("counting.mz", COUNTING);
    let ran = desk.run(&["run", "counting.mz", "--slice=300", "--budget=1000"]);
    assert_eq!(ran.error.lines().count(), 3);
    assert_eq!((ran.out(), ran.status), (SPENT, Some(1)));
    assert_eq!(desk.files(), ["counting.mz", "counting.mz.checkpoint"]);
}

/// The counting run with a budget of 1000. What to do is said once, at the end.
pub const SPENT: &str = "\
paused by 17: budget spent
  at counting.mz:3:24, block 0 (counting, region lab), offset 0, after 1000 steps: while i < 1000
  The budget is 1000 steps; 1000 steps are done, and this command needs one more.
  It is in a while: if that never ends, no budget is enough.
paused after 1000 steps: carry on with: muntyzhap run counting.mz --resume counting.mz.checkpoint --budget N, where N is above 1000
";

/// Without a checkpoint a spent budget is a refusal, with what to do.
#[test]
fn a_spent_budget_is_no_pause_without_a_checkpoint() {
    let desk = Desk::with("counting.mz", COUNTING);
    for command in ["run", "explain"] {
        let ran = desk.run(&[command, "counting.mz", "--budget=1000"]);
        ran.says(1, "refused by 17: budget spent\n");
        ran.says(1, "\n  What to do: give a larger budget, up to 1000000 steps, or run in slices and carry on from the checkpoint.\n");
    }
    assert_eq!(desk.files(), ["counting.mz"]);
}

/// The largest budget leaves nothing to carry on with, and is told so.
#[test]
fn the_largest_budget_is_kept_too() {
    let desk = Desk::with("endless.mz", ENDLESS);
    let ran = desk.run(&["run", "endless.mz", "--slice=500000"]);
    let progress = "500000 of 1000000 steps, block 0 (lab)\n";
    assert_eq!((ran.error.as_str(), ran.status), (progress, Some(1)));
    assert!(ran.out().starts_with("paused by 17: "), "{}", ran.out());
    let last = "paused after 1000000 steps, the most that a run has; it is kept in endless.mz.checkpoint\n";
    assert!(ran.out().ends_with(last), "{}", ran.out());
}

/// Whatever a run's slices, its refusal is told with all the guards around it.
#[test]
fn a_refusal_is_told_as_in_one_go() {
    let text = "principals low < lab slot a : low = true slot b : lab = 0 slot i : lab = 0\n\
                block lab { if a { { i := 1; i := 2; b := 5 } } else { skip } }";
    let endorsed = text.replace("block lab", "block lab endorsed down to lab");
    let desk = Desk::with("x.mz", endorsed);
    let whole = desk.run(&["run", "x.mz"]);
    whole.says(1, "refused by 16: ");
    let sliced = desk.run(&["run", "x.mz", "--slice=1"]);
    assert_eq!((sliced.out(), sliced.status), (whole.out(), Some(1)));
    assert!(!sliced.out().contains("earlier"), "{}", sliced.out());
}

/// The hint is a command to type: here a shell is given it.
#[test]
fn the_hint_carries_on() {
    let desk = Desk::with("two words.mz", COUNTING);
    let hint = |ran: &Ran| {
        let (_, hint) = ran.out().split_once(": carry on with: ").expect("a hint");
        hint.trim_end().to_string()
    };
    let ran = desk.run(&["run", "two words.mz", "--slice=400", "--budget=1000"]);
    let expected = "muntyzhap run 'two words.mz' --resume 'two words.mz.checkpoint' --budget N, where N is above 1000";
    assert_eq!(hint(&ran), expected);
    let typed = expected.replace("N, where N is above 1000", "3000");
    let muntyzhap = desk.command(&[]).get_program().to_os_string();
    let mut shell = Command::new("sh");
    shell
        .args(["-c", &typed.replacen("muntyzhap", "\"$0\"", 1)])
        .arg(muntyzhap)
        .current_dir(desk.folder())
        .stdout(Stdio::piped())
        .stderr(Stdio::piped());
    let ran = ended(shell.spawn().expect("a shell"), b"");
    assert_eq!(ran.out(), desk.run(&["run", "two words.mz"]).out());

    // What came by standard input is in the checkpoint alone.
    let ran = desk.run_with(
        &["run", "-", "--slice=400", "--budget=1000"],
        COUNTING.as_bytes(),
    );
    let expected = "muntyzhap run --resume muntyzhap.checkpoint --budget N, where N is above 1000";
    assert_eq!(hint(&ran), expected);
}

#[test]
fn the_hint_has_how_the_file_is_taken_and_its_blocks() {
    let desk = Desk::new();
    desk.put("c.bin", desk.sheets(COUNTING));
    let code = desk.sheets(&COUNTING.replace("1000", "2000"));
    let code = &code[code.len() - 56..];
    desk.put("code.bin", code);
    let options = ["--sheets", "--block=p0=code.bin", "--checkpoint=k"];
    let run = [&["run", "c.bin", "--budget=100"][..], &options].concat();
    let ran = desk.run(&run);
    let last = "paused after 100 steps: carry on with: muntyzhap run c.bin --sheets --resume k --budget N, \
                where N is above 100, and the same --block\n";
    assert!(ran.out().ends_with(last), "{ran:?}");
    let ran = desk.run(&["run", "c.bin", "--resume=k", "--budget=9000"]);
    assert!(
        ran.error
            .contains("the programme differs (give the same --block);"),
        "{ran:?}"
    );
    let same = ["--resume=k", "--budget=9000", "--block=p0=code.bin"];
    let ran = desk.run(&[&["run", "c.bin"][..], &same].concat());
    assert!(
        ran.out().starts_with("finished: 1 block, 4001 steps"),
        "{ran:?}"
    );
}

/// A run that does not end by itself, and the first lines of its progress.
pub fn endless(desk: &Desk, options: &[&str]) -> Child {
    desk.put("endless.mz", ENDLESS);
    let mut command = desk.command(&[&["run", "endless.mz"], options].concat());
    let child = command
        .stdout(Stdio::piped())
        .stderr(Stdio::piped())
        .spawn();
    child.expect("the command")
}

pub fn signal(child: &Child, name: &str) {
    let mut kill = Command::new("kill");
    let sent = kill.args([name, &child.id().to_string()]).status();
    assert!(sent.expect("kill").success());
}

#[test]
fn a_signal_pauses_after_the_slice() {
    for name in ["-INT", "-TERM"] {
        let desk = Desk::new();
        let mut child = endless(&desk, &["--slice=10", "--checkpoint=kept"]);
        let mut error = BufReader::new(child.stderr.take().expect("a pipe"));
        let mut first = String::new();
        error.read_line(&mut first).expect("a line");
        assert_eq!(first, "10 of 1000000 steps, block 0 (lab)\n");
        signal(&child, name);
        let mut rest = String::new();
        error.read_to_string(&mut rest).expect("the rest");
        let mut out = String::new();
        let mut stdout = child.stdout.take().expect("a pipe");
        stdout.read_to_string(&mut out).expect("standard output");
        assert_eq!(child.wait().expect("its end").code(), Some(1), "{out}");
        let last = format!("{first}{rest}");
        let last = last.lines().last().unwrap_or_default();
        let (steps, _) = last.split_once(" of ").expect("progress");
        let expected = format!(
            "paused after {steps} steps: carry on with: muntyzhap run endless.mz --resume kept\n"
        );
        assert_eq!(out, expected);
        let further: u32 = steps.parse::<u32>().expect("steps") + 10;
        let budget = format!("--budget={further}");
        let ran = desk.run(&["run", "endless.mz", "--resume=kept", &budget]);
        assert!(ran.out().starts_with("paused by 17: "), "{}", ran.out());
        assert!(
            ran.out().contains(&format!("after {} steps", further)),
            "{}",
            ran.out()
        );
    }
}

/// The trace of one long slice goes on after the first signal.
#[test]
fn a_second_signal_ends_at_once() {
    let desk = Desk::new();
    let mut child = endless(&desk, &["--slice=1000000", "--trace"]);
    let mut error = BufReader::new(child.stderr.take().expect("a pipe"));
    let mut first = String::new();
    error.read_line(&mut first).expect("a line");
    signal(&child, "-INT");
    sleep(Duration::from_millis(100));
    assert!(child.try_wait().expect("its state").is_none());
    signal(&child, "-INT");
    // A command that goes on finds nobody to write to, and ends too.
    drop(error);
    let ended = child.wait().expect("its end");
    assert_eq!(ended.signal(), Some(2));
    assert_eq!(desk.files(), ["endless.mz"]);
}
