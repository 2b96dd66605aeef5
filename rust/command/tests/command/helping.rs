//! Help, and what is said of a wrong use.

use crate::desk::{Desk, DEPUTY};

#[test]
fn help_has_the_example_and_every_command() {
    let desk = Desk::new();
    let help = desk.run(&["help"]);
    help.says(0, "    muntyzhap run FILE [FILE2] ");
    for line in DEPUTY.lines() {
        help.says(0, line);
    }
    for ask in ["--help", "-h"] {
        assert_eq!(desk.run(&[ask]), help);
    }
    for command in ["run", "explain", "journal", "asm", "dis", "help"] {
        let help = desk.run(&["help", command]);
        help.says(0, &format!("muntyzhap {command} "));
        assert_eq!(desk.run(&[command, "--help"]), help);
        assert_eq!(desk.run(&[command, "file", "--rule", "-h"]), help);
    }
}

/// The example that help shows is one that runs.
#[test]
fn the_example_of_help_runs() {
    let desk = Desk::new();
    let help = desk.run(&["help"]);
    let lines = help.out().lines();
    let lines = lines.skip_while(|line| !line.contains("principals nobody"));
    let text: String = lines.take(6).map(|line| format!("{line}\n")).collect();
    assert_eq!(desk.sheets(&text), desk.sheets(DEPUTY));
}

#[test]
fn the_version_is_the_commands_and_the_librarys() {
    let version = env!("CARGO_PKG_VERSION");
    let expected = format!("muntyzhap {version}, library {version}\n");
    Desk::new().run(&["--version"]).is(0, &expected, "");
}

#[test]
fn a_wrong_use_is_told_with_what_is_close() {
    let desk = Desk::with("deputy.mz", DEPUTY);
    let help = |command: &str| format!("\n`muntyzhap help {command}` says how to use it");
    let run = help("run");
    let cases = [
        (&[][..], "which command? `muntyzhap help` says what there is".to_string()),
        (&["rum"], "rum is no command; did you mean `run`?\n`muntyzhap help` says what there is".to_string()),
        (&["help", "assemble"], "assemble is no command\n`muntyzhap help` says what there is".to_string()),
        (&["run"], format!("which file? `-` is standard input{run}")),
        (&["run", "a", "b", "c"], format!("at most two files are run, a store and a programme{run}")),
        (&["run", "deputy.mz", "--bugdet=3"], format!("run has no option --bugdet; did you mean `--budget`?{run}")),
        (&["run", "deputy.mz", "--rule"], format!("--rule needs a value after it{run}")),
        (&["run", "deputy.mz", "--trace=1"], format!("--trace takes no value{run}")),
        (&["run", "deputy.mz", "--budget=many"], format!("--budget: many is no number from 0 to 1000000{run}")),
        (&["run", "deputy.mz", "--budget=-1"], format!("--budget: -1 is no number from 0 to 1000000{run}")),
        (&["journal", "deputy.mz", "--budget=4294967296"], format!("--budget: 4294967296 is no number from 0 to 1000000{}", help("journal"))),
        (&["run", "deputy.mz", "--slice=-1"], format!("--slice: -1 is no number from 1 to 1000000{run}")),
        (&["run", "deputy.mz", "--slice=5", "--checkpoint=-"], format!("--checkpoint: a checkpoint needs a file{run}")),
        (&["run", "deputy.mz", "--slice=5", "--checkpoint="], format!("--checkpoint: a checkpoint needs a file{run}")),
        (&["run", "deputy.mz", "--slice=0"], format!("--slice: a slice has at least 1 step{run}")),
        (
            &["run", "deputy.mz", "--rule=ful"],
            format!("--rule: ful is no rule; did you mean `full`?\nthe rules are access, capability, explicit, full, default, or by number 0, 1, 2, 3, 255{run}"),
        ),
    ];
    for (arguments, words) in cases {
        desk.run(arguments).fails(&words);
    }
}

#[test]
fn what_does_not_go_together_is_told() {
    let desk = Desk::with("deputy.mz", DEPUTY);
    let help = |command: &str| format!("\n`muntyzhap help {command}` says how to use it");
    let run = help("run");
    let cases = [
        (
            &["run", "deputy.mz", "--plain", "--slice=5"][..],
            format!("--plain and --slice do not go together: the printing program does not pause{run}"),
        ),
        (
            &["run", "deputy.mz", "--entries=5", "--slice=5"],
            format!("--entries and --slice do not go together: a run that can be paused keeps no journal{run}"),
        ),
        (
            &["run", "deputy.mz", "--sheets", "--text-input"],
            format!("--sheets and --text-input do not go together: a file is one or the other{run}"),
        ),
        (&["run", "-", "-"], format!("standard input can be read once{run}")),
        (&["run", "-", "--block=lab=-"], format!("standard input can be read once{run}")),
        (
            &["run", "deputy.mz", "--slice=5", "--checkpoint=deputy.mz"],
            "deputy.mz is there and is no checkpoint: give another file with --checkpoint".to_string(),
        ),
        (&["journal", "deputy.mz", "--plain"], format!("journal has no option --plain{}", help("journal"))),
        (
            &["journal", "deputy.mz", "--by=slots"],
            format!("--by: slots is not order, slot or block; did you mean `slot`?{}", help("journal")),
        ),
        (&["asm", "a", "b"], format!("one text is assembled: give its file, or - for standard input{}", help("asm"))),
        (&["dis"], format!("one file is listed: give its name, or - for standard input{}", help("dis"))),
    ];
    for (arguments, words) in cases {
        desk.run(arguments).fails(&words);
    }
    assert_eq!(desk.read("deputy.mz"), DEPUTY.as_bytes());
}

#[test]
fn options_end_at_two_dashes() {
    let desk = Desk::with("--rule", DEPUTY);
    desk.run(&["run", "--rule=0", "--", "--rule"])
        .says(0, "finished: 2 blocks");
}
