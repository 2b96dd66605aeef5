//! The program when its reader stops reading.

use std::process::{Command, Stdio};

#[test]
fn a_reader_that_stops_does_no_harm() {
    let mut child = Command::new(env!("CARGO_BIN_EXE_compare"))
        .args(["sheets", "--count", "3000"])
        .stdout(Stdio::piped())
        .stderr(Stdio::piped())
        .spawn()
        .expect("the program starts");
    drop(child.stdout.take());
    let ended = child.wait_with_output().expect("the program ends");
    assert!(ended.status.success());
    assert_eq!(String::from_utf8_lossy(&ended.stderr), "");
}
