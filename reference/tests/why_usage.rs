//! The sub-command `why` from outside: what it prints where, how it ends, and that the driver finds
//! no fault with it.

use std::io::Write;
use std::process::{Command, Output, Stdio};

use crate::common::{stream, worked_image};
use reference::fuzz::{fuzz, Plan, Task, Until};

fn why(words: &[&str], input: &[u8]) -> Output {
    let mut child = Command::new(env!("CARGO_BIN_EXE_reference"))
        .arg("why")
        .args(words)
        .stdin(Stdio::piped())
        .stdout(Stdio::piped())
        .stderr(Stdio::piped())
        .spawn()
        .expect("the program is built");
    let mut stdin = child.stdin.take().expect("a pipe");
    // Bad usage is told before anything is read.
    let _ = stdin.write_all(input);
    drop(stdin);
    child.wait_with_output().expect("the program ends")
}

#[test]
fn an_answer_is_on_standard_output_alone() {
    let input = stream(worked_image(), "clock by device to 201");
    for (words, text) in [
        (
            &["1"][..],
            "certificate 10 is a trusted root\ncertificate 11 is verified by certificate 10\n",
        ),
        (&["0001", "1"], "certificate 11 is past its date\n"),
        (&["1", "65535"], "certificate 11 is past its date\n"),
        (&["1", "1000000"], "certificate 11 is past its date\n"),
    ] {
        let output = why(words, &input);
        assert_eq!(String::from_utf8_lossy(&output.stdout), text);
        assert!(output.stderr.is_empty());
        assert_eq!(output.status.code(), Some(0));
    }
    let output = why(&["1"], &input[..30]);
    assert_eq!(output.stdout, b"image 1 1 30\n");
    assert_eq!(output.status.code(), Some(0));
}

#[test]
fn an_unknown_id_is_named_on_standard_error() {
    for id in ["0", "12345"] {
        let output = why(&[id], &stream(worked_image(), ""));
        assert_eq!(output.stdout, b"executable 3\n");
        let message = String::from_utf8_lossy(&output.stderr);
        assert_eq!(
            message,
            format!("reference: no executable has the id {id}\n")
        );
        assert_eq!(output.status.code(), Some(0));
    }
}

#[test]
fn bad_usage_is_one_line_on_standard_error_and_status_2() {
    for words in [
        &[][..],
        &[""],
        &["x"],
        &["-1"],
        &["+1"],
        &["1.5"],
        &["1 2"],
        &["0x10"],
        &["65536"],
        &["18446744073709551617"],
        &["1", "x"],
        &["1", "18446744073709551617"],
        &["1", "2", "3"],
        &["a\nb"],
    ] {
        let output = why(words, &stream(worked_image(), ""));
        let message = String::from_utf8_lossy(&output.stderr);
        assert!(output.stdout.is_empty(), "{words:?}");
        assert_eq!(message.lines().count(), 1, "{words:?}: {message}");
        assert_eq!(output.status.code(), Some(2), "{words:?}");
    }
}

/// The message of the first difference between the reference and a sub-command of its own.
fn difference_of(sub_command: &str) -> Option<String> {
    let keep = std::env::temp_dir().join(format!("reference-driver-{}", std::process::id()));
    let plan = Plan {
        task: Task::Why,
        seed: 1,
        until: Until::Runs(20),
        workers: 2,
        keep: keep.clone(),
        command: [env!("CARGO_BIN_EXE_reference"), sub_command]
            .map(String::from)
            .to_vec(),
    };
    let outcome = fuzz(&plan).expect("the program is built");
    // Only a difference makes the folder.
    let _ = std::fs::remove_dir_all(&keep);
    outcome.difference.map(|difference| difference.message)
}

#[test]
fn the_driver_finds_no_fault_with_why_and_finds_one_with_another_program() {
    assert_eq!(difference_of("why"), None);
    let message = difference_of("bench").expect("a difference");
    assert!(message.starts_with("asked `"), "{message}");
    assert!(message.contains("line 1: missing, expected"), "{message}");
}
