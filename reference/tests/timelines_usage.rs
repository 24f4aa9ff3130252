//! The sub-commands for timelines from outside: what they print where, how they end, and that the
//! driver finds no fault with `play`.

use std::io::Write;
use std::process::{Command, Output, Stdio};

use crate::common::{stream, worked_image};
use reference::fuzz::{fuzz, Plan, Task, Until};

fn reference(words: &[&str], input: &[u8]) -> Output {
    let mut child = Command::new(env!("CARGO_BIN_EXE_reference"))
        .args(words)
        .stdin(Stdio::piped())
        .stdout(Stdio::piped())
        .stderr(Stdio::piped())
        .spawn()
        .expect("the program is built");
    let mut stdin = child.stdin.take().expect("a pipe");
    // Bad usage is told before anything is read.
    let _ = stdin.write_all(input);
    drop(stdin);
    child.wait_with_output().expect("the program ends")
}

fn timeline() -> Vec<u8> {
    stream(worked_image(), "at 200\nverify by device executable 1")
}

#[test]
fn play_prints_and_tells_on_standard_error_what_breaks_the_form() {
    let output = reference(&["play"], &timeline());
    assert_eq!(
        output.stdout,
        b"event kind code domain links\n1 1 0 0 0\n2 12 0 1 2\n"
    );
    assert!(output.stderr.is_empty());
    assert_eq!(output.status.code(), Some(0));
    let cut = timeline().len() - 1;
    let output = reference(&["play"], &timeline()[..cut]);
    assert_eq!(
        output.stdout,
        b"event kind code domain links\ntimeline 19\n"
    );
    assert_eq!(
        String::from_utf8_lossy(&output.stderr),
        "reference: the timeline breaks its form: there are fewer records than the header counts\n"
    );
    assert_eq!(output.status.code(), Some(0));
    let output = reference(&["play"], &timeline()[..30]);
    assert_eq!(
        output.stdout,
        b"event kind code domain links\nimage 1 1 30\n"
    );
    assert_eq!(output.status.code(), Some(0));
}

#[test]
fn the_image_the_stream_and_the_text_of_a_timeline_come_out() {
    let same = stream(
        worked_image(),
        "clock by device to 200\nverify by device executable 1",
    );
    assert_eq!(reference(&["stream"], &timeline()).stdout, same);
    let image = reference(&["image"], &same).stdout;
    assert_eq!(
        reference(&["image", "--timeline"], &timeline()).stdout,
        image
    );
    let text = reference(&["text", "--timeline"], &timeline()).stdout;
    assert!(text.ends_with(b"\n\ntimeline\nat 200\nverify by device executable 1\n"));
    assert_eq!(reference(&["bytes"], &text).stdout, timeline());
    for words in [&["stream"][..], &["image", "--timeline"]] {
        let output = reference(words, &timeline()[..200]);
        assert!(output.stdout.is_empty());
        assert_eq!(output.status.code(), Some(1));
    }
}

#[test]
fn bad_usage_is_one_line_on_standard_error_and_status_2() {
    for words in [
        &["play", "x"][..],
        &["stream", "--timeline"],
        &["text", "--timelines"],
        &["image", "--timeline", "x"],
        &["vectors", "--play"],
        &[
            "cases",
            "--timelines",
            "--why",
            "--seed",
            "1",
            "--runs",
            "1",
            "--into",
            "x",
        ],
        &[
            "cases",
            "--timelines",
            "--fresh",
            "--seed",
            "1",
            "--runs",
            "1",
            "--into",
            "x",
        ],
        &[
            "fuzz",
            "--timelines",
            "--damaged",
            "--seed",
            "1",
            "--runs",
            "1",
            "--",
            "x",
        ],
    ] {
        let output = reference(words, &timeline());
        let message = String::from_utf8_lossy(&output.stderr);
        assert!(output.stdout.is_empty(), "{words:?}");
        assert_eq!(message.lines().count(), 1, "{words:?}: {message}");
        assert_eq!(output.status.code(), Some(2), "{words:?}");
    }
}

#[test]
fn cases_are_written_and_run_again() {
    let folder = std::env::temp_dir().join(format!("reference-cases-{}", std::process::id()));
    let into = folder.to_string_lossy().into_owned();
    let words = [
        "--seed",
        "1",
        "--runs",
        "20",
        "--most-bytes",
        "1000",
        "--into",
        &into,
    ];
    let written = reference(&[&["cases", "--timelines"][..], &words].concat(), &[]);
    let run_again = reference(&["vectors", "--play", &into], &[]);
    std::fs::remove_dir_all(&folder).expect("the folder is there");
    assert!(written.stdout.starts_with(b"timelines 20\n"));
    assert!(run_again.stdout.starts_with(b"20 cases, 0 differ\n"));
    assert_eq!(run_again.status.code(), Some(0));
}

/// The message of the first difference between the reference and a sub-command of its own.
fn difference_of(sub_command: &str) -> Option<String> {
    let name = format!("reference-player-{sub_command}-{}", std::process::id());
    let keep = std::env::temp_dir().join(name);
    let plan = Plan {
        task: Task::Play,
        seed: 1,
        until: Until::Runs(48),
        workers: 2,
        keep: keep.clone(),
        command: [env!("CARGO_BIN_EXE_reference"), sub_command]
            .map(String::from)
            .to_vec(),
    };
    let outcome = fuzz(&plan).expect("the program is built");
    // Only a difference makes the folder.
    let _ = std::fs::remove_dir_all(&keep);
    outcome.difference.map(|difference| difference.message)
}

#[test]
fn the_driver_finds_no_fault_with_play_and_finds_one_with_another_program() {
    assert_eq!(difference_of("play"), None);
    let message = difference_of("bench").expect("a difference");
    assert!(message.starts_with("event 1"), "{message}");
}
