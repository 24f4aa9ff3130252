//! The sub-command `own`: owners put into streams and timelines from before 02, "An operator is
//! somebody in particular", and nothing else changed.

use std::io::Write;
use std::process::{Command, Output, Stdio};

use crate::common::{stream, worked_image, WORKED_RUN};
use reference::bench::{run, run_and_watch, split_stream};
use reference::events::Event;
use reference::generate::{case, timelines};
use reference::own::{own, own_timeline};
use reference::text::{timeline_to_text, to_bytes, to_text};
use reference::timeline;

fn reference(words: &[&str], input: &[u8]) -> Output {
    let mut child = Command::new(env!("CARGO_BIN_EXE_reference"))
        .args(words)
        .stdin(Stdio::piped())
        .stdout(Stdio::piped())
        .stderr(Stdio::piped())
        .spawn()
        .expect("the program is built");
    let mut stdin = child.stdin.take().expect("a pipe");
    // Bad usage is told before anything is read.
    let _ = stdin.write_all(input);
    drop(stdin);
    child.wait_with_output().expect("the program ends")
}

/// Events as they were, each with what it becomes.
const EVENTS: [(&str, &str); 9] = [
    ("mark-invalid by operator 0 certificate 10", "mark-invalid by operator 500 certificate 10"),
    // Of another domain the owner is named all the same, and the actor alone is wrong.
    ("mark-valid by manufacturer 0 certificate 10", "mark-valid by manufacturer 500 certificate 10"),
    ("mark-valid by user certificate 10", "mark-valid by user certificate 10"),
    ("mark-valid by operator 0 certificate 99", "mark-valid by operator 0 certificate 99"),
    // An owner that stands there already, right or wrong, stays.
    ("delete-certificate by operator 7 certificate 11", "delete-certificate by operator 7 certificate 11"),
    ("delete-certificate by operator 0 certificate 10", "delete-certificate by operator 500 certificate 10"),
    // Gone by now; and then it is another's.
    ("mark-valid by operator 0 certificate 10", "mark-valid by operator 0 certificate 10"),
    (
        "install-certificate by operator certificate 10 on phone root operator key 1 owner 600 expiry 900",
        "install-certificate by operator certificate 10 on phone root operator key 1 owner 600 expiry 900",
    ),
    ("mark-valid by operator 0 certificate 10", "mark-valid by operator 600 certificate 10"),
];

fn events(which: fn(&(&'static str, &'static str)) -> &'static str) -> String {
    EVENTS.iter().map(which).collect::<Vec<_>>().join("\n")
}

#[test]
fn each_event_gets_the_owner_of_the_record_that_it_meets() {
    let before = stream(worked_image(), &events(|pair| pair.0));
    let after = stream(worked_image(), &events(|pair| pair.1));
    assert_eq!(to_text(&own(&before)), to_text(&after));
    assert_eq!(own(&after), after);
    let told = run(&after).text;
    let codes: Vec<&str> = told.lines().skip(1).map(|line| &line[4..5]).collect();
    assert_eq!(codes, ["0", "4", "4", "3", "4", "0", "3", "0", "0"]);
}

#[test]
fn the_worked_run_gets_its_500() {
    let old = WORKED_RUN.replace("by operator 500", "by operator 0");
    let old = to_bytes(&old).expect("text");
    assert!(run(&old).text.ends_with("\n13 7 4 0 0\n14 1 5 0 0\n"));
    assert_eq!(own(&old), to_bytes(WORKED_RUN).expect("text"));
}

#[test]
fn a_timeline_meets_its_states_in_its_seconds() {
    let at = |events: String| format!("at 100\n{}", events.replacen('\n', "\nat 150\n", 4));
    let before = stream(worked_image(), &at(events(|pair| pair.0)));
    let after = stream(worked_image(), &at(events(|pair| pair.1)));
    let owned = own_timeline(&before);
    assert_eq!(timeline_to_text(&owned), timeline_to_text(&after));
    let as_stream = |bytes: &[u8]| timeline::as_stream(bytes).expect("both are accepted");
    assert_eq!(own(&as_stream(&before)), as_stream(&owned));
}

#[test]
fn where_something_is_refused_all_stays() {
    let mut image = stream(worked_image(), &events(|pair| pair.0));
    image[1] = 2;
    assert_eq!(own(&image), image);
    assert_eq!(own(&image[..30]), image[..30]);
    let falling = format!("at 100\n{}\nat 99\ncard-out by device", EVENTS[0].0);
    let timeline = stream(worked_image(), &falling);
    assert_eq!(own_timeline(&timeline), timeline);
}

#[test]
fn nothing_but_owners_of_0_changes() {
    for number in 0..320 {
        let before = case(21, number).stream;
        // Every owner that is named becomes 0 first.
        let image = split_stream(&before).0.len();
        let mut old = before.clone();
        for record in old[image..].chunks_exact_mut(24) {
            if Event::decode(record).is_some_and(|event| event.names_who_acts()) {
                record[16..20].fill(0);
            }
        }
        let owned = own(&old);
        assert_eq!(owned.len(), old.len());
        for (at, (a, b)) in old.iter().zip(&owned).enumerate() {
            let is_owner = at >= image && (16..20).contains(&((at - image) % 24));
            assert!(a == b || is_owner, "case {number}, byte {at}");
        }
        assert_eq!(own(&owned), owned);
        run_and_watch(&owned, |phone, record, answer, _| {
            let named = Event::decode(record).filter(|event| event.names_who_acts());
            if let Some(event) = named {
                let owner = phone.certificate(event.id).map_or(0, |c| c.owner);
                assert_eq!(event.owner, owner, "case {number}");
                assert!(answer.code != 3 || event.owner == 0);
            }
        });
    }
}

#[test]
fn timelines_keep_their_form() {
    for number in 0..160 {
        let before = timelines::case(21, number).stream;
        let owned = own_timeline(&before);
        assert_eq!(owned.len(), before.len());
        let is_refused = |bytes: &[u8]| timeline::run(bytes).image.is_err();
        assert_eq!(is_refused(&owned), is_refused(&before));
        assert!(!is_refused(&before) || owned == before);
        assert_eq!(own_timeline(&owned), owned);
    }
}

#[test]
fn it_reads_standard_input_and_takes_one_flag() {
    let before = stream(worked_image(), EVENTS[0].0);
    let output = reference(&["own"], &before);
    assert_eq!(output.stdout, stream(worked_image(), EVENTS[0].1));
    assert!(output.stderr.is_empty());
    assert_eq!(output.status.code(), Some(0));
    let timed = |event: &str| stream(worked_image(), &format!("at 300\n{event}"));
    let output = reference(&["own", "--timeline"], &timed(EVENTS[0].0));
    assert_eq!(output.stdout, timed(EVENTS[0].1));
    assert_eq!(output.status.code(), Some(0));
    for words in [
        &["own", "x"][..],
        &["own", "--timelines"],
        &["own", "--timeline", "x"],
    ] {
        let output = reference(words, &before);
        assert!(output.stdout.is_empty(), "{words:?}");
        assert_eq!(output.status.code(), Some(2), "{words:?}");
    }
}
