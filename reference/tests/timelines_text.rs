//! The text form of timelines leads back to the same bytes, and its errors name the line.

use crate::common::{stream, worked_image};
use reference::generate::timelines::case;
use reference::text::{timeline_to_text, to_bytes};

fn leads_back(bytes: &[u8]) {
    assert_eq!(to_bytes(&timeline_to_text(bytes)).as_deref(), Ok(bytes));
}

/// Words behind the worked run's image, as the text form writes them.
const WORDS: &str = "\
timeline
at 100
request by device executable 1 action 1
card-in by device card 2
at 200
bytes 11 00 00 00 00 00 00 00 00 00 00 00 00 00 00 00 00 00 00 00 00 00 00 00
record bytes 00 00 00 c8 00 00 00 01 03 00 00 00 00 00 00 00 00 00 00 00 00 00 00 00 00 00 00 00 00 00 00 00
card-out by device
at 150
clock by device to 150
";

fn text_of_words() -> String {
    format!("{}\n\n{WORDS}", worked_image())
}

#[test]
fn words_lead_to_bytes_and_back() {
    let bytes = to_bytes(&text_of_words()).expect("text");
    assert_eq!(bytes.len(), 184 + 8 + 6 * 32);
    assert_eq!(bytes[184..192], [0, 1, 0, 6, 0, 0, 0, 8]);
    // The event behind a record in hex is in the second of the last `at` line.
    assert_eq!(bytes[192 + 4 * 32..][..9], [0, 0, 0, 200, 0, 0, 0, 0, 3]);
    assert_eq!(timeline_to_text(&bytes), text_of_words());
    let empty = format!("{}\n\ntimeline\n", worked_image());
    let bytes = to_bytes(&empty).expect("text");
    assert_eq!(bytes[184..], [0, 1, 0, 0, 0, 0, 0, 8]);
    assert_eq!(timeline_to_text(&bytes), empty);
}

#[test]
fn the_first_at_line_makes_a_timeline_without_a_timeline_line() {
    let with = to_bytes(&text_of_words()).expect("text");
    let without = to_bytes(&text_of_words().replace("timeline\n", "")).expect("text");
    assert_eq!(with, without);
    // A second may be said again before each event.
    let events = "card-in by device card 2\ncard-out by device";
    let once = stream(worked_image(), &format!("at 200\n{events}"));
    let twice = stream(
        worked_image(),
        &format!("at 200\n{}", events.replace('\n', "\nat 200\n")),
    );
    assert_eq!(once, twice);
}

#[test]
fn comments_and_empty_lines_are_left_out() {
    let commented: String = text_of_words()
        .lines()
        .map(|line| format!("\n  {line}   # says what\n# a whole line, at 300\n"))
        .collect();
    assert_eq!(to_bytes(&commented), to_bytes(&text_of_words()));
}

#[test]
fn every_case_leads_back() {
    for number in 0..320 {
        leads_back(&case(11, number).stream);
    }
}

#[test]
fn every_start_and_every_changed_byte_lead_back() {
    let bytes = to_bytes(&text_of_words()).expect("text");
    for end in 0..=bytes.len() {
        leads_back(&bytes[..end]);
    }
    for at in 0..bytes.len() {
        for value in [0, 1, 2, 6, 8, 100, 255] {
            let mut changed = bytes.clone();
            changed[at] = value;
            leads_back(&changed);
        }
    }
}

#[test]
fn an_image_in_hex_can_have_a_timeline_in_words_behind_it() {
    let mut bytes = to_bytes(&text_of_words()).expect("text");
    bytes[1] = 2;
    let text = timeline_to_text(&bytes);
    assert!(text.starts_with("bytes 00 02 00 04 "));
    assert!(text.ends_with(WORDS));
    leads_back(&bytes);
}

#[test]
fn a_header_that_is_not_in_form_is_in_hex_with_all_behind_it() {
    let bytes = to_bytes(&text_of_words()).expect("text");
    for (at, value) in [(185, 2), (187, 7), (191, 9)] {
        let mut changed = bytes.clone();
        changed[at] = value;
        let text = timeline_to_text(&changed);
        assert!(!text.contains("at 100") && text.contains("\n\nbytes 00 0"));
        leads_back(&changed);
    }
}

/// The line and the message of words behind the image that cannot be read; the first is line 12.
fn wrong(words: &str) -> (usize, String) {
    match to_bytes(&format!("{}\n{words}", worked_image())) {
        Err(wrong) => (wrong.line, wrong.message),
        Ok(_) => panic!("this should not have been read: {words}"),
    }
}

#[test]
fn a_text_is_a_stream_or_a_timeline_and_never_both() {
    let before =
        "expected an `at` line before this, since line 13 makes the text a timeline, found none";
    assert_eq!(
        wrong("card-out by device\nat 200\ncard-out by device"),
        (12, before.to_string())
    );
    assert_eq!(wrong("bytes 00\ntimeline"), (12, before.to_string()));
    assert_eq!(
        wrong("timeline\ncard-out by device"),
        (
            13,
            "expected an `at` line before this event of a timeline, found none".into()
        )
    );
    assert_eq!(
        wrong("at 100\ncard-out by device\ntimeline"),
        (
            14,
            "expected one timeline line only, before all `at` lines, found another one".into()
        )
    );
}

#[test]
fn a_second_in_which_nothing_happens_cannot_be_said() {
    let message = "expected an event behind this `at` line, found none".to_string();
    assert_eq!(wrong("at 100"), (12, message.clone()));
    assert_eq!(
        wrong("at 100\n\nat 101\ncard-out by device"),
        (12, message.clone())
    );
    assert_eq!(
        wrong("at 100\ncard-out by device\nat 101\n# the end"),
        (14, message)
    );
}

#[test]
fn errors_name_the_line_and_what_was_expected() {
    assert_eq!(
        wrong("at noon\ncard-out by device"),
        (
            12,
            "expected the second, a number from 0 to 4294967295, found `noon`".into()
        )
    );
    assert_eq!(
        wrong("at 100 card-out by device"),
        (12, "expected the end of the line, found `card-out`".into())
    );
    assert_eq!(
        wrong("at 100\nbytes 03 00"),
        (13, "expected 24 bytes, found 2".into())
    );
    assert_eq!(
        wrong("record bytes 03 00"),
        (12, "expected 32 bytes, found 2".into())
    );
    assert_eq!(
        wrong("at 100\ncertificate free\ncard-out by device").1,
        "expected the parts of the phone before all events and bytes, found `certificate` behind them"
    );
    assert_eq!(
        wrong("at 100\njump by device").1,
        "expected phone, certificate, card, executable, action, bytes, at or an event, found `jump`"
    );
    let many = format!("at 100\n{}", "card-out by device\n".repeat(1001));
    assert_eq!(
        wrong(&many),
        (
            12 + 1001,
            "expected at most 1000 events, found one more".into()
        )
    );
}
