//! Every byte of a text has the line that stands for it, and every error says what was found.

use crate::common::{worked_image, WORKED_RUN};
use reference::text::{to_bytes, to_placed_bytes, to_text, PlacedBytes};

fn placed(text: &str) -> PlacedBytes {
    to_placed_bytes(text).unwrap_or_else(|wrong| panic!("{wrong}"))
}

/// The places cover the bytes from the first to the last, one behind the other.
fn covers_all(placed: &PlacedBytes) {
    let mut end = 0;
    for place in &placed.places {
        assert_eq!(place.bytes.start, end);
        end = place.bytes.end;
    }
    assert_eq!(end, placed.bytes.len());
    assert_eq!(placed.line_of(end), None);
}

#[test]
fn the_worked_run_has_a_line_for_each_record_and_each_event() {
    let placed = placed(WORKED_RUN);
    covers_all(&placed);
    assert!(!placed.is_timeline);
    assert_eq!(Ok(&placed.bytes), to_bytes(WORKED_RUN).as_ref());
    // The header, four certificates, two cards, two executables, two rows, then events behind an empty line.
    for (offset, line) in [
        (0, 1),
        (39, 1),
        (40, 2),
        (88, 4),
        (135, 5),
        (136, 6),
        (152, 8),
        (176, 10),
        (180, 11),
        (184, 13),
        (208, 14),
        (519, 26),
    ] {
        assert_eq!(placed.line_of(offset), Some(line), "byte {offset}");
    }
}

#[test]
fn parts_in_any_order_keep_their_lines() {
    let text = "\
phone mode 0 card none clock 1
action 0 untrusted ask operator free manufacturer free third-party ask
executable free
certificate free
executable free
card 7 operator 500
certificate free
";
    let placed = placed(text);
    covers_all(&placed);
    let lines: Vec<usize> = placed.places.iter().map(|place| place.line).collect();
    assert_eq!(lines, [1, 4, 7, 6, 3, 5, 2]);
}

#[test]
fn bytes_have_their_lines_with_a_phone_and_without_one() {
    let placed_events = placed(&format!("{}\nbytes 01\nbytes 02 03\n", worked_image()));
    covers_all(&placed_events);
    assert_eq!(placed_events.line_of(184), Some(12));
    assert_eq!(placed_events.line_of(186), Some(13));
    let placed_image = placed("# an image\nbytes 00 01\n\nbytes 00\ncard-out by device\n");
    covers_all(&placed_image);
    assert_eq!(placed_image.line_of(1), Some(2));
    assert_eq!(placed_image.line_of(2), Some(4));
    assert_eq!(placed_image.line_of(3), Some(5));
    assert_eq!(placed("").line_of(0), None);
}

#[test]
fn a_timeline_has_lines_for_its_seconds_and_for_its_events() {
    let record = format!("record bytes{}", " 01".repeat(32));
    let text = format!(
        "{}\ntimeline\nat 100\ncard-out by device\ncard-out by device\nat 200\ncard-out by device\n{record}\n",
        worked_image()
    );
    let placed = placed(&text);
    covers_all(&placed);
    assert!(placed.is_timeline);
    for (offset, line) in [
        (184, 12),
        (192, 13),
        (200, 14),
        (224, 13),
        (232, 15),
        (256, 16),
        (264, 17),
        (288, 18),
        (319, 18),
    ] {
        assert_eq!(placed.line_of(offset), Some(line), "byte {offset}");
    }
}

#[test]
fn every_start_of_a_stream_is_covered() {
    let bytes = to_bytes(WORKED_RUN).expect("text");
    for end in 0..=bytes.len() {
        covers_all(&placed(&to_text(&bytes[..end])));
    }
}

#[test]
fn every_error_says_what_was_expected_and_what_was_found() {
    let phone = "phone mode 1 card none clock 100";
    let row = "action 0 untrusted ask operator free manufacturer free third-party ask";
    let mut texts: Vec<String> = [
        "jump",
        "certificate free",
        phone,
        "phone",
        "phone mode 3 card none clock 100",
        "bytes",
        "bytes 0",
        "timeline\ncard-out by device",
        "timeline\ntimeline",
        "at 100",
        "at 100\nat 101",
        "at 100\nbytes 03",
        "record bytes 03",
        "card-out by device\nat 100",
        "clock by device to 4294967296",
        "card-out by device now",
        "configuration by administrator enable-listed 1,2,3,4,5,6,7,8,9",
    ]
    .map(String::from)
    .to_vec();
    for part in [
        phone,
        "action 2 bytes 00 00 00 00",
        "executable 1 operator signed 1 permissions 32",
        "executable 1 operator paid permissions none",
        "certificate 1 in phone",
        "certificate bytes 00",
    ] {
        texts.push(format!("{phone}\n{row}\n{part}"));
    }
    for late in [phone, "certificate free"] {
        texts.push(format!("{phone}\n{row}\ncard-out by device\n{late}"));
    }
    texts.push(format!("card-out by device\n{phone}"));
    texts.push(format!("{phone}\n{}", "certificate free\n".repeat(65)));
    texts.push(format!("at 1\n{}", "card-out by device\n".repeat(1001)));
    for text in texts {
        let wrong = to_bytes(&text).expect_err(&text);
        assert!(wrong.line > 0);
        assert!(wrong.message.starts_with("expected "), "{wrong}");
        assert!(wrong.message.contains(", found "), "{wrong}");
    }
}
