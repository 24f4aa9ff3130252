//! The text form leads back to the same bytes, and its errors name the line.

use reference::generate::case;
use reference::text::{to_bytes, to_text};

use crate::common::{worked_image, WORKED_RUN};

fn leads_back(bytes: &[u8]) {
    assert_eq!(to_bytes(&to_text(bytes)).as_deref(), Ok(bytes));
}

#[test]
fn every_case_leads_back() {
    for number in 0..320 {
        leads_back(&case(11, number).stream);
    }
}

#[test]
fn every_start_of_a_stream_leads_back() {
    let stream = to_bytes(WORKED_RUN).expect("text");
    for end in 0..=stream.len() {
        leads_back(&stream[..end]);
    }
}

#[test]
fn every_changed_byte_leads_back() {
    let stream = to_bytes(WORKED_RUN).expect("text");
    for at in 0..stream.len() {
        for value in [0, 1, 2, 3, 4, 16, 255] {
            let mut changed = stream.clone();
            changed[at] = value;
            leads_back(&changed);
        }
    }
}

/// A recovery record, and every event that is about one.
const RECOVERY: &str = "\
phone mode 1 card none clock 100
certificate 10 on phone root operator valid enabled key 1000 owner 500 expiry 1000
certificate 40 on phone recovery operator key 4000 owner 500 expiry 1000
certificate free
action 0 untrusted ask operator free manufacturer free third-party ask

replace by operator certificate 10 with 40 key 1002 by 4000 owner 500 expiry 900
install-certificate by operator certificate 41 on phone recovery operator key 4001 owner 500 expiry 1000
install-certificate by user certificate 42 on card 3 recovery third-party key 4001 owner 0 expiry 0
delete-certificate by operator 500 certificate 40
mark-valid by operator 500 certificate 41
";

#[test]
fn recovery_keys_have_words_both_ways() {
    let stream = to_bytes(RECOVERY).expect("text");
    assert_eq!(to_text(&stream), RECOVERY);
    // Kind, domain, mark and enabled of the record; then the whole event.
    assert_eq!(stream[68..72], [2, 1, 0, 1]);
    let replace = [
        16, 2, 0, 10, 0, 40, 0, 0, 0, 0, 3, 234, 0, 0, 15, 160, 0, 0, 1, 244, 0, 0, 3, 132,
    ];
    assert_eq!(stream[116..140], replace);
    assert_eq!(stream[146..148], [2, 1]);
}

#[test]
fn every_changed_byte_of_recovery_keys_leads_back() {
    let stream = to_bytes(RECOVERY).expect("text");
    for at in 0..stream.len() {
        for value in [0, 1, 2, 3, 16, 17, 255] {
            let mut changed = stream.clone();
            changed[at] = value;
            leads_back(&changed);
        }
    }
}

#[test]
fn a_recovery_record_that_breaks_a_rule_is_in_words_as_far_as_they_go() {
    let mut stream = to_bytes(RECOVERY).expect("text");
    // A mark and a verifying key have no words, a place and a domain have.
    stream[70] = 1;
    assert!(to_text(&stream).contains("\ncertificate bytes 00 28 00 00 02 01 01 01 "));
    stream[70] = 0;
    stream[79] = 1;
    assert!(to_text(&stream).contains("\ncertificate bytes 00 28 00 00 02 01 00 01 "));
    stream[79] = 0;
    stream[67] = 3;
    stream[69] = 3;
    assert!(to_text(&stream).contains("\ncertificate 40 on card 3 recovery third-party key 4000 "));
    // A field that a replace does not use.
    stream[116 + 6] = 1;
    assert!(to_text(&stream).contains("\nbytes 10 02 00 0a 00 28 01 00 "));
}

/// Who deletes and marks: an operator and a manufacturer each with an owner number, others without.
const WHO_ACTS: &str = "\
mark-valid by operator 500 certificate 10
delete-certificate by manufacturer 70 certificate 3
mark-invalid by operator 0 certificate 10
mark-invalid by manufacturer 4294967295 certificate 65535
delete-certificate by user certificate 30
mark-valid by administrator certificate 30
mark-invalid by device certificate 30
";

#[test]
fn who_acts_has_words_both_ways() {
    let text = format!("{}\n\n{WHO_ACTS}", worked_image());
    let stream = to_bytes(&text).expect("text");
    assert_eq!(to_text(&stream), text);
    let mut mark = [0; 24];
    mark[..4].copy_from_slice(&[7, 2, 0, 10]);
    mark[18..20].copy_from_slice(&[1, 244]);
    assert_eq!(stream[184..208], mark);
    assert_eq!(stream[184 + 3 * 24 + 16..][..4], [255; 4]);
    for at in 184..stream.len() {
        for value in [0, 1, 2, 3, 4, 5, 6, 7, 8, 9, 255] {
            let mut changed = stream.clone();
            changed[at] = value;
            leads_back(&changed);
        }
    }
}

#[test]
fn an_owner_of_nobody_in_particular_is_in_hex() {
    let image = worked_image();
    for (actor, name) in [("00", "device"), ("01", "user"), ("04", "administrator")] {
        for kind in ["06", "07", "08"] {
            let rest = "00 1e 00 00 00 00 00 00 00 00 00 00 00 00 00 00 01 f4 00 00 00 00";
            let text = format!("{image}\n\nbytes {kind} {actor} {rest}\n");
            let stream = to_bytes(&text).expect("text");
            assert_eq!(to_text(&stream), text, "{name}");
        }
    }
    // So is a field that is not used beside an owner that is.
    let text = format!("{image}\n\nbytes 07 02 00 0a 00 00 00 00 00 00 00 00 00 00 00 00 00 00 01 f4 00 00 00 01\n");
    assert_eq!(to_text(&to_bytes(&text).expect("text")), text);
}

#[test]
fn comments_and_empty_lines_are_left_out() {
    let with_comments = WORKED_RUN
        .lines()
        .map(|line| format!("\n  {line}   # says what\n# a whole line\n"))
        .collect::<String>();
    assert_eq!(to_bytes(&with_comments), to_bytes(WORKED_RUN));
}

#[test]
fn what_has_no_words_is_written_in_hex() {
    let mut stream = to_bytes(WORKED_RUN).expect("text");
    stream[46] = 9;
    stream[152 + 3] = 7;
    stream[184 + 23] = 1;
    let text = to_text(&stream);
    assert!(text.contains("\ncertificate bytes 00 0a 00 00 00 01 09 01 "));
    assert!(text.contains("\nexecutable bytes 00 01 01 07 "));
    assert!(text.contains("\nbytes 0f 00 00 01 00 01 "));
    assert!(text.contains("\nclock by device to 200\n"));
}

/// The line and the message of a text that cannot be read.
fn wrong(text: &str) -> (usize, String) {
    match to_bytes(text) {
        Err(wrong) => (wrong.line, wrong.message),
        Ok(_) => panic!("this should not have been read: {text}"),
    }
}

const NO_OWNER: &str = "expected no owner number, which only an operator or a manufacturer has that deletes or marks a certificate";

#[test]
fn errors_name_the_line_and_what_was_expected() {
    let image = worked_image();
    let at_12 = |line: &str| wrong(&format!("{image}\n{line}"));
    assert_eq!(
        at_12("clock by nobody to 3"),
        (
            12,
            "expected one of device, user, operator, manufacturer, administrator, found `nobody`"
                .into()
        )
    );
    assert_eq!(
        at_12("clock by device to 4294967296"),
        (
            12,
            "expected the new time, a number from 0 to 4294967295, found `4294967296`".into()
        )
    );
    assert_eq!(
        at_12("card-out by device now"),
        (12, "expected the end of the line, found `now`".into())
    );
    assert_eq!(
        at_12("verify by device"),
        (
            12,
            "expected `executable`, found the end of the line".into()
        )
    );
    assert_eq!(
        at_12("bytes 0g"),
        (
            12,
            "expected bytes of two hex digits each, found `0g`".into()
        )
    );
    assert_eq!(
        at_12("action 3 bytes 00 00 00 00").1,
        "expected action 2 next, found 3"
    );
    assert_eq!(
        at_12("certificate bytes 00").1,
        "expected 24 bytes, found 1"
    );
    assert_eq!(
        at_12("certificate 40 on phone recovery operator valid enabled key 1 owner 2 expiry 3"),
        (12, "expected `key`, found `valid`".into())
    );
    assert_eq!(
        at_12("certificate 40 on phone recovery operator key 1 by 4 owner 2 expiry 3"),
        (12, "expected `owner`, found `by`".into())
    );
    assert_eq!(
        at_12("certificate 40 on phone spare operator key 1 owner 2 expiry 3"),
        (
            12,
            "expected one of root, issued, recovery, found `spare`".into()
        )
    );
    assert_eq!(
        at_12("replace by operator certificate 10 key 1002 by 4000 owner 500 expiry 900"),
        (12, "expected `with`, found `key`".into())
    );
    assert_eq!(
        at_12("replace by operator certificate 10 with 65536 key 1 by 2 owner 3 expiry 4"),
        (
            12,
            "expected the recovery record's id, a number from 0 to 65535, found `65536`".into()
        )
    );
    assert_eq!(
        at_12("replace by operator certificate 10 with 40 key 1002 by owner 500 expiry 900"),
        (
            12,
            "expected the recovery key, a number from 0 to 4294967295, found `owner`".into()
        )
    );
    assert_eq!(
        at_12("replace by operator certificate 10 with 40 key 1002 owner 500 expiry 900"),
        (12, "expected `by`, found `owner`".into())
    );
    for kind in ["delete-certificate", "mark-valid", "mark-invalid"] {
        for actor in ["operator", "manufacturer"] {
            let missing = format!(
                "expected the {actor}'s owner number, a number from 0 to 4294967295, found `certificate`"
            );
            assert_eq!(
                at_12(&format!("{kind} by {actor} certificate 10")),
                (12, missing)
            );
        }
        for actor in ["device", "user", "administrator"] {
            let too_much = at_12(&format!("{kind} by {actor} 500 certificate 10"));
            assert_eq!(too_much, (12, format!("{NO_OWNER}, found `500`")));
        }
    }
    assert_eq!(
        at_12("mark-valid by operator 4294967296 certificate 10").1,
        "expected the operator's owner number, a number from 0 to 4294967295, found `4294967296`"
    );
    assert_eq!(
        at_12("mark-valid by operator owner 500 certificate 10").1,
        "expected the operator's owner number, a number from 0 to 4294967295, found `owner`"
    );
    assert_eq!(
        at_12("mark-valid by operator 500 600 certificate 10").1,
        "expected `certificate`, found `600`"
    );
    // An install and a replace have their owner further on.
    for event in [
        "install-certificate by operator 500 certificate 40 on phone root operator key 1 owner 2 expiry 3",
        "replace by operator 500 certificate 10 with 40 key 1 by 2 owner 3 expiry 4",
        "delete-executable by operator 500 executable 1",
    ] {
        assert_eq!(at_12(event).1, format!("{NO_OWNER}, found `500`"));
    }
    assert_eq!(wrong("\ncertificate free").0, 2);
    assert_eq!(
        wrong("phone mode 1 card none clock 1").1,
        "expected at least one action line for this phone, found none"
    );
    assert_eq!(
        wrong("jump").1,
        "expected phone, certificate, card, executable, action, bytes, at or an event, found `jump`"
    );
}
