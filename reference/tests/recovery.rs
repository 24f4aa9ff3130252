//! 02, "Recovery keys": certificate kind 2 and event 16, each code and what lies beside it, what a
//! replace does, and what a recovery record is not.

use crate::common::{answers, codes, phone_after, refusal, stream};
use reference::events::{step_image, Event, REPLACE};
use reference::phone::{Certificate, Phone, OPERATOR, ROOT};
use reference::text::to_bytes;
use reference::why::Question;

/// Certificates from byte 40; no card is in, and one slot is free.
const IMAGE: &str = "\
phone mode 1 card none clock 100
certificate 9 on phone root operator invalid enabled key 900 owner 500 expiry 900
certificate 10 on phone root operator valid enabled key 1000 owner 500 expiry 1000
certificate 11 on phone issued operator key 1001 by 1000 owner 500 expiry 900
certificate 13 on phone root operator invalid enabled key 1300 owner 600 expiry 900
certificate 14 on card 1 root operator invalid enabled key 1400 owner 500 expiry 900
certificate 15 on card 2 root operator valid enabled key 1500 owner 600 expiry 900
certificate 16 on card 2 issued operator key 1600 by 1500 owner 500 expiry 900
certificate 17 on phone issued operator key 1700 by 4000 owner 600 expiry 900
certificate 20 on phone root manufacturer valid enabled key 2000 owner 70 expiry 900
certificate 21 on phone root manufacturer invalid enabled key 2100 owner 70 expiry 900
certificate 30 on phone root third-party valid enabled key 3000 owner 500 expiry 900
certificate 31 on card 2 issued third-party key 3100 by 3000 owner 500 expiry 900
certificate 40 on phone recovery operator key 4000 owner 500 expiry 0
certificate 41 on phone recovery operator key 4100 owner 600 expiry 900
certificate 42 on phone recovery manufacturer key 4200 owner 70 expiry 900
certificate 43 on phone recovery manufacturer key 4300 owner 500 expiry 900
certificate free
card 1 operator 500
card 2 operator 600
executable 1 operator signed 1001 permissions none
executable 2 operator signed 1000 permissions 0
executable 3 untrusted signed 1002 permissions none
executable 4 untrusted signed 4000 permissions none
executable 5 manufacturer signed 2000 permissions none
executable 6 untrusted signed 1700 permissions none
action 0 untrusted never operator free manufacturer free third-party free";

/// The replace that is done: what follows in the tests is this but for one thing.
const DONE: &str =
    "replace by operator certificate 10 with 40 key 1002 by 4000 owner 500 expiry 900";

fn code(event: &str) -> u8 {
    codes(IMAGE, event)[0]
}

/// The code of the replace that is done, with words of it changed.
fn changed(from: &str, to: &str) -> u8 {
    assert_eq!(DONE.matches(from).count(), 1, "`{from}` in the event");
    code(&DONE.replace(from, to))
}

/// The code of the replace that is done, with its bytes changed.
fn with_field(change: impl Fn(&mut Event)) -> u8 {
    let mut event = Event::decode(&to_bytes(DONE).expect("text")).expect("an event");
    change(&mut event);
    step_image(&mut stream(IMAGE, ""), &event.encode()).code
}

/// The code of the last event.
fn code_after(events: &str, event: &str) -> u8 {
    codes(IMAGE, &format!("{events}\n{event}"))
        .last()
        .copied()
        .expect("an event")
}

fn slot_of(phone: &Phone, id: u16) -> Option<usize> {
    let mut slots = phone.certificates.iter();
    slots.position(|slot| slot.is_some_and(|c| c.id == id))
}

#[test]
fn the_root_keeps_its_id_and_slot_and_takes_key_owner_and_date() {
    let before = phone_after(IMAGE, "");
    let after = phone_after(IMAGE, DONE);
    assert_eq!(slot_of(&after, 10), Some(1));
    let replaced = Certificate {
        id: 10,
        place: 0,
        kind: ROOT,
        domain: OPERATOR,
        mark: 1,
        enabled: 1,
        key: 1002,
        verifying_key: 0,
        owner: 500,
        expiry: 900,
    };
    assert_eq!(after.certificates[1], Some(replaced));
    // No other record is another, the recovery one neither.
    let others = |phone: &Phone| {
        let mut certificates = phone.certificates.clone();
        certificates.remove(1);
        certificates
    };
    assert_eq!(others(&after), others(&before));
    assert_eq!(after.clock, before.clock);
    assert_eq!(after.card_present, before.card_present);
}

#[test]
fn a_root_without_a_mark_is_marked_valid() {
    let events = "\
mark-invalid by operator 500 certificate 10
replace by operator certificate 9 with 40 key 1002 by 4000 owner 500 expiry 100
verify by device executable 3";
    assert_eq!(answers(IMAGE, events), [(0, 0, 0), (0, 0, 0), (0, 1, 1)]);
    let phone = phone_after(IMAGE, events);
    assert_eq!(phone.certificate(9).map(|c| c.mark), Some(1));
    assert_eq!(phone.certificate(9).map(|c| c.expiry), Some(100));
    assert_eq!(phone.certificate(10).map(|c| c.mark), Some(0));
}

#[test]
fn the_old_signature_is_lost_and_the_new_one_waits_to_be_verified() {
    let events = format!(
        "\
request by device executable 1 action 0
request by device executable 2 action 0
request by device executable 5 action 0
{DONE}
request by device executable 1 action 0
request by device executable 2 action 0
request by device executable 5 action 0
request by device executable 3 action 0
verify by device executable 1
verify by device executable 2
verify by device executable 3
request by device executable 3 action 0"
    );
    assert_eq!(
        answers(IMAGE, &events),
        [
            (0, 1, 2),
            (0, 1, 1),
            (0, 2, 1),
            (0, 0, 0),
            (15, 0, 0),
            (15, 0, 0),
            (0, 2, 1),
            (15, 0, 0),
            (0, 0, 0),
            (0, 0, 0),
            (0, 1, 1),
            (0, 1, 1),
        ]
    );
    let phone = phone_after(IMAGE, DONE);
    let domains: Vec<u8> = phone.occupied_executables().map(|e| e.domain).collect();
    assert_eq!(domains, [0, 0, 0, 0, 2, 0]);
    // A permission outlives the change of domain.
    assert_eq!(phone.executable(2).map(|e| e.permissions), Some(1));
}

#[test]
fn a_new_key_that_serves_an_old_chain_loses_nobody() {
    // The same key again, and then a twin of the certificate below it.
    let same = DONE.replace("key 1002", "key 1000");
    let twin = DONE.replace("key 1002", "key 1001");
    let request = "request by device executable 1 action 0";
    let told = answers(IMAGE, &format!("{same}\n{request}\n{twin}\n{request}"));
    assert_eq!(told, [(0, 0, 0), (0, 1, 2), (0, 0, 0), (0, 1, 1)]);
}

#[test]
fn a_replaced_root_can_be_replaced_again() {
    let again = "replace by operator certificate 10 with 40 key 1003 by 4000 owner 500 expiry 900";
    assert_eq!(code_after(DONE, again), 0);
    // By the recovery key, and not by the key that the first replace brought.
    let wrong = "replace by operator certificate 10 with 40 key 1003 by 1002 owner 500 expiry 900";
    assert_eq!(code_after(DONE, wrong), 17);
}

#[test]
fn code_2_is_about_the_form() {
    assert_eq!(code(DONE), 0);
    assert_eq!(changed("certificate 10", "certificate 0"), 2);
    assert_eq!(changed("with 40", "with 0"), 2);
    assert_eq!(changed("key 1002", "key 0"), 2);
    assert_eq!(with_field(|event| event.third = 1), 2);
    assert_eq!(with_field(|event| event.fourth = 1), 2);
    assert_eq!(with_field(|event| event.actor = 5), 2);
    assert_eq!(with_field(|event| event.kind = REPLACE + 1), 2);
    // What else may be 0: a verifying key and an owner that do not fit, and a date that is past.
    assert_eq!(changed("by 4000", "by 0"), 17);
    assert_eq!(changed("owner 500", "owner 0"), 17);
    assert_eq!(changed("expiry 900", "expiry 0"), 18);
    assert_eq!(changed("expiry 900", "expiry 4294967295"), 0);
}

#[test]
fn code_3_is_about_either_id() {
    assert_eq!(changed("certificate 10", "certificate 99"), 3);
    assert_eq!(changed("with 40", "with 99"), 3);
    // The ids of executables are another space.
    assert_eq!(changed("with 40", "with 4"), 3);
    // 3 before 4: nobody may, and one of the two is not there.
    let by_user = "replace by user certificate 30 with 99 key 1002 by 0 owner 0 expiry 900";
    assert_eq!(code(by_user), 3);
}

#[test]
fn code_4_goes_by_the_domain_of_the_root() {
    for actor in ["device", "user", "manufacturer", "administrator"] {
        assert_eq!(changed("by operator", &format!("by {actor}")), 4);
    }
    let manufacturer = "replace by manufacturer certificate 20 with 42 key 2002 by 4200 owner 70";
    assert_eq!(code(&format!("{manufacturer} expiry 900")), 0);
    let by_operator = manufacturer.replace("by manufacturer", "by operator");
    assert_eq!(code(&format!("{by_operator} expiry 900")), 4);
    // The first record decides, also where it is none to replace.
    assert_eq!(changed("certificate 10", "certificate 42"), 4);
}

#[test]
fn code_4_leaves_third_party_records_to_nobody() {
    for actor in [
        "device",
        "user",
        "operator",
        "manufacturer",
        "administrator",
    ] {
        let by = format!("by {actor}");
        for (id, second) in [(30, 40), (31, 40), (10, 30), (10, 31), (20, 30), (30, 30)] {
            let event = DONE.replace("by operator", &by).replace(
                "certificate 10 with 40",
                &format!("certificate {id} with {second}"),
            );
            assert_eq!(code(&event), 4, "{event}");
        }
    }
}

#[test]
fn code_8_looks_at_the_first_record_alone() {
    assert_eq!(changed("certificate 10", "certificate 15"), 8);
    assert_eq!(changed("certificate 10", "certificate 16"), 8);
    assert_eq!(changed("certificate 10", "certificate 14"), 8);
    // The second is on an absent card: it is no recovery record.
    assert_eq!(changed("with 40", "with 16"), 17);
    // With the card in, it is the place that is wrong.
    let valid = "replace by operator certificate 14 with 40 key 1002 by 4000 owner 500 expiry 900";
    assert_eq!(code_after("card-in by device card 1", valid), 17);
    let other = "replace by operator certificate 15 with 41 key 1002 by 4100 owner 600 expiry 900";
    assert_eq!(code_after("card-in by device card 2", other), 17);
}

#[test]
fn code_10_is_about_a_key_of_another_domain() {
    // A root's, a third party record's on an absent card, and a recovery record's.
    for key in [2000, 3100, 4200] {
        assert_eq!(changed("key 1002", &format!("key {key}")), 10);
    }
    // In its own domain every key may come, that of the recovery record too.
    for key in [1000, 1001, 1500, 4000, 4100] {
        assert_eq!(changed("key 1002", &format!("key {key}")), 0);
    }
    // The domain is that of the first record, whatever the second is.
    let event = "replace by operator certificate 10 with 42 key 2000 by 4200 owner 500 expiry 900";
    assert_eq!(code(event), 10);
    let event = "replace by operator certificate 10 with 42 key 1000 by 4200 owner 500 expiry 900";
    assert_eq!(code(event), 17);
    // 10 before 11 to 13.
    assert_eq!(
        code_after(
            "card-in by device card 2",
            &DONE.replace("key 1002", "key 2000")
        ),
        10
    );
    let issued = DONE.replace("certificate 10", "certificate 11");
    assert_eq!(code(&issued.replace("key 1002", "key 2000")), 10);
}

#[test]
fn code_11_goes_by_the_owner_that_the_root_has_before() {
    let card_in = |number: u16| format!("card-in by device card {number}");
    assert_eq!(code_after(&card_in(1), DONE), 0);
    assert_eq!(code_after(&card_in(2), DONE), 11);
    // The event's owner is the card's, and the root's is not.
    let owner = DONE.replace("owner 500", "owner 600");
    assert_eq!(code_after(&card_in(2), &owner), 11);
    // The root's is the card's, and the event's is not: the card's valid root comes first.
    let root = "replace by operator certificate 13 with 41 key 1002 by 4100 owner 500 expiry 900";
    assert_eq!(code_after(&card_in(2), root), 13);
    let events = format!(
        "{}\nmark-invalid by operator 600 certificate 15",
        card_in(2)
    );
    assert_eq!(code_after(&events, root), 17);
    let root = root.replace("owner 500", "owner 600");
    assert_eq!(code_after(&events, &root), 0);
    // Only operator roots on the phone: no issued record, no manufacturer, nothing on the card.
    let issued = DONE.replace("certificate 10", "certificate 11");
    assert_eq!(code_after(&card_in(2), &issued), 12);
    let manufacturer =
        "replace by manufacturer certificate 20 with 42 key 2002 by 4200 owner 70 expiry 900";
    assert_eq!(code_after(&card_in(2), manufacturer), 0);
}

#[test]
fn code_12_is_about_what_is_no_root() {
    assert_eq!(changed("certificate 10", "certificate 11"), 12);
    assert_eq!(changed("certificate 10", "certificate 40"), 12);
    assert_eq!(changed("certificate 10", "certificate 41"), 12);
    // An issued record and a recovery one of another owner than the card's: no 11 and no 13.
    for id in [17, 40, 41] {
        let event = DONE.replace("certificate 10", &format!("certificate {id}"));
        assert_eq!(code_after("card-in by device card 1", &event), 12);
        assert_eq!(code_after("card-in by device card 2", &event), 12);
    }
    // Marking a recovery record, by whom it may be marked and by others.
    assert_eq!(code("mark-valid by operator 500 certificate 40"), 12);
    assert_eq!(code("mark-invalid by operator 500 certificate 40"), 12);
    assert_eq!(code("mark-valid by manufacturer 70 certificate 42"), 12);
    assert_eq!(code("mark-valid by administrator certificate 42"), 4);
    assert_eq!(
        code_after(
            "card-in by device card 1",
            "mark-valid by operator 600 certificate 41"
        ),
        12
    );
    // A message that lists one.
    assert_eq!(
        code("configuration by administrator enable-listed 30,40"),
        12
    );
}

#[test]
fn code_13_is_about_another_valid_root() {
    let second = DONE.replace("certificate 10", "certificate 9");
    assert_eq!(code(&second), 13);
    assert_eq!(
        code_after("mark-invalid by operator 500 certificate 10", &second),
        0
    );
    let manufacturer =
        "replace by manufacturer certificate 21 with 42 key 2002 by 4200 owner 70 expiry 900";
    assert_eq!(code(manufacturer), 13);
    assert_eq!(
        code_after(
            "mark-invalid by manufacturer 70 certificate 20",
            manufacturer
        ),
        0
    );
    // The present card's root takes the mark of the phone's, and is another one then.
    let events = "\
mark-invalid by operator 500 certificate 10
card-in by device card 1
mark-valid by operator 500 certificate 14";
    assert_eq!(code_after(events, DONE), 13);
    // On an absent card it is none.
    assert_eq!(
        code_after(&format!("{events}\ncard-out by device"), DONE),
        0
    );
    // 13 before 17.
    assert_eq!(code(&second.replace("owner 500", "owner 501")), 13);
    let on_card = "\
card-in by device card 2
install-certificate by operator certificate 99 on card 2 root operator key 99 owner 600 expiry 0";
    let event = "replace by operator certificate 99 with 41 key 1002 by 4100 owner 600 expiry 900";
    assert_eq!(code_after(on_card, event), 13);
}

#[test]
fn code_17_is_about_the_recovery_record() {
    // No recovery record: the root itself, another root, an issued record of the owner.
    assert_eq!(changed("with 40", "with 10"), 17);
    assert_eq!(
        code("replace by operator certificate 10 with 10 key 1002 by 1000 owner 500 expiry 900"),
        17
    );
    assert_eq!(
        code("replace by operator certificate 10 with 9 key 1002 by 900 owner 500 expiry 900"),
        17
    );
    assert_eq!(
        code("replace by operator certificate 10 with 11 key 1002 by 1001 owner 500 expiry 900"),
        17
    );
    // Of another domain, though of the same owner.
    assert_eq!(
        code("replace by operator certificate 10 with 43 key 1002 by 4300 owner 500 expiry 900"),
        17
    );
    // Of another owner, whichever of the two the event names.
    for owner in [500, 600] {
        let event = "replace by operator certificate 10 with 41 key 1002 by 4100";
        assert_eq!(code(&format!("{event} owner {owner} expiry 900")), 17);
    }
    // The event's owner alone is another.
    assert_eq!(changed("owner 500", "owner 501"), 17);
    assert_eq!(changed("owner 500", "owner 600"), 17);
    // Another verifying key: the root's, the new one, a recovery key that is not named.
    for key in [1000, 1002, 4100, 4001, 0] {
        assert_eq!(changed("by 4000", &format!("by {key}")), 17);
    }
    // The recovery record's own date is past, and that is nothing.
    let later = DONE.replace("expiry 900", "expiry 4000000000");
    assert_eq!(code_after("clock by device to 4000000000", &later), 0);
}

#[test]
fn a_refused_replace_changes_nothing() {
    let image = stream(IMAGE, "");
    for (from, to) in [
        ("key 1002", "key 0"),
        ("with 40", "with 99"),
        ("by operator", "by user"),
        ("certificate 10", "certificate 15"),
        ("key 1002", "key 2000"),
        ("certificate 10", "certificate 11"),
        ("certificate 10", "certificate 9"),
        ("owner 500", "owner 501"),
    ] {
        let mut after = image.clone();
        let event = to_bytes(&DONE.replace(from, to)).expect("text");
        assert_ne!(step_image(&mut after, &event).code, 0);
        assert_eq!(after, image);
    }
}

const INSTALL: &str =
    "install-certificate by operator certificate 50 on phone recovery operator key 5000 owner 9 expiry 0";

#[test]
fn a_recovery_record_is_installed_without_a_mark_and_deleted() {
    let phone = phone_after(IMAGE, INSTALL);
    let record = phone.certificate(50).map(|c| (c.kind, c.mark, c.enabled));
    assert_eq!(record, Some((2, 0, 1)));
    assert_eq!(slot_of(&phone, 50), Some(16));
    let manufacturer = INSTALL
        .replace("by operator", "by manufacturer")
        .replace("recovery operator", "recovery manufacturer");
    assert_eq!(code(&manufacturer), 0);
    for actor in ["device", "user", "manufacturer", "administrator"] {
        assert_eq!(
            code(&INSTALL.replace("by operator", &format!("by {actor}"))),
            4
        );
    }
    for actor in ["device", "user", "manufacturer 500", "administrator"] {
        let delete = format!("delete-certificate by {actor} certificate 40");
        assert_eq!(code(&delete), 4);
    }
    assert_eq!(
        code(&INSTALL.replace("certificate 50", "certificate 11")),
        9
    );
    assert_eq!(code(&INSTALL.replace("key 5000", "key 2000")), 10);
    assert_eq!(code(&INSTALL.replace("key 5000", "key 4200")), 10);
    assert_eq!(code(&INSTALL.replace("key 5000", "key 4000")), 0);
    let second = INSTALL.replace("certificate 50", "certificate 51");
    assert_eq!(codes(IMAGE, &format!("{INSTALL}\n{second}")), [0, 14]);
    // Its owner is bound by no card.
    assert_eq!(code_after("card-in by device card 1", INSTALL), 0);
    let delete = "delete-certificate by operator 500 certificate 40";
    assert_eq!(code(delete), 0);
    assert_eq!(phone_after(IMAGE, delete).certificate(40), None);
    assert_eq!(code_after(delete, DONE), 3);
    // What it has replaced stays replaced.
    let phone = phone_after(IMAGE, &format!("{DONE}\n{delete}"));
    assert_eq!(
        phone.certificate(10).map(|c| (c.key, c.mark)),
        Some((1002, 1))
    );
}

#[test]
fn the_ranges_of_an_install_are_those_of_i2() {
    assert_eq!(code(INSTALL), 0);
    // On a card, known or not and present or not, of the third party, and with a verifying key.
    for place in ["card 1", "card 2", "card 9"] {
        let event = INSTALL.replace("on phone", &format!("on {place}"));
        assert_eq!(code(&event), 2);
        assert_eq!(code_after("card-in by device card 1", &event), 2);
    }
    assert_eq!(
        code(&INSTALL.replace("recovery operator", "recovery third-party")),
        2
    );
    assert_eq!(
        code(&INSTALL.replace("recovery operator", "recovery untrusted")),
        2
    );
    assert_eq!(code(&INSTALL.replace("key 5000", "key 0")), 2);
    assert_eq!(code(&INSTALL.replace("certificate 50", "certificate 0")), 2);
    let with = |change: &dyn Fn(&mut Event)| {
        let mut event = Event::decode(&to_bytes(INSTALL).expect("text")).expect("an event");
        change(&mut event);
        step_image(&mut stream(IMAGE, ""), &event.encode()).code
    };
    assert_eq!(with(&|event| event.verifying_key = 1), 2);
    assert_eq!(with(&|event| event.third = 3), 2);
    assert_eq!(with(&|_| ()), 0);
}

/// The image with words changed, once.
fn refused(from: &str, to: &str) -> (u8, usize) {
    assert_eq!(IMAGE.matches(from).count(), 1, "`{from}` in the image");
    refusal(&IMAGE.replace(from, to))
}

/// The image with bytes put over those of certificate 40, from an offset in it on.
fn with_bytes(at: usize, bytes: &[u8]) -> (u8, usize) {
    let mut image = stream(IMAGE, "");
    let start = 40 + 24 * 12 + at;
    image[start..start + bytes.len()].copy_from_slice(bytes);
    crate::common::refusal_of_bytes(&image)
}

#[test]
fn i2_reads_recovery_records() {
    let at_40 = 40 + 24 * 12;
    assert_eq!(refusal(IMAGE), (0, 0));
    assert_eq!(refused("40 on phone", "40 on card 1"), (2, at_40));
    // A card that is not there is I3's, for every other record.
    assert_eq!(refused("40 on phone", "40 on card 9"), (2, at_40));
    assert_eq!(
        refused(
            "40 on phone recovery operator",
            "40 on phone recovery third-party"
        ),
        (2, at_40)
    );
    assert_eq!(
        refused(
            "40 on phone recovery operator",
            "40 on phone recovery untrusted"
        ),
        (2, at_40)
    );
    assert_eq!(refused("key 4000 owner", "key 0 owner"), (2, at_40));
    assert_eq!(refused("certificate 40", "certificate 0"), (2, at_40));
    // Kind 3, mark 1 and 2, enabled 0 and 2, a verifying key.
    assert_eq!(with_bytes(4, &[3]), (2, at_40));
    for mark in [1, 2] {
        assert_eq!(with_bytes(6, &[mark]), (2, at_40));
    }
    for enabled in [0, 2] {
        assert_eq!(with_bytes(7, &[enabled]), (2, at_40));
    }
    for byte in 12..16 {
        assert_eq!(with_bytes(byte, &[1]), (2, at_40));
    }
    // Owner and date may be anything.
    assert_eq!(with_bytes(16, &[255; 8]), (0, 0));
    // With kind 0 it is a root, and with kind 1 it lacks a verifying key and a mark.
    assert_eq!(with_bytes(4, &[0]), (0, 0));
    assert_eq!(with_bytes(4, &[1]), (2, at_40));
}

#[test]
fn i4_reads_recovery_records() {
    let slot = |number: usize| 40 + 24 * number;
    assert_eq!(refused("certificate 40", "certificate 9"), (4, slot(12)));
    assert_eq!(refused("certificate 43", "certificate 40"), (4, slot(15)));
    assert_eq!(refused("key 4200", "key 4000"), (4, slot(14)));
    assert_eq!(refused("key 4000 owner", "key 3000 owner"), (4, slot(12)));
    assert_eq!(refused("key 4000 owner", "key 2100 owner"), (4, slot(12)));
    // A key that its own domain has is shared with nobody.
    assert_eq!(refused("key 4000 owner", "key 1000 owner"), (0, 0));
}

#[test]
fn i5_and_the_card_rule_leave_recovery_records_alone() {
    // Any number of them, of any owner, whichever card is in.
    for card in ["card none", "card 1"] {
        let image = IMAGE.replace("card none", card);
        assert_eq!(refusal(&image), (0, 0));
    }
    let recovery = |events: &str| -> Vec<Certificate> {
        let phone = phone_after(IMAGE, events);
        let records = phone.occupied_certificates().filter(|c| c.kind == 2);
        records.copied().collect()
    };
    let before = recovery("");
    assert_eq!(before.len(), 4);
    for events in [
        "card-in by device card 1",
        "card-in by device card 2\ncard-out by device",
        "power-up by device card 2",
        "card-in by device card 1\nmark-valid by operator 500 certificate 14",
        "configuration by administrator disable-all",
        "configuration by administrator enable-listed 30",
    ] {
        assert_eq!(recovery(events), before);
    }
}

#[test]
fn a_recovery_key_is_no_root_and_no_link() {
    // Executable 4 is signed with one, and what it has issued signs executable 6.
    let events = "verify by device executable 4\nverify by device executable 6";
    assert_eq!(answers(IMAGE, events), [(0, 0, 0), (0, 0, 0)]);
    let trusted = IMAGE.replace("executable 4 untrusted", "executable 4 operator");
    assert_eq!(refusal(&trusted).0, 8);
    // A twin that is good makes the key good, though it stands behind the recovery record.
    let install =
        "install-certificate by operator certificate 50 on phone issued operator key 4000 by 1000 owner 0 expiry 900";
    assert_eq!(
        answers(IMAGE, &format!("{install}\n{events}")),
        [(0, 0, 0), (0, 1, 2), (0, 1, 3)]
    );
    // The root takes the recovery key itself.
    let own = DONE.replace("key 1002", "key 4000");
    assert_eq!(
        answers(IMAGE, &format!("{own}\n{events}")),
        [(0, 0, 0), (0, 1, 1), (0, 1, 2)]
    );
}

fn why(events: &str, id: u16) -> String {
    let events_given = events.lines().count() as u64;
    let question = Question {
        id,
        events: Some(events_given),
    };
    question.answer(&stream(IMAGE, events)).text(id)
}

#[test]
fn why_tells_a_recovery_key_before_any_other_reason() {
    // It has mark 0 as well, and its date is past.
    assert_eq!(why("", 4), "certificate 40 is a recovery key\n");
    assert_eq!(
        why("", 6),
        "certificate 17 has no good signer within three links\n"
    );
    assert_eq!(
        why(DONE, 1),
        "certificate 11 has no good signer within three links\n"
    );
    assert_eq!(
        why(DONE, 2),
        "no certificate has the key of application 2\n"
    );
    assert_eq!(
        why(DONE, 3),
        "certificate 10 is a trusted root\napplication 3 is untrusted until it is verified\n"
    );
    let twins = "\
install-certificate by operator certificate 39 on phone root operator key 4000 owner 500 expiry 0
delete-certificate by operator 500 certificate 9
install-certificate by operator certificate 99 on phone issued operator key 4000 by 7 owner 0 expiry 99";
    assert_eq!(
        why(twins, 4),
        "certificate 39 is marked invalid\n\
         certificate 40 is a recovery key\n\
         certificate 99 is past its date\n"
    );
    // Where a twin chains, the recovery record is not told at all.
    let own = DONE.replace("key 1002", "key 4000");
    assert_eq!(
        why(&own, 4),
        "certificate 10 is a trusted root\napplication 4 is untrusted until it is verified\n"
    );
}
