//! 02, "An operator is somebody in particular": who may delete and mark, code 4 for a wrong owner,
//! code 2 for an owner that nobody has to name, and what stays as it was.

use crate::common::{codes, phone_after, stream};
use reference::events::{step_image, Event};
use reference::text::to_bytes;

/// Operators 500 and 600 share a phone with the manufacturers 70 and 71; the card of 500 is in.
const IMAGE: &str = "\
phone mode 1 card 1 clock 100
certificate 10 on phone root operator valid enabled key 1000 owner 500 expiry 900
certificate 11 on phone root operator invalid enabled key 1100 owner 600 expiry 900
certificate 12 on phone issued operator key 1200 by 1000 owner 600 expiry 900
certificate 13 on card 1 root operator invalid enabled key 1300 owner 500 expiry 900
certificate 14 on card 2 root operator valid enabled key 1400 owner 600 expiry 900
certificate 15 on phone recovery operator key 1500 owner 600 expiry 900
certificate 16 on phone root operator invalid enabled key 1600 owner 500 expiry 99
certificate 17 on phone root operator invalid enabled key 1700 owner 0 expiry 900
certificate 20 on phone root manufacturer valid enabled key 2000 owner 70 expiry 900
certificate 21 on phone root manufacturer invalid enabled key 2100 owner 71 expiry 900
certificate 22 on phone issued manufacturer key 2200 by 2000 owner 4294967295 expiry 900
certificate 30 on phone root third-party valid enabled key 3000 owner 500 expiry 900
certificate 31 on phone issued third-party key 3100 by 3000 owner 0 expiry 900
certificate 40 on phone recovery operator key 4000 owner 500 expiry 900
certificate free
card 1 operator 500
card 2 operator 600
executable 1 operator signed 1000 permissions none
executable free
action 0 untrusted never operator free manufacturer free third-party free";

const KINDS: [&str; 3] = ["delete-certificate", "mark-valid", "mark-invalid"];

fn code(event: &str) -> u8 {
    codes(IMAGE, event)[0]
}

/// The code of the last event.
fn code_after(events: &str, event: &str) -> u8 {
    let told = codes(IMAGE, &format!("{events}\n{event}"));
    told.last().copied().expect("an event")
}

/// The code of an event with its bytes changed; words say no owner of those who have none.
fn with_field(event: &str, change: impl Fn(&mut Event)) -> u8 {
    let mut event = Event::decode(&to_bytes(event).expect("text")).expect("an event");
    change(&mut event);
    step_image(&mut stream(IMAGE, ""), &event.encode()).code
}

#[test]
fn the_owner_may_and_another_one_may_not() {
    for kind in KINDS {
        assert_eq!(code(&format!("{kind} by operator 500 certificate 10")), 0);
        assert_eq!(
            code(&format!("{kind} by manufacturer 70 certificate 20")),
            0
        );
        for owner in [0, 1, 70, 499, 501, 600, 500 << 16, 500 | 1 << 31, u32::MAX] {
            let event = format!("{kind} by operator {owner} certificate 10");
            assert_eq!(code(&event), 4, "{event}");
        }
        for owner in [0, 69, 71, 500, 70 << 8, 70 << 24, u32::MAX] {
            let event = format!("{kind} by manufacturer {owner} certificate 20");
            assert_eq!(code(&event), 4, "{event}");
        }
    }
}

#[test]
fn every_byte_of_the_owner_counts() {
    for kind in KINDS {
        for bit in 0..32 {
            let event = format!("{kind} by operator {} certificate 10", 500 ^ 1u32 << bit);
            assert_eq!(code(&event), 4, "{event}");
        }
    }
    let delete = "delete-certificate by manufacturer 4294967295 certificate 22";
    assert_eq!(code(delete), 0);
    assert_eq!(code(&delete.replace("4294967295", "2147483647")), 4);
}

#[test]
fn an_owner_of_0_is_an_owner_like_any_other() {
    assert_eq!(code("delete-certificate by operator 0 certificate 17"), 0);
    assert_eq!(code("mark-invalid by operator 0 certificate 17"), 0);
    // It may, and then the card of another operator is in the way.
    assert_eq!(code("mark-valid by operator 0 certificate 17"), 11);
    for kind in KINDS {
        assert_eq!(code(&format!("{kind} by operator 500 certificate 17")), 4);
        assert_eq!(code(&format!("{kind} by operator 0 certificate 11")), 4);
    }
}

#[test]
fn every_other_actor_leaves_the_owner_0_or_gets_2() {
    for kind in KINDS {
        for (actor, name) in [(0, "device"), (1, "user"), (4, "administrator")] {
            // The certificate's own owner is no better than another; an unknown id is told later.
            for (id, owner) in [
                (30, 500),
                (30, 1),
                (30, 1 << 31),
                (31, 500),
                (10, 500),
                (20, 70),
                (14, 600),
                (99, 500),
                (99, u32::MAX),
            ] {
                let event = format!("{kind} by {name} certificate {id}");
                let told = with_field(&event, |event| event.owner = owner);
                assert_eq!(told, 2, "{event}, owner {owner}");
            }
            // With 0 it is as it was, though the certificate has an owner.
            let is_done = match actor {
                1 => kind == "delete-certificate",
                actor => actor == 4,
            };
            let third_party = format!("{kind} by {name} certificate 30");
            assert_eq!(code(&third_party), if is_done { 0 } else { 4 });
            assert_eq!(code(&format!("{kind} by {name} certificate 10")), 4);
            assert_eq!(code(&format!("{kind} by {name} certificate 99")), 3);
        }
        // An actor above 4 is nobody, whatever the owner.
        for owner in [0, 500] {
            let event = format!("{kind} by operator {owner} certificate 10");
            assert_eq!(with_field(&event, |event| event.actor = 5), 2);
        }
    }
}

#[test]
fn each_byte_of_the_owner_of_nobody_gets_2() {
    for shift in [0, 8, 16, 24] {
        let delete = "delete-certificate by administrator certificate 30";
        assert_eq!(with_field(delete, |event| event.owner = 1 << shift), 2);
        let delete = "delete-certificate by user certificate 99";
        assert_eq!(with_field(delete, |event| event.owner = 1 << shift), 2);
    }
}

#[test]
fn an_unknown_id_comes_before_a_wrong_owner() {
    for kind in KINDS {
        for actor in ["operator", "manufacturer"] {
            for owner in [0, 70, 500, 600, u32::MAX] {
                assert_eq!(
                    code(&format!("{kind} by {actor} {owner} certificate 99")),
                    3
                );
                // An executable's id is none of these.
                assert_eq!(code(&format!("{kind} by {actor} {owner} certificate 1")), 3);
                assert_eq!(code(&format!("{kind} by {actor} {owner} certificate 0")), 2);
            }
        }
    }
}

#[test]
fn the_other_fields_are_0_still() {
    type Change = fn(&mut Event);
    let changes: [Change; 6] = [
        |event| event.second = 1,
        |event| event.third = 1,
        |event| event.fourth = 1,
        |event| event.key = 1,
        |event| event.verifying_key = 1 << 24,
        |event| event.expiry = 900,
    ];
    for kind in KINDS {
        for change in changes {
            // Of the owner, of another one, and of nobody.
            for actor in ["operator 500", "operator 600", "user"] {
                let event = format!("{kind} by {actor} certificate 10");
                assert_eq!(with_field(&event, change), 2, "{event}");
            }
        }
    }
}

#[test]
fn the_right_owner_in_the_wrong_sort_of_actor_is_4() {
    for kind in KINDS {
        assert_eq!(
            code(&format!("{kind} by manufacturer 500 certificate 10")),
            4
        );
        assert_eq!(code(&format!("{kind} by operator 70 certificate 20")), 4);
        // Of a third party's certificate neither is the owner, whatever it says there.
        for actor in ["operator", "manufacturer"] {
            for owner in [0, 500, 600] {
                assert_eq!(
                    code(&format!("{kind} by {actor} {owner} certificate 30")),
                    4
                );
                assert_eq!(
                    code(&format!("{kind} by {actor} {owner} certificate 31")),
                    4
                );
            }
        }
    }
}

#[test]
fn a_wrong_owner_comes_before_every_higher_code() {
    for (event, owner, higher) in [
        ("delete-certificate by operator 600 certificate 14", 600, 8),
        ("mark-valid by operator 600 certificate 14", 600, 8),
        ("mark-invalid by operator 600 certificate 14", 600, 8),
        ("mark-valid by operator 600 certificate 11", 600, 11),
        ("mark-valid by operator 600 certificate 12", 600, 12),
        ("mark-invalid by operator 600 certificate 12", 600, 12),
        ("mark-valid by operator 600 certificate 15", 600, 12),
        ("mark-invalid by operator 600 certificate 15", 600, 12),
        ("mark-valid by manufacturer 71 certificate 21", 71, 13),
        ("mark-valid by operator 500 certificate 16", 500, 13),
    ] {
        assert_eq!(code(event), higher, "{event}");
        for wrong in [0, 1, 501, 4_000_000_000_u32] {
            let event = event.replace(&format!(" {owner} "), &format!(" {wrong} "));
            assert_eq!(code(&event), 4, "{event}");
        }
    }
    // Past its date, with nothing else in the way.
    let free = "mark-invalid by operator 500 certificate 10";
    assert_eq!(
        code_after(free, "mark-valid by operator 500 certificate 16"),
        18
    );
    assert_eq!(
        code_after(free, "mark-valid by operator 600 certificate 16"),
        4
    );
    assert_eq!(
        code_after(free, "mark-valid by operator 0 certificate 16"),
        4
    );
}

#[test]
fn whose_card_is_in_decides_nothing_about_who_acts() {
    // The card of 500 is in, and 600 is at its own keys.
    assert_eq!(code("mark-invalid by operator 600 certificate 11"), 0);
    assert_eq!(code("delete-certificate by operator 600 certificate 11"), 0);
    assert_eq!(code("delete-certificate by operator 600 certificate 12"), 0);
    assert_eq!(code("delete-certificate by operator 600 certificate 15"), 0);
    assert_eq!(code("delete-certificate by operator 500 certificate 11"), 4);
    // On the card itself.
    assert_eq!(code("mark-valid by operator 500 certificate 13"), 0);
    assert_eq!(code("mark-valid by operator 600 certificate 13"), 4);
    let other = "power-up by device card 2";
    assert_eq!(
        code_after(other, "mark-invalid by operator 600 certificate 14"),
        0
    );
    assert_eq!(
        code_after(other, "mark-invalid by operator 500 certificate 14"),
        4
    );
    assert_eq!(
        code_after(other, "delete-certificate by operator 500 certificate 10"),
        0
    );
}

#[test]
fn the_owner_is_that_of_the_record_that_the_event_meets() {
    // The id goes from one operator to the other.
    let events = "\
delete-certificate by operator 500 certificate 10
mark-invalid by operator 500 certificate 10
install-certificate by operator certificate 10 on phone root operator key 1000 owner 600 expiry 900
mark-invalid by operator 500 certificate 10
mark-invalid by operator 600 certificate 10
delete-certificate by operator 600 certificate 10";
    assert_eq!(codes(IMAGE, events), [0, 3, 0, 4, 0, 0]);
    // What is refused leaves the owner where it is.
    let events = "\
replace by operator certificate 10 with 40 key 1001 by 4000 owner 600 expiry 900
mark-invalid by operator 600 certificate 10
mark-invalid by operator 500 certificate 10";
    assert_eq!(codes(IMAGE, events), [17, 4, 0]);
}

#[test]
fn installing_in_anothers_name_stays_possible() {
    let install = "install-certificate by operator certificate 50 on phone root operator key 50";
    for owner in [0, 500, 600, 700, u32::MAX] {
        assert_eq!(code(&format!("{install} owner {owner} expiry 900")), 0);
    }
    // But then only the other one has a hand on it.
    let events = format!(
        "{install} owner 600 expiry 900\n\
         delete-certificate by operator 500 certificate 50\n\
         delete-certificate by operator 600 certificate 50"
    );
    assert_eq!(codes(IMAGE, &events), [0, 4, 0]);
    // On a card its operator's name is asked for, as before, and by code 11.
    let on_card = install.replace("on phone", "on card 1");
    assert_eq!(code(&format!("{on_card} owner 600 expiry 900")), 11);
    assert_eq!(code(&format!("{on_card} owner 500 expiry 900")), 0);
    // Actors who leave the field 0 elsewhere name an owner here.
    let third_party = "certificate 50 on phone root third-party key 50 owner 500 expiry 900";
    for actor in ["user", "operator", "manufacturer", "administrator"] {
        assert_eq!(
            code(&format!("install-certificate by {actor} {third_party}")),
            0
        );
    }
}

#[test]
fn a_replace_has_its_own_code_for_owners() {
    let replace = "replace by operator certificate 10 with 40 key 1001 by 4000";
    assert_eq!(code(&format!("{replace} owner 500 expiry 900")), 0);
    for owner in [0, 501, 600] {
        assert_eq!(code(&format!("{replace} owner {owner} expiry 900")), 17);
    }
    // Whose domain it is not gets 4 and no 2, whatever the owner.
    for actor in ["device", "user", "manufacturer", "administrator"] {
        let event = replace.replace("by operator", &format!("by {actor}"));
        assert_eq!(code(&format!("{event} owner 500 expiry 900")), 4);
        assert_eq!(code(&format!("{event} owner 0 expiry 900")), 4);
    }
}

#[test]
fn other_kinds_leave_the_owner_0_whoever_acts() {
    for event in [
        "install-executable by operator executable 9 unsigned",
        "delete-executable by operator executable 1",
        "delete-executable by manufacturer executable 1",
        "card-out by device",
        "verify by device executable 1",
        "give by user executable 1 action 0",
    ] {
        assert_eq!(code(event), 0, "{event}");
        assert_eq!(with_field(event, |event| event.owner = 500), 2, "{event}");
    }
}

#[test]
fn a_refusal_for_the_owner_changes_nothing() {
    let image = stream(IMAGE, "");
    for kind in KINDS {
        for (id, owner) in [
            (10, 600),
            (11, 500),
            (13, 600),
            (15, 0),
            (20, 71),
            (31, 500),
        ] {
            let event = format!("{kind} by operator {owner} certificate {id}");
            let mut after = image.clone();
            let answer = step_image(&mut after, &to_bytes(&event).expect("text"));
            assert_eq!((answer.code, answer.domain, answer.links), (4, 0, 0));
            assert_eq!(after, image);
        }
    }
    // And what is done does no more than before: 600's key goes, and nothing else.
    let phone = phone_after(IMAGE, "delete-certificate by operator 600 certificate 11");
    let mut same = phone_after(IMAGE, "");
    same.certificates[1] = None;
    assert_eq!(phone, same);
}
