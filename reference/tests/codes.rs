//! 01, "What an event is told": each code, which of two wins, and the readings beside it.

use reference::events::allowed_actors;

use crate::common::{answers, codes, phone_after, refusal, worked_image};

/// A fuller image: the card of operator 500 is in, one slot of each table is free.
const IMAGE: &str = "\
phone mode 1 card 1 clock 100
certificate 1 on phone root operator invalid enabled key 1 owner 600 expiry 900
certificate 2 on phone root operator valid enabled key 2 owner 500 expiry 900
certificate 3 on card 1 root operator invalid enabled key 3 owner 500 expiry 900
certificate 4 on card 2 root operator valid enabled key 4 owner 600 expiry 900
certificate 5 on phone root manufacturer valid enabled key 5 owner 0 expiry 900
certificate 6 on phone root manufacturer invalid enabled key 6 owner 0 expiry 900
certificate 7 on phone root third-party valid enabled key 7 owner 0 expiry 900
certificate 8 on card 2 root third-party valid enabled key 8 owner 0 expiry 900
certificate 9 on phone issued operator key 9 by 2 owner 0 expiry 100
certificate 10 on phone root operator invalid enabled key 10 owner 500 expiry 900
certificate free
card 1 operator 500
card 2 operator 600
executable 1 operator signed 9 permissions 0
executable 2 untrusted unsigned permissions none
executable free
action 0 untrusted never operator ask manufacturer free third-party never
action 1 untrusted ask operator ask manufacturer free third-party ask";

fn code(event: &str) -> u8 {
    codes(IMAGE, event)[0]
}

#[test]
fn code_2_is_about_the_form() {
    assert_eq!(code("bytes 01"), 2);
    assert_eq!(code("card-in by device card none"), 2);
    assert_eq!(code("verify by device executable 0"), 2);
    assert_eq!(code("request by device executable 1 action 2"), 2);
    assert_eq!(code("configuration by administrator enable-listed 7,0"), 2);
    let install = "install-certificate by manufacturer certificate 50 on";
    assert_eq!(
        code(&format!(
            "{install} card 1 root manufacturer key 50 owner 0 expiry 0"
        )),
        2
    );
    assert_eq!(
        code(&format!(
            "{install} phone issued manufacturer key 50 by 0 owner 0 expiry 0"
        )),
        2
    );
    assert_eq!(
        code(&format!(
            "{install} phone root manufacturer key 0 owner 0 expiry 0"
        )),
        2
    );
    assert_eq!(
        code(&format!(
            "{install} phone root untrusted key 50 owner 0 expiry 0"
        )),
        2
    );
    // A root with a verifying key, a message of mode 1 with a count, an actor above 4, kinds 0 and 17.
    assert_eq!(
        code("bytes 05 03 00 32 00 00 00 02 00 00 00 32 00 00 00 01 00 00 00 00 00 00 00 00"),
        2
    );
    assert_eq!(
        code("bytes 09 04 00 00 00 00 01 01 00 07 00 00 00 00 00 00 00 00 00 00 00 00 00 00"),
        2
    );
    assert_eq!(
        code("bytes 03 05 00 00 00 00 00 00 00 00 00 00 00 00 00 00 00 00 00 00 00 00 00 00"),
        2
    );
    assert_eq!(
        code("bytes 00 00 00 00 00 00 00 00 00 00 00 00 00 00 00 00 00 00 00 00 00 00 00 00"),
        2
    );
    assert_eq!(
        code("bytes 11 00 00 00 00 00 00 00 00 00 00 00 00 00 00 00 00 00 00 00 00 00 00 00"),
        2
    );
}

#[test]
fn every_byte_of_a_card_out_counts() {
    for at in 2..24 {
        let mut bytes = vec!["00"; 24];
        bytes[0] = "03";
        assert_eq!(code(&format!("bytes {}", bytes.join(" "))), 0);
        bytes[at] = "80";
        assert_eq!(code(&format!("bytes {}", bytes.join(" "))), 2);
    }
}

#[test]
fn code_3_is_an_unknown_id_in_its_own_table() {
    assert_eq!(code("mark-valid by operator 500 certificate 99"), 3);
    // 3 is a certificate's id, and no executable's.
    assert_eq!(code("verify by device executable 3"), 3);
    assert_eq!(code("configuration by administrator enable-listed 7,99"), 3);
    assert_eq!(code("request by user executable 99 action 0"), 3);
}

#[test]
fn code_4_goes_by_kind_and_domain() {
    assert_eq!(code("clock by user to 100"), 4);
    assert_eq!(code("mark-valid by user certificate 2"), 4);
    assert_eq!(code("delete-certificate by operator 0 certificate 7"), 4);
    assert_eq!(code("mark-invalid by user certificate 7"), 4);
    assert_eq!(code("delete-certificate by user certificate 7"), 0);
    assert_eq!(code("mark-invalid by manufacturer 0 certificate 9"), 4);
    assert_eq!(
        code("install-executable by device executable 9 unsigned"),
        4
    );
}

#[test]
fn who_may_act_is_the_papers_table() {
    let everyone_else: &[u8] = &[1, 2, 3, 4];
    for kind in [1, 2, 3, 4, 12, 15] {
        assert_eq!(allowed_actors(kind, 0), [0]);
    }
    assert_eq!(allowed_actors(13, 0), [1]);
    assert_eq!(allowed_actors(14, 0), [1]);
    assert_eq!(allowed_actors(9, 0), [4]);
    assert_eq!(allowed_actors(10, 0), everyone_else);
    assert_eq!(allowed_actors(11, 0), everyone_else);
    for kind in 5..=8 {
        assert_eq!(allowed_actors(kind, 1), [2]);
        assert_eq!(allowed_actors(kind, 2), [3]);
    }
    assert_eq!(allowed_actors(5, 3), everyone_else);
    assert_eq!(allowed_actors(6, 3), [1, 4]);
    assert_eq!(allowed_actors(7, 3), [4]);
    assert_eq!(allowed_actors(8, 3), [4]);
    assert_eq!(allowed_actors(16, 1), [2]);
    assert_eq!(allowed_actors(16, 2), [3]);
    assert_eq!(allowed_actors(16, 3), []);
}

#[test]
fn codes_5_to_7_are_about_clock_and_card() {
    assert_eq!(code("clock by device to 99"), 5);
    assert_eq!(code("clock by device to 100"), 0);
    assert_eq!(code("card-in by device card 3"), 6);
    assert_eq!(code("power-up by device card 3"), 6);
    assert_eq!(code("card-in by device card 1"), 7);
    assert_eq!(
        codes(IMAGE, "card-out by device\ncard-out by device"),
        [0, 7]
    );
    assert_eq!(code("power-up by device card none"), 0);
    assert_eq!(code("power-up by device card 2"), 0);
}

#[test]
fn code_8_is_about_absent_cards() {
    assert_eq!(code("mark-invalid by operator 600 certificate 4"), 8);
    assert_eq!(code("delete-certificate by user certificate 8"), 8);
    let install = "install-certificate by operator certificate 50 on card 2 root operator";
    assert_eq!(code(&format!("{install} key 50 owner 500 expiry 0")), 8);
    // The configuration message reaches absent cards.
    let phone = phone_after(IMAGE, "configuration by administrator disable-all");
    assert_eq!(
        phone.certificate(8).map(|c| (c.mark, c.enabled)),
        Some((1, 0))
    );
    assert_eq!(phone.mode, 0);
}

#[test]
fn codes_9_10_11_and_14_are_about_installing() {
    let install = |id: u16, place: &str, key: u32, owner: u32| {
        format!(
            "install-certificate by operator certificate {id} on {place} root operator key {key} owner {owner} expiry 0"
        )
    };
    assert_eq!(code(&install(9, "phone", 50, 500)), 9);
    assert_eq!(code(&install(50, "phone", 8, 500)), 10);
    assert_eq!(code(&install(50, "card 1", 50, 600)), 11);
    assert_eq!(code(&install(50, "card 1", 9, 500)), 0);
    assert_eq!(code(&install(50, "phone", 50, 600)), 0);
    let twice = format!(
        "{}\n{}",
        install(50, "phone", 50, 500),
        install(51, "phone", 51, 500)
    );
    assert_eq!(codes(IMAGE, &twice), [0, 14]);
    // With the table full a taken id is still 9.
    let taken = format!(
        "{}\n{}",
        install(50, "phone", 50, 500),
        install(50, "phone", 51, 500)
    );
    assert_eq!(codes(IMAGE, &taken), [0, 9]);
    let executables = "\
install-executable by user executable 3 unsigned
install-executable by user executable 3 unsigned
install-executable by user executable 4 signed 1";
    assert_eq!(codes(IMAGE, executables), [0, 9, 14]);
}

#[test]
fn codes_11_to_13_are_about_marking() {
    assert_eq!(code("mark-valid by operator 600 certificate 1"), 11);
    assert_eq!(code("mark-invalid by operator 600 certificate 1"), 0);
    assert_eq!(code("mark-valid by operator 0 certificate 9"), 12);
    assert_eq!(code("mark-invalid by operator 0 certificate 9"), 12);
    assert_eq!(code("configuration by administrator enable-listed 7,2"), 12);
    assert_eq!(code("mark-valid by manufacturer 0 certificate 6"), 13);
    assert_eq!(code("mark-valid by manufacturer 0 certificate 5"), 0);
    assert_eq!(code("mark-valid by operator 500 certificate 10"), 13);
    assert_eq!(code("mark-valid by operator 500 certificate 2"), 0);
    // The card's own root is valid now, so the phone's may not be.
    let events =
        "mark-valid by operator 500 certificate 3\nmark-valid by operator 500 certificate 2";
    assert_eq!(codes(IMAGE, events), [0, 13]);
    let phone = phone_after(IMAGE, events);
    assert_eq!(phone.certificate(2).map(|c| c.mark), Some(0));
    assert_eq!(phone.certificate(3).map(|c| c.mark), Some(1));
}

#[test]
fn codes_15_and_16_are_about_requests() {
    assert_eq!(
        answers(IMAGE, "request by device executable 1 action 0"),
        [(0, 1, 2)]
    );
    assert_eq!(code("request by device executable 1 action 1"), 16);
    assert_eq!(code("request by device executable 2 action 0"), 15);
    // A permission does not lift a table byte of 0.
    let events = "give by user executable 2 action 0\nrequest by device executable 2 action 0";
    assert_eq!(codes(IMAGE, events), [0, 15]);
}

#[test]
fn a_new_third_party_root_is_enabled_as_the_standing_mode_says() {
    let install = "install-certificate by user certificate 50 on phone root third-party key 50 owner 0 expiry 0";
    let state = |events: &str| {
        let record = phone_after(IMAGE, events).certificate(50).copied();
        record.map(|c| (c.mark, c.enabled))
    };
    assert_eq!(state(install), Some((1, 1)));
    let listed = "configuration by administrator enable-listed 7";
    assert_eq!(state(&format!("{listed}\n{install}")), Some((1, 0)));
}

#[test]
fn the_list_enables_its_own_and_disables_the_rest() {
    let phone = phone_after(IMAGE, "configuration by administrator enable-listed 8,8,8");
    assert_eq!(phone.certificate(7).map(|c| c.enabled), Some(0));
    assert_eq!(phone.certificate(8).map(|c| c.enabled), Some(1));
    assert_eq!(phone.mode, 2);
}

#[test]
fn permissions_outlive_a_change_of_domain() {
    let phone = phone_after(IMAGE, "clock by device to 101");
    assert_eq!(
        phone.executable(1).map(|e| (e.domain, e.permissions)),
        Some((0, 1))
    );
}

#[test]
fn the_highest_action_has_a_bit_too() {
    let mut image = String::from("phone mode 0 card none clock 0\n");
    image += "executable 1 untrusted unsigned permissions 31\n";
    for action in 0..32 {
        image += &format!(
            "action {action} untrusted ask operator ask manufacturer ask third-party ask\n"
        );
    }
    let events = "\
request by device executable 1 action 31
withdraw by user executable 1 action 31
request by device executable 1 action 31
request by device executable 1 action 32";
    assert_eq!(codes(&image, events), [0, 0, 16, 2]);
}

#[test]
fn the_first_broken_rule_is_told() {
    assert_eq!(refusal(IMAGE), (0, 0));
    let change = |from: &str, to: &str| refusal(&IMAGE.replacen(from, to, 1)).0;
    assert_eq!(change("key 5 owner", "key 0 owner"), 2);
    assert_eq!(change("phone mode 1 card 1", "phone mode 1 card 3"), 3);
    assert_eq!(change("certificate 2 on", "certificate 1 on"), 4);
    assert_eq!(change("key 7 owner", "key 2 owner"), 4);
    assert_eq!(change("root operator invalid", "root operator valid"), 5);
    assert_eq!(change("untrusted ask", "untrusted free"), 6);
    assert_eq!(change("permissions 0", "permissions 2"), 7);
    assert_eq!(
        change("executable 1 operator", "executable 1 manufacturer"),
        8
    );
    assert_eq!(
        change(
            "phone mode 1 card 1 clock 100",
            "phone mode 1 card 1 clock 101"
        ),
        8
    );
}

#[test]
fn a_broken_image_answers_1_and_stays_as_it_is() {
    let mut image = crate::common::stream(worked_image(), "");
    image[1] = 2;
    let before = image.clone();
    let answer = reference::events::step_image(&mut image, &[]);
    assert_eq!((answer.code, answer.domain, answer.links), (1, 0, 0));
    assert_eq!((answer.rule, answer.offset), (1, 0));
    assert_eq!(image, before);
}

#[test]
fn rule_and_offset_are_told_for_code_1_alone() {
    let mut image = crate::common::stream(worked_image(), "");
    let told = |answer: reference::events::Answer| (answer.code, answer.rule, answer.offset);
    let verify = crate::common::stream("", "verify by device executable 1");
    let answer = reference::events::step_image(&mut image, &verify);
    assert_eq!(told(answer), (0, 0, 0));
    let answer = reference::events::step_image(&mut image, &[]);
    assert_eq!(told(answer), (2, 0, 0));
    // The id of the second certificate becomes that of the first.
    image.copy_within(40..42, 64);
    let answer = reference::events::step_image(&mut image, &verify);
    assert_eq!(told(answer), (1, 4, 64));
}
