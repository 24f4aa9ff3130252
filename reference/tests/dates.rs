//! 02, "Roots have a date as well": when a root is trusted and when it is valid, what I5, I8, the
//! card rule and code 13 make of a mark on a root past its date, and code 18 on its two sides.

use crate::common::{answers, codes, phone_after, refusal, stream, worked_image};
use reference::events::step_image;
use reference::phone::Phone;
use reference::text::to_bytes;
use reference::why::Question;

/// Second 100 and no card in. Roots that expire at 100 are in their last second, and those that
/// expired at 99 have kept whatever mark they had.
const IMAGE: &str = "\
phone mode 1 card none clock 100
certificate 10 on phone root operator valid enabled key 10 owner 500 expiry 100
certificate 11 on phone root operator valid enabled key 11 owner 500 expiry 99
certificate 12 on phone root operator valid enabled key 12 owner 600 expiry 99
certificate 13 on phone root operator invalid enabled key 13 owner 500 expiry 900
certificate 14 on phone root operator invalid enabled key 14 owner 500 expiry 99
certificate 15 on phone root operator invalid enabled key 15 owner 600 expiry 900
certificate 16 on phone issued operator key 16 by 10 owner 500 expiry 900
certificate 17 on card 1 root operator valid enabled key 17 owner 500 expiry 99
certificate 18 on card 1 root operator invalid enabled key 18 owner 500 expiry 900
certificate 19 on card 2 root operator valid enabled key 19 owner 600 expiry 100
certificate 20 on phone root manufacturer valid enabled key 20 owner 70 expiry 100
certificate 21 on phone root manufacturer valid enabled key 21 owner 70 expiry 99
certificate 22 on phone root manufacturer invalid enabled key 22 owner 70 expiry 900
certificate 23 on phone root manufacturer invalid enabled key 23 owner 70 expiry 99
certificate 30 on phone root third-party valid enabled key 30 owner 0 expiry 100
certificate 31 on phone root third-party valid enabled key 31 owner 0 expiry 99
certificate 32 on phone root third-party invalid enabled key 32 owner 0 expiry 99
certificate 33 on phone root third-party valid disabled key 33 owner 0 expiry 99
certificate 34 on card 1 root third-party valid enabled key 34 owner 0 expiry 99
certificate 35 on phone issued third-party key 35 by 31 owner 0 expiry 900
certificate 40 on phone recovery operator key 40 owner 500 expiry 0
certificate 41 on phone recovery manufacturer key 41 owner 70 expiry 0
certificate 42 on phone issued operator key 42 by 11 owner 500 expiry 99
certificate free
card 1 operator 500
card 2 operator 600
executable 1 operator signed 16 permissions none
executable 2 manufacturer signed 20 permissions none
executable 3 third-party signed 30 permissions none
executable 4 untrusted signed 31 permissions none
executable 5 untrusted signed 35 permissions none
executable 6 untrusted signed 32 permissions none
executable 7 untrusted signed 33 permissions none
executable 8 untrusted signed 34 permissions none
executable 9 untrusted signed 11 permissions none
action 0 untrusted never operator free manufacturer free third-party free";

fn code(event: &str) -> u8 {
    codes(IMAGE, event)[0]
}

/// The code of the last event.
fn code_after(events: &str, event: &str) -> u8 {
    codes(IMAGE, &format!("{events}\n{event}"))
        .last()
        .copied()
        .expect("an event")
}

fn mark(phone: &Phone, id: u16) -> u8 {
    phone.certificate(id).expect("a certificate").mark
}

/// The ids of the certificates whose mark has gone.
fn unmarked(events: &str) -> Vec<u16> {
    let (before, after) = (phone_after(IMAGE, ""), phone_after(IMAGE, events));
    let marked = before.occupied_certificates().filter(|c| c.mark == 1);
    marked
        .filter(|c| mark(&after, c.id) == 0)
        .map(|c| c.id)
        .collect()
}

/// The image with words changed, each once.
fn changed(changes: &[(&str, &str)]) -> String {
    let mut image = IMAGE.to_string();
    for (from, to) in changes {
        assert_eq!(image.matches(from).count(), 1, "`{from}` in the image");
        image = image.replace(from, to);
    }
    image
}

const CERTIFICATE: usize = 24;

/// Where the certificate in a slot begins.
fn slot(number: usize) -> usize {
    40 + CERTIFICATE * number
}

#[test]
fn marks_are_not_touched_when_a_date_passes() {
    let image = worked_image().replacen("expiry 1000", "expiry 150", 1);
    let before = phone_after(&image, "");
    for second in [150, 151, 4_000_000_000_u32] {
        let after = phone_after(&image, &format!("clock by device to {second}"));
        assert_eq!(after.certificates, before.certificates);
        let domain = after.executable(1).map(|e| e.domain);
        assert_eq!(domain, Some(u8::from(second == 150)));
    }
    // Any number of dates at once.
    let after = phone_after(IMAGE, "clock by device to 4294967295");
    assert_eq!(after.certificates, phone_after(IMAGE, "").certificates);
}

#[test]
fn a_root_of_each_domain_serves_through_its_last_second() {
    let requests = "\
request by device executable 1 action 0
request by device executable 2 action 0
request by device executable 3 action 0";
    let verifies = "\
verify by device executable 1
verify by device executable 2
verify by device executable 3";
    let at_100 = [(0, 1, 2), (0, 2, 1), (0, 3, 1)];
    assert_eq!(answers(IMAGE, requests), at_100);
    assert_eq!(answers(IMAGE, verifies), at_100);
    let told = answers(IMAGE, &format!("clock by device to 101\n{requests}"));
    assert_eq!(told[1..], [(15, 0, 0); 3]);
    let told = answers(IMAGE, &format!("clock by device to 101\n{verifies}"));
    assert_eq!(told[1..], [(0, 0, 0); 3]);
    // A second too late, and what is issued by it.
    let old = "verify by device executable 4\nverify by device executable 5";
    assert_eq!(answers(IMAGE, old), [(0, 0, 0); 2]);
}

#[test]
fn where_the_root_of_a_short_chain_expires_a_longer_one_is_told() {
    let image = "\
phone mode 0 card none clock 149
certificate 1 on phone root third-party valid enabled key 40 owner 0 expiry 150
certificate 2 on phone issued third-party key 40 by 10 owner 0 expiry 900
certificate 3 on phone root third-party valid enabled key 10 owner 0 expiry 900
executable 1 third-party signed 40 permissions none
action 0 untrusted never operator free manufacturer free third-party free";
    let events = "\
clock by device to 150
request by device executable 1 action 0
clock by device to 151
request by device executable 1 action 0";
    let told = answers(image, events);
    assert_eq!((told[1], told[3]), ((0, 3, 1), (0, 3, 2)));
}

#[test]
fn i8_asks_for_a_root_in_date() {
    assert_eq!(refusal(IMAGE), (0, 0));
    let executables_at = 40 + CERTIFICATE * 24 + 16;
    let later = changed(&[("clock 100", "clock 101")]);
    assert_eq!(refusal(&later), (8, executables_at));
    let third = changed(&[("key 30 owner 0 expiry 100", "key 30 owner 0 expiry 99")]);
    assert_eq!(refusal(&third), (8, executables_at + 24));
    let trusted = changed(&[("executable 4 untrusted", "executable 4 third-party")]);
    assert_eq!(refusal(&trusted), (8, executables_at + 36));
    let earlier = changed(&[("clock 100", "clock 99")]);
    // At second 99 those that expire at 99 are in date, and there are too many of them.
    assert_eq!(refusal(&earlier), (5, slot(1)));
}

#[test]
fn i5_counts_roots_in_date_alone() {
    // A second one on the phone that is in date, in the last second or later.
    for expiry in [100, 101, 4_294_967_295_u32] {
        let second = format!("key 11 owner 500 expiry {expiry}");
        let image = changed(&[("key 11 owner 500 expiry 99", &second)]);
        assert_eq!(refusal(&image), (5, slot(1)));
    }
    // Which two it is: the first is past its date, and the third completes the pair.
    let image = changed(&[
        ("key 10 owner 500 expiry 100", "key 10 owner 500 expiry 99"),
        ("executable 1 operator", "executable 1 untrusted"),
        ("key 11 owner 500 expiry 99", "key 11 owner 500 expiry 100"),
        ("key 12 owner 600 expiry 99", "key 12 owner 600 expiry 100"),
    ]);
    assert_eq!(refusal(&image), (5, slot(2)));
    // On a card that is away.
    let second = (
        "certificate 18 on card 1 root operator invalid",
        "certificate 18 on card 1 root operator valid",
    );
    assert_eq!(refusal(&changed(&[second])), (0, 0));
    let first = ("key 17 owner 500 expiry 99", "key 17 owner 500 expiry 100");
    assert_eq!(refusal(&changed(&[second, first])), (5, slot(8)));
    // Manufacturer roots.
    let second = ("key 21 owner 70 expiry 99", "key 21 owner 70 expiry 100");
    assert_eq!(refusal(&changed(&[second])), (5, slot(11)));
    let both = changed(&[
        second,
        ("key 20 owner 70 expiry 100", "key 20 owner 70 expiry 99"),
        ("executable 2 manufacturer", "executable 2 untrusted"),
    ]);
    assert_eq!(refusal(&both), (0, 0));
}

#[test]
fn i5_lets_a_mark_past_its_date_stand_beside_a_present_card() {
    // Card 1 has one past its date; on the phone 10 is valid and the others are not.
    let card_1 = ("card none", "card 1");
    assert_eq!(refusal(&changed(&[card_1])), (0, 0));
    let on_card = ("key 17 owner 500 expiry 99", "key 17 owner 500 expiry 100");
    assert_eq!(refusal(&changed(&[card_1, on_card])), (5, slot(7)));
    // The valid one stands on the card, and on the phone all are past their date.
    let on_phone = ("key 10 owner 500 expiry 100", "key 10 owner 500 expiry 99");
    let untrusted = ("executable 1 operator", "executable 1 untrusted");
    let card_alone = [card_1, on_card, on_phone, untrusted];
    assert_eq!(refusal(&changed(&card_alone)), (0, 0));
    // One of another operator than the card's, past its date and in it.
    let strange = ("key 12 owner 600 expiry 99", "key 12 owner 600 expiry 100");
    let strange_alone = [card_1, on_phone, untrusted, strange];
    assert_eq!(refusal(&changed(&strange_alone)), (5, slot(2)));
    assert_eq!(refusal(&changed(&strange_alone[..3])), (0, 0));
}

#[test]
fn the_card_rule_looks_for_a_root_in_date() {
    // Card 1's marked root is past its date: 10 stays valid, and the strange 12 loses its mark.
    for event in ["card-in by device card 1", "power-up by device card 1"] {
        assert_eq!(unmarked(event), [12]);
        let request = "request by device executable 1 action 0";
        let told = answers(IMAGE, &format!("{event}\n{request}"));
        assert_eq!(told, [(0, 0, 0), (0, 1, 2)]);
    }
    // A second earlier it was valid, and so it is where its date is the clock.
    let valid = changed(&[("key 17 owner 500 expiry 99", "key 17 owner 500 expiry 100")]);
    let phone = phone_after(&valid, "card-in by device card 1");
    let on_phone = [10, 11, 12].map(|id| mark(&phone, id));
    assert_eq!((on_phone, mark(&phone, 17)), ([0, 0, 0], 1));
    assert_eq!(phone.executable(1).map(|e| e.domain), Some(0));
}

#[test]
fn the_card_rule_takes_the_mark_of_a_root_past_its_date() {
    // Card 2's root is in its last second: every mark on the phone goes, in date or not.
    assert_eq!(unmarked("card-in by device card 2"), [10, 11, 12]);
    assert_eq!(unmarked("power-up by device card 2"), [10, 11, 12]);
    // A second later it is not valid: the marks of another operator's roots go, in date or not.
    let later = "clock by device to 101\ncard-in by device card 2";
    assert_eq!(unmarked(later), [10, 11]);
    // Nothing comes back, and neither the card's own root nor another domain's is touched.
    let out = format!("{later}\ncard-out by device\ncard-in by device card 1");
    assert_eq!(unmarked(&out), [10, 11, 12]);
}

#[test]
fn what_is_so_already_takes_the_marks_past_their_date_all_the_same() {
    // Card 2 is in with a valid root, and the marks on the phone are all past their date.
    let image = changed(&[
        ("card none", "card 2"),
        ("key 10 owner 500 expiry 100", "key 10 owner 500 expiry 99"),
        ("executable 1 operator", "executable 1 untrusted"),
    ]);
    let marks = |image: &str, event: &str| {
        let phone = phone_after(image, event);
        [10, 11, 12].map(|id| mark(&phone, id))
    };
    assert_eq!(marks(&image, ""), [1, 1, 1]);
    // Power up with the card that is in, and its valid root marked valid.
    for event in [
        "power-up by device card 2",
        "mark-valid by operator 600 certificate 19",
    ] {
        assert_eq!(codes(&image, event), [0]);
        assert_eq!(marks(&image, event), [0, 0, 0]);
    }
    // Where the card's root is past its date, too, its operator's roots on the phone keep theirs.
    let later = image.replace("clock 100", "clock 101");
    let later = later
        .replace("executable 2 manufacturer", "executable 2 untrusted")
        .replace("executable 3 third-party", "executable 3 untrusted");
    assert_eq!(marks(&later, "power-up by device card 2"), [0, 0, 1]);
    assert_eq!(
        codes(&later, "mark-valid by operator 600 certificate 19"),
        [18]
    );
    // No root on the phone is valid, and a card comes.
    let away = image.replace("card 2 clock", "card none clock");
    for event in ["card-in by device card 2", "power-up by device card 2"] {
        assert_eq!(marks(&away, event), [0, 0, 0]);
    }
    assert_eq!(marks(&away, "card-in by device card 1"), [1, 1, 0]);
}

#[test]
fn marking_a_cards_root_valid_takes_the_marks_past_their_date_too() {
    let events = "card-in by device card 1\nmark-valid by operator 500 certificate 18";
    assert_eq!(codes(IMAGE, events), [0, 0]);
    let phone = phone_after(IMAGE, events);
    let on_phone = [10, 11, 12].map(|id| mark(&phone, id));
    assert_eq!(on_phone, [0, 0, 0]);
    // Beside it on the card, the mark of the one past its date stays.
    assert_eq!((mark(&phone, 17), mark(&phone, 18)), (1, 1));
}

#[test]
fn code_13_sees_no_root_past_its_date() {
    let at = |second: u32, event: &str| code_after(&format!("clock by device to {second}"), event);
    for event in [
        "mark-valid by operator 500 certificate 13",
        "mark-valid by manufacturer 70 certificate 22",
        "replace by operator certificate 13 with 40 key 113 by 40 owner 500 expiry 900",
        "replace by manufacturer certificate 22 with 41 key 122 by 41 owner 70 expiry 900",
    ] {
        // 10 and 20 are valid at second 100 and no more at 101; 11, 12 and 21 never are.
        assert_eq!(at(100, event), 13, "{event}");
        assert_eq!(at(101, event), 0, "{event}");
    }
    // On a card, another one of that card.
    let on_card = "card-in by device card 1";
    let event = "mark-valid by operator 500 certificate 18";
    assert_eq!(code_after(on_card, event), 0);
    let earlier = changed(&[("key 17 owner 500 expiry 99", "key 17 owner 500 expiry 100")]);
    let both = format!("{on_card}\n{event}");
    assert_eq!(codes(&earlier, &both), [0, 13]);
    let later = format!("{on_card}\nclock by device to 101\n{event}");
    assert_eq!(codes(&earlier, &later), [0, 0, 0]);
    // For one on the phone, another on the present card.
    let on_card = "card-in by device card 2";
    let event = "mark-valid by operator 600 certificate 15";
    assert_eq!(code_after(on_card, event), 13);
    let later = format!("{on_card}\nclock by device to 101");
    assert_eq!(code_after(&later, event), 0);
}

#[test]
fn code_18_is_about_the_date_of_the_root_to_mark() {
    let at = |second: u32, event: &str| code_after(&format!("clock by device to {second}"), event);
    // Where it is marked already, where it is not, and for each domain.
    assert_eq!(code("mark-valid by operator 500 certificate 10"), 0);
    assert_eq!(at(101, "mark-valid by operator 500 certificate 10"), 18);
    assert_eq!(at(101, "mark-valid by operator 500 certificate 11"), 18);
    assert_eq!(at(101, "mark-valid by operator 500 certificate 14"), 18);
    assert_eq!(at(900, "mark-valid by operator 500 certificate 13"), 0);
    assert_eq!(at(901, "mark-valid by operator 500 certificate 13"), 18);
    assert_eq!(code("mark-valid by manufacturer 70 certificate 20"), 0);
    assert_eq!(at(101, "mark-valid by manufacturer 70 certificate 20"), 18);
    assert_eq!(at(101, "mark-valid by manufacturer 70 certificate 23"), 18);
    assert_eq!(code("mark-valid by administrator certificate 30"), 0);
    for id in [31, 32, 33] {
        let event = format!("mark-valid by administrator certificate {id}");
        assert_eq!(code(&event), 18);
    }
    // On the present card.
    let event = "mark-valid by operator 500 certificate 17";
    assert_eq!(code_after("card-in by device card 1", event), 18);
    // A mark can be taken all the same, and then it is gone.
    let events =
        "mark-invalid by operator 500 certificate 11\nmark-valid by operator 500 certificate 11";
    assert_eq!(at(101, events), 18);
    assert_eq!(
        unmarked("mark-invalid by operator 500 certificate 11"),
        [11]
    );
}

#[test]
fn code_18_comes_after_every_other() {
    assert_eq!(code("mark-valid by user certificate 32"), 4);
    assert_eq!(code("mark-valid by operator 500 certificate 17"), 8);
    let other_card = "card-in by device card 2";
    let strange = "mark-valid by operator 500 certificate 14";
    assert_eq!(code_after(other_card, strange), 11);
    // Issued and recovery records past their date.
    assert_eq!(code("mark-valid by operator 500 certificate 42"), 12);
    assert_eq!(code("mark-valid by operator 500 certificate 40"), 12);
    // 10 and 20 are valid at second 100.
    assert_eq!(code("mark-valid by operator 500 certificate 11"), 13);
    assert_eq!(code("mark-valid by operator 500 certificate 14"), 13);
    assert_eq!(code("mark-valid by manufacturer 70 certificate 23"), 13);
    let old = "expiry 99";
    let replace = "replace by operator certificate 10 with 40";
    assert_eq!(code(&format!("{replace} key 0 by 40 owner 500 {old}")), 2);
    assert_eq!(code(&format!("{replace} key 20 by 40 owner 500 {old}")), 10);
    assert_eq!(
        code(&format!("{replace} key 110 by 41 owner 500 {old}")),
        17
    );
    assert_eq!(
        code(&format!("{replace} key 110 by 40 owner 600 {old}")),
        17
    );
    assert_eq!(
        code(&format!("{replace} key 110 by 40 owner 500 {old}")),
        18
    );
    let second = replace.replace("certificate 10", "certificate 11");
    assert_eq!(code(&format!("{second} key 110 by 40 owner 500 {old}")), 13);
}

#[test]
fn code_18_is_about_the_date_that_a_replace_brings() {
    let replace = |id: u16, expiry: u32| {
        format!(
            "replace by operator certificate {id} with 40 key 110 by 40 owner 500 expiry {expiry}"
        )
    };
    assert_eq!(code(&replace(10, 99)), 18);
    assert_eq!(code(&replace(10, 0)), 18);
    assert_eq!(code(&replace(10, 100)), 0);
    assert_eq!(code(&replace(10, 4_294_967_295)), 0);
    // Neither the date that the root had nor that of the recovery record is looked at.
    let later = "clock by device to 101";
    assert_eq!(code_after(later, &replace(11, 101)), 0);
    assert_eq!(code_after(later, &replace(14, 101)), 0);
    assert_eq!(code_after(later, &replace(14, 100)), 18);
    assert_eq!(code_after(later, &replace(13, 100)), 18);
    // A root that was past its date serves again, with its new key.
    let events = format!(
        "{later}\n{}\ninstall-executable by user executable 50 signed 110\n",
        replace(11, 101)
    );
    let image = changed(&[(
        "executable 9 untrusted signed 11 permissions none",
        "executable free",
    )]);
    let told = answers(&image, &format!("{events}verify by device executable 50"));
    assert_eq!(told[3], (0, 1, 1));
    // In the last second there is.
    let last = changed(&[
        ("clock 100", "clock 4294967295"),
        ("executable 1 operator", "executable 1 untrusted"),
        ("executable 2 manufacturer", "executable 2 untrusted"),
        ("executable 3 third-party", "executable 3 untrusted"),
    ]);
    assert_eq!(codes(&last, &replace(10, 4_294_967_295)), [0]);
    assert_eq!(codes(&last, &replace(10, 4_294_967_294)), [18]);
}

#[test]
fn a_refusal_for_the_date_changes_nothing() {
    let image = stream(IMAGE, "");
    for event in [
        "mark-valid by administrator certificate 32",
        "replace by operator certificate 10 with 40 key 110 by 40 owner 500 expiry 99",
    ] {
        let mut after = image.clone();
        assert_eq!(
            step_image(&mut after, &to_bytes(event).expect("text")).code,
            18
        );
        assert_eq!(after, image);
    }
}

#[test]
fn what_is_installed_or_enabled_past_its_date_is_not_trusted() {
    let install =
        "install-certificate by user certificate 50 on phone root third-party key 31 owner 0";
    let verify = "verify by device executable 4";
    // A third party root comes with its mark, whatever its date.
    let old = format!("{install} expiry 99\n{verify}");
    assert_eq!(answers(IMAGE, &old), [(0, 0, 0), (0, 0, 0)]);
    assert_eq!(mark(&phone_after(IMAGE, &old), 50), 1);
    let new = format!("{install} expiry 100\n{verify}");
    assert_eq!(answers(IMAGE, &new), [(0, 0, 0), (0, 3, 1)]);
    let enable = "configuration by administrator enable-all\nverify by device executable 7";
    assert_eq!(answers(IMAGE, enable), [(0, 0, 0), (0, 0, 0)]);
    let enabled = phone_after(IMAGE, enable)
        .certificate(33)
        .map(|c| c.enabled);
    assert_eq!(enabled, Some(1));
}

fn why(events: &str, id: u16) -> String {
    let question = Question {
        id,
        events: Some(events.lines().count() as u64),
    };
    question.answer(&stream(IMAGE, events)).text(id)
}

#[test]
fn why_tells_a_root_that_is_past_its_date() {
    assert_eq!(why("", 2), "certificate 20 is a trusted root\n");
    let later = "clock by device to 101";
    assert_eq!(why(later, 2), "certificate 20 is past its date\n");
    assert_eq!(why("", 4), "certificate 31 is past its date\n");
    assert_eq!(why("", 9), "certificate 11 is past its date\n");
    // Below it, a record in date has lost its signer.
    let no_signer = |id: u16| format!("certificate {id} has no good signer within three links\n");
    assert_eq!(why("", 5), no_signer(35));
    assert_eq!(why(later, 1), no_signer(16));
    // What is asked before comes before.
    assert_eq!(why("", 6), "certificate 32 is marked invalid\n");
    assert_eq!(why("", 7), "certificate 33 is disabled\n");
    assert_eq!(why("", 8), "certificate 34 is on an absent card\n");
    let card = "card-in by device card 1";
    assert_eq!(why(card, 8), "certificate 34 is past its date\n");
    // The date has no say in marking.
    let unmarked = "mark-invalid by operator 500 certificate 11";
    assert_eq!(why(unmarked, 9), "certificate 11 is marked invalid\n");
}
