//! 01, "Traps for the modeller", and the blind spots of the worked run.

use crate::common::{answers, phone_after, worked_image};

#[test]
fn the_phones_key_stays_invalid_when_the_card_leaves() {
    let events = "card-in by device card 2\ncard-out by device\nverify by device executable 1";
    assert_eq!(answers(worked_image(), events)[2], (0, 0, 0));
    let phone = phone_after(worked_image(), events);
    assert_eq!(phone.certificate(10).map(|c| c.mark), Some(0));
    assert_eq!(phone.card_present, 0);
}

#[test]
fn a_card_of_the_same_operator_without_a_root_leaves_the_phones_key() {
    let events = "card-in by device card 1\nverify by device executable 1";
    assert_eq!(answers(worked_image(), events)[1], (0, 1, 2));
}

#[test]
fn a_marked_invalid_twin_before_a_good_one_does_no_harm() {
    let image = "\
phone mode 0 card none clock 100
certificate 1 on phone root operator invalid enabled key 1 owner 5 expiry 100
certificate 2 on phone issued operator key 2 by 9 owner 5 expiry 100
certificate 3 on phone issued operator key 2 by 1 owner 5 expiry 99
certificate 4 on phone issued operator key 2 by 1 owner 5 expiry 100
certificate 5 on card 1 root operator valid enabled key 1 owner 5 expiry 100
certificate 6 on phone root operator valid enabled key 1 owner 5 expiry 100
card 1 operator 5
executable 1 untrusted signed 2 permissions none
executable 2 untrusted signed 1 permissions none
action 0 untrusted never operator free manufacturer free third-party free";
    let events = "verify by device executable 1\nverify by device executable 2";
    assert_eq!(answers(image, events), [(0, 1, 2), (0, 1, 1)]);
}

#[test]
fn a_key_that_comes_back_brings_no_trust_without_verify() {
    let events = "\
request by device executable 1 action 1
mark-invalid by operator 500 certificate 10
mark-valid by operator 500 certificate 10
request by device executable 1 action 1
verify by device executable 1
request by device executable 1 action 1";
    let told = answers(worked_image(), events);
    assert_eq!(told[0], (0, 1, 2));
    assert_eq!(told[3], (15, 0, 0));
    assert_eq!(told[4..], [(0, 1, 2), (0, 1, 2)]);
}

#[test]
fn the_expiry_itself_is_in_date() {
    let events = "\
clock by device to 200
request by device executable 1 action 1
clock by device to 201
request by device executable 1 action 1";
    let told = answers(worked_image(), events);
    assert_eq!((told[1], told[3]), ((0, 1, 2), (15, 0, 0)));
}

#[test]
fn installing_takes_the_lowest_free_slot() {
    let events = "\
delete-certificate by operator 500 certificate 10
install-certificate by manufacturer certificate 7 on phone root manufacturer key 7 owner 0 expiry 0";
    let phone = phone_after(worked_image(), events);
    assert_eq!(
        phone.certificates[0].map(|c| (c.id, c.mark, c.enabled)),
        Some((7, 0, 1))
    );
    assert_eq!(phone.certificates[3], None);
}
