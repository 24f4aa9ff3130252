//! The ten boundaries that 01 marks P, at the end of "One run of `bench`, whole", and the two that
//! 02, "Roots have a date as well", adds to them.

use crate::common::{answers, worked_image, WORKED_RUN};

/// The answer to one event of the worked run, counted from 1.
fn worked(event: usize) -> (u8, u8, u8) {
    answers(WORKED_RUN, "")[event - 1]
}

#[test]
fn event_1_is_granted_over_two_links() {
    assert_eq!(worked(1), (0, 1, 2));
}

#[test]
fn event_3_is_granted_at_the_expiry_itself() {
    assert_eq!(worked(3), (0, 1, 2));
}

#[test]
fn event_5_is_refused_after_the_expiry() {
    assert_eq!(worked(5), (15, 0, 0));
}

#[test]
fn event_6_needs_a_permission() {
    assert_eq!(worked(6), (16, 0, 0));
}

#[test]
fn event_8_is_granted_with_the_permission() {
    assert_eq!(worked(8), (0, 0, 0));
}

#[test]
fn event_11_verifies_to_no_domain() {
    assert_eq!(worked(11), (0, 0, 0));
}

#[test]
fn event_13_marks_the_key_valid_again() {
    assert_eq!(worked(13), (0, 0, 0));
}

/// A chain of so many links in the third party domain, and an executable signed by its end.
fn chain_of(links: u32) -> String {
    let mut lines = String::from("phone mode 0 card none clock 7\n");
    lines += "certificate 1 on phone root third-party valid enabled key 1 owner 0 expiry 7\n";
    for key in 2..=links {
        let by = key - 1;
        lines += &format!(
            "certificate {key} on phone issued third-party key {key} by {by} owner 0 expiry 7\n"
        );
    }
    lines += &format!("executable 1 untrusted signed {links} permissions none\n");
    lines + "action 0 untrusted never operator free manufacturer free third-party free\n"
}

#[test]
fn a_chain_of_four_has_four_links() {
    let events = "verify by device executable 1\nrequest by device executable 1 action 0";
    assert_eq!(answers(&chain_of(4), events), [(0, 3, 4), (0, 3, 4)]);
}

#[test]
fn a_chain_of_five_is_none() {
    let events = "verify by device executable 1\nrequest by device executable 1 action 0";
    assert_eq!(answers(&chain_of(5), events), [(0, 0, 0), (15, 0, 0)]);
}

#[test]
fn two_issued_records_verifying_each_other_are_no_chain() {
    let image = "\
phone mode 0 card none clock 7
certificate 1 on phone issued operator key 1 by 2 owner 0 expiry 9
certificate 2 on phone issued operator key 2 by 1 owner 0 expiry 9
executable 1 untrusted signed 1 permissions none
action 0 untrusted never operator free manufacturer free third-party free";
    assert_eq!(answers(image, "verify by device executable 1"), [(0, 0, 0)]);
}

/// The answer to request 1/1 at a second, where root 10 of the worked image expires at 150.
fn request_at(second: u32) -> (u8, u8, u8) {
    let image = worked_image().replacen("expiry 1000", "expiry 150", 1);
    let events = format!("clock by device to {second}\nrequest by device executable 1 action 1");
    answers(&image, &events)[1]
}

#[test]
fn a_root_serves_in_its_last_second() {
    assert_eq!(request_at(150), (0, 1, 2));
}

#[test]
fn a_root_does_not_serve_one_second_later() {
    assert_eq!(request_at(151), (15, 0, 0));
}

#[test]
fn shorter_chains_have_their_own_count() {
    for links in 1..=3 {
        let told = answers(&chain_of(links), "verify by device executable 1");
        assert_eq!(told, [(0, 3, links as u8)]);
    }
}
