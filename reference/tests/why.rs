//! Why an executable is trusted or not: every line, every reason and its order, which chain is
//! printed, events before the question, and what is refused.

use crate::common::{stream, worked_image};
use reference::why::Question;

/// Cards 1 (present) and 2; executables are put behind it.
const PARTS: &str = "\
card 1 operator 500
card 2 operator 600
action 0 untrusted ask operator free manufacturer free third-party ask
";

const PHONE: &str = "phone mode 1 card 1 clock 100";

/// What is printed for executable 1, which is signed by 40 and has this domain.
fn told_of_40(certificates: &str, domain: &str) -> String {
    let executable = format!("executable 1 {domain} signed 40 permissions none");
    told(&image(certificates, &executable), 1)
}

fn image(certificates: &str, executables: &str) -> String {
    format!("{PHONE}\n{certificates}\n{PARTS}{executables}\n")
}

fn told(image: &str, id: u16) -> String {
    told_after(image, "", id, 0)
}

fn told_after(image: &str, events: &str, id: u16, count: u16) -> String {
    told_of_bytes(&stream(image, events), id, count)
}

fn told_of_bytes(stream: &[u8], id: u16, count: u16) -> String {
    let events = Some(count.into());
    Question { id, events }.answer(stream).text(id)
}

#[track_caller]
fn assert_lines(told: String, lines: &[&str]) {
    assert_eq!(told.lines().collect::<Vec<_>>(), lines);
    assert!(told.ends_with('\n'));
}

#[test]
fn each_reason_is_told() {
    for (record, reason) in [
        (
            "certificate 5 on card 2 root third-party valid enabled key 40 owner 0 expiry 100",
            "certificate 5 is on an absent card",
        ),
        (
            "certificate 5 on phone root third-party invalid enabled key 40 owner 0 expiry 100",
            "certificate 5 is marked invalid",
        ),
        (
            "certificate 5 on phone root third-party valid disabled key 40 owner 0 expiry 100",
            "certificate 5 is disabled",
        ),
        (
            "certificate 5 on phone root third-party valid enabled key 40 owner 0 expiry 99",
            "certificate 5 is past its date",
        ),
        (
            "certificate 5 on phone issued third-party key 40 by 30 owner 0 expiry 99",
            "certificate 5 is past its date",
        ),
        (
            "certificate 5 on phone issued third-party key 40 by 30 owner 0 expiry 100",
            "certificate 5 has no good signer within three links",
        ),
    ] {
        assert_lines(told_of_40(record, "untrusted"), &[reason]);
    }
}

#[test]
fn of_several_true_reasons_the_first_is_told() {
    for (record, reason) in [
        (
            "certificate 5 on card 2 root third-party invalid disabled key 40 owner 0 expiry 99",
            "certificate 5 is on an absent card",
        ),
        (
            "certificate 5 on card 2 root third-party valid disabled key 40 owner 0 expiry 99",
            "certificate 5 is on an absent card",
        ),
        (
            "certificate 5 on card 2 issued third-party key 40 by 30 owner 0 expiry 99",
            "certificate 5 is on an absent card",
        ),
        (
            "certificate 5 on card 2 issued third-party key 40 by 30 owner 0 expiry 100",
            "certificate 5 is on an absent card",
        ),
        (
            "certificate 5 on card 1 root third-party invalid disabled key 40 owner 0 expiry 99",
            "certificate 5 is marked invalid",
        ),
        (
            "certificate 5 on card 1 root third-party invalid enabled key 40 owner 0 expiry 99",
            "certificate 5 is marked invalid",
        ),
        (
            "certificate 5 on card 1 root third-party valid disabled key 40 owner 0 expiry 99",
            "certificate 5 is disabled",
        ),
        (
            "certificate 5 on card 2 root third-party valid enabled key 40 owner 0 expiry 99",
            "certificate 5 is on an absent card",
        ),
        (
            "certificate 5 on card 1 root third-party valid enabled key 40 owner 0 expiry 0",
            "certificate 5 is past its date",
        ),
        (
            "certificate 5 on card 1 issued third-party key 40 by 30 owner 0 expiry 0",
            "certificate 5 is past its date",
        ),
    ] {
        assert_lines(told_of_40(record, "untrusted"), &[reason]);
    }
}

#[test]
fn every_record_with_the_key_is_told_in_order_of_id() {
    let certificates = "\
certificate 65535 on phone issued third-party key 40 by 30 owner 0 expiry 99
certificate 300 on card 2 issued third-party key 40 by 30 owner 0 expiry 99
certificate free
certificate 256 on phone issued third-party key 40 by 30 owner 0 expiry 100
certificate 7 on phone issued third-party key 41 by 30 owner 0 expiry 100
certificate 255 on phone root third-party invalid disabled key 40 owner 0 expiry 0
certificate 2 on phone root third-party valid disabled key 40 owner 0 expiry 0
certificate 257 on card 1 root third-party valid enabled key 40 owner 0 expiry 99";
    assert_lines(
        told_of_40(certificates, "untrusted"),
        &[
            "certificate 2 is disabled",
            "certificate 255 is marked invalid",
            "certificate 256 has no good signer within three links",
            "certificate 257 is past its date",
            "certificate 300 is on an absent card",
            "certificate 65535 is past its date",
        ],
    );
}

/// A root 10 with the key 10, then records 20, 30 and so on, each verified by the key before it.
fn ladder(last: u32) -> String {
    let root = "certificate 10 on phone root third-party valid enabled key 10 owner 0 expiry 100";
    let issued = |key: u32| {
        let by = key - 10;
        format!(
            "certificate {key} on phone issued third-party key {key} by {by} owner 0 expiry 100"
        )
    };
    let mut lines = vec![root.to_string()];
    lines.extend((20..=last).step_by(10).map(issued));
    lines.join("\n")
}

#[test]
fn chains_of_one_to_four_links_are_told_root_first() {
    let lines = [
        "certificate 10 is a trusted root",
        "certificate 20 is verified by certificate 10",
        "certificate 30 is verified by certificate 20",
        "certificate 40 is verified by certificate 30",
    ];
    for links in 1..=4 {
        let executable = format!("executable 1 third-party signed {links}0 permissions none");
        let image = image(&ladder(40), &executable);
        assert_lines(told(&image, 1), &lines[..links]);
    }
}

#[test]
fn a_fifth_link_has_no_good_signer() {
    let executables = "executable 1 untrusted signed 50 permissions none";
    let image = image(&ladder(60), executables);
    assert_lines(
        told(&image, 1),
        &["certificate 50 has no good signer within three links"],
    );
}

#[test]
fn records_that_verify_each_other_have_no_good_signer() {
    let certificates = "\
certificate 9 on phone issued third-party key 40 by 41 owner 0 expiry 100
certificate 8 on phone issued third-party key 41 by 40 owner 0 expiry 100
certificate 7 on phone issued third-party key 40 by 40 owner 0 expiry 100";
    assert_lines(
        told_of_40(certificates, "untrusted"),
        &[
            "certificate 7 has no good signer within three links",
            "certificate 9 has no good signer within three links",
        ],
    );
}

#[test]
fn a_signer_of_another_domain_is_none() {
    let certificates = "\
certificate 3 on phone root manufacturer valid enabled key 30 owner 0 expiry 100
certificate 4 on phone issued third-party key 40 by 30 owner 0 expiry 100";
    assert_lines(
        told_of_40(certificates, "untrusted"),
        &["certificate 4 has no good signer within three links"],
    );
}

#[test]
fn an_executable_in_domain_0_despite_a_chain_has_a_line_after_it() {
    let lines = [
        "certificate 10 is a trusted root",
        "certificate 20 is verified by certificate 10",
        "certificate 30 is verified by certificate 20",
        "certificate 40 is verified by certificate 30",
        "application 1 is untrusted until it is verified",
    ];
    assert_lines(told_of_40(&ladder(40), "untrusted"), &lines);
    assert_lines(told_of_40(&ladder(40), "third-party"), &lines[..4]);
}

#[test]
fn unsigned_and_unheld_have_a_line_each() {
    let executables = "\
executable 1 untrusted unsigned permissions none
executable 77 untrusted signed 77 permissions none
executable 20 untrusted signed 5 permissions none";
    // Nobody has the key 5, though one record is verified by it and another has it as its id.
    let certificates = "\
certificate 5 on phone issued operator key 6 by 5 owner 0 expiry 100
certificate 6 on phone root manufacturer valid enabled key 9 owner 5 expiry 5";
    let image = image(certificates, executables);
    assert_lines(told(&image, 1), &["application 1 is unsigned"]);
    assert_lines(
        told(&image, 77),
        &["no certificate has the key of application 77"],
    );
    assert_lines(
        told(&image, 20),
        &["no certificate has the key of application 20"],
    );
}

#[test]
fn unknown_ids_and_0_are_code_3() {
    let image = image(
        &ladder(40),
        "executable 2 third-party signed 40 permissions none\nexecutable free",
    );
    // The ids of certificates are another space.
    for id in [0, 1, 3, 10, 40, 258, 65535] {
        assert_lines(told(&image, id), &["executable 3"]);
    }
}

/// Twins of the root key 10 and of the keys 20 and 40, for chains of three links.
fn twins(order: [u16; 3]) -> String {
    let [a, b, c] = order;
    format!(
        "\
certificate 1{a} on phone root third-party valid enabled key 10 owner 0 expiry 100
certificate 1{b} on phone root third-party valid enabled key 10 owner 0 expiry 100
certificate 1{c} on phone root third-party valid enabled key 10 owner 0 expiry 100
certificate 2{a} on phone issued third-party key 20 by 10 owner 0 expiry 100
certificate 2{b} on phone issued third-party key 20 by 10 owner 0 expiry 100
certificate 2{c} on phone issued third-party key 20 by 10 owner 0 expiry 100
certificate 4{a} on phone issued third-party key 40 by 20 owner 0 expiry 100
certificate 4{b} on phone issued third-party key 40 by 20 owner 0 expiry 100
certificate 4{c} on phone issued third-party key 40 by 20 owner 0 expiry 100"
    )
}

#[test]
fn of_twins_the_lowest_id_is_told_whichever_slot_it_has() {
    for order in [[1, 2, 3], [3, 2, 1], [2, 1, 3], [2, 3, 1]] {
        assert_lines(
            told_of_40(&twins(order), "third-party"),
            &[
                "certificate 11 is a trusted root",
                "certificate 21 is verified by certificate 11",
                "certificate 41 is verified by certificate 21",
            ],
        );
    }
}

#[test]
fn a_lower_id_that_is_not_good_does_not_serve() {
    let certificates = "\
certificate 1 on phone root third-party valid disabled key 10 owner 0 expiry 100
certificate 2 on phone root third-party valid enabled key 10 owner 0 expiry 100
certificate 3 on card 2 issued third-party key 40 by 10 owner 0 expiry 100
certificate 4 on phone issued third-party key 40 by 10 owner 0 expiry 99
certificate 6 on phone issued third-party key 40 by 11 owner 0 expiry 100
certificate 5 on phone issued third-party key 40 by 10 owner 0 expiry 100";
    assert_lines(
        told_of_40(certificates, "third-party"),
        &[
            "certificate 2 is a trusted root",
            "certificate 5 is verified by certificate 2",
        ],
    );
}

#[test]
fn a_lower_id_that_is_good_by_a_longer_way_does_not_serve() {
    // Record 1 needs three links and record 9 two; above record 9, record 2 needs two and 8 one.
    let certificates = "\
certificate 1 on phone issued third-party key 40 by 20 owner 0 expiry 100
certificate 9 on phone issued third-party key 40 by 10 owner 0 expiry 100
certificate 7 on phone issued third-party key 20 by 10 owner 0 expiry 100
certificate 2 on phone issued third-party key 10 by 5 owner 0 expiry 100
certificate 8 on phone root third-party valid enabled key 10 owner 0 expiry 100
certificate 3 on phone root third-party valid enabled key 5 owner 0 expiry 100";
    assert_lines(
        told_of_40(certificates, "third-party"),
        &[
            "certificate 8 is a trusted root",
            "certificate 9 is verified by certificate 8",
        ],
    );
}

#[test]
fn links_are_chosen_from_the_signer_up() {
    // From the root down it would be 1, 6 and 8; the signer's lowest id leads to the root 2.
    let certificates = "\
certificate 1 on phone root third-party valid enabled key 10 owner 0 expiry 100
certificate 2 on phone root third-party valid enabled key 11 owner 0 expiry 100
certificate 6 on phone issued third-party key 20 by 10 owner 0 expiry 100
certificate 7 on phone issued third-party key 21 by 11 owner 0 expiry 100
certificate 8 on phone issued third-party key 40 by 20 owner 0 expiry 100
certificate 5 on phone issued third-party key 40 by 21 owner 0 expiry 100";
    assert_lines(
        told_of_40(certificates, "third-party"),
        &[
            "certificate 2 is a trusted root",
            "certificate 7 is verified by certificate 2",
            "certificate 5 is verified by certificate 7",
        ],
    );
}

#[test]
fn a_root_with_the_key_makes_the_chain_one_link() {
    let root = "certificate 90 on phone root third-party valid enabled key 40 owner 0 expiry 100";
    assert_lines(
        told_of_40(&format!("{}\n{root}", ladder(40)), "third-party"),
        &["certificate 90 is a trusted root"],
    );
}

const WORKED_EVENTS: &str = "\
clock by user to 999
clock by device to 200
clock by device to 201
power-up by device card 2
mark-invalid by operator 500 certificate 10
delete-executable by user executable 1
bytes 00 01 02";

#[test]
fn events_run_before_the_question_and_refused_ones_count() {
    let after = |count: u16| told_after(worked_image(), WORKED_EVENTS, 1, count);
    let chain = [
        "certificate 10 is a trusted root",
        "certificate 11 is verified by certificate 10",
    ];
    // The first event is by the wrong actor, the second is the last second of the date.
    for count in 0..=2 {
        assert_lines(after(count), &chain);
    }
    for count in 3..=5 {
        assert_lines(after(count), &["certificate 11 is past its date"]);
    }
    for count in [6, 7, 8, 65535] {
        assert_lines(after(count), &["executable 3"]);
    }
}

#[test]
fn a_chain_that_comes_back_is_told_with_the_line_after_it() {
    let events = "\
mark-invalid by operator 500 certificate 10
mark-valid by operator 500 certificate 10
verify by device executable 1";
    let after = |count: u16| told_after(worked_image(), events, 1, count);
    let lines = [
        "certificate 10 is a trusted root",
        "certificate 11 is verified by certificate 10",
        "application 1 is untrusted until it is verified",
    ];
    assert_lines(
        after(1),
        &["certificate 11 has no good signer within three links"],
    );
    assert_lines(after(2), &lines);
    assert_lines(after(3), &lines[..2]);
}

#[test]
fn a_refused_image_has_its_line_alone_whatever_is_asked() {
    let two_of_one_id = image(
        "certificate 5 on phone issued operator key 6 by 5 owner 0 expiry 100\n\
         certificate 5 on phone issued operator key 6 by 5 owner 0 expiry 100",
        "executable 1 untrusted unsigned permissions none",
    );
    for (id, count) in [(1, 0), (0, 0), (9, 0), (1, 1)] {
        let told = told_after(&two_of_one_id, "clock by device to 300", id, count);
        assert_lines(told, &["image 1 4 64"]);
    }
    for length in [0, 39] {
        let cut = &stream(worked_image(), "")[..length];
        assert_eq!(told_of_bytes(cut, 1, 0), format!("image 1 1 {length}\n"));
    }
    // The cleared buffer does not fill in for what was not read.
    let cut = &stream(worked_image(), "")[..183];
    assert_eq!(told_of_bytes(cut, 1, 0), "image 1 1 36\n");
}
