//! Where an image is wrong: the first broken rule and the byte offset, for every rule and its parts.

use crate::common::{refusal, refusal_of_bytes, stream};
use reference::bench;
use reference::generate::{case_of, Mix};
use reference::phone::{Certificate, Executable, Phone, MANUFACTURER, OPERATOR, ROOT};

/// Certificates from 40, cards from 136, executables from 160, rows from 196; 204 bytes.
const IMAGE: &str = "\
phone mode 1 card 1 clock 100
certificate 1 on card 1 root operator valid enabled key 10 owner 500 expiry 100
certificate 2 on card 2 root operator valid enabled key 20 owner 600 expiry 100
certificate 3 on phone root manufacturer valid enabled key 30 owner 0 expiry 100
certificate 4 on phone root third-party valid enabled key 40 owner 0 expiry 100
card 1 operator 500
card 2 operator 600
card 3 operator 500
executable 1 operator signed 10 permissions 0
executable 2 untrusted signed 20 permissions none
executable 3 third-party signed 40 permissions 0,1
action 0 untrusted ask operator free manufacturer free third-party ask
action 1 untrusted never operator free manufacturer free third-party never
";

/// Bytes put over those of the image, each list from an offset on.
fn with_bytes(changes: &[(usize, &[u8])]) -> (u8, usize) {
    let mut image = stream(IMAGE, "");
    for (at, bytes) in changes {
        image[*at..at + bytes.len()].copy_from_slice(bytes);
    }
    refusal_of_bytes(&image)
}

/// The image with words changed, each wherever it stands.
fn with_words(changes: &[(&str, &str)]) -> (u8, usize) {
    let mut image = IMAGE.to_string();
    for (from, to) in changes {
        assert!(image.contains(from), "no `{from}` in the image");
        image = image.replace(from, to);
    }
    refusal(&image)
}

#[test]
fn the_image_itself_is_accepted() {
    assert_eq!(stream(IMAGE, "").len(), 204);
    assert_eq!(refusal(IMAGE), (0, 0));
}

#[test]
fn a_buffer_shorter_than_a_header_gives_its_length() {
    let image = stream(IMAGE, "");
    for length in 0..40 {
        assert_eq!(refusal_of_bytes(&image[..length]), (1, length));
    }
    // What stands in it is not looked at.
    assert_eq!(refusal_of_bytes(&[0xFF; 39]), (1, 39));
}

#[test]
fn a_buffer_of_another_length_has_a_wrong_total() {
    let mut image = stream(IMAGE, "");
    for length in 40..204 {
        assert_eq!(refusal_of_bytes(&image[..length]), (1, 36));
    }
    image.push(0);
    assert_eq!(refusal_of_bytes(&image), (1, 36));
    // A field that stands before the total and is wrong comes first.
    image[11] = 3;
    assert_eq!(refusal_of_bytes(&image), (1, 10));
    assert_eq!(refusal_of_bytes(&image[..100]), (1, 10));
}

#[test]
fn i1_names_the_first_byte_of_each_field() {
    for (at, value) in [
        (0, 2),
        (2, 65),
        (4, 9),
        (6, 65),
        (8, 33),
        (8, 0),
        (10, 3),
        (14, 1),
    ] {
        assert_eq!(with_bytes(&[(at, &[0, value])]), (1, at));
        assert_eq!(with_bytes(&[(at, &[1, value])]), (1, at));
    }
    for at in [20, 24, 28, 32, 36] {
        assert_eq!(with_bytes(&[(at, &[0, 0, 0, 77])]), (1, at));
        assert_eq!(with_bytes(&[(at, &[255, 255, 255, 255])]), (1, at));
    }
    // The clock is free, and the present card is a matter of I3.
    assert_eq!(with_bytes(&[(16, &[0, 0, 0, 0])]), (0, 0));
    assert_eq!(with_bytes(&[(12, &[0, 9])]), (3, 12));
}

#[test]
fn i1_names_the_first_of_several_wrong_fields() {
    assert_eq!(with_bytes(&[(36, &[9]), (32, &[9]), (14, &[9])]), (1, 14));
    assert_eq!(with_bytes(&[(24, &[9]), (20, &[9])]), (1, 20));
    // A total that is no length to read comes last all the same.
    assert_eq!(with_bytes(&[(0, &[9]), (36, &[0, 0, 0, 39])]), (1, 0));
    assert_eq!(with_bytes(&[(36, &[0, 0, 9, 0xE9])]), (1, 36));
}

#[test]
fn i1_finds_a_count_in_range_at_the_offset_that_does_not_fit() {
    assert_eq!(with_bytes(&[(2, &[0, 3])]), (1, 24));
    assert_eq!(with_bytes(&[(4, &[0, 2])]), (1, 28));
    assert_eq!(with_bytes(&[(6, &[0, 4])]), (1, 32));
    assert_eq!(with_bytes(&[(8, &[0, 3])]), (1, 36));
}

#[test]
fn i2_names_the_lowest_certificate() {
    assert_eq!(with_words(&[("key 20 owner", "key 0 owner")]), (2, 64));
    assert_eq!(with_bytes(&[(112, &[0, 0])]), (2, 112));
    assert_eq!(with_bytes(&[(119, &[2]), (92, &[7])]), (2, 88));
    // A slot whose last byte alone is not 0 is an occupied one.
    let mut image = stream(IMAGE, "");
    image[88..112].fill(0);
    image[111] = 1;
    assert_eq!(refusal_of_bytes(&image), (2, 88));
}

#[test]
fn i3_names_the_present_card_before_any_record() {
    assert_eq!(
        with_words(&[("phone mode 1 card 1", "phone mode 1 card 9")]),
        (3, 12)
    );
    // The present card loses its number, its root its place, and there is a card 0.
    assert_eq!(
        with_words(&[("card 1 operator 500", "card 0 operator 500")]),
        (3, 12)
    );
    // A certificate of unknown place below, and a doubled card above.
    let changes = [
        ("phone mode 1 card 1", "phone mode 1 card 9"),
        ("certificate 1 on card 1", "certificate 1 on card 8"),
        ("card 3 operator", "card 2 operator"),
    ];
    assert_eq!(with_words(&changes), (3, 12));
}

#[test]
fn i3_names_a_certificate_of_unknown_place_before_a_card() {
    let moved = ("certificate 4 on phone", "certificate 4 on card 7");
    assert_eq!(with_words(&[moved]), (3, 112));
    assert_eq!(
        with_words(&[moved, ("card 3 operator", "card 0 operator")]),
        (3, 112)
    );
    // Card 2 becomes another card 1: the certificate on it shows it first.
    assert_eq!(
        with_words(&[("card 2 operator", "card 1 operator")]),
        (3, 64)
    );
    assert_eq!(
        with_words(&[("card 2 operator", "card 0 operator")]),
        (3, 64)
    );
}

#[test]
fn i3_names_the_lowest_bad_card() {
    assert_eq!(
        with_words(&[("card 3 operator", "card 0 operator")]),
        (3, 152)
    );
    // The higher one of two equal numbers is the one that breaks the rule with a lower one.
    assert_eq!(
        with_words(&[("card 3 operator", "card 1 operator")]),
        (3, 152)
    );
    assert_eq!(with_bytes(&[(146, &[0, 1])]), (3, 144));
    assert_eq!(with_bytes(&[(155, &[1]), (139, &[1])]), (3, 136));
}

#[test]
fn i4_names_the_lowest_certificate_of_any_part() {
    let same_id = ("certificate 4 on", "certificate 1 on");
    let same_key = ("key 30 owner", "key 10 owner");
    let strange_owner = ("key 20 owner 600", "key 20 owner 500");
    assert_eq!(with_words(&[same_id]), (4, 112));
    assert_eq!(with_words(&[same_key]), (4, 88));
    assert_eq!(with_words(&[strange_owner]), (4, 64));
    assert_eq!(with_words(&[same_id, same_key]), (4, 88));
    assert_eq!(with_words(&[same_id, same_key, strange_owner]), (4, 64));
}

#[test]
fn i5_names_the_lowest_certificate_of_any_part() {
    // Two valid operator roots of card 2.
    let fourth = (
        "certificate 4 on phone root third-party",
        "certificate 4 on card 2 root operator",
    );
    let fourth_owner = ("key 40 owner 0", "key 40 owner 600");
    assert_eq!(with_words(&[fourth, fourth_owner]), (5, 112));
    // One on the phone beside that of the present card, whichever of the two stands higher.
    let third = (
        "certificate 3 on phone root manufacturer",
        "certificate 3 on phone root operator",
    );
    let third_owner = ("key 30 owner 0", "key 30 owner 500");
    assert_eq!(with_words(&[third, third_owner]), (5, 88));
    assert_eq!(
        with_words(&[third, third_owner, fourth, fourth_owner]),
        (5, 88)
    );
    let first_on_phone = ("certificate 1 on card 1", "certificate 1 on phone");
    let second_on_card = ("certificate 2 on card 2", "certificate 2 on card 1");
    let second_owner = ("key 20 owner 600", "key 20 owner 500");
    assert_eq!(
        with_words(&[first_on_phone, second_on_card, second_owner]),
        (5, 64)
    );
    // One on the phone of another operator than the present card breaks it alone.
    let first_owner = ("key 10 owner 500", "key 10 owner 501");
    assert_eq!(with_words(&[first_on_phone, first_owner]), (5, 40));
    // Two valid manufacturer roots, and no second one where the mark is 0.
    let second_maker = (
        "certificate 2 on card 2 root operator",
        "certificate 2 on phone root manufacturer",
    );
    assert_eq!(with_words(&[second_maker]), (5, 88));
    let unmarked = (
        "manufacturer valid enabled key 30",
        "manufacturer invalid enabled key 30",
    );
    assert_eq!(with_words(&[second_maker, unmarked]), (0, 0));
}

#[test]
fn i6_names_the_lowest_row() {
    assert_eq!(with_bytes(&[(200, &[0, 0, 0, 3])]), (6, 200));
    assert_eq!(with_bytes(&[(196, &[2, 2, 2, 1])]), (6, 196));
    assert_eq!(with_bytes(&[(196, &[1, 0, 2, 2]), (200, &[3])]), (6, 196));
}

#[test]
fn i7_names_the_lowest_executable_of_any_part() {
    let same_id = ("executable 3 third", "executable 1 third");
    let strange_bit = ("permissions none", "permissions 2");
    assert_eq!(with_words(&[same_id]), (7, 184));
    assert_eq!(with_words(&[strange_bit]), (7, 172));
    assert_eq!(with_words(&[same_id, strange_bit]), (7, 172));
    assert_eq!(with_bytes(&[(160, &[0, 0])]), (7, 160));
    assert_eq!(with_bytes(&[(174, &[4]), (187, &[1])]), (7, 172));
    // The signing key alone makes a slot an occupied one.
    assert_eq!(with_bytes(&[(172, &[0, 0])]), (7, 172));
}

#[test]
fn i8_names_the_lowest_executable() {
    assert_eq!(
        with_words(&[("executable 2 untrusted", "executable 2 operator")]),
        (8, 172)
    );
    assert_eq!(
        with_words(&[("third-party signed 40", "third-party unsigned")]),
        (8, 184)
    );
    // Without the card in the phone the first has no chain.
    let no_card = ("phone mode 1 card 1", "phone mode 1 card none");
    assert_eq!(with_words(&[no_card]), (8, 160));
}

#[test]
fn the_first_broken_rule_is_told_wherever_a_later_one_is_broken() {
    // The offset of a later rule may be the lower one.
    let changes: [(usize, &[u8]); 4] =
        [(160, &[0, 0]), (200, &[3]), (112, &[0, 1]), (152, &[0, 0])];
    assert_eq!(with_bytes(&changes), (3, 152));
    assert_eq!(with_bytes(&changes[..3]), (4, 112));
    assert_eq!(with_bytes(&changes[..2]), (6, 200));
    assert_eq!(with_bytes(&changes[..1]), (7, 160));
}

#[test]
fn one_line_is_printed_and_no_event_is_looked_at() {
    let same_key = IMAGE.replace("key 30 owner", "key 10 owner");
    let run = bench::run(&stream(&same_key, "clock by device to 200"));
    assert_eq!(run.text, "event kind code domain links\nimage 1 4 88\n");
}

/// Whether a certificate breaks I4 alone or with a lower one, said by pairs.
fn breaks_i4(phone: &Phone, at: &Certificate, lower: &[Certificate]) -> bool {
    let shares = |c: &Certificate| c.id == at.id || (c.key == at.key && c.domain != at.domain);
    let card = phone.cards.iter().find(|card| card.number == at.place);
    let is_strange = card.is_some_and(|card| card.operator != at.owner);
    lower.iter().any(shares) || (at.kind == ROOT && at.domain == OPERATOR && is_strange)
}

/// The same for I5.
fn breaks_i5(phone: &Phone, at: &Certificate, lower: &[Certificate]) -> bool {
    let is_valid = |c: &Certificate| c.kind == ROOT && c.mark == 1 && c.expiry >= phone.clock;
    if !is_valid(at) {
        return false;
    }
    let has_lower = |test: &dyn Fn(&Certificate) -> bool| {
        lower
            .iter()
            .any(|c| is_valid(c) && c.domain == at.domain && test(c))
    };
    let present = phone.card_present;
    let card = phone.cards.iter().find(|card| card.number == present);
    match at.domain {
        MANUFACTURER => has_lower(&|_| true),
        OPERATOR => {
            let is_strange = card.is_some_and(|card| card.operator != at.owner);
            let is_present = |place: u16| place == 0 || place == present;
            let both_are_present = |c: &Certificate| is_present(at.place) && is_present(c.place);
            has_lower(&|c| c.place == at.place || both_are_present(c))
                || (at.place == 0 && is_strange)
        }
        _ => false,
    }
}

/// The same for I7.
fn breaks_i7(phone: &Phone, at: &Executable, lower: &[Executable]) -> bool {
    let beyond = match phone.table.len() {
        32 => 0,
        actions => at.permissions >> actions,
    };
    let is_wrong_alone = at.id == 0 || at.domain > 3 || at.zero != 0 || beyond != 0;
    is_wrong_alone || lower.iter().any(|e| e.id == at.id)
}

/// The first occupied slot for which a test of it and of the lower ones holds.
fn first_slot<T: Copy>(slots: &[Option<T>], test: impl Fn(&T, &[T]) -> bool) -> Option<usize> {
    (0..slots.len()).find(|&at| {
        let lower: Vec<T> = slots[..at].iter().flatten().copied().collect();
        slots[at].is_some_and(|record| test(&record, &lower))
    })
}

#[test]
fn records_and_pairs_of_records_name_the_same_place_as_heads_of_tables() {
    let mut compared = [0; 9];
    for number in 0..3000 {
        let case = case_of(Mix::Damaged, 3, number);
        let image = bench::split_stream(&case.stream).0;
        let (rule, offset) = refusal_of_bytes(image);
        if !matches!(rule, 4 | 5 | 7) {
            continue;
        }
        let phone = &Phone::decode(image).expect("I1 holds");
        let certificate = |slot: usize| 40 + 24 * slot;
        let executable = |slot: usize| phone.header().executables_at as usize + 12 * slot;
        let certificates = &phone.certificates;
        let expected = match rule {
            4 => first_slot(certificates, |c, l| breaks_i4(phone, c, l)).map(certificate),
            5 => first_slot(certificates, |c, l| breaks_i5(phone, c, l)).map(certificate),
            _ => first_slot(&phone.executables, |e, l| breaks_i7(phone, e, l)).map(executable),
        };
        assert_eq!(
            Some(offset),
            expected,
            "case {number}: {}",
            case.description
        );
        compared[usize::from(rule)] += 1;
    }
    assert!(compared[4] > 100 && compared[5] > 100 && compared[7] > 100);
}
