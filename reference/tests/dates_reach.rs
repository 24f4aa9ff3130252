//! The streams that are made show what the dates of roots decide: what a misreading of 02, "Roots
//! have a date as well", would get wrong occurs often.

use std::collections::BTreeMap;

use reference::bench::{run_and_watch, split_stream};
use reference::events::{Event, CARD_IN, CLOCK, MARK_VALID, POWER_UP, REPLACE, VERIFY};
use reference::generate::case;
use reference::phone::{Certificate, Phone, OPERATOR, ROOT, THIRD_PARTY};
use reference::refusal::open;

/// How often each thing was shown.
#[derive(Default)]
struct Times(BTreeMap<&'static str, u64>);

impl Times {
    fn add(&mut self, name: &'static str, is_shown: bool) {
        *self.0.entry(name).or_default() += u64::from(is_shown);
    }
}

fn some(phone: &Phone, test: impl Fn(&Certificate) -> bool) -> bool {
    phone.occupied_certificates().any(test)
}

/// A root that has kept its mark beyond its date.
fn is_old_mark(phone: &Phone, record: &Certificate) -> bool {
    record.kind == ROOT && record.mark == 1 && record.expiry < phone.clock
}

/// A root that is marked and not past its date.
fn is_valid(phone: &Phone, record: &Certificate) -> bool {
    record.kind == ROOT && record.mark == 1 && record.expiry >= phone.clock
}

/// Whether a root has kept its mark beyond its date beside a valid one, where I5 and code 13 would
/// see two if they went by marks.
fn has_old_mark_beside_valid_root(phone: &Phone) -> bool {
    let is_beside = |old: &Certificate, valid: &Certificate| {
        let are_present = phone.is_present(old.place) && phone.is_present(valid.place);
        old.domain == valid.domain && (old.place == valid.place || are_present)
    };
    some(phone, |old| {
        is_old_mark(phone, old)
            && old.domain != THIRD_PARTY
            && some(phone, |valid| {
                is_valid(phone, valid) && is_beside(old, valid)
            })
    })
}

/// How many operator roots on the phone have kept their marks beyond their dates.
fn old_marks_on_phone(phone: &Phone) -> usize {
    let is_there = |c: &&Certificate| c.is_root_of(OPERATOR) && c.place == 0;
    let marked = phone.occupied_certificates().filter(is_there);
    marked.filter(|c| is_old_mark(phone, c)).count()
}

fn add_image(times: &mut Times, phone: &Phone) {
    times.add(
        "an image with an old mark beside a valid root",
        has_old_mark_beside_valid_root(phone),
    );
    times.add(
        "an image with a valid root in its last second",
        some(phone, |c| is_valid(phone, c) && c.expiry == phone.clock),
    );
}

fn add_event(times: &mut Times, before: &Phone, event: &Event, code: u8, after: &Phone) {
    match (event.kind, code) {
        (CLOCK, 0) => add_clock(times, before, after),
        (CARD_IN | POWER_UP, 0) if event.second != 0 => add_card(times, before, after),
        (MARK_VALID, 0) => add_valid(times, "marked", before, event, after),
        (REPLACE, 0) => add_valid(times, "replaced", before, event, after),
        (MARK_VALID | REPLACE, 18) => add_refusal(times, before, event),
        (VERIFY, 0) => {
            let key = before.executable(event.id).map_or(0, |e| e.signing_key);
            let has_key = |c: &Certificate| c.key == key && is_old_mark(before, c);
            times.add("verified with a root past its date", some(before, has_key));
        }
        _ => {}
    }
}

fn add_clock(times: &mut Times, before: &Phone, after: &Phone) {
    let passes = some(before, |c| is_valid(before, c) && !is_valid(after, c));
    let domains = |phone: &Phone| {
        let executables = phone.occupied_executables();
        executables.filter(|e| e.domain != 0).count()
    };
    times.add("the date of a valid root passes", passes);
    times.add(
        "a domain is lost when the date of a valid root passes",
        passes && domains(after) < domains(before),
    );
    times.add(
        "the last second of a valid root comes",
        before.clock < after.clock
            && some(after, |c| is_valid(after, c) && c.expiry == after.clock),
    );
}

fn add_card(times: &mut Times, before: &Phone, after: &Phone) {
    let on_card = |c: &Certificate| c.is_root_of(OPERATOR) && c.place == after.card_present;
    let card_has_valid_root = some(after, |c| on_card(c) && is_valid(after, c));
    let card_has_old_mark = some(after, |c| on_card(c) && is_old_mark(after, c));
    let on_phone = |c: &Certificate| c.is_root_of(OPERATOR) && c.place == 0;
    let phone_has_valid_root = some(after, |c| on_phone(c) && is_valid(after, c));
    let (marks_before, marks_after) = (old_marks_on_phone(before), old_marks_on_phone(after));
    times.add("a card takes an old mark", marks_after < marks_before);
    times.add(
        "the card that is in takes an old mark",
        marks_after < marks_before && before.card_present == after.card_present,
    );
    times.add(
        "a card takes an old mark where no root on the phone is valid",
        marks_after < marks_before && !some(before, |c| on_phone(c) && is_valid(before, c)),
    );
    times.add("a card leaves an old mark", marks_after > 0);
    times.add(
        "a card's old mark leaves the phone its valid root",
        card_has_old_mark && !card_has_valid_root && phone_has_valid_root,
    );
}

fn add_valid(times: &mut Times, how: &'static str, before: &Phone, event: &Event, after: &Phone) {
    let (Some(old), Some(new)) = (before.certificate(event.id), after.certificate(event.id)) else {
        return;
    };
    let is_beside = has_old_mark_beside_valid_root(after);
    let is_last_second = new.expiry == after.clock;
    match how {
        "marked" => {
            let takes_marks = old_marks_on_phone(after) < old_marks_on_phone(before);
            times.add("marked valid beside an old mark", is_beside);
            times.add("marked valid in its last second", is_last_second);
            times.add("marked valid, and takes an old mark", takes_marks);
            times.add(
                "marked valid as it was, and takes an old mark",
                takes_marks && is_valid(before, old),
            );
        }
        _ => {
            times.add("replaced beside an old mark", is_beside);
            times.add("replaced by a key in its last second", is_last_second);
            times.add("an old mark replaced", is_old_mark(before, old));
        }
    }
}

fn add_refusal(times: &mut Times, before: &Phone, event: &Event) {
    let Some(root) = before.certificate(event.id) else {
        return;
    };
    if event.kind == MARK_VALID {
        times.add("18, one second late", before.clock - root.expiry == 1);
        times.add("18 for a root that has a mark", root.mark == 1);
        times.add("18 for a third party root", root.domain == THIRD_PARTY);
    } else {
        let in_date = before.clock <= root.expiry;
        times.add(
            "18 for a replace, one second late",
            before.clock - event.expiry == 1,
        );
        times.add("18 for a replace of a root in date", in_date);
        times.add("18 for a replace of a root past its date", !in_date);
    }
}

#[test]
fn a_thousand_runs_show_what_dates_decide() {
    let mut times = Times::default();
    for number in 0..1000 {
        let stream = case(1, number).stream;
        if let Ok(phone) = open(split_stream(&stream).0) {
            add_image(&mut times, &phone);
        }
        run_and_watch(&stream, |before, record, answer, after| {
            if let Some(event) = Event::decode(record) {
                add_event(&mut times, before, &event, answer.code, after);
            }
        });
    }
    assert_eq!(times.0.len(), 24);
    for (name, count) in &times.0 {
        println!("{count:>6}  {name}");
    }
    for (name, count) in times.0 {
        assert!(count >= 5, "{name}: {count} times");
    }
}
