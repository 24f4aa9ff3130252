//! The streams that are made show who may act: what a misreading of 02, "An operator is somebody in
//! particular", would get wrong occurs often.

use std::collections::BTreeMap;

use reference::bench::run_and_watch;
use reference::events::{code_of, deletes_or_marks, Event, OPERATOR_ACTOR};
use reference::generate::case;
use reference::phone::{Certificate, Phone};

/// How often each thing was shown.
#[derive(Default)]
struct Times(BTreeMap<String, u64>);

impl Times {
    fn add(&mut self, name: impl Into<String>, is_shown: bool) {
        *self.0.entry(name.into()).or_default() += u64::from(is_shown);
    }
}

fn some(phone: &Phone, test: impl Fn(&Certificate) -> bool) -> bool {
    phone.occupied_certificates().any(test)
}

/// The code that the event would get from the certificate's owner.
fn code_of_owner(phone: &Phone, event: &Event, record: &Certificate) -> u8 {
    let owner = record.owner;
    code_of(phone, &Event { owner, ..*event })
}

fn add_event(times: &mut Times, phone: &Phone, event: &Event, code: u8) {
    let record = phone.certificate(event.id);
    if event.names_who_acts() {
        let actor = match event.actor {
            OPERATOR_ACTOR => "operator",
            _ => "manufacturer",
        };
        let kind = event.kind;
        times.add(format!("kind {kind} done by its {actor}"), code == 0);
        times.add(
            "done by an owner that is not 0",
            code == 0 && event.owner != 0,
        );
        times.add("done by an owner that is 0", code == 0 && event.owner == 0);
        times.add("3 with an owner", code == 3 && event.owner != 0);
        times.add("3 with an owner of 0", code == 3 && event.owner == 0);
        if let Some(record) = record.filter(|c| c.owner != event.owner && code == 4) {
            add_wrong_owner(times, phone, event, record);
        }
    } else {
        let owner_alone = Event { owner: 0, ..*event };
        let is_for_owner = code == 2 && code_of(phone, &owner_alone) != 2;
        let without = code_of(phone, &owner_alone);
        let is_right = record.is_some_and(|c| c.owner == event.owner);
        times.add("2 for an owner of nobody", is_for_owner);
        times.add("2 for the right owner of nobody", is_for_owner && is_right);
        times.add(
            "2 for an owner of nobody, before 0",
            is_for_owner && without == 0,
        );
        times.add(
            "2 for an owner of nobody, before 3",
            is_for_owner && without == 3,
        );
        times.add(
            "2 for an owner of nobody, before 4",
            is_for_owner && without == 4,
        );
        let is_another = record.is_some_and(|c| c.owner != 0) && code == 0;
        times.add("done by nobody where the owner is not 0", is_another);
    }
}

fn add_wrong_owner(times: &mut Times, phone: &Phone, event: &Event, record: &Certificate) {
    let higher = code_of_owner(phone, event, record);
    times.add(
        format!("4 for the owner alone, kind {}", event.kind),
        higher == 0,
    );
    for code in [8, 11, 12, 13, 18] {
        times.add(format!("4 for the owner, before {code}"), higher == code);
    }
    if higher == 4 {
        return;
    }
    let card = phone.present_card().map(|card| card.operator);
    let bits = (event.owner ^ record.owner).count_ones();
    times.add("4 for an owner of 0", event.owner == 0);
    times.add("4 where the owner is 0", record.owner == 0);
    times.add("4 for an owner a bit off", bits == 1);
    times.add(
        "4 for the present card's operator",
        card == Some(event.owner),
    );
    times.add(
        "4 for another one of the phone",
        some(phone, |c| c.owner == event.owner),
    );
}

#[test]
fn a_thousand_runs_show_who_may_act() {
    let mut times = Times::default();
    for number in 0..1000 {
        let stream = case(1, number).stream;
        run_and_watch(&stream, |before, record, answer, _| {
            let event = Event::decode(record).filter(|event| deletes_or_marks(event.kind));
            if let Some(event) = event {
                add_event(&mut times, before, &event, answer.code);
            }
        });
    }
    for (name, count) in &times.0 {
        println!("{count:>6}  {name}");
    }
    assert_eq!(times.0.len(), 29);
    for (name, count) in times.0 {
        assert!(count >= 10, "{name}: {count} times");
    }
}
