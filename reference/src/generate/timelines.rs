//! Images with timelines behind them: in form with seconds that rise, stay and pass dates, and broken
//! in each way.
//!
//! Follows 02, "Lesson timelines". Case k of seed S is a function of S and k alone. What is made only
//! steers: whether a timeline is in form, and what it has to print, is said by `timeline` alone.

use super::damage::{broken_image, put_u16, put_u32};
use super::events::{any_new_time, by_actor, candidate, next_event, probes, Style};
use super::images::{accepted_phone, chain_phone, Shape};
use super::ladders::ladder_phone;
use super::Case;
use crate::events::{step, Event, CLOCK, LAST_KIND};
use crate::phone::{u16_at, u32_at, Phone, OPERATOR};
use crate::random::Random;
use crate::timeline::{clock_event, encode, Header, Record, MOST_RECORDS};

/// The mix goes round in turns of so many cases.
const TURN: u64 = 16;
const BROKEN_OF_A_TURN: usize = 5;

/// Timeline `number` of `seed`, with its image.
pub fn case(seed: u64, number: u64) -> Case {
    let random = &mut Random::of_case(seed, number);
    let turn = (number / TURN) as usize;
    match number % TURN {
        0..=5 => run_in_form(random, Style::Aimed),
        6 => run_in_form(random, Style::SeveralFaults),
        place @ 7..=11 => broken(random, BROKEN_OF_A_TURN * turn + place as usize - 7),
        12 => hurt(random),
        13 => on_refused_image(random, turn),
        14 => special(random, turn),
        _ => noise(random),
    }
}

/// How the seconds of a timeline go.
#[derive(Clone, Copy, Debug, PartialEq, Eq)]
enum Pace {
    /// All are the clock.
    Still,
    /// Some stay and some rise.
    Mixed,
    /// Every one is above the one before.
    Rising,
}

impl Pace {
    fn any(random: &mut Random) -> Pace {
        let mixed = Pace::Mixed;
        random.one_of([Pace::Still, mixed, mixed, mixed, mixed, mixed, Pace::Rising])
    }

    fn words(self) -> &'static str {
        match self {
            Pace::Still => "in one second",
            Pace::Mixed => "in some seconds",
            Pace::Rising => "each in its second",
        }
    }

    /// The second of the next record, on a phone at the second of the last one.
    fn next_second(self, random: &mut Random, phone: &Phone) -> u32 {
        let later = any_new_time(random, phone).max(phone.clock);
        let is_last = phone.clock == u32::MAX;
        match self {
            Pace::Still => phone.clock,
            Pace::Mixed if random.percent(50) => phone.clock,
            Pace::Mixed => later,
            Pace::Rising if is_last => phone.clock,
            Pace::Rising => later.max(phone.clock + 1),
        }
    }
}

/// A timeline as it is written, with the phone that its next record meets.
struct Draft {
    phone: Phone,
    records: Vec<Record>,
}

impl Draft {
    fn of(start: &Phone) -> Draft {
        Draft {
            phone: start.clone(),
            records: Vec::new(),
        }
    }

    /// The clock goes to a second; what would show what that takes is given.
    fn go_to(&mut self, random: &mut Random, second: u32) -> Vec<Vec<u8>> {
        if second <= self.phone.clock {
            return Vec::new();
        }
        let before = self.phone.clone();
        let event = clock_event(second);
        step(&mut self.phone, &event);
        probes(random, &before, &event, &self.phone)
    }

    /// One event in the second that it is, and whether it is done.
    fn put(&mut self, event: Vec<u8>) -> bool {
        let is_done = step(&mut self.phone, &event).code == 0;
        self.records.push(Record {
            second: self.phone.clock,
            zero: 0,
            event,
        });
        is_done
    }

    /// One event, and now and then some that show what it did.
    fn put_and_probe(&mut self, random: &mut Random, event: Vec<u8>) {
        let before = self.phone.clone();
        let is_done = self.put(event.clone());
        if is_done && random.percent(40) {
            for probe in probes(random, &before, &event, &self.phone) {
                self.put(probe);
            }
        }
    }
}

/// An event of any other kind than 1.
fn event_but_clock(random: &mut Random, phone: &Phone, style: Style) -> Vec<u8> {
    loop {
        let event = next_event(random, phone, style);
        if event[0] != CLOCK {
            return event;
        }
    }
}

/// A timeline in form of so many records, which starts at this phone.
fn records(
    random: &mut Random,
    start: &Phone,
    count: usize,
    pace: Pace,
    style: Style,
) -> Vec<Record> {
    let mut draft = Draft::of(start);
    while draft.records.len() < count {
        let second = pace.next_second(random, &draft.phone);
        let mut events = draft.go_to(random, second);
        if events.is_empty() || pace == Pace::Rising || random.percent(40) {
            let event = event_but_clock(random, &draft.phone, style);
            events = vec![event];
        }
        for event in events {
            match pace {
                Pace::Rising => {
                    draft.put(event);
                }
                _ => draft.put_and_probe(random, event),
            }
        }
    }
    draft.records.truncate(count);
    draft.records
}

fn any_phone(random: &mut Random) -> Phone {
    match random.weighted(&[50, 25, 25]) {
        0 => {
            let shape = Shape::any(random);
            accepted_phone(random, shape)
        }
        1 => ladder_phone(random),
        _ => {
            let shape = Shape::roomy(random);
            accepted_phone(random, shape)
        }
    }
}

fn any_count(random: &mut Random) -> usize {
    match random.weighted(&[6, 40, 40, 14]) {
        0 => random.between(1, 2),
        1 => random.between(3, 12),
        2 => random.between(13, 60),
        _ => random.between(61, 200),
    }
}

fn put_behind(phone: &Phone, timeline: &[u8]) -> Vec<u8> {
    let mut stream = phone.encode();
    stream.extend(timeline);
    stream
}

fn run_in_form(random: &mut Random, style: Style) -> Case {
    let phone = any_phone(random);
    let count = any_count(random);
    let pace = Pace::any(random);
    let records = records(random, &phone, count, pace, style);
    let faults = match style {
        Style::SeveralFaults => ", several faults",
        _ => "",
    };
    Case {
        description: format!("timeline of {count} events {}{faults}", pace.words()),
        stream: put_behind(&phone, &encode(&records)),
    }
}

/// Breaks a timeline of at least two records for a phone with this clock, which is not 0.
type Damage = fn(&mut Random, u32, &mut Vec<u8>);

/// Every way in turn. Some of them break the form in one and the same way for `timeline`.
const WAYS: [(&str, Damage); 21] = [
    ("header cut", |random, _, timeline| {
        timeline.truncate(random.below(Header::SIZE))
    }),
    ("nothing there", |_, _, timeline| timeline.clear()),
    ("version", |random, _, timeline| {
        put_u16(timeline, 0, random.one_of([0, 2, 2, 256, 257, 65535]))
    }),
    ("1001 records", |_, _, timeline| {
        grow_to(timeline, MOST_RECORDS + 1)
    }),
    ("count above 1000", |random, _, timeline| {
        put_u16(timeline, 2, random.one_of([1001, 1024, 4096, 65535]))
    }),
    ("count one more", |_, _, timeline| {
        let count = u16_at(timeline, 2) + 1;
        put_u16(timeline, 2, count);
    }),
    ("count one fewer", |_, _, timeline| {
        let count = u16_at(timeline, 2) - 1;
        put_u16(timeline, 2, count);
    }),
    ("count 0", |_, _, timeline| put_u16(timeline, 2, 0)),
    ("offset", |random, _, timeline| {
        put_u32(
            timeline,
            4,
            random.one_of([0, 7, 9, 40, 264, 0x0800_0000, u32::MAX]),
        )
    }),
    ("last byte missing", |_, _, timeline| {
        timeline.truncate(timeline.len() - 1)
    }),
    ("last record cut", |random, _, timeline| {
        let cut = random.one_of([2, 8, 24, 31]);
        timeline.truncate(timeline.len() - cut);
    }),
    ("last record missing", |_, _, timeline| {
        timeline.truncate(timeline.len() - Record::SIZE)
    }),
    ("one byte behind", |random, _, timeline| {
        timeline.push(random.one_of([0, 1, 255]))
    }),
    ("bytes behind", |random, _, timeline| {
        let count = random.one_of([8, 24, 31, 33]);
        timeline.extend(vec![0; count]);
    }),
    ("record behind", |_, _, timeline| {
        let last = timeline[timeline.len() - Record::SIZE..].to_vec();
        timeline.extend(last);
    }),
    ("word not zero", |random, _, timeline| {
        let at = any_record(random, timeline, 0) + 4 + random.below(4);
        timeline[at] = random.one_of([1, 128, 255]);
    }),
    ("first second below the clock", |random, clock, timeline| {
        let second = random.one_of([clock - 1, clock - 1, 0, clock / 2]);
        put_u32(timeline, Header::SIZE, second);
    }),
    ("second falls", |random, _, timeline| {
        second_falls(random, timeline)
    }),
    ("second falls above the clock", |random, _, timeline| {
        second_falls_above_clock(random, timeline)
    }),
    ("clock event", |random, _, timeline| {
        clock_event_inside(random, timeline)
    }),
    ("several", |random, clock, timeline| {
        for _ in 0..random.between(2, 3) {
            let way = WAYS_OF_RECORDS[random.below(WAYS_OF_RECORDS.len())];
            way(random, clock, timeline);
        }
    }),
];

/// Ways that leave the length as it is, so that another can follow.
const WAYS_OF_RECORDS: [Damage; 5] = [
    |random, _, timeline| second_falls(random, timeline),
    |random, _, timeline| clock_event_inside(random, timeline),
    |random, _, timeline| {
        let at = any_record(random, timeline, 0) + 4 + random.below(4);
        timeline[at] = random.u8();
    },
    |random, clock, timeline| put_u32(timeline, Header::SIZE, random.one_of([clock, clock - 1])),
    |random, _, timeline| put_u16(timeline, 0, random.one_of([0, 1, 2])),
];

/// Where a record begins, the first and the last one often; not one of so many first ones.
fn any_record(random: &mut Random, timeline: &[u8], but_first: usize) -> usize {
    let last = (timeline.len() - Header::SIZE) / Record::SIZE - 1;
    let any = random.between(but_first, last);
    let number = random.one_of([but_first, last, any]);
    Header::SIZE + number * Record::SIZE
}

/// More of the last record, up to so many.
fn grow_to(timeline: &mut Vec<u8>, count: usize) {
    let last = timeline[timeline.len() - Record::SIZE..].to_vec();
    while timeline.len() < Header::SIZE + count * Record::SIZE {
        timeline.extend(&last);
    }
    put_u16(timeline, 2, count as u16);
}

/// One second below that of the record before it, which is not below the clock.
fn second_falls(random: &mut Random, timeline: &mut [u8]) {
    let at = any_record(random, timeline, 1);
    let before = u32_at(timeline, at - Record::SIZE);
    let lower = random.one_of([before.saturating_sub(1), before.saturating_sub(1), 0]);
    put_u32(timeline, at, lower);
}

/// All a second later, and then one below that of the record before it, but not below the clock.
fn second_falls_above_clock(random: &mut Random, timeline: &mut [u8]) {
    for at in (Header::SIZE..timeline.len()).step_by(Record::SIZE) {
        let later = u32_at(timeline, at).saturating_add(1);
        put_u32(timeline, at, later);
    }
    let at = any_record(random, timeline, 1);
    let lower = u32_at(timeline, at - Record::SIZE) - 1;
    put_u32(timeline, at, lower);
}

/// A clock event that would be done, one that would go back, or only the kind.
fn clock_event_inside(random: &mut Random, timeline: &mut [u8]) {
    let at = any_record(random, timeline, 0);
    let second = u32_at(timeline, at);
    let event = at + Record::SIZE - Event::SIZE..at + Record::SIZE;
    match random.below(4) {
        0 => timeline[event.start] = CLOCK,
        1 => timeline[event].copy_from_slice(&clock_event(0)),
        2 => timeline[event].copy_from_slice(&clock_event(second.saturating_add(1))),
        _ => timeline[event].copy_from_slice(&clock_event(second)),
    }
}

/// A phone whose clock has something below it.
fn phone_with_past(random: &mut Random) -> Phone {
    loop {
        let phone = any_phone(random);
        if phone.clock > 0 {
            return phone;
        }
    }
}

fn broken(random: &mut Random, way: usize) -> Case {
    let (name, damage) = WAYS[way % WAYS.len()];
    let phone = phone_with_past(random);
    let count = random.between(2, 20);
    let pace = Pace::any(random);
    let mut timeline = encode(&records(random, &phone, count, pace, Style::Aimed));
    damage(random, phone.clock, &mut timeline);
    Case {
        description: format!("timeline broken: {name}"),
        stream: put_behind(&phone, &timeline),
    }
}

/// A bit, a byte of the header, the end: wherever chance has it.
fn hurt(random: &mut Random) -> Case {
    let phone = any_phone(random);
    let count = random.between(1, 12);
    let records = records(random, &phone, count, Pace::Mixed, Style::Aimed);
    let mut timeline = encode(&records);
    let description = match random.below(4) {
        0 => {
            let bit = random.below(timeline.len() * 8);
            timeline[bit / 8] ^= 0x80 >> (bit % 8);
            format!("timeline with bit {bit} flipped")
        }
        1 => {
            let at = random.below(Header::SIZE);
            timeline[at] = random.one_of([0, 1, 2, 3, 8, 9, 255]);
            format!("timeline with byte {at} hurt")
        }
        2 => {
            let end = random.below(timeline.len() + 1);
            timeline.truncate(end);
            format!("timeline cut at {end}")
        }
        _ => {
            let more = random.between(1, 40);
            timeline.extend(random.bytes(more));
            format!("timeline with {more} bytes behind it")
        }
    };
    Case {
        description,
        stream: put_behind(&phone, &timeline),
    }
}

/// Code 1 comes before 19: an image that is refused, and a timeline that is in form or is not.
fn on_refused_image(random: &mut Random, turn: usize) -> Case {
    let (phone, image, wanted) = broken_image(random, turn);
    let mut stream = image;
    // A cut image must not be filled up.
    if !wanted.way.contains("shorter") {
        let records = records(random, &phone, 4, Pace::Mixed, Style::Aimed);
        let mut timeline = encode(&records);
        if random.percent(50) {
            put_u16(&mut timeline, 0, 2);
        }
        stream.extend(timeline);
    }
    Case {
        description: format!("timeline behind an image with damage: {wanted}"),
        stream,
    }
}

/// Timelines that chance makes too seldom.
fn special(random: &mut Random, turn: usize) -> Case {
    let (description, phone, records) = match turn % 6 {
        0 => {
            let phone = any_phone(random);
            ("timeline without records", phone, Vec::new())
        }
        1 => {
            let phone = any_phone(random);
            let pace = Pace::any(random);
            let records = records(random, &phone, MOST_RECORDS, pace, Style::Aimed);
            ("timeline of 1000 events", phone, records)
        }
        2 => {
            let phone = accepted_phone(random, Shape::LARGEST);
            let records = records(random, &phone, 60, Pace::Mixed, Style::Aimed);
            ("timeline on the largest image", phone, records)
        }
        3 => {
            let phone = accepted_phone(random, Shape::SMALLEST);
            let records = records(random, &phone, 20, Pace::Mixed, Style::SeveralFaults);
            ("timeline on an image without slots", phone, records)
        }
        4 => {
            let phone = any_phone(random);
            let records = end_of_time(random, &phone);
            ("timeline to the last second of all", phone, records)
        }
        _ => {
            let domain = OPERATOR + (turn % 3) as u8;
            let links = random.between(1, 5);
            let phone = chain_phone(random, domain, links, true);
            let records = every_kind(random, &phone);
            ("timeline of every kind", phone, records)
        }
    };
    Case {
        description: description.to_string(),
        stream: put_behind(&phone, &encode(&records)),
    }
}

/// Seconds up to the last that there is, and events that stay in it.
fn end_of_time(random: &mut Random, phone: &Phone) -> Vec<Record> {
    let mut draft = Draft::of(phone);
    for second in [u32::MAX - 1, u32::MAX, u32::MAX] {
        draft.go_to(random, second);
        for _ in 0..random.between(1, 3) {
            let event = event_but_clock(random, &draft.phone, Style::Aimed);
            draft.put(event);
        }
    }
    draft.records
}

/// Every kind but 1 by every actor, kinds and actors beyond the last one too.
fn every_kind(random: &mut Random, phone: &Phone) -> Vec<Record> {
    let mut draft = Draft::of(phone);
    for kind in (0..=LAST_KIND + 3).filter(|kind| *kind != CLOCK) {
        for actor in 0..=5 {
            let second = Pace::Mixed.next_second(random, &draft.phone);
            draft.go_to(random, second);
            let event = candidate(random, &draft.phone, kind);
            let event = by_actor(random, &draft.phone, event, actor);
            draft.put(event.encode());
        }
    }
    draft.records
}

/// Events without plan in a timeline that is in form, or bytes without plan behind an image.
fn noise(random: &mut Random) -> Case {
    let phone = any_phone(random);
    let count = random.between(1, 60);
    if random.percent(70) {
        let records = records(random, &phone, count, Pace::Mixed, Style::Noise);
        return Case {
            description: format!("timeline of {count} noise events"),
            stream: put_behind(&phone, &encode(&records)),
        };
    }
    let mut timeline = random.bytes(Header::SIZE + count);
    if random.percent(50) {
        let mut header = Vec::new();
        Header::of((count / Record::SIZE) as u16).encode(&mut header);
        timeline[..Header::SIZE].copy_from_slice(&header);
    }
    Case {
        description: "noise behind an image".to_string(),
        stream: put_behind(&phone, &timeline),
    }
}

#[cfg(test)]
mod tests {
    use super::*;
    use crate::bench::split_stream;
    use crate::refusal::open;
    use crate::timeline::{open_both, Refused};

    #[test]
    fn a_timeline_is_a_function_of_seed_and_number() {
        for number in 0..48 {
            assert_eq!(case(3, number).stream, case(3, number).stream);
            assert_ne!(case(3, number).stream, case(4, number).stream);
        }
    }

    #[test]
    fn what_is_made_in_form_is_in_form_and_every_way_breaks_it() {
        for number in 0..100 {
            let random = &mut Random::of_case(5, number);
            let stream = run_in_form(random, Style::Aimed).stream;
            assert!(open_both(&stream).is_ok(), "case {number}");
        }
        // Several at once may undo each other.
        for way in 0..WAYS.len() - 1 {
            for number in 0..10 {
                let random = &mut Random::of_case(6, number);
                let case = broken(random, way);
                let is_broken = matches!(open_both(&case.stream), Err(Refused::Timeline(_)));
                assert!(is_broken, "{}", case.description);
            }
        }
    }

    #[test]
    fn images_are_no_part_of_the_damage() {
        for number in 0..100 {
            let random = &mut Random::of_case(7, number);
            let stream = hurt(random).stream;
            let (image, _) = split_stream(&stream);
            assert!(open(image).is_ok());
        }
    }
}
