//! Cases: streams made from a seed and a number, accepted and damaged ones in a fixed mix.
//!
//! Follows 01 and the landed requests of 02 as a whole. Case k of seed S is a function of S and k alone, so a case can be
//! named and made again anywhere.

pub mod damage;
pub mod events;
pub mod images;
pub mod ladders;
pub mod mixed_damage;
pub mod questions;
mod replacements;
pub mod timelines;

use crate::bench::{self, event_records, split_stream};
use crate::events::{step, Event, LAST_KIND, VERIFY};
use crate::phone::{Header, Phone, OPERATOR};
use crate::random::Random;
use events::Style;
use images::{accepted_phone, chain_phone, Shape};

/// One stream for `bench`, and what it is.
pub struct Case {
    pub description: String,
    pub stream: Vec<u8>,
}

/// Which cases are made.
#[derive(Clone, Copy, Debug, PartialEq, Eq)]
pub enum Mix {
    /// Accepted and damaged images, with events.
    All,
    /// Damaged images mostly, some of them still accepted, with few events.
    Damaged,
}

/// Case `number` of `seed` in a mix.
pub fn case_of(mix: Mix, seed: u64, number: u64) -> Case {
    match mix {
        Mix::All => case(seed, number),
        Mix::Damaged => mixed_damage::case(seed, number),
    }
}

/// The mix goes round in turns of so many cases.
const TURN: u64 = 16;

/// Case `number` of `seed`.
pub fn case(seed: u64, number: u64) -> Case {
    let random = &mut Random::of_case(seed, number);
    let turn = (number / TURN) as usize;
    match number % TURN {
        0..=4 => long_run(random, Style::Aimed),
        5 | 6 => long_run(random, Style::SeveralFaults),
        place @ 7..=10 => broken(random, 4 * turn + place as usize),
        11 => bit_flip(random),
        12 => records_hurt(random),
        13 => stream_hurt(random, turn),
        14 => special(random, turn),
        _ => noise(random),
    }
}

fn any_count(random: &mut Random) -> usize {
    match random.weighted(&[4, 20, 46, 30]) {
        0 => random.below(3),
        1 => random.between(3, 40),
        2 => random.between(41, 160),
        _ => random.between(161, 400),
    }
}

/// An image and events chosen for it.
fn stream_on(random: &mut Random, phone: &Phone, count: usize, style: Style) -> Vec<u8> {
    let mut stream = phone.encode();
    stream.extend(events::stream(random, phone, count, style));
    stream
}

fn long_run(random: &mut Random, style: Style) -> Case {
    let shape = Shape::any(random);
    let phone = accepted_phone(random, shape);
    let count = any_count(random);
    let faults = match style {
        Style::SeveralFaults => ", several faults",
        _ => "",
    };
    Case {
        description: format!("long run of {count} events{faults}"),
        stream: stream_on(random, &phone, count, style),
    }
}

/// A rule broken in one way, and events behind it that must not be looked at.
fn broken(random: &mut Random, way: usize) -> Case {
    let (phone, image, wanted) = damage::broken_image(random, way);
    let count = random.below(12);
    let mut stream = image;
    // A cut image must not be filled up with events.
    let is_cut = wanted.way.contains("shorter");
    if !is_cut {
        stream.extend(events::stream(random, &phone, count, Style::Aimed));
    }
    Case {
        description: format!("damage: {wanted}"),
        stream,
    }
}

/// A short run for hurt streams.
fn short_run(random: &mut Random) -> Vec<u8> {
    let shape = Shape::any(random);
    let phone = accepted_phone(random, shape);
    let count = random.between(5, 60);
    stream_on(random, &phone, count, Style::Aimed)
}

/// One bit of the stream, more often one of the image.
fn bit_flip(random: &mut Random) -> Case {
    let mut stream = short_run(random);
    let image_length = split_stream(&stream).0.len();
    let end = match random.percent(70) {
        true => image_length,
        false => stream.len(),
    };
    let bit = random.below(end * 8);
    stream[bit / 8] ^= 0x80 >> (bit % 8);
    Case {
        description: format!("bit flip {bit}"),
        stream,
    }
}

/// Some bytes of the image's records and table.
fn records_hurt(random: &mut Random) -> Case {
    let mut stream = short_run(random);
    let image_length = split_stream(&stream).0.len();
    let count = random.between(1, 3);
    for _ in 0..count {
        let at = random.between(Header::SIZE, image_length - 1);
        let any = random.u8();
        stream[at] = random.one_of([0, 1, 2, 3, 4, 255, any]);
    }
    Case {
        description: format!("records hurt in {count} bytes"),
        stream,
    }
}

/// The header, its total or the end of the stream.
fn stream_hurt(random: &mut Random, turn: usize) -> Case {
    match turn % 3 {
        0 => cut(random),
        1 => header_hurt(random),
        _ => total_off(random),
    }
}

fn cut(random: &mut Random) -> Case {
    let mut stream = short_run(random);
    let image_length = split_stream(&stream).0.len();
    let at = match random.below(5) {
        0 => random.below(Header::SIZE + 1),
        1 => random.below(image_length + 1),
        2 => image_length - random.below(2),
        _ => random.between(image_length, stream.len()),
    };
    stream.truncate(at);
    Case {
        description: format!("cut at {at}"),
        stream,
    }
}

fn header_hurt(random: &mut Random) -> Case {
    let mut stream = short_run(random);
    let count = random.between(1, 2);
    for _ in 0..count {
        let at = random.below(Header::SIZE);
        let any = random.u8();
        stream[at] = random.one_of([0, 1, 2, 9, 33, 65, 255, any]);
    }
    Case {
        description: format!("header hurt in {count} bytes"),
        stream,
    }
}

/// The total is off by a bit or by a little, with bytes enough behind the image.
fn total_off(random: &mut Random) -> Case {
    let mut stream = short_run(random);
    let total = split_stream(&stream).0.len() as u32;
    let wrong = match random.below(4) {
        0 => total ^ 1 << random.below(12),
        1 => total ^ 1 << random.below(32),
        2 => total + random.one_of([1, 4, 24]),
        _ => total - random.one_of([1, 4]),
    };
    stream[36..40].copy_from_slice(&wrong.to_be_bytes());
    if random.percent(50) {
        stream.resize(stream.len() + 2600, 0);
    }
    Case {
        description: format!("total {wrong} for {total}"),
        stream,
    }
}

/// Images that chance makes too seldom.
fn special(random: &mut Random, turn: usize) -> Case {
    match turn % 4 {
        0 => {
            let phone = accepted_phone(random, Shape::LARGEST);
            let count = random.between(50, 300);
            Case {
                description: format!("largest image, {count} events"),
                stream: stream_on(random, &phone, count, Style::Aimed),
            }
        }
        1 => {
            let phone = accepted_phone(random, Shape::SMALLEST);
            let count = random.between(0, 60);
            Case {
                description: format!("no slots, {count} events"),
                stream: stream_on(random, &phone, count, Style::SeveralFaults),
            }
        }
        2 => chain_case(random, turn / 4),
        _ => every_kind_and_actor(random),
    }
}

/// Chains of 1 to 5 links in each domain in turn: every executable verified, then a run.
fn chain_case(random: &mut Random, turn: usize) -> Case {
    let links = turn % 5 + 1;
    let domain = OPERATOR + (turn % 3) as u8;
    let with_twins = random.percent(60);
    let mut phone = chain_phone(random, domain, links, with_twins);
    // With the domain given from the start, a chain of 5 breaks I8.
    let is_trusted = random.percent(40);
    if is_trusted {
        for executable in phone.executables.iter_mut().flatten() {
            executable.domain = domain;
        }
    }
    let mut stream = phone.encode();
    for executable in phone.occupied_executables() {
        let verify = Event {
            kind: VERIFY,
            id: executable.id,
            ..Default::default()
        };
        stream.extend(verify.encode());
    }
    let count = random.between(0, 60);
    stream.extend(events::stream(random, &phone, count, Style::Aimed));
    Case {
        description: format!(
            "chain of {links} in domain {domain}, twins {with_twins}, trusted {is_trusted}"
        ),
        stream,
    }
}

/// Every kind with every actor, kinds and actors beyond the last one too.
fn every_kind_and_actor(random: &mut Random) -> Case {
    let shape = Shape::any(random);
    let phone = accepted_phone(random, shape);
    let mut stream = phone.encode();
    for kind in 0..=LAST_KIND + 1 {
        for actor in 0..=5 {
            let event = events::candidate(random, &phone, kind);
            let event = events::by_actor(random, &phone, event, actor);
            stream.extend(event.encode());
        }
    }
    Case {
        description: "every kind and actor".to_string(),
        stream,
    }
}

fn noise(random: &mut Random) -> Case {
    if random.percent(30) {
        let count = random.one_of([0, 1, 39, 40, 41, 200, 3000]);
        return Case {
            description: format!("noise of {count} bytes"),
            stream: random.bytes(count),
        };
    }
    let shape = Shape::any(random);
    let phone = accepted_phone(random, shape);
    let count = random.between(5, 80);
    Case {
        description: format!("noise events {count}"),
        stream: stream_on(random, &phone, count, Style::Noise),
    }
}

/// What is left of the last record of a longer stream: its kind is above the last one.
const SHORT_END: [u8; 5] = [200, 0, 0, 1, 0];

/// The stream with so many events more, each chosen for the state that it meets, and an end that is no whole record.
pub fn longer(seed: u64, stream: &[u8], count: usize) -> Result<Vec<u8>, String> {
    let last = event_records(split_stream(stream).1).last();
    if last.is_some_and(|record| record.len() < Event::SIZE) {
        return Err("the stream ends inside an event".to_string());
    }
    let image = bench::run(stream)
        .image
        .map_err(|refusal| format!("the image breaks {refusal}"))?;
    let mut phone = Phone::decode(&image).ok_or("the image cannot be decoded")?;
    let random = &mut Random::of_case(seed, 0);
    let mut longer = stream.to_vec();
    for number in 0..count {
        let style = match number % 8 {
            0 => Style::Noise,
            1 | 2 => Style::SeveralFaults,
            _ => Style::Aimed,
        };
        let record = events::next_event(random, &phone, style);
        step(&mut phone, &record);
        longer.extend(record);
    }
    longer.extend(SHORT_END);
    Ok(longer)
}

#[cfg(test)]
mod tests {
    use super::*;
    use crate::image_rules::first_broken;

    #[test]
    fn a_case_is_a_function_of_seed_and_number() {
        for number in 0..40 {
            assert_eq!(case(3, number).stream, case(3, number).stream);
            assert_ne!(case(3, number).stream, case(4, number).stream);
        }
    }

    #[test]
    fn made_images_are_accepted_at_the_first_attempt() {
        for number in 0..300 {
            let random = &mut Random::of_case(5, number);
            let shape = Shape::any(random);
            assert_eq!(first_broken(&accepted_phone(random, shape).encode()), None);
        }
        for links in 1..=5 {
            for domain in 1..=3 {
                let random = &mut Random::of_case(6, links as u64);
                let phone = chain_phone(random, domain, links, true);
                assert_eq!(first_broken(&phone.encode()), None);
            }
        }
    }
}
