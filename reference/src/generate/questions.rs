//! Streams and the questions about them: after how many events, and for which executables.
//!
//! Follows 02, "Tell the trainee why". Questions k of seed S are a function of S and k alone.

use super::events::{self, Style};
use super::images::{accepted_phone, Shape};
use super::ladders::ladder_phone;
use super::{case, chain_case, mixed_damage, stream_on, Case};
use crate::bench::{event_records, split_stream};
use crate::events::{step, CARD_IN, POWER_UP};
use crate::phone::Phone;
use crate::random::Random;
use crate::why::{phone_after, Question};

/// The questions about one stream.
pub struct Questions {
    pub case: Case,
    /// The same for all of them.
    pub events: Option<u64>,
    pub ids: Vec<u16>,
}

impl Questions {
    pub fn all(&self) -> impl Iterator<Item = Question> + '_ {
        let events = self.events;
        self.ids.iter().map(move |&id| Question { id, events })
    }
}

/// The mix goes round in turns of so many cases.
const TURN: u64 = 16;

/// Questions `number` of `seed`.
pub fn questions(seed: u64, number: u64) -> Questions {
    let random = &mut Random::of_case(seed, number);
    let turn = (number / TURN) as usize;
    let case = match number % TURN {
        0..=8 => ladder_case(random, 6),
        9..=11 => ladder_case(random, 60),
        12 => chain_case(random, turn),
        13 => any_case(random),
        14 => mixed_damage::case(seed, number),
        _ => case(seed, turn as u64),
    };
    let events = any_event_count(random, &case.stream);
    let ids = ids_to_ask_for(random, &case.stream, events);
    Questions { case, events, ids }
}

/// Keys in levels, and events that now and then begin with a card: `why` alone shows whose mark it
/// takes where that root is past its date.
fn ladder_case(random: &mut Random, most_events: usize) -> Case {
    let mut phone = ladder_phone(random);
    let count = random.between(0, most_events);
    let mut stream = phone.encode();
    if random.percent(20) {
        let kind = random.one_of([CARD_IN, POWER_UP]);
        let card = events::candidate(random, &phone, kind).encode();
        step(&mut phone, &card);
        stream.extend(card);
    }
    stream.extend(events::stream(random, &phone, count, Style::Aimed));
    Case {
        description: format!("keys in levels, {count} events"),
        stream,
    }
}

fn any_case(random: &mut Random) -> Case {
    let shape = Shape::any(random);
    let phone = accepted_phone(random, shape);
    let count = random.between(0, 30);
    Case {
        description: format!("any phone, {count} events"),
        stream: stream_on(random, &phone, count, Style::Aimed),
    }
}

fn any_event_count(random: &mut Random, stream: &[u8]) -> Option<u64> {
    let there = event_records(split_stream(stream).1).count();
    let count = match random.below(10) {
        0 | 1 => return None,
        2 => 0,
        3 | 4 => there,
        5 => there + random.one_of([1, 2, 100]),
        _ => random.between(0, there),
    };
    Some(count as u64)
}

/// Every executable of the image and of the phone that is met, an unknown one, and 0.
fn ids_to_ask_for(random: &mut Random, stream: &[u8], events: Option<u64>) -> Vec<u16> {
    let before = phone_after(stream, 0);
    let after = phone_after(stream, events.unwrap_or(0));
    let (Ok(before), Ok(after)) = (before, after) else {
        return vec![random.between(1, 120) as u16, 0];
    };
    let known = |phone: &Phone| phone.occupied_executables().map(|e| e.id).collect();
    let mut ids: Vec<u16> = known(&before);
    let more: Vec<u16> = known(&after);
    ids.extend(more);
    ids.push(events::unknown_executable_id(random, &after));
    ids.push(0);
    let mut asked = Vec::new();
    for id in ids {
        if !asked.contains(&id) {
            asked.push(id);
        }
    }
    asked
}

#[cfg(test)]
mod tests {
    use super::*;

    #[test]
    fn questions_are_a_function_of_seed_and_number() {
        for number in 0..40 {
            let (one, same) = (questions(3, number), questions(3, number));
            assert_eq!(one.case.stream, same.case.stream);
            assert_eq!((one.events, one.ids), (same.events, same.ids));
            assert_ne!(one.case.stream, questions(4, number).case.stream);
        }
    }

    #[test]
    fn all_executables_are_asked_for_once_and_0_too() {
        for number in 0..200 {
            let questions = questions(5, number);
            let ids = &questions.ids;
            assert!(ids.contains(&0));
            assert!((1..ids.len()).all(|at| !ids[..at].contains(&ids[at])));
            if let Ok(phone) = phone_after(&questions.case.stream, 0) {
                assert!(phone.occupied_executables().all(|e| ids.contains(&e.id)));
            }
        }
    }
}
