//! What the questions about one stream meet, and what the reference asks of itself on each.
//!
//! Follows 02, "Tell the trainee why", a second time and in another way: what is good is found by
//! the rounds of `chain`, and each link and each reason is asked for by itself.

use crate::bench::{event_records, split_stream};
use crate::chain::{good_within, Chain, Trust, MOST_LINKS};
use crate::events::step;
use crate::phone::{Certificate, Phone, ISSUED, RECOVERY, ROOT};
use crate::refusal::{open, Refusal};
use crate::why::{explain, phone_after, Answer, Reason};

/// What all questions about a stream meet that are asked after the same number of events.
pub struct Scene {
    /// The number that was given.
    pub events: Option<u64>,
    pub phones: Result<Phones, Refusal>,
}

/// The phone that is asked about, and others that it could be taken for.
pub struct Phones {
    pub asked: Phone,
    /// Before any event.
    pub before: Phone,
    /// After so many events that are done.
    pub if_refused_did_not_count: Phone,
    /// How many events the stream has.
    pub events_there: usize,
}

impl Scene {
    pub fn of(stream: &[u8], events: Option<u64>) -> Scene {
        let phones = phones_of(stream, events.unwrap_or(0));
        Scene { events, phones }
    }

    /// The answer to a question, or in which way the reference contradicts itself.
    pub fn checked_answer(&self, id: u16) -> Result<Answer, String> {
        match &self.phones {
            Err(refusal) => Ok(Answer::RefusedImage(*refusal)),
            Ok(phones) => {
                let answer = explain(&phones.asked, id);
                check(&phones.asked, id, &answer)?;
                Ok(answer)
            }
        }
    }
}

fn phones_of(stream: &[u8], events: u64) -> Result<Phones, Refusal> {
    let (image, records) = split_stream(stream);
    let before = open(image)?;
    Ok(Phones {
        asked: phone_after(stream, events)?,
        if_refused_did_not_count: after_done_events(&before, records, events),
        before,
        events_there: event_records(records).count(),
    })
}

fn after_done_events(before: &Phone, records: &[u8], events: u64) -> Phone {
    let mut phone = before.clone();
    let mut left = events;
    for record in event_records(records) {
        if left > 0 && step(&mut phone, record).code == 0 {
            left -= 1;
        }
    }
    phone
}

/// The records of a domain with a key that are good within so many links, in slot order.
pub fn serving(phone: &Phone, domain: u8, key: u32, links: u8) -> Vec<Certificate> {
    let good = good_within(phone, links);
    phone
        .certificates
        .iter()
        .zip(good)
        .filter_map(|(slot, is_good)| slot.filter(|_| is_good))
        .filter(|record| record.domain == domain && record.key == key)
        .collect()
}

/// Every reason that is true of a record, in the order in which they are asked.
pub fn true_reasons(phone: &Phone, record: &Certificate) -> Vec<Reason> {
    let is_issued = record.kind == ISSUED;
    let has_a_date = is_issued || record.kind == ROOT;
    let signers = serving(phone, record.domain, record.verifying_key, MOST_LINKS - 1);
    let asked = [
        (Reason::RecoveryKey, record.kind == RECOVERY),
        (
            Reason::AbsentCard,
            record.place != 0 && record.place != phone.card_present,
        ),
        (Reason::MarkedInvalid, record.mark != 1),
        (Reason::Disabled, record.enabled != 1),
        (
            Reason::PastItsDate,
            has_a_date && record.expiry < phone.clock,
        ),
        (Reason::NoGoodSigner, is_issued && signers.is_empty()),
    ];
    let is_true = asked.into_iter().filter(|(_, is_true)| *is_true);
    is_true.map(|(reason, _)| reason).collect()
}

fn check(phone: &Phone, id: u16, answer: &Answer) -> Result<(), String> {
    let key = phone.executable(id).map_or(0, |e| e.signing_key);
    let chain = Trust::of(phone).chain_of(key);
    match (answer, chain) {
        (Answer::Chain { links, .. }, Some(chain)) => check_chain(phone, key, chain, links),
        (Answer::NoChain(records), None) => check_reasons(phone, key, records),
        (Answer::Chain { .. }, None) => Err("a chain is told where there is none".to_string()),
        (_, Some(_)) => Err("a chain is not told".to_string()),
        _ => Ok(()),
    }
}

/// Each link, from the signer up, is the lowest id of those that serve within the links left.
fn check_chain(phone: &Phone, key: u32, chain: Chain, links: &[Certificate]) -> Result<(), String> {
    if links.len() != usize::from(chain.links) {
        return Err(format!(
            "a chain of {} links is told for {}",
            links.len(),
            chain.links
        ));
    }
    let mut key = key;
    for (left, link) in (1..=chain.links).rev().zip(links.iter().rev()) {
        let serving = serving(phone, chain.domain, key, left);
        let lowest = serving.iter().min_by_key(|record| record.id);
        if lowest != Some(link) {
            return Err(format!("certificate {} is told as a link", link.id));
        }
        key = link.verifying_key;
    }
    Ok(())
}

/// Every record with the key is told once, by id, and its reason is the first true one.
fn check_reasons(phone: &Phone, key: u32, records: &[(Certificate, Reason)]) -> Result<(), String> {
    let with_key = phone.occupied_certificates().filter(|c| c.key == key);
    let rise = records.windows(2).all(|pair| pair[0].0.id < pair[1].0.id);
    if !rise || with_key.count() != records.len() {
        return Err("not every record is told once and by id".to_string());
    }
    for (record, reason) in records {
        if record.key != key || true_reasons(phone, record).first() != Some(reason) {
            return Err(format!("certificate {} {}", record.id, reason.words()));
        }
    }
    Ok(())
}
