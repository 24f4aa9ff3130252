//! Replace events: a root, a recovery record and a new key, and what is nearly that.
//!
//! Follows 02, "Recovery keys" and "Roots have a date as well". Each refusal of a replace is reached
//! from one that would be done, by the one thing that the refusal is about, so that what else is
//! asked does not hide it.

use super::events::{
    all_certificates, all_executables, allowed_actor, owner_to_install, unknown_id,
};
use super::images::{any_expiry, any_operator, expiry_in_date};
use crate::events::*;
use crate::phone::{
    Certificate, Phone, ISSUED, MANUFACTURER, OPERATOR, RECOVERY, ROOT, THIRD_PARTY,
};
use crate::random::Random;

/// The owner of a root on the phone, which a recovery record of its own would help.
pub fn owner_of_a_root(random: &mut Random, phone: &Phone, domain: u8) -> u32 {
    let roots = certificates_that(phone, |c| c.is_root_of(domain) && c.place == 0);
    match random.choose(&roots) {
        Some(root) if random.percent(85) => root.owner,
        _ => owner_to_install(random, phone, 0),
    }
}

fn certificates_that(phone: &Phone, test: impl Fn(&Certificate) -> bool) -> Vec<Certificate> {
    let mut records = all_certificates(phone);
    records.retain(test);
    records
}

/// Whether a recovery record is one for this root.
fn fits(root: &Certificate, recovery: &Certificate) -> bool {
    root.is_root_of(recovery.domain) && root.place == 0 && root.owner == recovery.owner
}

/// A replace that would be done, where the phone has a root and a recovery record for one.
pub fn plan(random: &mut Random, phone: &Phone, event: &mut Event) {
    let recoveries = certificates_that(phone, |c| c.kind == RECOVERY);
    let helped = certificates_that(phone, |c| recoveries.iter().any(|r| fits(c, r)));
    // Without one that can be replaced any root will do, and any record in the recovery's place.
    let any_root = certificates_that(phone, |c| c.kind == ROOT && c.domain != THIRD_PARTY);
    let root = random.choose(&helped).or(random.choose(&any_root));
    name_root(random, phone, event, root);
}

/// Names a root, and with it the recovery record, the owner and the key that go with it.
fn name_root(random: &mut Random, phone: &Phone, event: &mut Event, root: Option<Certificate>) {
    let Some(root) = root else {
        event.id = unknown_id(random, &[]);
        event.second = unknown_id(random, &[]);
        event.key = 1;
        return;
    };
    let is_of_domain = |c: &Certificate| c.kind == RECOVERY && c.domain == root.domain;
    let fitting = certificates_that(phone, |c| is_of_domain(c) && c.owner == root.owner);
    let others = certificates_that(phone, |c| c.domain == root.domain);
    let recovery = random.choose(&fitting).or(random.choose(&others));
    event.id = root.id;
    event.second = recovery.map_or(root.id, |c| c.id);
    event.key = new_key(random, phone, &root);
    event.verifying_key = recovery.map_or(0, |c| c.key);
    event.owner = root.owner;
    event.expiry = match random.percent(70) {
        true => expiry_in_date(random, phone.clock),
        false => any_expiry(random, phone.clock),
    };
    event.actor = allowed_actor(random, phone, event);
}

/// A key that something on the phone waits for, one of the domain, the root's own, or a new one.
fn new_key(random: &mut Random, phone: &Phone, root: &Certificate) -> u32 {
    let is_strange = |key: u32| {
        let mut others = phone.occupied_certificates();
        others.any(|c| c.key == key && c.domain != root.domain)
    };
    let issued = certificates_that(phone, |c| c.kind == ISSUED && c.domain == root.domain);
    let mut awaited: Vec<u32> = issued.iter().map(|c| c.verifying_key).collect();
    awaited.extend(all_executables(phone).iter().map(|e| e.signing_key));
    awaited.retain(|key| *key != 0 && !is_strange(*key));
    let own = certificates_that(phone, |c| c.domain == root.domain);
    let fresh = 4000 + u32::from(root.domain) * 100 + random.below(30) as u32;
    match random.below(10) {
        0..=4 => random.choose(&awaited).unwrap_or(fresh),
        5 => random.choose(&own).map_or(fresh, |c| c.key),
        6 => root.key,
        _ => fresh,
    }
}

/// Turns a replace towards a code. Codes 2 to 4 are made elsewhere, of any replace.
pub fn steer(random: &mut Random, phone: &Phone, event: &mut Event, aim: u8) {
    let card = phone.present_card();
    let is_away = |c: &Certificate| !phone.is_present(c.place) && c.domain != THIRD_PARTY;
    let is_root_here =
        |c: &Certificate| c.kind == ROOT && c.domain != THIRD_PARTY && phone.is_present(c.place);
    // Its own date is no hindrance: the new one counts.
    let is_old_root = |c: &Certificate| {
        let is_helped = |r: &Certificate| r.kind == RECOVERY && fits(c, r);
        !c.is_in_date(phone.clock) && phone.occupied_certificates().any(is_helped)
    };
    match aim {
        8 => name_one_of(random, phone, event, is_away),
        10 => bring_strange_key(random, phone, event),
        11 => name_one_of(random, phone, event, |c| {
            let is_strange = card.is_some_and(|card| card.operator != c.owner);
            c.is_root_of(OPERATOR) && c.place == 0 && is_strange
        }),
        12 => name_one_of(random, phone, event, |c| {
            c.kind != ROOT && c.domain != THIRD_PARTY && phone.is_present(c.place)
        }),
        13 => name_one_of(random, phone, event, |c| is_root_here(c) && c.mark == 0),
        17 => miss_recovery(random, phone, event),
        0 if random.percent(10) => name_one_of(random, phone, event, is_old_root),
        18 => {
            if random.percent(80) {
                name_one_of(random, phone, event, is_old_root);
            }
            event.expiry = date_in_the_past(random, phone.clock);
        }
        _ => {}
    }
}

/// A date below the clock, but for a clock of 0.
fn date_in_the_past(random: &mut Random, clock: u32) -> u32 {
    let any = random.u32() % clock.max(1);
    let last = clock.saturating_sub(1);
    random.one_of([last, last, last, 0, any])
}

/// Another record in place of the root, where one fits.
fn name_one_of(
    random: &mut Random,
    phone: &Phone,
    event: &mut Event,
    test: impl Fn(&Certificate) -> bool,
) {
    let record = random.choose(&certificates_that(phone, test));
    if record.is_some() {
        name_root(random, phone, event, record);
    }
}

fn bring_strange_key(random: &mut Random, phone: &Phone, event: &mut Event) {
    let domain = phone.certificate(event.id).map_or(OPERATOR, |c| c.domain);
    let others = certificates_that(phone, |c| c.domain != domain);
    event.key = random.choose(&others).map_or(event.key, |c| c.key);
}

/// One thing that the recovery record has to be or to have is otherwise.
fn miss_recovery(random: &mut Random, phone: &Phone, event: &mut Event) {
    let root = phone.certificate(event.id).copied();
    let domain = root.map_or(OPERATOR, |c| c.domain);
    let owner = root.map_or(0, |c| c.owner);
    match random.below(8) {
        // No recovery record: the root itself, another root, an issued record.
        0 => name_second(random, phone, event, |c| {
            c.kind != RECOVERY && c.domain == domain && c.owner == owner
        }),
        1 => name_second(random, phone, event, |c| {
            c.kind != RECOVERY && c.domain != THIRD_PARTY
        }),
        // A root on the present card, with a recovery record that goes with it otherwise.
        2 => name_one_of(random, phone, event, |c| {
            c.is_root_of(OPERATOR) && c.place != 0 && phone.is_present(c.place)
        }),
        // A recovery record of the other domain or of another owner.
        3 => name_second(random, phone, event, |c| {
            c.kind == RECOVERY && c.domain != domain
        }),
        4 => name_second(random, phone, event, |c| {
            c.kind == RECOVERY && c.domain == domain && c.owner != owner
        }),
        // Another owner in the event alone.
        5 => event.owner = random.one_of([event.owner ^ 1, event.owner ^ 1 << 31, 0, 500]),
        6 => event.owner = any_operator(random),
        _ => {
            let right = event.verifying_key;
            let root_key = root.map_or(1, |c| c.key);
            let wrong = [0, right ^ 1, right ^ 1 << 31, root_key, event.key];
            event.verifying_key = random.one_of(wrong);
        }
    }
}

/// Another record in the recovery's place, with its key, where one fits.
fn name_second(
    random: &mut Random,
    phone: &Phone,
    event: &mut Event,
    test: impl Fn(&Certificate) -> bool,
) {
    if let Some(record) = random.choose(&certificates_that(phone, test)) {
        event.second = record.id;
        event.verifying_key = record.key;
    }
}

/// A third party record in either place, or in both: then nobody may, whoever it is.
pub fn name_third_party(random: &mut Random, phone: &Phone, event: &mut Event) {
    let records = certificates_that(phone, |c| c.domain == THIRD_PARTY);
    let (first, second) = (random.choose(&records), random.choose(&records));
    let (Some(first), Some(second)) = (first, second) else {
        return;
    };
    match random.below(4) {
        0 => event.id = first.id,
        1 => (event.id, event.second) = (first.id, second.id),
        _ => event.second = second.id,
    }
    if random.percent(60) {
        return;
    }
    let everybody = [
        DEVICE,
        USER,
        OPERATOR_ACTOR,
        MANUFACTURER_ACTOR,
        ADMINISTRATOR,
    ];
    event.actor = random.one_of(everybody);
}

/// A value just beyond the range of a field, or a field that a replace does not use.
pub fn spoil_range(random: &mut Random, event: &mut Event) {
    let any = random.u8().max(1);
    match random.below(6) {
        0 => event.id = 0,
        1 => event.second = 0,
        2 => event.key = 0,
        3 => event.third = random.one_of([1, 2, any]),
        4 => event.fourth = random.one_of([1, MANUFACTURER, any]),
        // Both together, as an install has them.
        _ => (event.third, event.fourth) = (RECOVERY, OPERATOR),
    }
}

#[cfg(test)]
mod tests {
    use super::super::events::candidate;
    use super::super::images::{accepted_phone, Shape};
    use super::*;

    #[test]
    fn a_plan_is_in_good_form_and_often_done() {
        let mut done = 0;
        for number in 0..400 {
            let random = &mut Random::of_case(4, number);
            let shape = Shape::roomy(random);
            let phone = accepted_phone(random, shape);
            match code_of(&phone, &candidate(random, &phone, REPLACE)) {
                0 => done += 1,
                code => assert_ne!(code, 2),
            }
        }
        assert!(done >= 80, "{done} of 400 are done");
    }
}
