//! Phones to ask questions about: keys in levels, several records to a key, and much that is
//! wrong with some of them.
//!
//! Follows 02, "Tell the trainee why" and "Recovery keys": a chain is told by the lowest ids that
//! serve, so ids rise and fall with the slots; the reasons have an order, so several are true of
//! many a record; recovery keys are among the twins, and beside the roots that they can replace.

use super::images::{accepted_phone, distinct_ids, repair_marks, spread, Keys, Maker, Shape};
use crate::chain::Trust;
use crate::phone::{
    Certificate, Executable, Phone, ISSUED, MANUFACTURER, MOST_CERTIFICATES, OPERATOR, RECOVERY,
    ROOT, THIRD_PARTY, UNTRUSTED,
};
use crate::random::Random;

/// More levels than a chain may have links.
const MOST_LEVELS: usize = 6;

/// No record of these phones has them.
const UNHELD_KEYS: [u32; 2] = [7777, 8888];

/// A phone with one to three ladders, and executables signed by the key of every level.
pub fn ladder_phone(random: &mut Random) -> Phone {
    let shape = Shape {
        certificate_slots: 0,
        cards: random.below(4),
        executable_slots: 0,
        actions: random.between(1, 3),
    };
    let mut phone = accepted_phone(random, shape);
    let mut maker = Maker {
        keys: Keys::any(random, 15),
        random,
        cards: phone.cards.clone(),
        card_present: phone.card_present,
        clock: phone.clock,
        records: Vec::new(),
    };
    let mut keys = Vec::new();
    for _ in 0..maker.random.one_of([1, 1, 1, 2, 2, 3]) {
        let domain = maker
            .random
            .one_of([OPERATOR, MANUFACTURER, THIRD_PARTY, THIRD_PARTY]);
        keys.extend(ladder(&mut maker, domain));
        if domain != THIRD_PARTY && maker.random.percent(60) {
            keys.push(recovery_of_ladder(&mut maker, domain));
        }
    }
    let records = maker.records;
    phone.certificates = in_slots(random, records);
    repair_marks(&mut phone, random.percent(50));
    phone.executables = executables(random, &phone, keys);
    phone
}

/// The keys of a new ladder. On one level perhaps every record is hurt, that of the roots often.
fn ladder(maker: &mut Maker, domain: u8) -> Vec<u32> {
    let levels = keys_in_levels(maker, domain);
    let any_level = maker.random.below(levels.len());
    let hurt_level = match maker.random.percent(50) {
        true => maker.random.one_of([0, any_level]),
        false => MOST_LEVELS,
    };
    let hurt_elsewhere = maker.random.one_of([0, 10, 25, 40]);
    for (level, keys) in levels.iter().enumerate() {
        let twins = maker.random.one_of([0, 0, 1, 1, 2, 3]);
        let twin_keys: Vec<u32> = (0..twins).map(|_| any_key(maker, keys)).collect();
        for key in [keys.clone(), twin_keys].concat() {
            let mut record = rung(maker, domain, key, &levels, level);
            if level == hurt_level || maker.random.percent(hurt_elsewhere) {
                hurt(maker, &mut record);
            }
            maker.records.push(record);
        }
    }
    levels.concat()
}

/// One or two keys for each level, that of the roots first.
fn keys_in_levels(maker: &mut Maker, domain: u8) -> Vec<Vec<u32>> {
    let count = maker
        .random
        .one_of([1, 2, 3, 3, 4, 4, 4, 4, 5, MOST_LEVELS]);
    let mut levels: Vec<Vec<u32>> = Vec::new();
    for _ in 0..count {
        let mut level = Vec::new();
        for _ in 0..maker.random.one_of([1, 1, 1, 2, 2]) {
            let used = [levels.concat(), level.clone()].concat();
            level.push(maker.keys.pick_new(maker.random, domain, &used));
        }
        levels.push(level);
    }
    levels
}

/// The key of a new recovery record, mostly of the owner of a root on the phone.
fn recovery_of_ladder(maker: &mut Maker, domain: u8) -> u32 {
    let on_phone = |c: &&Certificate| c.is_root_of(domain) && c.place == 0;
    let owners: Vec<u32> = maker
        .records
        .iter()
        .filter(on_phone)
        .map(|c| c.owner)
        .collect();
    let owner = maker.random.choose(&owners).unwrap_or(500);
    let used: Vec<u32> = maker.records.iter().map(|c| c.key).collect();
    let key = maker.keys.pick_new(maker.random, domain, &used);
    let record = maker.recovery(domain, key, owner);
    maker.records.push(record);
    key
}

/// A record of a level, mostly verified by a key of the level before it.
fn rung(maker: &mut Maker, domain: u8, key: u32, levels: &[Vec<u32>], level: usize) -> Certificate {
    let place = maker.present_place();
    let is_root = match level {
        0 => maker.random.percent(92),
        _ => maker.random.percent(4),
    };
    if domain != THIRD_PARTY && maker.random.percent(8) {
        let owner = maker.root_owner(0);
        return maker.recovery(domain, key, owner);
    }
    if is_root {
        return maker.root(domain, key, place);
    }
    let verifying_key = match maker.random.below(20) {
        0 | 1 => strange_key(maker, domain),
        // A short cut, a ring, or another way of the same length.
        2 | 3 => any_key(maker, &levels.concat()),
        _ => any_key(maker, &levels[level.saturating_sub(1)]),
    };
    let mut record = maker.issued(domain, key, verifying_key, place);
    record.expiry = maker.chain_expiry();
    record
}

fn any_key(maker: &mut Maker, keys: &[u32]) -> u32 {
    maker.random.choose(keys).unwrap_or(UNHELD_KEYS[0])
}

/// A key of another domain, or one that nobody has.
fn strange_key(maker: &mut Maker, domain: u8) -> u32 {
    let others = maker.records.iter().filter(|c| c.domain != domain);
    let keys: Vec<u32> = others.map(|record| record.key).collect();
    any_key(maker, &keys)
}

/// One thing to three that are wrong with a record.
fn hurt(maker: &mut Maker, record: &mut Certificate) {
    for _ in 0..maker.random.one_of([1, 2, 3, 3]) {
        match (record.kind, maker.random.below(3)) {
            // Its date is never looked at, and nothing else of it may be otherwise.
            (RECOVERY, _) => make_old(maker, record),
            (_, 0) => move_away(maker, record),
            (ROOT, 1) if maker.random.percent(20) => make_old(maker, record),
            (ROOT, _) if record.domain == THIRD_PARTY && maker.random.percent(70) => {
                record.enabled = 0
            }
            (ROOT, _) => record.mark = 0,
            (ISSUED, 1) => record.verifying_key = strange_key(maker, record.domain),
            _ => make_old(maker, record),
        }
    }
    if record.kind == ROOT && maker.random.percent(40) {
        make_old(maker, record);
    }
}

/// To a card that is not present, where there is one that the record may be on.
fn move_away(maker: &mut Maker, record: &mut Certificate) {
    let place = match maker.absent_place() {
        Some(place) if !record.is_root_of(MANUFACTURER) => place,
        _ => return,
    };
    record.place = place;
    if record.is_root_of(OPERATOR) {
        record.owner = maker.root_owner(place);
    }
}

fn make_old(maker: &mut Maker, record: &mut Certificate) {
    let seconds = maker.random.one_of([1, 1, 2, 50]);
    record.expiry = maker.clock.saturating_sub(seconds);
}

/// Ids that rise with the slots, fall with them, or have no order.
fn in_slots(random: &mut Random, mut records: Vec<Certificate>) -> Vec<Option<Certificate>> {
    records.truncate(MOST_CERTIFICATES);
    let count = (records.len() + random.below(4)).min(MOST_CERTIFICATES);
    let mut slots = spread(random, &records, count);
    let mut ids = distinct_ids(random, records.len());
    match random.below(4) {
        0 => ids.sort(),
        1 => ids.sort_by(|a, b| b.cmp(a)),
        _ => {}
    }
    for (record, id) in slots.iter_mut().flatten().zip(ids) {
        record.id = id;
    }
    slots
}

/// An executable for each key, and now and then one that is unsigned or whose key nobody has.
fn executables(
    random: &mut Random,
    phone: &Phone,
    mut signing_keys: Vec<u32>,
) -> Vec<Option<Executable>> {
    signing_keys.sort();
    signing_keys.dedup();
    if random.percent(25) {
        signing_keys.push(0);
    }
    if random.percent(25) {
        signing_keys.push(random.one_of(UNHELD_KEYS));
    }
    let trust = Trust::of(phone);
    let ids = distinct_ids(random, signing_keys.len());
    let records: Vec<Executable> = signing_keys
        .iter()
        .zip(ids)
        .map(|(&signing_key, id)| Executable {
            id,
            domain: match trust.chain_of(signing_key) {
                Some(chain) if random.percent(65) => chain.domain,
                _ => UNTRUSTED,
            },
            zero: 0,
            signing_key,
            permissions: 0,
        })
        .collect();
    let count = records.len() + random.below(3);
    spread(random, &records, count)
}

#[cfg(test)]
mod tests {
    use super::*;
    use crate::image_rules::first_broken;

    #[test]
    fn made_phones_are_accepted() {
        for number in 0..1000 {
            let random = &mut Random::of_case(7, number);
            assert_eq!(first_broken(&ladder_phone(random).encode()), None);
        }
    }
}
