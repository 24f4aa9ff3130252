//! Damaged images: every rule broken in each way that is known, and hurt without plan.
//!
//! Follows 01, "The image", and 02, "Recovery keys" and "Roots have a date as well". Each way starts
//! from an accepted phone; whether the wanted rule is the first one broken is asked of `image_rules`
//! and tried again where it is not.

use std::collections::BTreeSet;

use super::images::{accepted_phone, any_operator, expiry_in_date, Shape};
use crate::chain::Trust;
use crate::image_rules::{first_broken, Broken};
use crate::phone::{
    u32_at, Card, Certificate, Executable, Header, Phone, ISSUED, LARGEST_IMAGE,
    LAST_CERTIFICATE_KIND, MANUFACTURER, MOST_ACTIONS, MOST_CARDS, MOST_CERTIFICATES,
    MOST_EXECUTABLES, OPERATOR, RECOVERY, ROOT, TABLE_ROW_SIZE, THIRD_PARTY,
};
use crate::random::Random;

type DamageParts = fn(&mut Random, &mut Phone);
type DamageBytes = fn(&mut Random, &mut Vec<u8>);
type DamageField = fn(&mut Random, &mut [u8]);

/// Damage is done to the records, to a field of the header or to the bytes as a whole.
#[derive(Clone, Copy)]
pub enum Damage {
    Parts(DamageParts),
    Field(DamageField),
    Bytes(DamageBytes),
}

use Damage::{Bytes, Field, Parts};

/// Every way to break a rule, with the damage that does it.
const WAYS: [(u8, &str, Damage); 67] = [
    (1, "stream shorter than header", Bytes(cut_in_header)),
    (1, "buffer shorter than total", Bytes(cut_in_parts)),
    (1, "total below 40 or above 2536", Field(total)),
    (1, "version", Field(version)),
    (1, "certificate slots", Field(certificate_slots)),
    (1, "certificate slots", Parts(one_certificate_slot_too_many)),
    (1, "cards", Field(cards)),
    (1, "cards", Parts(one_card_too_many)),
    (1, "executable slots", Field(executable_slots)),
    (1, "executable slots", Parts(one_executable_slot_too_many)),
    (1, "actions", Field(actions)),
    (1, "actions", Parts(one_action_too_many)),
    (1, "actions", Parts(no_action)),
    (1, "mode", Field(mode)),
    (1, "zero", Field(header_zero)),
    (1, "offset of certificates", Bytes(|r, b| gap(r, b, 20))),
    (1, "offset of cards", Bytes(|r, b| gap(r, b, 24))),
    (1, "offset of executables", Bytes(|r, b| gap(r, b, 28))),
    (1, "offset of table", Bytes(|r, b| gap(r, b, 32))),
    (1, "total is not table's end", Bytes(|r, b| gap(r, b, 36))),
    (2, "occupied, id 0", Parts(certificate_id_0)),
    (2, "occupied, key 0", Parts(certificate_key_0)),
    (2, "kind", Parts(certificate_kind)),
    (2, "domain", Parts(certificate_domain)),
    (2, "mark not 0/1", Parts(mark)),
    (2, "enabled not 0/1", Parts(enabled)),
    (2, "root with verifying key", Parts(verified_root)),
    (2, "manufacturer root on card", Parts(manufacturer_on_card)),
    (2, ROOT_NOT_ENABLED, Parts(root_not_enabled)),
    (2, "issued without verifying key", Parts(issued_by_none)),
    (2, "issued with mark 0", Parts(issued_invalid)),
    (2, "issued with enabled 0", Parts(issued_disabled)),
    (2, "recovery key on card", Parts(recovery_on_card)),
    (2, "recovery key of third party", Parts(recovery_of_third)),
    (2, RECOVERY_VERIFIED, Parts(recovery_verified)),
    (2, "recovery key with mark 1", Parts(recovery_valid)),
    (2, "recovery key with enabled 0", Parts(recovery_disabled)),
    (3, "card number 0", Parts(card_number_0)),
    (3, "card zero field", Parts(card_zero)),
    (3, "card numbers not distinct", Parts(same_card_twice)),
    (3, "card present not in table", Parts(strange_card_present)),
    (3, "place not in table", Parts(strange_place)),
    (4, IDS_NOT_DISTINCT, Parts(same_id)),
    (4, IDS_NOT_DISTINCT, Parts(id_of_recovery)),
    (4, KEY_SHARED, Parts(key_in_two_domains)),
    (4, KEY_SHARED, Parts(key_in_two_domains_and_away)),
    (4, KEY_SHARED, Parts(recovery_key_in_two_domains)),
    (4, STRANGE_OWNER_ON_CARD, Parts(strange_owner_on_card)),
    (5, "two valid operator roots on phone", Parts(two_on_phone)),
    (5, "two valid operator roots on a card", Parts(two_on_card)),
    (5, ROOTS_ON_BOTH, Parts(roots_on_both)),
    (5, STRANGE_ROOT_ON_PHONE, Parts(strange_root_on_phone)),
    (5, "two valid manufacturer roots", Parts(two_manufacturers)),
    (6, "table byte above 2", Parts(table_byte_above_two)),
    (6, ABOVE_OPERATOR, Parts(|r, p| row_below(r, p, 1))),
    (6, ABOVE_MANUFACTURER, Parts(|r, p| row_below(r, p, 2))),
    (6, ABOVE_THIRD_PARTY, Parts(|r, p| row_below(r, p, 3))),
    (7, "occupied, id 0", Parts(executable_id_0)),
    (7, "domain", Parts(executable_domain)),
    (7, "zero field", Parts(executable_zero)),
    (7, "executable ids not distinct", Parts(same_executable_id)),
    (7, PERMISSION_BEYOND_ACTIONS, Parts(strange_permission)),
    (8, "domain without signing key", Parts(unsigned_with_domain)),
    (8, "domain without chain", Parts(domain_without_chain)),
    (8, "domain without chain", Parts(lost_link)),
    (8, "domain without chain", Parts(link_made_recovery)),
    (8, "domain without chain", Parts(root_past_its_date)),
];

// The longer ways, as `image_rules` says them.
const ROOT_NOT_ENABLED: &str = "operator/manufacturer root not enabled";
const IDS_NOT_DISTINCT: &str = "certificate ids not distinct";
const RECOVERY_VERIFIED: &str = "recovery key with verifying key";
const KEY_SHARED: &str = "key shared between domains";
const STRANGE_OWNER_ON_CARD: &str = "operator root on card of another operator";
const ROOTS_ON_BOTH: &str = "valid operator root on phone beside one on present card";
const STRANGE_ROOT_ON_PHONE: &str =
    "valid operator root on phone of another operator than present card";
const ABOVE_OPERATOR: &str = "domain 0 byte larger than operator's";
const ABOVE_MANUFACTURER: &str = "domain 0 byte larger than manufacturer's";
const ABOVE_THIRD_PARTY: &str = "domain 0 byte larger than third party's";
const PERMISSION_BEYOND_ACTIONS: &str = "permission bit at or above action count";

/// How many ways there are; a case's number chooses among them in turn.
pub fn count_of_ways() -> usize {
    WAYS.len()
}

/// How many of them differ in what `image_rules` says: some are reached by more than one damage.
pub fn count_of_different_ways() -> usize {
    let different: BTreeSet<(u8, &str)> = WAYS.iter().map(|(rule, way, _)| (*rule, *way)).collect();
    different.len()
}

/// The damages that break a rule, one for each way.
pub fn ways_of(rule: u8) -> Vec<Damage> {
    let of_rule = WAYS.iter().filter(|(other, _, _)| *other == rule);
    of_rule.map(|(_, _, damage)| *damage).collect()
}

/// How often another phone is tried for a damage that did not come out as wanted.
const TRIES: usize = 200;

/// An image broken in the way with this number, and the phone that it was made from.
pub fn broken_image(random: &mut Random, way: usize) -> (Phone, Vec<u8>, Broken) {
    let (rule, way, damage) = WAYS[way % WAYS.len()];
    let wanted = Broken { rule, way };
    let mut last = None;
    for _ in 0..TRIES {
        let shape = Shape::roomy(random);
        let phone = accepted_phone(random, shape);
        let image = damaged(random, &phone, damage, rule);
        let found = first_broken(&image);
        last = Some((phone, image, wanted));
        if found == Some(wanted) {
            break;
        }
    }
    // The loop runs at least once, so the fallback is never seen.
    last.unwrap_or_else(|| {
        let phone = accepted_phone(random, Shape::SMALLEST);
        (phone, Vec::new(), wanted)
    })
}

fn damaged(random: &mut Random, phone: &Phone, damage: Damage, rule: u8) -> Vec<u8> {
    match damage {
        Parts(damage) => {
            let mut parts = phone.clone();
            damage(random, &mut parts);
            if rule < 6 {
                tidy_executables(&mut parts);
            }
            parts.encode()
        }
        Field(damage) => {
            let mut image = phone.encode();
            damage(random, &mut image);
            image
        }
        Bytes(damage) => {
            let mut image = phone.encode();
            damage(random, &mut image);
            image
        }
    }
}

/// Damage to a certificate or card may take a chain away. An executable that has lost its domain
/// with it leaves the wanted rule as the only one broken, so that nothing else can hide it.
fn tidy_executables(phone: &mut Phone) {
    let trust = Trust::of(phone);
    let mut executables = phone.executables.clone();
    for record in executables.iter_mut().flatten() {
        if trust.links_to(record.signing_key, record.domain) == 0 {
            record.domain = 0;
        }
        if phone.table.is_empty() {
            record.permissions = 0;
        }
    }
    phone.executables = executables;
}

// Damage to the bytes.

pub fn put_u16(image: &mut [u8], at: usize, value: u16) {
    image[at..at + 2].copy_from_slice(&value.to_be_bytes());
}

pub fn put_u32(image: &mut [u8], at: usize, value: u32) {
    image[at..at + 4].copy_from_slice(&value.to_be_bytes());
}

fn cut_in_header(random: &mut Random, image: &mut Vec<u8>) {
    image.truncate(random.below(Header::SIZE));
}

fn cut_in_parts(random: &mut Random, image: &mut Vec<u8>) {
    let less_one = image.len().saturating_sub(1);
    let end = match random.percent(40) {
        true => less_one,
        false => random.between(Header::SIZE, less_one),
    };
    image.truncate(end);
}

fn total(random: &mut Random, image: &mut [u8]) {
    let right = u32_at(image, 36);
    let wrong = [
        0,
        39,
        LARGEST_IMAGE as u32 + 1,
        right | 1 << random.between(12, 31),
        u32::MAX,
        random.u32() | 0x1000,
    ];
    put_u32(image, 36, random.one_of(wrong));
}

fn version(random: &mut Random, image: &mut [u8]) {
    put_u16(image, 0, random.one_of([0, 2, 3, 256, 257, 65535]));
}

fn certificate_slots(random: &mut Random, image: &mut [u8]) {
    put_u16(image, 2, random.one_of([65, 128, 256, 257, 65535]));
}

fn cards(random: &mut Random, image: &mut [u8]) {
    put_u16(image, 4, random.one_of([9, 16, 256, 257, 65535]));
}

fn executable_slots(random: &mut Random, image: &mut [u8]) {
    put_u16(image, 6, random.one_of([65, 128, 256, 257, 65535]));
}

fn actions(random: &mut Random, image: &mut [u8]) {
    put_u16(image, 8, random.one_of([0, 33, 256, 257, 65535]));
}

fn mode(random: &mut Random, image: &mut [u8]) {
    put_u16(image, 10, random.one_of([3, 4, 256, 257, 65535]));
}

fn header_zero(random: &mut Random, image: &mut [u8]) {
    put_u16(image, 14, 1 << random.below(16));
}

/// One offset or the total is off; half the time with a real gap that all later ones allow for.
fn gap(random: &mut Random, image: &mut Vec<u8>, field: usize) {
    if image.len() < Header::SIZE {
        return;
    }
    let here = u32_at(image, field);
    if random.percent(50) {
        let length = random.one_of([1, 4, 8, 12, 24]);
        // The field may be damaged already.
        let at = (here as usize).min(image.len());
        image.splice(at..at, vec![0; length]);
        for later in (field..=36).step_by(4) {
            let value = u32_at(image, later);
            put_u32(image, later, value.wrapping_add(length as u32));
        }
        return;
    }
    let wrong = [
        here.wrapping_add(1),
        here.wrapping_sub(1),
        here ^ 1 << random.below(11),
        here.wrapping_add(24),
        here.saturating_sub(24),
        here ^ 1 << random.below(32),
    ];
    put_u32(image, field, random.one_of(wrong));
}

// Damage to the parts.

fn one_certificate_slot_too_many(_: &mut Random, phone: &mut Phone) {
    phone.certificates.resize(MOST_CERTIFICATES + 1, None);
}

fn one_card_too_many(random: &mut Random, phone: &mut Phone) {
    let mut number = 1000;
    while phone.cards.len() <= MOST_CARDS {
        phone.cards.push(Card {
            number,
            zero: 0,
            operator: any_operator(random),
        });
        number += 1;
    }
}

fn one_executable_slot_too_many(_: &mut Random, phone: &mut Phone) {
    phone.executables.resize(MOST_EXECUTABLES + 1, None);
}

fn one_action_too_many(_: &mut Random, phone: &mut Phone) {
    phone.table.resize(MOST_ACTIONS + 1, [0; TABLE_ROW_SIZE]);
}

fn no_action(_: &mut Random, phone: &mut Phone) {
    phone.table.clear();
}

/// A byte that is neither 0 nor 1, some of them with the lowest bit set.
fn beyond_one(random: &mut Random) -> u8 {
    random.one_of([2, 3, 128, 129, 255])
}

fn any_record(_: &Certificate) -> bool {
    true
}

fn is_issued(record: &Certificate) -> bool {
    record.kind == ISSUED
}

fn is_recovery(record: &Certificate) -> bool {
    record.kind == RECOVERY
}

fn certificate_id_0(random: &mut Random, phone: &mut Phone) {
    change_one_of(random, phone, any_record, |c| c.id = 0);
}

fn certificate_key_0(random: &mut Random, phone: &mut Phone) {
    change_one_of(random, phone, any_record, |c| c.key = 0);
}

fn certificate_kind(random: &mut Random, phone: &mut Phone) {
    let kind = random.one_of([LAST_CERTIFICATE_KIND + 1, 4, 128, 129, 130, 255]);
    change_one_of(random, phone, any_record, |c| c.kind = kind);
}

fn mark(random: &mut Random, phone: &mut Phone) {
    let mark = beyond_one(random);
    change_one_of(random, phone, any_record, |c| c.mark = mark);
}

fn enabled(random: &mut Random, phone: &mut Phone) {
    let enabled = beyond_one(random);
    change_one_of(random, phone, any_record, |c| c.enabled = enabled);
}

fn issued_by_none(random: &mut Random, phone: &mut Phone) {
    change_one_of(random, phone, is_issued, |c| c.verifying_key = 0);
}

fn issued_invalid(random: &mut Random, phone: &mut Phone) {
    change_one_of(random, phone, is_issued, |c| c.mark = 0);
}

fn issued_disabled(random: &mut Random, phone: &mut Phone) {
    change_one_of(random, phone, is_issued, |c| c.enabled = 0);
}

fn recovery_on_card(random: &mut Random, phone: &mut Phone) {
    let place = any_card(random, phone).number;
    change_recovery(random, phone, |c| c.place = place);
}

fn recovery_of_third(random: &mut Random, phone: &mut Phone) {
    change_recovery(random, phone, |c| c.domain = THIRD_PARTY);
}

fn recovery_verified(random: &mut Random, phone: &mut Phone) {
    let key = random.one_of([1, 0x0100_0000, u32::MAX]);
    change_recovery(random, phone, |c| c.verifying_key = key);
}

fn recovery_valid(random: &mut Random, phone: &mut Phone) {
    change_recovery(random, phone, |c| c.mark = 1);
}

fn recovery_disabled(random: &mut Random, phone: &mut Phone) {
    change_recovery(random, phone, |c| c.enabled = 0);
}

/// Changes a recovery record; where the phone has none, one is put there first.
fn change_recovery(random: &mut Random, phone: &mut Phone, change: impl Fn(&mut Certificate)) {
    if !phone.occupied_certificates().any(is_recovery) {
        let owner = any_operator(random);
        let domain = random.one_of([OPERATOR, MANUFACTURER]);
        put(random, phone, RECOVERY, domain, 0, owner, 0);
    }
    change_one_of(random, phone, is_recovery, change);
}

pub fn change_one_of(
    random: &mut Random,
    phone: &mut Phone,
    which: impl Fn(&Certificate) -> bool,
    change: impl Fn(&mut Certificate),
) {
    let mut fitting: Vec<&mut Certificate> = phone
        .certificates
        .iter_mut()
        .flatten()
        .filter(|c| which(c))
        .collect();
    let at = random.below(fitting.len());
    if let Some(record) = fitting.get_mut(at) {
        change(record);
    }
}

fn certificate_domain(random: &mut Random, phone: &mut Phone) {
    let domain = random.one_of([0, 4, 5, 129, 255]);
    change_one_of(random, phone, any_record, |c| c.domain = domain);
}

fn verified_root(random: &mut Random, phone: &mut Phone) {
    let key = random.one_of([1, 0x0100_0000, u32::MAX]);
    let is_root = |c: &Certificate| c.kind == ROOT;
    change_one_of(random, phone, is_root, |c| c.verifying_key = key);
}

fn manufacturer_on_card(random: &mut Random, phone: &mut Phone) {
    let place = any_card(random, phone).number;
    put_root(random, phone, MANUFACTURER, place, 0, 0);
}

fn root_not_enabled(random: &mut Random, phone: &mut Phone) {
    let is_meant = |c: &Certificate| c.kind == ROOT && c.domain != THIRD_PARTY;
    change_one_of(random, phone, is_meant, |c| c.enabled = 0);
}

/// Changes a card that nothing refers to, where there is one.
fn change_card(random: &mut Random, phone: &mut Phone, change: impl Fn(&mut Card)) {
    let is_unused = |card: &Card| {
        card.number != phone.card_present
            && phone
                .occupied_certificates()
                .all(|c| c.place != card.number)
    };
    let unused: Vec<usize> = (0..phone.cards.len())
        .filter(|&n| is_unused(&phone.cards[n]))
        .collect();
    let at = match random.choose(&unused) {
        Some(at) => at,
        None => random.below(phone.cards.len()),
    };
    if let Some(card) = phone.cards.get_mut(at) {
        change(card);
    }
}

fn card_number_0(random: &mut Random, phone: &mut Phone) {
    change_card(random, phone, |card| card.number = 0);
}

fn card_zero(random: &mut Random, phone: &mut Phone) {
    let zero = 1 << random.below(16);
    change_card(random, phone, |card| card.zero = zero);
}

fn same_card_twice(random: &mut Random, phone: &mut Phone) {
    let count = phone.cards.len();
    if count > 0 {
        let (from, to) = two_places(random, count);
        phone.cards[to].number = phone.cards[from].number;
    }
}

fn strange_card_present(random: &mut Random, phone: &mut Phone) {
    phone.card_present = random.one_of([10, 254, 513, 0x0A00]);
}

fn strange_place(random: &mut Random, phone: &mut Phone) {
    let place = random.one_of([10, 254, 513, 0x0A00]);
    let is_meant = |c: &Certificate| !c.is_root_of(MANUFACTURER) && !is_recovery(c);
    change_one_of(random, phone, is_meant, |c| c.place = place);
}

fn same_id(random: &mut Random, phone: &mut Phone) {
    let at = occupied_places(&phone.certificates);
    let (from, to) = two_places(random, at.len());
    let id = at
        .get(from)
        .and_then(|&n| phone.certificates[n].map(|c| c.id));
    if let (Some(id), Some(&to)) = (id, at.get(to)) {
        phone.certificates[to] = phone.certificates[to].map(|c| Certificate { id, ..c });
    }
}

fn id_of_recovery(random: &mut Random, phone: &mut Phone) {
    let mut records = occupied(&phone.certificates);
    records.retain(is_recovery);
    if let Some(recovery) = random.choose(&records) {
        let is_another = |c: &Certificate| c.id != recovery.id;
        change_one_of(random, phone, is_another, |c| c.id = recovery.id);
    }
}

fn key_in_two_domains(random: &mut Random, phone: &mut Phone) {
    let records = occupied(&phone.certificates);
    share_key_of(random, phone, &records);
}

/// The record that has the key already is on a card that is away.
fn key_in_two_domains_and_away(random: &mut Random, phone: &mut Phone) {
    let mut records = occupied(&phone.certificates);
    records.retain(|c| !phone.is_present(c.place));
    share_key_of(random, phone, &records);
}

/// The record that has the key already is a recovery one.
fn recovery_key_in_two_domains(random: &mut Random, phone: &mut Phone) {
    let mut records = occupied(&phone.certificates);
    records.retain(is_recovery);
    share_key_of(random, phone, &records);
}

/// A record of another domain takes the key of one of these.
fn share_key_of(random: &mut Random, phone: &mut Phone, records: &[Certificate]) {
    if let Some(record) = random.choose(records) {
        let is_of_another = |c: &Certificate| c.domain != record.domain;
        change_one_of(random, phone, is_of_another, |c| c.key = record.key);
    }
}

fn strange_owner_on_card(random: &mut Random, phone: &mut Phone) {
    let card = any_card(random, phone);
    let mark = random.below(2) as u8;
    let bit = 1 << random.below(32);
    put_root(
        random,
        phone,
        OPERATOR,
        card.number,
        card.operator ^ bit,
        mark,
    );
}

fn two_on_phone(random: &mut Random, phone: &mut Phone) {
    let owner = match phone.present_card() {
        Some(card) => card.operator,
        None => any_operator(random),
    };
    put_root(random, phone, OPERATOR, 0, owner, 1);
    put_root(random, phone, OPERATOR, 0, owner, 1);
}

fn two_on_card(random: &mut Random, phone: &mut Phone) {
    let card = any_card(random, phone);
    put_root(random, phone, OPERATOR, card.number, card.operator, 1);
    put_root(random, phone, OPERATOR, card.number, card.operator, 1);
}

fn roots_on_both(random: &mut Random, phone: &mut Phone) {
    let card = any_card(random, phone);
    phone.card_present = card.number;
    put_root(random, phone, OPERATOR, card.number, card.operator, 1);
    put_root(random, phone, OPERATOR, 0, card.operator, 1);
}

fn strange_root_on_phone(random: &mut Random, phone: &mut Phone) {
    let card = any_card(random, phone);
    phone.card_present = card.number;
    let bit = 1 << random.below(32);
    put_root(random, phone, OPERATOR, 0, card.operator ^ bit, 1);
}

fn two_manufacturers(random: &mut Random, phone: &mut Phone) {
    put_root(random, phone, MANUFACTURER, 0, 0, 1);
    put_root(random, phone, MANUFACTURER, 0, 0, 1);
}

fn table_byte_above_two(random: &mut Random, phone: &mut Phone) {
    let row = random.below(phone.table.len());
    let column = random.below(TABLE_ROW_SIZE);
    let byte = random.one_of([3, 4, 128, 255]);
    if let Some(row) = phone.table.get_mut(row) {
        row[column] = byte;
    }
}

/// One action in which the byte of this domain alone is below that of domain 0.
fn row_below(random: &mut Random, phone: &mut Phone, domain: usize) {
    let row = random.below(phone.table.len());
    let untrusted = random.one_of([1, 2]);
    if let Some(row) = phone.table.get_mut(row) {
        *row = [untrusted, 2, 2, 2];
        row[domain] = untrusted - 1;
    }
}

fn executable_id_0(random: &mut Random, phone: &mut Phone) {
    change_one_executable(random, phone, |_| true, |e| e.id = 0);
}

fn executable_domain(random: &mut Random, phone: &mut Phone) {
    let domain = random.one_of([4, 5, 128, 129, 255]);
    change_one_executable(random, phone, |_| true, |e| e.domain = domain);
}

fn executable_zero(random: &mut Random, phone: &mut Phone) {
    let zero = 1 << random.below(8);
    change_one_executable(random, phone, |_| true, |e| e.zero = zero);
}

fn change_one_executable(
    random: &mut Random,
    phone: &mut Phone,
    which: impl Fn(&Executable) -> bool,
    change: impl Fn(&mut Executable),
) {
    let mut fitting: Vec<&mut Executable> = phone
        .executables
        .iter_mut()
        .flatten()
        .filter(|e| which(e))
        .collect();
    let at = random.below(fitting.len());
    if let Some(record) = fitting.get_mut(at) {
        change(record);
    }
}

fn same_executable_id(random: &mut Random, phone: &mut Phone) {
    let at = occupied_places(&phone.executables);
    let (from, to) = two_places(random, at.len());
    let id = at
        .get(from)
        .and_then(|&n| phone.executables[n].map(|e| e.id));
    if let (Some(id), Some(&to)) = (id, at.get(to)) {
        phone.executables[to] = phone.executables[to].map(|e| Executable { id, ..e });
    }
}

fn strange_permission(random: &mut Random, phone: &mut Phone) {
    let first = phone.table.len();
    if first >= MOST_ACTIONS {
        return;
    }
    let bit = match random.percent(50) {
        true => first,
        false => random.between(first, 31),
    };
    change_one_executable(random, phone, |_| true, |e| e.permissions |= 1 << bit);
}

fn unsigned_with_domain(random: &mut Random, phone: &mut Phone) {
    let domain = random.between(1, 3) as u8;
    change_one_executable(
        random,
        phone,
        |_| true,
        |e| {
            e.signing_key = 0;
            e.domain = domain;
        },
    );
}

/// Another domain than the one it chains to, or any where it chains to none.
fn domain_without_chain(random: &mut Random, phone: &mut Phone) {
    change_one_executable(
        random,
        phone,
        |e| e.signing_key != 0,
        |e| e.domain = e.domain % 3 + 1,
    );
}

/// One record stops being good; it has to be one that an executable's chain needs.
fn lost_link(random: &mut Random, phone: &mut Phone) {
    let last_second = phone.clock.saturating_sub(1);
    let absent = phone.cards.iter().find(|c| c.number != phone.card_present);
    let away = absent.map_or(0, |card| card.number);
    let how = random.below(2);
    let is_meant = |c: &Certificate| !is_recovery(c);
    change_one_of(random, phone, is_meant, |c| match (c.kind, c.domain) {
        (ROOT, THIRD_PARTY) if how == 0 => c.enabled = 0,
        (ROOT, _) => c.mark = 0,
        _ if how == 0 => c.expiry = last_second,
        _ => c.place = away,
    });
}

/// The clock is one second past the date of a root, whose mark stays.
fn root_past_its_date(random: &mut Random, phone: &mut Phone) {
    let clock = phone.clock;
    let is_trusted = |c: &Certificate| c.is_valid_root_of(c.domain, clock) && c.enabled == 1;
    let last_second = clock.saturating_sub(1);
    change_one_of(random, phone, is_trusted, |c| c.expiry = last_second);
}

/// One record with its key and its domain becomes a recovery one, which is no link.
fn link_made_recovery(random: &mut Random, phone: &mut Phone) {
    let is_meant = |c: &Certificate| !is_recovery(c) && c.domain != THIRD_PARTY;
    change_one_of(random, phone, is_meant, |c| {
        c.kind = RECOVERY;
        c.place = 0;
        c.mark = 0;
        c.verifying_key = 0;
    });
}

// Small helps.

fn occupied<T: Copy>(slots: &[Option<T>]) -> Vec<T> {
    slots.iter().copied().flatten().collect()
}

pub fn occupied_places<T>(slots: &[Option<T>]) -> Vec<usize> {
    (0..slots.len()).filter(|&n| slots[n].is_some()).collect()
}

/// Two different places of a list that has at least two; otherwise the first one twice.
pub fn two_places(random: &mut Random, count: usize) -> (usize, usize) {
    let first = random.below(count);
    let step = random.between(1, count.max(2) - 1);
    (first, (first + step) % count.max(1))
}

/// A card of the table; phones to be damaged have some.
pub fn any_card(random: &mut Random, phone: &Phone) -> Card {
    random.choose(&phone.cards).unwrap_or(Card {
        number: 1,
        zero: 0,
        operator: 0,
    })
}

/// Puts a root in date into a slot that holds no valid one yet, over whatever is there.
fn put_root(random: &mut Random, phone: &mut Phone, domain: u8, place: u16, owner: u32, mark: u8) {
    put(random, phone, ROOT, domain, place, owner, mark);
}

fn put(
    random: &mut Random,
    phone: &mut Phone,
    kind: u8,
    domain: u8,
    place: u16,
    owner: u32,
    mark: u8,
) {
    let known: Vec<u16> = phone.occupied_certificates().map(|c| c.id).collect();
    let is_valid = |c: Certificate| c.is_valid_root_of(domain, phone.clock);
    let slots: Vec<usize> = (0..phone.certificates.len())
        .filter(|&n| !phone.certificates[n].is_some_and(is_valid))
        .collect();
    let (Some(slot), Some(id)) = (
        random.choose(&slots),
        (300..400).find(|id| !known.contains(id)),
    ) else {
        return;
    };
    phone.certificates[slot] = Some(Certificate {
        id,
        place,
        kind,
        domain,
        mark,
        enabled: 1,
        // Keys from here on are given to no domain by the image maker.
        key: 5000 + u32::from(domain),
        verifying_key: 0,
        owner,
        expiry: expiry_in_date(random, phone.clock),
    });
}

#[cfg(test)]
mod tests {
    use super::*;

    #[test]
    fn every_way_breaks_its_rule_as_said() {
        for way in 0..count_of_ways() {
            for case in 0..5 {
                let mut random = Random::of_case(7, case * 100 + way as u64);
                let (_, image, wanted) = broken_image(&mut random, way);
                assert_eq!(first_broken(&image), Some(wanted));
            }
        }
    }
}
