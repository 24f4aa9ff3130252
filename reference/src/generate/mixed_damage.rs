//! Images damaged in one, two or three ways at once, or without plan, on phones of all sizes.
//!
//! Follows 02, "Say where an image is wrong" and "Roots have a date as well": what counts is which
//! rule and which record come first where several are broken. Whether the image is still accepted is
//! left to chance; it is where all that is wrong with a root is its date and nothing needs the root.

use super::damage::{self, Damage};
use super::events::{self, Style};
use super::images::{accepted_phone, any_expiry, any_operator, root_expiry, Shape};
use super::Case;
use crate::phone::{u16_at, Certificate, Executable, Header, Phone, LARGEST_IMAGE, ROOT};
use crate::random::Random;

use Damage::{Bytes, Field, Parts};

/// A damage of no rule in particular: one and the same may break several rules or none.
const OTHERS: [(&str, Damage); 25] = [
    ("certificate copied", Parts(copy_certificate)),
    ("certificates exchanged", Parts(exchange_certificates)),
    ("certificate freed", Parts(free_certificate)),
    ("certificate field copied", Parts(copy_certificate_field)),
    ("certificate moved to a card", Parts(move_to_card)),
    ("owner changed", Parts(change_owner)),
    ("mark changed", Parts(change_mark)),
    ("expiry changed", Parts(change_expiry)),
    ("clock changed", Parts(change_clock)),
    ("dates of roots changed", Parts(change_dates_of_roots)),
    ("old roots marked", Parts(mark_old_roots)),
    ("card copied", Parts(copy_card)),
    ("cards exchanged", Parts(exchange_cards)),
    ("operator changed", Parts(change_operator)),
    ("another card present", Parts(change_card_present)),
    ("executable copied", Parts(copy_executable)),
    ("executables exchanged", Parts(exchange_executables)),
    ("executable freed", Parts(free_executable)),
    ("executable's domain changed", Parts(change_domain)),
    ("count off by one", Field(count_off_by_one)),
    ("header fields hurt", Field(hurt_header)),
    ("records counted otherwise", Field(count_otherwise)),
    ("bytes hurt", Field(hurt_bytes)),
    ("noise", Field(noise)),
    ("image longer", Bytes(longer_image)),
];

const RULES: usize = 8;

/// Case `number` of the damaged ones of a seed.
pub fn case(seed: u64, number: u64) -> Case {
    let random = &mut Random::of_case(seed, number);
    let turn = (number / 4) as usize;
    match number % 4 {
        place @ 0..=2 => aimed(random, 3 * turn + place as usize),
        _ => unplanned(random, turn),
    }
}

fn any_shape(random: &mut Random) -> Shape {
    match random.weighted(&[30, 35, 20, 15]) {
        0 => Shape::few_slots(random),
        1 => Shape::roomy(random),
        2 => Shape::any(random),
        _ => Shape::many_slots(random),
    }
}

/// A way to break a rule, alone or with others of its rule, of a later one or of any.
/// The rules come in turn, and so do the ways of each.
fn aimed(random: &mut Random, turn: usize) -> Case {
    let rule = (turn % RULES + 1) as u8;
    let ways = damage::ways_of(rule);
    let mut rules = vec![rule];
    let mut all = vec![ways[turn / RULES % ways.len()]];
    for _ in 0..random.weighted(&[40, 35, 25]) {
        let another = another_rule(random, rule);
        let ways = damage::ways_of(another);
        rules.push(another);
        all.push(ways[random.below(ways.len())]);
    }
    let names: Vec<String> = rules.iter().map(|rule| format!("I{rule}")).collect();
    damaged_case(random, &format!("aimed at {}", names.join(", ")), &all)
}

/// A lower rule hides this one, so it is taken seldom.
fn another_rule(random: &mut Random, rule: u8) -> u8 {
    match random.weighted(&[50, 35, 15]) {
        0 => rule,
        1 => random.between(usize::from(rule), RULES) as u8,
        _ => random.between(1, RULES) as u8,
    }
}

/// One to three damages of no rule in particular.
fn unplanned(random: &mut Random, turn: usize) -> Case {
    let (name, first) = OTHERS[turn % OTHERS.len()];
    let mut names = vec![name];
    let mut all = vec![first];
    for _ in 0..random.weighted(&[50, 30, 20]) {
        let (name, another) = random.one_of(OTHERS);
        names.push(name);
        all.push(another);
    }
    damaged_case(random, &names.join(", "), &all)
}

/// The damages done to a phone, and some events behind it.
fn damaged_case(random: &mut Random, description: &str, all: &[Damage]) -> Case {
    let shape = any_shape(random);
    let phone = accepted_phone(random, shape);
    let mut stream = damaged_image(random, &phone, all);
    let is_cut = stream.len() < phone.encode().len();
    // Events behind a cut image fill it up: that is tried too, but seldom.
    let with_events = !is_cut || random.percent(20);
    if with_events {
        let count = random.below(6);
        stream.extend(events::stream(random, &phone, count, Style::Aimed));
    }
    Case {
        description: description.to_string(),
        stream,
    }
}

/// Records first, then header fields, then what moves or cuts the bytes.
fn damaged_image(random: &mut Random, phone: &Phone, all: &[Damage]) -> Vec<u8> {
    let mut parts = phone.clone();
    for damage in all {
        if let Parts(damage) = damage {
            damage(random, &mut parts);
        }
    }
    let mut image = parts.encode();
    for damage in all {
        if let Field(damage) = damage {
            damage(random, &mut image);
        }
    }
    for damage in all {
        if let Bytes(damage) = damage {
            damage(random, &mut image);
        }
    }
    image
}

// Damage to the records.

/// Puts the record of one occupied slot over any other slot.
fn copy_slot<T: Copy>(random: &mut Random, slots: &mut [Option<T>]) {
    let from = random.choose(&damage::occupied_places(slots));
    let to = random.below(slots.len());
    if let Some(from) = from {
        slots[to] = slots[from];
    }
}

/// Exchanges two slots; where nothing depends on the order, that is harmless.
fn exchange<T>(random: &mut Random, slots: &mut [T]) {
    if !slots.is_empty() {
        let (one, other) = damage::two_places(random, slots.len());
        slots.swap(one, other);
    }
}

fn free_slot<T>(random: &mut Random, slots: &mut [Option<T>]) {
    if let Some(at) = random.choose(&damage::occupied_places(slots)) {
        slots[at] = None;
    }
}

fn any_certificate(phone: &Phone, random: &mut Random) -> Option<Certificate> {
    let records: Vec<Certificate> = phone.occupied_certificates().copied().collect();
    random.choose(&records)
}

fn change_certificate(random: &mut Random, phone: &mut Phone, change: impl Fn(&mut Certificate)) {
    damage::change_one_of(random, phone, |_| true, change);
}

fn copy_certificate(random: &mut Random, phone: &mut Phone) {
    copy_slot(random, &mut phone.certificates);
}

fn exchange_certificates(random: &mut Random, phone: &mut Phone) {
    exchange(random, &mut phone.certificates);
}

fn free_certificate(random: &mut Random, phone: &mut Phone) {
    free_slot(random, &mut phone.certificates);
}

fn copy_certificate_field(random: &mut Random, phone: &mut Phone) {
    let Some(from) = any_certificate(phone, random) else {
        return;
    };
    let field = random.below(9);
    change_certificate(random, phone, |c| match field {
        0 => c.id = from.id,
        1 => c.place = from.place,
        2 => c.kind = from.kind,
        3 => c.domain = from.domain,
        4 => c.mark = from.mark,
        5 => c.key = from.key,
        6 => c.verifying_key = from.verifying_key,
        7 => c.owner = from.owner,
        _ => c.expiry = from.expiry,
    });
}

fn move_to_card(random: &mut Random, phone: &mut Phone) {
    let place = damage::any_card(random, phone).number;
    change_certificate(random, phone, |c| c.place = place);
}

fn change_owner(random: &mut Random, phone: &mut Phone) {
    let owner = any_operator(random);
    change_certificate(random, phone, |c| c.owner = owner);
}

fn change_mark(random: &mut Random, phone: &mut Phone) {
    change_certificate(random, phone, |c| c.mark ^= 1);
}

fn change_expiry(random: &mut Random, phone: &mut Phone) {
    let expiry = any_expiry(random, phone.clock);
    change_certificate(random, phone, |c| c.expiry = expiry);
}

/// To the date of a record, one second on, or one back.
fn change_clock(random: &mut Random, phone: &mut Phone) {
    let expiry = any_certificate(phone, random).map_or(phone.clock, |c| c.expiry);
    phone.clock = match random.below(3) {
        0 => expiry,
        1 => expiry.saturating_add(1),
        _ => phone.clock.saturating_sub(1),
    };
}

/// About half of them get another, on either side of the clock.
fn change_dates_of_roots(random: &mut Random, phone: &mut Phone) {
    let clock = phone.clock;
    for root in phone.certificates.iter_mut().flatten() {
        if root.kind == ROOT && random.percent(50) {
            root.expiry = root_expiry(random, clock);
        }
    }
}

/// A mark on a root that is past its date breaks no rule, however many there are.
fn mark_old_roots(random: &mut Random, phone: &mut Phone) {
    let clock = phone.clock;
    for root in phone.certificates.iter_mut().flatten() {
        if root.kind == ROOT && !root.is_in_date(clock) && random.percent(80) {
            root.mark = 1;
        }
    }
}

fn copy_card(random: &mut Random, phone: &mut Phone) {
    if !phone.cards.is_empty() {
        let (from, to) = damage::two_places(random, phone.cards.len());
        phone.cards[to] = phone.cards[from];
    }
}

fn exchange_cards(random: &mut Random, phone: &mut Phone) {
    exchange(random, &mut phone.cards);
}

fn change_operator(random: &mut Random, phone: &mut Phone) {
    let at = random.below(phone.cards.len());
    let operator = any_operator(random);
    if let Some(card) = phone.cards.get_mut(at) {
        card.operator = operator;
    }
}

fn change_card_present(random: &mut Random, phone: &mut Phone) {
    let card = damage::any_card(random, phone).number;
    phone.card_present = random.one_of([0, card, card, card]);
}

fn copy_executable(random: &mut Random, phone: &mut Phone) {
    copy_slot(random, &mut phone.executables);
}

fn exchange_executables(random: &mut Random, phone: &mut Phone) {
    exchange(random, &mut phone.executables);
}

fn free_executable(random: &mut Random, phone: &mut Phone) {
    free_slot(random, &mut phone.executables);
}

fn change_domain(random: &mut Random, phone: &mut Phone) {
    let domain = random.below(4) as u8;
    if let Some(at) = random.choose(&damage::occupied_places(&phone.executables)) {
        phone.executables[at] = phone.executables[at].map(|e| Executable { domain, ..e });
    }
}

// Damage to the bytes.

/// A count stays in its range but no longer fits the offsets.
fn count_off_by_one(random: &mut Random, image: &mut [u8]) {
    let at = random.one_of([2, 4, 6, 8]);
    let count = u16_at(image, at);
    let wrong = [count.wrapping_add(1), count.wrapping_sub(1)];
    damage::put_u16(image, at, random.one_of(wrong));
}

fn hurt_header(random: &mut Random, image: &mut [u8]) {
    for _ in 0..random.between(1, 4) {
        let at = random.below(Header::SIZE);
        let any = random.u8();
        image[at] = random.one_of([0, 1, 2, 9, 33, 65, 255, any]);
    }
}

/// So many certificates, cards, executables and actions more or fewer make the same length.
const SAME_LENGTH: [[i32; 4]; 6] = [
    [-1, 3, 0, 0],
    [-1, 0, 2, 0],
    [1, 0, -2, 0],
    [1, -3, 0, 0],
    [0, 0, -1, 3],
    [0, -1, 0, 2],
];

/// The header is one that fits, but of other tables: the records are read as something else.
fn count_otherwise(random: &mut Random, image: &mut [u8]) {
    const SIZES: [u32; 4] = [24, 8, 12, 4];
    let changes = random.one_of(SAME_LENGTH);
    let mut end = Header::SIZE as u32;
    for (table, (change, size)) in changes.iter().zip(SIZES).enumerate() {
        let (count_at, offset_at) = (2 + 2 * table, 20 + 4 * table);
        let count = i32::from(u16_at(image, count_at)) + change;
        // A table that has too few keeps what it has, and the total is off.
        let count = count.max(0) as u16;
        damage::put_u16(image, count_at, count);
        damage::put_u32(image, offset_at, end);
        end += u32::from(count) * size;
    }
    damage::put_u32(image, 36, end);
}

/// Some bytes of records and table, or a row of them.
fn hurt_bytes(random: &mut Random, image: &mut [u8]) {
    let last = image.len() - 1;
    let count = random.one_of([1, 1, 2, 3, 30]);
    for _ in 0..count {
        let at = random.between(Header::SIZE.min(last), last);
        let any = random.u8();
        image[at] = random.one_of([0, 1, 2, 3, 4, 255, any]);
    }
}

/// Noise from some byte on, the first one now and then.
fn noise(random: &mut Random, image: &mut [u8]) {
    let any = random.below(image.len());
    let start = random.one_of([0, Header::SIZE, any]);
    for byte in &mut image[start..] {
        *byte = random.u8();
    }
}

/// Bytes behind the image that its total names or does not.
fn longer_image(random: &mut Random, image: &mut Vec<u8>) {
    let count = random.one_of([1, 4, 8, 12, 24, LARGEST_IMAGE]);
    let bytes = match random.percent(50) {
        true => vec![0; count],
        false => random.bytes(count),
    };
    image.extend(bytes);
    if random.percent(60) && image.len() >= Header::SIZE {
        let total = image.len() as u32;
        damage::put_u32(image, 36, total);
    }
}
