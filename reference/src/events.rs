//! Events: the record, the codes 2 to 18 as one ordered list of tests, and the effects.
//!
//! Follows 01, "Events" and "What an event is told", and 02 for what goes with code 1, for recovery
//! keys, for the dates of roots and for who an operator is. Each test says when its code applies; the
//! answer is the lowest that applies. A test whose record is missing does not apply.

use crate::chain::Trust;
use crate::phone::{
    permission_bit, u16_at, u32_at, Certificate, Executable, Phone, DISABLE_ALL, ENABLE_ALL,
    ENABLE_LISTED, ISSUED, MANUFACTURER, OPERATOR, RECOVERY, ROOT, THIRD_PARTY,
};
use crate::refusal::{open, Refusal};

pub const CLOCK: u8 = 1;
pub const CARD_IN: u8 = 2;
pub const CARD_OUT: u8 = 3;
pub const POWER_UP: u8 = 4;
pub const INSTALL_CERTIFICATE: u8 = 5;
pub const DELETE_CERTIFICATE: u8 = 6;
pub const MARK_VALID: u8 = 7;
pub const MARK_INVALID: u8 = 8;
pub const CONFIGURATION: u8 = 9;
pub const INSTALL_EXECUTABLE: u8 = 10;
pub const DELETE_EXECUTABLE: u8 = 11;
pub const VERIFY: u8 = 12;
pub const GIVE: u8 = 13;
pub const WITHDRAW: u8 = 14;
pub const REQUEST: u8 = 15;
pub const REPLACE: u8 = 16;
/// Kinds go from 1 to this one.
pub const LAST_KIND: u8 = REPLACE;

/// Codes go from 0 to this one.
pub const LAST_CODE: u8 = 18;

pub const DEVICE: u8 = 0;
pub const USER: u8 = 1;
pub const OPERATOR_ACTOR: u8 = 2;
pub const MANUFACTURER_ACTOR: u8 = 3;
pub const ADMINISTRATOR: u8 = 4;

/// The most ids that a configuration message can list.
pub const MOST_LISTED: u8 = 8;

/// What an event is told.
#[derive(Clone, Copy, Debug, PartialEq, Eq)]
pub struct Answer {
    pub code: u8,
    pub domain: u8,
    pub links: u8,
    /// The first broken rule of a refused image; 0 for every other code than 1.
    pub rule: u8,
    /// Where the image breaks that rule; 0 for every other code than 1.
    pub offset: usize,
}

impl Answer {
    const DONE: Answer = Answer {
        code: 0,
        domain: 0,
        links: 0,
        rule: 0,
        offset: 0,
    };

    fn refused(code: u8) -> Answer {
        Answer {
            code,
            ..Answer::DONE
        }
    }

    fn of_bad_image(refusal: &Refusal) -> Answer {
        Answer {
            code: 1,
            rule: refusal.broken.rule,
            offset: refusal.offset,
            ..Answer::DONE
        }
    }
}

/// One event record of 24 bytes.
#[derive(Clone, Copy, Debug, PartialEq, Eq, Default)]
pub struct Event {
    pub kind: u8,
    pub actor: u8,
    pub id: u16,
    pub second: u16,
    pub third: u8,
    pub fourth: u8,
    pub key: u32,
    pub verifying_key: u32,
    pub owner: u32,
    pub expiry: u32,
}

impl Event {
    pub const SIZE: usize = 24;

    /// The record, or nothing where there are not exactly 24 bytes.
    pub fn decode(bytes: &[u8]) -> Option<Event> {
        if bytes.len() != Event::SIZE {
            return None;
        }
        Some(Event {
            kind: bytes[0],
            actor: bytes[1],
            id: u16_at(bytes, 2),
            second: u16_at(bytes, 4),
            third: bytes[6],
            fourth: bytes[7],
            key: u32_at(bytes, 8),
            verifying_key: u32_at(bytes, 12),
            owner: u32_at(bytes, 16),
            expiry: u32_at(bytes, 20),
        })
    }

    pub fn encode(&self) -> Vec<u8> {
        let mut out = Vec::with_capacity(Event::SIZE);
        out.extend([self.kind, self.actor]);
        out.extend(self.id.to_be_bytes());
        out.extend(self.second.to_be_bytes());
        out.extend([self.third, self.fourth]);
        for word in [self.key, self.verifying_key, self.owner, self.expiry] {
            out.extend(word.to_be_bytes());
        }
        out
    }

    /// The eight u16 from byte 8, where a configuration message keeps its list.
    pub fn list_places(&self) -> [u16; MOST_LISTED as usize] {
        let mut places = [0; MOST_LISTED as usize];
        let words = [self.key, self.verifying_key, self.owner, self.expiry];
        for (at, word) in words.iter().enumerate() {
            places[2 * at] = (word >> 16) as u16;
            places[2 * at + 1] = *word as u16;
        }
        places
    }

    /// Puts ids into the list's places; the others become 0.
    pub fn set_list_places(&mut self, ids: &[u16]) {
        let at = |n: usize| u32::from(ids.get(n).copied().unwrap_or(0));
        self.key = at(0) << 16 | at(1);
        self.verifying_key = at(2) << 16 | at(3);
        self.owner = at(4) << 16 | at(5);
        self.expiry = at(6) << 16 | at(7);
    }

    /// Whether the owner field says who acts: where an operator or a manufacturer deletes or marks.
    /// In an install and in a replace it is the owner that a record gets.
    pub fn names_who_acts(&self) -> bool {
        deletes_or_marks(self.kind) && matches!(self.actor, OPERATOR_ACTOR | MANUFACTURER_ACTOR)
    }

    /// The ids that the message lists.
    fn listed(&self) -> Vec<u16> {
        let count = usize::from(self.fourth.min(MOST_LISTED));
        self.list_places()[..count].to_vec()
    }
}

/// The kinds that are about one certificate that is there already, and leave its fields alone.
pub fn deletes_or_marks(kind: u8) -> bool {
    matches!(kind, DELETE_CERTIFICATE | MARK_VALID | MARK_INVALID)
}

/// One event on an image. Code 1 wins over everything; other refusals leave the image alone.
pub fn step_image(image: &mut Vec<u8>, event: &[u8]) -> Answer {
    let mut phone = match open(image) {
        Ok(phone) => phone,
        Err(refusal) => return Answer::of_bad_image(&refusal),
    };
    let answer = step(&mut phone, event);
    *image = phone.encode();
    answer
}

/// One event on a phone whose image is accepted.
pub fn step(phone: &mut Phone, event: &[u8]) -> Answer {
    let Some(event) = Event::decode(event) else {
        return Answer::refused(2);
    };
    match code_of(phone, &event) {
        0 => {
            take_effect(phone, &event);
            settle(phone);
            tell(phone, &event)
        }
        code => Answer::refused(code),
    }
}

/// Whether a code applies to an event in a state.
type Test = fn(&Phone, &Event) -> bool;

/// The lowest code that applies to a record of 24 bytes; 0 where none does.
pub fn code_of(phone: &Phone, event: &Event) -> u8 {
    let tests: [(u8, Test); LAST_CODE as usize - 1] = [
        (2, is_out_of_form),
        (3, names_unknown_id),
        (4, is_by_wrong_actor_or_owner),
        (5, turns_clock_back),
        (6, names_unknown_card),
        (7, finds_card_slot_wrong),
        (8, touches_absent_card),
        (9, installs_taken_id),
        (10, brings_key_of_another_domain),
        (11, meets_another_operator),
        (12, is_about_no_fitting_root),
        (13, marks_second_valid_root),
        (14, finds_no_free_slot),
        (15, asks_for_what_never_is),
        (16, asks_without_permission),
        (17, has_no_fitting_recovery_key),
        (18, makes_valid_what_is_past_its_date),
    ];
    tests
        .iter()
        .find(|(_, applies)| applies(phone, event))
        .map_or(0, |&(code, _)| code)
}

/// Code 2, but for the length.
fn is_out_of_form(phone: &Phone, event: &Event) -> bool {
    if !(CLOCK..=LAST_KIND).contains(&event.kind) || event.actor > ADMINISTRATOR {
        return true;
    }
    if *event != only_used_fields(event) {
        return true;
    }
    match event.kind {
        CARD_IN => event.second == 0,
        INSTALL_CERTIFICATE => !is_certificate_in_range(event),
        CONFIGURATION => !is_message_in_range(event),
        DELETE_CERTIFICATE | MARK_VALID | MARK_INVALID => event.id == 0,
        INSTALL_EXECUTABLE | DELETE_EXECUTABLE | VERIFY => event.id == 0,
        GIVE | WITHDRAW | REQUEST => {
            event.id == 0 || usize::from(event.second) >= phone.table.len()
        }
        REPLACE => event.id == 0 || event.second == 0 || event.key == 0,
        _ => false,
    }
}

/// The same event with every field that its kind does not name set to 0.
fn only_used_fields(event: &Event) -> Event {
    let named = Event {
        kind: event.kind,
        actor: event.actor,
        ..Event::default()
    };
    match event.kind {
        CLOCK => Event {
            key: event.key,
            ..named
        },
        CARD_IN | POWER_UP => Event {
            second: event.second,
            ..named
        },
        INSTALL_CERTIFICATE => *event,
        // Every other actor is nobody in particular and leaves the owner 0.
        DELETE_CERTIFICATE | MARK_VALID | MARK_INVALID if event.names_who_acts() => Event {
            id: event.id,
            owner: event.owner,
            ..named
        },
        DELETE_CERTIFICATE | MARK_VALID | MARK_INVALID | DELETE_EXECUTABLE | VERIFY => Event {
            id: event.id,
            ..named
        },
        // The list's own unused places are looked at with its ranges.
        CONFIGURATION => Event {
            id: 0,
            second: 0,
            ..*event
        },
        INSTALL_EXECUTABLE => Event {
            id: event.id,
            key: event.key,
            ..named
        },
        GIVE | WITHDRAW | REQUEST => Event {
            id: event.id,
            second: event.second,
            ..named
        },
        REPLACE => Event {
            third: 0,
            fourth: 0,
            ..*event
        },
        _ => named,
    }
}

/// The ranges of I2 for a certificate to install, those across fields too.
fn is_certificate_in_range(event: &Event) -> bool {
    let fits_its_kind = match event.third {
        ROOT => event.verifying_key == 0 && (event.fourth != MANUFACTURER || event.second == 0),
        ISSUED => event.verifying_key != 0,
        RECOVERY => event.verifying_key == 0 && event.fourth != THIRD_PARTY && event.second == 0,
        _ => false,
    };
    event.id != 0 && event.key != 0 && (1..=3).contains(&event.fourth) && fits_its_kind
}

fn is_message_in_range(event: &Event) -> bool {
    if event.third > ENABLE_LISTED || event.fourth > MOST_LISTED {
        return false;
    }
    if event.fourth != 0 && event.third != ENABLE_LISTED {
        return false;
    }
    let count = usize::from(event.fourth);
    let places = event.list_places();
    places[..count].iter().all(|&id| id != 0) && places[count..].iter().all(|&id| id == 0)
}

/// Code 3.
fn names_unknown_id(phone: &Phone, event: &Event) -> bool {
    match event.kind {
        DELETE_CERTIFICATE | MARK_VALID | MARK_INVALID => phone.certificate(event.id).is_none(),
        DELETE_EXECUTABLE | VERIFY | GIVE | WITHDRAW | REQUEST => {
            phone.executable(event.id).is_none()
        }
        CONFIGURATION => event
            .listed()
            .iter()
            .any(|&id| phone.certificate(id).is_none()),
        REPLACE => [event.id, event.second]
            .iter()
            .any(|&id| phone.certificate(id).is_none()),
        _ => false,
    }
}

/// Code 4.
fn is_by_wrong_actor_or_owner(phone: &Phone, event: &Event) -> bool {
    is_by_wrong_actor(phone, event) || is_by_wrong_owner(phone, event)
}

/// The right sort of actor, but another one of the sort than the certificate's owner.
fn is_by_wrong_owner(phone: &Phone, event: &Event) -> bool {
    event.names_who_acts()
        && phone
            .certificate(event.id)
            .is_some_and(|record| record.owner != event.owner)
}

fn is_by_wrong_actor(phone: &Phone, event: &Event) -> bool {
    let domain = match event.kind {
        INSTALL_CERTIFICATE => event.fourth,
        DELETE_CERTIFICATE | MARK_VALID | MARK_INVALID => match phone.certificate(event.id) {
            Some(record) => record.domain,
            None => return false,
        },
        REPLACE => match replaced_and_recovery(phone, event) {
            // A third party record as the second one leaves it to nobody, too.
            Some((_, recovery)) if recovery.domain == THIRD_PARTY => THIRD_PARTY,
            Some((replaced, _)) => replaced.domain,
            None => return false,
        },
        _ => 0,
    };
    !allowed_actors(event.kind, domain).contains(&event.actor)
}

/// The two records that a replace names, where both are there.
fn replaced_and_recovery<'a>(
    phone: &'a Phone,
    event: &Event,
) -> Option<(&'a Certificate, &'a Certificate)> {
    let replaced = phone.certificate(event.id)?;
    let recovery = phone.certificate(event.second)?;
    Some((replaced, recovery))
}

/// Who may act. The domain counts for kinds 5 to 8 and 16 only.
pub fn allowed_actors(kind: u8, domain: u8) -> &'static [u8] {
    const ANYONE_BUT_THE_DEVICE: &[u8] = &[USER, OPERATOR_ACTOR, MANUFACTURER_ACTOR, ADMINISTRATOR];
    match (kind, domain) {
        (CLOCK | CARD_IN | CARD_OUT | POWER_UP | VERIFY | REQUEST, _) => &[DEVICE],
        (GIVE | WITHDRAW, _) => &[USER],
        (CONFIGURATION, _) => &[ADMINISTRATOR],
        (INSTALL_EXECUTABLE | DELETE_EXECUTABLE, _) => ANYONE_BUT_THE_DEVICE,
        (INSTALL_CERTIFICATE..=MARK_INVALID, OPERATOR) => &[OPERATOR_ACTOR],
        (INSTALL_CERTIFICATE..=MARK_INVALID, MANUFACTURER) => &[MANUFACTURER_ACTOR],
        (INSTALL_CERTIFICATE, THIRD_PARTY) => ANYONE_BUT_THE_DEVICE,
        (DELETE_CERTIFICATE, THIRD_PARTY) => &[USER, ADMINISTRATOR],
        (MARK_VALID | MARK_INVALID, THIRD_PARTY) => &[ADMINISTRATOR],
        (REPLACE, OPERATOR) => &[OPERATOR_ACTOR],
        (REPLACE, MANUFACTURER) => &[MANUFACTURER_ACTOR],
        _ => &[],
    }
}

/// Code 5. The same time again is done.
fn turns_clock_back(phone: &Phone, event: &Event) -> bool {
    event.kind == CLOCK && event.key < phone.clock
}

/// Code 6.
fn names_unknown_card(phone: &Phone, event: &Event) -> bool {
    matches!(event.kind, CARD_IN | POWER_UP | INSTALL_CERTIFICATE)
        && event.second != 0
        && phone.card(event.second).is_none()
}

/// Code 7.
fn finds_card_slot_wrong(phone: &Phone, event: &Event) -> bool {
    match event.kind {
        CARD_IN => phone.card_present != 0,
        CARD_OUT => phone.card_present == 0,
        _ => false,
    }
}

/// Code 8.
fn touches_absent_card(phone: &Phone, event: &Event) -> bool {
    match event.kind {
        INSTALL_CERTIFICATE => !phone.is_present(event.second),
        // Of a replace the first record alone counts.
        DELETE_CERTIFICATE | MARK_VALID | MARK_INVALID | REPLACE => phone
            .certificate(event.id)
            .is_some_and(|record| !phone.is_present(record.place)),
        _ => false,
    }
}

/// Code 9.
fn installs_taken_id(phone: &Phone, event: &Event) -> bool {
    match event.kind {
        INSTALL_CERTIFICATE => phone.certificate(event.id).is_some(),
        INSTALL_EXECUTABLE => phone.executable(event.id).is_some(),
        _ => false,
    }
}

/// Code 10. Records on absent cards count too.
fn brings_key_of_another_domain(phone: &Phone, event: &Event) -> bool {
    let domain = match event.kind {
        INSTALL_CERTIFICATE => event.fourth,
        REPLACE => match phone.certificate(event.id) {
            Some(record) => record.domain,
            None => return false,
        },
        _ => return false,
    };
    phone
        .occupied_certificates()
        .any(|record| record.key == event.key && record.domain != domain)
}

/// Code 11.
fn meets_another_operator(phone: &Phone, event: &Event) -> bool {
    match event.kind {
        INSTALL_CERTIFICATE => {
            let is_operator_root = event.third == ROOT && event.fourth == OPERATOR;
            let card = match event.second {
                0 => None,
                place => phone.card(place),
            };
            is_operator_root && card.is_some_and(|card| card.operator != event.owner)
        }
        // A replace goes by the owner that the root has before it.
        MARK_VALID | REPLACE => match (phone.certificate(event.id), phone.present_card()) {
            (Some(record), Some(card)) => {
                record.is_root_of(OPERATOR) && record.place == 0 && record.owner != card.operator
            }
            _ => false,
        },
        _ => false,
    }
}

/// Code 12.
fn is_about_no_fitting_root(phone: &Phone, event: &Event) -> bool {
    match event.kind {
        MARK_VALID | MARK_INVALID | REPLACE => phone
            .certificate(event.id)
            .is_some_and(|record| record.kind != ROOT),
        CONFIGURATION => event
            .listed()
            .iter()
            .filter_map(|&id| phone.certificate(id))
            .any(|record| !record.is_root_of(THIRD_PARTY)),
        _ => false,
    }
}

/// Code 13. Another root that is past its date stands in nobody's way.
fn marks_second_valid_root(phone: &Phone, event: &Event) -> bool {
    if !matches!(event.kind, MARK_VALID | REPLACE) {
        return false;
    }
    let Some(record) = phone.certificate(event.id) else {
        return false;
    };
    if record.kind != ROOT {
        return false;
    }
    phone
        .occupied_certificates()
        .filter(|other| other.id != record.id)
        .filter(|other| other.is_valid_root_of(record.domain, phone.clock))
        .any(|other| match (record.domain, record.place) {
            (MANUFACTURER, _) => true,
            (OPERATOR, 0) => phone.is_present(other.place),
            (OPERATOR, place) => other.place == place,
            _ => false,
        })
}

/// Code 14.
fn finds_no_free_slot(phone: &Phone, event: &Event) -> bool {
    match event.kind {
        INSTALL_CERTIFICATE => phone.certificates.iter().all(Option::is_some),
        INSTALL_EXECUTABLE => phone.executables.iter().all(Option::is_some),
        _ => false,
    }
}

/// The table byte that a request meets, and whether the user's permission is there.
fn request_terms(phone: &Phone, event: &Event) -> Option<(u8, bool)> {
    if event.kind != REQUEST {
        return None;
    }
    let record = phone.executable(event.id)?;
    let row = phone.table.get(usize::from(event.second))?;
    let byte = row.get(usize::from(record.domain))?;
    Some((*byte, record.has_permission(event.second)))
}

/// Code 15. A permission does not lift it.
fn asks_for_what_never_is(phone: &Phone, event: &Event) -> bool {
    matches!(request_terms(phone, event), Some((0, _)))
}

/// Code 16.
fn asks_without_permission(phone: &Phone, event: &Event) -> bool {
    matches!(request_terms(phone, event), Some((1, false)))
}

/// Code 17. The date of the recovery record is never looked at.
fn has_no_fitting_recovery_key(phone: &Phone, event: &Event) -> bool {
    if event.kind != REPLACE {
        return false;
    }
    let Some((replaced, recovery)) = replaced_and_recovery(phone, event) else {
        return false;
    };
    recovery.kind != RECOVERY
        || replaced.place != 0
        || recovery.place != 0
        || replaced.domain != recovery.domain
        || replaced.owner != recovery.owner
        || replaced.owner != event.owner
        || event.verifying_key != recovery.key
}

/// Code 18. A mark leaves a root the date that it has; a replace brings another.
fn makes_valid_what_is_past_its_date(phone: &Phone, event: &Event) -> bool {
    let expiry = match event.kind {
        MARK_VALID => match phone.certificate(event.id) {
            Some(record) if record.kind == ROOT => record.expiry,
            _ => return false,
        },
        REPLACE => event.expiry,
        _ => return false,
    };
    expiry < phone.clock
}

/// The effect of an event that no code refuses.
fn take_effect(phone: &mut Phone, event: &Event) {
    match event.kind {
        // Marks stay as they are, whichever dates pass.
        CLOCK => phone.clock = event.key,
        CARD_IN | POWER_UP => {
            phone.card_present = event.second;
            apply_card_rule(phone);
        }
        // The card leaves; whatever its coming marked invalid stays so.
        CARD_OUT => phone.card_present = 0,
        INSTALL_CERTIFICATE => install_certificate(phone, event),
        DELETE_CERTIFICATE => free_slot(&mut phone.certificates, |c| c.id == event.id),
        MARK_VALID => mark_valid(phone, event.id),
        MARK_INVALID => set_mark(phone, event.id, 0),
        CONFIGURATION => configure(phone, event),
        INSTALL_EXECUTABLE => install_executable(phone, event),
        DELETE_EXECUTABLE => free_slot(&mut phone.executables, |e| e.id == event.id),
        VERIFY => verify(phone, event.id),
        GIVE => change_permissions(phone, event, |held, bit| held | bit),
        WITHDRAW => change_permissions(phone, event, |held, bit| held & !bit),
        REPLACE => replace(phone, event),
        _ => {}
    }
}

/// What a card that has just come asks of the operator roots on the phone. Whether the card has a
/// valid one goes by its date; on the phone every mark is touched, those past their date too.
fn apply_card_rule(phone: &mut Phone) {
    let Some(card) = phone.present_card().copied() else {
        return;
    };
    let card_has_valid_root = phone
        .occupied_certificates()
        .any(|c| c.is_valid_root_of(OPERATOR, phone.clock) && c.place == card.number);
    for root in operator_roots_on_phone(phone) {
        if card_has_valid_root || root.owner != card.operator {
            root.mark = 0;
        }
    }
}

fn operator_roots_on_phone(phone: &mut Phone) -> impl Iterator<Item = &mut Certificate> {
    phone
        .certificates
        .iter_mut()
        .flatten()
        .filter(|c| c.is_root_of(OPERATOR) && c.place == 0)
}

fn install_certificate(phone: &mut Phone, event: &Event) {
    let (mark, enabled) = match (event.third, event.fourth) {
        (ROOT, THIRD_PARTY) => (1, u8::from(phone.mode == u16::from(ENABLE_ALL))),
        (ROOT | RECOVERY, _) => (0, 1),
        (ISSUED, _) => (1, 1),
        // Code 2 lets no other kind come so far.
        _ => return,
    };
    let record = Certificate {
        id: event.id,
        place: event.second,
        kind: event.third,
        domain: event.fourth,
        mark,
        enabled,
        key: event.key,
        verifying_key: event.verifying_key,
        owner: event.owner,
        expiry: event.expiry,
    };
    fill_lowest_free_slot(&mut phone.certificates, record);
}

fn install_executable(phone: &mut Phone, event: &Event) {
    let record = Executable {
        id: event.id,
        domain: 0,
        zero: 0,
        signing_key: event.key,
        permissions: 0,
    };
    fill_lowest_free_slot(&mut phone.executables, record);
}

fn fill_lowest_free_slot<T>(slots: &mut [Option<T>], record: T) {
    if let Some(slot) = slots.iter_mut().find(|slot| slot.is_none()) {
        *slot = Some(record);
    }
}

fn free_slot<T>(slots: &mut [Option<T>], is_meant: impl Fn(&T) -> bool) {
    for slot in slots {
        if slot.as_ref().is_some_and(&is_meant) {
            *slot = None;
        }
    }
}

fn set_mark(phone: &mut Phone, id: u16, mark: u8) {
    for record in phone.certificates.iter_mut().flatten() {
        if record.id == id {
            record.mark = mark;
        }
    }
}

/// A card's operator root that becomes valid takes the place of all on the phone.
fn mark_valid(phone: &mut Phone, id: u16) {
    let is_cards_operator_root = phone
        .certificate(id)
        .is_some_and(|c| c.is_root_of(OPERATOR) && c.place != 0);
    if is_cards_operator_root {
        for root in operator_roots_on_phone(phone) {
            root.mark = 0;
        }
    }
    set_mark(phone, id, 1);
}

/// The root stays what and where it is, with another key, owner and date, and is marked valid.
fn replace(phone: &mut Phone, event: &Event) {
    for record in phone.certificates.iter_mut().flatten() {
        if record.id == event.id {
            record.key = event.key;
            record.owner = event.owner;
            record.expiry = event.expiry;
            record.mark = 1;
        }
    }
}

/// The configuration message: all third party roots, present or not.
fn configure(phone: &mut Phone, event: &Event) {
    let listed = event.listed();
    phone.mode = u16::from(event.third);
    for root in phone.certificates.iter_mut().flatten() {
        if root.is_root_of(THIRD_PARTY) {
            root.enabled = match event.third {
                DISABLE_ALL => 0,
                ENABLE_ALL => 1,
                _ => u8::from(listed.contains(&root.id)),
            };
        }
    }
}

fn verify(phone: &mut Phone, id: u16) {
    let Some(record) = phone.executable(id) else {
        return;
    };
    let domain = match Trust::of(phone).chain_of(record.signing_key) {
        Some(chain) => chain.domain,
        None => 0,
    };
    for record in phone.executables.iter_mut().flatten() {
        if record.id == id {
            record.domain = domain;
        }
    }
}

fn change_permissions(phone: &mut Phone, event: &Event, change: fn(u32, u32) -> u32) {
    for record in phone.executables.iter_mut().flatten() {
        if record.id == event.id {
            record.permissions = change(record.permissions, permission_bit(event.second));
        }
    }
}

/// After every accepted event: a domain that is no longer chained to is lost.
fn settle(phone: &mut Phone) {
    let trust = Trust::of(phone);
    let domains: Vec<u8> = phone
        .executables
        .iter()
        .map(|slot| match slot {
            Some(e) if trust.links_to(e.signing_key, e.domain) > 0 => e.domain,
            _ => 0,
        })
        .collect();
    for (slot, domain) in phone.executables.iter_mut().zip(domains) {
        if let Some(record) = slot {
            record.domain = domain;
        }
    }
}

/// The answer of an event that was done: only verify and request tell domain and links.
fn tell(phone: &Phone, event: &Event) -> Answer {
    if !matches!(event.kind, VERIFY | REQUEST) {
        return Answer::DONE;
    }
    let Some(record) = phone.executable(event.id) else {
        return Answer::DONE;
    };
    Answer {
        domain: record.domain,
        links: match record.domain {
            0 => 0,
            domain => Trust::of(phone).links_to(record.signing_key, domain),
        },
        ..Answer::DONE
    }
}
