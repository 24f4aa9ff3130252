//! Events chosen by looking at the state they meet, so that the deeper codes occur often.
//!
//! Follows 01, "Events" and "What an event is told", and 02, "Recovery keys", "Roots have a date as
//! well" and "An operator is somebody in particular". For each event a kind and a code are aimed at;
//! of several fitting events the first with that code is taken. The aim only steers what is tried:
//! what the answer has to be is said by `events` alone.

use super::images::{any_expiry, any_operator, expiry_in_date, key_at_distance};
use super::replacements;
use crate::chain::Trust;
use crate::events::*;
use crate::phone::{
    Certificate, Executable, Phone, ENABLE_LISTED, ISSUED, LAST_CERTIFICATE_KIND, MANUFACTURER,
    OPERATOR, RECOVERY, ROOT, THIRD_PARTY,
};
use crate::random::Random;

/// How often each kind is chosen, from kind 1 on.
const KIND_WEIGHTS: [usize; LAST_KIND as usize] =
    [5, 6, 3, 5, 14, 5, 12, 4, 6, 7, 3, 14, 6, 4, 16, 14];

/// How many candidates are tried for an aim before any is taken.
const TRIES: usize = 14;

/// What the events of one stream are like.
#[derive(Clone, Copy, Debug, PartialEq, Eq)]
pub enum Style {
    /// Most events have at most one fault.
    Aimed,
    /// Several fields are hurt at once.
    SeveralFaults,
    /// Bytes without plan, most with a kind that exists.
    Noise,
}

/// The codes that a kind can give, beside 1.
pub fn codes_of(kind: u8) -> &'static [u8] {
    match kind {
        CLOCK => &[0, 2, 4, 5],
        CARD_IN => &[0, 2, 4, 6, 7],
        CARD_OUT => &[0, 2, 4, 7],
        POWER_UP => &[0, 2, 4, 6],
        INSTALL_CERTIFICATE => &[0, 2, 4, 6, 8, 9, 10, 11, 14],
        DELETE_CERTIFICATE => &[0, 2, 3, 4, 8],
        MARK_VALID => &[0, 2, 3, 4, 8, 11, 12, 13, 18],
        MARK_INVALID => &[0, 2, 3, 4, 8, 12],
        CONFIGURATION => &[0, 2, 3, 4, 12],
        INSTALL_EXECUTABLE => &[0, 2, 4, 9, 14],
        REQUEST => &[0, 2, 3, 4, 15, 16],
        REPLACE => &[0, 2, 3, 4, 8, 10, 11, 12, 13, 17, 18],
        DELETE_EXECUTABLE | VERIFY | GIVE | WITHDRAW => &[0, 2, 3, 4],
        _ => &[2],
    }
}

/// A stream of so many events that starts at this state, now and then with a short last record.
pub fn stream(random: &mut Random, start: &Phone, count: usize, style: Style) -> Vec<u8> {
    let mut phone = start.clone();
    let mut out = Vec::new();
    if count > 0 && style != Style::Noise && has_outlived_mark(start) && random.percent(75) {
        let record = takes_outlived_marks(random, start).encode();
        step(&mut phone, &record);
        out.extend(record);
    }
    while out.len() < count * Event::SIZE {
        let before = phone.clone();
        let record = next_event(random, &phone, style);
        let answer = step(&mut phone, &record);
        out.extend(&record);
        if answer.code == 0 && style != Style::Noise && random.percent(60) {
            for probe in probes(random, &before, &record, &phone) {
                step(&mut phone, &probe);
                out.extend(probe);
            }
        }
    }
    if random.percent(12) {
        out.extend(short_record(random, &phone));
    }
    out
}

/// An event that may take the marks that operator roots on the phone have kept beyond their dates.
/// The first of them takes all, so that the rarer ones have to come before any other.
fn takes_outlived_marks(random: &mut Random, phone: &Phone) -> Event {
    let mut on_card = all_certificates(phone);
    on_card.retain(|c| c.is_valid_root_of(OPERATOR, phone.clock));
    on_card.retain(|c| c.place != 0 && phone.is_present(c.place));
    let valid_on_card = random.choose(&on_card);
    let kind = match (random.below(4), valid_on_card) {
        (0 | 1, Some(_)) => MARK_VALID,
        (2, _) if phone.card_present == 0 => CARD_IN,
        _ => POWER_UP,
    };
    let mut event = candidate(random, phone, kind);
    match (kind, valid_on_card) {
        (POWER_UP, _) if random.percent(70) => event.second = phone.card_present,
        (MARK_VALID, Some(root)) => event.id = root.id,
        _ => {}
    }
    event.actor = allowed_actor(random, phone, &event);
    name_who_acts(phone, &mut event);
    event
}

/// Requests and verifies on executables that an event has touched: `bench` prints no state, so
/// only these show that a mark, a card or a message did what it should and no more.
pub(super) fn probes(
    random: &mut Random,
    before: &Phone,
    record: &[u8],
    after: &Phone,
) -> Vec<Vec<u8>> {
    let touched = touched_executables(before, record, after);
    let mut out = Vec::new();
    for _ in 0..random.between(1, 2) {
        if let Some(executable) = random.choose(&touched) {
            out.push(probe(random, after, executable.id).encode());
        }
    }
    out
}

fn probe(random: &mut Random, phone: &Phone, id: u16) -> Event {
    let mut event = Event {
        kind: random.one_of([VERIFY, REQUEST]),
        actor: DEVICE,
        id,
        ..Event::default()
    };
    if event.kind == REQUEST {
        event.second = any_action(random, phone);
    }
    event
}

/// Executables whose domain or chain the event has changed, or whose key it names.
fn touched_executables(before: &Phone, record: &[u8], after: &Phone) -> Vec<Executable> {
    let named_key = Event::decode(record).map_or(0, |event| event.key);
    let (trust_before, trust_after) = (Trust::of(before), Trust::of(after));
    let mut touched = all_executables(after);
    touched.retain(|e| {
        let domain_before = before.executable(e.id).map(|old| old.domain);
        domain_before != Some(e.domain)
            || trust_before.chain_of(e.signing_key) != trust_after.chain_of(e.signing_key)
            || e.signing_key != 0 && e.signing_key == named_key
    });
    touched
}

fn short_record(random: &mut Random, phone: &Phone) -> Vec<u8> {
    let mut record = next_event(random, phone, Style::Aimed);
    record.truncate(random.one_of([1, 2, 3, 8, 12, 22, 23, 23]));
    record
}

/// The bytes of one event for this state.
pub fn next_event(random: &mut Random, phone: &Phone, style: Style) -> Vec<u8> {
    match style {
        Style::Noise => noise(random),
        Style::SeveralFaults if random.percent(60) => {
            let kind = any_kind(random);
            let mut event = candidate(random, phone, kind);
            for _ in 0..random.between(1, 4) {
                hurt_one_field(random, phone, &mut event);
            }
            event.encode()
        }
        _ => aimed(random, phone).encode(),
    }
}

fn any_kind(random: &mut Random) -> u8 {
    random.weighted(&KIND_WEIGHTS) as u8 + 1
}

fn noise(random: &mut Random) -> Vec<u8> {
    let mut record = random.bytes(Event::SIZE);
    match random.below(3) {
        0 => {}
        1 => record[0] = random.between(0, usize::from(LAST_KIND) + 1) as u8,
        _ => {
            // Mostly zero bytes get past the form of a few kinds.
            record = vec![0; Event::SIZE];
            record[0] = random.between(0, usize::from(LAST_KIND) + 1) as u8;
            for _ in 0..random.between(0, 3) {
                let at = random.below(Event::SIZE);
                record[at] = random.between(0, 12) as u8;
            }
        }
    }
    record
}

/// An event of a chosen kind with a chosen code, where the state lets one be found.
fn aimed(random: &mut Random, phone: &Phone) -> Event {
    let kind = any_kind(random);
    let has_dates = matches!(kind, MARK_VALID | REPLACE);
    let aim = match random.below(20) {
        0..=8 => 0,
        9 | 10 if has_dates => 18,
        _ => random.choose(codes_of(kind)).unwrap_or(0),
    };
    let mut event = candidate(random, phone, kind);
    for _ in 0..TRIES {
        if kind == REPLACE {
            replacements::steer(random, phone, &mut event, aim);
        }
        match aim {
            11 => bring_operators_together(random, phone, &mut event),
            2 => spoil_form(random, phone, &mut event),
            3 => spoil_id(random, phone, &mut event),
            4 => spoil_actor(random, phone, &mut event),
            18 if kind == MARK_VALID => name_old_root(random, phone, &mut event),
            _ => {}
        }
        if code_of(phone, &event) == aim {
            break;
        }
        event = candidate(random, phone, kind);
    }
    event
}

/// An event of the kind in good form, by an allowed actor, on what the state has.
pub fn candidate(random: &mut Random, phone: &Phone, kind: u8) -> Event {
    let mut event = Event {
        kind,
        ..Event::default()
    };
    match kind {
        CLOCK => event.key = any_new_time(random, phone),
        CARD_IN => event.second = card_to_bring(random, phone).max(1),
        POWER_UP => event.second = card_to_bring(random, phone),
        INSTALL_CERTIFICATE => plan_certificate(random, phone, &mut event),
        DELETE_CERTIFICATE | MARK_VALID | MARK_INVALID => {
            event.id = any_certificate_id(random, phone, kind)
        }
        CONFIGURATION => plan_message(random, phone, &mut event),
        INSTALL_EXECUTABLE => {
            event.id = any_executable_id_to_install(random, phone);
            event.key = any_signing_key(random, phone);
        }
        DELETE_EXECUTABLE => event.id = any_executable_id(random, phone),
        VERIFY => event.id = executable_id_to_verify(random, phone),
        GIVE | WITHDRAW | REQUEST => {
            event.id = executable_id_to_use(random, phone);
            event.second = any_action(random, phone);
        }
        REPLACE => replacements::plan(random, phone, &mut event),
        _ => {}
    }
    event.actor = allowed_actor(random, phone, &event);
    name_who_acts(phone, &mut event);
    event
}

/// The same event by another actor, who mostly says who it is where that is asked, and nothing where
/// it is not.
pub(super) fn by_actor(random: &mut Random, phone: &Phone, event: Event, actor: u8) -> Event {
    let mut event = Event { actor, ..event };
    if random.percent(80) {
        name_who_acts(phone, &mut event);
    }
    event
}

/// Puts the owner of the certificate where an operator or a manufacturer has to, and 0 for others.
fn name_who_acts(phone: &Phone, event: &mut Event) {
    if deletes_or_marks(event.kind) {
        let record = match event.names_who_acts() {
            true => phone.certificate(event.id),
            false => None,
        };
        event.owner = record.map_or(0, |c| c.owner);
    }
}

/// The certificate's domain counts for kinds 5 to 8 and 16.
fn domain_that_counts(phone: &Phone, event: &Event) -> u8 {
    match event.kind {
        INSTALL_CERTIFICATE => event.fourth,
        _ => phone.certificate(event.id).map_or(OPERATOR, |c| c.domain),
    }
}

/// Where nobody may act, it is anybody.
pub(super) fn allowed_actor(random: &mut Random, phone: &Phone, event: &Event) -> u8 {
    let actors = allowed_actors(event.kind, domain_that_counts(phone, event));
    let anybody = random.between(usize::from(DEVICE), usize::from(ADMINISTRATOR)) as u8;
    random.choose(actors).unwrap_or(anybody)
}

/// The clock, the next expiry and what lies beside them. A root's date ends more than that of one
/// record, so it is not always the next one that counts; one that is far off ends almost everything.
pub(super) fn any_new_time(random: &mut Random, phone: &Phone) -> u32 {
    let kind = random.one_of([ISSUED, ROOT]);
    let most = match random.percent(4) {
        true => u32::MAX - 1,
        false => phone.clock.saturating_add(1000),
    };
    let next_expiry = phone
        .occupied_certificates()
        .filter(|c| c.kind == kind && (phone.clock..=most).contains(&c.expiry))
        .map(|c| c.expiry)
        .min()
        .unwrap_or(phone.clock);
    match random.below(40) {
        0..=9 => phone.clock,
        10..=16 => next_expiry,
        17..=20 => next_expiry.saturating_add(1),
        21..=29 => phone.clock.saturating_add(random.between(1, 5) as u32),
        30..=36 => phone.clock.saturating_sub(random.between(1, 3) as u32),
        37 => 0,
        38 => random.u32() % phone.clock.saturating_add(1000).max(1),
        _ => match random.percent(8) {
            true => u32::MAX,
            false => phone.clock.saturating_add(1),
        },
    }
}

/// Any card. Now and then it is one with an operator root in its last second, or with one that has
/// kept its mark beyond its date, since it is by the date that the card rule looks at it; or the
/// one that is in, which takes such marks on the phone all the same.
fn card_to_bring(random: &mut Random, phone: &Phone) -> u16 {
    let mut records = all_certificates(phone);
    records.retain(|c| c.is_root_of(OPERATOR) && c.place != 0 && c.mark == 1);
    records.retain(|c| c.expiry <= phone.clock);
    let brought = match random.below(8) {
        0 | 1 => random.choose(&records).map(|c| c.place),
        2 | 3 if has_outlived_mark(phone) => Some(phone.card_present),
        _ => None,
    };
    brought.unwrap_or_else(|| any_card_number(random, phone))
}

/// Whether an operator root on the phone has kept its mark beyond its date.
fn has_outlived_mark(phone: &Phone) -> bool {
    phone.occupied_certificates().any(|c| {
        c.is_root_of(OPERATOR) && c.place == 0 && c.mark == 1 && !c.is_in_date(phone.clock)
    })
}

fn any_card_number(random: &mut Random, phone: &Phone) -> u16 {
    match random.below(12) {
        0 => 0,
        1 => random.one_of([1, 2, 10, 255, 256, 65535]),
        2 => random.u16(),
        3 => phone.card_present,
        _ => random.choose(&phone.cards).map_or(0, |card| card.number),
    }
}

pub(super) fn all_certificates(phone: &Phone) -> Vec<Certificate> {
    phone.occupied_certificates().copied().collect()
}

pub(super) fn all_executables(phone: &Phone) -> Vec<Executable> {
    phone.occupied_executables().copied().collect()
}

/// The id of a certificate; for marks more often a root, and now and then a recovery record.
fn any_certificate_id(random: &mut Random, phone: &Phone, kind: u8) -> u16 {
    let mut records = all_certificates(phone);
    if kind != DELETE_CERTIFICATE {
        match random.below(20) {
            0..=14 => records.retain(|c| c.kind == ROOT),
            15 if records.iter().any(|c| c.kind == RECOVERY) => {
                records.retain(|c| c.kind == RECOVERY)
            }
            _ => {}
        }
    }
    // A card's root that is valid already takes marks beyond their dates from the phone.
    if kind == MARK_VALID && has_outlived_mark(phone) && random.percent(30) {
        let mut on_card = records.clone();
        on_card.retain(|c| c.is_valid_root_of(OPERATOR, phone.clock));
        on_card.retain(|c| c.place != 0 && c.place == phone.card_present);
        if let Some(root) = random.choose(&on_card) {
            return root.id;
        }
    }
    // Roots that come back keep chains alive; invalid ones are the more interesting to mark.
    if kind == MARK_VALID && random.percent(60) {
        records.retain(|c| c.mark == 0);
    }
    match random.choose(&records) {
        Some(record) => record.id,
        None => unknown_id(random, &[]),
    }
}

/// A root to mark that is past its date, marked already or not, where there is one.
fn name_old_root(random: &mut Random, phone: &Phone, event: &mut Event) {
    let mut records = all_certificates(phone);
    records.retain(|c| c.kind == ROOT && !c.is_in_date(phone.clock));
    if let Some(root) = random.choose(&records) {
        event.id = root.id;
        event.actor = allowed_actor(random, phone, event);
        name_who_acts(phone, event);
    }
}

fn any_executable_id(random: &mut Random, phone: &Phone) -> u16 {
    match random.choose(&all_executables(phone)) {
        Some(record) => record.id,
        None => unknown_id(random, &[]),
    }
}

/// Executables that would gain a domain are the interesting ones to verify.
fn executable_id_to_verify(random: &mut Random, phone: &Phone) -> u16 {
    let trust = Trust::of(phone);
    let gains = |e: &Executable| e.domain == 0 && trust.chain_of(e.signing_key).is_some();
    executable_id_that(random, phone, &trust, gains)
}

/// Executables with a domain are the interesting ones to ask for.
fn executable_id_to_use(random: &mut Random, phone: &Phone) -> u16 {
    let trust = Trust::of(phone);
    executable_id_that(random, phone, &trust, |e| e.domain != 0)
}

/// Mostly an executable of the interesting ones, those at the end of long chains preferred.
fn executable_id_that(
    random: &mut Random,
    phone: &Phone,
    trust: &Trust,
    is_interesting: impl Fn(&Executable) -> bool,
) -> u16 {
    let mut records = all_executables(phone);
    records.retain(is_interesting);
    let far: Vec<Executable> = records
        .iter()
        .copied()
        .filter(|e| trust.chain_of(e.signing_key).is_some_and(|c| c.links > 2))
        .collect();
    let chosen = match random.below(10) {
        0..=2 => random.choose(&far),
        3..=6 => random.choose(&records),
        _ => None,
    };
    chosen.map_or_else(|| any_executable_id(random, phone), |e| e.id)
}

/// An id that is not in the list and not 0.
pub(super) fn unknown_id(random: &mut Random, known: &[u16]) -> u16 {
    for _ in 0..20 {
        let id = match random.below(4) {
            0 => random.one_of([1, 255, 256, 257, 32768, 65534, 65535]),
            1 => random.u16(),
            _ => random.between(1, 120) as u16,
        };
        if id != 0 && !known.contains(&id) {
            return id;
        }
    }
    // At most 64 ids are known, so one of these is free.
    (200..300).find(|id| !known.contains(id)).unwrap_or(200)
}

fn certificate_ids(phone: &Phone) -> Vec<u16> {
    phone.occupied_certificates().map(|c| c.id).collect()
}

fn executable_ids(phone: &Phone) -> Vec<u16> {
    phone.occupied_executables().map(|e| e.id).collect()
}

/// An id that no executable has, often one of a certificate: the two spaces are separate.
pub fn unknown_executable_id(random: &mut Random, phone: &Phone) -> u16 {
    let known = executable_ids(phone);
    let mut others = certificate_ids(phone);
    others.retain(|id| !known.contains(id));
    match random.percent(50) {
        true => random.choose(&others),
        false => None,
    }
    .unwrap_or_else(|| unknown_id(random, &known))
}

fn any_executable_id_to_install(random: &mut Random, phone: &Phone) -> u16 {
    let known = executable_ids(phone);
    match random.percent(15) {
        true => random.choose(&known).unwrap_or(1),
        false => unknown_id(random, &known),
    }
}

/// An action of the table, the last one often.
fn any_action(random: &mut Random, phone: &Phone) -> u16 {
    let last = phone.table.len() - 1;
    match random.percent(20) {
        true => last as u16,
        false => random.between(0, last) as u16,
    }
}

/// A key of the image, more often one at the end of a long chain; sometimes none or a strange one.
fn any_signing_key(random: &mut Random, phone: &Phone) -> u32 {
    let any = random.u32();
    let records = all_certificates(phone);
    match random.below(12) {
        0 => 0,
        1 => random.one_of([u32::MAX, any, 1, 0x0100_0000]),
        2..=6 => key_at_distance(random, phone, &Trust::of(phone)).unwrap_or(0),
        _ => random.choose(&records).map_or(0, |c| c.key),
    }
}

/// A certificate to install: twins, longer chains, new roots and recovery keys.
fn plan_certificate(random: &mut Random, phone: &Phone, event: &mut Event) {
    let known = certificate_ids(phone);
    event.id = match random.percent(12) {
        true => random.choose(&known).unwrap_or(1),
        false => unknown_id(random, &known),
    };
    event.third = random.one_of([ROOT, ROOT, ROOT, ISSUED, ISSUED, ISSUED, RECOVERY, RECOVERY]);
    event.fourth = match event.third {
        RECOVERY => random.one_of([OPERATOR, MANUFACTURER]),
        _ => random.one_of([OPERATOR, MANUFACTURER, THIRD_PARTY]),
    };
    let is_tied_to_phone = match event.third {
        ROOT => event.fourth == MANUFACTURER,
        RECOVERY => true,
        _ => false,
    };
    event.second = match random.below(8) {
        _ if is_tied_to_phone => 0,
        0..=3 => 0,
        4..=5 => phone.card_present,
        _ => any_card_number(random, phone),
    };
    event.key = key_to_install(random, phone, event.fourth);
    if event.third == ISSUED {
        event.verifying_key = key_to_verify_with(random, phone, event.fourth);
    }
    event.owner = match event.third {
        RECOVERY => replacements::owner_of_a_root(random, phone, event.fourth),
        _ => owner_to_install(random, phone, event.second),
    };
    event.expiry = match random.percent(70) {
        true => expiry_in_date(random, phone.clock),
        false => any_expiry(random, phone.clock),
    };
}

/// A twin's key, a key of another domain, or a new one.
fn key_to_install(random: &mut Random, phone: &Phone, domain: u8) -> u32 {
    let (same, other): (Vec<Certificate>, Vec<Certificate>) = phone
        .occupied_certificates()
        .partition(|c| c.domain == domain);
    let new_key = match random.below(5) {
        0 => random.one_of([u32::MAX, 1, 0x0100_0000, 0x8000_0000]),
        1 => random.u32().max(1),
        _ => 3000 + u32::from(domain) * 100 + random.below(20) as u32,
    };
    // An executable that waits for its key shows what the new record is worth.
    let mut waiting = all_executables(phone);
    waiting.retain(|e| e.signing_key != 0 && other.iter().all(|c| c.key != e.signing_key));
    match random.below(10) {
        0..=1 => random.choose(&same).map_or(new_key, |c| c.key),
        2 => random.choose(&other).map_or(new_key, |c| c.key),
        3..=5 => random.choose(&waiting).map_or(new_key, |e| e.signing_key),
        _ => new_key,
    }
}

/// Mostly the key of a record that is good itself, so that chains grow.
fn key_to_verify_with(random: &mut Random, phone: &Phone, domain: u8) -> u32 {
    let mut records = all_certificates(phone);
    match random.below(10) {
        0 => return random.one_of([u32::MAX, 1, 999]),
        1 => {}
        2..=3 => records.retain(|c| c.domain == domain),
        _ => {
            let trust = Trust::of(phone);
            records.retain(|c| c.domain == domain && trust.links_to(c.key, domain) > 0);
        }
    }
    random.choose(&records).map_or(1, |c| c.key)
}

pub(super) fn owner_to_install(random: &mut Random, phone: &Phone, place: u16) -> u32 {
    let card = match place {
        0 => phone.present_card(),
        number => phone.card(number),
    };
    match card {
        Some(card) if random.percent(75) => card.operator,
        _ => any_operator(random),
    }
}

/// A configuration message, its list mostly of third party roots, now and then one of them twice.
fn plan_message(random: &mut Random, phone: &Phone, event: &mut Event) {
    event.third = random.one_of([0, 1, 1, 1, 1, 2, 2]);
    if event.third != ENABLE_LISTED {
        return;
    }
    let mut records = all_certificates(phone);
    if random.percent(75) {
        records.retain(|c| c.is_root_of(THIRD_PARTY));
    }
    let count = match records.is_empty() {
        true => 0,
        false => random.one_of([0, 1, 1, 2, 2, 3, 4, 7, 8]),
    };
    let ids: Vec<u16> = (0..count)
        .filter_map(|_| random.choose(&records).map(|c| c.id))
        .collect();
    event.fourth = ids.len() as u8;
    event.set_list_places(&ids);
}

/// Makes the form wrong in one of the ways that code 2 knows.
fn spoil_form(random: &mut Random, phone: &Phone, event: &mut Event) {
    let any = random.u8();
    // These use most of their fields, so a byte at random seldom spoils them.
    let has_ranges = matches!(event.kind, INSTALL_CERTIFICATE | CONFIGURATION | REPLACE);
    if has_ranges && random.percent(50) {
        return spoil_range(random, phone, event);
    }
    match random.below(10) {
        0 => event.actor = random.one_of([5, 5, 255, any | 8]),
        1 => event.kind = random.one_of([0, LAST_KIND + 1, LAST_KIND + 2, 255, any]),
        2 | 3 => spoil_range(random, phone, event),
        4 => event.id = 0,
        _ => set_one_byte(random, event),
    }
}

/// A value just beyond a field's range, where the kind has a range.
fn spoil_range(random: &mut Random, phone: &Phone, event: &mut Event) {
    match event.kind {
        CARD_IN => event.second = 0,
        GIVE | WITHDRAW | REQUEST => {
            let count = phone.table.len() as u16;
            event.second = random.one_of([count, count, count + 1, 32, 33, 256, 65535]);
        }
        INSTALL_CERTIFICATE => spoil_certificate(random, event),
        CONFIGURATION => spoil_message(random, event),
        REPLACE => replacements::spoil_range(random, event),
        DELETE_CERTIFICATE..=MARK_INVALID if random.percent(70) => {
            name_owner_for_nobody(random, phone, event)
        }
        _ => event.id = 0,
    }
}

/// Somebody who is nobody in particular names an owner, often the certificate's or his own.
fn name_owner_for_nobody(random: &mut Random, phone: &Phone, event: &mut Event) {
    if event.names_who_acts() || random.percent(20) {
        event.actor = random.one_of([DEVICE, USER, ADMINISTRATOR, ADMINISTRATOR]);
    }
    let owner = phone.certificate(event.id).map_or(0, |c| c.owner);
    let other = any_operator(random);
    event.owner = random.one_of([owner, owner, other, 1, 1 << 31]).max(1);
}

fn spoil_certificate(random: &mut Random, event: &mut Event) {
    match random.below(8) {
        0 => event.fourth = random.one_of([0, 4, 255]),
        1 => event.third = random.one_of([LAST_CERTIFICATE_KIND + 1, 255]),
        2 => event.key = 0,
        // One that it is not, often of another range.
        3 => {
            let another = event.third.wrapping_add(random.one_of([1, 2]));
            event.third = another % (LAST_CERTIFICATE_KIND + 1);
        }
        4 => {
            event.third = ROOT;
            event.fourth = MANUFACTURER;
            event.verifying_key = 0;
            event.second = 1;
        }
        5 | 6 => spoil_recovery(random, event),
        _ => {
            event.verifying_key = match event.verifying_key {
                0 => 1,
                _ => 0,
            }
        }
    }
}

/// A recovery record that has all but one of the things that I2 asks of it.
fn spoil_recovery(random: &mut Random, event: &mut Event) {
    event.third = RECOVERY;
    event.fourth = random.one_of([OPERATOR, MANUFACTURER]);
    event.verifying_key = 0;
    let place = std::mem::replace(&mut event.second, 0);
    match random.below(3) {
        0 => event.fourth = THIRD_PARTY,
        1 => event.second = place.max(1),
        _ => event.verifying_key = random.one_of([1, event.key, u32::MAX]),
    }
    // The actor of the domain, so that the form alone is wrong.
    event.actor = event.fourth + 1;
}

fn spoil_message(random: &mut Random, event: &mut Event) {
    match random.below(5) {
        0 => event.third = random.one_of([3, 255]),
        1 => event.fourth = random.one_of([9, 255]),
        // One more or one fewer listed than the list has.
        2 => event.fourth = event.fourth.wrapping_add(1),
        3 => event.fourth = event.fourth.wrapping_sub(1),
        _ => event.third = random.below(2) as u8,
    }
}

/// Any one byte of the record behind the actor.
fn set_one_byte(random: &mut Random, event: &mut Event) {
    let mut bytes = event.encode();
    let at = random.between(2, Event::SIZE - 1);
    let any = random.u8();
    bytes[at] = random.one_of([1, 255, any]);
    if let Some(spoiled) = Event::decode(&bytes) {
        *event = spoiled;
    }
}

fn spoil_id(random: &mut Random, phone: &Phone, event: &mut Event) {
    if event.kind == CONFIGURATION {
        event.third = ENABLE_LISTED;
        event.fourth = event.fourth.clamp(1, MOST_LISTED);
        let count = usize::from(event.fourth);
        let mut places = event.list_places();
        for place in &mut places[..count] {
            if *place == 0 {
                *place = unknown_id(random, &[]);
            }
        }
        places[random.below(count)] = unknown_id(random, &certificate_ids(phone));
        event.set_list_places(&places[..count]);
        return;
    }
    // The other table's ids are good candidates: the two spaces are separate.
    let (own, other) = match event.kind {
        DELETE_CERTIFICATE..=MARK_INVALID | REPLACE => {
            (certificate_ids(phone), executable_ids(phone))
        }
        _ => (executable_ids(phone), certificate_ids(phone)),
    };
    let mut strange_id = || match random.percent(40) {
        true => random.choose(&other).unwrap_or(1),
        false => unknown_id(random, &own),
    };
    let strange = (strange_id(), strange_id());
    // Whoever says who acts: there is no certificate that it could be held to.
    if event.names_who_acts() && random.percent(60) {
        event.owner = any_operator(random);
    }
    (event.id, event.second) = match (event.kind, random.below(3)) {
        (REPLACE, 0) => (event.id, strange.1),
        (REPLACE, 1) => strange,
        _ => (strange.0, event.second),
    };
}

fn spoil_actor(random: &mut Random, phone: &Phone, event: &mut Event) {
    if event.kind == REPLACE && random.percent(50) {
        return replacements::name_third_party(random, phone, event);
    }
    if event.names_who_acts() && random.percent(60) {
        return spoil_owner(random, phone, event);
    }
    let allowed = allowed_actors(event.kind, domain_that_counts(phone, event));
    let wrong: Vec<u8> = (DEVICE..=ADMINISTRATOR)
        .filter(|actor| !allowed.contains(actor))
        .collect();
    let actor = random.choose(&wrong).unwrap_or(DEVICE);
    *event = by_actor(random, phone, *event, actor);
}

/// The right sort of actor, but not the certificate's owner: another one whom the phone knows, one
/// who is a bit off, somebody who leaves the field 0.
fn spoil_owner(random: &mut Random, phone: &Phone, event: &mut Event) {
    let records = all_certificates(phone);
    let own = event.owner;
    let card = random.choose(&phone.cards).map_or(0, |card| card.operator);
    let present = phone.present_card().map_or(card, |card| card.operator);
    event.owner = match random.below(10) {
        0 | 1 => 0,
        2 => own ^ 1,
        3 => own ^ 1 << random.below(32),
        4 => card,
        5 => present,
        6 => any_operator(random),
        7 => random.u32(),
        _ => random.choose(&records).map_or(0, |c| c.owner),
    };
}

/// An operator root to install on the present card, by an owner that may be another.
fn bring_operators_together(random: &mut Random, phone: &Phone, event: &mut Event) {
    if event.kind == INSTALL_CERTIFICATE && phone.card_present != 0 {
        event.third = ROOT;
        event.fourth = OPERATOR;
        event.second = phone.card_present;
        event.verifying_key = 0;
        event.owner = any_operator(random);
        event.actor = OPERATOR_ACTOR;
    }
}

/// One field with a value that often does not fit; several of these make several faults.
fn hurt_one_field(random: &mut Random, phone: &Phone, event: &mut Event) {
    let record = random.choose(&all_certificates(phone));
    match random.below(13) {
        0 => spoil_actor(random, phone, event),
        1 => spoil_id(random, phone, event),
        2 => spoil_form(random, phone, event),
        3 => event.second = any_card_number(random, phone),
        4 => event.id = record.map_or(0, |c| c.id),
        5 => event.key = record.map_or(0, |c| c.key),
        6 => event.owner = any_operator(random),
        7 => event.fourth = random.between(0, 4) as u8,
        8 => event.actor = random.between(0, 5) as u8,
        9 => event.second = record.map_or(0, |c| c.id),
        10 => event.verifying_key = record.map_or(0, |c| c.key),
        11 => event.expiry = random.one_of([phone.clock, phone.clock.saturating_sub(1), 0]),
        _ => {
            event.key = random.one_of([0, u32::MAX, phone.clock, phone.clock.saturating_sub(1)]);
        }
    }
}
