//! The image rules I1 to I8, one function for each, asked in the order of the paper.
//!
//! Follows 01, "The image", and 02, "Recovery keys" and "Roots have a date as well". Each function
//! gives the way in which its rule is broken, in a few words, so that a generator can count which
//! ways it has reached.

use crate::chain::Trust;
use crate::phone::{
    Card, Certificate, Executable, Header, Phone, ISSUED, LARGEST_IMAGE, MANUFACTURER,
    MOST_ACTIONS, MOST_CARDS, MOST_CERTIFICATES, MOST_EXECUTABLES, OPERATOR, RECOVERY, ROOT,
    TABLE_ROW_SIZE, THIRD_PARTY,
};

/// A broken rule: its number, and in which way it is broken.
#[derive(Clone, Copy, Debug, PartialEq, Eq, PartialOrd, Ord)]
pub struct Broken {
    pub rule: u8,
    pub way: &'static str,
}

impl std::fmt::Display for Broken {
    fn fmt(&self, out: &mut std::fmt::Formatter) -> std::fmt::Result {
        write!(out, "I{} {}", self.rule, self.way)
    }
}

type Way = Option<&'static str>;
pub type PartsRule = fn(&Phone) -> Way;

/// The first rule that the buffer breaks; nothing where the image is accepted.
pub fn first_broken(bytes: &[u8]) -> Option<Broken> {
    if let Some(Fault { way, .. }) = i1_header(bytes) {
        return Some(Broken { rule: 1, way });
    }
    // Where I1 holds, the length is the one that the counts ask for.
    first_broken_of_parts(&Phone::decode(bytes)?)
}

/// The first of I2 to I8 that the parts break.
pub fn first_broken_of_parts(phone: &Phone) -> Option<Broken> {
    let rules: [(u8, PartsRule); 7] = [
        (2, i2_certificates),
        (3, i3_cards),
        (4, i4_ids_keys_owners),
        (5, i5_valid_roots),
        (6, i6_table),
        (7, i7_executables),
        (8, i8_domains),
    ];
    rules
        .iter()
        .find_map(|&(rule, broken)| broken(phone).map(|way| Broken { rule, way }))
}

/// Where in a buffer a rule is broken, and in which way it is broken there.
#[derive(Clone, Copy, Debug, PartialEq, Eq)]
pub struct Fault {
    pub at: usize,
    pub way: &'static str,
}

/// The first wrong field of a buffer's header, in the order of 01's sentence.
pub fn i1_header(bytes: &[u8]) -> Option<Fault> {
    let Some(header) = Header::decode(bytes) else {
        return Some(Fault {
            at: bytes.len(),
            way: "stream shorter than header",
        });
    };
    i1_fields(&header, bytes.len())
        .into_iter()
        .find(|(_, _, is_wrong)| *is_wrong)
        .map(|(at, way, _)| Fault { at, way })
}

/// Each field that I1 speaks of: its first byte, in which way it can be wrong, and whether it is.
/// A count is at most 65,535 and a record at most 24 bytes, so nothing overflows.
fn i1_fields(header: &Header, length: usize) -> [(usize, &'static str, bool); 15] {
    let end_of = |start: usize, count: u16, size: usize| start + usize::from(count) * size;
    let cards_at = end_of(Header::SIZE, header.certificate_slots, Certificate::SIZE);
    let executables_at = end_of(cards_at, header.cards, Card::SIZE);
    let table_at = end_of(executables_at, header.executable_slots, Executable::SIZE);
    let table_end = end_of(table_at, header.actions, TABLE_ROW_SIZE);
    let is_above = |count: u16, most: usize| usize::from(count) > most;
    let differs = |field: u32, right: usize| field as usize != right;
    let total = header.total as usize;
    let total_is_no_length = !(Header::SIZE..=LARGEST_IMAGE).contains(&total);
    let actions_are_wrong = header.actions == 0 || is_above(header.actions, MOST_ACTIONS);
    [
        (0, "version", header.version != 1),
        (
            2,
            "certificate slots",
            is_above(header.certificate_slots, MOST_CERTIFICATES),
        ),
        (4, "cards", is_above(header.cards, MOST_CARDS)),
        (
            6,
            "executable slots",
            is_above(header.executable_slots, MOST_EXECUTABLES),
        ),
        (8, "actions", actions_are_wrong),
        (10, "mode", header.mode > 2),
        (14, "zero", header.zero != 0),
        (
            20,
            "offset of certificates",
            differs(header.certificates_at, Header::SIZE),
        ),
        (24, "offset of cards", differs(header.cards_at, cards_at)),
        (
            28,
            "offset of executables",
            differs(header.executables_at, executables_at),
        ),
        (32, "offset of table", differs(header.table_at, table_at)),
        (36, "total below 40 or above 2536", total_is_no_length),
        (36, "total is not table's end", total != table_end),
        (36, "buffer shorter than total", length < total),
        (36, "buffer longer than total", length > total),
    ]
}

pub fn i2_certificates(phone: &Phone) -> Way {
    phone.occupied_certificates().find_map(i2_certificate)
}

fn i2_certificate(record: &Certificate) -> Way {
    if record.id == 0 {
        return Some("occupied, id 0");
    }
    if record.key == 0 {
        return Some("occupied, key 0");
    }
    let of_kind = match record.kind {
        ROOT => i2_root,
        ISSUED => i2_issued,
        RECOVERY => i2_recovery,
        _ => return Some("kind"),
    };
    if !(1..=3).contains(&record.domain) {
        return Some("domain");
    }
    if record.mark > 1 {
        return Some("mark not 0/1");
    }
    if record.enabled > 1 {
        return Some("enabled not 0/1");
    }
    of_kind(record)
}

fn i2_root(record: &Certificate) -> Way {
    if record.verifying_key != 0 {
        return Some("root with verifying key");
    }
    if record.domain == MANUFACTURER && record.place != 0 {
        return Some("manufacturer root on card");
    }
    if record.domain != THIRD_PARTY && record.enabled != 1 {
        return Some("operator/manufacturer root not enabled");
    }
    None
}

fn i2_issued(record: &Certificate) -> Way {
    if record.verifying_key == 0 {
        return Some("issued without verifying key");
    }
    if record.mark != 1 {
        return Some("issued with mark 0");
    }
    if record.enabled != 1 {
        return Some("issued with enabled 0");
    }
    None
}

fn i2_recovery(record: &Certificate) -> Way {
    if record.place != 0 {
        return Some("recovery key on card");
    }
    if record.domain == THIRD_PARTY {
        return Some("recovery key of third party");
    }
    if record.verifying_key != 0 {
        return Some("recovery key with verifying key");
    }
    if record.mark != 0 {
        return Some("recovery key with mark 1");
    }
    if record.enabled != 1 {
        return Some("recovery key with enabled 0");
    }
    None
}

pub fn i3_cards(phone: &Phone) -> Way {
    i3_card_table(phone)
        .or_else(|| i3_card_present(phone))
        .or_else(|| i3_places(phone))
}

pub fn i3_card_table(phone: &Phone) -> Way {
    for (at, card) in phone.cards.iter().enumerate() {
        if card.number == 0 {
            return Some("card number 0");
        }
        if card.zero != 0 {
            return Some("card zero field");
        }
        if phone.cards[..at].iter().any(|c| c.number == card.number) {
            return Some("card numbers not distinct");
        }
    }
    None
}

pub fn i3_card_present(phone: &Phone) -> Way {
    let is_known = place_is_known(phone, phone.card_present);
    (!is_known).then_some("card present not in table")
}

pub fn i3_places(phone: &Phone) -> Way {
    let all_are_known = phone
        .occupied_certificates()
        .all(|c| place_is_known(phone, c.place));
    (!all_are_known).then_some("place not in table")
}

fn place_is_known(phone: &Phone, place: u16) -> bool {
    place == 0 || phone.card(place).is_some()
}

pub fn i4_ids_keys_owners(phone: &Phone) -> Way {
    let records: Vec<&Certificate> = phone.occupied_certificates().collect();
    if some_pair(&records, |a, b| a.id == b.id) {
        return Some("certificate ids not distinct");
    }
    if some_pair(&records, |a, b| a.key == b.key && a.domain != b.domain) {
        return Some("key shared between domains");
    }
    if records.iter().any(|c| is_on_a_strange_card(phone, c)) {
        return Some("operator root on card of another operator");
    }
    None
}

fn is_on_a_strange_card(phone: &Phone, record: &Certificate) -> bool {
    record.is_root_of(OPERATOR)
        && phone
            .card(record.place)
            .is_some_and(|card| card.operator != record.owner)
}

/// Whether two different places of the list hold a pair for which the test holds.
fn some_pair<T>(list: &[T], test: impl Fn(&T, &T) -> bool) -> bool {
    list.iter()
        .enumerate()
        .any(|(at, a)| list[at + 1..].iter().any(|b| test(a, b)))
}

/// A root past its date is not valid, whatever its mark: any number of those may be there.
pub fn i5_valid_roots(phone: &Phone) -> Way {
    if valid_operator_roots_at(phone, 0) > 1 {
        return Some("two valid operator roots on phone");
    }
    if phone
        .cards
        .iter()
        .any(|card| valid_operator_roots_at(phone, card.number) > 1)
    {
        return Some("two valid operator roots on a card");
    }
    if let Some(way) = i5_present_card(phone) {
        return Some(way);
    }
    let manufacturers = phone
        .occupied_certificates()
        .filter(|c| c.is_valid_root_of(MANUFACTURER, phone.clock))
        .count();
    if manufacturers > 1 {
        return Some("two valid manufacturer roots");
    }
    None
}

fn valid_operator_roots_at(phone: &Phone, place: u16) -> usize {
    phone
        .occupied_certificates()
        .filter(|c| c.is_valid_root_of(OPERATOR, phone.clock) && c.place == place)
        .count()
}

/// What a present card asks of the valid operator root on the phone.
fn i5_present_card(phone: &Phone) -> Way {
    let card = phone.present_card()?;
    let on_phone = phone
        .occupied_certificates()
        .find(|c| c.is_valid_root_of(OPERATOR, phone.clock) && c.place == 0)?;
    if valid_operator_roots_at(phone, card.number) > 0 {
        return Some("valid operator root on phone beside one on present card");
    }
    if on_phone.owner != card.operator {
        return Some("valid operator root on phone of another operator than present card");
    }
    None
}

pub fn i6_table(phone: &Phone) -> Way {
    phone.table.iter().find_map(|row| {
        if row.iter().any(|&byte| byte > 2) {
            return Some("table byte above 2");
        }
        if row[0] > row[1] {
            return Some("domain 0 byte larger than operator's");
        }
        if row[0] > row[2] {
            return Some("domain 0 byte larger than manufacturer's");
        }
        if row[0] > row[3] {
            return Some("domain 0 byte larger than third party's");
        }
        None
    })
}

pub fn i7_executables(phone: &Phone) -> Way {
    let records: Vec<&Executable> = phone.occupied_executables().collect();
    let actions = phone.table.len();
    for (at, record) in records.iter().enumerate() {
        if let Some(way) = i7_fields(record) {
            return Some(way);
        }
        if records[..at].iter().any(|other| other.id == record.id) {
            return Some("executable ids not distinct");
        }
        if has_bits_from(record.permissions, actions) {
            return Some("permission bit at or above action count");
        }
    }
    None
}

fn i7_fields(record: &Executable) -> Way {
    if record.id == 0 {
        return Some("occupied, id 0");
    }
    if record.domain > 3 {
        return Some("domain");
    }
    if record.zero != 0 {
        return Some("zero field");
    }
    None
}

/// Whether any bit from this one up is set. With 32 actions there is none to look at.
fn has_bits_from(permissions: u32, first: usize) -> bool {
    (first..32).any(|bit| permissions & (1 << bit) != 0)
}

pub fn i8_domains(phone: &Phone) -> Way {
    let trust = Trust::of(phone);
    phone
        .occupied_executables()
        .filter(|e| e.domain != 0)
        .find_map(|e| {
            if e.signing_key == 0 {
                return Some("domain without signing key");
            }
            if trust.links_to(e.signing_key, e.domain) == 0 {
                return Some("domain without chain");
            }
            None
        })
}
