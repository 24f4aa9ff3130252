//! Why and where an image is refused: the first broken rule, and a byte offset.
//!
//! Follows 02, "Say where an image is wrong". A rule is asked of ever longer heads of a table; the
//! last record of the first head that breaks it breaks it alone or together with lower ones.

use crate::image_rules::{
    first_broken, i1_header, i2_certificates, i3_card_present, i3_card_table, i3_places,
    i4_ids_keys_owners, i5_valid_roots, i6_table, i7_executables, i8_domains, Broken, Fault,
    PartsRule,
};
use crate::phone::{Card, Certificate, Executable, Header, Phone, TABLE_ROW_SIZE};

/// The header's field that names the present card.
const CARD_PRESENT_AT: usize = 12;

/// The first broken rule with the way in which it is broken at this byte.
#[derive(Clone, Copy, Debug, PartialEq, Eq)]
pub struct Refusal {
    pub broken: Broken,
    pub offset: usize,
}

impl std::fmt::Display for Refusal {
    fn fmt(&self, out: &mut std::fmt::Formatter) -> std::fmt::Result {
        write!(out, "{} at byte {}", self.broken, self.offset)
    }
}

/// The phone in a buffer, or why and where the image is refused.
pub fn open(buffer: &[u8]) -> Result<Phone, Refusal> {
    match first_broken(buffer) {
        None => Ok(Phone::decode(buffer).expect("an accepted image has the length of its parts")),
        Some(Broken { rule, .. }) => {
            let Fault { at, way } = fault(buffer, rule).expect("a broken rule has its place");
            Err(Refusal {
                broken: Broken { rule, way },
                offset: at,
            })
        }
    }
}

/// Where a buffer breaks a rule; I1 holds where a later one is asked for.
fn fault(buffer: &[u8], rule: u8) -> Option<Fault> {
    if rule == 1 {
        return i1_header(buffer);
    }
    let phone = &Phone::decode(buffer)?;
    match rule {
        2 => first_certificate(phone, i2_certificates),
        3 => i3_fault(phone),
        4 => first_certificate(phone, i4_ids_keys_owners),
        5 => first_certificate(phone, i5_valid_roots),
        6 => first_row(phone, i6_table),
        7 => first_executable(phone, i7_executables),
        8 => first_executable(phone, i8_domains),
        _ => None,
    }
}

/// The present card comes before any record. A certificate's place is looked for in the whole
/// card table, though that lies above the certificates.
fn i3_fault(phone: &Phone) -> Option<Fault> {
    if let Some(way) = i3_card_present(phone) {
        let at = CARD_PRESENT_AT;
        return Some(Fault { at, way });
    }
    let certificate = first_certificate(phone, i3_places);
    let card = first_card(phone, i3_card_table);
    [certificate, card]
        .into_iter()
        .flatten()
        .min_by_key(|fault| fault.at)
}

fn first_certificate(phone: &Phone, rule: PartsRule) -> Option<Fault> {
    let heads = (1..=phone.certificates.len()).map(|count| {
        let mut head = phone.clone();
        head.certificates.truncate(count);
        head
    });
    first_record(heads, rule, Header::SIZE, Certificate::SIZE)
}

fn first_card(phone: &Phone, rule: PartsRule) -> Option<Fault> {
    let heads = (1..=phone.cards.len()).map(|count| {
        let mut head = phone.clone();
        head.cards.truncate(count);
        head
    });
    first_record(heads, rule, phone.header().cards_at as usize, Card::SIZE)
}

fn first_executable(phone: &Phone, rule: PartsRule) -> Option<Fault> {
    let heads = (1..=phone.executables.len()).map(|count| {
        let mut head = phone.clone();
        head.executables.truncate(count);
        head
    });
    let table_at = phone.header().executables_at as usize;
    first_record(heads, rule, table_at, Executable::SIZE)
}

fn first_row(phone: &Phone, rule: PartsRule) -> Option<Fault> {
    let heads = (1..=phone.table.len()).map(|count| {
        let mut head = phone.clone();
        head.table.truncate(count);
        head
    });
    let table_at = phone.header().table_at as usize;
    first_record(heads, rule, table_at, TABLE_ROW_SIZE)
}

/// The last record of the first head that breaks the rule; heads go up by one record each.
fn first_record(
    heads: impl Iterator<Item = Phone>,
    rule: PartsRule,
    table_at: usize,
    size: usize,
) -> Option<Fault> {
    heads
        .enumerate()
        .find_map(|(last, head)| rule(&head).map(|way| (last, way)))
        .map(|(last, way)| Fault {
            at: table_at + last * size,
            way,
        })
}
