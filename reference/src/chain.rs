//! Which records are good, what an executable chains to, and over how many links.
//!
//! Follows 01, "Chains". The recursion is the definition's own: the records good within n
//! are found from the records good within n - 1, and within 0 nothing is good. By 02, "Recovery
//! keys", a recovery record is neither a trusted root nor a link: it is never good. By 02, "Roots
//! have a date as well", every link has to be in date, the root included.

use crate::phone::{Certificate, Phone, ISSUED, ROOT};

/// The longest chain, root included.
pub const MOST_LINKS: u8 = 4;

/// What an executable chains to, and the least number of links that serves.
#[derive(Clone, Copy, Debug, PartialEq, Eq)]
pub struct Chain {
    pub domain: u8,
    pub links: u8,
}

/// For each certificate slot, whether its record is good within so many links.
pub fn good_within(phone: &Phone, links: u8) -> Vec<bool> {
    if links == 0 {
        return vec![false; phone.certificates.len()];
    }
    let shorter = good_within(phone, links - 1);
    phone
        .certificates
        .iter()
        .map(|slot| match slot {
            Some(record) => {
                is_trusted_root(phone, record) || is_well_issued(phone, record, &shorter)
            }
            None => false,
        })
        .collect()
}

/// A present root in date with mark 1 and enabled 1.
pub fn is_trusted_root(phone: &Phone, record: &Certificate) -> bool {
    record.kind == ROOT
        && phone.is_present(record.place)
        && record.mark == 1
        && record.enabled == 1
        && record.is_in_date(phone.clock)
}

/// A present issued record in date whose verifying key is the key of a good record of its domain.
fn is_well_issued(phone: &Phone, record: &Certificate, good: &[bool]) -> bool {
    is_issued_in_date(phone, record)
        && some_good_record(phone, good, record.domain, record.verifying_key)
}

/// What a link above the root has to be, whoever has signed it.
pub fn is_issued_in_date(phone: &Phone, record: &Certificate) -> bool {
    record.kind == ISSUED && phone.is_present(record.place) && record.is_in_date(phone.clock)
}

/// Every record with the key is asked, since a bad twin may stand before a good one.
fn some_good_record(phone: &Phone, good: &[bool], domain: u8, key: u32) -> bool {
    phone
        .certificates
        .iter()
        .zip(good)
        .any(|(slot, &is_good)| match slot {
            Some(record) => is_good && record.domain == domain && record.key == key,
            None => false,
        })
}

/// The good records of one state, for each number of links, so that many questions cost little.
pub struct Trust<'a> {
    phone: &'a Phone,
    within: Vec<Vec<bool>>,
}

impl<'a> Trust<'a> {
    pub fn of(phone: &'a Phone) -> Trust<'a> {
        let within = (0..=MOST_LINKS).map(|n| good_within(phone, n)).collect();
        Trust { phone, within }
    }

    /// The least n within which a record of the domain with this key is good; 0 where none is.
    pub fn links_to(&self, signing_key: u32, domain: u8) -> u8 {
        if signing_key == 0 {
            return 0;
        }
        (1..=MOST_LINKS)
            .find(|&n| {
                some_good_record(
                    self.phone,
                    &self.within[usize::from(n)],
                    domain,
                    signing_key,
                )
            })
            .unwrap_or(0)
    }

    /// The one domain that the key chains to; I4 makes it unique.
    pub fn chain_of(&self, signing_key: u32) -> Option<Chain> {
        (1..=3).find_map(|domain| match self.links_to(signing_key, domain) {
            0 => None,
            links => Some(Chain { domain, links }),
        })
    }
}
