//! The definition of 01, "Chains", with the dates of 02, asked record by record, against the answer
//! of the crate.

use reference::chain::{Trust, MOST_LINKS};
use reference::generate::images::{accepted_phone, Shape};
use reference::phone::{Certificate, Phone};
use reference::random::Random;

/// The definition word for word; every good record is in date, a root too.
fn is_good(phone: &Phone, record: &Certificate, links: u8) -> bool {
    if links == 0 {
        return false;
    }
    let present = record.place == 0 || record.place == phone.card_present;
    let in_date = phone.clock <= record.expiry;
    let trusted_root =
        record.kind == 0 && present && record.mark == 1 && record.enabled == 1 && in_date;
    trusted_root
        || record.kind == 1
            && present
            && in_date
            && phone.occupied_certificates().any(|other| {
                other.domain == record.domain
                    && other.key == record.verifying_key
                    && is_good(phone, other, links - 1)
            })
}

fn least_links(phone: &Phone, key: u32, domain: u8) -> u8 {
    (1..=MOST_LINKS)
        .find(|&links| {
            phone
                .occupied_certificates()
                .any(|c| c.key == key && c.domain == domain && is_good(phone, c, links))
        })
        .unwrap_or(0)
}

#[test]
fn the_answer_is_the_definitions() {
    let mut with_links = [0; 5];
    for number in 0..300 {
        let random = &mut Random::of_case(9, number);
        let shape = Shape::any(random);
        let phone = accepted_phone(random, shape);
        let trust = Trust::of(&phone);
        for record in phone.occupied_certificates() {
            let links = trust.links_to(record.key, record.domain);
            assert_eq!(links, least_links(&phone, record.key, record.domain));
            with_links[usize::from(links)] += 1;
        }
    }
    assert!(with_links.iter().all(|&count| count > 20), "{with_links:?}");
}
