//! What a certificate's own fields say against it, as this page reads them off the image.
//!
//! These are no answers of `why`: it speaks of the certificates of a chain, and of those that have an
//! application's own key. A root behind "no good signer" is neither, and may still be what is wrong.

use reference::phone::{Certificate, Phone, ISSUED, ROOT};

/// Every field that keeps a certificate from being a link by itself. A recovery key is none in any case.
pub fn faults(phone: &Phone, certificate: &Certificate) -> Vec<&'static str> {
    let is_root = certificate.kind == ROOT;
    if !is_root && certificate.kind != ISSUED {
        return Vec::new();
    }
    let all = [
        ("card absent", !phone.is_present(certificate.place)),
        ("marked invalid", is_root && certificate.mark == 0),
        ("disabled", is_root && certificate.enabled == 0),
        ("past its date", !certificate.is_in_date(phone.clock)),
    ];
    let found = all.into_iter().filter(|(_, is_so)| *is_so);
    found.map(|(words, _)| words).collect()
}
