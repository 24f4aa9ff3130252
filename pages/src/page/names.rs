//! Words and class names for the numbers of an image.

use reference::phone::{
    Certificate, Phone, DISABLE_ALL, ENABLE_ALL, ENABLE_LISTED, ISSUED, MANUFACTURER, OPERATOR,
    RECOVERY, ROOT, THIRD_PARTY, UNTRUSTED,
};

pub const DOMAINS: [u8; 4] = [UNTRUSTED, OPERATOR, MANUFACTURER, THIRD_PARTY];

pub fn domain(number: u8) -> &'static str {
    match number {
        UNTRUSTED => "untrusted",
        OPERATOR => "operator",
        MANUFACTURER => "manufacturer",
        THIRD_PARTY => "third party",
        _ => "unknown",
    }
}

/// The class of a domain in the style sheet.
pub fn domain_class(number: u8) -> &'static str {
    match number {
        OPERATOR => "op",
        MANUFACTURER => "mf",
        THIRD_PARTY => "tp",
        _ => "un",
    }
}

pub fn kind(number: u8) -> &'static str {
    match number {
        ROOT => "root",
        ISSUED => "issued",
        RECOVERY => "recovery key",
        _ => "unknown kind",
    }
}

/// A table byte.
pub fn grant(byte: u8) -> &'static str {
    match byte {
        0 => "never",
        1 => "with permission",
        2 => "freely",
        _ => "unknown",
    }
}

pub fn mode(number: u16) -> &'static str {
    match u8::try_from(number) {
        Ok(DISABLE_ALL) => "disable all third party roots",
        Ok(ENABLE_ALL) => "enable all third party roots",
        Ok(ENABLE_LISTED) => "enable the listed third party roots",
        _ => "unknown",
    }
}

pub fn mark(certificate: &Certificate) -> &'static str {
    match certificate.mark {
        0 => "marked invalid",
        _ => "marked valid",
    }
}

pub fn enabled(certificate: &Certificate) -> &'static str {
    match certificate.enabled {
        0 => "disabled",
        _ => "enabled",
    }
}

pub fn card_present(phone: &Phone) -> String {
    match phone.card_present {
        0 => "none".to_string(),
        number => match phone.card(number) {
            Some(card) => format!("card {number} of operator {}", card.operator),
            None => format!("card {number}"),
        },
    }
}

/// A list of numbers with commas between them.
pub fn list<N: ToString>(numbers: impl IntoIterator<Item = N>) -> String {
    let words: Vec<String> = numbers.into_iter().map(|n| n.to_string()).collect();
    words.join(", ")
}
