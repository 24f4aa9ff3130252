//! Words for the numbers of the monitor: actors, domains, events, codes and image rules.
//!
//! They follow the tables of the specification and of the landed requests for changes. A code is
//! put into words by its number, its kind of event and who acts. Nothing here looks at a phone: where
//! a code has several causes, the words name them all.

use reference::events::*;
use reference::phone::{ENABLE_ALL, ENABLE_LISTED, ISSUED, RECOVERY, ROOT};
use reference::text::event_text;

/// The application of a domain, with its article.
pub fn application_of(domain: u8) -> &'static str {
    match domain {
        0 => "an untrusted application",
        1 => "an application of the operator's domain",
        2 => "an application of the manufacturer's domain",
        3 => "an application of the third party domain",
        _ => "an application of an unknown domain",
    }
}

/// A domain that something is in.
pub fn domain(domain: u8) -> &'static str {
    match domain {
        0 => "untrusted",
        1 => "operator's domain",
        2 => "manufacturer's domain",
        3 => "third party domain",
        _ => "unknown domain",
    }
}

/// An actor, as the text form of lessons calls it.
pub fn actor(actor: u8) -> &'static str {
    match actor {
        DEVICE => "device",
        USER => "user",
        OPERATOR_ACTOR => "operator",
        MANUFACTURER_ACTOR => "manufacturer",
        ADMINISTRATOR => "administrator",
        _ => "nobody known",
    }
}

/// A kind of event.
pub fn kind(kind: u8) -> &'static str {
    match kind {
        CLOCK => "clock",
        CARD_IN => "card in",
        CARD_OUT => "card out",
        POWER_UP => "power up",
        INSTALL_CERTIFICATE => "install certificate",
        DELETE_CERTIFICATE => "delete certificate",
        MARK_VALID => "mark valid",
        MARK_INVALID => "mark invalid",
        CONFIGURATION => "message",
        INSTALL_EXECUTABLE => "install application",
        DELETE_EXECUTABLE => "delete application",
        VERIFY => "verify",
        GIVE => "give permission",
        WITHDRAW => "withdraw permission",
        REQUEST => "request",
        REPLACE => "replace",
        _ => "unknown kind",
    }
}

/// A number of links.
pub fn links(links: u8) -> String {
    match links {
        1 => "1 link".to_string(),
        _ => format!("{links} links"),
    }
}

// Events.

/// An event as a person would say it. One that has no words of its own is told in bytes, since words
/// that leave something out would hide why it is refused.
pub fn event(record: &[u8]) -> String {
    let in_text = event_text(record);
    match Event::decode(record) {
        Some(event) if !in_text.starts_with("bytes") => words_of(&event),
        Some(event) => format!("{}, in {in_text}", kind(event.kind)),
        None => in_text,
    }
}

/// A clock event that nobody wrote: a timeline's next second is above the clock.
pub fn clock_put_in(second: u32) -> String {
    format!("clock put in, to second {second}")
}

fn words_of(event: &Event) -> String {
    let head = format!("{} by {}", kind(event.kind), acting(event));
    match about(event) {
        about if about.is_empty() => head,
        about => format!("{head}, {about}"),
    }
}

/// The actor, and which one where the event says so.
fn acting(event: &Event) -> String {
    match event.names_who_acts() {
        true => format!("{} {}", actor(event.actor), event.owner),
        false => actor(event.actor).to_string(),
    }
}

/// What the event is about.
fn about(event: &Event) -> String {
    let id = event.id;
    match event.kind {
        CLOCK => format!("to second {}", event.key),
        CARD_IN | POWER_UP => card(event.second),
        INSTALL_CERTIFICATE => new_certificate(event),
        DELETE_CERTIFICATE | MARK_VALID | MARK_INVALID => format!("certificate {id}"),
        CONFIGURATION => message(event),
        INSTALL_EXECUTABLE if event.key == 0 => format!("application {id}, unsigned"),
        INSTALL_EXECUTABLE => format!("application {id}, signed with key {}", event.key),
        DELETE_EXECUTABLE | VERIFY => format!("application {id}"),
        GIVE | WITHDRAW | REQUEST => format!("application {id}, action {}", event.second),
        REPLACE => format!(
            "certificate {id} with recovery key {}, new key {} verified by key {}, owner {}, until second {}",
            event.second, event.key, event.verifying_key, event.owner, event.expiry
        ),
        _ => String::new(),
    }
}

fn card(number: u16) -> String {
    match number {
        0 => "no card".to_string(),
        number => format!("card {number}"),
    }
}

fn new_certificate(event: &Event) -> String {
    let place = match event.second {
        0 => "the phone".to_string(),
        number => card(number),
    };
    let sort = match event.third {
        ROOT => "a root",
        ISSUED => "issued",
        RECOVERY => "a recovery key",
        _ => "of an unknown kind",
    };
    let verified = match event.third {
        ISSUED => format!(" verified by key {}", event.verifying_key),
        _ => String::new(),
    };
    format!(
        "certificate {} on {place}, {sort}, {}, key {}{verified}, owner {}, until second {}",
        event.id,
        domain(event.fourth),
        event.key,
        event.owner,
        event.expiry
    )
}

fn message(event: &Event) -> String {
    let listed = usize::from(event.fourth.min(MOST_LISTED));
    match event.third {
        ENABLE_ALL => "enable all third party roots".to_string(),
        ENABLE_LISTED if listed == 0 => "enable no third party root".to_string(),
        ENABLE_LISTED => {
            let ids = &event.list_places()[..listed];
            let ids: Vec<String> = ids.iter().map(u16::to_string).collect();
            format!(
                "enable third party roots {} and disable the rest",
                ids.join(", ")
            )
        }
        _ => "disable all third party roots".to_string(),
    }
}

// Answers.

/// What a code says of some kinds of event; no kinds are all of them.
struct Row {
    code: u8,
    kinds: &'static [u8],
    words: &'static str,
}

const fn row(code: u8, kinds: &'static [u8], words: &'static str) -> Row {
    Row { code, kinds, words }
}

impl Row {
    fn is_for(&self, code: u8, kind: u8) -> bool {
        self.code == code && (self.kinds.is_empty() || self.kinds.contains(&kind))
    }
}

const MARKING: &[u8] = &[MARK_VALID, MARK_INVALID];
const OF_CERTIFICATES: &[u8] = &[DELETE_CERTIFICATE, MARK_VALID, MARK_INVALID];
const WITH_ACTION: &[u8] = &[GIVE, WITHDRAW, REQUEST];
const BY_THE_DEVICE: &[u8] = &[CLOCK, CARD_IN, CARD_OUT, POWER_UP, VERIFY, REQUEST];

/// In `CODES`, the actor of the event.
const WHO: &str = "WHO";
/// In `CODES`, the application of the event by its domain.
const APPLICATION: &str = "APPLICATION";

/// Every code in words, the special rows of a code before its general one.
const CODES: &[Row] = &[
    row(0, &[REQUEST], "granted"),
    row(0, &[], "done"),
    row(1, &[], "the image breaks a rule"),
    row(
        2,
        WITH_ACTION,
        "there is no such action, or the event is out of form",
    ),
    row(2, &[], "the event is out of form"),
    row(3, OF_CERTIFICATES, "there is no such certificate"),
    row(
        3,
        &[CONFIGURATION],
        "a certificate on the list is not there",
    ),
    row(3, &[REPLACE], "one of the two certificates is not there"),
    row(3, &[], "there is no such application"),
    row(4, BY_THE_DEVICE, "only the device does this"),
    row(4, &[GIVE, WITHDRAW], "only the user does this"),
    row(4, &[CONFIGURATION], "only the administrator does this"),
    row(4, &[INSTALL_EXECUTABLE, DELETE_EXECUTABLE], "WHO may not"),
    row(
        4,
        &[INSTALL_CERTIFICATE],
        "WHO may not install a certificate of this domain",
    ),
    row(4, &[REPLACE], "WHO may not replace a root of this domain"),
    row(
        4,
        OF_CERTIFICATES,
        "WHO may not do this to this certificate",
    ),
    row(4, &[], "WHO may not"),
    row(5, &[], "the clock does not go back"),
    row(6, &[], "there is no such card"),
    row(7, &[CARD_IN], "a card is in already"),
    row(7, &[CARD_OUT], "no card is in"),
    row(7, &[], "the card is not as the event needs it"),
    row(8, &[], "the certificate's card is not in"),
    row(9, &[], "the id is taken"),
    row(10, &[], "a certificate of another domain has this key"),
    row(11, &[INSTALL_CERTIFICATE], "the card is another operator's"),
    row(11, &[], "a card of another operator is in"),
    row(12, MARKING, "only a root can be marked"),
    row(12, &[REPLACE], "only a root can be replaced"),
    row(12, &[], "a certificate on the list is no third party root"),
    row(13, &[], "another root is valid already"),
    row(
        14,
        &[INSTALL_CERTIFICATE],
        "no slot is free for a certificate",
    ),
    row(14, &[], "no slot is free for an application"),
    row(15, &[], "never for APPLICATION"),
    row(16, &[], "APPLICATION needs the user's permission"),
    row(17, &[], "this recovery key cannot replace this root"),
    row(18, &[REPLACE], "the new date is past already"),
    row(18, &[], "the root is past its date"),
    row(19, &[], "the timeline breaks its form"),
];

/// The words of code 4 where an operator or a manufacturer says which one it is: it may be of the wrong
/// sort for the certificate, or not its owner.
const NOT_ITS_OWN: &str = "WHO may not: the certificate is not its own";

/// The words of code 2 where the bytes end too early.
const CUT: &str = "the event is cut, it has less than 24 bytes";

/// The words of a code, as `CODES` has them; every number has some.
pub fn code(code: u8, kind: u8) -> &'static str {
    let row = CODES.iter().find(|row| row.is_for(code, kind));
    row.map_or("there are no words for this code", |row| row.words)
}

/// An answer as a program printed it.
#[derive(Clone, Copy, Debug, PartialEq, Eq)]
pub struct Answer {
    pub kind: u8,
    pub code: u8,
    pub domain: u8,
    pub links: u8,
}

/// The answer to an event in words, with its code. `holder` is the domain of the application that the
/// event is about, where that is known.
pub fn answer(record: &[u8], answer: Answer, holder: Option<u8>) -> String {
    let words = match answer.code {
        0 => done(answer),
        code => format!("refused: {}", refusal(record, code, answer.kind, holder)),
    };
    format!("{words} ({})", answer.code)
}

/// What was done; only a verify and a request tell domain and links.
fn done(answer: Answer) -> String {
    let words = code(0, answer.kind);
    match (answer.kind, answer.domain) {
        (VERIFY, 0) => format!("{words}: untrusted"),
        (REQUEST, 0) => format!("{words} to {}", application_of(0)),
        (VERIFY | REQUEST, of) => format!("{words}, {}, {}", domain(of), links(answer.links)),
        _ => words.to_string(),
    }
}

fn refusal(record: &[u8], number: u8, kind: u8, holder: Option<u8>) -> String {
    let event = Event::decode(record);
    let says_who = event.filter(Event::names_who_acts);
    let words = match number {
        2 if record.len() < Event::SIZE => CUT,
        4 if says_who.is_some() => NOT_ITS_OWN,
        _ => code(number, kind),
    };
    let who = match (says_who, event) {
        (Some(event), _) => acting(&event),
        (None, Some(event)) => format!("the {}", acting(&event)),
        (None, None) => "this actor".to_string(),
    };
    let application = holder.map_or("this application", application_of);
    words.replace(WHO, &who).replace(APPLICATION, application)
}

// Images.

/// What an image rule asks, 1 to 8.
pub fn rule(rule: u8) -> &'static str {
    match rule {
        1 => "the header, 40 bytes, has version 1, at most 64 certificate slots, 8 cards and 64 application slots, 1 to 32 actions, a mode from 0 to 2 and a zero behind the card present; and that the tables of certificates, cards, applications and actions follow it in this order without a gap, each where the header says, up to the end of the image, which is as long as the header says",
        2 => "each certificate is a free slot, all zero, or has an id and a key that are not 0, a kind from 0 to 2, a domain from 1 to 3, and a mark and an enabled of 0 or 1. A root has no verifying key, is on the phone if it is a manufacturer's, and enabled if it is no third party's; an issued one has a verifying key, and is marked valid and enabled; a recovery key is on the phone, an operator's or a manufacturer's, has no verifying key, and is enabled and not marked valid",
        3 => "each card has a number that is not 0 and no other card has, and a zero behind it; and that the card present, and the card of each certificate that is on one, are in the table",
        4 => "certificates have distinct ids, no two of different domains have the same key, and an operator root on a card has the card's operator as owner",
        5 => "at most one operator root is valid on the phone and on each card; none on the phone while the present card has a valid one; with a card present, the one on the phone belongs to the card's operator; and at most one manufacturer root is valid. A root is valid that is marked valid and not past its date",
        6 => "each action has 0 (never), 1 (ask) or 2 (free) for untrusted applications and for each of the three domains, and the number for untrusted ones is no larger than the others",
        7 => "each application is a free slot, all zero, or has an id that is not 0 and no other application has, a domain from 0 to 3, a zero behind it, and permissions only for actions that are in the table",
        8 => "each application with a domain is signed with the key of a certificate that chains to it: at most four certificates of that domain, all present and in date, each verified by the one before it, and the first a root that is marked valid and enabled",
        _ => "a rule that has no words",
    }
}

#[cfg(test)]
mod tests {
    use super::*;

    #[test]
    fn every_code_has_words_for_every_kind() {
        for number in 0..=reference::timeline::REFUSED {
            for kind in 0..=255 {
                assert_ne!(code(number, kind), "there are no words for this code");
            }
        }
    }

    #[test]
    fn every_row_is_reached() {
        for row in CODES {
            let kinds: Vec<u8> = match row.kinds {
                [] => (0..=255).collect(),
                kinds => kinds.to_vec(),
            };
            assert!(kinds.iter().any(|&kind| code(row.code, kind) == row.words));
        }
    }

    #[test]
    fn no_placeholder_is_left() {
        let mut record = [0; Event::SIZE];
        for number in 0..=20 {
            for kind in 0..=20 {
                record[0] = kind;
                let given = Answer {
                    kind,
                    code: number,
                    domain: 0,
                    links: 0,
                };
                for record in [&record[..], &record[..5], &[]] {
                    let told = answer(record, given, None);
                    assert!(!told.contains(WHO) && !told.contains(APPLICATION));
                    assert!(told.ends_with(&format!("({number})")));
                }
            }
        }
    }

    #[test]
    fn events_of_any_bytes_have_words() {
        for kind in 0..=255 {
            for actor in [0, 2, 4, 5, 255] {
                for fill in [0, 1, 2, 3, 255] {
                    let mut record = [fill; Event::SIZE];
                    record[0] = kind;
                    record[1] = actor;
                    assert!(!event(&record).is_empty());
                }
            }
        }
        assert_eq!(event(&[3, 0]), "bytes 03 00");
        assert!(event(&[3; Event::SIZE]).starts_with("card out, in bytes 03 03 "));
        assert!(event(&[99; Event::SIZE]).starts_with("unknown kind, in bytes 63 63 "));
        assert_eq!(event(&[]), "bytes ");
    }

    #[test]
    fn rules_have_words() {
        for number in 1..=8 {
            assert_ne!(rule(number), "a rule that has no words");
            assert!(!rule(number).ends_with('.'));
        }
        // What 01 and its changes say of valid roots, clause by clause.
        for clause in [
            "at most one operator root is valid on the phone and on each card",
            "none on the phone while the present card has a valid one",
            "with a card present, the one on the phone belongs to the card's operator",
            "at most one manufacturer root is valid",
            "marked valid and not past its date",
        ] {
            assert!(rule(5).contains(clause), "{clause}");
        }
    }
}
