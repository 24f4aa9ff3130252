//! What stands in the box of one record, and how tall that makes it.

use reference::phone::{Certificate, Executable, Phone, ISSUED, ROOT, THIRD_PARTY, UNTRUSTED};

use super::measure::{width, wrap};
use super::said::{Said, Story};
use crate::page::changes::Tag;
use crate::page::faults::faults;
use crate::page::names;

/// The width of every box.
pub const BOX: i32 = 126;
/// Where a text begins and ends in it.
pub const INSET: i32 = 7;
/// How far the first line stands to the right, behind the sign of the domain.
pub const SIGN: i32 = 14;
/// The height in the box at which lines come and go.
pub const ATTACH: i32 = 17;

/// The sizes of letters, as the style sheet has them.
const TITLE_SIZE: f32 = 12.5;
const BODY_SIZE: f32 = 11.5;
const FOOT_SIZE: f32 = 11.5;
/// How much more room a bold letter takes.
const BOLD: f32 = 1.09;

pub const TITLE_STEP: i32 = 16;
pub const BODY_STEP: i32 = 13;
pub const FOOT_STEP: i32 = 13;

/// How a box looks, beside its domain.
#[derive(Clone, Copy, Debug, PartialEq, Eq)]
pub enum Look {
    /// Nothing is told of it.
    Plain,
    /// A link of a chain, or an application with a domain.
    Good,
    /// It does not serve, and its foot says why.
    Broken,
    /// An application that has a chain and waits to be verified.
    Waiting,
}

impl Look {
    pub fn class(self) -> &'static str {
        match self {
            Look::Plain => "plain",
            Look::Good => "good",
            Look::Broken => "broken",
            Look::Waiting => "waiting",
        }
    }
}

/// The content of one box.
#[derive(Clone, Debug)]
pub struct Record {
    pub title: Vec<String>,
    pub domain: u8,
    /// What stands behind the domain in its line.
    pub kind: &'static str,
    /// The lines under that one.
    pub body: Vec<String>,
    /// Those of them that say something against a certificate of which `why` says nothing.
    pub faults: Vec<&'static str>,
    /// What `why` says of it.
    pub foot: Vec<String>,
    pub look: Look,
    pub tag: Option<Tag>,
    /// Whether something else was said of it before the event.
    pub is_news: bool,
}

impl Record {
    pub fn body_top(&self) -> i32 {
        5 + TITLE_STEP * self.title.len() as i32
    }

    pub fn foot_top(&self) -> i32 {
        self.body_top() + BODY_STEP * (self.body.len() as i32 + 1) + 6
    }

    pub fn height(&self) -> i32 {
        match self.foot.len() as i32 {
            0 => self.foot_top() + 1,
            lines => self.foot_top() + FOOT_STEP * lines + 7,
        }
    }

    pub fn of_certificate(
        certificate: &Certificate,
        phone: &Phone,
        said: &Said,
        before: Option<&Said>,
        tag: Option<Tag>,
    ) -> Record {
        let told = said.certificates.get(&certificate.id);
        let words_before = before.and_then(|said| said.words_of(certificate.id));
        let faults = match told {
            None => faults(phone, certificate),
            Some(_) => Vec::new(),
        };
        Record {
            title: vec![format!("certificate {}", certificate.id)],
            domain: certificate.domain,
            kind: kind_beside_domain(certificate),
            body: body_of(certificate, &faults),
            faults,
            foot: told.map_or(Vec::new(), |told| foot(&told.words)),
            look: match told {
                None => Look::Plain,
                Some(told) if told.serves => Look::Good,
                Some(_) => Look::Broken,
            },
            tag,
            is_news: told.is_some_and(|told| words_before.is_some_and(|old| old != told.words)),
        }
    }

    /// One box for applications that are alike; the first stands for the others.
    pub fn of_applications(alike: &[&Executable], story: &Story, tag: Option<Tag>) -> Record {
        let first = alike[0];
        let mut body = Vec::new();
        if first.signing_key != 0 {
            body.extend(small(&format!("signed, key {}", first.signing_key)));
        }
        let own = story.own.iter().map(|words| match alike.len() {
            1 => words.clone(),
            _ => words_of_many(words),
        });
        Record {
            title: title_of(alike),
            domain: first.domain,
            kind: "",
            body,
            faults: Vec::new(),
            foot: own.flat_map(|words| foot(&words)).collect(),
            look: look_of(first, story),
            tag,
            is_news: false,
        }
    }
}

fn small(text: &str) -> Vec<String> {
    wrap(text, BODY_SIZE, BOX - 2 * INSET)
}

fn foot(words: &str) -> Vec<String> {
    wrap(words, FOOT_SIZE * BOLD, BOX - 2 * INSET)
}

/// The kind, where it fits behind the domain.
fn kind_beside_domain(certificate: &Certificate) -> &'static str {
    let (domain, kind) = (
        names::domain(certificate.domain),
        names::kind(certificate.kind),
    );
    let both = width(domain, BODY_SIZE * BOLD) + width(kind, BODY_SIZE) + 4;
    match both <= BOX - 2 * INSET - SIGN {
        true => kind,
        false => "",
    }
}

/// The fields, and the faults that are not among them as words.
fn body_of(certificate: &Certificate, faults: &[&str]) -> Vec<String> {
    let mut lines = Vec::new();
    if kind_beside_domain(certificate).is_empty() {
        lines.push(names::kind(certificate.kind).to_string());
    }
    if certificate.kind == ROOT {
        lines.push(names::mark(certificate).to_string());
    }
    if certificate.kind == ROOT && certificate.domain == THIRD_PARTY {
        lines.push(names::enabled(certificate).to_string());
    }
    lines.extend(match certificate.kind {
        ISSUED => small(&format!(
            "key {} by {}",
            certificate.key, certificate.verifying_key
        )),
        _ => small(&format!("key {}", certificate.key)),
    });
    lines.push(format!("owner {}", certificate.owner));
    lines.push(format!("until {}", certificate.expiry));
    for fault in faults {
        if !lines.iter().any(|line| line == fault) {
            lines.push(fault.to_string());
        }
    }
    lines
}

fn title_of(alike: &[&Executable]) -> Vec<String> {
    let ids = names::list(alike.iter().map(|application| application.id));
    let word = match alike.len() {
        1 => "application",
        _ => "applications",
    };
    wrap(&format!("{word} {ids}"), TITLE_SIZE * BOLD, BOX - 2 * INSET)
}

/// Words about one application, said of each of several.
fn words_of_many(words: &str) -> String {
    match words.split_once(" of application ") {
        Some((words, _)) => words.to_string(),
        None => format!("each {words}"),
    }
}

fn look_of(application: &Executable, story: &Story) -> Look {
    match application.domain {
        UNTRUSTED if !story.chain.is_empty() => Look::Waiting,
        UNTRUSTED => Look::Plain,
        _ => Look::Good,
    }
}
