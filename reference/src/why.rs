//! Why an executable is trusted or not: a shortest chain of its key, or what is wrong with each
//! record that has the key.
//!
//! Follows 02, "Tell the trainee why", "Recovery keys" and "Roots have a date as well". Of all
//! chains that there are, the first by the words is taken; what is good within so many links is said
//! here by writing the chains down, and not by the rounds of `chain`.

use crate::bench::{event_records, refused_line, split_stream};
use crate::chain::{is_issued_in_date, is_trusted_root, MOST_LINKS};
use crate::events::step;
use crate::phone::{Certificate, Executable, Phone, ISSUED, RECOVERY, THIRD_PARTY, UNTRUSTED};
use crate::refusal::{open, Refusal};

/// What is wrong with a record that has the key, in the order in which it is asked.
#[derive(Clone, Copy, Debug, PartialEq, Eq)]
pub enum Reason {
    RecoveryKey,
    AbsentCard,
    MarkedInvalid,
    Disabled,
    PastItsDate,
    NoGoodSigner,
}

impl Reason {
    pub const ALL: [Reason; 6] = [
        Reason::RecoveryKey,
        Reason::AbsentCard,
        Reason::MarkedInvalid,
        Reason::Disabled,
        Reason::PastItsDate,
        Reason::NoGoodSigner,
    ];

    pub fn words(self) -> &'static str {
        match self {
            Reason::RecoveryKey => "is a recovery key",
            Reason::AbsentCard => "is on an absent card",
            Reason::MarkedInvalid => "is marked invalid",
            Reason::Disabled => "is disabled",
            Reason::PastItsDate => "is past its date",
            Reason::NoGoodSigner => "has no good signer within three links",
        }
    }

    /// A signer is asked of issued records alone, and a date of them and of roots.
    pub fn is_true_of(self, phone: &Phone, record: &Certificate) -> bool {
        match self {
            Reason::RecoveryKey => record.kind == RECOVERY,
            Reason::AbsentCard => !phone.is_present(record.place),
            Reason::MarkedInvalid => record.mark == 0,
            Reason::Disabled => record.enabled == 0,
            Reason::PastItsDate => record.kind != RECOVERY && !record.is_in_date(phone.clock),
            Reason::NoGoodSigner => record.kind == ISSUED && !has_good_signer(phone, record),
        }
    }
}

/// What is told of an executable.
#[derive(Clone, Debug, PartialEq, Eq)]
pub enum Answer {
    /// Code 1.
    RefusedImage(Refusal),
    /// Code 3.
    UnknownExecutable,
    Unsigned,
    NobodyHasTheKey,
    Chain {
        /// The root is the first one.
        links: Vec<Certificate>,
        /// The executable is in domain 0 all the same.
        is_untrusted: bool,
    },
    /// Each record with the key, by id, and the first true reason.
    NoChain(Vec<(Certificate, Reason)>),
}

impl Answer {
    /// The lines that are printed where an executable is asked for by this id.
    pub fn text(&self, id: u16) -> String {
        match self {
            Answer::RefusedImage(refusal) => refused_line(refusal),
            Answer::UnknownExecutable => "executable 3\n".to_string(),
            Answer::Unsigned => format!("application {id} is unsigned\n"),
            Answer::NobodyHasTheKey => format!("no certificate has the key of application {id}\n"),
            Answer::Chain {
                links,
                is_untrusted,
            } => {
                let mut text = chain_text(links);
                if *is_untrusted {
                    text += &format!("application {id} is untrusted until it is verified\n");
                }
                text
            }
            Answer::NoChain(records) => records
                .iter()
                .map(|(record, reason)| format!("certificate {} {}\n", record.id, reason.words()))
                .collect(),
        }
    }
}

/// A line for the root, and one for each record that is verified by the one before it.
fn chain_text(links: &[Certificate]) -> String {
    let root = links.iter().take(1);
    let root = root.map(|root| format!("certificate {} is a trusted root\n", root.id));
    let verified = links.windows(2).map(|pair| {
        let (by, record) = (pair[0].id, pair[1].id);
        format!("certificate {record} is verified by certificate {by}\n")
    });
    root.chain(verified).collect()
}

/// What is asked of a stream: about which executable, and after how many events.
#[derive(Clone, Copy, Debug, PartialEq, Eq)]
pub struct Question {
    pub id: u16,
    /// Without a number, none of them.
    pub events: Option<u64>,
}

impl Question {
    /// The question in the words of a command line, or what is wrong with them.
    pub fn of_words<W: AsRef<str>>(words: &[W]) -> Result<Question, String> {
        match words {
            [] => Err("the id of an executable is missing".to_string()),
            [id] => Ok(Question {
                id: small_number(id.as_ref())?,
                events: None,
            }),
            [id, events] => Ok(Question {
                id: small_number(id.as_ref())?,
                events: Some(count(events.as_ref())?),
            }),
            [_, _, word, ..] => {
                let word = word.as_ref().escape_debug();
                Err(format!("`{word}` is a word too many"))
            }
        }
    }

    pub fn words(&self) -> Vec<String> {
        let mut words = vec![self.id.to_string()];
        words.extend(self.events.map(|events| events.to_string()));
        words
    }

    pub fn answer(&self, stream: &[u8]) -> Answer {
        match phone_after(stream, self.events.unwrap_or(0)) {
            Ok(phone) => explain(&phone, self.id),
            Err(refusal) => Answer::RefusedImage(refusal),
        }
    }
}

fn has_digits_alone(word: &str) -> bool {
    word.bytes().all(|byte| byte.is_ascii_digit())
}

/// A number of events: a stream may have more of them than there are ids.
fn count(word: &str) -> Result<u64, String> {
    match word.parse() {
        Ok(number) if has_digits_alone(word) && word.len() <= 19 => Ok(number),
        _ => Err(format!(
            "expected a number of at most 19 digits, found `{}`",
            word.escape_debug()
        )),
    }
}

/// A number of digits alone, as far as an id goes.
fn small_number(word: &str) -> Result<u16, String> {
    match word.parse() {
        Ok(number) if has_digits_alone(word) => Ok(number),
        _ => Err(format!(
            "expected a number from 0 to 65535, found `{}`",
            word.escape_debug()
        )),
    }
}

/// The phone of a stream after so many events, fewer where it ends. Refused ones count too.
pub fn phone_after(stream: &[u8], events: u64) -> Result<Phone, Refusal> {
    let (image, records) = split_stream(stream);
    let mut phone = open(image)?;
    for record in event_records(records).take(events as usize) {
        step(&mut phone, record);
    }
    Ok(phone)
}

/// The answer for an executable of a phone. No executable has the id 0.
pub fn explain(phone: &Phone, id: u16) -> Answer {
    let Some(executable) = phone.executable(id) else {
        return Answer::UnknownExecutable;
    };
    if executable.signing_key == 0 {
        return Answer::Unsigned;
    }
    match shortest_chain(phone, executable.signing_key) {
        Some(links) => Answer::Chain {
            links,
            is_untrusted: executable.domain == UNTRUSTED,
        },
        None => explain_missing_chain(phone, executable),
    }
}

fn explain_missing_chain(phone: &Phone, executable: &Executable) -> Answer {
    let records = records_with_key(phone, executable.signing_key);
    if records.is_empty() {
        return Answer::NobodyHasTheKey;
    }
    let with_reason = |record: Certificate| {
        let reason = first_reason(phone, &record).expect("without a reason there is a chain");
        (record, reason)
    };
    Answer::NoChain(records.into_iter().map(with_reason).collect())
}

/// Every record with a key, in order of id.
pub fn records_with_key(phone: &Phone, key: u32) -> Vec<Certificate> {
    let with_key = phone.occupied_certificates().filter(|c| c.key == key);
    let mut records: Vec<Certificate> = with_key.copied().collect();
    records.sort_by_key(|record| record.id);
    records
}

fn first_reason(phone: &Phone, record: &Certificate) -> Option<Reason> {
    let mut reasons = Reason::ALL.into_iter();
    reasons.find(|reason| reason.is_true_of(phone, record))
}

fn has_good_signer(phone: &Phone, record: &Certificate) -> bool {
    (1..MOST_LINKS)
        .any(|links| !chains(phone, record.domain, record.verifying_key, links).is_empty())
}

/// The chain of a key that is printed, root first; I4 leaves one domain at most.
fn shortest_chain(phone: &Phone, key: u32) -> Option<Vec<Certificate>> {
    (1..=THIRD_PARTY).find_map(|domain| shortest_chain_in(phone, domain, key))
}

/// Of the chains of the least length, the one with the lowest ids from the signer up.
fn shortest_chain_in(phone: &Phone, domain: u8, key: u32) -> Option<Vec<Certificate>> {
    let all = (1..=MOST_LINKS)
        .map(|links| chains(phone, domain, key, links))
        .find(|all| !all.is_empty())?;
    let mut first = all.into_iter().min_by_key(|chain| ids(chain))?;
    first.reverse();
    Some(first)
}

fn ids(chain: &[Certificate]) -> Vec<u16> {
    chain.iter().map(|record| record.id).collect()
}

/// All chains of exactly so many links up from a key, the signer first and the root last.
pub fn chains(phone: &Phone, domain: u8, key: u32, links: u8) -> Vec<Vec<Certificate>> {
    let with_key = |record: &&Certificate| record.domain == domain && record.key == key;
    let mut all = Vec::new();
    for record in phone.occupied_certificates().filter(with_key) {
        if links == 1 && is_trusted_root(phone, record) {
            all.push(vec![*record]);
        }
        if links > 1 && is_issued_in_date(phone, record) {
            for above in chains(phone, domain, record.verifying_key, links - 1) {
                all.push([&[*record], above.as_slice()].concat());
            }
        }
    }
    all
}
