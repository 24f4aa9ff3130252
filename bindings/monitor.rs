//! Egshurmal: the monitor of a simulated MExE phone, for Rust on x86-64.
//!
//! `./run library` proves the library and writes it to
//! `target/staticlib/libmonitor.a`. A program that has this file as a module is
//! linked with `-L native=target/staticlib`; `bindings/examples/lesson.rs` is such a
//! program, and `docs/EMBEDDING.md` goes through the first hour. It is Rust of the
//! edition 2021, from 1.63 on. `bindings/monitor.h` has the same names for C.
//!
//! Every function answers for any bytes and any length, and ends. What the
//! library cannot test (no null pointers, lengths that are true, buffers that
//! do not overlap) Rust's slices promise, so nothing here is unsafe to call.

// No program uses all of it.
#![allow(dead_code)]

use std::fmt;

// ---- sizes and limits

/// The largest image, in bytes.
pub const IMAGE_MAX: usize = 2536;
/// An event, in bytes.
pub const EVENT_SIZE: usize = 24;
/// An answer of a run, in bytes.
pub const ANSWER_SIZE: usize = 6;
/// A line of an explanation, in bytes.
pub const LINE_SIZE: usize = 3;
/// Room for every line of an explanation, in bytes.
pub const WHY_SIZE: usize = 192;
/// Room for the longest sentence of a line with a 0 at its end, as C has it, in bytes.
pub const SENTENCE_SIZE: usize = 56;
/// The largest timeline, in bytes.
pub const TIMELINE_MAX: usize = 32008;
/// A record of a timeline, in bytes.
pub const TIMED_SIZE: usize = 32;
/// Room for every event of a timeline, in bytes.
pub const EVENTS_SIZE: usize = 48000;

/// The header of an image, in bytes.
pub const HEADER_SIZE: usize = 40;
/// A certificate, in bytes.
pub const CERTIFICATE_SIZE: usize = 24;
/// A card, in bytes.
pub const CARD_SIZE: usize = 8;
/// An executable, in bytes.
pub const EXECUTABLE_SIZE: usize = 12;
/// A row of the table, in bytes.
pub const ROW_SIZE: usize = 4;
/// The header of a timeline, in bytes.
pub const TIMELINE_HEADER_SIZE: usize = 8;

/// The version of an image.
pub const IMAGE_VERSION: u16 = 1;
/// The version of a timeline.
pub const TIMELINE_VERSION: u16 = 1;
/// The most certificate slots of an image.
pub const CERTIFICATES_MAX: usize = 64;
/// The most cards of an image.
pub const CARDS_MAX: usize = 8;
/// The most executable slots of an image.
pub const EXECUTABLES_MAX: usize = 64;
/// The most actions of an image, which has at least one.
pub const ACTIONS_MAX: usize = 32;
/// The most ids that a message lists.
pub const LISTED_MAX: usize = 8;
/// The most links of a chain, its root included.
pub const LINKS_MAX: u8 = 4;
/// The most lines of an explanation.
pub const LINES_MAX: usize = 64;
/// The most records of a timeline.
pub const TIMED_MAX: usize = 1000;
/// The most events that a timeline stands for.
pub const EVENTS_MAX: usize = 2000;

const _: () = assert!(
    IMAGE_MAX
        == HEADER_SIZE
            + CERTIFICATES_MAX * CERTIFICATE_SIZE
            + CARDS_MAX * CARD_SIZE
            + EXECUTABLES_MAX * EXECUTABLE_SIZE
            + ACTIONS_MAX * ROW_SIZE
);
const _: () = assert!(WHY_SIZE == LINES_MAX * LINE_SIZE);
const _: () = assert!(TIMELINE_MAX == TIMELINE_HEADER_SIZE + TIMED_MAX * TIMED_SIZE);
const _: () = assert!(EVENTS_MAX == 2 * TIMED_MAX && EVENTS_SIZE == EVENTS_MAX * EVENT_SIZE);

// ---- answers

/// What an event is told: the lowest code that applies.
pub mod code {
    /// Done, or granted.
    pub const DONE: u8 = 0;
    /// The image breaks a rule.
    pub const IMAGE: u8 = 1;
    /// The event is not 24 bytes or breaks its form.
    pub const MALFORMED: u8 = 2;
    /// No record has an id that the event names.
    pub const UNKNOWN_ID: u8 = 3;
    /// The actor may not, or is another owner.
    pub const NOT_ALLOWED: u8 = 4;
    /// The new time is below the clock.
    pub const TIME_RUNS_BACK: u8 = 5;
    /// The card, or the place, is not in the table.
    pub const UNKNOWN_CARD: u8 = 6;
    /// Card in with one present, or card out with none.
    pub const CARD_OUT_OF_TURN: u8 = 7;
    /// The certificate is on a card that is not in.
    pub const CARD_ABSENT: u8 = 8;
    /// Install: another of the table has the id.
    pub const ID_TAKEN: u8 = 9;
    /// A certificate of another domain has the key.
    pub const KEY_OF_OTHER_DOMAIN: u8 = 10;
    /// The card is another operator's than the root.
    pub const OTHER_OPERATOR: u8 = 11;
    /// It is no root, or no third party root for a message.
    pub const NO_SUCH_ROOT: u8 = 12;
    /// Mark valid, replace: while another root is valid.
    pub const ANOTHER_IS_VALID: u8 = 13;
    /// Install: every slot is taken.
    pub const NO_FREE_SLOT: u8 = 14;
    /// Request: the table says never.
    pub const NEVER_GRANTED: u8 = 15;
    /// Request: the user has not permitted it.
    pub const NO_PERMISSION: u8 = 16;
    /// Replace: the recovery record does not serve it.
    pub const WRONG_RECOVERY: u8 = 17;
    /// Mark valid, replace: it expires before the clock.
    pub const PAST_ITS_DATE: u8 = 18;
    /// The timeline breaks its form.
    pub const TIMELINE: u8 = 19;
}

/// The rules of an image, in the order in which they are asked.
pub mod rule {
    /// I1: the header, and the buffer's length.
    pub const HEADER: u8 = 1;
    /// I2: the fields of each certificate.
    pub const CERTIFICATES: u8 = 2;
    /// I3: cards, the card present, places of certificates.
    pub const CARDS: u8 = 3;
    /// I4: ids, keys of one domain, owners of roots on cards.
    pub const KEYS: u8 = 4;
    /// I5: how many roots are valid at a time.
    pub const VALID_ROOTS: u8 = 5;
    /// I6: the bytes of the table.
    pub const TABLE: u8 = 6;
    /// I7: the fields of each executable.
    pub const EXECUTABLES: u8 = 7;
    /// I8: an executable with a domain chains to it.
    pub const CHAINS: u8 = 8;
}

/// What a line of an explanation says.
pub mod said {
    /// A certificate of the chain.
    pub const LINK: u8 = 1;
    /// An executable without a key.
    pub const UNSIGNED: u8 = 2;
    /// An executable whose key no certificate has.
    pub const UNHELD: u8 = 3;
    /// An executable in domain 0 despite a chain.
    pub const UNTRUSTED: u8 = 4;
    /// A certificate that is not good: it is a recovery key.
    pub const RECOVERY: u8 = 10;
    /// It is on an absent card.
    pub const ABSENT: u8 = 11;
    /// It is marked invalid.
    pub const INVALID: u8 = 12;
    /// It is disabled.
    pub const DISABLED: u8 = 13;
    /// It is past its date.
    pub const PAST: u8 = 14;
    /// It has no good signer within three links.
    pub const UNSERVED: u8 = 15;
}

// ---- what stands in a field

/// The domain of a certificate, which is never 0, or of an executable.
pub mod domain {
    pub const UNTRUSTED: u8 = 0;
    pub const OPERATOR: u8 = 1;
    pub const MANUFACTURER: u8 = 2;
    pub const THIRD_PARTY: u8 = 3;
}

/// Who does an event.
pub mod actor {
    pub const DEVICE: u8 = 0;
    pub const USER: u8 = 1;
    pub const OPERATOR: u8 = 2;
    pub const MANUFACTURER: u8 = 3;
    pub const ADMINISTRATOR: u8 = 4;
}

/// The kind of an event, with the fields that it has beside kind and actor, and who
/// may do it. Every other field is 0.
///
/// "Its actor" is the operator for a certificate of the operator's domain, and the
/// manufacturer for one of the manufacturer's. An operator or a manufacturer that
/// deletes or marks a certificate says in `OWNER` who it is, and has to be the
/// certificate's owner; every other actor has 0 there.
pub mod kind {
    /// `KEY`: the new time. The device.
    pub const CLOCK: u8 = 1;
    /// `SECOND`: a card. The device.
    pub const CARD_IN: u8 = 2;
    /// The device.
    pub const CARD_OUT: u8 = 3;
    /// `SECOND`: the card that is in, or 0. The device.
    pub const POWER_UP: u8 = 4;
    /// `ID`, `SECOND`: place, `THIRD`: kind, `FOURTH`: domain, `KEY`, `VERIFYING`,
    /// `OWNER`, `EXPIRY`. Its actor; of a third party one anybody but the device.
    pub const INSTALL_CERTIFICATE: u8 = 5;
    /// `ID`, `OWNER`. Its actor; of a third party one user or administrator.
    pub const DELETE_CERTIFICATE: u8 = 6;
    /// `ID`, `OWNER`. Its actor; of a third party one the administrator.
    pub const MARK_VALID: u8 = 7;
    /// `ID`, `OWNER`. Its actor; of a third party one the administrator.
    pub const MARK_INVALID: u8 = 8;
    /// `THIRD`: mode, `FOURTH`: how many ids are listed, and `LISTED`. The administrator.
    pub const MESSAGE: u8 = 9;
    /// `ID`, `KEY`: the signing key, or 0. Anybody but the device.
    pub const INSTALL_EXECUTABLE: u8 = 10;
    /// `ID`. Anybody but the device.
    pub const DELETE_EXECUTABLE: u8 = 11;
    /// `ID`. The device.
    pub const VERIFY: u8 = 12;
    /// `ID`, `SECOND`: action. The user.
    pub const GIVE: u8 = 13;
    /// `ID`, `SECOND`: action. The user.
    pub const WITHDRAW: u8 = 14;
    /// `ID`, `SECOND`: action. The device.
    pub const REQUEST: u8 = 15;
    /// `ID`: a root, `SECOND`: a recovery record, `KEY`, `VERIFYING`: the recovery key,
    /// `OWNER`, `EXPIRY`. Its actor; nobody where either record is a third party one.
    pub const REPLACE: u8 = 16;
}

/// The kind of a certificate.
pub mod certificate_kind {
    pub const ROOT: u8 = 0;
    pub const ISSUED: u8 = 1;
    pub const RECOVERY: u8 = 2;
}

/// The mark of a certificate.
pub mod mark {
    pub const INVALID: u8 = 0;
    pub const VALID: u8 = 1;
}

/// A certificate that is not enabled.
pub const DISABLED: u8 = 0;
/// A certificate that is enabled.
pub const ENABLED: u8 = 1;

/// The mode of a message, and the standing one of an image.
pub mod mode {
    pub const DISABLE_ALL: u8 = 0;
    pub const ENABLE_ALL: u8 = 1;
    pub const ENABLE_LISTED: u8 = 2;
}

/// What a byte of the table lets an executable of its domain do.
pub mod table {
    pub const NEVER: u8 = 0;
    pub const WITH_PERMISSION: u8 = 1;
    pub const FREELY: u8 = 2;
}

// ---- where a field stands, in bytes from the first of its record. All numbers are
// high byte first.

/// The header of an image. Behind it stand certificates, cards, executables and the
/// table, in that order and with no gap.
pub mod header {
    /// Two bytes: 1.
    pub const VERSION: usize = 0;
    /// Two: 0 to 64.
    pub const CERTIFICATE_SLOTS: usize = 2;
    /// Two: 0 to 8.
    pub const CARD_COUNT: usize = 4;
    /// Two: 0 to 64.
    pub const EXECUTABLE_SLOTS: usize = 6;
    /// Two: 1 to 32.
    pub const ACTION_COUNT: usize = 8;
    /// Two: the standing mode.
    pub const MODE: usize = 10;
    /// Two: the card present, or 0.
    pub const CARD: usize = 12;
    /// Two: 0.
    pub const BLANK: usize = 14;
    /// Four: the time, in seconds.
    pub const CLOCK: usize = 16;
    /// Four: where the certificates start, 40.
    pub const CERTIFICATES_AT: usize = 20;
    /// Four: where the cards start.
    pub const CARDS_AT: usize = 24;
    /// Four: where the executables start.
    pub const EXECUTABLES_AT: usize = 28;
    /// Four: where the table starts.
    pub const TABLE_AT: usize = 32;
    /// Four: the length of the image.
    pub const TOTAL: usize = 36;
}

/// A certificate. A free slot is all 0.
pub mod certificate {
    /// Two bytes, not 0.
    pub const ID: usize = 0;
    /// Two: 0 for the phone, or a card's number.
    pub const PLACE: usize = 2;
    /// One.
    pub const KIND: usize = 4;
    /// One: 1 to 3.
    pub const DOMAIN: usize = 5;
    /// One.
    pub const MARK: usize = 6;
    /// One.
    pub const ENABLED: usize = 7;
    /// Four, not 0.
    pub const KEY: usize = 8;
    /// Four: the key that verifies an issued one, else 0.
    pub const VERIFYING: usize = 12;
    /// Four.
    pub const OWNER: usize = 16;
    /// Four: its last second.
    pub const EXPIRY: usize = 20;
}

/// A card that the phone knows.
pub mod card {
    /// Two bytes, not 0.
    pub const NUMBER: usize = 0;
    /// Two: 0.
    pub const BLANK: usize = 2;
    /// Four.
    pub const OPERATOR: usize = 4;
}

/// An executable: an application. A free slot is all 0.
pub mod executable {
    /// Two bytes, not 0.
    pub const ID: usize = 0;
    /// One: 0 to 3.
    pub const DOMAIN: usize = 2;
    /// One: 0.
    pub const BLANK: usize = 3;
    /// Four: the signing key, or 0.
    pub const SIGNING: usize = 4;
    /// Four: a bit an action, action 0 the lowest.
    pub const PERMISSIONS: usize = 8;
}

/// A row of the table, one for each action: a byte for each domain.
pub mod row {
    pub const UNTRUSTED: usize = 0;
    pub const OPERATOR: usize = 1;
    pub const MANUFACTURER: usize = 2;
    pub const THIRD: usize = 3;
}

/// An event.
pub mod event {
    /// One byte.
    pub const KIND: usize = 0;
    /// One.
    pub const ACTOR: usize = 1;
    /// Two.
    pub const ID: usize = 2;
    /// Two.
    pub const SECOND: usize = 4;
    /// One.
    pub const THIRD: usize = 6;
    /// One.
    pub const FOURTH: usize = 7;
    /// Four.
    pub const KEY: usize = 8;
    /// Four.
    pub const VERIFYING: usize = 12;
    /// Four.
    pub const OWNER: usize = 16;
    /// Four.
    pub const EXPIRY: usize = 20;
    /// Of a message: eight ids of two bytes, unused ones 0.
    pub const LISTED: usize = 8;
}

/// The header of a timeline. Behind it stand its records.
pub mod timeline_header {
    /// Two bytes: 1.
    pub const VERSION: usize = 0;
    /// Two: how many records, 0 to 1,000.
    pub const COUNT: usize = 2;
    /// Four: where they start, 8.
    pub const RECORDS_AT: usize = 4;
}

/// A record of a timeline.
pub mod timed {
    /// Four bytes: when it is done.
    pub const SECOND: usize = 0;
    /// Four: 0.
    pub const BLANK: usize = 4;
    /// An event that is no clock event.
    pub const EVENT: usize = 8;
}

// ---- what the functions give back

/// Where an image is wrong: the first broken rule, 1 to 8, and an offset.
///
/// For rule 1 the offset is the first byte of the first wrong field of the
/// header, or the length of a buffer shorter than 40 bytes. For rules 2 to 8 it
/// is the first byte of the lowest record that breaks the rule alone or together
/// with lower ones, or 12 where the card present is not in the table.
#[derive(Clone, Copy, Debug, PartialEq, Eq)]
pub struct Fault {
    pub rule: u8,
    pub offset: u16,
}

impl fmt::Display for Fault {
    fn fmt(&self, out: &mut fmt::Formatter<'_>) -> fmt::Result {
        let Fault { rule, offset } = self;
        write!(out, "the image breaks rule {rule} at byte {offset}")
    }
}

/// What an event is told. Domain and links are 0 for every code but 0, rule and
/// offset for every code but 1, where they are those of the image's `Fault`.
#[derive(Clone, Copy, Debug, PartialEq, Eq)]
pub struct Answer {
    pub code: u8,
    pub domain: u8,
    pub links: u8,
    pub rule: u8,
    pub offset: u16,
}

/// A line of an explanation: what is said, one of `said`, and the id of the
/// certificate or the executable of which it is said.
#[derive(Clone, Copy, Debug, PartialEq, Eq)]
pub struct Line {
    pub said: u8,
    pub id: u16,
}

/// What a line says, in the words of the lessons and of the program `why`.
#[derive(Clone, Copy, Debug, PartialEq, Eq)]
pub struct Sentence {
    pub line: Line,
    /// The id of the line above, which verifies a link of a chain. The first, the root, has none.
    pub above: Option<u16>,
}

impl fmt::Display for Sentence {
    fn fmt(&self, out: &mut fmt::Formatter<'_>) -> fmt::Result {
        let Line { said, id } = self.line;
        match (said, self.above) {
            (said::LINK, None) => write!(out, "certificate {id} is a trusted root"),
            (said::LINK, Some(above)) => {
                write!(out, "certificate {id} is verified by certificate {above}")
            }
            (said::UNSIGNED, _) => write!(out, "application {id} is unsigned"),
            (said::UNHELD, _) => write!(out, "no certificate has the key of application {id}"),
            (said::UNTRUSTED, _) => {
                write!(out, "application {id} is untrusted until it is verified")
            }
            (said::RECOVERY, _) => write!(out, "certificate {id} is a recovery key"),
            (said::ABSENT, _) => write!(out, "certificate {id} is on an absent card"),
            (said::INVALID, _) => write!(out, "certificate {id} is marked invalid"),
            (said::DISABLED, _) => write!(out, "certificate {id} is disabled"),
            (said::PAST, _) => write!(out, "certificate {id} is past its date"),
            (said::UNSERVED, _) => write!(
                out,
                "certificate {id} has no good signer within three links"
            ),
            _ => write!(out, "{said} is said of {id}"),
        }
    }
}

/// Why there is no explanation.
#[derive(Clone, Copy, Debug, PartialEq, Eq)]
pub enum Unexplained {
    /// Code 1: the image is not accepted.
    Image(Fault),
    /// Code 3: no executable has the id.
    Unknown,
}

/// Why a timeline has no events to run.
#[derive(Clone, Copy, Debug, PartialEq, Eq)]
pub enum Unplayed {
    /// Code 1: the image is not accepted.
    Image(Fault),
    /// Code 19: the timeline breaks its form.
    Timeline,
}

/// The parts of a number: links in its bits 0 to 7, domain in 8 to 15, code in
/// 16 to 23, rule in 24 to 31 and offset in 32 to 47.
fn from_number(told: u64) -> Answer {
    Answer {
        code: (told >> 16) as u8,
        domain: (told >> 8) as u8,
        links: told as u8,
        rule: (told >> 24) as u8,
        offset: (told >> 32) as u16,
    }
}

/// The parts of an answer of a run, the offset high byte first.
fn from_bytes(told: &[u8]) -> Answer {
    Answer {
        code: told[0],
        domain: told[1],
        links: told[2],
        rule: told[3],
        offset: u16::from_be_bytes([told[4], told[5]]),
    }
}

// ---- the functions

#[link(name = "monitor", kind = "static")]
extern "C" {
    fn monitor_open(image: *const u8, image_length: usize) -> u64;
    fn monitor_step(
        image: *mut u8,
        image_length: usize,
        event: *const u8,
        event_length: usize,
    ) -> u64;
    fn monitor_run(
        image: *mut u8,
        image_length: usize,
        events: *const u8,
        events_length: usize,
        answers: *mut u8,
        answers_length: usize,
    ) -> usize;
    fn monitor_why(
        image: *const u8,
        image_length: usize,
        id: u16,
        lines: *mut u8,
        lines_length: usize,
    ) -> u64;
    fn monitor_timeline(
        image: *const u8,
        image_length: usize,
        timeline: *const u8,
        timeline_length: usize,
        events: *mut u8,
        events_length: usize,
    ) -> u64;
}

/// What opening an image tells: all 0 where the bytes are an image that keeps every
/// rule, and else what every event on it is told. Any bytes: too short, too long,
/// damaged.
pub fn opened(image: &[u8]) -> Answer {
    // SAFETY: a slice has as many bytes as it says, and nobody writes them while it is lent.
    from_number(unsafe { monitor_open(image.as_ptr(), image.len()) })
}

/// Whether the bytes are an image that keeps every rule, and where not. Any bytes:
/// too short, too long, damaged.
pub fn open(image: &[u8]) -> Result<(), Fault> {
    match opened(image) {
        Answer { code: 0, .. } => Ok(()),
        Answer { rule, offset, .. } => Err(Fault { rule, offset }),
    }
}

/// One event on an image, which is then the image after it. Code 1 where the
/// image is not accepted, 2 where the event is not 24 bytes or breaks its form;
/// every code but 0 leaves the image byte for byte.
pub fn step(image: &mut [u8], event: &[u8]) -> Answer {
    // SAFETY: slices have as many bytes as they say; the one that is written overlaps no other.
    from_number(unsafe {
        monitor_step(image.as_mut_ptr(), image.len(), event.as_ptr(), event.len())
    })
}

/// The events of a buffer one after the other, as `step` would answer each, on an
/// image that is opened once. The answers come into a lent buffer, six bytes each,
/// which `answers` reads, and the number of events answered comes back: it stops where
/// the events end or where there is no room for six bytes more, so that a caller with
/// little room goes on at 24 times that number. Bytes left over at the end of the
/// events are one event, with code 2.
pub fn run_into(image: &mut [u8], events: &[u8], answers: &mut [u8]) -> usize {
    // SAFETY: slices have as many bytes as they say; the two that are written overlap no other.
    unsafe {
        monitor_run(
            image.as_mut_ptr(),
            image.len(),
            events.as_ptr(),
            events.len(),
            answers.as_mut_ptr(),
            answers.len(),
        )
    }
}

/// The answers that `run_into` has written, one for each six bytes.
pub fn answers(told: &[u8]) -> impl Iterator<Item = Answer> + '_ {
    told.chunks_exact(ANSWER_SIZE).map(from_bytes)
}

/// The events of a buffer one after the other, as `step` would answer each, on
/// an image that is opened once. Bytes left over at the end are one event, with
/// code 2.
pub fn run(image: &mut [u8], events: &[u8]) -> Vec<Answer> {
    // As many as `div_ceil` would say, which Rust has for usize from 1.73 on.
    let count = events.chunks(EVENT_SIZE).len();
    let mut told = vec![0u8; count * ANSWER_SIZE];
    let answered = run_into(image, events, &mut told);
    debug_assert_eq!(answered, count);
    answers(&told).collect()
}

/// Why the executable with this id has its domain or has none, in 1 to 64 lines.
///
/// Where its key chains to a domain they are the certificates of a shortest
/// chain, root first, at each link from the signer up the lowest id that serves,
/// and behind them the executable where it is in domain 0 all the same. Where it
/// does not they are the certificates with that key, by id, each with the first
/// of its reasons, in the order of their numbers; or the executable, where it has
/// no key or no certificate has it.
pub fn why(image: &[u8], id: u16) -> Result<Vec<Line>, Unexplained> {
    let mut told = [0u8; WHY_SIZE];
    let count = why_into(image, id, &mut told)?;
    Ok(lines(&told).take(count).collect())
}

/// The same into a lent buffer, three bytes a line, which `lines` reads: as many lines
/// as it has room for. The number of lines that there are comes back.
pub fn why_into(image: &[u8], id: u16, lines: &mut [u8]) -> Result<usize, Unexplained> {
    // SAFETY: slices have as many bytes as they say; the one that is written overlaps no other.
    let told = unsafe {
        monitor_why(
            image.as_ptr(),
            image.len(),
            id,
            lines.as_mut_ptr(),
            lines.len(),
        )
    };
    let Answer {
        code, rule, offset, ..
    } = from_number(told);
    match code {
        code::DONE => Ok(usize::from(told as u16)),
        code::IMAGE => Err(Unexplained::Image(Fault { rule, offset })),
        _ => Err(Unexplained::Unknown),
    }
}

/// The lines that `why_into` has written, one for each three bytes.
pub fn lines(told: &[u8]) -> impl Iterator<Item = Line> + '_ {
    told.chunks_exact(LINE_SIZE).map(|line| Line {
        said: line[0],
        id: u16::from_be_bytes([line[1], line[2]]),
    })
}

/// The events of a timeline for an image, one after the other: those of its
/// records in order, with a clock event put in wherever the next second is above
/// the clock, at most 2,000. Running the timeline is `run` on them, with the same
/// image.
///
/// A timeline is a header, two bytes each of the version, 1, and of the number of
/// records, at most 1,000, and four of their offset, 8, and then exactly so many
/// records of 32 bytes: four bytes of the second, four that are zero, and an event
/// that is no clock event; all numbers high byte first. Seconds never fall, and
/// the first is not below the image's clock.
pub fn timeline(image: &[u8], timeline: &[u8]) -> Result<Vec<u8>, Unplayed> {
    let mut events = vec![0u8; EVENTS_SIZE];
    let count = timeline_into(image, timeline, &mut events)?;
    events.truncate(count * EVENT_SIZE);
    Ok(events)
}

/// The same into a lent buffer: as many whole events as it has room for. The number of
/// events that there are comes back.
pub fn timeline_into(image: &[u8], timeline: &[u8], events: &mut [u8]) -> Result<usize, Unplayed> {
    // SAFETY: slices have as many bytes as they say; the one that is written overlaps no other.
    let told = unsafe {
        monitor_timeline(
            image.as_ptr(),
            image.len(),
            timeline.as_ptr(),
            timeline.len(),
            events.as_mut_ptr(),
            events.len(),
        )
    };
    let Answer {
        code, rule, offset, ..
    } = from_number(told);
    match code {
        code::DONE => Ok(usize::from(told as u16)),
        code::IMAGE => Err(Unplayed::Image(Fault { rule, offset })),
        _ => Err(Unplayed::Timeline),
    }
}

// ---- beside the library, and not proved

/// How long the image is that the bytes begin with, as its header tells: where the bytes
/// are fewer, the rest is still to be read. Where the header tells a length that no
/// image has, it is the header's own, and where the bytes are no whole header, theirs:
/// `open` tells what is wrong with them.
pub fn image_length(bytes: &[u8]) -> usize {
    let total = match bytes.get(header::TOTAL..HEADER_SIZE) {
        Some(&[a, b, c, d]) => u32::from_be_bytes([a, b, c, d]) as usize,
        _ => return bytes.len(),
    };
    match total {
        HEADER_SIZE..=IMAGE_MAX => total,
        _ => HEADER_SIZE,
    }
}

/// The lines of an explanation in words, a sentence each.
pub fn sentences(lines: impl IntoIterator<Item = Line>) -> impl Iterator<Item = Sentence> {
    lines.into_iter().scan(None, |last, line| {
        let above = last.replace(line.id);
        Some(Sentence { line, above })
    })
}
