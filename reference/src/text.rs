//! A text form of streams and timelines that can be read, compared and written by hand.
//!
//! Follows 01, "The image" and "Events", and 02, "Recovery keys" and "An operator is somebody in
//! particular", with a word for each number that has a meaning. Whatever has no words is written in
//! hex, so that every byte string has a text form that leads back to exactly the same bytes. README.md
//! has the grammar.

mod places;
mod timelines;

use crate::bench::{event_records, split_stream};
use crate::events::*;
use crate::image_rules::i1_header;
use crate::phone::{
    Card, Certificate, Executable, Phone, TableRow, ENABLE_LISTED, ISSUED, MOST_ACTIONS,
    MOST_CARDS, MOST_CERTIFICATES, MOST_EXECUTABLES, RECOVERY, ROOT, TABLE_ROW_SIZE,
};

use places::PartLines;
pub use places::{Place, PlacedBytes};
pub use timelines::timeline_to_text;
use timelines::Timeline;

/// A line that could not be understood, and what was expected there.
#[derive(Clone, Debug, PartialEq, Eq)]
pub struct Wrong {
    pub line: usize,
    pub message: String,
}

impl std::fmt::Display for Wrong {
    fn fmt(&self, out: &mut std::fmt::Formatter) -> std::fmt::Result {
        write!(out, "line {}: {}", self.line, self.message)
    }
}

/// Words with their numbers, for both directions.
type Vocabulary = &'static [(&'static str, u8)];

const DOMAINS: Vocabulary = &[
    ("untrusted", 0),
    ("operator", 1),
    ("manufacturer", 2),
    ("third-party", 3),
];
const ACTORS: Vocabulary = &[
    ("device", DEVICE),
    ("user", USER),
    ("operator", OPERATOR_ACTOR),
    ("manufacturer", MANUFACTURER_ACTOR),
    ("administrator", ADMINISTRATOR),
];
const KINDS: Vocabulary = &[("root", ROOT), ("issued", ISSUED), ("recovery", RECOVERY)];
const MARKS: Vocabulary = &[("invalid", 0), ("valid", 1)];
const ENABLED: Vocabulary = &[("disabled", 0), ("enabled", 1)];
const GRANTS: Vocabulary = &[("never", 0), ("ask", 1), ("free", 2)];
const MODES: Vocabulary = &[
    ("disable-all", 0),
    ("enable-all", 1),
    ("enable-listed", ENABLE_LISTED),
];
const EVENTS: Vocabulary = &[
    ("clock", CLOCK),
    ("card-in", CARD_IN),
    ("card-out", CARD_OUT),
    ("power-up", POWER_UP),
    ("install-certificate", INSTALL_CERTIFICATE),
    ("delete-certificate", DELETE_CERTIFICATE),
    ("mark-valid", MARK_VALID),
    ("mark-invalid", MARK_INVALID),
    ("configuration", CONFIGURATION),
    ("install-executable", INSTALL_EXECUTABLE),
    ("delete-executable", DELETE_EXECUTABLE),
    ("verify", VERIFY),
    ("give", GIVE),
    ("withdraw", WITHDRAW),
    ("request", REQUEST),
    ("replace", REPLACE),
];

/// What a line can begin with, as an error names it.
pub const FIRST_WORDS: &str = "phone, certificate, card, executable, action, bytes, at or an event";

/// The word that each kind of event begins with.
pub fn event_names() -> impl Iterator<Item = &'static str> {
    EVENTS.iter().map(|(word, _)| *word)
}

fn word_for(vocabulary: Vocabulary, number: u8) -> Option<&'static str> {
    vocabulary
        .iter()
        .find(|(_, n)| *n == number)
        .map(|(word, _)| *word)
}

// From bytes to text.

/// How many bytes stand on one line of hex.
const HEX_PER_LINE: usize = 24;

/// The text form of any stream.
pub fn to_text(stream: &[u8]) -> String {
    let (image, events) = split_stream(stream);
    let lines = event_records(events).map(event_text).collect();
    put_together(image_part(image), lines)
}

/// The lines of an image, an empty one, and the lines of what stands behind it.
fn put_together(image: Vec<String>, behind: Vec<String>) -> String {
    let mut lines = image;
    if !lines.is_empty() && !behind.is_empty() {
        lines.push(String::new());
    }
    lines.extend(behind);
    lines.iter().map(|line| format!("{line}\n")).collect()
}

fn image_part(image: &[u8]) -> Vec<String> {
    match laid_out_phone(image) {
        Some(phone) => image_lines(&phone),
        None => hex_lines(image),
    }
}

fn hex_lines(bytes: &[u8]) -> Vec<String> {
    let chunks = bytes.chunks(HEX_PER_LINE);
    chunks
        .map(|bytes| format!("bytes {}", hex(bytes)))
        .collect()
}

/// The phone of an image that keeps I1; the records may break any other rule.
fn laid_out_phone(image: &[u8]) -> Option<Phone> {
    match i1_header(image) {
        None => Phone::decode(image),
        Some(_) => None,
    }
}

fn hex(bytes: &[u8]) -> String {
    let pairs: Vec<String> = bytes.iter().map(|byte| format!("{byte:02x}")).collect();
    pairs.join(" ")
}

fn image_lines(phone: &Phone) -> Vec<String> {
    let mut lines = vec![format!(
        "phone mode {} card {} clock {}",
        phone.mode,
        number_or(phone.card_present.into(), "none"),
        phone.clock
    )];
    lines.extend(phone.certificates.iter().map(certificate_text));
    lines.extend(phone.cards.iter().map(card_text));
    lines.extend(phone.executables.iter().map(executable_text));
    let rows = phone.table.iter().enumerate();
    lines.extend(rows.map(|(at, row)| action_text(at, row)));
    lines
}

fn number_or(number: u32, word_for_zero: &str) -> String {
    match number {
        0 => word_for_zero.to_string(),
        _ => number.to_string(),
    }
}

fn place_words(place: u16) -> String {
    match place {
        0 => "phone".to_string(),
        number => format!("card {number}"),
    }
}

fn numbers_or_none(numbers: &[u16]) -> String {
    match numbers {
        [] => "none".to_string(),
        _ => {
            let words: Vec<String> = numbers.iter().map(u16::to_string).collect();
            words.join(",")
        }
    }
}

fn certificate_text(slot: &Option<Certificate>) -> String {
    let Some(record) = slot else {
        return "certificate free".to_string();
    };
    let words = certificate_words(record).filter(|line| leads_back(line, slot));
    words.unwrap_or_else(|| {
        let mut bytes = Vec::new();
        record.encode(&mut bytes);
        format!("certificate bytes {}", hex(&bytes))
    })
}

/// Whether reading the line gives this very slot; what it leaves out may not be as assumed.
fn leads_back(line: &str, slot: &Option<Certificate>) -> bool {
    let mut words = Words::of(line, 0);
    words.at = 1;
    matches!(read_certificate(&mut words), Ok(read) if read == *slot)
}

fn certificate_words(record: &Certificate) -> Option<String> {
    let state = match record.kind {
        ROOT => format!(
            " {} {}",
            word_for(MARKS, record.mark)?,
            word_for(ENABLED, record.enabled)?
        ),
        // An issued record is marked and enabled always, a recovery one only enabled.
        _ => String::new(),
    };
    Some(format!(
        "certificate {} on {} {} {}{} {}",
        record.id,
        place_words(record.place),
        word_for(KINDS, record.kind)?,
        word_for(DOMAINS, record.domain)?,
        state,
        key_words(
            record.kind,
            record.key,
            record.verifying_key,
            record.owner,
            record.expiry
        )
    ))
}

fn key_words(kind: u8, key: u32, verifying_key: u32, owner: u32, expiry: u32) -> String {
    let by = match kind {
        ISSUED => format!(" by {verifying_key}"),
        // No other names a verifying key.
        _ => String::new(),
    };
    format!("key {key}{by} owner {owner} expiry {expiry}")
}

fn card_text(card: &Card) -> String {
    if card.zero == 0 {
        return format!("card {} operator {}", card.number, card.operator);
    }
    let mut bytes = Vec::new();
    card.encode(&mut bytes);
    format!("card bytes {}", hex(&bytes))
}

fn executable_text(slot: &Option<Executable>) -> String {
    let Some(record) = slot else {
        return "executable free".to_string();
    };
    match word_for(DOMAINS, record.domain) {
        Some(domain) if record.zero == 0 => format!(
            "executable {} {} {} permissions {}",
            record.id,
            domain,
            signing_words(record.signing_key),
            numbers_or_none(&permitted_actions(record.permissions))
        ),
        _ => {
            let mut bytes = Vec::new();
            record.encode(&mut bytes);
            format!("executable bytes {}", hex(&bytes))
        }
    }
}

fn signing_words(key: u32) -> String {
    match key {
        0 => "unsigned".to_string(),
        key => format!("signed {key}"),
    }
}

fn permitted_actions(permissions: u32) -> Vec<u16> {
    (0..32)
        .filter(|bit| permissions & (1 << bit) != 0)
        .collect()
}

fn action_text(number: usize, row: &TableRow) -> String {
    let mut line = format!("action {number}");
    for (byte, (domain, _)) in row.iter().zip(DOMAINS) {
        match word_for(GRANTS, *byte) {
            Some(grant) => line.push_str(&format!(" {domain} {grant}")),
            None => return format!("action {number} bytes {}", hex(row)),
        }
    }
    line
}

/// One event in words, or in hex where it has none.
pub fn event_text(record: &[u8]) -> String {
    Event::decode(record)
        .and_then(|event| event_words(&event))
        .filter(|line| matches!(read_event_line(line), Ok(read) if read == record))
        .unwrap_or_else(|| format!("bytes {}", hex(record)))
}

/// The event in words, as far as words go: the caller reads them again to make sure.
fn event_words(event: &Event) -> Option<String> {
    let mut head = format!(
        "{} by {}",
        word_for(EVENTS, event.kind)?,
        word_for(ACTORS, event.actor)?
    );
    if event.names_who_acts() {
        head.push_str(&format!(" {}", event.owner));
    }
    let tail = match event.kind {
        CLOCK => format!(" to {}", event.key),
        CARD_IN | POWER_UP => format!(" card {}", number_or(event.second.into(), "none")),
        INSTALL_CERTIFICATE => format!(
            " certificate {} on {} {} {} {}",
            event.id,
            place_words(event.second),
            word_for(KINDS, event.third)?,
            word_for(DOMAINS, event.fourth)?,
            key_words(
                event.third,
                event.key,
                event.verifying_key,
                event.owner,
                event.expiry
            )
        ),
        DELETE_CERTIFICATE | MARK_VALID | MARK_INVALID => format!(" certificate {}", event.id),
        CONFIGURATION => message_words(event)?,
        INSTALL_EXECUTABLE => format!(" executable {} {}", event.id, signing_words(event.key)),
        DELETE_EXECUTABLE | VERIFY => format!(" executable {}", event.id),
        GIVE | WITHDRAW | REQUEST => format!(" executable {} action {}", event.id, event.second),
        REPLACE => format!(
            " certificate {} with {} key {} by {} owner {} expiry {}",
            event.id, event.second, event.key, event.verifying_key, event.owner, event.expiry
        ),
        _ => String::new(),
    };
    Some(head + &tail)
}

fn message_words(event: &Event) -> Option<String> {
    let mode = word_for(MODES, event.third)?;
    if event.third != ENABLE_LISTED {
        return Some(format!(" {mode}"));
    }
    let places = event.list_places();
    let listed = places.get(..usize::from(event.fourth))?;
    Some(format!(" {mode} {}", numbers_or_none(listed)))
}

// From text to bytes.

/// The words of one line, read from left to right.
struct Words<'a> {
    line: usize,
    words: Vec<&'a str>,
    at: usize,
}

impl<'a> Words<'a> {
    /// Splits a line; what follows a `#` is a comment.
    fn of(text: &'a str, line: usize) -> Words<'a> {
        let said = text.split('#').next().unwrap_or("");
        Words {
            line,
            words: said.split_whitespace().collect(),
            at: 0,
        }
    }

    fn peek(&self) -> Option<&'a str> {
        self.words.get(self.at).copied()
    }

    fn expected<T>(&self, what: &str) -> Result<T, Wrong> {
        let found = match self.peek() {
            Some(word) => format!("`{word}`"),
            None => "the end of the line".to_string(),
        };
        self.wrong(format!("expected {what}, found {found}"))
    }

    fn wrong<T>(&self, message: String) -> Result<T, Wrong> {
        Err(Wrong {
            line: self.line,
            message,
        })
    }

    /// Takes the word if it is the next one.
    fn take(&mut self, word: &str) -> bool {
        let is_next = self.peek() == Some(word);
        if is_next {
            self.at += 1;
        }
        is_next
    }

    fn literal(&mut self, word: &str) -> Result<(), Wrong> {
        match self.take(word) {
            true => Ok(()),
            false => self.expected(&format!("`{word}`")),
        }
    }

    fn one_of(&mut self, vocabulary: Vocabulary) -> Result<u8, Wrong> {
        let found = vocabulary
            .iter()
            .find(|(word, _)| Some(*word) == self.peek());
        match found {
            Some((_, number)) => {
                self.at += 1;
                Ok(*number)
            }
            None => {
                let words: Vec<&str> = vocabulary.iter().map(|(word, _)| *word).collect();
                self.expected(&format!("one of {}", words.join(", ")))
            }
        }
    }

    /// A decimal number that fits the type.
    fn number<T: TryFrom<u64>>(&mut self, what: &str) -> Result<T, Wrong> {
        let value = self
            .peek()
            .and_then(decimal)
            .and_then(|n| T::try_from(n).ok());
        match value {
            Some(value) => {
                self.at += 1;
                Ok(value)
            }
            None => {
                let bits = 8 * std::mem::size_of::<T>() as u32;
                let most = 2u64.pow(bits) - 1;
                self.expected(&format!("{what}, a number from 0 to {most}"))
            }
        }
    }

    /// A literal word and the number behind it.
    fn named<T: TryFrom<u64>>(&mut self, word: &str) -> Result<T, Wrong> {
        self.literal(word)?;
        self.number(&format!("the {word}"))
    }

    /// A number, or a word that stands for 0.
    fn number_or<T: TryFrom<u64> + Default>(&mut self, word: &str, what: &str) -> Result<T, Wrong> {
        match self.take(word) {
            true => Ok(T::default()),
            false => self.number(&format!("`{word}` or {what}")),
        }
    }

    /// Numbers with commas between them, or `none`.
    fn numbers(&mut self, most: usize, what: &str) -> Result<Vec<u16>, Wrong> {
        if self.take("none") {
            return Ok(Vec::new());
        }
        let list: Option<Vec<u16>> = self.peek().and_then(|word| {
            word.split(',')
                .map(|part| decimal(part).and_then(|n| u16::try_from(n).ok()))
                .collect()
        });
        match list {
            Some(list) if list.len() <= most => {
                self.at += 1;
                Ok(list)
            }
            _ => self.expected(&format!(
                "`none` or at most {most} {what} with commas between them and no spaces"
            )),
        }
    }

    /// All the words left, as hex pairs; so many of them, if a count is given.
    fn hex(&mut self, count: Option<usize>) -> Result<Vec<u8>, Wrong> {
        let mut bytes = Vec::new();
        while self.peek().is_some() {
            match self.peek().and_then(hex_pair) {
                Some(byte) => bytes.push(byte),
                None => return self.expected("bytes of two hex digits each"),
            }
            self.at += 1;
        }
        match count {
            Some(count) if bytes.len() != count => {
                self.wrong(format!("expected {count} bytes, found {}", bytes.len()))
            }
            None if bytes.is_empty() => self.expected("at least one byte of two hex digits"),
            _ => Ok(bytes),
        }
    }

    fn end(&self) -> Result<(), Wrong> {
        match self.peek() {
            None => Ok(()),
            Some(_) => self.expected("the end of the line"),
        }
    }
}

/// Digits and nothing else: no sign, no underscore.
fn decimal(word: &str) -> Option<u64> {
    let is_plain = !word.is_empty() && word.bytes().all(|b| b.is_ascii_digit());
    is_plain.then(|| word.parse().ok()).flatten()
}

fn hex_pair(word: &str) -> Option<u8> {
    let is_pair = word.len() == 2 && word.bytes().all(|b| b.is_ascii_hexdigit());
    is_pair.then(|| u8::from_str_radix(word, 16).ok()).flatten()
}

/// What has been read so far.
#[derive(Default)]
struct Reading {
    phone: Option<Phone>,
    /// The lines of the phone and of its parts.
    lines: PartLines,
    /// The bytes behind the image, or all of them where there is no phone.
    rest: Vec<u8>,
    /// Each line of those bytes, and how many of them it has.
    rest_lines: Vec<(usize, usize)>,
    /// The line of the first event, and of the first bytes where there is a phone.
    first_event: Option<usize>,
    /// What stands behind all these, where the text is a timeline.
    timeline: Option<Timeline>,
}

impl Reading {
    fn is_behind_image(&self) -> bool {
        !self.rest.is_empty() || self.timeline.is_some()
    }

    /// Bytes that are no part of a timeline; without a phone they may be its image.
    fn push(&mut self, words: &Words, bytes: &[u8], are_event: bool) {
        if are_event || self.phone.is_some() {
            self.first_event.get_or_insert(words.line);
        }
        self.rest.extend(bytes);
        self.rest_lines.push((words.line, bytes.len()));
    }

    /// All the bytes, with the line of each, where the last line leaves nothing open.
    fn placed(self) -> Result<PlacedBytes, Wrong> {
        let mut placed = PlacedBytes::default();
        if let Some(phone) = &self.phone {
            if phone.table.is_empty() {
                return Err(Wrong {
                    line: self.lines.phone,
                    message: "expected at least one action line for this phone, found none".into(),
                });
            }
            placed.push_phone(phone, &self.lines);
        }
        placed.push_rest(&self.rest, &self.rest_lines);
        if let Some(timeline) = self.timeline {
            timeline.check_not_waiting()?;
            timeline.place_into(&mut placed);
        }
        Ok(placed)
    }
}

/// The bytes of a text, or the first line that could not be understood.
pub fn to_bytes(text: &str) -> Result<Vec<u8>, Wrong> {
    to_placed_bytes(text).map(|placed| placed.bytes)
}

/// The bytes of a text with the line of each, or the first line that could not be understood.
pub fn to_placed_bytes(text: &str) -> Result<PlacedBytes, Wrong> {
    let mut reading = Reading::default();
    for (at, line) in text.lines().enumerate() {
        let mut words = Words::of(line, at + 1);
        if words.peek().is_some() {
            read_line(&mut reading, &mut words)?;
            words.end()?;
        }
    }
    reading.placed()
}

fn read_line(reading: &mut Reading, words: &mut Words) -> Result<(), Wrong> {
    match words.peek() {
        Some("phone") => read_phone(reading, words),
        Some("certificate" | "card" | "executable" | "action") => read_part(reading, words),
        _ if reading.timeline.is_some() || Timeline::begins_with(words) => {
            read_timeline_line(reading, words)
        }
        Some("bytes") => {
            words.at += 1;
            let bytes = words.hex(None)?;
            reading.push(words, &bytes, false);
            Ok(())
        }
        _ => {
            let event = read_event(words)?;
            reading.push(words, &event, true);
            Ok(())
        }
    }
}

fn read_timeline_line(reading: &mut Reading, words: &mut Words) -> Result<(), Wrong> {
    let is_first = reading.timeline.is_none();
    if let Some(line) = reading.first_event {
        let maker = words.line;
        return Err(Wrong {
            line,
            message: format!(
                "expected an `at` line before this, since line {maker} makes the text a timeline, found none"
            ),
        });
    }
    let timeline = reading.timeline.get_or_insert_with(Timeline::default);
    timeline.read_line(words, is_first)
}

fn read_phone(reading: &mut Reading, words: &mut Words) -> Result<(), Wrong> {
    if reading.phone.is_some() {
        return words.wrong("expected one phone line only, found a second one".to_string());
    }
    if reading.is_behind_image() {
        return words
            .wrong("expected the phone before all events and bytes, found it behind them".into());
    }
    words.literal("phone")?;
    let mode: u16 = words.named("mode")?;
    words.literal("card")?;
    let card_present = words.number_or("none", "the number of the present card")?;
    let clock = words.named("clock")?;
    if mode > 2 {
        return words.wrong(format!("expected a mode from 0 to 2, found {mode}"));
    }
    let phone = Phone {
        mode,
        card_present,
        clock,
        certificates: Vec::new(),
        cards: Vec::new(),
        executables: Vec::new(),
        table: Vec::new(),
    };
    reading.phone = Some(phone);
    reading.lines.phone = words.line;
    Ok(())
}

fn read_part(reading: &mut Reading, words: &mut Words) -> Result<(), Wrong> {
    if reading.is_behind_image() {
        let part = words.peek().unwrap_or("one");
        return words.wrong(format!(
            "expected the parts of the phone before all events and bytes, found `{part}` behind them"
        ));
    }
    let lines = &mut reading.lines;
    let Some(phone) = &mut reading.phone else {
        return words.expected("a phone line before its parts");
    };
    if words.take("certificate") {
        let slot = read_certificate(words)?;
        lines.certificates.push(words.line);
        let most = MOST_CERTIFICATES;
        push_part(words, &mut phone.certificates, slot, most, "certificate")
    } else if words.take("card") {
        let card = read_card(words)?;
        lines.cards.push(words.line);
        push_part(words, &mut phone.cards, card, MOST_CARDS, "card")
    } else if words.take("executable") {
        let slot = read_executable(words)?;
        lines.executables.push(words.line);
        let most = MOST_EXECUTABLES;
        push_part(words, &mut phone.executables, slot, most, "executable")
    } else {
        let row = read_action(words, phone.table.len())?;
        lines.actions.push(words.line);
        push_part(words, &mut phone.table, row, MOST_ACTIONS, "action")
    }
}

fn push_part<T>(
    words: &Words,
    parts: &mut Vec<T>,
    part: T,
    most: usize,
    name: &str,
) -> Result<(), Wrong> {
    if parts.len() == most {
        return words.wrong(format!(
            "expected at most {most} {name} lines, found one more"
        ));
    }
    parts.push(part);
    Ok(())
}

fn read_place(words: &mut Words) -> Result<u16, Wrong> {
    words.literal("on")?;
    if words.take("phone") {
        return Ok(0);
    }
    match words.take("card") {
        true => words.number("the card's number"),
        false => words.expected("`phone` or `card`"),
    }
}

/// The verifying key, which only issued records name.
fn read_verifying_key(words: &mut Words, kind: u8) -> Result<u32, Wrong> {
    match kind {
        ISSUED => {
            words.literal("by")?;
            words.number("the verifying key")
        }
        _ => Ok(0),
    }
}

/// A slot that is zero in every byte is a free one.
fn slot_of<T: Copy>(bytes: &[u8], decode: fn(&[u8]) -> T) -> Option<T> {
    bytes.iter().any(|&byte| byte != 0).then(|| decode(bytes))
}

fn read_certificate(words: &mut Words) -> Result<Option<Certificate>, Wrong> {
    if words.take("free") {
        return Ok(None);
    }
    if words.take("bytes") {
        let bytes = words.hex(Some(Certificate::SIZE))?;
        return Ok(slot_of(&bytes, Certificate::decode));
    }
    let id = words.number("`free`, `bytes` or the certificate's id")?;
    let place = read_place(words)?;
    let kind = words.one_of(KINDS)?;
    let domain = words.one_of(DOMAINS)?;
    let (mark, enabled) = match kind {
        ROOT => (words.one_of(MARKS)?, words.one_of(ENABLED)?),
        RECOVERY => (0, 1),
        _ => (1, 1),
    };
    Ok(Some(Certificate {
        id,
        place,
        kind,
        domain,
        mark,
        enabled,
        key: words.named("key")?,
        verifying_key: read_verifying_key(words, kind)?,
        owner: words.named("owner")?,
        expiry: words.named("expiry")?,
    }))
}

fn read_card(words: &mut Words) -> Result<Card, Wrong> {
    if words.take("bytes") {
        return Ok(Card::decode(&words.hex(Some(Card::SIZE))?));
    }
    Ok(Card {
        number: words.number("`bytes` or the card's number")?,
        zero: 0,
        operator: words.named("operator")?,
    })
}

fn read_signing_key(words: &mut Words) -> Result<u32, Wrong> {
    if words.take("unsigned") {
        return Ok(0);
    }
    match words.take("signed") {
        true => words.number("the signing key"),
        false => words.expected("`signed` or `unsigned`"),
    }
}

fn read_executable(words: &mut Words) -> Result<Option<Executable>, Wrong> {
    if words.take("free") {
        return Ok(None);
    }
    if words.take("bytes") {
        let bytes = words.hex(Some(Executable::SIZE))?;
        return Ok(slot_of(&bytes, Executable::decode));
    }
    let id = words.number("`free`, `bytes` or the executable's id")?;
    let domain = words.one_of(DOMAINS)?;
    let signing_key = read_signing_key(words)?;
    words.literal("permissions")?;
    let actions = words.numbers(MOST_ACTIONS, "actions")?;
    let mut permissions = 0;
    for action in actions {
        match crate::phone::permission_bit(action) {
            0 => return words.wrong(format!("expected actions below 32, found {action}")),
            bit => permissions |= bit,
        }
    }
    Ok(Some(Executable {
        id,
        domain,
        zero: 0,
        signing_key,
        permissions,
    }))
}

fn read_action(words: &mut Words, next: usize) -> Result<TableRow, Wrong> {
    words.literal("action")?;
    let number: u16 = words.number("the action's number")?;
    if usize::from(number) != next {
        return words.wrong(format!("expected action {next} next, found {number}"));
    }
    let mut row = [0; TABLE_ROW_SIZE];
    if words.take("bytes") {
        row.copy_from_slice(&words.hex(Some(TABLE_ROW_SIZE))?);
        return Ok(row);
    }
    for (byte, (domain, _)) in row.iter_mut().zip(DOMAINS) {
        words.literal(domain)?;
        *byte = words.one_of(GRANTS)?;
    }
    Ok(row)
}

fn read_event_line(line: &str) -> Result<Vec<u8>, Wrong> {
    let mut words = Words::of(line, 0);
    let bytes = read_event(&mut words)?;
    words.end()?;
    Ok(bytes)
}

fn read_event(words: &mut Words) -> Result<Vec<u8>, Wrong> {
    if word_is_strange(words) {
        return words.expected(FIRST_WORDS);
    }
    let mut event = Event {
        kind: words.one_of(EVENTS)?,
        ..Event::default()
    };
    words.literal("by")?;
    read_actor(words, &mut event)?;
    match event.kind {
        CLOCK => {
            words.literal("to")?;
            event.key = words.number("the new time")?;
        }
        CARD_IN | POWER_UP => {
            words.literal("card")?;
            event.second = words.number_or("none", "the card's number")?;
        }
        INSTALL_CERTIFICATE => read_certificate_to_install(words, &mut event)?,
        DELETE_CERTIFICATE | MARK_VALID | MARK_INVALID => event.id = words.named("certificate")?,
        CONFIGURATION => read_message(words, &mut event)?,
        INSTALL_EXECUTABLE => {
            event.id = words.named("executable")?;
            event.key = read_signing_key(words)?;
        }
        DELETE_EXECUTABLE | VERIFY => event.id = words.named("executable")?,
        GIVE | WITHDRAW | REQUEST => {
            event.id = words.named("executable")?;
            event.second = words.named("action")?;
        }
        REPLACE => read_replacement(words, &mut event)?,
        _ => {}
    }
    Ok(event.encode())
}

/// The actor, and behind an operator or a manufacturer that deletes or marks a certificate, which one.
fn read_actor(words: &mut Words, event: &mut Event) -> Result<(), Wrong> {
    let name = words.peek();
    event.actor = words.one_of(ACTORS)?;
    if event.names_who_acts() {
        let what = format!("the {}'s owner number", name.unwrap_or("actor"));
        event.owner = words.number(&what)?;
    } else if words.peek().is_some_and(|word| decimal(word).is_some()) {
        return words.expected(
            "no owner number, which only an operator or a manufacturer has that deletes or marks a certificate",
        );
    }
    Ok(())
}

fn word_is_strange(words: &Words) -> bool {
    !EVENTS.iter().any(|(word, _)| Some(*word) == words.peek())
}

fn read_certificate_to_install(words: &mut Words, event: &mut Event) -> Result<(), Wrong> {
    event.id = words.named("certificate")?;
    event.second = read_place(words)?;
    event.third = words.one_of(KINDS)?;
    event.fourth = words.one_of(DOMAINS)?;
    event.key = words.named("key")?;
    event.verifying_key = read_verifying_key(words, event.third)?;
    event.owner = words.named("owner")?;
    event.expiry = words.named("expiry")?;
    Ok(())
}

fn read_replacement(words: &mut Words, event: &mut Event) -> Result<(), Wrong> {
    event.id = words.named("certificate")?;
    words.literal("with")?;
    event.second = words.number("the recovery record's id")?;
    event.key = words.named("key")?;
    words.literal("by")?;
    event.verifying_key = words.number("the recovery key")?;
    event.owner = words.named("owner")?;
    event.expiry = words.named("expiry")?;
    Ok(())
}

fn read_message(words: &mut Words, event: &mut Event) -> Result<(), Wrong> {
    event.third = words.one_of(MODES)?;
    if event.third == ENABLE_LISTED {
        let ids = words.numbers(usize::from(MOST_LISTED), "ids")?;
        event.fourth = ids.len() as u8;
        event.set_list_places(&ids);
    }
    Ok(())
}
