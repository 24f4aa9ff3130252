//! What the reference asks of itself on every case, and the counts that show what was reached.
//!
//! Follows 01, "What an event is told": a refused event leaves the image unchanged, and an
//! accepted image stays accepted. The rest are promises of this crate: records and text lead
//! back to the same bytes.

use std::collections::BTreeMap;
use std::fmt::Write;

use crate::bench::{run_and_watch, split_stream, Run};
use crate::events::{Answer, LAST_CODE, LAST_KIND, REQUEST, VERIFY};
use crate::image_rules::{first_broken, Broken};
use crate::phone::Phone;
use crate::played::Played;
use crate::refusal::Refusal;
use crate::shown::Shown;
use crate::text::{to_bytes, to_text};

/// The row of the kind table for kinds that do not exist.
const OTHER_KIND: usize = LAST_KIND as usize + 1;
const CODES: usize = LAST_CODE as usize + 1;

/// How often each thing was reached.
#[derive(Clone, Default, PartialEq, Eq, Debug)]
pub struct Counts {
    pub runs: u64,
    pub accepted: u64,
    pub refused: BTreeMap<Broken, u64>,
    /// Of refused images, how often which rule was broken at which byte.
    pub places: BTreeMap<(u8, usize), u64>,
    pub events: u64,
    by_kind_and_code: [[u64; CODES]; OTHER_KIND + 1],
    verified: [[u64; 5]; 4],
    granted: [[u64; 5]; 4],
    /// What the answers to questions show.
    pub shown: Shown,
    /// What timelines show.
    pub played: Played,
}

impl Counts {
    fn add_refusal(&mut self, refusal: &Refusal) {
        let place = (refusal.broken.rule, refusal.offset);
        *self.refused.entry(refusal.broken).or_default() += 1;
        *self.places.entry(place).or_default() += 1;
    }

    pub(crate) fn add_event(&mut self, record: &[u8], answer: Answer) {
        self.events += 1;
        let kind = match record.first() {
            Some(&kind @ 1..=LAST_KIND) => usize::from(kind),
            _ => OTHER_KIND,
        };
        self.by_kind_and_code[kind][usize::from(answer.code)] += 1;
        let table = match (answer.code, kind as u8) {
            (0, VERIFY) => &mut self.verified,
            (0, REQUEST) => &mut self.granted,
            _ => return,
        };
        table[usize::from(answer.domain)][usize::from(answer.links)] += 1;
    }

    /// How often a kind got a code.
    pub fn of(&self, kind: u8, code: u8) -> u64 {
        self.by_kind_and_code[usize::from(kind)][usize::from(code)]
    }

    /// How often a verify or request was answered with this domain and link count.
    pub fn of_chain(&self, domain: u8, links: u8) -> u64 {
        let (domain, links) = (usize::from(domain), usize::from(links));
        self.verified[domain][links] + self.granted[domain][links]
    }

    /// Adds what another worker counted.
    pub fn merge(&mut self, other: &Counts) {
        self.runs += other.runs;
        self.accepted += other.accepted;
        self.events += other.events;
        for (broken, count) in &other.refused {
            *self.refused.entry(*broken).or_default() += count;
        }
        for (place, count) in &other.places {
            *self.places.entry(*place).or_default() += count;
        }
        add_table(&mut self.by_kind_and_code, &other.by_kind_and_code);
        add_table(&mut self.verified, &other.verified);
        add_table(&mut self.granted, &other.granted);
        self.shown.merge(&other.shown);
        self.played.merge(&other.played);
    }

    /// The counts as text.
    pub fn report(&self) -> String {
        let mut out = String::new();
        let refused: u64 = self.refused.values().sum();
        // Writing to a string does not fail.
        let _ = writeln!(out, "runs {}", self.runs);
        let _ = writeln!(out, "accepted images {}", self.accepted);
        let _ = writeln!(out, "refused images {refused}");
        for (broken, count) in &self.refused {
            let _ = writeln!(out, "{count:>8}  {broken}");
        }
        self.report_rules(&mut out);
        let _ = writeln!(out, "events {}", self.events);
        self.report_kinds(&mut out);
        report_chains(&mut out, "verify, code 0", &self.verified);
        report_chains(&mut out, "request, code 0", &self.granted);
        out
    }

    /// The counts that are not 0, a line for each, as the program `vectors` lists them.
    pub fn lists(&self) -> String {
        let kinds = &self.by_kind_and_code;
        let mut out = String::from("kind code times\n");
        // There, kinds that do not exist are counted as kind 0.
        list_counts(&mut out, &kinds[OTHER_KIND..]);
        for (kind, row) in kinds.iter().enumerate().take(OTHER_KIND).skip(1) {
            list_row(&mut out, kind, row);
        }
        out.push_str("verified: domain links times\n");
        list_counts(&mut out, &self.verified);
        out.push_str("granted: domain links times\n");
        list_counts(&mut out, &self.granted);
        out
    }

    fn report_rules(&self, out: &mut String) {
        let _ = writeln!(out, "\nrule  images  offsets");
        for rule in 1..=8 {
            let (images, offsets) = self.of_rule(rule);
            let _ = writeln!(out, "{:>4} {images:>7} {offsets:>8}", format!("I{rule}"));
        }
        let _ = writeln!(out);
    }

    /// How many images broke a rule first, and at how many different bytes.
    pub fn of_rule(&self, rule: u8) -> (u64, usize) {
        let of_rule = self.places.iter().filter(|((other, _), _)| *other == rule);
        (
            of_rule.clone().map(|(_, count)| count).sum(),
            of_rule.count(),
        )
    }

    fn report_kinds(&self, out: &mut String) {
        let head: String = (0..CODES).map(|code| format!("{code:>7}")).collect();
        let _ = writeln!(out, "\nkind\\code{head}");
        for (kind, row) in self.by_kind_and_code.iter().enumerate().skip(1) {
            let name = match kind {
                OTHER_KIND => "other".to_string(),
                _ => kind.to_string(),
            };
            let cells: String = row.iter().map(|&count| cell(count)).collect();
            let _ = writeln!(out, "{name:>9}{cells}");
        }
    }
}

fn add_table<const W: usize>(to: &mut [[u64; W]], from: &[[u64; W]]) {
    for (to_row, from_row) in to.iter_mut().zip(from) {
        for (to_cell, from_cell) in to_row.iter_mut().zip(from_row) {
            *to_cell += from_cell;
        }
    }
}

fn list_counts<const W: usize>(out: &mut String, table: &[[u64; W]]) {
    for (at, row) in table.iter().enumerate() {
        list_row(out, at, row);
    }
}

fn list_row(out: &mut String, at: usize, row: &[u64]) {
    for (column, count) in row.iter().enumerate().filter(|(_, count)| **count != 0) {
        let _ = writeln!(out, "{at} {column} {count}");
    }
}

/// A dot for what never occurred, so that gaps are seen at once.
fn cell(count: u64) -> String {
    match count {
        0 => format!("{:>7}", "."),
        _ => format!("{count:>7}"),
    }
}

fn report_chains(out: &mut String, title: &str, table: &[[u64; 5]; 4]) {
    let _ = writeln!(out, "\n{title}: links      0      1      2      3      4");
    for (domain, row) in table.iter().enumerate() {
        let cells: String = row.iter().map(|&count| cell(count)).collect();
        let _ = writeln!(
            out,
            "{:>width$}{cells}",
            format!("domain {domain}"),
            width = title.len() + 8
        );
    }
}

/// Runs a stream through the reference, counts what it reached and checks what has to hold.
pub fn checked_run(stream: &[u8], counts: &mut Counts) -> Result<Run, String> {
    check_text(stream)?;
    let mut complaint = None;
    let run = run_and_watch(stream, |before, record, answer, after| {
        counts.add_event(record, answer);
        if complaint.is_none() {
            complaint = check_step(before, answer, after);
        }
    });
    counts.runs += 1;
    match &run.image {
        Ok(_) => {
            counts.accepted += 1;
            check_encoding(split_stream(stream).0)?;
        }
        Err(refusal) => counts.add_refusal(refusal),
    }
    match complaint {
        Some(complaint) => Err(complaint),
        None => Ok(run),
    }
}

fn check_text(stream: &[u8]) -> Result<(), String> {
    match to_bytes(&to_text(stream)) {
        Ok(bytes) if bytes == stream => Ok(()),
        Ok(_) => Err("the text form does not lead back to the same bytes".to_string()),
        Err(wrong) => Err(format!("the text form cannot be read: {wrong}")),
    }
}

pub(crate) fn check_encoding(image: &[u8]) -> Result<(), String> {
    match Phone::decode(image) {
        Some(phone) if phone.encode() == image => Ok(()),
        _ => Err("decoding and encoding the image does not give it back".to_string()),
    }
}

pub(crate) fn check_step(before: &Phone, answer: Answer, after: &Phone) -> Option<String> {
    let image = after.encode();
    if answer.code != 0 && image != before.encode() {
        return Some(format!(
            "an event refused with code {} changed the image",
            answer.code
        ));
    }
    first_broken(&image).map(|broken| format!("an event left an image that breaks {broken}"))
}
