//! The text form of timelines: `at` lines between the events.
//!
//! Follows 02, "Lesson timelines". The events that stand behind `at 200` happen in second 200, up to
//! the next `at`. A header that is not in form has no words and is in hex with all behind it; seconds
//! and kinds that break the form have words, so that a lesson can show them.

use super::{event_text, hex, hex_lines, image_part, put_together, read_event};
use super::{PlacedBytes, Words, Wrong};
use crate::bench::split_stream;
use crate::events::Event;
use crate::timeline::{encode, laid_out, Header, Record, MOST_RECORDS};

/// The text form of an image with a timeline behind it, whatever the bytes are.
pub fn timeline_to_text(stream: &[u8]) -> String {
    let (image, timeline) = split_stream(stream);
    let lines = match laid_out(timeline) {
        Ok(records) => timeline_lines(&records),
        Err(_) => hex_lines(timeline),
    };
    put_together(image_part(image), lines)
}

fn timeline_lines(records: &[Record]) -> Vec<String> {
    // One without records has no line that would say what it is.
    let mut lines = vec!["timeline".to_string()];
    let mut told = None;
    for record in records {
        if record.zero != 0 {
            lines.push(record_in_hex(record));
            continue;
        }
        if told != Some(record.second) {
            lines.push(format!("at {}", record.second));
            told = Some(record.second);
        }
        lines.push(event_text(&record.event));
    }
    lines
}

fn record_in_hex(record: &Record) -> String {
    let mut bytes = Vec::new();
    record.encode(&mut bytes);
    format!("record bytes {}", hex(&bytes))
}

/// A timeline of which the first line has been read.
#[derive(Default)]
pub(super) struct Timeline {
    /// The line that made the text a timeline.
    first_line: usize,
    records: Vec<Record>,
    /// Of each record, the line of its second and that of its event.
    lines: Vec<(usize, usize)>,
    /// The second of the last `at` line, and that line.
    second: Option<(u32, usize)>,
    /// An `at` line with no event behind it yet.
    waiting: Option<usize>,
}

impl Timeline {
    /// Whether a line says that the text is a timeline.
    pub(super) fn begins_with(words: &Words) -> bool {
        matches!(words.peek(), Some("timeline" | "at" | "record"))
    }

    /// One line of the timeline; the first is any that says that the text is one.
    pub(super) fn read_line(&mut self, words: &mut Words, is_first: bool) -> Result<(), Wrong> {
        if is_first {
            self.first_line = words.line;
        }
        match words.peek() {
            Some("timeline") if is_first => words.literal("timeline"),
            Some("timeline") => words.wrong(
                "expected one timeline line only, before all `at` lines, found another one".into(),
            ),
            Some("at") => self.read_at(words),
            Some("record") => self.read_record(words),
            _ => self.read_event(words),
        }
    }

    fn read_at(&mut self, words: &mut Words) -> Result<(), Wrong> {
        self.check_not_waiting()?;
        words.literal("at")?;
        self.second = Some((words.number("the second")?, words.line));
        self.waiting = Some(words.line);
        Ok(())
    }

    fn read_record(&mut self, words: &mut Words) -> Result<(), Wrong> {
        words.literal("record")?;
        words.literal("bytes")?;
        let bytes = words.hex(Some(Record::SIZE))?;
        self.push(words, Record::decode(&bytes), words.line)
    }

    fn read_event(&mut self, words: &mut Words) -> Result<(), Wrong> {
        let Some((second, at_line)) = self.second else {
            return words
                .wrong("expected an `at` line before this event of a timeline, found none".into());
        };
        let event = match words.take("bytes") {
            true => words.hex(Some(Event::SIZE))?,
            false => read_event(words)?,
        };
        self.waiting = None;
        let record = Record {
            second,
            zero: 0,
            event,
        };
        self.push(words, record, at_line)
    }

    fn push(&mut self, words: &Words, record: Record, second_line: usize) -> Result<(), Wrong> {
        if self.records.len() == MOST_RECORDS {
            return words.wrong(format!(
                "expected at most {MOST_RECORDS} events, found one more"
            ));
        }
        self.records.push(record);
        self.lines.push((second_line, words.line));
        Ok(())
    }

    /// A second in which nothing happens cannot be said in a timeline.
    pub(super) fn check_not_waiting(&self) -> Result<(), Wrong> {
        match self.waiting {
            None => Ok(()),
            Some(line) => Err(Wrong {
                line,
                message: "expected an event behind this `at` line, found none".to_string(),
            }),
        }
    }

    /// The bytes, each with its line: of a record, the second and the event have their own.
    pub(super) fn place_into(&self, placed: &mut PlacedBytes) {
        placed.is_timeline = true;
        placed.place(self.first_line, Header::SIZE);
        for (second_line, event_line) in &self.lines {
            placed.place(*second_line, Record::SIZE - Event::SIZE);
            placed.place(*event_line, Event::SIZE);
        }
        placed.bytes.extend(encode(&self.records));
    }
}
