//! Which line of a text stands for which bytes.
//!
//! A record of the image, an event and a second are each said by one line, so that an offset into the
//! bytes leads back to the line that an author has to look at.

use std::ops::Range;

use crate::phone::{Card, Certificate, Executable, Header, Phone, TABLE_ROW_SIZE};

/// The bytes that one line stands for.
#[derive(Clone, Debug, PartialEq, Eq)]
pub struct Place {
    pub line: usize,
    pub bytes: Range<usize>,
}

/// The bytes of a text, and the line of each.
#[derive(Clone, Debug, Default, PartialEq, Eq)]
pub struct PlacedBytes {
    pub bytes: Vec<u8>,
    /// Whether the text has `at` lines or says otherwise that it is a timeline.
    pub is_timeline: bool,
    /// In the order of the bytes, without a gap.
    pub places: Vec<Place>,
}

impl PlacedBytes {
    /// The line that stands for the byte at an offset; nothing behind the last one.
    pub fn line_of(&self, offset: usize) -> Option<usize> {
        let behind = self
            .places
            .partition_point(|place| place.bytes.end <= offset);
        self.places.get(behind).map(|place| place.line)
    }

    /// The line of the next so many bytes.
    pub(super) fn place(&mut self, line: usize, size: usize) {
        let start = self.places.last().map_or(0, |place| place.bytes.end);
        let bytes = start..start + size;
        self.places.push(Place { line, bytes });
    }

    pub(super) fn push_phone(&mut self, phone: &Phone, lines: &PartLines) {
        self.place(lines.phone, Header::SIZE);
        self.place_all(&lines.certificates, Certificate::SIZE);
        self.place_all(&lines.cards, Card::SIZE);
        self.place_all(&lines.executables, Executable::SIZE);
        self.place_all(&lines.actions, TABLE_ROW_SIZE);
        self.bytes.extend(phone.encode());
    }

    fn place_all(&mut self, lines: &[usize], size: usize) {
        for line in lines {
            self.place(*line, size);
        }
    }

    /// Bytes behind the phone, and how many each line has.
    pub(super) fn push_rest(&mut self, rest: &[u8], lines: &[(usize, usize)]) {
        for (line, size) in lines {
            self.place(*line, *size);
        }
        self.bytes.extend(rest);
    }
}

/// The lines of a phone and of its parts, those of a table in the order of the slots.
#[derive(Default)]
pub(super) struct PartLines {
    pub(super) phone: usize,
    pub(super) certificates: Vec<usize>,
    pub(super) cards: Vec<usize>,
    pub(super) executables: Vec<usize>,
    pub(super) actions: Vec<usize>,
}
