//! Lesson timelines: their form, the events that they stand for, and one run of `play`.
//!
//! Follows 02, "Lesson timelines". The form is asked of the whole timeline before any event runs. Of
//! an event only its kind is part of the form: it is not 1, since the seconds alone bring clock events.

use crate::bench::{refused_line, split_stream, Running, FIRST_LINE};
use crate::events::{Answer, Event, CLOCK, DEVICE};
use crate::phone::{u16_at, u32_at, Phone};
use crate::refusal::{open, Refusal};

pub const VERSION: u16 = 1;
pub const MOST_RECORDS: usize = 1000;

/// What is told of a timeline that breaks its form.
pub const REFUSED: u8 = 19;

/// The 8 bytes before the records.
#[derive(Clone, Copy, Debug, PartialEq, Eq)]
pub struct Header {
    pub version: u16,
    pub count: u16,
    pub records_at: u32,
}

impl Header {
    pub const SIZE: usize = 8;

    /// The header that goes with so many records.
    pub fn of(count: u16) -> Header {
        Header {
            version: VERSION,
            count,
            records_at: Header::SIZE as u32,
        }
    }

    /// The header of a timeline, or nothing where it is too short to have one.
    pub fn decode(bytes: &[u8]) -> Option<Header> {
        if bytes.len() < Header::SIZE {
            return None;
        }
        Some(Header {
            version: u16_at(bytes, 0),
            count: u16_at(bytes, 2),
            records_at: u32_at(bytes, 4),
        })
    }

    pub fn encode(&self, out: &mut Vec<u8>) {
        out.extend(self.version.to_be_bytes());
        out.extend(self.count.to_be_bytes());
        out.extend(self.records_at.to_be_bytes());
    }
}

/// One record of 32 bytes: an event of any bytes, and the second in which it happens.
#[derive(Clone, Debug, PartialEq, Eq)]
pub struct Record {
    pub second: u32,
    pub zero: u32,
    pub event: Vec<u8>,
}

impl Record {
    pub const SIZE: usize = 32;
    const EVENT_AT: usize = 8;

    /// Reads a record; the caller has made sure that the bytes are there.
    pub fn decode(bytes: &[u8]) -> Record {
        Record {
            second: u32_at(bytes, 0),
            zero: u32_at(bytes, 4),
            event: bytes[Record::EVENT_AT..Record::SIZE].to_vec(),
        }
    }

    pub fn encode(&self, out: &mut Vec<u8>) {
        out.extend(self.second.to_be_bytes());
        out.extend(self.zero.to_be_bytes());
        out.extend(&self.event);
    }
}

/// The bytes of a timeline with these records.
pub fn encode(records: &[Record]) -> Vec<u8> {
    let mut out = Vec::with_capacity(Header::SIZE + records.len() * Record::SIZE);
    Header::of(records.len() as u16).encode(&mut out);
    for record in records {
        record.encode(&mut out);
    }
    out
}

/// A way to break the form, in the order in which they are looked for.
#[derive(Clone, Copy, Debug, PartialEq, Eq, PartialOrd, Ord)]
pub enum Way {
    HeaderCut,
    WrongVersion,
    TooManyRecords,
    WrongOffset,
    RecordsCut,
    BytesBehind,
    NotZero,
    BelowClock,
    SecondFalls,
    ClockEvent,
}

impl Way {
    pub const ALL: [Way; 10] = [
        Way::HeaderCut,
        Way::WrongVersion,
        Way::TooManyRecords,
        Way::WrongOffset,
        Way::RecordsCut,
        Way::BytesBehind,
        Way::NotZero,
        Way::BelowClock,
        Way::SecondFalls,
        Way::ClockEvent,
    ];

    pub fn words(self) -> &'static str {
        match self {
            Way::HeaderCut => "the header is cut",
            Way::WrongVersion => "the version is not 1",
            Way::TooManyRecords => "the header counts more than 1000 records",
            Way::WrongOffset => "the offset of the records is not 8",
            Way::RecordsCut => "there are fewer records than the header counts",
            Way::BytesBehind => "there are bytes behind the records that the header counts",
            Way::NotZero => "the word behind the second is not 0",
            Way::BelowClock => "the first second is below the image's clock",
            Way::SecondFalls => "the second is below the one before",
            Way::ClockEvent => "the event is a clock event",
        }
    }
}

/// The first thing found that breaks the form, and in which record, counted from 1.
#[derive(Clone, Copy, Debug, PartialEq, Eq)]
pub struct Fault {
    pub way: Way,
    pub record: Option<usize>,
}

impl std::fmt::Display for Fault {
    fn fmt(&self, out: &mut std::fmt::Formatter) -> std::fmt::Result {
        match self.record {
            Some(record) => write!(out, "record {record}: {}", self.way.words()),
            None => write!(out, "{}", self.way.words()),
        }
    }
}

/// The records of a timeline for a phone with this clock, or how the timeline breaks its form.
pub fn in_form(timeline: &[u8], clock: u32) -> Result<Vec<Record>, Fault> {
    let records = laid_out(timeline).map_err(|way| Fault { way, record: None })?;
    match first_fault(&records, clock) {
        None => Ok(records),
        Some(fault) => Err(fault),
    }
}

/// The records of a timeline whose header and length are in form; the records may be anything.
pub fn laid_out(timeline: &[u8]) -> Result<Vec<Record>, Way> {
    let header = Header::decode(timeline).ok_or(Way::HeaderCut)?;
    let count = usize::from(header.count);
    let behind_header = &timeline[Header::SIZE..];
    if header.version != VERSION {
        Err(Way::WrongVersion)
    } else if count > MOST_RECORDS {
        Err(Way::TooManyRecords)
    } else if header.records_at != Header::SIZE as u32 {
        Err(Way::WrongOffset)
    } else if behind_header.len() < count * Record::SIZE {
        Err(Way::RecordsCut)
    } else if behind_header.len() > count * Record::SIZE {
        Err(Way::BytesBehind)
    } else {
        let records = behind_header.chunks_exact(Record::SIZE);
        Ok(records.map(Record::decode).collect())
    }
}

/// The first record that breaks the form.
fn first_fault(records: &[Record], clock: u32) -> Option<Fault> {
    let mut earliest = clock;
    for (at, record) in records.iter().enumerate() {
        if let Some(way) = record_fault(record, at == 0, earliest) {
            let record = Some(at + 1);
            return Some(Fault { way, record });
        }
        earliest = record.second;
    }
    None
}

/// What is wrong with a record that may not be earlier than a second.
fn record_fault(record: &Record, is_first: bool, earliest: u32) -> Option<Way> {
    if record.zero != 0 {
        Some(Way::NotZero)
    } else if record.second < earliest {
        Some(match is_first {
            true => Way::BelowClock,
            false => Way::SecondFalls,
        })
    } else if record.event.first() == Some(&CLOCK) {
        Some(Way::ClockEvent)
    } else {
        None
    }
}

/// The clock event that is put in before a second.
pub fn clock_event(second: u32) -> Vec<u8> {
    Event {
        kind: CLOCK,
        actor: DEVICE,
        key: second,
        ..Event::default()
    }
    .encode()
}

/// The events in order, a clock event put in wherever the next second is above the clock. No other
/// event moves the clock and none that is put in is refused, so that nothing has to run for this.
pub fn events_of(records: &[Record], clock: u32) -> Vec<Vec<u8>> {
    let mut clock = clock;
    let mut events = Vec::new();
    for record in records {
        if record.second > clock {
            clock = record.second;
            events.push(clock_event(clock));
        }
        events.push(record.event.clone());
    }
    events
}

/// Why nothing was run.
#[derive(Clone, Copy, Debug, PartialEq, Eq)]
pub enum Refused {
    Image(Refusal),
    Timeline(Fault),
}

impl std::fmt::Display for Refused {
    fn fmt(&self, out: &mut std::fmt::Formatter) -> std::fmt::Result {
        match self {
            Refused::Image(refusal) => write!(out, "the image breaks {refusal}"),
            Refused::Timeline(fault) => write!(out, "the timeline breaks its form: {fault}"),
        }
    }
}

/// The phone of an image and the records of the timeline behind it. Code 1 comes before 19.
pub fn open_both(stream: &[u8]) -> Result<(Phone, Vec<Record>), Refused> {
    let (image, timeline) = split_stream(stream);
    let phone = open(image).map_err(Refused::Image)?;
    let records = in_form(timeline, phone.clock).map_err(Refused::Timeline)?;
    Ok((phone, records))
}

/// The stream that an image and a timeline stand for: `bench` prints of it what `play` prints of them.
pub fn as_stream(stream: &[u8]) -> Result<Vec<u8>, Refused> {
    let (phone, records) = open_both(stream)?;
    let mut out = split_stream(stream).0.to_vec();
    out.extend(events_of(&records, phone.clock).concat());
    Ok(out)
}

/// What one run of `play` gives.
pub struct Run {
    /// What `play` prints.
    pub text: String,
    /// The image after the last event; where something is refused the image stays as it was.
    pub image: Result<Vec<u8>, Refused>,
}

pub fn run(stream: &[u8]) -> Run {
    run_and_watch(stream, |_, _, _, _| {})
}

/// A run in which somebody sees each event, those put in too: the state before, the event, the
/// answer, the state after.
pub fn run_and_watch(stream: &[u8], mut watch: impl FnMut(&Phone, &[u8], Answer, &Phone)) -> Run {
    let mut text = String::from(FIRST_LINE);
    let (mut phone, records) = match open_both(stream) {
        Ok(both) => both,
        Err(refused) => {
            text.push_str(&line_of(&refused));
            let image = Err(refused);
            return Run { text, image };
        }
    };
    let mut running = Running::of(&mut phone, &mut text);
    for record in &records {
        if record.second > running.phone.clock {
            running.event(&clock_event(record.second), &mut watch);
        }
        running.event(&record.event, &mut watch);
    }
    let image = Ok(phone.encode());
    Run { text, image }
}

/// The printed line behind the first one where something is refused.
fn line_of(refused: &Refused) -> String {
    match refused {
        Refused::Image(refusal) => refused_line(refusal),
        Refused::Timeline(_) => format!("timeline {REFUSED}\n"),
    }
}
