//! One run of `bench`: a stream of bytes in, lines of text out.
//!
//! Follows 01, "One run of `bench`, whole", and 02 for what stands behind `image 1`.

use crate::events::{step, Answer, Event};
use crate::phone::{Header, Phone, LARGEST_IMAGE};
use crate::refusal::{open, Refusal};

pub const FIRST_LINE: &str = "event kind code domain links\n";

/// What one run gives.
pub struct Run {
    /// What `bench` prints.
    pub text: String,
    /// The image after the last event, or why and where the image is refused.
    pub image: Result<Vec<u8>, Refusal>,
}

/// Where the image ends in a stream: the total of its header, if that is a length to read.
pub fn image_length(stream: &[u8]) -> Option<usize> {
    let total = Header::decode(stream)?.total as usize;
    (Header::SIZE..=LARGEST_IMAGE)
        .contains(&total)
        .then_some(total)
}

/// The image's bytes and the bytes of the events. Short streams give a short image.
pub fn split_stream(stream: &[u8]) -> (&[u8], &[u8]) {
    let end = image_length(stream).unwrap_or(stream.len());
    stream.split_at(end.min(stream.len()))
}

/// Splits the bytes behind the image into events; the last one may be short.
pub fn event_records(events: &[u8]) -> impl Iterator<Item = &[u8]> {
    events.chunks(Event::SIZE)
}

pub fn run(stream: &[u8]) -> Run {
    run_and_watch(stream, |_, _, _, _| {})
}

/// A run in which somebody sees each event: the state before, the record, the answer, the state after.
pub fn run_and_watch(stream: &[u8], mut watch: impl FnMut(&Phone, &[u8], Answer, &Phone)) -> Run {
    let (image, events) = split_stream(stream);
    let mut text = String::from(FIRST_LINE);
    let mut phone = match open(image) {
        Ok(phone) => phone,
        Err(refusal) => {
            text.push_str(&refused_line(&refusal));
            return Run {
                text,
                image: Err(refusal),
            };
        }
    };
    let mut running = Running::of(&mut phone, &mut text);
    for record in event_records(events) {
        running.event(record, &mut watch);
    }
    Run {
        text,
        image: Ok(phone.encode()),
    }
}

/// A phone on which events run one after the other, and what is printed of them.
pub(crate) struct Running<'a> {
    pub(crate) phone: &'a mut Phone,
    text: &'a mut String,
    events: usize,
}

impl<'a> Running<'a> {
    pub(crate) fn of(phone: &'a mut Phone, text: &'a mut String) -> Running<'a> {
        Running {
            phone,
            text,
            events: 0,
        }
    }

    /// One event, its line, and whoever watches.
    pub(crate) fn event(
        &mut self,
        record: &[u8],
        watch: &mut impl FnMut(&Phone, &[u8], Answer, &Phone),
    ) {
        let before = self.phone.clone();
        let answer = step(self.phone, record);
        watch(&before, record, answer, self.phone);
        self.events += 1;
        self.text.push_str(&line(self.events, record, answer));
    }
}

/// The printed line of an image that answers 1: the rule and the offset stand behind the code.
pub fn refused_line(refusal: &Refusal) -> String {
    format!("image 1 {} {}\n", refusal.broken.rule, refusal.offset)
}

/// The printed line of one event. The kind is the first byte as it is.
fn line(number: usize, record: &[u8], answer: Answer) -> String {
    let kind = record.first().copied().unwrap_or(0);
    format!(
        "{} {} {} {} {}\n",
        number, kind, answer.code, answer.domain, answer.links
    )
}
