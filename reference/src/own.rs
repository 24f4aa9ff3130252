//! Streams and timelines from before operators were somebody in particular, with the owners put in.
//!
//! Follows 02, "An operator is somebody in particular". An operator or a manufacturer who deletes or
//! marks a certificate left the owner field 0; here it becomes that of the record that the event meets.
//! Nothing else of the bytes changes.

use crate::bench::{event_records, split_stream};
use crate::events::{step, Event};
use crate::phone::Phone;
use crate::refusal::open;
use crate::timeline::{clock_event, encode, open_both};

/// The stream in which each of these events names the owner of its certificate. Behind an image that
/// is refused no event meets a state, and all stays as it is.
pub fn own(stream: &[u8]) -> Vec<u8> {
    let (image, events) = split_stream(stream);
    let Ok(mut phone) = open(image) else {
        return stream.to_vec();
    };
    let mut out = image.to_vec();
    for record in event_records(events) {
        let record = owned(&phone, record);
        step(&mut phone, &record);
        out.extend(record);
    }
    out
}

/// The same of an image and a timeline, which stay as they are where one of them is refused.
pub fn own_timeline(stream: &[u8]) -> Vec<u8> {
    let Ok((mut phone, mut records)) = open_both(stream) else {
        return stream.to_vec();
    };
    let mut out = split_stream(stream).0.to_vec();
    for record in &mut records {
        if record.second > phone.clock {
            step(&mut phone, &clock_event(record.second));
        }
        record.event = owned(&phone, &record.event);
        step(&mut phone, &record.event);
    }
    out.extend(encode(&records));
    out
}

/// An event with the owner of its certificate. One that names an owner already, right or wrong,
/// keeps it: before, it was out of form.
fn owned(phone: &Phone, record: &[u8]) -> Vec<u8> {
    match Event::decode(record) {
        Some(event) if event.names_who_acts() && event.owner == 0 => {
            let owner = phone.certificate(event.id).map_or(0, |c| c.owner);
            Event { owner, ..event }.encode()
        }
        _ => record.to_vec(),
    }
}
