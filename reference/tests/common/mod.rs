//! What the tests share: the worked run's image in words, and answers in short form.
#![allow(dead_code)]

use reference::bench;
use reference::phone::Phone;
use reference::refusal::open;
use reference::text::to_bytes;

/// The image and the events of 01, "One run of `bench`, whole".
pub const WORKED_RUN: &str = "\
phone mode 1 card none clock 100
certificate 10 on phone root operator valid enabled key 1000 owner 500 expiry 1000
certificate 11 on phone issued operator key 1001 by 1000 owner 500 expiry 200
certificate 20 on card 2 root operator valid enabled key 2000 owner 600 expiry 1000
certificate free
card 1 operator 500
card 2 operator 600
executable 1 operator signed 1001 permissions none
executable free
action 0 untrusted ask operator free manufacturer free third-party ask
action 1 untrusted never operator free manufacturer free third-party never

request by device executable 1 action 1
clock by device to 200
request by device executable 1 action 1
clock by device to 201
request by device executable 1 action 1
request by device executable 1 action 0
give by user executable 1 action 0
request by device executable 1 action 0
card-in by device card 2
card-out by device
verify by device executable 1
mark-valid by user certificate 10
mark-valid by operator 500 certificate 10
clock by device to 150
";

/// The worked run's image without its events.
pub fn worked_image() -> &'static str {
    WORKED_RUN.split("\n\n").next().expect("an image")
}

/// An image and events in words, put together.
pub fn stream(image: &str, events: &str) -> Vec<u8> {
    to_bytes(&format!("{image}\n{events}\n")).unwrap_or_else(|wrong| panic!("{wrong}"))
}

/// The answers to the events: code, domain and links of each.
pub fn answers(image: &str, events: &str) -> Vec<(u8, u8, u8)> {
    let run = bench::run(&stream(image, events));
    assert!(run.image.is_ok(), "the image breaks {:?}", run.image.err());
    let number = |word: &str| word.parse().expect("a number");
    run.text
        .lines()
        .skip(1)
        .map(|line| {
            let fields: Vec<&str> = line.split(' ').collect();
            (number(fields[2]), number(fields[3]), number(fields[4]))
        })
        .collect()
}

/// The codes of the answers alone.
pub fn codes(image: &str, events: &str) -> Vec<u8> {
    answers(image, events)
        .iter()
        .map(|answer| answer.0)
        .collect()
}

/// The phone after the last event.
pub fn phone_after(image: &str, events: &str) -> Phone {
    let image = bench::run(&stream(image, events)).image.expect("an image");
    Phone::decode(&image).expect("a phone")
}

/// The rule that an image breaks first and where it does, as `bench` prints them; zeros for none.
pub fn refusal(image: &str) -> (u8, usize) {
    refusal_of_bytes(&stream(image, ""))
}

/// The same of a buffer.
pub fn refusal_of_bytes(buffer: &[u8]) -> (u8, usize) {
    match open(buffer) {
        Ok(_) => (0, 0),
        Err(refusal) => (refusal.broken.rule, refusal.offset),
    }
}
