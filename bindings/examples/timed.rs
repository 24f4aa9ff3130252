//! Plays a timed lesson, an image and then a timeline: its events are written out with the clock
//! events put in, and run. From the top of the repository, on x86-64:
//!
//!     ./run library
//!     rustc --edition 2021 -O -L native=target/staticlib bindings/examples/timed.rs -o target/timed && target/timed lessons/timed-lesson.in

#[path = "../monitor.rs"]
mod monitor;

use monitor::{event, Unplayed, EVENT_SIZE};

fn play(path: &str) -> Result<(), String> {
    let mut file = std::fs::read(path).map_err(|error| format!("{path}: {error}"))?;

    // The header says how long the image is; the file can be shorter.
    let length = monitor::image_length(&file).min(file.len());
    let (image, timeline) = file.split_at_mut(length);

    let events = monitor::timeline(image, timeline).map_err(|unplayed| match unplayed {
        Unplayed::Image(fault) => format!("{path}: {fault}"),
        Unplayed::Timeline => format!("{path}: the timeline breaks its form"),
    })?;
    let answers = monitor::run(image, &events);
    println!("event kind code domain links");
    for (n, (record, told)) in (1..).zip(events.chunks(EVENT_SIZE).zip(answers)) {
        let kind = record[event::KIND];
        println!("{n} {kind} {} {} {}", told.code, told.domain, told.links);
    }
    Ok(())
}

fn main() {
    let words: Vec<String> = std::env::args().skip(1).collect();
    let done = match &words[..] {
        [path] => play(path),
        _ => Err("usage: timed FILE".into()),
    };
    if let Err(message) = done {
        eprintln!("{message}");
        std::process::exit(1);
    }
}
