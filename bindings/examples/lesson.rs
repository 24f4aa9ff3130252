//! Runs a lesson, an image and then events, and asks why an application of it is trusted or not at
//! the end. From the top of the repository, on x86-64:
//!
//!     ./run library
//!     rustc --edition 2021 -O -L native=target/staticlib bindings/examples/lesson.rs -o target/lesson && target/lesson lessons/worked-run.in 1

#[path = "../monitor.rs"]
mod monitor;

use monitor::{event, EVENT_SIZE};

fn lesson(path: &str, id: &str) -> Result<(), String> {
    let id = id
        .parse()
        .map_err(|_| format!("{id} is no number from 0 to 65535"))?;
    let mut file = std::fs::read(path).map_err(|error| format!("{path}: {error}"))?;

    // The header says how long the image is; the file can be shorter.
    let length = monitor::image_length(&file).min(file.len());
    let (image, events) = file.split_at_mut(length);
    monitor::open(image).map_err(|fault| format!("{path}: {fault}"))?;

    // Bytes left over at the end, which are no whole event, are one with code 2.
    println!("event kind code domain links");
    for (n, record) in (1..).zip(events.chunks(EVENT_SIZE)) {
        let (told, kind) = (monitor::step(image, record), record[event::KIND]);
        println!("{n} {kind} {} {} {}", told.code, told.domain, told.links);
    }

    let lines =
        monitor::why(image, id).map_err(|_| format!("{path}: no application has the id {id}"))?;
    for sentence in monitor::sentences(lines) {
        println!("{sentence}");
    }
    Ok(())
}

fn main() {
    let words: Vec<String> = std::env::args().skip(1).collect();
    let done = match &words[..] {
        [path, id] => lesson(path, id),
        _ => Err("usage: lesson FILE ID".into()),
    };
    if let Err(message) = done {
        eprintln!("{message}");
        std::process::exit(1);
    }
}
