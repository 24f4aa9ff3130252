//! The proved library beside a plain monitor in Rust, on the same bytes and in the same process.
//!
//! Costs are counted from outside, in instructions: `speed/run` starts this program twice for each
//! figure, with a stream and with the same stream and one event more, and takes the difference.

mod inputs;
#[path = "../bindings/monitor.rs"]
mod monitor;
mod plain;
mod stack;

use inputs::{damaged, image, openings, rows, Dice, SIZES};
use monitor::{
    answers, event, kind, run_into, timed, timeline_into, why_into, Answer, ANSWER_SIZE,
    EVENTS_SIZE, EVENT_SIZE, TIMELINE_HEADER_SIZE, TIMELINE_VERSION, WHY_SIZE,
};

/// The two monitors, under one face.
#[derive(Clone, Copy, PartialEq)]
enum Monitor {
    Proved,
    Plain,
}

impl Monitor {
    fn open(self, image: &[u8]) -> Answer {
        match self {
            Monitor::Proved => monitor::opened(image),
            Monitor::Plain => plain::open(image).into(),
        }
    }

    /// One step, opening included.
    fn step(self, image: &mut [u8], event: &[u8]) -> Answer {
        match self {
            Monitor::Proved => monitor::step(image, event),
            Monitor::Plain => plain_step(image, event).into(),
        }
    }

    fn run(self, image: &mut [u8], events: &[u8], answers: &mut [u8]) -> usize {
        match self {
            Monitor::Proved => run_into(image, events, answers),
            Monitor::Plain => plain::run(image, events, answers),
        }
    }
}

/// A function of its own, so that what it keeps on the stack is not counted as the library's.
#[inline(never)]
fn plain_step(image: &mut [u8], event: &[u8]) -> plain::Answer {
    match plain::open(image) {
        plain::Answer { code: 0, .. } => plain::step(image, event),
        refused => refused,
    }
}

/// The plain monitor knows nothing of the library, and has its own answer: the same five numbers.
impl From<plain::Answer> for Answer {
    fn from(told: plain::Answer) -> Answer {
        Answer {
            code: told.code,
            domain: told.domain,
            links: told.links,
            rule: told.rule,
            offset: told.offset,
        }
    }
}

/// The answers to all events, and the image after them.
fn play(monitor: Monitor, image: &[u8], events: &[u8]) -> (Vec<u8>, Vec<u8>) {
    let mut image = image.to_vec();
    let mut answers = vec![0; events.len() / EVENT_SIZE * ANSWER_SIZE];
    monitor.run(&mut image, events, &mut answers);
    (answers, image)
}

/// Both monitors give the same, and the measured events get the code that they are measured for.
fn check_rows(slots: usize) -> Result<(), String> {
    for row in rows(slots) {
        let image = image(row.image, slots);
        let proved = play(Monitor::Proved, &image, &row.events);
        if proved != play(Monitor::Plain, &image, &row.events) {
            return Err(format!("{}, {slots} slots: the two differ", row.name));
        }
        let codes: Vec<u8> = answers(&proved.0).map(|answer| answer.code).collect();
        let is_another = |code: &u8| matches!(row.code, Some(wanted) if *code != wanted);
        if codes[row.before..].iter().any(is_another) {
            return Err(format!("{}, {slots} slots: answered {codes:?}", row.name));
        }
    }
    Ok(())
}

/// What both monitors tell of an image, as they open it, at one event and in a run.
fn told_of(image: &[u8], events: &[u8]) -> Result<Answer, String> {
    let opened = Monitor::Proved.open(image);
    if opened != Monitor::Plain.open(image) {
        return Err("the two open it differently".into());
    }
    let step = |monitor: Monitor| {
        let mut image = image.to_vec();
        (monitor.step(&mut image, &events[..EVENT_SIZE]), image)
    };
    if step(Monitor::Proved) != step(Monitor::Plain) {
        return Err("the two differ in a step".into());
    }
    if play(Monitor::Proved, image, events) != play(Monitor::Plain, image, events) {
        return Err("the two differ in a run".into());
    }
    Ok(opened)
}

/// The images to open break the rules that they are measured for, and damaged ones are refused alike, each rule of the eight
/// by some of them.
fn check_openings(slots: usize) -> Result<(), String> {
    let events = rows(slots).pop().map_or(Vec::new(), |lesson| lesson.events);
    for opening in openings(slots) {
        let told = told_of(&opening.image, &events)
            .map_err(|why| format!("{}, {slots} slots: {why}", opening.name))?;
        if !opening.is_told(told.rule, told.offset) {
            return Err(format!(
                "{}, {slots} slots: answered {told:?}",
                opening.name
            ));
        }
    }
    let mut dice = Dice(slots as u64);
    let mut met = [0; 9];
    for n in 0..1000 {
        let image = damaged(n % 2, slots, &mut dice);
        let told = told_of(&image, &events)
            .map_err(|why| format!("damaged image {n}, {slots} slots: {why}"))?;
        met[usize::from(told.rule)] += 1;
    }
    match met.iter().position(|count| *count == 0) {
        Some(rule) => Err(format!(
            "{slots} slots: no damaged image meets rule {rule}: {met:?}"
        )),
        None => Ok(()),
    }
}

fn check() -> Result<(), String> {
    for slots in SIZES {
        check_rows(slots)?;
        check_openings(slots)?;
    }
    Ok(())
}

/// One run for the counter: a row's events up to the measured ones, or all of them.
fn once(monitor: Monitor, slots: usize, name: &str, whole: bool) -> Result<(), String> {
    let rows = rows(slots);
    let row = match rows.iter().find(|row| row.name == name) {
        Some(row) => row,
        None => return open_once(monitor, slots, name, whole),
    };
    let mut image = image(row.image, slots);
    let mut answers = vec![0; row.events.len() / EVENT_SIZE * ANSWER_SIZE];
    let end = if whole {
        row.events.len()
    } else {
        row.before * EVENT_SIZE
    };
    monitor.run(&mut image, &row.events[..end], &mut answers);
    Ok(())
}

fn open_once(monitor: Monitor, slots: usize, name: &str, whole: bool) -> Result<(), String> {
    let openings = openings(slots);
    let opening = openings
        .iter()
        .find(|opening| opening.name == name)
        .ok_or("no such row")?;
    if !whole {
        return Ok(());
    }
    match monitor.open(&opening.image) {
        told if opening.is_told(told.rule, told.offset) => Ok(()),
        told => Err(format!("answered {told:?}")),
    }
}

/// The most stack that one step takes, over all rows and all images to open at the largest size, in bytes.
fn most_stack(monitor: Monitor) -> usize {
    let slots = SIZES[SIZES.len() - 1];
    let mut most = 0;
    for row in rows(slots) {
        let mut image = image(row.image, slots);
        for event in row.events.chunks(EVENT_SIZE) {
            let used = stack::used_by(|| {
                monitor.step(&mut image, event);
            });
            most = most.max(used);
        }
    }
    for opening in openings(slots) {
        let event = [0; EVENT_SIZE];
        let mut image = opening.image;
        let used = stack::used_by(|| {
            monitor.step(&mut image, &event);
        });
        most = most.max(used);
    }
    most
}

/// The most stack that the library takes for a run, for why and for a timeline, in bytes: over all
/// rows at the largest size, and for why over all executables of the image behind each of them. It
/// is kept out of its caller, whose other branches are counted.
#[inline(never)]
fn most_stack_of_others() -> [usize; 3] {
    let slots = SIZES[SIZES.len() - 1];
    let mut most = [0; 3];
    for row in rows(slots) {
        let mut image = image(row.image, slots);
        let timeline = timeline_of(&row.events);
        let mut events = vec![0; EVENTS_SIZE];
        let unrolled = stack::used_by(|| {
            let told = timeline_into(&image, &timeline, &mut events);
            assert!(told.is_ok(), "{}: {told:?}", row.name);
        });
        let mut answers = vec![0; row.events.len() / EVENT_SIZE * ANSWER_SIZE];
        let ran = stack::used_by(|| {
            run_into(&mut image, &row.events, &mut answers);
        });
        let mut lines = [0; WHY_SIZE];
        let asked = (1..=slots as u16).map(|id| {
            stack::used_by(|| {
                let _ = why_into(&image, id, &mut lines);
            })
        });
        let used = [ran, asked.max().unwrap_or(0), unrolled];
        (0..most.len()).for_each(|n| most[n] = used[n].max(most[n]));
    }
    most
}

/// The events as a timeline, a second behind each other, but for the clock events.
fn timeline_of(events: &[u8]) -> Vec<u8> {
    let mut records = Vec::new();
    let mut count = 0u16;
    for event in events.chunks(EVENT_SIZE) {
        if event[event::KIND] != kind::CLOCK {
            count += 1;
            records.extend_from_slice(&(inputs::CLOCK + u32::from(count)).to_be_bytes());
            records.extend_from_slice(&[0; timed::EVENT - timed::BLANK]);
            records.extend_from_slice(event);
        }
    }
    let mut all = Vec::new();
    all.extend_from_slice(&TIMELINE_VERSION.to_be_bytes());
    all.extend_from_slice(&count.to_be_bytes());
    all.extend_from_slice(&(TIMELINE_HEADER_SIZE as u32).to_be_bytes());
    [all, records].concat()
}

fn run(words: &[String]) -> Result<(), String> {
    let words: Vec<&str> = words.iter().map(String::as_str).collect();
    match words[..] {
        ["check"] => check(),
        ["rows"] => {
            for row in rows(SIZES[0]) {
                println!(
                    "{} {}",
                    row.name,
                    row.events.len() / EVENT_SIZE - row.before
                );
            }
            for opening in openings(SIZES[0]) {
                println!("{} 1", opening.name);
            }
            Ok(())
        }
        ["stack"] => {
            let steps = [most_stack(Monitor::Proved), most_stack(Monitor::Plain)];
            let [ran, asked, unrolled] = most_stack_of_others();
            println!("{} {} {ran} {asked} {unrolled}", steps[0], steps[1]);
            Ok(())
        }
        ["once", monitor, slots, name, part] => {
            let monitor = if monitor == "proved" {
                Monitor::Proved
            } else {
                Monitor::Plain
            };
            let slots = slots.parse().map_err(|_| "slots is a number")?;
            once(monitor, slots, name, part == "whole")
        }
        _ => Err(
            "usage: speed check | rows | stack | once proved|plain- SLOTS ROW start|whole".into(),
        ),
    }
}

fn main() {
    let words: Vec<String> = std::env::args().skip(1).collect();
    if let Err(message) = run(&words) {
        eprintln!("speed: {message}");
        std::process::exit(1);
    }
}
