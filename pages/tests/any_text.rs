//! Lessons of any bytes: nothing panics, the answers are the programs', and no loss of a domain is missed.

mod common;
use common::stand_ins;

use pages::lesson::lines;
use pages::told::{tell, Told};
use reference::bench;
use reference::generate::{case_of, timelines, Mix};
use reference::text::{timeline_to_text, to_text};
use reference::timeline;

/// The answers of a lesson as `bench` prints them.
fn printed(told: &Told) -> String {
    let mut text = bench::FIRST_LINE.to_string();
    for m in &told.moments {
        text += &format!(
            "{} {} {} {} {}\n",
            m.number, m.kind, m.code, m.domain, m.links
        );
    }
    text
}

/// The applications that each event takes the domain from, as the reference sees it.
fn losses(stream: &[u8]) -> Vec<Vec<u16>> {
    let mut losses = Vec::new();
    bench::run_and_watch(stream, |before, _, _, after| {
        let lost = before.occupied_executables().filter(|application| {
            let later = after.executable(application.id);
            application.domain != 0 && later.is_some_and(|later| later.domain == 0)
        });
        let mut ids: Vec<u16> = lost.map(|application| application.id).collect();
        ids.sort_unstable();
        losses.push(ids);
    });
    losses
}

/// The applications of which a moment says that they are untrusted now.
fn told_losses(told: &Told) -> Vec<Vec<u16>> {
    let id = |line: &String| {
        let rest = line.strip_prefix("application ")?;
        rest.strip_suffix(" is untrusted now")?.parse().ok()
    };
    let of_moment = |reasons: &Vec<String>| reasons.iter().filter_map(id).collect();
    told.moments.iter().map(|m| of_moment(&m.reasons)).collect()
}

fn check(told: &Told, stream: &[u8]) {
    assert_eq!(printed(told), bench::run(stream).text);
    assert_eq!(told_losses(told), losses(stream));
    assert!(lines(told).lines().count() >= told.moments.len());
}

#[test]
fn streams_of_a_generator() {
    for number in 0..60 {
        let stream = case_of(Mix::All, 5, number).stream;
        match tell("x.txt", &to_text(&stream), &stand_ins(), false) {
            Ok(told) => check(&told, &stream),
            Err(trouble) => assert_eq!(trouble.status, 1, "{trouble}"),
        }
    }
}

#[test]
fn timelines_of_a_generator() {
    for number in 0..48 {
        let both = timelines::case(5, number).stream;
        let told = tell("x.txt", &timeline_to_text(&both), &stand_ins(), false);
        match told {
            Ok(told) if told.timed => check(&told, &timeline::as_stream(&both).expect("a stream")),
            // A timeline that is not laid out is in hex, and then the text is that of a stream.
            Ok(told) => check(&told, &both),
            Err(trouble) => assert_eq!(trouble.status, 1, "{trouble}"),
        }
    }
}

#[test]
fn texts_of_noise() {
    for text in [
        "\u{feff}# a mark of the byte order\n",
        "phone",
        "bytes zz",
        "at",
        "\r\n\r\n",
        "certificate 1 on card",
        "phone mode 0 card none clock 0\naction 0 bytes 00 00 00\n",
    ] {
        let _ = tell("x.txt", text, &stand_ins(), true);
    }
}
