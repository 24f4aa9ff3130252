//! The generator reaches every code of every kind, every way to break a rule, and every chain; its
//! damaged cases reach every rule at many places.

use crate::common::WORKED_RUN;
use reference::bench::split_stream;
use reference::check::{checked_run, Counts};
use reference::events::{LAST_CODE, LAST_KIND};
use reference::generate::events::codes_of;
use reference::generate::{case, case_of, damage::count_of_different_ways, longer, Mix};
use reference::text::to_bytes;

#[test]
fn five_hundred_runs_reach_everything() {
    let mut counts = Counts::default();
    for number in 0..500 {
        let case = case(1, number);
        if let Err(complaint) = checked_run(&case.stream, &mut counts) {
            panic!("case {number} ({}): {complaint}", case.description);
        }
    }
    for kind in 1..=LAST_KIND {
        for code in 0..=LAST_CODE {
            let count = counts.of(kind, code);
            match codes_of(kind).contains(&code) {
                true => assert!(count >= 20, "kind {kind} got code {code} {count} times"),
                false => assert_eq!(count, 0, "kind {kind} cannot get code {code}"),
            }
        }
    }
    for domain in 1..=3 {
        for links in 1..=4 {
            let count = counts.of_chain(domain, links);
            assert!(count >= 10, "domain {domain}, links {links}: {count} times");
        }
    }
    assert!(counts.refused.len() >= count_of_different_ways());
}

#[test]
fn a_longer_stream_begins_with_the_stream_and_reaches_every_code_but_1() {
    let short = to_bytes(WORKED_RUN).expect("a stream");
    let long = longer(1, &short, 5500).expect("an accepted image");
    assert!(long.starts_with(&short));
    assert_eq!(long.len(), short.len() + 5500 * 24 + 5);
    let mut counts = Counts::default();
    let run = checked_run(&long, &mut counts).unwrap_or_else(|complaint| panic!("{complaint}"));
    // What is collected before it is written in `bench` has 64 KiB.
    assert!(run.text.len() > 65536);
    assert!(run.text.ends_with("\n5515 200 2 0 0\n"));
    for code in (0..=LAST_CODE).filter(|code| *code != 1) {
        let count: u64 = (1..=LAST_KIND).map(|kind| counts.of(kind, code)).sum();
        assert!(count > 0, "no event got code {code}");
    }
    // Behind a refused image, or inside an event, there is no place for another.
    assert!(longer(1, &short[..100], 1).is_err());
    assert!(longer(1, &long, 1).is_err());
}

#[test]
fn damaged_cases_break_every_rule_at_many_places_and_leave_some_images_accepted() {
    let mut counts = Counts::default();
    let mut sizes = Vec::new();
    for number in 0..2000 {
        let case = case_of(Mix::Damaged, 1, number);
        sizes.push(split_stream(&case.stream).0.len());
        if let Err(complaint) = checked_run(&case.stream, &mut counts) {
            panic!("case {number} ({}): {complaint}", case.description);
        }
        assert_eq!(case.stream, case_of(Mix::Damaged, 1, number).stream);
    }
    for rule in 1..=8 {
        let (images, offsets) = counts.of_rule(rule);
        assert!(images >= 80, "I{rule} is broken {images} times");
        // Of I1 these are twelve fields, and the lengths of headers that are cut.
        let enough = if rule == 1 { 16 } else { 20 };
        assert!(offsets >= enough, "I{rule} is broken at {offsets} offsets");
    }
    // Every header field that can be wrong, and the present card.
    for field in [0, 2, 4, 6, 8, 10, 14, 20, 24, 28, 32, 36] {
        assert!(counts.places[&(1, field)] >= 4, "byte {field}");
    }
    assert!(counts.places[&(3, 12)] >= 10);
    assert!(counts.accepted >= 100);
    assert!(sizes.iter().filter(|size| **size <= 200).count() >= 200);
    assert!(sizes.iter().filter(|size| **size >= 2000).count() >= 100);
    assert!(counts.refused.len() >= count_of_different_ways());
}
