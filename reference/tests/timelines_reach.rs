//! The timelines that are made reach every way to break the form and everything that a misreading
//! gets wrong; on each of them the two ways to the answers agree. The stored ones agree too.

use std::path::Path;

use reference::check::Counts;
use reference::events::{CLOCK, LAST_CODE, LAST_KIND};
use reference::generate::events::codes_of;
use reference::generate::timelines::case;
use reference::played::checked_play;
use reference::text::to_bytes;
use reference::vectors::{names, read, run_timelines};

#[test]
fn a_thousand_timelines_show_everything() {
    let mut counts = Counts::default();
    for number in 0..1000 {
        let case = case(1, number);
        if let Err(complaint) = checked_play(&case.stream, &mut counts) {
            panic!("timeline {number} ({}): {complaint}", case.description);
        }
    }
    println!("{}", counts.played.report());
    for (name, count) in counts.played.counts() {
        assert!(count >= 10, "{name}: {count} times");
    }
    for kind in 1..=LAST_KIND {
        for code in 0..=LAST_CODE {
            let count = counts.of(kind, code);
            // A clock event that is put in is always done.
            let is_possible = match kind {
                CLOCK => code == 0,
                _ => codes_of(kind).contains(&code),
            };
            match is_possible {
                true => assert!(count >= 20, "kind {kind} got code {code} {count} times"),
                false => assert_eq!(count, 0, "kind {kind} cannot get code {code}"),
            }
        }
    }
}

#[test]
fn stored_timelines_agree_and_their_words_are_their_bytes() {
    let folder = &Path::new(env!("CARGO_MANIFEST_DIR")).join("timelines");
    let outcome = run_timelines(folder).expect("a folder");
    assert_eq!(outcome.differing, 0, "{}", outcome.report);
    for name in names(folder).expect("a list") {
        let words = read(&folder.join(format!("{name}.txt")));
        // The longest have no words.
        if let Ok(words) = words {
            let words = String::from_utf8(words).expect("text");
            let bytes = read(&folder.join(format!("{name}.in")));
            assert_eq!(to_bytes(&words).ok(), bytes.ok(), "{name}");
        }
    }
}

#[test]
fn a_stored_timeline_that_differs_is_told() {
    let folder = std::env::temp_dir().join(format!("reference-timelines-{}", std::process::id()));
    std::fs::create_dir_all(&folder).expect("a folder");
    let put = |name: &str, bytes: &[u8]| std::fs::write(folder.join(name), bytes).expect("a file");
    put("cases", b"one says this\ntwo says that\n");
    put("one.in", &[0; 7]);
    put("one.out", b"event kind code domain links\nimage 1 1 7\n");
    put("two.in", &[0; 7]);
    put("two.out", b"event kind code domain links\ntimeline 19\n");
    let outcome = run_timelines(&folder).expect("a folder");
    std::fs::remove_dir_all(&folder).expect("the folder is there");
    assert_eq!(outcome.differing, 1);
    let told = "case two event 1: expected `timeline 19`, found `image 1 1 7`\n2 cases, 1 differ\n";
    assert!(outcome.report.starts_with(told), "{}", outcome.report);
}
