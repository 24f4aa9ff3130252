//! 02, "Lesson timelines": the form of a timeline, the clock events that are put in, code 19 behind 1
//! and before any event, and that running one equals running its events.

use crate::common::{stream, worked_image, WORKED_RUN};
use reference::bench;
use reference::phone::Phone;
use reference::text::to_bytes;
use reference::timeline::{
    as_stream, clock_event, encode, events_of, in_form, run, Fault, Record, Refused, Way,
};

const FIRST_LINE: &str = "event kind code domain links\n";

/// What `play` prints for the worked run's image and a timeline in words, without the first line.
fn played(timeline: &str) -> String {
    played_on(worked_image(), timeline)
}

fn played_on(image: &str, timeline: &str) -> String {
    let text = run(&stream(image, timeline)).text;
    let lines = text.strip_prefix(FIRST_LINE).expect("the first line");
    lines.to_string()
}

/// A record with a request, in a second.
fn record(second: u32) -> Record {
    let mut event = vec![15, 0, 0, 1, 0, 1];
    event.resize(24, 0);
    Record {
        second,
        zero: 0,
        event,
    }
}

/// How a timeline breaks its form on a phone whose clock is 100.
fn fault(timeline: &[u8]) -> Option<(Way, Option<usize>)> {
    let fault = in_form(timeline, 100).err();
    fault.map(|Fault { way, record }| (way, record))
}

fn timeline_of(seconds: &[u32]) -> Vec<u8> {
    let records: Vec<Record> = seconds.iter().copied().map(record).collect();
    encode(&records)
}

/// Timeline bytes behind the worked run's image.
fn behind_image(timeline: &[u8]) -> Vec<u8> {
    let mut stream = stream(worked_image(), "");
    stream.extend(timeline);
    stream
}

#[test]
fn its_bytes_are_those_of_02() {
    let bytes = stream(
        worked_image(),
        "at 100\nrequest by device executable 1 action 1\nat 4294967295\ncard-out by device",
    );
    let mut expected = vec![0, 1, 0, 2, 0, 0, 0, 8];
    expected.extend([0, 0, 0, 100, 0, 0, 0, 0, 15, 0, 0, 1, 0, 1]);
    expected.resize(8 + 32, 0);
    expected.extend([255, 255, 255, 255, 0, 0, 0, 0, 3]);
    expected.resize(8 + 64, 0);
    assert_eq!(bytes[184..], expected);
}

#[test]
fn the_worked_run_by_its_seconds_prints_its_lines() {
    // Every event with its second; the clock events come by themselves, but one does not go back.
    let events = WORKED_RUN.split("\n\n").nth(1).expect("events");
    let mut timeline = String::from("at 100\n");
    for line in events.lines().take(13) {
        match line.strip_prefix("clock by device to ") {
            Some(second) => timeline.push_str(&format!("at {second}\n")),
            None => timeline.push_str(&format!("{line}\n")),
        }
    }
    let by_seconds = run(&stream(worked_image(), &timeline));
    let by_bench = bench::run(&to_bytes(WORKED_RUN).expect("text"));
    let thirteen: Vec<&str> = by_bench.text.lines().take(14).collect();
    assert_eq!(by_seconds.text.lines().collect::<Vec<_>>(), thirteen);
    assert_eq!(by_seconds.image.ok(), by_bench.image.ok());
}

#[test]
fn a_clock_event_is_put_in_where_the_next_second_is_above_the_clock_and_only_there() {
    let request = "request by device executable 1 action 1";
    assert_eq!(played(&format!("at 100\n{request}")), "1 15 0 1 2\n");
    assert_eq!(
        played(&format!(
            "at 101\n{request}\n{request}\nat 101\n{request}\nat 102\n{request}"
        )),
        "1 1 0 0 0\n2 15 0 1 2\n3 15 0 1 2\n4 15 0 1 2\n5 1 0 0 0\n6 15 0 1 2\n"
    );
    assert_eq!(played("timeline"), "");
}

#[test]
fn the_event_put_in_is_that_of_the_device_with_nothing_but_the_time() {
    let expected = [
        1, 0, 0, 0, 0, 0, 0, 0, 0, 1, 0, 0, 0, 0, 0, 0, 0, 0, 0, 0, 0, 0, 0, 0,
    ];
    assert_eq!(clock_event(65536), expected);
    let records = [record(100), record(65536), record(65536)];
    let events = events_of(&records, 100);
    assert_eq!(events.len(), 4);
    assert_eq!(events[1], expected);
    assert_eq!(events[3], records[2].event);
}

#[test]
fn a_refused_event_does_not_take_its_second_back() {
    let text = played("at 150\ncard-out by device\ncard-out by device\nat 151\ncard-out by device");
    assert_eq!(
        text,
        "1 1 0 0 0\n2 3 7 0 0\n3 3 7 0 0\n4 1 0 0 0\n5 3 7 0 0\n"
    );
    let image = run(&stream(worked_image(), "at 150\ncard-out by device")).image;
    let phone = Phone::decode(&image.expect("an image")).expect("a phone");
    assert_eq!(phone.clock, 150);
}

#[test]
fn dates_pass_between_the_events() {
    let verify = "verify by device executable 1";
    // The issued record's last second is 200, its root's is 1000.
    assert_eq!(
        played(&format!("at 200\n{verify}\nat 201\n{verify}")),
        "1 1 0 0 0\n2 12 0 1 2\n3 1 0 0 0\n4 12 0 0 0\n"
    );
    let mark = "mark-valid by operator 500 certificate 10";
    assert_eq!(
        played(&format!("at 1000\n{mark}\nat 1001\n{mark}")),
        "1 1 0 0 0\n2 7 0 0 0\n3 1 0 0 0\n4 7 18 0 0\n"
    );
}

#[test]
fn a_bad_event_is_no_fault_of_the_form_unless_its_kind_is_1() {
    let mut records = vec![record(100); 4];
    records[0].event = vec![0; 24];
    records[1].event = vec![255; 24];
    records[2].event[1] = 5;
    let text = run(&behind_image(&encode(&records))).text;
    assert_eq!(
        text,
        format!("{FIRST_LINE}1 0 2 0 0\n2 255 2 0 0\n3 15 2 0 0\n4 15 0 1 2\n")
    );
    for event in [clock_event(100), clock_event(500), vec![1; 24]] {
        records[3].event = event;
        assert_eq!(fault(&encode(&records)), Some((Way::ClockEvent, Some(4))));
    }
}

#[test]
fn a_header_is_exactly_one_of_02() {
    let good = timeline_of(&[100, 101]);
    assert_eq!(fault(&good), None);
    for end in 0..8 {
        assert_eq!(fault(&good[..end]), Some((Way::HeaderCut, None)));
    }
    // Each byte of the header counts, whatever it is changed to.
    for at in 0..8 {
        for value in (0..=255).filter(|value| *value != good[at]) {
            let mut changed = good.clone();
            changed[at] = value;
            let way = match at {
                0 | 1 => Way::WrongVersion,
                3 if value < 2 => Way::BytesBehind,
                3 => Way::RecordsCut,
                // 256, 512 and 768 records and two, then more than 1000.
                2 if value < 4 => Way::RecordsCut,
                2 => Way::TooManyRecords,
                _ => Way::WrongOffset,
            };
            assert_eq!(fault(&changed), Some((way, None)), "byte {at}, {value}");
        }
    }
}

#[test]
fn the_length_is_exactly_that_of_the_records_counted() {
    let good = timeline_of(&[100, 101, 101]);
    for end in 8..good.len() {
        assert_eq!(fault(&good[..end]), Some((Way::RecordsCut, None)));
    }
    for more in [1, 2, 31, 32, 33, 64] {
        let mut longer = good.clone();
        longer.resize(good.len() + more, 0);
        assert_eq!(fault(&longer), Some((Way::BytesBehind, None)));
    }
    assert_eq!(fault(&timeline_of(&[])), None);
    assert_eq!(fault(&timeline_of(&[100; 1000])), None);
    assert_eq!(
        fault(&timeline_of(&[100; 1001])),
        Some((Way::TooManyRecords, None))
    );
}

#[test]
fn seconds_never_fall_and_the_first_is_not_below_the_clock() {
    assert_eq!(fault(&timeline_of(&[100, 100, u32::MAX, u32::MAX])), None);
    assert_eq!(fault(&timeline_of(&[99])), Some((Way::BelowClock, Some(1))));
    assert_eq!(
        fault(&timeline_of(&[0, 100])),
        Some((Way::BelowClock, Some(1)))
    );
    for (seconds, number) in [
        (&[101, 100][..], 2),
        (&[100, 200, 199], 3),
        (&[100, 200, 150, 200], 3),
        (&[100, u32::MAX, 0], 3),
    ] {
        let expected = Some((Way::SecondFalls, Some(number)));
        assert_eq!(fault(&timeline_of(seconds)), expected, "{seconds:?}");
    }
}

#[test]
fn the_word_behind_a_second_is_0_in_every_byte_of_every_record() {
    for number in 0..3 {
        for at in 4..8 {
            let mut timeline = timeline_of(&[100, 101, 102]);
            timeline[8 + 32 * number + at] = 1;
            let expected = Some((Way::NotZero, Some(number + 1)));
            assert_eq!(fault(&timeline), expected);
        }
    }
}

#[test]
fn a_timeline_that_breaks_its_form_prints_two_lines_and_runs_nothing() {
    // The fault is in the last record, and the first would be done.
    let mut timeline = timeline_of(&[100, 200, 199]);
    for _ in 0..2 {
        let run = run(&behind_image(&timeline));
        assert_eq!(run.text, format!("{FIRST_LINE}timeline 19\n"));
        assert!(matches!(run.image, Err(Refused::Timeline(_))));
        timeline.truncate(5);
    }
    // Nothing at all is no timeline either.
    let run = run(&behind_image(&[]));
    assert_eq!(run.text, format!("{FIRST_LINE}timeline 19\n"));
}

#[test]
fn a_refused_image_comes_before_the_form() {
    let good = timeline_of(&[100]);
    let bad = timeline_of(&[101, 100]);
    for timeline in [&good[..], &bad, &[]] {
        let mut stream = behind_image(timeline);
        // The id of certificate 20 becomes that of certificate 10.
        stream[40 + 2 * 24 + 1] = 10;
        let run = run(&stream);
        assert_eq!(run.text, format!("{FIRST_LINE}image 1 4 88\n"));
        assert!(matches!(run.image, Err(Refused::Image(_))));
        assert_eq!(run.text, bench::run(&stream).text);
    }
    // An image that is cut, and a total that lets no more be read.
    let stream = behind_image(&good);
    for end in 0..184 {
        assert_eq!(run(&stream[..end]).text, bench::run(&stream[..end]).text);
    }
    let mut short_total = stream.clone();
    short_total[36..40].copy_from_slice(&39_u32.to_be_bytes());
    assert_eq!(
        run(&short_total).text,
        format!("{FIRST_LINE}image 1 1 36\n")
    );
}

#[test]
fn the_stream_of_a_timeline_is_the_events_with_clock_events_put_in() {
    let words = "at 100\ncard-in by device card 2\nat 150\ncard-out by device\ncard-out by device";
    let in_order = "\
card-in by device card 2
clock by device to 150
card-out by device
card-out by device";
    let timeline = stream(worked_image(), words);
    let same = stream(worked_image(), in_order);
    assert_eq!(as_stream(&timeline), Ok(same.clone()));
    assert_eq!(run(&timeline).text, bench::run(&same).text);
    assert!(as_stream(&timeline[..timeline.len() - 1]).is_err());
}

#[test]
fn an_image_with_a_timeline_behind_it_is_read_by_its_own_length() {
    let image = worked_image().replace("executable free", "executable free\nexecutable free");
    let request = "request by device executable 1 action 1";
    assert_eq!(
        played_on(&image, &format!("at 100\n{request}")),
        "1 15 0 1 2\n"
    );
    let image = image.replace("clock 100", "clock 0");
    assert_eq!(
        played_on(&image, &format!("at 0\n{request}")),
        "1 15 0 1 2\n"
    );
    assert_eq!(
        played_on(&image, &format!("at 4294967295\n{request}\n{request}")),
        "1 1 0 0 0\n2 15 15 0 0\n3 15 15 0 0\n"
    );
}
