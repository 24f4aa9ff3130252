//! What the reference asks of itself on every timeline, and what timelines show, counted.
//!
//! Follows 02, "Lesson timelines", a second time: the stream with the clock events put in, made without
//! running anything, has to print the same. A count that is high says that the cases would not let a
//! misreading pass.

use std::collections::BTreeSet;
use std::fmt::Write;

use crate::bench::{self, split_stream};
use crate::check::{check_encoding, check_step, Counts};
use crate::events::{Answer, CLOCK, LAST_KIND};
use crate::phone::{Certificate, Phone, ISSUED, ROOT};
use crate::refusal::open;
use crate::text::{timeline_to_text, to_bytes};
use crate::timeline::{
    as_stream, in_form, laid_out, run_and_watch, Fault, Header, Record, Refused, Run, Way,
    MOST_RECORDS,
};

/// One event of a run.
struct Step<'a> {
    before: &'a Phone,
    event: &'a [u8],
    answer: Answer,
    after: &'a Phone,
    /// Whether the event before it was put in.
    is_behind_clock: bool,
}

impl Step<'_> {
    fn kind(&self) -> u8 {
        self.event.first().copied().unwrap_or(0)
    }

    /// A clock event, which has been put in.
    fn is_put_in(&self) -> bool {
        self.kind() == CLOCK
    }

    /// Whether a clock event that is put in leaves the last second of such a record behind it.
    fn passes_date(&self, is_meant: impl Fn(&Certificate) -> bool) -> bool {
        let passed = self.before.clock..self.after.clock;
        self.is_put_in() && self.has_certificate(|c| is_meant(c) && passed.contains(&c.expiry))
    }

    /// Whether a clock event that is put in goes to the last second of such a record.
    fn reaches_date(&self, is_meant: impl Fn(&Certificate) -> bool) -> bool {
        let second = self.after.clock;
        self.is_put_in() && self.has_certificate(|c| is_meant(c) && c.expiry == second)
    }

    fn has_certificate(&self, is_meant: impl Fn(&Certificate) -> bool) -> bool {
        self.before.occupied_certificates().any(is_meant)
    }

    fn takes_domain(&self) -> bool {
        let domains = |phone: &Phone| phone.executables.iter().flatten().map(|e| e.domain).sum();
        let (before, after): (u8, u8) = (domains(self.before), domains(self.after));
        after < before
    }
}

fn is_marked_root(record: &Certificate) -> bool {
    record.kind == ROOT && record.mark == 1
}

type StepTest = fn(&Step) -> bool;

/// What an event of a timeline can show.
const STEP_POINTS: [(&str, StepTest); 15] = [
    ("a clock event is put in", |step| step.is_put_in()),
    ("a clock event put in takes a domain", |step| {
        step.is_put_in() && step.takes_domain()
    }),
    ("a clock event put in takes no domain", |step| {
        step.is_put_in() && !step.takes_domain()
    }),
    (
        "a clock event put in goes to the last second of an issued record",
        |step| step.reaches_date(|c| c.kind == ISSUED),
    ),
    (
        "a clock event put in goes past the last second of an issued record",
        |step| step.passes_date(|c| c.kind == ISSUED),
    ),
    (
        "a clock event put in goes to the last second of a marked root",
        |step| step.reaches_date(is_marked_root),
    ),
    (
        "a clock event put in goes past the last second of a marked root",
        |step| step.passes_date(is_marked_root),
    ),
    (
        "a clock event put in goes to the last second of all",
        |step| step.is_put_in() && step.after.clock == u32::MAX,
    ),
    ("an event is done behind a clock event put in", |step| {
        step.is_behind_clock && step.answer.code == 0
    }),
    (
        "an event is out of form behind a clock event put in",
        |step| step.is_behind_clock && step.answer.code == 2,
    ),
    (
        "an event is refused otherwise behind a clock event put in",
        |step| step.is_behind_clock && step.answer.code > 2,
    ),
    (
        "an event is out of form and no clock event before it",
        |step| !step.is_behind_clock && step.answer.code == 2,
    ),
    ("kind 0", |step| step.kind() == 0),
    ("a kind above the last", |step| step.kind() > LAST_KIND),
    ("a root past its date is to be marked or brought", |step| {
        step.answer.code == 18
    }),
];

/// An image and the timeline behind it.
struct Whole<'a> {
    image: Option<Phone>,
    timeline: &'a [u8],
    run: &'a Run,
}

impl Whole<'_> {
    /// The records of a timeline that was run.
    fn records(&self) -> Vec<Record> {
        match self.run.image {
            Ok(_) => laid_out(self.timeline).unwrap_or_default(),
            Err(_) => Vec::new(),
        }
    }

    fn clock(&self) -> u32 {
        self.image.as_ref().map_or(0, |phone| phone.clock)
    }

    fn is_run_with(&self, is_meant: impl Fn(&[Record]) -> bool) -> bool {
        self.run.image.is_ok() && is_meant(&self.records())
    }

    /// Whether two records that follow each other are so many seconds apart.
    fn has_rise(&self, is_meant: impl Fn(u32) -> bool) -> bool {
        let rise = |pair: &[Record]| pair[1].second - pair[0].second;
        self.is_run_with(|records| records.windows(2).any(|pair| is_meant(rise(pair))))
    }

    fn first_rise(&self) -> Option<u32> {
        let first = self.records().first().map(|record| record.second);
        first.map(|second| second - self.clock())
    }

    fn fault(&self) -> Option<Fault> {
        match self.run.image {
            Err(Refused::Timeline(fault)) => Some(fault),
            _ => None,
        }
    }

    fn is_broken_in(&self, way: Way) -> bool {
        self.fault().is_some_and(|fault| fault.way == way)
    }

    /// Where the fault of a record is: its number, and how many records there are.
    fn faulty_record(&self) -> Option<(usize, usize)> {
        let count = laid_out(self.timeline).map_or(0, |records| records.len());
        Some((self.fault()?.record?, count))
    }

    fn faulty_second(&self) -> Option<u32> {
        let (number, _) = self.faulty_record()?;
        let records = laid_out(self.timeline).ok()?;
        records.get(number - 1).map(|record| record.second)
    }

    /// How many bytes there are beyond those that the header counts, below 0 where some lack.
    fn bytes_too_many(&self) -> Option<i64> {
        let count = usize::from(Header::decode(self.timeline)?.count);
        let counted = Header::SIZE + count * Record::SIZE;
        Some(self.timeline.len() as i64 - counted as i64)
    }

    fn is_image_refused(&self) -> bool {
        matches!(self.run.image, Err(Refused::Image(_)))
    }
}

type WholeTest = fn(&Whole) -> bool;

/// What a timeline as a whole can show.
const WHOLE_POINTS: [(&str, WholeTest); 32] = [
    ("no record", |whole| whole.is_run_with(<[_]>::is_empty)),
    ("one record", |whole| {
        whole.is_run_with(|records| records.len() == 1)
    }),
    ("as many records as there may be", |whole| {
        whole.is_run_with(|records| records.len() == MOST_RECORDS)
    }),
    ("the first second is the clock", |whole| {
        whole.first_rise() == Some(0)
    }),
    ("the first second is one above the clock", |whole| {
        whole.first_rise() == Some(1)
    }),
    ("the first second is far above the clock", |whole| {
        whole.first_rise().is_some_and(|rise| rise > 1)
    }),
    ("the clock is 0", |whole| {
        whole.clock() == 0 && whole.run.image.is_ok()
    }),
    ("a second is that of the record before", |whole| {
        whole.has_rise(|rise| rise == 0)
    }),
    ("a second is one above the record before", |whole| {
        whole.has_rise(|rise| rise == 1)
    }),
    ("a second is far above the record before", |whole| {
        whole.has_rise(|rise| rise > 1)
    }),
    ("all records are in one second", |whole| {
        whole.is_run_with(|records| records.len() > 2) && !whole.has_rise(|rise| rise != 0)
    }),
    ("all records are in different seconds", |whole| {
        whole.is_run_with(|records| records.len() > 2) && !whole.has_rise(|rise| rise == 0)
    }),
    ("refused: no byte behind the image", |whole| {
        whole.fault().is_some() && whole.timeline.is_empty()
    }),
    ("refused: the header is cut", |whole| {
        whole.is_broken_in(Way::HeaderCut)
    }),
    ("refused: version", |whole| {
        whole.is_broken_in(Way::WrongVersion)
    }),
    ("refused: count above 1000", |whole| {
        whole.is_broken_in(Way::TooManyRecords)
    }),
    ("refused: 1001 records", |whole| {
        whole.is_broken_in(Way::TooManyRecords)
            && whole.timeline.len() == Header::SIZE + Record::SIZE * (MOST_RECORDS + 1)
            && whole.bytes_too_many() == Some(0)
    }),
    ("refused: offset", |whole| {
        whole.is_broken_in(Way::WrongOffset)
    }),
    ("refused: a record is missing", |whole| {
        whole.is_broken_in(Way::RecordsCut) && whole.bytes_too_many() == Some(-32)
    }),
    ("refused: a byte is missing", |whole| {
        whole.is_broken_in(Way::RecordsCut) && whole.bytes_too_many() == Some(-1)
    }),
    ("refused: a record too many", |whole| {
        whole.is_broken_in(Way::BytesBehind) && whole.bytes_too_many() == Some(32)
    }),
    ("refused: a byte too many", |whole| {
        whole.is_broken_in(Way::BytesBehind) && whole.bytes_too_many() == Some(1)
    }),
    ("refused: the word behind the second", |whole| {
        whole.is_broken_in(Way::NotZero)
    }),
    ("refused: below the clock", |whole| {
        whole.is_broken_in(Way::BelowClock)
    }),
    ("refused: a second falls", |whole| {
        whole.is_broken_in(Way::SecondFalls)
    }),
    ("refused: a second falls, not below the clock", |whole| {
        whole.is_broken_in(Way::SecondFalls)
            && whole.faulty_second().is_some_and(|s| s >= whole.clock())
    }),
    ("refused: a clock event", |whole| {
        whole.is_broken_in(Way::ClockEvent)
    }),
    (
        "refused: by the first of several records",
        |whole| matches!(whole.faulty_record(), Some((1, count)) if count > 1),
    ),
    (
        "refused: by the last of several records",
        |whole| matches!(whole.faulty_record(), Some((record, count)) if record == count && count > 1),
    ),
    (
        "refused: by a record with others on both sides",
        |whole| matches!(whole.faulty_record(), Some((record, count)) if record > 1 && record < count),
    ),
    ("refused: the image, the timeline is in form", |whole| {
        whole.is_image_refused() && in_form(whole.timeline, 0).is_ok()
    }),
    ("refused: the image, the timeline is not in form", |whole| {
        let form = in_form(whole.timeline, 0);
        whole.is_image_refused() && matches!(form, Err(fault) if fault.way != Way::HeaderCut)
    }),
];

const POINTS: usize = STEP_POINTS.len() + WHOLE_POINTS.len();

/// How many timelines there were, and how many of them showed each thing.
#[derive(Clone, PartialEq, Eq, Debug)]
pub struct Played {
    pub timelines: u64,
    /// Of those, how many were run.
    pub accepted: u64,
    points: [u64; POINTS],
}

impl Default for Played {
    fn default() -> Played {
        Played {
            timelines: 0,
            accepted: 0,
            points: [0; POINTS],
        }
    }
}

/// The names of all things that a timeline can show.
fn names() -> impl Iterator<Item = &'static str> {
    let steps = STEP_POINTS.iter().map(|(name, _)| *name);
    steps.chain(WHOLE_POINTS.iter().map(|(name, _)| *name))
}

impl Played {
    fn add(&mut self, run: &Run, shown: &BTreeSet<&'static str>) {
        self.timelines += 1;
        self.accepted += u64::from(run.image.is_ok());
        for (count, name) in self.points.iter_mut().zip(names()) {
            *count += u64::from(shown.contains(name));
        }
    }

    /// Adds what another worker counted.
    pub fn merge(&mut self, other: &Played) {
        self.timelines += other.timelines;
        self.accepted += other.accepted;
        for (count, more) in self.points.iter_mut().zip(other.points) {
            *count += more;
        }
    }

    /// Each thing that a timeline can show, and how many showed it.
    pub fn counts(&self) -> impl Iterator<Item = (&'static str, u64)> + '_ {
        names().zip(self.points)
    }

    /// The counts as text.
    pub fn report(&self) -> String {
        let (timelines, accepted) = (self.timelines, self.accepted);
        let mut out = format!("timelines {timelines}\naccepted {accepted}\n\n");
        for (name, count) in self.counts() {
            // Writing to a string does not fail.
            let _ = writeln!(out, "{count:>8}  {name}");
        }
        out
    }
}

/// What an event of a run shows.
fn shown_by_step(step: &Step) -> impl Iterator<Item = &'static str> {
    let shown: Vec<&str> = STEP_POINTS
        .iter()
        .filter(|(_, test)| test(step))
        .map(|(name, _)| *name)
        .collect();
    shown.into_iter()
}

fn shown_by_whole(stream: &[u8], run: &Run) -> impl Iterator<Item = &'static str> {
    let (image, timeline) = split_stream(stream);
    let whole = Whole {
        image: open(image).ok(),
        timeline,
        run,
    };
    let shown: Vec<&str> = WHOLE_POINTS
        .iter()
        .filter(|(_, test)| test(&whole))
        .map(|(name, _)| *name)
        .collect();
    shown.into_iter()
}

/// Runs an image and a timeline through the reference, counts what they show and checks what has to
/// hold: the text form leads back, each step keeps its promises, and the stream prints the same.
pub fn checked_play(stream: &[u8], counts: &mut Counts) -> Result<Run, String> {
    check_timeline_text(stream)?;
    let mut complaint = None;
    let mut shown = BTreeSet::new();
    let mut is_behind_clock = false;
    let run = run_and_watch(stream, |before, event, answer, after| {
        counts.add_event(event, answer);
        let step = Step {
            before,
            event,
            answer,
            after,
            is_behind_clock,
        };
        shown.extend(shown_by_step(&step));
        is_behind_clock = step.is_put_in();
        if complaint.is_none() {
            complaint = check_step(before, answer, after);
        }
    });
    shown.extend(shown_by_whole(stream, &run));
    counts.played.add(&run, &shown);
    if let Some(complaint) = complaint {
        return Err(complaint);
    }
    check_against_stream(stream, &run)?;
    Ok(run)
}

fn check_timeline_text(stream: &[u8]) -> Result<(), String> {
    match to_bytes(&timeline_to_text(stream)) {
        Ok(bytes) if bytes == stream => Ok(()),
        Ok(_) => Err("the text form does not lead back to the same bytes".to_string()),
        Err(wrong) => Err(format!("the text form cannot be read: {wrong}")),
    }
}

/// Running a timeline equals running its events with the clock events put in.
fn check_against_stream(stream: &[u8], run: &Run) -> Result<(), String> {
    let Ok(image) = &run.image else {
        return Ok(());
    };
    check_encoding(split_stream(stream).0)?;
    let same = as_stream(stream).map_err(|refused| refused.to_string())?;
    let by_bench = bench::run(&same);
    match by_bench.image {
        Ok(other) if other == *image && by_bench.text == run.text => Ok(()),
        _ => Err("the stream with the clock events put in gives something else".to_string()),
    }
}
