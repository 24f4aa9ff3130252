//! The driver: runs a program on case after case and compares what it prints with the reference.
//!
//! Follows 01, "One run of `bench`, whole": the stream is standard input, the lines are
//! standard output, and the program has to end well. For 02, "Tell the trainee why", it runs the
//! program for every question about a stream, the question in the last words of the command; for
//! "Lesson timelines" on an image and a timeline.

use std::io::Write;
use std::path::{Path, PathBuf};
use std::process::{Command, Output, Stdio};
use std::sync::atomic::{AtomicBool, AtomicU64, Ordering};
use std::sync::Mutex;
use std::time::{Duration, Instant};

use crate::asked::Scene;
use crate::check::{checked_run, Counts};
use crate::generate::questions::questions;
use crate::generate::{case_of, timelines, Case, Mix};
use crate::played::checked_play;
use crate::why::Answer;

/// When to stop where no difference is found.
#[derive(Clone, Copy, Debug)]
pub enum Until {
    Runs(u64),
    Time(Duration),
}

/// What a program is run for.
#[derive(Clone, Copy, Debug, PartialEq, Eq)]
pub enum Task {
    /// The answers to the events of a stream.
    Bench(Mix),
    /// The answers to questions about a stream.
    Why,
    /// The answers to the events of a timeline.
    Play,
}

pub struct Plan {
    pub task: Task,
    pub seed: u64,
    pub until: Until,
    pub workers: usize,
    pub keep: PathBuf,
    /// The program and its arguments.
    pub command: Vec<String>,
}

/// A case in which the program and the reference differ.
pub struct Difference {
    pub case: u64,
    pub description: String,
    pub message: String,
    stream: Vec<u8>,
    /// The words of the question, where one was asked.
    words: Vec<String>,
    want: String,
    got: Vec<u8>,
}

/// How a driver's work ended.
pub struct Outcome {
    pub counts: Counts,
    pub difference: Option<Difference>,
}

/// What the workers share.
struct Shared<'a> {
    plan: &'a Plan,
    start: Instant,
    next_case: AtomicU64,
    stop: AtomicBool,
    outcome: Mutex<Result<Outcome, String>>,
}

impl Shared<'_> {
    /// The number of the next case, as long as there is one to run.
    fn take_case(&self) -> Option<u64> {
        if self.stop.load(Ordering::SeqCst) {
            return None;
        }
        let number = self.next_case.fetch_add(1, Ordering::SeqCst);
        let is_wanted = match self.plan.until {
            Until::Runs(runs) => number < runs,
            Until::Time(time) => self.start.elapsed() < time,
        };
        is_wanted.then_some(number)
    }

    fn change_outcome(&self, change: impl FnOnce(&mut Result<Outcome, String>)) {
        // A worker that panicked leaves nothing half done here.
        let mut outcome = self.outcome.lock().unwrap_or_else(|e| e.into_inner());
        change(&mut outcome);
    }

    /// The lowest case wins, so that two workers report the same one as one does.
    fn report_difference(&self, found: Difference) {
        self.stop.store(true, Ordering::SeqCst);
        self.change_outcome(|outcome| {
            if let Ok(outcome) = outcome {
                let is_first = match &outcome.difference {
                    Some(earlier) => found.case < earlier.case,
                    None => true,
                };
                if is_first {
                    outcome.difference = Some(found);
                }
            }
        });
    }

    fn report_failure(&self, message: String) {
        self.stop.store(true, Ordering::SeqCst);
        self.change_outcome(|outcome| *outcome = Err(message));
    }
}

/// Runs the plan. An error means that the program could not be run or the case not be kept.
pub fn fuzz(plan: &Plan) -> Result<Outcome, String> {
    let shared = Shared {
        plan,
        start: Instant::now(),
        next_case: AtomicU64::new(0),
        stop: AtomicBool::new(false),
        outcome: Mutex::new(Ok(Outcome {
            counts: Counts::default(),
            difference: None,
        })),
    };
    std::thread::scope(|scope| {
        for _ in 0..plan.workers {
            scope.spawn(|| work(&shared));
        }
    });
    let outcome = shared
        .outcome
        .into_inner()
        .unwrap_or_else(|e| e.into_inner())?;
    if let Some(difference) = &outcome.difference {
        keep(plan, difference)?;
    }
    Ok(outcome)
}

fn work(shared: &Shared) {
    let mut counts = Counts::default();
    while let Some(number) = shared.take_case() {
        match run_case(shared.plan, number, &mut counts) {
            Ok(None) => {}
            Ok(Some(difference)) => shared.report_difference(difference),
            Err(message) => shared.report_failure(message),
        }
    }
    shared.change_outcome(|outcome| {
        if let Ok(outcome) = outcome {
            outcome.counts.merge(&counts);
        }
    });
}

fn run_case(plan: &Plan, number: u64, counts: &mut Counts) -> Result<Option<Difference>, String> {
    match plan.task {
        Task::Bench(mix) => {
            let case = case_of(mix, plan.seed, number);
            let want = checked_run(&case.stream, counts).map(|run| run.text);
            run_printing_case(plan, number, &case, want)
        }
        Task::Play => {
            let case = timelines::case(plan.seed, number);
            let want = checked_play(&case.stream, counts).map(|run| run.text);
            run_printing_case(plan, number, &case, want)
        }
        Task::Why => run_why_case(plan, number, counts),
    }
}

/// A case for which the program prints a line for each event; the reference prints what is wanted.
fn run_printing_case(
    plan: &Plan,
    number: u64,
    case: &Case,
    want: Result<String, String>,
) -> Result<Option<Difference>, String> {
    let difference = |message: String, want: String, got: Vec<u8>| Difference {
        case: number,
        description: case.description.clone(),
        message,
        stream: case.stream.clone(),
        words: Vec::new(),
        want,
        got,
    };
    let want = match want {
        Ok(want) => want,
        Err(complaint) => {
            let message = format!("the reference itself is wrong: {complaint}");
            return Ok(Some(difference(message, String::new(), Vec::new())));
        }
    };
    let standard_error = match plan.task {
        // A program may say there why it refuses a timeline.
        Task::Play => Stdio::null(),
        _ => Stdio::inherit(),
    };
    let output = run_program(&plan.command, &[], &case.stream, standard_error)?;
    if output.stdout != want.as_bytes() {
        let message = first_difference(&want, &String::from_utf8_lossy(&output.stdout));
        return Ok(Some(difference(message, want, output.stdout)));
    }
    if output.status.code() != Some(0) {
        let message = ended_badly(&output);
        return Ok(Some(difference(message, want, output.stdout)));
    }
    Ok(None)
}

/// What a command line must not be, in turn: no number, an id above 65535, and a word too many.
const BAD_USAGE: [&[&str]; 9] = [
    &[],
    &["65536"],
    &["1", "2", "3"],
    &["x"],
    &["1", "99999999999999999999"],
    &["-1"],
    &["1", "x"],
    &["12a"],
    &["99999999999999999999"],
];

/// All questions about one stream, and one that is none.
fn run_why_case(
    plan: &Plan,
    number: u64,
    counts: &mut Counts,
) -> Result<Option<Difference>, String> {
    let questions = questions(plan.seed, number);
    let stream = &questions.case.stream;
    let difference = |words: &[String], message: String, want: String, got: Vec<u8>| Difference {
        case: number,
        description: questions.case.description.clone(),
        message: format!("asked `{}`: {message}", words.join(" ")),
        stream: stream.clone(),
        words: words.to_vec(),
        want,
        got,
    };
    let scene = Scene::of(stream, questions.events);
    counts.shown.streams += 1;
    for question in questions.all() {
        let words = question.words();
        let answer = match scene.checked_answer(question.id) {
            Ok(answer) => answer,
            Err(complaint) => {
                let message = format!("the reference itself is wrong: {complaint}");
                return Ok(Some(difference(&words, message, String::new(), Vec::new())));
            }
        };
        counts.shown.add(&scene, question.id, &answer);
        let output = run_program(&plan.command, &words, stream, Stdio::piped())?;
        let want = answer.text(question.id);
        if let Some(message) = complaint_about_answer(&answer, &want, question.id, &output) {
            return Ok(Some(difference(&words, message, want, output.stdout)));
        }
    }
    let bad_usage = BAD_USAGE[number as usize % BAD_USAGE.len()];
    let words: Vec<String> = bad_usage.iter().map(|word| word.to_string()).collect();
    let output = run_program(&plan.command, &words, stream, Stdio::piped())?;
    let complaint = complaint_about_bad_usage(&output);
    Ok(complaint.map(|message| difference(&words, message, String::new(), output.stdout)))
}

fn complaint_about_answer(answer: &Answer, want: &str, id: u16, output: &Output) -> Option<String> {
    if output.stdout != want.as_bytes() {
        let got = String::from_utf8_lossy(&output.stdout);
        return Some(first_differing_line(want, &got));
    }
    // 02 does not say how a refusal ends; both ways are common.
    let is_refused = matches!(answer, Answer::RefusedImage(_) | Answer::UnknownExecutable);
    match output.status.code() {
        Some(0) => {}
        Some(1) if is_refused => {}
        _ => return Some(ended_badly(output)),
    }
    let told = String::from_utf8_lossy(&output.stderr);
    let mut numbers = told.split(|character: char| !character.is_ascii_digit());
    let is_named = numbers.any(|number| number == id.to_string());
    match answer {
        Answer::UnknownExecutable if !is_named => {
            Some(format!("standard error does not name the id {id}"))
        }
        _ => None,
    }
}

fn complaint_about_bad_usage(output: &Output) -> Option<String> {
    let lines = String::from_utf8_lossy(&output.stderr).lines().count();
    if !output.stdout.is_empty() {
        return Some("bad usage, but something is on standard output".to_string());
    }
    if lines != 1 {
        return Some(format!("bad usage, but {lines} lines on standard error"));
    }
    match output.status.code() {
        Some(2) => None,
        _ => Some(format!("bad usage, but it ended with {}", output.status)),
    }
}

fn ended_badly(output: &Output) -> String {
    let status = output.status;
    format!("the output is right, but the program ended with {status}")
}

/// What the program gives for a stream, with these words behind its own.
fn run_program(
    command: &[String],
    words: &[String],
    stream: &[u8],
    standard_error: Stdio,
) -> Result<Output, String> {
    let (program, arguments) = command
        .split_first()
        .ok_or_else(|| "no program to run".to_string())?;
    let failed = |error: std::io::Error| format!("cannot run {program}: {error}");
    let mut child = Command::new(program)
        .args(arguments)
        .args(words)
        .stdin(Stdio::piped())
        .stdout(Stdio::piped())
        .stderr(standard_error)
        .spawn()
        .map_err(failed)?;
    let input = child.stdin.take();
    // Writing has its own thread: the program may print before it has read everything.
    std::thread::scope(|scope| {
        scope.spawn(move || {
            if let Some(mut input) = input {
                // A program that refuses the image stops reading; that is no error.
                let _ = input.write_all(stream);
            }
        });
        child.wait_with_output()
    })
    .map_err(failed)
}

const FIELDS: [&str; 5] = ["number", "kind", "code", "domain", "links"];

/// Says where two outputs of `bench` differ first, down to the field.
pub fn first_difference(want: &str, got: &str) -> String {
    difference_in(want, got, place_of, line_difference)
}

/// Says where two other outputs differ first.
pub fn first_differing_line(want: &str, got: &str) -> String {
    let place = |at: usize| format!("line {}", at + 1);
    difference_in(want, got, place, |at, want, got| {
        format!(
            "{}: expected {}, found {}",
            place(at),
            quoted(want),
            quoted(got)
        )
    })
}

fn difference_in(
    want: &str,
    got: &str,
    place: impl Fn(usize) -> String,
    in_line: impl Fn(usize, &str, &str) -> String,
) -> String {
    let (mut want_lines, mut got_lines) = (want.lines(), got.lines());
    let mut at = 0;
    loop {
        match (want_lines.next(), got_lines.next()) {
            (Some(want), Some(got)) if want == got => at += 1,
            (Some(want), Some(got)) => return in_line(at, want, got),
            (Some(want), None) => {
                return format!("{}: missing, expected {}", place(at), quoted(want));
            }
            (None, Some(got)) => {
                return format!("{}: nothing expected, found {}", place(at), quoted(got));
            }
            (None, None) => return "the line ends differ".to_string(),
        }
    }
}

/// A line in quotes; what a program prints may be long or no text at all.
fn quoted(line: &str) -> String {
    const MOST: usize = 60;
    let start: String = line.chars().take(MOST).collect();
    let more = match line.chars().nth(MOST) {
        Some(_) => "...",
        None => "",
    };
    format!("`{}`{more}", start.escape_debug())
}

/// Line 0 is the heading; line n is event n, or line 1 is that of a refused image or timeline.
fn place_of(line: usize) -> String {
    match line {
        0 => "first line".to_string(),
        number => format!("event {number}"),
    }
}

fn line_difference(at: usize, want: &str, got: &str) -> String {
    let want_fields: Vec<&str> = want.split(' ').collect();
    let got_fields: Vec<&str> = got.split(' ').collect();
    let is_event = at > 0 && want_fields.len() == 5 && got_fields.len() == 5;
    if !is_event {
        let (want, got) = (quoted(want), quoted(got));
        return format!("{}: expected {want}, found {got}", place_of(at));
    }
    let fields: Vec<String> = FIELDS
        .iter()
        .zip(want_fields.iter().zip(&got_fields))
        .filter(|(_, (want, got))| want != got)
        .map(|(name, (want, got))| format!("{name} expected {want}, found {got}"))
        .collect();
    format!(
        "{} (kind {}): {}",
        place_of(at),
        want_fields[1],
        fields.join("; ")
    )
}

/// The files of a kept case, without their endings.
pub fn kept_name(plan: &Plan, case: u64) -> PathBuf {
    let name = match plan.task {
        Task::Bench(Mix::All) => "fuzz",
        Task::Bench(Mix::Damaged) => "damaged",
        Task::Why => "why",
        Task::Play => "timeline",
    };
    plan.keep.join(format!("{name}-{}-{case}", plan.seed))
}

fn keep(plan: &Plan, difference: &Difference) -> Result<(), String> {
    std::fs::create_dir_all(&plan.keep)
        .map_err(|error| format!("cannot make {}: {error}", plan.keep.display()))?;
    let name = kept_name(plan, difference.case);
    write_file(&name.with_extension("in"), &difference.stream)?;
    if plan.task == Task::Why {
        let words = format!("{}\n", difference.words.join(" "));
        write_file(&name.with_extension("id"), words.as_bytes())?;
    }
    write_file(&name.with_extension("want"), difference.want.as_bytes())?;
    write_file(&name.with_extension("got"), &difference.got)
}

pub fn write_file(path: &Path, bytes: &[u8]) -> Result<(), String> {
    std::fs::write(path, bytes).map_err(|error| format!("cannot write {}: {error}", path.display()))
}

#[cfg(test)]
mod tests {
    use super::*;

    #[test]
    fn a_difference_is_told_down_to_the_field() {
        let want = "event kind code domain links\n1 15 0 1 2\n2 1 0 0 0\n";
        let got = "event kind code domain links\n1 15 0 1 3\n2 1 0 0 0\n";
        let told = first_difference(want, got);
        assert_eq!(told, "event 1 (kind 15): links expected 2, found 3");
        let told = first_difference(want, "event kind code domain links\n1 15 0 1 2\n");
        assert_eq!(told, "event 2: missing, expected `2 1 0 0 0`");
        let told = first_difference("event\nimage 1\n", "event\n1 2 3 4 5\n");
        assert_eq!(told, "event 1: expected `image 1`, found `1 2 3 4 5`");
        let told = first_differing_line("a 1\nb 2\n", "a 1\nb 3\n");
        assert_eq!(told, "line 2: expected `b 2`, found `b 3`");
    }
}
