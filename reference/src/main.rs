//! The command line: one sub-command for each use of the reference.
//!
//! Exit status 0 is good, 1 a difference or a refused image or timeline, 2 bad usage or something
//! that cannot be read or written.

use std::collections::BTreeSet;
use std::io::{Read, Write};
use std::path::{Path, PathBuf};
use std::process::ExitCode;
use std::time::Duration;

use reference::bench::{self, Run};
use reference::check::{checked_run, Counts};
use reference::fuzz::{fuzz, kept_name, write_file, Plan, Task, Until};
use reference::generate::{case_of, longer, timelines, Case, Mix};
use reference::image_rules::{first_broken, Broken};
use reference::own::{own, own_timeline};
use reference::phone::Header;
use reference::played::checked_play;
use reference::refusal::open;
use reference::stored_questions::{self, Choice};
use reference::text::{timeline_to_text, to_bytes, to_text};
use reference::timeline::{self, Refused};
use reference::vectors::{rewrite_answers, run_folder, run_timelines};
use reference::why::{Answer, Question};

const HELP: &str = "\
An unproved reference of the phone monitor, for comparing.

usage: reference SUB-COMMAND

  bench   stream on standard input -> what `bench` prints
  play    image and timeline on standard input -> what `play` prints; where the timeline breaks its
          form, standard error says how
  image [--timeline]
          stream on standard input -> the bytes of the image after the last event; nothing and exit
          status 1 where the image is refused; with --timeline, the same of an image and a timeline
  stream  image and timeline on standard input -> the stream that they stand for, the clock events
          put in; nothing and exit status 1 where one of them is refused
  why ID [EVENTS]
          stream on standard input -> why the executable ID is trusted or not, after so many of
          the events (default: 0), as the program `why` prints it
  text [--timeline]
          stream on standard input -> its text form; with --timeline, that of an image and a timeline
  bytes   text form on standard input -> the stream, or the image and the timeline where it has
          `at` lines
  own [--timeline]
          stream on standard input -> the stream in which each event 6 to 8 by an operator or a
          manufacturer names the owner of its certificate, where its own is 0; with --timeline, the
          same of an image and a timeline
  vectors DIR
          runs the cases of DIR and prints what the program `vectors` prints
  vectors --why DIR
          runs the questions of DIR (NAME.in, NAME.id, NAME.out) and prints what differs and what
          the answers show
  vectors --play DIR
          runs the timelines of DIR (NAME.in, NAME.out, NAME.fin) and prints what differs, what was
          covered and what the timelines show
  answers DIR
          runs the cases of DIR and writes each NAME.out anew that says something else; prints
          where the stored ones differed; NAME.in and NAME.fin stay as they are
  longer  --seed S --events N
          stream on standard input -> the stream, N events more and an end that is no whole event
  cases   --seed S --runs N --into DIR [--most-bytes B] [--damaged] [--fresh]
          writes N cases, of those with an image of at most B bytes: DIR/cases (a line for each), NAME.in, NAME.out and, where the
          image is accepted, NAME.fin; prints what they reach
  cases   --why --seed S --runs N --into DIR [--most-bytes B] [--fresh]
          writes N questions, of those about a stream of at most B bytes: DIR/cases, NAME.in,
          NAME.id (`ID` or `ID EVENTS`) and NAME.out; prints what they show
  cases   --timelines --seed S --runs N --into DIR [--most-bytes B]
          writes N images with timelines, of those of at most B bytes together: DIR/cases, NAME.in,
          NAME.out and, where both are accepted, NAME.fin; prints what they show
  fuzz    --seed S (--runs N | --seconds T) [--workers W] [--keep DIR] [--damaged | --why | --timelines] -- COMMAND ARGS...
          runs COMMAND on case after case and stops at the first difference

  --damaged
          images damaged in one way or several, for the rule and the offset behind `image 1`
  --why   questions as `why` answers them: COMMAND ARGS... ID [EVENTS] is run for each executable
          of a stream, for an unknown id and for 0, and once with bad usage
  --timelines
          images with timelines behind them, in form and broken in each way, as `play` reads them
  --fresh of the first 20,000 cases only those refused in a way that no earlier one is refused
          in, at no first record of a table, and one accepted; with --why, of the questions about
          the first 2,000 streams so many that each thing worth a count is shown four times;
          N is then the most to write

exit status: 0 good, 1 a difference or a refused image or timeline, 2 bad usage or unreadable
";

const DAMAGED: &str = "--damaged";
const WHY: &str = "--why";
const TIMELINES: &str = "--timelines";
const FRESH: &str = "--fresh";

/// The flags that choose a task, of which one at most is given.
const TASKS: [&str; 3] = [DAMAGED, WHY, TIMELINES];

const PLAY: &str = "--play";
const TIMELINE: &str = "--timeline";

/// How a sub-command ends where it does not end well.
enum Failure {
    /// A difference was found, or an image or a timeline refused; exit status 1.
    Difference(String),
    /// Bad usage, or something that cannot be read or written; exit status 2.
    Trouble(String),
}

use Failure::{Difference, Trouble};

fn main() -> ExitCode {
    let arguments: Vec<String> = std::env::args().skip(1).collect();
    match run(&arguments) {
        Ok(()) => ExitCode::SUCCESS,
        Err(Difference(message)) => {
            eprintln!("reference: {message}");
            ExitCode::from(1)
        }
        Err(Trouble(message)) => {
            eprintln!("reference: {message}");
            ExitCode::from(2)
        }
    }
}

fn run(arguments: &[String]) -> Result<(), Failure> {
    let Some((name, rest)) = arguments.split_first() else {
        return Err(bad_usage("a sub-command is missing"));
    };
    let own_options = rest.split(|word| word == "--").next().unwrap_or(rest);
    if is_help(name) || own_options.iter().any(|word| is_help(word)) {
        return print(HELP.as_bytes());
    }
    match name.as_str() {
        "bench" => plain(rest, run_bench),
        "play" => plain(rest, run_play),
        "image" => stream_or_timeline(rest, run_image, run_image_of_timeline),
        "stream" => plain(rest, run_stream),
        "why" => run_why(rest),
        "text" => stream_or_timeline(
            rest,
            |stream| print(to_text(stream).as_bytes()),
            |stream| print(timeline_to_text(stream).as_bytes()),
        ),
        "bytes" => plain(rest, run_bytes),
        "own" => stream_or_timeline(
            rest,
            |stream| print(&own(stream)),
            |stream| print(&own_timeline(stream)),
        ),
        "vectors" => run_vectors(rest),
        "answers" => run_answers(rest),
        "longer" => run_longer(rest),
        "cases" => run_cases(rest),
        "fuzz" => run_fuzz(rest),
        _ => Err(bad_usage(&format!("there is no sub-command `{name}`"))),
    }
}

fn is_help(word: &str) -> bool {
    matches!(word, "--help" | "-h" | "help")
}

fn bad_usage(message: &str) -> Failure {
    Trouble(format!("{message}; `reference --help` says what there is"))
}

/// A sub-command without options that reads standard input.
fn plain(rest: &[String], act: impl Fn(&[u8]) -> Result<(), Failure>) -> Result<(), Failure> {
    if let Some(word) = rest.first() {
        return Err(bad_usage(&format!("expected no options, found `{word}`")));
    }
    act(&read()?)
}

/// A sub-command that reads a stream, or with its flag an image and a timeline.
fn stream_or_timeline(
    rest: &[String],
    of_stream: impl Fn(&[u8]) -> Result<(), Failure>,
    of_timeline: impl Fn(&[u8]) -> Result<(), Failure>,
) -> Result<(), Failure> {
    match rest {
        [flag] if flag == TIMELINE => plain(&[], of_timeline),
        _ => plain(rest, of_stream),
    }
}

fn read() -> Result<Vec<u8>, Failure> {
    let mut input = Vec::new();
    std::io::stdin()
        .read_to_end(&mut input)
        .map_err(|error| Trouble(format!("cannot read standard input: {error}")))?;
    Ok(input)
}

fn print(bytes: &[u8]) -> Result<(), Failure> {
    let mut out = std::io::stdout().lock();
    out.write_all(bytes)
        .and_then(|()| out.flush())
        .map_err(|error| Trouble(format!("cannot write standard output: {error}")))
}

fn run_bench(stream: &[u8]) -> Result<(), Failure> {
    print(bench::run(stream).text.as_bytes())
}

fn run_image(stream: &[u8]) -> Result<(), Failure> {
    match bench::run(stream).image {
        Ok(image) => print(&image),
        Err(refusal) => Err(Difference(format!("the image breaks {refusal}"))),
    }
}

fn run_play(stream: &[u8]) -> Result<(), Failure> {
    let run = timeline::run(stream);
    print(run.text.as_bytes())?;
    // The code says nothing of the place, and whoever wrote the timeline looks for it.
    if let Err(refused @ Refused::Timeline(_)) = run.image {
        eprintln!("reference: {refused}");
    }
    Ok(())
}

fn run_image_of_timeline(stream: &[u8]) -> Result<(), Failure> {
    let image = timeline::run(stream).image;
    print(&image.map_err(|refused| Difference(refused.to_string()))?)
}

fn run_stream(stream: &[u8]) -> Result<(), Failure> {
    let stream = timeline::as_stream(stream);
    print(&stream.map_err(|refused| Difference(refused.to_string()))?)
}

fn run_why(words: &[String]) -> Result<(), Failure> {
    let question = Question::of_words(words).map_err(|message| bad_usage(&message))?;
    let answer = question.answer(&read()?);
    print(answer.text(question.id).as_bytes())?;
    if answer == Answer::UnknownExecutable {
        eprintln!("reference: no executable has the id {}", question.id);
    }
    Ok(())
}

fn run_bytes(text: &[u8]) -> Result<(), Failure> {
    let text = std::str::from_utf8(text)
        .map_err(|error| Trouble(format!("the text is not UTF-8: {error}")))?;
    let bytes = to_bytes(text).map_err(|wrong| Trouble(wrong.to_string()))?;
    print(&bytes)
}

/// The options of a sub-command: names with a value behind them, and flags without one.
struct Options<'a> {
    pairs: Vec<(&'a str, &'a str)>,
    flags: Vec<&'a str>,
}

impl<'a> Options<'a> {
    fn of(words: &'a [String], known: &[&str], flags: &[&str]) -> Result<Options<'a>, Failure> {
        let mut options = Options {
            pairs: Vec::new(),
            flags: Vec::new(),
        };
        let mut words = words.iter().map(String::as_str);
        while let Some(name) = words.next() {
            if options.has(name) || options.find(name).is_some() {
                return Err(bad_usage(&format!("{name} is given twice")));
            }
            if flags.contains(&name) {
                options.flags.push(name);
            } else if known.contains(&name) {
                let Some(value) = words.next() else {
                    return Err(bad_usage(&format!("{name} needs a value")));
                };
                options.pairs.push((name, value));
            } else {
                let names = [known, flags].concat().join(", ");
                return Err(bad_usage(&format!(
                    "expected one of {names}, found `{name}`"
                )));
            }
        }
        Ok(options)
    }

    fn has(&self, flag: &str) -> bool {
        self.flags.contains(&flag)
    }

    fn task(&self) -> Result<Task, Failure> {
        let given: Vec<&str> = TASKS.into_iter().filter(|flag| self.has(flag)).collect();
        match given[..] {
            [] => Ok(Task::Bench(Mix::All)),
            [DAMAGED] => Ok(Task::Bench(Mix::Damaged)),
            [WHY] => Ok(Task::Why),
            [TIMELINES] => Ok(Task::Play),
            _ => {
                let names = TASKS.join(", ");
                Err(bad_usage(&format!("only one of {names} can be given")))
            }
        }
    }

    fn find(&self, name: &str) -> Option<&'a str> {
        let pair = self.pairs.iter().find(|(other, _)| *other == name);
        pair.map(|(_, value)| *value)
    }

    fn number(&self, name: &str) -> Result<Option<u64>, Failure> {
        match self.find(name) {
            None => Ok(None),
            Some(value) => match value.parse() {
                Ok(number) => Ok(Some(number)),
                Err(_) => Err(bad_usage(&format!(
                    "{name} needs a number, found `{value}`"
                ))),
            },
        }
    }

    fn needed_number(&self, name: &str) -> Result<u64, Failure> {
        self.number(name)?
            .ok_or_else(|| bad_usage(&format!("{name} is missing")))
    }
}

fn only_folder(words: &[String]) -> Result<&Path, Failure> {
    match words {
        [folder] => Ok(Path::new(folder)),
        _ => Err(bad_usage("one folder is needed")),
    }
}

fn run_answers(words: &[String]) -> Result<(), Failure> {
    let report = rewrite_answers(only_folder(words)?).map_err(Trouble)?;
    print(report.as_bytes())
}

fn run_vectors(words: &[String]) -> Result<(), Failure> {
    let outcome = match words {
        [flag, rest @ ..] if flag == WHY => stored_questions::run_folder(only_folder(rest)?),
        [flag, rest @ ..] if flag == PLAY => run_timelines(only_folder(rest)?),
        _ => run_folder(only_folder(words)?),
    };
    let outcome = outcome.map_err(Trouble)?;
    print(outcome.report.as_bytes())?;
    match outcome.differing {
        0 => Ok(()),
        differing => Err(Difference(format!("{differing} cases differ"))),
    }
}

fn run_longer(words: &[String]) -> Result<(), Failure> {
    let options = Options::of(words, &["--seed", "--events"], &[])?;
    let seed = options.needed_number("--seed")?;
    let count = options.needed_number("--events")?;
    let stream = longer(seed, &read()?, count as usize).map_err(Difference)?;
    print(&stream)
}

fn run_cases(words: &[String]) -> Result<(), Failure> {
    let known = ["--seed", "--runs", "--into", "--most-bytes"];
    let options = Options::of(words, &known, &[DAMAGED, WHY, TIMELINES, FRESH])?;
    let seed = options.needed_number("--seed")?;
    let Some(folder) = options.find("--into") else {
        return Err(bad_usage("--into is missing"));
    };
    let folder = Path::new(folder);
    let mix = match options.task()? {
        Task::Why => return write_questions(&options, seed, folder),
        Task::Play => return write_timelines(&options, seed, folder),
        Task::Bench(mix) => mix,
    };
    let cases = chosen_cases(&options, mix, seed)?;
    make_folder(folder)?;
    let mut counts = Counts::default();
    let mut list = String::new();
    for (number, case) in cases {
        let name = match mix {
            Mix::All => format!("s{seed}-{number:04}"),
            Mix::Damaged => format!("d{seed}-{number:04}"),
        };
        let line = write_case(folder, &name, mix, &case, &mut counts)?;
        list.push_str(&line);
    }
    write_file(&folder.join("cases"), list.as_bytes()).map_err(Trouble)?;
    print(counts.report().as_bytes())
}

fn make_folder(folder: &Path) -> Result<(), Failure> {
    std::fs::create_dir_all(folder)
        .map_err(|error| Trouble(format!("cannot make {}: {error}", folder.display())))
}

fn write_questions(options: &Options, seed: u64, folder: &Path) -> Result<(), Failure> {
    let choice = Choice {
        seed,
        most: options.needed_number("--runs")? as usize,
        most_bytes: options.number("--most-bytes")?.unwrap_or(u64::MAX) as usize,
        fresh: options.has(FRESH),
    };
    make_folder(folder)?;
    stored_questions::write_cases(&choice, folder).map_err(Trouble)?;
    let outcome = stored_questions::run_folder(folder).map_err(Trouble)?;
    print(outcome.report.as_bytes())
}

fn write_timelines(options: &Options, seed: u64, folder: &Path) -> Result<(), Failure> {
    if options.has(FRESH) {
        return Err(bad_usage("--fresh is not for timelines"));
    }
    let runs = options.needed_number("--runs")?;
    let most_bytes = options.number("--most-bytes")?.unwrap_or(u64::MAX);
    make_folder(folder)?;
    let mut counts = Counts::default();
    let mut list = String::new();
    let all = (0..).map(|number| (number, timelines::case(seed, number)));
    let fitting = all.filter(|(_, case)| case.stream.len() as u64 <= most_bytes);
    for (number, case) in fitting.take(runs as usize) {
        let name = format!("t{seed}-{number:04}");
        list.push_str(&write_timeline(folder, &name, &case, &mut counts)?);
    }
    write_file(&folder.join("cases"), list.as_bytes()).map_err(Trouble)?;
    print(counts.played.report().as_bytes())
}

/// Writes the files of one timeline and gives its line of the list.
fn write_timeline(
    folder: &Path,
    name: &str,
    case: &Case,
    counts: &mut Counts,
) -> Result<String, Failure> {
    let run = checked_play(&case.stream, counts)
        .map_err(|complaint| Difference(format!("case {name}: {complaint}")))?;
    write_files(
        folder,
        name,
        &case.stream,
        &run.text,
        run.image.as_ref().ok(),
    )?;
    let outcome = match run.image {
        Ok(_) => "accepted".to_string(),
        Err(refused) => refused.to_string(),
    };
    Ok(format!("{name} {} | {outcome}\n", case.description))
}

fn write_files(
    folder: &Path,
    name: &str,
    stream: &[u8],
    text: &str,
    image: Option<&Vec<u8>>,
) -> Result<(), Failure> {
    let path = |ending: &str| folder.join(format!("{name}.{ending}"));
    write_file(&path("in"), stream).map_err(Trouble)?;
    write_file(&path("out"), text.as_bytes()).map_err(Trouble)?;
    match image {
        Some(image) => write_file(&path("fin"), image).map_err(Trouble),
        None => Ok(()),
    }
}

/// The first cases of a seed that fit the options, with their numbers.
fn chosen_cases(options: &Options, mix: Mix, seed: u64) -> Result<Vec<(u64, Case)>, Failure> {
    let runs = options.needed_number("--runs")?;
    let most_bytes = options.number("--most-bytes")?.unwrap_or(u64::MAX);
    let fitting = |end: u64| {
        (0..end)
            .map(|number| (number, case_of(mix, seed, number)))
            .filter(|(_, case)| image_of(case).len() as u64 <= most_bytes)
    };
    if !options.has(FRESH) {
        return Ok(fitting(u64::MAX).take(runs as usize).collect());
    }
    let mut known_ways = BTreeSet::new();
    let is_fresh = |(_, case): &(u64, Case)| {
        let ways = ways_of_refusal(image_of(case));
        !names_first_record(image_of(case)) && known_ways.insert(ways)
    };
    let fresh = fitting(MOST_LOOKED_AT).filter(is_fresh);
    Ok(fresh.take(runs as usize).collect())
}

/// How many cases are looked at for those that are refused in a new way.
const MOST_LOOKED_AT: u64 = 20_000;

fn image_of(case: &Case) -> &[u8] {
    bench::split_stream(&case.stream).0
}

/// In which way the whole image breaks its rule, and in which way it does at the place named.
fn ways_of_refusal(image: &[u8]) -> Option<(Broken, Broken)> {
    let whole = first_broken(image)?;
    let named = open(image).err()?;
    Some((whole, named.broken))
}

/// A program that always names the first record would be right there.
fn names_first_record(image: &[u8]) -> bool {
    match (open(image), Header::decode(image)) {
        (Err(refusal), Some(header)) => [
            header.certificates_at,
            header.cards_at,
            header.executables_at,
            header.table_at,
        ]
        .contains(&(refusal.offset as u32)),
        _ => false,
    }
}

/// Writes the files of one case and gives its line of the list.
fn write_case(
    folder: &Path,
    name: &str,
    mix: Mix,
    case: &Case,
    counts: &mut Counts,
) -> Result<String, Failure> {
    let run = checked_run(&case.stream, counts)
        .map_err(|complaint| Difference(format!("case {name}: {complaint}")))?;
    write_files(
        folder,
        name,
        &case.stream,
        &run.text,
        run.image.as_ref().ok(),
    )?;
    let description = &case.description;
    Ok(match mix {
        Mix::All => format!("{name} {description}\n"),
        Mix::Damaged => format!("{name} {description} | {}\n", outcome_in_words(case, &run)),
    })
}

/// Whether the image is accepted, or where it is wrong and what else breaks the rule above that.
fn outcome_in_words(case: &Case, run: &Run) -> String {
    match (&run.image, ways_of_refusal(image_of(case))) {
        (Err(refusal), Some((whole, named))) if whole != named => {
            format!("{refusal}, above it {}", whole.way)
        }
        (Err(refusal), _) => refusal.to_string(),
        (Ok(_), _) => "accepted".to_string(),
    }
}

fn run_fuzz(words: &[String]) -> Result<(), Failure> {
    let plan = read_plan(words)?;
    let outcome = fuzz(&plan).map_err(Trouble)?;
    let (report, endings) = match plan.task {
        Task::Why => (outcome.counts.shown.report(), ".in, .id, .want, .got"),
        Task::Play => (outcome.counts.played.report(), ".in, .want, .got"),
        Task::Bench(_) => (outcome.counts.report(), ".in, .want, .got"),
    };
    print(report.as_bytes())?;
    match outcome.difference {
        None => print(b"\nno difference\n"),
        Some(found) => Err(Difference(format!(
            "seed {}, case {} ({}): {}; kept as {}{endings}",
            plan.seed,
            found.case,
            found.description,
            found.message,
            kept_name(&plan, found.case).display()
        ))),
    }
}

fn read_plan(words: &[String]) -> Result<Plan, Failure> {
    let Some(end) = words.iter().position(|word| word == "--") else {
        return Err(bad_usage("`-- COMMAND` is missing"));
    };
    let command = words[end + 1..].to_vec();
    if command.is_empty() {
        return Err(bad_usage("a command is missing behind `--`"));
    }
    let known = ["--seed", "--runs", "--seconds", "--workers", "--keep"];
    let options = Options::of(&words[..end], &known, &TASKS)?;
    let until = match (options.number("--runs")?, options.number("--seconds")?) {
        (Some(runs), None) => Until::Runs(runs),
        (None, Some(seconds)) => Until::Time(Duration::from_secs(seconds)),
        _ => return Err(bad_usage("exactly one of --runs and --seconds is needed")),
    };
    let workers = options.number("--workers")?.unwrap_or(1);
    if !(1..=64).contains(&workers) {
        return Err(bad_usage("--workers goes from 1 to 64"));
    }
    Ok(Plan {
        task: options.task()?,
        seed: options.needed_number("--seed")?,
        until,
        workers: workers as usize,
        keep: PathBuf::from(options.find("--keep").unwrap_or(".")),
        command,
    })
}
