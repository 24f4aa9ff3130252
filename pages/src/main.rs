//! The command line: a lesson in lines, as one page, or in bytes.
//!
//! Exit status 0 is good, 1 a lesson that is refused, 2 bad usage, something that cannot be read, or a
//! program that does not do what it should.

use std::io::{Read, Write};
use std::process::ExitCode;

use pages::programs::{command_words, Programs};
use pages::reading::{text_of, STANDARD_INPUT};
use pages::told::{refused, stream, tell, Told};
use pages::trouble::Trouble;

const HELP: &str = "\
Lessons in words: a lesson's text, run by the proved programs, and what they answer.

usage: pages lesson FILE --bench CMD --play CMD --why CMD
       pages page   FILE --bench CMD --play CMD --why CMD --vectors CMD
       pages stream FILE
       pages refused FILE RULE OFFSET

  lesson  a line for each event of FILE: its number, the second, the event and the answer in words with
          its code; and the reasons under an answer that is a surprise
  page    one page in HTML of the same, with a picture of the phone at every moment
  stream  the bytes of FILE, as the programs bench and why read them; of a timeline, its events with the
          clock events put in; nothing is run, so that it also says whether FILE can be read
  refused what `lesson` says of FILE where a program refuses its image: the rule RULE, 1 to 8, at byte
          OFFSET; exit status 1

FILE is a lesson in words, in UTF-8; - is standard input. CMD are the words that run a program: with blanks
between them, or one to a line where CMD has a line end. `./run lesson` and `./run page` give the commands
of the proved programs.

Codes, domains, links and reasons are what these programs print. What turns text into bytes and numbers
into words is not proved.

exit status: 0 good, 1 a refused image or timeline, 2 bad usage or unreadable
";

fn main() -> ExitCode {
    let arguments: Vec<String> = std::env::args().skip(1).collect();
    match run(&arguments) {
        Ok(bytes) => print(&bytes),
        Err(trouble) => {
            eprintln!("{trouble}");
            ExitCode::from(trouble.status)
        }
    }
}

/// A reader that has seen enough, as `head` has, is no failure.
fn print(bytes: &[u8]) -> ExitCode {
    let mut out = std::io::stdout().lock();
    match out.write_all(bytes).and_then(|()| out.flush()) {
        Err(error) if error.kind() != std::io::ErrorKind::BrokenPipe => {
            eprintln!("pages: cannot write standard output: {error}");
            ExitCode::from(2)
        }
        _ => ExitCode::SUCCESS,
    }
}

fn run(arguments: &[String]) -> Result<Vec<u8>, Trouble> {
    let is_help = |word: &String| matches!(word.as_str(), "--help" | "-h" | "help");
    if arguments.iter().any(is_help) {
        return Ok(HELP.into());
    }
    match arguments.split_first() {
        Some((name, rest)) if name == "lesson" => {
            told(rest, false).map(|told| pages::lesson::lines(&told).into())
        }
        Some((name, rest)) if name == "page" => {
            told(rest, true).map(|told| pages::page::page(&told).into())
        }
        Some((name, rest)) if name == "stream" => {
            let (name, text) = read(file_and_programs(rest)?.0)?;
            stream(&name, &text)
        }
        Some((name, rest)) if name == "refused" => Err(image_refused(rest)),
        Some((name, _)) => Err(bad_usage(&format!("there is no sub-command `{name}`"))),
        None => Err(bad_usage("a sub-command is missing")),
    }
}

fn bad_usage(message: &str) -> Trouble {
    Trouble::unreadable(format!(
        "pages: {message}; `pages --help` says what there is"
    ))
}

/// What is told of the image of a file, or why nothing is.
fn image_refused(arguments: &[String]) -> Trouble {
    let [file, rule, offset] = arguments else {
        return bad_usage("expected a file, a rule and an offset");
    };
    let (Ok(rule @ 1..=8), Ok(offset)) = (rule.parse(), offset.parse()) else {
        return bad_usage(&format!("there is no rule {rule} at byte {offset}"));
    };
    match read(file) {
        Ok((name, text)) => refused(&name, &text, rule, offset),
        Err(trouble) => trouble,
    }
}

fn told(arguments: &[String], pictures: bool) -> Result<Told, Trouble> {
    let (file, programs) = file_and_programs(arguments)?;
    let (name, text) = read(file)?;
    tell(&name, &text, &programs, pictures)
}

fn file_and_programs(arguments: &[String]) -> Result<(&str, Programs), Trouble> {
    let mut programs = Programs::default();
    let mut file = None;
    let mut words = arguments.iter();
    while let Some(word) = words.next() {
        let command = match word.as_str() {
            "--bench" => &mut programs.bench,
            "--play" => &mut programs.play,
            "--why" => &mut programs.why,
            "--vectors" => &mut programs.vectors,
            option if option.starts_with("--") => {
                return Err(bad_usage(&format!("there is no option `{option}`")))
            }
            name if file.is_none() => {
                file = Some(name);
                continue;
            }
            more => return Err(bad_usage(&format!("one file at a time: found `{more}`"))),
        };
        match words.next() {
            Some(given) => *command = command_words(given),
            None => return Err(bad_usage(&format!("expected a command behind `{word}`"))),
        }
    }
    let file = file.ok_or_else(|| bad_usage("a file is missing"))?;
    Ok((file, programs))
}

/// The name of a lesson and its text.
fn read(file: &str) -> Result<(String, String), Trouble> {
    let (name, bytes) = match file {
        "-" => {
            let mut bytes = Vec::new();
            let read = std::io::stdin().read_to_end(&mut bytes);
            (STANDARD_INPUT, read.map(|_| bytes))
        }
        file => (file, std::fs::read(file)),
    };
    let bytes = bytes
        .map_err(|error| Trouble::unreadable(format!("pages: cannot read {name}: {error}")))?;
    Ok((name.to_string(), text_of(name, &bytes)?))
}
