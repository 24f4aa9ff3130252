//! The proved programs, run as commands.
//!
//! What a program prints is taken apart here and held to the form that it has to have. A line of
//! another form is an error, and never something to guess at.

use std::io::Write;
use std::path::Path;
use std::process::{Command, Stdio};

use reference::bench::FIRST_LINE;

use crate::trouble::Trouble;
use crate::words::Answer;

/// The commands of the programs: each is a program and the words that stand before its own.
#[derive(Clone, Debug, Default, PartialEq, Eq)]
pub struct Programs {
    pub bench: Vec<String>,
    pub play: Vec<String>,
    pub why: Vec<String>,
    pub vectors: Vec<String>,
}

/// The words of a command: one to a line where it has a line end, so that a word can have blanks, and
/// otherwise with blanks between them.
pub fn command_words(command: &str) -> Vec<String> {
    let words: Vec<&str> = match command.contains('\n') {
        true => command.lines().filter(|word| !word.is_empty()).collect(),
        false => command.split_whitespace().collect(),
    };
    words.into_iter().map(str::to_string).collect()
}

/// What `bench` or `play` says of a lesson.
#[derive(Clone, Debug, PartialEq, Eq)]
pub enum Verdict {
    /// An answer for each event.
    Ran(Ran),
    /// Code 1: the first broken rule, and the byte where it is broken.
    ImageRefused { rule: u8, offset: usize },
    /// Code 19.
    TimelineRefused,
}

/// The answers of a run, and the lines that were printed of them.
#[derive(Clone, Debug, PartialEq, Eq)]
pub struct Ran {
    pub answers: Vec<Answer>,
    pub lines: Vec<String>,
}

/// What `why` says of an application.
#[derive(Clone, Debug, PartialEq, Eq)]
pub struct Said {
    pub lines: Vec<String>,
    /// There is a chain, and no line that the application waits to be verified.
    pub is_trusted: bool,
}

impl Programs {
    /// The answers to an image and events.
    pub fn bench(&self, stream: &[u8]) -> Result<Verdict, Trouble> {
        let program = Program::of("bench", &self.bench);
        program.verdict(&program.run(&[], stream, None)?)
    }

    /// The answers to an image and a timeline.
    pub fn play(&self, stream: &[u8]) -> Result<Verdict, Trouble> {
        let program = Program::of("play", &self.play);
        program.verdict(&program.run(&[], stream, None)?)
    }

    /// Why an application is trusted or not after so many events of a stream.
    pub fn why(&self, stream: &[u8], id: u16, events: usize) -> Result<Said, Trouble> {
        let program = Program::of("why", &self.why);
        let words = [id.to_string(), events.to_string()];
        said(&program, id, &program.run(&words, stream, None)?)
    }

    /// Whether the stored cases of a folder are what the library gives, answers and images.
    pub fn vectors(&self, folder: &Path, cases: usize) -> Result<(), Trouble> {
        let program = Program::of("vectors", &self.vectors);
        let told = program.run(&[], &[], Some(folder))?;
        let agrees = format!("{cases} cases, 0 differ");
        match told.lines().any(|line| line == agrees) {
            true => Ok(()),
            false => Err(program.strange(&format!("`{agrees}`"), first_line(&told))),
        }
    }
}

/// One program by its name.
struct Program<'a> {
    name: &'a str,
    command: &'a [String],
}

impl<'a> Program<'a> {
    fn of(name: &'a str, command: &'a [String]) -> Program<'a> {
        Program { name, command }
    }

    /// Runs the program on some input and gives all that it writes to standard output.
    fn run(
        &self,
        words: &[String],
        input: &[u8],
        folder: Option<&Path>,
    ) -> Result<String, Trouble> {
        let Some((first, before)) = self.command.split_first() else {
            return Err(self.trouble("no command was given to run it"));
        };
        let mut command = Command::new(first);
        command.args(before).args(words);
        command.stdin(Stdio::piped());
        command.stdout(Stdio::piped());
        command.stderr(Stdio::piped());
        if let Some(folder) = folder {
            command.current_dir(folder);
        }
        let mut child = command
            .spawn()
            .map_err(|error| self.trouble(&format!("`{first}` cannot be started: {error}")))?;
        let stdin = child.stdin.take();
        let output = std::thread::scope(|scope| {
            // A program may stop reading when it has what it needs, so what cannot be written does not matter.
            scope.spawn(move || stdin.map(|mut stdin| stdin.write_all(input)));
            child.wait_with_output()
        });
        let output =
            output.map_err(|error| self.trouble(&format!("it cannot be read: {error}")))?;
        if !output.status.success() {
            let complaint = String::from_utf8_lossy(&output.stderr).into_owned();
            let complaint = first_line(&complaint);
            return Err(self.trouble(&format!("it ended with {}: {complaint}", output.status)));
        }
        String::from_utf8(output.stdout).map_err(|_| self.trouble("what it printed is not text"))
    }

    fn trouble(&self, message: &str) -> Trouble {
        Trouble::unreadable(format!("the program {}: {message}", self.name))
    }

    fn strange(&self, expected: &str, found: &str) -> Trouble {
        self.trouble(&format!("expected {expected}, and it printed `{found}`"))
    }

    /// The lines of a run behind the first one.
    fn verdict(&self, told: &str) -> Result<Verdict, Trouble> {
        let heading = FIRST_LINE.trim_end();
        let mut lines = told.lines();
        match lines.next() {
            Some(line) if line == heading => {}
            other => return Err(self.strange(&format!("`{heading}`"), other.unwrap_or(""))),
        }
        let lines: Vec<String> = lines.map(str::to_string).collect();
        match lines.first().map(String::as_str) {
            Some("timeline 19") => Ok(Verdict::TimelineRefused),
            Some(line) if line.starts_with("image ") => self.image_refused(line),
            _ => self.ran(lines),
        }
    }

    fn image_refused(&self, line: &str) -> Result<Verdict, Trouble> {
        match numbers(line.strip_prefix("image ").unwrap_or("")).as_deref() {
            Some(&[1, rule @ 1..=8, offset]) => Ok(Verdict::ImageRefused {
                rule: rule as u8,
                offset: offset as usize,
            }),
            _ => Err(self.strange("`image 1`, a rule and an offset", line)),
        }
    }

    fn ran(&self, lines: Vec<String>) -> Result<Verdict, Trouble> {
        let mut answers = Vec::with_capacity(lines.len());
        for (before, line) in lines.iter().enumerate() {
            answers.push(self.answer(before + 1, line)?);
        }
        Ok(Verdict::Ran(Ran { answers, lines }))
    }

    /// One line: number, kind, code, domain and links.
    fn answer(&self, number: usize, line: &str) -> Result<Answer, Trouble> {
        match numbers(line).as_deref() {
            Some(&[at, kind @ 0..=255, code @ 0..=19, domain @ 0..=3, links @ 0..=4])
                if at == number as u64 =>
            {
                Ok(Answer {
                    kind: kind as u8,
                    code: code as u8,
                    domain: domain as u8,
                    links: links as u8,
                })
            }
            _ => Err(self.strange(
                &format!("{number} and then kind, code, domain and links"),
                line,
            )),
        }
    }
}

fn first_line(text: &str) -> &str {
    text.lines().next().unwrap_or("")
}

/// Decimal numbers with one blank between them, and nothing else.
fn numbers(line: &str) -> Option<Vec<u64>> {
    line.split(' ').map(number).collect()
}

fn number(word: &str) -> Option<u64> {
    let is_plain = !word.is_empty() && word.bytes().all(|byte| byte.is_ascii_digit());
    is_plain.then(|| word.parse().ok()).flatten()
}

/// The lines of an explanation, each held to the forms that there are.
fn said(program: &Program, id: u16, told: &str) -> Result<Said, Trouble> {
    let lines: Vec<String> = told.lines().map(str::to_string).collect();
    if lines.is_empty() {
        return Err(program.strange("at least one line", ""));
    }
    if let Some(line) = lines.iter().find(|line| !is_reason(line, id)) {
        return Err(program.strange(&format!("why application {id} has its domain"), line));
    }
    let has_chain = lines[0].ends_with(TRUSTED_ROOT);
    let waits = lines.contains(&waits_to_be_verified(id));
    Ok(Said {
        lines,
        is_trusted: has_chain && !waits,
    })
}

const TRUSTED_ROOT: &str = " is a trusted root";

/// What is said of a certificate behind its id, but for the one that another verifies.
const OF_CERTIFICATES: [&str; 7] = [
    TRUSTED_ROOT,
    " is a recovery key",
    " is on an absent card",
    " is marked invalid",
    " is disabled",
    " is past its date",
    " has no good signer within three links",
];

fn waits_to_be_verified(id: u16) -> String {
    format!("application {id} is untrusted until it is verified")
}

fn is_reason(line: &str, id: u16) -> bool {
    let of_application = [
        waits_to_be_verified(id),
        format!("application {id} is unsigned"),
        format!("no certificate has the key of application {id}"),
    ];
    of_application.iter().any(|form| form == line) || is_of_certificate(line)
}

fn is_of_certificate(line: &str) -> bool {
    let Some(rest) = line.strip_prefix("certificate ") else {
        return false;
    };
    let id_end = rest.find(' ').unwrap_or(rest.len());
    let (id, form) = rest.split_at(id_end);
    let verifier = form.strip_prefix(" is verified by certificate ");
    let has_form = OF_CERTIFICATES.contains(&form) || verifier.and_then(number).is_some();
    number(id).is_some() && has_form
}

#[cfg(test)]
mod tests {
    use super::*;

    fn verdict(told: &str) -> Result<Verdict, Trouble> {
        Program::of("bench", &[]).verdict(told)
    }

    fn explanation(told: &str) -> Result<Said, Trouble> {
        said(&Program::of("why", &[]), 1, told)
    }

    #[test]
    fn words_of_commands() {
        assert_eq!(command_words("a  b c"), ["a", "b", "c"]);
        assert_eq!(command_words("a b\n"), ["a b"]);
        assert_eq!(command_words("a b\nc\n"), ["a b", "c"]);
        assert!(command_words("").is_empty());
    }

    #[test]
    fn answers_have_their_form() {
        let ran = verdict("event kind code domain links\n1 15 0 1 2\n2 255 2 0 0\n");
        let Ok(Verdict::Ran(ran)) = ran else {
            panic!("{ran:?}");
        };
        assert_eq!(ran.answers.len(), 2);
        assert_eq!(ran.answers[0].links, 2);
        assert_eq!(ran.answers[1].kind, 255);
        assert_eq!(
            verdict("event kind code domain links\nimage 1 4 88\n"),
            Ok(Verdict::ImageRefused {
                rule: 4,
                offset: 88
            })
        );
        assert_eq!(
            verdict("event kind code domain links\ntimeline 19\n"),
            Ok(Verdict::TimelineRefused)
        );
    }

    #[test]
    fn anything_else_is_an_error() {
        for told in [
            "",
            "event",
            "event kind code domain links\n2 15 0 1 2\n",
            "event kind code domain links\n1 15 0 1\n",
            "event kind code domain links\n1 15 20 0 0\n",
            "event kind code domain links\n1 15 0 1 5\n",
            "event kind code domain links\n1 15 0 1 2 3\n",
            "event kind code domain links\n1 15 0 +1 2\n",
            "event kind code domain links\nimage 1 9 88\n",
            "event kind code domain links\nimage 2 1 88\n",
            "event kind code domain links\nimage 1\n",
        ] {
            let trouble = verdict(told).expect_err(told);
            assert!(trouble.message.starts_with("the program bench: expected "));
            assert_eq!(trouble.status, 2);
        }
    }

    #[test]
    fn trust_is_read_off_the_explanation() {
        let chain =
            "certificate 10 is a trusted root\ncertificate 11 is verified by certificate 10\n";
        assert!(explanation(chain).is_ok_and(|said| said.is_trusted));
        let waits = format!("{chain}application 1 is untrusted until it is verified\n");
        assert!(explanation(&waits).is_ok_and(|said| !said.is_trusted && said.lines.len() == 3));
        for reason in [
            "certificate 11 is past its date\n",
            "certificate 11 has no good signer within three links\n",
            "application 1 is unsigned\n",
            "no certificate has the key of application 1\n",
        ] {
            assert!(explanation(reason).is_ok_and(|said| !said.is_trusted));
        }
        for strange in [
            "",
            "executable 3\n",
            "image 1 4 88\n",
            "certificate 11 is fine\n",
            "certificate is disabled\n",
            "application 2 is unsigned\n",
        ] {
            assert!(explanation(strange).is_err(), "{strange}");
        }
    }

    #[test]
    fn a_program_that_cannot_run_is_named() {
        let none = Programs::default().bench(&[]).expect_err("no command");
        assert_eq!(
            none.message,
            "the program bench: no command was given to run it"
        );
        let missing = Programs {
            why: command_words("./no-such-program"),
            ..Programs::default()
        };
        let trouble = missing.why(&[], 1, 0).expect_err("no program");
        assert!(trouble
            .message
            .starts_with("the program why: `./no-such-program` cannot be started"));
        let failing = Programs {
            play: command_words("false"),
            ..Programs::default()
        };
        assert!(failing.play(&[0; 100_000]).is_err());
    }
}
