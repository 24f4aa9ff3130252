//! Stored questions: chosen, written to a folder, and run again.
//!
//! Follows 02, "Tell the trainee why". A folder has a file `cases`, a line for each that begins
//! with its name, and for each NAME the files NAME.in (a stream), NAME.id (`ID` or `ID EVENTS`)
//! and NAME.out (what `why` prints).

use std::cmp::Reverse;
use std::collections::{BTreeMap, BTreeSet};
use std::path::Path;

use crate::asked::Scene;
use crate::fuzz::{first_differing_line, write_file};
use crate::generate::questions::questions;
use crate::shown::{shown_by, Shown, FORMS};
use crate::vectors::{names, read, Outcome};
use crate::why::{Answer, Question};

/// Which questions of a seed are stored.
pub struct Choice {
    pub seed: u64,
    pub most: usize,
    /// How long a stream may be.
    pub most_bytes: usize,
    /// Only questions that show something that few others of the chosen ones show.
    pub fresh: bool,
}

/// So many stored questions are enough for each thing that one can show.
const ENOUGH: usize = 4;

/// How many streams are looked at for fresh questions.
const MOST_LOOKED_AT: u64 = 2000;

/// A question that may be stored.
struct Candidate {
    name: String,
    description: String,
    stream: Vec<u8>,
    question: Question,
    answer: Answer,
    shows: BTreeSet<&'static str>,
}

/// Writes the chosen questions.
pub fn write_cases(choice: &Choice, folder: &Path) -> Result<(), String> {
    let mut list = String::new();
    for candidate in chosen(choice)? {
        write_case(folder, &candidate)?;
        list.push_str(&line_of(&candidate));
    }
    write_file(&folder.join("cases"), list.as_bytes())
}

fn write_case(folder: &Path, candidate: &Candidate) -> Result<(), String> {
    let question = &candidate.question;
    let path = |ending: &str| folder.join(format!("{}.{ending}", candidate.name));
    let words = format!("{}\n", question.words().join(" "));
    let text = candidate.answer.text(question.id);
    write_file(&path("in"), &candidate.stream)?;
    write_file(&path("id"), words.as_bytes())?;
    write_file(&path("out"), text.as_bytes())
}

/// The line of the list; the answer itself says which forms of lines it has.
fn line_of(candidate: &Candidate) -> String {
    let points = candidate.shows.iter().filter(|name| !FORMS.contains(name));
    let points: Vec<&str> = points.copied().collect();
    let (name, description) = (&candidate.name, &candidate.description);
    format!("{name} {description} | {}\n", points.join("; "))
}

fn chosen(choice: &Choice) -> Result<Vec<Candidate>, String> {
    if choice.fresh {
        let all = candidates(choice, MOST_LOOKED_AT, usize::MAX)?;
        return Ok(fresh_ones(all, choice.most));
    }
    let mut first = candidates(choice, u64::MAX, choice.most)?;
    first.truncate(choice.most);
    Ok(first)
}

/// The questions about so many streams, or about fewer where these have enough.
fn candidates(choice: &Choice, streams: u64, enough: usize) -> Result<Vec<Candidate>, String> {
    let mut found = Vec::new();
    for number in 0..streams {
        if found.len() >= enough {
            break;
        }
        found.extend(candidates_of(choice, number)?);
    }
    Ok(found)
}

fn candidates_of(choice: &Choice, number: u64) -> Result<Vec<Candidate>, String> {
    let questions = questions(choice.seed, number);
    let stream = &questions.case.stream;
    if stream.len() > choice.most_bytes {
        return Ok(Vec::new());
    }
    let scene = Scene::of(stream, questions.events);
    let candidate = |question: Question| {
        let name = format!("w{}-{number:04}-{}", choice.seed, question.id);
        let answer = scene
            .checked_answer(question.id)
            .map_err(|complaint| format!("case {name}: {complaint}"))?;
        Ok(Candidate {
            name,
            description: questions.case.description.clone(),
            stream: stream.clone(),
            question,
            shows: shown_by(&scene, question.id, &answer),
            answer,
        })
    };
    questions.all().map(candidate).collect()
}

/// Again and again the question that shows most of what too few show; short streams go first.
fn fresh_ones(mut all: Vec<Candidate>, most: usize) -> Vec<Candidate> {
    let mut times: BTreeMap<&str, usize> = BTreeMap::new();
    let mut chosen = Vec::new();
    while chosen.len() < most {
        let is_news = |thing: &&&str| times.get(**thing).copied().unwrap_or(0) < ENOUGH;
        let news = |candidate: &Candidate| candidate.shows.iter().filter(is_news).count();
        let worth = |at: &usize| (news(&all[*at]), Reverse(all[*at].stream.len()));
        let best = (0..all.len()).max_by_key(worth);
        let Some(best) = best.filter(|at| news(&all[*at]) > 0) else {
            break;
        };
        let candidate = all.swap_remove(best);
        for thing in &candidate.shows {
            *times.entry(thing).or_default() += 1;
        }
        chosen.push(candidate);
    }
    chosen.sort_by(|one, other| one.name.cmp(&other.name));
    chosen
}

/// Runs all questions of a folder.
pub fn run_folder(folder: &Path) -> Result<Outcome, String> {
    let mut shown = Shown::default();
    let mut report = String::new();
    let (mut run, mut differing) = (0, 0);
    for name in names(folder)? {
        run += 1;
        if let Err(difference) = run_stored(folder, &name, &mut shown) {
            differing += 1;
            report.push_str(&format!("case {name} {difference}\n"));
        }
    }
    report.push_str(&format!("{run} cases, {differing} differ\n"));
    report.push_str(&shown.lists());
    Ok(Outcome { report, differing })
}

/// How a stored question differs; a file that cannot be read is a difference too.
fn run_stored(folder: &Path, name: &str, shown: &mut Shown) -> Result<(), String> {
    let path = |ending: &str| folder.join(format!("{name}.{ending}"));
    let words = String::from_utf8_lossy(&read(&path("id"))?).into_owned();
    let words: Vec<&str> = words.split_whitespace().collect();
    let question = Question::of_words(&words)?;
    let scene = Scene::of(&read(&path("in"))?, question.events);
    let answer = scene.checked_answer(question.id)?;
    shown.add(&scene, question.id, &answer);
    let text = answer.text(question.id);
    let want = String::from_utf8_lossy(&read(&path("out"))?).into_owned();
    match text == want {
        true => Ok(()),
        false => Err(first_differing_line(&want, &text)),
    }
}

#[cfg(test)]
mod tests {
    use super::*;

    fn in_new_folder(name: &str, act: impl Fn(&Path)) {
        let name = format!("reference-{name}-{}", std::process::id());
        let folder = std::env::temp_dir().join(name);
        std::fs::create_dir_all(&folder).expect("a folder");
        act(&folder);
        std::fs::remove_dir_all(&folder).expect("the folder is there");
    }

    #[test]
    fn what_is_written_agrees_when_it_is_run() {
        in_new_folder("questions", |folder| {
            let choice = Choice {
                seed: 1,
                most: 20,
                most_bytes: 500,
                fresh: false,
            };
            write_cases(&choice, folder).expect("written cases");
            let outcome = run_folder(folder).expect("an outcome");
            assert!(outcome.report.starts_with("20 cases, 0 differ\n"));
            let stored = names(folder).expect("a list");
            let spoiled = folder.join(format!("{}.out", stored[7]));
            write_file(&spoiled, b"executable 4\n").expect("a file");
            let outcome = run_folder(folder).expect("an outcome");
            assert_eq!(outcome.differing, 1);
            let start = format!("case {} line 1: expected `executable 4`", stored[7]);
            assert!(outcome.report.starts_with(&start));
        });
    }

    #[test]
    fn few_fresh_questions_show_everything() {
        let choice = Choice {
            seed: 1,
            most: 80,
            most_bytes: 700,
            fresh: true,
        };
        let chosen = chosen(&choice).expect("chosen questions");
        let showing = |name: &str| chosen.iter().filter(|c| c.shows.contains(name)).count();
        for (name, _) in Shown::default().counts() {
            assert!(showing(name) >= ENOUGH, "{name}: {} times", showing(name));
        }
        assert!(chosen.len() < choice.most);
    }
}
