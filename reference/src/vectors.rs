//! The stored cases of a folder, run through the reference: what differs, what was covered, and
//! the stored answers written anew.
//!
//! A folder has a file `cases`, a line for each that begins with its name, and for each NAME the
//! files NAME.in (a stream), NAME.out (what `bench` prints) and, where the image is accepted,
//! NAME.fin (the image after the last event). What is printed has the form of the program
//! `vectors`, so that the two can be compared whole.
//!
//! A folder of timelines is the same with images and timelines, what `play` prints, and NAME.fin
//! where both are accepted.

use std::path::Path;

use crate::check::{checked_run, Counts};
use crate::fuzz::{first_difference, write_file};
use crate::played::checked_play;

/// What the cases of a folder gave.
pub struct Outcome {
    pub report: String,
    pub differing: u64,
}

/// What a stored case gives: what is printed, and the image where nothing is refused.
type Given = (String, Option<Vec<u8>>);

/// Runs all cases of a folder.
pub fn run_folder(folder: &Path) -> Result<Outcome, String> {
    let mut counts = Counts::default();
    let mut outcome = run_all(folder, &mut counts, |stream, counts| {
        let run = checked_run(stream, counts)?;
        Ok((run.text, run.image.ok()))
    })?;
    outcome.report.push_str(&counts.lists());
    Ok(outcome)
}

/// Runs all timelines of a folder.
pub fn run_timelines(folder: &Path) -> Result<Outcome, String> {
    let mut counts = Counts::default();
    let mut outcome = run_all(folder, &mut counts, |stream, counts| {
        let run = checked_play(stream, counts)?;
        Ok((run.text, run.image.ok()))
    })?;
    outcome.report.push_str(&counts.lists());
    outcome.report.push_str(&counts.played.report());
    Ok(outcome)
}

fn run_all(
    folder: &Path,
    counts: &mut Counts,
    run_one: impl Fn(&[u8], &mut Counts) -> Result<Given, String>,
) -> Result<Outcome, String> {
    let mut report = String::new();
    let (mut run, mut differing) = (0, 0);
    for name in names(folder)? {
        run += 1;
        let stored = |stream: &[u8]| run_one(stream, counts);
        if let Err(difference) = compare_stored(folder, &name, stored) {
            differing += 1;
            report.push_str(&format!("case {name} {difference}\n"));
        }
    }
    report.push_str(&format!("{run} cases, {differing} differ\n"));
    Ok(Outcome { report, differing })
}

/// The names of a folder's cases, in the order of its list.
pub fn names(folder: &Path) -> Result<Vec<String>, String> {
    let list = folder.join("cases");
    let text =
        String::from_utf8(read(&list)?).map_err(|error| format!("{}: {error}", list.display()))?;
    Ok(text.lines().map(first_word).collect())
}

fn first_word(line: &str) -> String {
    line.split(' ').next().unwrap_or("").to_string()
}

pub fn read(path: &Path) -> Result<Vec<u8>, String> {
    std::fs::read(path).map_err(|error| format!("cannot read {}: {error}", path.display()))
}

/// How a stored case differs; a file that cannot be read is a difference too.
fn compare_stored(
    folder: &Path,
    name: &str,
    run_it: impl FnOnce(&[u8]) -> Result<Given, String>,
) -> Result<(), String> {
    let path = |ending: &str| folder.join(format!("{name}.{ending}"));
    let (text, image) = run_it(&read(&path("in"))?)?;
    let want = String::from_utf8_lossy(&read(&path("out"))?).into_owned();
    if text != want {
        return Err(first_difference(&want, &text));
    }
    compare_images(image, &path("fin"))
}

/// Writes what the reference prints over each stored answer that says something else, and tells
/// where the stored one differed first. The streams and the final images stay as they are.
pub fn rewrite_answers(folder: &Path) -> Result<String, String> {
    let mut report = String::new();
    let (mut all, mut rewritten) = (0, 0);
    for name in names(folder)? {
        all += 1;
        let path = |ending: &str| folder.join(format!("{name}.{ending}"));
        let run = checked_run(&read(&path("in"))?, &mut Counts::default())
            .map_err(|complaint| format!("case {name}: {complaint}"))?;
        let stored = read(&path("out"))?;
        if run.text.as_bytes() != stored {
            write_file(&path("out"), run.text.as_bytes())?;
            rewritten += 1;
            let difference = first_difference(&String::from_utf8_lossy(&stored), &run.text);
            report.push_str(&format!("case {name} {difference}\n"));
        }
    }
    report.push_str(&format!("{all} cases, {rewritten} answers rewritten\n"));
    Ok(report)
}

fn compare_images(image: Option<Vec<u8>>, stored: &Path) -> Result<(), String> {
    let Some(image) = image else {
        return Ok(());
    };
    let want = read(stored)?;
    if image == want {
        return Ok(());
    }
    let at = image.iter().zip(&want).take_while(|(a, b)| a == b).count();
    Err(format!("image differs from byte {at} on"))
}

#[cfg(test)]
mod tests {
    use super::*;
    use crate::bench::run;

    #[test]
    fn only_answers_that_differ_are_rewritten() {
        let folder = std::env::temp_dir().join(format!("reference-answers-{}", std::process::id()));
        let put = |name: &str, bytes: &[u8]| write_file(&folder.join(name), bytes).expect("a file");
        std::fs::create_dir_all(&folder).expect("a folder");
        put("cases", b"old an answer without a place\nnew one with it\n");
        let right = run(&[0; 7]).text;
        for name in ["old", "new"] {
            put(&format!("{name}.in"), &[0; 7]);
            put(&format!("{name}.out"), right.as_bytes());
        }
        put("old.out", b"event kind code domain links\nimage 1\n");
        let report = rewrite_answers(&folder).expect("a report");
        assert!(report.starts_with("case old event 1: expected `image 1`, found `image 1 1 7`\n"));
        assert!(report.ends_with("2 cases, 1 answers rewritten\n"));
        assert_eq!(read(&folder.join("old.out")), Ok(right.into_bytes()));
        let report = rewrite_answers(&folder).expect("a report");
        assert_eq!(report, "2 cases, 0 answers rewritten\n");
        std::fs::remove_dir_all(&folder).expect("the folder is there");
    }
}
