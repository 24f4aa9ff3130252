//! A lesson in lines: a line for each event, the author's comment above it, and the reasons under an
//! answer that is a surprise.

use crate::told::{Moment, Told};

/// The widest that the column of the events gets; longer words go on below.
const WIDEST: usize = 56;

/// How far words that go on below stand in, and how wide they get: no answer stands beside them.
const GOES_ON: &str = "    ";
const WIDEST_BELOW: usize = 84;

/// How wide the lines of a comment get.
const WIDEST_COMMENT: usize = 100;

/// The lines of a lesson, ready to be printed.
pub fn lines(told: &Told) -> String {
    let columns = Columns::of(told);
    let mut text = heading(told);
    for moment in &told.moments {
        text.push_str(&columns.moment(moment));
    }
    text
}

/// What lesson it is, and who answered.
fn heading(told: &Told) -> String {
    let answering = match told.timed {
        true => "play",
        false => "bench",
    };
    let mut name = String::new();
    if told.title != told.file {
        name = format!("{}\n", told.title);
    }
    let events = match told.moments.len() {
        1 => "1 event".to_string(),
        count => format!("{count} events"),
    };
    format!(
        "{name}{}: {events}, answers by {answering}, reasons by why\n\n",
        told.file
    )
}

/// How wide the columns are.
struct Columns {
    number: usize,
    second: usize,
    event: usize,
}

impl Columns {
    fn of(told: &Told) -> Columns {
        let digits = |number: usize| number.to_string().len();
        let seconds = told.moments.iter().map(|moment| moment.second as usize);
        let short = told.moments.iter().map(|moment| width(&moment.words));
        let short = short.filter(|width| *width <= WIDEST);
        Columns {
            number: digits(told.moments.len()).max(4),
            second: seconds.map(digits).max().unwrap_or(1),
            event: short.max().unwrap_or(WIDEST),
        }
    }

    fn moment(&self, moment: &Moment) -> String {
        let Columns {
            number,
            second,
            event,
        } = self;
        let head = format!(
            "{:>number$}  second {:>second$}  ",
            moment.number, moment.second
        );
        let indent = " ".repeat(head.len());
        let mut words = broken(&moment.words, *event, WIDEST_BELOW).into_iter();
        let first = words.next().unwrap_or_default();
        let mut text = comment(moment);
        text.push_str(&format!("{head}{first:event$}  {}\n", moment.answer));
        for more in words {
            text.push_str(&format!("{indent}{GOES_ON}{more}\n"));
        }
        for reason in &moment.reasons {
            text.push_str(&format!("{indent}{reason}\n"));
        }
        text
    }
}

/// The comment above an event, with the `#` that it has in the text, so that no word of it is taken for an answer.
fn comment(moment: &Moment) -> String {
    let mut text = String::new();
    // It begins something new; over the first event there is an empty line already.
    if !moment.comment.is_empty() && moment.number > 1 {
        text.push('\n');
    }
    for line in &moment.comment {
        for piece in broken_at(" ", line, WIDEST_COMMENT, WIDEST_COMMENT) {
            text.push_str(&format!("# {piece}\n"));
        }
    }
    text
}

fn width(words: &str) -> usize {
    words.chars().count()
}

/// Words broken into lines, the first of one width and the others of another: behind commas, or between
/// words where there is no comma.
fn broken(words: &str, first: usize, others: usize) -> Vec<String> {
    let end_of_piece = match words.contains(", ") {
        true => ", ",
        false => " ",
    };
    broken_at(end_of_piece, words, first, others)
}

fn broken_at(end_of_piece: &str, words: &str, first: usize, others: usize) -> Vec<String> {
    let mut lines: Vec<String> = Vec::new();
    for piece in words.split_inclusive(end_of_piece) {
        let room = match lines.len() {
            0 | 1 => first,
            _ => others,
        };
        match lines.last_mut() {
            Some(line) if width(line) + width(piece.trim_end()) <= room => line.push_str(piece),
            _ => lines.push(piece.to_string()),
        }
    }
    lines.iter().map(|line| line.trim_end().into()).collect()
}

#[cfg(test)]
mod tests {
    use super::*;

    #[test]
    fn words_are_broken_where_there_is_no_room() {
        assert_eq!(broken("a bb ccc", 8, 9), ["a bb ccc"]);
        assert_eq!(broken("a bb ccc dd", 7, 9), ["a bb", "ccc dd"]);
        assert_eq!(broken("a b, c d, e", 5, 9), ["a b,", "c d, e"]);
        assert_eq!(broken("aaaaaaaaaa b", 4, 4), ["aaaaaaaaaa", "b"]);
        assert!(broken("", 4, 4).is_empty());
        let hex = "bytes".to_string() + &" 00".repeat(24);
        let lines = broken(&hex, 20, 30);
        assert_eq!(lines.join(" "), hex);
        assert!(lines[0].len() <= 20 && lines.iter().all(|line| line.len() <= 30));
    }
}
