//! Questions to `why` about the moments of one lesson.
//!
//! A question costs a run of the program, so that each is asked once: a refused event and a request
//! leave the phone as it is, and what was said before them is still so.

use std::collections::HashMap;
use std::sync::atomic::{AtomicUsize, Ordering};
use std::sync::Mutex;

use reference::bench::split_stream;
use reference::events::{Event, REQUEST};

use crate::programs::{Programs, Said};
use crate::trouble::Trouble;
use crate::words::Answer;

/// How many programs run at a time.
const WORKERS: usize = 2;

/// About which application, and after how many events.
#[derive(Clone, Copy, Debug, PartialEq, Eq, Hash)]
pub struct Question {
    pub id: u16,
    pub events: usize,
}

/// A lesson's stream to ask about, and what was said already.
pub struct Asking<'a> {
    programs: &'a Programs,
    stream: &'a [u8],
    /// For each number of events, the one of the last event up to it that can have changed the phone.
    changed_at: Vec<usize>,
    said: HashMap<Question, Said>,
}

impl<'a> Asking<'a> {
    pub fn of(programs: &'a Programs, stream: &'a [u8], answers: &[Answer]) -> Asking<'a> {
        let mut changed_at = vec![0];
        let mut last = 0;
        for (before, answer) in answers.iter().enumerate() {
            if answer.code == 0 && answer.kind != REQUEST {
                last = before + 1;
            }
            changed_at.push(last);
        }
        Asking {
            programs,
            stream,
            changed_at,
            said: HashMap::new(),
        }
    }

    /// The image and the events that are asked about.
    pub fn stream(&self) -> &'a [u8] {
        self.stream
    }

    /// The answers to questions, in their order.
    pub fn ask(&mut self, questions: &[Question]) -> Result<Vec<Said>, Trouble> {
        let same: Vec<Question> = questions.iter().map(|asked| self.same(*asked)).collect();
        let mut fresh: Vec<Question> = Vec::new();
        for question in &same {
            if !self.said.contains_key(question) && !fresh.contains(question) {
                fresh.push(*question);
            }
        }
        let answers = self.run(&fresh)?;
        self.said.extend(fresh.into_iter().zip(answers));
        Ok(same.iter().map(|asked| self.said[asked].clone()).collect())
    }

    /// The same question about the earliest moment at which the phone was as it is.
    fn same(&self, question: Question) -> Question {
        let last = self.changed_at.last().copied().unwrap_or(0);
        Question {
            events: *self.changed_at.get(question.events).unwrap_or(&last),
            ..question
        }
    }

    /// Asks each question by a run of the program, some at a time; the first trouble ends it.
    fn run(&self, questions: &[Question]) -> Result<Vec<Said>, Trouble> {
        let next = AtomicUsize::new(0);
        let answers = Mutex::new(vec![None; questions.len()]);
        let work = || -> Result<(), Trouble> {
            loop {
                let at = next.fetch_add(1, Ordering::Relaxed);
                let Some(question) = questions.get(at) else {
                    return Ok(());
                };
                let said = self.put(*question);
                if said.is_err() {
                    // Nobody begins another question.
                    next.store(questions.len(), Ordering::Relaxed);
                }
                answers.lock().expect("no worker panics")[at] = Some(said?);
            }
        };
        std::thread::scope(|scope| {
            let workers: Vec<_> = (0..WORKERS).map(|_| scope.spawn(work)).collect();
            workers
                .into_iter()
                .try_for_each(|worker| worker.join().expect("no worker panics"))
        })?;
        let answers = answers.into_inner().expect("no worker panics");
        Ok(answers.into_iter().flatten().collect())
    }

    fn put(&self, question: Question) -> Result<Said, Trouble> {
        let image_end = split_stream(self.stream).0.len();
        let end = image_end + question.events * Event::SIZE;
        let needed = &self.stream[..end.min(self.stream.len())];
        self.programs.why(needed, question.id, question.events)
    }
}
