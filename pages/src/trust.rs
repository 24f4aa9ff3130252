//! When each application of a lesson was trusted, as `why` says.
//!
//! A trusted application stays so until an event takes its domain, and comes back only by a verify,
//! whose answer tells it. So between two verifies there is one first moment without trust at most. The
//! reference says where to look for it, which spares questions; `why` says what is so, and has been
//! asked on both sides of every moment that is told. Where the reference is wrong, halving finds it.

use std::collections::BTreeMap;

use reference::bench::run_and_watch;
use reference::events::*;
use reference::phone::Phone;

use crate::asking::{Asking, Question};
use crate::trouble::Trouble;
use crate::words::Answer;

/// An application that was trusted from one event on.
#[derive(Clone, Debug, PartialEq, Eq)]
pub struct Stretch {
    pub id: u16,
    pub domain: u8,
    /// The event behind which it was trusted, 0 for the beginning.
    pub first: usize,
    /// The last event of which this is to be said: the one before it is verified again or deleted.
    pub last: usize,
    /// The event that took its domain, if one did.
    pub lost: Option<usize>,
}

impl Stretch {
    fn is_lost_by(&self, event: usize) -> bool {
        self.lost.is_some_and(|lost| lost <= event)
    }
}

/// All stretches of a lesson.
pub struct Trust {
    pub stretches: Vec<Stretch>,
}

impl Trust {
    /// Asks as much as is needed to know when each application was trusted.
    pub fn found(
        phone: &Phone,
        events: &[&[u8]],
        answers: &[Answer],
        asking: &mut Asking,
    ) -> Result<Trust, Trouble> {
        let trusted = trusted_at_first(phone, asking)?;
        let mut searches = searches(trusted, events, answers);
        let guesses = guessed_losses(asking.stream());
        for search in &mut searches {
            search.guess_from(&guesses);
        }
        loop {
            let mut open: Vec<&mut Search> = searches.iter_mut().filter(|s| s.is_open()).collect();
            if open.is_empty() {
                break;
            }
            let questions: Vec<Question> = open.iter().map(|search| search.question()).collect();
            let answers = asking.ask(&questions)?;
            for (search, said) in open.iter_mut().zip(answers) {
                search.learn(said.is_trusted);
            }
        }
        let stretches = searches.into_iter().map(Search::stretch).collect();
        Ok(Trust { stretches })
    }

    /// The domain that an application had when an event came; 0 where it was not trusted.
    pub fn domain_before(&self, id: u16, event: usize) -> u8 {
        let before = event - 1;
        let is_meant = |stretch: &&Stretch| {
            stretch.id == id && (stretch.first..=stretch.last).contains(&before)
        };
        match self.stretches.iter().find(is_meant) {
            Some(stretch) if !stretch.is_lost_by(before) => stretch.domain,
            _ => 0,
        }
    }

    /// The applications whose domain an event took, by id.
    pub fn lost_at(&self, event: usize) -> Vec<u16> {
        let lost = self.stretches.iter().filter(|s| s.lost == Some(event));
        let mut ids: Vec<u16> = lost.map(|stretch| stretch.id).collect();
        ids.sort_unstable();
        ids
    }
}

/// Whether a done event of this kind may take a domain from an application.
fn may_take_domain(kind: u8) -> bool {
    let never = [
        INSTALL_CERTIFICATE,
        INSTALL_EXECUTABLE,
        GIVE,
        WITHDRAW,
        REQUEST,
    ];
    !never.contains(&kind)
}

/// The applications that are trusted before any event, each with the domain that the lesson gives it.
fn trusted_at_first(phone: &Phone, asking: &mut Asking) -> Result<Vec<(u16, u8)>, Trouble> {
    let all: Vec<(u16, u8)> = phone
        .occupied_executables()
        .map(|application| (application.id, application.domain))
        .collect();
    let questions: Vec<Question> = all
        .iter()
        .map(|&(id, _)| Question { id, events: 0 })
        .collect();
    let said = asking.ask(&questions)?;
    let trusted = all
        .into_iter()
        .zip(said)
        .filter(|(_, said)| said.is_trusted);
    Ok(trusted.map(|(application, _)| application).collect())
}

/// Where the reference sees an application lose its domain: the event, and the application's id.
fn guessed_losses(stream: &[u8]) -> Vec<(usize, u16)> {
    let mut losses = Vec::new();
    let mut number = 0;
    run_and_watch(stream, |before, _, _, after| {
        number += 1;
        for application in before.occupied_executables() {
            let is_left = after
                .executable(application.id)
                .is_some_and(|a| a.domain == 0);
            if application.domain != 0 && is_left {
                losses.push((number, application.id));
            }
        }
    });
    losses
}

/// A stretch, of which it is still to be found whether and where it was lost.
struct Search {
    stretch: Stretch,
    /// The events that may have taken the domain.
    suspects: Vec<usize>,
    /// Behind so many of the suspects it is known to be trusted.
    trusted: usize,
    /// Behind this suspect it is known not to be.
    untrusted: Option<usize>,
    /// The suspect to ask about first. Only the number of questions depends on it.
    guess: Option<usize>,
}

impl Search {
    fn is_open(&self) -> bool {
        self.trusted < self.untrusted.unwrap_or(self.suspects.len())
    }

    fn guess_from(&mut self, losses: &[(usize, u16)]) {
        let suspects = &self.suspects;
        self.guess = losses
            .iter()
            .filter(|(_, id)| *id == self.stretch.id)
            .find_map(|(event, _)| suspects.binary_search(event).ok());
    }

    /// The suspect to ask about: the guess and the one before it, or the last one, since mostly nothing
    /// is lost; and then halving.
    fn next(&self) -> usize {
        match (self.untrusted, self.guess) {
            (None, Some(guess)) if guess >= self.trusted => guess,
            (None, _) => self.suspects.len() - 1,
            (Some(untrusted), Some(guess)) if untrusted == guess => guess - 1,
            (Some(untrusted), _) => (self.trusted + untrusted) / 2,
        }
    }

    fn question(&self) -> Question {
        Question {
            id: self.stretch.id,
            events: self.suspects[self.next()],
        }
    }

    fn learn(&mut self, is_trusted: bool) {
        let asked = self.next();
        match is_trusted {
            true => self.trusted = asked + 1,
            false => self.untrusted = Some(asked),
        }
    }

    fn stretch(self) -> Stretch {
        Stretch {
            lost: self.untrusted.map(|at| self.suspects[at]),
            ..self.stretch
        }
    }
}

/// The stretches that are still going on while the events are gone through.
struct Going {
    stretch: Stretch,
    /// The last event that showed it trusted.
    shown: usize,
}

impl Going {
    fn from(id: u16, domain: u8, first: usize) -> Going {
        let stretch = Stretch {
            id,
            domain,
            first,
            last: first,
            lost: None,
        };
        Going {
            stretch,
            shown: first,
        }
    }

    fn ends(mut self, last: usize, taking: &[usize]) -> Search {
        self.stretch.last = last;
        let from = taking.partition_point(|&event| event <= self.shown);
        Search {
            stretch: self.stretch,
            suspects: taking[from..].to_vec(),
            trusted: 0,
            untrusted: None,
            guess: None,
        }
    }
}

/// Goes through the events once and finds where stretches begin and end.
fn searches(trusted: Vec<(u16, u8)>, events: &[&[u8]], answers: &[Answer]) -> Vec<Search> {
    let mut going: BTreeMap<u16, Going> = BTreeMap::new();
    for (id, domain) in trusted {
        going.insert(id, Going::from(id, domain, 0));
    }
    let mut taking = Vec::new();
    let mut searches = Vec::new();
    for (before, (record, answer)) in events.iter().zip(answers).enumerate() {
        let number = before + 1;
        let Some(event) = Event::decode(record).filter(|_| answer.code == 0) else {
            continue;
        };
        if matches!(event.kind, VERIFY | DELETE_EXECUTABLE) {
            let ended = going.remove(&event.id);
            searches.extend(ended.map(|ended| ended.ends(before, &taking)));
        }
        if event.kind == VERIFY && answer.domain != 0 {
            going.insert(event.id, Going::from(event.id, answer.domain, number));
        }
        if event.kind == REQUEST && answer.domain != 0 {
            if let Some(shown) = going.get_mut(&event.id) {
                shown.shown = number;
            }
        }
        if may_take_domain(event.kind) {
            taking.push(number);
        }
    }
    let still = going.into_values();
    searches.extend(still.map(|going| going.ends(events.len(), &taking)));
    searches
}

#[cfg(test)]
mod tests {
    use super::*;

    /// Searches one stretch with so many suspects that was lost at one of them, or never, with a guess.
    fn search(
        suspects: usize,
        lost: Option<usize>,
        guess: Option<usize>,
    ) -> (Option<usize>, usize) {
        let taking: Vec<usize> = (1..=suspects).map(|n| 2 * n).collect();
        let mut search = Going::from(1, 1, 0).ends(3 * suspects, &taking);
        let guesses: Vec<(usize, u16)> = guess.iter().map(|event| (*event, 1)).collect();
        search.guess_from(&guesses);
        let mut questions = 0;
        while search.is_open() {
            let asked = search.question().events;
            search.learn(!lost.is_some_and(|lost| lost <= asked));
            questions += 1;
        }
        (search.stretch().lost, questions)
    }

    #[test]
    fn what_was_lost_is_found_by_few_questions() {
        for suspects in [0, 1, 2, 3, 7, 64, 1000] {
            let (found, questions) = search(suspects, None, None);
            assert_eq!(found, None);
            assert!(questions <= 1);
            for lost in (1..=suspects).map(|n| 2 * n) {
                let (found, questions) = search(suspects, Some(lost), None);
                assert_eq!(found, Some(lost));
                assert!(questions <= 11);
                let (found, questions) = search(suspects, Some(lost), Some(lost));
                assert_eq!(found, Some(lost));
                assert!(questions <= 2);
            }
        }
    }

    #[test]
    fn a_wrong_guess_changes_nothing_but_the_number_of_questions() {
        for suspects in 1..=20 {
            for guess in (1..=suspects).map(|n| 2 * n) {
                assert_eq!(search(suspects, None, Some(guess)).0, None);
                for lost in (1..=suspects).map(|n| 2 * n) {
                    assert_eq!(search(suspects, Some(lost), Some(guess)).0, Some(lost));
                }
            }
        }
    }
}
