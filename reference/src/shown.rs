//! What answers show, counted: each form of a line, and what a misreading of 02 would get wrong.
//!
//! Follows 02, "Tell the trainee why", "Recovery keys" and "Roots have a date as well". A count that
//! is high says that the cases would not let the misreading pass.

use std::collections::BTreeSet;
use std::fmt::Write;

use crate::asked::{serving, true_reasons, Phones, Scene};
use crate::phone::{Certificate, Phone, ISSUED, RECOVERY, ROOT};
use crate::why::{chains, explain, Answer, Reason};

/// Every form of a line, its numbers left out.
pub const FORMS: [&str; 13] = [
    "certificate N is a trusted root",
    "certificate N is verified by certificate N",
    "application N is untrusted until it is verified",
    "application N is unsigned",
    "no certificate has the key of application N",
    "certificate N is a recovery key",
    "certificate N is on an absent card",
    "certificate N is marked invalid",
    "certificate N is disabled",
    "certificate N is past its date",
    "certificate N has no good signer within three links",
    "image N N N",
    "executable N",
];

/// A question with its answer.
struct Seen<'a> {
    scene: &'a Scene,
    id: u16,
    answer: &'a Answer,
}

type Test = fn(&Seen) -> bool;

/// What is worth a count beside the lines.
const POINTS: [(&str, Test); 55] = [
    ("chain of 1 link", |seen| seen.links().len() == 1),
    ("chain of 2 links", |seen| seen.links().len() == 2),
    ("chain of 3 links", |seen| seen.links().len() == 3),
    ("chain of 4 links", |seen| seen.links().len() == 4),
    ("operator chain", |seen| seen.has_chain_in(1)),
    ("manufacturer chain", |seen| seen.has_chain_in(2)),
    ("third party chain", |seen| seen.has_chain_in(3)),
    ("several serve, the lowest id in the lowest slot", |seen| {
        seen.some_choice(|link, serving| serving[0] == *link)
    }),
    ("several serve, the lowest id in a higher slot", |seen| {
        seen.some_choice(|link, serving| serving[0] != *link)
    }),
    ("a lower id with the key of a link is not good", |seen| {
        seen.some_lower_twin(|phone, twin| !is_good(phone, twin))
    }),
    (
        "a lower id with the key of a link is good by a longer way",
        |seen| seen.some_lower_twin(is_good),
    ),
    (
        "a lower id with the key of a link is a recovery key",
        |seen| seen.some_lower_twin(|_, twin| twin.kind == RECOVERY),
    ),
    (
        "a lower id with the key of a link is a root past its date alone",
        |seen| seen.some_lower_twin(is_root_past_its_date_alone),
    ),
    ("another chain from the root down", |seen| {
        seen.has_other_chain_down()
    }),
    ("a link in its last second", |seen| {
        let clock = seen.phone().map(|phone| phone.clock);
        let mut issued = seen.links().iter().filter(|link| link.kind == ISSUED);
        issued.any(|link| Some(link.expiry) == clock)
    }),
    ("a trusted root in its last second", |seen| {
        let clock = seen.phone().map(|phone| phone.clock);
        let mut root = seen.links().iter().take(1);
        root.any(|root| Some(root.expiry) == clock)
    }),
    ("a link on the present card", |seen| {
        seen.links().iter().any(|link| link.place != 0)
    }),
    ("one record with the key", |seen| seen.reasons().len() == 1),
    ("several records with the key, one reason", |seen| {
        seen.reasons().len() > 1 && !seen.has_different_reasons()
    }),
    ("several records with the key, different reasons", |seen| {
        seen.has_different_reasons()
    }),
    (
        "several records with the key, ids rise with slots",
        |seen| seen.reasons().len() > 1 && seen.ids_rise_with_slots(),
    ),
    (
        "several records with the key, ids do not rise with slots",
        |seen| !seen.ids_rise_with_slots(),
    ),
    ("a recovery key beside records that are none", |seen| {
        let is_recovery = |(_, reason): &(_, Reason)| *reason == Reason::RecoveryKey;
        let count = seen.reasons().iter().filter(|r| is_recovery(r)).count();
        count > 0 && count < seen.reasons().len()
    }),
    ("a recovery key that is past its date", |seen| {
        let clock = seen.phone().map_or(0, |phone| phone.clock);
        seen.some_reason(|record, reason| reason == Reason::RecoveryKey && record.expiry < clock)
    }),
    ("absent, and marked invalid too", |seen| {
        seen.has_both(Reason::AbsentCard, Reason::MarkedInvalid)
    }),
    ("absent, and disabled too", |seen| {
        seen.has_both(Reason::AbsentCard, Reason::Disabled)
    }),
    ("absent, and past its date too", |seen| {
        seen.has_both(Reason::AbsentCard, Reason::PastItsDate)
    }),
    ("absent, and without a good signer too", |seen| {
        seen.has_both(Reason::AbsentCard, Reason::NoGoodSigner)
    }),
    ("marked invalid, and disabled too", |seen| {
        seen.has_both(Reason::MarkedInvalid, Reason::Disabled)
    }),
    ("past its date, and without a good signer too", |seen| {
        seen.has_both(Reason::PastItsDate, Reason::NoGoodSigner)
    }),
    ("a root that is past its date", |seen| {
        seen.has_old_root(Reason::PastItsDate)
    }),
    ("a root past its date by one second", |seen| {
        let clock = seen.phone().map_or(0, |phone| phone.clock);
        seen.some_reason(|record, reason| {
            let is_old_root = reason == Reason::PastItsDate && record.kind == ROOT;
            is_old_root && clock - record.expiry == 1
        })
    }),
    ("a root on an absent card that is past its date", |seen| {
        seen.has_old_root(Reason::AbsentCard)
    }),
    ("a root marked invalid that is past its date", |seen| {
        seen.has_old_root(Reason::MarkedInvalid)
    }),
    ("a disabled root that is past its date", |seen| {
        seen.has_old_root(Reason::Disabled)
    }),
    ("past its date by one second", |seen| {
        let clock = seen.phone().map_or(0, |phone| phone.clock);
        seen.some_reason(|record, reason| {
            reason == Reason::PastItsDate && clock - record.expiry == 1
        })
    }),
    ("no good signer, though in its last second", |seen| {
        let clock = seen.phone().map_or(0, |phone| phone.clock);
        seen.some_reason(|record, reason| reason == Reason::NoGoodSigner && clock == record.expiry)
    }),
    ("a signer that is good within four links", |seen| {
        seen.some_without_signer(|phone, record| {
            !serving(phone, record.domain, record.verifying_key, 4).is_empty()
        })
    }),
    ("a signer that is good in another domain", |seen| {
        seen.some_without_signer(|phone, record| {
            (1..=3).any(|domain| !serving(phone, domain, record.verifying_key, 3).is_empty())
        })
    }),
    ("a signer that is a recovery key", |seen| {
        seen.some_without_signer(|phone, record| {
            phone.occupied_certificates().any(|signer| {
                signer.kind == RECOVERY
                    && signer.domain == record.domain
                    && signer.key == record.verifying_key
            })
        })
    }),
    ("a signer that is a root past its date alone", |seen| {
        seen.some_without_signer(|phone, record| {
            phone.occupied_certificates().any(|signer| {
                is_root_past_its_date_alone(phone, signer)
                    && signer.domain == record.domain
                    && signer.key == record.verifying_key
            })
        })
    }),
    ("no chain, since the root's date passed", |seen| {
        seen.links().is_empty()
            && seen.has_lost_root(|phone, now, _| is_root_past_its_date_alone(phone, now))
    }),
    ("a chain from a root that was replaced", |seen| {
        let root = seen.links().first();
        root.is_some_and(|root| seen.key_before(root).is_some_and(|key| key != root.key))
    }),
    ("no chain, since the root was replaced", |seen| {
        seen.links().is_empty() && seen.has_lost_root(|_, now, old| now.key != old.key)
    }),
    ("a certificate's id above 255", |seen| {
        let links = seen.links().iter();
        let records = seen.reasons().iter().map(|(record, _)| record);
        links.chain(records).any(|record| record.id > 255)
    }),
    ("an executable's id above 255", |seen| {
        seen.id > 255 && *seen.answer != Answer::UnknownExecutable
    }),
    ("asked for id 0", |seen| seen.id == 0),
    ("asked for a certificate's id", |seen| {
        let is_certificate = |phone: &Phone| phone.certificate(seen.id).is_some();
        *seen.answer == Answer::UnknownExecutable && seen.phone().is_some_and(is_certificate)
    }),
    ("gone with the events", |seen| {
        seen.was_there() == Some(true) && *seen.answer == Answer::UnknownExecutable
    }),
    ("come with the events", |seen| {
        seen.was_there() == Some(false) && *seen.answer != Answer::UnknownExecutable
    }),
    ("no number of events", |seen| seen.scene.events.is_none()),
    ("0 events", |seen| seen.scene.events == Some(0)),
    ("more events than there are", |seen| {
        let given = seen.scene.events.map_or(0, |events| events as usize);
        seen.phones()
            .is_some_and(|phones| given > phones.events_there)
    }),
    ("another answer before the events", |seen| {
        let before = seen.phones().map(|phones| &phones.before);
        before.is_some_and(|phone| explain(phone, seen.id) != *seen.answer)
    }),
    ("another answer if refused events did not count", |seen| {
        let other = seen.phones().map(|phones| &phones.if_refused_did_not_count);
        other.is_some_and(|phone| explain(phone, seen.id) != *seen.answer)
    }),
];

fn is_good(phone: &Phone, record: &Certificate) -> bool {
    serving(phone, record.domain, record.key, 4).contains(record)
}

/// A root that a date alone keeps from being trusted.
fn is_root_past_its_date_alone(phone: &Phone, record: &Certificate) -> bool {
    record.kind == ROOT && true_reasons(phone, record) == [Reason::PastItsDate]
}

impl Seen<'_> {
    fn phones(&self) -> Option<&Phones> {
        self.scene.phones.as_ref().ok()
    }

    fn phone(&self) -> Option<&Phone> {
        self.phones().map(|phones| &phones.asked)
    }

    /// The links that are told, root first.
    fn links(&self) -> &[Certificate] {
        match self.answer {
            Answer::Chain { links, .. } => links,
            _ => &[],
        }
    }

    /// The records that are told with their reasons.
    fn reasons(&self) -> &[(Certificate, Reason)] {
        match self.answer {
            Answer::NoChain(records) => records,
            _ => &[],
        }
    }

    fn has_chain_in(&self, domain: u8) -> bool {
        self.links().iter().any(|link| link.domain == domain)
    }

    /// Whether at some link several serve and the test holds; those are given in slot order.
    fn some_choice(&self, test: impl Fn(&Certificate, &[Certificate]) -> bool) -> bool {
        self.phone().is_some_and(|phone| {
            (1..).zip(self.links()).any(|(left, link)| {
                let serving = serving(phone, link.domain, link.key, left);
                serving.len() > 1 && test(link, &serving)
            })
        })
    }

    /// Whether the test holds for a record with the key and a lower id than some link.
    fn some_lower_twin(&self, test: impl Fn(&Phone, &Certificate) -> bool) -> bool {
        self.phone().is_some_and(|phone| {
            self.links().iter().any(|link| {
                phone
                    .occupied_certificates()
                    .filter(|twin| twin.key == link.key && twin.id < link.id)
                    .any(|twin| test(phone, twin))
            })
        })
    }

    /// Whether another chain has the lowest ids if the root is chosen first.
    fn has_other_chain_down(&self) -> bool {
        let (Some(phone), Some(signer)) = (self.phone(), self.links().last()) else {
            return false;
        };
        let links = self.links().len() as u8;
        let ids_down = |chain: &Vec<Certificate>| -> Vec<u16> {
            chain.iter().rev().map(|record| record.id).collect()
        };
        let all = chains(phone, signer.domain, signer.key, links);
        let told: Vec<u16> = self.links().iter().map(|link| link.id).collect();
        all.iter().map(ids_down).min() != Some(told)
    }

    fn has_different_reasons(&self) -> bool {
        self.reasons().windows(2).any(|pair| pair[0].1 != pair[1].1)
    }

    fn ids_rise_with_slots(&self) -> bool {
        let Some(phone) = self.phone() else {
            return true;
        };
        let slot_of = |(record, _): &(Certificate, Reason)| {
            let slots = &phone.certificates;
            slots.iter().position(|slot| slot.as_ref() == Some(record))
        };
        let slots: Vec<_> = self.reasons().iter().map(slot_of).collect();
        slots.windows(2).all(|pair| pair[0] < pair[1])
    }

    fn some_reason(&self, test: impl Fn(&Certificate, Reason) -> bool) -> bool {
        let mut reasons = self.reasons().iter();
        reasons.any(|(record, reason)| test(record, *reason))
    }

    /// Whether some record is told with the first reason, and the second is true of it as well.
    fn has_both(&self, first: Reason, also: Reason) -> bool {
        self.phone().is_some_and(|phone| {
            self.some_reason(|record, reason| {
                reason == first && true_reasons(phone, record).contains(&also)
            })
        })
    }

    fn has_old_root(&self, told: Reason) -> bool {
        let clock = self.phone().map_or(0, |phone| phone.clock);
        self.some_reason(|record, reason| {
            reason == told && record.kind == ROOT && record.expiry < clock
        })
    }

    /// Whether the test holds for a record that has no good signer.
    fn some_without_signer(&self, test: impl Fn(&Phone, &Certificate) -> bool) -> bool {
        self.phone().is_some_and(|phone| {
            self.some_reason(|record, reason| reason == Reason::NoGoodSigner && test(phone, record))
        })
    }

    /// The key that a root had before the events.
    fn key_before(&self, root: &Certificate) -> Option<u32> {
        let before = &self.phones()?.before;
        let record = before.certificate(root.id)?;
        (record.kind == ROOT).then_some(record.key)
    }

    /// Whether the executable had a chain from a root of which the test holds, by what it is now
    /// and what it was then.
    fn has_lost_root(&self, test: impl Fn(&Phone, &Certificate, &Certificate) -> bool) -> bool {
        let Some(phones) = self.phones() else {
            return false;
        };
        let Answer::Chain { links, .. } = explain(&phones.before, self.id) else {
            return false;
        };
        let is_lost = |old: &Certificate| {
            let now = phones.asked.certificate(old.id);
            now.is_some_and(|now| now.kind == ROOT && test(&phones.asked, now, old))
        };
        phones.asked.executable(self.id).is_some() && links.first().is_some_and(is_lost)
    }

    /// Whether the executable was there before the events.
    fn was_there(&self) -> Option<bool> {
        let before = self.phones().map(|phones| &phones.before);
        before.map(|phone| phone.executable(self.id).is_some())
    }
}

/// The form of a line: each number is an N.
fn form_of(line: &str) -> String {
    let form = |word: &str| match word.parse::<u64>() {
        Ok(_) => "N".to_string(),
        Err(_) => word.to_string(),
    };
    line.split(' ').map(form).collect::<Vec<_>>().join(" ")
}

/// What one question shows: forms of lines, and points.
pub fn shown_by(scene: &Scene, id: u16, answer: &Answer) -> BTreeSet<&'static str> {
    let seen = Seen { scene, id, answer };
    let forms: BTreeSet<String> = answer.text(id).lines().map(form_of).collect();
    let forms = FORMS.into_iter().filter(|form| forms.contains(*form));
    let points = POINTS.iter().filter(|(_, test)| test(&seen));
    forms.chain(points.map(|(name, _)| *name)).collect()
}

/// How often each thing was shown.
#[derive(Clone, Default, PartialEq, Eq, Debug)]
pub struct Shown {
    pub streams: u64,
    pub questions: u64,
    lines: [u64; FORMS.len()],
    points: Points,
}

/// A list of this length has no default of its own.
#[derive(Clone, PartialEq, Eq, Debug)]
struct Points([u64; POINTS.len()]);

impl Default for Points {
    fn default() -> Points {
        Points([0; POINTS.len()])
    }
}

impl Shown {
    pub fn add(&mut self, scene: &Scene, id: u16, answer: &Answer) {
        let seen = Seen { scene, id, answer };
        self.questions += 1;
        for line in answer.text(id).lines() {
            let form = form_of(line);
            if let Some(at) = FORMS.iter().position(|known| *known == form) {
                self.lines[at] += 1;
            }
        }
        for (count, (_, test)) in self.points.0.iter_mut().zip(POINTS) {
            *count += u64::from(test(&seen));
        }
    }

    /// Adds what another worker counted.
    pub fn merge(&mut self, other: &Shown) {
        self.streams += other.streams;
        self.questions += other.questions;
        let lines = self.lines.iter_mut().zip(other.lines);
        let points = self.points.0.iter_mut().zip(other.points.0);
        for (count, more) in lines.chain(points) {
            *count += more;
        }
    }

    /// Each form of a line and how many there were, then each point and how many questions showed it.
    pub fn counts(&self) -> impl Iterator<Item = (&'static str, u64)> + '_ {
        let lines = FORMS.into_iter().zip(self.lines);
        let points = POINTS.into_iter().map(|(name, _)| name);
        lines.chain(points.zip(self.points.0))
    }

    /// The counts as text.
    pub fn report(&self) -> String {
        let (streams, questions) = (self.streams, self.questions);
        let lists = self.lists();
        format!("streams {streams}\nquestions {questions}\n{lists}")
    }

    /// The counts of lines and points alone.
    pub fn lists(&self) -> String {
        let mut out = String::new();
        for (at, (name, count)) in self.counts().enumerate() {
            match at {
                0 => out.push_str("\n   lines\n"),
                at if at == FORMS.len() => out.push_str("\nquestions\n"),
                _ => {}
            }
            // Writing to a string does not fail.
            let _ = writeln!(out, "{count:>8}  {name}");
        }
        out
    }
}
