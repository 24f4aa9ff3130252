//! What an event changed: two images compared, record by record.

use std::collections::{BTreeMap, BTreeSet};

use reference::phone::{Certificate, Executable, Phone};

use super::names;

/// How a record that is there now stands to the image before.
#[derive(Clone, Copy, Debug, PartialEq, Eq)]
pub enum Tag {
    New,
    Changed,
}

impl Tag {
    pub fn word(self) -> &'static str {
        match self {
            Tag::New => "new",
            Tag::Changed => "changed",
        }
    }
}

/// All that differs between two images.
#[derive(Clone, Debug, Default)]
pub struct Changes {
    pub clock: bool,
    pub card: bool,
    /// The card that went and the one that came.
    pub cards_moved: BTreeSet<u16>,
    pub mode: bool,
    pub certificates: BTreeMap<u16, Tag>,
    pub applications: BTreeMap<u16, Tag>,
    /// Application and action of each permission that was given or withdrawn.
    pub permissions: BTreeSet<(u16, u16)>,
    /// The same in words, one sentence for each.
    pub lines: Vec<String>,
}

impl Changes {
    pub fn between(before: &Phone, after: &Phone) -> Changes {
        let mut changes = Changes::default();
        changes.compare_header(before, after);
        changes.compare_certificates(before, after);
        changes.compare_applications(before, after);
        changes
    }

    fn compare_header(&mut self, before: &Phone, after: &Phone) {
        self.clock = before.clock != after.clock;
        self.card = before.card_present != after.card_present;
        self.mode = before.mode != after.mode;
        if self.clock {
            self.tell("the clock", before.clock, after.clock);
        }
        if self.card {
            let moved = [before.card_present, after.card_present];
            self.cards_moved
                .extend(moved.iter().filter(|number| **number != 0));
            let (old, new) = (names::card_present(before), names::card_present(after));
            self.tell("the card", old, new);
        }
        if self.mode {
            let (old, new) = (names::mode(before.mode), names::mode(after.mode));
            self.tell("the standing message", old, new);
        }
    }

    fn tell(&mut self, what: &str, old: impl ToString, new: impl ToString) {
        let (old, new) = (old.to_string(), new.to_string());
        self.lines.push(format!("{what}: from {old} to {new}"));
    }

    fn compare_certificates(&mut self, before: &Phone, after: &Phone) {
        for old in before.occupied_certificates() {
            if after.certificate(old.id).is_none() {
                self.lines.push(format!("certificate {} is gone", old.id));
            }
        }
        for new in after.occupied_certificates() {
            match before.certificate(new.id) {
                None => {
                    self.certificates.insert(new.id, Tag::New);
                    self.lines.push(format!("certificate {} is new", new.id));
                }
                Some(old) if old != new => {
                    self.certificates.insert(new.id, Tag::Changed);
                    self.tell_certificate(old, new);
                }
                Some(_) => {}
            }
        }
    }

    fn tell_certificate(&mut self, old: &Certificate, new: &Certificate) {
        let name = format!("certificate {}", new.id);
        if old.mark != new.mark {
            self.tell(&name, names::mark(old), names::mark(new));
        }
        if old.enabled != new.enabled {
            self.tell(&name, names::enabled(old), names::enabled(new));
        }
        let numbers = [
            ("key", old.key, new.key),
            ("verifying key", old.verifying_key, new.verifying_key),
            ("owner", old.owner, new.owner),
            ("last second", old.expiry, new.expiry),
        ];
        for (field, old, new) in numbers {
            if old != new {
                self.tell(&format!("{name}, its {field}"), old, new);
            }
        }
    }

    fn compare_applications(&mut self, before: &Phone, after: &Phone) {
        for old in before.occupied_executables() {
            if after.executable(old.id).is_none() {
                self.lines.push(format!("application {} is gone", old.id));
            }
        }
        for new in after.occupied_executables() {
            match before.executable(new.id) {
                None => {
                    self.applications.insert(new.id, Tag::New);
                    self.lines.push(format!("application {} is new", new.id));
                }
                Some(old) if old != new => {
                    self.applications.insert(new.id, Tag::Changed);
                    self.tell_application(old, new);
                }
                Some(_) => {}
            }
        }
    }

    fn tell_application(&mut self, old: &Executable, new: &Executable) {
        let name = format!("application {}", new.id);
        if old.domain != new.domain {
            self.tell(&name, names::domain(old.domain), names::domain(new.domain));
        }
        for action in 0..32 {
            let (had, has) = (old.has_permission(action), new.has_permission(action));
            if had != has {
                let word = if has { "given" } else { "withdrawn" };
                self.permissions.insert((new.id, action));
                self.lines.push(format!(
                    "{name}: the permission for action {action} is {word}"
                ));
            }
        }
    }
}
