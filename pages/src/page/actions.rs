//! The table of actions: each application stands under its domain, with the table byte and its permission bit.

use std::collections::BTreeMap;
use std::fmt::Write;

use reference::phone::{Executable, Phone};

use super::changes::Changes;
use super::html::escape;
use super::names::{self, DOMAINS};

/// From so many on, the heading alone names all applications of a domain.
const MANY_APPLICATIONS: usize = 8;

pub fn table(phone: &Phone, changes: &Changes) -> String {
    let mut out = String::from(
        "<div class=\"scroll\"><table class=\"actions\">\n<caption>What the table of actions grants</caption>\n<thead><tr><th scope=\"col\">action</th>",
    );
    for domain in DOMAINS {
        out.push_str(&heading(phone, domain));
    }
    out.push_str("</tr></thead>\n<tbody>\n");
    for (action, row) in phone.table.iter().enumerate() {
        let _ = write!(out, "<tr><th scope=\"row\">{action}</th>");
        for (domain, byte) in DOMAINS.into_iter().zip(row) {
            let inside = applications_in(phone, domain);
            out.push_str(&cell(&inside, action as u16, *byte, changes));
        }
        out.push_str("</tr>\n");
    }
    out.push_str("</tbody></table></div>\n");
    out
}

fn applications_in(phone: &Phone, domain: u8) -> Vec<&Executable> {
    let mut inside: Vec<&Executable> = phone
        .occupied_executables()
        .filter(|application| application.domain == domain)
        .collect();
    inside.sort_by_key(|application| application.id);
    inside
}

fn heading(phone: &Phone, domain: u8) -> String {
    let inside = applications_in(phone, domain);
    let ids = names::list(inside.iter().map(|application| application.id));
    let who = match inside.len() {
        0 => "no application".to_string(),
        1 => format!("application {ids}"),
        _ => format!("applications {ids}"),
    };
    format!(
        "<th scope=\"col\" class=\"{}{}\">{} <small>{}</small></th>",
        names::domain_class(domain),
        if inside.is_empty() { " empty" } else { "" },
        names::domain(domain),
        escape(&who)
    )
}

fn cell(inside: &[&Executable], action: u16, byte: u8, changes: &Changes) -> String {
    let class = match byte {
        0 => "never",
        1 => "ask",
        _ => "free",
    };
    let mut out = format!(
        "<td class=\"{class}{}\"><span class=\"byte\">{}</span>",
        if inside.is_empty() { " empty" } else { "" },
        names::grant(byte)
    );
    for group in groups(inside, action, byte, changes) {
        out.push_str(&group.markup(byte, inside.len()));
    }
    out.push_str("</td>");
    out
}

/// Applications of one cell that get the same.
struct Group {
    ids: Vec<u16>,
    is_granted: bool,
    is_changed: bool,
}

fn groups(inside: &[&Executable], action: u16, byte: u8, changes: &Changes) -> Vec<Group> {
    let mut groups: BTreeMap<(bool, bool), Vec<u16>> = BTreeMap::new();
    for application in inside {
        let is_granted = match byte {
            1 => application.has_permission(action),
            byte => byte == 2,
        };
        let is_changed = changes.permissions.contains(&(application.id, action));
        let alike = groups.entry((!is_granted, !is_changed)).or_default();
        alike.push(application.id);
    }
    let group = |((is_refused, is_old), ids): ((bool, bool), Vec<u16>)| Group {
        ids,
        is_granted: !is_refused,
        is_changed: !is_old,
    };
    groups.into_iter().map(group).collect()
}

impl Group {
    /// The ids, and where the table asks for a permission whether it is given.
    fn markup(&self, byte: u8, inside: usize) -> String {
        let class = if self.is_granted { "yes" } else { "no" };
        let permission = match (byte, self.is_granted) {
            (1, true) => " given",
            (1, false) => " not given",
            _ => "",
        };
        let tag = match self.is_changed {
            true => " <span class=\"tag\">changed</span>",
            false => "",
        };
        let ids = match self.ids.len() == inside && inside > MANY_APPLICATIONS {
            true => "all".to_string(),
            false => names::list(&self.ids),
        };
        format!(
            " <span class=\"chip {class}\"><span class=\"unseen\">application </span><b>{ids}</b>{permission}{tag}</span>"
        )
    }
}
