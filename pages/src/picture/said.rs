//! The lines of `why`, taken apart: which certificate or application each is about.

use std::collections::BTreeMap;

use crate::told::Asked;

/// What is told of a certificate.
#[derive(Clone, Debug, PartialEq, Eq)]
pub struct OfCertificate {
    /// Whether it is a link of a chain; otherwise the words are a reason why it is none.
    pub serves: bool,
    /// The line behind `certificate N`, word for word.
    pub words: String,
}

/// What is told of one application.
#[derive(Clone, Debug, Default, PartialEq, Eq)]
pub struct Story {
    /// The ids of the chain, root first; empty where there is none.
    pub chain: Vec<u16>,
    /// The certificates that have the key and do not serve.
    pub broken: Vec<u16>,
    /// What is told of the application itself, such as that it is unsigned.
    pub own: Vec<String>,
}

/// All that is told at a moment.
#[derive(Clone, Debug, Default, PartialEq, Eq)]
pub struct Said {
    pub stories: BTreeMap<u16, Story>,
    pub certificates: BTreeMap<u16, OfCertificate>,
}

impl Said {
    pub fn of(asked: &[Asked]) -> Said {
        let mut said = Said::default();
        for of_one in asked {
            let mut story = Story::default();
            for line in &of_one.lines {
                said.take(line, of_one.id, &mut story);
            }
            said.stories.insert(of_one.id, story);
        }
        said
    }

    fn take(&mut self, line: &str, application: u16, story: &mut Story) {
        let Some((id, words)) = about_certificate(line) else {
            let name = format!("application {application} ");
            let own = line.strip_prefix(&name).unwrap_or(line);
            story.own.push(own.to_string());
            return;
        };
        let serves = is_link(words);
        match serves {
            true => story.chain.push(id),
            false => story.broken.push(id),
        }
        let words = words.to_string();
        self.certificates
            .entry(id)
            .or_insert(OfCertificate { serves, words });
    }

    pub fn words_of(&self, certificate: u16) -> Option<&str> {
        self.certificates
            .get(&certificate)
            .map(|of| of.words.as_str())
    }
}

/// The id and what stands behind it, of a line about a certificate.
fn about_certificate(line: &str) -> Option<(u16, &str)> {
    let (id, words) = line.strip_prefix("certificate ")?.split_once(' ')?;
    Some((id.parse().ok()?, words))
}

fn is_link(words: &str) -> bool {
    words == "is a trusted root" || words.starts_with("is verified by certificate ")
}
