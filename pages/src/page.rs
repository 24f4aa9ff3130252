//! One page of a lesson, in HTML: a section for each event, with the phone as it stands after it.
//!
//! The page is one file and is complete without its script. What was told stands on it word for
//! word; only the images are read, to show their records.

mod actions;
pub mod changes;
pub mod faults;
pub mod html;
pub mod names;

use std::fmt::Write;

use reference::phone::Phone;

use crate::picture::{picture, sign, Plan, Said, Scene};
use crate::told::{Asked, Moment, Told};
use changes::Changes;
use faults::faults;
use html::escape;

/// From so many on, what `why` says stands in columns.
const MANY_APPLICATIONS: usize = 8;

const STYLE: &str = include_str!("page.css");
const SCRIPT: &str = include_str!("page.js");

/// The page of a lesson.
pub fn page(told: &Told) -> String {
    let mut out = String::new();
    head(&mut out, told);
    out.push_str("<body>\n<a class=\"skip\" href=\"#all\">To the events</a>\n");
    header(&mut out, told);
    out.push_str("<div class=\"sheet\">\n");
    side(&mut out, told);
    out.push_str("<main id=\"all\" tabindex=\"-1\">\n");
    write_sections(&mut out, told);
    out.push_str("</main>\n</div>\n");
    out.push_str(FOOTER);
    let _ = write!(out, "<script>\n{SCRIPT}</script>\n</body>\n</html>\n");
    out
}

const FOOTER: &str = "<footer>
<h2>What stands behind this page</h2>
<p>The answers and the reasons were given by the proved programs. The images were held to the proved library, byte for byte. What turned text into bytes, and numbers into words and pictures, is not proved. Nor is what this page reads off a certificate by itself, in slanted letters in its box. The comments are the author's.</p>
</footer>
";

fn head(out: &mut String, told: &Told) {
    let _ = write!(
        out,
        "<!doctype html>\n<html lang=\"en\">\n<head>\n<meta charset=\"utf-8\">\n<meta name=\"viewport\" content=\"width=device-width, initial-scale=1\">\n<meta name=\"color-scheme\" content=\"light dark\">\n<title>{}</title>\n<style>\n{STYLE}{}</style>\n</head>\n",
        escape(&told.title),
        chosen_style(told)
    );
}

/// Marks the chosen event in the list, without a script.
fn chosen_style(told: &Told) -> String {
    let rules: Vec<String> = names_of(told)
        .map(|name| format!(":root:has(#{name}:target) nav [href=\"#{name}\"]"))
        .collect();
    format!(
        "@media screen {{\n{} {{ {CHOSEN} }}\n}}\n",
        rules.join(",\n")
    )
}

const CHOSEN: &str = "background: var(--chosen); box-shadow: inset 3px 0 var(--ink);";

fn names_of(told: &Told) -> impl Iterator<Item = String> + '_ {
    let events = told.moments.iter().map(|moment| name_of(moment.number));
    std::iter::once(name_of(0)).chain(events)
}

/// The id of a section; the one before any event has number 0.
fn name_of(number: usize) -> String {
    format!("event-{number}")
}

fn header(out: &mut String, told: &Told) {
    let events = match told.moments.len() {
        1 => "1 event".to_string(),
        count => format!("{count} events"),
    };
    let timed = if told.timed { ", timed" } else { "" };
    let _ = write!(
        out,
        "<header>\n<p class=\"kicker\">A lesson on a simulated phone</p>\n<h1>{}</h1>\n<p class=\"file\">{}: {events}{timed}. <span class=\"keys\" hidden>The arrow keys left and right go from event to event.</span></p>\n",
        escape(&told.title),
        escape(&told.file)
    );
    out.push_str(&legend());
    out.push_str("</header>\n");
}

fn legend() -> String {
    let mut out = String::from(
        "<details class=\"legend\">\n<summary>How to read the picture</summary>\n<ul>\n",
    );
    for domain in [1, 2, 3, 0] {
        let _ = writeln!(
            out,
            "<li><svg class=\"key\" viewBox=\"0 0 34 14\" aria-hidden=\"true\">{}{}</svg> {}</li>",
            match domain {
                0 => String::new(),
                _ => format!(
                    "<path class=\"link {0}\" d=\"M12 7H26\"/><path class=\"tip {0}\" d=\"M34 7l-8 -5v10z\"/>",
                    names::domain_class(domain)
                ),
            },
            sign(domain, 6, 7),
            match domain {
                0 => "untrusted: no domain".to_string(),
                _ => format!("{}: a chain from its root to an application", names::domain(domain)),
            }
        );
    }
    out.push_str(LEGEND_REST);
    out
}

const LEGEND_REST: &str = "<li><svg class=\"key\" viewBox=\"0 0 34 14\" aria-hidden=\"true\"><path class=\"cut\" d=\"M9 7H34\"/><circle class=\"no\" cx=\"8\" cy=\"7\" r=\"7\"/><path class=\"no\" d=\"M5 4l6 6m0 -6l-6 6\"/></svg> the certificate has the key and does not serve; under it stands why</li>
<li><svg class=\"key\" viewBox=\"0 0 34 14\" aria-hidden=\"true\"><path class=\"link wait op\" d=\"M0 7H28\"/><circle class=\"ring op\" cx=\"28\" cy=\"7\" r=\"5\"/></svg> a chain, but the application is not verified since</li>
<li><svg class=\"key\" viewBox=\"0 0 34 14\" aria-hidden=\"true\"><path class=\"names\" d=\"M0 7H34\"/></svg> the key of one verifies the other; by itself that is no trust</li>
<li><svg class=\"key\" viewBox=\"0 0 34 14\" aria-hidden=\"true\"><rect class=\"card absent\" x=\"1\" y=\"1\" width=\"32\" height=\"12\"/></svg> a card that is not in the phone</li>
<li><span class=\"tag\">changed</span> by this event; <span class=\"tag\">now</span> something else was told before</li>
<li><b class=\"fault\">past its date</b>, or other slanted words in a box: this page reads them off the certificate, of which <i>why</i> says nothing</li>
</ul>
<dl>
<div><dt>key 1001 by 1000</dt> <dd>the key of an issued certificate, and the key that verifies it</dd></div>
<div><dt>links</dt> <dd>the certificates of a chain, with the root and the one that has the application's key: four at most</dd></div>
<div><dt>domain</dt> <dd>whose root the chain begins with: the operator's, the manufacturer's or a third party's. The table of actions has a column for each, and one for applications without a domain</dd></div>
<div><dt>standing message</dt> <dd>the administrator's last message about third party roots. One that is installed later is enabled only where this is to enable all</dd></div>
</dl>
</details>
";

fn side(out: &mut String, told: &Told) {
    out.push_str("<nav aria-label=\"Events\">\n<ol>\n<li><a href=\"#all\"><span class=\"n\">all</span> <span class=\"w\">all events, one under the other</span></a></li>\n");
    let _ = writeln!(
        out,
        "<li><a href=\"#{}\"><span class=\"n\">0</span> <span class=\"w\">the phone before any event</span></a></li>",
        name_of(0)
    );
    for moment in &told.moments {
        let _ = writeln!(
            out,
            "<li><a class=\"{}\" href=\"#{}\"><span class=\"n\">{}</span> <span class=\"w\">{}</span> <span class=\"a\">{}</span></a></li>",
            answer_class(moment),
            name_of(moment.number),
            moment.number,
            escape(&moment.words),
            escape(&moment.answer)
        );
    }
    out.push_str("</ol>\n</nav>\n");
}

fn answer_class(moment: &Moment) -> &'static str {
    match moment.code {
        0 => "yes",
        _ => "no",
    }
}

/// A moment with its image read.
struct Stage<'a> {
    moment: Option<&'a Moment>,
    phone: Option<Phone>,
    why: &'a [Asked],
    said: Said,
    changes: Changes,
}

impl<'a> Stage<'a> {
    /// The phone before any event, and then after each.
    fn all(told: &'a Told) -> Vec<Stage<'a>> {
        let before = &told.before;
        let mut stages = vec![Stage::of(None, &before.image, &before.why, None)];
        for moment in &told.moments {
            let phone_before = stages.last().and_then(|stage| stage.phone.as_ref());
            let stage = Stage::of(Some(moment), &moment.image, &moment.why, phone_before);
            stages.push(stage);
        }
        stages
    }

    fn of(
        moment: Option<&'a Moment>,
        image: &[u8],
        why: &'a [Asked],
        phone_before: Option<&Phone>,
    ) -> Stage<'a> {
        let phone = Phone::decode(image);
        let changes = match (phone_before, &phone) {
            (Some(before), Some(after)) => Changes::between(before, after),
            _ => Changes::default(),
        };
        Stage {
            moment,
            phone,
            why,
            said: Said::of(why),
            changes,
        }
    }

    /// What its picture shows, if it has one.
    fn scene<'s>(&'s self, before: Option<&'s Stage>) -> Option<Scene<'s>> {
        Some(Scene {
            phone: self.phone.as_ref()?,
            said: &self.said,
            said_before: before.map(|stage| &stage.said),
            changes: &self.changes,
        })
    }
}

fn write_sections(out: &mut String, told: &Told) {
    let stages = Stage::all(told);
    let scenes: Vec<Option<Scene>> = (0..stages.len())
        .map(|nth| stages[nth].scene(nth.checked_sub(1).map(|before| &stages[before])))
        .collect();
    let plan = Plan::of(scenes.iter().flatten());
    for (number, (stage, scene)) in stages.iter().zip(&scenes).enumerate() {
        let section = Section {
            number,
            last: stages.len() - 1,
            stage,
        };
        section.write(out, scene.as_ref(), &plan);
    }
}

/// One section: the phone before any event, or an event and the phone after it.
struct Section<'a> {
    number: usize,
    last: usize,
    stage: &'a Stage<'a>,
}

impl Section<'_> {
    fn write(&self, out: &mut String, scene: Option<&Scene>, plan: &Plan) {
        let name = name_of(self.number);
        let _ = writeln!(
            out,
            "<section id=\"{name}\" aria-labelledby=\"{name}-heading\" tabindex=\"-1\">"
        );
        self.write_heading(out, &name);
        match scene {
            Some(scene) => self.write_phone(out, &name, scene, plan),
            None => out.push_str("<p>This image has no picture.</p>\n"),
        }
        out.push_str("</section>\n");
    }

    fn write_heading(&self, out: &mut String, name: &str) {
        let (kicker, words) = match self.stage.moment {
            None => (
                "Before any event".to_string(),
                "The phone as the lesson starts",
            ),
            Some(moment) => (kicker(moment, self.last), moment.words.as_str()),
        };
        let _ = writeln!(
            out,
            "<div class=\"top\">\n<h2 id=\"{name}-heading\"><span class=\"kicker\">{kicker}</span> {}</h2>",
            escape(words)
        );
        self.write_steps(out);
        out.push_str("</div>\n");
        if let Some(moment) = self.stage.moment {
            write_comment(out, moment);
            write_answer(out, moment);
        }
    }

    /// The ways to the event before and to the next.
    fn write_steps(&self, out: &mut String) {
        out.push_str("<p class=\"steps\">");
        if self.number > 0 {
            let name = name_of(self.number - 1);
            let _ = write!(out, "<a rel=\"prev\" href=\"#{name}\">previous</a> ");
        }
        if self.number < self.last {
            let name = name_of(self.number + 1);
            let _ = write!(out, "<a rel=\"next\" href=\"#{name}\">next</a>");
        }
        out.push_str("</p>\n");
    }

    fn write_phone(&self, out: &mut String, name: &str, scene: &Scene, plan: &Plan) {
        if self.stage.moment.is_some() {
            write_changes(out, scene.changes);
        }
        write_facts(out, scene.phone, scene.changes);
        let title = match self.number {
            0 => "The phone before any event".to_string(),
            number => format!("The phone after event {number}"),
        };
        let words = in_words(scene.phone, self.stage.why, scene.said);
        let _ = write!(
            out,
            "<div class=\"moment\">\n{SIDEWAYS}<figure class=\"scroll\" tabindex=\"0\" aria-label=\"{title}\">\n{}{}</figure>\n",
            picture(scene, plan, name, &title, &words),
            match plan.is_crowded() {
                true => CROWDED,
                false => "",
            }
        );
        let many = if self.stage.why.len() > MANY_APPLICATIONS {
            " many"
        } else {
            ""
        };
        let _ = writeln!(out, "<div class=\"under{many}\">");
        write_why(out, scene.phone, self.stage.why);
        out.push_str(&actions::table(scene.phone, scene.changes));
        out.push_str("</div>\n</div>\n");
    }
}

/// Shown by the script where the picture does not fit.
const SIDEWAYS: &str =
    "<p class=\"sideways\" hidden>The picture goes on to the right: move it sideways.</p>\n";

const CROWDED: &str = "<figcaption>This phone has many certificates: only chains have lines, and a certificate that does not serve says why without one.</figcaption>\n";

/// Which event it is, and where it comes from.
fn kicker(moment: &Moment, last: usize) -> String {
    let source = match moment.line {
        Some(line) => format!("line {line}"),
        None => "put in by the timeline".to_string(),
    };
    format!(
        "Event {} of {last}, {source}, at second {}",
        moment.number, moment.second
    )
}

/// What the author says above the event in the text.
fn write_comment(out: &mut String, moment: &Moment) {
    if moment.comment.is_empty() {
        return;
    }
    let words = moment.comment.join(" ");
    let _ = writeln!(
        out,
        "<p class=\"comment\"><span class=\"unseen\">Comment: </span>{}</p>",
        escape(&words)
    );
}

fn write_answer(out: &mut String, moment: &Moment) {
    let _ = writeln!(
        out,
        "<p class=\"answer {}\">{}</p>",
        answer_class(moment),
        escape(&moment.answer)
    );
    if moment.reasons.is_empty() {
        return;
    }
    out.push_str("<ul class=\"reasons\">\n");
    for reason in &moment.reasons {
        let _ = writeln!(out, "<li>{}</li>", escape(reason));
    }
    out.push_str("</ul>\n");
}

fn write_changes(out: &mut String, changes: &Changes) {
    if changes.lines.is_empty() {
        out.push_str("<p class=\"changes\">Nothing on the phone changed.</p>\n");
        return;
    }
    out.push_str("<ul class=\"changes\" aria-label=\"What changed\">\n");
    for line in &changes.lines {
        let _ = writeln!(out, "<li>{}</li>", escape(line));
    }
    out.push_str("</ul>\n");
}

fn write_facts(out: &mut String, phone: &Phone, changes: &Changes) {
    let facts = [
        ("clock", format!("second {}", phone.clock), changes.clock),
        (
            "card in the phone",
            names::card_present(phone),
            changes.card,
        ),
        (
            "standing message",
            names::mode(phone.mode).to_string(),
            changes.mode,
        ),
    ];
    out.push_str("<dl class=\"facts\">\n");
    for (name, value, is_changed) in facts {
        let tag = match is_changed {
            true => " <span class=\"tag\">changed</span>",
            false => "",
        };
        let _ = writeln!(
            out,
            "<div><dt>{name}</dt><dd>{}{tag}</dd></div>",
            escape(&value)
        );
    }
    out.push_str("</dl>\n");
}

fn domain_of(phone: &Phone, id: u16) -> u8 {
    phone
        .executable(id)
        .map_or(0, |application| application.domain)
}

/// The picture for those who do not see it.
fn in_words(phone: &Phone, why: &[Asked], said: &Said) -> String {
    let of_one = |asked: &Asked| {
        format!(
            "Application {}, {}: {}.",
            asked.id,
            names::domain(domain_of(phone, asked.id)),
            asked.lines.join("; ")
        )
    };
    let mut all: Vec<String> = why.iter().map(of_one).collect();
    all.extend(faults_in_words(phone, said));
    all.join(" ")
}

/// What the picture shows of certificates beside the words of `why`.
fn faults_in_words(phone: &Phone, said: &Said) -> Option<String> {
    let untold = phone
        .occupied_certificates()
        .filter(|certificate| said.words_of(certificate.id).is_none());
    let words: Vec<String> = untold
        .map(|certificate| (certificate.id, faults(phone, certificate)))
        .filter(|(_, faults)| !faults.is_empty())
        .map(|(id, faults)| format!("certificate {id}, {}", faults.join(", ")))
        .collect();
    match words.is_empty() {
        true => None,
        false => Some(format!("Read off by this page: {}.", words.join("; "))),
    }
}

fn write_why(out: &mut String, phone: &Phone, why: &[Asked]) {
    if why.is_empty() {
        return;
    }
    out.push_str("<div class=\"why\">\n<h3>Why</h3>\n<dl>\n");
    for asked in why {
        let domain = domain_of(phone, asked.id);
        let _ = write!(
            out,
            "<div><dt>application {} <span class=\"in {}\">{}</span></dt>",
            asked.id,
            names::domain_class(domain),
            names::domain(domain)
        );
        for line in &asked.lines {
            let _ = write!(out, "<dd>{}</dd>", escape(line));
        }
        out.push_str("</div>\n");
    }
    out.push_str("</dl>\n</div>\n");
}
