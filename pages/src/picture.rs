//! A picture of the phone at one moment, in SVG.
//!
//! It shows and decides nothing: records, domains and marks are read off the image, and so are the
//! faults of a certificate; chains and reasons are the lines of `why`.

mod layout;
mod lines;
mod measure;
mod record;
mod said;
mod structure;

use std::fmt::Write;

use reference::phone::{Executable, Phone, MANUFACTURER, OPERATOR, THIRD_PARTY};

use crate::page::changes::{Changes, Tag};
use crate::page::html::escape;
use crate::page::names;
pub use layout::Plan;
use layout::{tag_width, Layout, Outline, Placed, LABEL_STEP};
use lines::{lines, Line, Stroke};
use record::{Look, Record, ATTACH, BODY_STEP, BOX, FOOT_STEP, INSET, SIGN, TITLE_STEP};
pub use said::Said;

/// What one picture shows.
pub struct Scene<'a> {
    pub phone: &'a Phone,
    pub said: &'a Said,
    pub said_before: Option<&'a Said>,
    pub changes: &'a Changes,
}

impl<'a> Scene<'a> {
    fn tag_of(&self, application: &Executable) -> Option<Tag> {
        self.changes.applications.get(&application.id).copied()
    }
}

/// The picture; `name` is what it is called and makes its ids, `title` and `words` are read out in its place.
pub fn picture(scene: &Scene, plan: &Plan, name: &str, title: &str, words: &str) -> String {
    let layout = Layout::of(scene, plan);
    let mut out = String::new();
    let (width, height) = (layout.width, layout.height);
    let scale = scale_for(height);
    // Writing to a string does not fail, here and below.
    let _ = write!(
        out,
        "<svg class=\"phone\" role=\"img\" aria-labelledby=\"{name}-title {name}-words\" viewBox=\"-1 -1 {} {}\" style=\"--w:{width};--s:{scale}\">\n<title id=\"{name}-title\">{}</title>\n<desc id=\"{name}-words\">{}</desc>\n",
        width + 2,
        height + 2,
        escape(title),
        escape(words)
    );
    outlines(&mut out, &layout);
    let lines = lines(scene, &layout);
    for line in &lines {
        draw_line(&mut out, line);
    }
    labels(&mut out, scene, &layout);
    for placed in &layout.boxes {
        draw_record(&mut out, placed, "certificate");
    }
    for bundle in &layout.bundles {
        draw_record(&mut out, &bundle.placed, "application");
    }
    for line in &lines {
        draw_ends(&mut out, line);
    }
    out.push_str("</svg>\n");
    out
}

/// A small phone is drawn larger, so that it can be read on a wall.
fn scale_for(height: i32) -> f32 {
    let scale = 560.0 / height as f32;
    (scale.clamp(1.0, 1.5) * 100.0).round() / 100.0
}

fn outlines(out: &mut String, layout: &Layout) {
    let _ = writeln!(
        out,
        "<rect class=\"body\" width=\"{}\" height=\"{}\" rx=\"16\"/>",
        layout.width, layout.phone_height
    );
    for card in &layout.cards {
        draw_card(out, card, layout.cards_x(), layout.cards_width());
    }
}

/// A card has the cut corner that it has in the hand.
fn draw_card(out: &mut String, card: &Outline, x: i32, wide: i32) {
    let class = match card.is_present {
        true => "card",
        false => "card absent",
    };
    let _ = writeln!(
        out,
        "<path class=\"{class}\" d=\"M{} {}h{}l{CUT} {CUT}v{}q0 6 -6 6h{}q-6 0 -6 -6v{}q0 -6 6 -6z\"/>",
        x + 6,
        card.y,
        wide - 6 - CUT,
        card.height - CUT - 6,
        12 - wide,
        12 - card.height,
    );
}

/// How far the corner of a card is cut.
const CUT: i32 = 14;

/// The words of the places; they stand over the lines.
fn labels(out: &mut String, scene: &Scene, layout: &Layout) {
    let phone = match scene.phone.card_present {
        0 => "phone, no card in".to_string(),
        number => format!("phone, card {number} in"),
    };
    let x = layout.cards_x() + 9;
    text(out, "place", x, 24, &phone);
    if !layout.bundles.is_empty() {
        text(out, "place", layout.applications_x(), 24, "applications");
    }
    for card in &layout.cards {
        let class = match card.is_present {
            true => "place in",
            false => "place",
        };
        for (nth, line) in card.label.iter().enumerate() {
            let y = card.y + 20 + LABEL_STEP * nth as i32;
            text(out, class, x, y, line);
        }
        if card.is_changed {
            let word = if card.is_present { "now in" } else { "now out" };
            let end = layout.cards_x() + layout.cards_width() - CUT - 4;
            pill(out, word, end, card.y - 9);
        }
    }
}

fn text(out: &mut String, class: &str, x: i32, y: i32, words: &str) {
    let _ = writeln!(
        out,
        "<text class=\"{class}\" x=\"{x}\" y=\"{y}\">{}</text>",
        escape(words)
    );
}

/// A small tag that ends at the right at `end`.
fn pill(out: &mut String, word: &str, end: i32, y: i32) {
    let wide = tag_width(word);
    let _ = writeln!(
        out,
        "<rect class=\"tag\" x=\"{}\" y=\"{y}\" width=\"{wide}\" height=\"15\" rx=\"7.5\"/><text class=\"tag\" x=\"{}\" y=\"{}\">{word}</text>",
        end - wide,
        end - wide / 2,
        y + 11
    );
}

fn draw_line(out: &mut String, line: &Line) {
    let class = match line.stroke {
        Stroke::Names => "names".to_string(),
        Stroke::Broken => "cut".to_string(),
        Stroke::Waiting(domain) => format!("link wait {}", names::domain_class(domain)),
        Stroke::Chain(domain) => format!("link {}", names::domain_class(domain)),
    };
    let _ = writeln!(out, "<path class=\"{class}\" d=\"{}\"/>", line.path);
}

/// What stands over the boxes: the tip of a chain, the cross of a broken one, the ring of one that waits.
fn draw_ends(out: &mut String, line: &Line) {
    let ((from_x, from_y), (x, y)) = (line.from, line.to);
    let _ = match line.stroke {
        Stroke::Names => Ok(()),
        Stroke::Chain(domain) => writeln!(
            out,
            "<path class=\"tip {}\" d=\"M{x} {y}l-8 -5v10z\"/>",
            names::domain_class(domain)
        ),
        Stroke::Waiting(domain) => writeln!(
            out,
            "<circle class=\"ring {}\" cx=\"{x}\" cy=\"{y}\" r=\"5\"/>",
            names::domain_class(domain)
        ),
        Stroke::Broken => writeln!(
            out,
            "<circle class=\"no\" cx=\"{from_x}\" cy=\"{from_y}\" r=\"8\"/><path class=\"no\" d=\"M{} {}l7 7m0 -7l-7 7\"/>",
            from_x as f32 - 3.5,
            from_y as f32 - 3.5
        ),
    };
}

fn draw_record(out: &mut String, placed: &Placed, what: &str) {
    let record = &placed.record;
    let (height, domain) = (record.height(), names::domain_class(record.domain));
    let changed = if record.tag.is_some() { " changed" } else { "" };
    let _ = write!(
        out,
        "<g class=\"{what} {} {domain}{changed}\" transform=\"translate({} {})\">\n<rect class=\"box\" width=\"{BOX}\" height=\"{height}\" rx=\"8\"/>",
        record.look.class(),
        placed.x,
        placed.y
    );
    draw_texts(out, record, height);
    if let Some(tag) = record.tag {
        pill(out, tag.word(), BOX - 8, -10);
    }
    out.push_str("</g>\n");
}

fn draw_texts(out: &mut String, record: &Record, height: i32) {
    for (nth, line) in record.title.iter().enumerate() {
        let y = ATTACH + 1 + TITLE_STEP * nth as i32;
        text(out, "title", INSET, y, line);
    }
    let mut y = record.body_top() + BODY_STEP - 3;
    out.push_str(&sign(record.domain, INSET + 4, y - 4));
    let _ = write!(
        out,
        "<text class=\"field\" x=\"{}\" y=\"{y}\"><tspan class=\"domain\">{}</tspan> {}</text>",
        INSET + SIGN,
        names::domain(record.domain),
        record.kind
    );
    for line in &record.body {
        y += BODY_STEP;
        let class = match record.faults.contains(&line.as_str()) {
            true => "fault",
            false => "field",
        };
        text(out, class, INSET, y, line);
    }
    if !record.foot.is_empty() {
        draw_foot(out, record, height);
    }
}

fn draw_foot(out: &mut String, record: &Record, height: i32) {
    let top = record.foot_top();
    let _ = write!(
        out,
        "<path class=\"foot\" d=\"M0 {top}h{BOX}v{}q0 8 -8 8h{}q-8 0 -8 -8z\"/>",
        height - top - 8,
        16 - BOX
    );
    for (nth, line) in record.foot.iter().enumerate() {
        let y = top + 1 + FOOT_STEP * (nth as i32 + 1);
        text(out, "said", INSET, y, line);
    }
    if record.is_news && record.look == Look::Broken {
        pill(out, "now", BOX - 8, top - 12);
    }
}

/// The sign of a domain: its shape says what its colour says.
pub fn sign(domain: u8, x: i32, y: i32) -> String {
    let class = names::domain_class(domain);
    match domain {
        OPERATOR => format!("<circle class=\"sign {class}\" cx=\"{x}\" cy=\"{y}\" r=\"4.5\"/>"),
        MANUFACTURER => format!(
            "<rect class=\"sign {class}\" x=\"{}\" y=\"{}\" width=\"8\" height=\"8\"/>",
            x - 4,
            y - 4
        ),
        THIRD_PARTY => format!(
            "<path class=\"sign {class}\" d=\"M{x} {}l5 9h-10z\"/>",
            y - 5
        ),
        _ => format!("<circle class=\"sign {class}\" cx=\"{x}\" cy=\"{y}\" r=\"4\"/>"),
    }
}
