//! The lines of the picture: who verifies whom as `why` told it, and faintly which records name a key.

use std::collections::BTreeMap;

use reference::phone::{Executable, UNTRUSTED};

use super::layout::{Layout, Placed};
use super::record::{ATTACH, BOX};
use super::structure::Sources;
use super::Scene;

/// What a line says; where two stand at one place, the later of these is drawn.
#[derive(Clone, Copy, Debug, PartialEq, Eq, PartialOrd, Ord)]
pub enum Stroke {
    /// A record names the key of another.
    Names,
    /// A certificate with the key does not serve.
    Broken,
    /// A chain of an application that waits to be verified.
    Waiting(u8),
    /// A link of a chain.
    Chain(u8),
}

#[derive(Clone, Copy, Debug, PartialEq, Eq, PartialOrd, Ord)]
enum End {
    Certificate(usize),
    Bundle(usize),
}

/// A line as it is drawn.
pub struct Line {
    pub stroke: Stroke,
    pub path: String,
    /// Where it begins and where it ends.
    pub from: (i32, i32),
    pub to: (i32, i32),
}

/// Every line, the faint ones first.
pub fn lines(scene: &Scene, layout: &Layout) -> Vec<Line> {
    let ends = strokes(scene, layout);
    let mut into: BTreeMap<End, Vec<usize>> = BTreeMap::new();
    for (from, to) in ends.keys() {
        into.entry(*to).or_default().push(*from);
    }
    let mut lines: Vec<Line> = ends
        .iter()
        .map(|((from, to), stroke)| {
            let entry = entry_height(layout, &into[to], *from, *to);
            line(layout, *from, *to, entry, *stroke)
        })
        .collect();
    lines.sort_by_key(|line| line.stroke);
    lines
}

type Strokes = BTreeMap<(usize, End), Stroke>;

fn strokes(scene: &Scene, layout: &Layout) -> Strokes {
    let mut strokes = Strokes::new();
    let mut add = |from: usize, to: End, stroke: Stroke| {
        let known = strokes.entry((from, to)).or_insert(stroke);
        *known = stroke.max(*known);
    };
    let sources = Sources::of(scene, &layout.certificates, layout.is_crowded);
    for (at, certificate) in layout.certificates.iter().enumerate() {
        for signer in sources.of_certificate(certificate) {
            add(signer, End::Certificate(at), Stroke::Names);
        }
    }
    for (nth, bundle) in layout.bundles.iter().enumerate() {
        for application in &bundle.alike {
            for at in sources.of_application(application) {
                add(at, End::Bundle(nth), Stroke::Names);
            }
            tell(scene, layout, application, End::Bundle(nth), &mut add);
        }
    }
    strokes
}

/// The strokes that `why` tells of one application.
fn tell(
    scene: &Scene,
    layout: &Layout,
    application: &Executable,
    to: End,
    add: &mut impl FnMut(usize, End, Stroke),
) {
    let Some(story) = scene.said.stories.get(&application.id) else {
        return;
    };
    let index = |id: &u16| layout.index_of(*id);
    if !layout.is_crowded {
        for at in story.broken.iter().filter_map(index) {
            add(at, to, Stroke::Broken);
        }
    }
    let chain: Vec<usize> = story.chain.iter().filter_map(index).collect();
    let domain = |at: usize| layout.certificates[at].domain;
    for pair in chain.windows(2) {
        let stroke = Stroke::Chain(domain(pair[1]));
        add(pair[0], End::Certificate(pair[1]), stroke);
    }
    if let Some(signer) = chain.last() {
        let stroke = match application.domain {
            UNTRUSTED => Stroke::Waiting(domain(*signer)),
            _ => Stroke::Chain(domain(*signer)),
        };
        add(*signer, to, stroke);
    }
}

fn placed<'a>(layout: &'a Layout, end: End) -> &'a Placed {
    match end {
        End::Certificate(at) => &layout.boxes[at],
        End::Bundle(nth) => &layout.bundles[nth].placed,
    }
}

/// Lines that come to one box come under each other, in the order in which they start.
fn entry_height(layout: &Layout, sources: &[usize], from: usize, to: End) -> i32 {
    let target = placed(layout, to);
    let mut order: Vec<(i32, usize)> = sources
        .iter()
        .map(|at| (layout.boxes[*at].y, *at))
        .collect();
    order.sort_unstable();
    let nth = order.iter().position(|(_, at)| *at == from).unwrap_or(0) as i32;
    let straight = order.iter().position(|(y, _)| *y == target.y).unwrap_or(0) as i32;
    let room = target.record.height() - 2 * ATTACH;
    let step = match order.len() as i32 - 1 {
        0 => 0,
        gaps => (room / gaps).clamp(3, 12),
    };
    // The one that comes straight stays straight; the first of all where none does.
    let height = ATTACH + (nth - straight) * step;
    target.y + height.clamp(6, target.record.height() - 6)
}

fn line(layout: &Layout, from: usize, to: End, entry: i32, stroke: Stroke) -> Line {
    let source = &layout.boxes[from];
    let target = placed(layout, to);
    let cell = layout.cells[from];
    let (to_column, gutter) = match to {
        End::Certificate(at) => {
            let column = layout.cells[at].column;
            (column, layout.gutter_before(column))
        }
        End::Bundle(_) => (layout.columns, layout.gutter_before(layout.columns)),
    };
    let start = (source.x + BOX, source.y + ATTACH);
    let end = (target.x, entry);
    let path = if to_column <= cell.column {
        around(source, end)
    } else if layout.is_free(cell, to_column) {
        format!(
            "M{} {}H{}{}",
            start.0,
            start.1,
            gutter,
            turn(gutter, start.1, end)
        )
    } else {
        let under = layout.under_row(cell);
        let first = start.0 + (end.0 - gutter).min(24);
        format!(
            "M{} {}{}H{}{}",
            start.0,
            start.1,
            turn(start.0, start.1, (first, under)),
            gutter,
            turn(gutter, under, end)
        )
    };
    Line {
        stroke,
        path,
        from: start,
        to: end,
    }
}

/// From a height at the begin of a gutter to a point at its end.
fn turn(x: i32, y: i32, to: (i32, i32)) -> String {
    if y == to.1 {
        return format!("H{}", to.0);
    }
    let middle = (x + to.0) / 2;
    format!("C{middle} {y} {middle} {} {} {}", to.1, to.0, to.1)
}

/// Records that name each other's keys stand in one column: the line goes round by the left.
fn around(source: &Placed, to: (i32, i32)) -> String {
    let (x, y) = (source.x, source.y + ATTACH);
    let left = x.min(to.0) - 18;
    format!("M{x} {y}C{left} {y} {left} {} {} {}", to.1, to.0, to.1)
}
