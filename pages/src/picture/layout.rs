//! Where everything stands in the picture.

use std::collections::BTreeMap;

use reference::phone::{Certificate, Executable};

use super::measure::{width, wrap};
use super::record::{Record, BOX};
use super::structure::{Cell, Sources, Structure};
use super::Scene;
use crate::page::changes::Tag;

/// Between two columns of certificates.
const GUTTER: i32 = 26;
/// Before the applications, where most lines turn.
const LAST_GUTTER: i32 = 38;
/// Between two rows: a tag and a line have room there.
const ROW_GAP: i32 = 19;
/// Between the edge of the picture and the first box.
const MARGIN: i32 = 14;
/// Between the outline of a place and what is in it.
const PAD: i32 = 8;
/// Over what stands in a place: its first line of words, and each other.
const LABEL: i32 = 30;
pub const LABEL_STEP: i32 = 16;
pub const LABEL_SIZE: f32 = 12.0;
/// Between the phone and a card that is not in it.
const APART: i32 = 16;
/// Up to so many applications each has a box of its own.
const FEW_APPLICATIONS: usize = 8;

/// What is the same in all pictures of a lesson.
pub struct Plan {
    structure: Structure,
    /// The tallest box that a row ever has.
    heights: BTreeMap<(u16, usize), i32>,
}

impl Plan {
    pub fn of<'s, 'a: 's>(scenes: impl Iterator<Item = &'s Scene<'a>> + Clone) -> Plan {
        let structure = Structure::of(scenes.clone());
        let mut heights: BTreeMap<(u16, usize), i32> = BTreeMap::new();
        for scene in scenes {
            for certificate in scene.phone.occupied_certificates() {
                let cell = structure.cell(certificate);
                let height = heights.entry((cell.place, cell.row)).or_default();
                *height = certificate_record(scene, certificate).height().max(*height);
            }
        }
        Plan { structure, heights }
    }

    /// Whether there are so many certificates that only chains have lines.
    pub fn is_crowded(&self) -> bool {
        self.structure.is_crowded
    }
}

fn certificate_record(scene: &Scene, certificate: &Certificate) -> Record {
    let tag = scene.changes.certificates.get(&certificate.id).copied();
    Record::of_certificate(certificate, scene.phone, scene.said, scene.said_before, tag)
}

/// A box with its upper left corner.
pub struct Placed {
    pub x: i32,
    pub y: i32,
    pub record: Record,
}

impl Placed {
    fn bottom(&self) -> i32 {
        self.y + self.record.height()
    }
}

/// The outline of a card.
pub struct Outline {
    pub y: i32,
    pub height: i32,
    pub label: Vec<String>,
    pub is_present: bool,
    pub is_changed: bool,
}

/// The applications of one box.
pub struct Bundle<'a> {
    pub alike: Vec<&'a Executable>,
    pub placed: Placed,
}

pub struct Layout<'a> {
    /// The certificates of this phone in order of id, and beside each where it stands.
    pub certificates: Vec<Certificate>,
    pub boxes: Vec<Placed>,
    pub cells: Vec<Cell>,
    pub is_crowded: bool,
    pub bundles: Vec<Bundle<'a>>,
    pub columns: usize,
    pub phone_height: i32,
    pub cards: Vec<Outline>,
    pub width: i32,
    pub height: i32,
    rows: Rows,
}

impl<'a> Layout<'a> {
    pub fn of(scene: &Scene<'a>, plan: &Plan) -> Layout<'a> {
        let mut layout = Layout::unplaced(scene, plan);
        let top = LABEL + 8;
        let mut y = layout.rows.put(0, top);
        if let Some(card) = scene.phone.present_card() {
            y += if y > top { ROW_GAP } else { 0 };
            layout.put_card(scene, card.number, &mut y);
        }
        layout.settle();
        layout.bundles = put_applications(scene, &layout, top, y);
        let last_box = layout.bundles.iter().map(|bundle| bundle.placed.bottom());
        y = y.max(last_box.max().unwrap_or(0)) + PAD + 4;
        layout.phone_height = y;

        let absent = |number: u16| number != scene.phone.card_present;
        for card in scene.phone.cards.iter().filter(|card| absent(card.number)) {
            y += APART;
            layout.put_card(scene, card.number, &mut y);
        }
        layout.settle();
        layout.height = y;
        layout
    }

    fn unplaced(scene: &Scene, plan: &Plan) -> Layout<'a> {
        let mut certificates: Vec<Certificate> =
            scene.phone.occupied_certificates().copied().collect();
        certificates.sort_by_key(|certificate| certificate.id);
        let cells: Vec<Cell> = certificates
            .iter()
            .map(|c| plan.structure.cell(c))
            .collect();
        let boxes = certificates
            .iter()
            .zip(&cells)
            .map(|(certificate, cell)| Placed {
                x: column_x(cell.column),
                y: 0,
                record: certificate_record(scene, certificate),
            });
        let boxes = boxes.collect();
        let has_applications = scene.phone.occupied_executables().next().is_some();
        let columns = plan.structure.columns;
        Layout {
            boxes,
            is_crowded: plan.is_crowded(),
            rows: Rows::of(&cells, plan),
            certificates,
            cells,
            bundles: Vec::new(),
            columns,
            phone_height: 0,
            cards: Vec::new(),
            width: match has_applications {
                true => applications_x(columns) + BOX + MARGIN,
                false => cards_x() + cards_width(columns) + PAD,
            },
            height: 0,
        }
    }

    /// Puts a card with its label and its rows.
    fn put_card(&mut self, scene: &Scene, number: u16, y: &mut i32) {
        let top = *y;
        let is_present = scene.phone.card_present == number;
        let is_empty = !self.cells.iter().any(|cell| cell.place == number);
        let operator = scene.phone.card(number).map_or(0, |card| card.operator);
        let state = if is_present { "in" } else { "absent" };
        let mut label = format!("card {number} of operator {operator}, {state}");
        if is_empty {
            label.push_str(", empty");
        }
        let room = cards_width(self.columns) - 2 * PAD - 12;
        let label = wrap(&label, LABEL_SIZE * 1.08, room);
        let rows_top = top + LABEL + LABEL_STEP * (label.len() as i32 - 1);
        *y = self.rows.put(number, rows_top) + if is_empty { 0 } else { PAD };
        self.cards.push(Outline {
            y: top,
            height: *y - top,
            label,
            is_present,
            is_changed: scene.changes.cards_moved.contains(&number),
        });
    }

    /// Gives every box the height of its row, as far as the rows have been put.
    fn settle(&mut self) {
        for (placed, cell) in self.boxes.iter_mut().zip(&self.cells) {
            placed.y = self.rows.top(*cell);
        }
    }

    pub fn index_of(&self, id: u16) -> Option<usize> {
        let by_id = |certificate: &Certificate| certificate.id;
        self.certificates.binary_search_by_key(&id, by_id).ok()
    }

    /// Whether no box stands in a row between two columns.
    pub fn is_free(&self, from: Cell, to_column: usize) -> bool {
        let stands_between = |cell: &Cell| {
            let is_beside = cell.place == from.place && cell.row == from.row;
            is_beside && cell.column > from.column && cell.column < to_column
        };
        !self.cells.iter().any(stands_between)
    }

    /// The height under a row at which a line passes by its boxes.
    pub fn under_row(&self, cell: Cell) -> i32 {
        self.rows.bottom(cell) + 6
    }

    /// Where the gutter before a column begins.
    pub fn gutter_before(&self, column: usize) -> i32 {
        column_x(column) - GUTTER
    }

    pub fn applications_x(&self) -> i32 {
        applications_x(self.columns)
    }

    pub fn cards_x(&self) -> i32 {
        cards_x()
    }

    pub fn cards_width(&self) -> i32 {
        cards_width(self.columns)
    }
}

fn column_x(column: usize) -> i32 {
    MARGIN + column as i32 * (BOX + GUTTER)
}

fn applications_x(columns: usize) -> i32 {
    column_x(columns) - GUTTER + LAST_GUTTER
}

fn cards_x() -> i32 {
    MARGIN - PAD
}

fn cards_width(columns: usize) -> i32 {
    column_x(columns) - GUTTER - MARGIN + 2 * PAD
}

/// The tops of rows, given out place by place. A row in which nothing stands takes no room.
struct Rows {
    heights: BTreeMap<(u16, usize), i32>,
    tops: BTreeMap<(u16, usize), i32>,
}

impl Rows {
    fn of(cells: &[Cell], plan: &Plan) -> Rows {
        let names = cells.iter().map(|cell| (cell.place, cell.row));
        let height = |name| plan.heights.get(&name).copied().unwrap_or(0);
        Rows {
            heights: names.map(|name| (name, height(name))).collect(),
            tops: BTreeMap::new(),
        }
    }

    fn top(&self, cell: Cell) -> i32 {
        let top = self.tops.get(&(cell.place, cell.row));
        top.copied().unwrap_or(0)
    }

    fn bottom(&self, cell: Cell) -> i32 {
        let height = self.heights.get(&(cell.place, cell.row));
        self.top(cell) + height.copied().unwrap_or(0)
    }

    /// Puts the rows of a place under each other; gives where they end.
    fn put(&mut self, place: u16, from: i32) -> i32 {
        let mut y = from;
        for (name, height) in self.heights.range((place, 0)..=(place, usize::MAX)) {
            y += if y > from { ROW_GAP } else { 0 };
            self.tops.insert(*name, y);
            y += height;
        }
        y
    }
}

/// A box of applications before it has a place, and the height at which it would like to stand.
struct Wanted<'a> {
    alike: Vec<&'a Executable>,
    record: Record,
    at: Option<i32>,
}

fn put_applications<'a>(
    scene: &Scene<'a>,
    layout: &Layout,
    top: i32,
    bottom: i32,
) -> Vec<Bundle<'a>> {
    let sources = Sources::of(scene, &layout.certificates, layout.is_crowded);
    let wish = |application: &Executable| {
        let heights: Vec<i32> = sources
            .of_application(application)
            .into_iter()
            .map(|at| match scene.phone.is_present(layout.cells[at].place) {
                true => layout.boxes[at].y,
                false => bottom,
            })
            .collect();
        let count = heights.len() as i32;
        (count > 0).then(|| heights.iter().sum::<i32>() / count)
    };
    let mut wanted: Vec<Wanted> = bundled(scene)
        .into_iter()
        .map(|alike| Wanted {
            record: application_record(scene, &alike),
            at: wish(alike[0]),
            alike,
        })
        .collect();
    // One without a line stands last.
    wanted.sort_by_key(|wanted| wanted.at.unwrap_or(i32::MAX));
    let tops = stacked(&wanted, top, bottom);
    let (in_column, end) = fold(&wanted, &tops, bottom);
    let mut folded = Folded::under(end);
    let mut bundles = Vec::new();
    for (nth, Wanted { alike, record, .. }) in wanted.into_iter().enumerate() {
        let (x, y) = match nth < in_column {
            true => (layout.applications_x(), tops[nth]),
            false => folded.next(layout.columns, record.height()),
        };
        let placed = Placed { x, y, record };
        bundles.push(Bundle { alike, placed });
    }
    bundles
}

/// Tops under each other, each as near as can be to where it would like to stand.
fn stacked(wanted: &[Wanted], top: i32, bottom: i32) -> Vec<i32> {
    let heights = wanted.iter().map(|w| w.record.height() + ROW_GAP);
    let heights: Vec<i32> = heights.collect();
    let mut next = top;
    let mut tops: Vec<i32> = Vec::new();
    for (height, wanted) in heights.iter().zip(wanted) {
        let y = wanted.at.unwrap_or(next).max(next);
        tops.push(y);
        next = y + height;
    }
    // What was pushed beyond the end goes up again, as far as there is room.
    let mut end = bottom + ROW_GAP;
    for (y, height) in tops.iter_mut().zip(&heights).rev() {
        *y = (*y).min(end - height);
        end = *y;
    }
    let mut next = top;
    for (y, height) in tops.iter_mut().zip(&heights) {
        *y = (*y).max(next);
        next = *y + height;
    }
    tops
}

/// How many boxes stay in the column, and where the last thing above the others ends.
fn fold(wanted: &[Wanted], tops: &[i32], bottom: i32) -> (usize, i32) {
    let lined = wanted.iter().filter(|wanted| wanted.at.is_some()).count();
    let end_of = |nth: usize| tops[nth] + wanted[nth].record.height();
    // Up to a small height the phone grows with them.
    let fits = |nth: &usize| end_of(*nth) <= bottom.max(300);
    let in_column = lined + (lined..wanted.len()).take_while(fits).count();
    let end = (0..in_column).map(end_of).max().unwrap_or(0);
    (in_column, end.max(bottom))
}

/// Rows of boxes over the whole width.
struct Folded {
    y: i32,
    column: usize,
    tallest: i32,
}

impl Folded {
    fn under(y: i32) -> Folded {
        Folded {
            y: y + ROW_GAP,
            column: 0,
            tallest: 0,
        }
    }

    fn next(&mut self, columns: usize, height: i32) -> (i32, i32) {
        if self.column > columns {
            self.y += self.tallest + ROW_GAP;
            self.column = 0;
            self.tallest = 0;
        }
        let x = match self.column == columns {
            true => applications_x(columns),
            false => column_x(self.column),
        };
        self.column += 1;
        self.tallest = self.tallest.max(height);
        (x, self.y)
    }
}

fn application_record(scene: &Scene, alike: &[&Executable]) -> Record {
    let story = scene.said.stories.get(&alike[0].id);
    let tag = scene.tag_of(alike[0]);
    Record::of_applications(alike, &story.cloned().unwrap_or_default(), tag)
}

/// The applications, by their boxes: many that are alike share one.
fn bundled<'a>(scene: &Scene<'a>) -> Vec<Vec<&'a Executable>> {
    let mut all: Vec<&Executable> = scene.phone.occupied_executables().collect();
    all.sort_by_key(|application| application.id);
    if all.len() <= FEW_APPLICATIONS {
        return all.into_iter().map(|one| vec![one]).collect();
    }
    let mut bundles: BTreeMap<_, Vec<&Executable>> = BTreeMap::new();
    for application in all {
        let tag = scene.tag_of(application).map(Tag::word);
        let alike = (application.signing_key, application.domain, tag);
        bundles.entry(alike).or_default().push(application);
    }
    bundles.into_values().collect()
}

/// How wide a small tag is.
pub fn tag_width(word: &str) -> i32 {
    width(word, 10.5) + 12
}
