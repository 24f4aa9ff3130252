//! Where each certificate stands among the others: its column by the keys that it names, its row by its place.
//!
//! It is made once for a whole lesson, so that no record moves from one event to the next. Only keys
//! are compared here; which records serve is told by `why`. On a phone with very many certificates
//! the chains that `why` tells have lines, and all else stands in a grid.

use std::collections::{BTreeMap, BTreeSet};

use reference::phone::{Certificate, Executable, ISSUED};

use super::Scene;

/// The columns before the applications; a longer row of keys is folded into the last one.
const MOST_COLUMNS: usize = 5;
/// From so many records without a line on, all columns are used.
const MANY_LOOSE: usize = 8;
/// Up to so many certificates each key that is named has a line.
const FEW_CERTIFICATES: usize = 24;

/// A cell of the grid: the rows are counted in each place for itself.
#[derive(Clone, Copy, Debug, PartialEq, Eq, PartialOrd, Ord)]
pub struct Cell {
    pub place: u16,
    pub row: usize,
    pub column: usize,
}

/// A certificate through all events: its id and its place.
type Name = (u16, u16);

pub fn name_of(certificate: &Certificate) -> Name {
    (certificate.id, certificate.place)
}

/// The cells of all certificates of a lesson.
pub struct Structure {
    cells: BTreeMap<Name, Cell>,
    pub columns: usize,
    /// Whether there are too many certificates to draw a line for each key.
    pub is_crowded: bool,
}

impl Structure {
    pub fn of<'s, 'a: 's>(scenes: impl Iterator<Item = &'s Scene<'a>> + Clone) -> Structure {
        let count = |scene: &Scene| scene.phone.occupied_certificates().count();
        let most = scenes.clone().map(count).max().unwrap_or(0);
        let mut keys = Keys {
            is_crowded: most > FEW_CERTIFICATES,
            ..Keys::default()
        };
        for scene in scenes {
            keys.learn(scene);
        }
        let columns = keys.columns();
        Grower::of(&keys, &columns).structure()
    }

    /// Every certificate of a lesson has a cell; the first one is for those of another.
    pub fn cell(&self, certificate: &Certificate) -> Cell {
        let cell = self.cells.get(&name_of(certificate)).copied();
        cell.unwrap_or(Cell {
            place: certificate.place,
            row: 0,
            column: 0,
        })
    }
}

/// For each certificate those from which a line comes to it, and for each application too.
pub struct Sources<'a> {
    scene: &'a Scene<'a>,
    certificates: &'a [Certificate],
    is_crowded: bool,
}

impl<'a> Sources<'a> {
    pub fn of(
        scene: &'a Scene<'a>,
        certificates: &'a [Certificate],
        is_crowded: bool,
    ) -> Sources<'a> {
        Sources {
            scene,
            certificates,
            is_crowded,
        }
    }

    pub fn of_certificate(&self, certificate: &Certificate) -> Vec<usize> {
        if self.is_crowded {
            return self.told(certificate);
        }
        match certificate.kind {
            ISSUED => self.with_key(certificate.verifying_key, certificate.id),
            _ => Vec::new(),
        }
    }

    pub fn of_application(&self, application: &Executable) -> Vec<usize> {
        if !self.is_crowded {
            return self.with_key(application.signing_key, 0);
        }
        let story = self.scene.said.stories.get(&application.id);
        let signer = story.and_then(|story| story.chain.last());
        signer
            .into_iter()
            .flat_map(|id| self.with_id(*id))
            .collect()
    }

    /// The one that stands before it in a chain.
    fn told(&self, certificate: &Certificate) -> Vec<usize> {
        let stories = self.scene.said.stories.values();
        let pairs = stories.flat_map(|story| story.chain.windows(2));
        let before: BTreeSet<u16> = pairs
            .filter(|pair| pair[1] == certificate.id)
            .map(|pair| pair[0])
            .collect();
        before.into_iter().flat_map(|id| self.with_id(id)).collect()
    }

    fn with_id(&self, id: u16) -> Option<usize> {
        self.certificates.iter().position(|c| c.id == id)
    }

    fn with_key(&self, key: u32, but: u16) -> Vec<usize> {
        let has_key = |at: &usize| {
            let certificate = &self.certificates[*at];
            key != 0 && certificate.key == key && certificate.id != but
        };
        (0..self.certificates.len()).filter(has_key).collect()
    }
}

/// Who names whose key, at any event.
#[derive(Default)]
struct Keys {
    is_crowded: bool,
    /// How many events had been before each certificate was first there.
    first_seen: BTreeMap<Name, usize>,
    phones: usize,
    signers: BTreeMap<Name, BTreeSet<Name>>,
    is_signer: BTreeSet<Name>,
    /// Those with a line to an application: the row behind them is kept free for it.
    has_line: BTreeSet<Name>,
}

impl Keys {
    fn learn(&mut self, scene: &Scene) {
        let certificates: Vec<Certificate> = scene.phone.occupied_certificates().copied().collect();
        let sources = Sources::of(scene, &certificates, self.is_crowded);
        let names = |all: Vec<usize>| all.into_iter().map(|at| name_of(&certificates[at]));
        for certificate in &certificates {
            let name = name_of(certificate);
            self.first_seen.entry(name).or_insert(self.phones);
            let known = self.signers.entry(name).or_default();
            for signer in names(sources.of_certificate(certificate)) {
                known.insert(signer);
                self.is_signer.insert(signer);
            }
        }
        for application in scene.phone.occupied_executables() {
            let signers = sources.of_application(application);
            self.has_line.extend(names(signers));
        }
        self.phones += 1;
    }

    /// Each certificate to the right of all its signers, so that lines run one way; a ring ends at the last column.
    fn columns(&self) -> BTreeMap<Name, usize> {
        let mut columns: BTreeMap<Name, usize> =
            self.signers.keys().map(|name| (*name, 0)).collect();
        for _ in 1..MOST_COLUMNS {
            for (name, signers) in &self.signers {
                let behind = signers.iter().map(|signer| columns[signer] + 1).max();
                let column = behind.unwrap_or(0).min(MOST_COLUMNS - 1);
                columns.insert(*name, column);
            }
        }
        columns
    }

    fn is_loose(&self, name: &Name) -> bool {
        self.signers[name].is_empty()
            && !self.is_signer.contains(name)
            && !self.has_line.contains(name)
    }
}

/// Gives out rows, tree by tree, so that a chain stands in one row where it can.
struct Grower<'a> {
    keys: &'a Keys,
    columns: &'a BTreeMap<Name, usize>,
    /// Behind each certificate those that stand in its row or under it.
    below: BTreeMap<Name, Vec<Name>>,
    starts: Vec<Name>,
    loose: Vec<Name>,
    cells: BTreeMap<Name, Cell>,
}

impl<'a> Grower<'a> {
    fn of(keys: &'a Keys, columns: &'a BTreeMap<Name, usize>) -> Grower<'a> {
        let mut below: BTreeMap<Name, Vec<Name>> = BTreeMap::new();
        let mut starts = Vec::new();
        for (name, signers) in &keys.signers {
            let stands_before = |signer: &&Name| {
                let is_beside = columns[*signer] + 1 == columns[name];
                is_beside && signer.1 == name.1
            };
            match signers.iter().find(stands_before) {
                Some(signer) => below.entry(*signer).or_default().push(*name),
                None => starts.push(*name),
            }
        }
        // What is there from the start stands first, so that little moves when a record comes.
        let order = |name: &Name| (keys.first_seen[name], *name);
        starts.sort_by_key(order);
        let depths = depths(&below);
        for behind in below.values_mut() {
            let depth = |name: &Name| std::cmp::Reverse(depths.get(name).copied().unwrap_or(0));
            behind.sort_by_key(|name| (keys.first_seen[name], depth(name), *name));
        }
        let (loose, starts) = starts.into_iter().partition(|name| keys.is_loose(name));
        Grower {
            keys,
            columns,
            below,
            starts,
            loose,
            cells: BTreeMap::new(),
        }
    }

    fn structure(mut self) -> Structure {
        let mut columns = self.columns.values().max().map_or(1, |last| last + 1);
        if self.loose.len() > MANY_LOOSE {
            columns = MOST_COLUMNS;
        }
        let places: BTreeSet<u16> = self.columns.keys().map(|(_, place)| *place).collect();
        for place in places {
            self.fill(place, columns);
        }
        Structure {
            cells: self.cells,
            columns,
            is_crowded: self.keys.is_crowded,
        }
    }

    fn fill(&mut self, place: u16, columns: usize) {
        let here = |all: &[Name]| -> Vec<Name> {
            let here = all.iter().filter(|name| name.1 == place);
            here.copied().collect()
        };
        let (starts, loose) = (here(&self.starts), here(&self.loose));
        let mut row = 0;
        for start in starts {
            row = self.grow(start, row);
        }
        for (nth, name) in loose.into_iter().enumerate() {
            let (row, column) = (row + nth / columns, nth % columns);
            self.cells.insert(name, Cell { place, row, column });
        }
    }

    /// Puts a certificate and what stands behind it; gives the next free row.
    fn grow(&mut self, name: Name, row: usize) -> usize {
        let (place, column) = (name.1, self.columns[&name]);
        self.cells.insert(name, Cell { place, row, column });
        let below = self.below.remove(&name).unwrap_or_default();
        let mut next = match self.keys.has_line.contains(&name) || below.is_empty() {
            true => row + 1,
            false => row,
        };
        for behind in below {
            next = self.grow(behind, next);
        }
        next
    }
}

/// How many links stand behind each certificate.
fn depths(below: &BTreeMap<Name, Vec<Name>>) -> BTreeMap<Name, usize> {
    let mut depths: BTreeMap<Name, usize> = BTreeMap::new();
    for _ in 1..MOST_COLUMNS {
        for (name, behind) in below {
            let deepest = behind.iter().map(|name| depths.get(name).unwrap_or(&0) + 1);
            let deepest = deepest.max().unwrap_or(0);
            depths.insert(*name, deepest);
        }
    }
    depths
}
