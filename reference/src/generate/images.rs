//! Accepted images of many sizes, by construction and one last repair.
//!
//! Follows 01, "The image" and "Chains", and 02, "Recovery keys" and "Roots have a date as well":
//! the records are chosen so that chains of every length, cycles, bad twins, recovery keys and roots
//! near their date stand in them, and are then made to keep I4 and I5.

use crate::chain::{Trust, MOST_LINKS};
use crate::image_rules::first_broken_of_parts;
use crate::phone::{
    Card, Certificate, Executable, Phone, TableRow, ISSUED, MANUFACTURER, MOST_ACTIONS, MOST_CARDS,
    MOST_CERTIFICATES, MOST_EXECUTABLES, OPERATOR, RECOVERY, ROOT, THIRD_PARTY,
};
use crate::random::Random;

/// How many of each record an image has room for.
#[derive(Clone, Copy, Debug)]
pub struct Shape {
    pub certificate_slots: usize,
    pub cards: usize,
    pub executable_slots: usize,
    pub actions: usize,
}

impl Shape {
    pub const LARGEST: Shape = Shape {
        certificate_slots: MOST_CERTIFICATES,
        cards: MOST_CARDS,
        executable_slots: MOST_EXECUTABLES,
        actions: MOST_ACTIONS,
    };

    pub const SMALLEST: Shape = Shape {
        certificate_slots: 0,
        cards: 0,
        executable_slots: 0,
        actions: 1,
    };

    pub fn any(random: &mut Random) -> Shape {
        let certificate_slots = match random.weighted(&[3, 12, 50, 25, 10]) {
            0 => 0,
            1 => random.between(1, 4),
            2 => random.between(5, 16),
            3 => random.between(17, 40),
            _ => random.between(41, MOST_CERTIFICATES),
        };
        let executable_slots = match random.weighted(&[3, 25, 50, 22]) {
            0 => 0,
            1 => random.between(1, 3),
            2 => random.between(4, 12),
            _ => random.between(13, MOST_EXECUTABLES),
        };
        Shape {
            certificate_slots,
            cards: random.one_of([0, 1, 1, 2, 2, 2, 3, 3, 4, 5, 7, MOST_CARDS]),
            executable_slots,
            actions: random.one_of([1, 2, 3, 4, 5, 8, 16, 31, MOST_ACTIONS]),
        }
    }

    /// So few slots that many a damage finds nothing to hurt.
    pub fn few_slots(random: &mut Random) -> Shape {
        Shape {
            certificate_slots: random.below(5),
            cards: random.below(4),
            executable_slots: random.below(4),
            actions: random.between(1, 3),
        }
    }

    /// Slots and actions near the limits, and often at them.
    pub fn many_slots(random: &mut Random) -> Shape {
        let mut near = |most: usize| random.between(3 * most / 4, 5 * most / 4).min(most);
        Shape {
            certificate_slots: near(MOST_CERTIFICATES),
            cards: near(MOST_CARDS),
            executable_slots: near(MOST_EXECUTABLES),
            actions: near(MOST_ACTIONS),
        }
    }

    /// Room enough for every kind of damage.
    pub fn roomy(random: &mut Random) -> Shape {
        Shape {
            certificate_slots: random.between(4, 20),
            cards: random.between(2, 6),
            executable_slots: random.between(2, 10),
            actions: random.between(1, 31),
        }
    }
}

/// Numbers that a careless reading of bytes mixes up.
const AWKWARD_KEYS: [u32; 14] = [
    1,
    2,
    0x0000_0100,
    0x0001_0000,
    0x0100_0000,
    0x0001_0001,
    0x0000_FFFF,
    0xFFFF_0000,
    0x7FFF_FFFF,
    0x8000_0000,
    0xFFFF_FFFE,
    0xFFFF_FFFF,
    0x0000_03E8,
    0xE803_0000,
];

const AWKWARD_IDS: [u16; 8] = [1, 255, 256, 257, 32767, 32768, 65534, 65535];

/// A pool of keys for each domain. No key is in two pools, so I4 holds by construction.
pub struct Keys {
    of_domain: [Vec<u32>; 3],
}

impl Keys {
    pub(super) fn any(random: &mut Random, for_each: usize) -> Keys {
        let mut all: Vec<u32> = (1000..1040).collect();
        all.extend(
            AWKWARD_KEYS
                .iter()
                .filter(|key| !(1000..1040).contains(*key)),
        );
        random.shuffle(&mut all);
        let pool = |n: usize| all[n * for_each..(n + 1) * for_each].to_vec();
        Keys {
            of_domain: [pool(0), pool(1), pool(2)],
        }
    }

    fn pick(&self, random: &mut Random, domain: u8) -> u32 {
        let pool = &self.of_domain[usize::from(domain.clamp(1, 3)) - 1];
        random.choose(pool).unwrap_or(1)
    }

    /// A key that is not in the list, where the pool has one.
    pub(super) fn pick_new(&self, random: &mut Random, domain: u8, used: &[u32]) -> u32 {
        let key = (0..8)
            .map(|_| self.pick(random, domain))
            .find(|key| !used.contains(key));
        key.unwrap_or_else(|| self.pick(random, domain))
    }

    pub(super) fn pick_any(&self, random: &mut Random) -> u32 {
        let domain = random.one_of([OPERATOR, MANUFACTURER, THIRD_PARTY]);
        self.pick(random, domain)
    }
}

/// An expiry that the clock has not passed, the clock itself often.
pub fn expiry_in_date(random: &mut Random, clock: u32) -> u32 {
    match random.below(10) {
        0 | 1 => clock,
        2 => clock.saturating_add(1),
        3 => u32::MAX,
        _ => clock.saturating_add(random.between(1, 200) as u32),
    }
}

/// Any expiry; the two sides of the clock often.
pub fn any_expiry(random: &mut Random, clock: u32) -> u32 {
    match random.below(8) {
        0 => clock.saturating_sub(1),
        1 => 0,
        2 => random.u32(),
        _ => expiry_in_date(random, clock),
    }
}

/// The expiry of a root: on either side of the clock often, and far off so that chains live.
pub fn root_expiry(random: &mut Random, clock: u32) -> u32 {
    match random.below(24) {
        0..=2 => clock,
        3 => clock.saturating_add(1),
        4 | 5 => clock.saturating_add(random.between(2, 9) as u32),
        6 | 7 => clock.saturating_sub(1),
        8 => clock.saturating_sub(random.between(2, 60) as u32),
        9 => 0,
        10 => random.u32(),
        11 => u32::MAX,
        _ => clock.saturating_add(random.between(30, 400) as u32),
    }
}

pub fn any_operator(random: &mut Random) -> u32 {
    random.one_of([500, 500, 500, 600, 600, 700, 0, u32::MAX, 0x0100_0000, 1])
}

/// Cards with distinct numbers; one operator has several of them often.
fn any_cards(random: &mut Random, count: usize) -> Vec<Card> {
    let home = any_operator(random);
    let mut numbers: Vec<u16> = (1..=9).chain([255, 256, 257, 512, 65535]).collect();
    random.shuffle(&mut numbers);
    numbers
        .iter()
        .take(count)
        .map(|&number| Card {
            number,
            zero: 0,
            operator: match random.percent(50) {
                true => home,
                false => any_operator(random),
            },
        })
        .collect()
}

pub fn any_row(random: &mut Random) -> TableRow {
    let least = random.one_of([0, 0, 0, 1, 1, 2]);
    let mut other = || random.between(usize::from(least), 2) as u8;
    [least, other(), other(), other()]
}

/// Everything that the making of one image needs to look at.
pub(super) struct Maker<'a> {
    pub random: &'a mut Random,
    pub keys: Keys,
    pub cards: Vec<Card>,
    pub card_present: u16,
    pub clock: u32,
    pub records: Vec<Certificate>,
}

impl Maker<'_> {
    /// The phone or the present card: where a good record has to stand.
    pub fn present_place(&mut self) -> u16 {
        match self.random.percent(65) {
            true => 0,
            false => self.card_present,
        }
    }

    fn any_place(&mut self) -> u16 {
        match self.random.percent(40) {
            true => 0,
            false => self.random.choose(&self.cards).map_or(0, |c| c.number),
        }
    }

    pub fn absent_place(&mut self) -> Option<u16> {
        let present = self.card_present;
        let absent: Vec<u16> = self
            .cards
            .iter()
            .map(|card| card.number)
            .filter(|&number| number != present)
            .collect();
        self.random.choose(&absent)
    }

    /// I4 ties the owner of an operator root on a card; the phone's one is better off with it too.
    pub fn root_owner(&mut self, place: u16) -> u32 {
        let wanted = match (place, self.card_present) {
            (0, 0) => self.random.choose(&self.cards).map_or(0, |c| c.number),
            (0, present) => present,
            (card, _) => card,
        };
        let card = self.cards.iter().find(|card| card.number == wanted);
        match card {
            Some(card) if place != 0 || self.random.percent(75) => card.operator,
            _ => any_operator(self.random),
        }
    }

    pub fn root(&mut self, domain: u8, key: u32, place: u16) -> Certificate {
        let place = if domain == MANUFACTURER { 0 } else { place };
        Certificate {
            id: 0,
            place,
            kind: ROOT,
            domain,
            mark: 1,
            enabled: 1,
            key,
            verifying_key: 0,
            owner: self.root_owner(place),
            expiry: root_expiry(self.random, self.clock),
        }
    }

    pub fn issued(&mut self, domain: u8, key: u32, verifying_key: u32, place: u16) -> Certificate {
        Certificate {
            id: 0,
            place,
            kind: ISSUED,
            domain,
            mark: 1,
            enabled: 1,
            key,
            verifying_key,
            owner: any_operator(self.random),
            expiry: expiry_in_date(self.random, self.clock),
        }
    }

    pub fn recovery(&mut self, domain: u8, key: u32, owner: u32) -> Certificate {
        Certificate {
            id: 0,
            place: 0,
            kind: RECOVERY,
            domain,
            mark: 0,
            enabled: 1,
            key,
            verifying_key: 0,
            owner,
            expiry: any_expiry(self.random, self.clock),
        }
    }

    /// A record with the same key that is not good, for one reason or another.
    fn bad_twin(&mut self, of: &Certificate) -> Certificate {
        let mut twin = *of;
        let absent = self.absent_place();
        match (of.kind, self.random.below(4), absent) {
            (_, 3, _) if of.domain != THIRD_PARTY => {
                twin = self.recovery(of.domain, of.key, of.owner);
            }
            (_, 0, Some(place)) if !of.is_root_of(MANUFACTURER) => {
                twin.place = place;
                if of.is_root_of(OPERATOR) {
                    twin.owner = self.root_owner(place);
                }
            }
            (ROOT, 1, _) if of.domain == THIRD_PARTY => twin.enabled = 0,
            (ROOT, 2, _) if self.clock > 0 => twin.expiry = self.clock - 1,
            (ROOT, ..) => twin.mark = 0,
            (_, 1, _) => twin.verifying_key = self.keys.pick_any(self.random),
            _ => twin.expiry = self.clock.saturating_sub(1),
        }
        twin
    }

    fn push_perhaps_with_twin(&mut self, record: Certificate) {
        if self.random.percent(25) {
            let twin = self.bad_twin(&record);
            self.records.push(twin);
        }
        self.records.push(record);
    }

    /// Mostly far off, so that a chain of many links lives for a while.
    pub fn chain_expiry(&mut self) -> u32 {
        match self.random.percent(70) {
            true => self
                .clock
                .saturating_add(self.random.between(20, 300) as u32),
            false => expiry_in_date(self.random, self.clock),
        }
    }

    /// A chain of so many links, its root an old one where there is one.
    fn chain(&mut self, domain: u8, links: usize) {
        let old_root = self
            .records
            .iter()
            .find(|c| c.is_valid_root_of(domain, self.clock) && c.enabled == 1);
        let mut key = match old_root {
            Some(root) => root.key,
            None => {
                let key = self.keys.pick(self.random, domain);
                let place = self.present_place();
                let root = self.root(domain, key, place);
                self.push_perhaps_with_twin(root);
                key
            }
        };
        let mut used = vec![key];
        for _ in 1..links {
            let next = self.keys.pick_new(self.random, domain, &used);
            let place = self.present_place();
            let mut record = self.issued(domain, next, key, place);
            record.expiry = self.chain_expiry();
            self.push_perhaps_with_twin(record);
            used.push(next);
            key = next;
        }
    }

    /// A valid operator root on any card, absent ones too, with a record below it mostly.
    fn card_root(&mut self) {
        let Some(card) = self.random.choose(&self.cards) else {
            return self.stray(OPERATOR);
        };
        let key = self.keys.pick(self.random, OPERATOR);
        let root = self.root(OPERATOR, key, card.number);
        self.records.push(root);
        if self.random.percent(60) {
            let next = self.keys.pick_new(self.random, OPERATOR, &[key]);
            let place = self.random.one_of([0, card.number]);
            let mut record = self.issued(OPERATOR, next, key, place);
            record.expiry = self.chain_expiry();
            self.records.push(record);
        }
    }

    /// A recovery key, mostly beside a root on the phone that it can replace; several of them can
    /// be of one owner, and one can have the key of another record.
    fn recovery_beside_root(&mut self) {
        let domain = self.random.one_of([OPERATOR, OPERATOR, MANUFACTURER]);
        let on_phone = |c: &&Certificate| c.is_root_of(domain) && c.place == 0;
        let roots: Vec<Certificate> = self.records.iter().filter(on_phone).copied().collect();
        let root = match self.random.choose(&roots) {
            Some(root) if self.random.percent(75) => root,
            _ => {
                let key = self.keys.pick(self.random, domain);
                let mut root = self.root(domain, key, 0);
                root.mark = u8::from(self.random.percent(60));
                self.records.push(root);
                root
            }
        };
        let owner = match self.random.percent(85) {
            true => root.owner,
            false => any_operator(self.random),
        };
        let key = self.keys.pick_new(self.random, domain, &[root.key]);
        let recovery = self.recovery(domain, key, owner);
        self.records.push(recovery);
    }

    /// A root that has kept its mark beyond its date, operator roots on cards among them; on the
    /// phone perhaps with a recovery key that can bring it a new one.
    fn old_mark(&mut self) {
        let domain = self
            .random
            .one_of([OPERATOR, OPERATOR, OPERATOR, MANUFACTURER, THIRD_PARTY]);
        let key = self.keys.pick(self.random, domain);
        let place = self.any_place();
        let mut root = self.root(domain, key, place);
        let seconds = self.random.one_of([1, 1, 1, 2, 50]);
        root.expiry = self.clock.saturating_sub(seconds);
        // On the phone the card rule goes by the owner, in date or not.
        if root.place == 0 && self.random.percent(40) {
            root.owner = any_operator(self.random);
        }
        self.records.push(root);
        if domain != THIRD_PARTY && root.place == 0 && self.random.percent(50) {
            let key = self.keys.pick_new(self.random, domain, &[key]);
            let recovery = self.recovery(domain, key, root.owner);
            self.records.push(recovery);
        }
    }

    /// Issued records that verify each other in a ring, one alone or up to three.
    fn cycle(&mut self, domain: u8) {
        let length = self.random.between(1, 3);
        let keys: Vec<u32> = (0..length)
            .map(|_| self.keys.pick(self.random, domain))
            .collect();
        for at in 0..length {
            let place = self.present_place();
            let record = self.issued(domain, keys[at], keys[(at + 1) % length], place);
            self.records.push(record);
        }
    }

    /// A record of no plan at all.
    fn stray(&mut self, domain: u8) {
        let key = self.keys.pick(self.random, domain);
        let place = self.any_place();
        let record = if self.random.percent(50) {
            let mut root = self.root(domain, key, place);
            root.mark = u8::from(self.random.percent(50));
            if domain == THIRD_PARTY {
                root.enabled = u8::from(self.random.percent(50));
            }
            root
        } else {
            let verifying_key = match self.random.percent(80) {
                true => self.keys.pick(self.random, domain),
                false => self.keys.pick_any(self.random),
            };
            let mut issued = self.issued(domain, key, verifying_key, place);
            issued.expiry = any_expiry(self.random, self.clock);
            issued
        };
        self.records.push(record);
    }

    fn certificates(&mut self, slots: usize) -> Vec<Option<Certificate>> {
        let wanted = match self.random.below(4) {
            0 => slots,
            1 => slots / 2,
            _ => slots - self.random.below(slots / 3 + 1),
        };
        while self.records.len() < wanted {
            let domain = self
                .random
                .one_of([OPERATOR, OPERATOR, MANUFACTURER, THIRD_PARTY]);
            match self.random.weighted(&[52, 8, 16, 22, 14, 14]) {
                0 => {
                    let links = self.random.one_of([1, 2, 3, 3, 4, 4, 5, 5]);
                    self.chain(domain, links);
                }
                1 => self.cycle(domain),
                2 => self.card_root(),
                3 => self.stray(domain),
                4 => self.recovery_beside_root(),
                _ => self.old_mark(),
            }
        }
        self.records.truncate(wanted);
        let ids = distinct_ids(self.random, wanted);
        for (record, id) in self.records.iter_mut().zip(ids) {
            record.id = id;
        }
        spread(self.random, &self.records, slots)
    }
}

/// Ids that differ from each other, the awkward ones among them.
pub(super) fn distinct_ids(random: &mut Random, count: usize) -> Vec<u16> {
    let mut ids: Vec<u16> = (2..120).chain(AWKWARD_IDS).collect();
    random.shuffle(&mut ids);
    ids.truncate(count);
    ids
}

/// Puts records into slots in any order, free slots between them.
pub(super) fn spread<T: Copy>(random: &mut Random, records: &[T], slots: usize) -> Vec<Option<T>> {
    let mut all: Vec<Option<T>> = records.iter().copied().map(Some).collect();
    all.resize(slots, None);
    // In their own order now and then, so that lowest slots come first too.
    if random.percent(75) {
        random.shuffle(&mut all);
    }
    all
}

/// Unmarks operator and manufacturer roots until I5 holds. The present card's operator root
/// goes before the phone's, unless it is wanted that the phone's may stay. Roots past their date
/// keep their marks, so that valid ones stand beside marked ones.
pub(super) fn repair_marks(phone: &mut Phone, phone_goes_first: bool) {
    let clock = phone.clock;
    let is_valid_at =
        |c: &Certificate, place| c.is_valid_root_of(OPERATOR, clock) && c.place == place;
    keep_one_valid(phone, |c| c.is_valid_root_of(MANUFACTURER, clock));
    let numbers: Vec<u16> = phone.cards.iter().map(|card| card.number).collect();
    for place in numbers {
        keep_one_valid(phone, |c| is_valid_at(c, place));
    }
    if let Some(card) = phone.present_card().copied() {
        let on_card = |c: &Certificate| is_valid_at(c, card.number);
        if phone_goes_first {
            unmark(phone, on_card);
        }
        let card_has_one = phone.occupied_certificates().any(on_card);
        unmark(phone, |c| {
            is_valid_at(c, 0) && (card_has_one || c.owner != card.operator)
        });
    }
    keep_one_valid(phone, |c| is_valid_at(c, 0));
}

fn unmark(phone: &mut Phone, which: impl Fn(&Certificate) -> bool) {
    for record in phone.certificates.iter_mut().flatten() {
        if which(record) {
            record.mark = 0;
        }
    }
}

fn keep_one_valid(phone: &mut Phone, which: impl Fn(&Certificate) -> bool) {
    let mut have_one = false;
    for record in phone.certificates.iter_mut().flatten() {
        if which(record) {
            if have_one {
                record.mark = 0;
            }
            have_one = true;
        }
    }
}

/// Executables signed by keys of the image mostly, those at the end of long chains among them.
fn add_executables(random: &mut Random, phone: &mut Phone, slots: usize) {
    let count = match random.below(4) {
        0 => slots,
        1 => slots / 2,
        _ => slots - random.below(slots / 3 + 1),
    };
    let keys: Vec<u32> = phone.occupied_certificates().map(|c| c.key).collect();
    let trust = Trust::of(phone);
    let allowed_bits = match phone.table.len() {
        32 => u32::MAX,
        actions => (1 << actions) - 1,
    };
    let records: Vec<Executable> = distinct_ids(random, count)
        .into_iter()
        .map(|id| {
            let signing_key = match random.below(20) {
                0 => 0,
                1 => random.u32(),
                2..=10 => key_at_distance(random, phone, &trust).unwrap_or(0),
                _ => random.choose(&keys).unwrap_or(0),
            };
            let domain = match trust.chain_of(signing_key) {
                Some(chain) if random.percent(70) => chain.domain,
                _ => 0,
            };
            let any = random.u32();
            let permissions = random.one_of([0, any, any, u32::MAX]);
            Executable {
                id,
                domain,
                zero: 0,
                signing_key,
                permissions: permissions & allowed_bits,
            }
        })
        .collect();
    phone.executables = spread(random, &records, slots);
}

/// The key of a record that is good within a chosen number of links and no fewer; 5 stands for
/// the record just beyond the limit.
pub fn key_at_distance(random: &mut Random, phone: &Phone, trust: &Trust) -> Option<u32> {
    let wanted = random.one_of([1, 2, 3, 3, 4, 4, 5]);
    let is_there = |c: &&Certificate| match (wanted, trust.links_to(c.key, c.domain)) {
        (5, 0) => trust.links_to(c.verifying_key, c.domain) == MOST_LINKS,
        (_, links) => links == wanted,
    };
    let keys: Vec<u32> = phone
        .occupied_certificates()
        .filter(is_there)
        .map(|c| c.key)
        .collect();
    random.choose(&keys)
}

/// One phone of the shape that keeps every rule.
pub fn accepted_phone(random: &mut Random, shape: Shape) -> Phone {
    loop {
        let phone = phone_of_shape(random, shape);
        // The making keeps the rules; asking makes sure that it does.
        if first_broken_of_parts(&phone).is_none() {
            return phone;
        }
        debug_assert!(false, "{:?}", first_broken_of_parts(&phone));
    }
}

fn phone_of_shape(random: &mut Random, shape: Shape) -> Phone {
    let cards = any_cards(random, shape.cards);
    let card_present = match random.percent(35) {
        true => 0,
        false => random.choose(&cards).map_or(0, |card| card.number),
    };
    let clock = match random.below(12) {
        0 => 0,
        1 => u32::MAX - random.below(3) as u32,
        2 => 0x7FFF_FFFF,
        3 => 255,
        _ => random.between(50, 500) as u32,
    };
    let keys_for_each = random.one_of([3, 6, 9, 12, 15]);
    let keys = Keys::any(random, keys_for_each);
    let mut maker = Maker {
        random,
        keys,
        cards,
        card_present,
        clock,
        records: Vec::new(),
    };
    let certificates = maker.certificates(shape.certificate_slots);
    let cards = maker.cards;
    let mut phone = Phone {
        mode: random.below(3) as u16,
        card_present,
        clock,
        certificates,
        cards,
        executables: Vec::new(),
        table: (0..shape.actions).map(|_| any_row(random)).collect(),
    };
    repair_marks(&mut phone, random.percent(50));
    add_executables(random, &mut phone, shape.executable_slots);
    phone
}

/// A chain of so many links in one domain, each link with a bad twin before it if wanted, and
/// executables signed by every key of the chain.
pub fn chain_phone(random: &mut Random, domain: u8, links: usize, with_twins: bool) -> Phone {
    let mut phone = accepted_phone(
        random,
        Shape {
            certificate_slots: 0,
            cards: 2,
            executable_slots: 0,
            actions: 3,
        },
    );
    let mut maker = Maker {
        keys: Keys::any(random, 6),
        random,
        cards: phone.cards.clone(),
        card_present: phone.card_present,
        clock: phone.clock,
        records: Vec::new(),
    };
    let mut verifying_key = 0;
    for link in 0..links {
        let key = 2000 + link as u32;
        let place = maker.present_place();
        let mut record = match link {
            0 => maker.root(domain, key, place),
            _ => maker.issued(domain, key, verifying_key, place),
        };
        // A root past its date ends every chain at once.
        if link == 0 && maker.random.percent(80) {
            record.expiry = maker.chain_expiry();
        }
        if with_twins {
            let twin = maker.bad_twin(&record);
            maker.records.push(twin);
        }
        maker.records.push(record);
        verifying_key = key;
    }
    let records = maker.records;
    phone.certificates = records.into_iter().map(Some).collect();
    number_certificates(&mut phone);
    phone.certificates.push(None);
    repair_marks(&mut phone, false);
    phone.executables = (0..links)
        .map(|link| {
            Some(Executable {
                id: link as u16 + 1,
                domain: 0,
                zero: 0,
                signing_key: 2000 + link as u32,
                permissions: 0,
            })
        })
        .collect();
    phone
}

fn number_certificates(phone: &mut Phone) {
    for (record, id) in phone.certificates.iter_mut().flatten().zip(1..) {
        record.id = id;
    }
}
