//! The images and events that are measured: a full phone as a class might have it, the worst case
//! for the search, and a lesson; and damaged images, which both monitors have to refuse for the same
//! rule and at the same byte.

use crate::monitor::{
    actor, card, certificate, certificate_kind, code, domain, event, executable, header, kind,
    mark, mode, row, rule, table, ACTIONS_MAX, CARDS_MAX, CARD_SIZE, CERTIFICATES_MAX,
    CERTIFICATE_SIZE, DISABLED, ENABLED, EVENT_SIZE, EXECUTABLE_SIZE, HEADER_SIZE, IMAGE_VERSION,
    LISTED_MAX, ROW_SIZE,
};

pub const SIZES: [usize; 4] = [8, 16, 32, CERTIFICATES_MAX];

/// The clock of every image.
pub const CLOCK: u32 = 100;

const OPERATOR_ROOT: u32 = 1000;
const MANUFACTURER_ROOT: u32 = 2000;
const THIRD_PARTY_ROOT: u32 = 3000;
const PHONE_OPERATOR_ROOT: u32 = 1500;
const RECOVERY_KEY: u32 = 60_002;
const ROOT_IDS: [u16; 4] = [1, 2, 3, 4];
const OWNER: u32 = 501;
/// When everything runs out that is not damaged.
const EXPIRY: u32 = 100_000;

/// The rows of the table, in turn.
const ROWS: [[u8; ROW_SIZE]; 3] = {
    use table::{FREELY, NEVER, WITH_PERMISSION as ASK};
    [
        [FREELY, FREELY, FREELY, FREELY],
        [ASK, FREELY, FREELY, ASK],
        [NEVER, ASK, FREELY, ASK],
    ]
};

/// A certificate, in the order of its fields.
#[derive(Clone, Copy)]
struct Certificate {
    id: u16,
    place: u16,
    kind: u8,
    domain: u8,
    mark: u8,
    key: u32,
    by: u32,
    owner: u32,
    expiry: u32,
}

impl Certificate {
    fn write(&self, to: &mut Vec<u8>) {
        put16(to, self.id);
        put16(to, self.place);
        to.extend_from_slice(&[self.kind, self.domain, self.mark, ENABLED]);
        for number in [self.key, self.by, self.owner, self.expiry] {
            put32(to, number);
        }
    }
}

fn put16(to: &mut Vec<u8>, number: u16) {
    to.extend_from_slice(&number.to_be_bytes());
}

fn put32(to: &mut Vec<u8>, number: u32) {
    to.extend_from_slice(&number.to_be_bytes());
}

fn root(id: u16, place: u16, domain: u8, mark: u8, key: u32) -> Certificate {
    Certificate {
        id,
        place,
        kind: certificate_kind::ROOT,
        domain,
        mark,
        key,
        by: 0,
        owner: OWNER,
        expiry: EXPIRY,
    }
}

fn issued(id: u16, place: u16, domain: u8, key: u32, by: u32) -> Certificate {
    Certificate {
        id,
        place,
        kind: certificate_kind::ISSUED,
        domain,
        mark: mark::VALID,
        key,
        by,
        owner: OWNER,
        expiry: EXPIRY,
    }
}

/// Four roots, and chains of two, three and four links in all three domains under them; two slots are free.
fn full_certificates(slots: usize) -> Vec<Certificate> {
    let mut all = vec![
        root(ROOT_IDS[0], 1, domain::OPERATOR, mark::VALID, OPERATOR_ROOT),
        root(
            ROOT_IDS[1],
            0,
            domain::OPERATOR,
            mark::INVALID,
            PHONE_OPERATOR_ROOT,
        ),
        root(
            ROOT_IDS[2],
            0,
            domain::MANUFACTURER,
            mark::VALID,
            MANUFACTURER_ROOT,
        ),
        root(
            ROOT_IDS[3],
            0,
            domain::THIRD_PARTY,
            mark::VALID,
            THIRD_PARTY_ROOT,
        ),
    ];
    let roots = [OPERATOR_ROOT, MANUFACTURER_ROOT, THIRD_PARTY_ROOT];
    let mut last = roots;
    for n in 0..slots - 6 {
        let domain = n % 3;
        let depth = (n / 3) % 3;
        let by = if depth == 0 {
            roots[domain]
        } else {
            last[domain]
        };
        let key = 10_000 + n as u32;
        last[domain] = key;
        all.push(issued(
            100 + n as u16,
            (n % 2) as u16,
            domain as u8 + 1,
            key,
            by,
        ));
    }
    all
}

/// Three levels of twins over one root in the last slot, the deepest first: every round of a search has all to look at.
fn worst_certificates(slots: usize) -> Vec<Certificate> {
    let issued_slots = slots - 1;
    let mut all: Vec<Certificate> = (0..issued_slots)
        .map(|n| {
            let level = n * 3 / issued_slots;
            let key = 10_000 - level as u32;
            let by = if level == 2 {
                THIRD_PARTY_ROOT
            } else {
                key - 1
            };
            issued(100 + n as u16, 0, domain::THIRD_PARTY, key, by)
        })
        .collect();
    all.push(root(
        ROOT_IDS[3],
        0,
        domain::THIRD_PARTY,
        mark::VALID,
        THIRD_PARTY_ROOT,
    ));
    all
}

/// Where the parts of an image begin, of which certificates and executables have this many slots.
struct Frame {
    slots: usize,
    cards_at: usize,
    executables_at: usize,
    table_at: usize,
    total: usize,
}

impl Frame {
    fn of(slots: usize) -> Frame {
        let cards_at = HEADER_SIZE + CERTIFICATE_SIZE * slots;
        let executables_at = cards_at + CARD_SIZE * CARDS_MAX;
        let table_at = executables_at + EXECUTABLE_SIZE * slots;
        Frame {
            slots,
            cards_at,
            executables_at,
            table_at,
            total: table_at + ROW_SIZE * ACTIONS_MAX,
        }
    }

    fn certificate(&self, slot: usize) -> usize {
        HEADER_SIZE + CERTIFICATE_SIZE * slot
    }

    fn card(&self, index: usize) -> usize {
        self.cards_at + CARD_SIZE * index
    }

    fn executable(&self, slot: usize) -> usize {
        self.executables_at + EXECUTABLE_SIZE * slot
    }

    fn row(&self, action: usize) -> usize {
        self.table_at + ROW_SIZE * action
    }
}

/// An image: 0 is the full phone, 1 the worst case for the search.
pub fn image(which: usize, slots: usize) -> Vec<u8> {
    let certificates = match which {
        0 => full_certificates(slots),
        _ => worst_certificates(slots),
    };
    let frame = Frame::of(slots);
    let mut all = Vec::with_capacity(frame.total);
    put16(&mut all, IMAGE_VERSION);
    let counts = [slots, CARDS_MAX, slots, ACTIONS_MAX];
    counts
        .iter()
        .for_each(|count| put16(&mut all, *count as u16));
    // The standing mode, the card present, and the zero behind it.
    let settings = [u16::from(mode::ENABLE_ALL), 1, 0];
    settings
        .iter()
        .for_each(|setting| put16(&mut all, *setting));
    put32(&mut all, CLOCK);
    let ends = [
        HEADER_SIZE,
        frame.cards_at,
        frame.executables_at,
        frame.table_at,
        frame.total,
    ];
    ends.iter().for_each(|at| put32(&mut all, *at as u32));
    certificates
        .iter()
        .for_each(|record| record.write(&mut all));
    all.resize(frame.cards_at, 0);
    for number in 1..=CARDS_MAX as u16 {
        put16(&mut all, number);
        put16(&mut all, 0);
        put32(&mut all, 500 + u32::from(number));
    }
    for n in 0..slots - 2 {
        write_executable(&mut all, n, &certificates, which);
    }
    all.resize(frame.table_at, 0);
    for action in 0..ACTIONS_MAX {
        all.extend_from_slice(&ROWS[action % ROWS.len()]);
    }
    all
}

/// Three of four executables are trusted by some record's key; in the worst case all are, by the deepest one's.
fn write_executable(all: &mut Vec<u8>, n: usize, certificates: &[Certificate], which: usize) {
    let signer = match which {
        0 => certificates[2 + n % (certificates.len() - 2)],
        _ => certificates[0],
    };
    let trusted = which == 1 || n % 4 != 3;
    put16(all, n as u16 + 1);
    all.push(if trusted {
        signer.domain
    } else {
        domain::UNTRUSTED
    });
    all.push(0);
    put32(all, signer.key);
    // The user permits action 1.
    put32(all, 1 << 1);
}

/// What is measured: the events behind the first `before` of them.
pub struct Row {
    pub name: &'static str,
    pub image: usize,
    pub events: Vec<u8>,
    pub before: usize,
    /// The code that each measured event gets, or any.
    pub code: Option<u8>,
}

/// Writes a field of four bytes.
fn set16(bytes: &mut [u8], at: usize, number: u16) {
    bytes[at..at + 2].copy_from_slice(&number.to_be_bytes());
}

fn set32(bytes: &mut [u8], at: usize, number: u32) {
    bytes[at..at + 4].copy_from_slice(&number.to_be_bytes());
}

fn event(kind: u8, actor: u8, id: u16, second: u16, key: u32) -> Vec<u8> {
    let mut all = vec![kind, actor];
    put16(&mut all, id);
    put16(&mut all, second);
    all.resize(event::KEY, 0);
    put32(&mut all, key);
    all.resize(EVENT_SIZE, 0);
    // An operator or a manufacturer that deletes or marks a certificate says who it is.
    if (kind::DELETE_CERTIFICATE..=kind::MARK_INVALID).contains(&kind)
        && (actor::OPERATOR..=actor::MANUFACTURER).contains(&actor)
    {
        set32(&mut all, event::OWNER, OWNER);
    }
    all
}

/// What the device does.
fn device(kind: u8, id: u16, second: u16) -> Vec<u8> {
    event(kind, actor::DEVICE, id, second, 0)
}

/// What the user does.
fn user(kind: u8, id: u16, second: u16, key: u32) -> Vec<u8> {
    event(kind, actor::USER, id, second, key)
}

/// What the manufacturer does with its root.
fn manufacturer(kind: u8) -> Vec<u8> {
    event(kind, actor::MANUFACTURER, ROOT_IDS[2], 0, 0)
}

fn clock(to: u32) -> Vec<u8> {
    event(kind::CLOCK, actor::DEVICE, 0, 0, to)
}

/// The manufacturer's recovery key, beside the root of its owner.
fn install_recovery(id: u16) -> Vec<u8> {
    let mut all = event(
        kind::INSTALL_CERTIFICATE,
        actor::MANUFACTURER,
        id,
        0,
        RECOVERY_KEY,
    );
    all[event::THIRD] = certificate_kind::RECOVERY;
    all[event::FOURTH] = domain::MANUFACTURER;
    set32(&mut all, event::OWNER, OWNER);
    all
}

/// The manufacturer's root gets another key, and everything below it is to be settled.
fn replace(recovery: u16) -> Vec<u8> {
    let mut all = event(
        kind::REPLACE,
        actor::MANUFACTURER,
        ROOT_IDS[2],
        recovery,
        60_001,
    );
    set32(&mut all, event::VERIFYING, RECOVERY_KEY);
    set32(&mut all, event::OWNER, OWNER);
    set32(&mut all, event::EXPIRY, EXPIRY);
    all
}

fn install_certificate(id: u16) -> Vec<u8> {
    let mut all = user(kind::INSTALL_CERTIFICATE, id, 0, 60_000);
    all[event::THIRD] = certificate_kind::ISSUED;
    all[event::FOURTH] = domain::THIRD_PARTY;
    set32(&mut all, event::VERIFYING, THIRD_PARTY_ROOT);
    set32(&mut all, event::EXPIRY, EXPIRY);
    all
}

/// Enables the third party root, named in all eight places, and disables the rest.
fn message() -> Vec<u8> {
    let mut all = event(kind::MESSAGE, actor::ADMINISTRATOR, 0, 0, 0);
    all[event::THIRD] = mode::ENABLE_LISTED;
    all[event::FOURTH] = LISTED_MAX as u8;
    for place in all[event::LISTED..].chunks_exact_mut(2) {
        place.copy_from_slice(&ROOT_IDS[3].to_be_bytes());
    }
    all
}

fn verify(id: u16) -> Vec<u8> {
    device(kind::VERIFY, id, 0)
}

fn request(id: u16, action: u16) -> Vec<u8> {
    device(kind::REQUEST, id, action)
}

/// A lesson: what a class does, most of it asking.
fn lesson(slots: usize) -> Vec<Vec<u8>> {
    let last = slots as u16 - 3;
    let mut all = Vec::new();
    for turn in 0..4u16 {
        let id = 1 + (turn * 5) % last;
        all.extend((0..6).map(|n| request(1 + (id + n) % last, n)));
        all.push(user(kind::GIVE, id, 1, 0));
        all.push(request(id, 1));
        all.push(clock(CLOCK + 1 + u32::from(turn)));
        all.push(request(id, 4));
        all.push(device(kind::CARD_OUT, 0, 0));
        all.extend((0..3).map(|n| request(1 + (id + n) % last, 2)));
        all.push(device(kind::CARD_IN, 0, 1));
        all.extend((0..4).map(|n| verify(1 + (id + n) % last)));
        all.extend((0..3).map(|n| request(1 + (id + n) % last, 2)));
        all.push(user(kind::WITHDRAW, id, 1, 0));
        all.push(user(kind::INSTALL_EXECUTABLE, 50_000, 0, MANUFACTURER_ROOT));
        all.push(verify(50_000));
        all.push(request(50_000, 0));
        all.push(user(kind::DELETE_EXECUTABLE, 50_000, 0, 0));
        all.push(manufacturer(kind::MARK_INVALID));
        all.push(request(id, 5));
        all.push(manufacturer(kind::MARK_VALID));
        // Which the user may not.
        all.push(user(kind::MARK_VALID, ROOT_IDS[2], 0, 0));
        all.push(verify(id));
        all.push(message());
    }
    all
}

/// All that is measured at one size.
pub fn rows(slots: usize) -> Vec<Row> {
    // The last executables: a look-up by id has all the others to pass.
    let last = slots as u16 - 2;
    let trusted = (1..=last).rev().find(|id| id % 4 != 0).unwrap_or(1);
    let untrusted = (1..=last).rev().find(|id| id % 4 == 0).unwrap_or(4);
    let deepest = 100 + slots as u16 - 7;
    let its_actor = [actor::OPERATOR, actor::MANUFACTURER, actor::USER][(slots - 7) % 3];
    let done = |name, event: Vec<u8>| Row {
        name,
        image: 0,
        events: event,
        before: 0,
        code: Some(code::DONE),
    };
    let after = |name, first: Vec<u8>, event: Vec<u8>| Row {
        name,
        image: 0,
        events: [first, event].concat(),
        before: 1,
        code: Some(code::DONE),
    };
    let refused = |name, event: Vec<u8>, code| Row {
        name,
        image: 0,
        events: event,
        before: 0,
        code: Some(code),
    };
    vec![
        done("clock", clock(CLOCK + 1)),
        after(
            "card-in",
            device(kind::CARD_OUT, 0, 0),
            device(kind::CARD_IN, 0, 1),
        ),
        done("card-out", device(kind::CARD_OUT, 0, 0)),
        done("power-up", device(kind::POWER_UP, 0, 2)),
        done("install-certificate", install_certificate(60_000)),
        done(
            "delete-certificate",
            event(kind::DELETE_CERTIFICATE, its_actor, deepest, 0, 0),
        ),
        after(
            "mark-valid",
            manufacturer(kind::MARK_INVALID),
            manufacturer(kind::MARK_VALID),
        ),
        done("mark-invalid", manufacturer(kind::MARK_INVALID)),
        done("message", message()),
        done(
            "install-executable",
            user(kind::INSTALL_EXECUTABLE, 60_000, 0, 10_000),
        ),
        done(
            "delete-executable",
            user(kind::DELETE_EXECUTABLE, last, 0, 0),
        ),
        done("verify", verify(trusted)),
        done("give", user(kind::GIVE, last, 31, 0)),
        done("withdraw", user(kind::WITHDRAW, last, 1, 0)),
        done("request", request(trusted, 0)),
        done("request-untrusted", request(untrusted, 0)),
        refused(
            "request-refused",
            request(untrusted, 2),
            code::NEVER_GRANTED,
        ),
        // The recovery key takes the first of the two free slots, so that it stands last.
        after("replace", install_recovery(60_000), replace(60_000)),
        refused(
            "malformed",
            device(kind::REPLACE + 1, 1, 0),
            code::MALFORMED,
        ),
        Row {
            name: "verify-worst",
            image: 1,
            events: verify(last),
            before: 0,
            code: Some(code::DONE),
        },
        Row {
            name: "clock-worst",
            image: 1,
            events: clock(CLOCK + 1),
            before: 0,
            code: Some(code::DONE),
        },
        Row {
            name: "lesson",
            image: 0,
            events: lesson(slots).concat(),
            before: 0,
            code: None,
        },
    ]
}

/// An image to open, and the rule that it breaks and where; both are 0 where it is accepted.
pub struct Opening {
    pub name: &'static str,
    pub image: Vec<u8>,
    rule: u8,
    offset: usize,
}

impl Opening {
    pub fn is_told(&self, rule: u8, offset: u16) -> bool {
        rule == self.rule && usize::from(offset) == self.offset
    }
}

/// The full phone; the same with the signers last, where they are looked for longest, of those that are trusted and of all; and
/// damaged in eight ways: each breaks one rule, and in the last record that can break it, so that all of that rule and of those
/// before it has to be asked. The last damage is also done where all signers are last, the dearest of these images to open.
pub fn openings(slots: usize) -> Vec<Opening> {
    let frame = Frame::of(slots);
    let last = slots - 3;
    let broken = |name, rule, offset, damage: &dyn Fn(&mut Vec<u8>)| {
        let mut image = image(0, slots);
        damage(&mut image);
        Opening {
            name,
            image,
            rule,
            offset,
        }
    };
    vec![
        broken("open", 0, 0, &|_| ()),
        broken("open-signers-last", 0, 0, &|image| {
            sign_by_the_last(image, &frame)
        }),
        broken("open-all-signed", 0, 0, &|image| {
            sign_all_by_the_last(image, &frame)
        }),
        broken("open-no-free-slot", 0, 0, &|image| {
            fill(image, &frame);
            sign_all_by_the_last(image, &frame);
        }),
        broken("open-breaks-1", rule::HEADER, header::TOTAL, &|image| {
            image.push(0)
        }),
        // A free slot that is not all zero.
        broken(
            "open-breaks-2",
            rule::CERTIFICATES,
            frame.certificate(slots - 1),
            &|image| {
                image[frame.certificate(slots - 1) + CERTIFICATE_SIZE - 1] = 1;
            },
        ),
        // The number of the card before.
        broken("open-breaks-3", rule::CARDS, frame.card(7), &|image| {
            image.copy_within(frame.card(6)..frame.card(6) + card::BLANK, frame.card(7));
        }),
        // The id of the record before.
        broken(
            "open-breaks-4",
            rule::KEYS,
            frame.certificate(last),
            &|image| {
                let before = frame.certificate(last - 1);
                image.copy_within(before..before + certificate::PLACE, frame.certificate(last));
            },
        ),
        // A second valid operator root on the card that is present.
        broken(
            "open-breaks-5",
            rule::VALID_ROOTS,
            frame.certificate(last),
            &|image| {
                let at = frame.certificate(last);
                image[at + certificate::PLACE..at + certificate::KIND].copy_from_slice(&[0, 1]);
                image[at + certificate::KIND] = certificate_kind::ROOT;
                image[at + certificate::DOMAIN] = domain::OPERATOR;
                image[at + certificate::MARK] = mark::VALID;
                image[at + certificate::ENABLED] = ENABLED;
                set32(image, at + certificate::VERIFYING, 0);
            },
        ),
        broken(
            "open-breaks-6",
            rule::TABLE,
            frame.row(ACTIONS_MAX - 1),
            &|image| {
                image[frame.row(ACTIONS_MAX - 1) + row::THIRD] = table::FREELY + 1;
            },
        ),
        // The id of the record before.
        broken(
            "open-breaks-7",
            rule::EXECUTABLES,
            frame.executable(last),
            &|image| {
                let before = frame.executable(last - 1);
                image.copy_within(before..before + executable::DOMAIN, frame.executable(last));
            },
        ),
        broken(
            "open-breaks-8",
            rule::CHAINS,
            frame.executable(last),
            &|image| sign_by_nobody(image, frame.executable(last)),
        ),
        broken(
            "open-breaks-8-all",
            rule::CHAINS,
            frame.executable(last),
            &|image| {
                sign_all_by_the_last(image, &frame);
                sign_by_nobody(image, frame.executable(last));
            },
        ),
        broken(
            "open-breaks-8-last",
            rule::CHAINS,
            frame.executable(slots - 1),
            &|image| {
                fill(image, &frame);
                sign_all_by_the_last(image, &frame);
                sign_by_nobody(image, frame.executable(slots - 1));
            },
        ),
    ]
}

/// The two free slots of each table get the last record under ids of their own.
fn fill(image: &mut [u8], frame: &Frame) {
    for slot in frame.slots - 2..frame.slots {
        let (from, to) = (frame.certificate(slot - 1), frame.certificate(slot));
        image.copy_within(from..from + CERTIFICATE_SIZE, to);
        set16(image, to + certificate::ID, 50_000 + slot as u16);
        let (from, to) = (frame.executable(slot - 1), frame.executable(slot));
        image.copy_within(from..from + EXECUTABLE_SIZE, to);
        set16(image, to + executable::ID, 50_000 + slot as u16);
    }
}

/// A third party executable with a key that nobody holds.
fn sign_by_nobody(image: &mut [u8], at: usize) {
    image[at + executable::DOMAIN] = domain::THIRD_PARTY;
    set32(image, at + executable::SIGNING, 60_000);
}

/// Those without a domain get the third party one, so that every executable has a signer to be looked for.
fn sign_all_by_the_last(image: &mut [u8], frame: &Frame) {
    for slot in 0..frame.slots {
        let at = frame.executable(slot);
        let is_free = image[at..at + executable::DOMAIN] == [0, 0];
        if !is_free && image[at + executable::DOMAIN] == domain::UNTRUSTED {
            image[at + executable::DOMAIN] = domain::THIRD_PARTY;
        }
    }
    sign_by_the_last(image, frame);
}

/// Every trusted executable is signed by the last record of its domain.
fn sign_by_the_last(image: &mut [u8], frame: &Frame) {
    for slot in 0..frame.slots {
        let at = frame.executable(slot);
        let domain = image[at + executable::DOMAIN];
        if domain == domain::UNTRUSTED {
            continue;
        }
        let is_of_domain =
            |signer: &usize| image[frame.certificate(*signer) + certificate::DOMAIN] == domain;
        if let Some(signer) = (0..frame.slots).rev().find(is_of_domain) {
            let signer = frame.certificate(signer);
            image.copy_within(
                signer + certificate::KEY..signer + certificate::VERIFYING,
                at + executable::SIGNING,
            );
        }
    }
}

/// Numbers as if by chance, the same in every run.
pub struct Dice(pub u64);

impl Dice {
    fn below(&mut self, end: usize) -> usize {
        self.0 ^= self.0 << 13;
        self.0 ^= self.0 >> 7;
        self.0 ^= self.0 << 17;
        (self.0 >> 16) as usize % end
    }
}

/// The fields of each record, by their first bytes and with the record's size at the end.
const FIELDS: [&[usize]; 4] = [
    &[
        certificate::ID,
        certificate::PLACE,
        certificate::KIND,
        certificate::DOMAIN,
        certificate::MARK,
        certificate::ENABLED,
        certificate::KEY,
        certificate::VERIFYING,
        certificate::OWNER,
        certificate::EXPIRY,
        CERTIFICATE_SIZE,
    ],
    &[card::NUMBER, card::BLANK, card::OPERATOR, CARD_SIZE],
    &[
        executable::ID,
        executable::DOMAIN,
        executable::BLANK,
        executable::SIGNING,
        executable::PERMISSIONS,
        EXECUTABLE_SIZE,
    ],
    &[
        row::UNTRUSTED,
        row::OPERATOR,
        row::MANUFACTURER,
        row::THIRD,
        ROW_SIZE,
    ],
];

/// An image damaged in one to three places: a byte changed, a record or a field of it written over another, a certificate turned
/// into a recovery key, roots that run out about now, or the end moved.
pub fn damaged(which: usize, slots: usize, dice: &mut Dice) -> Vec<u8> {
    let frame = Frame::of(slots);
    let mut image = image(which, slots);
    for _ in 0..1 + dice.below(3) {
        match dice.below(18) {
            0 => image.truncate(dice.below(image.len() + 1)),
            1 => image.push(dice.below(2) as u8),
            2 => poke(&mut image, dice.below(HEADER_SIZE), dice.below(4) as u8),
            3 => poke(&mut image, dice.below(frame.total), dice.below(256) as u8),
            4..=6 => poke(&mut image, dice.below(frame.total), dice.below(4) as u8),
            7 => copy_root(&mut image, &frame, dice),
            16 => make_recovery(&mut image, &frame, dice),
            17 => end_roots(&mut image, &frame, dice),
            way => {
                let table = [0, 0, 0, 0, 1, 2, 2, 3][way - 8];
                copy_field(&mut image, &frame, table, dice);
            }
        }
    }
    image
}

fn poke(image: &mut [u8], at: usize, byte: u8) {
    if let Some(place) = image.get_mut(at) {
        *place = byte;
    }
}

/// Turns a certificate into one of the first four slots, where the roots of the full phone stand, but for its id and key.
fn copy_root(image: &mut [u8], frame: &Frame, dice: &mut Dice) {
    let from = frame.certificate(dice.below(4));
    let to = frame.certificate(dice.below(frame.slots));
    if frame.cards_at <= image.len() {
        let (first, key) = (certificate::PLACE, certificate::KEY);
        image.copy_within(from + first..from + key, to + first);
        let (rest, end) = (certificate::VERIFYING, CERTIFICATE_SIZE);
        image.copy_within(from + rest..from + end, to + rest);
    }
}

/// Turns a certificate into a recovery key, or into one but for a field: often the last slot, which is free in the full phone.
fn make_recovery(image: &mut [u8], frame: &Frame, dice: &mut Dice) {
    let slot = [frame.slots - 1, dice.below(frame.slots)][dice.below(2)];
    let at = frame.certificate(slot);
    if frame.cards_at > image.len() {
        return;
    }
    if image[at..at + CERTIFICATE_SIZE] == [0; CERTIFICATE_SIZE] {
        image[at + certificate::ID..at + certificate::PLACE]
            .copy_from_slice(&60_000u16.to_be_bytes());
        set32(image, at + certificate::KEY, RECOVERY_KEY);
    }
    image[at + certificate::PLACE..at + certificate::KIND].fill(0);
    image[at + certificate::KIND] = certificate_kind::RECOVERY;
    image[at + certificate::DOMAIN] = domain::OPERATOR + dice.below(2) as u8;
    image[at + certificate::MARK] = mark::INVALID;
    image[at + certificate::ENABLED] = ENABLED;
    set32(image, at + certificate::VERIFYING, 0);
    match dice.below(10) {
        0 => image[at + certificate::PLACE + 1] = 1,
        1 => image[at + certificate::DOMAIN] = domain::THIRD_PARTY,
        2 => image[at + certificate::MARK] = mark::VALID,
        3 => image[at + certificate::ENABLED] = DISABLED,
        4 => set32(image, at + certificate::VERIFYING, 1),
        _ => (),
    }
}

/// Roots of the full phone that are past their dates by a second or in their last one, perhaps marked all the same: where the date
/// is past, a mark breaks no rule. Often no executable has a domain any more that needs them.
fn end_roots(image: &mut [u8], frame: &Frame, dice: &mut Dice) {
    if frame.table_at > image.len() {
        return;
    }
    for _ in 0..1 + dice.below(3) {
        let at = frame.certificate(dice.below(4));
        let expiry = CLOCK - dice.below(2) as u32;
        set32(image, at + certificate::EXPIRY, expiry);
        if dice.below(2) == 0 {
            image[at + certificate::MARK] = mark::VALID;
        }
    }
    if dice.below(4) != 0 {
        for slot in 0..frame.slots {
            image[frame.executable(slot) + executable::DOMAIN] = domain::UNTRUSTED;
        }
    }
}

/// Writes a field of one record, or all of it, over that of another of the same table.
fn copy_field(image: &mut [u8], frame: &Frame, table: usize, dice: &mut Dice) {
    let (start, count) = [
        (HEADER_SIZE, frame.slots),
        (frame.cards_at, CARDS_MAX),
        (frame.executables_at, frame.slots),
        (frame.table_at, ACTIONS_MAX),
    ][table];
    let fields = FIELDS[table];
    let size = fields[fields.len() - 1];
    let (from, to) = (
        start + size * dice.below(count),
        start + size * dice.below(count),
    );
    let field = dice.below(fields.len());
    let (first, end) = if field + 1 < fields.len() {
        (fields[field], fields[field + 1])
    } else {
        (0, size)
    };
    if from.max(to) + size <= image.len() {
        image.copy_within(from + first..from + end, to + first);
    }
}
