//! A plain and quick monitor of one simulated MExE phone, in safe Rust and without a heap.
//!
//! The bytes of the image are the state: an event reads and writes them in place. Nothing here is
//! proved; the file is the yardstick that other monitors of the same rules are timed against.

mod header {
    pub const SIZE: usize = 40;
    pub const VERSION: usize = 0;
    pub const CERTIFICATES: usize = 2;
    pub const CARDS: usize = 4;
    pub const EXECUTABLES: usize = 6;
    pub const ACTIONS: usize = 8;
    pub const MODE: usize = 10;
    pub const CARD: usize = 12;
    pub const ZERO: usize = 14;
    pub const CLOCK: usize = 16;
    pub const CERTIFICATES_AT: usize = 20;
    pub const CARDS_AT: usize = 24;
    pub const EXECUTABLES_AT: usize = 28;
    pub const TABLE_AT: usize = 32;
    pub const TOTAL: usize = 36;
}

mod certificate {
    pub const SIZE: usize = 24;
    pub const MOST: usize = 64;
    pub const ID: usize = 0;
    pub const PLACE: usize = 2;
    pub const KIND: usize = 4;
    pub const DOMAIN: usize = 5;
    pub const MARK: usize = 6;
    pub const ENABLED: usize = 7;
    pub const KEY: usize = 8;
    pub const VERIFYING_KEY: usize = 12;
    pub const OWNER: usize = 16;
    pub const EXPIRY: usize = 20;
}

mod card {
    pub const SIZE: usize = 8;
    pub const MOST: usize = 8;
    pub const NUMBER: usize = 0;
    pub const ZERO: usize = 2;
    pub const OPERATOR: usize = 4;
}

mod executable {
    pub const SIZE: usize = 12;
    pub const MOST: usize = 64;
    pub const ID: usize = 0;
    pub const DOMAIN: usize = 2;
    pub const ZERO: usize = 3;
    pub const KEY: usize = 4;
    pub const PERMISSIONS: usize = 8;
}

mod action {
    pub const SIZE: usize = 4;
    pub const MOST: usize = 32;
}

mod event {
    pub const SIZE: usize = 24;
    pub const KIND: usize = 0;
    pub const ACTOR: usize = 1;
    pub const ID: usize = 2;
    pub const SECOND: usize = 4;
    pub const THIRD: usize = 6;
    pub const FOURTH: usize = 7;
    pub const KEY: usize = 8;
    pub const VERIFYING_KEY: usize = 12;
    pub const OWNER: usize = 16;
    pub const EXPIRY: usize = 20;
    pub const LIST: usize = 8;
    pub const MOST_LISTED: u8 = 8;
}

const ROOT: u8 = 0;
const ISSUED: u8 = 1;
const RECOVERY: u8 = 2;

const OPERATOR: u8 = 1;
const MANUFACTURER: u8 = 2;
const THIRD_PARTY: u8 = 3;

const DISABLE_ALL: u8 = 0;
const ENABLE_ALL: u8 = 1;
const ENABLE_LISTED: u8 = 2;

const MOST_LINKS: u8 = 4;
const HIGHEST_ACTOR: u8 = 4;

const BAD_IMAGE: u8 = 1;
const MALFORMED: u8 = 2;
const UNKNOWN_ID: u8 = 3;
const NOT_ALLOWED: u8 = 4;
const TIME_RUNS_BACK: u8 = 5;
const UNKNOWN_CARD: u8 = 6;
const CARD_OUT_OF_TURN: u8 = 7;
const CARD_ABSENT: u8 = 8;
const ID_TAKEN: u8 = 9;
const KEY_OF_OTHER_DOMAIN: u8 = 10;
const OTHER_OPERATOR: u8 = 11;
const NOT_SUCH_A_ROOT: u8 = 12;
const ANOTHER_IS_VALID: u8 = 13;
const NO_FREE_SLOT: u8 = 14;
const NEVER_GRANTED: u8 = 15;
const NO_PERMISSION: u8 = 16;
const NO_RECOVERY_KEY: u8 = 17;
const PAST_ITS_DATE: u8 = 18;

/// Who may act, by event kind and domain: one bit for each actor, the device in the lowest.
const MAY_ACT: [[u8; 4]; 17] = {
    const DEVICE: u8 = 1 << 0;
    const USER: u8 = 1 << 1;
    const OPERATOR: u8 = 1 << 2;
    const MANUFACTURER: u8 = 1 << 3;
    const ADMINISTRATOR: u8 = 1 << 4;
    const PEOPLE: u8 = USER | OPERATOR | MANUFACTURER | ADMINISTRATOR;
    [
        [0; 4],
        [DEVICE; 4],
        [DEVICE; 4],
        [DEVICE; 4],
        [DEVICE; 4],
        [0, OPERATOR, MANUFACTURER, PEOPLE],
        [0, OPERATOR, MANUFACTURER, USER | ADMINISTRATOR],
        [0, OPERATOR, MANUFACTURER, ADMINISTRATOR],
        [0, OPERATOR, MANUFACTURER, ADMINISTRATOR],
        [ADMINISTRATOR; 4],
        [PEOPLE; 4],
        [PEOPLE; 4],
        [DEVICE; 4],
        [USER; 4],
        [USER; 4],
        [DEVICE; 4],
        [0, OPERATOR, MANUFACTURER, 0],
    ]
};

type Event = [u8; event::SIZE];

/// Domain and links of an event that was done, or the code of one that was refused.
type Outcome = Result<(u8, u8), u8>;

const DONE: Outcome = Ok((0, 0));

/// What an event is told, and what opening an image tells; all 0 where it is accepted.
#[derive(Clone, Copy, Debug, PartialEq)]
pub struct Answer {
    pub code: u8,
    pub domain: u8,
    pub links: u8,
    /// The first broken rule, 1 to 8, and the first byte of what breaks it; 0 but for code 1.
    pub rule: u8,
    pub offset: u16,
}

pub const ANSWER_SIZE: usize = 6;

impl Answer {
    /// What an image that is accepted tells of an event.
    #[inline]
    fn to_event(code: u8, domain: u8, links: u8) -> Answer {
        Answer {
            code,
            domain,
            links,
            rule: 0,
            offset: 0,
        }
    }
}

/// Code 0 where the image is accepted; else 1, the first rule of I1..I8 that it breaks, and where.
/// Any bytes.
pub fn open(image: &[u8]) -> Answer {
    match check(image) {
        Ok(()) => Answer::to_event(0, 0, 0),
        Err(fault) => Answer {
            code: BAD_IMAGE,
            domain: 0,
            links: 0,
            rule: fault.rule,
            offset: fault.offset,
        },
    }
}

/// The answer to one event of any length; the image changes only where the code is 0.
/// The image has to be one that `open` accepts.
pub fn step(image: &mut [u8], event: &[u8]) -> Answer {
    let (code, domain, links) = Phone::over(image).answer(event);
    Answer::to_event(code, domain, links)
}

/// Opens the image once and steps through events of 24 bytes, the last of which may be short.
/// Writes six bytes for each event, stops where `answers` is full, returns the number answered.
/// On an image that is not accepted every event is answered as `open` does and nothing changes.
pub fn run(image: &mut [u8], events: &[u8], answers: &mut [u8]) -> usize {
    let pairs = events
        .chunks(event::SIZE)
        .zip(answers.chunks_exact_mut(ANSWER_SIZE));
    let count = pairs.len();
    if let Err(fault) = check(image) {
        let [high, low] = fault.offset.to_be_bytes();
        for (_, answer) in pairs {
            answer.copy_from_slice(&[BAD_IMAGE, 0, 0, fault.rule, high, low]);
        }
        return count;
    }
    let mut phone = Phone::over(image);
    for (event, answer) in pairs {
        let (code, domain, links) = phone.answer(event);
        answer.copy_from_slice(&[code, domain, links, 0, 0, 0]);
    }
    count
}

#[inline]
fn u16_at(bytes: &[u8], at: usize) -> u16 {
    u16::from_be_bytes([bytes[at], bytes[at + 1]])
}

#[inline]
fn u32_at(bytes: &[u8], at: usize) -> u32 {
    u32::from_be_bytes([bytes[at], bytes[at + 1], bytes[at + 2], bytes[at + 3]])
}

#[inline]
fn set_u16(bytes: &mut [u8], at: usize, value: u16) {
    bytes[at..at + 2].copy_from_slice(&value.to_be_bytes());
}

#[inline]
fn set_u32(bytes: &mut [u8], at: usize, value: u32) {
    bytes[at..at + 4].copy_from_slice(&value.to_be_bytes());
}

#[inline]
fn certificates_in(part: &[u8]) -> impl Iterator<Item = &[u8]> {
    part.chunks_exact(certificate::SIZE)
}

#[inline]
fn executables_in(part: &[u8]) -> impl Iterator<Item = &[u8]> {
    part.chunks_exact(executable::SIZE)
}

#[inline]
fn card_index(cards: &[u8], number: u16) -> Option<usize> {
    cards
        .chunks_exact(card::SIZE)
        .position(|card| u16_at(card, card::NUMBER) == number)
}

#[inline]
fn operator_of(cards: &[u8], number: u16) -> Option<u32> {
    let card = cards
        .chunks_exact(card::SIZE)
        .find(|card| u16_at(card, card::NUMBER) == number)?;
    Some(u32_at(card, card::OPERATOR))
}

/// What an operator or a manufacturer root needs to be valid, but for its date.
#[inline]
fn is_marked_root(record: &[u8], domain: u8) -> bool {
    record[certificate::MARK] == 1
        && record[certificate::DOMAIN] == domain
        && record[certificate::KIND] == ROOT
}

// ---------------------------------------------------------------------------------------------
// Chains

/// What decides whether a record counts at this moment.
#[derive(Clone, Copy)]
struct Now {
    card: u16,
    clock: u32,
}

impl Now {
    #[inline]
    fn of(header: &[u8]) -> Now {
        Now {
            card: u16_at(header, header::CARD),
            clock: u32_at(header, header::CLOCK),
        }
    }

    #[inline]
    fn is_present(self, record: &[u8]) -> bool {
        let place = u16_at(record, certificate::PLACE);
        place == 0 || place == self.card
    }

    /// Through the second that the record names.
    #[inline]
    fn is_in_date(self, record: &[u8]) -> bool {
        self.clock <= u32_at(record, certificate::EXPIRY)
    }

    #[inline]
    fn is_valid_root(self, record: &[u8], domain: u8) -> bool {
        is_marked_root(record, domain) && self.is_in_date(record)
    }

    /// A trusted root, or an issued record that lacks only a good verifier. Never a free slot, and
    /// never a recovery key.
    #[inline]
    fn can_be_link(self, record: &[u8]) -> bool {
        let counts = match record[certificate::KIND] {
            ROOT => record[certificate::MARK] == 1 && record[certificate::ENABLED] == 1,
            ISSUED => true,
            _ => false,
        };
        counts && self.is_in_date(record) && self.is_present(record)
    }
}

/// The length of the shortest chain from a key to a trusted root of the domain, 0 if there is none.
/// It searches from the key, breadth first, since most chains are short and touch few records.
fn links(certificates: &[u8], now: Now, domain: u8, signing_key: u32) -> u8 {
    // No key is looked for twice, so there is the first one and at most one for each record.
    let mut wanted = [0; certificate::MOST + 1];
    wanted[0] = signing_key;
    let mut begin = 0;
    let mut end = 1;
    for links in 1..=MOST_LINKS {
        let round = begin..end;
        begin = end;
        for at in round {
            let key = wanted[at];
            for record in certificates_in(certificates) {
                if u32_at(record, certificate::KEY) != key
                    || record[certificate::DOMAIN] != domain
                    || !now.can_be_link(record)
                {
                    continue;
                }
                if record[certificate::KIND] == ROOT {
                    return links;
                }
                let verifying_key = u32_at(record, certificate::VERIFYING_KEY);
                if !wanted[..end].contains(&verifying_key) {
                    wanted[end] = verifying_key;
                    end += 1;
                }
            }
        }
        if begin == end {
            break;
        }
    }
    0
}

/// The domain a signing key chains to and the link count, both 0 where there is no chain.
#[inline]
fn chain(certificates: &[u8], now: Now, signing_key: u32) -> (u8, u8) {
    if signing_key == 0 {
        return (0, 0);
    }
    // All records with one key have one domain, so the first of them tells it.
    match certificates_in(certificates)
        .find(|record| u32_at(record, certificate::KEY) == signing_key)
    {
        None => (0, 0),
        Some(record) => {
            let domain = record[certificate::DOMAIN];
            match links(certificates, now, domain, signing_key) {
                0 => (0, 0),
                links => (domain, links),
            }
        }
    }
}

/// The keys of all good records, for judging many executables at once.
struct GoodKeys {
    names: [u64; certificate::MOST],
    count: usize,
}

impl GoodKeys {
    /// Key and domain in one number, so that one comparison settles both.
    #[inline]
    fn name(domain: u8, key: u32) -> u64 {
        u64::from(domain) << 32 | u64::from(key)
    }

    fn find(certificates: &[u8], now: Now) -> GoodKeys {
        let mut names = [0; certificate::MOST];
        let mut count = 0;
        let mut waiting = [0; certificate::MOST];
        let mut waiting_count = 0;
        for (slot, record) in (0..).zip(certificates_in(certificates)) {
            if !now.can_be_link(record) {
                continue;
            }
            if record[certificate::KIND] == ROOT {
                names[count] = GoodKeys::name(
                    record[certificate::DOMAIN],
                    u32_at(record, certificate::KEY),
                );
                count += 1;
            } else {
                waiting[waiting_count] = slot;
                waiting_count += 1;
            }
        }
        // Older good keys were tried in an earlier round, so a round looks at the newest only.
        let mut begin = 0;
        for _ in 1..MOST_LINKS {
            let end = count;
            if begin == end {
                break;
            }
            let mut left = 0;
            for at in 0..waiting_count {
                let slot: u8 = waiting[at];
                let record =
                    &certificates[usize::from(slot) * certificate::SIZE..][..certificate::SIZE];
                let domain = record[certificate::DOMAIN];
                let verifier = GoodKeys::name(domain, u32_at(record, certificate::VERIFYING_KEY));
                if names[begin..end].contains(&verifier) {
                    names[count] = GoodKeys::name(domain, u32_at(record, certificate::KEY));
                    count += 1;
                } else {
                    waiting[left] = slot;
                    left += 1;
                }
            }
            waiting_count = left;
            begin = end;
        }
        GoodKeys { names, count }
    }

    #[inline]
    fn contains(&self, domain: u8, key: u32) -> bool {
        self.names[..self.count].contains(&GoodKeys::name(domain, key))
    }
}

// ---------------------------------------------------------------------------------------------
// Image rules

/// A broken rule and the first byte of what breaks it. The lowest rule counts, and of its faults
/// the one at the lowest offset: I3 names the card present, then certificates, then cards.
#[derive(Clone, Copy, PartialEq, PartialOrd)]
struct Fault {
    rule: u8,
    offset: u16,
}

impl Fault {
    /// Offsets are of bytes of an image whose header holds, or in its header: a u16 has room.
    #[inline]
    fn at(rule: u8, offset: usize) -> Fault {
        Fault {
            rule,
            offset: offset as u16,
        }
    }
}

/// I1 to I8, and the first of them that is broken.
fn check(image: &[u8]) -> Result<(), Fault> {
    if image.len() < header::SIZE {
        return Err(Fault::at(1, image.len()));
    }
    let (header, rest) = image.split_at(header::SIZE);
    let certificate_slots = usize::from(u16_at(header, header::CERTIFICATES));
    let card_count = usize::from(u16_at(header, header::CARDS));
    let executable_slots = usize::from(u16_at(header, header::EXECUTABLES));
    let action_count = usize::from(u16_at(header, header::ACTIONS));
    let cards_at = header::SIZE + certificate_slots * certificate::SIZE;
    let executables_at = cards_at + card_count * card::SIZE;
    let table_at = executables_at + executable_slots * executable::SIZE;
    let total = table_at + action_count * action::SIZE;
    let offset_is = |at, offset| u32_at(header, at) as usize == offset;
    let wrong_field = if u16_at(header, header::VERSION) != 1 {
        Some(header::VERSION)
    } else if certificate_slots > certificate::MOST {
        Some(header::CERTIFICATES)
    } else if card_count > card::MOST {
        Some(header::CARDS)
    } else if executable_slots > executable::MOST {
        Some(header::EXECUTABLES)
    } else if !(1..=action::MOST).contains(&action_count) {
        Some(header::ACTIONS)
    } else if u16_at(header, header::MODE) > u16::from(ENABLE_LISTED) {
        Some(header::MODE)
    } else if u16_at(header, header::ZERO) != 0 {
        Some(header::ZERO)
    } else if !offset_is(header::CERTIFICATES_AT, header::SIZE) {
        Some(header::CERTIFICATES_AT)
    } else if !offset_is(header::CARDS_AT, cards_at) {
        Some(header::CARDS_AT)
    } else if !offset_is(header::EXECUTABLES_AT, executables_at) {
        Some(header::EXECUTABLES_AT)
    } else if !offset_is(header::TABLE_AT, table_at) {
        Some(header::TABLE_AT)
    } else if !offset_is(header::TOTAL, total) || image.len() != total {
        Some(header::TOTAL)
    } else {
        None
    };
    if let Some(at) = wrong_field {
        return Err(Fault::at(1, at));
    }
    let (certificates, rest) = rest.split_at(cards_at - header::SIZE);
    let (cards, rest) = rest.split_at(executables_at - cards_at);
    let (executables, table) = rest.split_at(table_at - executables_at);
    let now = Now::of(header);
    check_certificates(certificates, cards, now)?;
    if let Some(row) = first_bad_row(table) {
        return Err(Fault::at(6, table_at + row * action::SIZE));
    }
    if let Some(slot) = first_bad_executable(executables, action_count) {
        return Err(Fault::at(7, executables_at + slot * executable::SIZE));
    }
    if let Some(slot) = first_without_chain(executables, certificates, now) {
        return Err(Fault::at(8, executables_at + slot * executable::SIZE));
    }
    Ok(())
}

/// What I3 says of the cards alone.
fn first_bad_card(cards: &[u8]) -> Option<usize> {
    cards
        .chunks_exact(card::SIZE)
        .enumerate()
        .position(|(index, card)| {
            let number = u16_at(card, card::NUMBER);
            number == 0 || u16_at(card, card::ZERO) != 0 || card_index(cards, number) != Some(index)
        })
}

/// Rules I2 to I5. One pass over the certificates meets their faults slot by slot and not rule by
/// rule, so it keeps the one that counts and goes on; only I2 has no rule before it to wait for.
fn check_certificates(certificates: &[u8], cards: &[u8], now: Now) -> Result<(), Fault> {
    let mut found: Option<Fault> = None;
    let mut note = |fault| {
        if found.map_or(true, |earlier| fault < earlier) {
            found = Some(fault);
        }
    };
    if let Some(index) = first_bad_card(cards) {
        let cards_at = header::SIZE + certificates.len();
        note(Fault::at(3, cards_at + index * card::SIZE));
    }
    let present_index = card_index(cards, now.card);
    if now.card != 0 && present_index.is_none() {
        note(Fault::at(3, header::CARD));
    }
    let operator_on = |index| u32_at(cards, index * card::SIZE + card::OPERATOR);

    // Ids and keys side by side, since every record is compared with all before it.
    let mut ids = [0; certificate::MOST];
    let mut keys = [0; certificate::MOST];
    let mut domains = [0; certificate::MOST];
    let mut count = 0;
    let mut valid_on_card = [false; card::MOST];
    let mut valid_on_phone = false;
    let mut valid_manufacturer = false;

    for (slot, record) in certificates_in(certificates).enumerate() {
        let at = header::SIZE + slot * certificate::SIZE;
        let id = u16_at(record, certificate::ID);
        if id == 0 {
            if *record != [0; certificate::SIZE] {
                return Err(Fault::at(2, at));
            }
            continue;
        }
        if !fields_hold(record) {
            return Err(Fault::at(2, at));
        }
        let key = u32_at(record, certificate::KEY);
        let domain = record[certificate::DOMAIN];
        if ids[..count].contains(&id) {
            note(Fault::at(4, at));
        }
        // One earlier record with the key is enough to look at: the earlier ones agree already.
        if let Some(earlier) = keys[..count].iter().position(|&earlier| earlier == key) {
            if domains[earlier] != domain {
                note(Fault::at(4, at));
            }
        }
        ids[count] = id;
        keys[count] = key;
        domains[count] = domain;
        count += 1;

        let is_root = record[certificate::KIND] == ROOT;
        let is_valid = now.is_valid_root(record, domain);
        let owner = u32_at(record, certificate::OWNER);
        match u16_at(record, certificate::PLACE) {
            0 => {
                if is_valid && domain == OPERATOR {
                    let is_second = std::mem::replace(&mut valid_on_phone, true);
                    let has_rival = present_index.map_or(false, |card| {
                        valid_on_card[card] || owner != operator_on(card)
                    });
                    if is_second || has_rival {
                        note(Fault::at(5, at));
                    }
                }
            }
            place => match card_index(cards, place) {
                None => note(Fault::at(3, at)),
                Some(card) => {
                    if is_root && domain == OPERATOR {
                        if owner != operator_on(card) {
                            note(Fault::at(4, at));
                        }
                        if is_valid {
                            let is_second = std::mem::replace(&mut valid_on_card[card], true);
                            if is_second || valid_on_phone && present_index == Some(card) {
                                note(Fault::at(5, at));
                            }
                        }
                    }
                }
            },
        }
        if is_valid && domain == MANUFACTURER && std::mem::replace(&mut valid_manufacturer, true) {
            note(Fault::at(5, at));
        }
    }
    match found {
        Some(fault) => Err(fault),
        None => Ok(()),
    }
}

/// What I2 says of an occupied slot whose id is known not to be 0.
#[inline]
fn fields_hold(record: &[u8]) -> bool {
    let domain = record[certificate::DOMAIN];
    let mark = record[certificate::MARK];
    let enabled = record[certificate::ENABLED];
    let verifying_key = u32_at(record, certificate::VERIFYING_KEY);
    let kind_holds = match record[certificate::KIND] {
        ROOT => {
            verifying_key == 0
                && mark <= 1
                && (enabled == 1 || enabled == 0 && domain == THIRD_PARTY)
                && (domain != MANUFACTURER || u16_at(record, certificate::PLACE) == 0)
        }
        ISSUED => verifying_key != 0 && mark == 1 && enabled == 1,
        RECOVERY => {
            verifying_key == 0
                && mark == 0
                && enabled == 1
                && domain != THIRD_PARTY
                && u16_at(record, certificate::PLACE) == 0
        }
        _ => false,
    };
    kind_holds
        && (OPERATOR..=THIRD_PARTY).contains(&domain)
        && u32_at(record, certificate::KEY) != 0
}

fn first_bad_row(table: &[u8]) -> Option<usize> {
    table
        .chunks_exact(action::SIZE)
        .position(|bytes| bytes.iter().any(|&byte| bytes[0] > byte || byte > 2))
}

fn first_bad_executable(executables: &[u8], action_count: usize) -> Option<usize> {
    let mut ids = [0; executable::MOST];
    let mut count = 0;
    for (slot, record) in executables_in(executables).enumerate() {
        let id = u16_at(record, executable::ID);
        if id == 0 {
            if *record != [0; executable::SIZE] {
                return Some(slot);
            }
            continue;
        }
        // Widened first, because 32 actions leave no forbidden bit and a u32 cannot shift by 32.
        let forbidden = u64::from(u32_at(record, executable::PERMISSIONS)) >> action_count;
        if record[executable::DOMAIN] > THIRD_PARTY
            || record[executable::ZERO] != 0
            || forbidden != 0
            || ids[..count].contains(&id)
        {
            return Some(slot);
        }
        ids[count] = id;
        count += 1;
    }
    None
}

fn first_without_chain(executables: &[u8], certificates: &[u8], now: Now) -> Option<usize> {
    if has_no_domains(executables) {
        return None;
    }
    let good = GoodKeys::find(certificates, now);
    executables_in(executables).position(|record| {
        let domain = record[executable::DOMAIN];
        domain != 0 && !good.contains(domain, u32_at(record, executable::KEY))
    })
}

#[inline]
fn has_no_domains(executables: &[u8]) -> bool {
    executables_in(executables).all(|record| record[executable::DOMAIN] == 0)
}

// ---------------------------------------------------------------------------------------------
// Events

/// The parts of an accepted image, borrowed in place.
struct Phone<'a> {
    header: &'a mut [u8; header::SIZE],
    certificates: &'a mut [u8],
    cards: &'a [u8],
    executables: &'a mut [u8],
    table: &'a [u8],
}

impl<'a> Phone<'a> {
    #[inline]
    fn over(image: &'a mut [u8]) -> Phone<'a> {
        let (header, rest) = image.split_at_mut(header::SIZE);
        let size_of = |count_at, record_size| usize::from(u16_at(header, count_at)) * record_size;
        let (certificates, rest) =
            rest.split_at_mut(size_of(header::CERTIFICATES, certificate::SIZE));
        let (cards, rest) = rest.split_at_mut(size_of(header::CARDS, card::SIZE));
        let (executables, table) =
            rest.split_at_mut(size_of(header::EXECUTABLES, executable::SIZE));
        let header = header
            .try_into()
            .expect("the header was split off at its size");
        Phone {
            header,
            certificates,
            cards,
            executables,
            table,
        }
    }

    #[inline]
    fn answer(&mut self, event: &[u8]) -> (u8, u8, u8) {
        match self.handle(event) {
            Ok((domain, links)) => (0, domain, links),
            Err(code) => (code, 0, 0),
        }
    }

    #[inline]
    fn handle(&mut self, event: &[u8]) -> Outcome {
        let event: &Event = event.try_into().map_err(|_| MALFORMED)?;
        if event[event::ACTOR] > HIGHEST_ACTOR {
            return Err(MALFORMED);
        }
        match event[event::KIND] {
            1 => self.set_clock(event),
            2 => self.card_in(event),
            3 => self.card_out(event),
            4 => self.power_up(event),
            5 => self.install_certificate(event),
            6 => self.delete_certificate(event),
            7 => self.mark_valid(event),
            8 => self.mark_invalid(event),
            9 => self.configure(event),
            10 => self.install_executable(event),
            11 => self.delete_executable(event),
            12 => self.verify(event),
            13 => self.give_permission(event),
            14 => self.withdraw_permission(event),
            15 => self.request(event),
            16 => self.replace(event),
            _ => Err(MALFORMED),
        }
    }

    fn set_clock(&mut self, event: &Event) -> Outcome {
        if event[event::ID..event::KEY] != [0; 6] || event[event::VERIFYING_KEY..] != [0; 12] {
            return Err(MALFORMED);
        }
        check_actor(event, 0)?;
        let old = u32_at(self.header, header::CLOCK);
        let new = u32_at(event, event::KEY);
        if new < old {
            return Err(TIME_RUNS_BACK);
        }
        if new == old {
            return DONE;
        }
        set_u32(self.header, header::CLOCK, new);
        // Time breaks a chain only through a record that runs out between the two clocks. Whose date
        // passes keeps its mark.
        let runs_out = certificates_in(self.certificates).any(|record| {
            let expiry = u32_at(record, certificate::EXPIRY);
            old <= expiry && expiry < new && record[certificate::KIND] != RECOVERY
        });
        if runs_out {
            self.settle();
        }
        DONE
    }

    fn card_in(&mut self, event: &Event) -> Outcome {
        let number = u16_at(event, event::SECOND);
        if number == 0
            || event[event::ID..event::SECOND] != [0; 2]
            || event[event::THIRD..] != [0; 18]
        {
            return Err(MALFORMED);
        }
        check_actor(event, 0)?;
        let operator = operator_of(self.cards, number).ok_or(UNKNOWN_CARD)?;
        if u16_at(self.header, header::CARD) != 0 {
            return Err(CARD_OUT_OF_TURN);
        }
        set_u16(self.header, header::CARD, number);
        // More records become present, so only the mark of a valid root that falls can break a chain.
        if self.apply_card_rule(number, operator) {
            self.settle();
        }
        DONE
    }

    fn card_out(&mut self, event: &Event) -> Outcome {
        if event[event::ID..] != [0; 22] {
            return Err(MALFORMED);
        }
        check_actor(event, 0)?;
        let old = u16_at(self.header, header::CARD);
        if old == 0 {
            return Err(CARD_OUT_OF_TURN);
        }
        set_u16(self.header, header::CARD, 0);
        if self.has_certificate_on(old) {
            self.settle();
        }
        DONE
    }

    fn power_up(&mut self, event: &Event) -> Outcome {
        if event[event::ID..event::SECOND] != [0; 2] || event[event::THIRD..] != [0; 18] {
            return Err(MALFORMED);
        }
        check_actor(event, 0)?;
        let old = u16_at(self.header, header::CARD);
        let new = u16_at(event, event::SECOND);
        let mut chains_may_break = false;
        if new != 0 {
            let operator = operator_of(self.cards, new).ok_or(UNKNOWN_CARD)?;
            // With the same card I5 leaves nothing to do but for marks that have outlived their dates.
            chains_may_break = self.apply_card_rule(new, operator);
        }
        if new == old {
            return DONE;
        }
        chains_may_break = chains_may_break || old != 0 && self.has_certificate_on(old);
        set_u16(self.header, header::CARD, new);
        if chains_may_break {
            self.settle();
        }
        DONE
    }

    fn install_certificate(&mut self, event: &Event) -> Outcome {
        let id = u16_at(event, event::ID);
        let place = u16_at(event, event::SECOND);
        let kind = event[event::THIRD];
        let domain = event[event::FOURTH];
        let key = u32_at(event, event::KEY);
        let verifying_key = u32_at(event, event::VERIFYING_KEY);
        let kind_holds = match kind {
            ROOT => verifying_key == 0 && (domain != MANUFACTURER || place == 0),
            ISSUED => verifying_key != 0,
            RECOVERY => verifying_key == 0 && domain != THIRD_PARTY && place == 0,
            _ => false,
        };
        if id == 0 || key == 0 || !kind_holds || !(OPERATOR..=THIRD_PARTY).contains(&domain) {
            return Err(MALFORMED);
        }
        check_actor(event, domain)?;
        let mut other_operator = false;
        if place != 0 {
            let operator = operator_of(self.cards, place).ok_or(UNKNOWN_CARD)?;
            if place != u16_at(self.header, header::CARD) {
                return Err(CARD_ABSENT);
            }
            other_operator =
                kind == ROOT && domain == OPERATOR && operator != u32_at(event, event::OWNER);
        }

        let mut key_of_other_domain = false;
        let mut free = None;
        for slot in self.certificates.chunks_exact_mut(certificate::SIZE) {
            let slot_id = u16_at(slot, certificate::ID);
            if slot_id == id {
                return Err(ID_TAKEN);
            }
            if slot_id == 0 {
                free = free.or(Some(slot));
            } else if u32_at(slot, certificate::KEY) == key && slot[certificate::DOMAIN] != domain {
                key_of_other_domain = true;
            }
        }
        if key_of_other_domain {
            return Err(KEY_OF_OTHER_DOMAIN);
        }
        if other_operator {
            return Err(OTHER_OPERATOR);
        }
        let slot = free.ok_or(NO_FREE_SLOT)?;

        let (mark, enabled) = match (kind, domain) {
            (ROOT, THIRD_PARTY) => (
                1,
                u8::from(u16_at(self.header, header::MODE) == u16::from(ENABLE_ALL)),
            ),
            (ROOT | RECOVERY, _) => (0, 1),
            _ => (1, 1),
        };
        // Event and record hold their fields in the same order, but for mark and enabled.
        slot[..certificate::MARK].copy_from_slice(&event[event::ID..event::KEY]);
        slot[certificate::MARK] = mark;
        slot[certificate::ENABLED] = enabled;
        slot[certificate::KEY..].copy_from_slice(&event[event::KEY..]);
        // One more record breaks no chain, so there is nothing to settle.
        DONE
    }

    fn delete_certificate(&mut self, event: &Event) -> Outcome {
        let now = Now::of(self.header);
        let at = self.certificate_to_change(event, now)?;
        let record = &mut self.certificates[at..at + certificate::SIZE];
        let was_link = now.can_be_link(record);
        record.fill(0);
        if was_link {
            self.settle();
        }
        DONE
    }

    fn mark_valid(&mut self, event: &Event) -> Outcome {
        let now = Now::of(self.header);
        let at = self.certificate_to_change(event, now)?;
        let record = &self.certificates[at..at + certificate::SIZE];
        let place = u16_at(record, certificate::PLACE);
        let domain = record[certificate::DOMAIN];
        if record[certificate::KIND] != ROOT {
            return Err(NOT_SUCH_A_ROOT);
        }
        if domain == OPERATOR && place == 0 && now.card != 0 {
            let owner = u32_at(record, certificate::OWNER);
            if operator_of(self.cards, now.card) != Some(owner) {
                return Err(OTHER_OPERATOR);
            }
        }
        // I5 leaves a root that is valid already no rival.
        if !now.is_valid_root(record, domain) {
            if self.has_rival(domain, place, now) {
                return Err(ANOTHER_IS_VALID);
            }
            if !now.is_in_date(record) {
                return Err(PAST_ITS_DATE);
            }
        }
        self.certificates[at + certificate::MARK] = 1;
        // One more trusted root breaks no chain; only the phone's root that gives way to a card's may.
        if domain == OPERATOR && place != 0 && self.unmark_on_phone(now, |_| true) {
            self.settle();
        }
        DONE
    }

    fn mark_invalid(&mut self, event: &Event) -> Outcome {
        let now = Now::of(self.header);
        let at = self.certificate_to_change(event, now)?;
        let record = &mut self.certificates[at..at + certificate::SIZE];
        if record[certificate::KIND] != ROOT {
            return Err(NOT_SUCH_A_ROOT);
        }
        let was_trusted = now.can_be_link(record);
        record[certificate::MARK] = 0;
        if was_trusted {
            self.settle();
        }
        DONE
    }

    fn configure(&mut self, event: &Event) -> Outcome {
        let mode = event[event::THIRD];
        let count = event[event::FOURTH];
        if event[event::ID..event::THIRD] != [0; 4]
            || mode > ENABLE_LISTED
            || count > event::MOST_LISTED
            || mode != ENABLE_LISTED && count != 0
        {
            return Err(MALFORMED);
        }
        let (listed, unused) = event[event::LIST..].split_at(2 * usize::from(count));
        let listed = listed.chunks_exact(2);
        if listed.clone().any(|id| *id == [0; 2]) || unused.iter().any(|&byte| byte != 0) {
            return Err(MALFORMED);
        }
        let mut all_are_roots = true;
        for id in listed.clone() {
            let record = certificates_in(self.certificates)
                .find(|record| record[..certificate::PLACE] == *id)
                .ok_or(UNKNOWN_ID)?;
            all_are_roots &= is_third_party_root(record);
        }
        check_actor(event, 0)?;
        if !all_are_roots {
            return Err(NOT_SUCH_A_ROOT);
        }

        set_u16(self.header, header::MODE, u16::from(mode));
        let mut chains_may_break = false;
        for record in self.certificates.chunks_exact_mut(certificate::SIZE) {
            if !is_third_party_root(record) {
                continue;
            }
            let enabled = match mode {
                DISABLE_ALL => false,
                ENABLE_ALL => true,
                _ => listed.clone().any(|id| record[..certificate::PLACE] == *id),
            };
            chains_may_break |= !enabled && record[certificate::ENABLED] == 1;
            record[certificate::ENABLED] = u8::from(enabled);
        }
        if chains_may_break {
            self.settle();
        }
        DONE
    }

    fn install_executable(&mut self, event: &Event) -> Outcome {
        let id = u16_at(event, event::ID);
        if id == 0
            || event[event::SECOND..event::KEY] != [0; 4]
            || event[event::VERIFYING_KEY..] != [0; 12]
        {
            return Err(MALFORMED);
        }
        check_actor(event, 0)?;
        let mut free = None;
        for slot in self.executables.chunks_exact_mut(executable::SIZE) {
            let slot_id = u16_at(slot, executable::ID);
            if slot_id == id {
                return Err(ID_TAKEN);
            }
            if slot_id == 0 && free.is_none() {
                free = Some(slot);
            }
        }
        let slot = free.ok_or(NO_FREE_SLOT)?;
        set_u16(slot, executable::ID, id);
        set_u32(slot, executable::KEY, u32_at(event, event::KEY));
        DONE
    }

    fn delete_executable(&mut self, event: &Event) -> Outcome {
        let executable = find_executable(self.executables, named_id(event)?)?;
        check_actor(event, 0)?;
        executable.fill(0);
        DONE
    }

    fn verify(&mut self, event: &Event) -> Outcome {
        let executable = find_executable(self.executables, named_id(event)?)?;
        check_actor(event, 0)?;
        let signing_key = u32_at(executable, executable::KEY);
        let (domain, links) = chain(self.certificates, Now::of(self.header), signing_key);
        executable[executable::DOMAIN] = domain;
        Ok((domain, links))
    }

    fn give_permission(&mut self, event: &Event) -> Outcome {
        let (executable, action) = self.executable_and_action(event)?;
        let permissions = u32_at(executable, executable::PERMISSIONS);
        set_u32(
            executable,
            executable::PERMISSIONS,
            permissions | 1 << action,
        );
        DONE
    }

    fn withdraw_permission(&mut self, event: &Event) -> Outcome {
        let (executable, action) = self.executable_and_action(event)?;
        let permissions = u32_at(executable, executable::PERMISSIONS);
        set_u32(
            executable,
            executable::PERMISSIONS,
            permissions & !(1 << action),
        );
        DONE
    }

    fn request(&mut self, event: &Event) -> Outcome {
        let (executable, action) = self.executable_and_action(event)?;
        let domain = executable[executable::DOMAIN];
        let permissions = u32_at(executable, executable::PERMISSIONS);
        let signing_key = u32_at(executable, executable::KEY);
        match self.table[action * action::SIZE + usize::from(domain)] {
            0 => Err(NEVER_GRANTED),
            1 if permissions >> action & 1 == 0 => Err(NO_PERMISSION),
            _ if domain == 0 => DONE,
            _ => Ok((
                domain,
                links(self.certificates, Now::of(self.header), domain, signing_key),
            )),
        }
    }

    fn replace(&mut self, event: &Event) -> Outcome {
        let id = u16_at(event, event::ID);
        let second = u16_at(event, event::SECOND);
        let key = u32_at(event, event::KEY);
        if id == 0 || second == 0 || key == 0 || event[event::THIRD..event::KEY] != [0; 2] {
            return Err(MALFORMED);
        }
        let mut named = (None, None);
        let mut domain_of_key = 0;
        for (slot, record) in certificates_in(self.certificates).enumerate() {
            let slot_id = u16_at(record, certificate::ID);
            if slot_id == id {
                named.0 = Some(slot * certificate::SIZE);
            }
            if slot_id == second {
                named.1 = Some(slot * certificate::SIZE);
            }
            // All records with one key have one domain, and a free slot has no key.
            if u32_at(record, certificate::KEY) == key {
                domain_of_key = record[certificate::DOMAIN];
            }
        }
        let at = named.0.ok_or(UNKNOWN_ID)?;
        let recovery_at = named.1.ok_or(UNKNOWN_ID)?;
        let record = &self.certificates[at..at + certificate::SIZE];
        let recovery = &self.certificates[recovery_at..recovery_at + certificate::SIZE];
        let domain = record[certificate::DOMAIN];
        // A third party record in either place leaves it to nobody.
        match recovery[certificate::DOMAIN] {
            THIRD_PARTY => check_actor(event, THIRD_PARTY)?,
            _ => check_actor(event, domain)?,
        }
        let now = Now::of(self.header);
        if !now.is_present(record) {
            return Err(CARD_ABSENT);
        }
        if domain_of_key != 0 && domain_of_key != domain {
            return Err(KEY_OF_OTHER_DOMAIN);
        }
        if record[certificate::KIND] != ROOT {
            return Err(NOT_SUCH_A_ROOT);
        }
        let place = u16_at(record, certificate::PLACE);
        let owner = u32_at(record, certificate::OWNER);
        if domain == OPERATOR
            && place == 0
            && now.card != 0
            && operator_of(self.cards, now.card) != Some(owner)
        {
            return Err(OTHER_OPERATOR);
        }
        let was_valid = now.is_valid_root(record, domain);
        // I5 leaves a root that is valid already no rival.
        if !was_valid && self.has_rival(domain, place, now) {
            return Err(ANOTHER_IS_VALID);
        }
        let recovery_fits = recovery[certificate::KIND] == RECOVERY
            && recovery[certificate::DOMAIN] == domain
            && place == 0
            && owner == u32_at(recovery, certificate::OWNER)
            && owner == u32_at(event, event::OWNER)
            && u32_at(event, event::VERIFYING_KEY) == u32_at(recovery, certificate::KEY);
        if !recovery_fits {
            return Err(NO_RECOVERY_KEY);
        }
        // The date that it brings, and neither the root's own nor the recovery record's.
        if u32_at(event, event::EXPIRY) < now.clock {
            return Err(PAST_ITS_DATE);
        }
        let had_the_key = u32_at(record, certificate::KEY) == key;
        let record = &mut self.certificates[at..at + certificate::SIZE];
        record[certificate::MARK] = 1;
        record[certificate::KEY..certificate::VERIFYING_KEY]
            .copy_from_slice(&event[event::KEY..event::VERIFYING_KEY]);
        record[certificate::OWNER..].copy_from_slice(&event[event::OWNER..]);
        // Only a key that was trusted and is gone can break a chain.
        if was_valid && !had_the_key {
            self.settle();
        }
        DONE
    }

    /// Whether another root is valid where one that is not would become so.
    #[inline]
    fn has_rival(&self, domain: u8, place: u16, now: Now) -> bool {
        let mut valid_roots =
            certificates_in(self.certificates).filter(|other| now.is_valid_root(other, domain));
        match domain {
            // The place is present: on a card its own roots count, on the phone both.
            OPERATOR if place != 0 => {
                valid_roots.any(|other| u16_at(other, certificate::PLACE) == place)
            }
            OPERATOR => valid_roots.any(|other| now.is_present(other)),
            MANUFACTURER => valid_roots.next().is_some(),
            _ => false,
        }
    }

    /// Where the certificate named by an event of kind 6, 7 or 8 stands, after codes 2, 3, 4 and 8.
    #[inline]
    fn certificate_to_change(&self, event: &Event, now: Now) -> Result<usize, u8> {
        let id = owned_id(event)?;
        let slot = certificates_in(self.certificates)
            .position(|record| u16_at(record, certificate::ID) == id)
            .ok_or(UNKNOWN_ID)?;
        let at = slot * certificate::SIZE;
        let record = &self.certificates[at..at + certificate::SIZE];
        check_actor(event, record[certificate::DOMAIN])?;
        if names_itself(event)
            && event[event::OWNER..event::EXPIRY] != record[certificate::OWNER..certificate::EXPIRY]
        {
            return Err(NOT_ALLOWED);
        }
        if !now.is_present(record) {
            return Err(CARD_ABSENT);
        }
        Ok(at)
    }

    /// What an event of kind 13, 14 or 15 names, after codes 2, 3 and 4.
    #[inline]
    fn executable_and_action(&mut self, event: &Event) -> Result<(&mut [u8], usize), u8> {
        let id = u16_at(event, event::ID);
        let action = usize::from(u16_at(event, event::SECOND));
        if id == 0 || action >= self.table.len() / action::SIZE || event[event::THIRD..] != [0; 18]
        {
            return Err(MALFORMED);
        }
        let executable = find_executable(self.executables, id)?;
        check_actor(event, 0)?;
        Ok((executable, action))
    }

    /// Whether a card takes any record away when it leaves.
    #[inline]
    fn has_certificate_on(&self, card: u16) -> bool {
        certificates_in(self.certificates).any(|record| u16_at(record, certificate::PLACE) == card)
    }

    /// Takes the marks of the phone's operator roots where the card that came in does not go with
    /// them. Whether the card has a valid root goes by its date; on the phone every mark counts, past
    /// its date or not. Says whether a valid one fell.
    #[inline]
    fn apply_card_rule(&mut self, card: u16, operator: u32) -> bool {
        let now = Now {
            card,
            ..Now::of(self.header)
        };
        let mut is_marked_on_phone = false;
        let mut is_valid_on_card = false;
        for record in certificates_in(self.certificates) {
            if is_marked_root(record, OPERATOR) {
                match u16_at(record, certificate::PLACE) {
                    0 => is_marked_on_phone = true,
                    place => is_valid_on_card |= place == card && now.is_in_date(record),
                }
            }
        }
        is_marked_on_phone
            && self.unmark_on_phone(now, |owner| is_valid_on_card || owner != operator)
    }

    /// Takes the marks of the operator roots on the phone of such owners, and says whether one of them
    /// was valid: only that breaks chains. I5 allows one valid root there, and any number past their dates.
    #[inline]
    fn unmark_on_phone(&mut self, now: Now, falls: impl Fn(u32) -> bool) -> bool {
        let mut was_one_valid = false;
        for record in self.certificates.chunks_exact_mut(certificate::SIZE) {
            if is_marked_root(record, OPERATOR)
                && u16_at(record, certificate::PLACE) == 0
                && falls(u32_at(record, certificate::OWNER))
            {
                was_one_valid |= now.is_in_date(record);
                record[certificate::MARK] = 0;
            }
        }
        was_one_valid
    }

    /// Takes the domain of every executable that no longer chains to it.
    fn settle(&mut self) {
        if has_no_domains(self.executables) {
            return;
        }
        let good = GoodKeys::find(self.certificates, Now::of(self.header));
        for record in self.executables.chunks_exact_mut(executable::SIZE) {
            let domain = record[executable::DOMAIN];
            if domain != 0 && !good.contains(domain, u32_at(record, executable::KEY)) {
                record[executable::DOMAIN] = 0;
            }
        }
    }
}

#[inline]
fn check_actor(event: &Event, domain: u8) -> Result<(), u8> {
    let allowed = MAY_ACT[usize::from(event[event::KIND])][usize::from(domain)];
    if allowed >> event[event::ACTOR] & 1 == 1 {
        Ok(())
    } else {
        Err(NOT_ALLOWED)
    }
}

/// Whether the actor is an operator or a manufacturer, who says which one it is where it deletes or marks a certificate.
#[inline]
fn names_itself(event: &Event) -> bool {
    (2..=3).contains(&event[event::ACTOR])
}

/// The id of an event that uses no other field but, by some actors, the owner.
#[inline]
fn owned_id(event: &Event) -> Result<u16, u8> {
    let id = u16_at(event, event::ID);
    if id == 0
        || event[event::SECOND..event::OWNER] != [0; 12]
        || event[event::EXPIRY..] != [0; 4]
        || !names_itself(event) && event[event::OWNER..event::EXPIRY] != [0; 4]
    {
        return Err(MALFORMED);
    }
    Ok(id)
}

/// The id of an event that uses no other field.
#[inline]
fn named_id(event: &Event) -> Result<u16, u8> {
    let id = u16_at(event, event::ID);
    if id == 0 || event[event::SECOND..] != [0; 20] {
        return Err(MALFORMED);
    }
    Ok(id)
}

#[inline]
fn find_executable(executables: &mut [u8], id: u16) -> Result<&mut [u8], u8> {
    executables
        .chunks_exact_mut(executable::SIZE)
        .find(|record| u16_at(record, executable::ID) == id)
        .ok_or(UNKNOWN_ID)
}

#[inline]
fn is_third_party_root(record: &[u8]) -> bool {
    record[certificate::DOMAIN] == THIRD_PARTY && record[certificate::KIND] == ROOT
}
