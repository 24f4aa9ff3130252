//! The phone's state as Rust values, and how it is laid out in bytes.
//!
//! Follows 01, "The image": sizes, offsets and the order of the fields. What the fields may
//! hold is not decided here but in `image_rules`, so the records keep every byte as it is.

/// The longest image: 40 + 64 * 24 + 8 * 8 + 64 * 12 + 32 * 4.
pub const LARGEST_IMAGE: usize = 2536;

pub const MOST_CERTIFICATES: usize = 64;
pub const MOST_CARDS: usize = 8;
pub const MOST_EXECUTABLES: usize = 64;
pub const MOST_ACTIONS: usize = 32;

/// Domains, as numbers that stand in records.
pub const UNTRUSTED: u8 = 0;
pub const OPERATOR: u8 = 1;
pub const MANUFACTURER: u8 = 2;
pub const THIRD_PARTY: u8 = 3;

/// Certificate kinds.
pub const ROOT: u8 = 0;
pub const ISSUED: u8 = 1;
pub const RECOVERY: u8 = 2;
pub const LAST_CERTIFICATE_KIND: u8 = RECOVERY;

/// Standing message modes.
pub const DISABLE_ALL: u8 = 0;
pub const ENABLE_ALL: u8 = 1;
pub const ENABLE_LISTED: u8 = 2;

/// Reads a big-endian u16; the caller has made sure that the bytes are there.
pub fn u16_at(bytes: &[u8], at: usize) -> u16 {
    u16::from_be_bytes([bytes[at], bytes[at + 1]])
}

/// Reads a big-endian u32; the caller has made sure that the bytes are there.
pub fn u32_at(bytes: &[u8], at: usize) -> u32 {
    u32::from_be_bytes([bytes[at], bytes[at + 1], bytes[at + 2], bytes[at + 3]])
}

/// The 40 bytes before the parts.
#[derive(Clone, Copy, Debug, PartialEq, Eq)]
pub struct Header {
    pub version: u16,
    pub certificate_slots: u16,
    pub cards: u16,
    pub executable_slots: u16,
    pub actions: u16,
    pub mode: u16,
    pub card_present: u16,
    pub zero: u16,
    pub clock: u32,
    pub certificates_at: u32,
    pub cards_at: u32,
    pub executables_at: u32,
    pub table_at: u32,
    pub total: u32,
}

impl Header {
    pub const SIZE: usize = 40;

    /// The header of a buffer, or nothing where the buffer is too short to have one.
    pub fn decode(bytes: &[u8]) -> Option<Header> {
        if bytes.len() < Header::SIZE {
            return None;
        }
        Some(Header {
            version: u16_at(bytes, 0),
            certificate_slots: u16_at(bytes, 2),
            cards: u16_at(bytes, 4),
            executable_slots: u16_at(bytes, 6),
            actions: u16_at(bytes, 8),
            mode: u16_at(bytes, 10),
            card_present: u16_at(bytes, 12),
            zero: u16_at(bytes, 14),
            clock: u32_at(bytes, 16),
            certificates_at: u32_at(bytes, 20),
            cards_at: u32_at(bytes, 24),
            executables_at: u32_at(bytes, 28),
            table_at: u32_at(bytes, 32),
            total: u32_at(bytes, 36),
        })
    }

    pub fn encode(&self, out: &mut Vec<u8>) {
        for half in [
            self.version,
            self.certificate_slots,
            self.cards,
            self.executable_slots,
            self.actions,
            self.mode,
            self.card_present,
            self.zero,
        ] {
            out.extend(half.to_be_bytes());
        }
        for word in [
            self.clock,
            self.certificates_at,
            self.cards_at,
            self.executables_at,
            self.table_at,
            self.total,
        ] {
            out.extend(word.to_be_bytes());
        }
    }
}

/// One certificate record of 24 bytes.
#[derive(Clone, Copy, Debug, PartialEq, Eq)]
pub struct Certificate {
    pub id: u16,
    /// 0 is the phone, anything else a card's number.
    pub place: u16,
    pub kind: u8,
    pub domain: u8,
    pub mark: u8,
    pub enabled: u8,
    pub key: u32,
    pub verifying_key: u32,
    pub owner: u32,
    pub expiry: u32,
}

impl Certificate {
    pub const SIZE: usize = 24;

    pub fn decode(bytes: &[u8]) -> Certificate {
        Certificate {
            id: u16_at(bytes, 0),
            place: u16_at(bytes, 2),
            kind: bytes[4],
            domain: bytes[5],
            mark: bytes[6],
            enabled: bytes[7],
            key: u32_at(bytes, 8),
            verifying_key: u32_at(bytes, 12),
            owner: u32_at(bytes, 16),
            expiry: u32_at(bytes, 20),
        }
    }

    pub fn encode(&self, out: &mut Vec<u8>) {
        out.extend(self.id.to_be_bytes());
        out.extend(self.place.to_be_bytes());
        out.extend([self.kind, self.domain, self.mark, self.enabled]);
        for word in [self.key, self.verifying_key, self.owner, self.expiry] {
            out.extend(word.to_be_bytes());
        }
    }

    pub fn is_root_of(&self, domain: u8) -> bool {
        self.kind == ROOT && self.domain == domain
    }

    /// In date through the second that it names.
    pub fn is_in_date(&self, clock: u32) -> bool {
        clock <= self.expiry
    }

    /// Marked valid and not past its date: a mark alone does not make a root valid.
    pub fn is_valid_root_of(&self, domain: u8, clock: u32) -> bool {
        self.is_root_of(domain) && self.mark == 1 && self.is_in_date(clock)
    }
}

/// One card record of 8 bytes.
#[derive(Clone, Copy, Debug, PartialEq, Eq)]
pub struct Card {
    pub number: u16,
    pub zero: u16,
    pub operator: u32,
}

impl Card {
    pub const SIZE: usize = 8;

    pub fn decode(bytes: &[u8]) -> Card {
        Card {
            number: u16_at(bytes, 0),
            zero: u16_at(bytes, 2),
            operator: u32_at(bytes, 4),
        }
    }

    pub fn encode(&self, out: &mut Vec<u8>) {
        out.extend(self.number.to_be_bytes());
        out.extend(self.zero.to_be_bytes());
        out.extend(self.operator.to_be_bytes());
    }
}

/// One executable record of 12 bytes.
#[derive(Clone, Copy, Debug, PartialEq, Eq)]
pub struct Executable {
    pub id: u16,
    pub domain: u8,
    pub zero: u8,
    /// 0 is unsigned.
    pub signing_key: u32,
    /// One bit for each action, action 0 in the lowest.
    pub permissions: u32,
}

impl Executable {
    pub const SIZE: usize = 12;

    pub fn decode(bytes: &[u8]) -> Executable {
        Executable {
            id: u16_at(bytes, 0),
            domain: bytes[2],
            zero: bytes[3],
            signing_key: u32_at(bytes, 4),
            permissions: u32_at(bytes, 8),
        }
    }

    pub fn encode(&self, out: &mut Vec<u8>) {
        out.extend(self.id.to_be_bytes());
        out.extend([self.domain, self.zero]);
        out.extend(self.signing_key.to_be_bytes());
        out.extend(self.permissions.to_be_bytes());
    }

    pub fn has_permission(&self, action: u16) -> bool {
        self.permissions & permission_bit(action) != 0
    }
}

/// The bit of one action; 0 where the number is beyond any table.
pub fn permission_bit(action: u16) -> u32 {
    1u32.checked_shl(u32::from(action)).unwrap_or(0)
}

/// The four bytes of one action, for domains 0, 1, 2, 3.
pub type TableRow = [u8; 4];
pub const TABLE_ROW_SIZE: usize = 4;

/// The whole state of one phone. A free slot is `None`.
#[derive(Clone, Debug, PartialEq, Eq)]
pub struct Phone {
    pub mode: u16,
    /// 0 is no card.
    pub card_present: u16,
    pub clock: u32,
    pub certificates: Vec<Option<Certificate>>,
    pub cards: Vec<Card>,
    pub executables: Vec<Option<Executable>>,
    pub table: Vec<TableRow>,
}

impl Phone {
    /// The phone in an image. Nothing where the length does not fit the header's counts.
    /// Only the layout is looked at here; ask `image_rules` whether the image is accepted.
    pub fn decode(bytes: &[u8]) -> Option<Phone> {
        let header = Header::decode(bytes)?;
        let certificates_end =
            Header::SIZE + usize::from(header.certificate_slots) * Certificate::SIZE;
        let cards_end = certificates_end + usize::from(header.cards) * Card::SIZE;
        let executables_end = cards_end + usize::from(header.executable_slots) * Executable::SIZE;
        let table_end = executables_end + usize::from(header.actions) * TABLE_ROW_SIZE;
        if bytes.len() != table_end {
            return None;
        }
        Some(Phone {
            mode: header.mode,
            card_present: header.card_present,
            clock: header.clock,
            certificates: bytes[Header::SIZE..certificates_end]
                .chunks_exact(Certificate::SIZE)
                .map(|slot| occupied(slot).map(Certificate::decode))
                .collect(),
            cards: bytes[certificates_end..cards_end]
                .chunks_exact(Card::SIZE)
                .map(Card::decode)
                .collect(),
            executables: bytes[cards_end..executables_end]
                .chunks_exact(Executable::SIZE)
                .map(|slot| occupied(slot).map(Executable::decode))
                .collect(),
            table: bytes[executables_end..table_end]
                .chunks_exact(TABLE_ROW_SIZE)
                .map(|row| [row[0], row[1], row[2], row[3]])
                .collect(),
        })
    }

    /// The header that goes with these parts: counts, offsets and total follow from them.
    pub fn header(&self) -> Header {
        let certificates_at = Header::SIZE;
        let cards_at = certificates_at + self.certificates.len() * Certificate::SIZE;
        let executables_at = cards_at + self.cards.len() * Card::SIZE;
        let table_at = executables_at + self.executables.len() * Executable::SIZE;
        let total = table_at + self.table.len() * TABLE_ROW_SIZE;
        Header {
            version: 1,
            certificate_slots: self.certificates.len() as u16,
            cards: self.cards.len() as u16,
            executable_slots: self.executables.len() as u16,
            actions: self.table.len() as u16,
            mode: self.mode,
            card_present: self.card_present,
            zero: 0,
            clock: self.clock,
            certificates_at: certificates_at as u32,
            cards_at: cards_at as u32,
            executables_at: executables_at as u32,
            table_at: table_at as u32,
            total: total as u32,
        }
    }

    pub fn encode(&self) -> Vec<u8> {
        let mut out = Vec::with_capacity(LARGEST_IMAGE);
        self.header().encode(&mut out);
        for slot in &self.certificates {
            match slot {
                Some(certificate) => certificate.encode(&mut out),
                None => out.extend([0; Certificate::SIZE]),
            }
        }
        for card in &self.cards {
            card.encode(&mut out);
        }
        for slot in &self.executables {
            match slot {
                Some(executable) => executable.encode(&mut out),
                None => out.extend([0; Executable::SIZE]),
            }
        }
        for row in &self.table {
            out.extend(row);
        }
        out
    }

    /// All certificates that are there, in slot order.
    pub fn occupied_certificates(&self) -> impl Iterator<Item = &Certificate> {
        self.certificates.iter().flatten()
    }

    /// All executables that are there, in slot order.
    pub fn occupied_executables(&self) -> impl Iterator<Item = &Executable> {
        self.executables.iter().flatten()
    }

    pub fn certificate(&self, id: u16) -> Option<&Certificate> {
        self.occupied_certificates().find(|c| c.id == id)
    }

    pub fn executable(&self, id: u16) -> Option<&Executable> {
        self.occupied_executables().find(|e| e.id == id)
    }

    pub fn card(&self, number: u16) -> Option<&Card> {
        self.cards.iter().find(|card| card.number == number)
    }

    /// The record of the present card, if one is present.
    pub fn present_card(&self) -> Option<&Card> {
        match self.card_present {
            0 => None,
            number => self.card(number),
        }
    }

    /// A place is present if it is the phone itself or the present card.
    pub fn is_present(&self, place: u16) -> bool {
        place == 0 || place == self.card_present
    }
}

/// A slot's bytes where any of them is not zero.
fn occupied(slot: &[u8]) -> Option<&[u8]> {
    slot.iter().any(|&byte| byte != 0).then_some(slot)
}
