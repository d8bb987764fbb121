//! The case file as four sections of records, and the widths of all that stands in it: docs/FORMAT.md.

/// Bytes before the first section.
pub const HEADER_BYTES: usize = 36;
/// Bytes of the largest file.
pub const LARGEST_FILE: usize = 65_000;
/// Bytes of a past entry, which names no unit, in both versions.
pub const PAST_BYTES: usize = 12;
/// Bytes of an event before its hour cells.
pub const EVENT_HEAD_BYTES: usize = 24;
/// Bytes of an hour cell.
pub const CELL_BYTES: usize = 12;
/// Hours of a day.
pub const HOURS: usize = 24;
/// Bytes of a row in the rows buffer.
pub const ROW_BYTES: usize = 128;

/// A version of the case file: it decides how wide a record is, and where the number of its unit stands.
#[derive(Clone, Copy, Debug, PartialEq, Eq, PartialOrd, Ord, Hash)]
pub enum Version {
    /// Unit numbers of two bytes.
    One,
    /// Unit numbers of six digits: four bytes at the record's end, the old two bytes 0.
    Two,
}

/// The highest unit number of version 2.
pub const HIGHEST_UNIT_NUMBER: u32 = 999_999;
/// Bytes at the end of a unit, a reference and an event of version 2: the number of the unit.
const NUMBER_BYTES: usize = 4;

impl Version {
    /// The versions, the oldest first.
    pub const ALL: [Version; 2] = [Version::One, Version::Two];

    /// The version of this number.
    pub fn of(number: u16) -> Option<Version> {
        Version::ALL
            .into_iter()
            .find(|version| version.number() == number)
    }

    /// Its number in the header.
    pub const fn number(self) -> u16 {
        match self {
            Version::One => 1,
            Version::Two => 2,
        }
    }
}

/// A section of the case file.
#[derive(Clone, Copy, Debug, PartialEq, Eq)]
pub enum Section {
    /// Unit records.
    Units,
    /// Reference records.
    References,
    /// Past entries.
    Past,
    /// Event records.
    Events,
}

impl Section {
    /// The sections in the order of the file.
    pub const ALL: [Section; 4] = [
        Section::Units,
        Section::References,
        Section::Past,
        Section::Events,
    ];

    /// Bytes of one record in that version; of a correction those of its case's references.
    pub const fn width(self, version: Version) -> usize {
        match (version, self) {
            (Version::One, _) | (_, Section::Past) => self.old_width(),
            (Version::Two, _) => self.old_width() + NUMBER_BYTES,
        }
    }

    /// Bytes of one record of version 1, which one of version 2 begins with.
    const fn old_width(self) -> usize {
        match self {
            Section::Units => 24,
            Section::References => 8,
            Section::Past => PAST_BYTES,
            Section::Events => EVENT_HEAD_BYTES + CELL_BYTES * HOURS,
        }
    }

    /// Where the two bytes of a unit's number stand in a record of version 1; a past entry names no unit.
    const fn old_place(self) -> Option<usize> {
        match self {
            Section::Units | Section::References => Some(0),
            Section::Past => None,
            Section::Events => Some(2),
        }
    }

    /// The old two bytes of a record: the number in version 1, 0 in a good record of version 2.
    pub fn old_number(self, record: &[u8]) -> u16 {
        self.old_place().map_or(0, |at| u16_at(record, at))
    }

    /// The number of the unit that a record is of or names; 0 of a past entry, which names none.
    pub fn unit_number(self, version: Version, record: &[u8]) -> u32 {
        match (version, self) {
            (_, Section::Past) => 0,
            (Version::One, _) => u32::from(self.old_number(record)),
            (Version::Two, _) => u32_at(record, self.old_width()),
        }
    }

    /// Writes the number of the unit that a record is of or names; in version 1 it has to fit into two bytes.
    pub fn put_unit_number(self, version: Version, record: &mut [u8], number: u32) {
        match (version, self.old_place()) {
            (_, None) => {}
            (Version::One, Some(at)) => {
                put_u16(record, at, u16::try_from(number).expect("two bytes"));
            }
            (Version::Two, Some(at)) => {
                put_u16(record, at, 0);
                put_u32(record, self.old_width(), number);
            }
        }
    }

    /// The most records that it may have.
    pub const fn most(self) -> usize {
        match self {
            Section::Units => 64,
            Section::References | Section::Past => 256,
            Section::Events => 200,
        }
    }

    /// Its name in docs/FORMAT.md.
    pub fn name(self) -> &'static str {
        match self {
            Section::Units => "units",
            Section::References => "references",
            Section::Past => "past",
            Section::Events => "events",
        }
    }
}

/// The sections of a case file: each is that stretch of the file itself.
#[derive(Clone, Copy, Debug)]
pub struct Sections<'a> {
    version: Version,
    parts: [&'a [u8]; 4],
}

impl<'a> Sections<'a> {
    /// The sections of a file that breaks none of the numbers 1 to 5; otherwise none.
    pub fn of(file: &'a [u8]) -> Option<Sections<'a>> {
        if !(HEADER_BYTES..=LARGEST_FILE).contains(&file.len()) || u16_at(file, 2) != 4 {
            return None;
        }
        let version = Version::of(u16_at(file, 0))?;
        let mut found: [&[u8]; 4] = [&[]; 4];
        let mut end = HEADER_BYTES as u64;
        for (section, part) in Section::ALL.into_iter().zip(&mut found) {
            let (offset, length) = pair(file, section);
            if offset != end {
                return None;
            }
            end = offset + length;
            *part = file.get(usize::try_from(offset).ok()?..usize::try_from(end).ok()?)?;
            let (bytes, most) = (section.width(version), section.most());
            if !part.len().is_multiple_of(bytes) || part.len() / bytes > most {
                return None;
            }
        }
        (end == file.len() as u64).then_some(Sections {
            version,
            parts: found,
        })
    }

    /// The version of the file.
    pub fn version(&self) -> Version {
        self.version
    }

    /// The bytes of a section.
    pub fn bytes(&self, section: Section) -> &'a [u8] {
        self.parts[section as usize]
    }

    /// The records of a section.
    pub fn records(&self, section: Section) -> impl Iterator<Item = &'a [u8]> + use<'a> {
        self.bytes(section)
            .chunks_exact(section.width(self.version))
    }

    /// How many records a section has.
    pub fn count(&self, section: Section) -> usize {
        self.bytes(section).len() / section.width(self.version)
    }

    /// The record of the unit with this number.
    pub fn unit(&self, number: u32) -> Option<&'a [u8]> {
        self.records(Section::Units)
            .find(|record| Section::Units.unit_number(self.version, record) == number)
    }
}

/// Offset and length of a section as its pair has them, in a file of at least 36 bytes.
pub fn pair(file: &[u8], section: Section) -> (u64, u64) {
    let at = 4 + 8 * section as usize;
    (u64::from(u32_at(file, at)), u64::from(u32_at(file, at + 4)))
}

/// The file of four sections: version, section count, pairs that follow on, then the sections.
pub fn file_in(version: Version, sections: &[Vec<u8>; 4]) -> Vec<u8> {
    let mut file = Vec::new();
    file.extend(version.number().to_le_bytes());
    file.extend(4_u16.to_le_bytes());
    let mut offset = HEADER_BYTES;
    for section in sections {
        file.extend((offset as u32).to_le_bytes());
        file.extend((section.len() as u32).to_le_bytes());
        offset += section.len();
    }
    for section in sections {
        file.extend(section);
    }
    file
}

/// The records of a section in another version; none where a number has more than the two bytes that version 1 has for it.
pub fn converted(section: Section, records: &[u8], from: Version, to: Version) -> Option<Vec<u8>> {
    let mut bytes = Vec::with_capacity(records.len());
    for record in records.chunks_exact(section.width(from)) {
        let number = section.unit_number(from, record);
        if to == Version::One {
            u16::try_from(number).ok()?;
        }
        let start = bytes.len();
        bytes.extend(&record[..section.old_width()]);
        bytes.resize(start + section.width(to), 0);
        section.put_unit_number(to, &mut bytes[start..], number);
    }
    Some(bytes)
}

/// The hour cell of an event.
pub fn cell(event: &[u8], hour: usize) -> &[u8] {
    let at = EVENT_HEAD_BYTES + CELL_BYTES * hour;
    &event[at..at + CELL_BYTES]
}

/// A little-endian u16.
pub fn u16_at(bytes: &[u8], at: usize) -> u16 {
    u16::from_le_bytes([bytes[at], bytes[at + 1]])
}

/// A little-endian u32.
pub fn u32_at(bytes: &[u8], at: usize) -> u32 {
    u32::from_le_bytes([bytes[at], bytes[at + 1], bytes[at + 2], bytes[at + 3]])
}

/// A little-endian u64.
pub fn u64_at(bytes: &[u8], at: usize) -> u64 {
    u64::from(u32_at(bytes, at)) | u64::from(u32_at(bytes, at + 4)) << 32
}

/// Writes a little-endian u16.
pub fn put_u16(bytes: &mut [u8], at: usize, value: u16) {
    bytes[at..at + 2].copy_from_slice(&value.to_le_bytes());
}

/// Writes a little-endian u32.
pub fn put_u32(bytes: &mut [u8], at: usize, value: u32) {
    bytes[at..at + 4].copy_from_slice(&value.to_le_bytes());
}
