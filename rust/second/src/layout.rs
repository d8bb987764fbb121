//! Taking a case file apart into records, in either version, with the refusals 1 to 5 and 17.

const HEADER_BYTES: usize = 36;
const LARGEST_FILE: usize = 65_000;
const PAST_BYTES: usize = 12;
const MOST_PAST: usize = 256;

/// "17 when .. a number above 999,999".
const LARGEST_UNIT_NUMBER: u32 = 999_999;

/// A version of the case file.
#[derive(Clone, Copy, Debug, PartialEq, Eq)]
pub enum Version {
    /// A record names its unit by a u16, in what version 2 calls the old field.
    One,
    /// A record names its unit by a u32 that is added at its end; the old field is 0.
    Two,
}

impl Version {
    /// The version of a header's number, if there is one.
    fn from_number(number: u16) -> Option<Version> {
        match number {
            1 => Some(Version::One),
            2 => Some(Version::Two),
            _ => None,
        }
    }

    /// Bytes that the version adds at the end of a record that names a unit.
    fn added_bytes(self) -> usize {
        match self {
            Version::One => 0,
            Version::Two => 4,
        }
    }
}

/// The form of the records that name a unit: those of units, references and events.
#[derive(Clone, Copy, Debug)]
struct Form {
    /// Bytes of a record in version 1, which version 2 has too.
    bytes: usize,
    /// Where version 1 has the unit number.
    old_field: usize,
    most_records: usize,
}

const UNITS: Form = Form {
    bytes: 24,
    old_field: 0,
    most_records: 64,
};
const REFERENCES: Form = Form {
    bytes: 8,
    old_field: 0,
    most_records: 256,
};
const EVENTS: Form = Form {
    bytes: 312,
    old_field: 2,
    most_records: 200,
};

/// A record that names a unit.
#[derive(Clone, Copy, Debug)]
pub struct Record<'a> {
    /// The number of the unit, from where the version has it.
    pub unit: u32,
    /// The bytes that both versions have; the unit number is not to be read from them.
    pub bytes: &'a [u8],
}

impl Form {
    fn width(self, version: Version) -> usize {
        self.bytes + version.added_bytes()
    }

    fn fits(self, section: &[u8], version: Version) -> bool {
        is_of_records(section, self.width(version), self.most_records)
    }

    /// The records of a section that fits, unless one of them has no unit number.
    fn records(self, section: &[u8], version: Version) -> Option<Vec<Record<'_>>> {
        section
            .chunks_exact(self.width(version))
            .map(|record| {
                let (bytes, added) = record.split_at(self.bytes);
                let old = u16_at(bytes, self.old_field);
                let unit = match version {
                    Version::One => u32::from(old),
                    Version::Two if old == 0 => u32_at(added, 0),
                    Version::Two => return None,
                };
                // Every u16 is a number of version 1: none is as high as this.
                (unit <= LARGEST_UNIT_NUMBER).then_some(Record { unit, bytes })
            })
            .collect()
    }
}

/// Whether a section is a whole number of records, and of no more than there may be.
fn is_of_records(section: &[u8], width: usize, most: usize) -> bool {
    section.len().is_multiple_of(width) && section.len() / width <= most
}

/// The records of a case file, none of them read yet.
#[derive(Clone, Debug)]
pub struct Records<'a> {
    pub version: Version,
    pub units: Vec<Record<'a>>,
    pub references: Vec<Record<'a>>,
    /// A past entry names a group and no unit, and is the same in both versions.
    pub past: Vec<&'a [u8]>,
    pub events: Vec<Record<'a>>,
}

/// The records of a file, or the first of the numbers 1 to 5 and then 17 that it breaks.
pub fn records(file: &[u8]) -> Result<Records<'_>, u8> {
    if !(HEADER_BYTES..=LARGEST_FILE).contains(&file.len()) {
        return Err(1);
    }
    let version = Version::from_number(u16_at(file, 0)).ok_or(2)?;
    if u16_at(file, 2) != 4 {
        return Err(3);
    }
    let [units, references, past, events] = sections(file).ok_or(4)?;
    if !UNITS.fits(units, version)
        || !REFERENCES.fits(references, version)
        || !is_of_records(past, PAST_BYTES, MOST_PAST)
        || !EVENTS.fits(events, version)
    {
        return Err(5);
    }
    Ok(Records {
        version,
        units: UNITS.records(units, version).ok_or(17)?,
        references: REFERENCES.records(references, version).ok_or(17)?,
        past: past.chunks_exact(PAST_BYTES).collect(),
        events: EVENTS.records(events, version).ok_or(17)?,
    })
}

/// The records of a correction, which "has its case's width", unless it breaks 8 by its length or
/// by what would be 17 in a case.
pub fn correction_records(correction: &[u8], version: Version) -> Option<Vec<Record<'_>>> {
    if REFERENCES.fits(correction, version) {
        REFERENCES.records(correction, version)
    } else {
        None
    }
}

/// The four sections, if the pairs follow on from byte 36 to the file's end.
fn sections(file: &[u8]) -> Option<[&[u8]; 4]> {
    let mut found: [&[u8]; 4] = [&[]; 4];
    let mut end = HEADER_BYTES as u64;
    for (place, section) in found.iter_mut().enumerate() {
        let offset = u64::from(u32_at(file, 4 + 8 * place));
        let length = u64::from(u32_at(file, 8 + 8 * place));
        if offset != end {
            return None;
        }
        // Whole numbers: the sum of two u32 never wraps in u64.
        end = offset + length;
        *section = file.get(usize::try_from(offset).ok()?..usize::try_from(end).ok()?)?;
    }
    (end == file.len() as u64).then_some(found)
}

/// The four bytes of a word.
pub fn word_at(bytes: &[u8], at: usize) -> [u8; 4] {
    [bytes[at], bytes[at + 1], bytes[at + 2], bytes[at + 3]]
}

/// A u16, little-endian.
pub fn u16_at(bytes: &[u8], at: usize) -> u16 {
    u16::from_le_bytes([bytes[at], bytes[at + 1]])
}

/// A u32, little-endian.
pub fn u32_at(bytes: &[u8], at: usize) -> u32 {
    u32::from_le_bytes(word_at(bytes, at))
}
