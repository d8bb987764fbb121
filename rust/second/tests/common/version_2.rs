//! Version 2 files, made from the bytes of version 1 files.

/// The sections by their place in the file.
pub const UNITS: usize = 0;
pub const REFERENCES: usize = 1;
pub const PAST: usize = 2;
pub const EVENTS: usize = 3;

/// Bytes of a version 1 record and the place of its unit number; a past entry names no unit.
const RECORDS: [(usize, Option<usize>); 4] =
    [(24, Some(0)), (8, Some(0)), (12, None), (312, Some(2))];

/// Bytes of a version 2 record.
pub const WIDTHS: [usize; 4] = [28, 12, 12, 316];

/// A file of this version with these sections, one after the other.
pub fn file_of(version: u16, sections: &[Vec<u8>; 4]) -> Vec<u8> {
    let mut file = version.to_le_bytes().to_vec();
    file.extend([4, 0]);
    let mut offset = 36;
    for section in sections {
        file.extend((offset as u32).to_le_bytes());
        file.extend((section.len() as u32).to_le_bytes());
        offset += section.len();
    }
    file.extend(sections.concat());
    file
}

/// The sections of a file whose pairs follow on.
pub fn sections_of(file: &[u8]) -> [Vec<u8>; 4] {
    let word = |at: usize| u32::from_le_bytes(file[at..at + 4].try_into().unwrap()) as usize;
    [4, 12, 20, 28].map(|at| file[word(at)..word(at) + word(at + 4)].to_vec())
}

/// Version 1 records of a section in version 2, each unit under the number that it is given.
fn widened(section: usize, records: &[u8], number: impl Fn(u16) -> u32) -> Vec<u8> {
    let (bytes, unit_at) = RECORDS[section];
    let mut wide = Vec::new();
    for record in records.chunks_exact(bytes) {
        let start = wide.len();
        wide.extend(record);
        if let Some(at) = unit_at {
            wide[start + at..start + at + 2].fill(0);
            let old = u16::from_le_bytes([record[at], record[at + 1]]);
            wide.extend(number(old).to_le_bytes());
        }
    }
    wide
}

/// Whether a file whose pairs follow on is of version 1, and its sections and its correction of whole records.
pub fn has_copy(file: &[u8], correction: &[u8]) -> bool {
    let whole = |section: usize, records: &[u8]| records.len().is_multiple_of(RECORDS[section].0);
    let sections = sections_of(file);
    let mut each = sections.iter().enumerate();
    file.starts_with(&[1, 0])
        && each.all(|(section, records)| whole(section, records))
        && whole(REFERENCES, correction)
}

/// The version 2 copy of a version 1 file.
pub fn copy_of(file: &[u8]) -> Vec<u8> {
    Version2::of(file, u32::from).to_bytes()
}

/// The version 2 copy of a version 1 correction.
pub fn correction_copy_of(correction: &[u8]) -> Vec<u8> {
    widened(REFERENCES, correction, u32::from)
}

/// A version 2 file by its sections, so that a record can be changed.
#[derive(Clone)]
pub struct Version2 {
    pub sections: [Vec<u8>; 4],
}

impl Version2 {
    /// The copy of a version 1 file, each unit under the number that it is given.
    pub fn of(file: &[u8], number: impl Fn(u16) -> u32) -> Version2 {
        let sections = sections_of(file);
        Version2 {
            sections: [UNITS, REFERENCES, PAST, EVENTS]
                .map(|section| widened(section, &sections[section], &number)),
        }
    }

    pub fn to_bytes(&self) -> Vec<u8> {
        file_of(2, &self.sections)
    }

    /// The file with another byte in a record.
    pub fn with_byte(&self, section: usize, record: usize, at: usize, value: u8) -> Version2 {
        let mut changed = self.clone();
        let byte = &mut changed.sections[section][WIDTHS[section] * record + at];
        assert_ne!(*byte, value);
        *byte = value;
        changed
    }

    /// The file with something in the old field of a record.
    pub fn with_old_field(&self, section: usize, record: usize, value: u16) -> Version2 {
        let at = RECORDS[section].1.expect("a record that names a unit");
        self.with(section, record, at, &value.to_le_bytes())
    }

    /// The file with another unit number in a record.
    pub fn with_number(&self, section: usize, record: usize, value: u32) -> Version2 {
        self.with(section, record, RECORDS[section].0, &value.to_le_bytes())
    }

    /// The file with two references, by unit and component, of value 1.
    pub fn with_references(&self, first: (u32, u8), second: (u32, u8)) -> Version2 {
        let mut changed = self.clone();
        changed.sections[REFERENCES].clear();
        for (unit, component) in [first, second] {
            changed.sections[REFERENCES].extend([0, 0, component, 0, 1, 0, 0, 0]);
            changed.sections[REFERENCES].extend(unit.to_le_bytes());
        }
        changed
    }

    fn with(&self, section: usize, record: usize, at: usize, bytes: &[u8]) -> Version2 {
        let mut changed = self.clone();
        let start = WIDTHS[section] * record + at;
        changed.sections[section][start..start + bytes.len()].copy_from_slice(bytes);
        changed
    }
}
