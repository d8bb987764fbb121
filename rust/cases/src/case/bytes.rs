//! The bytes of a case, and of what a settlement is called with.

use attachment_h::layout::{
    LARGEST_FILE, ROW_BYTES, Section, Sections, Version, converted, file_in, pair, u16_at,
};

use super::{Case, Conduct, Event, Past, Reference, Unit};

/// A record with the number of its unit: `bytes` are those of version 1, with 0 for the number.
fn numbered(section: Section, version: Version, mut bytes: Vec<u8>, number: u32) -> Vec<u8> {
    bytes.resize(section.width(version), 0);
    section.put_unit_number(version, &mut bytes, number);
    bytes
}

impl Unit {
    /// The bytes of the record.
    pub fn to_bytes(&self, version: Version) -> Vec<u8> {
        let mut bytes = vec![0; 2];
        bytes.extend(self.group.to_le_bytes());
        bytes.extend([self.area, 0, 0, 0]);
        for word in [self.capability, self.response_rate, self.average_price] {
            bytes.extend(word.to_le_bytes());
        }
        bytes.extend(self.constrained_hours.to_le_bytes());
        bytes.extend([0, 0]);
        numbered(Section::Units, version, bytes, self.unit)
    }
}

impl Reference {
    /// The bytes of the record.
    pub fn to_bytes(&self, version: Version) -> Vec<u8> {
        let mut bytes = vec![0, 0, self.component.0, 0];
        bytes.extend(self.value.to_le_bytes());
        numbered(Section::References, version, bytes, self.unit)
    }
}

impl Past {
    /// The bytes of the record, the same in both versions.
    pub fn to_bytes(&self) -> Vec<u8> {
        let mut bytes = self.group.to_le_bytes().to_vec();
        bytes.extend([self.kind.0, self.market.0]);
        bytes.extend(self.period.to_le_bytes());
        bytes.extend([0, 0]);
        bytes.extend(self.day.to_le_bytes());
        bytes
    }
}

impl Event {
    /// The bytes of the record.
    pub fn to_bytes(&self, version: Version) -> Vec<u8> {
        let (impact, [p, q, r]) = self.conduct.head();
        let mut bytes = vec![self.kind().0, self.market.0, 0, 0];
        bytes.extend(self.period.to_le_bytes());
        bytes.extend([self.component().0, impact]);
        for word in [self.day, p, q, r] {
            bytes.extend(word.to_le_bytes());
        }
        for hour in 0..24 {
            for word in self.conduct.cell(hour) {
                bytes.extend(word.to_le_bytes());
            }
        }
        numbered(Section::Events, version, bytes, self.unit)
    }
}

impl Conduct {
    /// The impact byte, and P, Q and R.
    fn head(&self) -> (u8, [u32; 3]) {
        match *self {
            Conduct::Withheld {
                impact,
                shadow_price,
                ..
            }
            | Conduct::Dispatch {
                impact,
                shadow_price,
                ..
            } => (impact, [shadow_price, 0, 0]),
            Conduct::Fuel {
                inaccurate,
                guarantee_change,
                tcc_change,
                ..
            } => {
                let changes = [guarantee_change, tcc_change].map(i32::cast_unsigned);
                (0, [inaccurate, changes[0], changes[1]])
            }
            Conduct::Bids {
                shadow_price,
                impact,
                minimum_run_hours,
                ..
            } => (0, [shadow_price, impact, minimum_run_hours]),
        }
    }

    /// a, b and m of an hour.
    fn cell(&self, hour: usize) -> [u32; 3] {
        match self {
            Conduct::Withheld { hours, .. } => {
                [hours[hour].withheld, hours[hour].price.cast_unsigned(), 0]
            }
            Conduct::Dispatch { hours, .. } => {
                [hours[hour].undelivered, hours[hour].added_revenue, 0]
            }
            Conduct::Fuel { hours, .. } => [
                hours[hour].energy,
                hours[hour].price_change.cast_unsigned(),
                0,
            ],
            Conduct::Bids { hours, .. } => [
                hours[hour].bid.cast_unsigned(),
                hours[hour].price.cast_unsigned(),
                hours[hour].quantity,
            ],
        }
    }
}

impl Case {
    /// The bytes of the case file.
    pub fn to_bytes(&self) -> Vec<u8> {
        let version = self.version;
        let units = self.units.iter().flat_map(|unit| unit.to_bytes(version));
        let events = self.events.iter().flat_map(|event| event.to_bytes(version));
        let sections = [
            units.collect(),
            correction_bytes(version, &self.references),
            self.past.iter().flat_map(Past::to_bytes).collect(),
            events.collect(),
        ];
        file_in(version, &sections)
    }
}

/// The bytes of a correction, "laid out as references": it has the width of its case.
pub fn correction_bytes(version: Version, references: &[Reference]) -> Vec<u8> {
    let bytes = |reference: &Reference| reference.to_bytes(version);
    references.iter().flat_map(bytes).collect()
}

/// The version of a file that has one.
pub fn version_of(file: &[u8]) -> Version {
    Version::of(u16_at(file, 0)).expect("version 1 or 2")
}

/// The sections of a file whose pairs follow on.
pub fn sections_of(file: &[u8]) -> [Vec<u8>; 4] {
    [0, 1, 2, 3].map(|place| {
        let (offset, length) = section_place(file, place);
        file[offset..offset + length].to_vec()
    })
}

/// Offset and length of a section, from its pair.
pub fn section_place(file: &[u8], section: usize) -> (usize, usize) {
    let (offset, length) = pair(file, Section::ALL[section]);
    (offset as usize, length as usize)
}

/// What a settlement is called with: the file, the correction and the length of the rows buffer.
#[derive(Clone, Debug, PartialEq, Eq)]
pub struct Input {
    /// The case file.
    pub file: Vec<u8>,
    /// The correction; empty for none.
    pub correction: Vec<u8>,
    /// Length of the rows buffer in bytes.
    pub rows_len: usize,
}

impl Input {
    /// A case with a correction and exactly as many rows as it has events.
    pub fn new(case: &Case, correction: &[Reference]) -> Input {
        Input {
            file: case.to_bytes(),
            correction: correction_bytes(case.version, correction),
            rows_len: ROW_BYTES * case.events.len(),
        }
    }

    /// The version 2 copy of a version 1 input, its correction copied likewise; none where the file breaks a number up
    /// to 5, the correction has no whole records, or the copy has more than 65,000 bytes.
    pub fn version_2_copy(&self) -> Option<Input> {
        let (from, to) = (Version::One, Version::Two);
        let sections = Sections::of(&self.file).filter(|sections| sections.version() == from)?;
        let references = Section::References;
        if !self.correction.len().is_multiple_of(references.width(from)) {
            return None;
        }
        let copied = Section::ALL.map(|section| {
            converted(section, sections.bytes(section), from, to).expect("every number fits")
        });
        let file = file_in(to, &copied);
        (file.len() <= LARGEST_FILE).then_some(Input {
            file,
            correction: converted(references, &self.correction, from, to)?,
            rows_len: self.rows_len,
        })
    }

    /// The input and, where it has one, its version 2 copy.
    pub fn with_copy(self) -> Vec<Input> {
        let copy = self.version_2_copy();
        std::iter::once(self).chain(copy).collect()
    }
}
