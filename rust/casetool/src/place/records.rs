//! Numbers 6 to 9: units, references, the correction and past entries.

use attachment_h::Component;
use attachment_h::layout::{Section, Sections};

use super::{Part, Place, broken_in_words, first_record, names};
use crate::record::fields;
use crate::text::amounts;
use crate::text::words;

/// Number 6: the first unit with a field out of its limits, or out of order.
pub fn units(sections: &Sections<'_>) -> Option<Place> {
    let (version, part) = (sections.version(), Part::Section(Section::Units));
    let fields = fields::unit(version);
    let mut before: Option<u32> = None;
    for (record, bytes) in sections.records(Section::Units).enumerate() {
        let number = Section::Units.unit_number(version, bytes);
        let broken = broken_in_words(&fields, bytes).or_else(|| {
            let before = before.filter(|&before| before >= number)?;
            let order = format!(
                "unit number is {number}, after {before}; unit numbers have to rise strictly"
            );
            Some((fields::number_at(Section::Units, version), order))
        });
        if let Some((at, broken)) = broken {
            let name = names::of(part, version, record, bytes);
            let sentence = format!("{name}: {broken}");
            return Some(Place {
                part,
                record,
                at,
                sentence,
            });
        }
        before = Some(number);
    }
    None
}

/// Number 7: the first reference that breaks something.
pub fn references(sections: &Sections<'_>) -> Option<Place> {
    let part = Part::Section(Section::References);
    in_references(part, sections.bytes(Section::References), sections)
}

/// Number 8: the length of the correction, or the first of its records that breaks something.
pub fn correction(sections: &Sections<'_>, correction: &[u8]) -> Option<Place> {
    let (bytes, most) = (
        Section::References.width(sections.version()),
        Section::References.most(),
    );
    let whole = |sentence| {
        Some(Place {
            part: Part::Correction,
            record: 0,
            at: 0,
            sentence,
        })
    };
    let length = amounts::bytes(correction.len());
    if !correction.len().is_multiple_of(bytes) {
        let version = super::in_version(sections.version());
        return whole(format!(
            "the correction: its length is {length}; expected a multiple of {bytes}{version}"
        ));
    }
    let count = correction.len() / bytes;
    if count > most {
        return whole(format!(
            "the correction: its length is {length}, {} records; expected at most {most}",
            amounts::number(count as u64)
        ));
    }
    in_references(Part::Correction, correction, sections)
}

/// The first of some references that breaks a limit, has an unlisted unit or is out of order.
fn in_references(part: Part, references: &[u8], sections: &Sections<'_>) -> Option<Place> {
    let version = sections.version();
    let mut before: Option<(u32, u8)> = None;
    for (record, bytes) in references
        .chunks_exact(Section::References.width(version))
        .enumerate()
    {
        let key = (Section::References.unit_number(version, bytes), bytes[2]);
        let broken = in_reference(bytes, sections).or_else(|| {
            let before = before.filter(|&before| before >= key)?;
            Some(out_of_order(sections, before, key))
        });
        if let Some((at, broken)) = broken {
            let name = names::of(part, version, record, bytes);
            let sentence = format!("{name}: {broken}");
            return Some(Place {
                part,
                record,
                at,
                sentence,
            });
        }
        before = Some(key);
    }
    None
}

/// The first field of one reference, in the order of its bytes, that breaks something by itself.
fn in_reference(bytes: &[u8], sections: &Sections<'_>) -> Option<(usize, String)> {
    let version = sections.version();
    let number = Section::References.unit_number(version, bytes);
    let at = fields::number_at(Section::References, version);
    let fields = fields::reference(version, Component(bytes[2]));
    match broken_in_words(&fields, bytes) {
        Some(broken) if broken.0 <= at => Some(broken),
        _ if sections.unit(number).is_none() => {
            let unlisted = format!("unit is {number}; no unit of this number is listed");
            Some((at, unlisted))
        }
        broken => broken,
    }
}

fn out_of_order(sections: &Sections<'_>, before: (u32, u8), key: (u32, u8)) -> (usize, String) {
    let (field, at) = if before.0 == key.0 {
        ("component", 2)
    } else {
        let version = sections.version();
        ("unit", fields::number_at(Section::References, version))
    };
    let order = format!(
        "{field} is out of order after unit {}, {}; references have to rise strictly by unit and component",
        before.0,
        words::component(Component(before.1))
    );
    (at, order)
}

/// Number 9: the first past entry with a field out of its limits.
pub fn past(sections: &Sections<'_>) -> Option<Place> {
    first_record(sections, Section::Past, |record| {
        broken_in_words(&fields::PAST, record)
    })
}
