//! Number 17: the unit numbers of version 2, over units, references and events.

use attachment_h::layout::{Section, Sections};

use super::{Place, broken_in_words, first_record};
use crate::record::fields;

/// The first record with a number above 999,999, or with an old number.
pub fn numbers(sections: &Sections<'_>) -> Option<Place> {
    Section::ALL.into_iter().find_map(|section| {
        let fields = fields::number(section, sections.version());
        first_record(sections, section, |record| broken_in_words(&fields, record))
    })
}
