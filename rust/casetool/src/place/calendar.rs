//! Numbers 18 and 19: the days of past entries and events, and the capability periods that they are in.

use attachment_h::layout::{Section, Sections, u16_at, u32_at};
use attachment_h::period_of;

use super::{Place, first_record};
use crate::record::fields::{DAY, LAST_DAY, PERIOD};
use crate::text::amounts::number;
use crate::text::calendar::date;

/// Number 18: the first past entry or event whose day is in no capability period.
pub fn days(sections: &Sections<'_>) -> Option<Place> {
    let shown = |day: u32| format!("{} ({})", number(u64::from(day)), date(day));
    first_with_a_day(sections, |record| {
        let day = u32_at(record, DAY.at);
        let broken = format!("day is {}; expected 0 to {}", shown(day), shown(LAST_DAY));
        (day > LAST_DAY).then_some((DAY.at, broken))
    })
}

/// Number 19: the first past entry or event whose period is not its day's.
pub fn periods(sections: &Sections<'_>) -> Option<Place> {
    first_with_a_day(sections, |record| {
        let (day, period) = (u32_at(record, DAY.at), u16_at(record, PERIOD.at));
        let of_day = period_of(day).ok().filter(|of_day| *of_day != period)?;
        let date = date(day);
        let broken = format!("period is {period}; expected {of_day}, that of day {day} ({date})");
        Some((PERIOD.at, broken))
    })
}

/// The first past entry, or else the first event, that breaks something: both have day and period at the same offsets.
fn first_with_a_day(
    sections: &Sections<'_>,
    broken: impl Fn(&[u8]) -> Option<(usize, String)>,
) -> Option<Place> {
    [Section::Past, Section::Events]
        .into_iter()
        .find_map(|section| first_record(sections, section, &broken))
}
