//! Settles a case file and prints its rows, by the types of this crate:
//!
//!     cargo run --release --offline --example settle CASE

use std::env;
use std::error::Error;
use std::fs;

use attachment_h::layout::{Section, Sections};
use attachment_h::{Kind, Market, ROWS_LENGTH, Refused, Row, settle};

fn main() -> Result<(), Box<dyn Error>> {
    let path = env::args_os().nth(1).ok_or("expected a case file")?;
    let text =
        settled(&fs::read(path)?).map_err(|refused| format!("{refused}: {}", refused.meaning()))?;
    print!("{text}");
    Ok(())
}

/// A line for each event and one for the totals.
fn settled(file: &[u8]) -> Result<String, Refused> {
    let mut rows = vec![0; ROWS_LENGTH];
    let settled = settle(file, &[], &mut rows)?;
    let sections = Sections::of(file).expect("an accepted case has its sections");
    let events = sections.records(Section::Events);
    let mut text = String::new();
    for (event, row) in events.zip(Row::first(&rows, settled.rows)) {
        let unit = Section::Events.unit_number(sections.version(), event);
        text += &line(event, unit, &row);
    }
    let (penalties, make_ups) = (settled.penalties.0, settled.make_ups.0);
    Ok(text + &format!("penalties {penalties} cents, make-ups {make_ups} cents\n"))
}

/// The line of an event.
fn line(event: &[u8], unit: u32, row: &Row) -> String {
    let kind = match Kind(event[0]) {
        Kind::WITHHELD => "withheld",
        Kind::DISPATCH => "dispatch",
        Kind::FUEL => "fuel",
        _ => "bids",
    };
    let market = match Market(event[1]) {
        Market::DAY_AHEAD => "Day-Ahead",
        _ => "Real-Time",
    };
    let flagged: Vec<usize> = row.flags.hours().collect();
    format!(
        "unit {unit}, {kind}, {market}: hours {flagged:?} flagged, penalty {} cents, make-up {} cents\n",
        row.penalty.0, row.make_up.0
    )
}

#[cfg(test)]
mod tests {
    use attachment_h::Refused;
    use attachment_h::layout::{Section, Sections, Version, converted, file_in};

    use super::settled;

    const SHIPPED: &[u8] = include_bytes!("../../../crates/listing/stdin");

    /// What is printed of the shipped case where its first unit has this number.
    fn text(unit: u32) -> String {
        format!(
            "unit {unit}, withheld, Day-Ahead: hours [0] flagged, penalty 200400 cents, make-up 0 cents\n\
             penalties 200400 cents, make-ups 0 cents\n"
        )
    }

    #[test]
    fn the_shipped_case() {
        assert_eq!(settled(SHIPPED), Ok(text(12)));
        assert_eq!(settled(&SHIPPED[1..]), Err(Refused(2)));
    }

    #[test]
    fn the_shipped_case_in_version_2() {
        let sections = Sections::of(SHIPPED).expect("an accepted case has its sections");
        let mut copy = Section::ALL.map(|section| {
            let bytes = sections.bytes(section);
            converted(section, bytes, Version::One, Version::Two).expect("every number fits")
        });
        let text_of = |copy: &[Vec<u8>; 4]| settled(&file_in(Version::Two, copy));
        assert_eq!(text_of(&copy), Ok(text(12)));
        // Units 12 and 13 as 65,548, which is 65,536 + 12, and 999,999.
        let [units, _, _, event] = &mut copy;
        let (first, second) = units.split_at_mut(Section::Units.width(Version::Two));
        Section::Units.put_unit_number(Version::Two, first, 65_548);
        Section::Units.put_unit_number(Version::Two, second, 999_999);
        Section::Events.put_unit_number(Version::Two, event, 65_548);
        assert_eq!(text_of(&copy), Ok(text(65_548)));
        Section::Events.put_unit_number(Version::Two, &mut copy[3], 12);
        assert_eq!(text_of(&copy), Err(Refused(12)));
    }
}
