//! The subtotal of a plant, its part of its party-day's E: every answer is held to the second implementation's and to the
//! fields of the case, the subtotals of a party-day to E of the working, and single ones to a pencil; refusals are those of
//! the check, then 10. All of it is done in both versions: a version 1 file has the answers of its version 2 copy, and a
//! generated case of version 2 those of version 1 with its units numbered through.

mod beside;
mod by_hand;
mod many_plants;
mod party_days;
mod refused;

use std::collections::BTreeMap;

use attachment_h::{Kind, Market, Refused, subtotal};
use cases::{Case, Conduct, Event, Generated, Version};

/// The file of a case, and the same case in the other version where it has a file of at most 65,000 bytes there.
fn files(generated: &Generated) -> Vec<Vec<u8>> {
    let input = generated.input();
    let other = match generated.case.version {
        Version::One => input.version_2_copy(),
        Version::Two => Some(generated.numbered_through().input()),
    };
    let inputs = std::iter::once(input).chain(other);
    inputs.map(|input| input.file).collect()
}

/// The answer for an event number, in which both implementations agree and which is the same in every file.
fn agreed(files: &[Vec<u8>], event: usize, what: &str) -> Result<i64, Refused> {
    let mut answers = files.iter().map(|file| {
        let answer = subtotal(file, event);
        let expected = second::subtotal(file, event).map_err(Refused);
        assert_eq!(answer, expected, "{what}, event {event}");
        answer
    });
    let answer = answers.next().expect("a file");
    for other in answers {
        assert_eq!(other, answer, "{what}, event {event}, the other version");
    }
    answer
}

/// The fuel events of each party-day of a case, by their places in the file.
fn party_days(case: &Case) -> BTreeMap<(u32, Market, u16), Vec<usize>> {
    let group = |event: &Event| {
        let listed = case.units.iter().find(|unit| unit.unit == event.unit);
        listed.expect("a listed unit").group
    };
    let mut days: BTreeMap<_, Vec<usize>> = BTreeMap::new();
    for (place, event) in case.events.iter().enumerate() {
        if event.kind() == Kind::FUEL {
            let day = (event.day, event.market, group(event));
            days.entry(day).or_default().push(place);
        }
    }
    days
}

/// P of a fuel event.
fn inaccurate_hours(event: &Event) -> u32 {
    match event.conduct {
        Conduct::Fuel { inaccurate, .. } => inaccurate,
        _ => panic!("no fuel event"),
    }
}

/// 10 × Q plus a × b over these hours of a fuel event.
fn part_over(event: &Event, mask: u32) -> i64 {
    let Conduct::Fuel {
        guarantee_change,
        hours,
        ..
    } = &event.conduct
    else {
        panic!("no fuel event");
    };
    let in_mask = (0..24_usize).filter(|&hour| mask >> hour & 1 == 1);
    let products = in_mask
        .map(|hour| &hours[hour])
        .map(|hour| i64::from(hour.energy) * i64::from(hour.price_change));
    10 * i64::from(*guarantee_change) + products.sum::<i64>()
}
