//! Withheld events: the lines of their test, their multipliers, and what N3 and N2 look back on.

use cases::Kind;
use cases::case::WithheldHour;

use crate::settled::SettledEvent;
use crate::{Reached, at_and_over};

pub fn reach(reached: &mut Reached, event: &SettledEvent, hours: &[WithheldHour; 24], impact: u8) {
    reach_lines(reached, event, hours);
    for (hour, cell) in hours.iter().enumerate() {
        let flagged = event.flagged(hour);
        reached.add_if(
            flagged && cell.withheld == 0,
            "withheld: flagged with a = 0",
        );
        reached.add_if(
            flagged && impact == 1 && cell.price < 0,
            "withheld: negative price in a flagged hour",
        );
    }
    reach_multipliers(reached, event, impact);
    if event.row.n3 > 0 {
        reach_past_entries(reached, event);
        reach_instances(reached, event);
    }
}

fn reach_lines(reached: &mut Reached, event: &SettledEvent, hours: &[WithheldHour; 24]) {
    let unit = event.unit;
    let units = event.settled.case.units.iter();
    let g: i64 = units
        .filter(|other| other.group == unit.group)
        .map(|other| i64::from(other.capability))
        .sum();
    let (_, sum) = event.together();
    for hour in 0..24 {
        let a = i64::from(hours[hour].withheld);
        reached.line(a, i64::from(unit.capability) / 10, "withheld, 10 × a");
        reached.line(sum[hour], g / 20, "withheld, 20 × S");
        if event.tight(hour) {
            reached.line(a, 500, "withheld, tight a");
            reached.line(sum[hour], 1_000, "withheld, tight S");
        } else {
            reached.line(a, 1_000, "withheld, a");
            reached.line(sum[hour], 2_000, "withheld, S");
        }
    }
}

fn reach_multipliers(reached: &mut Reached, event: &SettledEvent, impact: u8) {
    let row = event.row;
    reached.add(format!("withheld: multiplier {}", row.multiplier.0));
    reached.add_if(impact == 1 && row.flags.0 == 0, "withheld: impact, no flag");
    reached.add_if(impact == 0 && row.flags.0 != 0, "withheld: flag, no impact");
    reached.add_if(row.n3 >= 4 && row.n2 < 4, "withheld: N3 4, N2 below");
    reached.add_if(row.n3 == 3, "withheld: N3 3");
    reached.add_if(row.n2 == 4, "withheld: N2 4");
    reached.add_if(row.n2 == 3, "withheld: N2 3");
}

fn reach_past_entries(reached: &mut Reached, event: &SettledEvent) {
    for entry in &event.settled.case.past {
        if entry.kind == Kind::WITHHELD
            && entry.group == event.unit.group
            && entry.market == event.record.market
        {
            let before = i64::from(event.record.period) - i64::from(entry.period);
            reached.add_if(
                (-1..=4).contains(&before),
                &format!("withheld: past entry {before} periods before"),
            );
        }
    }
}

fn reach_instances(reached: &mut Reached, event: &SettledEvent) {
    for other in event.settled.events() {
        if other.record.order() < event.record.order()
            && other.row.n3 > 0
            && other.record.market == event.record.market
            && other.unit.group == event.unit.group
        {
            let before = i64::from(event.record.period) - i64::from(other.record.period);
            reached.add_if(
                (0..=4).contains(&before),
                &format!("withheld: instance {before} periods before"),
            );
            reached.add_if(
                other.record.day == event.record.day && before == 0,
                "withheld: instance of the same day",
            );
        }
    }
}

pub fn edges() -> Vec<String> {
    let mut expected = at_and_over(&[
        "withheld, 10 × a",
        "withheld, 20 × S",
        "withheld, a",
        "withheld, S",
        "withheld, tight a",
        "withheld, tight S",
    ]);
    expected.extend(
        [
            "withheld: flagged with a = 0",
            "withheld: negative price in a flagged hour",
            "withheld: impact, no flag",
            "withheld: flag, no impact",
            "withheld: N3 4, N2 below",
            "withheld: N3 3",
            "withheld: N2 4",
            "withheld: N2 3",
            "withheld: instance of the same day",
        ]
        .map(String::from),
    );
    for multiplier in [0, 2, 4, 6] {
        expected.push(format!("withheld: multiplier {multiplier}"));
    }
    for before in -1..=4 {
        expected.push(format!("withheld: past entry {before} periods before"));
    }
    for before in 0..=4 {
        expected.push(format!("withheld: instance {before} periods before"));
    }
    expected
}
