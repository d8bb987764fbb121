//! A generated case as the second implementation settles it.

use std::collections::HashMap;

use cases::{
    Case, Component, Conduct, Event, Generated, Input, Kind, Market, Reference, Row, Unit,
};
use second::{Outcome, fuel_party_days, settle};

/// Reference levels by unit and component.
type Levels = HashMap<(u32, Component), i64>;

/// By (kind, day, market, group): the number of events and the sum of a in each hour.
type PartyDaySums = HashMap<(Kind, u32, Market, u16), (usize, [i64; 24])>;

/// By (unit, day, market): the increases of the three times, added in each hour.
type TimeSums = HashMap<(u32, u32, Market), [i64; 24]>;

/// A generated case with its rows, and with the sums that its conduct tests read.
pub struct Settled<'a> {
    pub case: &'a Case,
    pub correction: &'a [Reference],
    pub input: Input,
    pub references: Levels,
    pub corrections: Levels,
    rows: Vec<Row>,
    sums: PartyDaySums,
    time_sums: TimeSums,
}

/// An event of a settled case with its unit and its row.
pub struct SettledEvent<'a> {
    pub settled: &'a Settled<'a>,
    pub record: &'a Event,
    pub unit: &'a Unit,
    pub row: &'a Row,
}

impl Settled<'_> {
    pub fn of(generated: &Generated) -> Settled<'_> {
        let Generated { case, correction } = generated;
        let input = generated.input();
        let mut buffer = vec![0; input.rows_len];
        let outcome = settle(&input.file, &input.correction, &mut buffer);
        assert!(matches!(outcome, Outcome::Settled { .. }));
        same_of_the_copy(&input, outcome, &buffer);
        let references = levels(&case.references);
        Settled {
            case,
            correction,
            input,
            rows: Row::first(&buffer, case.events.len()),
            sums: sums(case),
            time_sums: time_sums(case, &references),
            references,
            corrections: levels(correction),
        }
    }

    pub fn events(&self) -> impl Iterator<Item = SettledEvent<'_>> {
        let events = self.case.events.iter().zip(&self.rows);
        events.map(|(record, row)| SettledEvent {
            settled: self,
            record,
            unit: unit_of(self.case, record.unit),
            row,
        })
    }
}

impl SettledEvent<'_> {
    pub fn market(&self) -> &'static str {
        ["Day-Ahead", "Real-Time"][usize::from(self.record.market.0)]
    }

    pub fn flagged(&self, hour: usize) -> bool {
        self.row.flags.0 >> hour & 1 == 1
    }

    pub fn mitigated(&self, hour: usize) -> bool {
        self.row.mitigated.0 >> hour & 1 == 1
    }

    pub fn tight(&self, hour: usize) -> bool {
        let p = match self.record.conduct {
            Conduct::Withheld { shadow_price, .. }
            | Conduct::Dispatch { shadow_price, .. }
            | Conduct::Bids { shadow_price, .. } => shadow_price,
            Conduct::Fuel { .. } => 0,
        };
        self.unit.area == 1 && p >> hour & 1 == 1
    }

    /// How many events are together with it, and S in each hour.
    pub fn together(&self) -> &(usize, [i64; 24]) {
        let Event { day, market, .. } = *self.record;
        &self.settled.sums[&(self.record.kind(), day, market, self.unit.group)]
    }

    /// The sum of its unit's times, if it is a bid for one of them.
    pub fn time_sum(&self, hour: usize) -> i64 {
        let Event {
            day, market, unit, ..
        } = *self.record;
        self.settled.time_sums[&(unit, day, market)][hour]
    }
}

fn unit_of(case: &Case, number: u32) -> &Unit {
    let mut units = case.units.iter();
    units.find(|unit| unit.unit == number).unwrap()
}

fn levels(references: &[Reference]) -> Levels {
    references
        .iter()
        .map(|entry| ((entry.unit, entry.component), i64::from(entry.value)))
        .collect()
}

/// The sums of a over kind 1 and kind 2 events.
fn sums(case: &Case) -> PartyDaySums {
    let mut sums = PartyDaySums::new();
    for event in &case.events {
        let group = unit_of(case, event.unit).group;
        let entry = sums
            .entry((event.kind(), event.day, event.market, group))
            .or_default();
        entry.0 += 1;
        for hour in 0..24 {
            entry.1[hour] += match &event.conduct {
                Conduct::Withheld { hours, .. } => i64::from(hours[hour].withheld),
                Conduct::Dispatch { hours, .. } => i64::from(hours[hour].undelivered),
                _ => 0,
            };
        }
    }
    sums
}

fn time_sums(case: &Case, references: &Levels) -> TimeSums {
    let mut time_sums = TimeSums::new();
    for event in &case.events {
        if let Conduct::Bids {
            component, hours, ..
        } = &event.conduct
            && component.is_time()
        {
            let r = references[&(event.unit, *component)];
            let sum = time_sums
                .entry((event.unit, event.day, event.market))
                .or_default();
            for hour in 0..24 {
                sum[hour] += (i64::from(hours[hour].bid) - r).max(0);
            }
        }
    }
    time_sums
}

/// The version 2 copy of a case has the same outcome, rows and fuel party-days.
fn same_of_the_copy(input: &Input, outcome: Outcome, rows: &[u8]) {
    let Some(copy) = input.version_2_copy() else {
        return;
    };
    let mut buffer = vec![0; copy.rows_len];
    let of_the_copy = settle(&copy.file, &copy.correction, &mut buffer);
    assert_eq!(of_the_copy, outcome);
    assert!(buffer == rows);
    assert_eq!(
        fuel_party_days(&copy.file, &copy.correction),
        fuel_party_days(&input.file, &input.correction)
    );
}
