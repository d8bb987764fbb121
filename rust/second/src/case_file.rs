//! Reading a case file and a correction into records, with the refusals 1 to 15 and 17 to 19.

use std::collections::BTreeMap;

use crate::calendar::{CALENDAR_DAYS, period_of};
use crate::event_record::read_event;
use crate::layout::{Record, correction_records, records, u16_at, u32_at};
use crate::terms::{
    Component, HOURS, HourMask, LARGEST_CAPABILITY, LARGEST_PRICE, LARGEST_RATE, LAST_DAY,
    MOST_CONSTRAINED_HOURS, Market,
};

/// Bytes of one row in the rows buffer.
pub const ROW_BYTES: usize = 128;

/// A unit of a Market Party.
#[derive(Clone, Copy, Debug)]
pub struct Unit {
    pub group: u16,
    pub constrained_area: bool,
    pub capability: i64,
    pub response_rate: i64,
    pub average_price: i64,
    pub constrained_hours: i64,
}

/// A violation outside this file.
#[derive(Clone, Copy, Debug)]
pub struct Past {
    pub violation: Violation,
    pub group: u16,
    pub market: Market,
    pub period: u16,
    pub day: u32,
}

/// What a past entry was a violation by.
#[derive(Clone, Copy, Debug, PartialEq, Eq)]
pub enum Violation {
    /// Its market and period are of account.
    Withheld,
    /// Its day is of account, and not its market: "either market".
    Fuel,
}

/// One hour of a withheld event.
#[derive(Clone, Copy, Debug)]
pub struct WithheldHour {
    pub withheld: i64,
    pub price: i64,
}

/// One hour of a dispatch event.
#[derive(Clone, Copy, Debug)]
pub struct DispatchHour {
    pub undelivered: i64,
    pub added_revenue: i64,
}

/// One hour of a fuel event.
#[derive(Clone, Copy, Debug)]
pub struct FuelHour {
    pub energy: i64,
    pub price_change: i64,
}

/// One hour of a bids event.
#[derive(Clone, Copy, Debug)]
pub struct BidHour {
    pub bid: i64,
    pub price: i64,
    pub quantity: i64,
}

/// What an event is about, with the fields of its kind.
#[derive(Clone, Debug)]
pub enum Conduct {
    Withheld {
        impact: bool,
        shadow_price: HourMask,
        hours: [WithheldHour; HOURS],
    },
    Dispatch {
        impact: bool,
        shadow_price: HourMask,
        hours: [DispatchHour; HOURS],
    },
    Fuel {
        inaccurate: HourMask,
        guarantee_change: i64,
        tcc_change: i64,
        hours: [FuelHour; HOURS],
    },
    Bids {
        component: Component,
        shadow_price: HourMask,
        impact: HourMask,
        minimum_run_hours: i64,
        hours: [BidHour; HOURS],
    },
}

impl Conduct {
    /// The kind number of the event record.
    pub fn kind(&self) -> u8 {
        match self {
            Conduct::Withheld { .. } => 1,
            Conduct::Dispatch { .. } => 2,
            Conduct::Fuel { .. } => 3,
            Conduct::Bids { .. } => 4,
        }
    }

    /// The component number of the event record; 0 where the kind has none.
    pub fn component(&self) -> u8 {
        match self {
            Conduct::Bids { component, .. } => component.number(),
            _ => 0,
        }
    }
}

/// An event of the file.
#[derive(Clone, Debug)]
pub struct Event {
    pub day: u32,
    pub market: Market,
    pub unit: u32,
    pub period: u16,
    pub conduct: Conduct,
}

impl Event {
    /// Events rise strictly by (day, kind, market, unit, component).
    fn order(&self) -> (u32, u8, u8, u32, u8) {
        (
            self.day,
            self.conduct.kind(),
            self.market.number(),
            self.unit,
            self.conduct.component(),
        )
    }
}

/// Reference levels by unit and component.
pub type References = BTreeMap<(u32, Component), i64>;

/// A case that breaks nothing.
#[derive(Clone, Debug)]
pub struct Case {
    pub units: BTreeMap<u32, Unit>,
    pub references: References,
    /// The correction where it isn't empty, otherwise the case's own references.
    pub correct_references: References,
    pub past: Vec<Past>,
    pub events: Vec<Event>,
}

/// Reads a case, or gives the number of the first thing that it breaks: "Checked in number order,
/// each over everything before the next", but for 17, "checked after 5", and 18 and 19, "both checked after 10".
pub fn read_case(file: &[u8], correction: &[u8], rows_bytes: usize) -> Result<Case, u8> {
    // 1 to 5, then 17
    let records = records(file)?;
    // 6 to 9
    let units = read_units(&records.units).ok_or(6)?;
    let references = read_references(&records.references, &units).ok_or(7)?;
    let correct_references = if correction.is_empty() {
        references.clone()
    } else {
        let correction = correction_records(correction, records.version).ok_or(8)?;
        read_references(&correction, &units).ok_or(8)?
    };
    let past: Option<_> = records.past.into_iter().map(read_past).collect();
    let past = past.ok_or(9)?;
    // 10
    let events: Option<_> = records.events.into_iter().map(read_event).collect();
    let events = events.ok_or(10)?;
    let case = Case {
        units,
        references,
        correct_references,
        past,
        events,
    };
    // 18 and 19, then 11 to 14
    check_days(&case)?;
    check_events(&case)?;
    // 15
    if rows_bytes < ROW_BYTES * case.events.len() {
        return Err(15);
    }
    Ok(case)
}

/// The refusals of days and periods: 18 of every past entry and event before 19 of any.
fn check_days(case: &Case) -> Result<(), u8> {
    let past = case.past.iter().map(|entry| (entry.day, entry.period));
    let events = case.events.iter().map(|event| (event.day, event.period));
    let mut dated = past.chain(events);
    if dated.clone().any(|(day, _)| day >= CALENDAR_DAYS) {
        return Err(18);
    }
    if dated.any(|(day, period)| period != period_of(day)) {
        return Err(19);
    }
    Ok(())
}

/// The refusals of events beside each other and beside their units and references.
fn check_events(case: &Case) -> Result<(), u8> {
    let events = &case.events;
    if !events.is_sorted_by(|before, after| before.order() < after.order()) {
        return Err(11);
    }
    if events
        .iter()
        .any(|event| !case.units.contains_key(&event.unit))
    {
        return Err(12);
    }
    if events
        .iter()
        .any(|event| is_above_capability(&event.conduct, case.units[&event.unit].capability))
    {
        return Err(13);
    }
    let lacks_reference = |event: &Event| match event.conduct {
        Conduct::Bids { component, .. } => {
            let key = (event.unit, component);
            !case.references.contains_key(&key)
                || (component.reads_correct_reference()
                    && !case.correct_references.contains_key(&key))
        }
        _ => false,
    };
    if events.iter().any(lacks_reference) {
        return Err(14);
    }
    Ok(())
}

fn read_units(records: &[Record]) -> Option<BTreeMap<u32, Unit>> {
    let mut units = BTreeMap::new();
    for &Record { unit, bytes } in records {
        let capability = u32_at(bytes, 8);
        let response_rate = u32_at(bytes, 12);
        let average_price = u32_at(bytes, 16);
        let constrained_hours = u16_at(bytes, 20);
        let in_range = bytes[4] <= 1
            && bytes[5..8] == [0, 0, 0]
            && (1..=LARGEST_CAPABILITY).contains(&capability)
            && response_rate <= LARGEST_RATE
            && i64::from(average_price) <= i64::from(LARGEST_PRICE)
            && constrained_hours <= MOST_CONSTRAINED_HOURS
            && bytes[22..24] == [0, 0];
        let rising = units.last_key_value().is_none_or(|(&last, _)| last < unit);
        if !in_range || !rising {
            return None;
        }
        units.insert(
            unit,
            Unit {
                group: u16_at(bytes, 2),
                constrained_area: bytes[4] == 1,
                capability: i64::from(capability),
                response_rate: i64::from(response_rate),
                average_price: i64::from(average_price),
                constrained_hours: i64::from(constrained_hours),
            },
        );
    }
    Some(units)
}

fn read_references(records: &[Record], units: &BTreeMap<u32, Unit>) -> Option<References> {
    let mut references = References::new();
    for &Record { unit, bytes } in records {
        let component = Component::from_number(bytes[2])?;
        let value = i64::from(u32_at(bytes, 4));
        let key = (unit, component);
        let rising = references
            .last_key_value()
            .is_none_or(|(&last, _)| last < key);
        if bytes[3] != 0
            || !component.allows_reference(value)
            || !units.contains_key(&unit)
            || !rising
        {
            return None;
        }
        references.insert(key, value);
    }
    Some(references)
}

fn read_past(record: &[u8]) -> Option<Past> {
    let day = u32_at(record, 8);
    if record[6..8] != [0, 0] || day > LAST_DAY {
        return None;
    }
    Some(Past {
        violation: match record[2] {
            1 => Violation::Withheld,
            3 => Violation::Fuel,
            _ => return None,
        },
        group: u16_at(record, 0),
        market: Market::from_number(record[3])?,
        period: u16_at(record, 4),
        day,
    })
}

/// "kind 1 or 2, a above capability".
fn is_above_capability(conduct: &Conduct, capability: i64) -> bool {
    match conduct {
        Conduct::Withheld { hours, .. } => hours.iter().any(|hour| hour.withheld > capability),
        Conduct::Dispatch { hours, .. } => hours.iter().any(|hour| hour.undelivered > capability),
        _ => false,
    }
}
