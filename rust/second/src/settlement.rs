//! Settling a case that breaks nothing: by group and day, and in file order for the instances.

use std::collections::{BTreeMap, BTreeSet, HashMap};

use crate::calendar::fuel_window;
use crate::case_file::{
    BidHour, Case, Conduct, DispatchHour, ROW_BYTES, Unit, Violation, WithheldHour,
};
use crate::rules::{self, BidConditions};
use crate::terms::{Component, HOURS, HourMask, Market};

/// The row of one event.
#[derive(Clone, Debug, Default, PartialEq, Eq)]
pub struct Row {
    pub flags: HourMask,
    pub mitigated: HourMask,
    pub penalty: u64,
    pub make_up: u64,
    pub multiplier: u8,
    pub n3: u16,
    pub n2: u16,
    pub bids_in_force: [i32; HOURS],
}

impl Row {
    /// The 128 bytes of the row.
    pub fn to_bytes(&self) -> [u8; ROW_BYTES] {
        let mut bytes = Vec::with_capacity(ROW_BYTES);
        bytes.extend(self.flags.bits().to_le_bytes());
        bytes.extend(self.mitigated.bits().to_le_bytes());
        bytes.extend(self.penalty.to_le_bytes());
        bytes.extend(self.make_up.to_le_bytes());
        bytes.extend([self.multiplier, 0]);
        bytes.extend(self.n3.to_le_bytes());
        bytes.extend(self.n2.to_le_bytes());
        bytes.extend([0, 0]);
        for bid in self.bids_in_force {
            bytes.extend(bid.to_le_bytes());
        }
        bytes
            .try_into()
            .expect("the fields of a row fill 128 bytes")
    }
}

/// The events of one group, day and market.
#[derive(Clone, Copy, Debug, PartialEq, Eq, PartialOrd, Ord, Hash)]
struct PartyDay {
    day: u32,
    market: Market,
    group: u16,
}

/// E of one fuel party-day: the premise of demand 3 is about it.
#[derive(Clone, Copy, Debug, PartialEq, Eq)]
pub struct FuelPartyDay {
    /// Day of the events.
    pub day: u32,
    /// Market number of the events.
    pub market: u8,
    /// Group of the events' units.
    pub group: u16,
    /// E in tenths of a cent.
    pub e: i64,
    /// T in cents.
    pub t: i64,
}

/// The rows of all events, in file order.
pub fn settle_case(case: &Case) -> Vec<Row> {
    let mut rows = vec![Row::default(); case.events.len()];
    settle_withheld(case, &mut rows);
    settle_dispatch(case, &mut rows);
    settle_fuel(case, &mut rows);
    settle_bids(case, &mut rows);
    rows
}

/// The unit of an event.
pub fn unit_of(case: &Case, event: usize) -> &Unit {
    &case.units[&case.events[event].unit]
}

/// The places of the events of one kind, by party-day; within a party-day the units rise.
fn party_days(case: &Case, kind: u8) -> BTreeMap<PartyDay, Vec<usize>> {
    let mut days: BTreeMap<PartyDay, Vec<usize>> = BTreeMap::new();
    for (place, event) in case.events.iter().enumerate() {
        if event.conduct.kind() == kind {
            let party_day = PartyDay {
                day: event.day,
                market: event.market,
                group: unit_of(case, place).group,
            };
            days.entry(party_day).or_default().push(place);
        }
    }
    days
}

fn withheld_hours(case: &Case, event: usize) -> (bool, HourMask, &[WithheldHour; HOURS]) {
    match &case.events[event].conduct {
        Conduct::Withheld {
            impact,
            shadow_price,
            hours,
        } => (*impact, *shadow_price, hours),
        _ => unreachable!("only withheld events are asked for"),
    }
}

fn dispatch_hours(case: &Case, event: usize) -> (bool, HourMask, &[DispatchHour; HOURS]) {
    match &case.events[event].conduct {
        Conduct::Dispatch {
            impact,
            shadow_price,
            hours,
        } => (*impact, *shadow_price, hours),
        _ => unreachable!("only dispatch events are asked for"),
    }
}

fn settle_withheld(case: &Case, rows: &mut [Row]) {
    // G: "the group's listed capability".
    let mut group_capability: HashMap<u16, i64> = HashMap::new();
    for unit in case.units.values() {
        *group_capability.entry(unit.group).or_default() += unit.capability;
    }

    let mut instances = BTreeSet::new();
    for (party_day, events) in party_days(case, 1) {
        let mut sums = [0_i64; HOURS];
        for &event in &events {
            let (_, _, hours) = withheld_hours(case, event);
            for (sum, hour) in sums.iter_mut().zip(hours) {
                *sum += hour.withheld;
            }
        }
        for event in events {
            let (impact, shadow_price, hours) = withheld_hours(case, event);
            let unit = unit_of(case, event);
            rows[event].flags = HourMask::of_hours(|hour| {
                rules::withheld_fails(
                    hours[hour].withheld,
                    unit.capability,
                    sums[hour],
                    group_capability[&party_day.group],
                    unit.constrained_area && shadow_price.has(hour),
                )
            });
            if impact && !rows[event].flags.is_empty() {
                instances.insert(event);
            }
        }
    }

    // Violations by group and market, then by capability period. The set of instances is in file
    // order, so only the earlier ones are counted when one is settled.
    let mut violations: HashMap<(u16, Market), BTreeMap<u16, u16>> = HashMap::new();
    for past in &case.past {
        if past.violation == Violation::Withheld {
            let periods = violations.entry((past.group, past.market)).or_default();
            *periods.entry(past.period).or_default() += 1;
        }
    }
    for event in instances {
        let market = case.events[event].market;
        let period = case.events[event].period;
        let periods = violations
            .entry((unit_of(case, event).group, market))
            .or_default();
        let counted = |back: u16| -> u16 {
            1 + periods
                .range(period.saturating_sub(back)..=period)
                .map(|(_, &count)| count)
                .sum::<u16>()
        };
        let (n3, n2) = (counted(2), counted(1));
        *periods.entry(period).or_default() += 1;

        let (_, _, hours) = withheld_hours(case, event);
        let row = &mut rows[event];
        let value = row
            .flags
            .hours()
            .map(|hour| rules::withheld_value(hours[hour].withheld, hours[hour].price))
            .sum();
        row.multiplier = rules::multiplier(n3, n2);
        row.penalty = rules::withheld_penalty(row.multiplier, value) as u64;
        row.n3 = n3;
        row.n2 = n2;
    }
}

fn settle_dispatch(case: &Case, rows: &mut [Row]) {
    for events in party_days(case, 2).into_values() {
        let mut sums = [0_i64; HOURS];
        for &event in &events {
            let (_, _, hours) = dispatch_hours(case, event);
            for (sum, hour) in sums.iter_mut().zip(hours) {
                *sum += hour.undelivered;
            }
        }
        for event in events {
            let (impact, shadow_price, hours) = dispatch_hours(case, event);
            let unit = unit_of(case, event);
            let flags = HourMask::of_hours(|hour| {
                rules::dispatch_fails(
                    hours[hour].undelivered,
                    unit.response_rate,
                    sums[hour],
                    unit.constrained_area && shadow_price.has(hour),
                )
            });
            let row = &mut rows[event];
            row.flags = flags;
            if impact && !flags.is_empty() {
                let revenue = flags.hours().map(|hour| hours[hour].added_revenue).sum();
                row.multiplier = 3;
                row.penalty = rules::dispatch_penalty(revenue) as u64;
            }
        }
    }
}

/// The union of P, E and T of a fuel party-day.
fn fuel_sums(case: &Case, events: &[usize]) -> (HourMask, i64, i64) {
    let mut union = HourMask::default();
    for &event in events {
        if let Conduct::Fuel { inaccurate, .. } = case.events[event].conduct {
            union = union.union(inaccurate);
        }
    }
    let (mut e, mut tcc) = (0, 0);
    for &event in events {
        if let Conduct::Fuel {
            guarantee_change,
            tcc_change,
            hours,
            ..
        } = &case.events[event].conduct
        {
            e += 10 * guarantee_change;
            e += union
                .hours()
                .map(|hour| hours[hour].energy * hours[hour].price_change)
                .sum::<i64>();
            tcc += tcc_change;
        }
    }
    // "T = sum of R, or 0 if negative".
    (union, e, tcc.max(0))
}

/// The fuel party-days of a case, by day, market and group.
pub fn fuel_party_days(case: &Case) -> Vec<FuelPartyDay> {
    party_days(case, 3)
        .into_iter()
        .map(|(party_day, events)| {
            let (_, e, t) = fuel_sums(case, &events);
            FuelPartyDay {
                day: party_day.day,
                market: party_day.market.number(),
                group: party_day.group,
                e,
                t,
            }
        })
        .collect()
}

fn settle_fuel(case: &Case, rows: &mut [Row]) {
    // Days of fuel penalties above 0 and of kind 3 past entries, by group.
    let mut penalty_days: HashMap<u16, BTreeSet<u32>> = HashMap::new();
    for past in &case.past {
        if past.violation == Violation::Fuel {
            penalty_days.entry(past.group).or_default().insert(past.day);
        }
    }
    // The party-days come by rising day, so every penalty of an earlier day is known.
    for (party_day, events) in party_days(case, 3) {
        let (union, e, t) = fuel_sums(case, &events);
        let days = penalty_days.entry(party_day.group).or_default();
        let raised = days.range(fuel_window(party_day.day)).next().is_some();
        let m = if raised { 3 } else { 2 };
        let penalty = rules::fuel_penalty(e, t, m);
        if penalty > 0 {
            days.insert(party_day.day);
        }
        for &event in &events {
            rows[event].flags = union;
        }
        // "It stands, with M, on the party-day's event of the lowest unit".
        let lowest = events
            .into_iter()
            .min_by_key(|&event| case.events[event].unit)
            .expect("a party-day has an event");
        rows[lowest].multiplier = m;
        rows[lowest].penalty = penalty as u64;
    }
}

fn settle_bids(case: &Case, rows: &mut [Row]) {
    // The positive increases of the time components, by unit, day and market, for each hour.
    let mut time_sums: HashMap<(u32, u32, Market), [i64; HOURS]> = HashMap::new();
    for event in &case.events {
        if let Conduct::Bids {
            component, hours, ..
        } = &event.conduct
            && component.time_place().is_some()
        {
            let r = case.references[&(event.unit, *component)];
            let sums = time_sums
                .entry((event.unit, event.day, event.market))
                .or_default();
            for (sum, hour) in sums.iter_mut().zip(hours) {
                *sum += (hour.bid - r).max(0);
            }
        }
    }

    for (event, row) in case.events.iter().zip(rows) {
        let Conduct::Bids {
            component,
            shadow_price,
            impact,
            minimum_run_hours,
            hours,
        } = &event.conduct
        else {
            continue;
        };
        let component = *component;
        let unit = &case.units[&event.unit];
        let r = case.references[&(event.unit, component)];
        let conditions = |hour: usize| BidConditions {
            market: event.market,
            tight: unit.constrained_area && shadow_price.has(hour),
            constrained_hours: unit.constrained_hours,
            average_price: unit.average_price,
        };

        row.flags = HourMask::of_hours(|hour| {
            let bid = hours[hour].bid;
            if component.time_place().is_some() {
                let sum = time_sums[&(event.unit, event.day, event.market)][hour];
                rules::time_increase_fails(bid - r, sum)
            } else {
                rules::bid_fails(component, &conditions(hour), r, bid)
            }
        });
        let hits = HourMask::of_hours(|hour| row.flags.has(hour) && impact.has(hour));
        row.mitigated = rules::mitigated_hours(component, event.market, hits, *minimum_run_hours);

        // A component that doesn't read c is settled as if c were r.
        let c = if component.reads_correct_reference() {
            case.correct_references[&(event.unit, component)]
        } else {
            r
        };
        for (hour, in_force) in row.bids_in_force.iter_mut().enumerate() {
            *in_force = rules::bid_in_force_with_correct_reference(
                component,
                &conditions(hour),
                r,
                c,
                hours[hour].bid,
                row.mitigated.has(hour),
            ) as i32;
        }
        if component == Component::Energy {
            let value = row
                .mitigated
                .hours()
                .map(|hour| {
                    let BidHour {
                        bid,
                        price,
                        quantity,
                    } = hours[hour];
                    rules::make_up_value(r, c, bid, price, quantity)
                })
                .sum();
            row.make_up = rules::make_up_payment(value) as u64;
        }
    }
}
