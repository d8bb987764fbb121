//! Reading the record of an event.

use crate::case_file::{BidHour, Conduct, DispatchHour, Event, FuelHour, WithheldHour};
use crate::layout::{Record, u16_at, u32_at, word_at};
use crate::terms::{
    Component, HOURS, HourMask, LARGEST_CHANGE, LARGEST_PRICE, LARGEST_QUANTITY, LARGEST_REVENUE,
    LAST_DAY, Market,
};

const HEAD_BYTES: usize = 24;
const CELL_BYTES: usize = 12;

/// One hour cell as it stands in the file.
#[derive(Clone, Copy)]
struct Cell {
    a: [u8; 4],
    b: [u8; 4],
    m: [u8; 4],
}

/// The fields whose meaning goes by the event's kind.
struct Fields {
    market: Market,
    component: u8,
    impact: bool,
    p: HourMask,
    q: [u8; 4],
    r: [u8; 4],
    cells: [Cell; HOURS],
}

/// The event of a record, unless it breaks 10.
pub fn read_event(Record { unit, bytes }: Record) -> Option<Event> {
    let fields = Fields {
        market: Market::from_number(bytes[1])?,
        component: bytes[6],
        impact: match bytes[7] {
            0 => false,
            1 => true,
            _ => return None,
        },
        // P is a mask in every kind.
        p: HourMask::from_bits(u32_at(bytes, 12))?,
        q: word_at(bytes, 16),
        r: word_at(bytes, 20),
        cells: cells_of(&bytes[HEAD_BYTES..]),
    };
    let conduct = match bytes[0] {
        1 => withheld(&fields)?,
        2 => dispatch(&fields)?,
        3 => fuel(&fields)?,
        4 => bids(&fields)?,
        _ => return None,
    };
    let day = u32_at(bytes, 8);
    (day <= LAST_DAY).then_some(Event {
        day,
        market: fields.market,
        unit,
        period: u16_at(bytes, 4),
        conduct,
    })
}

fn cells_of(bytes: &[u8]) -> [Cell; HOURS] {
    std::array::from_fn(|hour| {
        let cell = &bytes[CELL_BYTES * hour..];
        Cell {
            a: word_at(cell, 0),
            b: word_at(cell, 4),
            m: word_at(cell, 8),
        }
    })
}

fn withheld(fields: &Fields) -> Option<Conduct> {
    fields.has_no_component_and_no_m()?;
    fields.has_no_q_and_no_r()?;
    Some(Conduct::Withheld {
        impact: fields.impact,
        shadow_price: fields.p,
        hours: fields.hours(|cell| {
            Some(WithheldHour {
                withheld: unsigned(cell.a, u32::MAX)?,
                price: signed(cell.b, LARGEST_PRICE)?,
            })
        })?,
    })
}

fn dispatch(fields: &Fields) -> Option<Conduct> {
    fields.has_no_component_and_no_m()?;
    fields.has_no_q_and_no_r()?;
    if fields.market != Market::RealTime {
        return None;
    }
    Some(Conduct::Dispatch {
        impact: fields.impact,
        shadow_price: fields.p,
        hours: fields.hours(|cell| {
            Some(DispatchHour {
                undelivered: unsigned(cell.a, u32::MAX)?,
                added_revenue: unsigned(cell.b, LARGEST_REVENUE)?,
            })
        })?,
    })
}

fn fuel(fields: &Fields) -> Option<Conduct> {
    fields.has_no_component_and_no_m()?;
    let tcc_change = signed(fields.r, LARGEST_CHANGE)?;
    if fields.impact || (fields.market == Market::RealTime && tcc_change != 0) {
        return None;
    }
    Some(Conduct::Fuel {
        inaccurate: fields.p,
        guarantee_change: signed(fields.q, LARGEST_CHANGE)?,
        tcc_change,
        hours: fields.hours(|cell| {
            Some(FuelHour {
                energy: unsigned(cell.a, LARGEST_QUANTITY)?,
                price_change: signed(cell.b, LARGEST_PRICE)?,
            })
        })?,
    })
}

fn bids(fields: &Fields) -> Option<Conduct> {
    if fields.impact {
        return None;
    }
    let component = Component::from_number(fields.component)?;
    Some(Conduct::Bids {
        component,
        shadow_price: fields.p,
        impact: HourMask::from_bits(u32::from_le_bytes(fields.q))?,
        minimum_run_hours: unsigned(fields.r, 24)?,
        hours: fields.hours(|cell| {
            Some(BidHour {
                bid: Some(i64::from(i32::from_le_bytes(cell.a)))
                    .filter(|&bid| component.allows_bid(bid))?,
                price: signed(cell.b, LARGEST_PRICE)?,
                quantity: unsigned(cell.m, LARGEST_QUANTITY)?,
            })
        })?,
    })
}

impl Fields {
    /// "m and unnamed fields are 0": only kind 4 names m and the component.
    fn has_no_component_and_no_m(&self) -> Option<()> {
        let no_m = self.cells.iter().all(|cell| cell.m == [0; 4]);
        (self.component == 0 && no_m).then_some(())
    }

    /// Kinds 1 and 2 name neither.
    fn has_no_q_and_no_r(&self) -> Option<()> {
        (self.q == [0; 4] && self.r == [0; 4]).then_some(())
    }

    /// Reads each of the 24 cells, if all of them can be read.
    fn hours<T>(&self, read: impl Fn(&Cell) -> Option<T>) -> Option<[T; HOURS]> {
        let hours: Vec<T> = self.cells.iter().map(read).collect::<Option<_>>()?;
        hours.try_into().ok()
    }
}

fn unsigned(word: [u8; 4], most: u32) -> Option<i64> {
    let value = u32::from_le_bytes(word);
    (value <= most).then_some(i64::from(value))
}

fn signed(word: [u8; 4], most: i32) -> Option<i64> {
    let value = i32::from_le_bytes(word);
    (-most..=most).contains(&value).then_some(i64::from(value))
}
