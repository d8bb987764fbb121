//! The subtotal of a fuel event: a plant's part of E.

use crate::case_file::{Case, Conduct};
use crate::settlement::unit_of;
use crate::terms::HourMask;

/// The subtotal of an event of the case in tenths of a cent; 10 where it is no fuel event.
pub fn subtotal(case: &Case, event: usize) -> Result<i64, u8> {
    let Some(Conduct::Fuel {
        guarantee_change,
        hours,
        ..
    }) = case.events.get(event).map(|own| &own.conduct)
    else {
        return Err(10);
    };
    let mut tenths = 10 * guarantee_change;
    for hour in union_hours(case, event).hours() {
        tenths += hours[hour].energy * hours[hour].price_change;
    }
    Ok(tenths)
}

/// The union hours of a fuel event: "the union of P over the party-day", those of the other units too.
fn union_hours(case: &Case, event: usize) -> HourMask {
    let own = &case.events[event];
    let mut union = HourMask::default();
    for (place, other) in case.events.iter().enumerate() {
        let together = other.day == own.day
            && other.market == own.market
            && unit_of(case, place).group == unit_of(case, event).group;
        if let Conduct::Fuel { inaccurate, .. } = other.conduct
            && together
        {
            union = union.union(inaccurate);
        }
    }
    union
}
