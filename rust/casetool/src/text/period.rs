//! The capability period of an event or a past entry, which is its day's: a line may leave it out, and one that is not
//! its day's is warned of.

use attachment_h::layout::{u16_at, u32_at};
use attachment_h::period_of;

use super::calendar::date;
use super::line::{Line, TextError};
use crate::record::fields::{DAY, LAST_DAY, PERIOD};

/// The period of a day whose line has none, by the library; otherwise why one has to be written.
pub fn of(day: u32) -> Result<u16, String> {
    period_of(day).map_err(|_| {
        format!(
            "{}: expected an earlier day, or the key {}",
            in_no_period(day),
            PERIOD.key
        )
    })
}

/// What a line has in its day or its period that is written and refused.
pub fn warning(line: &Line<'_>, record: &[u8]) -> Option<TextError> {
    let (day, period) = (u32_at(record, DAY.at), u16_at(record, PERIOD.at));
    let (field, problem) = match period_of(day) {
        Ok(of_day) if of_day == period => return None,
        Ok(of_day) => {
            let date = date(day);
            let own = format!("day {day} ({date}) is in capability period {of_day}");
            (PERIOD, format!("{own}; {period} is written"))
        }
        Err(_) => (DAY, format!("{}; it is written", in_no_period(day))),
    };
    let pair = line.pair(field.key)?;
    Some(
        pair.value
            .wrong(format!("{problem}, and a case with it is refused")),
    )
}

fn in_no_period(day: u32) -> String {
    let [date, last] = [day, LAST_DAY].map(date);
    format!("day {day} ({date}) is after day {LAST_DAY} ({last}), the last in a capability period")
}
