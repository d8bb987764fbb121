//! `line` of a case: the hours of its bids beside the lines that hold for them.

use attachment_h::layout::{HOURS, Sections, u16_at, u32_at};
use attachment_h::{BidHour, Kind, Refused, line, working};

use super::arguments::{Format, Given};
use super::case::event_of;
use super::input::Inputs;
use super::{Answer, Failure, mistake};
use crate::format::line::{Bids, Hour, json, text};
use crate::record::event::Event;
use crate::record::fields::{AVERAGE_PRICE, CONSTRAINED_HOURS};
use crate::text::words;

/// The bids of a case beside their lines: those of every event, or of the one that was asked for.
pub fn beside_lines(inputs: &Inputs, given: &Given) -> Result<Answer, Failure> {
    inputs.check()?;
    let sections = Sections::of(&inputs.case.bytes)
        .ok_or_else(|| mistake("sections in this accepted case"))?;
    let events: Vec<(usize, Event<'_>)> = match given.event {
        Some(number) => vec![(number, event_of_bids(&sections, number)?)],
        None => {
            let events = Event::all(&sections).enumerate();
            events
                .filter(|(_, event)| event.kind == Kind::BIDS)
                .collect()
        }
    };
    let bids = events
        .into_iter()
        .map(|(number, event)| bids_of(inputs, &sections, number, event))
        .collect::<Result<Vec<Bids<'_>>, Failure>>()?;
    Ok(Answer::done(match given.format {
        Format::Json => json(&bids),
        _ => text(&bids),
    }))
}

/// The event that was asked for: bids alone have a line.
fn event_of_bids<'a>(sections: &Sections<'a>, number: usize) -> Result<Event<'a>, Failure> {
    let event = event_of(sections, number)?;
    match event.kind {
        Kind::BIDS => Ok(event),
        other => Err(Failure::Misuse(format!(
            "--event {number}: its kind is {}, and bids alone have a line",
            words::kind(other)
        ))),
    }
}

/// The hours of an event of bids, with all figures from the library.
fn bids_of<'a>(
    inputs: &Inputs,
    sections: &Sections<'_>,
    number: usize,
    event: Event<'a>,
) -> Result<Bids<'a>, Failure> {
    let none = || mistake("such hour in this accepted case");
    let unit = sections.unit(event.unit).ok_or_else(none)?;
    let hours = (0..HOURS).map(|hour| {
        let working = working(&inputs.case.bytes, inputs.correction_bytes(), number, hour)?;
        let circumstances = BidHour {
            market: event.market,
            tight: working.tight,
            average_price: u32_at(unit, AVERAGE_PRICE.at),
            constrained_hours: u16_at(unit, CONSTRAINED_HOURS.at),
        };
        let hour = Hour {
            bid: working.a.cast_signed(),
            line: line(event.component, working.reference, circumstances)?,
            tight: working.tight,
            flagged: working.flagged,
        };
        Ok((working.reference, hour))
    });
    let hours: Vec<(u32, Hour)> = hours
        .collect::<Result<_, Refused>>()
        .map_err(|refused| format!("{refused}: {}", none()))?;
    Ok(Bids {
        number,
        event,
        reference: hours[0].0,
        hours: hours.into_iter().map(|(_, hour)| hour).collect(),
    })
}
