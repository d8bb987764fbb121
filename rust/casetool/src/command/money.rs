//! The working of an event's money: `working` without an hour, and `settle --explain`.

use attachment_h::layout::Sections;
use attachment_h::{
    Kind, PenaltyWorking, Refused, Row, instances, make_up_working, penalty_working,
};

use super::arguments::{Format, Given};
use super::case::{event_of, rows_of};
use super::input::Inputs;
use super::{Answer, Failure, mistake};
use crate::format::money::{Figures, Money, json};
use crate::record::event::Event;

/// The working of the event that was asked for.
pub fn worked(inputs: &Inputs, given: &Given) -> Result<Answer, Failure> {
    let (_, rows) = rows_of(inputs, inputs.correction_bytes())?;
    let sections =
        Sections::of(&inputs.case.bytes).ok_or_else(|| mistake("sections in this settled case"))?;
    let number = given.event.unwrap_or_default();
    let event = event_of(&sections, number)?;
    let fuel = match event.kind {
        Kind::FUEL => fuel_events(inputs, &sections).map_err(unexpected)?,
        _ => Vec::new(),
    };
    let money = Case {
        inputs,
        sections,
        rows: &rows,
        fuel,
    };
    let money = money.of(number, event).map_err(unexpected)?;
    Ok(Answer::done(match given.format {
        Format::Json => json(&money),
        _ => money.text(),
    }))
}

/// The working of every event, in the order of the file.
pub fn of_every_event<'a>(
    inputs: &'a Inputs,
    sections: Sections<'a>,
    rows: &[u8],
) -> Result<Vec<Money<'a>>, Failure> {
    let money = Case {
        inputs,
        sections,
        rows,
        fuel: fuel_events(inputs, &sections).map_err(unexpected)?,
    };
    let events = Event::all(&sections).enumerate();
    let workings = events.map(|(number, event)| money.of(number, event));
    workings
        .collect::<Result<_, Refused>>()
        .map_err(|refused| unexpected(refused).into())
}

/// That the library refuses the event of a case that it has settled.
fn unexpected(refused: Refused) -> String {
    let mistake = mistake("such event in this settled case");
    format!("{refused}: {mistake}")
}

/// The fuel events of a case with their workings, which say what party-day each is of.
fn fuel_events(
    inputs: &Inputs,
    sections: &Sections<'_>,
) -> Result<Vec<(usize, PenaltyWorking)>, Refused> {
    let events = Event::all(sections).enumerate();
    let fuel = events.filter(|(_, event)| event.kind == Kind::FUEL);
    let worked = fuel.map(|(number, _)| {
        let working = penalty_working(&inputs.case.bytes, inputs.correction_bytes(), number)?;
        Ok((number, working))
    });
    worked.collect()
}

/// A settled case.
struct Case<'a, 'r> {
    inputs: &'a Inputs,
    sections: Sections<'a>,
    rows: &'r [u8],
    /// Its fuel events, where one is asked about.
    fuel: Vec<(usize, PenaltyWorking)>,
}

impl<'a> Case<'a, '_> {
    /// The working of an event's money, all figures from the library.
    fn of(&self, number: usize, event: Event<'a>) -> Result<Money<'a>, Refused> {
        Ok(Money {
            sections: self.sections,
            number,
            event,
            flags: Row::of(self.rows, number).flags,
            figures: self.figures(number, event.kind)?,
        })
    }

    fn figures(&self, number: usize, kind: Kind) -> Result<Figures, Refused> {
        let (file, correction) = (&self.inputs.case.bytes, self.inputs.correction_bytes());
        if kind == Kind::BIDS {
            let working = make_up_working(file, correction, number)?;
            return Ok(Figures::Bids(Box::new(working)));
        }
        let working = penalty_working(file, correction, number)?;
        Ok(match kind {
            Kind::WITHHELD => {
                let counted = instances(file, correction, number)?;
                Figures::Withheld(Box::new(working), counted)
            }
            Kind::FUEL => {
                let same_day = |(_, other): &&(usize, PenaltyWorking)| other.row == working.row;
                let day = self.fuel.iter().filter(same_day).copied().collect();
                Figures::Fuel(Box::new(working), day)
            }
            _ => Figures::Dispatch(Box::new(working)),
        })
    }
}
