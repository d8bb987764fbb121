//! `check`, `settle`, `working` and `line`: what is answered of a case, in the format that was asked for.

use std::io::Read;

use attachment_h::layout::{Section, Sections};
use attachment_h::{ROWS_LENGTH, Settled, settle, working};

use super::arguments::{Format, Given};
use super::help::Topic;
use super::input::Inputs;
use super::{Answer, Failure, line, mistake, money};
use crate::format::check::{accepted, accepted_json, mistakes_json, refused_json};
use crate::format::notes::Correction;
use crate::format::settlement::Settlement;
use crate::format::working::Hour;
use crate::place::refusal::Refusal;
use crate::record::event::Event;

/// The answer of a command that reads a case.
pub fn answer(topic: Topic, given: &Given, input: &mut dyn Read) -> Result<Answer, Failure> {
    let inputs = match Inputs::read(topic, given, input) {
        // What a program reads of a check has its mistakes too.
        Err(Failure::Mistakes(name, mistakes))
            if topic == Topic::Check && given.format == Format::Json =>
        {
            return Ok(Answer::not_accepted(mistakes_json(&name, &mistakes)));
        }
        inputs => inputs?,
    };
    match topic {
        Topic::Check => Ok(checked(&inputs, given.format)),
        Topic::Settle => settled(&inputs, given),
        Topic::Line => line::beside_lines(&inputs, given),
        _ => match given.hour {
            Some(hour) => worked(&inputs, given, hour),
            None => money::worked(&inputs, given),
        },
    }
}

fn checked(inputs: &Inputs, format: Format) -> Answer {
    let sections = Sections::of(&inputs.case.bytes);
    let events = sections.map_or(0, |sections| sections.count(Section::Events));
    let version = inputs.version();
    match (inputs.check(), format) {
        (Ok(()), Format::Json) => {
            let correction = correction_of(inputs);
            Answer::done(accepted_json(version, events, correction.as_ref()))
        }
        (Ok(()), _) => Answer::done(accepted(events)),
        (Err(refusal), Format::Json) => Answer::not_accepted(refused_json(version, &refusal)),
        (Err(refusal), _) => Answer::not_accepted(refusal.to_string()),
    }
}

/// The correction that was named, of an accepted case.
fn correction_of(inputs: &Inputs) -> Option<Correction> {
    let (correction, version) = (inputs.correction.as_ref()?, inputs.version()?);
    Some(Correction {
        name: correction.name.clone(),
        references: correction.bytes.len() / Section::References.width(version),
    })
}

/// What a case settles to, with its correction or another one, and its rows.
pub fn rows_of(inputs: &Inputs, correction: &[u8]) -> Result<(Settled, Vec<u8>), Refusal> {
    let mut rows = vec![0; ROWS_LENGTH];
    settle(&inputs.case.bytes, correction, &mut rows)
        .map(|settled| (settled, rows))
        .map_err(|refused| inputs.refusal(refused))
}

fn settled(inputs: &Inputs, given: &Given) -> Result<Answer, Failure> {
    let (settled, rows) = rows_of(inputs, inputs.correction_bytes())?;
    let rows_without = match &inputs.correction {
        Some(_) => rows_of(inputs, &[])?.1,
        None => Vec::new(),
    };
    let correction = correction_of(inputs);
    let sections =
        Sections::of(&inputs.case.bytes).ok_or_else(|| mistake("sections in this settled case"))?;
    let workings = match given.explain {
        true => Some(money::of_every_event(inputs, sections, &rows)?),
        false => None,
    };
    let settlement = Settlement {
        sections,
        rows: &rows,
        correction: correction.as_ref(),
        rows_without: &rows_without,
        workings: workings.as_deref(),
    };
    Ok(Answer::done(match given.format {
        Format::Text => settlement.text(&settled),
        Format::Json => settlement.json(&settled),
        Format::Csv => settlement.csv(&settled),
    }))
}

fn worked(inputs: &Inputs, given: &Given, hour: usize) -> Result<Answer, Failure> {
    inputs.check()?;
    let file = &inputs.case.bytes;
    let none = || mistake("such hour in this accepted case");
    let sections = Sections::of(file).ok_or_else(none)?;
    let number = given.event.unwrap_or_default();
    let of_event = Hour {
        number,
        event: event_of(&sections, number)?,
        hour,
    };
    let working = working(file, inputs.correction_bytes(), number, hour)
        .map_err(|refused| format!("{refused}: {}", none()))?;
    Ok(Answer::done(match given.format {
        Format::Json => of_event.json(&working),
        _ => of_event.text(&working),
    }))
}

/// The event that `--event` asks for, which the case may not have.
pub fn event_of<'a>(sections: &Sections<'a>, number: usize) -> Result<Event<'a>, Failure> {
    Event::all(sections).nth(number).ok_or_else(|| {
        let events = match sections.count(Section::Events) {
            0 => "no events".to_string(),
            1 => "one event, 0".to_string(),
            count => format!("{count} events, 0 to {}", count - 1),
        };
        Failure::Misuse(format!("--event {number}: this case has {events}"))
    })
}
