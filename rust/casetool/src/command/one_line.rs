//! `line` without a case: one line from arguments, each of them written as in a text.

use attachment_h::{BidHour, Component, Market, Refused, line};

use super::arguments::{Format, Given, shown};
use super::{Answer, Failure, mistake};
use crate::format::line::Line;
use crate::record::field::{Field, Form};
use crate::record::fields::{
    AVERAGE_PRICE, COMPONENT_OF_REFERENCE, CONSTRAINED_HOURS, MARKET, value,
};
use crate::text::values;

/// The options of the arguments, each the key of its field.
pub const OPTIONS: [&str; 6] = [
    "--component",
    "--reference",
    "--market",
    "--tight",
    "--average-price",
    "--constrained-hours",
];

/// Whether the hour is tight, which is a field of no record.
const TIGHT: Field = Field::new(("tight", "tight"), (0, 1), Form::Mark).within(0, 1);

/// The line of the arguments that were given.
pub fn answer(given: &Given) -> Result<Answer, Failure> {
    let mut arguments = Arguments::of(given);
    let (component, reference) = arguments.component_and_reference()?;
    let hour = arguments.hour(component)?;
    let bid = match line(component, reference, hour) {
        Ok(bid) => bid,
        Err(refused) => return Err(arguments.refusal(refused).into()),
    };
    let line = Line {
        component,
        reference,
        bid,
    };
    Ok(Answer::done(match given.format {
        Format::Json => line.json(),
        _ => line.text(&arguments.spoken()),
    }))
}

/// The reference of a component, by the option's name.
fn reference_of(component: Component) -> Field {
    Field {
        key: "reference",
        ..value(component)
    }
}

/// What has no room in an argument is out of its range, and so is the largest number that has.
fn byte(value: i64) -> u8 {
    u8::try_from(value).unwrap_or(u8::MAX)
}

fn word(value: i64) -> u32 {
    u32::try_from(value).unwrap_or(u32::MAX)
}

/// An argument that was given, and what is read of it.
struct Argument<'a> {
    field: Field,
    word: &'a str,
    value: i64,
}

/// The arguments that were given, as far as they are read.
struct Arguments<'a> {
    given: &'a [(&'static str, String)],
    read: Vec<Argument<'a>>,
}

impl<'a> Arguments<'a> {
    fn of(given: &'a Given) -> Arguments<'a> {
        Arguments {
            given: &given.one_line,
            read: Vec::new(),
        }
    }

    fn component_and_reference(&mut self) -> Result<(Component, u32), Failure> {
        let why = "a line is that of one component";
        let number = self.value(COMPONENT_OF_REFERENCE, true, why)?;
        let component = Component(byte(number));
        if !COMPONENT_OF_REFERENCE.limit.allows(number) {
            // Nothing says how the reference of a component that there is not is written.
            return Ok((component, 0));
        }
        let why = "every line depends on the reference";
        let reference = self.value(reference_of(component), true, why)?;
        Ok((component, word(reference)))
    }

    /// The circumstances of the hour: needed is what the line of the component depends on.
    fn hour(&mut self, component: Component) -> Result<BidHour, Failure> {
        let needed = [Component::ENERGY, Component::MINIMUM_GENERATION].contains(&component);
        let why = "for energy and minimum generation the line depends on the market";
        let market = Market(byte(self.value(MARKET, needed, why)?));
        let needed = needed && market == Market::REAL_TIME;
        let why = "for energy and minimum generation in Real-Time the line depends on whether the hour is tight";
        let tight = self.value(TIGHT, needed, why)? == 1;
        let needed = needed && tight;
        let why =
            "for energy and minimum generation in a tight hour of Real-Time the line depends on it";
        let average_price = word(self.value(AVERAGE_PRICE, needed, why)?);
        let constrained_hours = self.value(CONSTRAINED_HOURS, needed, why)?;
        Ok(BidHour {
            market,
            tight,
            average_price,
            constrained_hours: u16::try_from(constrained_hours).unwrap_or(u16::MAX),
        })
    }

    /// The value of the argument of a field; 0 where it was left out and is not needed.
    fn value(&mut self, field: Field, needed: bool, why: &str) -> Result<i64, Failure> {
        let option = format!("--{}", field.key);
        let found = self.given.iter().find(|(known, _)| *known == option);
        let Some((_, word)) = found else {
            return match needed {
                true => Err(Failure::Misuse(format!("{option} is missing: {why}"))),
                false => Ok(0),
            };
        };
        let misuse =
            |problem: String| Failure::Misuse(format!("{option} {}: {problem}", shown(word)));
        let value = values::alone(word, &field).map_err(misuse)?;
        // A mark is yes or no to the library, which can refuse neither.
        if field.form == Form::Mark && !field.limit.allows(value) {
            return Err(misuse(field.allowed()));
        }
        self.read.push(Argument { field, word, value });
        Ok(value)
    }

    /// What was read, for people: a shell may have changed what was typed.
    fn spoken(&self) -> String {
        let spoken = self.read.iter().map(|Argument { field, value, .. }| {
            let value = match field.form {
                Form::Mark => ["no", "yes"][usize::from(*value == 1)].to_string(),
                form => form.spoken(*value),
            };
            format!("{} {value}", field.key)
        });
        spoken.collect::<Vec<String>>().join(", ")
    }

    /// A refusal of the library, which has the number alone, with the arguments that are out of their ranges.
    fn refusal(&self, refused: Refused) -> String {
        let out_of_range = self
            .read
            .iter()
            .filter(|argument| !argument.field.limit.allows(argument.value));
        let lines: Vec<String> = out_of_range
            .map(|Argument { field, word, .. }| {
                format!("--{} {}: {}", field.key, shown(word), field.allowed())
            })
            .collect();
        let lines = match lines.as_slice() {
            [] => mistake("argument out of its range"),
            found => found.join("\n"),
        };
        format!("{refused}: {}\n{lines}", refused.meaning())
    }
}
