//! The commands.

mod alone;
pub mod arguments;
mod case;
mod convert;
pub mod files;
pub mod help;
mod input;
mod line;
mod money;
mod one_line;
pub mod output;
mod text;

use std::io::{Read, Write};

use self::arguments::Given;
use self::help::Topic;
use crate::place::refusal::Refusal;
use crate::text::mistakes::Mistakes;

/// Why a command has no answer.
pub enum Failure {
    /// The message for standard error.
    Message(String),
    /// What is wrong in the text of this name.
    Mistakes(String, Mistakes),
    /// It was asked for what its case does not have.
    Misuse(String),
}

impl From<String> for Failure {
    fn from(message: String) -> Failure {
        Failure::Message(message)
    }
}

impl From<Refusal> for Failure {
    fn from(refusal: Refusal) -> Failure {
        Failure::Message(refusal.to_string())
    }
}

/// What came of a command.
pub struct Done {
    /// It was done and, of a check, the case is accepted.
    pub accepted: bool,
    /// What looks wrong, for standard error.
    pub warnings: Vec<String>,
}

impl Default for Done {
    fn default() -> Done {
        Done {
            accepted: true,
            warnings: Vec::new(),
        }
    }
}

/// What a command answers.
struct Answer {
    bytes: Vec<u8>,
    done: Done,
}

impl Answer {
    fn done(bytes: impl Into<Vec<u8>>) -> Answer {
        Answer {
            bytes: bytes.into(),
            done: Done::default(),
        }
    }

    /// That a case is not accepted.
    fn not_accepted(bytes: impl Into<Vec<u8>>) -> Answer {
        let mut answer = Answer::done(bytes);
        answer.done.accepted = false;
        answer
    }
}

/// Runs a command and writes its answer.
pub fn run(
    topic: Topic,
    given: &Given,
    input: &mut dyn Read,
    output: &mut dyn Write,
) -> Result<Done, Failure> {
    if let Some(path) = &given.output {
        let sources = [Some(&given.source), given.correction.as_ref()];
        if sources
            .into_iter()
            .flatten()
            .any(|source| files::is(source, path))
        {
            let problem = format!(
                "-o {}: that file is read, and would be overwritten",
                path.display()
            );
            return Err(Failure::Misuse(problem));
        }
    }
    let answer = match topic {
        Topic::Casetool => Answer::done(topic.text()),
        Topic::Write => text::write(&files::read(&given.source, input)?, given)?,
        Topic::Show => text::show(&files::read(&given.source, input)?, given)?,
        Topic::Convert => convert::copy(&files::read(&given.source, input)?, given)?,
        Topic::Line if !given.one_line.is_empty() => one_line::answer(given)?,
        Topic::Check | Topic::Settle | Topic::Working | Topic::Line => {
            case::answer(topic, given, input)?
        }
    };
    output::write(&answer.bytes, given.output.as_deref(), output)?;
    Ok(answer.done)
}

/// That casetool does not find what has to be there.
fn mistake(what: &str) -> String {
    format!("casetool finds no {what}, which is a mistake of casetool")
}
