//! Cases of the Attachment H settlement as text: reads a text or a case file, says what is wrong with it, and prints its
//! settlement for people and for programs; writes a case file from text and shows one as text.
//!
//! Every figure comes from the proved library, `attachment_h`. This crate reads and writes text.

pub mod command;
pub mod format;
pub mod place;
pub mod record;
pub mod text;

use std::ffi::OsString;
use std::io::{Read, Write};

use command::arguments::{self, Misuse, Request};
use command::{Done, Failure, files, output};

/// Runs casetool on its arguments without the name of the program; the exit status: 0 done, 1
/// refused, unreadable or no text of a case, 2 misuse. A command that fails leaves no old file where
/// its answer was to go.
pub fn run(
    arguments: &[OsString],
    input: &mut dyn Read,
    output: &mut dyn Write,
    errors: &mut dyn Write,
) -> u8 {
    let (problems, status) = match answered(arguments, input, output) {
        Ok(done) => {
            for warning in &done.warnings {
                say(errors, &format!("warning: {warning}"));
            }
            return u8::from(!done.accepted);
        }
        Err(failed) => failed,
    };
    for problem in problems {
        say(errors, &problem);
    }
    let (outputs, others) = arguments::outputs(arguments);
    for path in outputs {
        if others.iter().any(|source| files::is(source, &path)) {
            continue;
        }
        if let Some(renamed) = output::set_aside(&path) {
            say(errors, &renamed);
        }
    }
    status
}

/// Does what is asked for; otherwise messages and the exit status.
fn answered(
    arguments: &[OsString],
    input: &mut dyn Read,
    output: &mut dyn Write,
) -> Result<Done, (Vec<String>, u8)> {
    let misused =
        |Misuse { problem, topic }| (vec![format!("{problem}; see {}", topic.help_command())], 2);
    let mut text = |text: &str| {
        output::write(text.as_bytes(), None, output)
            .map(|()| Done::default())
            .map_err(|message| (vec![message], 1))
    };
    match arguments::read(arguments).map_err(misused)? {
        Request::Help(topic) => text(topic.text()),
        Request::Version => text(&format!("casetool {}\n", env!("CARGO_PKG_VERSION"))),
        Request::Run(topic, given) => {
            command::run(topic, &given, input, output).map_err(|failure| match failure {
                Failure::Message(message) => (vec![message], 1),
                Failure::Mistakes(name, mistakes) => {
                    let lines = mistakes.lines().into_iter();
                    (lines.map(|line| format!("{name}: {line}")).collect(), 1)
                }
                Failure::Misuse(problem) => misused(Misuse { problem, topic }),
            })
        }
    }
}

/// Puts a message on standard error; there is nobody left to tell where that fails.
fn say(errors: &mut dyn Write, message: &str) {
    let _ = writeln!(errors, "casetool: {}", message.trim_end());
}
