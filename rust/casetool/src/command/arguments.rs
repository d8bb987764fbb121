//! The command line.

mod values;

use std::ffi::{OsStr, OsString};
use std::fmt;
use std::path::PathBuf;

use attachment_h::layout::Version;

use self::values::{flag, number, once, one_of, value};
use crate::command::help::Topic;
use crate::command::one_line;

/// A command line that casetool does not take: what is wrong, and whose help to read.
#[derive(Clone, Debug, PartialEq, Eq)]
pub struct Misuse {
    /// What is wrong.
    pub problem: String,
    /// The command it was given to.
    pub topic: Topic,
}

/// Where bytes come from.
#[derive(Clone, Debug, PartialEq, Eq)]
pub enum Source {
    /// Standard input.
    Input,
    /// A file.
    File(PathBuf),
}

impl fmt::Display for Source {
    fn fmt(&self, formatter: &mut fmt::Formatter<'_>) -> fmt::Result {
        match self {
            Source::Input => formatter.write_str("standard input"),
            Source::File(path) => path.display().fmt(formatter),
        }
    }
}

/// What casetool is asked for.
#[derive(Clone, Debug, PartialEq, Eq)]
pub enum Request {
    /// The help of a command.
    Help(Topic),
    /// The version.
    Version,
    /// A command with what was given to it.
    Run(Topic, Given),
}

/// What a case is given as.
#[derive(Clone, Copy, Debug, PartialEq, Eq)]
pub enum As {
    /// A text.
    Text,
    /// A case file.
    Case,
}

/// How an answer is printed.
#[derive(Clone, Copy, Debug, Default, PartialEq, Eq)]
pub enum Format {
    /// In words.
    #[default]
    Text,
    /// As JSON.
    Json,
    /// As CSV.
    Csv,
}

/// What was given to a command.
#[derive(Clone, Debug, PartialEq, Eq)]
pub struct Given {
    /// The case, the text or the correction that is read.
    pub source: Source,
    /// Where the answer goes; nothing for standard output.
    pub output: Option<PathBuf>,
    /// The correction to settle with.
    pub correction: Option<Source>,
    /// That what is written, shown or converted is a correction.
    pub is_correction: bool,
    /// The version of that correction.
    pub version: Option<Version>,
    /// The version of the copy.
    pub to: Option<Version>,
    /// That a text without an event, or a correction without a reference, is taken.
    pub allow_empty: bool,
    /// What the case is; nothing where its bytes decide.
    pub taken_as: Option<As>,
    /// How the answer is printed.
    pub format: Format,
    /// The event that is asked about; nothing for every one that has a line.
    pub event: Option<usize>,
    /// The hour of a working; nothing for the working of the event's money.
    pub hour: Option<usize>,
    /// That a settlement has the working of each event's money.
    pub explain: bool,
    /// The arguments of one line, each as its option and its word; none where a case is asked about.
    pub one_line: Vec<(&'static str, String)>,
}

/// The words of `--as`.
const FORMS: [(&str, As); 2] = [("text", As::Text), ("case", As::Case)];

/// The words of `--version` and `--to`.
const VERSIONS: [(&str, Version); 2] = [("1", Version::One), ("2", Version::Two)];

/// The words of `--format`.
const FORMATS: [(&str, Format); 3] = [
    ("text", Format::Text),
    ("json", Format::Json),
    ("csv", Format::Csv),
];

/// The options and files of a command, as far as they are read.
#[derive(Default)]
struct Found {
    source: Option<Source>,
    output: Option<PathBuf>,
    correction: Option<Source>,
    is_correction: bool,
    version: Option<Version>,
    to: Option<Version>,
    allow_empty: bool,
    taken_as: Option<As>,
    format: Option<Format>,
    event: Option<usize>,
    hour: Option<usize>,
    explain: bool,
    one_line: Vec<(&'static str, String)>,
}

/// Reads a command line without the name of the program.
pub fn read(arguments: &[OsString]) -> Result<Request, Misuse> {
    let misuse = |problem: String| Misuse {
        problem,
        topic: Topic::Casetool,
    };
    let Some(first) = arguments.first() else {
        return Err(misuse("a command is missing".to_string()));
    };
    let rest = &arguments[1..];
    let alone = |request, rest: &[OsString]| match rest.first() {
        None => Ok(request),
        Some(extra) => Err(misuse(format!("one argument too many, {}", shown(extra)))),
    };
    match first.to_str() {
        Some("-h" | "--help") => alone(Request::Help(Topic::Casetool), rest),
        Some("-V" | "--version") => alone(Request::Version, rest),
        Some("help") => match rest.split_first() {
            None => Ok(Request::Help(Topic::Casetool)),
            Some((name, rest)) => alone(Request::Help(topic(name).map_err(misuse)?), rest),
        },
        _ => command(topic(first).map_err(misuse)?, rest),
    }
}

/// The command of this name.
fn topic(name: &OsStr) -> Result<Topic, String> {
    Topic::COMMANDS
        .into_iter()
        .find(|topic| name.to_str() == Some(topic.name()))
        .ok_or_else(|| format!("there is no command {}", shown(name)))
}

/// An argument in a message.
pub fn shown(argument: impl AsRef<OsStr>) -> String {
    let argument = argument.as_ref();
    format!("'{}'", argument.to_string_lossy().escape_debug())
}

/// Reads the arguments of a command.
fn command(topic: Topic, arguments: &[OsString]) -> Result<Request, Misuse> {
    let mut found = Found::default();
    let mut arguments = arguments.iter();
    let mut only_files = false;
    while let Some(argument) = arguments.next() {
        let result = match argument.to_str() {
            Some("-h" | "--help") if !only_files => return Ok(Request::Help(topic)),
            Some("--") if !only_files => {
                only_files = true;
                Ok(())
            }
            Some(option) if !only_files && option.starts_with('-') && option != "-" => {
                found.option(topic, option, &mut arguments)
            }
            _ => found.file(argument),
        };
        result.map_err(|problem| Misuse { problem, topic })?;
    }
    found
        .given(topic)
        .map(|given| Request::Run(topic, given))
        .map_err(|problem| Misuse { problem, topic })
}

/// The files that a command line names as outputs, and all else that it may name: what there is to
/// know of one that casetool does not take.
pub fn outputs(arguments: &[OsString]) -> (Vec<PathBuf>, Vec<Source>) {
    let (mut outputs, mut others) = (Vec::new(), vec![Source::Input]);
    let is_command = arguments.first().is_some_and(|name| topic(name).is_ok());
    let mut rest = arguments.iter().skip(1).filter(|_| is_command);
    let mut only_files = false;
    while let Some(argument) = rest.next() {
        let word = argument.to_str().filter(|_| !only_files);
        let joined = |word: &str| Some(PathBuf::from(word.strip_prefix("--output=")?));
        match word {
            Some("-o" | "--output") => outputs.extend(rest.next().map(Into::into)),
            Some("--") => only_files = true,
            word => match word.and_then(joined) {
                Some(path) => outputs.push(path),
                None => others.push(source(argument)),
            },
        }
    }
    (outputs, others)
}

impl Found {
    fn option<'a>(
        &mut self,
        topic: Topic,
        option: &str,
        rest: &mut impl Iterator<Item = &'a OsString>,
    ) -> Result<(), String> {
        let converts = matches!(topic, Topic::Write | Topic::Show | Topic::Convert);
        match option {
            "--correction" if converts => flag(&mut self.is_correction, option),
            "--version" if converts => {
                let version = one_of(option, value(option, rest)?, &VERSIONS)?;
                once(&mut self.version, option, version)
            }
            "--to" if topic == Topic::Convert => {
                let version = one_of(option, value(option, rest)?, &VERSIONS)?;
                once(&mut self.to, option, version)
            }
            "--correction" => once(&mut self.correction, option, source(value(option, rest)?)),
            "-o" | "--output" => once(&mut self.output, option, value(option, rest)?.into()),
            "--allow-empty" if topic.allows_empty() => flag(&mut self.allow_empty, option),
            "--explain" if topic == Topic::Settle => flag(&mut self.explain, option),
            "--as" if !converts => {
                let form = one_of(option, value(option, rest)?, &FORMS)?;
                once(&mut self.taken_as, option, form)
            }
            "--format" if !converts => {
                // Only a settlement has rows.
                let taken = if topic == Topic::Settle { 3 } else { 2 };
                let format = one_of(option, value(option, rest)?, &FORMATS[..taken])?;
                once(&mut self.format, option, format)
            }
            "--event" if matches!(topic, Topic::Working | Topic::Line) => {
                let event = number(option, value(option, rest)?, usize::MAX)?;
                once(&mut self.event, option, event)
            }
            "--hour" if topic == Topic::Working => {
                let hour = number(option, value(option, rest)?, 23)?;
                once(&mut self.hour, option, hour)
            }
            _ => match one_line::OPTIONS.iter().find(|known| **known == option) {
                Some(known) if topic == Topic::Line => self.argument(known, value(option, rest)?),
                _ => Err(format!("there is no option {}", shown(option))),
            },
        }
    }

    /// An argument of one line.
    fn argument(&mut self, option: &'static str, word: &OsStr) -> Result<(), String> {
        if self.one_line.iter().any(|(known, _)| *known == option) {
            return Err(format!("{option} is there twice"));
        }
        let word = word.to_string_lossy().into_owned();
        self.one_line.push((option, word));
        Ok(())
    }

    /// A line is asked of a case or of arguments, and not of both.
    fn one_form(&self) -> Result<(), String> {
        let of_a_case = [
            ("a case", self.source.is_some()),
            ("--correction", self.correction.is_some()),
            ("--as", self.taken_as.is_some()),
            ("--event", self.event.is_some()),
        ];
        let of_a_case = of_a_case.iter().find(|(_, given)| *given);
        match (of_a_case, self.one_line.first()) {
            (Some((name, _)), Some((option, _))) => Err(format!(
                "{name} and {option} can't both be given: a line is that of a case or of arguments"
            )),
            _ => Ok(()),
        }
    }

    fn file(&mut self, argument: &OsStr) -> Result<(), String> {
        match self.source {
            None => {
                self.source = Some(source(argument));
                Ok(())
            }
            Some(_) => Err(format!("one file too many, {}", shown(argument))),
        }
    }

    fn given(self, topic: Topic) -> Result<Given, String> {
        self.one_form()?;
        let source = self.source.unwrap_or(Source::Input);
        if source == Source::Input && self.correction == Some(Source::Input) {
            return Err("the case and the correction can't both be standard input".to_string());
        }
        if topic == Topic::Working && self.event.is_none() {
            return Err("--event is missing".to_string());
        }
        if topic == Topic::Convert && self.to.is_none() {
            return Err("--to is missing".to_string());
        }
        if self.version.is_some() && !self.is_correction {
            let problem =
                "--version is that of a correction, with --correction: a case says its own";
            return Err(problem.to_string());
        }
        if self.explain && self.format == Some(Format::Csv) {
            let problem = "--explain and --format csv can't both be given: a table of rows has no place for a working";
            return Err(problem.to_string());
        }
        Ok(Given {
            source,
            output: self.output,
            correction: self.correction,
            is_correction: self.is_correction,
            version: self.version,
            to: self.to,
            allow_empty: self.allow_empty,
            taken_as: self.taken_as,
            format: self.format.unwrap_or_default(),
            event: self.event,
            hour: self.hour,
            explain: self.explain,
            one_line: self.one_line,
        })
    }
}

fn source(argument: &OsStr) -> Source {
    match argument.to_str() {
        Some("-") => Source::Input,
        _ => Source::File(argument.into()),
    }
}
