//! What the tests share.

#![allow(dead_code)]

pub mod alike;
pub mod copies;
#[cfg(unix)]
pub mod fake;
pub mod json;
pub mod refused;

use std::ffi::OsString;
use std::path::{Path, PathBuf};

use attachment_h::layout::Version;
use cases::case::Input;

/// What a run of casetool gave.
#[derive(Debug, PartialEq, Eq)]
pub struct Ran {
    /// The exit status.
    pub status: u8,
    /// Standard output.
    pub output: Vec<u8>,
    /// Standard error.
    pub errors: String,
}

impl Ran {
    /// Standard output as text.
    pub fn text(&self) -> &str {
        std::str::from_utf8(&self.output).expect("text")
    }
}

/// Runs casetool in this process. Of a version 1 case, text or correction its version 2 copy has to get the same answer.
pub fn casetool(arguments: &[&str], input: &[u8]) -> Ran {
    let ran = run(arguments, input);
    alike::answered_alike(arguments, input, &ran);
    ran
}

/// The same of what has to have a copy.
#[track_caller]
pub fn casetool_in_both(arguments: &[&str], input: &[u8]) -> Ran {
    casetool_where(true, arguments, input)
}

/// The same of what has to have a copy, or to have none.
#[track_caller]
pub fn casetool_where(has_copy: bool, arguments: &[&str], input: &[u8]) -> Ran {
    let ran = run(arguments, input);
    let copied = alike::answered_alike(arguments, input, &ran);
    assert_eq!(copied, has_copy, "a copy: {arguments:?}");
    ran
}

fn run(arguments: &[&str], mut input: &[u8]) -> Ran {
    let arguments: Vec<OsString> = arguments.iter().map(OsString::from).collect();
    let (mut output, mut errors) = (Vec::new(), Vec::new());
    let status = casetool::run(&arguments, &mut input, &mut output, &mut errors);
    Ran {
        status,
        output,
        errors: String::from_utf8(errors).expect("text"),
    }
}

/// The case file of a text that has nothing wrong, with or without events.
pub fn written(text: &str) -> Vec<u8> {
    let (file, warnings) = written_and_warned_of(text);
    assert_eq!(warnings, "");
    file
}

/// The case file of a text that can be read, and what is warned of.
pub fn written_and_warned_of(text: &str) -> (Vec<u8>, String) {
    let ran = casetool(&["write", "--allow-empty"], text.as_bytes());
    assert_eq!(ran.status, 0, "{}", ran.errors);
    (ran.output, ran.errors)
}

/// The versions in turn.
pub fn in_turn(place: usize) -> Version {
    Version::ALL[place % Version::ALL.len()]
}

/// A file of the repository.
pub fn repository(name: &str) -> PathBuf {
    Path::new(env!("CARGO_MANIFEST_DIR"))
        .join("../..")
        .join(name)
}

/// A file of its own for a test, with these bytes.
pub fn file_with(name: &str, bytes: &[u8]) -> String {
    let path = Path::new(env!("CARGO_TARGET_TMPDIR")).join(name);
    std::fs::write(&path, bytes).expect("a file of the test");
    path.to_str().expect("a path of text").to_string()
}

/// Runs casetool on a case and its correction, which is put into a file of this name; and on their copies, where a version
/// 1 case has one.
pub fn casetool_with(name: &str, arguments: &[&str], input: &Input) -> Ran {
    let path = file_with(name, &input.correction);
    let correction: &[&str] = match input.correction.as_slice() {
        [] => &[],
        _ => &["--correction", &path],
    };
    let has_copy = input.version_2_copy().is_some();
    casetool_where(has_copy, &[arguments, correction].concat(), &input.file)
}

/// How many copies an input has, one or none.
pub fn copies_of(input: &Input) -> usize {
    usize::from(input.version_2_copy().is_some())
}
