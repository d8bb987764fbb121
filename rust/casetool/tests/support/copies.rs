//! The version 2 copy of what casetool is given in version 1.

use std::sync::atomic::{AtomicUsize, Ordering};

use attachment_h::layout::{LARGEST_FILE, Section, Version, converted};
use cases::case::Input;

use super::{Ran, file_with, run};

/// Commands about a case, whose `--correction` names one.
const ABOUT_A_CASE: [&str; 4] = ["check", "settle", "working", "line"];

/// Bytes of the longest correction of version 1.
const MOST_BYTES: usize = 8 * 256;

/// What a command line names, each by its argument; nothing for standard input.
struct Named {
    case: Option<usize>,
    correction: Option<usize>,
    is_correction: bool,
}

impl Named {
    /// Of a command that reads a case, or writes or shows one or a correction, and prints its answer.
    fn by(arguments: &[&str]) -> Option<Named> {
        let about_a_case = ABOUT_A_CASE.contains(arguments.first()?);
        // A name with signs in it is written in another way in JSON and CSV.
        let is_signed = |word: &&str| word.contains('"');
        if !about_a_case && !["write", "show"].contains(&arguments[0])
            || arguments.iter().any(is_signed)
        {
            return None;
        }
        let mut named = Named {
            case: None,
            correction: None,
            is_correction: false,
        };
        let mut places = 1..arguments.len();
        while let Some(place) = places.next() {
            match arguments[place] {
                "--correction" if about_a_case => named.correction = Some(places.next()?),
                "--correction" => named.is_correction = true,
                "--event" | "--hour" | "--format" | "--as" => drop(places.next()?),
                "--version" if arguments.get(places.next()?) != Some(&"1") => return None,
                "--version" | "--allow-empty" | "--explain" => {}
                word if word.starts_with('-') && word != "-" || named.case.is_some() => {
                    return None;
                }
                _ => named.case = Some(place),
            }
        }
        Some(named)
    }
}

/// The bytes of a copy, and whether the line of its version moves its other lines.
struct Copy {
    bytes: Vec<u8>,
    moved: bool,
}

/// The copy of a text that says version 1, or no version and has no number above 65,535.
fn of_text(text: &[u8], is_correction: bool) -> Option<Copy> {
    let text = std::str::from_utf8(text).ok()?;
    if text.contains('\0') || text.contains("old-number") || has_no_room(text) {
        return None;
    }
    if !is_correction && length_of_copy(text) > LARGEST_FILE {
        return None;
    }
    let says = |line: &&str| line.split_whitespace().next() == Some("version");
    let moved = match text.lines().filter(says).collect::<Vec<_>>()[..] {
        [] => true,
        [line] if line.trim_end() == "version 1" => false,
        _ => return None,
    };
    let (mark, rest) = text.split_at(text.len() - text.trim_start_matches('\u{feff}').len());
    let text = match moved {
        true => format!("{mark}version 2\n{rest}"),
        false => {
            let line = |line| if says(&line) { "version 2" } else { line };
            text.split('\n').map(line).collect::<Vec<_>>().join("\n")
        }
    };
    Some(Copy {
        bytes: text.into_bytes(),
        moved,
    })
}

/// Whether version 1 has no room for the number of a unit.
fn has_no_room(text: &str) -> bool {
    let words: Vec<&str> = text.split_whitespace().collect();
    words.windows(2).any(|pair| {
        let number = pair[1].replace(',', "").parse::<i64>();
        pair[0] == "unit" && number.is_ok_and(|number| !(0..=65_535).contains(&number))
    })
}

/// Bytes of the version 2 file of a text, by how its lines begin.
fn length_of_copy(text: &str) -> usize {
    let bytes = |line: &str| match line.split_whitespace().next() {
        Some("unit") => 28,
        Some("reference" | "past") => 12,
        Some("event") => 316,
        _ => 0,
    };
    36 + text.lines().map(bytes).sum::<usize>()
}

/// The copy of a correction's file of whole records.
pub fn of_correction(bytes: &[u8]) -> Option<Vec<u8>> {
    let (section, from, to) = (Section::References, Version::One, Version::Two);
    converted(section, bytes, from, to).filter(|_| bytes.len().is_multiple_of(8))
}

/// The copy of a case file.
pub fn of_case(file: &[u8]) -> Option<Vec<u8>> {
    let input = Input {
        file: file.to_vec(),
        correction: Vec::new(),
        rows_len: 0,
    };
    Some(input.version_2_copy()?.file)
}

/// Whether a case or a correction with these bytes is a text.
fn is_text(bytes: &[u8]) -> bool {
    !bytes.is_empty() && !bytes.contains(&0) && std::str::from_utf8(bytes).is_ok()
}

/// The copy of what is read first: a case, or what is written or shown.
fn of_first(arguments: &[&str], named: &Named, bytes: &[u8]) -> Option<Copy> {
    let as_text = match arguments[0] {
        "write" => true,
        "show" => false,
        _ if arguments.contains(&"case") => false,
        _ => is_text(bytes),
    };
    if as_text {
        return of_text(bytes, named.is_correction);
    }
    let bytes = match named.is_correction {
        true => of_correction(bytes).filter(|_| bytes.len() <= MOST_BYTES)?,
        false => of_case(bytes)?,
    };
    Some(Copy {
        bytes,
        moved: false,
    })
}

/// The copy of the correction of a case; a text that says no version has its case's.
fn of_second(bytes: &[u8]) -> Option<Vec<u8>> {
    match is_text(bytes) {
        true => {
            let copy = of_text(bytes, true)?;
            Some(if copy.moved {
                bytes.to_vec()
            } else {
                copy.bytes
            })
        }
        false if bytes.is_empty() => Some(Vec::new()),
        false => of_correction(bytes),
    }
}

/// What casetool is given for the copy of a case, a text or a correction.
pub struct Copied {
    /// That what is written or shown is a correction.
    pub is_correction: bool,
    /// What the answer calls that which is read first.
    pub source: String,
    /// That the lines of its text stand one further.
    pub moved: bool,
    /// Bytes of the copy of a case's correction.
    pub correction_bytes: usize,
    arguments: Vec<String>,
    input: Vec<u8>,
    /// The files of the copies, each beside the one of version 1.
    files: Vec<(String, String)>,
}

impl Copied {
    /// The copy of what a command line names, if there is one.
    pub fn of(arguments: &[&str], input: &[u8]) -> Option<Copied> {
        let named = Named::by(arguments)?;
        let path = named.case.map_or("-", |place| arguments[place]);
        let read = |path: &str| match path {
            "-" => Some(input.to_vec()),
            path => std::fs::read(path).ok(),
        };
        let first = of_first(arguments, &named, &read(path)?)?;
        let second = match named.correction {
            Some(place) => Some(of_second(&read(arguments[place])?)?),
            None => None,
        };
        let mut copied = Copied {
            is_correction: named.is_correction,
            source: path.replacen('-', "standard input", usize::from(path == "-")),
            moved: first.moved,
            correction_bytes: second.as_ref().map_or(0, Vec::len),
            arguments: in_version_2(arguments),
            input: input.to_vec(),
            files: Vec::new(),
        };
        copied.put(named.case, &first.bytes);
        if let Some(second) = &second {
            copied.put(named.correction, second);
        }
        Some(copied)
    }

    /// Puts a copy where the bytes of version 1 came from.
    fn put(&mut self, place: Option<usize>, copy: &[u8]) {
        static FILES: AtomicUsize = AtomicUsize::new(0);
        match place {
            Some(place) if self.arguments[place] != "-" => {
                let (process, file) = (std::process::id(), FILES.fetch_add(1, Ordering::Relaxed));
                let path = file_with(&format!("copy-{process}-{file}"), copy);
                let old = std::mem::replace(&mut self.arguments[place], path.clone());
                self.files.push((path, old));
            }
            _ => self.input = copy.to_vec(),
        }
    }

    /// Runs casetool; its answer has the names of the files of version 1.
    pub fn run(&self) -> Ran {
        let arguments: Vec<&str> = self.arguments.iter().map(String::as_str).collect();
        let mut ran = run(&arguments, &self.input);
        for (path, old) in &self.files {
            std::fs::remove_file(path).expect("a file of the test");
            ran.errors = ran.errors.replace(path, old);
            if arguments[0] != "write" {
                ran.output = ran.text().replace(path, old).into_bytes();
            }
        }
        ran
    }
}

/// The same arguments for version 2, which the bytes of a correction do not say.
fn in_version_2(arguments: &[&str]) -> Vec<String> {
    let mut found: Vec<String> = arguments.iter().map(|word| word.to_string()).collect();
    match arguments.iter().position(|word| *word == "--version") {
        Some(place) => found[place + 1] = "2".to_string(),
        None if arguments[0] == "show" && arguments.contains(&"--correction") => {
            found.extend(["--version", "2"].map(str::to_string));
        }
        None => {}
    }
    found
}
