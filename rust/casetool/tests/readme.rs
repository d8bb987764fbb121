//! The commands of README.md's "A case from text to listing", run as they stand: what they print is
//! what stands under them.

mod support;

use std::fs;
use std::path::{Path, PathBuf};
use std::process::Command;

use support::repository;

/// A command of the README and the lines under it.
struct Shown {
    command: String,
    output: String,
}

/// The section that has the commands.
fn section(readme: &str) -> &str {
    let start = readme
        .find("## A case from text to listing")
        .expect("the section");
    let section = &readme[start..];
    let end = section[3..]
        .find("\n## ")
        .map_or(section.len(), |end| end + 3);
    &section[..end]
}

/// The text that the reader is asked to put into target/first.txt.
fn first_case(section: &str) -> String {
    let (_, rest) = section
        .split_once("into target/first.txt:\n\n")
        .expect("the first case");
    rest.lines()
        .map_while(|line| line.strip_prefix("    "))
        .map(|line| format!("{line}\n"))
        .collect()
}

/// The commands of a section, each after a `$` in an indented block.
fn shown(section: &str) -> Vec<Shown> {
    let mut found: Vec<Shown> = Vec::new();
    let mut open = false;
    for line in section.lines() {
        if let Some(command) = line.strip_prefix("    $ ") {
            let command = command.to_string();
            let output = String::new();
            found.push(Shown { command, output });
            open = true;
        } else if open && (line.is_empty() || line.starts_with("    ")) {
            let last = found.last_mut().expect("an open command");
            last.output += line.strip_prefix("    ").unwrap_or(line);
            last.output += "\n";
        } else {
            open = false;
        }
    }
    found
}

/// A folder that looks like the repository: the examples, and the program listing where it is built.
fn folder() -> PathBuf {
    let folder = Path::new(env!("CARGO_TARGET_TMPDIR")).join("readme");
    let _ = fs::remove_dir_all(&folder);
    for name in ["examples", "target/bin"] {
        fs::create_dir_all(folder.join(name)).expect("a folder of the test");
    }
    for name in [
        "examples/two-plants.txt",
        "examples/two-plants-correction.txt",
        "examples/new-plant.txt",
        "target/bin/listing",
    ] {
        let copied = fs::copy(repository(name), folder.join(name));
        assert!(copied.is_ok() || name == "target/bin/listing", "{name}");
    }
    folder
}

#[test]
fn commands_print_what_the_readme_shows() {
    let readme = fs::read_to_string(repository("README.md")).expect("the README");
    let section = section(&readme);
    let folder = folder();
    let first = first_case(section);
    assert_eq!(first.lines().count(), 3);
    fs::write(folder.join("target/first.txt"), first).expect("a file of the test");
    let shown = shown(section);
    // The short way stands first: a text, one command, the answer.
    assert_eq!(
        shown[0].command,
        "sh scripts/casetool settle target/first.txt"
    );
    for Shown { command, output } in &shown {
        if command.contains("target/bin/listing") && !folder.join("target/bin/listing").exists() {
            println!("target/bin/listing is not built: not run");
            continue;
        }
        let program = format!("'{}'", env!("CARGO_BIN_EXE_casetool"));
        let ran = Command::new("sh")
            .args(["-c", &command.replace("sh scripts/casetool", &program)])
            .current_dir(&folder)
            .output()
            .expect("a shell");
        assert_eq!(String::from_utf8_lossy(&ran.stderr), "", "{command}");
        let printed = String::from_utf8(ran.stdout).expect("text");
        assert_eq!(printed.trim_end(), output.trim_end(), "{command}");
    }
    println!("{} commands of README.md", shown.len());
    assert!(shown.len() >= 15);
}

/// Where a word first stands alone in a text.
fn first_use(text: &str, word: &str) -> usize {
    let letter = |byte: Option<&u8>| byte.is_some_and(u8::is_ascii_alphanumeric);
    let bytes = text.as_bytes();
    text.match_indices(word)
        .map(|(at, _)| at)
        .find(|&at| {
            let before = at.checked_sub(1).and_then(|at| bytes.get(at));
            !letter(before) && !letter(bytes.get(at + word.len()))
        })
        .unwrap_or_else(|| panic!("no {word}"))
}

#[test]
fn words_are_explained_where_they_are_first_used() {
    let readme = fs::read_to_string(repository("README.md")).expect("the README");
    let readme = readme.replace('\n', " ");
    for (word, explanation) in [
        ("E", "E, what a party gained by inaccurate fuel data"),
        (
            "document 01",
            "Document 01 is the paper by which this program was ordered",
        ),
        ("N3", "N3 and N2 are counts of instances"),
        ("N2", "N3 and N2 are counts of instances"),
    ] {
        let (used, explained) = (first_use(&readme, word), readme.find(explanation));
        let explained = explained.unwrap_or_else(|| panic!("no explanation of {word}"));
        // Document 01's name and the counts are printed first, and explained in the next lines.
        assert!(
            explained.abs_diff(used) < 300,
            "{word}: {used}, {explained}"
        );
    }
}

#[test]
fn the_numbers_of_capability_periods_are_told() {
    for name in ["README.md", "docs/FORMAT.md"] {
        let text = fs::read_to_string(repository(name)).expect("the document");
        let text = text.replace('\n', " ");
        for sentence in [
            "Summer of year Y is 2 × (Y − 2000) + 1",
            "the Winter that begins on 1 November of Y is 2 × (Y − 1999)",
            "44 is the Winter that begins on 1 November 2021",
        ] {
            assert!(text.contains(sentence), "{name}: {sentence}");
        }
    }
}
