//! Corrections: with a case they are of its version, alone `--version` or their length says it.

use attachment_h::layout::{Section, Version};
use cases::Random;
use cases::generator::any_case_in;

use crate::support::{Ran, casetool, copies, file_with, in_turn, written};
use crate::{event, reference, unit};

const CORRECT: &str = "reference unit 12 component energy value $30.00\n";

/// A case of unit 12 with a bid that reads its reference.
fn case(version: &str) -> String {
    let bids = "event day 8000 kind bids market day-ahead unit 12 period 44 component energy impact-hours 0\n  \
                hour 0 bid $130.00 price $25.00 quantity 100.0 MW\n";
    format!("{version}{}{}{bids}", unit(12), reference(12))
}

/// What a settlement of a case with a correction says, each as a text or as a file.
fn settled(name: &str, case: &[u8], correction: &[u8]) -> Ran {
    let path = file_with(name, correction);
    casetool(&["settle", "--correction", &path], case)
}

#[test]
fn with_a_case_it_is_the_cases() {
    let expected = {
        let ran = settled("version.corrected", case("").as_bytes(), CORRECT.as_bytes());
        assert_eq!((ran.status, ran.errors.as_str()), (0, ""));
        assert!(ran.text().contains(", 1 reference\n"), "{}", ran.text());
        assert!(ran.text().contains("make-ups         $500.00\n"));
        ran
    };
    for version in ["1", "2"] {
        let said = format!("version {version}\n");
        let arguments = ["write", "--correction", "--version", version];
        let file = casetool(&arguments, CORRECT.as_bytes()).output;
        assert_eq!(file.len(), [8, 12][usize::from(version == "2")]);
        let (text, bytes) = (case(&said).into_bytes(), written(&case(&said)));
        for case in [&text, &bytes] {
            let line = format!("{said}{CORRECT}");
            for correction in [CORRECT.as_bytes(), line.as_bytes(), &file] {
                assert_eq!(settled("version.corrected", case, correction), expected);
            }
        }
    }
}

#[test]
fn a_number_of_the_correction_counts_for_a_case_that_does_not_say_its_version() {
    let above = reference(70_000);
    let checked = |correction: &[u8]| {
        let path = file_with("version.above", correction);
        let arguments = ["check", "--format", "json", "--correction", &path];
        casetool(&arguments, case("").as_bytes())
    };
    let ran = checked(above.as_bytes());
    assert_eq!((ran.status, ran.errors.as_str()), (1, ""));
    assert!(
        ran.text().contains("\"version\": 2,\n  \"number\": 8,"),
        "{}",
        ran.text()
    );
    let place = "correction, record 0 (unit 70000, energy): unit is 70000; no unit of this number is listed";
    assert!(ran.text().contains(place), "{}", ran.text());
    assert!(
        ran.text().contains("\"line\": 1,\n  \"column\": 16,"),
        "{}",
        ran.text()
    );
    // One that does not, and a correction that is no text, leave it at version 1.
    for correction in [CORRECT.as_bytes(), &[12, 0, 0, 0, 184, 11, 0, 0]] {
        let ran = checked(correction);
        assert!(ran.text().contains("\"version\": 1,\n"), "{}", ran.text());
        assert_eq!(ran.status, 0);
    }
}

#[test]
fn a_number_that_a_case_of_version_1_has_no_room_for() {
    let path = file_with("version.no-room", reference(70_000).as_bytes());
    let text = case("version 1\n");
    for case in [text.as_bytes(), &written(&text)] {
        for command in ["check", "settle"] {
            let ran = casetool(&[command, "--correction", &path], case);
            let message = format!(
                "casetool: {path}: line 1, column 16, '70000': too large: expected 0 to 65,535, since its case is of version 1\n"
            );
            assert_eq!((ran.status, ran.output.len(), ran.errors), (1, 0, message));
        }
    }
}

#[test]
fn a_correction_that_says_another_version() {
    for (own, other) in [("1", "2"), ("2", "1")] {
        let path = file_with(
            "version.another",
            format!("# kept\nversion {other}\n{CORRECT}").as_bytes(),
        );
        let text = case(&format!("version {own}\n"));
        for case in [text.as_bytes(), &written(&text)] {
            let ran = casetool(&["check", "--correction", &path], case);
            let message = format!(
                "casetool: {path}: line 2, column 9, '{other}': its case is of version {own}, and a correction has its case's version\n"
            );
            assert_eq!((ran.status, ran.errors), (1, message));
        }
    }
    // A case that says no version is of version 1 here, whatever the line of its correction says.
    let path = file_with(
        "version.another",
        format!("version 2\n{CORRECT}").as_bytes(),
    );
    let ran = casetool(&["check", "--correction", &path], case("").as_bytes());
    assert!(
        ran.errors.contains("'2': its case is of version 1"),
        "{}",
        ran.errors
    );
    // Beside a case without a version it may say any: the case is refused.
    let mut file = written(&case(""));
    file[0] = 9;
    let ran = casetool(&["check", "--correction", &path], &file);
    assert!(
        ran.text().starts_with("refused 2: "),
        "{}{}",
        ran.text(),
        ran.errors
    );
}

#[test]
fn a_file_of_another_version() {
    let [one, two] = ["1", "2"].map(|version| {
        let arguments = ["write", "--correction", "--version", version];
        let three = format!(
            "{CORRECT}reference unit 12 component minimum-generation value 1\nreference unit 12 component start-up-cost value 1\n"
        );
        [CORRECT.to_string(), three.clone()]
            .map(|text| casetool(&arguments, text.as_bytes()).output)
    });
    for (own, other, corrections) in [("1", "2", &two), ("2", "1", &one)] {
        let case = written(&case(&format!("version {own}\n")));
        for correction in corrections {
            let path = file_with("version.other-file", correction);
            let ran = casetool(&["check", "--correction", &path], &case);
            let hint = format!(
                "this is a correction of version {other}, and its case is of version {own}: casetool convert --correction --version {other} --to {own} makes its copy\n"
            );
            assert!(ran.text().starts_with("refused 8: "), "{}", ran.text());
            assert!(ran.text().ends_with(&hint), "{}", ran.text());
            // What the hint says helps.
            let arguments = ["convert", "--correction", "--version", other, "--to", own];
            let copy = casetool(&arguments, correction);
            let path = file_with("version.other-file", &copy.output);
            let ran = casetool(&["check", "--correction", &path], &case);
            assert_eq!((ran.status, ran.text()), (0, "accepted, 1 event\n"));
        }
    }
    // One that is wrong in every version has no such hint.
    let case = written(&case("version 2\n"));
    for correction in [&[0; 7][..], &[0; 8], &[0, 0, 9, 0, 1, 0, 0, 0, 12, 0, 0, 0]] {
        let path = file_with("version.other-file", correction);
        let ran = casetool(&["check", "--correction", &path], &case);
        assert!(ran.text().starts_with("refused 8: "), "{}", ran.text());
        assert!(
            !ran.text().contains("this is a correction"),
            "{}",
            ran.text()
        );
    }
}

#[test]
fn shown_alone() {
    for (bytes, version) in [(8, 1), (12, 2), (16, 1), (36, 2), (64, 1), (60, 2), (0, 1)] {
        let ran = casetool(&["show", "--correction"], &vec![0; bytes]);
        let count = bytes / [8, 12][version - 1];
        let start = format!("version {version}\n# correction: {count} reference");
        assert_eq!((ran.status, ran.errors.as_str()), (0, ""));
        let text = ran.text().trim_start_matches("order as-written\n");
        assert!(text.starts_with(&start), "{bytes}: {text}");
    }
    // More than 256 records of version 1 are of version 2.
    let ran = casetool(&["show", "--correction"], &vec![0; 24 * 86]);
    let start = "order as-written\nversion 2\n# correction: 172 references\n";
    assert!(ran.text().starts_with(start), "{}", ran.errors);
    for (bytes, version, count) in [(24, 1, 3), (24, 2, 2), (48, 2, 4), (2_040, 1, 255)] {
        let file = vec![0; bytes];
        let number = version.to_string();
        let ran = casetool(&["show", "--correction", "--version", &number], &file);
        let start =
            format!("order as-written\nversion {version}\n# correction: {count} references\n");
        assert!(ran.text().starts_with(&start), "{}", ran.errors);
        // Without it nothing is guessed.
        let ran = casetool(&["show", "--correction"], &file);
        assert_eq!((ran.status, ran.output.len()), (2, 0));
        let (first, second) = (bytes / 8, bytes / 12);
        let length = casetool::text::amounts::bytes(bytes);
        assert_eq!(
            ran.errors,
            format!(
                "casetool: standard input: {length} are {first} references of version 1 or {second} references of version 2: --version has to say which; see casetool show --help\n"
            )
        );
    }
}

#[test]
fn no_correction_of_a_version() {
    let [one, two] = [
        "a multiple of 8, at most 2,048",
        "a multiple of 12, at most 3,072, in version 2",
    ];
    let both = format!("{one}, or {two}");
    for (bytes, version, expected) in [
        (9, "", both.as_str()),
        (3_084, "", &both),
        (12, "1", one),
        (8, "2", two),
        (2_056, "1", one),
        (3_084, "2", two),
    ] {
        let arguments = ["show", "--correction", "--version", version];
        let given = if version.is_empty() { 2 } else { 4 };
        let ran = casetool(&arguments[..given], &vec![0; bytes]);
        let length = casetool::text::amounts::bytes(bytes);
        let message = format!(
            "casetool: standard input: no correction: it has {length}; expected {expected}\n"
        );
        assert_eq!((ran.status, ran.errors), (1, message));
    }
}

#[test]
fn written_alone() {
    let small = reference(12);
    let large = reference(70_000);
    for (text, version, bytes) in [
        (&small, "", 8),
        (&small, "1", 8),
        (&small, "2", 12),
        (&large, "", 12),
        (&large, "2", 12),
        (&format!("version 2\n{small}"), "", 12),
        (&format!("version 1\n{small}"), "", 8),
        (&format!("version 2\n{small}"), "2", 12),
        (&[small.clone(), large.clone()].concat(), "", 24),
    ] {
        let arguments = ["write", "--correction", "--version", version];
        let given = if version.is_empty() { 2 } else { 4 };
        let ran = casetool(&arguments[..given], text.as_bytes());
        assert_eq!((ran.status, ran.errors.as_str()), (0, ""));
        assert_eq!(ran.output.len(), bytes, "{text}");
    }
    for (text, version, problem) in [
        (
            &large,
            "1",
            "line 1, column 16, '70000': too large: expected 0 to 65,535, since --version says 1",
        ),
        (
            &format!("version 1\n{large}"),
            "1",
            "line 2, column 16, '70000': too large: expected 0 to 65,535, since --version says 1",
        ),
        (
            &format!("version 2\n{small}"),
            "1",
            "line 1, column 9, '2': --version says 1",
        ),
        (
            &format!("version 1\n{small}"),
            "2",
            "line 1, column 9, '1': --version says 2",
        ),
    ] {
        let ran = casetool(
            &["write", "--correction", "--version", version],
            text.as_bytes(),
        );
        let message = format!("casetool: standard input: {problem}\n");
        assert_eq!((ran.status, ran.output.len(), ran.errors), (1, 0, message));
    }
    let ran = casetool(
        &["write", "--correction"],
        format!("version 1\n{large}").as_bytes(),
    );
    let room = "too large: expected 0 to 65,535, since this text says version 1\n";
    assert!(ran.errors.ends_with(room), "{}", ran.errors);
    // An empty one has no records of either.
    for version in ["1", "2"] {
        let arguments = [
            "write",
            "--correction",
            "--allow-empty",
            "--version",
            version,
        ];
        let ran = casetool(&arguments, b"# none\n");
        assert_eq!((ran.status, ran.output.len()), (0, 0));
    }
}

#[test]
fn what_version_can_be_given_to() {
    let text = [unit(12), event(12)].concat();
    for (arguments, problem) in [
        (
            &["write", "--version", "2"][..],
            "--version is that of a correction, with --correction: a case says its own; see casetool write --help",
        ),
        (
            &["show", "--version", "1"],
            "--version is that of a correction, with --correction: a case says its own; see casetool show --help",
        ),
        (
            &["convert", "--to", "2", "--version", "1"],
            "--version is that of a correction, with --correction: a case says its own; see casetool convert --help",
        ),
        (
            &["show", "--correction", "--version"],
            "--version needs a value after it; see casetool show --help",
        ),
        (
            &["show", "--correction", "--version", "3"],
            "--version '3': expected 1 or 2; see casetool show --help",
        ),
        (
            &["show", "--correction", "--version", "1", "--version", "1"],
            "--version is there twice; see casetool show --help",
        ),
        (
            &["check", "--version", "2"],
            "there is no option '--version'; see casetool check --help",
        ),
        (
            &["settle", "--version", "2"],
            "there is no option '--version'; see casetool settle --help",
        ),
        (
            &["write", "--to", "2"],
            "there is no option '--to'; see casetool write --help",
        ),
        (
            &["--version", "2"],
            "one argument too many, '2'; see casetool --help",
        ),
    ] {
        let ran = casetool(arguments, text.as_bytes());
        assert_eq!((ran.status, ran.output.len()), (2, 0), "{arguments:?}");
        assert_eq!(ran.errors, format!("casetool: {problem}\n"));
    }
    // Alone it is that of the tool.
    let ran = casetool(&["--version"], b"");
    assert_eq!((ran.status, ran.text()), (0, "casetool 0.1.0\n"));
}

/// That a correction comes back with its version; whether its length alone says that.
fn comes_back_by_its_length(version: Version, bytes: &[u8]) -> bool {
    let number = version.number().to_string();
    let told = casetool(&["show", "--correction", "--version", &number], bytes);
    assert_eq!((told.status, told.errors.as_str()), (0, ""));
    let again = casetool(&["write", "--correction"], &told.output);
    assert_eq!((again.status, again.output.as_slice()), (0, bytes));
    let alone = casetool(&["show", "--correction"], bytes);
    let may_be = |version: &&Version| {
        let width = Section::References.width(**version);
        bytes.len().is_multiple_of(width) && bytes.len() / width <= 256
    };
    let by_length = Version::ALL.iter().filter(may_be).count() == 1;
    assert!(alone.status == 2 || alone == told);
    assert_eq!(alone.status == 0, by_length);
    by_length
}

#[test]
fn generated_corrections_come_back_through_the_command_line() {
    let mut random = Random::new(782);
    let (mut asked, mut by_length) = (0, 0);
    for place in 0..200 {
        let version = in_turn(place);
        let bytes = any_case_in(version, &mut random).input().correction;
        if bytes.is_empty() {
            continue;
        }
        let copy = copies::of_correction(&bytes).filter(|_| version == Version::One);
        let copy = copy.map(|copy| (Version::Two, copy));
        for (version, bytes) in [(version, bytes)].into_iter().chain(copy) {
            match comes_back_by_its_length(version, &bytes) {
                true => by_length += 1,
                false => asked += 1,
            }
        }
    }
    println!("{by_length} corrections by their length, {asked} asked about");
    assert!(by_length > 30 && asked > 30);
}
