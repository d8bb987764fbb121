//! `casetool convert`: copies into the other version and back, what has no copy, and what is left alone.

use attachment_h::layout::{Section, Sections, Version, converted, file_in};
use attachment_h::{ROWS_LENGTH, check, settle};
use cases::Random;
use cases::case::version_of;
use cases::faults::faults_in;
use cases::generator::{Wanted, any_case, any_case_in, case};

use crate::support::{Ran, casetool, file_with, in_turn, written};
use crate::{PAST, event, example, reference, two_hundred_events, unit};

/// Runs `convert` into a version.
fn convert(to: Version, options: &[&str], file: &[u8]) -> Ran {
    let number = to.number().to_string();
    casetool(&[&["convert", "--to", &number], options].concat(), file)
}

/// The copy that there is.
fn copied(to: Version, options: &[&str], file: &[u8]) -> Vec<u8> {
    let ran = convert(to, options, file);
    assert_eq!((ran.status, ran.errors.as_str()), (0, ""));
    ran.output
}

fn other(version: Version) -> Version {
    match version {
        Version::One => Version::Two,
        Version::Two => Version::One,
    }
}

#[test]
fn generated_cases_and_their_corrections() {
    let mut random = Random::new(781);
    let (mut both, mut too_long) = (0, 0);
    for _ in 0..300 {
        let input = any_case(&mut random).input();
        let of_correction = ["--correction", "--version", "1"];
        let Some(copy) = input.version_2_copy() else {
            let ran = convert(Version::Two, &[], &input.file);
            assert_eq!((ran.status, ran.output.len()), (1, 0));
            assert!(
                ran.errors.contains("the copy is over 65,000 bytes"),
                "{}",
                ran.errors
            );
            too_long += 1;
            continue;
        };
        assert_eq!(copied(Version::Two, &[], &input.file), copy.file);
        let correction = copied(Version::Two, &of_correction, &input.correction);
        assert_eq!(correction, copy.correction);
        assert_eq!(copied(Version::One, &[], &copy.file), input.file);
        let of_correction = ["--correction", "--version", "2"];
        let correction = copied(Version::One, &of_correction, &correction);
        assert_eq!(correction, input.correction);
        let mut rows = [vec![0; ROWS_LENGTH], vec![1; ROWS_LENGTH]];
        let [one, two] = &mut rows;
        let settled = settle(&input.file, &input.correction, one).expect("an accepted case");
        let count = 128 * settled.rows;
        assert_eq!(settle(&copy.file, &copy.correction, two), Ok(settled));
        assert_eq!(one[..count], two[..count]);
        both += 1;
    }
    println!("{both} cases copied and back, {too_long} with a copy over 65,000 bytes");
    assert!(both > 200 && too_long > 5);
}

#[test]
fn a_copy_into_its_own_version_is_the_same() {
    let mut random = Random::new(783);
    for place in 0..100 {
        let input = any_case_in(in_turn(place), &mut random).input();
        for input in input.with_copy() {
            let version = version_of(&input.file);
            assert_eq!(copied(version, &[], &input.file), input.file);
            let number = version.number().to_string();
            let options = ["--correction", "--version", &number];
            assert_eq!(
                copied(version, &options, &input.correction),
                input.correction
            );
        }
    }
    // Also one that has no copy in the other version, and one that is refused.
    for text in [
        unit(70_000),
        unit(1_000_000),
        format!(
            "version 2\n{}",
            unit(12).replace("group", "old-number 9 group")
        ),
        format!("version 2\n{}", unit(12).replace("area no", "area 2")),
    ] {
        let file = written(&text);
        assert_eq!(copied(Version::Two, &[], &file), file);
    }
}

/// That a faulty case is copied and back, and refused as before, or why it has no copy; whether it has one, nothing where
/// it has no sections.
fn faulty_case(name: &str, file: &[u8], to: Version) -> Option<bool> {
    let ran = convert(to, &[], file);
    let Some(sections) = Sections::of(file) else {
        let start = "casetool: standard input: this file has no sections to convert\nrefused ";
        assert!(ran.errors.starts_with(start), "{name}: {}", ran.errors);
        assert_eq!((ran.status, ran.output.len()), (1, 0));
        return None;
    };
    let from = sections.version();
    let parts = Section::ALL.map(|section| converted(section, sections.bytes(section), from, to));
    let [Some(units), Some(references), Some(past), Some(events)] = parts else {
        assert!(ran.errors.contains("version 1 has numbers up to 65,535"));
        return Some(false);
    };
    let has_old = |section: Section| {
        let mut records = sections.records(section);
        records.any(|record| section.old_number(record) != 0)
    };
    if from == Version::Two && Section::ALL.into_iter().any(has_old) {
        let why = "; version 1 has no place for it\n";
        assert!(ran.errors.contains(why), "{name}");
        return Some(false);
    }
    let copy = file_in(to, &[units, references, past, events]);
    assert_eq!((ran.status, &ran.output), (0, &copy), "{name}");
    assert_eq!(copied(from, &[], &copy), file, "{name}");
    let number = |file| check(file, &[], ROWS_LENGTH);
    assert_eq!(number(&copy), number(file), "{name}");
    Some(true)
}

#[test]
fn faulty_cases() {
    let mut random = Random::new(784);
    let (mut copies, mut refused) = (0, 0);
    for version in Version::ALL {
        for fault in faults_in(version).filter(|fault| fault.number != 8 && fault.number != 15) {
            let wanted = Wanted::every_kind().in_version(version);
            let good = case(&mut random, wanted).input();
            let Some(input) = fault.put_into(&good, &mut random) else {
                continue;
            };
            match faulty_case(fault.name, &input.file, other(version)) {
                Some(has_copy) => copies += usize::from(has_copy),
                None => refused += 1,
            }
        }
    }
    println!("{copies} faulty cases copied, {refused} without sections");
    assert!(copies > 30 && refused > 20);
}

#[test]
fn numbers_without_room() {
    let text = [
        unit(12),
        unit(65_535),
        unit(65_536),
        reference(70_000),
        event(12),
        event(999_999),
    ];
    let ran = convert(Version::One, &[], &written(&text.concat()));
    assert_eq!((ran.status, ran.output.len()), (1, 0));
    assert_eq!(
        ran.errors,
        "casetool: standard input: there is no copy of version 1\n\
         units, record 2 (unit 65536): unit number is 65,536; version 1 has numbers up to 65,535\n\
         references, record 0 (unit 70000, energy): unit is 70,000; version 1 has numbers up to 65,535\n\
         event 1 (day 8000, withheld, Day-Ahead, unit 999999): unit is 999,999; version 1 has numbers up to 65,535\n"
    );
    let correction = [reference(12), reference(65_536)].concat();
    let correction = casetool(&["write", "--correction"], correction.as_bytes()).output;
    let ran = convert(
        Version::One,
        &["--correction", "--version", "2"],
        &correction,
    );
    assert_eq!(
        (ran.status, ran.errors.as_str()),
        (
            1,
            "casetool: standard input: there is no copy of version 1\n\
             correction, record 1 (unit 65536, energy): unit is 65,536; version 1 has numbers up to 65,535\n"
        )
    );
    // The first twenty are named, and the others counted.
    for (count, last) in [
        (20, None),
        (21, Some("and 1 more")),
        (64, Some("and 44 more")),
    ] {
        let units: String = (0..count).map(|place| unit(70_000 + place)).collect();
        let ran = convert(Version::One, &[], &written(&units));
        let mut lines = ran.errors.lines().skip(1);
        assert_eq!(
            lines
                .by_ref()
                .take(20)
                .filter(|line| line.starts_with("units, record "))
                .count(),
            20
        );
        assert_eq!(lines.next(), last);
        assert_eq!(lines.next(), None);
    }
}

#[test]
fn old_numbers_without_a_place() {
    let old = |line: String| line.replacen("unit 12 ", "unit 12 old-number 5 ", 1);
    let text = [
        "version 2\n".to_string(),
        old(unit(12)),
        unit(13),
        old(reference(12)),
        old(event(12)),
    ];
    let ran = convert(Version::One, &[], &written(&text.concat()));
    assert_eq!((ran.status, ran.output.len()), (1, 0));
    assert_eq!(
        ran.errors,
        "casetool: standard input: there is no copy of version 1\n\
         units, record 0 (unit 12): old number is 5; version 1 has no place for it\n\
         references, record 0 (unit 12, energy): old number is 5; version 1 has no place for it\n\
         event 0 (day 8000, withheld, Day-Ahead, unit 12): old number is 5; version 1 has no place for it\n"
    );
    // Both of one record.
    let both = format!(
        "version 2\n{}",
        old(unit(12)).replace("unit 12", "unit 70000")
    );
    let ran = convert(Version::One, &[], &written(&both));
    assert_eq!(
        ran.errors,
        "casetool: standard input: there is no copy of version 1\n\
         units, record 0 (unit 70000): unit number is 70,000; version 1 has numbers up to 65,535\n\
         units, record 0 (unit 70000): old number is 5; version 1 has no place for it\n"
    );
    let correction = format!("version 2\n{}", old(reference(12)));
    let correction = casetool(&["write", "--correction"], correction.as_bytes()).output;
    let ran = convert(Version::One, &["--correction"], &correction);
    assert_eq!(
        ran.errors,
        "casetool: standard input: there is no copy of version 1\n\
         correction, record 0 (unit 12, energy): old number is 5; version 1 has no place for it\n"
    );
}

/// A case of 200 events and so many past entries.
fn large(past: usize) -> Vec<u8> {
    let (events, past) = (two_hundred_events(), PAST.repeat(past));
    written(&format!("{}{events}{past}", unit(12)))
}

#[test]
fn a_copy_that_is_too_long() {
    // 36 + 28 + 200 × 316 + 144 × 12 = 64,992.
    assert_eq!(copied(Version::Two, &[], &large(144)).len(), 64_992);
    let ran = convert(Version::Two, &[], &large(145));
    assert_eq!((ran.status, ran.output.len()), (1, 0));
    assert_eq!(
        ran.errors,
        "casetool: standard input: there is no copy of version 2\n\
         event 199 (day 99, withheld, Real-Time, unit 12): with this record the copy is over 65,000 bytes; it would have 65,004\n"
    );
    let ran = convert(Version::Two, &[], &large(200));
    let place = "event 197 (day 98, withheld, Real-Time, unit 12): with this record the copy is over 65,000 bytes; it would have 65,664\n";
    assert!(ran.errors.ends_with(place), "{}", ran.errors);
    // A correction is no file of a case, and as long as 256 references.
    let references = vec![0; 8 * 256];
    let options = ["--correction", "--version", "1"];
    assert_eq!(copied(Version::Two, &options, &references).len(), 12 * 256);
}

#[test]
fn corrections_alone() {
    let one = casetool(&["write", "--correction"], reference(12).as_bytes()).output;
    let two = copied(Version::Two, &["--correction"], &one);
    assert_eq!(two, [0, 0, 0, 0, 208, 7, 0, 0, 12, 0, 0, 0]);
    assert_eq!(copied(Version::One, &["--correction"], &two), one);
    assert_eq!(copied(Version::Two, &["--correction"], &[]), b"");
    // 24 bytes are three records or two.
    let ran = convert(Version::Two, &["--correction"], &one.repeat(3));
    assert_eq!(
        (ran.status, ran.errors.as_str()),
        (
            2,
            "casetool: standard input: 24 bytes are 3 references of version 1 or 2 references of version 2: --version has to say which; see casetool convert --help\n"
        )
    );
    for (version, length) in [("1", 36), ("2", 24)] {
        let options = ["--correction", "--version", version];
        assert_eq!(copied(Version::Two, &options, &one.repeat(3)).len(), length);
    }
    let ran = convert(Version::Two, &["--correction"], &[0; 9]);
    assert!(
        ran.errors
            .starts_with("casetool: standard input: no correction: it has 9 bytes")
    );
}

#[test]
fn what_is_no_case_file() {
    let text = example("two-plants.txt");
    let ran = convert(Version::Two, &[], text.as_bytes());
    assert_eq!((ran.status, ran.output.len()), (1, 0));
    let hint = "this file looks like text: casetool write makes a case file of it\n";
    assert!(ran.errors.ends_with(hint), "{}", ran.errors);
    let ran = convert(Version::Two, &[], &written(&text)[..35]);
    assert_eq!(
        ran.errors,
        "casetool: standard input: this file has no sections to convert\n\
         refused 1: the file's length is outside 36 to 65,000 bytes\n\
         the file: its length is 35 bytes; expected 36 to 65,000\n"
    );
}

#[test]
fn misuse() {
    let case = written(&example("two-plants.txt"));
    for (arguments, problem) in [
        (&["convert"][..], "--to is missing"),
        (&["convert", "--to"], "--to needs a value after it"),
        (&["convert", "--to", "3"], "--to '3': expected 1 or 2"),
        (
            &["convert", "--to", "1", "--to", "2"],
            "--to is there twice",
        ),
        (
            &["convert", "--to", "2", "--format", "json"],
            "there is no option '--format'",
        ),
        (
            &["convert", "--to", "2", "--allow-empty"],
            "there is no option '--allow-empty'",
        ),
        (
            &["convert", "--to", "2", "--as", "case"],
            "there is no option '--as'",
        ),
        (
            &["convert", "--to", "2", "a", "b"],
            "one file too many, 'b'",
        ),
    ] {
        let ran = casetool(arguments, &case);
        assert_eq!((ran.status, ran.output.len()), (2, 0), "{arguments:?}");
        let message = format!("casetool: {problem}; see casetool convert --help\n");
        assert_eq!(ran.errors, message);
    }
}

#[test]
fn files() {
    let case = written(&example("two-plants.txt"));
    let path = file_with("version.convert", &case);
    // What is read is never overwritten.
    let ran = casetool(&["convert", &path, "--to", "2", "-o", &path], b"");
    assert_eq!(ran.status, 2);
    assert_eq!(
        ran.errors,
        format!(
            "casetool: -o {path}: that file is read, and would be overwritten; see casetool convert --help\n"
        )
    );
    assert_eq!(std::fs::read(&path).expect("the case"), case);
    let copy = file_with("version.copy", b"old");
    let ran = casetool(&["convert", &path, "--to", "2", "-o", &copy], b"");
    assert_eq!(
        (ran.status, ran.output.len(), ran.errors.as_str()),
        (0, 0, "")
    );
    let written_copy = std::fs::read(&copy).expect("the copy");
    assert_eq!(written_copy, copied(Version::Two, &[], &case));
    // Where there is no copy, no old one stays under its name.
    let above = file_with("version.above-65535", &written(&unit(70_000)));
    let ran = casetool(&["convert", &above, "--to", "1", "-o", &copy], b"");
    assert_eq!(ran.status, 1);
    let renamed =
        format!("casetool: nothing is written; the {copy} that was there is now {copy}.old\n");
    assert!(ran.errors.ends_with(&renamed), "{}", ran.errors);
    assert!(!std::path::Path::new(&copy).exists());
}
