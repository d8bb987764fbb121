//! What is refused in version 2, and where: whole answers of `casetool check`, of files and of texts.

use attachment_h::layout::{Section, Sections, Version};

use crate::support::{casetool, file_with, written};
use crate::{event, reference, unit};

/// What a check says, without the sentence of the number.
fn refused(number: u8, file: &[u8]) -> String {
    let ran = casetool(&["check", "--as", "case"], file);
    assert_eq!((ran.status, ran.errors.as_str()), (1, ""));
    let (first, place) = ran.text().split_once('\n').expect("two lines");
    assert!(
        first.starts_with(&format!("refused {number}: ")),
        "{}",
        ran.text()
    );
    place.trim_end().to_string()
}

/// That a text of version 2 is refused with this number at this place, and as text at this line and column.
fn at(number: u8, text: &str, place: &str, line: usize, column: usize) {
    let text = format!("version 2\norder as-written\n{text}");
    assert_eq!(refused(number, &written(&text)), place);
    let ran = casetool(&["check", "--allow-empty"], text.as_bytes());
    let place = format!("standard input: line {line}, column {column}: {place}\n");
    assert!(ran.text().ends_with(&place), "{}", ran.text());
}

#[test]
fn the_header() {
    let file = written(&format!("version 2\n{}", unit(12)));
    let changed = |at: usize, value: u8| {
        let mut file = file.clone();
        file[at] = value;
        file
    };
    let ran = casetool(&["check"], &changed(0, 3));
    assert_eq!(
        ran.text(),
        "refused 2: the version is neither 1 nor 2\nthe header: version is 3; expected 1 or 2\n"
    );
    assert_eq!(
        refused(2, &changed(0, 0)),
        "the header: version is 0; expected 1 or 2"
    );
    assert_eq!(
        refused(2, &changed(1, 1)),
        "the header: version is 258; expected 1 or 2"
    );
    assert_eq!(
        refused(3, &changed(2, 5)),
        "the header: section count is 5; expected 4"
    );
    assert_eq!(
        refused(4, &changed(8, 24)),
        "the header: the offset of references is 64; the section before it, units, ends at 60"
    );
    assert_eq!(
        refused(5, &changed(0, 1)),
        "the header: the length of units is 28; expected a multiple of 24"
    );
    // Files of version 1 that say 2.
    for (text, place) in [
        (
            unit(12),
            "the header: the length of units is 24; expected a multiple of 28 in version 2",
        ),
        (
            reference(12),
            "the header: the length of references is 8; expected a multiple of 12 in version 2",
        ),
        (
            event(12),
            "the header: the length of events is 312; expected a multiple of 316 in version 2",
        ),
    ] {
        let mut file = written(&text);
        file[0] = 2;
        assert_eq!(refused(5, &file), place);
    }
    let mut many = written("version 2\n");
    many.extend(vec![0; 28 * 65]);
    many[8..10].copy_from_slice(&(28_u16 * 65).to_le_bytes());
    for pair in [12, 20, 28] {
        many[pair..pair + 2].copy_from_slice(&(36 + 28_u16 * 65).to_le_bytes());
    }
    assert_eq!(
        refused(5, &many),
        "the header: the length of units is 1,820, 65 records; expected at most 64"
    );
}

#[test]
fn numbers_of_units() {
    let old = |line: String| line.replacen("unit 12 ", "unit 12 old-number 7 ", 1);
    let why = "expected 0, since version 2 has the number at the record's end";
    let sound = [unit(12), reference(12), event(12)].concat();
    at(
        17,
        &format!("{}{}", unit(11), old(sound.clone())),
        &format!("units, record 1 (unit 12): old number is 7; {why}"),
        4,
        20,
    );
    at(
        17,
        &format!("{}{}{}", unit(12), old(reference(12)), old(event(12))),
        &format!("references, record 0 (unit 12, energy): old number is 7; {why}"),
        4,
        30,
    );
    at(
        17,
        &format!("{}{}{}", unit(12), reference(12), old(event(12))),
        &format!("event 0 (day 8000, withheld, Day-Ahead, unit 12): old number is 7; {why}"),
        5,
        66,
    );
    for number in [1_000_000, u64::from(u32::MAX)] {
        let spoken = casetool::text::amounts::number(number);
        at(
            17,
            &format!("{sound}{}", unit(number)),
            &format!(
                "units, record 1 (unit {number}): unit number is {spoken}; expected 0 to 999,999"
            ),
            6,
            6,
        );
        at(
            17,
            &format!("{sound}{}", reference(number)),
            &format!(
                "references, record 1 (unit {number}, energy): unit is {spoken}; expected 0 to 999,999"
            ),
            6,
            16,
        );
        at(
            17,
            &format!("{sound}{}", event(number)),
            &format!(
                "event 1 (day 8000, withheld, Day-Ahead, unit {number}): unit is {spoken}; expected 0 to 999,999"
            ),
            6,
            52,
        );
    }
    // The old number stands before the number, and both before any 6.
    let both = old(unit(12)).replace("unit 12", "unit 1000000");
    at(
        17,
        &format!("{}{both}", unit(11).replace("area no", "area 2")),
        &format!("units, record 1 (unit 1000000): old number is 7; {why}"),
        4,
        25,
    );
    // 999,999 is no fault, and version 1 never has one.
    let highest = [unit(999_999), reference(999_999), event(999_999)].concat();
    let ran = casetool(&["check"], highest.as_bytes());
    assert_eq!((ran.status, ran.text()), (0, "accepted, 1 event\n"));
    let ran = casetool(
        &["check"],
        [unit(65_535), event(65_535)].concat().as_bytes(),
    );
    assert_eq!((ran.status, ran.text()), (0, "accepted, 1 event\n"));
}

#[test]
fn the_meaning_of_17() {
    let ran = casetool(&["check"], &written(&[unit(1_000_000), event(12)].concat()));
    assert_eq!(
        ran.text(),
        "refused 17: a version 2 unit, reference or event has an old unit field that is not 0, or a unit number above 999,999\n\
         units, record 0 (unit 1000000): unit number is 1,000,000; expected 0 to 999,999\n"
    );
    let settled = casetool(
        &["settle"],
        &written(&[unit(1_000_000), event(12)].concat()),
    );
    assert_eq!((settled.status, settled.output.len()), (1, 0));
    assert_eq!(settled.errors, format!("casetool: {}", ran.text()));
}

#[test]
fn orders_and_listed_units() {
    // By their low bytes 65,541 and 131,077 are 5.
    let units = [unit(12), unit(65_541)].concat();
    at(
        6,
        &[unit(65_541), unit(12)].concat(),
        "units, record 1 (unit 12): unit number is 12, after 65541; unit numbers have to rise strictly",
        4,
        6,
    );
    at(
        7,
        &format!("{units}{}{}", reference(65_541), reference(12)),
        "references, record 1 (unit 12, energy): unit is out of order after unit 65541, energy; references have to rise strictly by unit and component",
        6,
        16,
    );
    at(
        7,
        &format!("{units}{}{}", reference(65_541), reference(65_541)),
        "references, record 1 (unit 65541, energy): component is out of order after unit 65541, energy; references have to rise strictly by unit and component",
        6,
        32,
    );
    at(
        7,
        &format!("{units}{}", reference(131_077)),
        "references, record 0 (unit 131077, energy): unit is 131077; no unit of this number is listed",
        5,
        16,
    );
    // A field before the number comes first; in version 1 the number stands before all others.
    let unlisted = reference(99).replace("value", "spare-3 1 value");
    assert_eq!(
        refused(7, &written(&format!("{}{unlisted}", unit(12)))),
        "references, record 0 (unit 99, energy): unit is 99; no unit of this number is listed"
    );
    at(
        7,
        &format!(
            "{units}{}",
            reference(131_077).replace("value", "spare-3 1 value")
        ),
        "references, record 0 (unit 131077, energy): spare-3 is 1; expected 0",
        5,
        48,
    );
    at(
        11,
        &format!("{units}{}{}", event(65_541), event(12)),
        "event 1 (day 8000, withheld, Day-Ahead, unit 12): unit is out of order after event 0 (day 8000, withheld, Day-Ahead, unit 65541); events have to rise strictly by day, kind, market, unit, component",
        6,
        52,
    );
    at(
        11,
        &format!("{units}{}{}", event(65_541), event(65_541)),
        "event 1 (day 8000, withheld, Day-Ahead, unit 65541): the same as event 0; events have to rise strictly by day, kind, market, unit, component",
        6,
        1,
    );
    at(
        12,
        &format!("{units}{}", event(131_077)),
        "event 0 (day 8000, withheld, Day-Ahead, unit 131077): unit is 131077; no unit of this number is listed",
        5,
        52,
    );
}

#[test]
fn limits_of_events() {
    let units = [unit(5), unit(65_541).replace("500.0", "50.0")].concat();
    at(
        10,
        &format!("{units}{}", event(65_541).replace("day-ahead", "2")),
        "event 0 (day 8000, withheld, market 2, unit 65541): market is 2; expected 0 (day-ahead) or 1 (real-time)",
        5,
        37,
    );
    let hour = "  hour 23 withheld 50.1 MW price 0 m 0\n";
    at(
        13,
        &format!("{units}{}{hour}", event(65_541)),
        "event 0 (day 8000, withheld, Day-Ahead, unit 65541), hour 23: a (withheld) is 501 (50.1 MW); expected at most the capability, 500 (50.0 MW)",
        6,
        20,
    );
    let bids = "event day 8000 kind bids market day-ahead unit 65541 period 44 component energy impact-hours none\n";
    at(
        14,
        &format!("{units}{}{bids}", reference(5)),
        "event 0 (day 8000, bids, Day-Ahead, unit 65541, energy): the references have none for unit 65541, component energy",
        6,
        74,
    );
    // c of another unit with the same low bytes.
    let case = written(&format!("{units}{}{bids}", reference(65_541)));
    let correction = format!("version 2\n{}", reference(5));
    let path = file_with("version.correct", correction.as_bytes());
    let ran = casetool(&["check", "--correction", &path], &case);
    assert!(
        ran.text()
            .ends_with("the correction has no reference for unit 65541, component energy\n"),
        "{}",
        ran.text()
    );
}

#[test]
fn faults_of_a_correction() {
    let case = [unit(12), unit(70_000), event(12)].concat();
    let old = |line: String| line.replacen("unit 12 ", "unit 12 old-number 7 ", 1);
    for (correction, place, column) in [
        (
            old(reference(12)),
            "correction, record 0 (unit 12, energy): old number is 7; expected 0, since version 2 has the number at the record's end",
            30,
        ),
        (
            reference(1_000_000),
            "correction, record 0 (unit 1000000, energy): unit is 1,000,000; expected 0 to 999,999",
            16,
        ),
        (
            reference(70_001),
            "correction, record 0 (unit 70001, energy): unit is 70001; no unit of this number is listed",
            16,
        ),
    ] {
        let path = file_with("version.faulty", correction.as_bytes());
        let ran = casetool(&["check", "--correction", &path], case.as_bytes());
        assert!(ran.text().starts_with("refused 8: "), "{}", ran.text());
        let place_in_text = format!("{path}: line 1, column {column}: {place}\n");
        assert!(ran.text().ends_with(&place_in_text), "{}", ran.text());
        let text = format!("version 2\n{correction}");
        let file = casetool(&["write", "--correction"], text.as_bytes()).output;
        let path = file_with("version.faulty", &file);
        let ran = casetool(&["check", "--correction", &path], case.as_bytes());
        assert!(
            ran.text().ends_with(&format!("\n{place}\n")),
            "{}",
            ran.text()
        );
    }
    for (bytes, place) in [
        (
            11,
            "the correction: its length is 11 bytes; expected a multiple of 12 in version 2",
        ),
        (
            3_084,
            "the correction: its length is 3,084 bytes, 257 records; expected at most 256",
        ),
    ] {
        let path = file_with("version.faulty", &vec![0; bytes]);
        let ran = casetool(&["check", "--correction", &path], case.as_bytes());
        assert!(
            ran.text().ends_with(&format!("\n{place}\n")),
            "{}",
            ran.text()
        );
    }
}

#[test]
fn json_has_the_offset_in_its_version() {
    let checked = |text: &str| {
        let arguments = ["check", "--format", "json", "--allow-empty"];
        casetool(&arguments, text.as_bytes()).text().to_string()
    };
    for (section, record, one, two) in [
        (Section::References, reference(99), 0, 8),
        (Section::Events, event(99), 2, 312),
    ] {
        for (version, offset) in [(1, one), (2, two)] {
            let text = checked(&format!("version {version}\n{}{record}", unit(12)));
            let place = format!(
                "\"part\": \"{}\",\n    \"record\": 0,\n    \"offset\": {offset}\n",
                section.name()
            );
            assert!(text.contains(&place), "{text}");
            assert!(
                text.contains(&format!("\"version\": {version},\n")),
                "{text}"
            );
        }
    }
    let file = written(&[unit(65_536), reference(65_536), event(65_536)].concat());
    let sections = Sections::of(&file).expect("sections");
    assert_eq!(sections.version(), Version::Two);
}
