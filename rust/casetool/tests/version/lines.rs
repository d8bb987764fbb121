//! The version of a text: its line, or its unit numbers; the numbers and the old numbers that each version has.

use attachment_h::layout::{Section, Sections};

use crate::support::{casetool, written};
use crate::{PAST, event, reference, two_hundred_events, unit, version_of, wrong};

#[test]
fn the_unit_numbers_say_it() {
    assert_eq!(version_of(""), 1);
    for number in [0, 12, 65_535] {
        let text = [unit(number), reference(number), event(number)].concat();
        assert_eq!(version_of(&text), 1, "{number}");
    }
    // One that is above, wherever it stands, and however it is written.
    let small = [unit(12), reference(12), event(12)].concat();
    for above in [65_536, 70_000, 999_999, 1_000_000, u64::from(u32::MAX)] {
        for line in [unit(above), reference(above), event(above)] {
            assert_eq!(version_of(&format!("{small}{line}")), 2, "{line}");
            assert_eq!(version_of(&format!("{line}{small}")), 2, "{line}");
        }
    }
    for number in ["65,536", "065536", "70,000 # six digits"] {
        let line = format!("reference value 1 component energy unit {number}\n");
        assert_eq!(version_of(&line), 2, "{line}");
    }
    // Other large numbers, and numbers in comments, do not.
    let others = "unit 12 group 65535 capability 400000.0 MW # unit 70000\n\
                  past group 65535 kind fuel market 0 period 5476 day 1000000\n\
                  reference unit 12 component start-up-time value 70000\n";
    assert_eq!(version_of(others), 1);
}

#[test]
fn the_line_says_it() {
    for (line, version) in [("version 1", 1), ("version 2", 2)] {
        for text in [
            format!("{line}\n{}", unit(12)),
            format!(
                "# a comment\n\n  {line} # and one more\norder as-written\n{}",
                unit(12)
            ),
            format!("order as-written\n{line}\n{}", unit(12)),
            line.to_string(),
        ] {
            assert_eq!(version_of(&text), version, "{text}");
        }
    }
    assert_eq!(version_of(&format!("version 2\n{}", unit(65_536))), 2);
    // The file is the same as without the line where the numbers say it too.
    for number in [12, 70_000] {
        let text = [unit(number), reference(number), event(number)].concat();
        let line = format!("version {}\n", version_of(&text));
        assert_eq!(written(&format!("{line}{text}")), written(&text));
    }
}

#[test]
fn a_line_that_is_wrong() {
    let expected = "expected 1 or 2 after version, and nothing else";
    for (word, column) in [
        ("3", 9),
        ("0", 9),
        ("02", 9),
        ("two", 9),
        ("2.0", 9),
        ("-1", 9),
    ] {
        wrong(
            &format!("version {word}\n{}", unit(12)),
            &format!("line 1, column {column}, '{word}': {expected}"),
        );
    }
    wrong("version\n", &format!("line 1, column 8: {expected}"));
    for word in ["unit", "2"] {
        wrong(
            &format!("version 1 {word}\n"),
            &format!("line 1, column 11, '{word}': {expected}"),
        );
    }
    let once = "version stands once, before the first record";
    wrong(
        &format!("version 2\n{}version 2\n", unit(12)),
        &format!("line 3, column 1, 'version': {once}"),
    );
    // The first is taken, so that there is room for the number.
    wrong(
        &format!("version 2\nversion 1\n{}", unit(70_000)),
        &format!("line 2, column 1, 'version': {once}"),
    );
    for record in [
        unit(12),
        reference(12),
        event(12),
        "past group 7 kind fuel market 0 period 44 day 8000\n".to_string(),
    ] {
        wrong(
            &format!("{record}version 2\n"),
            &format!("line 2, column 1, 'version': {once}"),
        );
    }
    for (word, meant) in [("Version", "version"), ("vresion", "version")] {
        wrong(
            &format!("{word} 2\n"),
            &format!("line 1, column 1, '{word}': did you mean {meant}?"),
        );
    }
}

#[test]
fn numbers_that_a_version_has_no_room_for() {
    let (unit, reference, event) = (unit(70_000), reference(65_536), event(70_000));
    let problem = "too large: expected 0 to 65,535, since this text says version 1";
    wrong(
        &format!("version 1\n{unit}"),
        &format!("line 2, column 6, '70000': {problem}"),
    );
    wrong(
        &format!("version 1\n\n{reference}"),
        &format!("line 3, column 16, '65536': {problem}"),
    );
    wrong(
        &format!("version 1\n{event}"),
        &format!("line 2, column 52, '70000': {problem}"),
    );
    wrong(
        "version 1\nunit -1 group 7 capability 1\n",
        "line 2, column 6, '-1': too small: expected 0 to 65,535, since this text says version 1",
    );
    // Of other fields the message is the same as ever, in both versions.
    for version in ["", "version 1\n", "version 2\n"] {
        let line = version.lines().count() + 1;
        wrong(
            &format!("{version}unit 12 group 65536 capability 1\n"),
            &format!("line {line}, column 15, '65536': too large: expected 0 to 65,535"),
        );
    }
    // Version 2 has room for what its limits do not allow.
    for (before, number, problem) in [
        ("version 2\n", "4294967296", "too large"),
        ("version 2\n", "-1", "too small"),
        ("", "4294967296", "too large"),
    ] {
        let line = before.lines().count() + 1;
        wrong(
            &format!("{before}unit {number} group 7 capability 1\n"),
            &format!("line {line}, column 6, '{number}': {problem}: expected 0 to 999,999"),
        );
    }
    wrong(
        "unit -1 group 7 capability 1\n",
        "line 1, column 6, '-1': too small: expected 0 to 65,535",
    );
}

#[test]
fn a_number_beside_a_mistake_counts_too() {
    // Were this text taken for version 1, its old number would be one more mistake.
    let text = format!(
        "unit 70000 group x capability 1\n{}",
        unit(12).replace("group", "old-number 0 group")
    );
    wrong(&text, "line 1, column 18, 'x': expected a whole number");
}

#[test]
fn old_numbers() {
    let with_old = |line: String| line.replacen("unit 12 ", "unit 12 old-number 5 ", 1);
    let problem = "version 1 has no such field; a text of version 2 begins with the line version 2";
    let lines = [(unit(12), 9), (reference(12), 19), (event(12), 55)];
    for (line, column) in lines {
        let line = with_old(line);
        let at = line.find("old-number").expect("the key") + 1;
        assert_eq!(at, column, "{line}");
        for version in ["", "version 1\n"] {
            let number = version.lines().count() + 1;
            wrong(
                &format!("{version}{line}"),
                &format!("line {number}, column {column}, 'old-number': {problem}"),
            );
        }
        let file = written(&format!("version 2\n{line}"));
        let sections = Sections::of(&file).expect("sections");
        let found = Section::ALL.into_iter().flat_map(|section| {
            let records = sections.records(section);
            records.map(move |record| {
                let number = section.unit_number(sections.version(), record);
                (section.old_number(record), number)
            })
        });
        assert_eq!(found.collect::<Vec<_>>(), [(5, 12)]);
    }
    // A past entry and an hour have none, and it is none of the keys that are expected.
    for (text, column, keys) in [
        (
            "version 2\npast group 7 kind fuel market 0 period 44 day 8000 old-number 1\n"
                .to_string(),
            52,
            "group, kind, market, period, day",
        ),
        (
            format!("version 2\n{}", unit(12).replace("area no", "colour 3")),
            17,
            "unit, group, area, capability, response-rate, average-price, constrained-hours",
        ),
    ] {
        let word = match column {
            52 => "old-number",
            _ => "colour",
        };
        wrong(
            &text,
            &format!("line 2, column {column}, '{word}': unknown key; expected {keys}"),
        );
    }
    wrong(
        "version 2\nunit 12 old-number 65536 group 7 capability 1\n",
        "line 2, column 20, '65536': too large: expected 0",
    );
}

#[test]
fn the_order_goes_by_the_new_number() {
    // By its low bytes 65,541 is 5.
    let text = [unit(65_541), unit(12), reference(65_541), reference(12)].concat();
    let file = written(&text);
    let sections = Sections::of(&file).expect("sections");
    for section in [Section::Units, Section::References] {
        let records = sections.records(section);
        let numbers: Vec<u32> = records
            .map(|record| section.unit_number(sections.version(), record))
            .collect();
        assert_eq!(numbers, [12, 65_541]);
    }
    let [one, other] = [event(65_541), event(12)];
    let shown = casetool(&["show"], &written(&format!("{one}{other}")));
    let numbers: Vec<&str> = shown
        .text()
        .lines()
        .filter_map(|line| line.split_once(" unit ")?.1.split(' ').next())
        .collect();
    assert_eq!(numbers, ["12", "65541"]);
    assert!(shown.text().starts_with("version 2\n"));
    let twice = [unit(70_000), unit(12), unit(70_000)].concat();
    wrong(
        &twice,
        "line 3, column 1, 'unit': unit 70000 is there twice, in line 1 and here",
    );
    let twice = [reference(70_000), reference(70_000)].concat();
    wrong(
        &twice,
        "line 2, column 1, 'reference': the reference of unit 70000, energy is there twice, in line 1 and here",
    );
    let twice = [event(70_000), event(70_000)].concat();
    wrong(
        &twice,
        "line 2, column 1, 'event': the event of day 8000, withheld, Day-Ahead, unit 70000 is there twice, in line 1 and here",
    );
    // Those with equal low bytes are two.
    assert_eq!(version_of(&[unit(5), unit(65_541)].concat()), 2);
}

#[test]
fn what_events_read_of_units_of_six_digits() {
    let dispatch = event(70_000)
        .replace("withheld", "dispatch")
        .replace("day-ahead", "real-time");
    wrong(
        &format!("{}{dispatch}", unit(70_000)),
        "line 1, column 47: expected the key response-rate, which the event of line 2 reads",
    );
    // That of another unit with the same low bytes is not asked for.
    assert_eq!(
        version_of(&format!("{}{dispatch}", unit(70_000 - 65_536))),
        2
    );
    wrong(
        &format!(
            "{}{}",
            unit(70_000).replace("area no", "area 1"),
            event(70_000)
        ),
        "line 2, column 76: expected the key shadow-price-hours, none for no hours: unit 70000 is in a Constrained Area (line 1)",
    );
}

#[test]
fn a_text_that_has_room_in_version_1_alone() {
    let events = two_hundred_events();
    let text = format!("{}{events}{}", unit(12), PAST.repeat(150));
    assert_eq!(version_of(&text), 1);
    // Of 36 + 28 + 316 n + 12 m bytes the first over 65,000.
    let over = |line: usize| {
        format!("line {line}, column 1, 'past': with this record the file is over 65,000 bytes")
    };
    wrong(&format!("version 2\n{text}"), &over(2 + 200 + 145));
    wrong(
        &text.replace("unit 12 ", "unit 70000 "),
        &over(1 + 200 + 145),
    );
    let text = format!("version 2\n{}{events}{}", unit(12), PAST.repeat(144));
    assert_eq!(written(&text).len(), 36 + 28 + 200 * 316 + 144 * 12);
}
