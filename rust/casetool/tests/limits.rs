//! Each number from 1 to 9 with a case written by hand, and the whole answer of `casetool check`.

mod support;

use attachment_h::layout::{Section, Version, put_u16};
use support::refused::{UNITS, refused, text_of};
use support::{casetool, casetool_in_both, casetool_where, file_with, written};

fn refused_bytes(file: &[u8], answer: &str) {
    assert_eq!(text_of(&casetool(&["check", "-"], file)), answer);
}

#[test]
fn accepted() {
    for (text, answer) in [
        ("", "accepted, 0 events\n"),
        (
            "event day 1 kind withheld market day-ahead unit 12 period 0 impact 1\n",
            "accepted, 1 event\n",
        ),
        (
            "event day 1 kind withheld market day-ahead unit 12 period 0 impact 1\n\
             event day 1 kind withheld market day-ahead unit 13 period 0 impact 0\n",
            "accepted, 2 events\n",
        ),
    ] {
        let ran = casetool_in_both(&["check"], &written(&format!("{UNITS}{text}")));
        assert_eq!((ran.status, ran.text()), (0, answer));
    }
}

/// The line of each version, the width of a unit, what is said of an event's, and the bytes of 65 units.
const IN_BOTH: [(&str, usize, &str, &str); 2] = [
    ("version 1", 24, "a multiple of 312", "1,560"),
    ("version 2", 28, "a multiple of 316 in version 2", "1,820"),
];

/// A file with another byte.
fn changed(file: &[u8], at: usize, value: u8) -> Vec<u8> {
    let mut file = file.to_vec();
    file[at] = value;
    file
}

#[test]
fn numbers_1_to_3() {
    for (version, ..) in IN_BOTH {
        number_1_to_3(&written(&format!("{version}\n{UNITS}")));
    }
    refused_bytes(
        &vec![0; 70_000],
        "refused 1: the file's length is outside 36 to 65,000 bytes\n\
         the file: its length is 70,000 bytes; expected 36 to 65,000\n",
    );
}

fn number_1_to_3(good: &[u8]) {
    refused_bytes(
        &good[..35],
        "refused 1: the file's length is outside 36 to 65,000 bytes\n\
         the file: its length is 35 bytes; expected 36 to 65,000\n",
    );
    // One byte without a zero is a text, unless it is said to be a case.
    let ran = casetool(&["check", "--as", "case"], &good[..1]);
    assert_eq!(
        text_of(&ran),
        "refused 1: the file's length is outside 36 to 65,000 bytes\n\
         the file: its length is 1 byte; expected 36 to 65,000\n\
         this file looks like text: casetool write makes a case file of it\n"
    );
    refused_bytes(
        &changed(good, 0, 9),
        "refused 2: the version is neither 1 nor 2\nthe header: version is 9; expected 1 or 2\n",
    );
    refused_bytes(
        &changed(good, 2, 3),
        "refused 3: the section count is not 4\nthe header: section count is 3; expected 4\n",
    );
}

#[test]
fn numbers_4_and_5() {
    for (version, unit, event, of_65) in IN_BOTH {
        number_4(&written(&format!("{version}\n{UNITS}")), unit);
        number_5(version, unit, event, of_65);
    }
}

fn number_4(good: &[u8], unit: usize) {
    let (one, two) = (36 + unit, 36 + 2 * unit);
    refused_bytes(
        &changed(good, 4, 40),
        "refused 4: the pairs of offset and length don't follow on from byte 36 to the file's end\n\
         the header: the offset of units is 40; the header ends at 36\n",
    );
    refused_bytes(
        &changed(good, 8, unit as u8),
        &format!(
            "refused 4: the pairs of offset and length don't follow on from byte 36 to the file's end\n\
             the header: the offset of references is {two}; the section before it, units, ends at {one}\n"
        ),
    );
    let cut = two - 1;
    refused_bytes(
        &good[..cut],
        &format!(
            "refused 4: the pairs of offset and length don't follow on from byte 36 to the file's end\n\
             the header: the last section, events, ends at {two}; the file at {cut}\n"
        ),
    );
}

fn number_5(version: &str, unit: usize, event: &str, of_65: &str) {
    let mut odd = written(&format!("{version}\n{UNITS}"));
    odd.push(0);
    odd[32] = 1;
    refused_bytes(
        &odd,
        &format!(
            "refused 5: a section's length is no multiple of its record, or it has too many records\n\
             the header: the length of events is 1; expected {event}\n"
        ),
    );
    let bytes = unit * 65;
    let mut many = written(version);
    many.extend(vec![0; bytes]);
    put_u16(&mut many, 8, bytes as u16);
    for pair in [12, 20, 28] {
        put_u16(&mut many, pair, 36 + bytes as u16);
    }
    refused_bytes(
        &many,
        &format!(
            "refused 5: a section's length is no multiple of its record, or it has too many records\n\
             the header: the length of units is {of_65}, 65 records; expected at most 64\n"
        ),
    );
}

#[test]
fn number_6() {
    for (text, place) in [
        (
            "unit 14 group 7 area 2 capability 1 MW",
            "units, record 2 (unit 14): area is 2; expected 0 or 1",
        ),
        (
            "unit 14 group 7 capability 1 MW spare-22 9",
            "units, record 2 (unit 14): spare-22 is 9; expected 0",
        ),
        (
            "unit 14 group 7 capability 0 MW",
            "units, record 2 (unit 14): capability is 0 (0.0 MW); expected 1 (0.1 MW) to 50,000 (5,000.0 MW)",
        ),
        (
            "unit 14 group 7 capability 5000.1 MW",
            "units, record 2 (unit 14): capability is 50,001 (5,000.1 MW); expected 1 (0.1 MW) to 50,000 (5,000.0 MW)",
        ),
        (
            "unit 14 group 7 capability 1 MW response-rate 5000.1 MW/min",
            "units, record 2 (unit 14): response rate is 50,001 (5,000.1 MW/min); expected 0 (0.0 MW/min) to 50,000 (5,000.0 MW/min)",
        ),
        (
            "unit 14 group 7 capability 1 MW average-price $10000.01",
            "units, record 2 (unit 14): Average Price is 1,000,001 ($10,000.01); expected 0 ($0.00) to 1,000,000 ($10,000.00)",
        ),
        (
            "unit 14 group 7 capability 1 MW constrained-hours 8785",
            "units, record 2 (unit 14): Constrained Hours is 8,785; expected 0 to 8,784",
        ),
        (
            "unit 13 group 8 capability 1 MW",
            "units, record 2 (unit 13): unit number is 13, after 13; unit numbers have to rise strictly",
        ),
    ] {
        refused(6, text, place);
    }
}

#[test]
fn number_7_and_8() {
    for (text, place) in [
        (
            "reference unit 99 component energy value $1.00",
            "record 0 (unit 99, energy): unit is 99; no unit of this number is listed",
        ),
        (
            "reference unit 12 component 9 value 1",
            "record 0 (unit 12, component 9): component is 9; expected 0 (energy) to 8 (maximum-parameter)",
        ),
        (
            "reference unit 12 component energy spare-3 1 value $1.00",
            "record 0 (unit 12, energy): spare-3 is 1; expected 0",
        ),
        (
            "reference unit 12 component reserve-or-regulation value $10000.01",
            "record 0 (unit 12, reserve or regulation): value is 1,000,001 ($10,000.01); expected 0 ($0.00) to 1,000,000 ($10,000.00)",
        ),
        (
            "reference unit 12 component minimum-run-time value 1000000001 minutes",
            "record 0 (unit 12, minimum run time): value is 1,000,000,001 (1,000,000,001 minutes); expected 0 (0 minutes) to 1,000,000,000 (1,000,000,000 minutes)",
        ),
        (
            "reference unit 12 component start-up-cost value $1.00\nreference unit 12 component energy value $1.00",
            "record 1 (unit 12, energy): component is out of order after unit 12, start-up cost; references have to rise strictly by unit and component",
        ),
        (
            "reference unit 13 component energy value $1.00\nreference unit 12 component energy value $1.00",
            "record 1 (unit 12, energy): unit is out of order after unit 13, energy; references have to rise strictly by unit and component",
        ),
    ] {
        refused(7, text, &format!("references, {place}"));
        let text = format!("order as-written\n{text}");
        let correction = casetool_in_both(&["write", "--correction"], text.as_bytes()).output;
        refused_correction("version 1", &correction, &format!("correction, {place}"));
    }
}

#[test]
fn number_8_by_its_length() {
    for (version, width) in [("version 1", "8"), ("version 2", "12 in version 2")] {
        let seven =
            format!("the correction: its length is 7 bytes; expected a multiple of {width}");
        refused_correction(version, &[0; 7], &seven);
    }
    let many = "the correction: its length is 2,056 bytes, 257 records; expected at most 256";
    refused_correction("version 1", &[0; 2_056], many);
}

fn refused_correction(version: &str, correction: &[u8], place: &str) {
    let path = file_with(
        &format!("limits-correction-{}", correction.len()),
        correction,
    );
    let file = written(&format!("{version}\n{UNITS}"));
    // Without whole records it has no copy.
    let width = Section::References.width(Version::One);
    let has_copy = correction.len().is_multiple_of(width);
    let ran = casetool_where(has_copy, &["check", "--correction", &path], &file);
    let (first, rest) = text_of(&ran).split_once('\n').expect("two lines");
    assert!(first.starts_with("refused 8: the correction is"), "{first}");
    assert_eq!(rest, format!("{place}\n"));
}

#[test]
fn number_9() {
    for (text, place) in [
        (
            "kind dispatch market day-ahead period 0 day 2",
            "past, record 1 (group 7, dispatch, Day-Ahead): kind is 2 (dispatch); expected 1 (withheld) or 3 (fuel)",
        ),
        (
            "kind fuel market 2 period 0 day 2",
            "past, record 1 (group 7, fuel, market 2): market is 2; expected 0 (day-ahead) or 1 (real-time)",
        ),
        (
            "kind fuel market day-ahead period 0 day 2 spare-7 1",
            "past, record 1 (group 7, fuel, Day-Ahead): spare-7 is 1; expected 0",
        ),
        (
            "kind fuel market day-ahead period 0 day 1000001",
            "past, record 1 (group 7, fuel, Day-Ahead): day is 1,000,001; expected 0 to 1,000,000",
        ),
    ] {
        let good = "past group 7 kind fuel market day-ahead period 200 day 36524";
        refused(9, &format!("{good}\npast group 7 {text}"), place);
    }
}
