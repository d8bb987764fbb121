//! Numbers 18 and 19 with cases written by hand, and the answers of `casetool check`; what is checked before and after.

mod support;

use casetool::record::fields::LAST_DAY;
use support::json::{answer, schema};
use support::refused::{UNITS, refused};
use support::{casetool_in_both, written_and_warned_of};

/// A past entry of group 7.
fn past(kind: &str, day: u32, period: u16) -> String {
    format!("past group 7 kind {kind} market real-time period {period} day {day}\n")
}

/// An event of unit 12.
fn event(day: u32, period: u16) -> String {
    format!("event day {day} kind withheld market day-ahead unit 12 period {period} impact 0\n")
}

#[test]
fn the_last_day_and_its_period_are_accepted() {
    assert_eq!(LAST_DAY, 36_524);
    let good = [
        past("fuel", 36_524, 200),
        past("withheld", 0, 0),
        event(36_524, 200),
    ];
    let (file, warnings) = written_and_warned_of(&[UNITS, &good.concat()].concat());
    assert_eq!(warnings, "");
    let ran = casetool_in_both(&["check"], &file);
    assert_eq!((ran.status, ran.text()), (0, "accepted, 1 event\n"));
}

#[test]
fn number_18() {
    let expected = "expected 0 to 36,524 (31 December 2099)";
    for (day, spoken) in [
        (36_525, "36,525 (1 January 2100)"),
        (40_000, "40,000 (8 July 2109)"),
        (1_000_000, "1,000,000 (28 November 4737)"),
    ] {
        for kind in ["withheld", "fuel"] {
            refused(
                18,
                &[past(kind, 36_524, 200), past(kind, day, 200)].concat(),
                &format!(
                    "past, record 1 (group 7, {kind}, Real-Time): day is {spoken}; {expected}"
                ),
            );
        }
        refused(
            18,
            &[event(36_524, 200), event(day, 200)].concat(),
            &format!(
                "event 1 (day {day}, withheld, Day-Ahead, unit 12): day is {spoken}; {expected}"
            ),
        );
    }
}

#[test]
fn number_19() {
    for (day, period, expected) in [
        (8000, 43, "44, that of day 8000 (26 November 2021)"),
        (8000, 45, "44, that of day 8000 (26 November 2021)"),
        (8000, 300, "44, that of day 8000 (26 November 2021)"),
        (7974, 44, "43, that of day 7974 (31 October 2021)"),
        (0, 1, "0, that of day 0 (1 January 2000)"),
        (120, 1, "0, that of day 120 (30 April 2000)"),
        (121, 0, "1, that of day 121 (1 May 2000)"),
        (36_524, 199, "200, that of day 36524 (31 December 2099)"),
    ] {
        let broken = format!("period is {period}; expected {expected}");
        for kind in ["withheld", "fuel"] {
            refused(
                19,
                &[past(kind, 8000, 44), past(kind, day, period)].concat(),
                &format!("past, record 1 (group 7, {kind}, Real-Time): {broken}"),
            );
        }
        refused(
            19,
            &event(day, period),
            &format!("event 0 (day {day}, withheld, Day-Ahead, unit 12): {broken}"),
        );
    }
}

#[test]
fn past_entries_come_before_events() {
    let day = "day is 36,525 (1 January 2100); expected 0 to 36,524 (31 December 2099)";
    let period = "period is 43; expected 44, that of day 8000 (26 November 2021)";
    for (number, bad_past, bad_event, broken) in [
        (18, past("fuel", 36_525, 0), event(36_525, 0), day),
        (19, past("fuel", 8000, 43), event(8000, 43), period),
    ] {
        let place = format!("past, record 0 (group 7, fuel, Real-Time): {broken}");
        refused(number, &[bad_past, bad_event].concat(), &place);
    }
    // A day beyond the last anywhere comes before a period of another day.
    refused(
        18,
        &[past("fuel", 8000, 43), event(8000, 43), event(36_525, 200)].concat(),
        &format!("event 1 (day 36525, withheld, Day-Ahead, unit 12): {day}"),
    );
}

#[test]
fn after_10_and_before_11() {
    let broken = "day is 1,000,001; expected 0 to 1,000,000";
    refused(
        9,
        &[past("fuel", 36_525, 0), past("fuel", 1_000_001, 0)].concat(),
        &format!("past, record 1 (group 7, fuel, Real-Time): {broken}"),
    );
    refused(
        10,
        &[event(36_525, 0), event(1_000_001, 0)].concat(),
        &format!("event 1 (day 1000001, withheld, Day-Ahead, unit 12): {broken}"),
    );
    refused(
        10,
        &[
            past("fuel", 36_525, 0),
            event(8000, 43).replace("impact 0", "impact 2"),
        ]
        .concat(),
        "event 0 (day 8000, withheld, Day-Ahead, unit 12): impact is 2; expected 0 or 1",
    );
    // Events out of order, of an unlisted unit.
    let late = [
        event(8001, 44),
        event(8000, 43).replace("unit 12", "unit 99"),
    ]
    .concat();
    refused(
        19,
        &late,
        "event 1 (day 8000, withheld, Day-Ahead, unit 99): period is 43; expected 44, that of day 8000 (26 November 2021)",
    );
    refused(
        11,
        &late.replace("period 43", "period 44"),
        "event 1 (day 8000, withheld, Day-Ahead, unit 99): day is out of order after event 0 (day 8001, withheld, Day-Ahead, unit 12); events have to rise strictly by day, kind, market, unit, component",
    );
}

#[test]
fn as_json() {
    let schema = schema();
    for (number, text, part, record, offset, column) in [
        (18, event(36_525, 200), "events", 0, 8, 11),
        (19, event(8000, 43), "events", 0, 4, 62),
        (18, past("fuel", 36_525, 200), "past", 0, 8, 56),
        (19, past("withheld", 8000, 43), "past", 0, 4, 52),
    ] {
        let text = [UNITS, &text].concat();
        let arguments = ["check", "--format", "json", "--allow-empty"];
        let ran = casetool_in_both(&arguments, text.as_bytes());
        assert_eq!((ran.status, ran.errors.as_str()), (1, ""));
        let value = answer(&ran, &schema);
        let place = value.at("place");
        assert_eq!(value.at("number").integer(), number);
        assert_eq!(place.at("part").text(), part);
        assert_eq!(place.at("record").integer(), record);
        assert_eq!(place.at("offset").integer(), offset);
        assert_eq!(value.at("line").integer(), 3);
        assert_eq!(value.at("column").integer(), column);
    }
}
