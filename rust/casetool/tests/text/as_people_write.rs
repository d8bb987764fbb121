//! What people write is taken where it can be meant in one way, and gives the same file as the form of `show`.

use crate::support::{casetool_in_both, written};

const UNIT: &str = "unit 12 group 7 area no capability 1500.0 MW response-rate 10.0 MW/min\n";

/// That a text gives the file of another.
fn same(text: &str, as_shown: &str) {
    assert!(written(text) == written(as_shown), "{text}");
}

#[test]
fn amounts() {
    for (text, as_shown) in [
        ("capability 500MW", "capability 500.0 MW"),
        ("capability 1,500.0 MW", "capability 1500.0 MW"),
        ("capability 1,500.0MW", "capability 1500.0 MW"),
        ("capability 1,500", "capability 1500.0 MW"),
        ("capability 12,345,678.9", "capability 12345678.9 MW"),
        (
            "capability 1 response-rate 10MW/min",
            "capability 1 response-rate 10.0 MW/min",
        ),
        (
            "capability 1 average-price $1,234.50",
            "capability 1 average-price $1234.50",
        ),
        (
            "capability 1 constrained-hours 1,000",
            "capability 1 constrained-hours 1000",
        ),
    ] {
        same(
            &format!("unit 1 group 1 {text}"),
            &format!("unit 1 group 1 {as_shown}"),
        );
    }
}

#[test]
fn a_minus_before_or_after_the_dollars() {
    let event = "event day 8000 kind fuel market day-ahead unit 12 period 44 inaccurate-hours none tcc-change 0";
    for change in ["$-40.00", "-$40.00", "-40", "−40", "$−40.00", "−$40.0"] {
        let text = |change: &str| {
            format!(
                "{UNIT}{event} guarantee-change {change}\nhour 3 energy 1MWh price-change {change}"
            )
        };
        same(&text(change), &text("-$40.00"));
    }
    let reference = "reference unit 1 component start-up-time value";
    same(
        &format!("{reference} 1,180minutes"),
        &format!("{reference} 1180 minutes"),
    );
    same(
        "past group 7 kind fuel market 0 period 44 day 8,000",
        "past group 7 kind fuel market 0 period 44 day 8000",
    );
}

#[test]
fn lists_of_hours() {
    let text = |hours: &str| {
        format!(
            "{UNIT}event shadow-price-hours {hours} day 8000 kind withheld market day-ahead unit 12 period 44 impact 1\n\
             hours {hours} withheld 1 MW price $1.00\n"
        )
    };
    for (hours, as_shown) in [
        ("5, 6, 7", "5-7"),
        ("5,6 ,7", "5-7"),
        ("5 , 6 , 7", "5-7"),
        ("5–7", "5-7"),
        ("5 – 7", "5-7"),
        ("5 - 7", "5-7"),
        ("5- 7", "5-7"),
        ("0, 5–7, 23", "0,5-7,23"),
        ("0,\t5 –7", "0,5-7"),
    ] {
        same(&text(hours), &text(as_shown));
    }
    // A list ends where a key begins, and has its own column in a message.
    let ran = casetool_in_both(&["write"], text("0, 5–7, 24 ").as_bytes());
    let errors: Vec<&str> = ran.errors.lines().collect();
    assert_eq!(
        errors,
        [
            "casetool: standard input: line 3, column 7, '0, 5–7, 24': expected hours from 0 to 23, as in 0,5-7"
        ]
    );
}

#[test]
fn markets_kinds_and_marks() {
    let event = |kind: &str, market: &str, impact: &str, area: &str| {
        format!(
            "unit 12 group 7 area {area} capability 1 MW response-rate 1\n\
             event day 8000 kind {kind} market {market} unit 12 period 44 impact {impact} shadow-price-hours none\n"
        )
    };
    for (market, as_shown) in [
        ("DAM", "day-ahead"),
        ("dam", "day-ahead"),
        ("RTM", "real-time"),
        ("Day-Ahead", "day-ahead"),
        ("Real-Time", "real-time"),
        ("1", "real-time"),
    ] {
        same(
            &event("withheld", market, "1", "0"),
            &event("withheld", as_shown, "1", "0"),
        );
    }
    same(
        &event("Withheld", "DAM", "yes", "no"),
        &event("withheld", "day-ahead", "1", "0"),
    );
    same(
        &event("Dispatch", "RTM", "no", "yes"),
        &event("dispatch", "real-time", "0", "1"),
    );
    // Yes and no are for marks alone.
    let ran = casetool_in_both(&["write"], b"unit yes group 7 capability 1");
    assert_eq!(
        ran.errors,
        "casetool: standard input: line 1, column 6, 'yes': expected a whole number\n"
    );
    let ran = casetool_in_both(&["write"], event("withheld", "DA", "1", "0").as_bytes());
    let message = "casetool: standard input: line 2, column 37, 'DA': expected day-ahead, real-time, or its number, 0 or 1\n";
    assert_eq!((ran.status, ran.errors.as_str()), (1, message));
}

#[test]
fn it_is_shown_in_one_form() {
    let text = "event day 2021-11-26 kind WITHHELD market DAM unit 12 period 44 impact yes\n\
                hours 5, 6, 7 withheld 1,200.5MW price $-1,234.5\nunit 12 group 7 area no capability 1,500MW";
    let shown = casetool_in_both(&["show"], &written(text));
    assert_eq!(
        shown.text(),
        "version 1\n# case: 1 unit, 0 references, 0 past entries, 1 event\n\n\
         unit 12 group 7 area 0 capability 1500.0 MW\n\n\
         event day 8000 kind withheld market day-ahead unit 12 period 44 impact 1  # event 0, 26 November 2021\n  \
         hours 5-7 withheld 1200.5 MW price -$1234.50\n"
    );
}
