//! What a settlement says in words beside its figures: why there is no penalty or where it comes from,
//! and what a correction restored.

mod support;

use std::sync::atomic::{AtomicUsize, Ordering};

use support::{casetool_in_both, file_with, written};

const UNITS: &str = "unit 12 group 7 area no capability 500.0 MW response-rate 10.0 MW/min\n\
                     unit 13 group 7 capability 500.0 MW response-rate 10.0 MW/min\n\
                     unit 14 group 8 capability 500.0 MW\n\
                     unit 15 group 8 capability 500.0 MW\n";

/// The settlement of events beside the units, and of a correction where there is one.
fn settled(text: &str, correction: &str) -> String {
    static CALLS: AtomicUsize = AtomicUsize::new(0);
    let call = CALLS.fetch_add(1, Ordering::Relaxed);
    let case = written(&format!("{UNITS}{text}"));
    let path = file_with(&format!("words.{call}"), &case);
    let mut arguments = vec!["settle", &path];
    let mut bytes = Vec::new();
    if !correction.is_empty() {
        bytes = casetool_in_both(&["write", "--correction"], correction.as_bytes()).output;
        arguments.extend(["--correction", "-"]);
    }
    let ran = casetool_in_both(&arguments, &bytes);
    assert_eq!((ran.status, ran.errors.as_str()), (0, ""));
    ran.text().to_string()
}

/// The figures of an event, by their names.
fn figures(text: &str, event: usize) -> Vec<(&str, &str)> {
    let start = format!("  event {event}: ");
    let lines = text.lines().skip_while(|line| !line.starts_with(&start));
    lines
        .skip(1)
        .map_while(|line| line.strip_prefix("    "))
        .map(|line| (line[..17].trim(), &line[17..]))
        .collect()
}

/// That an event has these figures: flagged hours, multiplier and penalty.
fn has(text: &str, place: usize, flagged: &str, multiplier: &str, penalty: &str) {
    let expected = [
        ("flagged hours", flagged),
        ("multiplier", multiplier),
        ("penalty", penalty),
    ];
    assert_eq!(figures(text, place), expected, "event {place}");
}

/// Flagged hours, multiplier and penalty, in turn of a withheld and a dispatch event.
const WITHHELD_AND_DISPATCH: [(&str, &str, &str); 8] = [
    ("none", "0 (no instance: no hour is flagged)", "$0.00"),
    ("none", "0 (without impact there is no penalty)", "$0.00"),
    ("none", "0 (no instance: no hour is flagged)", "$0.00"),
    ("none", "0 (no hour is flagged)", "$0.00"),
    ("0", "0 (no instance: without impact)", "$0.00"),
    ("0", "0 (without impact there is no penalty)", "$0.00"),
    ("0", "1 (N3 1, N2 1)", "$2,004.00"),
    ("0", "1.5", "$150.00"),
];

#[test]
fn withheld_and_dispatch() {
    let mut text = String::new();
    for (day, impact, withheld, dispatch) in [
        (1, 0, "", ""),
        (2, 1, "", ""),
        (
            3,
            0,
            "50.1 MW price $40.00",
            "150.1 MW added-revenue $100.00",
        ),
        (
            4,
            1,
            "50.1 MW price $40.00",
            "150.1 MW added-revenue $100.00",
        ),
    ] {
        for (kind, market, key, hour) in [
            ("withheld", "day-ahead", "withheld", withheld),
            ("dispatch", "real-time", "undelivered", dispatch),
        ] {
            text += &format!(
                "event day {day} kind {kind} market {market} unit 12 period 0 impact {impact}\n"
            );
            if !hour.is_empty() {
                text += &format!("hour 0 {key} {hour}\n");
            }
        }
    }
    let text = settled(&text, "");
    for (place, (flagged, multiplier, penalty)) in WITHHELD_AND_DISPATCH.into_iter().enumerate() {
        has(&text, place, flagged, multiplier, penalty);
    }
}

fn fuel(day: u16, market: &str, unit: u8, hours: &str, guarantee: &str) -> String {
    let tcc = match market {
        "day-ahead" => " tcc-change 0",
        _ => "",
    };
    format!(
        "event day {day} kind fuel market {market} unit {unit} period 0 inaccurate-hours {hours} guarantee-change {guarantee}{tcc}\n"
    )
}

#[test]
fn fuel_days() {
    let text = [
        fuel(1, "day-ahead", 12, "none", "$5000.00"),
        fuel(1, "day-ahead", 13, "none", "$0.00"),
        fuel(1, "day-ahead", 14, "none", "$4999.99"),
        fuel(1, "day-ahead", 15, "none", "$0.00"),
        fuel(1, "real-time", 12, "none", "$0.00"),
        fuel(1, "real-time", 13, "none", "$6000.00"),
        fuel(2, "day-ahead", 12, "3", "$3333.32"),
        fuel(2, "day-ahead", 13, "none", "$0.00"),
        fuel(3, "day-ahead", 13, "3", "$9000.00"),
        fuel(3, "day-ahead", 14, "none", "-$9000.00"),
    ];
    let text = settled(&text.concat(), "");
    let below = "$0.00 (X, what this fuel day comes to, is below $5,000)";
    let from_both =
        "$5,000.00 (no hour is flagged: it comes from guarantee payments and TCC changes alone)";
    let from_one = "$6,000.00 (no hour is flagged: it comes from guarantee payments alone)";
    let on =
        |event, unit| format!("0 (this fuel day's penalty stands on event {event}, unit {unit})");
    has(&text, 0, "none", "1", from_both);
    has(&text, 1, "none", &on(0, 12), "$0.00");
    has(&text, 2, "none", "1", below);
    has(&text, 3, "none", &on(2, 14), "$0.00");
    has(&text, 4, "none", "1", from_one);
    has(&text, 5, "none", &on(4, 12), "$0.00");
    has(&text, 6, "3", "1.5", below);
    has(&text, 7, "3", &on(6, 12), "$0.00");
    has(&text, 8, "3", "1.5", "$13,500.00");
    has(&text, 9, "none", "1", below);
}

/// A bids event of unit 12 with its reference, mitigated in hour 10 and, by two hours of minimum run, 11.
fn bids(component: &str, reference: &str, bid: &str, next: &str) -> String {
    format!(
        "reference unit 12 component {component} value {reference}\n\
         event day 1 kind bids market day-ahead unit 12 period 0 component {component} impact-hours 10 minimum-run-hours 2\n\
         hour 10 bid {bid} price 0 quantity 0\nhour 11 bid {next} price 0 quantity 0\n"
    )
}

fn correction(component: &str, value: &str) -> String {
    format!("reference unit 12 component {component} value {value}\n")
}

/// That with this correct reference these bids are in force, and what is said of restored ones.
fn corrects(case: &str, component: &str, correct: &str, in_force: &str, restored: Option<&str>) {
    let text = settled(case, &correction(component, correct));
    let found = figures(&text, 0);
    assert_eq!(found[2], ("bids in force", in_force), "{correct}");
    let line = restored.map(|hours| {
        let words = "by the correction, the bid entered is in force again";
        ("restored".to_string(), format!("{hours}: {words}"))
    });
    let rest = found[3..]
        .iter()
        .map(|&(name, figure)| (name.to_string(), figure.to_string()));
    assert_eq!(rest.collect::<Vec<_>>(), Vec::from_iter(line), "{correct}");
    // Without a correction nothing is restored.
    assert!(!settled(case, "").contains("restored"));
}

#[test]
fn a_bid_that_a_correction_restored() {
    let name = "minimum-generation";
    let above = bids(name, "$30.00", "$150.00", "$35.00");
    // Passes the test with c, though it is above c; the next hour too.
    let both = "$150.00 in hour 10, $35.00 in hour 11";
    corrects(&above, name, "$100.00", both, Some("hours 10–11"));
    // The next hour's bid was in force without the correction.
    let below = bids(name, "$30.00", "$150.00", "$29.00");
    let first = "$150.00 in hour 10, $29.00 in hour 11";
    corrects(&below, name, "$100.00", first, Some("hour 10"));
    // Fails the test with c too: c is in force, and nothing is restored.
    corrects(
        &below,
        name,
        "$40.00",
        "$40.00 in hour 10, $29.00 in hour 11",
        None,
    );
    // c is r.
    corrects(
        &below,
        name,
        "$30.00",
        "$30.00 in hour 10, $29.00 in hour 11",
        None,
    );
    let name = "start-up-cost";
    let case = bids(name, "$100.00", "$303.00", "$0.00");
    corrects(
        &case,
        name,
        "$101.00",
        "$303.00 in hour 10",
        Some("hour 10"),
    );
    let case = bids(name, "$100.00", "$303.01", "$0.00");
    corrects(&case, name, "$101.00", "$101.00 in hour 10", None);
}

#[test]
fn a_make_up_only_where_a_component_can_have_one() {
    for component in [
        "energy",
        "minimum-generation",
        "reserve-or-regulation",
        "start-up-cost",
        "start-up-time",
        "minimum-run-time",
        "minimum-down-time",
        "minimum-parameter",
    ] {
        let case = bids(component, "10", "1000", "0");
        for correct in ["", "20"] {
            let given = match correct {
                "" => String::new(),
                value => correction(component, value),
            };
            let text = settled(&case, &given);
            let names: Vec<&str> = figures(&text, 0)
                .into_iter()
                .map(|(name, _)| name)
                .collect();
            let mut expected = vec!["flagged hours", "mitigated hours", "bids in force"];
            expected.extend((component == "energy").then_some("make-up"));
            assert_eq!(names, expected, "{component}");
            assert!(text.ends_with("    make-ups         $0.00\n"));
        }
    }
}
