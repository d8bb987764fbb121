//! The keys that a text needs since its events read them: left out, each is an error with its line and
//! never 0; and `show` writes each where it is 0.

mod support;

use support::{casetool_in_both, written};

/// A text that has its needed keys alone, each with the line that it stands on.
struct Whole {
    text: String,
    needed: Vec<(usize, &'static str)>,
}

/// A unit of area 0 or 1, an event of it and an hour line, with these keys besides those of every record. Fuel alone does
/// not read the area.
fn whole(
    (unit_number, unit): (u8, &'static str),
    (event, event_keys): (&str, &'static str),
    (hours, hour_keys): (&str, &'static str),
) -> Whole {
    let text = format!(
        "unit {unit_number} group 7 area {} capability 5 MW {unit}\n\
         event day 8000 period 44 unit {unit_number} {event} {event_keys}\n\
         {hours} {hour_keys}",
        unit_number - 12
    );
    let mut needed = Vec::new();
    if !event.contains("kind fuel") {
        needed.push((1, "area"));
    }
    for (line, keys) in [(1, unit), (2, event_keys), (3, hour_keys)] {
        needed.extend(keys.split(' ').step_by(2).map(|key| (line, key)));
    }
    needed.retain(|(_, key)| !key.is_empty());
    Whole { text, needed }
}

const COMPONENTS: [&str; 9] = [
    "energy",
    "minimum-generation",
    "reserve-or-regulation",
    "start-up-cost",
    "start-up-time",
    "minimum-run-time",
    "minimum-down-time",
    "minimum-parameter",
    "maximum-parameter",
];

const MARKETS: [&str; 2] = ["day-ahead", "real-time"];

/// Every kind, market and component in area 0 (unit 12) and area 1 (unit 13).
fn wholes() -> Vec<Whole> {
    let mut found = Vec::new();
    for area in [0, 1] {
        let impact = ["impact 0", "impact 0 shadow-price-hours none"][usize::from(area)];
        found.extend(MARKETS.map(|market| {
            let event = format!("kind withheld market {market}");
            whole(
                (12 + area, ""),
                (&event, impact),
                ("hour 3", "withheld 0 price 0"),
            )
        }));
        found.push(whole(
            (12 + area, "response-rate 0"),
            ("kind dispatch market real-time", impact),
            ("hour 3", "undelivered 0 added-revenue 0"),
        ));
        found.extend(MARKETS.map(|market| fuel(area, market)));
        for (number, component) in COMPONENTS.into_iter().enumerate() {
            found.extend(MARKETS.map(|market| bids(area, market, number, component)));
        }
    }
    found
}

fn fuel(area: u8, market: &str) -> Whole {
    let keys = match market {
        "day-ahead" => "inaccurate-hours none guarantee-change 0 tcc-change 0",
        _ => "inaccurate-hours none guarantee-change 0",
    };
    whole(
        (12 + area, ""),
        (&format!("kind fuel market {market}"), keys),
        ("hour 3", "energy 0 price-change 0"),
    )
}

fn bids(area: u8, market: &str, number: usize, component: &str) -> Whole {
    let unit = match (area, market, number) {
        (1, "real-time", 0 | 1) => "average-price 0 constrained-hours 0",
        _ => "",
    };
    let event = match (area, market, number) {
        (0, "day-ahead", 1) => "impact-hours none minimum-run-hours 0",
        (1, "day-ahead", 1) => "impact-hours none minimum-run-hours 0 shadow-price-hours none",
        (0, ..) => "impact-hours none",
        _ => "impact-hours none shadow-price-hours none",
    };
    let hour = match number {
        0 => "bid 0 price 0 quantity 0",
        _ => "bid 0",
    };
    let hours = if number == 8 { "hours 0-23" } else { "hour 3" };
    whole(
        (12 + area, unit),
        (
            &format!("kind bids market {market} component {component}"),
            event,
        ),
        (hours, hour),
    )
}

/// A text without a key of one of its lines, and how long that line is then.
fn without(text: &str, line: usize, key: &str) -> (String, usize) {
    let mut lines: Vec<String> = text
        .lines()
        .map(|line| line.trim_end().to_string())
        .collect();
    let words: Vec<&str> = lines[line - 1].split(' ').collect();
    let at = words
        .iter()
        .rposition(|&word| word == key)
        .expect("the key");
    let shorter = [&words[..at], &words[at + 2..]].concat().join(" ");
    lines[line - 1] = shorter.clone();
    (lines.join("\n"), shorter.chars().count())
}

#[test]
fn every_needed_key() {
    let wholes = wholes();
    let mut left_out = 0;
    for Whole { text, needed } in &wholes {
        let ran = casetool_in_both(&["write"], text.as_bytes());
        assert_eq!((ran.status, ran.errors.as_str()), (0, ""), "{text}");
        for &(line, key) in needed {
            let (text, length) = without(text, line, key);
            let why = match (line, key) {
                (1, _) => ", which the event of line 2 reads",
                (_, "shadow-price-hours") => {
                    ", none for no hours: unit 13 is in a Constrained Area (line 1)"
                }
                _ => "",
            };
            let ran = casetool_in_both(&["write"], text.as_bytes());
            let message = format!(
                "casetool: standard input: line {line}, column {}: expected the key {key}{why}\n",
                length + 1
            );
            assert_eq!((ran.status, ran.errors), (1, message), "{text}");
            assert_eq!(ran.output, b"");
            left_out += 1;
        }
    }
    println!("{} texts, {left_out} keys left out", wholes.len());
    assert_eq!((wholes.len(), left_out), (46, 187));
}

#[test]
fn a_maximum_parameter_in_every_hour() {
    let text = |hours: &str| {
        format!(
            "unit 12 group 7 area no capability 5 MW\n\
             reference unit 12 component maximum-parameter value 100\n\
             event day 8000 kind bids market day-ahead unit 12 period 44 component maximum-parameter impact-hours none\n\
             {hours}\n"
        )
    };
    let late = "past group 7 kind fuel market day-ahead period 44 day 8000";
    for (hours, missing) in [
        ("", "hours 0–23"),
        ("hours 1-23 bid 90", "hour 0"),
        ("hours 0-22 bid 90", "hour 23"),
        ("hours 0-4 bid 90\nhours 8-22 bid 0", "hours 5–7, 23"),
        (
            "hours 0-22 bid 90\npast group 7 kind fuel market day-ahead period 44 day 8000",
            "hour 23",
        ),
    ] {
        let ran = casetool_in_both(&["write"], text(hours).as_bytes());
        let message = format!(
            "casetool: standard input: line 3, column 1, 'event': expected a bid in every hour, since one left out would be a bid of 0: there is none for {missing}\n"
        );
        assert_eq!((ran.status, ran.errors), (1, message));
    }
    let case = written(&text(&format!(
        "hours 0-6 bid 90\nhours 7-23 bid 0\n{late}"
    )));
    let shown = casetool_in_both(&["show"], &case);
    assert!(
        shown
            .text()
            .ends_with("  hours 0-6 bid 90\n  hours 7-23 bid 0\n")
    );
    // An hour that is 0 and not left out is flagged, as it is written.
    let settled = casetool_in_both(&["settle"], &case);
    assert!(settled.text().contains("flagged hours    7–23\n"));
}

#[test]
fn a_unit_after_its_events_and_a_unit_that_is_not_listed() {
    let event = "event day 8000 kind dispatch market real-time unit 12 period 44 impact 1";
    let unit = "unit 12 group 7 area 1 capability 5 MW";
    let ran = casetool_in_both(
        &["write"],
        format!("{event}\n\n{unit}  # late\n").as_bytes(),
    );
    assert_eq!(
        ran.errors,
        "casetool: standard input: line 1, column 73: expected the key shadow-price-hours, none for no hours: unit 12 is in a Constrained Area (line 3)\n\
         casetool: standard input: line 3, column 39: expected the key response-rate, which the event of line 1 reads\n"
    );
    // What two events read is missing once.
    let text = format!(
        "{event} shadow-price-hours none\n{} shadow-price-hours none\n{unit}  # late\n",
        event.replace("8000", "8001")
    );
    let ran = casetool_in_both(&["write"], text.as_bytes());
    assert_eq!(
        ran.errors,
        "casetool: standard input: line 3, column 39: expected the key response-rate, which the event of line 1 reads\n"
    );
    // Another unit's area and rate are not asked for.
    let other = unit.replace("12", "13");
    let case = written(&format!("{event}\n{other}\n"));
    let shown = casetool_in_both(&["show"], &case);
    assert!(
        shown
            .text()
            .contains(&format!("\n{}\n", other.replace('5', "5.0")))
    );
    assert!(
        casetool_in_both(&["check"], &case)
            .text()
            .starts_with("refused 12: ")
    );
}

#[test]
fn the_area_of_every_unit_whose_events_read_it() {
    let event = |unit: u8, rest: &str| format!("event day 8000 period 44 unit {unit} {rest}\n");
    let [withheld, dispatch, bids, fuel] = [
        "kind withheld market DAM impact 0",
        "kind dispatch market RTM impact 0",
        "kind bids market DAM component maximum-parameter impact-hours none\n  hours 0-23 bid 1",
        "kind fuel market RTM inaccurate-hours none guarantee-change 0",
    ];
    let unit = |number: u8| format!("unit {number} group 7 capability 5 MW\n");
    let text = [
        unit(12),
        unit(13),
        unit(14),
        unit(15),
        unit(16),
        event(12, fuel),
        event(12, withheld),
        event(13, dispatch),
        event(13, withheld),
        event(14, bids),
        event(15, fuel),
    ];
    let said = [
        (1, "area", 7),
        (2, "area", 8),
        (2, "response-rate", 8),
        (3, "area", 10),
    ];
    let message = |(line, key, event): (usize, &str, usize)| {
        format!(
            "casetool: standard input: line {line}, column 32: expected the key {key}, which the event of line {event} reads\n"
        )
    };
    for command in ["write", "check", "settle"] {
        let ran = casetool_in_both(&[command], text.concat().as_bytes());
        assert_eq!((ran.status, ran.output.len()), (1, 0));
        assert_eq!(ran.errors, said.map(message).concat());
    }
    // Left out of the lines of the others it is 0, and not shown.
    let case = written(&[&text[3..5], &text[10..]].concat().concat());
    let shown = casetool_in_both(&["show"], &case);
    let units = "\nunit 15 group 7 capability 5.0 MW\nunit 16 group 7 capability 5.0 MW\n";
    assert!(shown.text().contains(units), "{}", shown.text());
}

/// Every kind, with nothing but 0 in what is needed.
const ZEROS: &str = "\
version 1
# case: 2 units, 0 references, 0 past entries, 9 events

unit 12 group 7 area 0 capability 0.0 MW response-rate 0.0 MW/min
unit 13 group 7 area 1 capability 0.0 MW average-price $0.00 constrained-hours 0

event day 8000 kind withheld market day-ahead unit 12 period 44 impact 0  # event 0, 26 November 2021
  hour 0 withheld 0.1 MW price $0.00
  hour 1 withheld 0.0 MW price $0.01
event day 8000 kind withheld market real-time unit 13 period 44 impact 0 shadow-price-hours none  # event 1, 26 November 2021
event day 8000 kind dispatch market real-time unit 12 period 44 impact 0  # event 2, 26 November 2021
  hour 0 undelivered 0.1 MW added-revenue $0.00
  hour 1 undelivered 0.0 MW added-revenue $0.01
event day 8000 kind fuel market day-ahead unit 13 period 44 inaccurate-hours none guarantee-change $0.00 tcc-change $0.00  # event 3, 26 November 2021
  hour 0 energy 0.1 MWh price-change $0.00
  hour 1 energy 0.0 MWh price-change $0.01
event day 8000 kind fuel market real-time unit 13 period 44 inaccurate-hours none guarantee-change $0.00  # event 4, 26 November 2021
event day 8000 kind bids market day-ahead unit 12 period 44 component energy impact-hours none  # event 5, 26 November 2021
  hour 0 bid $0.01 price $0.00 quantity 0.0 MW
  hour 1 bid $0.00 price $0.00 quantity 0.1 MW
event day 8000 kind bids market day-ahead unit 12 period 44 component minimum-generation impact-hours none minimum-run-hours 0  # event 6, 26 November 2021
  hour 0 bid $0.01
  hour 1 bid $0.00 price $0.01
event day 8000 kind bids market day-ahead unit 12 period 44 component maximum-parameter impact-hours none  # event 7, 26 November 2021
  hours 0-23 bid 0
event day 8000 kind bids market real-time unit 13 period 44 component minimum-generation shadow-price-hours none impact-hours none  # event 8, 26 November 2021
";

#[test]
fn what_is_needed_is_shown_where_it_is_0() {
    let file = written(ZEROS);
    let shown = casetool_in_both(&["show"], &file);
    assert_eq!((shown.status, shown.text()), (0, ZEROS));
    // Two units of one number, which are refused, each ask for what they need.
    let twice = format!("order as-written\n{ZEROS}")
        .replace("2 units", "3 units")
        .replace(
            "\nunit 13",
            "\nunit 12 group 8 area 1 capability 0.0 MW response-rate 0.0 MW/min\nunit 13",
        )
        .replace(
            "unit 12 period 44 impact 0  #",
            "unit 12 period 44 impact 0 shadow-price-hours none  #",
        )
        .replace(
            "impact-hours none  # event 5",
            "shadow-price-hours none impact-hours none  # event 5",
        )
        .replace(
            "impact-hours none minimum",
            "shadow-price-hours none impact-hours none minimum",
        )
        .replace(
            "impact-hours none  # event 7",
            "shadow-price-hours none impact-hours none  # event 7",
        );
    let file = written(&twice);
    assert_eq!(casetool_in_both(&["show"], &file).text(), twice);
}
