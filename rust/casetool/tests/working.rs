//! The pencil working: whole answers for every kind and component, with the figures of the pencil sheet,
//! and the flags of generated cases beside the second implementation's.

mod support;

use cases::Random;
use cases::Row;
use cases::generator::any_case_in;
use support::{casetool_in_both, casetool_with, copies_of, in_turn, written};

const UNITS: &str = "\
unit 12 group 7 area 1 capability 500.0 MW response-rate 10.0 MW/min average-price $50.00 constrained-hours 1000
unit 13 group 7 area no capability 1500.0 MW
";

/// That the working of an hour of the last event of a text is this one, after its heading.
fn works(text: &str, hour: usize, expected: &str) {
    let text = format!("{UNITS}{text}");
    let last = (text.matches("\nevent ").count() - 1).to_string();
    let arguments = ["working", "--event", &last, "--hour", &hour.to_string()];
    let ran = casetool_in_both(&arguments, &written(&text));
    assert_eq!((ran.status, ran.errors.as_str()), (0, ""));
    let mut lines = ran.text().lines();
    let heading = lines.next().expect("a heading");
    assert!(heading.starts_with(&format!("Event {last}: day 8000 (26 November 2021), ")));
    assert_eq!(lines.next(), Some(format!("Hour {hour}").as_str()));
    let rest: Vec<&str> = lines.collect();
    assert_eq!(rest.join("\n"), expected);
}

const WITHHELD: &str =
    "event day 8000 kind withheld market day-ahead unit 12 period 44 impact 1 shadow-price-hours";

#[test]
fn withheld() {
    works(
        &format!("{WITHHELD} none\nhour 0 withheld 50.1 MW price $40.00"),
        0,
        "    a      501 (50.1 MW), withheld
    S      501 (50.1 MW), the group's a of this hour, added
    G      20,000 (2,000.0 MW), the group's listed capability
    N3     1
    N2     1
    tight  no
  1. 10 × a > capability: 5,010 > 5,000, exceeded
  2. a > 1,000: 501 > 1,000, not exceeded
  3. 20 × S > G: 10,020 > 20,000, not exceeded
  4. S > 2,000: 501 > 2,000, not exceeded
Step 1 failed: hour 0 is flagged",
    );
    works(
        &format!("{WITHHELD} none\nhour 0 withheld 50.0 MW price $40.00"),
        0,
        "    a      500 (50.0 MW), withheld
    S      500 (50.0 MW), the group's a of this hour, added
    G      20,000 (2,000.0 MW), the group's listed capability
    N3     0
    N2     0
    tight  no
  1. 10 × a > capability: 5,000 > 5,000, not exceeded
  2. a > 1,000: 500 > 1,000, not exceeded
  3. 20 × S > G: 10,000 > 20,000, not exceeded
  4. S > 2,000: 500 > 2,000, not exceeded
No step is exceeded: hour 0 is not flagged",
    );
}

#[test]
fn withheld_by_the_group_and_in_a_tight_hour() {
    let other = "event day 8000 kind withheld market day-ahead unit 13 period 44 impact 0 shadow-price-hours 9";
    works(
        &format!(
            "{WITHHELD} none\nhour 9 withheld 50 MW price 0\n{other}\nhour 9 withheld 50.1 MW price 0"
        ),
        9,
        "    a      501 (50.1 MW), withheld
    S      1,001 (100.1 MW), the group's a of this hour, added
    G      20,000 (2,000.0 MW), the group's listed capability
    N3     0
    N2     0
    tight  no
  1. 10 × a > capability: 5,010 > 15,000, not exceeded
  2. a > 1,000: 501 > 1,000, not exceeded
  3. 20 × S > G: 20,020 > 20,000, exceeded
  4. S > 2,000: 1,001 > 2,000, not exceeded
Step 3 failed: hour 9 is flagged",
    );
    works(
        &format!("{WITHHELD} 9\nhour 9 withheld 50 MW price 0"),
        9,
        "    a      500 (50.0 MW), withheld
    S      500 (50.0 MW), the group's a of this hour, added
    G      20,000 (2,000.0 MW), the group's listed capability
    N3     0
    N2     0
    tight  yes
  1. 10 × a > capability: 5,000 > 5,000, not exceeded
  2. a > 500: 500 > 500, not exceeded
  3. 20 × S > G: 10,000 > 20,000, not exceeded
  4. S > 1,000: 500 > 1,000, not exceeded
No step is exceeded: hour 9 is not flagged",
    );
}

#[test]
fn dispatch_and_fuel() {
    works(
        "event day 8000 kind dispatch market real-time unit 12 period 44 impact 1 shadow-price-hours 23\n\
         hour 23 undelivered 100.1 MW added-revenue 0",
        23,
        "    a      1,001 (100.1 MW), undelivered
    S      1,001 (100.1 MW), the group's a of this hour, added
    tight  yes
  1. a > 15 × rate: 1,001 > 1,500, not exceeded
  2. a > 500: 1,001 > 500, exceeded
  3. S > 1,000: 1,001 > 1,000, exceeded
Step 2 failed: hour 23 is flagged",
    );
    let fuel = "event day 8000 kind fuel market real-time unit 12 period 44 inaccurate-hours 3 guarantee-change 0\n\
                event day 8000 kind fuel market real-time unit 13 period 44 inaccurate-hours 3,5 guarantee-change 0\n\
                hour 3 energy 1.5 MWh price-change 0";
    works(
        fuel,
        3,
        "    a      15 (1.5 MWh), energy
  1. events of the party-day with this hour in P > 0: 2 > 0, exceeded
Step 1 failed: hour 3 is flagged",
    );
    works(
        fuel,
        4,
        "    a      0 (0.0 MWh), energy
  1. events of the party-day with this hour in P > 0: 0 > 0, not exceeded
No step is exceeded: hour 4 is not flagged",
    );
}

/// A bids event of unit 12 with its reference.
fn bids(component: &str, reference: &str, market: &str, bid: &str) -> String {
    format!(
        "reference unit 12 component {component} value {reference}\n\
         event day 8000 kind bids market {market} unit 12 period 44 component {component} \
         shadow-price-hours 7 impact-hours none minimum-run-hours 0\n\
         hours 0-23 bid {bid} price 0 quantity 0"
    )
}

const NEEDS: &str = "not taken, it needs Real-Time, a tight hour and H of at least 1";

#[test]
fn bids_in_dollars() {
    works(
        &bids("energy", "$20.00", "real-time", "$28.77"),
        7,
        "    a      2,877 ($28.77), bid
    r      2,000 ($20.00), reference
    d      877 ($8.77), a − r
    tight  yes
  1. d > the lower of 3 × r and 10,000: 877 > 6,000, not exceeded
  2. 10 × d × H > 1,752 × Average Price: 8,770,000 > 8,760,000, exceeded
Step 2 failed: hour 7 is flagged",
    );
    works(
        &bids("minimum-generation", "$50.00", "day-ahead", "-$0.01"),
        7,
        &format!(
            "    a      -1 (-$0.01), bid
    r      5,000 ($50.00), reference
    d      -5,001 (-$50.01), a − r
    tight  yes
  1. d > the lower of 3 × r and 10,000: not taken, a is below 2,500
  2. 10 × d × H > 1,752 × Average Price: {NEEDS}
No step is exceeded: hour 7 is not flagged"
        ),
    );
    works(
        &bids("energy", "$50.00", "real-time", "$25.00"),
        7,
        "    a      2,500 ($25.00), bid
    r      5,000 ($50.00), reference
    d      -2,500 (-$25.00), a − r
    tight  yes
  1. d > the lower of 3 × r and 10,000: 0 > 10,000, not exceeded (a negative d stands as 0)
  2. 10 × d × H > 1,752 × Average Price: 0 > 8,760,000, not exceeded (a negative d stands as 0)
No step is exceeded: hour 7 is not flagged",
    );
    works(
        &bids("reserve-or-regulation", "$1.00", "day-ahead", "$5.01"),
        7,
        "    a      501 ($5.01), bid
    r      100 ($1.00), reference
    d      401 ($4.01), a − r
    tight  yes
  1. d > the lower of 3 × r and 5,000: 401 > 300, exceeded
Step 1 failed: hour 7 is flagged",
    );
    works(
        &bids("start-up-cost", "$1000.00", "day-ahead", "$3000.00"),
        7,
        "    a      300,000 ($3,000.00), bid
    r      100,000 ($1,000.00), reference
    d      200,000 ($2,000.00), a − r
    tight  yes
  1. d > 2 × r: 200,000 > 200,000, not exceeded
No step is exceeded: hour 7 is not flagged",
    );
    works(
        &bids("start-up-cost", "$10000000.00", "day-ahead", "$0.00"),
        7,
        "    a      0 ($0.00), bid
    r      1,000,000,000 ($10,000,000.00), reference
    d      -1,000,000,000 (-$10,000,000.00), a − r
    tight  yes
  1. d > 2 × r: 0 > 2,000,000,000, not exceeded (a negative d stands as 0)
No step is exceeded: hour 7 is not flagged",
    );
}

#[test]
fn times() {
    let text = |first: u32| {
        let names = ["start-up-time", "minimum-run-time", "minimum-down-time"];
        let mut text = String::new();
        for name in names {
            text += &format!("reference unit 12 component {name} value 60 minutes\n");
        }
        for (name, bid) in names.into_iter().zip([first, 180, 180]) {
            text += &format!(
                "event day 8000 kind bids market day-ahead unit 12 period 44 component {name} shadow-price-hours none impact-hours none\nhour 7 bid {bid} minutes\n"
            );
        }
        text
    };
    works(
        &text(181),
        7,
        "    a      180 (180 minutes), bid
    r      60 (60 minutes), reference
    d      120 (120 minutes), a − r
    sum    361 (361 minutes), the positive d of the three times, added
    tight  no
  1. d > 180: 120 > 180, not exceeded
  2. the positive d of the three times, added > 360: 361 > 360, exceeded
Step 2 failed: hour 7 is flagged",
    );
    works(
        &text(180),
        8,
        "    a      0 (0 minutes), bid
    r      60 (60 minutes), reference
    d      -60 (-60 minutes), a − r
    sum    0 (0 minutes), the positive d of the three times, added
    tight  no
  1. d > 180: 0 > 180, not exceeded (a negative d stands as 0)
  2. the positive d of the three times, added > 360: not taken, d is not above 0
No step is exceeded: hour 8 is not flagged",
    );
}

#[test]
fn parameters() {
    works(
        &bids("minimum-parameter", "1000", "day-ahead", "2001"),
        7,
        "    a      2,001, bid
    r      1,000, reference
    d      1,001, a − r
    tight  yes
  1. a > 2 × r: 2,001 > 2,000, exceeded
Step 1 failed: hour 7 is flagged",
    );
    works(
        &bids("maximum-parameter", "100", "day-ahead", "50"),
        7,
        "    a      50, bid
    r      100, reference
    d      -50, a − r
    tight  yes
  1. 2 × a < r, that is r > 2 × a: 100 > 100, not exceeded
No step is exceeded: hour 7 is not flagged",
    );
}

/// The steps of a working that are exceeded.
fn exceeded(text: &str) -> Vec<usize> {
    let step = |line: &str| {
        let (step, _) = line.trim().split_once('.').expect("a step");
        step.parse().expect("a number")
    };
    let lines = text.lines().filter(|line| line.ends_with(", exceeded"));
    lines.map(step).collect()
}

#[test]
fn generated_cases_beside_the_second_implementation() {
    let mut random = Random::new(742);
    let (mut hours, mut flagged, mut copies) = (0, 0, 0);
    for place in 0..150 {
        let input = any_case_in(in_turn(place), &mut random).input();
        let mut rows = vec![0; input.rows_len];
        second::settle(&input.file, &input.correction, &mut rows);
        copies += copies_of(&input);
        for event in 0..rows.len() / 128 {
            let row = Row::of(&rows, event);
            let hour = random.below(24);
            let (event, hour_word) = (event.to_string(), hour.to_string());
            let arguments = ["working", "--event", &event, "--hour", &hour_word];
            let ran = casetool_with("working.correction", &arguments, &input);
            assert_eq!(ran.status, 0);
            let text = ran.text();
            let last = text.lines().last().expect("a verdict");
            let exceeded = exceeded(text);
            let is_flagged = row.flags.0 >> hour & 1 == 1;
            let expected = match exceeded.first() {
                Some(step) => format!("Step {step} failed: hour {hour} is flagged"),
                None => format!("No step is exceeded: hour {hour} is not flagged"),
            };
            assert_eq!(
                (last, exceeded.is_empty()),
                (expected.as_str(), !is_flagged),
                "{text}"
            );
            hours += 1;
            flagged += usize::from(is_flagged);
        }
    }
    println!("{hours} hours, {flagged} of them flagged, {copies} copies");
    assert!(copies > 50);
}
