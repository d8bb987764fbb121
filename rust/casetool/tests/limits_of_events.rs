//! Each number from 10 to 15 with a case written by hand, and the whole answer of `casetool check`.

mod support;

use casetool::place::refusal::Refusal;
use support::refused::{UNITS, refused, text_of};
use support::{casetool_in_both, file_with, written};

#[test]
fn number_10_before_the_hours() {
    for (text, place) in [
        (
            "kind 5 market day-ahead",
            "kind 5, Day-Ahead, unit 12): kind is 5; expected 1 (withheld) to 4 (bids)",
        ),
        (
            "kind withheld market 2 impact 0",
            "withheld, market 2, unit 12): market is 2; expected 0 (day-ahead) or 1 (real-time)",
        ),
        (
            "kind dispatch market day-ahead impact 0",
            "dispatch, Day-Ahead, unit 12): market is 0 (day-ahead); expected 1 (real-time)",
        ),
        (
            "kind fuel market day-ahead component maximum-parameter inaccurate-hours none guarantee-change 0 tcc-change 0",
            "fuel, Day-Ahead, unit 12, maximum parameter): component is 8 (maximum-parameter); expected 0 (energy)",
        ),
        (
            "kind bids market day-ahead component 9 impact-hours none",
            "bids, Day-Ahead, unit 12, component 9): component is 9; expected 0 (energy) to 8 (maximum-parameter)",
        ),
        (
            "kind withheld market day-ahead impact 2",
            "withheld, Day-Ahead, unit 12): impact is 2; expected 0 or 1",
        ),
        (
            "kind fuel market day-ahead impact 1 inaccurate-hours none guarantee-change 0 tcc-change 0",
            "fuel, Day-Ahead, unit 12): impact is 1; expected 0",
        ),
        (
            "kind withheld market day-ahead impact 0 shadow-price-hours 0,24",
            "withheld, Day-Ahead, unit 12): P (shadow-price-hours) is 16,777,217 (0, 24); bits 24 to 31 of the mask have to be 0",
        ),
        (
            "kind withheld market day-ahead impact 0 Q 5 R 6",
            "withheld, Day-Ahead, unit 12): Q is 5; expected 0",
        ),
        (
            "kind fuel market day-ahead inaccurate-hours none guarantee-change -$10000000.01 tcc-change 0",
            "fuel, Day-Ahead, unit 12): Q (guarantee-change) is -1,000,000,001 (-$10,000,000.01); expected -1,000,000,000 (-$10,000,000.00) to 1,000,000,000 ($10,000,000.00)",
        ),
        (
            "kind fuel market real-time inaccurate-hours none guarantee-change 0 tcc-change $0.01",
            "fuel, Real-Time, unit 12): R (tcc-change) is 1 ($0.01); expected 0 ($0.00)",
        ),
        (
            "kind bids market day-ahead component energy impact-hours 31",
            "bids, Day-Ahead, unit 12, energy): Q (impact-hours) is 2,147,483,648 (31); bits 24 to 31 of the mask have to be 0",
        ),
        (
            "kind bids market day-ahead component energy impact-hours none minimum-run-hours 25",
            "bids, Day-Ahead, unit 12, energy): R (minimum-run-hours) is 25; expected 0 to 24",
        ),
    ] {
        refused(
            10,
            &format!("event day 8000 unit 12 period 44 {text}"),
            &format!("event 0 (day 8000, {place}"),
        );
    }
    refused(
        10,
        "event day 1000001 kind withheld market day-ahead unit 12 period 0 impact 0",
        "event 0 (day 1000001, withheld, Day-Ahead, unit 12): day is 1,000,001; expected 0 to 1,000,000",
    );
}

#[test]
fn number_10_in_an_hour() {
    for (event, hour, place) in [
        (
            "kind withheld market day-ahead impact 0",
            "withheld 0 price $10000.01",
            "withheld, Day-Ahead, unit 12), hour 7: b (price) is 1,000,001 ($10,000.01); expected -1,000,000 (-$10,000.00) to 1,000,000 ($10,000.00)",
        ),
        (
            "kind withheld market day-ahead impact 0",
            "withheld 0 price 0 m 1",
            "withheld, Day-Ahead, unit 12), hour 7: m is 1; expected 0",
        ),
        (
            "kind dispatch market real-time impact 0",
            "undelivered 0 added-revenue $1000000.01",
            "dispatch, Real-Time, unit 12), hour 7: b (added-revenue) is 100,000,001 ($1,000,000.01); expected 0 ($0.00) to 100,000,000 ($1,000,000.00)",
        ),
        (
            "kind fuel market real-time inaccurate-hours none guarantee-change 0",
            "energy 5000.1 MWh price-change 0",
            "fuel, Real-Time, unit 12), hour 7: a (energy) is 50,001 (5,000.1 MWh); expected 0 (0.0 MWh) to 50,000 (5,000.0 MWh)",
        ),
        (
            "kind bids market day-ahead component energy impact-hours none",
            "bid -$10000.01 price 0 quantity 0",
            "bids, Day-Ahead, unit 12, energy), hour 7: a (bid) is -1,000,001 (-$10,000.01); expected -1,000,000 (-$10,000.00) to 1,000,000 ($10,000.00)",
        ),
        (
            "kind bids market day-ahead component reserve-or-regulation impact-hours none",
            "bid -$0.01",
            "bids, Day-Ahead, unit 12, reserve or regulation), hour 7: a (bid) is -1 (-$0.01); expected 0 ($0.00) to 1,000,000 ($10,000.00)",
        ),
        (
            "kind bids market day-ahead component minimum-parameter impact-hours none",
            "bid 1000000001",
            "bids, Day-Ahead, unit 12, minimum parameter), hour 7: a (bid) is 1,000,000,001; expected 0 to 1,000,000,000",
        ),
        (
            "kind bids market day-ahead component energy impact-hours none",
            "bid 0 price 0 quantity 5000.1 MW",
            "bids, Day-Ahead, unit 12, energy), hour 7: m (quantity) is 50,001 (5,000.1 MW); expected 0 (0.0 MW) to 50,000 (5,000.0 MW)",
        ),
    ] {
        refused(
            10,
            &format!("event day 8000 unit 12 period 44 {event}\nhour 7 {hour}"),
            &format!("event 0 (day 8000, {place}"),
        );
    }
}

#[test]
fn numbers_11_to_14() {
    let event = |unit: u16, rest: &str| {
        format!(
            "event day 8000 kind withheld market day-ahead unit {unit} period 44 impact 0\n{rest}\n"
        )
    };
    let rule = "events have to rise strictly by day, kind, market, unit, component";
    refused(
        11,
        &(event(12, "") + &event(12, "")),
        &format!("event 1 (day 8000, withheld, Day-Ahead, unit 12): the same as event 0; {rule}"),
    );
    refused(
        11,
        &(event(13, "") + &event(12, "")),
        &format!(
            "event 1 (day 8000, withheld, Day-Ahead, unit 12): unit is out of order after event 0 (day 8000, withheld, Day-Ahead, unit 13); {rule}"
        ),
    );
    refused(
        12,
        &event(99, ""),
        "event 0 (day 8000, withheld, Day-Ahead, unit 99): unit is 99; no unit of this number is listed",
    );
    refused(
        13,
        &(event(12, "hour 7 withheld 500.0 MW price 0")
            + &event(13, "hour 8 withheld 1500.1 price 0")),
        "event 1 (day 8000, withheld, Day-Ahead, unit 13), hour 8: a (withheld) is 15,001 (1,500.1 MW); expected at most the capability, 15,000 (1,500.0 MW)",
    );
    refused(
        14,
        "reference unit 13 component energy value $1.00\n\
         event day 8000 kind bids market day-ahead unit 12 period 44 component energy impact-hours none",
        "event 0 (day 8000, bids, Day-Ahead, unit 12, energy): the references have none for unit 12, component energy",
    );
}

#[test]
fn number_14_by_the_correction() {
    let case = written(&format!(
        "{UNITS}reference unit 12 component energy value $1.00\n\
         reference unit 12 component start-up-time value 1 minutes\n\
         event day 8000 kind bids market day-ahead unit 12 period 44 component energy impact-hours none\n\
         event day 8000 kind bids market day-ahead unit 12 period 44 component start-up-time impact-hours none"
    ));
    let text = "reference unit 13 component energy value $1.00";
    let correction = casetool_in_both(&["write", "--correction"], text.as_bytes()).output;
    let path = file_with("limits-14", &correction);
    let ran = casetool_in_both(&["check", "--correction", &path], &case);
    assert_eq!(
        text_of(&ran),
        "refused 14: an event of kind 4 has no reference r, or no correct reference c where its component reads one\n\
         event 0 (day 8000, bids, Day-Ahead, unit 12, energy): the correction has no reference for unit 12, component energy\n"
    );
}

#[test]
fn number_15() {
    for version in ["version 1", "version 2"] {
        let file = written(&format!(
            "{version}\n{UNITS}event day 1 kind withheld market day-ahead unit 12 period 0 impact 0"
        ));
        let refused = attachment_h::check(&file, &[], 127).expect_err("127 bytes are no row");
        assert_eq!(
            Refusal::of(refused, &file, &[], 127).to_string(),
            "refused 15: the rows buffer has fewer than 128 bytes for each event\n\
             the rows buffer: its length is 127 bytes; expected at least 128 for 1 event\n"
        );
    }
}
