//! Bids by hand: r and c, mitigated hours, the make-up of energy hour by hour, and what a correction restored.

use crate::support::{casetool_in_both, file_with};
use crate::{example, sheet, works, works_with};

/// Event 3 of the example, with c, what is said of it, the term of each hour, the sum and the make-up.
fn event_3(c: &str, other: &str, note: &str, amounts: [&str; 3]) -> String {
    let [term, sum, make_up] = amounts;
    format!(
        "\
Event 3: day 8000 (26 November 2021), bids, Day-Ahead, unit 12, energy
  1. r (23.3.1.4): the reference level of the unit and component
       r = $20.00
  2. c (23.4.2.2.3): the reference level as it should have been: the correction's, without one the case's
       c = {c}, {other}
  3. Mitigated hours (23.4.2.2.1): the flagged hours whose impact test failed
       flagged 14–16; impact test failed 14–16: mitigated 14–16
  4. Sum (23.4.2.2.3): power × (the lesser of bid and c, less the price), over the mitigated hours; below 0 counts 0
       hour 14  100.0 MW × (the lesser of $130.00 and {c}, less $25.00) = {term}{note}
       hour 15  100.0 MW × (the lesser of $130.00 and {c}, less $25.00) = {term}{note}
       hour 16  100.0 MW × (the lesser of $130.00 and {c}, less $25.00) = {term}{note}
       sum                                                                   {sum}
  5. Make-up (23.4.2.2.3): where c is other than r the sum, to the nearest cent, a half upwards
       {make_up}
"
    )
}

const EVENT_4: &str = "\
Event 4: day 8000 (26 November 2021), bids, Day-Ahead, unit 13, minimum generation
  1. r (23.3.1.4): the reference level of the unit and component
       r = $30.00
  2. c (23.4.2.2.3): the reference level as it should have been: the correction's, without one the case's
       c = $30.00, which is r
  3. Mitigated hours (23.4.2.2.5.2): from the first flagged hour whose impact test failed to the last, or through the minimum run
       flagged 10; impact test failed 10; minimum run hours 8: mitigated 10–17
  4. Restored (23.4.2.2.3): where c is other than r, the mitigated hours whose bid passes its test with c: it is in force as bid
       restored: none, since c is r
       nothing is paid: energy alone has a make-up
";

const EVENT_5: &str = "\
Event 5: day 8000 (26 November 2021), bids, Real-Time, unit 13, energy
  1. r (23.3.1.4): the reference level of the unit and component
       r = $20.00
  2. c (23.4.2.2.3): the reference level as it should have been: the correction's, without one the case's
       c = $20.00, which is r
  3. Mitigated hours (23.4.2.2.1): the flagged hours whose impact test failed
       flagged 19; impact test failed 19: mitigated 19
  4. Sum (23.4.2.2.3): power × (the lesser of bid and c, less the price), over the mitigated hours; below 0 counts 0
       hour 19  100.0 MW × (the lesser of $28.77 and $20.00, less $25.00) = $0.000 (not above 0: it counts 0)
       sum                                                                  $0.000
  5. Make-up (23.4.2.2.3): where c is other than r the sum, to the nearest cent, a half upwards
       $0.00: c is r, so that nothing is due
";

#[test]
fn the_example() {
    let text = example("two-plants.txt");
    let nothing = "$0.00: c is r, so that nothing is due";
    let note = " (not above 0: it counts 0)";
    let without = event_3("$20.00", "which is r", note, ["$0.000", "$0.000", nothing]);
    works(&text, 3, &without);
    works(&text, 4, EVENT_4);
    works(&text, 5, EVENT_5);
    // 1,000 × 500 tenths of a cent an hour.
    let correction = file_with(
        "money.example",
        example("two-plants-correction.txt").as_bytes(),
    );
    let make_up = "$1,500.000, to the nearest cent: $1,500.00";
    let with = event_3(
        "$30.00",
        "other than r",
        "",
        ["  $500.000", "$1,500.000", make_up],
    );
    let options = ["--correction", correction.as_str()];
    works_with(&options, &text, 3, &with);
    works_with(&options, &text, 4, EVENT_4);
}

const R: &str = "r (23.3.1.4): the reference level of the unit and component";
const C: &str = "c (23.4.2.2.3): the reference level as it should have been: the correction's, without one the case's";
const MITIGATED: &str = "Mitigated hours (23.4.2.2.1): the flagged hours whose impact test failed";
const SPAN: &str = "Mitigated hours (23.4.2.2.5.2): from the first flagged hour whose impact test failed to the last, or through the minimum run";
const SUM: &str = "Sum (23.4.2.2.3): power × (the lesser of bid and c, less the price), over the mitigated hours; below 0 counts 0";
const MAKE_UP: &str =
    "Make-up (23.4.2.2.3): where c is other than r the sum, to the nearest cent, a half upwards";
const RESTORED: &str = "Restored (23.4.2.2.3): where c is other than r, the mitigated hours whose bid passes its test with c: it is in force as bid";
const NOTHING: &str = "Make-up (23.4.2.2.3): paid for energy alone; bids are restored for minimum generation and start-up cost";

/// Bids of unit 12 on day 8000, with their reference.
fn bids(market: &str, component: &str, reference: &str, rest: &str) -> String {
    format!(
        "unit 12 group 7 area no capability 500.0 MW\n\
         reference unit 12 component {component} value {reference}\n\
         event day 8000 kind bids market {market} unit 12 period 44 component {component} {rest}\n"
    )
}

/// The correction of one reference, as a file of this name.
fn correction(name: &str, component: &str, correct: &str) -> String {
    let text = format!("reference unit 12 component {component} value {correct}\n");
    file_with(&format!("money.{name}"), text.as_bytes())
}

/// That energy bids with hours of every sort, and a c of $90.00, have these mitigated hours, sum and make-up.
fn made_up(impact_hours: &str, mitigated: &str, sum: &[&str], make_up: &str) {
    let hours = "\
         hour 5 bid $85.00 price $84.95 quantity 0.1 MW\n\
         hour 6 bid $130.00 price $95.00 quantity 100.0 MW\n\
         hour 7 bid $130.00 price $25.00 quantity 0.0 MW\n\
         hour 8 bid $130.00 price -$10.00 quantity 10.0 MW\n\
         hour 9 bid $130.00 price $25.00 quantity 10.0 MW\n\
         hour 10 bid $80.00 price $25.00 quantity 10.0 MW";
    let rest = format!("impact-hours {impact_hours}\n{hours}");
    let text = bids("day-ahead", "energy", "$20.00", &rest);
    let path = correction("hours", "energy", "$90.00");
    let expected = sheet(
        "Event 0: day 8000 (26 November 2021), bids, Day-Ahead, unit 12, energy",
        &[
            (R, &["r = $20.00"]),
            (C, &["c = $90.00, other than r"]),
            (MITIGATED, &[mitigated]),
            (SUM, sum),
            (MAKE_UP, &[make_up]),
        ],
    );
    works_with(&["--correction", &path], &text, 0, &expected);
}

#[test]
fn a_make_up_hour_by_hour() {
    // 1 × 5 and 100 × 10,000 tenths of a cent.
    made_up(
        "5-8,10",
        "flagged 5–9; impact test failed 5–8, 10: mitigated 5–8",
        &[
            "hour 5    0.1 MW ×   (the lesser of $85.00 and $90.00, less $84.95) =     $0.005",
            "hour 6  100.0 MW ×  (the lesser of $130.00 and $90.00, less $95.00) =     $0.000 (not above 0: it counts 0)",
            "hour 7    0.0 MW ×  (the lesser of $130.00 and $90.00, less $25.00) =     $0.000",
            "hour 8   10.0 MW × (the lesser of $130.00 and $90.00, less -$10.00) = $1,000.000",
            "sum                                                                   $1,000.005",
        ],
        "$1,000.005, to the nearest cent: $1,000.01",
    );
    made_up(
        "none",
        "flagged 5–9; impact test failed none: mitigated none",
        &["no hour is mitigated: the sum is $0.000"],
        "$0.000, to the nearest cent: $0.00",
    );
}

/// That bids for minimum generation with this correct reference have these steps after r. Day-Ahead two hours from
/// hour 10 on are mitigated, in Real-Time none.
fn restores(market: &str, correct: &str, c: &str, mitigated: (&str, &str), restored: &str) {
    let rest = "impact-hours 10 minimum-run-hours 2\nhour 10 bid $150.00\nhour 11 bid $35.00";
    let rest = match market {
        "Day-Ahead" => rest.to_string(),
        _ => rest.replace("impact-hours 10", "impact-hours none"),
    };
    let text = bids(market, "minimum-generation", "$30.00", &rest);
    let path = correction("restored", "minimum-generation", correct);
    let paid = "nothing is paid: energy alone has a make-up";
    let expected = sheet(
        &format!(
            "Event 0: day 8000 (26 November 2021), bids, {market}, unit 12, minimum generation"
        ),
        &[
            (R, &["r = $30.00"]),
            (C, &[c]),
            (mitigated.0, &[mitigated.1]),
            (RESTORED, &[restored, paid]),
        ],
    );
    works_with(&["--correction", &path], &text, 0, &expected);
}

#[test]
fn restored_for_minimum_generation() {
    let span = (
        SPAN,
        "flagged 10; impact test failed 10; minimum run hours 2: mitigated 10–11",
    );
    // With c of $40.00 in place of r hour 10 fails, by $110.00 over $100.00.
    for (correct, c, restored) in [
        (
            "$100.00",
            "c = $100.00, other than r",
            "restored: hours 10–11",
        ),
        ("$40.00", "c = $40.00, other than r", "restored: hour 11"),
        (
            "$30.00",
            "c = $30.00, which is r",
            "restored: none, since c is r",
        ),
    ] {
        restores("Day-Ahead", correct, c, span, restored);
    }
    restores(
        "Real-Time",
        "$100.00",
        "c = $100.00, other than r",
        (
            MITIGATED,
            "flagged 10; impact test failed none: mitigated none",
        ),
        "restored: none, since no hour is mitigated",
    );
}

#[test]
fn restored_for_start_up_costs() {
    for (bid, restored) in [
        ("$303.00", "restored: hour 10"),
        (
            "$303.01",
            "restored: none, since no bid of a mitigated hour passes with c",
        ),
    ] {
        let rest = format!("impact-hours 9-10\nhour 10 bid {bid}");
        let text = bids("real-time", "start-up-cost", "$100.00", &rest);
        let path = correction("start-up", "start-up-cost", "$101.00");
        let expected = sheet(
            "Event 0: day 8000 (26 November 2021), bids, Real-Time, unit 12, start-up cost",
            &[
                (R, &["r = $100.00"]),
                (C, &["c = $101.00, other than r"]),
                (
                    MITIGATED,
                    &["flagged 10; impact test failed 9–10: mitigated 10"],
                ),
                (
                    RESTORED,
                    &[restored, "nothing is paid: energy alone has a make-up"],
                ),
            ],
        );
        works_with(&["--correction", &path], &text, 0, &expected);
    }
}

/// That nothing is due for bids of a component, with a correction or without.
fn nothing_due(component: &str, reference: &str, name: &str, hours: &str) {
    let rest = format!("impact-hours 10\n{hours}");
    let text = bids("day-ahead", component, &reference.replace(',', ""), &rest);
    let path = correction("nothing", component, "2000");
    let expected = sheet(
        &format!("Event 0: day 8000 (26 November 2021), bids, Day-Ahead, unit 12, {name}"),
        &[
            (R, &[&format!("r = {reference}")]),
            (C, &[&format!("not read for {name}")]),
            (
                MITIGATED,
                &["flagged 0–23; impact test failed 10: mitigated 10"],
            ),
            (
                NOTHING,
                &[&format!("{name}: nothing is paid, and no bid is restored")],
            ),
        ],
    );
    works(&text, 0, &expected);
    works_with(&["--correction", &path], &text, 0, &expected);
}

#[test]
fn components_for_which_nothing_is_due() {
    for (component, reference, name) in [
        ("reserve-or-regulation", "$10.00", "reserve or regulation"),
        ("start-up-time", "1,060 minutes", "start-up time"),
        ("minimum-run-time", "60 minutes", "minimum run time"),
        ("minimum-down-time", "60 minutes", "minimum down time"),
        ("minimum-parameter", "1,000", "minimum parameter"),
    ] {
        nothing_due(component, reference, name, "hours 0-23 bid 5000");
    }
    let hours = "hours 0-23 bid 400";
    nothing_due("maximum-parameter", "1,000", "maximum parameter", hours);
}

#[test]
fn a_correction_that_lacks_a_reference_is_refused() {
    let path = correction("lacks", "start-up-cost", "$100.00");
    let arguments = ["working", "--event", "0", "--correction", &path];
    let text = bids("real-time", "energy", "$20.00", "impact-hours none");
    let ran = casetool_in_both(&arguments, text.as_bytes());
    assert_eq!((ran.status, ran.output.len()), (1, 0));
    assert!(
        ran.errors.starts_with("casetool: refused 14: "),
        "{}",
        ran.errors
    );
}
