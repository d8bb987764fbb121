//! Fuel events by hand: the events of a party-day, E with its sign, T, M, X and the line of $5,000.

use attachment_h::fuel_day_counts;
use casetool::text::calendar::day_of;

use crate::{casetool_in_both, example, sheet, works};

const EVENT_2: &str = "\
Event 2: day 8000 (26 November 2021), fuel, Day-Ahead, unit 12
  1. Party-day (23.4.3.3.3): fuel events of one group, day and market count together, in the hours that any of them has
       event 2, this one: day 8000 (26 November 2021), unit 12, group 7, period 44
       inaccurate data and a failed impact test in hours 8–9
  2. E (23.4.3.3.3): changes of guarantee payments (Q), and energy × change of price in these hours, added
       event 2, unit 12
         Q                            $4,000.00
         hour 8  100.0 MWh × $15.00 = $1,500.000
         hour 9  100.0 MWh × $15.00 = $1,500.000
       E                              $7,000.000
  3. T (23.4.3.3.3): changes of TCC revenue (R), added; a sum below 0 counts 0
       event 2, unit 12  $200.00
       T                 $200.00
  4. M (23.4.3.3.3): 1.5 where the group had a fuel penalty in the six months before, from the same day of the month on, in either market, otherwise 1
       M = 1.5: it had one in the six months before 26 November 2021
  5. X (23.4.3.3.3): M × E + T
       1.5 × $7,000.000 + $200.00 = $10,700.0000
  6. Cut (23.4.3.3.3): where X, not yet rounded, is below $5,000 there is no penalty
       $10,700.0000 is not below $5,000
  7. Penalty (23.4.3.3.3): X, to the nearest cent, a half upwards; the row of the party-day's lowest unit has it
       $10,700.0000, to the nearest cent: $10,700.00, on the row of event 2, unit 12
";

#[test]
fn the_example() {
    works(&example("two-plants.txt"), 2, EVENT_2);
}

const DAY: &str = "Party-day (23.4.3.3.3): fuel events of one group, day and market count together, in the hours that any of them has";
const E: &str = "E (23.4.3.3.3): changes of guarantee payments (Q), and energy × change of price in these hours, added";
const T: &str = "T (23.4.3.3.3): changes of TCC revenue (R), added; a sum below 0 counts 0";
const M: &str = "M (23.4.3.3.3): 1.5 where the group had a fuel penalty in the six months before, from the same day of the month on, in either market, otherwise 1";
const X: &str = "X (23.4.3.3.3): M × E + T";
const CUT: &str = "Cut (23.4.3.3.3): where X, not yet rounded, is below $5,000 there is no penalty";
const PENALTY: &str = "Penalty (23.4.3.3.3): X, to the nearest cent, a half upwards; the row of the party-day's lowest unit has it";

const UNITS: &str = "unit 12 group 7 capability 500.0 MW\n\
                     unit 13 group 7 capability 500.0 MW\n\
                     unit 14 group 8 capability 500.0 MW\n";

/// An event of day 8000.
fn fuel(unit: u8, market: &str, hours: &str, changes: &str, cells: &str) -> String {
    format!(
        "event day 8000 kind fuel market {market} unit {unit} period 44 inaccurate-hours {hours} {changes}\n{cells}\n"
    )
}

/// What an event of day 8000 is known by.
fn described(unit: u8, group: u8) -> String {
    format!("day 8000 (26 November 2021), unit {unit}, group {group}, period 44")
}

const NO_PENALTY_BEFORE: &str = "M = 1: it had none in the six months before 26 November 2021";
const NO_HOUR: &str =
    "no hour has inaccurate data and a failed impact test: of E the Q alone are left";

/// Units 12 and 13 of group 7, whose hours count for both; hour 10 is of none.
fn two_of_a_group() -> String {
    [
        UNITS.to_string(),
        fuel(
            12,
            "day-ahead",
            "8",
            "guarantee-change $4,000.00 tcc-change $200.00",
            "hour 8 energy 100.0 MWh price-change $15.00\n\
             hour 9 energy 10.1 MWh price-change -$2.50\n\
             hour 10 energy 50.0 MWh price-change $99.00",
        ),
        fuel(
            13,
            "day-ahead",
            "9",
            "guarantee-change -$100.00 tcc-change -$50.00",
            "hour 9 energy 33.3 MWh price-change $7.77",
        ),
        fuel(
            14,
            "day-ahead",
            "none",
            "guarantee-change -$9,000.00 tcc-change -$1.00",
            "",
        ),
        fuel(13, "real-time", "none", "guarantee-change $1.00", ""),
    ]
    .concat()
}

/// The steps of the party-day of units 12 and 13, worked for one of its events.
fn group_7(heading: &str, days: [&str; 2], penalty: &[&str]) -> String {
    let hours = "inaccurate data and a failed impact test in hours 8–9";
    sheet(
        heading,
        &[
            (DAY, &[days[0], days[1], hours]),
            (
                E,
                // 1,000 × 1,500, 101 × -250 and 333 × 777 tenths of a cent.
                &[
                    "event 0, unit 12",
                    "  Q                            $4,000.00",
                    "  hour 8  100.0 MWh × $15.00 = $1,500.000",
                    "  hour 9   10.1 MWh × -$2.50 =   -$25.250",
                    "event 1, unit 13",
                    "  Q                             -$100.00",
                    "  hour 8    0.0 MWh ×  $0.00 =     $0.000",
                    "  hour 9   33.3 MWh ×  $7.77 =   $258.741",
                    "E                              $5,633.491",
                ],
            ),
            (
                T,
                &[
                    "event 0, unit 12  $200.00",
                    "event 1, unit 13  -$50.00",
                    "T                 $150.00",
                ],
            ),
            (M, &[NO_PENALTY_BEFORE]),
            (X, &["1 × $5,633.491 + $150.00 = $5,783.4910"]),
            (CUT, &["$5,783.4910 is not below $5,000"]),
            (PENALTY, penalty),
        ],
    )
}

#[test]
fn two_events_of_a_party_day() {
    let text = two_of_a_group();
    let (first, second) = (described(12, 7), described(13, 7));
    let penalty = "$5,783.4910, to the nearest cent: $5,783.49, on the row of event 0, unit 12";
    let days = [
        format!("event 0, this one: {first}"),
        format!("event 1: {second}"),
    ];
    let expected = group_7(
        "Event 0: day 8000 (26 November 2021), fuel, Day-Ahead, unit 12",
        [&days[0], &days[1]],
        &[penalty],
    );
    works(&text, 0, &expected);
    let days = [
        format!("event 0: {first}"),
        format!("event 1, this one: {second}"),
    ];
    let expected = group_7(
        "Event 1: day 8000 (26 November 2021), fuel, Day-Ahead, unit 13",
        [&days[0], &days[1]],
        &[penalty, "the row of event 1, this one, has none"],
    );
    works(&text, 1, &expected);
}

#[test]
fn another_group() {
    let day = format!("event 2, this one: {}", described(14, 8));
    let e = ["event 2, unit 14", "  Q  -$9,000.00", "E    -$9,000.000"];
    let t = [
        "event 2, unit 14  -$1.00",
        "T                  $0.00 (added, they are not above 0)",
    ];
    let penalty = "$0.00, since X is below $5,000, on the row of event 2, unit 14";
    works(
        &two_of_a_group(),
        2,
        &sheet(
            "Event 2: day 8000 (26 November 2021), fuel, Day-Ahead, unit 14",
            &[
                (DAY, &[&day, NO_HOUR]),
                (E, &e),
                (T, &t),
                (M, &[NO_PENALTY_BEFORE]),
                (X, &["1 × -$9,000.000 + $0.00 is not above 0: X = $0.0000"]),
                (CUT, &["$0.0000 is below $5,000: there is no penalty"]),
                (PENALTY, &[penalty]),
            ],
        ),
    );
}

#[test]
fn the_other_market() {
    let day = format!("event 3, this one: {}", described(13, 7));
    let penalty = "$0.00, since X is below $5,000, on the row of event 3, unit 13";
    works(
        &two_of_a_group(),
        3,
        &sheet(
            "Event 3: day 8000 (26 November 2021), fuel, Real-Time, unit 13",
            &[
                (DAY, &[&day, NO_HOUR]),
                (E, &["event 3, unit 13", "  Q  $1.00", "E    $1.000"]),
                (T, &["T = $0.00: Real-Time has no TCC revenue"]),
                (M, &[NO_PENALTY_BEFORE]),
                (X, &["1 × $1.000 + $0.00 = $1.0000"]),
                (CUT, &["$1.0000 is below $5,000: there is no penalty"]),
                (PENALTY, &[penalty]),
            ],
        ),
    );
}

/// The last steps of a text's only event: X, the cut and the penalty.
fn ends(text: &str, x: &str, cut: &str, penalty: &str) {
    let ran = crate::casetool(&["working", "--event", "0"], text.as_bytes());
    assert_eq!((ran.status, ran.errors.as_str()), (0, ""));
    let steps = [(X, x), (CUT, cut), (PENALTY, penalty)];
    let lines = steps.iter().zip(5..);
    let expected: String = lines
        .map(|((sentence, line), number)| format!("  {number}. {sentence}\n       {line}\n"))
        .collect();
    assert!(ran.text().ends_with(&expected), "{}", ran.text());
}

#[test]
fn next_to_the_line() {
    let past = "past group 7 kind fuel market day-ahead period 43 day 7900\n";
    let event = |change: &str, cells: &str| {
        let change = format!("guarantee-change {change}");
        format!(
            "{UNITS}{past}{}",
            fuel(12, "real-time", "23", &change, cells)
        )
    };
    // A half of a tenth of a cent, and X at the line before it is rounded.
    ends(
        &event("$3,333.33", "hour 23 energy 0.1 MWh price-change $0.05"),
        "1.5 × $3,333.335 + $0.00 = $5,000.0025",
        "$5,000.0025 is not below $5,000",
        "$5,000.0025, to the nearest cent: $5,000.00, on the row of event 0, unit 12",
    );
    // $4,999.9950 would be rounded to the line.
    ends(
        &event("$3,333.33", ""),
        "1.5 × $3,333.330 + $0.00 = $4,999.9950",
        "$4,999.9950 is below $5,000: there is no penalty",
        "$0.00, since X is below $5,000, on the row of event 0, unit 12",
    );
    ends(
        &event("$0.00", ""),
        "1.5 × $0.000 + $0.00 = $0.0000",
        "$0.0000 is below $5,000: there is no penalty",
        "$0.00, since X is below $5,000, on the row of event 0, unit 12",
    );
}

/// M of an event of a date beside a past penalty of another, and what is said of it.
fn m_of(date: &str, earlier: &str, m: &str, said: &str) {
    let text = format!(
        "{UNITS}past group 7 kind fuel market real-time day {earlier}\n\
         event day {date} kind fuel market day-ahead unit 12 inaccurate-hours none guarantee-change 0 tcc-change 0\n"
    );
    let ran = casetool_in_both(&["working", "--event", "0"], text.as_bytes());
    assert_eq!((ran.status, ran.errors.as_str()), (0, ""));
    let expected = format!("\n  4. {M}\n       M = {m}: {said}\n");
    assert!(ran.text().contains(&expected), "{earlier}: {}", ran.text());
}

#[test]
fn six_months_by_the_calendar() {
    for (date, counts, does_not, spoken) in [
        ("2021-09-01", "2021-03-01", "2021-02-28", "1 September 2021"),
        ("2001-08-31", "2001-02-28", "2001-02-27", "31 August 2001"),
        ("2001-08-28", "2001-02-28", "2001-02-27", "28 August 2001"),
        ("2001-08-28", "2001-08-27", "2001-02-26", "28 August 2001"),
        ("2004-08-31", "2004-02-29", "2004-02-28", "31 August 2004"),
        ("2000-06-30", "2000-01-01", "2000-06-30", "30 June 2000"),
        ("2000-07-02", "2000-01-02", "2000-01-01", "2 July 2000"),
    ] {
        let before = format!("in the six months before {spoken}");
        m_of(date, counts, "1.5", &format!("it had one {before}"));
        m_of(date, does_not, "1", &format!("it had none {before}"));
        for (earlier, expected) in [(counts, true), (does_not, false)] {
            let [day, earlier] = [date, earlier].map(|date| day_of(date).expect("a date"));
            assert_eq!(fuel_day_counts(day, earlier), Ok(expected));
        }
    }
    // On day 0 there is no day before.
    m_of(
        "2000-01-01",
        "2000-01-01",
        "1",
        "it had none in the six months before 1 January 2000",
    );
}

#[test]
fn a_gain_in_tcc_revenue_over_a_loss() {
    let changes = "guarantee-change -$10,000.00 tcc-change $20,000.00";
    let text = format!("{UNITS}{}", fuel(14, "day-ahead", "none", changes, ""));
    ends(
        &text,
        "1 × -$10,000.000 + $20,000.00 = $10,000.0000",
        "$10,000.0000 is not below $5,000",
        "$10,000.0000, to the nearest cent: $10,000.00, on the row of event 0, unit 14",
    );
    ends(
        &text.replace("$20,000.00", "$10,000.00"),
        "1 × -$10,000.000 + $10,000.00 is not above 0: X = $0.0000",
        "$0.0000 is below $5,000: there is no penalty",
        "$0.00, since X is below $5,000, on the row of event 0, unit 14",
    );
}
