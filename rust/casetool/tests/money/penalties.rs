//! Withheld and dispatch events by hand: the ladder, what N3 and N2 counted, terms hour by hour, and why there is no penalty.

use crate::{example, sheet, works};

const EVENT_0: &str = "\
Event 0: day 8000 (26 November 2021), withheld, Day-Ahead, unit 12
  1. Instance (23.4.3.4): a withheld event with impact 1 and a flagged hour
       impact 1, flagged hours 0, 5–7: an instance
  2. N3 (23.4.3.4.2, 23.4.3.4.3): instances of its group and market so far, in its own period and the two before
       event 0, this one: day 8000 (26 November 2021), unit 12, group 7, period 44
       past entry 0: day 7800 (10 May 2021), group 7, period 43
       N3 = 2
  3. N2 (23.4.3.4.4): those of them in its own period and the one before
       event 0, this one: day 8000 (26 November 2021), unit 12, group 7, period 44
       past entry 0: day 7800 (10 May 2021), group 7, period 43
       N2 = 2
  4. Multiplier (23.4.3.4.1 to 23.4.3.4.4): 3 where N2 is 4 or more, otherwise 2 where N3 is 3 or more, otherwise 1
       N2 is 2, below 4; N3 is 2, below 3: 1
  5. Sum (23.4.3.3.1): power withheld × price, over the flagged hours; a negative price counts 0
       hour 0   50.1 MW × $40.00 =  $2,004.000
       hour 5  120.0 MW × $55.50 =  $6,660.000
       hour 6  120.0 MW × $55.50 =  $6,660.000
       hour 7  120.0 MW × $55.50 =  $6,660.000
       sum                         $21,984.000
  6. Penalty (23.4.3.3.1): multiplier × sum, to the nearest cent, a half upwards
       1 × $21,984.000, to the nearest cent: $21,984.00
";

const EVENT_1: &str = "\
Event 1: day 8000 (26 November 2021), dispatch, Real-Time, unit 13
  1. Sum (23.4.3.3.2): the revenue that power not delivered added, over the flagged hours
       hour 18  $1,500.00
       sum      $1,500.00
  2. Multiplier (23.4.3.3.2): 1.5 where the impact is 1 and an hour is flagged, otherwise 0
       impact 1, flagged hours 18: 1.5
  3. Penalty (23.4.3.3.2): multiplier × sum, to the nearest cent, a half upwards
       1.5 × $1,500.00, to the nearest cent: $2,250.00
";

#[test]
fn the_example() {
    let text = example("two-plants.txt");
    works(&text, 0, EVENT_0);
    works(&text, 1, EVENT_1);
}

const INSTANCE: &str = "Instance (23.4.3.4): a withheld event with impact 1 and a flagged hour";
const N3: &str = "N3 (23.4.3.4.2, 23.4.3.4.3): instances of its group and market so far, in its own period and the two before";
const N2: &str = "N2 (23.4.3.4.4): those of them in its own period and the one before";
const MULTIPLIER: &str = "Multiplier (23.4.3.4.1 to 23.4.3.4.4): 3 where N2 is 4 or more, otherwise 2 where N3 is 3 or more, otherwise 1";
const SUM: &str =
    "Sum (23.4.3.3.1): power withheld × price, over the flagged hours; a negative price counts 0";
const PENALTY: &str = "Penalty (23.4.3.3.1): multiplier × sum, to the nearest cent, a half upwards";

const UNITS: &str = "unit 12 group 7 area no capability 500.0 MW response-rate 10.0 MW/min\n\
                     unit 13 group 7 area no capability 500.0 MW response-rate 10.0 MW/min\n";

/// Three instances of unit 12 after one another, an event of unit 13 without impact, and past entries: the first two count,
/// the second for N2 too; the others are of a period that is too long ago, of the other market, of another group and of
/// another kind.
const LADDER: &str = "\
past group 7 kind withheld market real-time period 42 day 7700
past group 7 kind withheld market real-time period 43 day 7800
past group 7 kind withheld market real-time period 41 day 7500
past group 7 kind withheld market day-ahead period 43 day 7800
past group 8 kind withheld market real-time period 43 day 7800
past group 7 kind fuel market real-time period 43 day 7800
event day 8000 kind withheld market real-time unit 12 period 44 impact 1
  hour 0 withheld 50.1 MW price $40.00
event day 8000 kind withheld market real-time unit 13 period 44 impact 0
  hour 0 withheld 50.1 MW price $40.00
event day 8001 kind withheld market real-time unit 12 period 44 impact 1
  hour 3 withheld 50.1 MW price $40.05
  hour 10 withheld 60.0 MW price -$5.00
  hour 11 withheld 50.0 MW price $1.00
  hour 12 withheld 60.0 MW price $0.00
event day 8002 kind withheld market real-time unit 12 period 44 impact 1
  hour 3 withheld 50.1 MW price $40.05
";

/// Event 2 or 3 of the ladder as the one that counts.
fn own(number: usize) -> String {
    let (day, date) = (8000 + number - 1, 26 + number - 1);
    format!(
        "event {number}, this one: day {day} ({date} November 2021), unit 12, group 7, period 44"
    )
}

const EARLIER: [&str; 2] = [
    "event 0: day 8000 (26 November 2021), unit 12, group 7, period 44",
    "event 2: day 8001 (27 November 2021), unit 12, group 7, period 44",
];
const PAST: [&str; 2] = [
    "past entry 0: day 7700 (30 January 2021), group 7, period 42",
    "past entry 1: day 7800 (10 May 2021), group 7, period 43",
];

#[test]
fn an_instance_that_counts_over_three_periods() {
    let own = own(2);
    let ([event_0, _], [past_0, past_1]) = (EARLIER, PAST);
    // 501 × 4,005 tenths of a cent.
    let sum = [
        "hour 3   50.1 MW × $40.05 = $2,006.505",
        "hour 10  60.0 MW × -$5.00 =     $0.000 (a negative price counts 0)",
        "hour 12  60.0 MW ×  $0.00 =     $0.000",
        "sum                         $2,006.505",
    ];
    works(
        &format!("{UNITS}{LADDER}"),
        2,
        &sheet(
            "Event 2: day 8001 (27 November 2021), withheld, Real-Time, unit 12",
            &[
                (
                    INSTANCE,
                    &["impact 1, flagged hours 3, 10, 12: an instance"],
                ),
                (N3, &[&own, event_0, past_0, past_1, "N3 = 4"]),
                (N2, &[&own, event_0, past_1, "N2 = 3"]),
                (MULTIPLIER, &["N2 is 3, below 4; N3 is 4, 3 or more: 2"]),
                (SUM, &sum),
                (PENALTY, &["2 × $2,006.505, to the nearest cent: $4,013.01"]),
            ],
        ),
    );
}

#[test]
fn an_instance_that_counts_four_over_two_periods() {
    let own = own(3);
    let ([event_0, event_2], [past_0, past_1]) = (EARLIER, PAST);
    let sum = [
        "hour 3  50.1 MW × $40.05 = $2,006.505",
        "sum                        $2,006.505",
    ];
    // $6,019.515 is rounded upwards.
    works(
        &format!("{UNITS}{LADDER}"),
        3,
        &sheet(
            "Event 3: day 8002 (28 November 2021), withheld, Real-Time, unit 12",
            &[
                (INSTANCE, &["impact 1, flagged hours 3: an instance"]),
                (N3, &[&own, event_0, event_2, past_0, past_1, "N3 = 5"]),
                (N2, &[&own, event_0, event_2, past_1, "N2 = 4"]),
                (MULTIPLIER, &["N2 is 4, 4 or more: 3"]),
                (SUM, &sum),
                (PENALTY, &["3 × $2,006.505, to the nearest cent: $6,019.52"]),
            ],
        ),
    );
}

/// That an event is no instance, with its impact and its flagged hours, and what their sum is.
fn no_instance(text: &str, event: usize, heading: &str, instance: &str, sum: &[&str]) {
    let expected = sheet(
        heading,
        &[
            (INSTANCE, &[instance]),
            (N3, &["N3 = 0: it is no instance"]),
            (N2, &["N2 = 0: it is no instance"]),
            (MULTIPLIER, &["0: it is no instance"]),
            (SUM, sum),
            (PENALTY, &["$0.00: it is no instance"]),
        ],
    );
    works(text, event, &expected);
}

#[test]
fn without_impact_or_without_a_flagged_hour() {
    no_instance(
        &format!("{UNITS}{LADDER}"),
        1,
        "Event 1: day 8000 (26 November 2021), withheld, Real-Time, unit 13",
        "impact 0, flagged hours 0: no instance",
        &[
            "hour 0  50.1 MW × $40.00 = $2,004.000",
            "sum                        $2,004.000",
        ],
    );
    let event = "event day 8000 kind withheld market day-ahead unit 13 period 44 impact 1\n\
                 hour 0 withheld 50.0 MW price $40.00\n";
    no_instance(
        &format!("{UNITS}{event}"),
        0,
        "Event 0: day 8000 (26 November 2021), withheld, Day-Ahead, unit 13",
        "impact 1, flagged hours none: no instance",
        &["no hour is flagged: the sum is $0.000"],
    );
}

const REVENUE: &str =
    "Sum (23.4.3.3.2): the revenue that power not delivered added, over the flagged hours";
const HALVES: &str =
    "Multiplier (23.4.3.3.2): 1.5 where the impact is 1 and an hour is flagged, otherwise 0";
const FINE: &str = "Penalty (23.4.3.3.2): multiplier × sum, to the nearest cent, a half upwards";

/// A dispatch event of unit 12, whose line is 100.0 MW: revenue in hours 3, 4 and 10, the last two perhaps over it.
fn dispatch(impact: &str, over: &str) -> String {
    format!(
        "{UNITS}event day 8000 kind dispatch market real-time unit 12 period 44 impact {impact}\n\
         hour 3 undelivered 100.0 MW added-revenue $100.00\n\
         hour 4 undelivered {over} added-revenue $0.00\n\
         hour 10 undelivered {over} added-revenue $1,000.01\n"
    )
}

/// That a dispatch event has this sum, multiplier and penalty.
fn dispatched(text: &str, sum: &[&str], multiplier: &str, penalty: &str) {
    let expected = sheet(
        "Event 0: day 8000 (26 November 2021), dispatch, Real-Time, unit 12",
        &[(REVENUE, sum), (HALVES, &[multiplier]), (FINE, &[penalty])],
    );
    works(text, 0, &expected);
}

#[test]
fn dispatch_by_its_impact_and_its_flags() {
    let flagged = [
        "hour 4       $0.00",
        "hour 10  $1,000.01",
        "sum      $1,000.01",
    ];
    // $1,500.015 is rounded upwards.
    dispatched(
        &dispatch("yes", "100.1 MW"),
        &flagged,
        "impact 1, flagged hours 4, 10: 1.5",
        "1.5 × $1,000.01, to the nearest cent: $1,500.02",
    );
    let zero = "$0.00: the multiplier is 0";
    dispatched(
        &dispatch("no", "100.1 MW"),
        &flagged,
        "impact 0, flagged hours 4, 10: 0, since without impact there is no penalty",
        zero,
    );
    let none = ["no hour is flagged: the sum is $0.00"];
    dispatched(
        &dispatch("yes", "1 MW"),
        &none,
        "impact 1, flagged hours none: 0, since no hour is flagged",
        zero,
    );
    dispatched(
        &dispatch("no", "1 MW"),
        &none,
        "impact 0, flagged hours none: 0, since without impact there is no penalty",
        zero,
    );
}
