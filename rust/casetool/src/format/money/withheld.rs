//! The penalty of a withheld event: docs/RULES.md, S1 to S7.

use attachment_h::{Counted, Instances, Multiplier, PenaltyWorking};

use super::Money;
use super::figures;
use super::names::{self, NO_INSTANCE, factors, hour, impact_and_flags, spoken};
use super::step::{Row, Step, column};
use crate::format::json::Json;
use crate::text::amounts::{dollars, halves, tenths};

/// The steps from what makes an instance to the penalty.
pub fn steps(money: &Money<'_>, working: &PenaltyWorking, counted: &Instances) -> Vec<Step> {
    vec![
        instance(money, working),
        Step {
            name: "N3",
            tariff: "23.4.3.4.2, 23.4.3.4.3",
            words: "instances of its group and market so far, in its own period and the two before",
            lines: count(money, "N3", working.n3, &counted.three),
        },
        Step {
            name: "N2",
            tariff: "23.4.3.4.4",
            words: "those of them in its own period and the one before",
            lines: count(money, "N2", working.n2, &counted.two),
        },
        multiplier(working),
        sum(money, working),
        penalty(working),
    ]
}

fn is_instance(working: &PenaltyWorking) -> bool {
    working.multiplier != Multiplier(0)
}

fn instance(money: &Money<'_>, working: &PenaltyWorking) -> Step {
    let decided = match is_instance(working) {
        true => "an instance",
        false => "no instance",
    };
    let impact_and_flags = impact_and_flags(money.impact(), money.flags);
    Step {
        name: "Instance",
        tariff: "23.4.3.4",
        words: "a withheld event with impact 1 and a flagged hour",
        lines: vec![format!("{impact_and_flags}: {decided}")],
    }
}

/// The event itself and what it counted beside it; or why it counted nothing.
fn count(money: &Money<'_>, name: &str, figure: u16, counted: &Counted) -> Vec<String> {
    if figure == 0 {
        return vec![format!("{name} = 0: {NO_INSTANCE}")];
    }
    let (sections, own) = (&money.sections, money.number);
    let described = |number| names::described(sections, number);
    let mut lines = vec![format!("event {own}, this one: {}", described(own))];
    let events = counted.events.iter();
    lines.extend(events.map(|&number| format!("event {number}: {}", described(number))));
    let past = counted.past.iter();
    lines.extend(past.map(|&number| names::past_entry(sections, number)));
    lines.push(format!("{name} = {figure}"));
    lines
}

fn multiplier(working: &PenaltyWorking) -> Step {
    let (n3, n2) = (working.n3, working.n2);
    let why = match working.multiplier.0 {
        0 => format!("0: {NO_INSTANCE}"),
        6 => format!("N2 is {n2}, 4 or more: 3"),
        4 => format!("N2 is {n2}, below 4; N3 is {n3}, 3 or more: 2"),
        _ => format!("N2 is {n2}, below 4; N3 is {n3}, below 3: 1"),
    };
    Step {
        name: "Multiplier",
        tariff: "23.4.3.4.1 to 23.4.3.4.4",
        words: "3 where N2 is 4 or more, otherwise 2 where N3 is 3 or more, otherwise 1",
        lines: vec![why],
    }
}

fn sum(money: &Money<'_>, working: &PenaltyWorking) -> Step {
    let sum = tenths(working.amount);
    let mut rows: Vec<Row> = money
        .flags
        .hours()
        .map(|number| {
            let [power, price, _] = factors(&money.event, number);
            let note = match price.1 < 0 {
                true => " (a negative price counts 0)",
                false => "",
            };
            Row {
                label: hour(number),
                factors: Some([spoken(power), spoken(price)]),
                amount: tenths(working.hours[number]),
                note,
            }
        })
        .collect();
    let lines = match rows.is_empty() {
        true => vec![format!("no hour is flagged: the sum is {sum}")],
        false => {
            rows.push(Row::of("sum", sum));
            column(&rows)
        }
    };
    Step {
        name: "Sum",
        tariff: "23.4.3.3.1",
        words: "power withheld × price, over the flagged hours; a negative price counts 0",
        lines,
    }
}

fn penalty(working: &PenaltyWorking) -> Step {
    let penalty = dollars(working.penalty);
    let line = match is_instance(working) {
        true => {
            let (multiplier, sum) = (halves(working.multiplier), tenths(working.amount));
            format!("{multiplier} × {sum}, to the nearest cent: {penalty}")
        }
        false => format!("{penalty}: {NO_INSTANCE}"),
    };
    Step {
        name: "Penalty",
        tariff: "23.4.3.3.1",
        words: "multiplier × sum, to the nearest cent, a half upwards",
        lines: vec![line],
    }
}

/// The figures for programs.
pub fn json(money: &Money<'_>, working: &PenaltyWorking, counted: &Instances) -> Json {
    let terms = money.flags.hours().map(|number| {
        let [power, price, _] = factors(&money.event, number);
        let mut fields = vec![
            ("hour", number.into()),
            ("a", power.1.into()),
            ("b", price.1.into()),
        ];
        let term = working.hours[number];
        fields.extend(figures::tenths(["term", "term_dollars"], term.into()));
        Json::Object(fields)
    });
    let mut fields = vec![
        ("impact", money.impact().into()),
        ("instance", is_instance(working).into()),
        ("n3", working.n3.into()),
        ("n3_counted", figures::counted(&counted.three)),
        ("n2", working.n2.into()),
        ("n2_counted", figures::counted(&counted.two)),
    ];
    fields.extend(figures::multiplier(working.multiplier));
    fields.push(("terms", terms.collect()));
    fields.extend(figures::tenths(
        ["sum", "sum_dollars"],
        working.amount.into(),
    ));
    fields.extend(figures::penalty(working.penalty));
    Json::Object(fields)
}
