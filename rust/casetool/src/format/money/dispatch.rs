//! The penalty of a dispatch event: docs/RULES.md, S8.

use attachment_h::{Multiplier, PenaltyWorking};

use super::Money;
use super::figures;
use super::names::{hour, impact_and_flags};
use super::step::{Row, Step, column};
use crate::format::json::Json;
use crate::text::amounts::{Measure, dollars, halves};

/// The section of the tariff that all of it is in.
const TARIFF: &str = "23.4.3.3.2";

/// The steps from the revenue of each hour to the penalty.
pub fn steps(money: &Money<'_>, working: &PenaltyWorking) -> Vec<Step> {
    let sum = Measure::Dollars.spoken(working.revenue);
    vec![
        added(money, working, &sum),
        Step {
            name: "Multiplier",
            tariff: TARIFF,
            words: "1.5 where the impact is 1 and an hour is flagged, otherwise 0",
            lines: vec![multiplier(money, working)],
        },
        Step {
            name: "Penalty",
            tariff: TARIFF,
            words: "multiplier × sum, to the nearest cent, a half upwards",
            lines: vec![penalty(working, &sum)],
        },
    ]
}

fn added(money: &Money<'_>, working: &PenaltyWorking, sum: &str) -> Step {
    let hours = money.flags.hours();
    let mut rows: Vec<Row> = hours
        .map(|number| Row::of(hour(number), Measure::Dollars.spoken(working.hours[number])))
        .collect();
    let lines = match rows.is_empty() {
        true => vec![format!("no hour is flagged: the sum is {sum}")],
        false => {
            rows.push(Row::of("sum", sum.to_string()));
            column(&rows)
        }
    };
    Step {
        name: "Sum",
        tariff: TARIFF,
        words: "the revenue that power not delivered added, over the flagged hours",
        lines,
    }
}

fn multiplier(money: &Money<'_>, working: &PenaltyWorking) -> String {
    let why = match (working.multiplier, money.impact()) {
        (Multiplier(0), 0) => ", since without impact there is no penalty",
        (Multiplier(0), _) => ", since no hour is flagged",
        _ => "",
    };
    let multiplier = halves(working.multiplier);
    let impact_and_flags = impact_and_flags(money.impact(), money.flags);
    format!("{impact_and_flags}: {multiplier}{why}")
}

fn penalty(working: &PenaltyWorking, sum: &str) -> String {
    let penalty = dollars(working.penalty);
    match working.multiplier {
        Multiplier(0) => format!("{penalty}: the multiplier is 0"),
        multiplier => {
            let multiplier = halves(multiplier);
            format!("{multiplier} × {sum}, to the nearest cent: {penalty}")
        }
    }
}

/// The figures for programs.
pub fn json(money: &Money<'_>, working: &PenaltyWorking) -> Json {
    let terms = money.flags.hours().map(|number| {
        let mut fields = vec![("hour", number.into())];
        let term = working.hours[number];
        fields.extend(figures::cents(["term_cents", "term_dollars"], term.into()));
        Json::Object(fields)
    });
    let mut fields = vec![
        ("impact", money.impact().into()),
        ("terms", terms.collect()),
    ];
    let sum = working.revenue.into();
    fields.extend(figures::cents(["sum_cents", "sum_dollars"], sum));
    fields.extend(figures::multiplier(working.multiplier));
    fields.extend(figures::penalty(working.penalty));
    Json::Object(fields)
}
