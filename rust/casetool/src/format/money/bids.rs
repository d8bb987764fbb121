//! The make-up payment of bids, or which of them a correction restored: docs/RULES.md, D1 to D8.

use attachment_h::layout::u32_at;
use attachment_h::{Component, MakeUpWorking, Market, Mask};

use super::Money;
use super::figures;
use super::names::{factors, hour, spoken};
use super::step::{Row, Step, column};
use crate::format::json::Json;
use crate::format::rows::{hours_of, measure_name};
use crate::record::fields::measure_of;
use crate::text::amounts::{Measure, Signed, dollars, tenths};
use crate::text::{hours, words};

/// The section on references that were wrong.
const WRONG_REFERENCES: &str = "23.4.2.2.3";

/// What a correct reference gives a component.
#[derive(Clone, Copy, PartialEq, Eq)]
enum Redress {
    /// A make-up payment.
    Paid,
    /// Bids that are in force again.
    Restored,
    /// Nothing.
    Nothing,
}

fn redress(component: Component) -> Redress {
    match component {
        Component::ENERGY => Redress::Paid,
        Component::MINIMUM_GENERATION | Component::START_UP_COST => Redress::Restored,
        _ => Redress::Nothing,
    }
}

/// The steps from the references to what is paid or restored.
pub fn steps(money: &Money<'_>, working: &MakeUpWorking) -> Vec<Step> {
    let component = money.event.component;
    let mut steps = references(component, working);
    steps.push(mitigated(money, working));
    match redress(component) {
        Redress::Paid => steps.extend([sum(money, working), make_up(working)]),
        Redress::Restored => steps.push(restored(working)),
        Redress::Nothing => steps.push(Step {
            name: "Make-up",
            tariff: WRONG_REFERENCES,
            words: "paid for energy alone; bids are restored for minimum generation and start-up cost",
            lines: vec![format!(
                "{}: nothing is paid, and no bid is restored",
                words::component(component)
            )],
        }),
    }
    steps
}

fn references(component: Component, working: &MakeUpWorking) -> Vec<Step> {
    let amount = |value: u32| measure_of(component).spoken(u64::from(value));
    let correct = match redress(component) {
        Redress::Nothing => format!("not read for {}", words::component(component)),
        _ if is_r(working) => format!("c = {}, which is r", amount(working.correct)),
        _ => format!("c = {}, other than r", amount(working.correct)),
    };
    vec![
        Step {
            name: "r",
            tariff: "23.3.1.4",
            words: "the reference level of the unit and component",
            lines: vec![format!("r = {}", amount(working.reference))],
        },
        Step {
            name: "c",
            tariff: WRONG_REFERENCES,
            words: "the reference level as it should have been: the correction's, without one the case's",
            lines: vec![correct],
        },
    ]
}

/// Whether c is r, so that nothing is due.
fn is_r(working: &MakeUpWorking) -> bool {
    working.correct == working.reference
}

fn mitigated(money: &Money<'_>, working: &MakeUpWorking) -> Step {
    let record = money.event.record;
    let failed = hours::spoken(u32_at(record, 16));
    let flagged = hours::spoken(money.flags.0);
    let mitigated = hours::spoken(working.mitigated.0);
    let spans = money.event.component == Component::MINIMUM_GENERATION
        && money.event.market == Market::DAY_AHEAD;
    let (tariff, words, run) = match spans {
        true => (
            "23.4.2.2.5.2",
            "from the first flagged hour whose impact test failed to the last, or through the minimum run",
            format!("; minimum run hours {}", u32_at(record, 20)),
        ),
        false => (
            "23.4.2.2.1",
            "the flagged hours whose impact test failed",
            String::new(),
        ),
    };
    Step {
        name: "Mitigated hours",
        tariff,
        words,
        lines: vec![format!(
            "flagged {flagged}; impact test failed {failed}{run}: mitigated {mitigated}"
        )],
    }
}

fn sum(money: &Money<'_>, working: &MakeUpWorking) -> Step {
    let sum = tenths(working.tenths);
    let correct = Measure::Dollars.spoken(u64::from(working.correct));
    let mut rows: Vec<Row> = working
        .mitigated
        .hours()
        .map(|number| {
            let [bid, price, power] = factors(&money.event, number);
            let (term, some) = (working.hours[number], power.1 > 0);
            let [bid, price] = [bid, price].map(spoken);
            let less = format!("(the lesser of {bid} and {correct}, less {price})");
            Row {
                label: hour(number),
                factors: Some([spoken(power), less]),
                amount: tenths(term),
                note: match term {
                    0 if some => " (not above 0: it counts 0)",
                    _ => "",
                },
            }
        })
        .collect();
    let lines = match rows.is_empty() {
        true => vec![format!("no hour is mitigated: the sum is {sum}")],
        false => {
            rows.push(Row::of("sum", sum));
            column(&rows)
        }
    };
    Step {
        name: "Sum",
        tariff: WRONG_REFERENCES,
        words: "power × (the lesser of bid and c, less the price), over the mitigated hours; below 0 counts 0",
        lines,
    }
}

fn make_up(working: &MakeUpWorking) -> Step {
    let make_up = dollars(working.make_up);
    let line = match is_r(working) {
        true => format!("{make_up}: c is r, so that nothing is due"),
        false => format!("{}, to the nearest cent: {make_up}", tenths(working.tenths)),
    };
    Step {
        name: "Make-up",
        tariff: WRONG_REFERENCES,
        words: "where c is other than r the sum, to the nearest cent, a half upwards",
        lines: vec![line],
    }
}

fn restored(working: &MakeUpWorking) -> Step {
    let hours = match working.restored {
        Mask(0) if working.mitigated == Mask(0) => "none, since no hour is mitigated".to_string(),
        Mask(0) if is_r(working) => "none, since c is r".to_string(),
        Mask(0) => "none, since no bid of a mitigated hour passes with c".to_string(),
        Mask(mask) => hours::named(mask),
    };
    Step {
        name: "Restored",
        tariff: WRONG_REFERENCES,
        words: "where c is other than r, the mitigated hours whose bid passes its test with c: it is in force as bid",
        lines: vec![
            format!("restored: {hours}"),
            "nothing is paid: energy alone has a make-up".to_string(),
        ],
    }
}

/// The figures for programs.
pub fn json(money: &Money<'_>, working: &MakeUpWorking) -> Json {
    let component = money.event.component;
    let is_paid = redress(component) == Redress::Paid;
    let is_read = redress(component) != Redress::Nothing;
    let measure = measure_of(component);
    let in_dollars = |value: u32| {
        let decimal = measure.decimal(u64::from(value));
        Some(decimal).filter(|_| measure == Measure::Dollars)
    };
    let correct = Some(working.correct).filter(|_| is_read);
    let paid_hours = working.mitigated.hours().filter(|_| is_paid);
    let terms = paid_hours.map(|number| term_json(money, working, number));
    let mut fields = vec![
        ("measure", measure_name(measure).into()),
        ("reference", working.reference.into()),
        ("reference_dollars", in_dollars(working.reference).into()),
        ("correct", correct.into()),
        ("correct_dollars", correct.and_then(in_dollars).into()),
        ("mitigated_hours", hours_of(working.mitigated)),
        ("restored_hours", hours_of(working.restored)),
        ("terms", terms.collect()),
    ];
    fields.extend(figures::tenths(
        ["sum", "sum_dollars"],
        working.tenths.into(),
    ));
    let make_up: Signed = working.make_up.0.into();
    fields.extend(figures::cents(
        ["make_up_cents", "make_up_dollars"],
        make_up,
    ));
    Json::Object(fields)
}

fn term_json(money: &Money<'_>, working: &MakeUpWorking, number: usize) -> Json {
    let [bid, price, power] = factors(&money.event, number);
    let mut fields = vec![
        ("hour", number.into()),
        ("m", power.1.into()),
        ("a", bid.1.into()),
        ("b", price.1.into()),
    ];
    let term = working.hours[number];
    fields.extend(figures::tenths(["term", "term_dollars"], term.into()));
    Json::Object(fields)
}
