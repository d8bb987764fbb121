//! The penalty of a party-day, the fuel events of one group, day and market: docs/RULES.md, S9 to S16.

use attachment_h::layout::u32_at;
use attachment_h::{Market, Multiplier, PenaltyWorking};

use super::Money;
use super::figures;
use super::names::{self, factors, hour, spoken};
use super::step::{Row, Step, column};
use crate::format::json::Json;
use crate::record::event::Event;
use crate::text::amounts::{
    Measure, Signed, dollars, halves, tenths, twentieths, twentieths_decimal,
};
use crate::text::calendar::date;
use crate::text::hours;

/// The section of the tariff that all of it is in.
const TARIFF: &str = "23.4.3.3.3";

/// The events of a party-day, with their numbers and workings. What is of the party-day itself is the same in each.
type Day = [(usize, PenaltyWorking)];

fn step(name: &'static str, words: &'static str, lines: Vec<String>) -> Step {
    Step {
        name,
        tariff: TARIFF,
        words,
        lines,
    }
}

/// The steps from the events of the party-day to its penalty.
pub fn steps(money: &Money<'_>, of_day: &PenaltyWorking, day: &Day) -> Vec<Step> {
    vec![
        step(
            "Party-day",
            "fuel events of one group, day and market count together, in the hours that any of them has",
            events(money, day),
        ),
        step(
            "E",
            "changes of guarantee payments (Q), and energy × change of price in these hours, added",
            e_lines(money, day, of_day),
        ),
        step(
            "T",
            "changes of TCC revenue (R), added; a sum below 0 counts 0",
            t_lines(money, day, of_day),
        ),
        step(
            "M",
            "1.5 where the group had a fuel penalty in the six months before, from the same day of the month on, in either market, otherwise 1",
            vec![m_line(money, of_day)],
        ),
        step("X", "M × E + T", vec![x_line(of_day)]),
        step(
            "Cut",
            "where X, not yet rounded, is below $5,000 there is no penalty",
            vec![cut(of_day)],
        ),
        step(
            "Penalty",
            "X, to the nearest cent, a half upwards; the row of the party-day's lowest unit has it",
            penalty(money, of_day),
        ),
    ]
}

fn events(money: &Money<'_>, day: &Day) -> Vec<String> {
    let described = |(number, _): &(usize, PenaltyWorking)| {
        let this = match *number == money.number {
            true => ", this one",
            false => "",
        };
        let described = names::described(&money.sections, *number);
        format!("event {number}{this}: {described}")
    };
    let mut lines: Vec<String> = day.iter().map(described).collect();
    lines.push(match money.flags.0 {
        0 => "no hour has inaccurate data and a failed impact test: of E the Q alone are left"
            .to_string(),
        mask => {
            let hours = hours::named(mask);
            format!("inaccurate data and a failed impact test in {hours}")
        }
    });
    lines
}

/// The events of the party-day that the case has.
fn with_events<'a>(
    money: &Money<'a>,
    day: &Day,
) -> impl Iterator<Item = (usize, Event<'a>, PenaltyWorking)> {
    let sections = money.sections;
    let found = move |(number, working): &(usize, PenaltyWorking)| {
        Some((*number, names::event(&sections, *number)?, *working))
    };
    day.iter().filter_map(found)
}

/// Q and R of an event.
fn changes(event: &Event<'_>) -> [i64; 2] {
    [16, 20].map(|at| i64::from(u32_at(event.record, at).cast_signed()))
}

/// The term of an hour, of whose two parts one is 0.
fn term(working: &PenaltyWorking, hour: usize) -> Signed {
    signed(working.hours[hour], working.losses[hour])
}

/// E, of whose two parts one is 0.
fn e_of(working: &PenaltyWorking) -> Signed {
    signed(working.e_positive, working.e_negative)
}

fn signed(positive: u64, negative: u64) -> Signed {
    match negative {
        0 => positive.into(),
        size => Signed {
            negative: true,
            size,
        },
    }
}

fn e_lines(money: &Money<'_>, day: &Day, of_day: &PenaltyWorking) -> Vec<String> {
    let mut rows = Vec::new();
    for (number, event, working) in with_events(money, day) {
        rows.push(Row::heading(names::short(&money.sections, number)));
        let [q, _] = changes(&event);
        // Cents stand over the cents of the terms, which have tenths.
        rows.push(Row::of("  Q", Measure::Dollars.spoken(q) + " "));
        rows.extend(money.flags.hours().map(|number| {
            let [energy, price, _] = factors(&event, number);
            Row {
                label: format!("  {}", hour(number)),
                factors: Some([spoken(energy), spoken(price)]),
                amount: tenths(term(&working, number)),
                note: "",
            }
        }));
    }
    rows.push(Row::of("E", tenths(e_of(of_day))));
    column(&rows)
}

fn t_lines(money: &Money<'_>, day: &Day, of_day: &PenaltyWorking) -> Vec<String> {
    let t = Measure::Dollars.spoken(of_day.t);
    if money.event.market == Market::REAL_TIME {
        return vec![format!("T = {t}: Real-Time has no TCC revenue")];
    }
    let mut rows: Vec<Row> = with_events(money, day)
        .map(|(number, event, _)| {
            let [_, r] = changes(&event);
            let label = names::short(&money.sections, number);
            Row::of(label, Measure::Dollars.spoken(r))
        })
        .collect();
    let note = match of_day.t {
        0 => " (added, they are not above 0)",
        _ => "",
    };
    rows.push(Row {
        note,
        ..Row::of("T", t)
    });
    column(&rows)
}

/// M, and that the group had a penalty or not: which one it was, nothing says.
fn m_line(money: &Money<'_>, of_day: &PenaltyWorking) -> String {
    let had = match of_day.multiplier {
        Multiplier(3) => "it had one",
        _ => "it had none",
    };
    let (m, date) = (halves(of_day.multiplier), date(money.event.day));
    format!("M = {m}: {had} in the six months before {date}")
}

fn x_line(of_day: &PenaltyWorking) -> String {
    let (m, e) = (halves(of_day.multiplier), tenths(e_of(of_day)));
    let (t, x) = (Measure::Dollars.spoken(of_day.t), twentieths(of_day.x));
    match (of_day.x, of_day.e_negative) {
        (0, 1..) => format!("{m} × {e} + {t} is not above 0: X = {x}"),
        _ => format!("{m} × {e} + {t} = {x}"),
    }
}

fn cut(of_day: &PenaltyWorking) -> String {
    let x = twentieths(of_day.x);
    match of_day.below {
        true => format!("{x} is below $5,000: there is no penalty"),
        false => format!("{x} is not below $5,000"),
    }
}

fn penalty(money: &Money<'_>, of_day: &PenaltyWorking) -> Vec<String> {
    let penalty = dollars(of_day.penalty);
    let amount = match of_day.below {
        true => format!("{penalty}, since X is below $5,000"),
        false => format!("{}, to the nearest cent: {penalty}", twentieths(of_day.x)),
    };
    let row = names::short(&money.sections, of_day.row);
    let mut lines = vec![format!("{amount}, on the row of {row}")];
    if of_day.row != money.number {
        lines.push(format!(
            "the row of event {}, this one, has none",
            money.number
        ));
    }
    lines
}

/// The figures for programs.
pub fn json(money: &Money<'_>, of_day: &PenaltyWorking, day: &Day) -> Json {
    let events = with_events(money, day)
        .map(|(number, event, working)| event_json(money, number, &event, &working));
    let mut fields = vec![("events", events.collect())];
    fields.extend(figures::tenths(["e", "e_dollars"], e_of(of_day)));
    fields.extend(figures::cents(["t_cents", "t_dollars"], of_day.t.into()));
    fields.extend(figures::multiplier(of_day.multiplier));
    fields.extend([
        ("x", of_day.x.into()),
        ("x_dollars", twentieths_decimal(of_day.x).into()),
        ("below", of_day.below.into()),
        ("row", of_day.row.into()),
    ]);
    fields.extend(figures::penalty(of_day.penalty));
    Json::Object(fields)
}

fn event_json(
    money: &Money<'_>,
    number: usize,
    event: &Event<'_>,
    working: &PenaltyWorking,
) -> Json {
    let terms = money.flags.hours().map(|number| {
        let [energy, price, _] = factors(event, number);
        let mut fields = vec![
            ("hour", number.into()),
            ("a", energy.1.into()),
            ("b", price.1.into()),
        ];
        fields.extend(figures::tenths(
            ["term", "term_dollars"],
            term(working, number),
        ));
        Json::Object(fields)
    });
    let [q, r] = changes(event);
    let mut fields = vec![("event", number.into()), ("unit", event.unit.into())];
    fields.extend(figures::cents(["q_cents", "q_dollars"], q.into()));
    fields.extend(figures::cents(["r_cents", "r_dollars"], r.into()));
    fields.push(("terms", terms.collect()));
    Json::Object(fields)
}
