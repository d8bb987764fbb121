//! Generated cases: the workings of all events followed with a pencil to the second implementation's rows, and their JSON
//! beside its figures.

use cases::case::Input;
use cases::generator::any_case_in;
use cases::{Kind, Random, Row};

use crate::explain::parted;
use crate::pencil::{self, Sheet};
use crate::support::json::{Value, answer, schema};
use crate::support::{casetool_with, copies_of, in_turn};

/// Ten-thousandths of dollars, of cents.
fn money(cents: u64) -> i128 {
    100 * i128::from(cents)
}

/// Follows a working with a pencil to its row, which is the second implementation's; whether its own row has what it gives.
fn follow(kind: Kind, steps: &str, row: &Row) -> bool {
    let sheet = Sheet::of(steps);
    let (cents, expected) = match kind {
        Kind::BIDS => (pencil::bids(&sheet), row.make_up),
        Kind::WITHHELD => (pencil::withheld(&sheet), row.penalty),
        Kind::DISPATCH => (pencil::dispatch(&sheet), row.penalty),
        _ => {
            let (penalty, own) = pencil::fuel(&sheet);
            assert_eq!(
                if own { penalty } else { 0 },
                money(row.penalty.0),
                "{steps}"
            );
            return own;
        }
    };
    assert_eq!(cents, money(expected.0), "{steps}");
    true
}

#[test]
fn followed_with_a_pencil() {
    let mut random = Random::new(773);
    let (mut events, mut penalised, mut made_up, mut not_borne) = ([0; 5], 0, 0, 0);
    let mut copies = 0;
    for place in 0..400 {
        let generated = any_case_in(in_turn(place), &mut random);
        let input = generated.input();
        let ran = casetool_with("money.pencil", &["settle", "--explain"], &input);
        copies += copies_of(&input);
        assert_eq!((ran.status, ran.errors.as_str()), (0, ""));
        let mut rows = vec![0; input.rows_len];
        second::settle(&input.file, &input.correction, &mut rows);
        let (workings, _) = parted(ran.text());
        assert_eq!(workings.len(), generated.case.events.len());
        for (number, steps) in &workings {
            let (kind, row) = (
                generated.case.events[*number].kind(),
                Row::of(&rows, *number),
            );
            not_borne += usize::from(!follow(kind, steps, &row));
            events[usize::from(kind.0)] += 1;
            penalised += usize::from(row.penalty.0 > 0);
            made_up += usize::from(row.make_up.0 > 0);
        }
    }
    let [_, withheld, dispatch, fuel, bids] = events;
    println!(
        "{withheld} withheld, {dispatch} dispatch, {fuel} fuel, {bids} bids; {penalised} with a penalty, {made_up} with a make-up, {not_borne} whose fuel day another bears; {copies} copies"
    );
    assert!(events[1..].iter().all(|&count| count > 1_000));
    assert!(penalised > 1_000 && made_up > 20 && not_borne > 100 && copies > 150);
}

fn integers(list: &Value) -> Vec<i128> {
    list.list().iter().map(Value::integer).collect()
}

/// Integers of an object, each beside its name.
fn same(value: &Value, expected: &[(&str, i128)]) {
    for (name, figure) in expected {
        assert_eq!(value.at(name).integer(), *figure, "{name}");
    }
}

/// That the terms of an object are these, by hour, in the hours that it has.
fn same_terms(terms: &Value, name: &str, expected: impl Fn(usize) -> i128) -> Vec<i128> {
    let hours = terms.list().iter().map(|term| {
        let hour = term.at("hour").integer();
        let place = usize::try_from(hour).expect("an hour");
        assert_eq!(term.at(name).integer(), expected(place));
        hour
    });
    hours.collect()
}

/// That each term is what its m, a and b give; m is 0 where there is none.
fn products(terms: &Value, product: impl Fn([i128; 3]) -> i128) {
    for term in terms.list() {
        let Value::Object(figures) = term else {
            panic!("{term:?}")
        };
        let factors = ["m", "a", "b"].map(|name| figures.get(name).map_or(0, Value::integer));
        assert_eq!(term.at("term").integer(), product(factors), "{term:?}");
    }
}

/// The hours of a mask.
fn hours(mask: u32) -> Vec<i128> {
    let hours = (0..24).filter(|hour| mask >> hour & 1 == 1);
    hours.map(i128::from).collect()
}

/// That N3 and N2 counted what the second implementation counted; how many records N3 counted.
fn same_instances(value: &Value, expected: &second::Instances) -> usize {
    same_counted(value.at("n3_counted"), &expected.three);
    same_counted(value.at("n2_counted"), &expected.two);
    expected.three.events.len() + expected.three.past.len()
}

fn same_counted(value: &Value, expected: &second::Counted) {
    for (name, places) in [("events", &expected.events), ("past", &expected.past)] {
        let places: Vec<i128> = places.iter().map(|&place| place as i128).collect();
        assert_eq!(integers(value.at(name)), places);
    }
}

/// The figures of a working, by its kind: their names and what the second implementation has.
fn figures(working: &second::PenaltyWorking) -> Vec<(&'static str, i128)> {
    let mut found = match working.kind {
        1 => vec![
            ("n3", working.n3.into()),
            ("n2", working.n2.into()),
            ("sum", working.amount.into()),
        ],
        2 => vec![("sum_cents", working.revenue.into())],
        _ => vec![
            ("e", working.e.into()),
            ("t_cents", working.t.into()),
            ("x", working.x.into()),
            ("row", working.row as i128),
        ],
    };
    found.push(("multiplier_halves", working.multiplier.into()));
    found.push(("penalty_cents", working.penalty.into()));
    found
}

/// That the figures of a withheld, dispatch or fuel event are the second implementation's.
fn same_penalty(value: &Value, working: &second::PenaltyWorking, flags: u32) {
    let (kind, term) = match working.kind {
        1 => ("withheld", Some("term")),
        2 => ("dispatch", Some("term_cents")),
        _ => ("fuel", None),
    };
    let value = value.at(kind);
    same(value, &figures(working));
    if kind == "withheld" {
        assert_eq!(*value.at("instance"), Value::Bool(working.n3 > 0));
        products(value.at("terms"), |[_, a, b]| a * b.max(0));
    }
    if let Some(term) = term {
        let expected = |hour: usize| i128::from(working.hours[hour]);
        let shown = same_terms(value.at("terms"), term, expected);
        assert_eq!(shown, hours(flags));
    }
}

/// That the events of a party-day are those with the same row, each with its terms.
fn same_day(value: &Value, workings: &[second::PenaltyWorking], event: usize, flags: u32) {
    let same =
        |place: &usize| workings[*place].kind == 3 && workings[*place].row == workings[event].row;
    let expected: Vec<usize> = (0..workings.len()).filter(same).collect();
    let events = value.at("events").list();
    assert_eq!(events.len(), expected.len());
    assert_eq!(*value.at("below"), Value::Bool(workings[event].below));
    for (value, place) in events.iter().zip(expected) {
        assert_eq!(value.at("event").integer(), place as i128);
        let (gains, losses) = (workings[place].hours, workings[place].losses);
        let term = |hour: usize| i128::from(gains[hour]) - i128::from(losses[hour]);
        let shown = same_terms(value.at("terms"), "term", term);
        assert_eq!(shown, hours(flags));
        products(value.at("terms"), |[_, a, b]| a * b);
    }
}

fn same_make_up(value: &Value, working: &second::MakeUpWorking) {
    let component = value.at("component").text();
    let value = value.at("bids");
    same(
        value,
        &[
            ("reference", working.reference.into()),
            ("sum", working.tenths.into()),
            ("make_up_cents", working.make_up.into()),
        ],
    );
    let correct = match component {
        "energy" | "minimum-generation" | "start-up-cost" => Value::Integer(working.correct.into()),
        _ => Value::Null,
    };
    assert_eq!(*value.at("correct"), correct);
    assert_eq!(
        integers(value.at("mitigated_hours")),
        hours(working.mitigated)
    );
    assert_eq!(
        integers(value.at("restored_hours")),
        hours(working.restored)
    );
    let paid = if component == "energy" {
        working.mitigated
    } else {
        0
    };
    let term = |hour: usize| i128::from(working.hours[hour]);
    assert_eq!(same_terms(value.at("terms"), "term", term), hours(paid));
    let correct = i128::from(working.correct);
    products(value.at("terms"), |[m, a, b]| {
        m * (a.min(correct) - b).max(0)
    });
}

/// What was compared.
#[derive(Default)]
struct Compared {
    events: usize,
    counted: usize,
    restored: usize,
    copies: usize,
}

/// That the workings of a settlement are the second implementation's.
fn same_workings(found: &[Value], input: &Input, compared: &mut Compared) {
    let (file, correction) = (&input.file, &input.correction);
    let mut rows = vec![0; input.rows_len];
    second::settle(file, correction, &mut rows);
    let workings: Vec<second::PenaltyWorking> = (0..found.len())
        .map(|event| second::penalty_working(file, correction, event).expect("an event"))
        .collect();
    for (event, value) in found.iter().enumerate() {
        let flags = Row::of(&rows, event).flags.0;
        assert_eq!(value.at("event").integer(), event as i128);
        assert_eq!(integers(value.at("flagged_hours")), hours(flags));
        compared.events += 1;
        if workings[event].kind == 4 {
            let working = second::make_up_working(file, correction, event).expect("an event");
            same_make_up(value, &working);
            compared.restored += usize::from(working.restored != 0);
            continue;
        }
        same_penalty(value, &workings[event], flags);
        if workings[event].kind == 3 {
            same_day(value.at("fuel"), &workings, event, flags);
        }
        if workings[event].kind == 1 {
            let expected = second::instances(file, correction, event).expect("an event");
            compared.counted += same_instances(value.at("withheld"), &expected);
        }
    }
}

#[test]
fn as_json_beside_the_second_implementation() {
    let schema = schema();
    let mut random = Random::new(774);
    let mut compared = Compared::default();
    for place in 0..300 {
        let generated = any_case_in(in_turn(place), &mut random);
        let input = generated.input();
        let arguments = ["settle", "--explain", "--format", "json"];
        let ran = casetool_with("money.json", &arguments, &input);
        compared.copies += copies_of(&input);
        let value = answer(&ran, &schema);
        let workings = value.at("workings").list();
        assert_eq!(workings.len(), generated.case.events.len());
        same_workings(workings, &input, &mut compared);
    }
    let Compared {
        events,
        counted,
        restored,
        copies,
    } = compared;
    println!(
        "{events} events, {counted} records counted for N3, {restored} bids with restored hours, {copies} copies"
    );
    assert!(events > 5_000 && counted > 1_000 && restored > 10 && copies > 100);
}
