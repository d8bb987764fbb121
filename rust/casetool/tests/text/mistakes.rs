//! All mistakes of a text at once: in order, the first twenty, each once, and with the name that was meant.

use casetool::text::near::meant;

use crate::support::casetool_in_both;

/// What is said of a text, without the name of its source.
fn said(text: &str) -> Vec<String> {
    let ran = casetool_in_both(&["write"], text.as_bytes());
    assert_eq!((ran.status, ran.output.len()), (1, 0), "{text}");
    let lines = ran.errors.lines();
    lines
        .map(|line| {
            let line = line.strip_prefix("casetool: standard input: ");
            line.expect("the source").to_string()
        })
        .collect()
}

const UNIT: &str = "unit 12 group 7 area no capability 500.0 MW\n";

#[test]
fn in_the_order_of_the_text() {
    let text = "\
event day 8000 kind dispatch market real-time unit 12 period 44 impact 1
  hour 3 undelivered 5.05 added-revenue x
unit 12 group x capability
unit 13 group 7 area no capability 1 MW
unit 14 group 7 capability 1 MW color 3
past group 7 kind fuel market 0 period 44
unit 13 group 8 capability 1 MW
event day 8001 kind dispatch market real-time unit 13 period 44 impact 1
  hour 3 undelivered 5 MW
";
    let expected = [
        "line 2, column 22, '5.05': expected MW with at most one decimal, such as 50.1 MW",
        "line 2, column 41, 'x': expected dollars with at most two decimals, such as $40.00",
        "line 3, column 15, 'x': expected a whole number",
        "line 3, column 27: expected a value for capability",
        "line 4, column 40: expected the key response-rate, which the event of line 8 reads",
        "line 5, column 33, 'color': unknown key; expected unit, group, area, capability, response-rate, average-price, constrained-hours",
        "line 6, column 42: expected the key day",
        "line 7, column 1, 'unit': unit 13 is there twice, in line 4 and here",
        "line 7, column 32: expected the key area, which the event of line 8 reads",
        "line 7, column 32: expected the key response-rate, which the event of line 8 reads",
        "line 9, column 26: expected the key added-revenue",
    ];
    assert_eq!(said(text), expected);
    // The same are said by every command that reads a text.
    for command in ["check", "settle"] {
        let ran = casetool_in_both(&[command], text.as_bytes());
        assert_eq!((ran.status, ran.output.len()), (1, 0));
        assert_eq!(
            ran.errors,
            casetool_in_both(&["write"], text.as_bytes()).errors
        );
    }
}

#[test]
fn at_most_twenty() {
    let line = |place: usize| format!("unit {place} group 7 capability x\n");
    for (count, last) in [
        (20, None),
        (21, Some("and one mistake more")),
        (45, Some("and 25 mistakes more")),
    ] {
        let lines: String = (0..count).map(line).collect();
        let said = said(&lines);
        let mut expected: Vec<String> = (0..20)
            .map(|place| {
                let column = line(place).len() - 1;
                let problem = "expected MW with at most one decimal, such as 50.1 MW";
                format!("line {}, column {column}, 'x': {problem}", place + 1)
            })
            .collect();
        expected.extend(last.map(str::to_string));
        assert_eq!(said, expected);
    }
    // Those that are found last stand first where the text has them first.
    let late: String = (0..30)
        .map(|place| format!("unit {} group 7 capability x\n", 20 + place))
        .collect();
    let first = "event day 8000 kind withheld market 0 unit 12 period 44 impact 0\n";
    let text = format!("{first}unit 12 group 7 area 1 capability 1\n{late}");
    let said = said(&text);
    assert_eq!(
        said[0],
        "line 1, column 65: expected the key shadow-price-hours, none for no hours: unit 12 is in a Constrained Area (line 2)"
    );
    assert_eq!(
        (said.len(), said[20].as_str()),
        (21, "and 11 mistakes more")
    );
}

#[test]
fn one_mistake_is_told_once() {
    for (text, expected) in [
        // Hours of a line that could not be read.
        (
            "evnt day 8000\n  hour 3 withheld 4\n  hour x\n",
            "line 2, column 1, 'evnt': did you mean event?",
        ),
        (
            "event day 8000 type withheld market 0 unit 12 period 44 impact 0 shadow-price-hours none\nhour 0 withheld 1 price 1\n",
            "line 2, column 16, 'type': did you mean kind?",
        ),
        (
            "event day 8000 kind bids market 0 unit 12 period 44 component enrgy impact-hours none\nhour 0 bid 1 price 1 quantity 1\n",
            "line 2, column 63, 'enrgy': did you mean energy?",
        ),
        // What a market or a component would ask for.
        (
            "event day 8000 kind fuel market x unit 12 period 44 inaccurate-hours none guarantee-change 0\n",
            "line 2, column 33, 'x': expected day-ahead, real-time, or its number, 0 or 1",
        ),
        (
            "event day 8000 kind bids market 0 unit 12 period 44 component x\nhour 3 nothing\n",
            "line 2, column 63, 'x': expected energy, minimum-generation, reserve-or-regulation, start-up-cost, start-up-time, minimum-run-time, minimum-down-time, minimum-parameter, maximum-parameter, or its number, 0 to 8",
        ),
        (
            "reference unit 12 component x value y\n",
            "line 2, column 29, 'x': expected energy, minimum-generation, reserve-or-regulation, start-up-cost, start-up-time, minimum-run-time, minimum-down-time, minimum-parameter, maximum-parameter, or its number, 0 to 8",
        ),
        // A maximum parameter with an hour that could not be read.
        (
            "event day 8000 kind bids market 0 unit 12 period 44 component 8 impact-hours none\nhours 0-24 bid 1\n",
            "line 3, column 7, '0-24': expected hours from 0 to 23, as in 0,5-7",
        ),
        // A line with a mistake is not held against the others.
        (
            "unit 12 group x capability 1\n",
            "line 2, column 15, 'x': expected a whole number",
        ),
    ] {
        assert_eq!(said(&format!("{UNIT}{text}")), [expected], "{text}");
    }
}

#[test]
fn what_stands_after_a_near_miss_is_told_too() {
    let event =
        "event day 8000 type withheld market 0 unit 12 period 44\n  hour 3 withheld 5.05 price 1\n";
    let power = "expected MW with at most one decimal, such as 50.1 MW";
    assert_eq!(
        said(&format!("{UNIT}{event}")),
        [
            "line 2, column 16, 'type': did you mean kind?".to_string(),
            "line 2, column 56: expected the key impact".to_string(),
            format!("line 3, column 19, '5.05': {power}"),
        ]
    );
    let event = event.replace("type withheld", "kind witheld");
    assert_eq!(
        said(&format!("{UNIT}{event}")),
        [
            "line 2, column 21, 'witheld': did you mean withheld?".to_string(),
            "line 2, column 55: expected the key impact".to_string(),
            format!("line 3, column 19, '5.05': {power}"),
        ]
    );
}

/// Texts with a word that is near to a name.
const NEAR_MISSES: [(&str, &str, &str); 13] = [
    ("plant 12 group 7 capability 1", "plant", "unit"),
    ("Unit 12 group 7 capability 1", "Unit", "unit"),
    ("refrence unit 12", "refrence", "reference"),
    ("history group 7", "history", "past"),
    ("unit 12 owner 7 capability 1", "owner", "group"),
    ("unit 12 group 7 Capability 1", "Capability", "capability"),
    (
        "unit 12 group 7 capability 1 responserate 1",
        "responserate",
        "response-rate",
    ),
    (
        "unit 12 group 7 capability 1 average_price 1",
        "average_price",
        "average-price",
    ),
    (
        "unit 12 group 7 capability 1 rate 1",
        "rate",
        "response-rate",
    ),
    (
        "past group 7 kind fuel market 0 period 44 date 8000",
        "date",
        "day",
    ),
    (
        "past group 7 type fuel market 0 period 44 day 8000",
        "type",
        "kind",
    ),
    (
        "past group 7 kind fule market 0 period 44 day 8000",
        "fule",
        "fuel",
    ),
    (
        "past group 7 kind fuel market realtime period 44 day 8000",
        "realtime",
        "real-time",
    ),
];

#[test]
fn near_misses_by_name() {
    for (text, word, name) in NEAR_MISSES {
        let column = text.find(word).expect("the word") + 1;
        let expected = format!("line 1, column {column}, '{word}': did you mean {name}?");
        assert_eq!(said(text), [expected], "{text}");
    }
    // A key that is there already is not what another was meant to be.
    let twice = "past group 7 kind fuel type fuel market 0 period 44 day 8000";
    assert_eq!(
        said(twice),
        ["line 1, column 24, 'type': unknown key; expected group, kind, market, period, day"]
    );
}

#[test]
fn what_is_near() {
    let names = [
        "price",
        "price-change",
        "bid",
        "quantity",
        "guarantee-change",
    ];
    for (word, name) in [
        ("price", Some("price")),
        ("prices", Some("price")),
        ("pirce", Some("price")),
        ("prce", Some("price")),
        ("bib", Some("bid")),
        ("offer", Some("bid")),
        ("qantity", Some("quantity")),
        ("guarantee", Some("guarantee-change")),
        // Two are as near.
        ("change", None),
        // Nothing is.
        ("bi", None),
        ("color", None),
        ("pxxxx", None),
        ("", None),
    ] {
        assert_eq!(meant(word, &names), name, "{word}");
    }
    assert_eq!(meant(&"price".repeat(10_000), &names), None);
    assert_eq!(meant("type", &["price"]), None);
    assert_eq!(meant("houre", &["hour", "hours"]), None);
    assert_eq!(meant("hourss", &["hour", "hours"]), Some("hours"));
}
