//! The bids of a case beside their lines: whole tables by hand, which events have one, and a case that is refused.

use std::path::Path;

use crate::SUM_OF_TIMES;
use crate::support::{casetool, casetool_in_both, file_with, repository, written};

fn example() -> Vec<u8> {
    std::fs::read(repository("examples/two-plants.txt")).expect("the example")
}

/// That this text has these tables, by its case file too.
fn prints(arguments: &[&str], text: &str, expected: &str) {
    let arguments = [&["line"], arguments].concat();
    let ran = casetool_in_both(&arguments, text.as_bytes());
    assert_eq!((ran.status, ran.errors.as_str()), (0, ""));
    assert_eq!(ran.text(), expected);
    assert_eq!(casetool_in_both(&arguments, &written(text)), ran);
}

const EVENT_3: &str = "\
Event 3: day 8000 (26 November 2021), bids, Day-Ahead, unit 12, energy
    reference              $20.00
    line, hours not tight  $80.00, the highest bid that passes
  hours      bid    line  tight  flagged
  0–13    $22.00  $80.00  no     no
  14–16  $130.00  $80.00  no     yes
  17–23   $22.00  $80.00  no     no
";

const EVENT_4: &str = "\
Event 4: day 8000 (26 November 2021), bids, Day-Ahead, unit 13, minimum generation
    reference              $30.00
    line, hours not tight  $120.00, the highest bid that passes
  hours      bid     line  tight  flagged
  0–9     $35.00  $120.00  no     no
  10     $150.00  $120.00  no     yes
  11–23   $35.00  $120.00  no     no
";

const EVENT_5: &str = "\
Event 5: day 8000 (26 November 2021), bids, Real-Time, unit 13, energy
    reference              $20.00
    line, tight hours      $28.76, the highest bid that passes
    line, hours not tight  $80.00, the highest bid that passes
  hours     bid    line  tight  flagged
  0–18    $0.00  $80.00  no     no
  19     $28.77  $28.76  yes    yes
  20–23   $0.00  $80.00  no     no
";

#[test]
fn the_example() {
    let text = String::from_utf8(example()).expect("text");
    prints(&[], &text, &[EVENT_3, EVENT_4, EVENT_5].join("\n"));
    for (number, table) in [("3", EVENT_3), ("4", EVENT_4), ("5", EVENT_5)] {
        prints(&["--event", number], &text, table);
    }
    // A correction is read and checked, and no line depends on it.
    let correction = repository("examples/two-plants-correction.txt");
    let correction = correction.to_str().expect("text");
    let arguments = ["--event", "3", "--correction", correction];
    prints(&arguments, &text, EVENT_3);
}

const UNIT: &str =
    "unit 12 group 7 area 1 capability 500.0 MW average-price $50.00 constrained-hours 1000\n";

/// An event of bids of a unit in a Constrained Area, with its reference.
fn bids(market: &str, component: &str, reference: &str, shadow_price_hours: &str) -> String {
    format!(
        "{UNIT}reference unit 12 component {component} value {reference}\n\
         event day 8000 kind bids market {market} unit 12 period 44 component {component} \
         shadow-price-hours {shadow_price_hours} impact-hours none minimum-run-hours 0\n"
    )
}

#[test]
fn rows_are_parted_by_bid_tightness_and_flag() {
    let text = bids("real-time", "minimum-generation", "$20.00", "5-7,20-23");
    prints(
        &[],
        &format!(
            "{text}hours 0-6 bid $28.76\nhours 7-8 bid $28.77\nhour 9 bid -$1,000.00\nhours 10-23 bid $80.01\n"
        ),
        "\
Event 0: day 8000 (26 November 2021), bids, Real-Time, unit 12, minimum generation
    reference              $20.00
    line, tight hours      $28.76, the highest bid that passes
    line, hours not tight  $80.00, the highest bid that passes
  hours         bid    line  tight  flagged
  0–4        $28.76  $80.00  no     no
  5–6        $28.76  $28.76  yes    no
  7          $28.77  $28.76  yes    yes
  8          $28.77  $80.00  no     no
  9      -$1,000.00  $80.00  no     no
  10–19      $80.01  $80.00  no     yes
  20–23      $80.01  $28.76  yes    yes
",
    );
}

#[test]
fn lines_of_the_hours_that_there_are() {
    // Day-Ahead the line is the same in tight hours.
    prints(
        &[],
        &format!(
            "{}hours 0-23 bid $100.00 price 0 quantity 0\n",
            bids("day-ahead", "energy", "$20.00", "5-7")
        ),
        "\
Event 0: day 8000 (26 November 2021), bids, Day-Ahead, unit 12, energy
    reference              $20.00
    line, tight hours      $80.00, the highest bid that passes
    line, hours not tight  $80.00, the highest bid that passes
  hours      bid    line  tight  flagged
  0–4    $100.00  $80.00  no     yes
  5–7    $100.00  $80.00  yes    yes
  8–23   $100.00  $80.00  no     yes
",
    );
    prints(
        &[],
        &bids("real-time", "reserve-or-regulation", "0", "0-23"),
        "\
Event 0: day 8000 (26 November 2021), bids, Real-Time, unit 12, reserve or regulation
    reference              $0.00
    line, tight hours      $4.99, the highest bid that passes
  hours    bid   line  tight  flagged
  0–23   $0.00  $4.99  yes    no
",
    );
    prints(
        &[],
        &format!(
            "{}hour 3 bid $9,000.01\n",
            bids("day-ahead", "start-up-cost", "$3,000.00", "none")
        ),
        "\
Event 0: day 8000 (26 November 2021), bids, Day-Ahead, unit 12, start-up cost
    reference              $3,000.00
    line, hours not tight  $9,000.00, the highest bid that passes
  hours        bid       line  tight  flagged
  0–2        $0.00  $9,000.00  no     no
  3      $9,000.01  $9,000.00  no     yes
  4–23       $0.00  $9,000.00  no     no
",
    );
}

#[test]
fn parameters() {
    prints(
        &[],
        &format!(
            "{}hour 7 bid 2,001\nhour 8 bid 2,000\n",
            bids("day-ahead", "minimum-parameter", "1000", "none")
        ),
        "\
Event 0: day 8000 (26 November 2021), bids, Day-Ahead, unit 12, minimum parameter
    reference              1,000
    line, hours not tight  2,000, the highest bid that passes
  hours    bid   line  tight  flagged
  0–6        0  2,000  no     no
  7      2,001  2,000  no     yes
  8      2,000  2,000  no     no
  9–23       0  2,000  no     no
",
    );
    prints(
        &[],
        &format!(
            "{}hours 0-11 bid 51\nhours 12-23 bid 50\n",
            bids("day-ahead", "maximum-parameter", "101", "none")
        ),
        "\
Event 0: day 8000 (26 November 2021), bids, Day-Ahead, unit 12, maximum parameter
    reference              101
    line, hours not tight  51, the lowest bid that passes
  hours  bid  line  tight  flagged
  0–11    51    51  no     no
  12–23   50    51  no     yes
",
    );
}

#[test]
fn times_that_the_sum_flags_below_their_line() {
    let mut text = "unit 12 group 7 area no capability 500.0 MW\n".to_string();
    for (name, bids) in [
        ("start-up-time", "hours 7-8 bid 181 minutes"),
        ("minimum-run-time", "hours 7-8 bid 180 minutes"),
        ("minimum-down-time", "hour 7 bid 180 minutes"),
    ] {
        text += &format!(
            "reference unit 12 component {name} value 60 minutes\n\
             event day 8000 kind bids market day-ahead unit 12 period 44 component {name} impact-hours none\n\
             {bids}\n"
        );
    }
    let [first, second] = SUM_OF_TIMES;
    let table = |event: usize, name: &str, rows: &str| {
        format!(
            "\
Event {event}: day 8000 (26 November 2021), bids, Day-Ahead, unit 12, {name}
    reference              60 minutes
    line, hours not tight  240 minutes, the highest bid that passes
    {first}
    {second}
  hours          bid         line  tight  flagged
  0–6      0 minutes  240 minutes  no     no
{rows}"
        )
    };
    // Of hour 7 the sum is 361 minutes, of hour 8 it is 241.
    let of_two = |bid: usize| {
        format!(
            "  7      {bid} minutes  240 minutes  no     yes
  8      {bid} minutes  240 minutes  no     no
  9–23     0 minutes  240 minutes  no     no
"
        )
    };
    let of_one = "  7      180 minutes  240 minutes  no     yes
  8–23     0 minutes  240 minutes  no     no
";
    let tables = [
        table(0, "start-up time", &of_two(181)),
        table(1, "minimum run time", &of_two(180)),
        table(2, "minimum down time", of_one),
    ];
    prints(&[], &text, &tables.join("\n"));
}

#[test]
fn a_case_with_no_event_of_bids() {
    let withheld = "event day 8000 kind withheld market day-ahead unit 12 period 44 impact 0 shadow-price-hours none\n";
    prints(
        &[],
        &format!("{UNIT}{withheld}"),
        "This case has no event of bids\n",
    );
    // A case file may have no event at all.
    let ran = casetool_in_both(&["line"], &written(UNIT));
    assert_eq!(
        (ran.status, ran.text(), ran.errors.as_str()),
        (0, "This case has no event of bids\n", "")
    );
}

#[test]
fn events_that_have_no_line() {
    let one = format!(
        "{UNIT}event day 1 kind fuel market real-time unit 12 period 0 inaccurate-hours none guarantee-change 0\n"
    );
    for (text, event, problem) in [
        (
            example(),
            "0",
            "its kind is withheld, and bids alone have a line",
        ),
        (
            example(),
            "1",
            "its kind is dispatch, and bids alone have a line",
        ),
        (
            example(),
            "2",
            "its kind is fuel, and bids alone have a line",
        ),
        (example(), "6", "this case has 6 events, 0 to 5"),
        (
            one.clone().into_bytes(),
            "0",
            "its kind is fuel, and bids alone have a line",
        ),
        (one.into_bytes(), "1", "this case has one event, 0"),
        (written(UNIT), "0", "this case has no events"),
    ] {
        let ran = casetool_in_both(&["line", "--event", event], &text);
        assert_eq!((ran.status, ran.output.len()), (2, 0));
        let message = format!("casetool: --event {event}: {problem}; see casetool line --help\n");
        assert_eq!(ran.errors, message);
    }
}

#[test]
fn a_refused_case_is_refused_as_a_working_is() {
    let good = String::from_utf8(example()).expect("text");
    let path = file_with(
        "line.correction",
        b"reference unit 12 component energy value 3\n",
    );
    let working = ["working", "--event", "0", "--hour", "0"];
    for (text, correction, second_line) in [
        (
            good.replace("area 1", "area 2"),
            &[][..],
            "standard input: line 4, column 22: units, record 1 (unit 13): area is 2; expected 0 or 1",
        ),
        (
            good.replace("bid $28.77", "bid $10,000.01"),
            &[],
            "standard input: line 35, column 15: event 5 (day 8000, bids, Real-Time, unit 13, energy), hour 19: a (bid) is 1,000,001 ($10,000.01); expected -1,000,000 (-$10,000.00) to 1,000,000 ($10,000.00)",
        ),
        (
            good.clone(),
            &["--correction", &path],
            "standard input: line 29, column 71: event 4 (day 8000, bids, Day-Ahead, unit 13, minimum generation): the correction has no reference for unit 13, component minimum generation",
        ),
        (
            good.replace("kind", "type"),
            &[],
            "casetool: standard input: line 11, column 14, 'type': did you mean kind?",
        ),
    ] {
        let ran = casetool_in_both(&[&["line"], correction].concat(), text.as_bytes());
        assert_eq!(ran.errors.lines().nth(1), Some(second_line));
        assert_eq!(
            ran,
            casetool_in_both(&[&working, correction].concat(), text.as_bytes())
        );
        assert_eq!((ran.status, ran.output.len()), (1, 0));
    }
    let case = written(&good.replace("area 1", "area 2"));
    let ran = casetool_in_both(&["line"], &case);
    assert_eq!(
        ran.errors.lines().nth(1),
        Some("units, record 1 (unit 13): area is 2; expected 0 or 1")
    );
    assert_eq!(ran, casetool_in_both(&working, &case));
}

#[test]
fn an_answer_goes_to_its_file_and_an_old_one_is_renamed() {
    let path = file_with("line.table", b"old");
    let case = file_with(
        "line.case",
        &written(&String::from_utf8(example()).expect("text")),
    );
    let ran = casetool(&["line", &case, "--event", "5", "-o", &path], b"");
    assert_eq!((ran.status, ran.output.len()), (0, 0));
    assert_eq!(std::fs::read_to_string(&path).expect("the table"), EVENT_5);
    for (event, text, status) in [
        (
            "5",
            String::from_utf8(example())
                .expect("text")
                .replace("area 1", "area 2"),
            1,
        ),
        ("0", String::from_utf8(example()).expect("text"), 2),
    ] {
        std::fs::write(&path, "old").expect("a file of the test");
        let arguments = ["line", "--event", event, "-o", &path];
        let ran = casetool(&arguments, text.as_bytes());
        assert_eq!(ran.status, status);
        let said =
            format!("casetool: nothing is written; the {path} that was there is now {path}.old\n");
        assert!(ran.errors.ends_with(&said), "{}", ran.errors);
        assert!(!Path::new(&path).exists());
        let old = std::fs::read_to_string(format!("{path}.old"));
        assert_eq!(old.expect("the old one"), "old");
    }
    // The case is read, and is neither overwritten nor renamed.
    let ran = casetool(&["line", &case, "-o", &case], b"");
    assert_eq!((ran.status, Path::new(&case).exists()), (2, true));
}
