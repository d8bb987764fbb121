//! The settlement for people: the shipped examples whole, and the figures of generated cases beside the
//! second implementation's rows.

mod support;

use attachment_h::layout::{Section, Sections, u32_at};
use attachment_h::{Cents, penalty_working, subtotal};
use cases::Random;
use cases::case::{Input, Unit};
use cases::generator::{Generated, any_case_in};
use cases::{Component, Event, Kind, Row};
use casetool::text::amounts::{Measure, dollars};
use casetool::text::{calendar, hours};
use support::{casetool_in_both, casetool_with, copies_of, file_with, in_turn, repository};

fn example(name: &str) -> Vec<u8> {
    std::fs::read(repository(&format!("examples/{name}"))).expect("an example")
}

#[test]
fn the_example() {
    let case = casetool_in_both(&["write"], &example("two-plants.txt")).output;
    let ran = casetool_in_both(&["settle"], &case);
    assert_eq!((ran.status, ran.errors.as_str()), (0, ""));
    assert_eq!(ran.text(), include_str!("two-plants.settled"));
    assert_eq!(ran, casetool_in_both(&["settle"], &case));
}

#[test]
fn the_example_with_its_correction() {
    let case = casetool_in_both(&["write"], &example("two-plants.txt")).output;
    let text = example("two-plants-correction.txt");
    let correction = casetool_in_both(&["write", "--correction"], &text).output;
    let path = file_with("two-plants.correction", &correction);
    let ran = casetool_in_both(&["settle", "--correction", &path], &case);
    let expected = include_str!("two-plants.settled")
        .replace(
            "Correction: none",
            &format!("Correction: {path}, 3 references"),
        )
        .replacen("make-up          $0.00", "make-up          $1,500.00", 1)
        .replace("make-ups         $0.00", "make-ups         $1,500.00");
    assert_eq!((ran.status, ran.text()), (0, expected.as_str()));
}

/// The parts of E of the three plants, in tenths of a cent, which the library gives and casetool does not print:
/// 4,000.00 + 2 × 100.0 × 15.00 + 50.0 × 15.00, the last in an hour of unit 13 alone;
/// 600.00 + 2 × 20.1 × 15.05 + 80.0 × 12.50, the second in hours of unit 12 alone;
/// -1,200.00 - 3 × 30.0 × 2.50, in hours of the others alone.
const PARTS: [i64; 3] = [7_750_000, 2_205_010, -1_425_000];

#[test]
fn a_party_day_of_three_plants() {
    let text = example("fuel-day.txt");
    let case = casetool_in_both(&["write"], &text).output;
    for input in [&text, &case] {
        let ran = casetool_in_both(&["settle"], input);
        assert_eq!((ran.status, ran.errors.as_str()), (0, ""));
        assert_eq!(ran.text(), include_str!("fuel-day.settled"));
    }
    for (event, part) in PARTS.into_iter().enumerate() {
        assert_eq!(subtotal(&case, event), Ok(part));
        assert_eq!(second::subtotal(&case, event), Ok(part));
        let working = penalty_working(&case, &[], event).expect("an event");
        assert_eq!(working.e(), PARTS.iter().sum::<i64>());
    }
}

/// The paragraph of an event in a settlement.
fn paragraph(text: &str, event: usize) -> Vec<&str> {
    let start = format!("  event {event}: ");
    let mut lines = text.lines().skip_while(|line| !line.starts_with(&start));
    let mut found = vec![lines.next().expect("the event")];
    found.extend(lines.take_while(|line| line.starts_with("    ")));
    found
}

fn figure<'a>(paragraph: &[&'a str], name: &str) -> Option<&'a str> {
    let start = format!("    {name:17}");
    paragraph.iter().find_map(|line| line.strip_prefix(&start))
}

/// Hours from 0 to 23 of a list such as `0, 5–7`.
fn mask_of(list: &str) -> u32 {
    let part = |part: &str| {
        let (first, last) = part.split_once('–').unwrap_or((part, part));
        let (first, last): (u32, u32) = (first.parse().unwrap(), last.parse().unwrap());
        (first..=last).fold(0, |mask, hour| mask | 1 << hour)
    };
    match list {
        "none" => 0,
        list => list
            .split(", ")
            .map(part)
            .fold(0, |mask, hours| mask | hours),
    }
}

/// Cents of dollars; what stands after them in brackets is for people.
fn cents_of(dollars: &str) -> u64 {
    let dollars = dollars
        .split_once(" (")
        .map_or(dollars, |(dollars, _)| dollars);
    let digits: String = dollars.chars().filter(char::is_ascii_digit).collect();
    digits.parse().expect("cents")
}

/// Halves, N3 and N2 of a multiplier such as `1.5` or `1 (N3 2, N2 2)`; other notes stand beside 0.
fn multiplier_of(text: &str) -> (u16, u16, u16) {
    let (multiplier, note) = text.split_once(" (").unwrap_or((text, ""));
    let instances = note
        .strip_prefix("N3 ")
        .and_then(|rest| rest.split_once(", N2 "));
    assert!(note.is_empty() || instances.is_some() || multiplier == "0");
    let (n3, n2) = instances.unwrap_or(("0", "0"));
    let (whole, half) = match multiplier.strip_suffix(".5") {
        Some(whole) => (whole, 1),
        None => (multiplier, 0),
    };
    let number = |digits: &str| {
        digits
            .trim_end_matches(')')
            .parse::<u16>()
            .expect("a number")
    };
    (2 * number(whole) + half, number(n3), number(n2))
}

/// The bids of a list such as `$20.00 in hours 14–16, -$1.00 in hour 19`, by hour.
fn bids_of(list: &str, component: u8) -> Vec<(u32, i32)> {
    let mut found = Vec::new();
    for part in list.split(", ") {
        let (bid, hours) = part.split_once(" in hour").expect("a bid");
        assert_eq!(bid.contains('$'), component <= 3);
        assert_eq!(bid.ends_with(" minutes"), (4..=6).contains(&component));
        let value = cents_of(bid) as i32;
        let value = if bid.starts_with('-') { -value } else { value };
        let mask = mask_of(hours.trim_start_matches('s').trim());
        found.extend(
            (0..24)
                .filter(|hour| mask >> hour & 1 == 1)
                .map(|hour| (hour, value)),
        );
    }
    found
}

fn mitigated_bids(row: &Row) -> Vec<(u32, i32)> {
    (0..24)
        .filter(|hour| row.mitigated.0 >> hour & 1 == 1)
        .map(|hour| (hour, row.bids[hour as usize]))
        .collect()
}

/// The mitigated hours in which a bid of component 1 or 3 is in force though it is above the case's own
/// reference: what a correction restored.
fn restored(input: &Input, event: usize, row: &Row) -> u32 {
    let sections = Sections::of(&input.file).expect("an accepted case");
    let key = |section: Section, record: &[u8], component: usize| {
        (
            section.unit_number(sections.version(), record),
            record[component],
        )
    };
    let mut events = sections.records(Section::Events);
    let record = events.nth(event).expect("an event");
    let reference = sections.records(Section::References).find(|reference| {
        key(Section::References, reference, 2) == key(Section::Events, record, 6)
    });
    let Some(reference) = reference.filter(|_| record[0] == 4 && [1, 3].contains(&record[6]))
    else {
        return 0;
    };
    let r = u32_at(reference, 4) as i32;
    let a = |hour: usize| u32_at(record, 24 + 12 * hour) as i32;
    (0..24)
        .filter(|&hour| {
            row.mitigated.0 >> hour & 1 == 1 && row.bids[hour] == a(hour) && a(hour) > r
        })
        .fold(0, |mask, hour| mask | 1 << hour)
}

/// Hours of a line such as `hours 10–11: by the correction, ..`.
fn restored_in(line: &str) -> u32 {
    let (hours, _) = line.split_once(": ").expect("hours");
    mask_of(
        hours
            .trim_start_matches("hours ")
            .trim_start_matches("hour "),
    )
}

/// The parts of a settlement under its units, which are those of the case.
fn blocks_of<'t>(text: &'t str, generated: &Generated) -> Vec<&'t str> {
    let blocks: Vec<&str> = text.split("\nUnit ").skip(1).collect();
    assert_eq!(blocks.len(), generated.case.units.len());
    for (block, unit) in blocks.iter().zip(&generated.case.units) {
        let start = format!("{}, group {}\n", unit.unit, unit.group);
        assert!(block.starts_with(&start), "{block}");
    }
    blocks
}

/// That the figures of an event are those of its row; whether bids are in force.
fn same_figures(lines: &[&str], event: &Event, row: &Row) -> bool {
    let flags = figure(lines, "flagged hours").map(mask_of);
    assert_eq!(flags, Some(row.flags.0));
    let bids = event.kind() == Kind::BIDS;
    let energy = bids && event.component() == Component::ENERGY;
    assert!(energy || row.make_up.0 == 0);
    let figures = [
        ("mitigated hours", bids, u64::from(row.mitigated.0)),
        ("penalty", !bids, row.penalty.0),
        ("make-up", energy, row.make_up.0),
    ];
    for (name, there, value) in figures {
        let read = |text| match name {
            "mitigated hours" => u64::from(mask_of(text)),
            _ => cents_of(text),
        };
        assert_eq!(figure(lines, name).map(read), there.then_some(value));
    }
    let multiplier = figure(lines, "multiplier").map(multiplier_of);
    let expected = (u16::from(row.multiplier.0), row.n3, row.n2);
    assert_eq!(multiplier, (!bids).then_some(expected));
    let in_force = figure(lines, "bids in force");
    if let Some(list) = in_force {
        assert_eq!(bids_of(list, event.component().0), mitigated_bids(row));
    }
    in_force.is_some()
}

#[test]
fn generated_cases_beside_the_second_implementation() {
    let mut random = Random::new(731);
    let (mut events, mut mitigated, mut with_restored, mut copies) = (0, 0, 0, 0);
    for place in 0..400 {
        let generated = any_case_in(in_turn(place), &mut random);
        let input = generated.input();
        let mut rows = vec![0; input.rows_len];
        let second::Outcome::Settled {
            penalties,
            make_ups,
            ..
        } = second::settle(&input.file, &input.correction, &mut rows)
        else {
            panic!("case {place} is refused");
        };
        let ran = casetool_with("generated.correction", &["settle"], &input);
        copies += copies_of(&input);
        assert_eq!(ran.status, 0, "case {place}");
        let text = ran.text();
        let blocks = blocks_of(text, &generated);
        for (event, record) in generated.case.events.iter().enumerate() {
            let (row, lines) = (Row::of(&rows, event), paragraph(text, event));
            let before = |unit: &Unit| unit.unit < record.unit;
            assert!(blocks[generated.case.units.partition_point(before)].contains(lines[0]));
            mitigated += usize::from(same_figures(&lines, record, &row));
            let said = figure(&lines, "restored").map_or(0, restored_in);
            assert_eq!(said, restored(&input, event, &row), "case {place}");
            with_restored += usize::from(said != 0);
            events += 1;
        }
        let totals = text.split_once("Totals of ").expect("totals").1;
        let sums: Vec<u64> = totals.lines().skip(1).map(cents_of).collect();
        assert_eq!(sums, [penalties, make_ups]);
    }
    println!(
        "400 cases of {events} events, {mitigated} mitigated, {with_restored} restored, {copies} copies"
    );
    assert!(with_restored > 20 && copies > 150);
}

#[test]
fn figures_in_words() {
    for (cents, text) in [
        (0, "$0.00"),
        (5, "$0.05"),
        (99_999, "$999.99"),
        (100_000, "$1,000.00"),
        (u64::MAX, "$184,467,440,737,095,516.15"),
    ] {
        assert_eq!(dollars(Cents(cents)), text);
    }
    assert_eq!(Measure::Dollars.spoken(-123_456_789_i64), "-$1,234,567.89");
    assert_eq!(Measure::Minutes.spoken(1_000_i64), "1,000 minutes");
    assert_eq!(Measure::Power.text(-1), "-0.1 MW");
    for (mask, spoken, text) in [
        (0, "none", "none"),
        (1, "0", "0"),
        (0b1110_0001, "0, 5–7", "0,5-7"),
        (u32::MAX, "0–31", "0-31"),
        (1 << 31 | 1 << 29, "29, 31", "29,31"),
    ] {
        assert_eq!(
            (hours::spoken(mask), hours::text(mask)),
            (spoken.into(), text.into())
        );
        assert_eq!(hours::read_mask(text), Ok(mask));
    }
}

#[test]
fn every_day_has_its_date() {
    for (day, date) in [
        (0, "1 January 2000"),
        (31, "1 February 2000"),
        (59, "29 February 2000"),
        (60, "1 March 2000"),
        (365, "31 December 2000"),
        (366, "1 January 2001"),
        (8_000, "26 November 2021"),
        (36_524, "31 December 2099"),
        (36_525, "1 January 2100"),
        (36_584, "1 March 2100"),
        (146_096, "31 December 2399"),
        (146_097, "1 January 2400"),
        (1_000_000, "28 November 4737"),
    ] {
        assert_eq!(calendar::date(day), date);
    }
    for (date, day) in [
        ("2000-01-01", Some(0)),
        ("2000-02-29", Some(59)),
        ("2021-11-26", Some(8_000)),
        ("2100-03-01", Some(36_584)),
        ("4737-11-28", Some(1_000_000)),
        ("9999-12-31", Some(2_921_939)),
        ("1999-12-31", None),
        ("2100-02-29", None),
        ("2021-11-31", None),
        ("2021-13-01", None),
        ("2021-00-01", None),
        ("2021-01-00", None),
        ("2021-1-01", None),
        ("+021-01-01", None),
        ("2021-01-01-", None),
    ] {
        assert_eq!(calendar::day_of(date), day, "{date}");
    }
}
