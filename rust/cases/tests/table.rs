//! The calendar's table: the constant in the source beside what the generator program prints.

use cases::calendar::{FIRST_DAY_BEYOND, day_of};
use std::fs;
use std::path::PathBuf;

fn project_file(path: &str) -> String {
    let path = PathBuf::from(env!("CARGO_MANIFEST_DIR"))
        .join("../..")
        .join(path);
    fs::read_to_string(&path).unwrap_or_else(|error| panic!("{}: {error}", path.display()))
}

/// The numbers between the brackets of the constant.
fn constant(source: &str) -> Vec<u32> {
    let (_, rest) = source
        .split_once("const MONTH_START: [u16; MONTHS] = [")
        .expect("the constant");
    let (entries, _) = rest.split_once(']').expect("its end");
    let words = entries.split(',').map(str::trim);
    let numbers = words.filter(|word| !word.is_empty()).map(str::parse);
    numbers.map(|number| number.expect("a number")).collect()
}

#[test]
fn the_constant_is_what_the_generator_prints() {
    let table = constant(&project_file("crates/calendar/src/table.rt"));
    let printed: Vec<u32> = project_file("crates/month_starts/stdout")
        .lines()
        .map(|line| line.parse().expect("a number"))
        .collect();
    assert_eq!(table.len(), 1_200);
    assert_eq!(table, printed);
}

#[test]
fn every_entry_is_the_first_day_of_its_month() {
    let table = constant(&project_file("crates/calendar/src/table.rt"));
    for (month, &start) in (0..).zip(&table) {
        let (year, month) = (2000 + month / 12, month % 12 + 1);
        assert_eq!(start, day_of(year, month, 1), "{year}-{month}");
    }
    assert_eq!(table.last().map(|last| last + 31), Some(FIRST_DAY_BEYOND));
}
