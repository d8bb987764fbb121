//! Generated cases of both versions are accepted, and so are the version 2 copies of version 1.

use cases::case::{LARGEST_FILE, ROW_BYTES};
use cases::generator::{any_case_in, case, random_bytes_in};
use cases::{Component, Input, Kind, Market, Random, Row, Size, Version, Wanted};
use second::{Outcome, listing, refusal, settle};

#[test]
fn generated_cases_are_accepted() {
    for version in Version::ALL {
        let mut random = Random::new(1);
        let mut copies = 0;
        for place in 0..4_000 {
            let both = any_case_in(version, &mut random).input().with_copy();
            copies += both.len() - 1;
            for input in both {
                let number = refusal(&input.file, &input.correction, input.rows_len);
                assert_eq!(number, 0, "{version:?}, case {place}");
            }
        }
        assert_eq!(copies > 3_500, version == Version::One);
    }
}

#[test]
fn full_cases_have_200_events_in_65000_bytes() {
    for version in Version::ALL {
        let mut random = Random::new(2);
        for _ in 0..300 {
            let generated = case(&mut random, Wanted::of(Size::Full).in_version(version));
            let input = generated.input();
            assert_eq!(generated.case.events.len(), 200);
            assert_eq!(input.file.len(), LARGEST_FILE);
            assert_eq!(refusal(&input.file, &input.correction, input.rows_len), 0);
        }
    }
}

#[test]
fn random_bytes_are_refused_or_settled() {
    random_bytes_of(Version::One, &[0, 1, 2, 4, 6, 8, 10, 18, 19]);
    random_bytes_of(Version::Two, &[0, 1, 2, 4, 6, 8, 10, 17, 18, 19]);
}

/// Random bytes of a version, which have all these numbers.
fn random_bytes_of(version: Version, reached: &[usize]) {
    let mut random = Random::new(3);
    let (mut numbers, mut copies) = ([0; 20], 0);
    for _ in 0..6_000 {
        let input = random_bytes_in(version, &mut random);
        let number = refused_or_settled(&input);
        numbers[usize::from(number)] += 1;
        if let Some(copy) = input.version_2_copy() {
            assert_eq!(refused_or_settled(&copy), number);
            copies += 1;
        }
    }
    println!("{version:?}, refusals by number: {numbers:?}, {copies} copies");
    for &number in reached {
        assert!(numbers[number] > 0, "{number}");
    }
    assert_eq!(copies > 1_000, version == Version::One);
}

/// The number of an input, which leaves its rows as they were, or 0, and then the bytes beyond the rows.
fn refused_or_settled(input: &Input) -> u8 {
    let number = refusal(&input.file, &input.correction, input.rows_len);
    let mut rows = vec![0x5A; input.rows_len];
    let written = match settle(&input.file, &input.correction, &mut rows) {
        Outcome::Refused(again) => {
            assert_eq!(again, number);
            0
        }
        Outcome::Settled { rows, .. } => {
            assert_eq!(number, 0);
            ROW_BYTES * rows
        }
    };
    assert!(rows[written..].iter().all(|&byte| byte == 0x5A));
    number
}

#[test]
fn rows_do_not_depend_on_what_the_buffer_held() {
    let mut random = Random::new(11);
    for place in 0..400 {
        let input = any_case_in(Version::ALL[place % 2], &mut random).input();
        let rows = rows_over_zeros_and_ones(&input);
        if let Some(copy) = input.version_2_copy() {
            assert_eq!(
                rows_over_zeros_and_ones(&copy),
                rows,
                "case {place}, copied"
            );
        }
    }
}

/// The rows of an input, the same in a buffer of zeros and in one of ones, which both end as they did.
fn rows_over_zeros_and_ones(input: &Input) -> Vec<u8> {
    let [zeros, ones] = [0x00, 0xFF].map(|held| {
        let mut buffer = vec![held; input.rows_len + 40];
        let outcome = settle(&input.file, &input.correction, &mut buffer);
        assert!(matches!(outcome, Outcome::Settled { .. }));
        let beyond = buffer.split_off(input.rows_len);
        assert_eq!(beyond, [held; 40]);
        (outcome, buffer)
    });
    assert_eq!(zeros, ones);
    zeros.1
}

#[test]
fn listings_say_what_the_rows_say() {
    let mut random = Random::new(12);
    for place in 0..400 {
        let generated = any_case_in(Version::ALL[place % 2], &mut random);
        let input = generated.input();
        let mut buffer = vec![0; input.rows_len];
        let outcome = settle(&input.file, &[], &mut buffer);
        let Outcome::Settled {
            penalties,
            make_ups,
            ..
        } = outcome
        else {
            panic!("{outcome:?}");
        };
        let mut expected = String::new();
        for (place, event) in generated.case.events.iter().enumerate() {
            let row = Row::of(&buffer, place);
            // Without a correction c = r, so the make-up column is 0.
            assert_eq!(row.make_up.0, 0);
            let (day, Kind(kind), Market(market), unit, Component(component)) = event.order();
            let (flags, mitigated) = (row.flags.0, row.mitigated.0);
            expected += &format!("{day} {kind} {unit} {market} {component} {flags} {mitigated}");
            expected += &format!(
                " {} {} {}\n",
                row.multiplier.0, row.penalty.0, row.make_up.0
            );
        }
        expected += &format!("total {penalties} {make_ups}\n");
        assert_eq!(listing(&input.file), expected);
        if let Some(copy) = input.version_2_copy() {
            assert_eq!(listing(&copy.file), expected, "case {place}, copied");
        }
    }
}
