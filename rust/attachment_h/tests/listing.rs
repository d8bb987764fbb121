//! The listing against the second implementation's, as text, in both versions, and what it leaves in its buffers. The
//! listing of a version 2 copy is that of version 1.

use attachment_h::{LISTING_LENGTH, ROWS_LENGTH, TooShort, list_into, listing};
use cases::generator::{any_case_in, case, random_bytes_in};
use cases::{Case, Event, Generated, Input, Market, Random, Size, Unit, Version, Wanted};

/// The shipped case in a version, its units under these numbers.
fn shipped(version: Version, numbers: [u32; 2]) -> Vec<u8> {
    let unit = |unit, capability| Unit {
        unit,
        group: 7,
        capability,
        ..Unit::default()
    };
    let [first, second] = numbers;
    let event = Event::withheld(8_000, Market::DAY_AHEAD, first, &[(0, 501, 4_000)]);
    let case = Case {
        version,
        units: vec![unit(first, 5_000), unit(second, 15_000)],
        events: vec![event],
        ..Case::default()
    };
    case.to_bytes()
}

#[test]
fn shipped_case() {
    for version in Version::ALL {
        assert_eq!(
            listing(&shipped(version, [12, 13])),
            "8000 1 12 0 0 1 0 2 200400 0\ntotal 200400 0\n"
        );
        let empty = Case::default().in_version(version);
        assert_eq!(listing(&empty.to_bytes()), "total 0 0\n");
    }
    assert_eq!(listing(&[]), "refused 1\n");
    assert_eq!(listing(&[0; 65_001]), "refused 1\n");
}

#[test]
fn six_digit_numbers() {
    for number in [0, 65_535, 65_536, 100_000, 999_998] {
        let text = format!("8000 1 {number} 0 0 1 0 2 200400 0\ntotal 200400 0\n");
        assert_eq!(listing(&shipped(Version::Two, [number, 999_999])), text);
    }
    let past_six_digits = shipped(Version::Two, [12, 1_000_000]);
    assert_eq!(listing(&past_six_digits), "refused 17\n");
}

/// The listing of a version 2 case as it is in version 1, with its units numbered through.
fn numbered_through(generated: &Generated, text: &str) -> String {
    let through = generated.numbered_through();
    let mut events = through.case.events.iter();
    text.lines()
        .map(|line| {
            let mut words: Vec<String> = line.split(' ').map(String::from).collect();
            if let Some(event) = events.next() {
                words[2] = event.unit.to_string();
            }
            words.join(" ") + "\n"
        })
        .collect()
}

#[test]
fn generated_cases() {
    for version in Version::ALL {
        let mut random = Random::new(501);
        let (mut lines, mut refused, mut copies, mut through) = (0, 0, 0, 0);
        for place in 0..6_000 {
            let full = Wanted::of(Size::Full).in_version(version);
            let (generated, input) = match place % 30 {
                0 => made(case(&mut random, full)),
                1..=9 => (None, random_bytes_in(version, &mut random)),
                _ => made(any_case_in(version, &mut random)),
            };
            let text = listing(&input.file);
            assert_eq!(
                text,
                second::listing(&input.file),
                "{version:?}, case {place}"
            );
            if let Some(copy) = input.version_2_copy() {
                assert_eq!(listing(&copy.file), text, "case {place}, copied");
                assert_eq!(second::listing(&copy.file), text, "case {place}, copied");
                copies += 1;
            }
            if let Some(generated) = generated.filter(|_| version == Version::Two) {
                let of_version_1 = listing(&generated.numbered_through().input().file);
                assert_eq!(of_version_1, numbered_through(&generated, &text));
                through += 1;
            }
            lines += text.lines().count();
            refused += usize::from(text.starts_with("refused"));
        }
        println!(
            "{version:?}: 6000 listings of {lines} lines, {refused} refusals, {copies} copies, {through} numbered through"
        );
        assert!(lines > 50_000 && refused > 1_000);
        assert_eq!(copies > 3_000, version == Version::One);
        assert_eq!(through > 3_000, version == Version::Two);
    }
}

/// A generated case with its bytes.
fn made(generated: Generated) -> (Option<Generated>, Input) {
    let input = generated.input();
    (Some(generated), input)
}

#[test]
fn buffers() {
    let mut random = Random::new(502);
    let mut copies = 0;
    for place in 0..400 {
        let input = any_case_in(Version::ALL[place % 2], &mut random).input();
        let text = second::listing(&input.file);
        let both = input.with_copy();
        copies += both.len() - 1;
        for input in both {
            buffers_of(&input.file, &text);
        }
    }
    println!("buffers of 400 cases and {copies} copies");
    assert!(copies > 150);
}

/// What the listing of a file leaves in its buffers.
fn buffers_of(file: &[u8], text: &str) {
    // Too short for the longest listing: nothing is written.
    let (mut rows, mut out) = (vec![0xA5; ROWS_LENGTH], vec![0x5A; LISTING_LENGTH - 1]);
    assert_eq!(list_into(file, &mut rows, &mut out), Err(TooShort));
    assert!(rows.iter().all(|&byte| byte == 0xA5));
    assert!(out.iter().all(|&byte| byte == 0x5A));
    // The text, and after it what was there; the rows as settling leaves them.
    out.extend([0x5A; 9]);
    let length = list_into(file, &mut rows, &mut out).expect("a buffer that is long enough");
    assert_eq!(&out[..length], text.as_bytes());
    assert!(out[length..].iter().all(|&byte| byte == 0x5A));
    let mut settled = vec![0xA5; ROWS_LENGTH];
    second::settle(file, &[], &mut settled);
    assert_eq!(rows, settled);
}
