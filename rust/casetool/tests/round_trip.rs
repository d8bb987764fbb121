//! From file to text and back, byte for byte, in both versions: generated cases, faulty ones whose sections can be
//! read, sections of noise, and corrections. Then texts that people may write, and their own text.

mod support;

use attachment_h::layout::{Section, Sections, Version};
use cases::Random;
use cases::case::{Input, file_in};
use cases::faults::faults_in;
use cases::generator::{Size, Wanted, case, random_bytes_in};
use casetool::text::show::{case_text, correction_text};
use casetool::text::write::{case_file, correction};
use support::alike::text_of_copy;
use support::{casetool, copies, in_turn, repository, written};

/// Shows a file and writes it again, if it has sections to show: its text.
fn comes_back(file: &[u8]) -> Option<String> {
    let Some(sections) = Sections::of(file) else {
        assert!(matches!(
            attachment_h::check(file, &[], 0),
            Err(attachment_h::Refused(1..=5))
        ));
        let shown = casetool(&["show"], file);
        assert_eq!((shown.status, shown.output.len()), (1, 0));
        return None;
    };
    let text = case_text(&sections);
    let again = case_file(text.as_bytes()).unwrap_or_else(|error| panic!("{error}\n{text}"));
    assert!(again.bytes == file, "another file of\n{text}");
    Some(text)
}

/// The same of a file and of its copy, if it has one: how many have sections to show, and how many of them are copies.
fn both_come_back(file: &[u8]) -> (usize, usize) {
    let Some(text) = comes_back(file) else {
        return (0, 0);
    };
    let Some(copy) = copies::of_case(file) else {
        return (1, 0);
    };
    assert_eq!(comes_back(&copy), Some(text_of_copy(&text)));
    (2, 1)
}

/// Shows a correction and writes it again: its text.
fn correction_comes_back(version: Version, bytes: &[u8]) -> String {
    let text = correction_text(version, bytes);
    let again = correction(text.as_bytes()).map(|written| written.bytes);
    assert_eq!(again.as_deref(), Ok(bytes), "{text}");
    text
}

/// The same of a correction and of its copy, if it is of version 1: how many.
fn both_corrections_come_back(version: Version, bytes: &[u8]) -> usize {
    let text = correction_comes_back(version, bytes);
    if version == Version::Two {
        return 1;
    }
    let copy = copies::of_correction(bytes).expect("whole records");
    let expected = text_of_copy(&text);
    assert_eq!(correction_comes_back(Version::Two, &copy), expected);
    2
}

#[test]
fn accepted() {
    let mut random = Random::new(701);
    let (mut bytes, mut copies, mut corrections) = (0, 0, 0);
    for place in 0..2_500 {
        let size = match place % 50 {
            0 | 1 => Size::Full,
            2..=11 => Size::Medium,
            _ => Size::Small,
        };
        let version = in_turn(place);
        let generated = case(&mut random, Wanted::of(size).in_version(version));
        let input = generated.input();
        let (shown, of_copies) = both_come_back(&input.file);
        assert_eq!(shown, 1 + of_copies, "case {place}");
        copies += of_copies;
        corrections += both_corrections_come_back(version, &input.correction);
        bytes += input.file.len();
    }
    println!("2,500 accepted cases of {bytes} bytes, {copies} copies, {corrections} corrections");
    assert_eq!(copies, 1_250 - 50);
}

#[test]
fn faulty() {
    let mut random = Random::new(702);
    for version in Version::ALL {
        let (mut shown, mut copies, mut not_shown) = (0, 0, 0);
        for fault in faults_in(version) {
            for _ in 0..25 {
                let wanted = Wanted::every_kind().in_version(version);
                let good = case(&mut random, wanted).input();
                let Some(input) = fault.put_into(&good, &mut random) else {
                    continue;
                };
                let (files, of_copies) = both_come_back(&input.file);
                assert_eq!(files > 0, fault.number > 5, "{}", fault.name);
                shown += files - of_copies;
                copies += of_copies;
                not_shown += usize::from(files == 0);
            }
        }
        println!(
            "{version:?}: {shown} faulty files shown, {copies} copies, {not_shown} without sections"
        );
        assert!(shown > 1_000);
        assert_eq!(copies, if version == Version::One { shown } else { 0 });
    }
}

/// Sections of whole records with noise in them, or with noise in some of their bytes.
fn noise(version: Version, random: &mut Random) -> [Vec<u8>; 4] {
    let sparse = random.chance(1, 2);
    Section::ALL.map(|section| {
        (0..section.width(version) * random.below(4))
            .map(|_| match sparse && !random.chance(1, 30) {
                true => 0,
                false => random.bits() as u8,
            })
            .collect()
    })
}

/// Gives the units and events of noise mostly what the limits allow: units of three numbers, so that events find none,
/// one or two of them, areas, kinds, markets and components. What stands in old fields is left now and then.
fn liken(version: Version, sections: &mut [Vec<u8>; 4], random: &mut Random) {
    let number = |section: Section, record: &mut [u8], random: &mut Random| {
        let old = section.old_number(record);
        let least = match version {
            Version::One => 0,
            Version::Two => 65_534,
        };
        section.put_unit_number(version, record, least + random.below(3) as u32);
        if version == Version::Two && random.chance(1, 3) {
            section.put_unit_number(Version::One, record, old.into());
        }
    };
    let [units, _, _, events] = sections;
    for unit in units.chunks_exact_mut(Section::Units.width(version)) {
        number(Section::Units, unit, random);
        unit[4] = random.below(3) as u8;
    }
    for event in events.chunks_exact_mut(Section::Events.width(version)) {
        number(Section::Events, event, random);
        event[0] = random.below(6) as u8;
        event[1] = random.below(3) as u8;
        event[6] = random.below(10) as u8;
    }
}

#[test]
fn any_content() {
    let mut random = Random::new(703);
    for version in Version::ALL {
        let (mut shown, mut copies, mut corrections, mut old_numbers) = (0, 0, 0, 0);
        for _ in 0..3_000 {
            let mut sections = noise(version, &mut random);
            liken(version, &mut sections, &mut random);
            let file = file_in(version, &sections);
            let (files, of_copies) = both_come_back(&file);
            assert_eq!(files, 1 + usize::from(version == Version::One));
            let text = case_text(&Sections::of(&file).expect("sections"));
            old_numbers += usize::from(text.contains(" old-number "));
            let Input { file, .. } = random_bytes_in(version, &mut random);
            let (changed, of_changed) = both_come_back(&file);
            shown += changed - of_changed;
            copies += of_copies + of_changed;
        }
        assert_eq!(old_numbers > 500, version == Version::Two);
        for length in 0..256 {
            let bytes =
                (0..Section::References.width(version) * length).map(|_| random.bits() as u8);
            corrections += both_corrections_come_back(version, &bytes.collect::<Vec<u8>>());
        }
        println!(
            "{version:?}: 3,000 files of noise, {old_numbers} with old numbers, {shown} of 3,000 changed ones, {copies} copies, {corrections} corrections"
        );
    }
}

/// The canonical text of a text.
fn canonical(text: &str) -> String {
    let file = case_file(text.as_bytes()).unwrap_or_else(|error| panic!("{error}\n{text}"));
    let shown = casetool(&["show"], &file.bytes);
    assert_eq!(shown.status, 0);
    shown.text().to_string()
}

#[test]
fn fixed_point() {
    for name in ["two-plants.txt", "new-plant.txt"] {
        let path = repository(&format!("examples/{name}"));
        let text = std::fs::read_to_string(path).expect("the example");
        let shown = canonical(&text);
        assert_ne!(shown, text);
        assert_eq!(canonical(&shown), shown);
        assert_eq!(written(&shown), written(&text));
    }
    for version in ["version 1", "version 2"] {
        let empty = "# case: 0 units, 0 references, 0 past entries, 0 events";
        assert_eq!(canonical(version), format!("{version}\n{empty}\n"));
    }
    assert_eq!(canonical(""), canonical("version 1"));
}

/// A text with every key, at the edges of its field.
const EVERY_KEY: &str = "\
order as-written
version 1
# case: 1 unit, 2 references, 1 past entry, 4 events

unit 65535 group 0 area 255 spare-5 1 spare-6 2 spare-7 3 capability 429496729.5 MW response-rate 0.1 MW/min average-price $42949672.95 constrained-hours 65535 spare-22 4 spare-23 255

reference unit 1 component 9 spare-3 7 value 4294967295
reference unit 1 component minimum-down-time value 4294967295 minutes

past group 65535 kind dispatch market 2 period 65535 spare-6 1 spare-7 2 day 4294967295  # 19 January 11761221

event day 0 kind 0 market 255 unit 0 period 0 impact 255 P 24-31 Q 1 R 4294967295  # event 0, 1 January 2000
  hour 23 a 1 b 2 m 3
event day 59 kind withheld market day-ahead unit 0 period 0 component maximum-parameter impact 0 shadow-price-hours 0,2,4-31 Q 7 R 8  # event 1, 29 February 2000
  hours 0-23 withheld 429496729.5 MW price -$21474836.48 m 9
event day 60 kind fuel market day-ahead unit 0 period 0 impact 1 inaccurate-hours 0 guarantee-change -$0.01 tcc-change $21474836.47  # event 2, 1 March 2000
  hour 0 energy 0.1 MWh price-change -$0.05 m 4294967295
event day 366 kind bids market real-time unit 0 period 0 component start-up-time impact-hours 31 minimum-run-hours 4294967295  # event 3, 1 January 2001
  hour 1 bid -2147483648 minutes
  hours 2-3 bid 0 minutes price $0.01
  hour 4 bid 0 minutes quantity 0.1 MW
";

#[test]
fn every_key_out_of_the_ordinary() {
    assert_eq!(canonical(EVERY_KEY), EVERY_KEY);
    let mut text = EVERY_KEY.to_string();
    for (good, changed) in [
        ("version 1", "version 2"),
        ("unit 65535 group", "unit 4294967295 old-number 65535 group"),
        ("unit 1 component 9", "unit 65536 old-number 1 component 9"),
        (
            "255 unit 0 period",
            "255 unit 1000000 old-number 256 period",
        ),
    ] {
        assert_eq!(text.matches(good).count(), 1, "{good}");
        text = text.replace(good, changed);
    }
    assert_eq!(canonical(&text), text);
    // One that is 0 is not shown.
    let zero = text.replace("period 0 inaccurate", "period 0 old-number 0 inaccurate");
    assert_eq!(canonical(&zero), text);
    let file = case_file(text.as_bytes()).expect("a case").bytes;
    assert_eq!(file.len(), 36 + 28 + 2 * 12 + 12 + 4 * 316);
}

#[test]
fn other_ways_to_write() {
    let canonical_text = canonical(
        "unit 12 group 7 area no capability 500.0 MW average-price $50.00\n\
         event day 8000 kind bids market real-time unit 12 period 44 component energy impact-hours none\n\
         hours 5-7 bid -$5.00 price $0.00 quantity 0.0 MW\n",
    );
    for text in [
        "unit 12 capability 500 area 0 group 7 average-price 50\r\n\
         event unit 12 component 0 impact-hours none market 1 kind 4 period 44 day 2021-11-26\r\n\
         \thours 5,6,7 quantity 0 price 0 bid -5\r\n",
        "\u{feff}event day 8000 kind bids market real-time unit 12 period 44 component energy impact-hours none # late\n\
         hour 6 bid -5.0 price -0 quantity 0\n  hours 5,7 bid -$5 price 0 quantity 0 MW\n\
         hour 20 bid 0 price 0 quantity 0\n\n# the unit comes after\nunit 12 group 7 area no capability 500.0 MW average-price 50.0",
        "unit 012 group 7 capability 0500 area 0 average-price $50.00\n\
         event day 8000 kind bids market real-time unit 12 period 44 component energy impact-hours none\n\
         hours 5-6,7 bid -$05.00 price $0.0 quantity 0.0",
    ] {
        assert_eq!(canonical(text), canonical_text);
    }
}
