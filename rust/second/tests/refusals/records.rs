//! The fields of units, references, corrections and past entries (docs/RULES.md, L6 to L9).

use cases::{Kind, Market, Past, Reference, Unit};

use crate::common::{number, number_of, past_withheld, reference, unit};
use crate::{full, with_byte};

/// Units of which each breaks 6 after unit 12.
fn bad_units() -> [Unit; 7] {
    [
        Unit {
            capability: 0,
            ..unit(13, 7)
        },
        Unit {
            capability: 50_001,
            ..unit(13, 7)
        },
        Unit {
            response_rate: 50_001,
            ..unit(13, 7)
        },
        Unit {
            average_price: 1_000_001,
            ..unit(13, 7)
        },
        Unit {
            constrained_hours: 8_785,
            ..unit(13, 7)
        },
        // Strictly rising.
        unit(12, 7),
        unit(11, 7),
    ]
}

#[test]
fn unit_ranges() {
    let largest = Unit {
        capability: 50_000,
        response_rate: 50_000,
        average_price: 1_000_000,
        constrained_hours: 8_784,
        area: 1,
        ..unit(13, 65_535)
    };
    let bad = bad_units().map(|change| (change, 6));
    for (change, expected) in [(largest, 0)].into_iter().chain(bad) {
        let mut case = full();
        case.units[1] = change;
        assert_eq!(number(&case, &[]), expected, "{change:?}");
    }
    for spare in [5, 6, 7, 22, 23] {
        assert_eq!(with_byte(0, spare, 1), 6, "spare byte {spare}");
    }
}

/// References, and whether they have a fault.
fn lists_of_references() -> Vec<(Vec<Reference>, bool)> {
    vec![
        (
            vec![reference(12, 0, 1_000_000), reference(12, 2, 1_000_000)],
            false,
        ),
        (vec![reference(12, 0, 1_000_001)], true),
        (vec![reference(12, 0, 1), reference(12, 1, 1_000_001)], true),
        (vec![reference(12, 0, 1), reference(12, 2, 1_000_001)], true),
        (
            vec![reference(12, 0, 1), reference(12, 3, 1_000_000_000)],
            false,
        ),
        (
            vec![reference(12, 0, 1), reference(12, 3, 1_000_000_001)],
            true,
        ),
        (
            vec![reference(12, 0, 1), reference(12, 8, 1_000_000_001)],
            true,
        ),
        (vec![reference(12, 0, 1), reference(12, 9, 1)], true),
        // Strictly rising by (unit, component).
        (vec![reference(12, 0, 1), reference(12, 0, 1)], true),
        (vec![reference(12, 1, 1), reference(12, 0, 1)], true),
        (vec![reference(13, 0, 1), reference(12, 0, 1)], true),
        (vec![reference(12, 0, 1), reference(13, 0, 1)], false),
        // Unlisted unit.
        (vec![reference(12, 0, 1), reference(14, 0, 1)], true),
    ]
}

#[test]
fn reference_and_correction_ranges() {
    for (records, fault) in lists_of_references() {
        let mut case = full();
        case.references = records.clone();
        assert_eq!(number(&case, &[]), if fault { 7 } else { 0 }, "{records:?}");
        assert_eq!(
            number(&full(), &records),
            if fault { 8 } else { 0 },
            "{records:?}"
        );
    }
    assert_eq!(with_byte(1, 3, 1), 7);
    let file = full().to_bytes();
    // A spare byte of the correction.
    assert_eq!(number_of(&file, &[12, 0, 0, 1, 1, 0, 0, 0], 1_000), 8);
    assert_eq!(number_of(&file, &[12, 0, 0, 0, 1, 0, 0, 0], 1_000), 0);
    // 8 also looks at a correction of no multiple of 8 whose whole records are good.
    assert_eq!(number_of(&file, &[12, 0, 0, 0, 1, 0, 0, 0, 0], 1_000), 8);
}

/// The number of a case with one more past entry.
pub fn entry(past: Past) -> u8 {
    let mut case = full();
    case.past.push(past);
    number(&case, &[])
}

#[test]
fn past_ranges() {
    let good = past_withheld(7, Market::REAL_TIME, 200);
    assert_eq!(entry(good), 0);
    assert_eq!(entry(Past { group: 999, ..good }), 0);
    for kind in [0, 2, 4, 255] {
        assert_eq!(
            entry(Past {
                kind: Kind(kind),
                ..good
            }),
            9
        );
    }
    assert_eq!(
        entry(Past {
            kind: Kind::FUEL,
            ..good
        }),
        0
    );
    assert_eq!(
        entry(Past {
            market: Market(2),
            ..good
        }),
        9
    );
    for spare in [6, 7] {
        assert_eq!(with_byte(2, spare, 1), 9);
    }
}
