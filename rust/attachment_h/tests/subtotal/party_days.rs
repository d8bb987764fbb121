//! The subtotals of a party-day add to its E, whatever the correction, and settling gives the same rows after them.

use attachment_h::{penalty_working, settle, subtotal};
use cases::generator::case;
use cases::{Generated, Random, Size, Version, Wanted};

use crate::many_plants::many_plants;
use crate::party_days;

/// How many party-days were added up.
#[derive(Debug, Default)]
struct Added {
    party_days: [usize; 3],
    e_below_0: usize,
    with_a_correction: usize,
    events_with_a_correction: usize,
    rows: usize,
}

impl Added {
    /// All party-days of a case that settles with its correction.
    fn add(&mut self, generated: &Generated, what: &str) {
        let input = generated.input();
        let mut before = vec![0xA5; input.rows_len];
        let settled = settle(&input.file, &input.correction, &mut before).expect(what);
        for events in party_days(&generated.case).values() {
            let subtotals = events.iter().map(|&event| subtotal(&input.file, event));
            let sum: i64 = subtotals.map(|figure| figure.expect(what)).sum();
            for &event in events {
                for correction in [&input.correction[..], &[]] {
                    let worked = penalty_working(&input.file, correction, event).expect(what);
                    assert_eq!(worked.e(), sum, "{what}, event {event}");
                }
            }
            self.party_days[events.len().min(3) - 1] += 1;
            self.e_below_0 += usize::from(sum < 0);
            if !input.correction.is_empty() {
                self.with_a_correction += 1;
                self.events_with_a_correction += events.len();
            }
        }
        let mut after = vec![0x5A; input.rows_len];
        let again = settle(&input.file, &input.correction, &mut after);
        assert_eq!(again, Ok(settled), "{what}");
        assert!(after == before, "{what}: other rows");
        self.rows += settled.rows;
    }
}

#[test]
fn generated_cases() {
    for version in Version::ALL {
        let mut random = Random::new(911);
        let mut added = Added::default();
        for (size, count) in [(Size::Small, 6_000), (Size::Medium, 300), (Size::Full, 6)] {
            for place in 0..count {
                let generated = case(&mut random, Wanted::of(size).in_version(version));
                added.add(&generated, &format!("{version:?}, {size:?} {place}"));
            }
        }
        println!("{version:?}, generated: {added:?}");
        assert!(added.party_days.iter().all(|&days| days > 100));
        assert!(added.e_below_0 > 500 && added.rows > 30_000);
        assert!(added.with_a_correction > 500 && added.events_with_a_correction > 500);
    }
}

#[test]
fn many_plants_in_a_party_day() {
    for version in Version::ALL {
        let mut random = Random::new(912);
        let mut added = Added::default();
        for place in 0..60 {
            let generated = many_plants(version, &mut random);
            added.add(&generated, &format!("{version:?}, many plants {place}"));
        }
        println!("{version:?}, many plants: {added:?}");
        assert!(added.party_days[2] > 300 && added.e_below_0 > 100);
    }
}
