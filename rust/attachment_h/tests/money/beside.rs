//! Generated cases beside the second implementation.

use attachment_h::{Cents, Kind, Multiplier, Refused};
use cases::generator::case;
use cases::{Event, Generated, Random, Size, Version, Wanted};

use crate::{Inputs, Worked, both};

/// Events by kind and market, and how many of them have what a working tells apart.
#[derive(Debug, Default)]
struct Seen {
    events: [[usize; 2]; 4],
    in_both_versions: usize,
    instances: usize,
    amounts_without_multiplier: usize,
    counted_events: usize,
    counted_past: usize,
    counted_by_n3_alone: usize,
    revenues_without_multiplier: usize,
    borne_by_another_row: usize,
    raised: usize,
    below: usize,
    negative_e: usize,
    corrected: usize,
    make_ups: usize,
    tenths_without_make_up: usize,
    restored: usize,
    not_restored: usize,
    too_short: usize,
    exact: usize,
    longer: usize,
    no_such_event: usize,
}

impl Seen {
    fn add(&mut self, place: usize, event: &Event, worked: &Worked) {
        self.events[usize::from(event.kind().0) - 1][usize::from(event.market.0)] += 1;
        self.in_both_versions += usize::from(worked.versions == 2);
        self.add_counts(worked);
        self.add_penalty(place, worked);
        self.add_make_up(event, worked);
        match worked.out.len() {
            ..114 => self.too_short += 1,
            114 => self.exact += 1,
            115.. => self.longer += 1,
        }
    }

    fn add_counts(&mut self, worked: &Worked) {
        let (three, two) = (&worked.instances.three, &worked.instances.two);
        self.instances += usize::from(worked.penalty.n3 > 0);
        self.counted_events += three.events.len();
        self.counted_past += three.past.len();
        self.counted_by_n3_alone += three.events.len() - two.events.len();
        self.counted_by_n3_alone += three.past.len() - two.past.len();
    }

    fn add_penalty(&mut self, place: usize, worked: &Worked) {
        let penalty = &worked.penalty;
        let without = penalty.multiplier == Multiplier(0);
        self.amounts_without_multiplier += usize::from(without && penalty.amount > 0);
        self.revenues_without_multiplier += usize::from(without && penalty.revenue > 0);
        self.borne_by_another_row += usize::from(penalty.row != place);
        let fuel = penalty.kind == Kind::FUEL;
        self.raised += usize::from(fuel && penalty.multiplier == Multiplier(3));
        self.below += usize::from(penalty.below);
        self.negative_e += usize::from(penalty.e() < 0);
    }

    fn add_make_up(&mut self, event: &Event, worked: &Worked) {
        let make_up = &worked.make_up;
        let reads = event.kind() == Kind::BIDS && matches!(event.component().0, 0 | 1 | 3);
        let corrected = reads && make_up.correct != make_up.reference;
        self.corrected += usize::from(corrected);
        self.make_ups += usize::from(make_up.make_up > Cents(0));
        let nothing_due = make_up.correct == make_up.reference;
        self.tenths_without_make_up += usize::from(nothing_due && make_up.tenths > 0);
        let restored = make_up.restored.hours().count();
        self.restored += restored;
        if corrected && event.component().0 != 0 {
            self.not_restored += make_up.mitigated.hours().count() - restored;
        }
    }

    fn done(&self) {
        println!("{self:?}");
        let [withheld, [no_dispatch, dispatch], fuel, bids] = self.events;
        assert_eq!(no_dispatch, 0);
        let in_both = [withheld, fuel, bids];
        assert!(dispatch > 300 && in_both.iter().flatten().all(|&events| events > 300));
        let counted = [
            self.instances,
            self.amounts_without_multiplier,
            self.counted_events,
            self.counted_past,
            self.counted_by_n3_alone,
            self.revenues_without_multiplier,
            self.borne_by_another_row,
            self.raised,
            self.below,
            self.negative_e,
            self.corrected,
            self.make_ups,
            self.tenths_without_make_up,
            self.restored,
            self.not_restored,
            self.too_short,
            self.exact,
            self.longer,
        ];
        assert!(counted.iter().all(|&events| events > 50));
    }
}

#[test]
fn generated_cases() {
    // Every case but the six full ones has a copy.
    let (events, in_a_copy) = generated_cases_of(Version::One);
    assert_eq!(in_a_copy, events - 6 * 200);
}

#[test]
fn generated_cases_of_version_2() {
    let (events, numbered_through) = generated_cases_of(Version::Two);
    assert_eq!(numbered_through, events);
}

/// The events of generated cases; how many there are, and how many were worked in the other version too.
fn generated_cases_of(version: Version) -> (usize, usize) {
    let mut random = Random::new(901);
    let (mut seen, mut events) = (Seen::default(), 0);
    for (size, count) in [(Size::Small, 6_000), (Size::Medium, 300), (Size::Full, 6)] {
        for place in 0..count {
            let generated = case(&mut random, Wanted::of(size).in_version(version));
            let what = format!("{version:?}, {size:?} {place}");
            work(&generated, &mut random, &mut seen, &what);
            events += generated.case.events.len();
        }
    }
    seen.done();
    assert_eq!(seen.events.iter().flatten().sum::<usize>(), events);
    (events, seen.in_both_versions)
}

/// All events of a case, and some that it does not have.
fn work(generated: &Generated, random: &mut Random, seen: &mut Seen, what: &str) {
    let (inputs, events) = (Inputs::of_case(generated), &generated.case.events);
    for (event, record) in events.iter().enumerate() {
        let worked = both(random, &inputs, event, what).expect(what);
        seen.add(event, record, &worked);
    }
    for event in [events.len(), events.len() + 1, 256, 1 << 32, usize::MAX] {
        let worked = both(random, &inputs, event, what);
        assert_eq!(worked.err(), Some(Refused(10)), "{what}, event {event}");
        seen.no_such_event += 1;
    }
}
