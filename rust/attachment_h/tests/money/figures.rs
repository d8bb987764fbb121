//! What a working says, held to the settled rows, to the fields of the case and to the smaller calls.

use attachment_h::{
    BidHour, Cents, Counted, Instances, Kind, MakeUpWorking, Mask, Multiplier, PenaltyWorking, Row,
    bid_fails, dispatch_penalty, fuel_day_counts, fuel_penalty, instances, make_up,
    make_up_working, multiplier, penalty_working, period_counts, settle, withheld_penalty,
};
use cases::case::{DispatchHour, WithheldHour};
use cases::generator::case;
use cases::{Case, Conduct, Event, Generated, Input, Market, Random, Size, Unit};
use cases::{Version, Wanted};

use crate::of_make_up;

/// A case with its rows and the workings of all its events.
#[derive(PartialEq)]
struct Settled<'a> {
    what: &'a str,
    case: &'a Case,
    rows: Vec<Row>,
    penalties: Vec<PenaltyWorking>,
    instances: Vec<Instances>,
    make_ups: Vec<MakeUpWorking>,
}

/// How often each thing was compared.
#[derive(Debug, Default)]
struct Compared {
    events: usize,
    copied: usize,
    instances: usize,
    withheld: usize,
    dispatch: usize,
    party_days: usize,
    raised: usize,
    make_up_hours: usize,
    single_make_ups: usize,
    bids_tested_again: usize,
}

impl Compared {
    /// All events of a case, whose version 2 copy has the same figures.
    fn add(&mut self, generated: &Generated, what: &str) {
        let (case, input) = (&generated.case, generated.input());
        let settled = Settled::of(what, case, &input);
        if let Some(copy) = input.version_2_copy() {
            let of_the_copy = Settled::of(what, case, &copy);
            assert!(of_the_copy == settled, "{what}, copied");
            self.copied += case.events.len();
        }
        for event in 0..settled.rows.len() {
            settled.compare_rows(event);
            settled.compare_counts(event, self);
            settled.compare_penalty(event, self);
            settled.compare_make_up(event, self);
            self.events += 1;
        }
    }

    fn done(&self) {
        assert!(self.instances > 1_000 && self.withheld > 5_000);
        assert!(self.dispatch > 1_000 && self.party_days > 1_000 && self.raised > 1_000);
        assert!(self.make_up_hours > 100 && self.single_make_ups > 20);
        assert!(self.bids_tested_again > 100);
    }
}

impl<'a> Settled<'a> {
    fn of(what: &'a str, case: &'a Case, input: &Input) -> Settled<'a> {
        let (file, correction) = (&input.file, &input.correction);
        let places = 0..case.events.len();
        let mut rows = vec![0; input.rows_len];
        settle(file, correction, &mut rows).expect(what);
        let penalty = |event| penalty_working(file, correction, event).expect("accepted");
        let instances = |event| instances(file, correction, event).expect("accepted");
        let make_up = |event| make_up_working(file, correction, event).expect("accepted");
        Settled {
            what,
            case,
            rows: Row::first(&rows, places.len()),
            penalties: places.clone().map(penalty).collect(),
            instances: places.clone().map(instances).collect(),
            make_ups: places.map(make_up).collect(),
        }
    }

    fn at(&self, place: usize) -> String {
        format!("{}, event {place}", self.what)
    }

    fn event(&self, place: usize) -> &Event {
        &self.case.events[place]
    }

    fn unit(&self, place: usize) -> &Unit {
        let listed = |unit: &&Unit| unit.unit == self.event(place).unit;
        self.case.units.iter().find(listed).expect("listed")
    }

    /// What events together have in common.
    fn party_day(&self, place: usize) -> (Kind, u32, Market, u16) {
        let event = self.event(place);
        (
            event.kind(),
            event.day,
            event.market,
            self.unit(place).group,
        )
    }

    /// The figures that the rows have too.
    fn compare_rows(&self, place: usize) {
        let (row, penalty) = (&self.rows[place], &self.penalties[place]);
        let bearing = &self.rows[penalty.row];
        let what = self.at(place);
        assert_eq!(penalty.kind, self.event(place).kind(), "{what}");
        assert_eq!((penalty.n3, penalty.n2), (row.n3, row.n2), "{what}");
        assert_eq!(penalty.multiplier, bearing.multiplier, "{what}");
        assert_eq!(penalty.penalty, bearing.penalty, "{what}");
        if penalty.row != place {
            assert_eq!(penalty.kind, Kind::FUEL, "{what}");
            let borne = (row.multiplier, row.penalty);
            assert_eq!(borne, (Multiplier(0), Cents(0)), "{what}");
        }
        assert!(only_in(row.flags, &penalty.hours), "{what}");
        assert!(only_in(row.flags, &penalty.losses), "{what}");
        let make_up = &self.make_ups[place];
        assert_eq!(make_up.mitigated, row.mitigated, "{what}");
        assert_eq!(make_up.make_up, row.make_up, "{what}");
        assert!(only_in(row.mitigated, &make_up.hours), "{what}");
        assert_eq!(make_up.hours.iter().sum::<u64>(), make_up.tenths, "{what}");
        assert_eq!(make_up.restored.0 & !row.mitigated.0, 0, "{what}");
    }

    /// As many records as N3 and N2 say, and those of N2 among those of N3.
    fn compare_counts(&self, place: usize, compared: &mut Compared) {
        let (row, Instances { three, two }) = (&self.rows[place], &self.instances[place]);
        let what = self.at(place);
        for (list, count, back) in [(three, row.n3, 2), (two, row.n2, 1)] {
            let records = list.events.len() + list.past.len();
            assert_eq!(records, usize::from(count.saturating_sub(1)), "{what}");
            self.compare_list(place, list, back);
        }
        let within = |two: &[usize], three: &[usize]| two.iter().all(|one| three.contains(one));
        assert!(within(&two.events, &three.events), "{what}");
        assert!(within(&two.past, &three.past), "{what}");
        if row.n3 > 0 {
            let ladder = multiplier(row.n3.into(), row.n2.into());
            assert_eq!(ladder, Ok(self.penalties[place].multiplier), "{what}");
            compared.instances += 1;
        }
    }

    /// Earlier instances and kind 1 entries of the same group and market, each in its window.
    fn compare_list(&self, place: usize, list: &Counted, back: u8) {
        let what = self.at(place);
        let own = self.event(place);
        let group_and_market = (self.unit(place).group, own.market);
        let counts = |period| period_counts(back, own.period, period) == Ok(true);
        for &event in &list.events {
            let other = self.event(event);
            assert!(event < place && self.rows[event].n3 > 0, "{what}");
            assert!(counts(other.period), "{what}");
            let counted = (self.unit(event).group, other.market);
            assert_eq!(counted, group_and_market, "{what}");
        }
        for &entry in &list.past {
            let other = &self.case.past[entry];
            assert!(other.kind == Kind::WITHHELD, "{what}");
            assert!(counts(other.period), "{what}");
            assert_eq!((other.group, other.market), group_and_market, "{what}");
        }
    }

    /// The penalty by the smaller call of its kind, and the sum of its terms.
    fn compare_penalty(&self, place: usize, compared: &mut Compared) {
        let (worked, flags) = (&self.penalties[place], self.rows[place].flags);
        let what = self.at(place);
        let sum: u64 = worked.hours.iter().sum();
        let (amount, revenue, penalty) = match &self.event(place).conduct {
            Conduct::Withheld { hours, .. } => {
                compared.withheld += 1;
                (sum, 0, withheld(worked.multiplier, flags, hours))
            }
            Conduct::Dispatch { hours, .. } => {
                compared.dispatch += 1;
                (0, sum, dispatch(worked.multiplier, flags, hours))
            }
            Conduct::Fuel { .. } => return self.compare_party_day(place, compared),
            Conduct::Bids { .. } => {
                assert_eq!(worked.hours, [0; 24], "{what}");
                (0, 0, Cents(0))
            }
        };
        assert_eq!((worked.amount, worked.revenue), (amount, revenue), "{what}");
        assert_eq!(worked.penalty, penalty, "{what}");
        let of_fuel = [worked.e_positive, worked.e_negative, worked.t, worked.x];
        assert_eq!((of_fuel, worked.below), ([0; 4], false), "{what}");
        assert_eq!(worked.losses, [0; 24], "{what}");
    }

    /// E, T and X from Q, R and the terms of all events of the party-day, which say the same of it.
    fn compare_party_day(&self, place: usize, compared: &mut Compared) {
        let what = self.at(place);
        let worked = &self.penalties[place];
        let party_day = self.party_day(place);
        assert_eq!(self.party_day(worked.row), party_day, "{what}");
        let lowest = self.event(worked.row).unit;
        let (mut e, mut tcc) = (0_i64, 0_i64);
        for other in (0..self.rows.len()).filter(|&other| self.party_day(other) == party_day) {
            assert!(lowest <= self.event(other).unit, "{what}");
            assert_eq!(
                of_party_day(&self.penalties[other]),
                of_party_day(worked),
                "{what}"
            );
            if let Conduct::Fuel {
                guarantee_change,
                tcc_change,
                ..
            } = self.event(other).conduct
            {
                e += 10 * i64::from(guarantee_change) + net(&self.penalties[other]);
                tcc += i64::from(tcc_change);
            }
        }
        let t = tcc.max(0);
        let x = i64::from(worked.multiplier.0) * e + 20 * t;
        assert_eq!((worked.e(), worked.t), (e, t.unsigned_abs()), "{what}");
        assert!(worked.e_positive == 0 || worked.e_negative == 0, "{what}");
        assert_eq!(worked.x, x.max(0).unsigned_abs(), "{what}");
        assert_eq!(worked.below, x < 10_000_000, "{what}");
        let penalty = fuel_penalty(worked.e(), worked.t, worked.multiplier);
        assert_eq!(penalty, Ok(worked.penalty), "{what}");
        assert_eq!((worked.amount, worked.revenue), (0, 0), "{what}");
        assert_eq!(worked.multiplier, self.fuel_multiplier(place), "{what}");
        compared.raised += usize::from(worked.multiplier == Multiplier(3));
        compared.party_days += usize::from(worked.row == place);
    }

    /// M of a fuel event, by the smaller call on the days of its group's fuel penalties, here and in the past.
    fn fuel_multiplier(&self, place: usize) -> Multiplier {
        let (day, group) = (self.event(place).day, self.unit(place).group);
        let penalised = |&other: &usize| {
            self.event(other).kind() == Kind::FUEL
                && self.rows[other].penalty > Cents(0)
                && self.unit(other).group == group
        };
        let here = (0..self.rows.len()).filter(penalised);
        let here = here.map(|other| self.event(other).day);
        let past = self.case.past.iter();
        let past = past.filter(|entry| entry.kind == Kind::FUEL && entry.group == group);
        let mut days = here.chain(past.map(|entry| entry.day));
        let raised = days.any(|earlier| fuel_day_counts(day, earlier) == Ok(true));
        Multiplier(if raised { 3 } else { 2 })
    }

    /// The terms of a bid, which are 0 where its component has none.
    fn compare_make_up(&self, place: usize, compared: &mut Compared) {
        let (what, worked) = (self.at(place), &self.make_ups[place]);
        let event = self.event(place);
        if event.kind() != Kind::BIDS {
            let nothing = of_make_up(second::MakeUpWorking::default());
            assert_eq!(*worked, nothing, "{what}");
            return;
        }
        let component = event.component().0;
        let reads = matches!(component, 0 | 1 | 3);
        assert!(reads || worked.correct == 0, "{what}");
        assert!(component == 0 || worked.hours == [0; 24], "{what}");
        if reads && worked.correct != worked.reference {
            for hour in worked.mitigated.hours() {
                self.compare_corrected(place, hour, compared);
            }
        } else {
            assert_eq!(worked.restored, Mask(0), "{what}");
            assert_eq!(worked.make_up, Cents(0), "{what}");
        }
    }

    /// A mitigated hour of a bid whose c is other than r, by the smaller call of its component.
    fn compare_corrected(&self, place: usize, hour: usize, compared: &mut Compared) {
        let (what, worked) = (self.at(place), &self.make_ups[place]);
        let Conduct::Bids {
            component, hours, ..
        } = self.event(place).conduct
        else {
            panic!("{what}: no bid");
        };
        let (cell, correct) = (hours[hour], worked.correct);
        if component.0 != 0 {
            let fails = bid_fails(component, correct, cell.bid, self.bid_hour(place, hour));
            assert_eq!(fails, Ok(!worked.restored.has(hour)), "{what}, hour {hour}");
            compared.bids_tested_again += 1;
            return;
        }
        assert_eq!(worked.restored, Mask(0), "{what}");
        let reference = worked.reference;
        let cents = make_up(cell.bid, cell.price, cell.quantity, reference, correct);
        let rounded = Cents((worked.hours[hour] + 5) / 10);
        assert_eq!(cents, Ok(rounded), "{what}, hour {hour}");
        compared.make_up_hours += 1;
        if worked.mitigated.hours().count() == 1 {
            assert_eq!(cents, Ok(worked.make_up), "{what}, hour {hour}");
            compared.single_make_ups += usize::from(worked.make_up > Cents(0));
        }
    }

    fn bid_hour(&self, place: usize, hour: usize) -> BidHour {
        let (event, unit) = (self.event(place), self.unit(place));
        let has_price = match event.conduct {
            Conduct::Bids { shadow_price, .. } => Mask(shadow_price).has(hour),
            _ => false,
        };
        BidHour {
            market: event.market,
            tight: unit.area == 1 && has_price,
            average_price: unit.average_price,
            constrained_hours: unit.constrained_hours,
        }
    }
}

/// Whether a term stands in hours of the mask alone.
fn only_in(mask: Mask, terms: &[u64; 24]) -> bool {
    let mut hours = terms.iter().enumerate();
    hours.all(|(hour, &term)| mask.has(hour) || term == 0)
}

fn withheld(multiplier: Multiplier, flags: Mask, hours: &[WithheldHour; 24]) -> Cents {
    let a: Vec<u32> = flags.hours().map(|hour| hours[hour].withheld).collect();
    let b: Vec<i32> = flags.hours().map(|hour| hours[hour].price).collect();
    withheld_penalty(multiplier, &a, &b).expect("in range")
}

fn dispatch(multiplier: Multiplier, flags: Mask, hours: &[DispatchHour; 24]) -> Cents {
    if multiplier == Multiplier(0) {
        return Cents(0);
    }
    let revenue = |hour: usize| hours[hour].added_revenue;
    let b: Vec<u32> = flags.hours().map(revenue).collect();
    dispatch_penalty(&b).expect("in range")
}

/// What an event's hours add to E.
fn net(worked: &PenaltyWorking) -> i64 {
    let sum = |terms: &[u64; 24]| terms.iter().sum::<u64>().cast_signed();
    sum(&worked.hours) - sum(&worked.losses)
}

/// The figures of a party-day: all but the terms of the event's own hours.
fn of_party_day(worked: &PenaltyWorking) -> PenaltyWorking {
    PenaltyWorking {
        hours: [0; 24],
        losses: [0; 24],
        ..*worked
    }
}

#[test]
fn figures_of_the_rows_and_of_the_smaller_calls() {
    // Every case but the six full ones has a copy.
    let compared = figures_of(Version::One);
    assert_eq!(compared.copied, compared.events - 6 * 200);
}

#[test]
fn figures_of_version_2() {
    assert_eq!(figures_of(Version::Two).copied, 0);
}

/// The figures of generated cases.
fn figures_of(version: Version) -> Compared {
    let mut random = Random::new(911);
    let mut compared = Compared::default();
    for (size, count) in [
        (Size::Small, 12_000),
        (Size::Medium, 1_000),
        (Size::Full, 6),
    ] {
        for place in 0..count {
            let generated = case(&mut random, Wanted::of(size).in_version(version));
            compared.add(&generated, &format!("{version:?}, {size:?} {place}"));
        }
    }
    println!("{version:?}: {compared:?}");
    compared.done();
    compared
}
