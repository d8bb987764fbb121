//! The line of every component: its figures, beside the second implementation's, beside the test of
//! single bids, its refusals, and in whole cases of both versions.

use attachment_h::{
    BidHour, Component, Market, Refused, Row, Working, bid_fails, line, settle, working,
};
use cases::generator::{bid_limits, case, reference_limit};
use cases::{Case, Conduct, Input, Random, Size, Unit, Version, Wanted};
use second::calls;

/// The arguments of a line.
#[derive(Clone, Copy, Debug)]
struct Arguments {
    component: Component,
    reference: u32,
    hour: BidHour,
}

/// Component, reference, market, Average Price and Constrained Hours.
type Numbers = [u32; 5];

/// The largest that each of them may be.
fn limits(component: u32) -> Numbers {
    let reference = reference_limit(Component(component as u8)) as u32;
    [8, reference, 1, 1_000_000, 8_784]
}

/// The largest that each of them can be as an argument.
const LARGEST: Numbers = [255, u32::MAX, 255, u32::MAX, 65_535];

impl Arguments {
    fn of(numbers: Numbers, tight: bool) -> Arguments {
        let [
            component,
            reference,
            market,
            average_price,
            constrained_hours,
        ] = numbers;
        Arguments {
            component: Component(component as u8),
            reference,
            hour: BidHour {
                market: Market(market as u8),
                tight,
                average_price,
                constrained_hours: constrained_hours as u16,
            },
        }
    }

    fn second_hour(&self) -> calls::BidHour {
        calls::BidHour {
            market: self.hour.market.0,
            tight: self.hour.tight,
            constrained_hours: self.hour.constrained_hours,
            average_price: self.hour.average_price,
        }
    }

    /// The line, in which both implementations agree.
    fn line(&self) -> Result<i32, Refused> {
        let got = line(self.component, self.reference, self.hour);
        let expected = calls::line(self.component.0, self.second_hour(), self.reference);
        assert_eq!(got, expected.map_err(Refused), "{self:?}");
        got
    }

    /// The test of a bid in range, in which both implementations agree.
    fn fails(&self, bid: i32) -> bool {
        let got = bid_fails(self.component, self.reference, bid, self.hour);
        let expected = calls::bid_test(self.component.0, self.second_hour(), self.reference, bid);
        assert_eq!(got, expected.map_err(Refused), "{self:?}, bid {bid}");
        got.expect("in range")
    }

    /// Whether the line would be above the bid's range: the reference below has the same one.
    fn is_cut(&self, line: i32) -> bool {
        let below = Arguments {
            reference: self.reference.saturating_sub(1),
            ..*self
        };
        i64::from(line) == bid_limits(self.component).1 && below.line() == Ok(line)
    }

    /// Whether the tight clause has brought the line down.
    fn is_brought_down(&self, line: i32) -> bool {
        let hour = BidHour {
            tight: false,
            ..self.hour
        };
        let plain = Arguments { hour, ..*self }.line();
        plain.is_ok_and(|plain| line < plain)
    }
}

/// Whether a bid is on the bad side of the line.
fn beyond(component: Component, line: i32, bid: i32) -> bool {
    if component == Component::MAXIMUM_PARAMETER {
        bid < line
    } else {
        bid > line
    }
}

/// Limits of references, and where two parts of a test meet or a line meets the end of the bids.
const REFERENCES: &[i64] = &[
    0,
    1,
    100,
    125,
    500,
    624,
    625,
    1_666,
    1_667,
    2_000,
    2_499,
    3_333,
    3_334,
    5_000,
    990_000,
    995_000,
    1_000_000,
    333_333_333,
    333_333_334,
    500_000_000,
    999_999_820,
    1_000_000_000,
];

/// An Average Price at a limit, or one whose share is next to where another test has its line.
fn average_price(random: &mut Random, reference: u32, constrained_hours: u32) -> u32 {
    let r = i64::from(reference);
    match random.below(6) {
        0 => random.pick(&[0, 1, 999_999, 1_000_000, 1_000_001, u32::MAX]),
        1 => random.between(0, 1_000_000) as u32,
        _ => {
            let increase = random.pick(&[0, 2_499 - r, 2_500 - r, 3 * r, 10_000]);
            let price = 10 * increase * i64::from(constrained_hours) / 1_752;
            (price + random.between(-1, 1)).clamp(0, 1_000_000) as u32
        }
    }
}

/// Arguments at the edges of their ranges and of the tests, some of them out of range.
fn draw(random: &mut Random) -> (Numbers, bool) {
    let component = match random.below(40) {
        0 => 9,
        1 => random.bits() as u8,
        _ => random.below(9) as u8,
    };
    let reference = match random.below(24) {
        0 => random.bits() as u32,
        1..=7 => random.between(0, 20_000) as u32,
        _ => (random.pick(REFERENCES) + random.between(-1, 1)) as u32,
    };
    let constrained_hours = match random.below(8) {
        0 => random.pick(&[0, 1, 8_784, 8_785, 65_535]),
        1 => 1_000,
        _ => random.between(1, 8_784) as u32,
    };
    let market = random.pick(&[0, 0, 0, 0, 0, 0, 0, 1, 1, 1, 1, 1, 1, 1, 1, 1, 1, 1, 2, 255]);
    let average_price = average_price(random, reference, constrained_hours);
    let numbers = [
        component.into(),
        reference,
        market,
        average_price,
        constrained_hours,
    ];
    (numbers, random.chance(1, 2))
}

/// Arguments that are all in range.
fn draw_in_range(random: &mut Random) -> Arguments {
    let (mut numbers, tight) = draw(random);
    for place in 0..numbers.len() {
        numbers[place] = numbers[place].min(limits(numbers[0])[place]);
    }
    Arguments::of(numbers, tight)
}

#[test]
fn figures() {
    for (numbers, tight, line) in [
        ([0, 625, 0, 0, 0], false, 2_500),
        ([0, 624, 0, 0, 0], false, 2_499),
        ([0, 5_000, 0, 0, 0], false, 15_000),
        ([0, 2_000, 1, 5_000, 1_000], true, 2_876),
        ([0, 2_000, 1, 5_000, 0], true, 8_000),
        ([0, 995_000, 0, 0, 0], false, 1_000_000),
        ([1, 100, 0, 0, 0], false, 2_499),
        ([2, 0, 0, 0, 0], false, 499),
        ([3, 400_000_000, 0, 0, 0], false, 1_000_000_000),
        ([4, 100, 0, 0, 0], false, 280),
        ([5, 100, 0, 0, 0], false, 280),
        ([6, 100, 0, 0, 0], false, 280),
        ([7, 100, 0, 0, 0], false, 200),
        ([8, 100, 0, 0, 0], false, 50),
        ([8, 101, 0, 0, 0], false, 51),
        ([8, 0, 0, 0, 0], false, 0),
    ] {
        let arguments = Arguments::of(numbers, tight);
        assert_eq!(arguments.line(), Ok(line), "{arguments:?}");
    }
}

#[test]
fn beside_the_second_implementation() {
    let mut random = Random::new(801);
    let (mut given, mut cut) = ([0; 9], [0; 9]);
    let (mut refused, mut brought_down) = (0, 0);
    for _ in 0..200_000 {
        let (numbers, tight) = draw(&mut random);
        let arguments = Arguments::of(numbers, tight);
        match arguments.line() {
            Ok(line) => {
                let component = usize::from(arguments.component.0);
                given[component] += 1;
                cut[component] += usize::from(arguments.is_cut(line));
                brought_down += usize::from(arguments.is_brought_down(line));
            }
            Err(number) => {
                assert_eq!(number, Refused(16), "{arguments:?}");
                refused += 1;
            }
        }
    }
    println!("lines by component: {given:?}, of them cut to the range {cut:?}");
    println!("{brought_down} brought down by the tight clause, {refused} refused");
    assert!(given.iter().all(|&lines| lines > 5_000));
    assert!(cut[..8].iter().all(|&lines| lines > 200));
    assert!(brought_down > 2_000 && refused > 10_000);
}

/// Bids at the line, at 0, at the ends of the range and anywhere, those of them that are in range.
fn bids(random: &mut Random, component: Component, line: i32) -> Vec<i32> {
    let (lowest, highest) = bid_limits(component);
    let line = i64::from(line);
    let mut bids = vec![line - 1, line, line + 1, -1_000_000, -1, 0, 1];
    bids.extend([lowest, highest, random.between(lowest, highest)]);
    bids.push(line + random.between(-5_000, 5_000));
    bids.retain(|bid| (lowest..=highest).contains(bid));
    bids.into_iter().map(|bid| bid as i32).collect()
}

#[test]
fn a_bid_passes_exactly_on_the_good_side() {
    let mut random = Random::new(802);
    let (mut passed, mut failed) = ([0; 9], [0; 9]);
    for _ in 0..100_000 {
        let arguments = draw_in_range(&mut random);
        let component = arguments.component;
        let line = arguments.line().expect("in range");
        assert!(line >= 0, "{arguments:?}: {line}");
        assert!(!arguments.fails(line), "{arguments:?}: {line}");
        for bid in bids(&mut random, component, line) {
            let fails = arguments.fails(bid);
            let expected = beyond(component, line, bid);
            assert_eq!(fails, expected, "{arguments:?}, line {line}, bid {bid}");
            let count = if fails { &mut failed } else { &mut passed };
            count[usize::from(component.0)] += 1;
        }
    }
    println!("bids by component: {passed:?} passed, {failed:?} failed");
    assert!(passed.iter().chain(&failed).all(|&bids| bids > 10_000));
}

/// Every fault among good arguments, alone and with every other.
fn refuse_faults(good: Numbers, tight: bool) -> usize {
    let faults: Vec<(usize, u32)> = (0..good.len())
        .flat_map(|place| [limits(good[0])[place] + 1, LARGEST[place]].map(|value| (place, value)))
        .collect();
    for one in &faults {
        for other in &faults {
            // Two values of one argument leave the second, as a fault alone.
            let mut numbers = good;
            for &(place, value) in [one, other] {
                numbers[place] = value;
            }
            let arguments = Arguments::of(numbers, tight);
            assert_eq!(arguments.line(), Err(Refused(16)), "{arguments:?}");
        }
    }
    faults.len() * faults.len()
}

#[test]
fn refused_with_16_alone() {
    let mut refused = 0;
    for component in 0..=8 {
        let [_, rest @ ..] = limits(component);
        for [reference, market, price, hours] in [[0; 4], rest] {
            let good = [component, reference, market, price, hours];
            for tight in [false, true] {
                assert!(Arguments::of(good, tight).line().is_ok(), "{good:?}");
                refused += refuse_faults(good, tight);
            }
        }
    }
    println!("{refused} refused");
}

/// Hours of bids: by component, then times that their sum alone flags and lines that are brought down.
#[derive(Clone, Copy, Debug, Default, PartialEq)]
struct Hours {
    unflagged: [usize; 9],
    flagged: [usize; 9],
    by_sum: usize,
    brought_down: usize,
}

impl Hours {
    /// One hour of a bid, whose flag is on the side of the line, but for the sum of the times.
    fn compare(&mut self, arguments: &Arguments, worked: &Working, bid: i32, flagged: bool) {
        let component = arguments.component;
        let line = arguments.line().expect("in range");
        let beyond = beyond(component, line, bid);
        let by_sum = component.is_time() && worked.total > 360 && worked.increase > 0;
        assert_eq!(flagged, beyond || by_sum, "{arguments:?}, bid {bid}");
        let hours = if flagged {
            &mut self.flagged
        } else {
            &mut self.unflagged
        };
        hours[usize::from(component.0)] += 1;
        self.by_sum += usize::from(flagged && !beyond);
        self.brought_down += usize::from(arguments.is_brought_down(line));
    }
}

/// Every hour of a case's bids beside its line, as an input has them.
fn compare(case: &Case, input: &Input, seen: &mut Hours) {
    let mut rows = vec![0; input.rows_len];
    settle(&input.file, &input.correction, &mut rows).expect("accepted");
    for (place, event) in case.events.iter().enumerate() {
        let Conduct::Bids {
            component, hours, ..
        } = event.conduct
        else {
            continue;
        };
        let row = Row::of(&rows, place);
        let listed = |unit: &&Unit| unit.unit == event.unit;
        let unit = case.units.iter().find(listed).expect("listed");
        for (hour, cell) in hours.iter().enumerate() {
            let worked = working(&input.file, &input.correction, place, hour).expect("accepted");
            let arguments = Arguments {
                component,
                reference: worked.reference,
                hour: BidHour {
                    market: event.market,
                    tight: worked.tight,
                    average_price: unit.average_price,
                    constrained_hours: unit.constrained_hours,
                },
            };
            seen.compare(&arguments, &worked, cell.bid, row.flags.has(hour));
        }
    }
}

#[test]
fn whole_cases() {
    for version in Version::ALL {
        let mut random = Random::new(803);
        let (mut seen, mut copies) = (Hours::default(), 0);
        for (size, count) in [(Size::Small, 500), (Size::Medium, 100), (Size::Full, 2)] {
            for place in 0..count {
                let generated = case(&mut random, Wanted::of(size).in_version(version));
                let (input, before) = (generated.input(), seen);
                compare(&generated.case, &input, &mut seen);
                if let Some(copy) = input.version_2_copy() {
                    let mut of_the_copy = before;
                    compare(&generated.case, &copy, &mut of_the_copy);
                    assert_eq!(of_the_copy, seen, "{size:?} {place}, copied");
                    copies += 1;
                }
            }
        }
        println!("{version:?}: {seen:?}, {copies} copies");
        let mut of_each = seen.unflagged.iter().chain(&seen.flagged);
        assert!(of_each.all(|&hours| hours > 300));
        assert!(seen.by_sum > 300 && seen.brought_down > 300);
        // Every case but the full ones has a copy.
        assert_eq!(copies, if version == Version::One { 600 } else { 0 });
    }
}
