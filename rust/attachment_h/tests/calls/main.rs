//! The smaller calls: the pencil sheet, then each against the second implementation's rule, at the
//! edges of every range and threshold and at random.

mod calendar;
mod conduct;
mod default_bids;
mod penalties;
mod pencil_sheet;

use attachment_h::{BidHour, Market, Refused};
use cases::Random;
use second::calls;

/// The second implementation's answer in the form of the proved one.
fn answer<T>(result: Result<T, u8>) -> Result<T, Refused> {
    result.map_err(Refused)
}

/// How often a call answered and was refused with 7 and 10.
#[derive(Default)]
struct Answers {
    given: usize,
    sevens: usize,
    tens: usize,
}

impl Answers {
    fn same<T: PartialEq + std::fmt::Debug>(
        &mut self,
        got: Result<T, Refused>,
        expected: Result<T, Refused>,
        what: impl FnOnce() -> String,
    ) {
        match got {
            Ok(_) => self.given += 1,
            Err(Refused(7)) => self.sevens += 1,
            Err(Refused(10)) => self.tens += 1,
            Err(Refused(number)) => panic!("refused {number}: {}", what()),
        }
        assert_eq!(got, expected, "{}", what());
    }

    fn done(self, name: &str, refuses_seven: bool) {
        let Answers {
            given,
            sevens,
            tens,
        } = self;
        println!("{name}: {given} answers, 7 {sevens} times, 10 {tens} times");
        assert!(given > 100 && tens > 10, "{name}");
        assert_eq!(sevens > 10, refuses_seven, "{name}");
    }
}

/// A number next to one of these, or anywhere in 32 bits.
fn near(random: &mut Random, edges: &[i64]) -> i64 {
    match random.below(12) {
        0 => i64::from(random.bits() as i32),
        1 => random.between(0, 60_000),
        _ => random.pick(edges) + random.pick(&[-1, 0, 0, 0, 1]),
    }
}

fn word(random: &mut Random, edges: &[i64]) -> u32 {
    near(random, edges) as u32
}

fn signed(random: &mut Random, edges: &[i64]) -> i32 {
    near(random, edges) as i32
}

fn component(random: &mut Random) -> u8 {
    match random.below(20) {
        0 => 9,
        1 => random.bits() as u8,
        _ => random.below(9) as u8,
    }
}

/// References and bids of every component, their limits, and where the tests change their answer.
const LEVELS: &[i64] = &[
    0,
    1,
    49,
    50,
    99,
    100,
    180,
    499,
    500,
    624,
    625,
    1_666,
    1_667,
    2_000,
    2_499,
    2_500,
    3_333,
    3_334,
    5_000,
    6_667,
    10_000,
    15_000,
    1_000_000,
    500_000_000,
    1_000_000_000,
];

const BIDS: &[i64] = &[-1_000_000, -100, 0, 2_876, 2_877, 1_000_000, 1_000_000_000];

fn reference(random: &mut Random) -> u32 {
    match random.below(3) {
        0 => random.between(0, 20_000) as u32,
        _ => word(random, LEVELS),
    }
}

/// A bid next to a line that the reference draws, or next to a limit.
fn bid(random: &mut Random, reference: u32) -> i32 {
    let r = i64::from(reference);
    let lines = [
        r,
        2 * r,
        3 * r,
        4 * r,
        r / 2,
        r + 180,
        r + 360,
        r + 5_000,
        r + 10_000,
    ];
    match random.below(4) {
        0 => signed(random, LEVELS),
        1 => signed(random, BIDS),
        _ => signed(random, &lines),
    }
}

fn hour(random: &mut Random) -> BidHour {
    BidHour {
        market: Market(random.pick(&[0, 0, 0, 0, 1, 1, 1, 1, 1, 1, 2, 255])),
        tight: random.chance(1, 2),
        average_price: match random.below(3) {
            0 => word(random, &[0, 5_000, 1_000_000]),
            _ => random.between(0, 20_000) as u32,
        },
        constrained_hours: match random.below(8) {
            0 => random.pick(&[8_784, 8_785, 65_535]),
            1 => random.pick(&[0, 1]),
            _ => random.between(0, 8_784) as u16,
        },
    }
}

fn second_hour(hour: BidHour) -> calls::BidHour {
    calls::BidHour {
        market: hour.market.0,
        tight: hour.tight,
        constrained_hours: hour.constrained_hours,
        average_price: hour.average_price,
    }
}
