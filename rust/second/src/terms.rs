//! Markets, components, masks of hours and money: the terms that every rule uses.

use std::ops::RangeInclusive;

/// Hours in a day; an event has one cell for each.
pub const HOURS: usize = 24;

/// The latest day that 9 and 10 let pass; day 0 is 1 January 2000.
pub const LAST_DAY: u32 = 1_000_000;

/// The largest capability of a unit, in tenths of MW.
pub const LARGEST_CAPABILITY: u32 = 50_000;

/// The largest response rate of a unit, in tenths of MW per minute.
pub const LARGEST_RATE: u32 = 50_000;

/// Prices and Average Prices lie within this many cents of 0.
pub const LARGEST_PRICE: i32 = 1_000_000;

/// The most Constrained Hours that a unit may have: a leap year's.
pub const MOST_CONSTRAINED_HOURS: u16 = 8_784;

/// "b u32 added revenue in cents, at most 100,000,000".
pub const LARGEST_REVENUE: u32 = 100_000_000;

/// "Q i32 change of guarantee payment and R i32 TCC change, cents, ±1,000,000,000".
pub const LARGEST_CHANGE: i32 = 1_000_000_000;

/// The largest energy of a fuel event's hour and the largest quantity of a bid's hour, in tenths.
pub const LARGEST_QUANTITY: u32 = 50_000;

/// A market of the ISO.
#[derive(Clone, Copy, Debug, PartialEq, Eq, PartialOrd, Ord, Hash)]
pub enum Market {
    /// Market 0.
    DayAhead,
    /// Market 1.
    RealTime,
}

impl Market {
    /// The market of a number in a record, if there is one.
    pub fn from_number(number: u8) -> Option<Market> {
        match number {
            0 => Some(Market::DayAhead),
            1 => Some(Market::RealTime),
            _ => None,
        }
    }

    /// The number that stands for this market in a record.
    pub fn number(self) -> u8 {
        match self {
            Market::DayAhead => 0,
            Market::RealTime => 1,
        }
    }
}

/// A component of a bid.
#[derive(Clone, Copy, Debug, PartialEq, Eq, PartialOrd, Ord, Hash)]
pub enum Component {
    /// 0, cents.
    Energy,
    /// 1, cents.
    MinimumGeneration,
    /// 2, reserve or regulation, cents.
    Reserve,
    /// 3, cents.
    StartUpCost,
    /// 4, minutes.
    StartUpTime,
    /// 5, minutes.
    MinimumRunTime,
    /// 6, minutes.
    MinimumDownTime,
    /// 7, a minimum parameter.
    MinimumParameter,
    /// 8, a maximum parameter.
    MaximumParameter,
}

impl Component {
    /// All nine, by number.
    pub const ALL: [Component; 9] = [
        Component::Energy,
        Component::MinimumGeneration,
        Component::Reserve,
        Component::StartUpCost,
        Component::StartUpTime,
        Component::MinimumRunTime,
        Component::MinimumDownTime,
        Component::MinimumParameter,
        Component::MaximumParameter,
    ];

    /// The component of a number in a record, if there is one.
    pub fn from_number(number: u8) -> Option<Component> {
        Component::ALL.get(usize::from(number)).copied()
    }

    /// The number that stands for this component in a record.
    pub fn number(self) -> u8 {
        match self {
            Component::Energy => 0,
            Component::MinimumGeneration => 1,
            Component::Reserve => 2,
            Component::StartUpCost => 3,
            Component::StartUpTime => 4,
            Component::MinimumRunTime => 5,
            Component::MinimumDownTime => 6,
            Component::MinimumParameter => 7,
            Component::MaximumParameter => 8,
        }
    }

    /// "value u32, at most 1,000,000 for components 0 to 2, else 1,000,000,000".
    pub fn allows_reference(self, value: i64) -> bool {
        let limit = match self {
            Component::Energy | Component::MinimumGeneration | Component::Reserve => 1_000_000,
            _ => 1_000_000_000,
        };
        (0..=limit).contains(&value)
    }

    /// "Bids: ±1,000,000 for components 0 and 1, 0 to 1,000,000 for 2, 0 to 1,000,000,000 above."
    pub fn bids(self) -> RangeInclusive<i64> {
        match self {
            Component::Energy | Component::MinimumGeneration => -1_000_000..=1_000_000,
            Component::Reserve => 0..=1_000_000,
            _ => 0..=1_000_000_000,
        }
    }

    /// Whether the bid is in its range.
    pub fn allows_bid(self, value: i64) -> bool {
        self.bids().contains(&value)
    }

    /// "Only components 0, 1 and 3 read c."
    pub fn reads_correct_reference(self) -> bool {
        matches!(
            self,
            Component::Energy | Component::MinimumGeneration | Component::StartUpCost
        )
    }

    /// The place of a time component (4 to 6) in the table of time increases.
    pub fn time_place(self) -> Option<usize> {
        match self {
            Component::StartUpTime => Some(0),
            Component::MinimumRunTime => Some(1),
            Component::MinimumDownTime => Some(2),
            _ => None,
        }
    }
}

/// A set of hours of one day; bit h is hour h.
#[derive(Clone, Copy, Debug, Default, PartialEq, Eq)]
pub struct HourMask(u32);

impl HourMask {
    /// A mask from its bits, unless one of the bits 24 to 31 is set.
    pub fn from_bits(bits: u32) -> Option<HourMask> {
        (bits < 1 << HOURS).then_some(HourMask(bits))
    }

    /// The mask of the hours for which the test holds.
    pub fn of_hours(test: impl Fn(usize) -> bool) -> HourMask {
        (0..HOURS).filter(|&hour| test(hour)).collect()
    }

    /// The bits.
    pub fn bits(self) -> u32 {
        self.0
    }

    /// Whether the hour is in the set.
    pub fn has(self, hour: usize) -> bool {
        self.0 >> hour & 1 == 1
    }

    /// Whether no hour is in the set.
    pub fn is_empty(self) -> bool {
        self.0 == 0
    }

    /// The hours of both sets together.
    pub fn union(self, other: HourMask) -> HourMask {
        HourMask(self.0 | other.0)
    }

    /// An amount that is not negative for each hour of the set, 0 for the others.
    pub fn amounts(self, amount: impl Fn(usize) -> i64) -> [u64; HOURS] {
        std::array::from_fn(|hour| {
            if self.has(hour) {
                amount(hour) as u64
            } else {
                0
            }
        })
    }

    /// The hours of the set, rising.
    pub fn hours(self) -> impl DoubleEndedIterator<Item = usize> {
        (0..HOURS).filter(move |&hour| self.has(hour))
    }
}

impl FromIterator<usize> for HourMask {
    fn from_iter<I: IntoIterator<Item = usize>>(hours: I) -> HourMask {
        HourMask(hours.into_iter().fold(0, |bits, hour| bits | 1 << hour))
    }
}

/// "Money is rounded once, at the end, halves up to the cent": an amount in `parts`-ths of a cent.
pub fn round_to_cents(amount: i128, parts: i128) -> i128 {
    (2 * amount + parts).div_euclid(2 * parts)
}
