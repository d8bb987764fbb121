//! The numbers of a case and of its answers, each as a type of its own.
//!
//! A kind, a market and a component are bytes of the file, which may hold any number: those that docs/RULES.md names
//! are constants here, and the proved functions refuse the others.

/// The kind of an event or a past entry: docs/RULES.md, K8 to K11.
#[derive(Clone, Copy, Debug, Default, PartialEq, Eq, PartialOrd, Ord, Hash)]
pub struct Kind(
    /// The number in the file.
    pub u8,
);

impl Kind {
    /// Power that was not offered.
    pub const WITHHELD: Kind = Kind(1);
    /// Power that dispatch asked for and that was not delivered.
    pub const DISPATCH: Kind = Kind(2);
    /// Inaccurate fuel data.
    pub const FUEL: Kind = Kind(3);
    /// The bids of one component.
    pub const BIDS: Kind = Kind(4);
    /// The kinds by their numbers.
    pub const ALL: [Kind; 4] = [Kind::WITHHELD, Kind::DISPATCH, Kind::FUEL, Kind::BIDS];
}

/// The market of an event or a past entry: docs/RULES.md, K7.
#[derive(Clone, Copy, Debug, Default, PartialEq, Eq, PartialOrd, Ord, Hash)]
pub struct Market(
    /// The number in the file.
    pub u8,
);

impl Market {
    /// Day-Ahead.
    pub const DAY_AHEAD: Market = Market(0);
    /// Real-Time.
    pub const REAL_TIME: Market = Market(1);
    /// The markets by their numbers.
    pub const ALL: [Market; 2] = [Market::DAY_AHEAD, Market::REAL_TIME];
}

/// The component of a bid or a reference: docs/RULES.md, K12.
#[derive(Clone, Copy, Debug, Default, PartialEq, Eq, PartialOrd, Ord, Hash)]
pub struct Component(
    /// The number in the file.
    pub u8,
);

impl Component {
    /// Energy, in cents.
    pub const ENERGY: Component = Component(0);
    /// Minimum generation, in cents.
    pub const MINIMUM_GENERATION: Component = Component(1);
    /// Reserve or regulation, in cents.
    pub const RESERVE_OR_REGULATION: Component = Component(2);
    /// Start-up cost, in cents.
    pub const START_UP_COST: Component = Component(3);
    /// Start-up time, in minutes.
    pub const START_UP_TIME: Component = Component(4);
    /// Minimum run time, in minutes.
    pub const MINIMUM_RUN_TIME: Component = Component(5);
    /// Minimum down time, in minutes.
    pub const MINIMUM_DOWN_TIME: Component = Component(6);
    /// A parameter that is a minimum.
    pub const MINIMUM_PARAMETER: Component = Component(7);
    /// A parameter that is a maximum.
    pub const MAXIMUM_PARAMETER: Component = Component(8);

    /// Whether it is counted in cents.
    pub fn is_money(self) -> bool {
        self <= Component::START_UP_COST
    }

    /// Whether it is one of the three times, which are counted in minutes.
    pub fn is_time(self) -> bool {
        (Component::START_UP_TIME..=Component::MINIMUM_DOWN_TIME).contains(&self)
    }
}

/// Hours as a mask, bit h for hour h: docs/RULES.md, K13.
#[derive(Clone, Copy, Debug, Default, PartialEq, Eq, Hash)]
pub struct Mask(
    /// The word in the file.
    pub u32,
);

impl Mask {
    /// Whether it has an hour.
    pub fn has(self, hour: usize) -> bool {
        u32::try_from(hour)
            .is_ok_and(|hour| self.0.checked_shr(hour).is_some_and(|word| word & 1 == 1))
    }

    /// Its hours, in order.
    pub fn hours(self) -> impl Iterator<Item = usize> {
        (0..32).filter(move |&hour| self.has(hour))
    }
}

impl FromIterator<usize> for Mask {
    fn from_iter<I: IntoIterator<Item = usize>>(hours: I) -> Mask {
        Mask(hours.into_iter().fold(0, |word, hour| word | 1 << hour))
    }
}

/// A multiplier, in halves: 3 is one and a half.
#[derive(Clone, Copy, Debug, Default, PartialEq, Eq, PartialOrd, Ord, Hash)]
pub struct Multiplier(
    /// The halves.
    pub u8,
);

/// A penalty or a make-up, or a sum of them, in cents.
#[derive(Clone, Copy, Debug, Default, PartialEq, Eq, PartialOrd, Ord, Hash)]
pub struct Cents(
    /// The cents.
    pub u64,
);
