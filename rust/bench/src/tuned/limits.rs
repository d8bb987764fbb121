//! What the words of an event may be, by what it is: the number 10 of them, and 13.

use super::event::Event;
use super::faults::Faults;
use super::words::u32_at;

/// Words of an event's head that have a range: the day, P, Q and R.
const HEAD_LANES: usize = 4;
/// Words of four hour cells, which are held to their ranges side by side.
const CELL_LANES: usize = 12;

/// What the words of an event may be.
pub struct Limits {
    head: Lanes<HEAD_LANES>,
    cells: Lanes<CELL_LANES>,
    /// All ones where a lane is held to the unit's capability.
    to_capability: [u32; CELL_LANES],
    highest_impact: i8,
}

/// Ranges side by side. A word is outside of its range where the word and `shift` add up, as bits, to a number with sign
/// above `limit`: the vectors of every x86-64 compare numbers with sign alone.
struct Lanes<const N: usize> {
    shift: [u32; N],
    limit: [u32; N],
}

#[derive(Clone, Copy)]
struct Range {
    low: u32,
    /// The highest less the lowest.
    width: u32,
    is_to_capability: bool,
}

/// The numbers up to one.
const fn to(high: u32) -> Range {
    Range {
        low: 0,
        width: high,
        is_to_capability: false,
    }
}

/// The numbers with sign up to one, on both sides of 0.
const fn about(most: u32) -> Range {
    Range {
        low: most.wrapping_neg(),
        width: 2 * most,
        is_to_capability: false,
    }
}

const NOTHING: Range = to(0);
const ANYTHING: Range = to(u32::MAX);
const DAY: Range = to(1_000_000);
const MASK: Range = to(0xFF_FFFF);
const PRICE: Range = about(1_000_000);
const CHANGE: Range = about(1_000_000_000);
const QUANTITY: Range = to(50_000);
/// Up to the capability of the event's unit.
const POWER: Range = Range {
    is_to_capability: true,
    ..NOTHING
};

/// The limits of no event, under which every event breaks 10.
const NONE: usize = 7;

static LIMITS: [Limits; 8] = [
    // Withheld: the power and the price.
    limits(1, [MASK, NOTHING, NOTHING], [POWER, PRICE, NOTHING]),
    // Dispatch: the power and the revenue that was added.
    limits(
        1,
        [MASK, NOTHING, NOTHING],
        [POWER, to(100_000_000), NOTHING],
    ),
    // Fuel, Day-Ahead and Real-Time: the energy and the change of the price.
    limits(0, [MASK, CHANGE, CHANGE], [QUANTITY, PRICE, NOTHING]),
    limits(0, [MASK, CHANGE, NOTHING], [QUANTITY, PRICE, NOTHING]),
    // Bids for energy and minimum generation, for reserve, and the others: the bid, the price and the power.
    limits(0, [MASK, MASK, to(24)], [PRICE, PRICE, QUANTITY]),
    limits(0, [MASK, MASK, to(24)], [to(1_000_000), PRICE, QUANTITY]),
    limits(
        0,
        [MASK, MASK, to(24)],
        [to(1_000_000_000), PRICE, QUANTITY],
    ),
    limits(-1, [ANYTHING; 3], [ANYTHING; 3]),
];

/// The place among them for a kind, a market and a component.
static PLACES: [[[usize; 9]; 2]; 5] = {
    let bids = [4, 4, 5, 6, 6, 6, 6, 6, 6];
    [
        [[NONE; 9]; 2],
        [without_component(0); 2],
        [[NONE; 9], without_component(1)],
        [without_component(2), without_component(3)],
        [bids; 2],
    ]
};

const fn without_component(place: usize) -> [usize; 9] {
    let mut places = [NONE; 9];
    places[0] = place;
    places
}

const fn limits(highest_impact: i8, [p, q, r]: [Range; 3], cell: [Range; 3]) -> Limits {
    let mut to_capability = [0; CELL_LANES];
    let mut lane = 0;
    while lane < CELL_LANES {
        if cell[lane % 3].is_to_capability {
            to_capability[lane] = u32::MAX;
        }
        lane += 1;
    }
    Limits {
        head: lanes([DAY, p, q, r]),
        cells: lanes(cell),
        to_capability,
        highest_impact,
    }
}

/// So many lanes for ranges that come again and again.
const fn lanes<const N: usize, const RANGES: usize>(ranges: [Range; RANGES]) -> Lanes<N> {
    const SIGN: u32 = 1 << 31;
    let mut shift = [0; N];
    let mut limit = [0; N];
    let mut lane = 0;
    while lane < N {
        let Range { low, width, .. } = ranges[lane % RANGES];
        shift[lane] = SIGN.wrapping_sub(low);
        limit[lane] = SIGN ^ width;
        lane += 1;
    }
    Lanes { shift, limit }
}

impl Limits {
    /// The limits of an event by its kind, market and component.
    #[inline(always)]
    pub fn of(event: Event) -> &'static Limits {
        let markets = PLACES.get(usize::from(event.kind()));
        let components = markets.and_then(|markets| markets.get(usize::from(event.market())));
        let place = components.and_then(|places| places.get(usize::from(event.component())));
        &LIMITS[place.copied().unwrap_or(NONE) % LIMITS.len()]
    }

    /// Whether an impact mark is too high.
    #[inline(always)]
    pub fn bars_impact(&self, impact: u8) -> bool {
        i32::from(impact) > i32::from(self.highest_impact)
    }
}

/// What was outside of its range in any event so far: all ones in its lane.
#[derive(Default)]
pub struct Outside {
    head: [u32; HEAD_LANES],
    cells: [u32; CELL_LANES],
    powers: [u32; CELL_LANES],
}

impl Outside {
    /// Holds the words of an event to their ranges.
    #[allow(
        clippy::needless_range_loop,
        reason = "a lane is one place in all of the arrays"
    )]
    #[inline(never)]
    pub fn hold(&mut self, event: Event, limits: &Limits, capability: u32) {
        let words = event.head_words();
        for lane in 0..HEAD_LANES {
            self.head[lane] |= limits
                .head
                .outside(lane, words[lane], limits.head.limit[lane]);
        }
        let mut limit = limits.cells.limit;
        for lane in 0..CELL_LANES {
            // The limit of an empty range is the sign alone, to which the capability is added.
            limit[lane] |= capability & limits.to_capability[lane];
        }
        let mut outside = [0; CELL_LANES];
        for hours in event.cells().as_chunks::<{ 4 * CELL_LANES }>().0 {
            for lane in 0..CELL_LANES {
                let word = u32_at(hours, 4 * lane);
                outside[lane] |= limits.cells.outside(lane, word, limit[lane]);
            }
        }
        for lane in 0..CELL_LANES {
            self.powers[lane] |= outside[lane] & limits.to_capability[lane];
            self.cells[lane] |= outside[lane] & !limits.to_capability[lane];
        }
    }

    /// Notes what was outside.
    pub fn note(&self, faults: &mut Faults) {
        faults.note(
            10,
            self.head != [0; HEAD_LANES] || self.cells != [0; CELL_LANES],
        );
        faults.note(13, self.powers != [0; CELL_LANES]);
    }
}

impl<const N: usize> Lanes<N> {
    /// All ones where a word is outside of its lane's range, with this limit.
    #[inline(always)]
    fn outside(&self, lane: usize, word: u32, limit: u32) -> u32 {
        let shifted = word.wrapping_add(self.shift[lane]).cast_signed();
        if shifted > limit.cast_signed() {
            u32::MAX
        } else {
            0
        }
    }
}
