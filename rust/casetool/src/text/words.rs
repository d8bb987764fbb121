//! The words for kinds, markets and components, and for counts of records.

use attachment_h::layout::Section;
use attachment_h::{Component, Kind, Market};

/// Words that stand for the numbers from `first` on.
#[derive(Clone, Copy, Debug, PartialEq, Eq)]
pub struct Names {
    first: u8,
    words: &'static [&'static str],
    /// What people write for the first words.
    short: &'static [&'static str],
}

/// The kinds, 1 to 4.
pub const KINDS: Names = Names {
    first: 1,
    words: &["withheld", "dispatch", "fuel", "bids"],
    short: &[],
};

/// The markets, 0 and 1.
pub const MARKETS: Names = Names {
    first: 0,
    words: &["day-ahead", "real-time"],
    short: &["DAM", "RTM"],
};

/// The components, 0 to 8.
pub const COMPONENTS: Names = Names {
    first: 0,
    words: &[
        "energy",
        "minimum-generation",
        "reserve-or-regulation",
        "start-up-cost",
        "start-up-time",
        "minimum-run-time",
        "minimum-down-time",
        "minimum-parameter",
        "maximum-parameter",
    ],
    short: &[],
};

impl Names {
    /// The word of a number, if it has one.
    pub fn word(&self, number: i64) -> Option<&'static str> {
        let place = number.checked_sub(i64::from(self.first))?;
        self.words.get(usize::try_from(place).ok()?).copied()
    }

    /// The number of a word, in whatever letters.
    pub fn number(&self, word: &str) -> Option<i64> {
        let place = |words: &[&str]| {
            words
                .iter()
                .position(|known| known.eq_ignore_ascii_case(word))
        };
        let place = place(self.words).or_else(|| place(self.short))?;
        Some(place as i64 + i64::from(self.first))
    }

    /// The words.
    pub fn words(&self) -> &'static [&'static str] {
        self.words
    }
}

/// A kind in a sentence.
pub fn kind(kind: Kind) -> String {
    spoken(&KINDS, "kind", kind.0)
}

/// A market in a sentence, as the tariff writes it.
pub fn market(market: Market) -> String {
    match market {
        Market::DAY_AHEAD => "Day-Ahead".to_string(),
        Market::REAL_TIME => "Real-Time".to_string(),
        Market(number) => format!("market {number}"),
    }
}

/// A component in a sentence.
pub fn component(component: Component) -> String {
    spoken(&COMPONENTS, "component", component.0)
        .replace('-', " ")
        .replace("start up", "start-up")
}

fn spoken(names: &Names, what: &str, number: u8) -> String {
    names
        .word(i64::from(number))
        .map_or_else(|| format!("{what} {number}"), str::to_string)
}

/// So many records of a section, in words.
pub fn count(section: Section, records: usize) -> String {
    let (one, many) = match section {
        Section::Units => ("unit", "units"),
        Section::References => ("reference", "references"),
        Section::Past => ("past entry", "past entries"),
        Section::Events => ("event", "events"),
    };
    format!("{records} {}", if records == 1 { one } else { many })
}
