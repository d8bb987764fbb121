//! The fields of every record. What shows, writes and checks a case goes by this one table.

use attachment_h::layout::{HIGHEST_UNIT_NUMBER, Section, Version};
use attachment_h::{Component, Kind, Market};

use crate::record::field::{Field, Form, Limit};
use crate::record::needs::Shape;
use crate::text::amounts::Measure;
use crate::text::words::{COMPONENTS, KINDS, MARKETS};

const PLAIN: Form = Form::Amount(Measure::Plain);
const DOLLARS: Form = Form::Amount(Measure::Dollars);
const SIGNED_DOLLARS: Form = Form::Signed(Measure::Dollars);
const POWER: Form = Form::Amount(Measure::Power);

const LARGEST_PRICE: i64 = 1_000_000;
const LARGEST_CHANGE: i64 = 1_000_000_000;
const LARGEST_POWER: i64 = 50_000;
const HIGHEST_DAY: i64 = 1_000_000;

/// 31 December 2099, the last day that is in a capability period.
pub const LAST_DAY: u32 = 36_524;

/// The key of the number of a unit, in every record that has one.
pub const NUMBER: &str = "unit";

/// The key of the two bytes in which version 1 has that number.
pub const OLD_NUMBER: &str = "old-number";

/// The number of the unit that a record is of or names: in version 1 two bytes, in version 2 the last four, and then
/// the two bytes of version 1, which are 0. A past entry names no unit.
pub fn number(section: Section, version: Version) -> Vec<Field> {
    let (name, old) = match section {
        Section::Units => ("unit number", 0),
        Section::References => ("unit", 0),
        Section::Past => return Vec::new(),
        Section::Events => ("unit", 2),
    };
    let number = |place| Field::new((name, NUMBER), place, PLAIN).needed();
    match version {
        Version::One => vec![number((old, 2))],
        Version::Two => vec![
            number((section.width(version) - 4, 4)).within(0, HIGHEST_UNIT_NUMBER.into()),
            Field::new(("old number", OLD_NUMBER), (old, 2), PLAIN).within(0, 0),
        ],
    }
}

/// Where the number of a unit stands in a record that has one.
pub fn number_at(section: Section, version: Version) -> usize {
    number(section, version)[0].at
}

/// The fields of a unit.
pub fn unit(version: Version) -> Vec<Field> {
    [&number(Section::Units, version), &OF_UNIT[..]].concat()
}

/// The fields of a unit beside its number.
const OF_UNIT: [Field; 11] = [
    Field::new(("group", "group"), (2, 2), PLAIN).needed(),
    Field::new(("area", "area"), (4, 1), Form::Mark).within(0, 1),
    Field::spare("spare-5", 5),
    Field::spare("spare-6", 6),
    Field::spare("spare-7", 7),
    Field::new(("capability", "capability"), (8, 4), POWER)
        .needed()
        .within(1, LARGEST_POWER),
    Field::new(
        ("response rate", "response-rate"),
        (12, 4),
        Form::Amount(Measure::Rate),
    )
    .within(0, LARGEST_POWER),
    AVERAGE_PRICE,
    CONSTRAINED_HOURS,
    Field::spare("spare-22", 22),
    Field::spare("spare-23", 23),
];

/// The Average Price of a unit's area.
pub const AVERAGE_PRICE: Field =
    Field::new(("Average Price", "average-price"), (16, 4), DOLLARS).within(0, LARGEST_PRICE);

/// The Constrained Hours of a unit's area.
pub const CONSTRAINED_HOURS: Field =
    Field::new(("Constrained Hours", "constrained-hours"), (20, 2), PLAIN).within(0, 8_784);

/// The day of a past entry or an event.
pub const DAY: Field = Field::new(("day", "day"), (8, 4), Form::Day)
    .needed()
    .within(0, HIGHEST_DAY);

/// The capability period of a past entry or an event.
pub const PERIOD: Field = Field::new(("period", "period"), (4, 2), PLAIN).of_day();

/// The fields of a past entry.
pub const PAST: [Field; 7] = [
    Field::new(("group", "group"), (0, 2), PLAIN).needed(),
    Field::new(("kind", "kind"), (2, 1), Form::Name(KINDS))
        .needed()
        .limited(Limit::Either(1, 3)),
    Field::new(("market", "market"), (3, 1), Form::Name(MARKETS))
        .needed()
        .within(0, 1),
    PERIOD,
    Field::spare("spare-6", 6),
    Field::spare("spare-7", 7),
    DAY,
];

/// What a component is counted in.
pub fn measure_of(component: Component) -> Measure {
    if component.is_money() {
        Measure::Dollars
    } else if component.is_time() {
        Measure::Minutes
    } else {
        Measure::Plain
    }
}

/// The fields of a reference of this component.
pub fn reference(version: Version, component: Component) -> Vec<Field> {
    let mut fields = reference_of_any_component(version);
    fields.push(value(component));
    fields
}

/// The fields of a reference whose component is not known, which says how its value is read.
pub fn reference_of_any_component(version: Version) -> Vec<Field> {
    let others = [COMPONENT_OF_REFERENCE, Field::spare("spare-3", 3)];
    [&number(Section::References, version), &others[..]].concat()
}

/// The value of a reference of this component.
pub fn value(component: Component) -> Field {
    let most = if component <= Component::RESERVE_OR_REGULATION {
        LARGEST_PRICE
    } else {
        LARGEST_CHANGE
    };
    let form = Form::Amount(measure_of(component));
    Field::new(("value", "value"), (4, 4), form)
        .needed()
        .within(0, most)
}

/// The component of a reference, which says how its value is read.
pub const COMPONENT_OF_REFERENCE: Field =
    Field::new(("component", "component"), (2, 1), Form::Name(COMPONENTS))
        .needed()
        .within(0, 8);

/// The kind of an event, which says how its other fields are read.
pub const KIND: Field = Field::new(("kind", "kind"), (0, 1), Form::Name(KINDS))
    .needed()
    .within(1, 4);

/// The component of an event.
const COMPONENT: Field =
    Field::new(("component", "component"), (6, 1), Form::Name(COMPONENTS)).within(0, 0);

/// The market of an event.
pub const MARKET: Field = Field::new(("market", "market"), (1, 1), Form::Name(MARKETS))
    .needed()
    .within(0, 1);

/// The fields that every event has under one key, whatever its kind.
pub fn of_every_event(version: Version) -> Vec<Field> {
    let number = number(Section::Events, version);
    [&[DAY, KIND, MARKET][..], &number, &[PERIOD]].concat()
}

/// The fields of an event before its hour cells, by its kind, market and component, in the order of
/// the text. Needed are those that the kind reads; its unit's area may ask for more.
pub fn event(version: Version, shape: Shape) -> Vec<Field> {
    let kind = shape.kind;
    let markets = if kind == Kind::DISPATCH {
        (1, 1)
    } else {
        (0, 1)
    };
    let most_impact = if matches!(kind, Kind::FUEL | Kind::BIDS) {
        0
    } else {
        1
    };
    let before = [DAY, KIND, MARKET.within(markets.0, markets.1)];
    let after = [
        PERIOD,
        component_of_event(kind),
        Field::new(("impact", "impact"), (7, 1), Form::Mark)
            .needed_where(matches!(kind, Kind::WITHHELD | Kind::DISPATCH))
            .within(0, most_impact),
    ];
    let number = number(Section::Events, version);
    [&before[..], &number, &after, &words_of_event(shape)].concat()
}

/// The component of an event of this kind: "0 to 8 in kind 4, else 0".
pub fn component_of_event(kind: Kind) -> Field {
    if kind == Kind::BIDS {
        COMPONENT.needed().within(0, 8)
    } else {
        COMPONENT
    }
}

/// Whether a field of an event is P, Q or R.
pub fn is_p_q_or_r(field: &Field) -> bool {
    matches!(field.name, "P" | "Q" | "R")
}

/// P, Q and R. A kind that lacks one has it under its letter, as a plain number.
pub fn words_of_event(shape: Shape) -> [Field; 3] {
    let day_ahead = shape.market == Market::DAY_AHEAD;
    let p = |key| Field::new(("P", key), (12, 4), Form::Hours).limited(Limit::Mask);
    let q = |key, form| Field::new(("Q", key), (16, 4), form);
    let r = |key, form| Field::new(("R", key), (20, 4), form);
    match shape.kind {
        Kind::FUEL => {
            let real_time = shape.market == Market::REAL_TIME;
            let tcc_change = if real_time { 0 } else { LARGEST_CHANGE };
            [
                p("inaccurate-hours").needed(),
                q("guarantee-change", SIGNED_DOLLARS)
                    .needed()
                    .within(-LARGEST_CHANGE, LARGEST_CHANGE),
                r("tcc-change", SIGNED_DOLLARS)
                    .needed_where(day_ahead)
                    .within(-tcc_change, tcc_change),
            ]
        }
        Kind::BIDS => [
            p("shadow-price-hours"),
            q("impact-hours", Form::Hours).needed().limited(Limit::Mask),
            r("minimum-run-hours", PLAIN)
                .needed_where(shape.component == Component::MINIMUM_GENERATION && day_ahead)
                .within(0, 24),
        ],
        _ => [
            p(if matches!(shape.kind, Kind::WITHHELD | Kind::DISPATCH) {
                "shadow-price-hours"
            } else {
                "P"
            }),
            q("Q", PLAIN).within(0, 0),
            r("R", PLAIN).within(0, 0),
        ],
    }
}

/// a, b and m of an hour cell, by the kind and the component of its event. A kind that lacks m has
/// it under its letter, as a plain number.
pub fn cell(kind: Kind, component: Component) -> [Field; 3] {
    let a = |key, form| Field::new(("a", key), (0, 4), form);
    let b = |key, form| Field::new(("b", key), (4, 4), form);
    let m = |key, form| Field::new(("m", key), (8, 4), form);
    let no_m = m("m", PLAIN).within(0, 0);
    let price = |key| b(key, SIGNED_DOLLARS).within(-LARGEST_PRICE, LARGEST_PRICE);
    match kind {
        Kind::WITHHELD => [
            a("withheld", POWER).needed().limited(Limit::Capability),
            price("price").needed(),
            no_m,
        ],
        Kind::DISPATCH => [
            a("undelivered", POWER).needed().limited(Limit::Capability),
            b("added-revenue", DOLLARS).needed().within(0, 100_000_000),
            no_m,
        ],
        Kind::FUEL => [
            a("energy", Form::Amount(Measure::Energy))
                .needed()
                .within(0, LARGEST_POWER),
            price("price-change").needed(),
            no_m,
        ],
        Kind::BIDS => {
            let (low, high) = bids(component);
            [
                a("bid", Form::Signed(measure_of(component)))
                    .needed()
                    .within(low, high),
                price("price").needed_where(component == Component::ENERGY),
                m("quantity", POWER)
                    .needed_where(component == Component::ENERGY)
                    .within(0, LARGEST_POWER),
            ]
        }
        _ => [a("a", PLAIN), b("b", PLAIN), no_m],
    }
}

/// The least and the greatest bid of a component.
fn bids(component: Component) -> (i64, i64) {
    match component {
        Component::ENERGY | Component::MINIMUM_GENERATION => (-LARGEST_PRICE, LARGEST_PRICE),
        Component::RESERVE_OR_REGULATION => (0, LARGEST_PRICE),
        _ => (0, LARGEST_CHANGE),
    }
}
