//! The rows of a settlement for programs, as JSON and as CSV: every field of a row and of the totals.

use attachment_h::layout::{Section, Version, u16_at};
use attachment_h::{Cents, Kind, Mask, Row, Settled};

use super::csv;
use super::json::{Json, event_fields};
use super::money::Money;
use super::settlement::Settlement;
use crate::record::event::Event;
use crate::record::fields;
use crate::text::amounts::{self, Measure};

const PENALTY_CENTS: &str = "penalty_cents";
const PENALTY_DOLLARS: &str = "penalty_dollars";
const MAKE_UP_CENTS: &str = "make_up_cents";
const MAKE_UP_DOLLARS: &str = "make_up_dollars";
const BIDS: &str = "bids_in_force";
const BIDS_DOLLARS: &str = "bids_in_force_dollars";

impl Settlement<'_> {
    /// The settlement as JSON.
    pub fn json(&self, settled: &Settled) -> String {
        let correction = self.correction.map(|correction| correction.json());
        let totals = Json::Object(vec![
            ("rows", settled.rows.into()),
            ("penalties_cents", settled.penalties.0.into()),
            ("penalties_dollars", dollars(settled.penalties).into()),
            ("make_ups_cents", settled.make_ups.0.into()),
            ("make_ups_dollars", dollars(settled.make_ups).into()),
        ]);
        let mut fields = vec![
            ("answer", "settled".into()),
            ("correction", correction.into()),
            ("rows", self.rows().map(Json::Object).collect()),
            ("totals", totals),
        ];
        fields.extend(self.workings.map(|workings| {
            let workings = workings.iter().map(Money::fields);
            ("workings", workings.map(Json::Object).collect())
        }));
        Json::Object(fields).to_string()
    }

    /// The settlement as CSV: a line of names, a line for each row, and one for the totals.
    pub fn csv(&self, settled: &Settled) -> String {
        let (source, references) = match self.correction {
            Some(correction) => (correction.name.clone(), correction.references.to_string()),
            None => (String::new(), String::new()),
        };
        let columns = |fields: &[(&'static str, Json)]| csv::columns(fields, &[BIDS, BIDS_DOLLARS]);
        // The names are those of any row.
        let event = vec![0; Section::Events.width(Version::One)];
        let (event, row) = (Event::of(Version::One, &event), Row::default());
        let any = fields_of(0, &event, None, (&row, Mask(0)));
        let names: Vec<String> = columns(&any).into_iter().map(|(name, _)| name).collect();
        let line = |record: &str, rows: String, values: Vec<String>| {
            let first = [record.to_string(), source.clone(), references.clone(), rows];
            csv::line(first.into_iter().chain(values))
        };
        let first = ["record", "correction", "correction_references", "rows"];
        let mut text = csv::line(first.map(str::to_string).into_iter().chain(names.clone()));
        for row in self.rows() {
            let values = columns(&row).into_iter().map(|(_, value)| value);
            text += &line("row", String::new(), values.collect());
        }
        let totals = names.iter().map(|name| total_under(name, settled));
        text + &line("total", settled.rows.to_string(), totals.collect())
    }

    /// The fields of each row.
    fn rows(&self) -> impl Iterator<Item = Vec<(&'static str, Json)>> {
        let events = Event::all(&self.sections).enumerate();
        events.map(|(place, event)| {
            let row = Row::of(self.rows, place);
            let unit = self.sections.unit(event.unit);
            let group = unit.map(|unit| u16_at(unit, 2));
            let restored = self.restored(place, &event, &row);
            fields_of(place, &event, group, (&row, restored))
        })
    }
}

/// The fields of the row of an event, with the hours that the correction restored.
fn fields_of(
    place: usize,
    event: &Event<'_>,
    group: Option<u16>,
    (row, restored): (&Row, Mask),
) -> Vec<(&'static str, Json)> {
    let measure = (event.kind == Kind::BIDS).then(|| fields::measure_of(event.component));
    let in_dollars = measure.filter(|measure| *measure == Measure::Dollars);
    let in_dollars = in_dollars.map(|measure| {
        let bids = row.bids.iter();
        bids.map(|&bid| measure.decimal(i64::from(bid)))
            .collect::<Json>()
    });
    let mut fields = vec![("event", place.into())];
    fields.extend(event_fields(event));
    fields.extend([
        ("group", group.into()),
        ("flag_mask", row.flags.0.into()),
        ("flagged_hours", hours_of(row.flags)),
        ("mitigated_mask", row.mitigated.0.into()),
        ("mitigated_hours", hours_of(row.mitigated)),
        (PENALTY_CENTS, row.penalty.0.into()),
        (PENALTY_DOLLARS, dollars(row.penalty).into()),
        (MAKE_UP_CENTS, row.make_up.0.into()),
        (MAKE_UP_DOLLARS, dollars(row.make_up).into()),
        ("multiplier_halves", row.multiplier.0.into()),
        ("multiplier", amounts::halves(row.multiplier).into()),
        ("n3", row.n3.into()),
        ("n2", row.n2.into()),
        (BIDS, row.bids.into_iter().collect()),
        ("bids_in_force_measure", measure.map(measure_name).into()),
        (BIDS_DOLLARS, in_dollars.into()),
        ("restored_hours", hours_of(restored)),
    ]);
    fields
}

/// What bids are counted in, in a word.
pub(super) fn measure_name(measure: Measure) -> &'static str {
    match measure {
        Measure::Dollars => "cents",
        Measure::Minutes => "minutes",
        _ => "number",
    }
}

fn dollars(cents: Cents) -> String {
    Measure::Dollars.decimal(cents.0)
}

pub(super) fn hours_of(mask: Mask) -> Json {
    mask.hours().collect()
}

/// The total that stands under a column: that of which it is the sum.
fn total_under(name: &str, settled: &Settled) -> String {
    match name {
        PENALTY_CENTS => settled.penalties.0.to_string(),
        PENALTY_DOLLARS => dollars(settled.penalties),
        MAKE_UP_CENTS => settled.make_ups.0.to_string(),
        MAKE_UP_DOLLARS => dollars(settled.make_ups),
        _ => String::new(),
    }
}
