//! The pencil working of one hour: the comparisons of its conduct test in the words of docs/RULES.md, with the
//! figures of the proved library.

use attachment_h::{Comparison, Component, Kind, Working};

use super::json::{Json, event_fields};
use crate::record::event::Event;
use crate::record::fields;
use crate::text::amounts::{Measure, Signed, number};

/// An hour of an event.
#[derive(Clone, Copy, Debug)]
pub struct Hour<'a> {
    /// The event's number, from 0.
    pub number: usize,
    /// The event.
    pub event: Event<'a>,
    /// The hour.
    pub hour: usize,
}

/// A comparison of a conduct test: what docs/RULES.md says of it, and when it counts.
struct Step {
    words: String,
    /// d is on its left.
    of_d: bool,
    /// Why it is not taken where it is not.
    condition: &'static str,
}

fn step(words: impl Into<String>) -> Step {
    Step {
        words: words.into(),
        of_d: false,
        condition: "",
    }
}

fn step_of_d(words: &str) -> Step {
    Step {
        of_d: true,
        ..step(words)
    }
}

impl Step {
    fn unless(self, condition: &'static str) -> Step {
        Step { condition, ..self }
    }
}

impl Hour<'_> {
    /// The working as text.
    pub fn text(&self, working: &Working) -> String {
        let mut text = self.event.heading(self.number);
        text += &format!("Hour {}\n", self.hour);
        for (name, figure) in self.figures(working) {
            text += &format!("    {name:7}{figure}\n");
        }
        for (place, step) in self.steps(working).iter().enumerate() {
            let comparison = &working.comparisons[place];
            text += &line(place + 1, step, comparison, working.decrease > 0);
        }
        text + &self.verdict(working)
    }

    /// The working as JSON, with every figure that the library gives.
    pub fn json(&self, working: &Working) -> String {
        let a = match self.event.kind {
            Kind::BIDS => Json::from(working.a.cast_signed()),
            _ => Json::from(working.a),
        };
        let failed = Some(working.failed).filter(|&step| step > 0);
        let mut fields = vec![
            ("answer", "working".into()),
            ("event", self.number.into()),
            ("hour", self.hour.into()),
        ];
        fields.extend(event_fields(&self.event));
        fields.extend([
            ("flagged", working.flagged.into()),
            ("failed_step", failed.into()),
            ("tight", working.tight.into()),
            ("a", a),
            ("r", working.reference.into()),
            ("d", increase(working).json()),
            ("s", working.s.into()),
            ("g", working.g.into()),
            ("time_sum", working.total.into()),
            ("n3", working.n3.into()),
            ("n2", working.n2.into()),
            ("comparisons", self.comparisons_json(working)),
        ]);
        Json::Object(fields).to_string()
    }

    fn comparisons_json(&self, working: &Working) -> Json {
        let steps = self.steps(working);
        let comparisons = steps.iter().zip(&working.comparisons).enumerate();
        comparisons
            .map(|(place, (step, comparison))| step_json(place + 1, step, comparison))
            .collect()
    }

    /// The figures behind the comparisons, as the kind has them, each with what it is.
    fn figures(&self, working: &Working) -> Vec<(&'static str, String)> {
        let [a, _, _] = fields::cell(self.event.kind, self.event.component);
        let measure = a.form.measure();
        let amount = |value: Signed, what: &str| format!("{}, {what}", both(measure, value));
        let sum = |value: u64, what: &str| amount(value.into(), what);
        let own = ("a", sum(u64::from(working.a), a.key));
        let s = ("S", sum(working.s, "the group's a of this hour, added"));
        let mut found = match self.event.kind {
            Kind::WITHHELD => vec![
                own,
                s,
                ("G", sum(working.g, "the group's listed capability")),
                ("N3", working.n3.to_string()),
                ("N2", working.n2.to_string()),
            ],
            Kind::BIDS => {
                let bid = i64::from(working.a.cast_signed());
                vec![
                    ("a", amount(bid.into(), a.key)),
                    ("r", sum(u64::from(working.reference), "reference")),
                    ("d", amount(increase(working), "a − r")),
                ]
            }
            Kind::DISPATCH => vec![own, s],
            _ => vec![own],
        };
        if self.event.kind == Kind::BIDS && self.event.component.is_time() {
            let added = sum(working.total, "the positive d of the three times, added");
            found.push(("sum", added));
        }
        if self.event.kind != Kind::FUEL {
            let tight = if working.tight { "yes" } else { "no" };
            found.push(("tight", tight.to_string()));
        }
        found
    }

    /// The comparisons that the rules have for this kind and component. Fixed lines are the library's.
    fn steps(&self, working: &Working) -> Vec<Step> {
        let above = |what: &str, place: usize| {
            let right = number(working.comparisons[place].right);
            step(format!("{what} > {right}"))
        };
        match self.event.kind {
            Kind::WITHHELD => vec![
                step("10 × a > capability"),
                above("a", 1),
                step("20 × S > G"),
                above("S", 3),
            ],
            Kind::DISPATCH => vec![step("a > 15 × rate"), above("a", 1), above("S", 2)],
            Kind::FUEL => vec![step("events of the party-day with this hour in P > 0")],
            _ => bid_steps(self.event.component),
        }
    }

    fn verdict(&self, working: &Working) -> String {
        let hour = self.hour;
        let flagged = if working.flagged {
            "flagged"
        } else {
            "not flagged"
        };
        match working.failed {
            0 => format!("No step is exceeded: hour {hour} is {flagged}\n"),
            failed => format!("Step {failed} failed: hour {hour} is {flagged}\n"),
        }
    }
}

/// d: the one of the library's two parts that is not 0, with its sign.
fn increase(working: &Working) -> Signed {
    match working.decrease {
        0 => u64::from(working.increase).into(),
        size => Signed {
            negative: true,
            size,
        },
    }
}

/// The comparisons of a bid.
fn bid_steps(component: Component) -> Vec<Step> {
    match component.0 {
        0 | 1 => vec![
            step_of_d("d > the lower of 3 × r and 10,000").unless("a is below 2,500"),
            step_of_d("10 × d × H > 1,752 × Average Price")
                .unless("it needs Real-Time, a tight hour and H of at least 1"),
        ],
        2 => vec![step_of_d("d > the lower of 3 × r and 5,000").unless("a is below 500")],
        3 => vec![step_of_d("d > 2 × r")],
        4..=6 => vec![
            step_of_d("d > 180"),
            step("the positive d of the three times, added > 360").unless("d is not above 0"),
        ],
        7 => vec![step("a > 2 × r")],
        _ => vec![step("2 × a < r, that is r > 2 × a")],
    }
}

/// A comparison with both sides, or why it is not taken. Whether the left side exceeds the right one is
/// all that is decided here.
fn line(place: usize, step: &Step, comparison: &Comparison, negative: bool) -> String {
    let words = &step.words;
    if !comparison.taken {
        return format!("  {place}. {words}: not taken, {}\n", step.condition);
    }
    let (left, right) = (number(comparison.left), number(comparison.right));
    let exceeded = if comparison.left > comparison.right {
        "exceeded"
    } else {
        "not exceeded"
    };
    let note = if step.of_d && negative {
        " (a negative d stands as 0)"
    } else {
        ""
    };
    format!("  {place}. {words}: {left} > {right}, {exceeded}{note}\n")
}

/// A comparison as JSON.
fn step_json(place: usize, step: &Step, comparison: &Comparison) -> Json {
    Json::Object(vec![
        ("step", place.into()),
        ("words", step.words.as_str().into()),
        ("taken", comparison.taken.into()),
        ("left", comparison.left.into()),
        ("right", comparison.right.into()),
    ])
}

/// A figure as it stands in the file and as people write it.
fn both(measure: Measure, value: Signed) -> String {
    let (plain, spoken) = (Measure::Plain.spoken(value), measure.spoken(value));
    if spoken == plain {
        plain
    } else {
        format!("{plain} ({spoken})")
    }
}
