//! A step of a working: the sentence of the tariff that it is, and the arithmetic under it.

use crate::format::json::Json;

/// A step.
#[derive(Clone, Debug, PartialEq, Eq)]
pub struct Step {
    /// What it gives.
    pub name: &'static str,
    /// Its sections of the tariff.
    pub tariff: &'static str,
    /// What they say, in a few words.
    pub words: &'static str,
    /// The arithmetic.
    pub lines: Vec<String>,
}

impl Step {
    /// The sentence under a number, and the arithmetic further in.
    pub fn lines_under(self, number: usize) -> impl Iterator<Item = String> {
        let Step {
            name,
            tariff,
            words,
            lines,
        } = self;
        let sentence = format!("{number}. {name} ({tariff}): {words}");
        let lines = lines.into_iter().map(|line| format!("     {line}"));
        [sentence].into_iter().chain(lines)
    }

    /// The sentence as JSON; the figures of the arithmetic have names of their own.
    pub fn json(&self, number: usize) -> Json {
        Json::Object(vec![
            ("step", number.into()),
            ("name", self.name.into()),
            ("tariff", self.tariff.into()),
            ("words", self.words.into()),
        ])
    }
}

/// A row of amounts that stand under each other.
#[derive(Clone, Debug, Default, PartialEq, Eq)]
pub struct Row {
    /// Whose amount it is.
    pub label: String,
    /// The two factors that it is the product of.
    pub factors: Option<[String; 2]>,
    /// The amount; nothing over the rows of an event.
    pub amount: String,
    /// What is to be known of it.
    pub note: &'static str,
}

impl Row {
    /// An amount that is no product.
    pub fn of(label: impl Into<String>, amount: String) -> Row {
        Row {
            label: label.into(),
            amount,
            ..Row::default()
        }
    }

    /// What stands over the rows of an event.
    pub fn heading(label: String) -> Row {
        Row::of(label, String::new())
    }
}

/// Rows with their factors and amounts under each other.
pub fn column(rows: &[Row]) -> Vec<String> {
    let amounts = || rows.iter().filter(|row| !row.amount.is_empty());
    let factors = || amounts().filter_map(|row| row.factors.as_ref());
    let label = widest(amounts().map(|row| &row.label));
    let left = widest(factors().map(|[left, _]| left));
    let right = widest(factors().map(|[_, right]| right));
    let amount = widest(amounts().map(|row| &row.amount));
    let line = |row: &Row| {
        let product = match &row.factors {
            Some([one, other]) => format!("{one:>left$} × {other:>right$} = "),
            None if left > 0 => " ".repeat(left + right + " × ".chars().count() + " = ".len()),
            None => String::new(),
        };
        let (name, figure, note) = (&row.label, &row.amount, row.note);
        let text = format!("{name:label$}  {product}{figure:>amount$}{note}");
        text.trim_end().to_string()
    };
    rows.iter().map(line).collect()
}

fn widest<'s>(texts: impl Iterator<Item = &'s String>) -> usize {
    texts.map(|text| text.chars().count()).max().unwrap_or(0)
}
