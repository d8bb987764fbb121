//! A reader of JSON that takes nothing else, and a reader of the schema's own keywords.

use std::collections::BTreeMap;

use super::{Ran, repository};

/// A value.
#[derive(Clone, Debug, PartialEq)]
pub enum Value {
    Null,
    Bool(bool),
    Integer(i128),
    Text(String),
    List(Vec<Value>),
    Object(BTreeMap<String, Value>),
}

impl Value {
    /// The value under a name, or at a place, of an object or a list.
    pub fn at(&self, name: &str) -> &Value {
        match self {
            Value::Object(values) => values.get(name).unwrap_or_else(|| panic!("no {name}")),
            Value::List(values) => &values[name.parse::<usize>().expect("a place")],
            other => panic!("{name} of {other:?}"),
        }
    }

    pub fn integer(&self) -> i128 {
        match self {
            Value::Integer(value) => *value,
            other => panic!("{other:?} is no integer"),
        }
    }

    pub fn text(&self) -> &str {
        match self {
            Value::Text(text) => text,
            other => panic!("{other:?} is no text"),
        }
    }

    pub fn list(&self) -> &[Value] {
        match self {
            Value::List(values) => values,
            other => panic!("{other:?} is no list"),
        }
    }

    fn object(&self) -> &BTreeMap<String, Value> {
        match self {
            Value::Object(values) => values,
            other => panic!("{other:?} is no object"),
        }
    }
}

/// Reads one value and nothing after it. Numbers are integers, names of an object are there once.
pub fn parse(text: &str) -> Value {
    let mut reader = Reader { rest: text };
    let value = reader.value();
    reader.blank();
    assert_eq!(reader.rest, "", "after the value");
    value
}

struct Reader<'a> {
    rest: &'a str,
}

impl Reader<'_> {
    fn blank(&mut self) {
        self.rest = self.rest.trim_start_matches([' ', '\n', '\r', '\t']);
    }

    fn take(&mut self, sign: &str) -> bool {
        self.blank();
        let rest = self.rest.strip_prefix(sign);
        self.rest = rest.unwrap_or(self.rest);
        rest.is_some()
    }

    fn value(&mut self) -> Value {
        for (word, value) in [
            ("null", Value::Null),
            ("true", Value::Bool(true)),
            ("false", Value::Bool(false)),
        ] {
            if self.take(word) {
                return value;
            }
        }
        if self.take("[") {
            return Value::List(self.parts("]", Reader::value));
        }
        if self.take("{") {
            let pairs = self.parts("}", |reader| {
                assert!(reader.take("\""), "a name: {}", reader.rest);
                let name = reader.text();
                assert!(reader.take(":"), "after a name: {}", reader.rest);
                (name, reader.value())
            });
            let count = pairs.len();
            let values: BTreeMap<String, Value> = pairs.into_iter().collect();
            assert_eq!(values.len(), count, "a name twice");
            return Value::Object(values);
        }
        if self.take("\"") {
            return Value::Text(self.text());
        }
        let end = self
            .rest
            .find(|letter: char| letter != '-' && !letter.is_ascii_digit());
        let (digits, rest) = self.rest.split_at(end.unwrap_or(self.rest.len()));
        self.rest = rest;
        let bare = digits.strip_prefix('-').unwrap_or(digits);
        assert!(bare == "0" || !bare.starts_with('0'), "{digits}");
        Value::Integer(digits.parse().unwrap_or_else(|_| panic!("{digits}{rest}")))
    }

    fn parts<T>(&mut self, close: &str, part: impl Fn(&mut Self) -> T) -> Vec<T> {
        let mut found = Vec::new();
        if self.take(close) {
            return found;
        }
        loop {
            found.push(part(self));
            if self.take(close) {
                return found;
            }
            assert!(self.take(","), "between values: {}", self.rest);
        }
    }

    fn text(&mut self) -> String {
        let mut text = String::new();
        let mut letters = self.rest.chars();
        loop {
            match letters.next().expect("the end of a string") {
                '"' => break,
                '\\' => text.push(match letters.next().expect("an escape") {
                    'n' => '\n',
                    'r' => '\r',
                    't' => '\t',
                    'u' => {
                        let digits: String = letters.by_ref().take(4).collect();
                        let number = u32::from_str_radix(&digits, 16).expect("four digits");
                        char::from_u32(number).expect("a letter")
                    }
                    letter => {
                        assert!(matches!(letter, '"' | '\\'), "{letter}");
                        letter
                    }
                }),
                letter => {
                    assert!(letter >= ' ', "a control character in a string");
                    text.push(letter);
                }
            }
        }
        self.rest = letters.as_str();
        text
    }
}

/// The JSON of a run, which is as the schema says.
pub fn answer(ran: &Ran, schema: &Value) -> Value {
    let value = parse(ran.text());
    assert_eq!(broken(&value, schema, schema), None, "{}", ran.text());
    value
}

/// The schema of docs/.
pub fn schema() -> Value {
    let text = std::fs::read_to_string(repository("docs/casetool.schema.json"));
    parse(&text.expect("the schema"))
}

/// What a value breaks of a schema, nothing where it is as the schema says. A keyword that is not known here panics.
pub fn broken(value: &Value, schema: &Value, whole: &Value) -> Option<String> {
    schema.object().iter().find_map(|(keyword, rule)| {
        let holds = match keyword.as_str() {
            "$ref" => {
                let name = rule.text().strip_prefix("#/$defs/").expect("a definition");
                return broken(value, whole.at("$defs").at(name), whole);
            }
            "items" => return items(value, rule, whole),
            "properties" => return properties(value, rule, whole),
            "oneOf" => {
                let fits = |rule: &&Value| broken(value, rule, whole).is_none();
                rule.list().iter().filter(fits).count() == 1
            }
            "additionalProperties" => {
                assert_eq!(*rule, Value::Bool(false));
                let known = schema.at("properties").object();
                names(value).all(|name| known.contains_key(name))
            }
            keyword => plain_rule(keyword, rule, value),
        };
        (!holds).then(|| format!("{keyword} {rule:?}: {value:?}"))
    })
}

/// Whether a rule that asks for no other holds of a value.
fn plain_rule(keyword: &str, rule: &Value, value: &Value) -> bool {
    match keyword {
        "title" | "description" | "$schema" | "$defs" => true,
        "const" => value == rule,
        "enum" => rule.list().contains(value),
        "type" => match rule {
            Value::List(names) => names.iter().any(|name| is_a(value, name.text())),
            name => is_a(value, name.text()),
        },
        "minimum" => number(value).is_none_or(|number| number >= rule.integer()),
        "maximum" => number(value).is_none_or(|number| number <= rule.integer()),
        "minItems" => length(value).is_none_or(|length| length >= rule.integer()),
        "maxItems" => length(value).is_none_or(|length| length <= rule.integer()),
        "pattern" => !is_a(value, "string") || matches(value.text(), rule.text()),
        "required" => {
            let is_there = |name: &Value| names(value).any(|known| known == name.text());
            !is_a(value, "object") || rule.list().iter().all(is_there)
        }
        keyword => panic!("{keyword} is not known"),
    }
}

/// The names of an object; none of another value.
fn names(value: &Value) -> impl Iterator<Item = &str> {
    let values = match value {
        Value::Object(values) => Some(values),
        _ => None,
    };
    values.into_iter().flatten().map(|(name, _)| name.as_str())
}

fn items(value: &Value, rule: &Value, whole: &Value) -> Option<String> {
    match value {
        Value::List(values) => values.iter().find_map(|value| broken(value, rule, whole)),
        _ => None,
    }
}

fn properties(value: &Value, rules: &Value, whole: &Value) -> Option<String> {
    let Value::Object(values) = value else {
        return None;
    };
    values.iter().find_map(|(name, value)| {
        let rule = rules.object().get(name)?;
        broken(value, rule, whole).map(|problem| format!("{name}: {problem}"))
    })
}

fn is_a(value: &Value, name: &str) -> bool {
    match name {
        "null" => matches!(value, Value::Null),
        "boolean" => matches!(value, Value::Bool(_)),
        "integer" => matches!(value, Value::Integer(_)),
        "string" => matches!(value, Value::Text(_)),
        "array" => matches!(value, Value::List(_)),
        "object" => matches!(value, Value::Object(_)),
        name => panic!("{name} is no type"),
    }
}

fn number(value: &Value) -> Option<i128> {
    match value {
        Value::Integer(value) => Some(*value),
        _ => None,
    }
}

fn length(value: &Value) -> Option<i128> {
    match value {
        Value::List(values) => Some(values.len() as i128),
        _ => None,
    }
}

/// Whether a text is of a pattern of digits, `[0-9]`, and single signs, with `{n}`, `+` and `?` after them.
fn matches(text: &str, pattern: &str) -> bool {
    let pattern = pattern
        .strip_prefix('^')
        .and_then(|rest| rest.strip_suffix('$'));
    let mut pattern = pattern.expect("a whole pattern");
    let mut rest = text;
    while !pattern.is_empty() {
        let (class, after) = match pattern.strip_prefix('[') {
            Some(bracketed) => bracketed.split_once(']').expect("a class"),
            None => pattern.split_at(1),
        };
        let fits = |letter: char| match class {
            "0-9" => letter.is_ascii_digit(),
            sign => sign == letter.to_string(),
        };
        let (least, most, after) = repeated(after);
        pattern = after;
        let count = rest
            .chars()
            .take(most)
            .take_while(|&letter| fits(letter))
            .count();
        if count < least {
            return false;
        }
        rest = &rest[count..];
    }
    rest.is_empty()
}

/// How often a class stands there at least and at most, and what is after that.
fn repeated(after: &str) -> (usize, usize, &str) {
    match after.chars().next() {
        Some('+') => (1, usize::MAX, &after[1..]),
        Some('?') => (0, 1, &after[1..]),
        Some('{') => {
            let (count, after) = after[1..].split_once('}').expect("a count");
            let count = count.parse().expect("a count");
            (count, count, after)
        }
        _ => (1, 1, after),
    }
}
