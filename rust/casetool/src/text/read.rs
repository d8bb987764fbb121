//! From the lines of a text to its records, with every mistake on the way.

mod before;

use attachment_h::layout::{HEADER_BYTES, HOURS, LARGEST_FILE, Section, Version};
use attachment_h::{Component, Kind, Market, Mask};

use super::line::{Line, TextError, Word, words};
use super::mistakes::Mistakes;
use super::needs::{EventLine, UnitLine};
use super::source::Record;
use super::values::{Unknown, early_value, values};
use super::version::{ROOM_AS_SAID, Said, Told, VERSION};
use super::{amounts, hours, near, period};
use crate::record::field::{Field, Limit};
use crate::record::fields;
use crate::record::needs::Shape;

/// What a line may begin with.
const FIRST_WORDS: [&str; 8] = [
    "unit",
    "reference",
    "past",
    "event",
    "hour",
    "hours",
    "order",
    VERSION,
];

/// What is read of a text: its records as they stand there, the lines that they came from, and what is wrong.
pub struct Reader<'a> {
    /// The version that the records are laid out in.
    pub version: Version,
    /// The records of each section.
    pub sections: [Vec<Record<'a>>; 4],
    /// The lines of units.
    pub units: Vec<UnitLine<'a>>,
    /// The lines of events.
    pub events: Vec<EventLine<'a>>,
    /// That the records are to stay in their order.
    pub as_written: bool,
    /// What is wrong.
    pub mistakes: Mistakes,
    /// What is written all the same, though a case with it is refused.
    pub warnings: Vec<TextError>,
    references_only: bool,
    /// What says the version of a correction, beside its text.
    told: Option<Told>,
    /// The numbers that a record of version 1 has room for, where something says that version.
    room: Option<&'static str>,
    says_version: bool,
    above: Above<'a>,
    lines: [usize; 4],
}

/// What hours would belong to.
#[derive(Default)]
enum Above<'a> {
    /// Nothing: no event stands above.
    #[default]
    Nothing,
    /// A line that could not be read, so that nothing is said of its hours.
    Unread,
    /// An event.
    Event(OpenEvent<'a>),
}

/// The event to which the next hours belong.
struct OpenEvent<'a> {
    first: Word<'a>,
    shape: Shape,
    /// The hours that have a line.
    written: u32,
    /// That a list of hours could not be read.
    unread: bool,
    /// Nothing where its line has a mistake.
    record: Option<Record<'a>>,
}

/// The hours of a day as a mask.
const EVERY_HOUR: u32 = (1 << HOURS) - 1;

impl<'a> Reader<'a> {
    /// Reads the lines of a case; its version is at least this one where its text does not say it.
    pub fn case(text: &'a str, least: Version) -> Reader<'a> {
        let said = Said::by(text);
        let version = said.line.unwrap_or(said.needed.max(least));
        Reader::new(version, said).read(text)
    }

    /// Reads the lines of a correction, which has references alone, in the version that is told, if one is.
    pub fn correction(text: &'a str, told: Option<Told>) -> Reader<'a> {
        let said = Said::by(text);
        let version = told.map_or(said.version(), Told::version);
        let mut reader = Reader::new(version, said);
        reader.references_only = true;
        reader.told = told;
        reader.room = told.map(Told::room).or(reader.room);
        reader.read(text)
    }

    fn new(version: Version, said: Said) -> Reader<'a> {
        Reader {
            version,
            sections: Default::default(),
            units: Vec::new(),
            events: Vec::new(),
            as_written: false,
            mistakes: Mistakes::default(),
            warnings: Vec::new(),
            references_only: false,
            told: None,
            room: said.line.map(|_| ROOM_AS_SAID),
            says_version: false,
            above: Above::default(),
            lines: [0; 4],
        }
    }

    fn read(mut self, text: &'a str) -> Reader<'a> {
        for (place, line) in text.split('\n').enumerate() {
            let words = words(place + 1, line);
            if let Some((&first, rest)) = words.split_first() {
                self.line(first, rest);
            }
        }
        self.close_event();
        self
    }

    fn line(&mut self, first: Word<'a>, rest: &[Word<'a>]) {
        if matches!(first.text, "hour" | "hours") && !self.references_only {
            return self.hours(first, rest);
        }
        self.close_event();
        match first.text {
            "order" => self.order(first, rest),
            VERSION => self.version(first, rest),
            "reference" => self.reference(first, rest),
            _ if self.references_only => {
                let expected = "expected reference: a correction has nothing else";
                self.mistakes.add(first.wrong(expected));
            }
            "unit" => self.unit(first, rest),
            "past" => self.past(first, rest),
            "event" => self.event(first, rest),
            _ => self.unknown(first),
        }
    }

    fn unknown(&mut self, first: Word<'a>) {
        let problem = near::meant(first.text, &FIRST_WORDS).map_or_else(
            || "expected unit, reference, past, event, hour or hours".to_string(),
            near::question,
        );
        self.mistakes.add(first.wrong(problem));
        self.above = Above::Unread;
    }

    fn unit(&mut self, first: Word<'a>, rest: &[Word<'a>]) {
        // The first word is a key too: that of the number.
        let words: Vec<Word<'a>> = [&[first], rest].concat();
        let line = Line::of(first, &words, &mut self.mistakes);
        let found = self.record(Section::Units, &line, &fields::unit(self.version));
        if let Some(record) = found {
            self.units.push(UnitLine {
                number: Section::Units.unit_number(self.version, &record.bytes),
                area: record.bytes[4],
                keys: line.keys,
                last: line.last,
            });
            self.sections[Section::Units as usize].push(record);
        }
    }

    fn reference(&mut self, first: Word<'a>, rest: &[Word<'a>]) {
        let line = Line::of(first, rest, &mut self.mistakes);
        let component = early_value(&line, &fields::COMPONENT_OF_REFERENCE).map(Component);
        // Without its component nothing is known of the value.
        let (known, unknown) = match component {
            Some(component) => (fields::reference(self.version, component), Unknown::Wrong),
            None => (
                fields::reference_of_any_component(self.version),
                Unknown::Left,
            ),
        };
        let found = self.record_of(Section::References, &line, &known, unknown);
        self.sections[Section::References as usize].extend(found);
    }

    fn past(&mut self, first: Word<'a>, rest: &[Word<'a>]) {
        let line = Line::of(first, rest, &mut self.mistakes);
        let found = self.record(Section::Past, &line, &fields::PAST);
        if let Some(record) = found {
            self.warnings.extend(period::warning(&line, &record.bytes));
            self.sections[Section::Past as usize].push(record);
        }
    }

    fn event(&mut self, first: Word<'a>, rest: &[Word<'a>]) {
        let line = Line::of(first, rest, &mut self.mistakes);
        let (shape, certain) = match shape_of(&line) {
            Some(found) => found,
            None => {
                let fields = fields::of_every_event(self.version);
                self.record_of(Section::Events, &line, &fields, Unknown::Left);
                self.above = Above::Unread;
                return;
            }
        };
        // What a market or a component asks for is not known before they are.
        let mut fields = fields::event(self.version, shape);
        for field in &mut fields {
            let known = certain.market && certain.component || !fields::is_p_q_or_r(field);
            field.needed = field.needed && known;
        }
        let record = self.record(Section::Events, &line, &fields);
        if let Some(record) = &record {
            self.warnings.extend(period::warning(&line, &record.bytes));
            self.events.push(EventLine {
                shape,
                unit: Section::Events.unit_number(self.version, &record.bytes),
                keys: line.keys,
                last: line.last,
            });
        }
        self.above = match certain.component {
            true => Above::Event(OpenEvent {
                first,
                shape,
                written: 0,
                unread: false,
                record,
            }),
            false => Above::Unread,
        };
    }

    /// Ends the event to which hours may be added.
    fn close_event(&mut self) {
        let Above::Event(event) = std::mem::take(&mut self.above) else {
            return;
        };
        let left_out = !event.written & EVERY_HOUR;
        if left_out != 0 && !event.unread && event.shape.needs_every_hour() {
            self.mistakes.add(event.first.wrong(format!(
                "expected a bid in every hour, since one left out would be a bid of 0: there is none for {}",
                hours::named(left_out)
            )));
        }
        self.sections[Section::Events as usize].extend(event.record);
    }

    fn record(
        &mut self,
        section: Section,
        line: &Line<'a>,
        fields: &[Field],
    ) -> Option<Record<'a>> {
        self.record_of(section, line, fields, Unknown::Wrong)
    }

    /// The record of a line, if it has no mistake. The first that has no room in its section, or in the file, is one.
    fn record_of(
        &mut self,
        section: Section,
        line: &Line<'a>,
        fields: &[Field],
        unknown: Unknown,
    ) -> Option<Record<'a>> {
        let before = self.length();
        self.lines[section as usize] += 1;
        let most = section.most();
        if self.lines[section as usize] == most + 1 {
            let most = super::words::count(section, most);
            self.mistakes
                .add(line.first.wrong(format!("at most {most} fit")));
        } else if before <= LARGEST_FILE && self.length() > LARGEST_FILE && !self.references_only {
            let most = amounts::bytes(LARGEST_FILE);
            self.mistakes.add(
                line.first
                    .wrong(format!("with this record the file is over {most}")),
            );
        }
        let fields = self.with_room(section, fields);
        let found = values(line, &fields, unknown, &mut self.mistakes)?;
        let mut bytes = found.bytes;
        bytes.resize(section.width(self.version), 0);
        Some(Record {
            first: line.first,
            bytes,
            words: found.words,
        })
    }

    /// The fields of a record, its number of a unit held to version 1 where something says that version.
    fn with_room(&self, section: Section, fields: &[Field]) -> Vec<Field> {
        let mut fields = fields.to_vec();
        if let (Version::One, Some(room)) = (self.version, self.room) {
            let numbers = fields::number(section, self.version);
            for field in fields.iter_mut().filter(|field| numbers.contains(field)) {
                field.limit = Limit::Room(room);
            }
        }
        fields
    }

    /// The bytes of a file with a record for each line so far.
    fn length(&self) -> usize {
        let sections = Section::ALL.into_iter().zip(self.lines);
        HEADER_BYTES
            + sections
                .map(|(section, lines)| lines * section.width(self.version))
                .sum::<usize>()
    }

    fn hours(&mut self, first: Word<'a>, rest: &[Word<'a>]) {
        let event = match &mut self.above {
            Above::Event(event) => event,
            Above::Unread => return,
            Above::Nothing => {
                return self
                    .mistakes
                    .add(first.wrong("hours follow the line of their event"));
            }
        };
        let Some((&which, rest)) = rest.split_first() else {
            event.unread = true;
            return self
                .mistakes
                .add(first.missing("expected hours, such as 0,5-7"));
        };
        let mask = hours::read(which.text, HOURS as u32 - 1).unwrap_or_else(|problem| {
            self.mistakes.add(which.wrong(problem));
            event.unread = true;
            0
        });
        let twice = mask & event.written;
        if twice != 0 {
            let problem = format!("this event has {} already", hours::named(twice));
            self.mistakes.add(which.wrong(problem));
        }
        event.written |= mask;
        let line = Line::of(which, rest, &mut self.mistakes);
        let fields = fields::cell(event.shape.kind, event.shape.component);
        let found = values(&line, &fields, Unknown::Wrong, &mut self.mistakes);
        if let (Some(record), Some(cell)) = (&mut event.record, found) {
            for hour in Mask(mask).hours() {
                record.put_cell(hour, &cell);
            }
        }
    }
}

/// Which parts of a shape could be read.
struct Certain {
    market: bool,
    component: bool,
}

/// What says how the fields of an event are read, 0 in the parts that could not be; nothing without its kind.
fn shape_of(line: &Line<'_>) -> Option<(Shape, Certain)> {
    let kind = early_value(line, &fields::KIND).map(Kind)?;
    let market = early_value(line, &fields::MARKET).map(Market);
    let component = early_value(line, &fields::component_of_event(kind)).map(Component);
    let certain = Certain {
        market: market.is_some(),
        component: component.is_some(),
    };
    let shape = Shape {
        kind,
        market: market.unwrap_or_default(),
        component: component.unwrap_or_default(),
    };
    Some((shape, certain))
}
