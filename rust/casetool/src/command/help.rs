//! What `--help` prints.

/// What help is about.
#[derive(Clone, Copy, Debug, PartialEq, Eq)]
pub enum Topic {
    /// The tool as a whole.
    Casetool,
    /// `casetool write`.
    Write,
    /// `casetool show`.
    Show,
    /// `casetool convert`.
    Convert,
    /// `casetool check`.
    Check,
    /// `casetool settle`.
    Settle,
    /// `casetool working`.
    Working,
    /// `casetool line`.
    Line,
}

impl Topic {
    /// The commands.
    pub const COMMANDS: [Topic; 7] = [
        Topic::Write,
        Topic::Show,
        Topic::Convert,
        Topic::Check,
        Topic::Settle,
        Topic::Working,
        Topic::Line,
    ];

    /// The name of a command; nothing for the tool.
    pub fn name(self) -> &'static str {
        match self {
            Topic::Casetool => "",
            Topic::Write => "write",
            Topic::Show => "show",
            Topic::Convert => "convert",
            Topic::Check => "check",
            Topic::Settle => "settle",
            Topic::Working => "working",
            Topic::Line => "line",
        }
    }

    /// Whether it has the option `--allow-empty`.
    pub fn allows_empty(self) -> bool {
        matches!(self, Topic::Write | Topic::Check | Topic::Settle)
    }

    /// What to type for help.
    pub fn help_command(self) -> String {
        match self {
            Topic::Casetool => "casetool --help".to_string(),
            command => format!("casetool {} --help", command.name()),
        }
    }

    /// The help.
    pub fn text(self) -> &'static str {
        match self {
            Topic::Casetool => CASETOOL,
            Topic::Write => WRITE,
            Topic::Show => SHOW,
            Topic::Convert => CONVERT,
            Topic::Check => CHECK,
            Topic::Settle => SETTLE,
            Topic::Working => WORKING,
            Topic::Line => LINE,
        }
    }
}

const CASETOOL: &str = "\
casetool: cases of the Attachment H settlement, as text and in words

  casetool settle   settles a case: a block for each plant, then the totals; or JSON, or CSV
  casetool check    says whether a case is accepted, or what is wrong and where
  casetool working  the pencil working of one hour of one event, or of the event's money
  casetool line     how high a bid may go: a table for each event of bids, or one figure
  casetool write    makes a case file of a text
  casetool show     shows a case file as text
  casetool convert  copies a case file into the other version

casetool COMMAND --help has the options of a command; casetool --version the version of the tool.
The first four take a text or a case file. Text is valid UTF-8, not empty, with no zero byte;
all else is a case file. A file that is - or left out is standard input; -o FILE takes the
answer, otherwise it goes to standard output. Where a command fails, a FILE that was there is
renamed FILE.old, so that nothing takes it for the answer. Events and other records are counted
from 0, hours from 0 to 23. Every figure comes from the proved library, and so does a capability
period that a text leaves out. The text form is in docs/FORMAT.md.

Exit status: 0 done, 1 refused, unreadable or not text of a case, 2 misuse.
";

const WRITE: &str = "\
casetool write [TEXT] [-o CASE] [--allow-empty]
casetool write --correction [TEXT] [--version 1|2] [-o CORRECTION] [--allow-empty]

Makes a case file of a text, or a correction, which has references alone. Of the limits only
these are held: every value has room in its field, a case has at most 64 units, 256 references,
256 past entries, 200 events and 65,000 bytes, a correction 256 references. casetool check holds
it to the others. A line of the text is a record, or hours of the event above it; # begins a
comment:

  unit 12 group 7 area no capability 500.0 MW
  reference unit 12 component energy value $20.00
  past group 7 kind withheld market day-ahead day 7800
  event day 8000 kind withheld market day-ahead unit 12 impact 1
    hour 0 withheld 50.1 MW price $40.00

Units, references and events may stand in any order and are sorted; two equal ones are an error.
With the line order as-written before the first record they stay as they are. The line version 1
or version 2 before the first record says the version of the file; without it the file is of
version 2 where a unit number is above 65,535, and of version 1 otherwise. All mistakes are told
at once, at most 20 of them. A key that an event reads has to be there, also where it is 0:
what is left out is an error with its line. A text with no event is an error too, since a failed
export looks like that.
A day is the number of days since 1 January 2000, or a date such as 2021-11-26. The key period may
be left out: the capability period is then that of the day, by the proved library. 0 is the Winter
in which 1 January 2000 is, 1 the Summer from 1 May 2000, 44 the Winter from 1 November 2021. A
period that is not its day's is warned of and written, and so is a day after 31 December 2099; a
case with one of them is refused. Without its period such a day is an error.
docs/FORMAT.md has every key, and what else may be written for a value.

  -o, --output FILE  writes to a file instead of standard output
  --correction       the text is that of a correction
  --version VERSION  the version of its case, 1 or 2, if the text has no line for it
  --allow-empty      a text with no event, or a correction with no reference, is written
  -h, --help         this help
";

const SHOW: &str = "\
casetool show [CASE] [-o TEXT]
casetool show --correction [CORRECTION] [--version 1|2] [-o TEXT]

Shows a case file, or a correction, as text, with its version. casetool write makes the same file
of it, byte for byte: where the records are out of order, or equal, the text begins with order
as-written. A case that breaks limits of its fields is shown too; one whose header has no four
sections of whole records (numbers 1 to 5) can't be.

The bytes of a correction have no version: its records have 8 bytes in version 1, 12 in version 2.
Where they may be either, as 24 bytes may, --version has to say it.

  -o, --output FILE  writes to a file instead of standard output
  --correction       the file is a correction
  --version VERSION  the version of its case, 1 or 2
  -h, --help         this help
";

const CONVERT: &str = "\
casetool convert [CASE] --to 1|2 [-o COPY]
casetool convert --correction [CORRECTION] --to 1|2 [--version 1|2] [-o COPY]

Copies a case file, or a correction, into version 1 or version 2. The copy of a case settles to the
same rows; its correction has to be of the same version, and is copied by a call of its own. A copy
into its own version is the same file. A refused case is copied too, unless its header has no four
sections of whole records (numbers 1 to 5).

Nothing is lost: where a copy of version 2 would be over 65,000 bytes, or one of version 1 has no
room for a unit number above 65,535 or for an old number that is not 0, there is no copy, and the
records that stand in the way are named. A text needs no copy: its line version says the version
that casetool write gives it.

  --to VERSION       the version of the copy, 1 or 2
  -o, --output FILE  writes to a file instead of standard output
  --correction       the file is a correction
  --version VERSION  the version that it has, 1 or 2, where its length may be that of either
  -h, --help         this help
";

const CHECK: &str = "\
casetool check [TEXT or CASE] [--correction FILE] [--format text|json] [--as text|case]
               [--allow-empty] [-o FILE]

Checks a case by the proved library. An accepted case is answered with the number of its events
and status 0; a refused one with its number, what that means, and the first record and field
that break it, of a text also their line and column, and status 1. Records are counted from 0.

  --correction FILE  the correction of the case, as text or as a file of casetool write
                     --correction; it may not be empty
  --format FORMAT    text, or json: docs/casetool.schema.json; it has the mistakes of a text too
  --as FORM          what is read is a text, or a case file, whatever its bytes look like
  --allow-empty      a text with no event is taken
  -o, --output FILE  writes to a file instead of standard output
  -h, --help         this help
";

const SETTLE: &str = "\
casetool settle [TEXT or CASE] [--correction FILE] [--format text|json|csv] [--explain]
                [--as text|case] [--allow-empty] [-o FILE]

Settles a case by the proved library and prints which correction was used, then a block for each
plant, with its events in file order, counted from 0: flagged hours, multiplier and penalty, or
mitigated hours, bids in force and, for energy, make-up; then the totals. N3 counts the instances
of an event's group and market in its own capability period and the two before, the event itself
among them, N2 those in its own and the one before. A refused case is described as by casetool
check, on standard error.

  --correction FILE  the correction of the case, as text or as a file of casetool write
                     --correction; it may not be empty
  --format FORMAT    text, or for programs json (docs/casetool.schema.json) or csv
                     (docs/FORMAT.md): every field of every row and of the totals
  --explain          under each event the working of its money, as casetool working --event N
                     has it; not with csv
  --as FORM          what is read is a text, or a case file, whatever its bytes look like
  --allow-empty      a text with no event is taken
  -o, --output FILE  writes to a file instead of standard output
  -h, --help         this help
";

const WORKING: &str = "\
casetool working [TEXT or CASE] --event N [--hour H] [--correction FILE] [--format text|json]
                 [--as text|case] [-o FILE]

With --hour the pencil working of one hour of one event: each comparison of its conduct test with
both sides, the step that failed, and the figures behind it (a, r, d, S, G, N3, N2). A negative d
stands as 0 in a comparison.

Without --hour the working of the event's money, step by step, each under the sentence of the
tariff that it is: of a withheld event what N3 and N2 counted, the multiplier, and power times
price hour by hour; of dispatch the added revenue hour by hour; of fuel the events of the same
group, day and market, E, T, M and X; of bids r and c, the mitigated hours, and the make-up hour
by hour, or which hours a correction restored. Power or energy times a price has a third decimal,
and X a fourth.

Every figure comes from the proved library, or is a field of the case. Events are counted from 0,
as casetool settle and casetool show number them; casetool settle --explain has the working of
the money of all.

  --event N          the event, from 0
  --hour H           the hour, 0 to 23
  --correction FILE  the correction of the case, as text or as a file of casetool write
                     --correction; it may not be empty
  --format FORMAT    text, or json: docs/casetool.schema.json
  --as FORM          what is read is a text, or a case file, whatever its bytes look like
  -o, --output FILE  writes to a file instead of standard output
  -h, --help         this help
";

const LINE: &str = "\
casetool line [TEXT or CASE] [--event N] [--correction FILE] [--format text|json]
              [--as text|case] [-o FILE]
casetool line --component NAME --reference VALUE [--market NAME] [--tight yes|no]
              [--average-price VALUE] [--constrained-hours N] [--format text|json] [-o FILE]

Where the line of bids runs, by the proved library: the highest bid that passes the conduct test
of its component; of maximum-parameter the lowest. For the three times it is the line of one time
alone: their sum may flag an hour up to it.

Of a case it prints, for each event of bids, the reference, the line of its tight hours and that
of the others, and a table of its hours, neighbours that are alike in one row: the bid, the line
that holds for it, whether the hour is tight and whether it is flagged.

Without a case it prints one line, and under it what was read. The values are written as in a
text: energy, 50.00, RTM, yes. A shell takes an unquoted $50.00 for 0.00: the $ has to be quoted,
or left out. Nothing that the line depends on may be missing: --component and --reference are
always needed; for energy and minimum-generation --market, in Real-Time also --tight, and in a
tight hour of Real-Time --average-price and --constrained-hours. What is given beyond that is held
to its range all the same. An argument out of its range is refused with 16.

  --event N          the event, from 0; without it every event of bids
  --correction FILE  the correction of the case, as text or as a file of casetool write
                     --correction; it may not be empty
  --as FORM          what is read is a text, or a case file, whatever its bytes look like
  --component NAME   the component, by its word or its number
  --reference VALUE  the reference, in dollars, minutes or a plain number, as the component has it
  --market NAME      day-ahead or real-time
  --tight MARK       whether the hour is tight: yes or no
  --average-price VALUE, --constrained-hours N
                     those of the unit's area
  --format FORMAT    text, or json: docs/casetool.schema.json
  -o, --output FILE  writes to a file instead of standard output
  -h, --help         this help
";
