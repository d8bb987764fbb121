"""The proved Attachment H settlement, called from Python.

Needs the archive as a shared object; where it is not there, the import says how to build it. ATTACHMENT_H_LIBRARY names
another place of it. A case is the bytes of a case file of version 1 or 2, and a correction has the width of its case's references.
Every function answers a number, a bool, a Row or a tuple of them, a working a dictionary, or raises Refused with the number of
docs/RULES.md and what it means; the ranges are those of include/attachment_h.h. ctypes would cut an int to the width of its
argument: one that does not fit raises OverflowError.
"""

import ctypes
import os
import struct
from ctypes import POINTER, Array, Structure, c_bool, c_int32, c_int64, c_size_t, c_uint8, c_uint16, c_uint32, c_uint64
from pathlib import Path
from typing import NamedTuple

_DEFAULT = Path(__file__).resolve().parent.parent / "rust" / "target" / "libattachment_h.so"
_PATH = os.environ.get("ATTACHMENT_H_LIBRARY", str(_DEFAULT))
_BUILD = """In the root of the repository:

    sh scripts/library
    mkdir -p rust/target
    cc -shared -Wl,--whole-archive target/staticlib/libapi.a -Wl,--no-whole-archive -o rust/target/libattachment_h.so

builds it. ATTACHMENT_H_LIBRARY names another place of it."""

try:
    _library = ctypes.CDLL(_PATH)
except OSError as error:
    raise ImportError(f"the proved library can't be loaded: {error}\n{_BUILD}") from error

# what a number means of a case: docs/RULES.md, L
_OF_A_CASE = {
    1: "the file's length is outside 36 to 65,000 bytes",
    2: "the version is neither 1 nor 2",
    3: "the section count is not 4",
    4: "the pairs of offset and length don't follow on from byte 36 to the file's end",
    5: "a section's length is no multiple of its record, or it has too many records",
    6: "a unit has a field out of its limits, or the unit numbers don't rise strictly",
    7: "a reference has a field out of its limits or an unlisted unit, or the references don't rise strictly by unit and component",
    8: "the correction is no multiple of the case's reference width (8 bytes, 12 in version 2), has over 256 records, or one of them breaks the limits or the order of references",
    9: "a past entry has a field out of its limits",
    10: "an event has a field out of its limits",
    11: "the events don't rise strictly by day, kind, market, unit and component",
    12: "an event's unit is not listed",
    13: "an event of kind 1 or 2 has an a above its unit's capability",
    14: "an event of kind 4 has no reference r, or no correct reference c where its component reads one",
    15: "the rows buffer has fewer than 128 bytes for each event",
    17: "a version 2 unit, reference or event has an old unit field that is not 0, or a unit number above 999,999",
    18: "a past entry or an event has a day of 36,525 or later",
    19: "the capability period of a past entry or an event is not its day's",
}

# and of a smaller call: docs/RULES.md, C2 and C3
_OF_A_CALL = {7: "a reference is out of the range of its component", 10: "an argument is out of its range"}

# and of the line: docs/RULES.md, C23
_OF_THE_LINE = {16: "an argument of the line is out of its range"}

# of an event or an hour that a case does not have, or of an event of another kind
_OF_AN_HOUR = {10: "the case has no such event or hour"}
_OF_AN_EVENT = {10: "the case has no such event"}
_OF_A_FUEL_EVENT = {10: "the case has no such fuel event"}


class Refused(Exception):
    """A refusal with its number, 1 to 15 and 17 to 19 for a case, 7 or 10 for a smaller call, 16 for the line, and what that means."""

    def __init__(self, number, meanings=_OF_A_CASE):
        self.number = number
        self.sentence = meanings[number]
        super().__init__(f"refused {number}: {self.sentence}")


class Row(NamedTuple):
    """The row of an event. Masks have bit h for hour h, money is in cents, the multiplier in halves; what a kind lacks is 0."""

    flags: int
    mitigated: int
    penalty: int
    make_up: int
    multiplier: int
    n3: int
    n2: int
    bids: tuple[int, ...]

    @classmethod
    def of(cls, rows, event):
        """The row of an event in a settled buffer."""
        fields = _ROW.unpack_from(rows, _ROW.size * event)
        return cls(*fields[:7], fields[7:])


# docs/FORMAT.md: the bytes that are 0 are passed over
_ROW = struct.Struct("<IIQQBxHHxx24i")
ROWS_LENGTH = 200 * _ROW.size
_LISTING_LENGTH = 42_048
_INSTANCES_LENGTH = 114
_EVENTS_LENGTH = 25  # of them the bits of 200 events, which those of 256 past entries follow


class Settled(NamedTuple):
    """A settlement: a row for each event, and the totals in cents."""

    rows: list[Row]
    penalties: int
    make_ups: int


class Counted(NamedTuple):
    """The events and the past entries that a count counted beside the event itself, each from 0."""

    events: list[int]
    past: list[int]

    @classmethod
    def of(cls, bits):
        """From the bits of both lists, one after the other."""
        return cls(_places(bits[:_EVENTS_LENGTH]), _places(bits[_EVENTS_LENGTH:]))


def _places(bits):
    """The places of the bits that are set."""
    return [place for place in range(8 * len(bits)) if bits[place // 8] >> place % 8 & 1]


class Instances(NamedTuple):
    """What N3 and N2 of an event counted: nothing where it is no instance, else N3 - 1 and N2 - 1 records."""

    three: Counted
    two: Counted


class _Answer(Structure):
    _fields_ = [("number", c_uint8), ("figure", c_uint64)]


class _TimeAnswer(Structure):
    _fields_ = [("number", c_uint8), ("start_up", c_bool), ("minimum_run", c_bool), ("minimum_down", c_bool)]


class _Outcome(Structure):
    _fields_ = [("number", c_uint8), ("rows", c_size_t), ("penalties", c_uint64), ("make_ups", c_uint64)]


class _Hour(Structure):
    _fields_ = [
        ("number", c_uint8),
        ("flagged", c_bool),
        ("tight", c_bool),
        ("failed", c_uint8),
        ("taken", c_uint8),
        ("a", c_uint32),
        ("reference", c_uint32),
        ("increase", c_uint32),
        ("decrease", c_uint64),
        ("s", c_uint64),
        ("g", c_uint64),
        ("total", c_uint64),
        ("n3", c_uint16),
        ("n2", c_uint16),
        ("left", c_uint64 * 4),
        ("right", c_uint64 * 4),
    ]


class _PenaltyTerms(Structure):
    _fields_ = [
        ("number", c_uint8),
        ("kind", c_uint8),
        ("multiplier", c_uint8),
        ("below", c_bool),
        ("n3", c_uint16),
        ("n2", c_uint16),
        ("row", c_size_t),
        ("amount", c_uint64),
        ("revenue", c_uint64),
        ("e_positive", c_uint64),
        ("e_negative", c_uint64),
        ("t", c_uint64),
        ("x", c_uint64),
        ("penalty", c_uint64),
        ("hours", c_uint64 * 24),
        ("losses", c_uint64 * 24),
    ]


class _MakeUpTerms(Structure):
    _fields_ = [
        ("number", c_uint8),
        ("reference", c_uint32),
        ("correct", c_uint32),
        ("mitigated", c_uint32),
        ("restored", c_uint32),
        ("tenths", c_uint64),
        ("make_up", c_uint64),
        ("hours", c_uint64 * 24),
    ]


def _fit(kind, value):
    if kind(value).value != value:
        raise OverflowError(f"{value} does not fit {kind.__name__}")


def _declare(name, result, *arguments, meanings=_OF_A_CALL):
    function = getattr(_library, "attachment_h_" + name)
    function.restype = result
    function.argtypes = arguments

    def call(*values):
        for kind, value in zip(arguments, values):
            if isinstance(value, int):
                _fit(kind, value)
        answer = function(*values)
        if isinstance(answer, Structure) and answer.number != 0:
            raise Refused(answer.number, meanings)
        return answer

    return call


_check = _declare("check", c_uint8, POINTER(c_uint8), c_size_t, POINTER(c_uint8), c_size_t, c_size_t)
_settle = _declare("settle", _Outcome, *[POINTER(c_uint8), c_size_t] * 3, meanings=_OF_A_CASE)
_working = _declare("working", _Hour, *[POINTER(c_uint8), c_size_t] * 2, c_size_t, c_size_t, meanings=_OF_AN_HOUR)
_penalty_working = _declare(
    "penalty_working", _PenaltyTerms, *[POINTER(c_uint8), c_size_t] * 2, c_size_t, meanings=_OF_AN_EVENT
)
_subtotal = _declare("subtotal", _Answer, POINTER(c_uint8), c_size_t, c_size_t, meanings=_OF_A_FUEL_EVENT)
_instances = _declare("instances", c_uint8, *[POINTER(c_uint8), c_size_t] * 2, c_size_t, POINTER(c_uint8), c_size_t)
_make_up_working = _declare(
    "make_up_working", _MakeUpTerms, *[POINTER(c_uint8), c_size_t] * 2, c_size_t, meanings=_OF_AN_EVENT
)
_listing = _declare("listing", c_size_t, *[POINTER(c_uint8), c_size_t] * 3)
_bid_fails = _declare("bid_fails", _Answer, c_uint8, c_uint32, c_int32, c_uint8, c_bool, c_uint32, c_uint16)
_line = _declare("line", _Answer, c_uint8, c_uint32, c_uint8, c_bool, c_uint32, c_uint16, meanings=_OF_THE_LINE)
_times_fail = _declare("times_fail", _TimeAnswer, c_int32, c_int32, c_int32)
_withheld_fails = _declare("withheld_fails", _Answer, c_uint32, c_uint32, c_uint32, c_uint32, c_bool)
_dispatch_fails = _declare("dispatch_fails", _Answer, c_uint32, c_uint32, c_uint32, c_bool)
_multiplier = _declare("multiplier", _Answer, c_uint32, c_uint32)
_withheld_penalty = _declare("withheld_penalty", _Answer, c_uint8, POINTER(c_uint32), c_size_t, POINTER(c_int32), c_size_t)
_dispatch_penalty = _declare("dispatch_penalty", _Answer, POINTER(c_uint32), c_size_t)
_fuel_penalty = _declare("fuel_penalty", _Answer, c_int64, c_uint64, c_uint8)
_fuel_day_counts = _declare("fuel_day_counts", _Answer, c_uint32, c_uint32)
_period_of = _declare("period_of", _Answer, c_uint32)
_period_counts = _declare("period_counts", _Answer, c_uint8, c_uint16, c_uint16)
_mitigated_span = _declare("mitigated_span", _Answer, c_uint32, c_uint32)
_bid_in_force = _declare("bid_in_force", _Answer, c_uint8, c_int32, c_uint32, c_bool)
_corrected_bid_in_force = _declare(
    "corrected_bid_in_force", _Answer, c_uint8, c_int32, c_uint32, c_uint32, c_uint8, c_bool, c_uint32, c_uint16, c_bool
)
_make_up = _declare("make_up", _Answer, c_int32, c_int32, c_uint32, c_uint32, c_uint32)


def _array(kind, values):
    for value in values:
        _fit(kind, value)
    return (kind * len(values))(*values)


def _lent(data):
    """Bytes as a call takes them: where they are, and how many."""
    return (c_uint8 * len(data)).from_buffer_copy(data), len(data)


def _fields(answer):
    """The fields of an answer but its number, arrays as lists."""
    values = {name: getattr(answer, name) for name, _ in answer._fields_ if name != "number"}
    return {name: list(value) if isinstance(value, Array) else value for name, value in values.items()}


def check(file, correction=b"", rows_length=ROWS_LENGTH):
    """Checks a case with its correction and the length of its rows buffer; raises Refused with what it breaks first."""
    number = _check(*_lent(file), *_lent(correction), rows_length)
    if number != 0:
        raise Refused(number)


def settle(file, correction=b"", rows_length=ROWS_LENGTH):
    """Settles a case: its rows and totals."""
    rows = (c_uint8 * rows_length)()
    outcome = _settle(*_lent(file), *_lent(correction), rows, rows_length)
    return Settled([Row.of(rows, event) for event in range(outcome.rows)], outcome.penalties, outcome.make_ups)


def working(file, event, hour, correction=b""):
    """The working of an hour, 0 to 23, of an event, from 0: a dictionary of the fields of attachment_h_hour but number."""
    check(file, correction)
    return _fields(_working(*_lent(file), *_lent(correction), event, hour))


def penalty_working(file, event, correction=b""):
    """The working of the penalty of an event, from 0: a dictionary of the fields of attachment_h_penalty_terms but number."""
    check(file, correction)
    return _fields(_penalty_working(*_lent(file), *_lent(correction), event))


def subtotal(file, event):
    """A plant's part of its party-day's E, by the number of its fuel event, from 0; in tenths of a cent, with its sign."""
    check(file)
    return c_int64(_subtotal(*_lent(file), event).figure).value


def instances(file, event, correction=b""):
    """What N3 and N2 of an event, from 0, counted."""
    check(file, correction)
    out = (c_uint8 * _INSTANCES_LENGTH)()
    number = _instances(*_lent(file), *_lent(correction), event, out, len(out))
    if number != 0:
        raise Refused(number, _OF_AN_EVENT)
    half = len(out) // 2
    return Instances(Counted.of(out[:half]), Counted.of(out[half:]))


def make_up_working(file, event, correction=b""):
    """The working of the make-up payment of an event, from 0: a dictionary of the fields of attachment_h_make_up_terms but number."""
    check(file, correction)
    return _fields(_make_up_working(*_lent(file), *_lent(correction), event))


def listing(file):
    """The listing of a case with no correction, or of its refusal."""
    rows, out = (c_uint8 * ROWS_LENGTH)(), (c_uint8 * _LISTING_LENGTH)()
    length = _listing(*_lent(file), rows, len(rows), out, len(out))
    return bytes(out)[:length].decode()


def bid_fails(component, reference, bid, market, tight=False, average_price=0, constrained_hours=0):
    """Whether a bid fails the conduct test of its component."""
    return _bid_fails(component, reference, bid, market, tight, average_price, constrained_hours).figure != 0


def line(component, reference, market, tight, average_price, constrained_hours):
    """The highest bid in range that passes the conduct test of its component (4 to 6: the single test), of component 8 the lowest."""
    return _line(component, reference, market, tight, average_price, constrained_hours).figure


def times_fail(start_up, minimum_run, minimum_down):
    """Which of the three time increases of one hour fail."""
    answer = _times_fail(start_up, minimum_run, minimum_down)
    return answer.start_up, answer.minimum_run, answer.minimum_down


def withheld_fails(withheld, capability, s, g, tight=False):
    """Whether an hour's withheld power fails the conduct test."""
    return _withheld_fails(withheld, capability, s, g, tight).figure != 0


def dispatch_fails(undelivered, response_rate, s, tight=False):
    """Whether an hour's undelivered power fails the conduct test."""
    return _dispatch_fails(undelivered, response_rate, s, tight).figure != 0


def multiplier(n3, n2):
    """The multiplier of an instance in halves."""
    return _multiplier(n3, n2).figure


def withheld_penalty(halves, withheld, prices):
    """The penalty in cents of a withheld event, from its flagged hours."""
    power, price = _array(c_uint32, withheld), _array(c_int32, prices)
    return _withheld_penalty(halves, power, len(power), price, len(price)).figure


def dispatch_penalty(added_revenues):
    """The penalty in cents of a dispatch event, from its flagged hours."""
    revenue = _array(c_uint32, added_revenues)
    return _dispatch_penalty(revenue, len(revenue)).figure


def fuel_penalty(e, t, m):
    """The penalty in cents for inaccurate fuel data."""
    return _fuel_penalty(e, t, m).figure


def fuel_day_counts(day, earlier):
    """Whether a fuel penalty of an earlier day, at most six months back, raises the multiplier of a day."""
    return _fuel_day_counts(day, earlier).figure != 0


def period_of(day):
    """The capability period that a day is in: 0 is the Winter that ends on 30 April 2000."""
    return _period_of(day).figure


def period_counts(back, own, period):
    """Whether a capability period is the own one or one of those before it: 2 back for N3, 1 for N2."""
    return _period_counts(back, own, period).figure != 0


def mitigated_span(hits, minimum_run_hours):
    """The mitigated hours of component 1 Day-Ahead as a mask."""
    return _mitigated_span(hits, minimum_run_hours).figure


def bid_in_force(component, bid, reference, mitigated):
    """The bid in force in one hour."""
    return c_int32(_bid_in_force(component, bid, reference, mitigated).figure).value


def corrected_bid_in_force(
    component, bid, reference, correct, market, tight=False, average_price=0, constrained_hours=0, mitigated=True
):
    """The bid in force in one hour beside a correct reference."""
    answer = _corrected_bid_in_force(
        component, bid, reference, correct, market, tight, average_price, constrained_hours, mitigated
    )
    return c_int32(answer.figure).value


def make_up(bid, price, quantity, reference, correct):
    """The make-up payment in cents of one mitigated hour of component 0."""
    return _make_up(bid, price, quantity, reference, correct).figure
