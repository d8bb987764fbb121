"""Settles and lists the shipped case, checks changes of it, shows its working, that of a case with bids and the subtotals of one with fuel data,
does the same of their copies in version 2 of the case file, and works some of the pencil sheet. Fails where an answer is wrong.

The argument is the repository's root; where it is left out, the one that this file stands in.
"""

import os
import struct
import subprocess
import sys
from pathlib import Path

import attachment_h
from attachment_h import Counted, Instances, Refused, Row


def refusal(call, *arguments):
    """The number that a call is refused with, or 0."""
    try:
        call(*arguments)
    except Refused as refused:
        return refused.number
    return 0


ROOT = Path(sys.argv[1]) if len(sys.argv) > 1 else Path(__file__).resolve().parent.parent
SHIPPED = (ROOT / "crates/listing/stdin").read_bytes()
LISTED = (ROOT / "crates/listing/stdout").read_text()
EVENT = 36 + 2 * 24  # after the header and two units


def case(withheld=501, price=4_000, unit=12):
    """The shipped case with another unit, or another a or b in hour 0, of its event."""
    changed = bytearray(SHIPPED)
    struct.pack_into("<H", changed, EVENT + 2, unit)
    struct.pack_into("<Ii", changed, EVENT + 24, withheld, price)
    return bytes(changed)


def larger():
    """The shipped case with a reference, a past entry and bids of unit 12 beside its event."""
    reference = struct.pack("<HBxI", 12, 0, 2_000)
    past = SHIPPED[36 + 2 : 36 + 4] + struct.pack("<BBHxxI", 1, 0, 44, 8_000)  # of the group of unit 12
    bids = struct.pack("<BBHHBBIIIIIiI276x", 4, 0, 12, 44, 0, 0, 8_000, 0, 1, 0, 9_000, 5_000, 1_000)
    return file_of(1, [SHIPPED[36:EVENT], reference, past, SHIPPED[EVENT:] + bids])


def fuel_data():
    """The shipped case with the fuel data of units 12 and 13 beside its event: P, Q, and a and b of hours 0 and 1. P of unit 12 has hour 0, that
    of unit 13 no hour."""
    of_12 = struct.pack("<BBHHBBIIiiIi4xIi268x", 3, 0, 12, 44, 0, 0, 8_000, 1, -300_000, 0, 1_000, 700, 999, 999)
    of_13 = struct.pack("<BBHHBBIIiiIi4xIi268x", 3, 0, 13, 44, 0, 0, 8_000, 0, 100, 0, 10, -3, 5, -5)
    return file_of(1, [SHIPPED[36:EVENT], b"", b"", SHIPPED[EVENT:] + of_12 + of_13])


def file_of(version, sections):
    """The file of four sections."""
    header, offset = struct.pack("<HH", version, 4), 36
    for section in sections:
        header += struct.pack("<II", offset, len(section))
        offset += len(section)
    return header + b"".join(sections)


def widened(records, width, place, numbers):
    """Records of version 1 in version 2: 0 in the old two bytes, and the number, or what `numbers` has for it, at the end."""
    wide = b""
    for at in range(0, len(records), width):
        record = bytearray(records[at : at + width])
        (number,) = struct.unpack_from("<H", record, place)
        struct.pack_into("<H", record, place, 0)
        wide += record + struct.pack("<I", numbers.get(number, number))
    return wide


def version_2(file, numbers=None):
    """The version 2 copy of a case, some of its units under other numbers."""
    numbers = numbers or {}
    pairs = struct.unpack_from("<8I", file, 4)
    units, references, past, events = (file[at : at + length] for at, length in zip(pairs[::2], pairs[1::2]))
    units, references = widened(units, 24, 0, numbers), widened(references, 8, 0, numbers)
    return file_of(2, [units, references, past, widened(events, 312, 2, numbers)])


def sentence(call, *arguments):
    """What a refused call says."""
    try:
        call(*arguments)
    except Refused as refused:
        return str(refused)
    return ""


def expect(what, got, expected):
    assert got == expected, f"{what}: {got}, and not {expected}"
    print(f"{what}: {got}")


expect("the shipped case has 501 at 4,000 of unit 12", case() == SHIPPED, True)
expect("35 bytes", refusal(attachment_h.check, bytes(35)), 1)
for name, of in [("version 1", bytes), ("a version 2 copy", version_2)]:
    expect(f"{name}: the shipped case", refusal(attachment_h.check, of(SHIPPED)), 0)
    expect(f"{name}: unit 99", refusal(attachment_h.check, of(case(unit=99))), 12)
    expect(f"{name}: 5,001 of 5,000", refusal(attachment_h.check, of(case(withheld=5_001))), 13)
    expect(f"{name}: a price of 1,000,001", refusal(attachment_h.check, of(case(price=1_000_001))), 10)
    expect(f"{name}: a correction of 7 bytes", refusal(attachment_h.check, of(case()), bytes(7)), 8)
    expect(f"{name}: 127 bytes, one event", refusal(attachment_h.check, of(case()), b"", 127), 15)
    expect(f"{name}: settled into 127 bytes", refusal(attachment_h.settle, of(case()), b"", 127), 15)
    expect(f"{name}: no hour 24", refusal(attachment_h.working, of(case()), 0, 24), 10)
settled = attachment_h.settle(SHIPPED)
row = Row(flags=1, mitigated=0, penalty=200_400, make_up=0, multiplier=2, n3=1, n2=1, bids=24 * (0,))
expect("rows", settled.rows, [row])
expect("total", (settled.penalties, settled.make_ups), (200_400, 0))
numbered = struct.pack("<128x2I2Q2B3H24i", 1, 2, 3, 4, 5, 0, 6, 7, 0, *range(-12, 12))
expect("every field of a second row", Row.of(numbered, 1), Row(1, 2, 3, 4, 5, 6, 7, tuple(range(-12, 12))))
hour = attachment_h.working(SHIPPED, 0, 0)
expect("hour 0 fails comparison 1", (hour["failed"], hour["left"][0], hour["right"][0]), (1, 5_010, 5_000))
# 501 at 4,000 are 2,004,000 tenths of a cent. The past entry is of the same period, so that N3 and N2 are 2 and the multiplier is 2
# halves: 2 x 2,004,000 / 20 cents
penalty = attachment_h.penalty_working(larger(), 0)
expect("the term of hour 0 and the amount", (penalty["hours"], penalty["amount"]), ([2_004_000] + 23 * [0], 2_004_000))
expect("N3, N2 and the multiplier", (penalty["n3"], penalty["n2"], penalty["multiplier"]), (2, 2, 2))
expect("the row and the penalty", (penalty["row"], penalty["penalty"]), (0, 200_400))
counted = attachment_h.instances(larger(), 0)
expect("what N3 and N2 counted", counted, Instances(Counted([], [0]), Counted([], [0])))
expect("what the shipped case's counted", attachment_h.instances(SHIPPED, 0), Instances(Counted([], []), Counted([], [])))
# r is 2,000, so that the bid of 9,000 is flagged, and c 6,000: 1,000 x (6,000 - 5,000) tenths of a cent
made_up = attachment_h.make_up_working(larger(), 1, struct.pack("<HBxI", 12, 0, 6_000))
expect("r, c and the mitigated hours", (made_up["reference"], made_up["correct"], made_up["mitigated"]), (2_000, 6_000, 1))
expect("what is made up", (made_up["hours"], made_up["tenths"]), ([1_000_000] + 23 * [0], 1_000_000))
expect("the make-up payment", (made_up["make_up"], made_up["restored"]), (100_000, 0))
for call in [attachment_h.penalty_working, attachment_h.instances, attachment_h.make_up_working]:
    for file in [larger(), version_2(larger())]:
        expect("no event 2", sentence(call, file, 2), "refused 10: the case has no such event")
    expect("a case of 35 bytes", refusal(call, bytes(35), 0), 1)
# 10 x -300,000 + 1,000 x 700, and 10 x 100 - 10 x 3, since hour 0 is in P of unit 12: together E, -2,299,030
for file in [fuel_data(), version_2(fuel_data()), version_2(fuel_data(), {12: 65_548, 13: 999_999})]:
    expect("the subtotals of units 12 and 13", [attachment_h.subtotal(file, event) for event in [1, 2]], [-2_300_000, 970])
    terms = attachment_h.penalty_working(file, 1)
    expect("E of their party-day", (terms["e_positive"], terms["e_negative"]), (0, 2_299_030))
    for event in [0, 3, 2**64 - 1]:
        expect("no fuel event", sentence(attachment_h.subtotal, file, event), "refused 10: the case has no such fuel event")
expect("a subtotal of 35 bytes", refusal(attachment_h.subtotal, bytes(35), 0), 1)
expect("a subtotal, unit 99", sentence(attachment_h.subtotal, case(unit=99), 0), "refused 12: an event's unit is not listed")
# a version 2 copy has the same figures, also where unit 12 is 65,548, which is 65,536 + 12, and unit 13 is 999,999
for copied in [version_2(SHIPPED), version_2(SHIPPED, {12: 65_548, 13: 999_999})]:
    expect("rows of a copy", attachment_h.settle(copied), settled)
    expect("the working of a copy", attachment_h.working(copied, 0, 0), hour)
    expect("what a copy's N3 and N2 counted", attachment_h.instances(copied, 0), Instances(Counted([], []), Counted([], [])))
correction = struct.pack("<HBxI", 12, 0, 6_000)
wide_correction = widened(correction, 8, 0, {})
expect("the larger case copied", attachment_h.settle(version_2(larger()), wide_correction), attachment_h.settle(larger(), correction))
expect("its make-up", attachment_h.make_up_working(version_2(larger()), 1, wide_correction), made_up)
expect("its penalty", attachment_h.penalty_working(version_2(larger()), 0), penalty)
expect("what its N3 and N2 counted", attachment_h.instances(version_2(larger()), 0), counted)
expect("the listing of a copy", attachment_h.listing(version_2(SHIPPED)), LISTED)
expect("and with unit 65,548", attachment_h.listing(version_2(SHIPPED, {12: 65_548, 13: 999_999})), LISTED.replace(" 12 ", " 65548 "))
expect("a correction of 8 bytes", refusal(attachment_h.check, version_2(larger()), correction), 8)
expect("a correction of 12 bytes in version 1", refusal(attachment_h.check, larger(), wide_correction), 8)
expect("the widths of version 1", refusal(attachment_h.check, b"\2" + SHIPPED[1:]), 5)
expect("version 3", sentence(attachment_h.check, b"\3" + SHIPPED[1:]), "refused 2: the version is neither 1 nor 2")
of_17 = "refused 17: a version 2 unit, reference or event has an old unit field that is not 0, or a unit number above 999,999"
expect("unit 1,000,000", sentence(attachment_h.check, version_2(SHIPPED, {13: 1_000_000})), of_17)
expect("the shipped listing", attachment_h.listing(SHIPPED), LISTED)
expect("listing of 35 bytes", attachment_h.listing(bytes(35)), "refused 1\n")
expect("501 of 5,000 fails", attachment_h.withheld_fails(501, 5_000, 501, 20_000), True)
expect("501 at 4,005", attachment_h.withheld_penalty(2, [501], [4_005]), 200_651)
expect("501 at -100", attachment_h.withheld_penalty(2, [501], [-100]), 0)
expect("r 624, a 2,500 fails", attachment_h.bid_fails(0, 624, 2_500, 0), True)
expect("the line of r 624", attachment_h.line(0, 624, 0, False, 0, 0), 2_499)
expect("the line of a tight hour", attachment_h.line(0, 2_000, 1, True, 5_000, 1_000), 2_876)
expect("times 121, 120, 120", attachment_h.times_fail(121, 120, 120), (True, True, True))
expect("E -10,000,000, T 2,000,000, M 3", attachment_h.fuel_penalty(-10_000_000, 2_000_000, 3), 500_000)
expect("hour 10, R 8", attachment_h.mitigated_span(1 << 10, 8), 0x3FC00)
expect("bid -100 in force", attachment_h.bid_in_force(0, -100, 2_000, True), -100)
expect("make-up", attachment_h.make_up(9_000, 5_000, 1_000, 2_000, 6_000), 100_000)
expect("reference 1,000,001", refusal(attachment_h.bid_fails, 0, 1_000_001, 0, 0), 7)
expect("N3 457", refusal(attachment_h.multiplier, 457, 1), 10)
expect("what 12 means", sentence(attachment_h.settle, case(unit=99)), "refused 12: an event's unit is not listed")
expect("what 10 means of a call", sentence(attachment_h.multiplier, 457, 1), "refused 10: an argument is out of its range")
of_the_line = "refused 16: an argument of the line is out of its range"
expect("what 16 means", sentence(attachment_h.line, 8, 101, 0, False, 0, 8_785), of_the_line)
expect("and of an hour", sentence(attachment_h.working, case(), 0, 24), "refused 10: the case has no such event or hour")
field = "refused 10: an event has a field out of its limits"
expect("and of the case of an hour", sentence(attachment_h.working, case(price=1_000_001), 0, 24), field)
expect("and of the case of a subtotal", sentence(attachment_h.subtotal, case(price=1_000_001), 0), field)
try:
    attachment_h.multiplier(2**32 + 4, 4)
    raise AssertionError("2^32 + 4 was cut to 4")
except OverflowError as overflow:
    print(overflow)
without = subprocess.run(
    [sys.executable, "-c", "import attachment_h"],
    env=os.environ | {"ATTACHMENT_H_LIBRARY": "/no/such/library", "PYTHONPATH": str(Path(attachment_h.__file__).parent)},
    capture_output=True,
    text=True,
)
expect("an import without the library", without.returncode, 1)
for words in ["ImportError: the proved library can't be loaded", "sh scripts/library", "cc -shared", "ATTACHMENT_H_LIBRARY"]:
    expect(f"it says {words}", words in without.stderr, True)
