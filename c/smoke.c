/* Calls the archive from C: settles and lists the shipped case, refuses changes of it, shows its working, that of a case with bids and the
   subtotals of one with fuel data, all of it in both versions of the case file, and works the pencil sheet. The argument is the repository's root,
   the current folder where it is left out. Every buffer that is lent comes from malloc with exactly its length, so that a checker of memory sees
   the first byte beyond it. Exit status 0 where every answer is right. */
#include "attachment_h.h"
#include "bytes.h"

#include <stdio.h>
#include <stdlib.h>
#include <string.h>

static int failures;

static void expect(const char *what, uint64_t got, uint64_t expected) {
    if (got != expected) {
        printf("%s: %llu, and not %llu\n", what, (unsigned long long)got, (unsigned long long)expected);
        failures++;
    }
}

static void expect_answer(const char *what, attachment_h_answer got, uint8_t number, uint64_t figure) {
    expect(what, got.number, number);
    expect(what, got.figure, figure);
}

/* A case of two units and one event, which the shipped one is. */
enum { HEADER = 36, UNIT = 24, EVENT = 312, CASE = HEADER + 2 * UNIT + EVENT, LISTED = 44 };

/* The bytes of a file below the repository's root, which has to have exactly this length. */
static uint8_t *read_file(const char *root, const char *name, size_t length) {
    char path[4096];
    int written = snprintf(path, sizeof path, "%s/%s", root, name);
    FILE *file = written > 0 && (size_t)written < sizeof path ? fopen(path, "rb") : NULL;
    if (file == NULL) {
        printf("C: can't read %s/%s; the argument is the repository's root\n", root, name);
        exit(2);
    }
    uint8_t *bytes = block(length + 1);
    size_t got = fread(bytes, 1, length + 1, file);
    fclose(file);
    if (got != length) {
        printf("C: %s has not %zu bytes\n", path, length);
        exit(2);
    }
    uint8_t *exact = copy(bytes, length);
    free(bytes);
    return exact;
}

/* The check of the first bytes of a case, lent as a block of their own. */
static uint8_t check(const uint8_t *file, size_t length, size_t rows_length) {
    uint8_t *lent = copy(file, length);
    uint8_t number = attachment_h_check(lent, length, NULL, 0, rows_length);
    free(lent);
    return number;
}

/* The check of a case of two units and one event, and of its version 2 copy, which has the same number. */
static void check_both(const char *what, const uint8_t *file, size_t rows_length, uint8_t number) {
    uint8_t *copied = version_2(file, CASE, 3);
    expect(what, check(file, CASE, rows_length), number);
    expect(what, check(copied, CASE + 4 * 3, rows_length), number);
    free(copied);
}

static void check_cases(const uint8_t *shipped) {
    uint8_t *file = copy(shipped, CASE);
    uint8_t *event = file + HEADER + 2 * UNIT;
    check_both("the shipped case", file, 128, 0);
    check_both("127 bytes, one event", file, 127, 15);
    expect("35 bytes", check(file, 35, 128), 1);
    expect("no bytes", attachment_h_check(NULL, 0, NULL, 0, 128), 1);
    uint8_t *correction = filled(7, 0);
    expect("a correction of 7 bytes", attachment_h_check(file, CASE, correction, 7, 128), 8);
    free(correction);
    put32(event + 24, 5001);
    check_both("5,001 of 5,000", file, 128, 13);
    put16(event + 2, 99);
    check_both("unit 99", file, 128, 12);
    event[1] = 2;
    check_both("market 2", file, 128, 10);
    file[HEADER + 4] = 2;
    check_both("area 2", file, 128, 6);
    file[4] = 40;
    expect("first offset 40", check(file, CASE, 128), 4);
    file[0] = 9;
    expect("version 9", check(file, CASE, 128), 2);
    free(file);
}

/* The shipped case in version 2, with numbers of six digits and numbers that it cannot have. */
static void check_version_2(const uint8_t *copied) {
    enum { WIDE = CASE + 4 * 3, UNIT_2 = UNIT + 4, NUMBER = HEADER + UNIT, EVENT_2 = HEADER + 2 * UNIT_2 };
    uint8_t *file = copy(copied, WIDE);
    expect("the shipped case in version 2", check(file, WIDE, 128), 0);
    expect("127 bytes, one event of version 2", check(file, WIDE, 127), 15);
    put32(file + NUMBER + UNIT_2, 999999);
    expect("unit 999,999", check(file, WIDE, 128), 0);
    put32(file + NUMBER, 65548); /* 65,536 + 12 */
    expect("an event of unit 12 beside unit 65,548", check(file, WIDE, 128), 12);
    put32(file + EVENT_2 + EVENT, 65548);
    expect("unit 65,548", check(file, WIDE, 128), 0);
    uint8_t *correction = filled(12, 0);
    put32(correction + 8, 65548);
    expect("a correction of 12 bytes", attachment_h_check(file, WIDE, correction, 12, 128), 0);
    put16(correction, 12);
    expect("a correction with an old field", attachment_h_check(file, WIDE, correction, 12, 128), 8);
    free(correction);
    correction = filled(8, 0);
    expect("a correction of 8 bytes", attachment_h_check(file, WIDE, correction, 8, 128), 8);
    free(correction);
    file[HEADER + 4] = 2;
    expect("area 2 in version 2", check(file, WIDE, 128), 6);
    put32(file + NUMBER + UNIT_2, 1000000);
    expect("unit 1,000,000", check(file, WIDE, 128), 17);
    put32(file + NUMBER + UNIT_2, 999999);
    put16(file + EVENT_2 + 2, 12);
    expect("the old field of an event", check(file, WIDE, 128), 17);
    file[0] = 1;
    expect("the widths of version 2 in version 1", check(file, WIDE, 128), 5);
    file[0] = 3;
    expect("version 3", check(file, WIDE, 128), 2);
    free(file);
}

static void settle_cases(const uint8_t *shipped, size_t bytes) {
    uint8_t *rows = filled(127, 0xA5);
    attachment_h_outcome outcome = attachment_h_settle(shipped, bytes, NULL, 0, rows, 127);
    expect("refused", outcome.number, 15);
    expect("refused, rows", outcome.rows, 0);
    expect("refused, penalties", outcome.penalties, 0);
    expect("refused, make-ups", outcome.make_ups, 0);
    for (size_t at = 0; at < 127; at++) expect("rows as they were", rows[at], 0xA5);
    free(rows);
    uint8_t expected[128] = {0};
    put32(expected, 1);
    put32(expected + 8, 200400);
    expected[24] = 2;
    expected[26] = 1;
    expected[28] = 1;
    for (size_t length = 128; length <= 130; length++) {
        rows = filled(length, 0xA5);
        outcome = attachment_h_settle(shipped, bytes, NULL, 0, rows, length);
        expect("settled", outcome.number, 0);
        expect("settled, rows", outcome.rows, 1);
        expect("settled, penalties", outcome.penalties, 200400);
        expect("settled, make-ups", outcome.make_ups, 0);
        expect("the row", memcmp(rows, expected, sizeof expected) == 0, 1);
        for (size_t at = 128; at < length; at++) expect("beyond the row", rows[at], 0xA5);
        free(rows);
    }
}

static void list_cases(const uint8_t *shipped, size_t bytes, const uint8_t *listed) {
    uint8_t *rows = filled(ATTACHMENT_H_ROWS_LENGTH, 0);
    uint8_t *out = filled(ATTACHMENT_H_LISTING_LENGTH - 1, 0);
    size_t length = attachment_h_listing(shipped, bytes, rows, ATTACHMENT_H_ROWS_LENGTH, out, ATTACHMENT_H_LISTING_LENGTH - 1);
    expect("too short for a listing", length + out[0], 0);
    free(out);
    out = filled(ATTACHMENT_H_LISTING_LENGTH, 0);
    length = attachment_h_listing(shipped, bytes, rows, ATTACHMENT_H_ROWS_LENGTH, out, ATTACHMENT_H_LISTING_LENGTH);
    expect("length of the listing", length, LISTED);
    expect("the shipped listing", memcmp(out, listed, LISTED) == 0, 1);
    uint8_t *start = copy(shipped, 35);
    length = attachment_h_listing(start, 35, rows, ATTACHMENT_H_ROWS_LENGTH, out, ATTACHMENT_H_LISTING_LENGTH);
    expect("length of a refusal", length, 10);
    expect("a refusal", memcmp(out, "refused 1\n", 10) == 0, 1);
    free(start);
    free(out);
    free(rows);
}

static void work_hours(const uint8_t *shipped, size_t bytes) {
    attachment_h_hour hour = attachment_h_working(shipped, bytes, NULL, 0, 0, 0);
    expect("working", hour.number, 0);
    expect("working, flagged", hour.flagged, 1);
    expect("working, failed", hour.failed, 1);
    expect("working, taken", hour.taken, 15);
    expect("working, 10 x a", hour.left[0], 5010);
    expect("working, capability", hour.right[0], 5000);
    expect("working, 20 x S", hour.left[2], 10020);
    expect("working, G", hour.right[2], 20000);
    expect("working, S", hour.s, 501);
    expect("working, N3 and N2", hour.n3 * 256 + hour.n2, 257);
    expect("working, no such hour", attachment_h_working(shipped, bytes, NULL, 0, 0, 24).number, 10);
    expect("working, no such event", attachment_h_working(shipped, bytes, NULL, 0, 1, 0).number, 10);
    uint8_t *start = copy(shipped, 35);
    expect("working of 35 bytes", attachment_h_working(start, 35, NULL, 0, 0, 0).number, 1);
    free(start);
}

/* The units and the event of the shipped case, with a reference, a past entry and bids of unit 12 beside them. */
enum { REFERENCE = 8, PAST = 12, LARGER = HEADER + 2 * UNIT + REFERENCE + PAST + 2 * EVENT };

static uint8_t *larger_case(const uint8_t *shipped) {
    uint8_t *file = filled(LARGER, 0);
    uint8_t *reference = file + HEADER + 2 * UNIT;
    uint8_t *past = reference + REFERENCE;
    uint8_t *event = past + PAST;
    uint8_t *bids = event + EVENT;
    const uint32_t lengths[4] = {2 * UNIT, REFERENCE, PAST, 2 * EVENT};
    uint32_t offset = HEADER;
    memcpy(file, shipped, HEADER + 2 * UNIT);
    for (size_t section = 0; section < 4; section++) {
        put32(file + 4 + 8 * section, offset);
        put32(file + 8 + 8 * section, lengths[section]);
        offset += lengths[section];
    }
    put16(reference, 12);
    put32(reference + 4, 2000);
    memcpy(past, file + HEADER + 2, 2); /* the group of unit 12 */
    past[2] = 1;
    put16(past + 4, 44);
    put32(past + 8, 8000);
    memcpy(event, shipped + HEADER + 2 * UNIT, EVENT);
    bids[0] = 4;
    put16(bids + 2, 12);
    put16(bids + 4, 44);
    put32(bids + 8, 8000);
    put32(bids + 16, 1);
    put32(bids + 24, 9000);
    put32(bids + 28, 5000);
    put32(bids + 32, 1000);
    return file;
}

/* 501 at 4,000 are 2,004,000 tenths of a cent. The past entry is of the same period, so that N3 and N2 are 2 and the multiplier is 2
   halves: 2 x 2,004,000 / 20 cents. */
static void work_penalty(const uint8_t *file, size_t bytes) {
    attachment_h_penalty_terms terms = attachment_h_penalty_working(file, bytes, NULL, 0, 0);
    expect("penalty", terms.number, 0);
    expect("penalty, kind", terms.kind, 1);
    expect("penalty, N3 and N2", terms.n3 * 256 + terms.n2, 514);
    expect("penalty, multiplier", terms.multiplier, 2);
    expect("penalty, row", terms.row, 0);
    expect("penalty, hour 0", terms.hours[0], 2004000);
    expect("penalty, hour 23", terms.hours[23], 0);
    expect("penalty, amount", terms.amount, 2004000);
    expect("penalty, cents", terms.penalty, 200400);
    terms = attachment_h_penalty_working(file, bytes, NULL, 0, 2);
    expect("penalty, no such event", terms.number, 10);
    expect("penalty, nothing", terms.kind + terms.row + terms.penalty, 0);
}

static void count_instances(const uint8_t *file, size_t bytes) {
    /* of the past entries bit 0, after 25 bytes of events, for N3 and 57 bytes on for N2 */
    uint8_t expected[ATTACHMENT_H_INSTANCES_LENGTH] = {0};
    expected[25] = 1;
    expected[82] = 1;
    for (size_t length = ATTACHMENT_H_INSTANCES_LENGTH - 1; length <= ATTACHMENT_H_INSTANCES_LENGTH + 1; length++) {
        uint8_t *out = filled(length, 0xA5);
        expect("instances, no such event", attachment_h_instances(file, bytes, NULL, 0, 2, out, length), 10);
        for (size_t at = 0; at < length; at++) expect("out as it was", out[at], 0xA5);
        int fits = length >= sizeof expected;
        expect("instances", attachment_h_instances(file, bytes, NULL, 0, 0, out, length), fits ? 0 : 15);
        if (fits) expect("the bits", memcmp(out, expected, sizeof expected) == 0, 1);
        for (size_t at = fits ? sizeof expected : 0; at < length; at++) expect("beyond the bits", out[at], 0xA5);
        free(out);
    }
}

/* r is 2,000, so that the bid of 9,000 is flagged, and c 6,000: 1,000 x (6,000 - 5,000) tenths of a cent. A correction has the width of its
   case. */
static void work_make_up(const uint8_t *file, size_t bytes) {
    size_t width = file[0] == 1 ? REFERENCE : REFERENCE + 4;
    uint8_t *correction = filled(width, 0);
    put16(file[0] == 1 ? correction : correction + REFERENCE, 12);
    put32(correction + 4, 6000);
    attachment_h_make_up_terms terms = attachment_h_make_up_working(file, bytes, correction, width, 1);
    expect("make-up", terms.number, 0);
    expect("make-up, r", terms.reference, 2000);
    expect("make-up, c", terms.correct, 6000);
    expect("make-up, mitigated", terms.mitigated, 1);
    expect("make-up, restored", terms.restored, 0);
    expect("make-up, hour 0", terms.hours[0], 1000000);
    expect("make-up, hour 23", terms.hours[23], 0);
    expect("make-up, tenths", terms.tenths, 1000000);
    expect("make-up, cents", terms.make_up, 100000);
    terms = attachment_h_make_up_working(file, bytes, NULL, 0, 1);
    expect("make-up, c is r", terms.correct, 2000);
    expect("make-up, nothing due", terms.make_up, 0);
    free(correction);
    uint8_t *start = copy(file, 35);
    terms = attachment_h_make_up_working(start, 35, NULL, 0, 1);
    expect("make-up of 35 bytes", terms.number, 1);
    expect("make-up, nothing", terms.reference + terms.mitigated + terms.hours[0], 0);
    free(start);
}

/* The shipped case with the fuel data of units 12 and 13 beside its event: P, Q, and a and b of hours 0 and 1. P of unit 12 has hour 0, that of
   unit 13 no hour. */
enum { FUEL = CASE + 2 * EVENT };

static uint8_t *fuel_case(const uint8_t *shipped) {
    const int32_t figures[2][6] = {{1, -300000, 1000, 700, 999, 999}, {0, 100, 10, -3, 5, -5}};
    const size_t places[6] = {12, 16, 24, 28, 36, 40};
    uint8_t *file = filled(FUEL, 0);
    memcpy(file, shipped, CASE);
    put32(file + 32, 3 * EVENT); /* the length of the events */
    for (size_t unit = 0; unit < 2; unit++) {
        uint8_t *event = file + CASE + unit * EVENT;
        event[0] = 3;
        put16(event + 2, (uint16_t)(12 + unit));
        put16(event + 4, 44);
        put32(event + 8, 8000);
        for (size_t figure = 0; figure < 6; figure++) put32(event + places[figure], (uint32_t)figures[unit][figure]);
    }
    return file;
}

/* 10 x -300,000 + 1,000 x 700, and 10 x 100 - 10 x 3, since hour 0 is in P of unit 12: together E. */
static void work_subtotals(const uint8_t *file, size_t bytes) {
    attachment_h_answer of_12 = attachment_h_subtotal(file, bytes, 1);
    attachment_h_answer of_13 = attachment_h_subtotal(file, bytes, 2);
    expect_answer("subtotal of unit 12", of_12, 0, (uint64_t)INT64_C(-2300000));
    expect_answer("subtotal of unit 13, an empty P", of_13, 0, 970);
    attachment_h_penalty_terms terms = attachment_h_penalty_working(file, bytes, NULL, 0, 1);
    expect("subtotals, -E", terms.e_negative, 2299030);
    expect("subtotals, their sum", of_12.figure + of_13.figure, 0 - terms.e_negative);
    expect_answer("subtotal of a withheld event", attachment_h_subtotal(file, bytes, 0), 10, 0);
    expect_answer("subtotal, no such event", attachment_h_subtotal(file, bytes, 3), 10, 0);
    expect_answer("subtotal, the largest number", attachment_h_subtotal(file, bytes, SIZE_MAX), 10, 0);
    uint8_t *changed = copy(file, bytes);
    changed[HEADER + 4] = 2;
    expect_answer("subtotal, area 2", attachment_h_subtotal(changed, bytes, 1), 6, 0);
    expect_answer("subtotal, area 2 and a withheld event", attachment_h_subtotal(changed, bytes, 0), 6, 0);
    free(changed);
    uint8_t *start = copy(file, 35);
    expect_answer("subtotal of 35 bytes", attachment_h_subtotal(start, 35, 1), 1, 0);
    free(start);
    expect_answer("subtotal of no bytes", attachment_h_subtotal(NULL, 0, 0), 1, 0);
}

static void work_fuel(const uint8_t *shipped) {
    uint8_t *file = fuel_case(shipped);
    uint8_t *copied = version_2(file, FUEL, 5); /* two units and three events */
    work_subtotals(file, FUEL);
    work_subtotals(copied, FUEL + 4 * 5);
    free(copied);
    free(file);
}

static void call_rules(void) {
    expect_answer("500 of 5,000", attachment_h_withheld_fails(500, 5000, 500, 20000, false), 0, 0);
    expect_answer("501 of 5,000", attachment_h_withheld_fails(501, 5000, 501, 20000, false), 0, 1);
    expect_answer("5,001 of 5,000", attachment_h_withheld_fails(5001, 5000, 501, 20000, false), 10, 0);
    expect_answer("dispatch, rate 0", attachment_h_dispatch_fails(1, 0, 1, false), 0, 1);
    expect_answer("r 625", attachment_h_bid_fails(0, 625, 2500, 0, false, 0, 0), 0, 0);
    expect_answer("r 624", attachment_h_bid_fails(0, 624, 2500, 0, false, 0, 0), 0, 1);
    expect_answer("bid -1", attachment_h_bid_fails(0, 624, -1, 0, false, 0, 0), 0, 0);
    expect_answer("tight 2,877", attachment_h_bid_fails(0, 2000, 2877, 1, true, 5000, 1000), 0, 1);
    expect_answer("r 1,000,001", attachment_h_bid_fails(0, 1000001, 0, 0, false, 0, 0), 7, 0);
    expect_answer("line of r 624", attachment_h_line(0, 624, 0, false, 0, 0), 0, 2499);
    expect_answer("line, tight", attachment_h_line(0, 2000, 1, true, 5000, 1000), 0, 2876);
    expect_answer("line, component 8", attachment_h_line(8, 101, 0, false, 0, 0), 0, 51);
    expect_answer("line, unread hours", attachment_h_line(8, 101, 0, false, 0, 8785), 16, 0);
    attachment_h_times times = attachment_h_times_fail(120, 181, -5);
    expect("times", times.number, 0);
    expect("times, start-up", times.start_up, 0);
    expect("times, minimum run", times.minimum_run, 1);
    expect("times, minimum down", times.minimum_down, 0);
    expect("times out of range", attachment_h_times_fail(0, 0, INT32_MIN).number, 10);
    expect_answer("N3 4, N2 4", attachment_h_multiplier(4, 4), 0, 6);
    uint32_t *a = copy((const uint32_t[2]){501, 100}, 2 * sizeof *a);
    int32_t *b = copy((const int32_t[2]){4005, -100}, 2 * sizeof *b);
    int32_t *first = copy(b, sizeof *first);
    expect_answer("withheld penalty", attachment_h_withheld_penalty(2, a, 2, b, 2), 0, 200651);
    expect_answer("no flagged hour", attachment_h_withheld_penalty(2, NULL, 0, NULL, 0), 0, 0);
    expect_answer("one price too few", attachment_h_withheld_penalty(2, a, 2, first, 1), 10, 0);
    expect_answer("dispatch penalty", attachment_h_dispatch_penalty(a, 2), 0, 902);
    free(first);
    free(b);
    free(a);
    expect_answer("fuel penalty", attachment_h_fuel_penalty(-10000000, 2000000, 2), 0, 1000000);
    /* 1 September and 1 March 2021 */
    expect_answer("six months", attachment_h_fuel_day_counts(7914, 7730), 0, 1);
    expect_answer("six months and a day", attachment_h_fuel_day_counts(7914, 7729), 0, 0);
    expect_answer("a day of 2100", attachment_h_fuel_day_counts(36525, 36524), 10, 0);
    expect_answer("period of 26 November 2021", attachment_h_period_of(8000), 0, 44);
    expect_answer("period of a day of 2100", attachment_h_period_of(36525), 10, 0);
    expect_answer("two periods before", attachment_h_period_counts(2, 44, 42), 0, 1);
    expect_answer("hour 10, R 8", attachment_h_mitigated_span(1u << 10, 8), 0, 0x3FC00);
    attachment_h_answer bid = attachment_h_bid_in_force(0, -100, 2000, true);
    expect("bid in force", (uint64_t)((int32_t)bid.figure == -100), 1);
    bid = attachment_h_corrected_bid_in_force(1, 9000, 2000, 6000, 0, false, 0, 0, true);
    expect_answer("corrected bid", bid, 0, 9000);
    expect_answer("make-up", attachment_h_make_up(9000, 5000, 1000, 2000, 6000), 0, 100000);
}

int main(int count, char **arguments) {
    _Static_assert(sizeof(attachment_h_answer) == 16, "layout of an answer");
    _Static_assert(sizeof(attachment_h_times) == 4, "layout of the time answer");
    _Static_assert(sizeof(attachment_h_outcome) == 32, "layout of an outcome");
    _Static_assert(sizeof(attachment_h_hour) == 128, "layout of a working");
    _Static_assert(sizeof(attachment_h_penalty_terms) == 456, "layout of a penalty's working");
    _Static_assert(sizeof(attachment_h_make_up_terms) == 232, "layout of a make-up's working");
    const char *root = count > 1 ? arguments[1] : ".";
    uint8_t *shipped = read_file(root, "crates/listing/stdin", CASE);
    uint8_t *listed = read_file(root, "crates/listing/stdout", LISTED);
    uint8_t *larger = larger_case(shipped);
    /* two units and an event; a reference and an event more */
    uint8_t *shipped_2 = version_2(shipped, CASE, 3);
    uint8_t *larger_2 = version_2(larger, LARGER, 5);
    check_cases(shipped);
    check_version_2(shipped_2);
    for (int version = 1; version <= 2; version++) {
        const uint8_t *file = version == 1 ? shipped : shipped_2;
        size_t bytes = version == 1 ? CASE : CASE + 4 * 3;
        settle_cases(file, bytes);
        list_cases(file, bytes, listed);
        work_hours(file, bytes);
        file = version == 1 ? larger : larger_2;
        bytes = version == 1 ? LARGER : LARGER + 4 * 5;
        work_penalty(file, bytes);
        count_instances(file, bytes);
        work_make_up(file, bytes);
    }
    work_fuel(shipped);
    call_rules();
    free(larger_2);
    free(shipped_2);
    free(larger);
    free(listed);
    free(shipped);
    puts(failures == 0 ? "C: every answer is right" : "C: wrong answers");
    return failures != 0;
}
