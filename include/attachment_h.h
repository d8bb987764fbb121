/*
 * The proved Attachment H settlement, for C and whatever calls C. Link libapi.a, which
 * `sh scripts/library` puts into target/staticlib (x86-64 Linux).
 *
 * Versions. A case file is of version 1 or 2, and every call takes both. Version 2 has the number of the unit, at most
 * 999,999, as u32 at the end of a unit, a reference and an event, which have 28, 12 and 316 bytes and not 24, 8 and 312;
 * their old two bytes are 0. A correction has the width of its case's references. docs/FORMAT.md has every byte.
 *
 * Refusals. A number of 0 refuses nothing. Otherwise a whole case is refused with the number of what it breaks that is
 * checked first, in the order 1 to 5, 17, 6 to 10, 18, 19, 11 to 15:
 *
 *    1  the length of the file is outside 36 to 65,000      9  a past entry's field
 *    2  the version is neither 1 nor 2                     10  an event's field
 *    3  the section count is not 4                         11  the order of the events
 *    4  the pairs do not follow on                         12  an event's unit is not listed
 *    5  a section's length is no multiple of its           13  kind 1 or 2: a above the unit's capability
 *       records', or it has too many                       14  kind 4 without its reference, or without the
 *    6  a unit's field, or the order of the units              correct reference where that is read
 *    7  a reference's field, the order, or its unit        15  rows shorter than 128 bytes for each event
 *    8  the same of the correction, its length, or         17  version 2: in a unit, a reference or an event the old
 *       what 17 is, in the correction                          two bytes are not 0, or the number is above 999,999
 *   18  the day of a past entry or an event is 36,525      19  the capability period of a past entry or an event is
 *       or later                                               not its day's
 *
 * and a smaller call first with 7 for a reference out of its component's range (skipped where no such component
 * exists), then with 10 for any other argument out of its range; attachment_h_line refuses all of them with 16. The
 * ranges stand with each call. A working is refused with the case's number, then with 10 where there is no such event or
 * hour, and the lists of instances last with 15 where out is too short; a subtotal with 10 also where the event is no fuel
 * event.
 *
 * Memory. A slice is a pointer and a number of elements. A pointer that does not lead to so many readable elements
 * (rows, out: writable) is the caller's fault, and nothing here can notice it; with a length of 0 the pointer may be NULL. Beyond that every
 * content of every byte and every value of every argument is handled: no call reads outside of its slices, none
 * keeps a pointer, allocates, locks or stops the program, and each answers the same for the same arguments. A bool must
 * be 0 or 1, as C makes it.
 *
 * Numbers. A signed argument is a two's complement word of its width. Money is in cents, a power in tenths of MW, an
 * hour cell's price and bid in cents or in the component's own measure.
 */
#ifndef ATTACHMENT_H_H
#define ATTACHMENT_H_H

#include <stdbool.h>
#include <stddef.h>
#include <stdint.h>

#ifdef __cplusplus
extern "C" {
#endif

/* number is 0 and figure the answer, 1 for yes and 0 for no where a question was asked; or number is that of the
 * refusal and figure 0. */
typedef struct {
    uint8_t number;
    uint64_t figure;
} attachment_h_answer;

/* number is 0 and each bool says whether that time fails; or number is that of the refusal and each bool false. */
typedef struct {
    uint8_t number;
    bool start_up;
    bool minimum_run;
    bool minimum_down;
} attachment_h_times;

/* number is 0, rows the row count and both totals in cents; or number is that of the refusal and the rest 0. */
typedef struct {
    uint8_t number;
    size_t rows;
    uint64_t penalties;
    uint64_t make_ups;
} attachment_h_outcome;

/*
 * number is 0 and the rest is the working of one hour of one event; or number is that of the refusal and the rest 0.
 *
 * A conduct test is at most four comparisons, each of which fails where left exceeds right, in the order of docs/RULES.md, F:
 *
 *    kind 1         10 x a, capability | a, 1,000 (tight 500) | 20 x S, G | S, 2,000 (tight 1,000)
 *    kind 2         a, 15 x rate | a, 1,000 (tight 500) | S, 2,000 (tight 1,000)
 *    kind 3         the events of the party-day whose P has the hour, 0
 *    kind 4:
 *    components 0, 1   d, the lower of 3 x r and 10,000 (taken where a is at least 2,500)
 *                      | 10 x d x H, 1,752 x Average Price (taken where Real-Time, tight and H at least 1)
 *    component 2       d, the lower of 3 x r and 5,000 (taken where a is at least 500)
 *    component 3       d, 2 x r
 *    components 4 to 6 d, 180 | total, 360 (taken where d is above 0)
 *    component 7       a, 2 x r
 *    component 8       r, 2 x a
 *
 * where a negative a or d stands as 0. The hour is flagged exactly where failed is not 0.
 */
typedef struct {
    uint8_t number;
    bool flagged;       /* bit hour of the row's flag mask */
    bool tight;         /* the unit's area is 1 and bit hour of P is set */
    uint8_t failed;     /* the number, from 1, of the first comparison that is taken and fails; 0 where none does */
    uint8_t taken;      /* bit k: comparison k + 1 is one of this test's and counts */
    uint32_t a;         /* the cell's word as it stands; of kind 4 (int32_t)a is the bid */
    uint32_t reference; /* r of kind 4, else 0 */
    uint32_t increase;  /* d = a - r of kind 4, or 0 if negative */
    uint64_t decrease;  /* -d of kind 4, or 0 if negative */
    uint64_t s;         /* S of kinds 1 and 2, else 0 */
    uint64_t g;         /* G of kind 1, else 0 */
    uint64_t total;     /* the positive d of the unit, day, market and hour, added, for components 4 to 6, else 0 */
    uint16_t n3;        /* of the row */
    uint16_t n2;
    uint64_t left[4];   /* both 0 where the test has no such comparison */
    uint64_t right[4];
} attachment_h_hour;

/* number is 0 and the rest is the working of an event's penalty; or number is that of the refusal and the rest 0. What
 * the kind of the event lacks is 0. */
typedef struct {
    uint8_t number;
    uint8_t kind;        /* of the event */
    uint8_t multiplier;  /* in halves, that of the row that bears the penalty; of kind 3 this is M */
    bool below;          /* kind 3: X is below $5,000, so that there is no penalty */
    uint16_t n3;         /* of row `row`, both */
    uint16_t n2;
    size_t row;          /* the event whose row bears the penalty: of kind 3 that of the lowest unit of the party-day,
                            else the event itself */
    uint64_t amount;     /* kind 1: the sum of hours in tenths of a cent, impact or not */
    uint64_t revenue;    /* kind 2: the sum of hours in cents, impact or not */
    uint64_t e_positive; /* kind 3: E of the party-day, in tenths of a cent, or 0 if negative */
    uint64_t e_negative; /* kind 3: -E, or 0 if negative */
    uint64_t t;          /* kind 3: T of the party-day, in cents */
    uint64_t x;          /* kind 3: X = M x E + 20 x T in twentieths of a cent, or 0 if negative */
    uint64_t penalty;    /* of row `row`, in cents */
    uint64_t hours[24];  /* the terms of the event's own flagged hours, else 0: kinds 1 and 3 a x (b, or 0 if
                            negative) in tenths of a cent, kind 2 b in cents; of kind 3 an hour is flagged where some
                            event of the party-day has it in P */
    uint64_t losses[24]; /* kind 3: a x (-b, or 0 if negative) of the same hours in tenths of a cent */
} attachment_h_penalty_terms;

/* number is 0 and the rest is the working of an event's make-up payment; or number is that of the refusal and the rest
 * 0. Of an event that is no bid (kind 4) the rest is 0. */
typedef struct {
    uint8_t number;
    uint32_t reference; /* r */
    uint32_t correct;   /* c, of components 0, 1 and 3, which read it; else 0 */
    uint32_t mitigated; /* the row's mitigated mask */
    uint32_t restored;  /* of these hours those whose bid is in force again as it was bid: components 1 and 3 with c
                           other than r, where the bid passes the conduct test of its component with c in place of r */
    uint64_t tenths;    /* component 0: the sum of hours in tenths of a cent, also where c is r and nothing is due */
    uint64_t make_up;   /* the row's, in cents */
    uint64_t hours[24]; /* component 0: of each mitigated hour m x (the lesser of a and c, less b, or 0 if negative) */
} attachment_h_make_up_terms;

/*
 * Checks a case: its file, its correction (laid out as its references; empty for none) and the length of the rows buffer
 * into which it is to be settled. Gives the number of the first limit that it breaks, or 0 where it is accepted.
 */
uint8_t attachment_h_check(const uint8_t *file, size_t file_length,
                           const uint8_t *correction, size_t correction_length,
                           size_t rows_length);

/*
 * Settles a case into rows, 128 bytes for each event, which must overlap neither of the others. Where the case is
 * refused, rows is as it was; where it is settled, all 128 bytes of each row are written and the bytes beyond the last
 * row are as they were. A row, little-endian: flag mask u32 at 0, mitigated mask u32 at 4, penalty u64 at 8, make-up u64
 * at 16 (cents), multiplier u8 at 24 (halves), N3 u16 at 26, N2 u16 at 28, 24 bids in force i32 from 32; the rest is 0.
 */
attachment_h_outcome attachment_h_settle(const uint8_t *file, size_t file_length,
                                         const uint8_t *correction, size_t correction_length,
                                         uint8_t *rows, size_t rows_length);

/*
 * The working of an hour (0 to 23) of an event (from 0, in the file's order) of a case with its correction. Refused with the
 * number of the case, as attachment_h_check gives it for rows that are long enough, else with 10 where there is no such event
 * or hour.
 */
attachment_h_hour attachment_h_working(const uint8_t *file, size_t file_length,
                                       const uint8_t *correction, size_t correction_length,
                                       size_t event, size_t hour);

/*
 * The working of the penalty of an event (from 0, in the file's order) of a case with its correction. Refused with the
 * number of the case, as attachment_h_check gives it for rows that are long enough, else with 10 where there is no such
 * event.
 */
attachment_h_penalty_terms attachment_h_penalty_working(const uint8_t *file, size_t file_length,
                                                        const uint8_t *correction,
                                                        size_t correction_length, size_t event);

/*
 * A plant's part of its party-day's E, by its event of kind 3 (from 0, in the file's order): (int64_t)figure is 10 x the
 * event's Q plus its a x b over the hours that some event of the party-day has in P, in tenths of a cent, -1,210,000,000,000
 * to 1,210,000,000,000. The subtotals of a party-day's events add to its E. It takes the case alone: refused with the number
 * of the case, as attachment_h_check gives it with no correction and for rows that are long enough, so never with 8 or 15;
 * else with 10 where there is no such event, or where it is of another kind.
 */
attachment_h_answer attachment_h_subtotal(const uint8_t *file, size_t file_length, size_t event);

/* What out of attachment_h_instances has to have at least. */
#define ATTACHMENT_H_INSTANCES_LENGTH 114

/*
 * The events of the file and the past entries that N3 of an event counted, and of them those that N2 counted, as bits.
 * out gets 114 bytes: for N3 200 bits of the events (25 bytes) and 256 bits of the past entries (32 bytes), then the same
 * for N2. Event or entry j is bit j % 8 of byte j / 8 of its list. An instance (kind 1, impact 1 and a flagged hour)
 * counted N3 - 1 and N2 - 1 of them beside itself, any other event none. Bytes of out beyond the 114 are as they were;
 * out must overlap neither of the others.
 *
 * Gives 0; or the number of the case, as attachment_h_check gives it for rows that are long enough, else 10 where there is
 * no such event, else 15 where out is shorter than ATTACHMENT_H_INSTANCES_LENGTH. Then out is as it was.
 */
uint8_t attachment_h_instances(const uint8_t *file, size_t file_length, const uint8_t *correction,
                               size_t correction_length, size_t event, uint8_t *out,
                               size_t out_length);

/* The working of the make-up payment of an event. Refused as attachment_h_penalty_working. */
attachment_h_make_up_terms attachment_h_make_up_working(const uint8_t *file, size_t file_length,
                                                        const uint8_t *correction,
                                                        size_t correction_length, size_t event);

/* What out of attachment_h_listing has to have at least, and rows to list every case. */
#define ATTACHMENT_H_LISTING_LENGTH 42048
#define ATTACHMENT_H_ROWS_LENGTH 25600

/*
 * Settles a case with no correction into rows and puts its listing into out: a line for each event and one for the totals, or
 * "refused" and the number, each ending in a line feed. Gives the length of the text. Where out is shorter than
 * ATTACHMENT_H_LISTING_LENGTH it gives 0 and leaves both buffers as they were. No two of the three may overlap.
 */
size_t attachment_h_listing(const uint8_t *file, size_t file_length, uint8_t *rows,
                            size_t rows_length, uint8_t *out, size_t out_length);

/*
 * Whether a bid fails the conduct test of its component; components 4 to 6 get their single test, "d > 180".
 *
 * component 0 to 8. reference 0 to 1,000,000 for components 0 to 2, else 0 to 1,000,000,000. bid -1,000,000 to
 * 1,000,000 for components 0 and 1, 0 to 1,000,000 for 2, else 0 to 1,000,000,000. market 0 Day-Ahead, 1 Real-Time.
 * tight: the unit's area is 1 and the hour has a Shadow Price. average_price 0 to 1,000,000. constrained_hours 0 to
 * 8,784.
 */
attachment_h_answer attachment_h_bid_fails(uint8_t component, uint32_t reference, int32_t bid,
                                           uint8_t market, bool tight,
                                           uint32_t average_price, uint16_t constrained_hours);

/*
 * Where the line of a component runs: the highest bid in range that passes its conduct test, for component 8 the lowest;
 * components 4 to 6 get their single test. A bid in range passes exactly where it is not above the line, for component 8
 * not below it. The line is a bid in range, never below 0. Ranges as for attachment_h_bid_fails; 16, the only refusal, for any
 * argument out of its range, also where the component does not read it.
 */
attachment_h_answer attachment_h_line(uint8_t component, uint32_t reference, uint8_t market,
                                      bool tight, uint32_t average_price,
                                      uint16_t constrained_hours);

/*
 * Which of components 4, 5 and 6 of one unit, day, market and hour fail, from their increases over the reference in
 * minutes, each -1,000,000,000 to 1,000,000,000.
 */
attachment_h_times attachment_h_times_fail(int32_t start_up, int32_t minimum_run,
                                           int32_t minimum_down);

/*
 * Whether an hour's withheld power a fails the conduct test. capability 1 to 50,000, a at most the capability; s is
 * the sum over the group and g the group's listed capability, each at most 3,200,000.
 */
attachment_h_answer attachment_h_withheld_fails(uint32_t a, uint32_t capability, uint32_t s,
                                                uint32_t g, bool tight);

/*
 * Whether an hour's undelivered power a fails the conduct test. a at most 50,000; rate, the unit's response rate
 * in tenths of MW per minute, at most 50,000; s, the sum over the group, at most 3,200,000.
 */
attachment_h_answer attachment_h_dispatch_fails(uint32_t a, uint32_t rate, uint32_t s, bool tight);

/* The multiplier of an instance in halves: 2, 4 or 6. n3 1 to 456, n2 1 to n3. */
attachment_h_answer attachment_h_multiplier(uint32_t n3, uint32_t n2);

/*
 * The penalty in cents of a withheld event, from its flagged hours: the power a, at most 50,000 each, and the price b,
 * -1,000,000 to 1,000,000 each. a and b have as many hours, at most 24. multiplier 0, 2, 4 or 6 halves.
 */
attachment_h_answer attachment_h_withheld_penalty(uint8_t multiplier,
                                                  const uint32_t *a, size_t a_length,
                                                  const int32_t *b, size_t b_length);

/*
 * The penalty in cents of a dispatch event with impact 1, from the added revenue b of its flagged hours: at most 24,
 * each at most 100,000,000.
 */
attachment_h_answer attachment_h_dispatch_penalty(const uint32_t *b, size_t b_length);

/*
 * The penalty in cents for inaccurate fuel data. e, in tenths of a cent, -100,000,000,000,000 to 100,000,000,000,000;
 * t, in cents, at most 64,000,000,000; m 2 or 3 halves.
 */
attachment_h_answer attachment_h_fuel_penalty(int64_t e, uint64_t t, uint8_t m);

/*
 * Whether a fuel penalty of day e raises the multiplier of day d: e is before d, and not before the same day of the
 * month six months earlier (that month's last day where it has no such day). Days are below 36,525.
 */
attachment_h_answer attachment_h_fuel_day_counts(uint32_t d, uint32_t e);

/*
 * The capability period that a day is in: 0 is the Winter that ends on 30 April 2000, 1 the Summer after it. The day is
 * below 36,525.
 */
attachment_h_answer attachment_h_period_of(uint32_t day);

/* Whether a capability period is the own one or one of the k before it: k is 2 for N3 and 1 for N2. */
attachment_h_answer attachment_h_period_counts(uint8_t k, uint16_t own, uint16_t period);

/*
 * The mitigated hours of component 1 Day-Ahead as a mask: hits is the mask of the flagged hours with impact (bits 24 to
 * 31 are 0), run the minimum run hours, 0 to 24.
 */
attachment_h_answer attachment_h_mitigated_span(uint32_t hits, uint32_t run);

/* The bid in force in one hour: (int32_t)figure is the bid. Ranges as for attachment_h_bid_fails. */
attachment_h_answer attachment_h_bid_in_force(uint8_t component, int32_t bid, uint32_t reference,
                                              bool mitigated);

/*
 * The bid in force in one hour beside a correct reference: (int32_t)figure is the bid. Ranges as for
 * attachment_h_bid_fails; the correct reference has that of the reference.
 */
attachment_h_answer attachment_h_corrected_bid_in_force(
    uint8_t component, int32_t bid, uint32_t reference, uint32_t correct, uint8_t market,
    bool tight, uint32_t average_price, uint16_t constrained_hours, bool mitigated);

/*
 * The make-up payment in cents of one mitigated hour of component 0; 0 where correct is the reference. bid and price
 * -1,000,000 to 1,000,000, megawatts (tenths of MW) at most 50,000, both references at most 1,000,000.
 */
attachment_h_answer attachment_h_make_up(int32_t bid, int32_t price, uint32_t megawatts,
                                         uint32_t reference, uint32_t correct);

#ifdef __cplusplus
}
#endif
#endif
