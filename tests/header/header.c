/* Tries what include/card.h adds to the library for C: NULL beside the length 0, the columns as one struct, the
 * meanings of the numbers, and what it says of records, of the modified index, of traces, of runs and columns that
 * do not belong together, of missing months, of repairs, which repairs.h has, of constants that are worked out again,
 * which constants.h has, and of lines of a division file, which lines.h has. The library's own functions, asked with
 * valid pointers, are what the header's are held to. It is linked so that every call of the library is watched for
 * NULL: see tests/header/run. */
#include "card.h"

#include <stddef.h>
#include <stdio.h>
#include <stdlib.h>
#include <string.h>

#define MONTHS 48

static unsigned long checks;

static void check(const char *where, int good, const char *what) {
    checks++;
    if (good) return;
    fprintf(stderr, "header: %s: %s\n", where, what);
    exit(1);
}

static void check_number(const char *where, uint8_t got, uint8_t expected) {
    checks++;
    if (got == expected) return;
    fprintf(stderr, "header: %s: answered with %d (%s), expected %d (%s)\n", where, got, card_meaning(got),
            expected, card_meaning(expected));
    exit(1);
}

/* ---- The library, watched ------------------------------------------------------------------------- */

/* The linker leads each call of card_start to __wrap_card_start, and __real_card_start to the library. */

#define WRITTEN int32_t *, size_t, int32_t *, size_t, int32_t *, size_t, int32_t *, size_t, uint8_t *, \
                size_t, card_record *, size_t, int64_t *, size_t
#define READ const int32_t *, size_t, const int32_t *, size_t, const int32_t *, size_t, const int32_t *, \
             size_t, const uint8_t *, size_t, const card_record *, size_t, const int64_t *, size_t

static unsigned long watched;

static void watch(const char *where, int good) {
    watched++;
    check(where, good, "the library was handed NULL");
}

#define LENT int32_t *x1, size_t n1, int32_t *x2, size_t n2, int32_t *x3, size_t n3, int32_t *i, size_t ni, \
             uint8_t *m, size_t nm, card_record *r, size_t nr, int64_t *v, size_t nv
#define LENT_TO_READ const int32_t *x1, size_t n1, const int32_t *x2, size_t n2, const int32_t *x3, size_t n3, \
                     const int32_t *i, size_t ni, const uint8_t *m, size_t nm, const card_record *r, \
                     size_t nr, const int64_t *v, size_t nv
#define HANDED x1, n1, x2, n2, x3, n3, i, ni, m, nm, r, nr, v, nv
#define NONE_NULL (x1 && x2 && x3 && i && m && r && v)

/* The columns that the last call of the library was handed, and their lengths; the report of the last repair, the
 * weights of the last constants, and the last line. */
static const void *handed[7];
static size_t handed_lengths[7];
static const card_change *handed_report;
static size_t handed_report_length;
static const int32_t *handed_weights;
static size_t handed_weights_length;
static const uint8_t *handed_line;
static size_t handed_line_length;

static void note(LENT_TO_READ) {
    const void *at[7] = {x1, x2, x3, i, m, r, v};
    size_t lengths[7] = {n1, n2, n3, ni, nm, nr, nv};
    memcpy(handed, at, sizeof at);
    memcpy(handed_lengths, lengths, sizeof lengths);
}

card_started __real_card_start(const int32_t *, size_t, int32_t, int32_t, int32_t, int32_t);
card_started __wrap_card_start(const int32_t *list, size_t n, int32_t c, int32_t s, int32_t u, int32_t month) {
    watch("card_start", list != NULL);
    return __real_card_start(list, n, c, s, u, month);
}

card_added __real_card_add_water(card_run, card_reading, card_reading, WRITTEN);
card_added __wrap_card_add_water(card_run run, card_reading p, card_reading pe, LENT) {
    watch("card_add_water", NONE_NULL);
    note(HANDED);
    return __real_card_add_water(run, p, pe, HANDED);
}

card_added __real_card_add_inches(card_run, card_month_inches, WRITTEN);
card_added __wrap_card_add_inches(card_run run, card_month_inches month, LENT) {
    watch("card_add_inches", NONE_NULL);
    note(HANDED);
    return __real_card_add_inches(run, month, HANDED);
}

card_added __real_card_add_z(card_run, int32_t, WRITTEN);
card_added __wrap_card_add_z(card_run run, int32_t z, LENT) {
    watch("card_add_z", NONE_NULL);
    note(HANDED);
    return __real_card_add_z(run, z, HANDED);
}

card_season __real_card_add_season(card_run, const int32_t *, size_t, const int32_t *, size_t, WRITTEN);
card_season __wrap_card_add_season(card_run run, const int32_t *p, size_t np, const int32_t *pe, size_t npe,
                                   LENT) {
    watch("card_add_season", NONE_NULL && p && pe);
    note(HANDED);
    return __real_card_add_season(run, p, np, pe, npe, HANDED);
}

card_repaired __real_card_repair(card_run, size_t, card_reading, card_reading, WRITTEN, card_change *, size_t);
card_repaired __wrap_card_repair(card_run run, size_t row, card_reading p, card_reading pe, LENT, card_change *c,
                                 size_t nc) {
    watch("card_repair", NONE_NULL && c);
    note(HANDED);
    handed_report = c;
    handed_report_length = nc;
    return __real_card_repair(run, row, p, pe, HANDED, c, nc);
}

card_shown __real_card_row(card_run, size_t, READ);
card_shown __wrap_card_row(card_run run, size_t row, LENT_TO_READ) {
    watch("card_row", NONE_NULL);
    note(HANDED);
    return __real_card_row(run, row, HANDED);
}

card_summed __real_card_sum_month(card_run, int32_t, READ);
card_summed __wrap_card_sum_month(card_run run, int32_t month, LENT_TO_READ) {
    watch("card_sum_month", NONE_NULL);
    note(HANDED);
    return __real_card_sum_month(run, month, HANDED);
}

card_worked_out __real_card_work_out(card_run, const int32_t *, size_t, READ);
card_worked_out __wrap_card_work_out(card_run run, const int32_t *w, size_t nw, LENT_TO_READ) {
    watch("card_work_out", NONE_NULL && w);
    note(HANDED);
    handed_weights = w;
    handed_weights_length = nw;
    return __real_card_work_out(run, w, nw, HANDED);
}

#define WATCHED_WRITE(element)                                                                                     \
    uint8_t __real_card_write_##element##_line(card_run, uint32_t, uint32_t, uint32_t, uint32_t, READ, uint8_t *,  \
                                               size_t);                                                            \
    uint8_t __wrap_card_write_##element##_line(card_run run, uint32_t state, uint32_t division, uint32_t year,     \
                                               uint32_t which, LENT_TO_READ, uint8_t *line, size_t length) {       \
        watch("card_write_" #element "_line", NONE_NULL && line);                                                  \
        uint8_t number = __real_card_write_##element##_line(run, state, division, year, which, HANDED, line,       \
                                                            length);                                               \
        note(HANDED);                                                                                              \
        handed_line = line;                                                                                        \
        handed_line_length = length;                                                                               \
        return number;                                                                                             \
    }

WATCHED_WRITE(index)
WATCHED_WRITE(z)
WATCHED_WRITE(modified)

static void note_line(const char *where, const uint8_t *line, size_t length) {
    watch(where, line != NULL);
    handed_line = line;
    handed_line_length = length;
}

#define WATCHED_READ(element)                                                                                      \
    card_line_figures __real_card_read_##element##_line(const uint8_t *, size_t, uint32_t, uint32_t, uint32_t);    \
    card_line_figures __wrap_card_read_##element##_line(const uint8_t *line, size_t length, uint32_t state,        \
                                                        uint32_t division, uint32_t year) {                        \
        note_line("card_read_" #element "_line", line, length);                                                    \
        return __real_card_read_##element##_line(line, length, state, division, year);                             \
    }

WATCHED_READ(index)
WATCHED_READ(z)
WATCHED_READ(modified)

uint32_t __real_card_line_year(const uint8_t *, size_t);
uint32_t __wrap_card_line_year(const uint8_t *line, size_t length) {
    note_line("card_line_year", line, length);
    return __real_card_line_year(line, length);
}

uint32_t __real_card_line_fault(const uint8_t *, size_t);
uint32_t __wrap_card_line_fault(const uint8_t *line, size_t length) {
    note_line("card_line_fault", line, length);
    return __real_card_line_fault(line, length);
}

uint8_t __real_card_whole_series(const int32_t *, size_t, int32_t *, size_t, uint8_t *, size_t);
uint8_t __wrap_card_whole_series(const int32_t *z, size_t nz, int32_t *i, size_t ni, uint8_t *m, size_t nm) {
    watch("card_whole_series", z && i && m);
    return __real_card_whole_series(z, nz, i, ni, m, nm);
}

/* ---- Lists ---------------------------------------------------------------------------------------- */

typedef struct lists {
    int32_t x1[MONTHS], x2[MONTHS], x3[MONTHS], index[MONTHS];
    uint8_t mark[MONTHS];
    card_record records[MONTHS];
    int64_t v[MONTHS];
} lists;

static card_columns lent(lists *of, size_t length) {
    return card_columns_of(of->x1, of->x2, of->x3, of->index, of->mark, of->records, of->v, length);
}

/* Of numbers and bytes without gaps between them, so that they can be compared as bytes. */
static int same_lists(const lists *a, const lists *b) {
    return memcmp(a, b, sizeof *a) == 0;
}

/* Lists in which every place holds another number, so that a write anywhere is seen. */
static lists fresh_lists(void) {
    lists made;
    for (int i = 0; i < MONTHS; i++) {
        made.x1[i] = 1000 + i;
        made.x2[i] = 2000 + i;
        made.x3[i] = 3000 + i;
        made.index[i] = 4000 + i;
        made.mark[i] = (uint8_t)(100 + i);
        int32_t n = 100000 + 14 * i;
        card_record r = {n,     n + 1, n + 2, n + 3,  n + 4,  n + 5,  n + 6,
                         n + 7, n + 8, n + 9, n + 10, n + 11, n + 12, n + 13};
        made.records[i] = r;
        made.v[i] = 5000000000 + i;
    }
    return made;
}

/* ---- Calls and their answers ---------------------------------------------------------------------- */

enum { WATER, INCHES, Z, SEASON, ROW, REPAIR, SUM, WORK_OUT, INDEX_LINE, Z_LINE, MODIFIED_LINE, KINDS };

static const char *const KIND_NAMES[KINDS] = {"add water",        "add inches",   "add Z",
                                              "add season",       "row",          "repair",
                                              "sum month",        "work out",     "write index line",
                                              "write Z line",     "write modified line"};

/* A call that takes columns: its kind, and what that kind is asked with. */
typedef struct call {
    int kind;
    card_reading p, pe;
    card_month_inches inches;
    int32_t z;
    const int32_t *list_p, *list_pe;
    size_t list_p_length, list_pe_length;
    size_t row;
    int32_t month;
    const int32_t *weights;
    size_t weights_length;
    uint32_t state, division, year, which;
    size_t line_length;
    int line_null; /* whether NULL is handed in for the line */
} call;

/* What a call of any kind answered; what its kind does not answer is 0. */
typedef struct answer {
    uint8_t number;
    uint32_t added, settled;
    card_figures figures;
    card_run run;
    card_shown shown;
    uint32_t changed;
    card_change report[MONTHS]; /* as far as it is that long, and all 0 where the call is refused */
    card_summed summed;
    card_worked_out worked_out;
    uint8_t line[CARD_LINE]; /* all 0 where the call is refused */
} answer;

static answer of_added(card_added a) {
    answer made = {0};
    made.number = a.number;
    made.settled = a.settled;
    made.figures = a.figures;
    made.run = a.run;
    return made;
}

static answer of_season(card_season s) {
    answer made = {0};
    made.number = s.number;
    made.added = s.added;
    made.settled = s.settled;
    made.figures = s.figures;
    made.run = s.run;
    return made;
}

/* A row hands back no run: the one it was asked with stands there. So it is with the next two, and with a line. */
static answer of_shown(card_shown s, card_run run) {
    answer made = {0};
    made.number = s.number;
    made.shown = s;
    made.run = run;
    return made;
}

static answer of_summed(card_summed s, card_run run) {
    answer made = {0};
    made.number = s.number;
    made.summed = s;
    made.run = run;
    return made;
}

static answer of_worked_out(card_worked_out w, card_run run) {
    answer made = {0};
    made.number = w.number;
    made.worked_out = w;
    made.run = run;
    return made;
}

/* The report that repairs are lent, of so many places and one more that is not lent. What it holds is none of the
 * numbers that a repair writes. */
static card_change reports[CARD_MOST_MONTHS + 2];
static const card_change NOT_WRITTEN = {-77, -78, -79, -80, -81};

static int same_change(const card_change *a, const card_change *b) { return memcmp(a, b, sizeof *a) == 0; }

static card_change *lent_report(size_t length) {
    for (size_t i = 0; i <= length; i++) reports[i] = NOT_WRITTEN;
    return reports;
}

/* What a repair says of its report: a refused one writes nothing, and after the months that changed are zeros. */
static answer of_repaired(card_repaired a, size_t length) {
    static const card_change nothing = {0, 0, 0, 0, 0};
    answer made = {0};
    made.number = a.number;
    made.changed = a.changed;
    made.run = a.run;
    check("a report", same_change(&reports[length], &NOT_WRITTEN), "a place was written that was not lent");
    check("a report", a.changed <= length && (a.number == CARD_DONE || a.changed == 0), "another count of months");
    for (size_t i = a.changed; i < length; i++)
        check("a report", same_change(&reports[i], a.number == CARD_DONE ? &nothing : &NOT_WRITTEN),
              a.number == CARD_DONE ? "not 0 after the months" : "a refused repair has written it");
    if (a.number == CARD_DONE) memcpy(made.report, reports, (length < MONTHS ? length : MONTHS) * sizeof *reports);
    return made;
}

/* The bytes that a line is lent, and some before and after them that are not lent. None that they hold is one of a
 * line. */
enum { LINE_ROOM = 200, LINE_EDGE = 16 };
static uint8_t line_room[LINE_EDGE + LINE_ROOM + LINE_EDGE];

static uint8_t of_no_line(size_t place) { return (uint8_t)(128 + place % 128); }

static uint8_t *lent_line(call c) {
    for (size_t i = 0; i < sizeof line_room; i++) line_room[i] = of_no_line(i);
    return c.line_null ? NULL : line_room + LINE_EDGE;
}

/* A line hands back its number alone. A refused call writes nothing, and another CARD_LINE bytes. */
static answer of_line(uint8_t number, call c, card_run run) {
    answer made = {0};
    made.number = number;
    made.run = run;
    int handed_on = handed_line == line_room + LINE_EDGE || c.line_length == 0;
    check("a line", handed_on && handed_line_length == c.line_length, "it or its length is handed on wrongly");
    int whole = 1, beside = 0;
    for (size_t i = 0; i < sizeof line_room; i++) {
        int own = number == CARD_DONE && i >= LINE_EDGE && i < LINE_EDGE + CARD_LINE;
        if (own) whole &= line_room[i] < 128;
        else beside |= line_room[i] != of_no_line(i);
    }
    check("a line", whole, "it was not written whole");
    check("a line", !beside, number == CARD_DONE ? "a byte beside it was written" : "a refused call has written it");
    if (number == CARD_DONE) memcpy(made.line, line_room + LINE_EDGE, CARD_LINE);
    return made;
}

#define EACH(k) (k).x1, (k).x1_length, (k).x2, (k).x2_length, (k).x3, (k).x3_length, \
                (k).index, (k).index_length, (k).mark, (k).mark_length, \
                (k).records, (k).records_length, (k).v, (k).v_length
#define SEASON_OF(c) (c).list_p, (c).list_p_length, (c).list_pe, (c).list_pe_length
#define WEIGHTS_OF(c) (c).weights, (c).weights_length
#define ASKED_OF(c) (c).state, (c).division, (c).year, (c).which
#define LINE_OF(c) lent_line(c), (c).line_length

/* By the library's own functions, which take no NULL. */
static answer by_library(call c, card_run run, card_columns k) {
    size_t n = k.x1_length;
    switch (c.kind) {
    case WATER: return of_added((card_add_water)(run, c.p, c.pe, EACH(k)));
    case INCHES: return of_added((card_add_inches)(run, c.inches, EACH(k)));
    case Z: return of_added((card_add_z)(run, c.z, EACH(k)));
    case SEASON: return of_season((card_add_season)(run, SEASON_OF(c), EACH(k)));
    case REPAIR: return of_repaired((card_repair)(run, c.row, c.p, c.pe, EACH(k), lent_report(n), n), n);
    case SUM: return of_summed((card_sum_month)(run, c.month, EACH(k)), run);
    case WORK_OUT: return of_worked_out((card_work_out)(run, WEIGHTS_OF(c), EACH(k)), run);
    case INDEX_LINE: return of_line((card_write_index_line)(run, ASKED_OF(c), EACH(k), LINE_OF(c)), c, run);
    case Z_LINE: return of_line((card_write_z_line)(run, ASKED_OF(c), EACH(k), LINE_OF(c)), c, run);
    case MODIFIED_LINE: return of_line((card_write_modified_line)(run, ASKED_OF(c), EACH(k), LINE_OF(c)), c, run);
    default: return of_shown((card_row)(run, c.row, EACH(k)), run);
    }
}

/* By the calls with each list by itself, as a program writes them. */
static answer by_lists(call c, card_run run, card_columns k) {
    size_t n = k.x1_length;
    switch (c.kind) {
    case WATER: return of_added(card_add_water(run, c.p, c.pe, EACH(k)));
    case INCHES: return of_added(card_add_inches(run, c.inches, EACH(k)));
    case Z: return of_added(card_add_z(run, c.z, EACH(k)));
    case SEASON: return of_season(card_add_season(run, SEASON_OF(c), EACH(k)));
    case REPAIR: return of_repaired(card_repair(run, c.row, c.p, c.pe, EACH(k), lent_report(n), n), n);
    case SUM: return of_summed(card_sum_month(run, c.month, EACH(k)), run);
    case WORK_OUT: return of_worked_out(card_work_out(run, WEIGHTS_OF(c), EACH(k)), run);
    case INDEX_LINE: return of_line(card_write_index_line(run, ASKED_OF(c), EACH(k), LINE_OF(c)), c, run);
    case Z_LINE: return of_line(card_write_z_line(run, ASKED_OF(c), EACH(k), LINE_OF(c)), c, run);
    case MODIFIED_LINE: return of_line(card_write_modified_line(run, ASKED_OF(c), EACH(k), LINE_OF(c)), c, run);
    default: return of_shown(card_row(run, c.row, EACH(k)), run);
    }
}

/* By the calls with the columns as one. */
static answer by_columns(call c, card_run run, card_columns k) {
    size_t n = k.x1_length;
    switch (c.kind) {
    case WATER: return of_added(card_add_water_in(k, run, c.p, c.pe));
    case INCHES: return of_added(card_add_inches_in(k, run, c.inches));
    case Z: return of_added(card_add_z_in(k, run, c.z));
    case SEASON: return of_season(card_add_season_in(k, run, SEASON_OF(c)));
    case REPAIR: return of_repaired(card_repair_in(k, run, c.row, c.p, c.pe, lent_report(n)), n);
    case SUM: return of_summed(card_sum_month_in(k, run, c.month), run);
    case WORK_OUT: return of_worked_out(card_work_out_in(k, run, WEIGHTS_OF(c)), run);
    case INDEX_LINE: return of_line(card_write_index_line_in(k, run, ASKED_OF(c), LINE_OF(c)), c, run);
    case Z_LINE: return of_line(card_write_z_line_in(k, run, ASKED_OF(c), LINE_OF(c)), c, run);
    case MODIFIED_LINE: return of_line(card_write_modified_line_in(k, run, ASKED_OF(c), LINE_OF(c)), c, run);
    default: return of_shown(card_row_in(k, run, c.row), run);
    }
}

static int same_run(const card_run *a, const card_run *b) {
    return a->months == b->months && a->opens == b->opens && a->calendar == b->calendar &&
           a->soil.capacity == b->soil.capacity && a->soil.surface == b->soil.surface &&
           a->soil.underlying == b->soil.underlying && a->values.x1 == b->values.x1 &&
           a->values.x2 == b->values.x2 && a->values.x3 == b->values.x3 && a->values.v == b->values.v &&
           memcmp(a->constants, b->constants, sizeof a->constants) == 0;
}

/* The numbers up to the kinds are without gaps; after the kinds is one. */
static int same_water(const card_water *a, const card_water *b) {
    return memcmp(a, b, offsetof(card_water, kinds)) == 0 && a->kinds.p == b->kinds.p && a->kinds.pe == b->kinds.pe;
}

static int same_figures(const card_figures *a, const card_figures *b) {
    return same_water(&a->water, &b->water) && a->z == b->z && a->percent == b->percent && a->x1 == b->x1 &&
           a->x2 == b->x2 && a->x3 == b->x3 && a->index == b->index && a->mark == b->mark &&
           a->modified == b->modified;
}

static int same_record(const card_record *a, const card_record *b) {
    return memcmp(a, b, sizeof *a) == 0;
}

static int same_shown(const card_shown *a, const card_shown *b) {
    return a->number == b->number && a->x1 == b->x1 && a->x2 == b->x2 && a->x3 == b->x3 &&
           a->index == b->index && a->mark == b->mark && same_record(&a->month, &b->month) && a->v == b->v;
}

/* The sums are without gaps; before them is one, after the number. */
static int same_summed(const card_summed *a, const card_summed *b) {
    return a->number == b->number && a->years == b->years && memcmp(&a->sums, &b->sums, sizeof a->sums) == 0;
}

static int same_worked_out(const card_worked_out *a, const card_worked_out *b) {
    return a->number == b->number && memcmp(a->constants, b->constants, sizeof a->constants) == 0 &&
           memcmp(a->departures, b->departures, sizeof a->departures) == 0;
}

static void check_same(const char *where, const answer *a, const answer *b) {
    check_number(where, a->number, b->number);
    check(where, a->added == b->added, "another count of months added");
    check(where, a->settled == b->settled, "another count of months settled");
    check(where, same_figures(&a->figures, &b->figures), "other figures");
    check(where, same_run(&a->run, &b->run), "another run");
    check(where, same_shown(&a->shown, &b->shown), "another row");
    check(where, a->changed == b->changed && memcmp(a->report, b->report, sizeof a->report) == 0,
          "another report");
    check(where, same_summed(&a->summed, &b->summed), "other sums");
    check(where, same_worked_out(&a->worked_out, &b->worked_out), "other constants or departures");
    check(where, memcmp(a->line, b->line, sizeof a->line) == 0, "another line");
}

/* An answer that refuses: the number, the run as it was given and all else 0. */
static void check_refused(const char *where, const answer *a, uint8_t number, card_run given) {
    answer expected = {0};
    expected.number = number;
    expected.run = given;
    if (a->shown.number != 0) expected.shown.number = number;
    if (a->summed.number != 0) expected.summed.number = number;
    if (a->worked_out.number != 0) expected.worked_out.number = number;
    check_same(where, a, &expected);
}

/* ---- A station ------------------------------------------------------------------------------------ */

/* Western Kansas, from June 1932 on. */
static const int32_t CONSTANTS[CARD_CONSTANTS] = {
    9466, 722, 23, 4694, 25800,  9754, 1166, 20, 2290, 22000, 9679, 1136, 317, 3730, 18400,
    9218, 1499, 359, 2688, 15400, 8581, 1155, 266, 3613, 13800, 7099, 268, 251, 4332, 12800,
    5660, 71, 0, 5151, 13800,    5074, 40, 0, 5274, 16600,    4899, 9, 0, 5272, 18700,
    5533, 436, 0, 3519, 18200,   6596, 652, 195, 3245, 20400, 9223, 900, 0, 4055, 22600};

static card_run station(void) {
    card_started started = card_start(CONSTANTS, CARD_CONSTANTS, 6000, 0, 1330, 6);
    check_number("start", started.number, CARD_DONE);
    return started.run;
}

/* A number from low to high, the same at every run of this program. */
static int32_t drawn(int32_t low, int32_t high) {
    static uint64_t state = 7;
    state = state * 6364136223846793005u + 1442695040888963407u;
    return low + (int32_t)((state >> 33) % (uint64_t)(high - low + 1));
}

static const int32_t SEASON_P[3] = {1780, 1530, 1280};
static const int32_t SEASON_PE[3] = {7040, 5970, 3410};

/* Western Kansas' own, by Palmer's table 9. */
static const int32_t WEIGHTS[CARD_WEIGHTS] = {22500, 19200, 16000, 13400, 12000, 11200,
                                              12000, 14500, 16300, 15900, 17800, 19700};

/* A call of this kind that a run of some months accepts. One in four of its readings is a trace. */
static call good_call(int kind) {
    call c = {0};
    c.kind = kind;
    c.p = drawn(0, 3) ? card_whole(drawn(0, 6000)) : card_inches((float)drawn(1, 49) / 100000.0f);
    c.pe = drawn(0, 1) ? card_inches((float)drawn(0, 8)) : card_millimetres((float)drawn(0, 200));
    if (drawn(0, 3) == 0) c.pe = card_millimetres((float)drawn(1, 12) / 1000.0f);
    c.inches.p = (float)drawn(0, 60) / (drawn(0, 3) ? 10.0f : 150000.0f);
    c.inches.pe = (float)drawn(0, 80) / (drawn(0, 3) ? 10.0f : 200000.0f);
    c.z = drawn(-6000, 6000);
    c.list_p = SEASON_P;
    c.list_p_length = 3;
    c.list_pe = SEASON_PE;
    c.list_pe_length = 3;
    c.month = drawn(1, 12);
    c.weights = WEIGHTS;
    c.weights_length = CARD_WEIGHTS;
    c.state = 14;
    c.division = 7;
    c.year = 1932;
    c.line_length = CARD_LINE;
    return c;
}

/* ---- What is tried -------------------------------------------------------------------------------- */

static void try_meanings(void) {
    static const char *const words[13] = {
        "done", "lists not all of one length, or length 0 or above 12,000", "constants not sixty numbers",
        "a constant outside its range", "capacity outside its range",
        "a start storage negative or above its layer", "start month not 1 to 12", "not a run",
        "reading missing", "reading not acceptable", "months already equal the column length",
        "row number not below the months added", "Z outside its range"};
    for (int i = 0; i < 256; i++) {
        const char *expected = i < 13 ? words[i] : "no number of this library";
        if (i == 14) expected = "a line is malformed, or its precipitation outside 0 to 100 inches";
        if (i == 15) expected = "a line of another state, division or element";
        if (i == 16) expected = "a line of another year";
        if (i == 17) expected = "no water in that month";
        if (i == 18) expected = "fewer than ten whole years, or one with a month without water";
        if (i == 19) expected = "a gamma worked out is outside its range";
        if (i == 20) expected = "no departures to weigh, or a K worked out is outside its range";
        if (i == 21) expected = "a K of 0, by which a month counts for nothing";
        if (i == 24) expected = "a value, state, division or year does not fit, or a value would read as missing";
        if (i == 25) expected = "the list is too short for a line";
        check("card_meaning", strcmp(card_meaning((uint8_t)i), expected) == 0, expected);
    }
}

/* The sizes that the header gives. */
static void try_sizes(void) {
    check("sizes", sizeof(card_run) == 288, "a run is not 288 bytes");
    check("sizes", sizeof(card_started) == 296, "card_started is not 296 bytes");
    check("sizes", sizeof(card_added) == 376, "card_added is not 376 bytes");
    check("sizes", sizeof(card_season) == 384, "card_season is not 384 bytes");
    check("sizes", sizeof(card_repaired) == 296, "card_repaired is not 296 bytes");
    check("sizes", sizeof(card_change) == 20, "a change is not 20 bytes");
    check("sizes", sizeof(card_shown) == 88, "card_shown is not 88 bytes");
    check("sizes", sizeof(card_summed) == 40, "card_summed is not 40 bytes");
    check("sizes", sizeof(card_sums) == 32, "the sums are not 32 bytes");
    check("sizes", sizeof(card_worked_out) == 292, "card_worked_out is not 292 bytes");
    check("sizes", CARD_WEIGHTS == 12, "not twelve weights");
    check("sizes", sizeof(card_line_figures) == 64, "card_line_figures is not 64 bytes");
    check("sizes", CARD_LINE == 94 && CARD_LINE_MONTHS == 12, "not a line of twelve months and 94 bytes");
    check("sizes", sizeof(card_record) == 56, "a record is not 56 bytes");
    check("sizes", sizeof(lists) == 81 * MONTHS, "a month is not 81 bytes in the columns");
    check("sizes", CARD_MOST_MONTHS == 12000 && 81 * CARD_MOST_MONTHS == 972000, "the longest columns");
    check("sizes", sizeof(card_change) * CARD_MOST_MONTHS == 240000, "the longest report");
}

/* Where the fields of a record, of the columns, of an answer, of a row, of the figures, of a repair, of sums, of
 * constants and of a line's figures stand. */
static void try_offsets(void) {
    static const size_t of_record[14] = {
        offsetof(card_record, z), offsetof(card_record, p), offsetof(card_record, pe), offsetof(card_record, et),
        offsetof(card_record, r), offsetof(card_record, l), offsetof(card_record, ro),
        offsetof(card_record, ss), offsetof(card_record, su),
        offsetof(card_record, surface), offsetof(card_record, underlying), offsetof(card_record, water),
        offsetof(card_record, modified), offsetof(card_record, kind)};
    static const size_t of_columns[14] = {
        offsetof(card_columns, x1), offsetof(card_columns, x1_length), offsetof(card_columns, x2),
        offsetof(card_columns, x2_length), offsetof(card_columns, x3), offsetof(card_columns, x3_length),
        offsetof(card_columns, index), offsetof(card_columns, index_length), offsetof(card_columns, mark),
        offsetof(card_columns, mark_length), offsetof(card_columns, records),
        offsetof(card_columns, records_length), offsetof(card_columns, v), offsetof(card_columns, v_length)};
    for (size_t i = 0; i < 14; i++) check("offsets", of_record[i] == 4 * i, "a record's numbers have gaps");
    for (size_t i = 0; i < 14; i++) check("offsets", of_columns[i] == 8 * i, "the columns in another order");
    check("offsets", sizeof(card_columns) == 112, "the columns are not 112 bytes");
    check("offsets", offsetof(card_answer, number) == 0 && offsetof(card_answer, kind) == 1 &&
          offsetof(card_answer, water) == 4 && sizeof(card_answer) == 8, "an answer in another order");
    check("offsets", offsetof(card_water, cafec) == 40 && offsetof(card_water, kinds) == 44 &&
          offsetof(card_month_kinds, pe) == 1 && sizeof(card_month_kinds) == 2 && sizeof(card_water) == 48,
          "the water in another order");
    check("offsets", offsetof(card_shown, x1) == 4 && offsetof(card_shown, index) == 16 &&
          offsetof(card_shown, mark) == 20 && offsetof(card_shown, month) == 24 &&
          offsetof(card_shown, v) == 80, "a row in another order");
    check("offsets", offsetof(card_figures, z) == 48 && offsetof(card_figures, mark) == 72 &&
          offsetof(card_figures, modified) == 76 && sizeof(card_figures) == 80, "the figures in another order");
    check("offsets", offsetof(card_change, row) == 0 && offsetof(card_change, index_before) == 4 &&
          offsetof(card_change, index_after) == 8 && offsetof(card_change, mark_before) == 12 &&
          offsetof(card_change, mark_after) == 16, "a change in another order");
    check("offsets", offsetof(card_repaired, number) == 0 && offsetof(card_repaired, changed) == 4 &&
          offsetof(card_repaired, run) == 8, "a repair's answer in another order");
    static const size_t of_sums[8] = {
        offsetof(card_sums, et), offsetof(card_sums, pe), offsetof(card_sums, r), offsetof(card_sums, pr),
        offsetof(card_sums, ro), offsetof(card_sums, pro), offsetof(card_sums, l), offsetof(card_sums, pl)};
    for (size_t i = 0; i < 8; i++) check("offsets", of_sums[i] == 4 * i, "the sums in another order");
    check("offsets", offsetof(card_summed, number) == 0 && offsetof(card_summed, years) == 4 &&
          offsetof(card_summed, sums) == 8, "a sum's answer in another order");
    check("offsets", offsetof(card_worked_out, number) == 0 && offsetof(card_worked_out, constants) == 4 &&
          offsetof(card_worked_out, departures) == 244, "the answer with constants in another order");
    check("offsets", offsetof(card_line_figures, number) == 0 && offsetof(card_line_figures, hundredths) == 4 &&
          offsetof(card_line_figures, present) == 52 && offsetof(card_line_figures, count) == 56 &&
          offsetof(card_line_figures, first_missing) == 60, "a line's figures in another order");
}

/* The columns with length 0 for each in the set, at the address that they have, or at NULL. */
static card_columns emptied(card_columns k, unsigned set, int null) {
    if (set & 1) k.x1_length = 0;
    if (set & 2) k.x2_length = 0;
    if (set & 4) k.x3_length = 0;
    if (set & 8) k.index_length = 0;
    if (set & 16) k.mark_length = 0;
    if (set & 32) k.records_length = 0;
    if (set & 64) k.v_length = 0;
    if (!null) return k;
    if (set & 1) k.x1 = NULL;
    if (set & 2) k.x2 = NULL;
    if (set & 4) k.x3 = NULL;
    if (set & 8) k.index = NULL;
    if (set & 16) k.mark = NULL;
    if (set & 32) k.records = NULL;
    if (set & 64) k.v = NULL;
    return k;
}

/* Every set of columns but the empty one as NULL beside 0, in every kind of call: 1, and nothing is written. */
static void try_null_columns(void) {
    lists held = fresh_lists();
    const lists before = held;
    card_run run = station();
    for (int kind = 0; kind < KINDS; kind++) {
        for (unsigned set = 1; set < 128; set++) {
            call c = good_call(kind);
            answer expected = by_library(c, run, emptied(lent(&held, MONTHS), set, 0));
            card_columns null = emptied(lent(&held, MONTHS), set, 1);
            answer lists_null = by_lists(c, run, null), columns_null = by_columns(c, run, null);
            check_refused(KIND_NAMES[kind], &expected, CARD_LENGTHS, run);
            check_same(KIND_NAMES[kind], &lists_null, &expected);
            check_same(KIND_NAMES[kind], &columns_null, &expected);
            check(KIND_NAMES[kind], same_lists(&held, &before), "a column was written");
        }
    }
}

static void try_null_constants(void) {
    card_started valid = (card_start)(CONSTANTS, 0, 6000, 0, 1330, 6);
    card_started null = card_start(NULL, 0, 6000, 0, 1330, 6);
    card_started all_wrong = card_start(NULL, 0, -1, -1, -1, -1);
    card_run zeros = {0};
    check_number("start, constants NULL", valid.number, CARD_NOT_SIXTY);
    check_number("start, constants NULL", null.number, CARD_NOT_SIXTY);
    check_number("start, all wrong", all_wrong.number, CARD_NOT_SIXTY);
    check("start, constants NULL", same_run(&null.run, &zeros), "not a run of zeros");
    check("start, constants NULL", same_run(&null.run, &valid.run), "another run");
}

/* A season's lists: both NULL beside 0 are a season of no months, one beside three months is refused. */
static void try_null_season(void) {
    lists held = fresh_lists();
    const lists before = held;
    card_run run = station();
    for (unsigned set = 1; set < 4; set++) {
        call c = good_call(SEASON);
        if (set & 1) c.list_p_length = 0;
        if (set & 2) c.list_pe_length = 0;
        answer expected = by_library(c, run, lent(&held, MONTHS));
        if (set & 1) c.list_p = NULL;
        if (set & 2) c.list_pe = NULL;
        answer lists_null = by_lists(c, run, lent(&held, MONTHS));
        answer columns_null = by_columns(c, run, lent(&held, MONTHS));
        answer all_null = by_columns(c, run, emptied(lent(&held, MONTHS), 127, 1));
        check_refused("season, lists NULL", &expected, set == 3 ? CARD_DONE : CARD_LENGTHS, run);
        check_same("season, lists NULL", &lists_null, &expected);
        check_same("season, lists NULL", &columns_null, &expected);
        check_refused("season, all NULL", &all_null, CARD_LENGTHS, run);
        check("season, lists NULL", same_lists(&held, &before), "a column was written");
    }
}

/* The weights: NULL beside 0 is no twelve, after 1 and 7. */
static void try_null_weights(void) {
    lists held = fresh_lists();
    const lists before = held;
    card_run run = station(), none = run;
    call c = good_call(WORK_OUT);
    none.calendar = 0;
    c.weights_length = 0;
    answer expected = by_library(c, run, lent(&held, MONTHS));
    c.weights = NULL;
    answer lists_null = by_lists(c, run, lent(&held, MONTHS));
    answer columns_null = by_columns(c, run, lent(&held, MONTHS));
    answer no_run = by_columns(c, none, lent(&held, MONTHS));
    answer all_null = by_columns(c, run, emptied(lent(&held, MONTHS), 127, 1));
    check_refused("work out, weights NULL", &expected, CARD_NOT_SIXTY, run);
    check_same("work out, weights NULL", &lists_null, &expected);
    check_same("work out, weights NULL", &columns_null, &expected);
    check_refused("work out, weights NULL", &no_run, CARD_NOT_A_RUN, none);
    check_refused("work out, all NULL", &all_null, CARD_LENGTHS, run);
    check("work out, weights NULL", same_lists(&held, &before), "a column was written");
}

static void try_null_series(void) {
    int32_t z[3] = {-3000, 1040, 0}, indexes[3] = {71, 72, 73};
    uint8_t marks[3] = {81, 82, 83};
    for (unsigned set = 1; set < 8; set++) {
        size_t nz = set & 1 ? 0 : 3, ni = set & 2 ? 0 : 3, nm = set & 4 ? 0 : 3;
        check_number("whole series", (card_whole_series)(z, nz, indexes, ni, marks, nm), CARD_LENGTHS);
        check_number("whole series, NULL",
                     card_whole_series(nz ? z : NULL, nz, ni ? indexes : NULL, ni, nm ? marks : NULL, nm),
                     CARD_LENGTHS);
        check("whole series, NULL", indexes[0] == 71 && indexes[1] == 72 && indexes[2] == 73 &&
              marks[0] == 81 && marks[1] == 82 && marks[2] == 83, "a list was written");
    }
    check_number("whole series", card_whole_series(z, 3, indexes, 3, marks, 3), CARD_DONE);
    check("whole series", indexes[0] == -1000 && indexes[1] == 347 && indexes[2] == 311 &&
          marks[0] == CARD_SETTLED && marks[1] == CARD_SETTLED && marks[2] == CARD_SETTLED,
          "not the index of document 01");
}

static void try_zeros(void) {
    card_columns zeros = {0};
    card_run run = station();
    for (int kind = 0; kind < KINDS; kind++) {
        call c = good_call(kind);
        answer a = by_columns(c, run, zeros);
        check_refused("columns of zeros", &a, CARD_LENGTHS, run);
    }
}

/* The last call handed on each list of these columns with its own length. */
static void check_handed(const char *where, card_columns k) {
    const void *at[7] = {k.x1, k.x2, k.x3, k.index, k.mark, k.records, k.v};
    size_t lengths[7] = {k.x1_length, k.x2_length, k.x3_length, k.index_length, k.mark_length, k.records_length,
                         k.v_length};
    for (int i = 0; i < 7; i++)
        check(where, handed[i] == at[i] && handed_lengths[i] == lengths[i], "a list or a length is handed on wrongly");
}

/* Each length of card_columns by itself, one below and one above the others. */
static void try_unequal(void) {
    lists held = fresh_lists();
    const lists before = held;
    card_run run = station();
    for (int i = 0; i < KINDS * 14; i++) {
        call c = good_call(i / 14);
        card_columns k = lent(&held, MONTHS - 1);
        size_t other = i % 2 ? MONTHS : MONTHS - 2;
        switch (i / 2 % 7) {
        case 0: k.x1_length = other; break;
        case 1: k.x2_length = other; break;
        case 2: k.x3_length = other; break;
        case 3: k.index_length = other; break;
        case 4: k.mark_length = other; break;
        case 5: k.records_length = other; break;
        default: k.v_length = other;
        }
        answer a = by_library(c, run, k), b = by_lists(c, run, k);
        check_handed("unequal lengths", k);
        answer d = by_columns(c, run, k);
        check_handed("unequal lengths", k);
        check_refused("unequal lengths", &a, CARD_LENGTHS, run);
        check_same("unequal lengths", &b, &a);
        check_same("unequal lengths", &d, &a);
        check("unequal lengths", same_lists(&held, &before), "a column was written");
    }
}

/* ---- A run, three ways ---------------------------------------------------------------------------- */

/* The same months in three sets of columns, one for each way of calling. */
typedef struct three {
    card_run run;
    lists library, apart, together;
} three;

/* Makes the call in all three ways, with columns so long; all must come to the same. The run moves on. */
static answer in_three_ways(three *t, call c, size_t length) {
    answer a = by_library(c, t->run, lent(&t->library, length));
    answer b = by_lists(c, t->run, lent(&t->apart, length));
    answer d = by_columns(c, t->run, lent(&t->together, length));
    check_same(KIND_NAMES[c.kind], &b, &a);
    check_same(KIND_NAMES[c.kind], &d, &a);
    check(KIND_NAMES[c.kind], same_lists(&t->library, &t->apart), "other columns, each list by itself");
    check(KIND_NAMES[c.kind], same_lists(&t->library, &t->together), "other columns, as one");
    t->run = a.run;
    return a;
}

static void refused(three *t, call c, size_t length, uint8_t number) {
    card_run run = t->run;
    lists before = t->library;
    answer a = in_three_ways(t, c, length);
    check_refused(KIND_NAMES[c.kind], &a, number, run);
    check(KIND_NAMES[c.kind], same_lists(&t->library, &before), "a refused call has written");
}

/* The refusals that a run of any months gives. */
static void try_refusals(three *t) {
    call water = good_call(WATER), inches = good_call(INCHES), z = good_call(Z), row = good_call(ROW);
    card_reading p = water.p;
    water.p = card_missing();
    refused(t, water, MONTHS, CARD_MISSING_READING);
    water.p = card_inches(-0.5f);
    refused(t, water, MONTHS, CARD_BAD_READING);
    water.p = p;
    water.pe = card_missing();
    refused(t, water, MONTHS, CARD_MISSING_READING);
    water.pe = card_millimetres(2541.0f);
    refused(t, water, MONTHS, CARD_BAD_READING);
    inches.inches.pe = 100.5f;
    refused(t, inches, MONTHS, CARD_BAD_READING);
    z.z = 4000001;
    refused(t, z, MONTHS, CARD_BAD_Z);
    row.row = t->run.months;
    refused(t, row, MONTHS, CARD_NO_ROW);
    row.row = SIZE_MAX;
    refused(t, row, MONTHS, CARD_NO_ROW);
    call again = good_call(REPAIR);
    for (again.row = 0; again.row < t->run.months; again.row++) {
        again.p = card_missing();
        int had_none = t->library.records[again.row].water != CARD_HAD_WATER;
        refused(t, again, MONTHS, had_none ? CARD_WATERLESS : CARD_MISSING_READING);
        again.p = p;
        again.pe = card_whole(100001);
        refused(t, again, MONTHS, had_none ? CARD_WATERLESS : CARD_BAD_READING);
    }
    refused(t, again, MONTHS, CARD_NO_ROW);
    again.row = SIZE_MAX;
    refused(t, again, MONTHS, CARD_NO_ROW);
    call sum = good_call(SUM), out = good_call(WORK_OUT);
    refused(t, sum, MONTHS, CARD_FEW_YEARS);
    refused(t, out, MONTHS, CARD_FEW_YEARS);
    sum.month = 13;
    refused(t, sum, MONTHS, CARD_START_MONTH);
    out.weights_length = 11;
    refused(t, out, MONTHS, CARD_NOT_SIXTY);
    for (int kind = INDEX_LINE; kind <= MODIFIED_LINE; kind++) {
        call line = good_call(kind);
        line.line_length = CARD_LINE - 1;
        refused(t, line, MONTHS, CARD_SHORT_LINE);
        line.year = 10000;
        refused(t, line, MONTHS, CARD_UNFIT);
    }
}

/* A season that stops at its second month. */
static void try_stopped_season(three *t) {
    int32_t pe[3] = {2500, CARD_NO_READING, 900};
    uint32_t months = t->run.months;
    call c = good_call(SEASON);
    c.list_pe = pe;
    answer a = in_three_ways(t, c, MONTHS);
    check_number("a season with a missing month", a.number, CARD_MISSING_READING);
    check("a season with a missing month", a.added == 1 && a.run.months == months + 1, "not one month added");
}

/* With columns that end where the months do, and with a run that is none. */
static void try_full(three *t) {
    for (int kind = WATER; kind <= SEASON; kind++) refused(t, good_call(kind), t->run.months, CARD_FULL);
    card_run run = t->run;
    t->run.calendar = 13;
    for (int kind = 0; kind < KINDS; kind++) refused(t, good_call(kind), MONTHS, CARD_NOT_A_RUN);
    t->run = run;
}

static void try_a_run(void) {
    static three t;
    t.run = station();
    t.library = t.apart = t.together = fresh_lists();
    while (t.run.months < 40) {
        uint32_t months = t.run.months;
        int kind = drawn(WATER, SEASON);
        try_refusals(&t);
        answer a = in_three_ways(&t, good_call(kind), MONTHS);
        check_number(KIND_NAMES[kind], a.number, CARD_DONE);
        check(KIND_NAMES[kind], t.run.months == months + (kind == SEASON ? 3 : 1), "the months do not add up");
        if (months % 7 == 3) try_stopped_season(&t);
        try_full(&t);
        call again = good_call(REPAIR);
        again.row = (size_t)drawn(0, (int32_t)t.run.months - 1);
        int water = t.library.records[again.row].water == CARD_HAD_WATER;
        a = in_three_ways(&t, again, drawn(0, 1) ? MONTHS : t.run.months);
        check_number("repair", a.number, water ? CARD_DONE : CARD_WATERLESS);
        call line = good_call(drawn(INDEX_LINE, MODIFIED_LINE));
        line.which = t.run.months / 12;
        a = in_three_ways(&t, line, drawn(0, 1) ? MONTHS : t.run.months);
        check_number("a line", a.number, CARD_DONE);
    }
    for (size_t row = 0; row < t.run.months; row++) {
        call c = good_call(ROW);
        c.row = row;
        answer a = in_three_ways(&t, c, MONTHS);
        check_number("row", a.number, CARD_DONE);
        card_shown held = {0, t.library.x1[row], t.library.x2[row], t.library.x3[row], t.library.index[row],
                           t.library.mark[row], t.library.records[row], t.library.v[row]};
        check("row", same_shown(&a.shown, &held), "not what the columns hold");
    }
}

/* ---- Records -------------------------------------------------------------------------------------- */

/* The record of a month that was added to this run. */
static card_record record_of(const answer *a, card_run before, int water) {
    const card_water *w = &a->figures.water;
    card_record made = {
        a->figures.z, (int32_t)w->p, (int32_t)w->pe, (int32_t)w->et, (int32_t)w->r, (int32_t)(w->ls + w->lu),
        (int32_t)w->ro, (int32_t)before.soil.surface, (int32_t)before.soil.underlying,
        (int32_t)a->run.soil.surface, (int32_t)a->run.soil.underlying, water, a->figures.modified, w->kinds.p};
    return made;
}

/* Both lists as they were, but for the place of a month, which holds this. */
static void check_put(const lists *after, const lists *before, uint32_t place, card_record r, int64_t v) {
    lists expected = *before;
    expected.records[place] = r;
    expected.v[place] = v;
    check("a record", memcmp(after->records, expected.records, sizeof expected.records) == 0, "not as it should be");
    check("a record", memcmp(after->v, expected.v, sizeof expected.v) == 0, "V is not as it should be");
}

/* What the header says of every record of a run: the balance, or no water; and that the storages follow on. */
static void check_balance(const card_record *r, const card_record *before) {
    int32_t gain = r->surface + r->underlying - r->ss - r->su;
    check("a balance", r->p == r->et + r->ro + gain && gain == r->r - r->l, "it does not come out");
    check("a balance", r->p >= 0 && r->pe >= 0 && r->et >= 0 && r->r >= 0 && r->l >= 0 && r->ro >= 0 &&
          r->surface >= 0 && r->underlying >= 0, "a number below 0");
    check("a balance", r->p > 0 ? r->kind == CARD_MEASURED : r->kind == CARD_NONE || r->kind == CARD_TRACE,
          "the kind of another precipitation");
    if (r->water == 0)
        check("a balance", gain == 0 && r->p == 0 && r->pe == 0 && r->et == 0 && r->r == 0 && r->ro == 0 &&
              r->kind == CARD_NONE, "an added Z has water");
    if (before == NULL)
        check("a balance", r->ss == 0 && r->su == 1330, "not the storages of the start");
    else
        check("a balance", r->ss == before->surface && r->su == before->underlying,
              "a month does not start where the one before it ended");
}

/* Runs of all kinds of months. A season's are added one by one too, and write the same. */
static void try_records(void) {
    for (int n = 0; n < 300; n++) {
        lists held = fresh_lists(), singly = held;
        card_run run = station();
        while (run.months < MONTHS) {
            call c = good_call(MONTHS - run.months < 3 ? Z : drawn(WATER, SEASON));
            lists before = held;
            answer a = by_columns(c, run, lent(&held, MONTHS));
            check_number("a record", a.number, CARD_DONE);
            if (c.kind != SEASON) {
                check_put(&held, &before, run.months, record_of(&a, run, c.kind != Z), a.run.values.v);
                by_columns(c, run, lent(&singly, MONTHS));
            }
            for (size_t i = 0; c.kind == SEASON && i < 3; i++) {
                lists was = singly;
                call one = good_call(WATER);
                one.p = card_whole(c.list_p[i]);
                one.pe = card_whole(c.list_pe[i]);
                answer b = by_columns(one, run, lent(&singly, MONTHS));
                check_put(&singly, &was, run.months, record_of(&b, run, 1), b.run.values.v);
                run = b.run;
            }
            check("a record", same_lists(&held, &singly), "a season writes others");
            run = a.run;
        }
        for (int i = 0; i < MONTHS; i++) check_balance(&held.records[i], i ? &held.records[i - 1] : NULL);
    }
}

/* A run of so many months in fresh columns. */
static card_run run_of(lists *held, uint32_t months) {
    card_run run = station();
    *held = fresh_lists();
    while (run.months < months) {
        answer a = by_columns(good_call(drawn(WATER, Z)), run, lent(held, MONTHS));
        check_number("a run", a.number, CARD_DONE);
        run = a.run;
    }
    return run;
}

/* Every call on a run, with a month, a Z and a row that would be refused too: all answer 7 and write nothing. */
static void check_not_a_run(const char *where, card_run run, lists *held) {
    const lists before = *held;
    for (int kind = 0; kind < 2 * KINDS; kind++) {
        call c = good_call(kind % KINDS);
        if (kind >= KINDS) {
            c.p = card_missing();
            c.inches.p = -1.0f;
            c.z = 4000001;
            c.list_p_length = c.list_pe_length = 0;
            c.row = SIZE_MAX;
            c.month = 0;
            c.weights_length = 0;
            c.state = 100;
            c.line_length = 0;
        }
        answer a = by_columns(c, run, lent(held, MONTHS)), b = by_library(c, run, lent(held, MONTHS));
        check_refused(where, &a, CARD_NOT_A_RUN, run);
        check_same(where, &b, &a);
        if (run.months > 0) a = by_columns(c, run, lent(held, run.months));
        check_refused(where, &a, CARD_NOT_A_RUN, run);
        card_columns unequal = lent(held, MONTHS);
        unequal.v_length--;
        a = by_columns(c, run, unequal);
        check_refused(where, &a, CARD_LENGTHS, run);
        check(where, same_lists(held, &before), "a refused call has written");
    }
}

/* The last record's storages at its end: any but the run's are refused. */
static void try_last_record(void) {
    lists held;
    for (uint32_t months = 1; months < MONTHS; months++) {
        card_run run = run_of(&held, months);
        card_record *last = &held.records[months - 1];
        int32_t *storages[2] = {&last->surface, &last->underlying};
        for (int i = 0; i < 2; i++) {
            int32_t right = *storages[i];
            int32_t wrong[] = {right + 1, right - 1, -1 - right, ~right, right ^ INT32_MIN, right + 65536, right + 256,
                               INT32_MAX, INT32_MIN};
            for (size_t j = 0; j < sizeof wrong / sizeof *wrong; j++) {
                *storages[i] = wrong[j];
                check_not_a_run("the last record's storages", run, &held);
            }
            *storages[i] = right;
        }
        if (last->surface != last->underlying) {
            int32_t surface = last->surface;
            last->surface = last->underlying;
            last->underlying = surface;
            check_not_a_run("the last record's storages exchanged", run, &held);
        }
    }
}

/* Anything else in the two lists is not looked at, and but by a row not shown; what is not the month's is left. */
static void try_others(void) {
    lists right, held;
    for (uint32_t months = 0; months + 3 < MONTHS; months++) {
        card_run run = run_of(&right, months);
        lists odd = right;
        memset(odd.records, 0x4d, sizeof odd.records);
        memset(odd.v, 0x4d, sizeof odd.v);
        if (months > 0) odd.records[months - 1].surface = (int32_t)run.soil.surface;
        if (months > 0) odd.records[months - 1].underlying = (int32_t)run.soil.underlying;
        for (int kind = WATER; kind <= SEASON; kind++) {
            call c = good_call(kind);
            lists expected = right;
            held = odd;
            answer a = by_columns(c, run, lent(&expected, MONTHS)), b = by_columns(c, run, lent(&held, MONTHS));
            check_number("odd records", b.number, CARD_DONE);
            check_same("odd records", &b, &a);
            size_t added = kind == SEASON ? 3 : 1;
            memcpy(odd.x1, expected.x1, offsetof(lists, records));
            memcpy(odd.records + months, expected.records + months, added * sizeof *odd.records);
            memcpy(odd.v + months, expected.v + months, added * sizeof *odd.v);
            check("odd records", same_lists(&held, &odd), "other columns");
            memcpy(odd.x1, right.x1, offsetof(lists, records));
            memset(odd.records + months, 0x4d, added * sizeof *odd.records);
            memset(odd.v + months, 0x4d, added * sizeof *odd.v);
        }
        for (size_t row = 0; row < months; row++) {
            card_shown shown = card_row_in(lent(&odd, MONTHS), run, row);
            check_number("odd records", shown.number, CARD_DONE);
            check("odd records", same_record(&shown.month, &odd.records[row]) && shown.v == odd.v[row],
                  "a row does not show them");
        }
    }
}

/* ---- Columns of before there were records --------------------------------------------------------- */

/* A run of five columns goes on beside two lists of zeros, with the last month's storages put in. */
static void try_five_columns(void) {
    for (uint32_t months = 0; months + 3 < MONTHS; months++) {
        lists straight, held;
        card_run run = run_of(&straight, months);
        held = straight;
        memset(held.records, 0, sizeof held.records);
        memset(held.v, 0, sizeof held.v);
        if (months > 0) {
            if (run.soil.surface + run.soil.underlying > 0) check_not_a_run("no records", run, &held);
            held.records[months - 1].surface = (int32_t)run.soil.surface;
            held.records[months - 1].underlying = (int32_t)run.soil.underlying;
        }
        for (size_t row = 0; row < months; row++) {
            card_shown shown = card_row_in(lent(&held, MONTHS), run, row);
            check_number("no records", shown.number, CARD_DONE);
            check("no records", shown.index == straight.index[row] && shown.month.z == 0 &&
                  shown.month.water == 0 && shown.month.modified == 0 && shown.month.kind == 0 && shown.v == 0,
                  "a row shows what nobody knows");
        }
        while (run.months + 3 < MONTHS) {
            call c = good_call(drawn(WATER, SEASON));
            answer a = by_columns(c, run, lent(&straight, MONTHS)), b = by_columns(c, run, lent(&held, MONTHS));
            check_number("no records", b.number, CARD_DONE);
            check_same("no records", &b, &a);
            run = a.run;
        }
        check("no records", memcmp(held.x1, straight.x1, offsetof(lists, records)) == 0, "the five columns differ");
        for (size_t i = months; i < run.months; i++)
            check("no records", same_record(&held.records[i], &straight.records[i]) && held.v[i] == straight.v[i],
                  "the months that followed differ");
    }
}

/* ---- Records of before there was a modified index, or a kind -------------------------------------- */

/* A record of before the modified index, and one of before the kind of the precipitation. */
typedef struct record_48 {
    int32_t numbers[12];
} record_48;
typedef struct record_52 {
    int32_t numbers[13];
} record_52;

/* Of such a size, copied into longer ones, with 0 or anything for what they have not, they show what they held, and
 * the run goes on as if they had been long from the first month on. */
static void try_short_records(size_t size) {
    for (uint32_t months = 0; months + 3 < MONTHS; months++) {
        lists straight, held;
        char saved[MONTHS][sizeof(card_record)];
        card_run run = run_of(&straight, months);
        for (int i = 0; i < MONTHS; i++) memcpy(saved[i], &straight.records[i], size);
        held = straight;
        memset(held.records, 0x4d, sizeof held.records);
        for (uint32_t i = 0; i < months; i++) {
            if (size == sizeof(record_48)) held.records[i].modified = months % 2 ? 0 : drawn(-9000, 9000);
            held.records[i].kind = months % 2 ? CARD_NONE : drawn(-9000, 9000);
            memcpy(&held.records[i], saved[i], size);
        }
        for (size_t row = 0; row < months; row++) {
            card_shown shown = card_row_in(lent(&held, MONTHS), run, row);
            card_record expected = straight.records[row];
            if (size == sizeof(record_48)) expected.modified = held.records[row].modified;
            expected.kind = held.records[row].kind;
            check_number("short records", shown.number, CARD_DONE);
            check("short records", same_record(&shown.month, &expected), "a row does not show what was copied");
        }
        while (run.months + 3 < MONTHS) {
            call c = good_call(drawn(WATER, SEASON));
            answer a = by_columns(c, run, lent(&straight, MONTHS)), b = by_columns(c, run, lent(&held, MONTHS));
            check_number("short records", b.number, CARD_DONE);
            check_same("short records", &b, &a);
            run = a.run;
        }
        for (size_t i = months; i < run.months; i++)
            check("short records", same_record(&held.records[i], &straight.records[i]), "a later month differs");
    }
}

static void try_records_of_before(void) {
    check("short records", sizeof(record_48) == 48 && sizeof(record_52) == 52, "not 48 and 52 bytes");
    try_short_records(sizeof(record_48));
    try_short_records(sizeof(record_52));
}

/* ---- Kinds ---------------------------------------------------------------------------------------- */

static float of_bits(uint32_t bits) {
    float made;
    memcpy(&made, &bits, sizeof made);
    return made;
}

/* The patterns of the largest trace of each unit, as the header has them: the next one up is measured. */
enum { MOST_TRACE_INCHES = 0x3a03126e, MOST_TRACE_MILLIMETRES = 0x3c5013a9 };

static void check_read(const char *where, card_reading reading, uint8_t number, uint8_t kind, uint32_t water) {
    card_answer a = card_read(reading);
    check_number(where, a.number, number);
    check(where, a.kind == kind, "another kind");
    check(where, a.water == water, "other water");
}

/* What the header says of a binary32 number that is in range: by exact arithmetic, since a float has 24 binary
 * digits and a double 53. */
static void check_float(float x) {
    double inches = 1000.0 * (double)x, millimetres = 5000.0 * (double)x;
    card_answer a = card_read(card_inches(x)), b = card_read(card_millimetres(x));
    uint8_t kind_a = x > 0 ? inches < 0.5 ? CARD_TRACE : CARD_MEASURED : CARD_NONE;
    uint8_t kind_b = x > 0 ? millimetres < 63.5 ? CARD_TRACE : CARD_MEASURED : CARD_NONE;
    check("a kind", a.number == CARD_DONE && b.number == CARD_DONE, "a good reading is refused");
    check("a kind, inches", a.kind == kind_a && (a.water > 0) == (kind_a == CARD_MEASURED), "another");
    check("a kind, millimetres", b.kind == kind_b && (b.water > 0) == (kind_b == CARD_MEASURED), "another");
}

/* card_read: both ends of what is a trace in each unit, zero of both signs, whole numbers, every refusal. */
static void try_kinds(void) {
    check("kinds", CARD_NONE == 0 && CARD_TRACE == 1 && CARD_MEASURED == 2, "other numbers");
    check("kinds", of_bits(MOST_TRACE_INCHES) == 0.00049999997f, "another largest trace, inches");
    check("kinds", of_bits(MOST_TRACE_MILLIMETRES) == 0.0126999998f, "another largest trace, millimetres");
    check("kinds", of_bits(MOST_TRACE_INCHES + 1) == 0.0005f, "0.0005f is not the next one");
    check("kinds", of_bits(MOST_TRACE_MILLIMETRES) == 0.0127f && (double)0.0127f < 0.0127, "0.0127f is not less");
    check_read("the smallest trace, inches", card_inches(of_bits(1)), CARD_DONE, CARD_TRACE, 0);
    check_read("the smallest trace, millimetres", card_millimetres(of_bits(1)), CARD_DONE, CARD_TRACE, 0);
    check_read("the largest trace, inches", card_inches(0.00049999997f), CARD_DONE, CARD_TRACE, 0);
    check_read("the largest trace, millimetres", card_millimetres(0.0126999998f), CARD_DONE, CARD_TRACE, 0);
    check_read("0.0001 inch", card_inches(0.0001f), CARD_DONE, CARD_TRACE, 0);
    check_read("0.0127 mm", card_millimetres(0.0127f), CARD_DONE, CARD_TRACE, 0);
    check_read("0.0005 inch", card_inches(0.0005f), CARD_DONE, CARD_MEASURED, 1);
    check_read("measured, millimetres", card_millimetres(of_bits(MOST_TRACE_MILLIMETRES + 1)), CARD_DONE,
               CARD_MEASURED, 1);
    check_read("0.0625 inch", card_inches(0.0625f), CARD_DONE, CARD_MEASURED, 63);
    check_read("2540 mm", card_millimetres(2540.0f), CARD_DONE, CARD_MEASURED, 100000);
    check_read("zero inches", card_inches(0.0f), CARD_DONE, CARD_NONE, 0);
    check_read("zero millimetres", card_millimetres(0.0f), CARD_DONE, CARD_NONE, 0);
    check_read("negative zero, inches", card_inches(of_bits(0x80000000)), CARD_DONE, CARD_NONE, 0);
    check_read("negative zero, millimetres", card_millimetres(of_bits(0x80000000)), CARD_DONE, CARD_NONE, 0);
    check_read("a whole 0", card_whole(0), CARD_DONE, CARD_NONE, 0);
    check_read("a whole 1", card_whole(1), CARD_DONE, CARD_MEASURED, 1);
    check_read("a whole 100,000", card_whole(100000), CARD_DONE, CARD_MEASURED, 100000);
    check_read("missing", card_missing(), CARD_MISSING_READING, CARD_NONE, 0);
    card_reading other = {4, 0, 0.0001f};
    check_read("another kind of reading", other, CARD_BAD_READING, CARD_NONE, 0);
    static const int32_t no_wholes[] = {-1, 100001, INT32_MIN, INT32_MAX};
    for (size_t i = 0; i < 4; i++)
        check_read("a bad whole", card_whole(no_wholes[i]), CARD_BAD_READING, CARD_NONE, 0);
    /* below zero by the least, infinities, and a NaN of each sign; above the range */
    static const uint32_t no_floats[] = {0x80000001, 0x7f800000, 0xff800000, 0x7fc00000, 0xffc00000, 0x451ec001};
    for (size_t i = 0; i < 6; i++) {
        check_read("bad inches", card_inches(of_bits(no_floats[i])), CARD_BAD_READING, CARD_NONE, 0);
        check_read("bad millimetres", card_millimetres(of_bits(no_floats[i])), CARD_BAD_READING, CARD_NONE, 0);
    }
    /* from 0 to 100, at steps; and every number near the largest traces */
    for (uint32_t bits = 0; bits <= 0x42c80000; bits += 40009) check_float(of_bits(bits));
    for (uint32_t i = 0; i < 2000; i++) {
        check_float(of_bits(MOST_TRACE_INCHES - 1000 + i));
        check_float(of_bits(MOST_TRACE_MILLIMETRES - 1000 + i));
        check_float(of_bits(i));
    }
}

/* Readings of each kind, and what their kinds are. */
enum { READINGS = 9 };

static card_reading reading_of(size_t i) {
    const card_reading all[READINGS] = {
        card_whole(0), card_inches(0.0f), card_millimetres(of_bits(0x80000000)),
        card_inches(of_bits(1)), card_inches(0.00049999997f), card_millimetres(0.0127f),
        card_whole(1), card_inches(5.56f), card_millimetres(100.0f)};
    return all[i];
}

static uint8_t kind_of(size_t i) { return (uint8_t)(i / 3); }

/* The same, with 0 for a trace. */
static card_reading dry_of(size_t i) { return kind_of(i) == CARD_TRACE ? card_whole(0) : reading_of(i); }

/* An add's figures have the kinds of both readings, the record and the row that of the precipitation. In all else, and
 * in the months after it, a trace comes to what 0 comes to. */
static void try_kinds_of_month(size_t p, size_t pe) {
    lists held = fresh_lists(), dry = held;
    card_columns k = lent(&held, MONTHS);
    answer a = of_added(card_add_water_in(k, station(), reading_of(p), reading_of(pe)));
    answer b = of_added(card_add_water_in(lent(&dry, MONTHS), station(), dry_of(p), dry_of(pe)));
    card_month_kinds kinds = a.figures.water.kinds;
    check_number("kinds of a month", a.number, CARD_DONE);
    check("kinds of a month", kinds.p == kind_of(p) && kinds.pe == kind_of(pe), "others");
    check("kinds of a month", held.records[0].kind == kind_of(p), "another in the record");
    check("kinds of a month", card_row_in(k, a.run, 0).month.kind == kind_of(p), "another in the row");
    a.figures.water.kinds = b.figures.water.kinds;
    check_same("a trace", &a, &b);
    for (int i = 0; i < 5; i++) {
        call c = good_call(drawn(WATER, SEASON));
        a = by_columns(c, a.run, k);
        b = by_columns(c, b.run, lent(&dry, MONTHS));
        check_same("months after a trace", &a, &b);
    }
    check("kinds of a month", held.records[0].kind == kind_of(p), "it does not stay");
    dry.records[0].kind = kind_of(p);
    check("a trace", same_lists(&held, &dry), "other columns than of 0");
}

static void try_kinds_of_months(void) {
    for (size_t p = 0; p < READINGS; p++)
        for (size_t pe = 0; pe < READINGS; pe++) try_kinds_of_month(p, pe);
}

/* The same of two floats that arrive together. */
static void try_kinds_of_inches(void) {
    static const uint32_t bits[] = {0, 0x80000000, 1, MOST_TRACE_INCHES, MOST_TRACE_INCHES + 1, 0x42c80000};
    static const uint8_t kinds[] = {CARD_NONE,  CARD_NONE,     CARD_TRACE,
                                    CARD_TRACE, CARD_MEASURED, CARD_MEASURED};
    for (size_t i = 0; i < 6; i++)
        for (size_t j = 0; j < 6; j++) {
            lists held = fresh_lists(), apart = held;
            card_month_inches month = {of_bits(bits[i]), of_bits(bits[j])};
            answer a = of_added(card_add_inches_in(lent(&held, MONTHS), station(), month));
            answer b = of_added(card_add_water_in(lent(&apart, MONTHS), station(), card_inches(month.p),
                                                  card_inches(month.pe)));
            check_same("kinds of inches", &a, &b);
            check("kinds of inches", same_lists(&held, &apart), "other columns");
            check("kinds of inches", a.figures.water.kinds.p == kinds[i] && a.figures.water.kinds.pe == kinds[j] &&
                  held.records[0].kind == kinds[i], "others");
        }
}

/* A season of so many months, after which one is refused with this number, or none with 0. Its months are none or
 * measured, and its figures have the kinds of the last one added. */
static void try_kinds_of_season(card_run run, lists *held, size_t months, uint8_t number) {
    static const int32_t p[4] = {0, 1, 0, 700}, pe[4] = {1, 0, 0, 900};
    int32_t list[5] = {0}, list_pe[5] = {0};
    memcpy(list, p, sizeof p);
    memcpy(list_pe, pe, sizeof pe);
    list[months] = number == CARD_BAD_READING ? 100001 : CARD_NO_READING;
    size_t length = number == CARD_DONE ? months : months + 1;
    card_season s = card_add_season_in(lent(held, MONTHS), run, list, length, list_pe, length);
    check_number("kinds of a season", s.number, number);
    check("kinds of a season", s.added == months, "not the months before the refused one");
    int rain = months > 0 && p[months - 1] > 0, asked = months > 0 && pe[months - 1] > 0;
    card_month_kinds kinds = s.figures.water.kinds;
    check("kinds of a season", kinds.p == (rain ? CARD_MEASURED : CARD_NONE) &&
          kinds.pe == (asked ? CARD_MEASURED : CARD_NONE), "not those of the last month added");
    for (size_t i = 0; i < months; i++)
        check("kinds of a season", held->records[run.months + i].kind == (p[i] > 0 ? CARD_MEASURED : CARD_NONE),
              "another in a record");
}

/* After a month that was a trace: seasons, an added Z, and refused adds, whose kinds are 0 whatever was read. */
static void try_kinds_after_a_trace(void) {
    lists held = fresh_lists();
    card_columns k = lent(&held, MONTHS);
    card_run run = card_add_water_in(k, station(), card_inches(0.0001f), card_inches(0.0001f)).run;
    for (size_t months = 0; months <= 4; months++) {
        try_kinds_of_season(run, &held, months, CARD_DONE);
        try_kinds_of_season(run, &held, months, CARD_MISSING_READING);
        try_kinds_of_season(run, &held, months, CARD_BAD_READING);
    }
    int32_t list[1] = {(int32_t)card_read(card_inches(0.0001f)).water}, list_pe[1] = {0};
    card_season s = card_add_season_in(k, run, list, 1, list_pe, 1);
    check("a trace in a season", s.number == CARD_DONE && s.figures.water.kinds.p == CARD_NONE &&
          held.records[1].kind == CARD_NONE, "it is not none");
    card_added z = card_add_z_in(k, run, -1234);
    check("kinds of a Z", z.number == CARD_DONE && z.figures.water.kinds.p == CARD_NONE &&
          z.figures.water.kinds.pe == CARD_NONE && held.records[1].kind == CARD_NONE &&
          card_row_in(k, z.run, 1).month.kind == CARD_NONE, "not none");
    check("a trace before", card_row_in(k, z.run, 0).month.kind == CARD_TRACE, "it is lost");
    answer a = of_added(card_add_water_in(k, run, card_inches(0.0001f), card_missing()));
    check_refused("a trace and a missing PE", &a, CARD_MISSING_READING, run);
    card_month_inches month = {0.0001f, 101.0f};
    a = of_added(card_add_inches_in(k, run, month));
    check_refused("a trace and a bad PE", &a, CARD_BAD_READING, run);
}

/* The kind in a record is what its add answered, and stays; whatever stands there is asked by no call. */
static void try_kinds_stay(void) {
    unsigned seen[3] = {0, 0, 0};
    for (int n = 0; n < 100; n++) {
        lists held = fresh_lists();
        card_run run = station();
        uint8_t told[MONTHS];
        while (run.months < MONTHS) {
            answer a = by_columns(good_call(drawn(WATER, Z)), run, lent(&held, MONTHS));
            told[run.months] = a.figures.water.kinds.p;
            run = a.run;
        }
        for (size_t row = 0; row < MONTHS; row++) {
            check("kinds of rows", card_row_in(lent(&held, MONTHS), run, row).month.kind == told[row], "another");
            seen[told[row]]++;
        }
    }
    check("kinds of rows", seen[CARD_NONE] > 0 && seen[CARD_TRACE] > 0 && seen[CARD_MEASURED] > 0, "not all three");
    for (uint32_t months = 1; months + 3 < MONTHS; months++) {
        lists right, odd;
        card_run run = run_of(&right, months);
        odd = right;
        for (uint32_t i = 0; i < months; i++) odd.records[i].kind = i % 2 ? INT32_MIN + drawn(0, 9) : drawn(3, 9000);
        for (int kind = WATER; kind <= ROW; kind++) {
            lists a_lists = right, b_lists = odd;
            call c = good_call(kind);
            c.row = months - 1;
            answer a = by_columns(c, run, lent(&a_lists, MONTHS)), b = by_columns(c, run, lent(&b_lists, MONTHS));
            check_number("an odd kind", b.number, CARD_DONE);
            if (kind == ROW) {
                check("an odd kind", b.shown.month.kind == odd.records[months - 1].kind, "a row does not show it");
                b.shown.month.kind = a.shown.month.kind;
            }
            check_same("an odd kind", &b, &a);
            for (uint32_t i = 0; i < months; i++)
                check("an odd kind", b_lists.records[i].kind == odd.records[i].kind, "an add writes it");
        }
    }
}

/* ---- The modified index --------------------------------------------------------------------------- */

/* Between two numbers, either of which may be the larger. */
static int is_between(int32_t x, int32_t a, int32_t b) { return a < b ? a <= x && x <= b : b <= x && x <= a; }

/* What the header says of a month's: while a spell abates it is between X3 and the other side, and elsewhere what index
 * was when the month was added. */
static void check_modified(const card_figures *f) {
    int abates = f->percent >= 1 && f->percent <= 99;
    if (abates)
        check("the modified index", is_between(f->modified, f->x3, f->x3 < 0 ? f->x1 : f->x2),
              "it is not between X3 and the other side");
    else
        check("the modified index", f->modified == f->index, "it is not the index that the month was added with");
}

/* Of months of all kinds it is so, the record and the row have it as the add answered, and it stays. */
static void try_modified(void) {
    unsigned abating = 0, changed = 0;
    for (int n = 0; n < 400; n++) {
        lists held = fresh_lists();
        card_run run = station();
        card_figures told[MONTHS];
        while (run.months < MONTHS) {
            answer a = by_columns(good_call(drawn(WATER, Z)), run, lent(&held, MONTHS));
            check_modified(&a.figures);
            abating += a.figures.percent >= 1 && a.figures.percent <= 99;
            told[run.months] = a.figures;
            run = a.run;
        }
        for (size_t row = 0; row < MONTHS; row++) {
            card_shown shown = card_row_in(lent(&held, MONTHS), run, row);
            check("the modified index", shown.month.modified == told[row].modified, "a later month changes it");
            changed += shown.index != told[row].index;
        }
    }
    check("the modified index", abating > 0 && changed > 0, "no spell abates, or no index changes");
}

/* A drought that abates for three months, worked out by hand, and the same as a wet spell. */
static void try_worked_modified(void) {
    static const int32_t z[3] = {3590, -1460, -1600}, modified[3] = {-1009, -1788, -2591};
    for (int32_t sign = -1; sign <= 1; sign += 2) {
        lists held = fresh_lists();
        card_run run = station();
        run.values.x3 = sign * -4070;
        for (size_t i = 0; i < 3; i++) {
            card_added a = card_add_z_in(lent(&held, MONTHS), run, sign * z[i]);
            check("the modified index", a.figures.modified == sign * modified[i], "not as worked out");
            check("the modified index", held.records[i].modified == sign * modified[i], "not so in the record");
            run = a.run;
        }
    }
}

/* ---- Runs and columns that do not belong together ------------------------------------------------- */

/* A run of before an add is taken with the columns of after it, and one of after it refused with those of before,
 * but where the storages are there by chance. */
static void try_not_together(void) {
    unsigned changed = 0;
    for (int n = 0; n < 2000; n++) {
        lists before, after;
        card_run earlier = run_of(&before, (uint32_t)drawn(0, 20));
        after = before;
        answer a = by_columns(good_call(drawn(WATER, Z)), earlier, lent(&after, MONTHS));
        check_not_a_run("a run of after, columns of before", a.run, &before);
        memset(&before.records[earlier.months], 0, sizeof *before.records);
        uint8_t number = card_row_in(lent(&before, MONTHS), a.run, 0).number;
        int empty = a.run.soil.surface + a.run.soil.underlying == 0;
        check_number("a run of after, zeros", number, empty ? CARD_DONE : CARD_NOT_A_RUN);

        lists again = after;
        card_added b = card_add_z_in(lent(&again, MONTHS), earlier, drawn(-6000, 6000));
        check_number("a run of before, columns of after", b.number, CARD_DONE);
        for (uint32_t i = 0; i < earlier.months; i++) {
            check("a run of before", same_record(&again.records[i], &after.records[i]) && again.v[i] == after.v[i],
                  "it changes a record");
            changed += after.mark[i] == CARD_SETTLED && again.index[i] != after.index[i];
        }
    }
    check("a run of before", changed > 0, "no settled month was changed");
    /* another's columns, and a full soil in both */
    lists ours, others;
    card_run run = run_of(&ours, 9), other = run_of(&others, 30);
    others.records[8].surface = (int32_t)run.soil.surface + 1;
    check_not_a_run("another's columns", run, &others);
    run = card_add_water_in(lent(&ours, MONTHS), run, card_whole(20000), card_whole(0)).run;
    while (other.months < 40)
        other = card_add_water_in(lent(&others, MONTHS), other, card_whole(20000), card_whole(0)).run;
    memcpy(&others.records[9], &others.records[39], sizeof *others.records);
    check_number("a full soil in both", card_row_in(lent(&others, MONTHS), run, 0).number, CARD_DONE);
    check_number("a run of no months", card_add_z_in(lent(&others, MONTHS), station(), 0).number, CARD_DONE);
}

/* ---- Long columns --------------------------------------------------------------------------------- */

/* As long as columns may be, and a place more. */
typedef struct long_lists {
    int32_t x1[CARD_MOST_MONTHS + 1], x2[CARD_MOST_MONTHS + 1], x3[CARD_MOST_MONTHS + 1];
    int32_t index[CARD_MOST_MONTHS + 1];
    uint8_t mark[CARD_MOST_MONTHS + 1];
    card_record records[CARD_MOST_MONTHS + 1];
    int64_t v[CARD_MOST_MONTHS + 1];
} long_lists;

static card_columns lent_long(long_lists *of, size_t length) {
    return card_columns_of(of->x1, of->x2, of->x3, of->index, of->mark, of->records, of->v, length);
}

/* Every call by the length of its lists: 2,400 and its sides are lengths as others are, and 1 begins above 12,000. */
static void try_lengths(void) {
    static const size_t lengths[] = {2399, 2400, 2401, 11999, 12000, 12001};
    static long_lists held;
    static int32_t z[CARD_MOST_MONTHS + 1];
    /* a run of no months has no row and no year to work with, and lines of marks */
    static const uint8_t good[KINDS] = {CARD_DONE,   CARD_DONE,      CARD_DONE,      CARD_DONE, CARD_NO_ROW,
                                        CARD_NO_ROW, CARD_FEW_YEARS, CARD_FEW_YEARS, CARD_DONE, CARD_DONE, CARD_DONE};
    card_run run = station();
    for (size_t i = 0; i < sizeof lengths / sizeof *lengths; i++) {
        size_t n = lengths[i];
        for (int kind = 0; kind < KINDS; kind++) {
            answer a = by_columns(good_call(kind), run, lent_long(&held, n));
            check_number(KIND_NAMES[kind], a.number, n > 12000 ? CARD_LENGTHS : good[kind]);
        }
        uint8_t number = card_whole_series(z, n, held.index, n, held.mark, n);
        check_number("whole series", number, n > 12000 ? CARD_LENGTHS : CARD_DONE);
    }
}

static void check_full(card_run run, card_columns k) {
    for (int kind = WATER; kind <= SEASON; kind++) {
        answer a = by_columns(good_call(kind), run, k);
        check_refused("full columns", &a, CARD_FULL, run);
    }
}

static void copy_months(long_lists *to, const long_lists *from, size_t months) {
    memcpy(to->x1, from->x1, months * sizeof *to->x1);
    memcpy(to->x2, from->x2, months * sizeof *to->x2);
    memcpy(to->x3, from->x3, months * sizeof *to->x3);
    memcpy(to->index, from->index, months * sizeof *to->index);
    memcpy(to->mark, from->mark, months * sizeof *to->mark);
    memcpy(to->records, from->records, months * sizeof *to->records);
    memcpy(to->v, from->v, months * sizeof *to->v);
}

/* Adds months in both sets of columns until the first is full; all answers must be the same. */
static card_run fill_beside(card_run run, card_columns k, card_columns straight) {
    while (run.months < k.x1_length) {
        call c = good_call(k.x1_length - run.months < 3 ? Z : drawn(WATER, SEASON));
        answer a = by_columns(c, run, k), b = by_columns(c, run, straight);
        check_number("longer columns", a.number, CARD_DONE);
        check_same("longer columns", &a, &b);
        run = a.run;
    }
    check_full(run, k);
    return run;
}

/* A run fills columns of 2,400, and goes on in the longest with its months copied there: it comes to what it comes to
 * there from its first month on. */
static void try_longer(void) {
    static long_lists shorter, longer, straight;
    card_columns all = lent_long(&straight, CARD_MOST_MONTHS);
    card_run run = fill_beside(station(), lent_long(&shorter, 2400), all);
    memset(&longer, 77, sizeof longer);
    copy_months(&longer, &shorter, run.months);
    run = fill_beside(run, lent_long(&longer, CARD_MOST_MONTHS), all);
    check_full(run, all);
    check("longer columns", longer.index[CARD_MOST_MONTHS] == 0x4d4d4d4d &&
          longer.records[CARD_MOST_MONTHS].z == 0x4d4d4d4d && longer.v[CARD_MOST_MONTHS] == 0x4d4d4d4d4d4d4d4d,
          "a place was written that was not lent");
    for (size_t row = 0; row < run.months; row++) {
        call c = good_call(ROW);
        c.row = row;
        answer a = by_columns(c, run, lent_long(&longer, CARD_MOST_MONTHS)), b = by_columns(c, run, all);
        check_number("longer columns", a.number, CARD_DONE);
        check_same("longer columns", &a, &b);
    }
}

/* ---- Function pointers ---------------------------------------------------------------------------- */

/* A name without parentheses after it is the library's own function. */
static card_started (*const start)(const int32_t *, size_t, int32_t, int32_t, int32_t, int32_t) = card_start;
static card_added (*const add_water)(card_run, card_reading, card_reading, WRITTEN) = &card_add_water;
static card_added (*const add_inches)(card_run, card_month_inches, WRITTEN) = card_add_inches;
static card_added (*const add_z)(card_run, int32_t, WRITTEN) = &card_add_z;
static card_season (*const add_season)(card_run, const int32_t *, size_t, const int32_t *, size_t, WRITTEN) =
    card_add_season;
static card_repaired (*const repair)(card_run, size_t, card_reading, card_reading, WRITTEN, card_change *, size_t) =
    card_repair;
static card_shown (*const row_of)(card_run, size_t, READ) = &card_row;
static card_summed (*const sum_month)(card_run, int32_t, READ) = card_sum_month;
static card_worked_out (*const work_out)(card_run, const int32_t *, size_t, READ) = &card_work_out;
static uint8_t (*const write_index_line)(card_run, uint32_t, uint32_t, uint32_t, uint32_t, READ, uint8_t *, size_t) =
    card_write_index_line;
static uint8_t (*const write_z_line)(card_run, uint32_t, uint32_t, uint32_t, uint32_t, READ, uint8_t *, size_t) =
    &card_write_z_line;
static uint8_t (*const write_modified_line)(card_run, uint32_t, uint32_t, uint32_t, uint32_t, READ, uint8_t *,
                                            size_t) = card_write_modified_line;
static card_line_figures (*const read_index_line)(const uint8_t *, size_t, uint32_t, uint32_t, uint32_t) =
    &card_read_index_line;
static card_line_figures (*const read_z_line)(const uint8_t *, size_t, uint32_t, uint32_t, uint32_t) = card_read_z_line;
static card_line_figures (*const read_modified_line)(const uint8_t *, size_t, uint32_t, uint32_t, uint32_t) =
    &card_read_modified_line;
static uint32_t (*const line_year)(const uint8_t *, size_t) = card_line_year;
static uint32_t (*const line_fault)(const uint8_t *, size_t) = &card_line_fault;
static uint8_t (*const series)(const int32_t *, size_t, int32_t *, size_t, uint8_t *, size_t) =
    card_whole_series;

static void try_pointers(void) {
    lists held = fresh_lists();
    card_columns k = lent(&held, MONTHS);
    card_run run = start(CONSTANTS, CARD_CONSTANTS, 6000, 0, 1330, 6).run;
    card_month_inches month = {1.0f, 2.0f};
    run = add_z(run, 2999, EACH(k)).run;
    run = add_water(run, card_whole(5560), card_whole(4800), EACH(k)).run;
    run = add_inches(run, month, EACH(k)).run;
    run = add_season(run, SEASON_P, 3, SEASON_PE, 3, EACH(k)).run;
    check("function pointers", run.months == 6 && run.calendar == 12, "not six months");
    check("function pointers", row_of(run, 0, EACH(k)).x3 == 1000, "X3 is not 1,000 after a Z of 2,999");
    card_repaired same = repair(run, 1, card_whole(5560), card_whole(4800), EACH(k), lent_report(MONTHS), MONTHS);
    check("function pointers", same.number == CARD_DONE && same.changed == 0, "the same readings change a month");
    check_number("function pointers", sum_month(run, 1, EACH(k)).number, CARD_FEW_YEARS);
    check_number("function pointers", work_out(run, WEIGHTS, CARD_WEIGHTS, EACH(k)).number, CARD_FEW_YEARS);
    uint8_t line[CARD_LINE];
    check_number("function pointers", write_index_line(run, 14, 7, 1932, 0, EACH(k), line, CARD_LINE), CARD_DONE);
    check_number("function pointers", read_index_line(line, CARD_LINE, 14, 7, 1932).number, CARD_DONE);
    check_number("function pointers", write_modified_line(run, 14, 7, 1932, 0, EACH(k), line, CARD_LINE), CARD_DONE);
    check_number("function pointers", read_modified_line(line, CARD_LINE, 14, 7, 1932).number, CARD_DONE);
    check_number("function pointers", write_z_line(run, 14, 7, 1932, 0, EACH(k), line, CARD_LINE), CARD_DONE);
    card_line_figures z = read_z_line(line, CARD_LINE, 14, 7, 1932);
    check("function pointers", z.number == CARD_DONE && z.hundredths[5] == 300, "June's Z is not 3.00");
    check("function pointers", line_year(line, CARD_LINE) == 1932 && line_fault(line, CARD_LINE) == 0, "another year");
    check_number("function pointers", series(SEASON_P, 3, held.index, 3, held.mark, 3), CARD_DONE);
}

/* ---- Soils ---------------------------------------------------------------------------------------- */

/* What the header says of a start's soil: 4, 5 or done. */
static uint8_t soil_number(int32_t capacity, int32_t surface, int32_t underlying) {
    if (capacity < 100 || capacity > 30000) return CARD_CAPACITY;
    if (surface < 0 || surface > 1000 || surface > capacity) return CARD_STORAGE;
    if (underlying < 0 || (underlying > 0 && underlying > capacity - 1000)) return CARD_STORAGE;
    return CARD_DONE;
}

/* A soil at a start, and in a run that is handed in: what is 4 or 5 there is 7 here. */
static void try_soil(int32_t capacity, int32_t surface, int32_t underlying) {
    lists held = fresh_lists();
    uint8_t expected = soil_number(capacity, surface, underlying);
    card_started a = card_start(CONSTANTS, CARD_CONSTANTS, capacity, surface, underlying, 6);
    check_number("a soil at a start", a.number, expected);
    card_run run = station();
    run.soil.capacity = (uint32_t)capacity;
    run.soil.surface = (uint32_t)surface;
    run.soil.underlying = (uint32_t)underlying;
    if (expected == CARD_DONE) check("a soil at a start", same_run(&a.run, &run), "another soil");
    card_added z = card_add_z_in(lent(&held, MONTHS), run, 0);
    check_number("a soil in a run", z.number, expected == CARD_DONE ? CARD_DONE : CARD_NOT_A_RUN);
}

static void try_soils(void) {
    static const int32_t capacities[] = {-1, 0, 99, 100, 101, 500, 999, 1000, 1001, 6000, 29999, 30000, 30001};
    for (size_t i = 0; i < sizeof capacities / sizeof *capacities; i++) {
        int32_t c = capacities[i];
        int32_t storages[] = {-1, 0, 1, 999, 1000, 1001, c - 1001, c - 1000, c - 999, c - 1, c, c + 1};
        for (int upper = 0; upper < 12; upper++)
            for (int lower = 0; lower < 12; lower++) try_soil(c, storages[upper], storages[lower]);
    }
}

/* With a capacity of 100 a month's tenth of an inch empties the soil or fills it, whatever it held. */
static void try_thin(void) {
    lists held = fresh_lists();
    for (int32_t surface = 0; surface <= 100; surface++) {
        card_run run = card_start(CONSTANTS, CARD_CONSTANTS, 100, surface, 0, 6).run;
        card_soil dry = card_add_water_in(lent(&held, MONTHS), run, card_whole(700), card_whole(800)).run.soil;
        card_soil wet = card_add_water_in(lent(&held, MONTHS), run, card_whole(800), card_whole(700)).run.soil;
        check("a thin soil", dry.surface == 0 && dry.underlying == 0, "a dry month does not empty it");
        check("a thin soil", wet.surface == 100 && wet.underlying == 0, "a wet month does not fill it");
    }
}

/* ---- A K of 0 ------------------------------------------------------------------------------------- */

/* At a start it is 21, and 3 where a constant is out of range, of whichever month. Any other constant may be 0. */
static void try_zero_k_at_a_start(void) {
    card_run zeros = {0};
    for (int place = 0; place < CARD_CONSTANTS; place++) {
        int32_t list[CARD_CONSTANTS];
        memcpy(list, CONSTANTS, sizeof list);
        list[place] = 0;
        card_started a = card_start(list, CARD_CONSTANTS, 6000, 0, 1330, 6);
        check_number("a constant of 0", a.number, place % 5 == 4 ? CARD_ZERO_K : CARD_DONE);
        if (place % 5 != 4) continue;
        check("a K of 0", same_run(&a.run, &zeros), "not a run of zeros");
        check_number("a K of 0", card_start(list, CARD_CONSTANTS, 99, 0, 0, 0).number, CARD_ZERO_K);
        list[place == 59 ? 4 : 59] = 100001;
        check_number("a K of 0", card_start(list, CARD_CONSTANTS, 6000, 0, 1330, 6).number, CARD_CONSTANT);
    }
}

/* A run that holds one is refused by every call until its K is put in, and is then what it was. */
static void try_zero_k_in_a_run(void) {
    lists held = fresh_lists();
    card_columns k = lent(&held, MONTHS);
    card_run run = card_add_water_in(k, station(), card_whole(5560), card_whole(4800)).run;
    const lists before = held;
    for (int i = 0; i < 12 * KINDS; i++) {
        int32_t *weight = &run.constants[5 * (i / KINDS + 1) - 1], good = *weight;
        *weight = 0;
        answer a = by_columns(good_call(i % KINDS), run, k);
        check_refused("a run with a K of 0", &a, CARD_NOT_A_RUN, run);
        check("a run with a K of 0", same_lists(&held, &before), "something was written");
        *weight = good;
        check("a K put in", card_row_in(k, run, 0).index == 1047, "the row is not shown");
    }
}

/* A run for Z alone: sixty ones, and any soil. */
static void try_z_alone(void) {
    lists held = fresh_lists(), other = held;
    int32_t ones[CARD_CONSTANTS];
    for (int i = 0; i < CARD_CONSTANTS; i++) ones[i] = 1;
    card_started a = card_start(ones, CARD_CONSTANTS, 100, 0, 0, 1);
    check_number("sixty ones", a.number, CARD_DONE);
    card_run run = a.run, stations = station();
    for (int i = 0; i < MONTHS; i++) {
        int32_t z = i % 3 == 0 ? -2000 : 900;
        run = card_add_z_in(lent(&held, MONTHS), run, z).run;
        stations = card_add_z_in(lent(&other, MONTHS), stations, z).run;
    }
    for (int i = 0; i < MONTHS; i++) {
        card_record *r = &held.records[i], *s = &other.records[i];
        check("sixty ones", r->surface == 0 && r->underlying == 0 && s->surface == 0 && s->underlying == 1330,
              "the storages are not those of the start");
        r->su = r->underlying = 1330;
    }
    check("sixty ones", same_lists(&held, &other), "a Z is reckoned with constants");
}

/* ---- Missing months ------------------------------------------------------------------------------- */

/* A missing reading is 8, and leaves run, calendar and columns; a season stops at it. */
static void try_missing(void) {
    lists held = fresh_lists();
    const lists before = held;
    card_columns k = lent(&held, MONTHS);
    card_run run = station();
    answer p = of_added(card_add_water_in(k, run, card_missing(), card_whole(4800)));
    answer pe = of_added(card_add_water_in(k, run, card_whole(5560), card_missing()));
    check_refused("precipitation missing", &p, CARD_MISSING_READING, run);
    check_refused("PE missing", &pe, CARD_MISSING_READING, run);
    card_month_inches none = {strtof("nan", NULL), 4.8f};
    answer nan = of_added(card_add_inches_in(k, run, none));
    check_refused("inches, NaN", &nan, CARD_BAD_READING, run);
    check("a missing month", p.run.calendar == 6 && same_lists(&held, &before), "something moved");

    int32_t list[3] = {5560, CARD_NO_READING, 1530};
    card_season s = card_add_season_in(k, run, list, 3, SEASON_PE, 3);
    check_number("a season", s.number, CARD_MISSING_READING);
    check("a season", s.added == 1 && s.run.months == 1 && s.run.calendar == 7, "it did not stop there");
    check("a season", held.x3[1] == before.x3[1] && held.mark[1] == before.mark[1] &&
          same_record(&held.records[1], &before.records[1]) && held.v[1] == before.v[1], "it wrote the month");
}

/* Waiting, and putting an estimate right by a repair or from a copy, all come to what the straight record is. */
static void try_waiting(void) {
    static const int32_t p[4] = {5560, 1780, 1530, 1280}, pe[4] = {4800, 7040, 5970, 3410};
    lists straight = fresh_lists(), waited = straight, estimated = straight;
    answer a = of_season(card_add_season_in(lent(&straight, MONTHS), station(), p, 4, pe, 4));
    card_columns k = lent(&waited, MONTHS);
    card_run run = card_add_water_in(k, station(), card_whole(p[0]), card_whole(pe[0])).run;
    run = card_add_water_in(k, run, card_missing(), card_whole(pe[1])).run;
    answer late = of_season(card_add_season_in(k, run, p + 1, 3, pe + 1, 3));
    check("waiting", same_run(&late.run, &a.run) && same_figures(&late.figures, &a.figures), "another record");
    check("waiting", same_lists(&waited, &straight), "other columns");

    k = lent(&estimated, MONTHS);
    run = card_add_water_in(k, station(), card_whole(p[0]), card_whole(pe[0])).run;
    const lists copy = estimated;
    card_run wrong = card_add_water_in(k, run, card_whole(9000), card_whole(pe[1])).run;
    wrong = card_add_season_in(k, wrong, p + 2, 2, pe + 2, 2).run;
    check("an estimate", !same_run(&wrong, &a.run) && !same_lists(&estimated, &straight), "it made no difference");
    lists repaired = estimated;
    card_repaired right = card_repair_in(lent(&repaired, MONTHS), wrong, 1, card_whole(p[1]), card_whole(pe[1]),
                                         lent_report(MONTHS));
    check_number("an estimate repaired", right.number, CARD_DONE);
    check("an estimate repaired", same_run(&right.run, &a.run) && same_lists(&repaired, &straight), "another record");
    estimated = copy;
    run = card_add_season_in(k, run, p + 1, 3, pe + 1, 3).run;
    check("an estimate put right", same_run(&run, &a.run) && same_lists(&estimated, &straight), "another record");
}

/* Nearest to 2691 x / 3000. */
static int32_t faded(int32_t x) {
    int32_t size = (2 * 2691 * abs(x) + 3000) / 6000;
    return x < 0 ? -size : size;
}

/* A Z of 0 in a spell: X1, X2 and X3 fade, and the spell abates or, with X3 at most 613 in size, ends. */
static void try_z_0_in_spell(int32_t x3) {
    lists held = fresh_lists();
    card_run run = station();
    run.values.x1 = 430;
    run.values.x2 = -205;
    run.values.x3 = x3;
    card_added a = card_add_z_in(lent(&held, MONTHS), run, 0);
    check_number("a Z of 0", a.number, CARD_DONE);
    check("a Z of 0", a.run.calendar == 7 && a.run.soil.surface == run.soil.surface &&
          a.run.soil.underlying == run.soil.underlying, "calendar or storages");
    check("a Z of 0", a.figures.x1 == faded(430) && a.figures.x2 == faded(-205), "X1 or X2 does not fade");
    int ends = abs(x3) <= 613;
    check("a Z of 0", a.figures.x3 == (ends ? 0 : faded(x3)), "X3 does not fade, or end at 613");
    check("a Z of 0", a.figures.mark == CARD_OPEN && a.settled == 0, "it settles a month");
    check("a Z of 0", a.run.values.v == (ends ? 0 : x3 < 0 ? 150 : -150), "V");
    check("a Z of 0", ends ? a.figures.percent == (abs(x3) > 500 ? 100 : 0) :
          a.figures.percent >= 1 && a.figures.percent <= 99, "percent");
}

static void try_z_0(void) {
    for (int32_t x3 = -7000; x3 <= 7000; x3++) try_z_0_in_spell(x3);
    lists held = fresh_lists();
    card_run run = station();
    run.calendar = 12;
    check("a Z of 0", card_add_z_in(lent(&held, MONTHS), run, 0).run.calendar == 1, "after December no January");
    for (int32_t x = 0; x < 1000; x++) {
        run.values.x1 = x;
        run.values.x2 = x - 999;
        card_added a = card_add_z_in(lent(&held, MONTHS), run, 0);
        check("a Z of 0", a.figures.x1 == faded(x) && a.figures.x2 == faded(x - 999), "no spell, and no fading");
    }
}

/* A new run knows no spell and begins at place 0; no rain where it was not measured can found a drought. */
static void try_new_run_and_no_rain(void) {
    lists held = fresh_lists();
    const lists before = held;
    card_run run = station();
    check("a new run", run.values.x1 == 0 && run.values.x2 == 0 && run.values.x3 == 0 && run.values.v == 0 &&
          run.months == 0, "it knows of a spell");
    card_added a = card_add_water_in(lent(&held, MONTHS), run, card_whole(0), card_whole(4800));
    check_number("no rain", a.number, CARD_DONE);
    check("no rain", a.figures.x3 <= -1000 && a.figures.index == a.figures.x3, "it founds no drought");
    check("a new run", held.x3[0] == a.figures.x3 && held.x3[1] == before.x3[1], "it does not write place 0");
}

#include "repairs.h"
#include "constants.h"
#include "lines.h"

int main(void) {
    try_meanings();
    try_sizes();
    try_offsets();
    try_null_columns();
    try_null_constants();
    try_null_season();
    try_null_weights();
    try_null_series();
    try_zeros();
    try_unequal();
    try_a_run();
    try_records();
    try_last_record();
    try_others();
    try_five_columns();
    try_records_of_before();
    try_kinds();
    try_kinds_of_months();
    try_kinds_of_inches();
    try_kinds_after_a_trace();
    try_kinds_stay();
    try_modified();
    try_worked_modified();
    try_not_together();
    try_lengths();
    try_longer();
    try_pointers();
    try_soils();
    try_thin();
    try_zero_k_at_a_start();
    try_zero_k_in_a_run();
    try_z_alone();
    try_missing();
    try_waiting();
    try_z_0();
    try_new_run_and_no_rain();
    try_repairs_all();
    try_constants_all();
    try_lines_all();
    check("linking", watched > 0, "the calls of the library were not watched");
    printf("header: %lu comparisons, all as include/card.h says\n", checks);
    return 0;
}
