/* A part of header.c: what include/card.h says of lines of a division file. The line that a call is to write is put
 * together here once more from whole numbers, and a line that is read is held against what a writer prints. Every call
 * is made in the three ways; one that writes may write the line alone, and nothing at a refusal. */

/* ---- The header's rules --------------------------------------------------------------------------- */

enum { ELEMENTS = 3, LINE_MISSING = -9999, LINE_HEADING = 10, LINE_WIDTH = 7 };

static const int WRITES[ELEMENTS] = {INDEX_LINE, Z_LINE, MODIFIED_LINE};
static const unsigned ELEMENT[ELEMENTS] = {5, 7, 8};

static unsigned element_of(int kind) { return ELEMENT[kind - INDEX_LINE]; }

/* A value of so many hundredths in size as F7.2 prints it, with a digit before the point or, where `units` is 0,
 * without. */
static void print_value(char *seven, int minus, int64_t size, int units) {
    char before[32] = "", digits[80], padded[96];
    if (units) snprintf(before, sizeof before, "%lld", (long long)(size / 100));
    snprintf(digits, sizeof digits, "%s%s.%02d", minus ? "-" : "", before, (int)(size % 100));
    snprintf(padded, sizeof padded, "%7s", digits);
    memcpy(seven, padded, LINE_WIDTH);
}

/* The rows of a year's months, by going through the calendar from the month to come back to row 0 and on from there; -1
 * where the run has none. */
static void rows_in(const card_run *run, uint32_t which, int64_t *rows_found) {
    uint32_t at = run->calendar, year = 0;
    for (int i = 0; i < 12; i++) rows_found[i] = -1;
    for (uint32_t i = 0; i < run->months; i++) at = at == 1 ? 12 : at - 1;
    for (uint32_t row = 0; row < run->months; row++) {
        if (year == which) rows_found[at - 1] = row;
        if (at == 12) year++;
        at = at % 12 + 1;
    }
}

/* Whether a row is sent, and with how many thousandths. */
static int is_sent(int kind, card_columns k, int64_t row, int32_t *thousandths) {
    if (row < 0) return 0;
    *thousandths = kind == INDEX_LINE ? k.index[row] : kind == Z_LINE ? k.records[row].z : k.records[row].modified;
    return kind != INDEX_LINE || k.mark[row] == CARD_SETTLED;
}

/* The hundredths of a year, and LINE_MISSING where a month is not sent; whether all fit. */
static int year_of(int kind, card_columns k, const card_run *run, uint32_t which, int64_t *hundredths) {
    int64_t found[12];
    int fits = 1;
    rows_in(run, which, found);
    for (int i = 0; i < 12; i++) {
        int32_t thousandths = 0;
        hundredths[i] = LINE_MISSING;
        if (!is_sent(kind, k, found[i], &thousandths)) continue;
        hundredths[i] = nearest(thousandths, 10);
        if (hundredths[i] < -99999 || hundredths[i] > 999999 || hundredths[i] == LINE_MISSING) fits = 0;
    }
    return fits;
}

/* What a call that writes a line comes to. 1 and 7 are as a row has them: `first` is a row's number. */
static answer line_by_rule(call c, card_run run, card_columns k, uint8_t first) {
    answer made = {0};
    int64_t hundredths[12];
    char text[CARD_LINE + 64];
    made.run = run;
    made.number = first;
    if (first == CARD_LENGTHS || first == CARD_NOT_A_RUN) return made;
    int fits = year_of(c.kind, k, &run, c.which, hundredths);
    if (!fits || c.state > 99 || c.division > 99 || (uint64_t)c.year + c.which > 9999) made.number = CARD_UNFIT;
    else made.number = c.line_length < 94 ? CARD_SHORT_LINE : CARD_DONE;
    if (made.number != CARD_DONE) return made;
    snprintf(text, sizeof text, "%02u%02u%02u%04u", (unsigned)c.state, (unsigned)c.division, element_of(c.kind),
             (unsigned)(c.year + c.which));
    for (int i = 0; i < 12; i++) {
        int64_t size = hundredths[i] < 0 ? -hundredths[i] : hundredths[i];
        print_value(text + LINE_HEADING + LINE_WIDTH * i, hundredths[i] < 0, size, 1);
    }
    memcpy(made.line, text, CARD_LINE);
    return made;
}

/* Whether seven bytes are a number of the layout: what F7.2 prints of it, with a zero before the point or without. */
static int is_number(const uint8_t *seven, int32_t *hundredths) {
    char printed[LINE_WIDTH];
    int minus = 0, size = 0, found = 0;
    for (int i = 0; i < LINE_WIDTH; i++) {
        if (seven[i] == '-') minus = 1;
        if (seven[i] >= '0' && seven[i] <= '9') size = 10 * size + seven[i] - '0';
    }
    if (size > 999999) return 0;
    for (int units = size < 100 ? 0 : 1; units < 2; units++) {
        print_value(printed, minus, size, units);
        found |= memcmp(printed, seven, LINE_WIDTH) == 0;
    }
    *hundredths = minus ? -size : size;
    return found;
}

static int are_digits(const uint8_t *bytes, int count) {
    for (int i = 0; i < count; i++)
        if (bytes[i] < '0' || bytes[i] > '9') return 0;
    return 1;
}

static uint32_t digits_of(const uint8_t *bytes, int count) {
    char text[8] = {0};
    memcpy(text, bytes, (size_t)count);
    return (uint32_t)strtoul(text, NULL, 10);
}

/* The column where the first field at fault begins, or 0. */
static uint32_t fault_by_rule(const uint8_t *line, size_t length) {
    static const int fields[5] = {0, 2, 4, 6, LINE_HEADING};
    if (length < 94) return (uint32_t)length + 1;
    for (int i = 0; i < 4; i++)
        if (!are_digits(line + fields[i], fields[i + 1] - fields[i])) return (uint32_t)fields[i] + 1;
    int rain = line[4] == '0' && line[5] == '1';
    for (int i = 0; i < 12; i++) {
        int32_t value;
        int good = is_number(line + LINE_HEADING + LINE_WIDTH * i, &value);
        if (!good || (rain && value != -999 && (value < 0 || value > 10000))) return (uint32_t)(11 + 7 * i);
    }
    for (size_t i = 94; i < length; i++)
        if (line[i] != ' ') return 95;
    return 0;
}

static card_line_figures figures_by_rule(int kind, const uint8_t *line, size_t length, uint32_t state,
                                         uint32_t division, uint32_t year) {
    card_line_figures made = {0};
    if (fault_by_rule(line, length) != 0) made.number = CARD_MALFORMED;
    else if (digits_of(line, 2) != state || digits_of(line + 2, 2) != division) made.number = CARD_OTHER_LINE;
    else if (digits_of(line + 4, 2) != element_of(kind)) made.number = CARD_OTHER_LINE;
    else if (digits_of(line + 6, 4) != year) made.number = CARD_NOT_THE_YEAR;
    if (made.number != CARD_DONE) return made;
    for (int i = 11; i >= 0; i--) {
        int32_t value;
        is_number(line + LINE_HEADING + LINE_WIDTH * i, &value);
        made.present *= 2;
        if (value == LINE_MISSING) {
            made.first_missing = (uint32_t)i + 1;
            continue;
        }
        made.hundredths[i] = value;
        made.present++;
        made.count++;
    }
    return made;
}

/* ---- All calls, in three ways, beside the rules --------------------------------------------------- */

static unsigned line_numbers_met[256];

/* Writes a line in all ways. */
static answer check_line(const char *where, decade *d, call c) {
    card_columns k = lent_places(d, PLACES);
    answer expected = line_by_rule(c, d->run, k, (card_row)(d->run, 0, EACH(k)).number);
    check_call(where, d, c, PLACES, &expected);
    line_numbers_met[expected.number]++;
    return expected;
}

static answer check_line_number(const char *where, decade *d, call c, uint8_t number) {
    answer a = check_line(where, d, c);
    check_number(where, a.number, number);
    return a;
}

static call line_call(int kind, uint32_t which) {
    call c = good_call(kind);
    c.which = which;
    return c;
}

static int same_told(const card_line_figures *a, const card_line_figures *b) {
    return memcmp(a->hundredths, b->hundredths, sizeof a->hundredths) == 0 && a->number == b->number &&
           a->present == b->present && a->count == b->count && a->first_missing == b->first_missing;
}

/* The three ways of a call that reads. */
static card_line_figures read_by(int way, int kind, const uint8_t *line, size_t length, uint32_t state,
                                 uint32_t division, uint32_t year) {
    if (kind == INDEX_LINE)
        return way == 0 ? (card_read_index_line)(line, length, state, division, year)
             : way == 1 ? card_read_index_line(line, length, state, division, year)
                        : read_index_line(line, length, state, division, year);
    if (kind == Z_LINE)
        return way == 0 ? (card_read_z_line)(line, length, state, division, year)
             : way == 1 ? card_read_z_line(line, length, state, division, year)
                        : read_z_line(line, length, state, division, year);
    return way == 0 ? (card_read_modified_line)(line, length, state, division, year)
         : way == 1 ? card_read_modified_line(line, length, state, division, year)
                    : read_modified_line(line, length, state, division, year);
}

/* Reads a line in all ways, and what a person is told of it. */
static card_line_figures check_read_line(const char *where, int kind, const uint8_t *line, size_t length,
                                         uint32_t state, uint32_t division, uint32_t year) {
    card_line_figures expected = figures_by_rule(kind, line, length, state, division, year);
    for (int way = 0; way < 3; way++) {
        card_line_figures got = read_by(way, kind, line, length, state, division, year);
        check_number(where, got.number, expected.number);
        check(where, same_told(&got, &expected), "other figures");
        check(where, handed_line_length == length && (handed_line == line || length == 0), "handed on wrongly");
    }
    uint32_t fault = fault_by_rule(line, length);
    uint32_t own = length >= 10 && are_digits(line + 6, 4) ? digits_of(line + 6, 4) : 0;
    check(where, (card_line_fault)(line, length) == fault && card_line_fault(line, length) == fault, "another fault");
    check(where, (card_line_year)(line, length) == own && card_line_year(line, length) == own, "another year");
    check(where, (fault != 0) == (expected.number == CARD_MALFORMED), "a fault without 14, or 14 without one");
    line_numbers_met[expected.number]++;
    return expected;
}

/* A line that was written, read back: exactly what was sent. Another element, state, division or year refuses it. */
static void check_back(const char *where, decade *d, call c, const answer *a) {
    int64_t sent[12];
    uint8_t longer[CARD_LINE + 6];
    uint32_t year = c.year + c.which, count = 0;
    year_of(c.kind, lent_places(d, PLACES), &d->run, c.which, sent);
    card_line_figures f = check_read_line(where, c.kind, a->line, CARD_LINE, c.state, c.division, year);
    check_number(where, f.number, CARD_DONE);
    for (int i = 0; i < 12; i++) {
        int there = sent[i] != LINE_MISSING;
        check(where, f.hundredths[i] == (there ? sent[i] : 0), "other hundredths than were sent");
        check(where, (int)(f.present >> i & 1) == there, "another month is missing than was sent so");
        count += (uint32_t)there;
    }
    check(where, f.count == count && f.present >> 12 == 0, "another count of months");
    memset(longer, ' ', sizeof longer);
    memcpy(longer, a->line, CARD_LINE);
    card_line_figures same = check_read_line(where, c.kind, longer, sizeof longer, c.state, c.division, year);
    check(where, same_told(&f, &same), "spaces after it matter");
    for (int i = 0; i < ELEMENTS; i++) {
        uint8_t number = check_read_line(where, WRITES[i], a->line, CARD_LINE, c.state, c.division, year).number;
        check_number(where, number, WRITES[i] == c.kind ? CARD_DONE : CARD_OTHER_LINE);
    }
    f = check_read_line(where, c.kind, a->line, CARD_LINE, c.state + 1, c.division, year + 1);
    check_number(where, f.number, CARD_OTHER_LINE);
    f = check_read_line(where, c.kind, a->line, CARD_LINE, c.state, c.division + 1, year);
    check_number(where, f.number, CARD_OTHER_LINE);
    f = check_read_line(where, c.kind, a->line, CARD_LINE, c.state, c.division, year + 1);
    check_number(where, f.number, CARD_NOT_THE_YEAR);
}

/* ---- Lines word for word -------------------------------------------------------------------------- */

/* A record with a month of every kind that a run's adds make, one in five a Z, and some of them repaired. */
static decade mixed_decade(uint32_t months, int32_t first) {
    decade d = fresh_decade(6000, 300, 2000, first);
    while (d.run.months < months) {
        if (drawn(0, 4)) add_drawn(&d, 10);
        else add_waterless(&d);
    }
    for (int i = 0; months > 0 && i < 2; i++) {
        size_t row = (size_t)drawn(0, (int32_t)months - 1);
        card_repaired again = card_repair_in(lent_places(&d, PLACES), d.run, row, card_whole(drawn(0, 9000)),
                                             card_whole(drawn(0, 9000)), lent_report(PLACES));
        d.run = again.run;
    }
    return d;
}

/* Puts a number in the column that a line of this kind sends, with a settled index. */
static void put(decade *d, int kind, uint32_t row, int32_t thousandths) {
    if (kind == INDEX_LINE) d->held.mark[row] = CARD_SETTLED;
    if (kind == INDEX_LINE) d->held.index[row] = thousandths;
    if (kind == Z_LINE) d->held.records[row].z = thousandths;
    if (kind == MODIFIED_LINE) d->held.records[row].modified = thousandths;
}

static void check_text(decade *d, call c, const char *element, const char *year, const char *values) {
    char text[CARD_LINE + 1];
    snprintf(text, sizeof text, "1407%s%s%s", element, year, values);
    answer a = check_line_number("a line word for word", d, c, CARD_DONE);
    check("a line word for word", strlen(text) == CARD_LINE && memcmp(a.line, text, CARD_LINE) == 0, text);
    check_back("a line word for word", d, c, &a);
}

/* Values of all widths, halves and signs; a part of a year at both ends, from June on. */
static void try_words(void) {
    static const char *const elements[ELEMENTS] = {"05", "07", "08"};
    static const int32_t from_june[19] = {50,     -50,    -5,     -4,     4,       5,      -1000,
                                          -99984, -99995, 999994, 999995, 9999994, -99000, 99990,
                                          99995,  -999994, 0,     -9990,  9990};
    for (int i = 0; i < ELEMENTS; i++) {
        int kind = WRITES[i];
        decade d = drawn_decade(19, 6);
        for (uint32_t row = 0; row < 19; row++) put(&d, kind, row, from_june[row]);
        check_text(&d, line_call(kind, 0), elements[i], "1932",
                   " -99.99 -99.99 -99.99 -99.99 -99.99   0.05  -0.05  -0.01   0.00   0.00   0.01  -1.00");
        check_text(&d, line_call(kind, 1), elements[i], "1933",
                   " -99.98-100.00 999.991000.009999.99 -99.00  99.99 100.00-999.99   0.00  -9.99   9.99");
        check_text(&d, line_call(kind, 2), elements[i], "1934",
                   " -99.99 -99.99 -99.99 -99.99 -99.99 -99.99 -99.99 -99.99 -99.99 -99.99 -99.99 -99.99");
        call c = line_call(kind, 0);
        c.state = c.division = c.year = 0;
        answer a = check_line_number("zeros", &d, c, CARD_DONE);
        check("zeros", memcmp(a.line, "0000", 4) == 0 && memcmp(a.line + 6, "0000", 4) == 0, "no zeros on the left");
    }
}

/* ---- Which rows a year has ------------------------------------------------------------------------ */

/* From every calendar month, after each month of it: every year of the run, and some that are not, by the header's c
 * and January's row; and the run's last year. */
static void try_rows_of_years(void) {
    for (int32_t first = 1; first <= 12; first++) {
        decade d = fresh_decade(6000, 500, 3000, first);
        for (uint32_t months = 0; months <= 40; months++) {
            uint32_t c = (d.run.calendar + 11 - d.run.months % 12) % 12 + 1, last = (c + months - 2) / 12;
            check("the calendar month of row 0", c == (uint32_t)first, "another");
            for (uint32_t which = 0; which < 6; which++) {
                int64_t found[12], january = 12 * (int64_t)which - ((int64_t)c - 1);
                int any = 0;
                rows_in(&d.run, which, found);
                for (int i = 0; i < 12; i++) {
                    int inside = january + i >= 0 && january + i < (int64_t)months;
                    check("January's row", found[i] == (inside ? january + i : -1), "another");
                    any |= inside;
                }
                if (months > 0) check("the last year", any == (which <= last), "another");
                for (int i = 0; i < ELEMENTS; i++) {
                    call asked = line_call(WRITES[i], which);
                    answer a = check_line_number("years", &d, asked, CARD_DONE);
                    check_back("years", &d, asked, &a);
                }
            }
            add_drawn(&d, 12);
        }
    }
}

/* ---- What is not sent ----------------------------------------------------------------------------- */

/* Every byte as the mark of a month: its index is sent with 2 alone, and otherwise refuses nothing, whatever it is. Z
 * and the modified index are sent with any mark. */
static void try_marks(void) {
    static const int32_t provisional[5] = {1234, -99990, INT32_MIN, INT32_MAX, 10000000};
    decade d = drawn_decade(30, 4);
    for (int mark = 0; mark < 256; mark++) {
        uint32_t row = (uint32_t)drawn(9, 20);
        for (int i = 0; i < 5; i++) {
            decade spoiled = d;
            spoiled.held.index[row] = provisional[i];
            spoiled.held.mark[row] = (uint8_t)mark;
            uint8_t number = mark == CARD_SETTLED && i > 0 ? CARD_UNFIT : CARD_DONE;
            answer a = check_line_number("a mark", &spoiled, line_call(INDEX_LINE, 1), number);
            if (number == CARD_DONE) {
                const char *value = mark == CARD_SETTLED ? "   1.23" : " -99.99";
                check("a mark", memcmp(a.line + LINE_HEADING + LINE_WIDTH * (row - 9), value, 7) == 0, "another value");
                check_back("a mark", &spoiled, line_call(INDEX_LINE, 1), &a);
            }
            check_line_number("a mark and Z", &spoiled, line_call(Z_LINE, 1), CARD_DONE);
            check_line_number("a mark and the modified index", &spoiled, line_call(MODIFIED_LINE, 1), CARD_DONE);
        }
    }
}

/* Every open month is missing, and every settled one there, as the rows show them. A value that was sent stays as the
 * run grows. */
static void try_unsettled(void) {
    unsigned opened = 0, later = 0;
    for (int n = 0; n < 40; n++) {
        decade d = fresh_decade(6000, 300, 2000, drawn(1, 12));
        card_line_figures before = {0};
        while (d.run.months < 36) {
            if (drawn(0, 2)) add_drawn(&d, drawn(4, 16));
            else add_waterless(&d);
            call c = line_call(INDEX_LINE, 1);
            answer a = check_line_number("open months", &d, c, CARD_DONE);
            card_line_figures f = card_read_index_line(a.line, CARD_LINE, c.state, c.division, 1933);
            int64_t found[12];
            rows_in(&d.run, 1, found);
            for (int i = 0; i < 12; i++) {
                int there = (int)(f.present >> i & 1), was = (int)(before.present >> i & 1);
                if (found[i] < 0) check("a month outside the run", !there, "it is sent");
                if (found[i] < 0) continue;
                card_shown row = card_row_in(lent_places(&d, PLACES), d.run, (size_t)found[i]);
                check("an open month", there == (row.mark == CARD_SETTLED), "it is sent, or a settled one is not");
                if (there) check("a settled month", f.hundredths[i] == nearest(row.index, 10), "another index");
                if (was) check("what was sent", there && f.hundredths[i] == before.hundredths[i], "it changes");
                opened += !there;
                later += there && !was && found[i] + 1 < (int64_t)d.run.months;
            }
            before = f;
        }
    }
    check("open months", opened > 0 && later > 0, "there were none, or none was settled later");
}

/* ---- What does not fit ---------------------------------------------------------------------------- */

/* The ends of what fits and of what reads as missing, in thousandths, and beside them. */
static const int32_t ENDS[] = {
    INT32_MIN, INT32_MIN + 1, -4000000, -1000000, -999996, -999995, -999994, -999993, -99996, -99995, -99994,
    -99990, -99986, -99985, -99984, -99983, -9995, -9990, -15, -14, -10, -6, -5, -4, -1, 0, 1, 4, 5, 6, 14, 15,
    9990, 99984, 99985, 99990, 99994, 99995, 999994, 999995, 9999993, 9999994, 9999995, 9999996, 13000000,
    INT32_MAX - 5, INT32_MAX - 4, INT32_MAX};
enum { MANY_ENDS = sizeof ENDS / sizeof *ENDS };

static int fits(int32_t t) { return t >= -999994 && t <= 9999994 && !(t >= -99994 && t <= -99985); }

/* In each month of a year; in the months beside it and outside the run they refuse nothing; nor in a column that is not
 * sent. */
static void try_ends(void) {
    decade d = drawn_decade(33, 4);
    for (int i = 0; i < ELEMENTS; i++)
        for (int n = 0; n < MANY_ENDS; n++)
            for (uint32_t row = 0; row < PLACES; row += row < 36 ? 1 : 35) {
                decade spoiled = d;
                if (row == 32) {
                    put(&spoiled, WRITES[(i + 1) % 3], 12, ENDS[n]);
                    put(&spoiled, WRITES[(i + 2) % 3], 12, ENDS[n]);
                    answer same = check_line_number("other columns", &spoiled, line_call(WRITES[i], 1), CARD_DONE);
                    answer right = check_line_number("other columns", &d, line_call(WRITES[i], 1), CARD_DONE);
                    if (i > 0) check("other columns", memcmp(same.line, right.line, CARD_LINE) == 0, "they are sent");
                }
                put(&spoiled, WRITES[i], row, ENDS[n]);
                for (uint32_t which = 0; which < 4; which++) {
                    uint32_t begin = which ? 12 * which - 3 : 0, end = 12 * which + 9;
                    int asked = row >= begin && row < end && row < 33 && !fits(ENDS[n]);
                    call c = line_call(WRITES[i], which);
                    answer a = check_line_number("ends", &spoiled, c, asked ? CARD_UNFIT : CARD_DONE);
                    if (!asked && n % 5 == 0) check_back("ends", &spoiled, c, &a);
                }
            }
}

/* Every number of thousandths at which the hundredths change, and those beside it, about 0 and the missing mark. */
static void try_halves(void) {
    decade d = drawn_decade(33, 4);
    for (int32_t t = -100100; t <= 100100; t += t < -99900 || (t > -100 && t < 100) || t > 99900 ? 1 : 83) {
        int kind = WRITES[drawn(0, 2)];
        put(&d, kind, 15, t);
        call c = line_call(kind, 1);
        answer a = check_line_number("halves", &d, c, fits(t) ? CARD_DONE : CARD_UNFIT);
        if (a.number == CARD_DONE) check_back("halves", &d, c, &a);
        put(&d, kind, 15, 0);
    }
}

/* State, division, year and which, each at and past its end, all together. */
static void try_numbers(void) {
    static const uint32_t odd[] = {0, 1, 99, 100, 9999, 10000, UINT32_MAX};
    decade d = mixed_decade(40, 6);
    for (unsigned n = 0; n < 7 * 7 * 7 * 7; n++) {
        call c = line_call(WRITES[n % 3], odd[n / 343]);
        c.state = odd[n % 7];
        c.division = odd[n / 7 % 7];
        c.year = odd[n / 49 % 7];
        int fit = c.state <= 99 && c.division <= 99 && (uint64_t)c.year + c.which <= 9999;
        answer a = check_line_number("numbers", &d, c, fit ? CARD_DONE : CARD_UNFIT);
        if (fit && c.year + c.which < 9999 && c.state < 99 && c.division < 99) check_back("numbers", &d, c, &a);
        c.line_length = CARD_LINE - 1;
        check_line_number("numbers, and a short list", &d, c, fit ? CARD_SHORT_LINE : CARD_UNFIT);
    }
    for (uint32_t which = 0; which <= 10001; which += which < 9990 ? 97 : 1) {
        call c = line_call(INDEX_LINE, which);
        c.year = 9999 - (which > 9999 ? 0 : which);
        check_line_number("the last year", &d, c, which > 9999 ? CARD_UNFIT : CARD_DONE);
        c.year++;
        check_line_number("past the last year", &d, c, CARD_UNFIT);
        c.year = UINT32_MAX - which;
        check_line_number("a sum that would wrap", &d, c, CARD_UNFIT);
        c.year++;
        check_line_number("a sum that would wrap", &d, c, which > 0 ? CARD_UNFIT : CARD_DONE);
    }
}

/* Lists of every length: below 94 nothing is written, and from there on 94 bytes. */
static void try_line_lengths(void) {
    decade d = mixed_decade(40, 6), none = fresh_decade(6000, 0, 0, 2);
    for (size_t length = 0; length <= LINE_ROOM; length++)
        for (int i = 0; i < ELEMENTS; i++) {
            call c = line_call(WRITES[i], 1);
            c.line_length = length;
            uint8_t number = length < 94 ? CARD_SHORT_LINE : CARD_DONE;
            answer a = check_line_number("the length of a list", &d, c, number);
            if (number == CARD_DONE) check_back("the length of a list", &d, c, &a);
            check_line_number("the length of a list, no months", &none, c, number);
        }
}

/* ---- NULL, and runs that are none ----------------------------------------------------------------- */

/* NULL beside the length 0 for the line, for every set of columns, and for both. */
static void try_null_lines(void) {
    lists held = fresh_lists();
    const lists before = held;
    card_run run = station(), none = run;
    none.calendar = 0;
    for (int i = 0; i < ELEMENTS; i++)
        for (unsigned set = 0; set < 128; set++) {
            call c = line_call(WRITES[i], 0);
            c.line_length = 0;
            answer expected = by_library(c, run, emptied(lent(&held, MONTHS), set, 0));
            c.line_null = 1;
            card_columns k = emptied(lent(&held, MONTHS), set, 1);
            answer lists_null = by_lists(c, run, k), columns_null = by_columns(c, run, k);
            answer no_run = by_columns(c, none, k);
            check_refused("a line, NULL", &expected, set ? CARD_LENGTHS : CARD_SHORT_LINE, run);
            check_same("a line, NULL", &lists_null, &expected);
            check_same("a line, NULL", &columns_null, &expected);
            check_refused("a line, NULL, no run", &no_run, set ? CARD_LENGTHS : CARD_NOT_A_RUN, none);
            c.state = 100;
            answer unfit = by_lists(c, run, k);
            check_refused("a line, NULL, no state", &unfit, set ? CARD_LENGTHS : CARD_UNFIT, run);
            check("a line, NULL", same_lists(&held, &before), "a column was written");
        }
    card_line_figures malformed = {0};
    malformed.number = CARD_MALFORMED;
    for (int i = 0; i < ELEMENTS; i++) {
        card_line_figures null = read_by(1, WRITES[i], NULL, 0, 14, 7, 1932);
        check("reading NULL", same_told(&null, &malformed), "not 14 alone");
    }
    check("reading NULL", card_line_year(NULL, 0) == 0 && card_line_fault(NULL, 0) == 1, "another year or fault");
}

/* Every byte of a run at its extremes, and two at once: 7 as a row has it, and otherwise by what the run then says. */
static void try_spoiled_runs(void) {
    static const uint8_t extremes[] = {0x00, 0x01, 0x7f, 0x80, 0xfe, 0xff};
    decade d = mixed_decade(60, 6);
    unsigned taken = 0, refused_ones = 0;
    for (size_t place = 0; place < sizeof d.run; place++)
        for (size_t i = 0; i < sizeof extremes; i++) {
            decade spoiled = d;
            uint8_t bytes[sizeof d.run];
            memcpy(bytes, &d.run, sizeof bytes);
            bytes[place] = extremes[i];
            if (i % 2) bytes[drawn(0, (int32_t)sizeof bytes - 1)] = extremes[drawn(0, 5)];
            memcpy(&spoiled.run, bytes, sizeof bytes);
            call c = line_call(WRITES[(place + i) % 3], (uint32_t)drawn(0, 6));
            uint8_t number = check_line("a spoiled run", &spoiled, c).number;
            taken += number == CARD_DONE;
            refused_ones += number == CARD_NOT_A_RUN;
        }
    for (int n = 0; n < 3000; n++) {
        decade spoiled = d;
        memset(&spoiled.run, drawn(0, 255), sizeof spoiled.run);
        spoiled.run.months = (uint32_t)drawn(0, PLACES + 1);
        spoiled.run.calendar = (uint32_t)drawn(0, 13);
        if (n % 2) memcpy(spoiled.run.constants, d.run.constants, sizeof d.run.constants);
        if (n % 2) spoiled.run.soil = d.run.soil, spoiled.run.values = d.run.values, spoiled.run.opens = 0;
        if (n % 2) spoiled.held.records[spoiled.run.months % PLACES].surface = (int32_t)d.run.soil.surface;
        uint32_t last = spoiled.run.months ? spoiled.run.months - 1 : 0;
        if (n % 4 == 1 && last < PLACES) spoiled.held.records[last] = d.held.records[59];
        call c = line_call(WRITES[n % 3], (uint32_t)drawn(0, 16));
        uint8_t number = check_line("a run of any bytes", &spoiled, c).number;
        taken += number == CARD_DONE || number == CARD_UNFIT;
    }
    check("spoiled runs", taken > 0 && refused_ones > 0, "all are refused, or none");
}

/* Every set of grounds for refusing a line: the first of them is the answer. */
static void try_order_of_lines(void) {
    static const uint8_t numbers[7] = {CARD_LENGTHS, CARD_NOT_A_RUN, CARD_UNFIT, CARD_UNFIT,
                                       CARD_UNFIT,   CARD_UNFIT,     CARD_SHORT_LINE};
    for (int i = 0; i < ELEMENTS; i++)
        for (unsigned set = 0; set < 128; set++) {
            decade d = drawn_decade(33, 4);
            call c = line_call(WRITES[i], 1);
            if (set & 2) d.run.opens = d.run.months + 1;
            if (set & 4) put(&d, WRITES[i], 14, -99990);
            if (set & 8) c.state = 100;
            if (set & 16) c.division = UINT32_MAX;
            if (set & 32) c.year = 9999;
            if (set & 64) c.line_length = set % 3 ? CARD_LINE - 1 : 0;
            int expected = 0;
            while (expected < 7 && !(set >> expected & 1)) expected++;
            uint8_t number = expected < 7 ? numbers[expected] : CARD_DONE;
            card_columns k = lent_places(&d, PLACES);
            if (set & 1) k.index_length--;
            answer by[3] = {by_library(c, d.run, k), by_lists(c, d.run, k), by_columns(c, d.run, k)};
            for (int way = 0; way < 3; way++) {
                check_number("order of lines", by[way].number, number);
                if (number != CARD_DONE) check_refused("order of lines", &by[way], number, d.run);
            }
            if (!(set & 1)) check_line_number("order of lines", &d, c, number);
        }
}

/* ---- Runs of the library's own adds --------------------------------------------------------------- */

/* Every year of random runs, with seasons and repairs among them, read back and held to the rows. */
static void try_random_runs(void) {
    for (int n = 0; n < 250; n++) {
        decade d = mixed_decade((uint32_t)drawn(0, PLACES - 6), drawn(1, 12));
        answer s = by_columns(good_call(SEASON), d.run, lent_places(&d, PLACES));
        check_number("a season to be sent", s.number, CARD_DONE);
        d.run = s.run;
        for (int i = 0; i < ELEMENTS; i++)
            for (uint32_t which = 0; which <= PLACES / 12 + 2; which++) {
                call c = line_call(WRITES[i], which);
                c.state = (uint32_t)drawn(0, 98);
                c.division = (uint32_t)drawn(0, 98);
                c.year = (uint32_t)drawn(0, 9900);
                c.line_length = (size_t)drawn(CARD_LINE, LINE_ROOM);
                answer a = check_line_number("random runs", &d, c, CARD_DONE);
                check_back("random runs", &d, c, &a);
                card_line_figures f = read_by(1, c.kind, a.line, CARD_LINE, c.state, c.division, c.year + which);
                int64_t found[12];
                rows_in(&d.run, which, found);
                for (int month = 0; month < 12; month++) {
                    int there = (int)(f.present >> month & 1);
                    if (found[month] < 0) check("random runs", !there, "a month outside the run is sent");
                    if (found[month] < 0) continue;
                    card_shown row = card_row_in(lent_places(&d, PLACES), d.run, (size_t)found[month]);
                    int32_t shown = i == 0 ? row.index : i == 1 ? row.month.z : row.month.modified;
                    check("random runs", there == (i > 0 || row.mark == CARD_SETTLED), "another month is sent");
                    if (there) check("random runs", abs(10 * f.hundredths[month] - shown) <= 5, "not nearest");
                }
            }
    }
}

/* A Z at the ends of what an add takes, and at those of what a line takes. */
static void try_ends_of_z(void) {
    static const int32_t z[] = {-4000000, -999995, -999994, -99995, -99994, -99985, -99984, 4000000};
    for (size_t i = 0; i < sizeof z / sizeof *z; i++) {
        decade d = fresh_decade(6000, 0, 0, 3);
        card_added a = card_add_z_in(lent_places(&d, PLACES), d.run, z[i]);
        check_number("ends of Z", a.number, CARD_DONE);
        d.run = a.run;
        check_line_number("ends of Z", &d, line_call(Z_LINE, 0), fits(z[i]) ? CARD_DONE : CARD_UNFIT);
        check_line("ends of Z", &d, line_call(INDEX_LINE, 0));
        check_line("ends of Z", &d, line_call(MODIFIED_LINE, 0));
    }
}

/* A card from before there were records sends 0.00 for Z and for the modified index, and its index as ever. */
static void try_lines_before_records(void) {
    decade d = drawn_decade(30, 4), before = d;
    memset(d.held.records, 0, sizeof d.held.records);
    d.held.records[29].surface = (int32_t)d.run.soil.surface;
    d.held.records[29].underlying = (int32_t)d.run.soil.underlying;
    for (int i = 0; i < ELEMENTS; i++) {
        answer a = check_line_number("no records", &d, line_call(WRITES[i], 1), CARD_DONE);
        answer b = check_line_number("records", &before, line_call(WRITES[i], 1), CARD_DONE);
        for (int month = 0; month < 12; month++)
            check("no records", i == 0 || memcmp(a.line + LINE_HEADING + 7 * month, "   0.00", 7) == 0, "not 0.00");
        if (i == 0) check("no records", memcmp(a.line, b.line, CARD_LINE) == 0, "another index");
    }
}

/* The longest run: its first years, its last ones, and those after it. */
static void try_longest(void) {
    static long_lists held, before;
    card_columns k = lent_long(&held, CARD_MOST_MONTHS);
    memset(&held, 0x4d, sizeof held);
    card_run run = card_start(any_constants(), CARD_CONSTANTS, 6000, 1000, 3000, 9).run;
    while (run.months < CARD_MOST_MONTHS) run = card_add_z_in(k, run, drawn(-6000, 6000)).run;
    before = held;
    for (int i = 0; i < ELEMENTS; i++)
        for (uint32_t which = 0; which < 1010; which += which == 3 ? 495 : which == 500 ? 495 : 1) {
            call c = line_call(WRITES[i], which);
            answer expected = line_by_rule(c, run, k, CARD_DONE), a = by_columns(c, run, k), b = by_lists(c, run, k);
            check_same("a thousand years of lines", &a, &expected);
            check_same("a thousand years of lines", &b, &expected);
            check_number("a thousand years of lines", a.number, CARD_DONE);
        }
    check("a thousand years of lines", memcmp(&held, &before, sizeof held) == 0, "a column was written");
}

/* ---- Reading -------------------------------------------------------------------------------------- */

static const char *const GOOD_VALUES =
    "   0.05  -0.05 -99.99 100.00-999.999999.99    .73   -.05  -9.99  -0.00  12.34 -12.34";
static const char *const RAIN_VALUES =
    "   0.05   0.00  -9.99 100.00  99.99   7.03    .73   -.00  -9.99  -0.00  12.34    .00";

static void make_line(uint8_t *line, const char *heading, const char *values) {
    memcpy(line, heading, LINE_HEADING);
    memcpy(line + LINE_HEADING, values, CARD_LINE - LINE_HEADING);
}

static const char *const HEADINGS[ELEMENTS] = {"1407051932", "1407071932", "1407081932"};

/* What a line says, number by number. */
static void try_a_reading(void) {
    static const int32_t expected[12] = {5, -5, 0, 10000, -99999, 999999, 73, -5, -999, 0, 1234, -1234};
    uint8_t line[CARD_LINE];
    for (int i = 0; i < ELEMENTS; i++) {
        make_line(line, HEADINGS[i], GOOD_VALUES);
        card_line_figures f = check_read_line("a reading", WRITES[i], line, CARD_LINE, 14, 7, 1932);
        check_number("a reading", f.number, CARD_DONE);
        check("a reading", memcmp(f.hundredths, expected, sizeof expected) == 0, "other values");
        check("a reading", f.present == 0xffb && f.count == 11 && f.first_missing == 3, "another set of months");
    }
    for (unsigned set = 0; set < 4096; set++) {
        uint32_t first = 0, count = 0;
        make_line(line, HEADINGS[set % 3], GOOD_VALUES);
        for (int i = 11; i >= 0; i--) {
            int missing = !(set >> i & 1);
            memcpy(line + LINE_HEADING + 7 * i, missing ? " -99.99" : " -99.98", 7);
            if (missing) first = (uint32_t)i + 1;
            count += !missing;
        }
        card_line_figures f = check_read_line("months present", WRITES[set % 3], line, CARD_LINE, 14, 7, 1932);
        check("months present", f.number == CARD_DONE && f.present == set && f.count == count &&
              f.first_missing == first, "another set, count or first");
    }
}

/* Fields, and whether they are numbers. */
static void try_fields(void) {
    static const struct {
        const char *field;
        int number;
        int32_t hundredths;
    } fields[] = {
        {"   7.03", 1, 703},    {"    .73", 1, 73},    {"   -.05", 1, -5},     {" 100.00", 1, 10000},
        {"  -9.99", 1, -999},   {"  -0.00", 1, 0},     {"   -.00", 1, 0},      {"    .00", 1, 0},
        {"9999.99", 1, 999999}, {"-999.99", 1, -99999}, {" -99.98", 1, -9998}, {"-100.00", 1, -10000},
        {"1000.00", 1, 100000}, {"  07.03", 0, 0},     {"0007.03", 0, 0},      {"  +7.03", 0, 0},
        {" - 9.99", 0, 0},      {"  00.05", 0, 0},     {" -00.05", 0, 0},      {"-099.99", 0, 0},
        {"-  9.99", 0, 0},      {"7   .03", 0, 0},     {"  7 .03", 0, 0},      {"       ", 0, 0},
        {"*******", 0, 0},      {"  7.030", 0, 0},     {"   7,03", 0, 0},      {"  7..03", 0, 0},
        {"   7.0 ", 0, 0},      {"   7. 3", 0, 0},     {"  -7.-3", 0, 0},      {"  --.05", 0, 0},
        {"   -. 5", 0, 0},      {"   7.3e", 0, 0},     {"12345.6", 0, 0},      {"-12.345", 0, 0},
        {"   0x.1", 0, 0},      {"    .  ", 0, 0},     {"\t  7.03", 0, 0},     {"   \t.05", 0, 0},
        {"0000.00", 0, 0},      {" 000.00", 0, 0},     {"-000.00", 0, 0},      {"   .005", 0, 0},
        {" 99.99 ", 0, 0},      {"  99.9-", 0, 0},     {"99.99- ", 0, 0},      {"  -.005", 0, 0},
    };
    uint8_t line[CARD_LINE];
    for (size_t n = 0; n < sizeof fields / sizeof *fields; n++)
        for (int month = 0; month < 12; month++) {
            make_line(line, HEADINGS[n % 3], GOOD_VALUES);
            memcpy(line + LINE_HEADING + 7 * month, fields[n].field, 7);
            card_line_figures f = check_read_line(fields[n].field, WRITES[n % 3], line, CARD_LINE, 14, 7, 1932);
            check_number(fields[n].field, f.number, fields[n].number ? CARD_DONE : CARD_MALFORMED);
            check(fields[n].field, f.hundredths[month] == fields[n].hundredths, "another value");
            if (!fields[n].number)
                check(fields[n].field, card_line_fault(line, CARD_LINE) == 11 + 7 * (uint32_t)month, "another column");
        }
}

/* Every byte of a line as every other, on a line of each element and on one of precipitation. */
static void try_damages(void) {
    for (int i = 0; i <= ELEMENTS; i++)
        for (int place = 0; place < CARD_LINE; place++)
            for (int byte = 0; byte < 256; byte++) {
                uint8_t line[CARD_LINE];
                make_line(line, i < ELEMENTS ? HEADINGS[i] : "1407011932", i < ELEMENTS ? GOOD_VALUES : RAIN_VALUES);
                line[place] = (uint8_t)byte;
                check_read_line("a damage", WRITES[i % 3], line, CARD_LINE, 14, 7, 1932);
            }
    /* and fields of characters that a field may have, at every place */
    static const char some[] = "  -0019.";
    for (int n = 0; n < 200000; n++) {
        uint8_t line[CARD_LINE];
        make_line(line, n % 9 ? HEADINGS[n % 3] : "1407011932", n % 9 ? GOOD_VALUES : RAIN_VALUES);
        uint8_t *field = line + LINE_HEADING + 7 * (n % 12);
        for (int i = 0; i < 7; i++)
            if (drawn(0, 2)) field[i] = (uint8_t)some[drawn(0, 7)];
        check_read_line("a field of odd characters", WRITES[n % 3], line, CARD_LINE, 14, 7, 1932);
    }
}

/* Lines of every length, and everything after column 94. */
static void try_ends_of_lines(void) {
    uint8_t line[LINE_ROOM];
    for (int i = 0; i < ELEMENTS; i++) {
        memset(line, ' ', sizeof line);
        make_line(line, HEADINGS[i], GOOD_VALUES);
        for (size_t length = 0; length <= sizeof line; length++) {
            card_line_figures f = check_read_line("the length of a line", WRITES[i], line, length, 14, 7, 1932);
            check_number("the length of a line", f.number, length < 94 ? CARD_MALFORMED : CARD_DONE);
            uint32_t fault = length < 94 ? (uint32_t)length + 1 : 0;
            check("the length of a line", card_line_fault(line, length) == fault, "another fault");
            check("the length of a line", card_line_year(line, length) == (length < 10 ? 0 : 1932), "another year");
        }
        for (int byte = 0; byte < 256; byte++)
            for (size_t place = CARD_LINE; place < sizeof line; place += 15) {
                line[place] = (uint8_t)byte;
                card_line_figures f = check_read_line("after column 94", WRITES[i], line, place + 1, 14, 7, 1932);
                check_number("after column 94", f.number, byte == ' ' ? CARD_DONE : CARD_MALFORMED);
                check("after column 94", card_line_fault(line, sizeof line) == (byte == ' ' ? 0 : 95), "another fault");
                f = check_read_line("before it", WRITES[i], line, place, 14, 7, 1932);
                check_number("before it", f.number, CARD_DONE);
                line[place] = ' ';
            }
    }
}

/* A line whose own element is precipitation has its range, whatever is asked for; no other has. */
static void try_rain(void) {
    static const struct {
        const char *field;
        int rain;
    } fields[] = {{"  -9.99", 1}, {"   0.00", 1}, {"  -0.00", 1}, {" 100.00", 1}, {"  99.99", 1}, {"  -9.98", 0},
                  {" -10.00", 0}, {" -99.99", 0}, {"  -0.01", 0}, {" 100.01", 0}, {"9999.99", 0}, {"-999.99", 0}};
    uint8_t line[CARD_LINE];
    char heading[16];
    for (unsigned element = 0; element < 100; element++)
        for (size_t n = 0; n < sizeof fields / sizeof *fields; n++) {
            int month = drawn(0, 11), kind = WRITES[n % 3];
            snprintf(heading, sizeof heading, "1407%02u1932", element);
            make_line(line, heading, RAIN_VALUES);
            memcpy(line + LINE_HEADING + 7 * month, fields[n].field, 7);
            uint8_t number = element == element_of(kind) ? CARD_DONE : CARD_OTHER_LINE;
            if (element == 1 && !fields[n].rain) number = CARD_MALFORMED;
            card_line_figures f = check_read_line("an element", kind, line, CARD_LINE, 14, 7, 1932);
            check_number("an element", f.number, number);
        }
}

/* 14, 15, 16, in this order; and what is asked for at and past its ends. */
static void try_order_of_readings(void) {
    static const uint32_t odd[] = {0, 1, 14, 7, 99, 100, 1407, 1932, 9999, 10000, 65550, UINT32_MAX};
    uint8_t line[CARD_LINE];
    for (int i = 0; i < ELEMENTS; i++)
        for (unsigned set = 0; set < 32; set++) {
            make_line(line, set & 8 ? "1407061932" : HEADINGS[i], GOOD_VALUES);
            if (set & 1) line[93] = 'x';
            uint8_t number = set ? CARD_NOT_THE_YEAR : CARD_DONE;
            if (set & 14) number = CARD_OTHER_LINE;
            if (set & 1) number = CARD_MALFORMED;
            card_line_figures f = check_read_line("order of readings", WRITES[i], line, CARD_LINE, set & 2 ? 15 : 14,
                                                  set & 4 ? 8 : 7, set & 16 ? 1933 : 1932);
            check_number("order of readings", f.number, number);
        }
    for (unsigned n = 0; n < 12 * 12 * 12; n++) {
        uint32_t state = odd[n % 12], division = odd[n / 12 % 12], year = odd[n / 144];
        make_line(line, HEADINGS[n % 3], GOOD_VALUES);
        uint8_t number = state != 14 || division != 7 ? CARD_OTHER_LINE : year != 1932 ? CARD_NOT_THE_YEAR : CARD_DONE;
        card_line_figures f = check_read_line("asked for", WRITES[n % 3], line, CARD_LINE, state, division, year);
        check_number("asked for", f.number, number);
    }
    static const char *const extremes[3] = {"0000050000", "9999059999", "0099050099"};
    for (int i = 0; i < 3; i++) {
        make_line(line, extremes[i], GOOD_VALUES);
        card_line_figures f = check_read_line("extremes", INDEX_LINE, line, CARD_LINE, digits_of(line, 2),
                                              digits_of(line + 2, 2), digits_of(line + 6, 4));
        check_number("extremes", f.number, CARD_DONE);
        check("extremes", card_line_year(line, CARD_LINE) == digits_of(line + 6, 4), "another year");
    }
}

static void try_lines_all(void) {
    try_words();
    try_rows_of_years();
    try_marks();
    try_unsettled();
    try_ends();
    try_halves();
    try_numbers();
    try_line_lengths();
    try_null_lines();
    try_spoiled_runs();
    try_order_of_lines();
    try_random_runs();
    try_ends_of_z();
    try_lines_before_records();
    try_longest();
    try_a_reading();
    try_fields();
    try_damages();
    try_ends_of_lines();
    try_rain();
    try_order_of_readings();
    static const uint8_t numbers[] = {CARD_DONE,       CARD_NOT_A_RUN,    CARD_UNFIT, CARD_SHORT_LINE,
                                      CARD_MALFORMED,  CARD_OTHER_LINE,   CARD_NOT_THE_YEAR};
    for (size_t i = 0; i < sizeof numbers; i++) check("lines", line_numbers_met[numbers[i]] > 0, "not every number");
}
