/* A part of header.c: what include/card.h says of repairs. That a repair comes to what a fresh run over the corrected
 * months comes to is tried with runs of all kinds of months, and what stands before and after in every list is
 * compared. */

static call repair_call(size_t row, card_reading p, card_reading pe) {
    call c = {0};
    c.kind = REPAIR;
    c.row = row;
    c.p = p;
    c.pe = pe;
    return c;
}

/* ---- A fresh run over the corrected months -------------------------------------------------------- */

/* A run, its columns, and what its months were added with: single adds, as corrected since. */
typedef struct history {
    card_run run;
    lists held;
    call months[MONTHS];
} history;

static void add_to(history *h, call c) {
    h->months[h->run.months] = c;
    answer a = by_columns(c, h->run, lent(&h->held, MONTHS));
    check_number("a month to be repaired", a.number, CARD_DONE);
    h->run = a.run;
}

/* Adds single months until there are so many, one in `waterless` as a Z, or none. */
static void add_until(history *h, uint32_t months, int32_t waterless) {
    while (h->run.months < months) {
        int z = waterless && drawn(1, waterless) == 1;
        add_to(h, good_call(z ? Z : drawn(WATER, INCHES)));
    }
}

static history fresh_history(uint32_t months, int32_t waterless) {
    history h;
    h.run = station();
    h.held = fresh_lists();
    add_until(&h, months, waterless);
    return h;
}

/* The report that these lists of before and after should have. */
static uint32_t report_of(card_change *report, const lists *before, const lists *after, uint32_t months) {
    uint32_t changed = 0;
    for (uint32_t i = 0; i < months; i++) {
        if (before->index[i] == after->index[i] && before->mark[i] == after->mark[i]) continue;
        card_change c = {(int32_t)i, before->index[i], after->index[i], before->mark[i], after->mark[i]};
        report[changed++] = c;
    }
    return changed;
}

static struct {
    unsigned settled, opened, before, unreported;
} met;

/* Notes what a repair met: settled months changed, settled months open again, months before the repaired one; and
 * months that are not reported though another figure of theirs changed. */
static void note_met(const lists *before, const lists *after, const answer *a, size_t row) {
    for (uint32_t i = 0; i < a->changed; i++) {
        met.settled += a->report[i].mark_before == CARD_SETTLED;
        met.opened += a->report[i].mark_before == CARD_SETTLED && a->report[i].mark_after == CARD_OPEN;
        met.before += a->report[i].row < (int32_t)row;
    }
    for (size_t i = row; i < a->run.months; i++)
        met.unreported += before->index[i] == after->index[i] && before->mark[i] == after->mark[i] &&
                          !same_record(&before->records[i], &after->records[i]);
}

/* Repairs a month, and holds columns, run and report to the fresh run. */
static void repair_in(history *h, size_t row, card_reading p, card_reading pe) {
    const lists before = h->held;
    answer a = by_columns(repair_call(row, p, pe), h->run, lent(&h->held, MONTHS));
    check_number("a repair", a.number, CARD_DONE);
    h->months[row] = good_call(WATER);
    h->months[row].p = p;
    h->months[row].pe = pe;
    history fresh = fresh_history(0, 0);
    for (uint32_t i = 0; i < h->run.months; i++) add_to(&fresh, h->months[i]);
    answer expected = {0};
    expected.run = fresh.run;
    expected.changed = report_of(expected.report, &before, &fresh.held, fresh.run.months);
    check_same("a repair", &a, &expected);
    check("a repair", same_lists(&h->held, &fresh.held), "other columns than a fresh run's");
    note_met(&before, &h->held, &a, row);
    h->run = a.run;
}

static int had_water(const history *h, size_t row) { return h->held.records[row].water == CARD_HAD_WATER; }

/* Repairs of one month and of several, in any order and twice, with months added between them. */
static void try_repairs(void) {
    for (int n = 0; n < 300; n++) {
        history h = fresh_history((uint32_t)drawn(1, 30), n % 3 * 4);
        for (int i = 0; i < 8; i++) {
            size_t row = (size_t)drawn(0, (int32_t)h.run.months - 1);
            call c = good_call(WATER);
            if (had_water(&h, row)) repair_in(&h, row, c.p, c.pe);
            add_until(&h, h.run.months + (uint32_t)drawn(0, 2), 5);
        }
    }
    check("repairs", met.settled > 0 && met.opened > 0 && met.before > 0 && met.unreported > 0,
          "no settled month changed, none is open again, none stands before the month, or all are reported");
}

/* The readings of a record, as the header says that they are kept. */
static void repair_as_recorded(history *h, size_t row) {
    const lists before = h->held;
    const card_run run = h->run;
    card_record r = card_row_in(lent(&h->held, MONTHS), run, row).month;
    card_reading p = r.kind == CARD_TRACE ? card_inches(0.0001f) : card_whole(r.p);
    answer a = by_columns(repair_call(row, p, card_whole(r.pe)), run, lent(&h->held, MONTHS));
    answer expected = {0};
    expected.run = run;
    check_same("readings as recorded", &a, &expected);
    check("readings as recorded", same_lists(&h->held, &before), "other columns");
}

static void try_as_recorded(void) {
    for (int n = 0; n < 60; n++) {
        history h = fresh_history((uint32_t)drawn(1, MONTHS), 4);
        for (size_t row = 0; row < h.run.months; row++)
            if (had_water(&h, row)) repair_as_recorded(&h, row);
    }
}

/* The longest columns, full: the first month, and one far down. */
static void try_long_repair(void) {
    static long_lists held, fresh;
    static card_reading p[CARD_MOST_MONTHS], pe[CARD_MOST_MONTHS];
    card_columns k = lent_long(&held, CARD_MOST_MONTHS), all = lent_long(&fresh, CARD_MOST_MONTHS);
    card_run run = station();
    memset(&held, 77, sizeof held);
    memset(&fresh, 77, sizeof fresh);
    for (int i = 0; i < CARD_MOST_MONTHS; i++) {
        p[i] = card_whole(drawn(0, 6000));
        pe[i] = card_whole(drawn(0, 8000));
        run = card_add_water_in(k, run, p[i], pe[i]).run;
    }
    static const size_t rows[2] = {0, 7654};
    for (int i = 0; i < 2; i++) {
        p[rows[i]] = card_inches(9.5f);
        answer a = by_columns(repair_call(rows[i], p[rows[i]], pe[rows[i]]), run, k);
        check_number("a long repair", a.number, CARD_DONE);
        check("a long repair", a.changed > 0, "it changes nothing");
        run = a.run;
    }
    card_run straight = station();
    for (int i = 0; i < CARD_MOST_MONTHS; i++) straight = card_add_water_in(all, straight, p[i], pe[i]).run;
    check("a long repair", same_run(&run, &straight) && memcmp(&held, &fresh, sizeof held) == 0,
          "not what a fresh run comes to");
}

/* ---- Its refusals --------------------------------------------------------------------------------- */

static void check_no_repair(const char *where, history *h, call c, card_columns k, uint8_t number) {
    const lists before = h->held;
    answer a = by_columns(c, h->run, k);
    check_refused(where, &a, number, h->run);
    check(where, same_lists(&h->held, &before), "a refused repair has written");
}

/* Each refusal beside all that come after it: 1, 7, 11, 17, precipitation 8 or 9, PE 8 or 9. */
static void try_order(void) {
    history h = fresh_history(20, 0);
    add_to(&h, good_call(Z));
    add_until(&h, 30, 0);
    card_columns k = lent(&h.held, MONTHS), unequal = k;
    const size_t z = 20, water = 5;
    unequal.mark_length--;
    call c = repair_call(SIZE_MAX, card_missing(), card_missing());
    h.held.records[3].kind = 3;
    check_no_repair("1 before 7", &h, c, unequal, CARD_LENGTHS);
    check_no_repair("7 before 11", &h, c, k, CARD_NOT_A_RUN);
    h.held.records[3].kind = CARD_NONE;
    check_no_repair("11 before 8", &h, c, k, CARD_NO_ROW);
    c.row = h.run.months;
    check_no_repair("11 before 8", &h, c, k, CARD_NO_ROW);
    c.row = z;
    check_no_repair("17 before 8", &h, c, k, CARD_WATERLESS);
    c.p = card_whole(1000);
    c.pe = card_whole(1000);
    check_no_repair("17", &h, c, k, CARD_WATERLESS);
    c.row = water;
    c.p = card_missing();
    c.pe = card_whole(-1);
    check_no_repair("precipitation first", &h, c, k, CARD_MISSING_READING);
    c.p = card_whole(-1);
    c.pe = card_missing();
    check_no_repair("precipitation first", &h, c, k, CARD_BAD_READING);
    c.p = card_whole(1000);
    check_no_repair("PE missing", &h, c, k, CARD_MISSING_READING);
    c.pe = card_inches(100.5f);
    check_no_repair("PE not acceptable", &h, c, k, CARD_BAD_READING);
    card_run run = h.run;
    h.run = station();
    c.row = 0;
    check_no_repair("a run of no months", &h, c, k, CARD_NO_ROW);
    h.run = run;
}

/* The report by its length: any but the columns' is 1, and NULL beside 0 is not looked at. */
static void try_report_lengths(void) {
    history h = fresh_history(10, 0);
    const lists before = h.held;
    card_columns k = lent(&h.held, MONTHS);
    card_reading p = card_whole(700);
    static const size_t lengths[] = {0, 1, 10, MONTHS - 1, MONTHS + 1, CARD_MOST_MONTHS + 1};
    for (size_t i = 0; i < sizeof lengths / sizeof *lengths; i++) {
        size_t n = lengths[i];
        answer a = of_repaired(card_repair(h.run, 0, p, p, EACH(k), lent_report(n), n), n);
        check("a report's length", handed_report == reports || n == 0, "another list is handed on");
        check("a report's length", handed_report_length == n, "another length is handed on");
        check_refused("a report's length", &a, CARD_LENGTHS, h.run);
    }
    card_repaired b = card_repair(h.run, 0, p, p, EACH(k), NULL, 0);
    check_number("no report", b.number, CARD_LENGTHS);
    card_columns zeros = {0};
    b = card_repair_in(zeros, h.run, 0, p, p, NULL);
    check_number("no columns and no report", b.number, CARD_LENGTHS);
    check("a report's length", same_lists(&h.held, &before), "a column was written");
    by_columns(repair_call(0, p, p), h.run, k);
    check("a report's length", handed_report == reports && handed_report_length == MONTHS,
          "not as long as the columns");
}

/* ---- The ranges that 7 asks for ------------------------------------------------------------------- */

/* Whether the rows are in range, by a repair of the first month of water. What it refuses then a row does not. */
static void check_fits(const char *where, const history *h, int fits) {
    history tried = *h;
    size_t row = 0;
    while (tried.held.records[row].water != CARD_HAD_WATER) row++;
    uint8_t number = by_columns(repair_call(row, card_whole(900), card_whole(800)), tried.run,
                                lent(&tried.held, MONTHS)).number;
    check_number(where, number, fits ? CARD_DONE : CARD_NOT_A_RUN);
    if (fits) return;
    check(where, same_lists(&tried.held, &h->held), "a refused repair has written");
    check_number(where, card_row_in(lent(&tried.held, MONTHS), tried.run, 0).number, CARD_DONE);
}

/* A number at and beside both ends of its range. */
static void check_range(const char *where, history *h, int32_t *number, int32_t low, int32_t high) {
    int32_t held = *number;
    int32_t within[] = {low, high}, beyond[] = {low - 1, high + 1, INT32_MIN, INT32_MAX};
    for (int i = 0; i < 2; i++) {
        *number = within[i];
        check_fits(where, h, 1);
    }
    for (int i = 0; i < 4; i++) {
        *number = beyond[i];
        check_fits(where, h, 0);
    }
    *number = held;
}

/* V of a row, by its sign, with an X3 of the other. */
static void check_v(history *h, size_t row, int sign) {
    int64_t held = h->held.v[row], most = sign * 4000150 * (int64_t)(row + 1);
    int32_t x3 = h->held.x3[row];
    h->held.x3[row] = sign * -700;
    h->held.v[row] = most;
    check_fits("V at its end", h, 1);
    h->held.v[row] = most + sign;
    check_fits("V beyond its end", h, 0);
    h->held.v[row] = sign > 0 ? INT64_MAX : INT64_MIN;
    check_fits("V far beyond its end", h, 0);
    for (int turned = 0; turned <= 1; turned++) {
        h->held.v[row] = sign;
        h->held.x3[row] = turned * sign * 700;
        check_fits("V with an X3 of its own sign, or 0", h, 0);
    }
    h->held.x3[row] = x3;
    h->held.v[row] = held;
}

static void check_row_ranges(history *h, size_t row) {
    lists *k = &h->held;
    card_record *r = &k->records[row];
    int64_t v = k->v[row];
    k->v[row] = 0;
    check_range("X1", h, &k->x1[row], 0, 13000000);
    check_range("X2", h, &k->x2[row], -13000000, 0);
    check_range("X3", h, &k->x3[row], -13000000, 13000000);
    k->v[row] = v;
    check_v(h, row, 1);
    check_v(h, row, -1);
    check_range("index", h, &k->index[row], -13000000, 13000000);
    check_range("modified", h, &r->modified, -13000000, 13000000);
    check_range("Z", h, &r->z, -4000000, 4000000);
    int32_t *amounts[6] = {&r->p, &r->pe, &r->et, &r->r, &r->l, &r->ro};
    for (int i = 0; i < 6; i++) check_range("an amount", h, amounts[i], 0, 100000);
    check_range("Ss", h, &r->ss, 0, 1000);
    check_range("Su", h, &r->su, 0, 5000);
    if (row + 1 < h->run.months) {
        check_range("surface", h, &r->surface, 0, 1000);
        check_range("underlying", h, &r->underlying, 0, 5000);
    }
    check_range("kind", h, &r->kind, 0, 2);
    if (row > 0) check_range("water", h, &r->water, 0, 1);
    uint8_t held = k->mark[row];
    for (int mark = 0; mark < 256; mark++) {
        k->mark[row] = (uint8_t)mark;
        check_fits("a mark", h, mark == CARD_OPEN || mark == CARD_SETTLED);
    }
    k->mark[row] = held;
}

/* Every figure of every row; what stands after the months is not looked at, as fresh_lists has it. */
static void try_ranges(void) {
    history h = fresh_history(12, 0);
    for (size_t row = 0; row < h.run.months; row++) check_row_ranges(&h, row);
    /* the layers of a thin soil */
    h.run = card_start(CONSTANTS, CARD_CONSTANTS, 400, 100, 0, 6).run;
    add_until(&h, 12, 0);
    check_range("Ss of a thin soil", &h, &h.held.records[4].ss, 0, 400);
    check_range("Su of a thin soil", &h, &h.held.records[4].su, 0, 0);
}

/* ---- Columns that somebody else wrote ------------------------------------------------------------- */

/* The run before a month by the header's words, and its columns, from rows that were changed by hand. */
static void go_back(history *h, uint32_t row) {
    lists *k = &h->held;
    uint32_t months = h->run.months, opens = 0;
    card_values before = {0, 0, 0, 0};
    if (row > 0) before.x1 = k->x1[row - 1], before.x2 = k->x2[row - 1], before.x3 = k->x3[row - 1];
    if (row > 0) before.v = k->v[row - 1];
    for (uint32_t i = row; i > 0; i--) {
        int32_t x1 = k->x1[i - 1], x2 = k->x2[i - 1], x3 = k->x3[i - 1];
        if (k->v[i - 1] == 0 && (x1 == 0 || x2 == 0)) break;
        opens++;
        k->index[i - 1] = x3 != 0 ? x3 : x1 > -x2 ? x1 : x2;
        k->mark[i - 1] = CARD_OPEN;
    }
    h->run.months = row;
    h->run.opens = opens;
    h->run.calendar = (h->run.calendar + 11 + 12 * MONTHS - (months - row)) % 12 + 1;
    h->run.soil.surface = (uint32_t)k->records[row].ss;
    h->run.soil.underlying = (uint32_t)k->records[row].su;
    h->run.values = before;
}

/* X1, X2, X3, V, index and mark of some rows drawn anew, with ties of X1 and X2 among them. */
static void spoil(history *h) {
    for (uint32_t i = 0; i < h->run.months; i++) {
        if (drawn(0, 2)) continue;
        h->held.x1[i] = drawn(0, 1) * drawn(0, 1500);
        h->held.x2[i] = drawn(0, 3) ? -drawn(0, 1) * drawn(0, 1500) : -h->held.x1[i];
        h->held.x3[i] = drawn(0, 1) ? 0 : drawn(-4000, 4000);
        h->held.v[i] = h->held.x3[i] == 0 ? 0 : h->held.x3[i] < 0 ? drawn(0, 900) : -drawn(0, 900);
        h->held.index[i] = drawn(-9000, 9000);
        h->held.mark[i] = (uint8_t)drawn(CARD_OPEN, CARD_SETTLED);
    }
}

/* They are answered by the same rule. */
static void try_spoiled(void) {
    for (int n = 0; n < 2000; n++) {
        history h = fresh_history((uint32_t)drawn(1, MONTHS), 0);
        uint32_t months = h.run.months, row = (uint32_t)drawn(0, (int32_t)months - 1);
        spoil(&h);
        const lists before = h.held;
        history by_hand = h;
        call c = good_call(WATER);
        answer a = by_columns(repair_call(row, c.p, c.pe), h.run, lent(&h.held, MONTHS));
        go_back(&by_hand, row);
        add_to(&by_hand, c);
        while (by_hand.run.months < months) {
            card_record r = by_hand.held.records[by_hand.run.months];
            call later = repair_call(0, card_whole(r.p), card_whole(r.pe));
            if (r.kind == CARD_TRACE) later.p = card_inches(0.0001f);
            later.kind = WATER;
            add_to(&by_hand, later);
        }
        answer expected = {0};
        expected.run = by_hand.run;
        expected.changed = report_of(expected.report, &before, &by_hand.held, months);
        check_same("columns that somebody else wrote", &a, &expected);
        check("columns that somebody else wrote", same_lists(&h.held, &by_hand.held), "other columns");
    }
}

/* ---- Columns and records of before ---------------------------------------------------------------- */

/* Whether a month since place `from`, and before `row`, has settled any. */
static int has_settled(const lists *k, size_t from, size_t row) {
    for (size_t i = from; i < row; i++)
        if (k->v[i] == 0 && (k->x1[i] == 0 || k->x2[i] == 0)) return 1;
    return 0;
}

/* Five columns that went on beside two lists of zeros: the months of before have no reading; those after the first
 * since that settled any are repaired as if all had records. */
static void try_repair_five_columns(void) {
    unsigned repaired = 0;
    for (uint32_t months = 1; months < 30; months++) {
        history whole = fresh_history(months, 4), five = whole;
        memset(five.held.records, 0, sizeof five.held.records);
        memset(five.held.v, 0, sizeof five.held.v);
        five.held.records[months - 1].surface = (int32_t)five.run.soil.surface;
        five.held.records[months - 1].underlying = (int32_t)five.run.soil.underlying;
        while (whole.run.months < MONTHS) {
            call c = good_call(drawn(WATER, INCHES));
            add_to(&whole, c);
            add_to(&five, c);
        }
        for (size_t row = 0; row < MONTHS; row++) {
            call c = good_call(WATER);
            c = repair_call(row, c.p, c.pe);
            if (row < months) check_no_repair("no record", &five, c, lent(&five.held, MONTHS), CARD_WATERLESS);
            if (!has_settled(&whole.held, months, row)) continue;
            answer a = by_columns(c, whole.run, lent(&whole.held, MONTHS));
            answer b = by_columns(c, five.run, lent(&five.held, MONTHS));
            check_number("a month since", b.number, CARD_DONE);
            check_same("a month since", &b, &a);
            check("a month since", memcmp(five.held.x1, whole.held.x1, offsetof(lists, records)) == 0,
                  "the five columns differ");
            for (size_t i = months; i < MONTHS; i++)
                check("a month since", same_record(&five.held.records[i], &whole.held.records[i]) &&
                      five.held.v[i] == whole.held.v[i], "a record or V differs");
            whole.run = five.run = a.run;
            repaired++;
        }
    }
    check("a month since", repaired > 0, "none");
}

/* Records that were copied with 0 for what they had not: a repair keeps a kind of 0, but in its own month, and works
 * out the modified indexes of its month and of all after it. */
static void try_repair_short_records(int no_modified) {
    for (uint32_t months = 2; months < MONTHS; months++) {
        history whole = fresh_history(months, 0), cut = whole;
        for (uint32_t i = 0; i < months; i++) {
            cut.held.records[i].kind = CARD_NONE;
            if (no_modified) cut.held.records[i].modified = 0;
        }
        size_t row = months % 2 ? 0 : (size_t)drawn(0, (int32_t)months - 1);
        call c = good_call(WATER);
        c = repair_call(row, c.p, c.pe);
        const lists before = cut.held;
        answer a = by_columns(c, whole.run, lent(&whole.held, MONTHS));
        answer b = by_columns(c, cut.run, lent(&cut.held, MONTHS));
        check_number("short records", b.number, CARD_DONE);
        check_same("short records", &b, &a);
        lists wanted = whole.held;
        for (size_t i = 0; i < months; i++) {
            if (i != row) wanted.records[i].kind = CARD_NONE;
            if (i < row) wanted.records[i].modified = before.records[i].modified;
        }
        check("short records", same_lists(&cut.held, &wanted), "other columns");
    }
}

/* ---- A run and columns that do not belong together ------------------------------------------------ */

/* Of before a repair and of after it: refused exactly where the storages at the end of the last month differ. */
static void try_repair_not_together(void) {
    unsigned taken = 0, not_taken = 0;
    for (int n = 0; n < 400; n++) {
        history before = fresh_history((uint32_t)drawn(1, 20), 0), after = before;
        call c = good_call(WATER);
        size_t row = (size_t)drawn(0, (int32_t)before.run.months - 1);
        after.run = by_columns(repair_call(row, c.p, c.pe), after.run, lent(&after.held, MONTHS)).run;
        int same = before.run.soil.surface == after.run.soil.surface &&
                   before.run.soil.underlying == after.run.soil.underlying;
        uint8_t earlier = card_row_in(lent(&after.held, MONTHS), before.run, 0).number;
        uint8_t later = card_row_in(lent(&before.held, MONTHS), after.run, 0).number;
        check_number("a run of before a repair", earlier, same ? CARD_DONE : CARD_NOT_A_RUN);
        check_number("columns of before a repair", later, same ? CARD_DONE : CARD_NOT_A_RUN);
        taken += same != 0;
        not_taken += same == 0;
    }
    check("run and columns", taken > 0 && not_taken > 0, "not both");
}

static void try_repairs_all(void) {
    try_repairs();
    try_as_recorded();
    try_long_repair();
    try_order();
    try_report_lengths();
    try_ranges();
    try_spoiled();
    try_repair_five_columns();
    try_repair_short_records(0);
    try_repair_short_records(1);
    try_repair_not_together();
}
