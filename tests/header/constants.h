/* A part of header.c: what include/card.h says of sums and of constants that are worked out again. What the calls
 * answer is held to the header's rules, which are reckoned here once more, in 64-bit numbers. Every call is made in the
 * three ways, and may write nothing. */

/* ---- The header's rules --------------------------------------------------------------------------- */

/* Nearest to n / d, halves away from zero. */
static int64_t nearest(int64_t n, int64_t d) {
    int64_t size = ((n < 0 ? -n : n) + d / 2) / d;
    return n < 0 ? -size : size;
}

static int64_t smaller(int64_t a, int64_t b) { return a < b ? a : b; }

static int64_t surface_layer(int64_t capacity) { return smaller(1000, capacity); }

/* The record of a month of water with these storages at its start, by document 01, whether they are in range or not. */
static card_record water_of(int64_t capacity, int64_t p, int64_t pe, int64_t ss, int64_t su) {
    int64_t ls = 0, lu = 0, upper = 0, lower = 0, ro = 0, top = surface_layer(capacity);
    if (p < pe) {
        ls = smaller(ss, pe - p);
        lu = smaller(su, nearest((pe - p - ls) * su, capacity));
    } else {
        upper = smaller(p - pe, top - ss);
        lower = smaller(p - pe - upper, capacity - top - su);
        ro = p - pe - upper - lower;
    }
    card_record made = {0};
    made.p = (int32_t)p;
    made.pe = (int32_t)pe;
    made.et = (int32_t)(p < pe ? p + ls + lu : pe);
    made.r = (int32_t)(upper + lower);
    made.l = (int32_t)(ls + lu);
    made.ro = (int32_t)ro;
    made.ss = (int32_t)ss;
    made.su = (int32_t)su;
    made.surface = (int32_t)(ss - ls + upper);
    made.underlying = (int32_t)(su - lu + lower);
    made.water = CARD_HAD_WATER;
    return made;
}

static int within(int64_t x, int64_t most) { return 0 <= x && x <= most; }

/* Whether a record of water is one that an add gives. */
static int is_given(const card_record *r, int64_t capacity) {
    int64_t top = surface_layer(capacity);
    if (!within(r->p, 100000) || !within(r->pe, 100000) || !within(r->ss, top) || !within(r->su, capacity - top))
        return 0;
    card_record w = water_of(capacity, r->p, r->pe, r->ss, r->su);
    return r->et == w.et && r->r == w.r && r->l == w.l && r->ro == w.ro && r->surface == w.surface &&
           r->underlying == w.underlying;
}

/* The rows of a run that started in calendar month `first`. */
typedef struct rows {
    const card_run *run;
    const card_record *records;
    uint32_t first;
} rows;

/* The row of the first January, by going through the calendar. */
static uint32_t january(const rows *k) {
    uint32_t row = 0;
    for (uint32_t month = k->first; month != 1; month = month % 12 + 1) row++;
    return row;
}

static uint32_t years_of(const rows *k) {
    uint32_t years = 0;
    for (uint32_t i = january(k); i + 12 <= k->run->months; i += 12) years++;
    return years;
}

/* The record of a calendar month in a year, which is counted from 0. */
static const card_record *record_in(const rows *k, uint32_t year, uint32_t month) {
    return &k->records[january(k) + 12 * year + month - 1];
}

/* 7, or 0: each record of water is to be one that an add gives, and the last record to end with the run's storages. */
static uint8_t rows_number(const rows *k) {
    uint32_t months = k->run->months;
    for (uint32_t i = 0; i < months; i++)
        if (k->records[i].water == CARD_HAD_WATER && !is_given(&k->records[i], k->run->soil.capacity))
            return CARD_NOT_A_RUN;
    if (months == 0) return CARD_DONE;
    const card_record *last = &k->records[months - 1];
    int meet = last->surface == (int32_t)k->run->soil.surface && last->underlying == (int32_t)k->run->soil.underlying;
    return meet ? CARD_DONE : CARD_NOT_A_RUN;
}

/* 18, or 0. */
static uint8_t years_number(const rows *k) {
    uint32_t years = years_of(k);
    if (years < 10) return CARD_FEW_YEARS;
    for (uint32_t i = 0; i < 12 * years; i++)
        if (k->records[january(k) + i].water != CARD_HAD_WATER) return CARD_FEW_YEARS;
    return CARD_DONE;
}

/* The potentials of a record. */
typedef struct potentials {
    int64_t pr, pro, pl;
} potentials;

static potentials potentials_of(const card_record *r, int64_t capacity) {
    int64_t pls = smaller(r->pe, r->ss), plu = nearest((r->pe - pls) * r->su, capacity);
    potentials made = {capacity - r->ss - r->su, (int64_t)r->ss + r->su, pls + smaller(plu, r->su)};
    return made;
}

static card_sums sums_of(const rows *k, uint32_t month) {
    card_sums s = {0, 0, 0, 0, 0, 0, 0, 0};
    for (uint32_t year = 0, years = years_of(k); year < years; year++) {
        const card_record *r = record_in(k, year, month);
        potentials most = potentials_of(r, k->run->soil.capacity);
        s.et += (uint32_t)r->et;
        s.pe += (uint32_t)r->pe;
        s.r += (uint32_t)r->r;
        s.pr += (uint32_t)most.pr;
        s.ro += (uint32_t)r->ro;
        s.pro += (uint32_t)most.pro;
        s.l += (uint32_t)r->l;
        s.pl += (uint32_t)most.pl;
    }
    return s;
}

static int64_t share_of(int64_t part, int64_t whole) { return whole == 0 ? 0 : nearest(10000 * part, whole); }

/* D of a calendar month with its new alpha, beta, gamma and delta. */
static int64_t departure_of(const rows *k, uint32_t month, const int32_t *five) {
    int64_t sum = 0;
    uint32_t years = years_of(k);
    for (uint32_t year = 0; year < years; year++) {
        const card_record *r = record_in(k, year, month);
        potentials most = potentials_of(r, k->run->soil.capacity);
        int64_t n = (int64_t)five[0] * r->pe + five[1] * most.pr + five[2] * most.pro - five[3] * most.pl;
        int64_t departed = r->p - nearest(n, 10000);
        sum += departed < 0 ? -departed : departed;
    }
    return nearest(sum, years);
}

static card_summed summed_by_rule(const rows *k, int32_t month) {
    card_summed made = {0};
    made.number = rows_number(k);
    if (made.number == CARD_DONE && (month < 1 || month > 12)) made.number = CARD_START_MONTH;
    if (made.number == CARD_DONE) made.number = years_number(k);
    if (made.number != CARD_DONE) return made;
    made.years = years_of(k);
    made.sums = sums_of(k, (uint32_t)month);
    return made;
}

static uint8_t weights_number(const int32_t *weights, size_t length) {
    if (length != 12) return CARD_NOT_SIXTY;
    for (int i = 0; i < 12; i++)
        if (!within(weights[i], 100000)) return CARD_CONSTANT;
    return CARD_DONE;
}

/* Puts the K in, and says 20, 21 or 0. */
static uint8_t weigh(card_worked_out *made, const int32_t *weights) {
    int64_t s = 0, least = 100000, most = 0;
    for (int i = 0; i < 12; i++) s += (int64_t)made->departures[i] * weights[i];
    if (s == 0) return CARD_K;
    for (int i = 0; i < 12; i++) {
        int64_t weight = nearest((int64_t)176700000 * weights[i], s);
        if (weight > most) most = weight;
        least = smaller(least, weight);
        made->constants[5 * i + 4] = (int32_t)smaller(weight, INT32_MAX);
    }
    return most > 100000 ? CARD_K : least == 0 ? CARD_ZERO_K : CARD_DONE;
}

static card_worked_out worked_out_by_rule(const rows *k, const int32_t *weights, size_t length) {
    card_worked_out made = {0}, refused_one = {0};
    uint8_t number = rows_number(k);
    if (number == CARD_DONE) number = weights_number(weights, length);
    if (number == CARD_DONE) number = years_number(k);
    for (uint32_t month = 1; number == CARD_DONE && month <= 12; month++) {
        card_sums s = sums_of(k, month);
        int32_t *five = &made.constants[5 * month - 5];
        five[0] = (int32_t)share_of(s.et, s.pe);
        five[1] = (int32_t)share_of(s.r, s.pr);
        five[2] = (int32_t)share_of(s.ro, s.pro);
        five[3] = (int32_t)share_of(s.l, s.pl);
        check("constants by rule", five[0] <= 10000 && five[1] <= 10000 && five[3] <= 10000, "above 10,000");
        if (five[2] > 50000) number = CARD_GAMMA;
        made.departures[month - 1] = (uint32_t)departure_of(k, month, five);
    }
    if (number == CARD_DONE) number = weigh(&made, weights);
    refused_one.number = number;
    return number == CARD_DONE ? made : refused_one;
}

/* ---- A record of years ---------------------------------------------------------------------------- */

/* Fourteen years and eight months. */
enum { PLACES = 176 };

/* Without gaps, so that they can be compared as bytes. */
typedef struct places {
    int32_t x1[PLACES], x2[PLACES], x3[PLACES], index[PLACES];
    uint8_t mark[PLACES];
    card_record records[PLACES];
    int64_t v[PLACES];
} places;

/* A run, the calendar month of its row 0, and its columns. */
typedef struct decade {
    card_run run;
    uint32_t first;
    places held;
} decade;

static card_columns lent_places(decade *d, size_t length) {
    places *of = &d->held;
    return card_columns_of(of->x1, of->x2, of->x3, of->index, of->mark, of->records, of->v, length);
}

static rows rows_of(const decade *d) {
    rows made = {&d->run, d->held.records, d->first};
    return made;
}

/* 0 0 0 0 1 twelve times, which the header has for a lost set. */
static const int32_t *any_constants(void) {
    static int32_t made[CARD_CONSTANTS];
    for (int i = 4; i < CARD_CONSTANTS; i += 5) made[i] = 1;
    return made;
}

/* A run of no months with this soil, in columns that hold what no month leaves. */
static decade fresh_decade(int32_t capacity, int32_t surface, int32_t underlying, int32_t first) {
    decade d;
    memset(&d, 0x4d, sizeof d);
    card_started started = card_start(any_constants(), CARD_CONSTANTS, capacity, surface, underlying, first);
    check_number("0 0 0 0 1 twelve times", started.number, CARD_DONE);
    d.run = started.run;
    d.first = (uint32_t)first;
    return d;
}

static card_added add_month(decade *d, int32_t p, int32_t pe) {
    card_added a = card_add_water_in(lent_places(d, PLACES), d->run, card_whole(p), card_whole(pe));
    check_number("a month of a record", a.number, CARD_DONE);
    d->run = a.run;
    return a;
}

static void add_waterless(decade *d) {
    card_added a = card_add_z_in(lent_places(d, PLACES), d->run, drawn(-3000, 3000));
    check_number("a Z of a record", a.number, CARD_DONE);
    d->run = a.run;
}

/* Western Kansas' means of rain and PE, by Palmer's table 2. */
static const int32_t MEAN_P[12] = {370, 620, 920, 1990, 2830, 2990, 2790, 2470, 1650, 1250, 680, 520};
static const int32_t MEAN_PE[12] = {50, 140, 640, 1760, 3380, 5200, 6370, 5690, 3670, 1880, 520, 90};

/* A month of a climate that has so many times their rain, in tenths. */
static void add_drawn(decade *d, int32_t rain) {
    uint32_t month = d->run.calendar - 1;
    add_month(d, drawn(0, MEAN_P[month] * rain / 5), drawn(MEAN_PE[month] / 2, MEAN_PE[month] * 3 / 2));
}

static decade drawn_decade(uint32_t months, int32_t first) {
    decade d = fresh_decade(6000, 0, 1330, first);
    while (d.run.months < months) add_drawn(&d, 10);
    return d;
}

/* ---- Both calls, in three ways, beside the rules -------------------------------------------------- */

/* Makes a call in all ways, in columns so long. All must come to what is expected, with each list as it was lent handed
 * on, and none may write. */
static void check_call(const char *where, decade *d, call c, size_t length, const answer *expected) {
    const places before = d->held;
    card_columns k = lent_places(d, length);
    answer by[3] = {by_library(c, d->run, k), by_lists(c, d->run, k), {0}};
    check_handed(where, k);
    by[2] = by_columns(c, d->run, k);
    check_handed(where, k);
    for (int i = 0; i < 3; i++) check_same(where, &by[i], expected);
    check(where, memcmp(&before, &d->held, sizeof before) == 0, "a column was written");
    if (c.kind == WORK_OUT)
        check(where, handed_weights_length == c.weights_length && (handed_weights == c.weights || !c.weights_length),
              "the weights or their length are handed on wrongly");
}

static void check_sum(const char *where, decade *d, int32_t month, size_t length) {
    const rows k = rows_of(d);
    answer expected = of_summed(summed_by_rule(&k, month), d->run);
    call c = good_call(SUM);
    c.month = month;
    check_call(where, d, c, length, &expected);
}

/* Whether the sum of the precipitation is the one that the header has. */
static void check_rain(const rows *k, uint32_t month, const card_sums *s) {
    int64_t p = 0;
    for (uint32_t year = 0; year < years_of(k); year++) p += record_in(k, year, month)->p;
    check("the rain of a sum", p == (int64_t)s->et + s->r + s->ro - s->l, "not et + r + ro - l");
}

static unsigned numbers_met[256];

/* What the constants come to is returned; where they are answered, a start takes them. */
static card_worked_out check_constants(const char *where, decade *d, const int32_t *weights, size_t length) {
    const rows k = rows_of(d);
    answer expected = of_worked_out(worked_out_by_rule(&k, weights, length), d->run);
    int32_t kept[CARD_WEIGHTS] = {0};
    size_t n = length < CARD_WEIGHTS ? length : CARD_WEIGHTS;
    memcpy(kept, weights, n * sizeof *weights);
    call c = good_call(WORK_OUT);
    c.weights = weights;
    c.weights_length = length;
    check_call(where, d, c, PLACES, &expected);
    check(where, memcmp(kept, weights, n * sizeof *weights) == 0, "a weight was written");
    numbers_met[expected.number]++;
    if (expected.number == CARD_DONE)
        check_number(where, card_start(expected.worked_out.constants, CARD_CONSTANTS, 6000, 0, 0, 1).number, CARD_DONE);
    return expected.worked_out;
}

static void check_number_of(const char *where, decade *d, const int32_t *weights, uint8_t number) {
    check_number(where, check_constants(where, d, weights, CARD_WEIGHTS).number, number);
}

/* Every calendar month, and the constants. */
static void check_all(const char *where, decade *d) {
    const rows k = rows_of(d);
    for (int32_t month = 1; month <= 12; month++) {
        check_sum(where, d, month, PLACES);
        card_summed s = summed_by_rule(&k, month);
        if (s.number == CARD_DONE) check_rain(&k, (uint32_t)month, &s.sums);
    }
    check_constants(where, d, WEIGHTS, CARD_WEIGHTS);
}

/* Twelve of one number, as means, departures or weights. */
static void fill(int32_t *twelve, int32_t number) {
    for (int i = 0; i < 12; i++) twelve[i] = number;
}

/* ---- Which years count ---------------------------------------------------------------------------- */

/* A run that starts in each calendar month, after each month of it: the years are those from its first January on. */
static void try_years(void) {
    for (int32_t first = 1; first <= 12; first++) {
        decade d = fresh_decade(6000, 500, 3000, first);
        uint32_t before = (uint32_t)(13 - first) % 12;
        while (d.run.months < PLACES) {
            add_drawn(&d, 12);
            uint32_t months = d.run.months, year = months < before ? 0 : (months - before) / 12;
            check_sum("years", &d, drawn(1, 12), months);
            check_sum("years", &d, drawn(1, 12), PLACES);
            card_summed s = card_sum_month_in(lent_places(&d, PLACES), d.run, 7);
            check_number("years", s.number, year < 10 ? CARD_FEW_YEARS : CARD_DONE);
            check("years", s.years == (year < 10 ? 0 : year), "not the years of the run");
            if (year >= 9) check_constants("years", &d, WEIGHTS, CARD_WEIGHTS);
        }
        check_all("years", &d);
    }
}

/* A run that starts in April: nine months, ten years, seven months. One month without water refuses it exactly where it
 * is in a year, as a Z that was added and as a record that says anything but water. */
static void try_waterless_months(void) {
    static const int32_t others[4] = {0, 2, -1, INT32_MIN};
    for (uint32_t row = 0; row < 136; row++) {
        decade d = fresh_decade(6000, 500, 3000, 4);
        while (d.run.months < 136) {
            if (d.run.months == row) add_waterless(&d);
            else add_drawn(&d, 10);
        }
        uint8_t number = row >= 9 && row < 129 ? CARD_FEW_YEARS : CARD_DONE;
        check_sum("a Z", &d, drawn(1, 12), PLACES);
        check_number_of("a Z", &d, WEIGHTS, number);
        d = drawn_decade(136, 4);
        for (int i = 0; i < 4; i++) {
            d.held.records[row].water = others[i];
            check_sum("a record without water", &d, drawn(1, 12), PLACES);
            check_number_of("a record without water", &d, WEIGHTS, number);
        }
        d.held.records[row].et++;
        d.held.records[row].p = -1;
        check_number_of("a record without water is not asked", &d, WEIGHTS, number);
    }
}

/* The months of five columns, beside records of zeros, have no water; those of records that were short have. */
static void try_records_before(void) {
    for (uint32_t before = 1; before < 20; before++) {
        decade d = drawn_decade(PLACES, 4);
        for (uint32_t i = 0; i < PLACES; i++) d.held.records[i].kind = d.held.records[i].modified = 0;
        check_number_of("short records", &d, WEIGHTS, CARD_DONE);
        memset(d.held.records, 0, before * sizeof *d.held.records);
        check_number_of("months of before records", &d, WEIGHTS, before > 9 ? CARD_FEW_YEARS : CARD_DONE);
    }
}

/* ---- Months and weights --------------------------------------------------------------------------- */

static void try_calendar_months(void) {
    static const int32_t none[] = {0, 13, -1, 14, 24, INT32_MIN, INT32_MAX};
    decade d = drawn_decade(150, 4), few = drawn_decade(20, 4);
    for (size_t i = 0; i < sizeof none / sizeof *none; i++) {
        check_sum("no calendar month", &d, none[i], PLACES);
        check_number("no calendar month", card_sum_month_in(lent_places(&d, PLACES), d.run, none[i]).number,
                     CARD_START_MONTH);
        check_sum("no calendar month", &few, none[i], PLACES);
    }
    check_all("every calendar month", &d);
}

static void try_weights(void) {
    static const size_t lengths[] = {0, 1, 11, 13, CARD_CONSTANTS};
    static const int32_t within_it[] = {100000, 99999}, beyond_it[] = {-1, 100001, INT32_MIN, INT32_MAX};
    decade d = drawn_decade(150, 4);
    for (size_t i = 0; i < sizeof lengths / sizeof *lengths; i++)
        check_number("weights", check_constants("weights", &d, CONSTANTS, lengths[i]).number, CARD_NOT_SIXTY);
    for (int place = 0; place < 12; place++) {
        int32_t weights[CARD_WEIGHTS];
        fill(weights, 50000);
        for (int i = 0; i < 2; i++) {
            weights[place] = within_it[i];
            check_number_of("a weight within its range", &d, weights, CARD_DONE);
        }
        for (int i = 0; i < 4; i++) {
            weights[place] = beyond_it[i];
            check_number_of("a weight beyond its range", &d, weights, CARD_CONSTANT);
        }
        weights[place] = 0;
        check_number_of("a weight of 0", &d, weights, CARD_ZERO_K);
        check_number("a weight of 0", check_constants("eleven", &d, weights, 11).number, CARD_NOT_SIXTY);
    }
    int32_t zeros[CARD_WEIGHTS] = {0};
    check_number_of("weights of 0", &d, zeros, CARD_K);
}

/* Equal weights give one K, and any twelve give what so many times as large ones give. */
static void try_proportions(void) {
    static const int32_t equal[4] = {1, 7, 10000, 100000};
    for (int n = 0; n < 40; n++) {
        decade d = drawn_decade((uint32_t)drawn(140, PLACES), drawn(1, 12));
        int32_t weights[CARD_WEIGHTS];
        card_worked_out one = {0};
        for (int i = 0; i < 4; i++) {
            fill(weights, equal[i]);
            card_worked_out w = check_constants("equal weights", &d, weights, CARD_WEIGHTS);
            for (int j = 0; j < 12; j++) check("equal weights", w.constants[5 * j + 4] == w.constants[4], "another K");
            if (i == 0) one = w;
            check("equal weights", w.number == CARD_DONE && same_worked_out(&w, &one), "not as with weights of 1");
        }
        for (int j = 0; j < 12; j++) weights[j] = drawn(1, 20000);
        one = check_constants("weights", &d, weights, CARD_WEIGHTS);
        for (int j = 0; j < 12; j++) weights[j] *= 5;
        card_worked_out five_times = check_constants("weights", &d, weights, CARD_WEIGHTS);
        check("weights, five times", same_worked_out(&one, &five_times), "other constants");
    }
}

/* ---- Departures that are chosen ------------------------------------------------------------------- */

/* Ten years from a January on in a full soil of ten inches, without PE: all rain runs off, gamma is the mean rain, and
 * alpha, beta and delta are 0. A calendar month has its departure above the mean and below it in turn. */
static decade decade_of(const int32_t *means, const int32_t *departures) {
    decade d = fresh_decade(10000, 1000, 9000, 1);
    for (int i = 0; i < 120; i++)
        add_month(&d, means[i % 12] + (i / 12 % 2 ? -1 : 1) * departures[i % 12], 0);
    return d;
}

static decade even_decade(const int32_t *departures) {
    int32_t means[12];
    fill(means, 5000);
    return decade_of(means, departures);
}

/* Western Kansas by Palmer's table 9: his D and K' give his K, but for what was rounded on the way. */
static void try_palmers_weights(void) {
    static const int32_t d_of[12] = {260, 430, 710, 1070, 1340, 1620, 1560, 1100, 860, 840, 570, 400};
    decade d = even_decade(d_of);
    card_worked_out w = check_constants("table 9", &d, WEIGHTS, CARD_WEIGHTS);
    check_number("table 9", w.number, CARD_DONE);
    for (int i = 0; i < 12; i++) {
        static const int32_t others[4] = {0, 0, 5000, 0};
        check("table 9", w.departures[i] == (uint32_t)d_of[i], "another departure");
        check("table 9", memcmp(&w.constants[5 * i], others, sizeof others) == 0, "not gamma alone, or another");
        check("table 9", abs(w.constants[5 * i + 4] - CONSTANTS[5 * i + 4]) <= 100, "a K off by more than a hundredth");
    }
}

/* A CAFEC of -989.5, which is -990: ten Julys in an empty soil, but for one whose PE takes all that the soil holds. */
static void try_negative_cafec(void) {
    static const int32_t four[4] = {100, 0, 0, 10000};
    int32_t departures[12];
    fill(departures, 900);
    decade d = even_decade(departures);
    for (int year = 0; year < 10; year++) d.held.records[12 * year + 6] = water_of(10000, year ? 0 : 5, 11049, 0, 0);
    d.held.records[12 * 4 + 6] = water_of(10000, 0, 1050, 1000, 0);
    card_worked_out w = check_constants("a negative CAFEC", &d, WEIGHTS, CARD_WEIGHTS);
    check_number("a negative CAFEC", w.number, CARD_DONE);
    check("a negative CAFEC", memcmp(&w.constants[30], four, sizeof four) == 0, "other constants");
    check("a negative CAFEC", w.departures[6] == 198, "not (8 x 110 + 105 + 990) / 10");
}

/* The ends of 20 and 21. */
static void try_ends_of_k(void) {
    int32_t departures[12] = {0}, equal[12], one[12];
    fill(equal, 100000);
    fill(one, 100000);
    one[0] = 1;
    decade d = even_decade(departures);
    check_number_of("no departures", &d, equal, CARD_K);
    for (int32_t sum = 1766; sum <= 1767; sum++) {
        departures[4] = 700;
        departures[11] = sum - 700;
        d = even_decade(departures);
        check_number_of("equal weights", &d, equal, sum < 1767 ? CARD_K : CARD_DONE);
    }
    /* and 99,999 in all months but one, which has a K of 100,001 */
    fill(equal, 99999);
    equal[0] = 100000;
    check_number_of("a K of 100,001", &d, equal, CARD_K);
    departures[4] = 2000;
    for (int32_t first = 0; first <= 1; first++)
        for (int32_t sum = 3533; sum <= 3535; sum++) {
            departures[0] = first;
            departures[11] = sum - 2000;
            d = even_decade(departures);
            int zero = sum > 3534 || (sum == 3534 && first);
            check_number_of("1 beside 100,000", &d, one, zero ? CARD_ZERO_K : CARD_DONE);
        }
    /* a K above 100,000 is told before one of 0 */
    departures[4] = departures[11] = 100;
    one[0] = 0;
    d = even_decade(departures);
    check_number_of("20 before 21", &d, one, CARD_K);
    one[4] = one[11] = 0;
    departures[0] = 3;
    d = even_decade(departures);
    check_number_of("a sum of 0", &d, one, CARD_K);
}

/* The end of 19: a mean rain of 50,000 in one month and 4 or 5 more in one of ten years. */
static void try_ends_of_gamma(void) {
    int32_t means[12], departures[12];
    fill(departures, 900);
    for (int month = 0; month < 12; month++) {
        fill(means, 5000);
        means[month] = 50000;
        decade d = decade_of(means, departures);
        check_number_of("a gamma of 50,000", &d, WEIGHTS, CARD_DONE);
        card_record *r = &d.held.records[60 + month];
        int32_t p = r->p;
        *r = water_of(10000, p + 4, 0, 1000, 9000);
        check_number_of("a gamma just below 50,000.5", &d, WEIGHTS, CARD_DONE);
        *r = water_of(10000, p + 5, 0, 1000, 9000);
        check_number_of("a gamma of 50,000.5", &d, WEIGHTS, CARD_GAMMA);
    }
}

/* ---- Order of the refusals ------------------------------------------------------------------------ */

/* Grounds for refusing constants, in their order. */
enum { BY_LENGTHS = 1, BY_RUN = 2, BY_COUNT = 4, BY_RANGE = 8, BY_YEARS = 16, BY_GAMMA = 32, BY_K = 64, BY_ZERO = 128 };

/* Every set of grounds: the first of them is the answer. No departures are one way to 20, small ones another. */
static void try_order_of_constants(int32_t departure) {
    static const uint8_t numbers[8] = {CARD_LENGTHS,   CARD_NOT_A_RUN, CARD_NOT_SIXTY, CARD_CONSTANT,
                                       CARD_FEW_YEARS, CARD_GAMMA,     CARD_K,         CARD_ZERO_K};
    for (unsigned set = 0; set < 256; set++) {
        int32_t means[12], departures[12], weights[12];
        fill(means, 5000);
        fill(departures, set & BY_K ? departure : 900);
        fill(weights, 10000);
        if (set & BY_GAMMA) means[2] = 60000;
        if (set & BY_RANGE) weights[5] = set & BY_COUNT ? 100001 : -1;
        if (set & BY_ZERO) weights[2] = 0;
        decade d = decade_of(means, departures);
        if (set & BY_RUN) d.held.records[3].et++;
        if (set & BY_YEARS) d.held.records[60].water = CARD_HAD_NO_WATER;
        card_columns k = lent_places(&d, PLACES);
        if (set & BY_LENGTHS) k.mark_length--;
        int expected = 0;
        while (expected < 8 && !(set >> expected & 1)) expected++;
        card_worked_out w = card_work_out_in(k, d.run, weights, set & BY_COUNT ? 11 : 12);
        check_number("order", w.number, expected < 8 ? numbers[expected] : CARD_DONE);
        if (!(set & BY_LENGTHS)) check_constants("order", &d, weights, set & BY_COUNT ? 11 : 12);
    }
}

/* The same of a sum: 1, 7, 6, 18, and a run that is too short as well as one with a Z. */
static void try_order_of_sums(void) {
    static const uint8_t numbers[5] = {CARD_LENGTHS, CARD_NOT_A_RUN, CARD_START_MONTH, CARD_FEW_YEARS, CARD_FEW_YEARS};
    for (unsigned set = 0; set < 32; set++) {
        decade d = drawn_decade(set & 8 ? 119 : 120, 1);
        if (set & 2) d.run.calendar = 13;
        if (set & 16) d.held.records[119].water = d.held.records[118].water = CARD_HAD_NO_WATER;
        card_columns k = lent_places(&d, PLACES);
        if (set & 1) k.v_length--;
        int expected = 0;
        while (expected < 5 && !(set >> expected & 1)) expected++;
        card_summed s = card_sum_month_in(k, d.run, set & 4 ? 0 : 12), zeros = {0};
        zeros.number = expected < 5 ? numbers[expected] : CARD_DONE;
        check_number("order", s.number, zeros.number);
        if (expected < 5) check("order", same_summed(&s, &zeros), "a refused sum has figures");
    }
}

/* ---- What 7 asks of the rows ---------------------------------------------------------------------- */

/* The rows that are spoiled, of a run that starts in April and has 136 months: in the first part year, a year, the last
 * part year; the last; and two past the months. */
static const uint32_t SPOILED[] = {0, 5, 9, 70, 128, 130, 135, 136, PLACES - 1};
enum { SPOILED_ROWS = sizeof SPOILED / sizeof *SPOILED };

/* A figure of a record that is asked for, spoiled: 7 exactly where the month is then none that an add gives. */
static unsigned spoil_figure(decade *d, int32_t *figure) {
    int32_t held = *figure;
    int32_t wrong[] = {held + 1, held - 1, -1 - held, held ^ 65536, 100000, 100001, INT32_MIN, INT32_MAX};
    unsigned taken = 0;
    for (size_t i = 0; i < sizeof wrong / sizeof *wrong; i++) {
        *figure = wrong[i];
        check_sum("a spoiled figure", d, drawn(1, 12), PLACES);
        uint8_t number = check_constants("a spoiled figure", d, WEIGHTS, CARD_WEIGHTS).number;
        check("a spoiled figure", number == CARD_NOT_A_RUN || number == CARD_DONE, "another refusal");
        taken += number == CARD_DONE;
    }
    *figure = held;
    return taken;
}

static void try_spoiled_figures(void) {
    decade d = drawn_decade(136, 4);
    for (int i = 0; i < SPOILED_ROWS; i++) {
        uint32_t row = SPOILED[i];
        card_record *r = &d.held.records[row];
        if (row >= 136) *r = d.held.records[3];
        int32_t *asked[10] = {&r->p, &r->et, &r->r, &r->l, &r->ro, &r->ss, &r->su, &r->surface, &r->underlying, &r->pe};
        for (int j = 0; j < 10; j++) {
            unsigned taken = spoil_figure(&d, asked[j]);
            if (row >= 136) check("past the months", taken == 8, "a figure is asked for");
            else if (j < 9) check("a spoiled figure", taken == 0, "it is taken");
        }
    }
    /* an empty soil gives the same whatever PE there was beyond the rain: another PE is one that an add gives */
    d.held.records[70] = water_of(6000, 100, 5000, 0, 0);
    check("another PE", spoil_figure(&d, &d.held.records[70].pe) == 4, "not the four up to 100,000 alone");
}

/* Puts an odd number into what is not asked for, one of nine. */
static void put_odd(places *k, int what, uint32_t row) {
    int32_t odd = row % 2 ? INT32_MIN + (int32_t)row : INT32_MAX;
    switch (what) {
    case 0: k->records[row].z = odd; break;
    case 1: k->records[row].modified = odd; break;
    case 2: k->records[row].kind = odd; break;
    case 3: k->x1[row] = odd; break;
    case 4: k->x2[row] = odd; break;
    case 5: k->x3[row] = odd; break;
    case 6: k->index[row] = odd; break;
    case 7: k->mark[row] = (uint8_t)(3 * (row % 2)); break;
    default: k->v[row] = row % 2 ? INT64_MIN : INT64_MAX;
    }
}

/* Whatever stands there, in one row and in all, comes to the same. */
static void try_unasked_figures(void) {
    decade d = drawn_decade(136, 4);
    const card_worked_out right = check_constants("not asked", &d, WEIGHTS, CARD_WEIGHTS);
    const places held = d.held;
    for (int what = 0; what < 9; what++)
        for (int i = 0; i <= SPOILED_ROWS; i++) {
            d.held = held;
            if (i < SPOILED_ROWS) put_odd(&d.held, what, SPOILED[i]);
            else for (uint32_t row = 0; row < PLACES; row++) put_odd(&d.held, what, row);
            card_worked_out w = check_constants("not asked", &d, WEIGHTS, CARD_WEIGHTS);
            check("not asked", same_worked_out(&w, &right), "other constants");
            check_sum("not asked", &d, drawn(1, 12), PLACES);
        }
}

/* A month that balances, with one of its four givens at and beyond its ends: taken, and 7. */
static void check_givens(decade *d, int64_t p, int64_t pe, int64_t ss, int64_t su, int good) {
    card_record held = d->held.records[40];
    d->held.records[40] = water_of(d->run.soil.capacity, p, pe, ss, su);
    check_number_of("a balance of a month", d, WEIGHTS, good ? CARD_DONE : CARD_NOT_A_RUN);
    d->held.records[40] = held;
}

static void try_givens(int32_t capacity) {
    decade d = fresh_decade(capacity, 100, 0, 4);
    int64_t top = surface_layer(capacity), bottom = capacity - top;
    while (d.run.months < 136) add_drawn(&d, 4);
    for (int64_t beyond = 0; beyond <= 1; beyond++) {
        check_givens(&d, 100000 + beyond, 300, 0, 0, !beyond);
        check_givens(&d, 100000 + beyond, 100000, top, bottom, !beyond);
        check_givens(&d, 0, 100000 + beyond, top, bottom, !beyond);
        check_givens(&d, 0, 0, top + beyond, 0, !beyond);
        check_givens(&d, 300, 900, top + beyond, bottom, !beyond);
        check_givens(&d, 0, 0, 0, bottom + beyond, !beyond);
        check_givens(&d, 300, 900, top, bottom + beyond, !beyond);
        check_givens(&d, -beyond, 300, top, 0, !beyond);
        check_givens(&d, 300, -beyond, top, 0, !beyond);
        check_givens(&d, 300, 900, -beyond, bottom, !beyond);
        check_givens(&d, 300, 900, top, -beyond, !beyond);
    }
}

/* A run's capacity that is not the rows' own, and rows that do not follow one another. */
static void try_other_soils(void) {
    decade d = drawn_decade(140, 4);
    d.run.soil.capacity++;
    check_number_of("another capacity", &d, WEIGHTS, CARD_NOT_A_RUN);
    d.run.soil.capacity--;
    for (uint32_t i = 0; i + 1 < 140; i++) {
        card_record *r = &d.held.records[i];
        *r = water_of(6000, r->p, r->pe, drawn(0, 1000), drawn(0, 5000));
    }
    check_all("rows that do not follow one another", &d);
    check_number_of("rows that do not follow one another", &d, WEIGHTS, CARD_DONE);
}

/* ---- Records of all kinds ------------------------------------------------------------------------- */

/* Soils thin and deep, climates dry and wet, records with and without a Z, months repaired, and all weights. */
static void try_climates(void) {
    for (int n = 0; n < 1500; n++) {
        int32_t capacity = n % 3 ? drawn(100, 30000) : drawn(100, 1500), top = capacity < 1000 ? capacity : 1000;
        decade d = fresh_decade(capacity, drawn(0, top), drawn(0, capacity - top), drawn(1, 12));
        uint32_t months = (uint32_t)drawn(118, PLACES);
        int32_t rain = drawn(1, 1 + n % 5 * 12), z = n % 7 ? -1 : drawn(0, (int32_t)months);
        while (d.run.months < months) {
            if ((int32_t)d.run.months == z) add_waterless(&d);
            else add_drawn(&d, rain);
        }
        check_all("climates", &d);
        int32_t equal[CARD_WEIGHTS];
        fill(equal, 10000);
        check("equal weights", check_constants("equal weights", &d, equal, CARD_WEIGHTS).number != CARD_ZERO_K, "21");
        size_t row = (size_t)drawn(0, (int32_t)months - 1);
        card_repaired again = card_repair_in(lent_places(&d, PLACES), d.run, row, card_whole(drawn(0, 100000)),
                                             card_whole(drawn(0, 9000)), lent_report(PLACES));
        check_number("climates", again.number, (int32_t)row == z ? CARD_WATERLESS : CARD_DONE);
        d.run = again.run;
        int32_t weights[CARD_WEIGHTS];
        for (int i = 0; i < 12; i++) weights[i] = drawn(0, 9) ? drawn(1, 100000) : drawn(1, 3);
        check_constants("a month repaired", &d, weights, CARD_WEIGHTS);
    }
}

/* The longest run, with months at the ends of their range. */
static void try_thousand_years(void) {
    static long_lists held, before;
    card_columns k = lent_long(&held, CARD_MOST_MONTHS);
    memset(&held, 0x4d, sizeof held);
    card_run run = card_start(any_constants(), CARD_CONSTANTS, 30000, 1000, 29000, 1).run;
    for (int i = 0; i < CARD_MOST_MONTHS; i++) {
        int32_t month = i % 12, p = month == 6 ? 100000 : drawn(0, 9000), pe = month == 6 ? 100000 : drawn(0, 9000);
        if (month == 7) p = 0, pe = 100000;
        if (month == 8) p = drawn(0, 1) ? 100000 : 0, pe = 0;
        run = card_add_water_in(k, run, card_whole(p), card_whole(pe)).run;
    }
    before = held;
    const rows all = {&run, held.records, 1};
    for (int32_t month = 1; month <= 12; month++) {
        card_summed s = card_sum_month_in(k, run, month), expected = summed_by_rule(&all, month);
        check("a thousand years", s.number == CARD_DONE && same_summed(&s, &expected), "other sums");
        check("a thousand years", s.years == 1000 && (month != 7 || s.sums.et == 100000000), "not a thousand");
    }
    card_worked_out w = card_work_out_in(k, run, WEIGHTS, CARD_WEIGHTS);
    card_worked_out expected = worked_out_by_rule(&all, WEIGHTS, CARD_WEIGHTS);
    check("a thousand years", w.number == CARD_DONE && same_worked_out(&w, &expected), "other constants");
    check("a thousand years", memcmp(&held, &before, sizeof held) == 0, "a column was written");
}

/* ---- A lost set ----------------------------------------------------------------------------------- */

/* The months of a record added to another run, with these constants; and the departures by what the adds answer. */
static decade again_with(const decade *d, const int32_t *constants, uint32_t *departures) {
    decade made = *d;
    const card_record *row_0 = d->held.records;
    const rows k = rows_of(d);
    uint32_t first = january(&k), end = first + 12 * years_of(&k);
    int64_t sums[12] = {0};
    memset(&made.held, 0x4d, sizeof made.held);
    card_started started = card_start(constants, CARD_CONSTANTS, (int32_t)d->run.soil.capacity, row_0->ss, row_0->su,
                                      (int32_t)d->first);
    check_number("a lost set", started.number, CARD_DONE);
    made.run = started.run;
    for (uint32_t i = 0; i < d->run.months; i++) {
        int64_t departed = d->held.records[i].p;
        departed -= add_month(&made, d->held.records[i].p, d->held.records[i].pe).figures.water.cafec;
        if (i >= first && i < end) sums[(i - first) % 12] += departed < 0 ? -departed : departed;
    }
    for (int i = 0; i < 12; i++) departures[i] = (uint32_t)nearest(sums[i], years_of(&k));
    return made;
}

/* What is worked out from a run with any constants starts a run; that run gives the same constants, and its adds' CAFEC
 * the departures. So does a run whose constants were lost, and 0 0 0 0 1 put in. */
static void try_lost_sets(void) {
    for (int n = 0; n < 60; n++) {
        decade d = drawn_decade((uint32_t)drawn(140, PLACES), drawn(1, 12));
        card_worked_out w = check_constants("a lost set", &d, WEIGHTS, CARD_WEIGHTS);
        check_number("a lost set", w.number, CARD_DONE);
        uint32_t departures[12], others[12];
        decade anew = again_with(&d, w.constants, departures), kansas = again_with(&d, CONSTANTS, others);
        check("a lost set", memcmp(departures, w.departures, sizeof departures) == 0, "not by the CAFEC of the adds");
        card_worked_out same = check_constants("a lost set", &anew, WEIGHTS, CARD_WEIGHTS);
        check("a lost set", same_worked_out(&same, &w), "other constants the second time");
        same = check_constants("a lost set", &kansas, WEIGHTS, CARD_WEIGHTS);
        check("a lost set", same_worked_out(&same, &w), "they hang on the run's own");
        memset(kansas.run.constants, 0xff, sizeof kansas.run.constants);
        card_columns k = lent_places(&kansas, PLACES);
        check_number("constants lost in the run", card_work_out_in(k, kansas.run, WEIGHTS, 12).number, CARD_NOT_A_RUN);
        memcpy(kansas.run.constants, any_constants(), sizeof kansas.run.constants);
        same = check_constants("constants put in", &kansas, WEIGHTS, CARD_WEIGHTS);
        check("constants put in", same_worked_out(&same, &w), "other constants");
        kansas.run.constants[4] = 0;
        check_number("a K of 0 in the run", card_work_out_in(k, kansas.run, WEIGHTS, 12).number, CARD_NOT_A_RUN);
    }
}

static void try_constants_all(void) {
    try_years();
    try_waterless_months();
    try_records_before();
    try_calendar_months();
    try_weights();
    try_proportions();
    try_palmers_weights();
    try_negative_cafec();
    try_ends_of_k();
    try_ends_of_gamma();
    try_order_of_constants(0);
    try_order_of_constants(100);
    try_order_of_sums();
    try_spoiled_figures();
    try_unasked_figures();
    try_givens(6000);
    try_givens(400);
    try_other_soils();
    try_climates();
    try_thousand_years();
    try_lost_sets();
    check("constants", numbers_met[CARD_DONE] > 0 && numbers_met[CARD_FEW_YEARS] > 0 && numbers_met[CARD_GAMMA] > 0 &&
          numbers_met[CARD_K] > 0 && numbers_met[CARD_ZERO_K] > 0, "not every number");
}
