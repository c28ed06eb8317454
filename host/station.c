/* A station's card from end to end, in C: reads a station file, adds each month's water to a run, and prints
 * what the card would show. station.rs is the same program in Rust.
 *
 *   station [MONTHS] <FILE
 *   station --repair REPAIRS <FILE
 *   station --constants <FILE
 *   station --send STATE DIVISION FOLDER <FILE
 *
 * Without MONTHS the months are added one by one; with it, 1 to 12000, so many in a call, as by a card that was
 * offline. With --repair they are added one by one, and then the months of the file REPAIRS are repaired, one after
 * another. With --constants they are added one by one, and then the station's constants are worked out of them. With
 * --send they are added one by one, and then the station's record is written to FOLDER; STATE and DIVISION are one or
 * two digits, as 14 and 07.
 *
 * The file is plain text (ASCII), at most 1048576 bytes, its lines closed by a line feed; the last line, end,
 * may also be closed by the end of the input. A line that begins with # is a comment: it may stand anywhere
 * before end, and what it holds is not looked at. Every other line is words parted by spaces, in this order:
 *
 *   capacity 6000                        what the soil can hold, thousandths of an inch: 100 to 30000
 *   surface 0                            what the surface layer stores at the start: 0 to 1000, or to capacity if less
 *   underlying 1330                      what the underlying layer stores then: 0 to capacity - 1000, or 0 if less
 *   constants alpha beta gamma delta K   these words
 *   January 9466 722 23 4694 25800       twelve lines, January to December, ten-thousandths; no K is 0
 *   months inches                        or: months millimetres
 *   1932-06 5.56 4.80                    year and month, precipitation, PE; each month follows the one before
 *   end                                  nothing after it
 *
 * A whole number is digits, perhaps after a minus, within 32 bits; a reading is the same with perhaps a point
 * and more digits, or a dash alone, which is a missing reading. A reading counts as the binary32 number nearest
 * to it, as a gauge would hand it over: 100.000001 is 100. Precipitation may also be T, as observers write a
 * trace: rain that fell, but too little to measure.
 *
 * With --constants, and only there, the constants may be lost. In the place of their thirteen lines stand then:
 *
 *   weights                              this word
 *   January 22500                        twelve lines, January to December, ten-thousandths: the first weights, of
 *                                        which the K are made; 0 to 100000, though one of 0 comes to no K
 *
 * Where the file has constants, their K are the weights; of the others it is asked only that they are in range.
 *
 * A file of repairs is written by the same rules, and its lines are:
 *
 *   repairs inches                       or: repairs millimetres; the unit is the station file's
 *   1932-09 1.92 =                       a month of the station file, its new precipitation and PE; in place of a
 *                                        reading that stays as the card has recorded it, =
 *   end                                  nothing after it
 *
 * The months stand in order of time, each once, and there is at least one.
 *
 * Printed are three tables, in thousandths: the months as their adds answered, or with MONTHS the calls; the rows
 * of all months as they stand in the end; and of each month its water and what the two layers of soil stored at
 * its end, with dashes for the water of a month that had none. Beside index, which is Palmer's and may change until
 * its month is settled, the first two have modified, the modified index, which no later month changes.
 *
 * With --repair stands in place of the first table, of each repair, its month, how many months it changed, and a
 * table of these, oldest first: index and mark before that repair, and after it. The other two are as all repairs
 * left the months.
 *
 * With --constants stands in place of all three what the constants were made from, and they: how many whole years the
 * file has, the first and the last; each calendar month's sums over these years, in thousandths; its D, its weight and
 * their product, and the sum of the products; and the constants, thirteen lines as a station file has them.
 *
 * With --send three division files in the nClimDiv layout stand in FOLDER in the end, index.txt, z.txt and modified.txt:
 * a line for each calendar year that a month lies in, its values nearest to hundredths. A month of these years that the
 * file has not, and of index.txt one that is open, has the mark of a missing month. Files that had these names are
 * replaced. All three are written or none is: whatever fails, FOLDER is as it was. In place of all tables stands one line:
 * which years there are, how many months of the index were sent and how many were open, and how many of the other two.
 *
 * P is T where precipitation was a trace: a T, or a number above zero that is nearer to 0 than to a thousandth of
 * an inch. It counts as 0. PE is always printed as a number. With MONTHS a trace is printed 0: the call that adds
 * many months takes whole thousandths, which cannot say it.
 *
 * Nothing is printed on standard output before the whole file was found good, the run was started, every month
 * was added, every repair was tried, the constants were worked out and the three files stand in FOLDER: a card must
 * not show figures of half a file. What is wrong is said in one line on standard error, with the line and column where
 * it has one, after the word repairs where it is of that file, and the status is
 *
 *   0  done
 *   1  a file is not as above, or the library refuses something in it
 *   2  wrong arguments, a FOLDER that is none among them, or an input that cannot be read
 *   3  standard output, or a file of FOLDER, cannot be written
 *
 * What a number may be is the library's to say, and is not tested here: where the library refuses, the program
 * only finds the word that it was about. */
#include "card.h"

#include <errno.h>
#include <inttypes.h>
#include <signal.h>
#include <stdarg.h>
#include <stdio.h>
#include <stdlib.h>
#include <string.h>
#include <unistd.h>

enum { REFUSED = 1, NOT_READ = 2, NOT_WRITTEN = 3 };
enum { MOST_BYTES = 1048576, MOST_SHOWN = 40 };

static const char *const CALENDAR[12] = {"January", "February", "March",     "April",   "May",      "June",
                                         "July",    "August",   "September", "October", "November", "December"};
static const char *const CONSTANT[5] = {"alpha", "beta", "gamma", "delta", "K"};
/* The ranges in words, for whom the library has refused; see card_start. */
static const char *const CONSTANT_RANGE[5] = {"0 to 10000", "0 to 10000", "0 to 50000", "0 to 10000",
                                              "1 to 100000"};

/* ---- What is said ----------------------------------------------------------------------------------------- */

/* Says a line on standard error and ends the program. */
static void stop(int status, const char *format, ...) {
    va_list values;
    va_start(values, format);
    fputs("station: ", stderr);
    vfprintf(stderr, format, values);
    fputc('\n', stderr);
    va_end(values);
    exit(status);
}

/* A place in a file, counted from 1; column 0 where it is a line as a whole, or the end of the file. What stands
 * before the line where it is told is nothing of the station file, and REPAIRS of the file of repairs. */
#define REPAIRS "repairs, "
typedef struct place {
    const char *file;
    size_t line;
    size_t column;
} place;

/* Says what is wrong at a place of a file, and ends the program. */
static void refuse(place at, const char *format, ...) {
    va_list values;
    va_start(values, format);
    fprintf(stderr, "station: %sline %zu", at.file, at.line);
    if (at.column > 0) fprintf(stderr, ", column %zu", at.column);
    fputs(": ", stderr);
    vfprintf(stderr, format, values);
    fputc('\n', stderr);
    va_end(values);
    exit(REFUSED);
}

/* A word as it can be said in one line: of a long one the beginning, and ? for a byte that is no plain text. It
 * holds until the next call. */
static const char *shown(const char *text, size_t length) {
    static char held[MOST_SHOWN + 3];
    size_t n = length < MOST_SHOWN ? length : MOST_SHOWN;
    for (size_t i = 0; i < n; i++) held[i] = text[i] < 32 || text[i] > 126 ? '?' : text[i];
    strcpy(held + n, length > n ? ".." : "");
    return held;
}

/* ---- Lines and words -------------------------------------------------------------------------------------- */

/* A word of the file, and where it begins. */
typedef struct word {
    const char *text;
    size_t length;
    place at;
} word;

/* A file, and how far it was read. */
typedef struct scanner {
    const char *file; /* as its places have it */
    const char *text;
    size_t length;
    size_t next;   /* where the next line begins */
    size_t closed; /* how many line feeds stand before it */
    size_t line;   /* the line at hand: its number, where it begins and ends, and how far it was read */
    size_t begin;
    size_t end;
    size_t at;
    size_t words;         /* how many words of it were taken */
    size_t lines;         /* how many lines were opened before it, comments not counted */
    const char *expected; /* what it should hold, */
    const char *other;    /* or else */
} scanner;

/* The places of a line, of a byte of it as the file counts them, and of a byte of a word. */
static place whole_line(const scanner *s) {
    place p = {s->file, s->line, 0};
    return p;
}

static place in_line(const scanner *s, size_t at) {
    place p = {s->file, s->line, at - s->begin + 1};
    return p;
}

static place in_word(word w, size_t i) {
    place p = {w.at.file, w.at.line, w.at.column + i};
    return p;
}

/* A word for a message: see shown, of which a message can have one. */
static const char *said(word w) { return shown(w.text, w.length); }

/* Whether it is this word, letter by letter, capitals too. */
static int is(word w, const char *name) {
    return w.length == strlen(name) && memcmp(w.text, name, w.length) == 0;
}

/* Goes to the next line, whatever it holds; 0 where the file has ended. */
static int next_line(scanner *s) {
    s->line = s->closed + 1;
    if (s->next == s->length) return 0;
    const char *feed = memchr(s->text + s->next, '\n', s->length - s->next);
    s->begin = s->at = s->next;
    s->end = feed == NULL ? s->length : (size_t)(feed - s->text);
    s->next = feed == NULL ? s->length : s->end + 1;
    s->closed += feed != NULL;
    s->words = 0;
    return 1;
}

/* The end of the file where a line should stand. The first line that is asked for is the first that is no
 * comment. */
static void refuse_end(const scanner *s) {
    if (s->length == 0) refuse(whole_line(s), "the file is empty; expected: %s", s->expected);
    if (s->lines == 0) refuse(whole_line(s), "the file has only comments; expected: %s", s->expected);
    refuse(whole_line(s), "the file ends without its last line, end; it may be cut short");
}

/* A byte that is no plain text. Those that an editor leaves unseen are named. */
static void refuse_byte(const scanner *s, size_t at) {
    const char *byte = s->text + at;
    size_t left = s->end - at;
    place here = in_line(s, at);
    if (*byte == '\t') refuse(here, "a tab; words are parted by spaces");
    if (*byte == '\r' && left == 1)
        refuse(here, "a carriage return; the file has CR LF line ends, and a line feed alone is expected");
    if (*byte == '\r') refuse(here, "a carriage return; lines are closed by a line feed alone");
    if (left >= 3 && memcmp(byte, "\xef\xbb\xbf", 3) == 0)
        refuse(here, "a byte order mark; save the file without it");
    if (at == 0 && left >= 2 && (memcmp(byte, "\xff\xfe", 2) == 0 || memcmp(byte, "\xfe\xff", 2) == 0))
        refuse(here, "a byte order mark of UTF-16; save the file as plain text (ASCII)");
    refuse(here, "byte %d, which is no plain text (ASCII)", (unsigned char)*byte);
}

/* Opens the next line that is no comment. Its bytes are looked at before its words, so that a tab or a carriage
 * return is told as what it is and not as part of a word. */
static void open_line(scanner *s, const char *expected, const char *other) {
    s->expected = expected;
    s->other = other;
    do {
        if (!next_line(s)) refuse_end(s);
    } while (s->text[s->begin] == '#');
    if (s->begin == s->end) refuse(whole_line(s), "it is empty; expected: %s%s", expected, other);
    for (size_t i = s->begin; i < s->end; i++)
        if (s->text[i] < 32 || s->text[i] > 126) refuse_byte(s, i);
    s->lines++;
}

/* The line's next word; of length 0 where there is none. */
static word next_word(scanner *s) {
    while (s->at < s->end && s->text[s->at] == ' ') s->at++;
    word w = {s->text + s->at, 0, in_line(s, s->at)};
    while (s->at < s->end && s->text[s->at] != ' ') s->at++;
    w.length = (size_t)(s->text + s->at - w.text);
    if (w.length > 0 && w.text[0] == '#')
        refuse(w.at, "a # that does not begin its line; a comment has a line of its own");
    return w;
}

/* The line's next word, which must be there. */
static word take(scanner *s) {
    word w = next_word(s);
    if (w.length == 0)
        refuse(w.at, "the line ends after %zu word%s; expected: %s%s%s", s->words, s->words == 1 ? "" : "s",
               s->expected, s->words == 0 ? s->other : "",
               s->end == s->length ? "; the file ends here and may be cut short" : "");
    s->words++;
    return w;
}

/* No word may follow. */
static void close_line(scanner *s) {
    static const char *const NTH[7] = {"first", "second", "third", "fourth", "fifth", "sixth", "seventh"};
    word w = next_word(s);
    if (w.length > 0) refuse(w.at, "a %s word, \"%s\"; expected: %s", NTH[s->words], said(w), s->expected);
}

/* A line of a table with commas is a single word here: say so before anything else is said of it. */
static void no_comma(word w, const char *more) {
    for (size_t i = 0; i < w.length; i++)
        if (w.text[i] == ',' || w.text[i] == ';')
            refuse(in_word(w, i), "a %s in \"%s\"; words are parted by spaces%s",
                   w.text[i] == ',' ? "comma" : "semicolon", said(w), more);
}

/* The word that must stand here. */
static void keyword(scanner *s, const char *name) {
    word w = take(s);
    no_comma(w, "");
    if (!is(w, name)) refuse(w.at, "\"%s\" is not known here; expected: %s", said(w), s->expected);
}

/* ---- Numbers ---------------------------------------------------------------------------------------------- */

/* A kind of number, as it is told to whom wrote something else. */
typedef struct kind {
    int decimals;
    const char *comma;
    const char *form;
    const char *after;
    int takes_trace;     /* whether T is one, */
    const char *trace;   /* and what is said of a t, and of a T where it is none */
    int takes_kept;      /* whether = is one, the reading as it is recorded */
    const char *missing; /* what is to be done about one that is missing, */
    const char *refused; /* and what more is said of one that the library does not accept */
} kind;

static const kind THOUSANDTHS = {.comma = ", and a whole number has digits only",
                                 .form = "expected: a whole number of thousandths of an inch",
                                 .after = "expected: a whole number of thousandths of an inch"};
static const kind TEN_THOUSANDTHS = {.comma = ", and a whole number has digits only",
                                     .form = "expected: a whole number of ten-thousandths",
                                     .after = "expected: a whole number of ten-thousandths"};
static const kind PRECIPITATION = {
    .decimals = 1,
    .comma = ", and decimals begin with a point",
    .form = "expected: digits, perhaps with a point, T for a trace, or - for a missing reading",
    .after = "digits and a point only, and the unit stands once, in the line months",
    .takes_trace = 1,
    .trace = "a trace of rain is written T, a missing reading -",
    .missing = "README.md, \"Missing months\", says what to do",
    .refused = ", and a missing reading is written -"};
static const kind PE = {
    .decimals = 1,
    .comma = ", and decimals begin with a point",
    .form = "expected: digits, perhaps with a point, or - for a missing reading",
    .after = "digits and a point only, and the unit stands once, in the line months",
    .trace = "a trace is of rain; PE is worked out and not observed: write 0, or - where it is missing",
    .missing = "README.md, \"Missing months\", says what to do",
    .refused = ", and a missing reading is written -"};
/* The same two in a file of repairs. */
static const kind NEW_PRECIPITATION = {
    .decimals = 1,
    .comma = ", and decimals begin with a point",
    .form = "expected: digits, perhaps with a point, T for a trace, or = for the reading as recorded",
    .after = "digits and a point only, and the unit stands once, in the line repairs",
    .takes_trace = 1,
    .trace = "a trace of rain is written T, the reading as recorded =",
    .takes_kept = 1,
    .missing = "a repair has both readings, and = is the one that is recorded",
    .refused = ""};
static const kind NEW_PE = {
    .decimals = 1,
    .comma = ", and decimals begin with a point",
    .form = "expected: digits, perhaps with a point, or = for the reading as recorded",
    .after = "digits and a point only, and the unit stands once, in the line repairs",
    .trace = "a trace is of rain; PE is worked out and not observed: write 0, or = for the recorded one",
    .takes_kept = 1,
    .missing = "a repair has both readings, and = is the one that is recorded",
    .refused = ""};

/* The smallest binary32 number above zero, which T is handed over as: in either unit it is a trace to the library
 * and can be nothing else, and it says no more of the rain than the observer did. */
#define SMALLEST 0x1p-149f

/* Not isdigit, which asks the locale and takes no negative char. */
static int is_digit(word w, size_t i) { return i < w.length && w.text[i] >= '0' && w.text[i] <= '9'; }

/* The place after the digits that begin at a place, of which there may be none. */
static size_t after_digits(word w, size_t i) {
    while (is_digit(w, i)) i++;
    return i;
}

/* What follows a number's digits and does not belong to it. */
static void refuse_rest(word w, size_t i, const kind *k) {
    place at = in_word(w, i);
    if (w.text[i] == '.' && !k->decimals) refuse(at, "a point in \"%s\"; %s", said(w), k->form);
    if (w.text[i] == '.') refuse(at, "a second point in \"%s\"; %s", said(w), k->form);
    if ((w.text[i] == 'e' || w.text[i] == 'E') && i + 1 < w.length &&
        strchr("+-0123456789", w.text[i + 1]) != NULL)
        refuse(at, "an exponent in \"%s\"; write the number out", said(w));
    refuse(at, "something after the number in \"%s\"; %s", said(w), k->after);
}

/* Where a number's first digit stands. */
static size_t first_digit(word w, const kind *k) {
    size_t i = w.text[0] == '-';
    no_comma(w, k->comma);
    if (w.text[0] == '+') refuse(w.at, "a plus in \"%s\"; a number is written without one", said(w));
    if (is_digit(w, i)) return i;
    if (i < w.length && w.text[i] == '.') {
        if (!k->decimals) refuse_rest(w, i, k);
        refuse(in_word(w, i), "no digit before the point in \"%s\"; one half is written 0.5", said(w));
    }
    int trace = k->trace != NULL && (is(w, "T") || is(w, "t"));
    refuse(w.at, "\"%s\" is no number; %s", said(w), trace ? k->trace : k->form);
    return i;
}

/* A whole number, and the word that it was. */
typedef struct whole {
    int32_t value;
    word word;
} whole;

/* Scanned and summed up here: strtol would pass over what follows, and its range is the host's. */
static whole take_whole(scanner *s, const kind *k) {
    word w = take(s);
    size_t i = first_digit(w, k), end = after_digits(w, i);
    if (end < w.length) refuse_rest(w, end, k);
    int64_t n = 0;
    /* from the first sum that is beyond both ends on, the digits are left out */
    for (; i < end; i++)
        if (n <= -(int64_t)INT32_MIN) n = 10 * n + (w.text[i] - '0');
    if (w.text[0] == '-') n = -n;
    if (n < INT32_MIN || n > INT32_MAX)
        refuse(w.at, "\"%s\" is too large in size; whole numbers are -2147483648 to 2147483647", said(w));
    whole number = {(int32_t)n, w};
    return number;
}

/* A reading, the word that it was, and as what it was read. That of a = is known when its month is repaired. */
typedef struct measure {
    card_reading reading;
    word word;
    const kind *kind;
} measure;

/* The word is scanned here, since strtof takes much that is no reading (0x10, nan, 5mm). What is left reads to
 * its end, at a space, a line feed or the zero byte after the file; and with a point, as setlocale is never
 * called. */
static measure take_reading(scanner *s, card_reading (*unit)(float), const kind *k) {
    measure m = {card_missing(), take(s), k};
    word w = m.word;
    if (is(w, "-") || (k->takes_kept && is(w, "="))) return m;
    if (k->takes_trace && is(w, "T")) {
        m.reading = unit(SMALLEST);
        return m;
    }
    size_t i = after_digits(w, first_digit(w, k));
    if (i < w.length && w.text[i] == '.') {
        if (!is_digit(w, i + 1))
            refuse(in_word(w, i), "no digit after the point in \"%s\"; write digits after it, or no point",
                   said(w));
        i = after_digits(w, i + 1);
    }
    if (i < w.length) refuse_rest(w, i, k);
    m.reading = unit(strtof(w.text, NULL));
    return m;
}

/* ---- The station file ------------------------------------------------------------------------------------- */

/* Dates are counted in months from January of the year 0. */
enum { AFTER_THE_LAST = 12 * 10000 };

typedef struct month {
    word date;
    measure precipitation;
    measure pe;
} month;

/* What the file holds. One month more is kept than a run can hold: it is the library that refuses it, and it
 * would refuse the same one if there were more. */
typedef struct station {
    whole capacity;
    whole surface;
    whole underlying;
    int lost;                        /* whether the file has weights in the place of constants */
    whole constants[CARD_CONSTANTS]; /* where they are lost any that a start takes, */
    whole weights[CARD_WEIGHTS];     /* and where they are not their K */
    card_reading (*unit)(float);
    size_t count;
    month months[CARD_MOST_MONTHS + 1];
    long first; /* the first month's date, */
    long next;  /* and the one that is to follow the last */
} station;

/* One of the three lines about the soil. */
static whole read_storage(scanner *s, const char *name, const char *expected) {
    open_line(s, expected, "");
    keyword(s, name);
    whole number = take_whole(s, &THOUSANDTHS);
    close_line(s);
    return number;
}

/* The name of a calendar month, the one that is to come in a section. */
static void calendar_name(scanner *s, int m, const char *section) {
    word w = take(s);
    no_comma(w, "");
    if (is(w, CALENDAR[m])) return;
    for (int i = 0; i < 12; i++)
        if (is(w, CALENDAR[i]))
            refuse(w.at, "%s here, and %s was to follow; the %s stand from January to December", CALENDAR[i],
                   CALENDAR[m], section);
    refuse(w.at, "\"%s\" is not known here; expected: %s", said(w), s->expected);
}

/* The constants, after the first word of their heading. The heading is asked word for word: a table in another order
 * of columns must not pass for this one. */
static void read_constants(scanner *s, station *st) {
    char expected[64];
    for (int k = 0; k < 5; k++) keyword(s, CONSTANT[k]);
    close_line(s);
    for (int m = 0; m < 12; m++) {
        snprintf(expected, sizeof expected, "%s ALPHA BETA GAMMA DELTA K", CALENDAR[m]);
        open_line(s, expected, "");
        calendar_name(s, m, "constants");
        for (int k = 0; k < 5; k++) st->constants[5 * m + k] = take_whole(s, &TEN_THOUSANDTHS);
        close_line(s);
        st->weights[m] = st->constants[5 * m + 4];
    }
}

/* The weights, after their heading's word. The constants that the run is started with are then 0 0 0 0 1: neither the
 * water of a month nor what is worked out of it goes by them. */
static void read_weights(scanner *s, station *st) {
    char expected[64];
    s->expected = "weights";
    close_line(s);
    for (int m = 0; m < 12; m++) {
        snprintf(expected, sizeof expected, "%s WEIGHT", CALENDAR[m]);
        open_line(s, expected, "");
        calendar_name(s, m, "weights");
        st->weights[m] = take_whole(s, &TEN_THOUSANDTHS);
        close_line(s);
        st->constants[5 * m + 4].value = 1;
    }
}

/* The constants, or where they are to be worked out perhaps weights in their place. */
static void read_section(scanner *s, station *st, int working_out) {
    open_line(s, "constants alpha beta gamma delta K", working_out ? ", or weights" : "");
    word w = take(s);
    no_comma(w, "");
    st->lost = is(w, "weights");
    if (st->lost && !working_out)
        refuse(whole_line(s), "weights and no constants; host/constants works the constants out of this file");
    if (!st->lost && !is(w, "constants"))
        refuse(w.at, "\"%s\" is not known here; expected: %s%s", said(w), s->expected, s->other);
    if (st->lost)
        read_weights(s, st);
    else
        read_constants(s, st);
}

/* The unit stands once and has no default: 62 mm taken for 62 inches would pass the library's ranges. */
static void read_unit(scanner *s, station *st) {
    open_line(s, "months inches, or months millimetres", "");
    keyword(s, "months");
    word w = take(s);
    no_comma(w, "");
    if (!is(w, "inches") && !is(w, "millimetres"))
        refuse(w.at, "\"%s\" is no unit; expected: %s", said(w), s->expected);
    st->unit = is(w, "inches") ? card_inches : card_millimetres;
    close_line(s);
}

/* A date, or -1 where the word is none. */
static long date_of(word w) {
    long n[2] = {0, 0};
    if (w.length != 7 || w.text[4] != '-') return -1;
    for (size_t i = 0; i < 7; i++) {
        if (i == 4) continue;
        if (!is_digit(w, i)) return -1;
        n[i > 4] = 10 * n[i > 4] + (w.text[i] - '0');
    }
    return n[1] < 1 || n[1] > 12 ? -1 : 12 * n[0] + n[1] - 1;
}

/* A date, which the word must be. */
static long take_date(const scanner *s, word w) {
    long when = date_of(w);
    no_comma(w, "");
    if (when < 0)
        refuse(w.at, "\"%s\" is no month (four digits, a minus, 01 to 12); expected: %s%s", said(w), s->expected,
               s->other);
    return when;
}

/* A date, where it must be the one that follows. A gap is no missing reading: the next month's rain would be
 * judged by the constants of another month. */
static long take_following(const scanner *s, const station *st, word w) {
    long when = take_date(s, w), next = st->next;
    if (st->count == 0 || when == next) return when;
    if (next == AFTER_THE_LAST) refuse(w.at, "%s here, and no month can follow 9999-12; expected: end", said(w));
    if (when > next)
        refuse(w.at,
               "%s here, and %04ld-%02ld was to follow; a month without readings is written %04ld-%02ld - -",
               said(w), next / 12, next % 12 + 1, next / 12, next % 12 + 1);
    refuse(w.at, "%s here%s, and %04ld-%02ld was to follow; %s", said(w), when == next - 1 ? " again" : "",
           next / 12, next % 12 + 1,
           when == next - 1 ? "each month stands once" : "the months stand in order of time");
    return when;
}

/* Opens the line of a month or of the end, with what it should be. */
static void open_month(scanner *s, const station *st, char *expected, size_t size) {
    if (st->count == 0)
        snprintf(expected, size, "YYYY-MM PRECIPITATION PE");
    else if (st->next == AFTER_THE_LAST)
        snprintf(expected, size, "end");
    else
        snprintf(expected, size, "%04ld-%02ld PRECIPITATION PE", st->next / 12, st->next % 12 + 1);
    open_line(s, expected, st->count == 0 || st->next == AFTER_THE_LAST ? "" : ", or end");
}

/* The next month; 0 where the line is the end. */
static int read_month(scanner *s, station *st) {
    char expected[64];
    open_month(s, st, expected, sizeof expected);
    month m = {.date = take(s)};
    if (is(m.date, "end")) {
        if (st->count == 0) refuse(m.date.at, "end here, and no month before it; expected: %s", expected);
        s->expected = "end";
        close_line(s);
        return 0;
    }
    long when = take_following(s, st, m.date);
    m.precipitation = take_reading(s, st->unit, &PRECIPITATION);
    m.pe = take_reading(s, st->unit, &PE);
    close_line(s);
    if (st->count == 0) st->first = when;
    st->next = when + 1;
    if (st->count <= CARD_MOST_MONTHS) st->months[st->count++] = m;
    return 1;
}

/* Nothing may follow the last line. */
static void close_file(scanner *s) {
    if (!next_line(s)) return;
    if (s->begin == s->end)
        refuse(whole_line(s), "it is empty; end is the last line, and nothing may follow it");
    refuse(in_line(s, s->begin), "something after the last line, end; nothing may follow it");
}

/* The whole file, line by line, before the library sees any of it. */
static void read_station(scanner *s, station *st, int working_out) {
    st->capacity = read_storage(s, "capacity", "capacity THOUSANDTHS");
    st->surface = read_storage(s, "surface", "surface THOUSANDTHS");
    st->underlying = read_storage(s, "underlying", "underlying THOUSANDTHS");
    read_section(s, st, working_out);
    read_unit(s, st);
    while (read_month(s, st)) continue;
    close_file(s);
}

/* ---- The file of repairs ---------------------------------------------------------------------------------- */

/* What it holds. Of a station file with more months than a run can hold, of which the library refuses one before
 * any is repaired, not all need be kept. */
typedef struct repairs {
    size_t count;
    month months[CARD_MOST_MONTHS];
    long last; /* the last month's date */
} repairs;

/* The unit stands in this file too, and is the station file's. */
static void read_same_unit(scanner *s, const station *st) {
    const char *unit = st->unit == card_inches ? "inches" : "millimetres";
    char expected[64];
    snprintf(expected, sizeof expected, "repairs %s", unit);
    open_line(s, expected, "");
    keyword(s, "repairs");
    word w = take(s);
    no_comma(w, "");
    if (!is(w, unit)) refuse(w.at, "\"%s\" is not the station file's unit; expected: %s", said(w), expected);
    close_line(s);
}

/* A date, where it must be one of the station file and after those that were read. */
static long take_later(const scanner *s, const station *st, const repairs *rs, word w) {
    long when = take_date(s, w), first = st->first, end = st->next - 1;
    if (when < first || when > end)
        refuse(w.at, "%s is not in the station file, which has %04ld-%02ld to %04ld-%02ld", said(w), first / 12,
               first % 12 + 1, end / 12, end % 12 + 1);
    if (rs->count > 0 && when == rs->last) refuse(w.at, "%s here again; each month stands once", said(w));
    if (rs->count > 0 && when < rs->last)
        refuse(w.at, "%s here, after %04ld-%02ld; the months stand in order of time", said(w), rs->last / 12,
               rs->last % 12 + 1);
    return when;
}

/* The next month; 0 where the line is the end. */
static int read_repair(scanner *s, const station *st, repairs *rs) {
    open_line(s, "YYYY-MM PRECIPITATION PE", rs->count == 0 ? "" : ", or end");
    month m = {.date = take(s)};
    if (is(m.date, "end")) {
        if (rs->count == 0) refuse(m.date.at, "end here, and no month before it; expected: %s", s->expected);
        s->expected = "end";
        close_line(s);
        return 0;
    }
    rs->last = take_later(s, st, rs, m.date);
    m.precipitation = take_reading(s, st->unit, &NEW_PRECIPITATION);
    m.pe = take_reading(s, st->unit, &NEW_PE);
    close_line(s);
    if (rs->count < CARD_MOST_MONTHS) rs->months[rs->count++] = m;
    return 1;
}

/* The whole file, too, before the library sees any of either. */
static void read_repairs(scanner *s, const station *st, repairs *rs) {
    read_same_unit(s, st);
    while (read_repair(s, st, rs)) continue;
    close_file(s);
}

/* ---- What the library refuses ----------------------------------------------------------------------------- */

/* A number of the file that the library refuses at the start. */
static void refuse_whole(whole n, const char *name, uint8_t number, const char *range) {
    refuse(n.word.at, "%s %s is refused (%d: %s), %s is %s", name, said(n.word), number, card_meaning(number),
           name, range);
}

/* Asks again with ones for all constants but one: the one that is refused by itself is the place. */
static void refuse_constant(const station *st, int32_t calendar, uint8_t number) {
    for (int i = 0; i < CARD_CONSTANTS; i++) {
        int32_t alone[CARD_CONSTANTS];
        for (int j = 0; j < CARD_CONSTANTS; j++) alone[j] = j == i ? st->constants[i].value : 1;
        card_started again = card_start(alone, CARD_CONSTANTS, st->capacity.value, st->surface.value,
                                        st->underlying.value, calendar);
        if (again.number == number)
            refuse_whole(st->constants[i], CONSTANT[i % 5], number, CONSTANT_RANGE[i % 5]);
    }
}

/* Starts the run, in the calendar month of the first month. */
static card_run start(const station *st) {
    int32_t constants[CARD_CONSTANTS], calendar = (int32_t)(st->first % 12 + 1);
    int32_t capacity = st->capacity.value, surface = st->surface.value, underlying = st->underlying.value;
    for (int i = 0; i < CARD_CONSTANTS; i++) constants[i] = st->constants[i].value;
    card_started a = card_start(constants, CARD_CONSTANTS, capacity, surface, underlying, calendar);
    if (a.number == CARD_DONE) return a.run;
    if (a.number == CARD_CONSTANT || a.number == CARD_ZERO_K) refuse_constant(st, calendar, a.number);
    if (a.number == CARD_CAPACITY) refuse_whole(st->capacity, "capacity", a.number, "100 to 30000");
    /* of the two storages, the one that is refused beside 0 for the other */
    if (a.number == CARD_STORAGE) {
        if (card_start(constants, CARD_CONSTANTS, capacity, surface, 0, calendar).number == a.number)
            refuse_whole(st->surface, "surface", a.number, "0 to 1000, or to capacity where that is less");
        if (card_start(constants, CARD_CONSTANTS, capacity, 0, underlying, calendar).number == a.number)
            refuse_whole(st->underlying, "underlying", a.number,
                         "0 to capacity - 1000, or 0 where capacity is below 1000");
    }
    stop(REFUSED, "the start is refused (%d: %s)", a.number, card_meaning(a.number));
    return a.run;
}

/* Refuses a reading if it is the one that the number is about. */
static void refuse_reading(const station *st, const measure *m, const char *name, uint8_t number) {
    if (card_read(m->reading).number != number) return;
    if (number == CARD_MISSING_READING)
        refuse(m->word.at, "%s is missing (%d: %s); %s", name, number, card_meaning(number), m->kind->missing);
    refuse(m->word.at, "%s %s is refused (%d: %s), %s%s", name, said(m->word), number, card_meaning(number),
           st->unit == card_inches ? "inches are 0 to 100" : "millimetres are 0 to 2540", m->kind->refused);
}

/* Refuses a month for the number that an add or a repair answered. */
static void refuse_month(const station *st, const month *m, uint8_t number) {
    if (number == CARD_MISSING_READING || number == CARD_BAD_READING) {
        refuse_reading(st, &m->precipitation, "precipitation", number);
        refuse_reading(st, &m->pe, "PE", number);
    }
    if (number == CARD_FULL)
        refuse(m->date.at, "%s is refused (%d: %s), a run holds %d", said(m->date), number, card_meaning(number),
               CARD_MOST_MONTHS);
    place line = {m->date.at.file, m->date.at.line, 0};
    refuse(line, "%s is refused (%d: %s)", said(m->date), number, card_meaning(number));
}

/* ---- The card --------------------------------------------------------------------------------------------- */

/* What a call that added months came to. */
typedef struct step {
    uint32_t added;
    uint32_t settled;
    card_figures figures; /* of the last month that it added */
} step;

/* What will be printed: the calls one after the other, and then the rows of all months. */
typedef struct page {
    size_t steps;
    step step[CARD_MOST_MONTHS];
    size_t rows;
    card_shown row[CARD_MOST_MONTHS];
} page;

/* Adds the months one by one. */
static card_run add_singly(const station *st, card_columns columns, card_run run, page *r) {
    for (size_t i = 0; i < st->count; i++) {
        const month *m = &st->months[i];
        card_added a = card_add_water_in(columns, run, m->precipitation.reading, m->pe.reading);
        if (a.number != CARD_DONE) refuse_month(st, m, a.number);
        step taken = {1, a.settled, a.figures};
        r->step[r->steps++] = taken;
        run = a.run;
    }
    return run;
}

/* A reading as a season's lists have it: whole thousandths, of a trace 0, or CARD_NO_READING. One that is not
 * acceptable becomes a number that is not, so that the season refuses it as a single add does. */
static int32_t listed(card_reading reading) {
    card_answer a = card_read(reading);
    if (a.number == CARD_MISSING_READING) return CARD_NO_READING;
    return a.number == CARD_DONE ? (int32_t)a.water : INT32_MIN;
}

/* Adds the months `most` at a time. */
static card_run add_seasons(const station *st, card_columns columns, card_run run, page *r, size_t most) {
    static int32_t p[CARD_MOST_MONTHS], pe[CARD_MOST_MONTHS];
    for (size_t first = 0; first < st->count; first += most) {
        size_t n = st->count - first < most ? st->count - first : most;
        for (size_t i = 0; i < n; i++) {
            p[i] = listed(st->months[first + i].precipitation.reading);
            pe[i] = listed(st->months[first + i].pe.reading);
        }
        card_season a = card_add_season_in(columns, run, p, n, pe, n);
        if (a.number != CARD_DONE) refuse_month(st, &st->months[first + a.added], a.number);
        step taken = {a.added, a.settled, a.figures};
        r->step[r->steps++] = taken;
        run = a.run;
    }
    return run;
}

/* The rows of all months, as they stand after the last add: earlier ones may have been settled since. */
static void look_back(card_columns columns, card_run run, page *r) {
    for (; r->rows < run.months; r->rows++) {
        card_shown row = card_row_in(columns, run, r->rows);
        if (row.number != CARD_DONE)
            stop(REFUSED, "row %zu is refused (%d: %s)", r->rows, row.number, card_meaning(row.number));
        r->row[r->rows] = row;
    }
}

/* ---- Input and output ------------------------------------------------------------------------------------- */

/* It may be closed, full, or a pipe that nobody reads. */
static void not_written(void) { stop(NOT_WRITTEN, "standard output cannot be written"); }

/* Prints, or says that it cannot. */
static void print(const char *format, ...) {
    va_list values;
    va_start(values, format);
    int n = vprintf(format, values);
    va_end(values);
    if (n < 0) not_written();
}

/* What is printed is held back in a buffer: that it cannot be written may show only here. */
static void flush(void) {
    if (fflush(stdout) != 0) not_written();
}

/* Precipitation as it is printed: T for a trace, as observers write it. PE is worked out and not observed, and is
 * always a number. It holds until the next call. */
static const char *rain(uint32_t thousandths, uint32_t kind) {
    static char held[12];
    if (kind == CARD_TRACE) return "T";
    snprintf(held, sizeof held, "%" PRIu32, thousandths);
    return held;
}

/* A mark as it is printed. */
static char letter(int32_t mark) { return mark == CARD_SETTLED ? 'S' : 'O'; }

/* A row for each month, as its own add answered. */
static void print_singly(const page *r, long first) {
    print("month P PE CAFEC Z percent index modified settled\n");
    for (size_t i = 0; i < r->steps; i++) {
        const card_figures *f = &r->step[i].figures;
        long when = first + (long)i;
        print("%04ld-%02ld %s %" PRIu32 " %" PRId32 " ", when / 12, when % 12 + 1,
              rain(f->water.p, f->water.kinds.p), f->water.pe, f->water.cafec);
        print("%" PRId32 " %" PRIu32 " %" PRId32 " %" PRId32 " %" PRIu32 "\n", f->z, f->percent, f->index,
              f->modified, r->step[i].settled);
    }
}

/* A row for each call: the months that it added and settled, and both indexes of the last one. */
static void print_seasons(const page *r) {
    print("season added settled index modified\n");
    for (size_t i = 0; i < r->steps; i++)
        print("%zu %" PRIu32 " %" PRIu32 " %" PRId32 " %" PRId32 "\n", i + 1, r->step[i].added, r->step[i].settled,
              r->step[i].figures.index, r->step[i].figures.modified);
}

/* A repair: its month, how many months it changed, and a row for each of these. */
static void print_report(const month *m, const card_repaired *a, const card_change *report, long first) {
    print("repair %s changed %" PRIu32 "\n", said(m->date), a->changed);
    print("month index_before index_after mark_before mark_after\n");
    for (uint32_t i = 0; i < a->changed; i++) {
        const card_change *c = &report[i];
        long when = first + c->row;
        print("%04ld-%02ld %" PRId32 " %" PRId32 " %c %c\n", when / 12, when % 12 + 1, c->index_before,
              c->index_after, letter(c->mark_before), letter(c->mark_after));
    }
}

/* A row for each month, as the columns have it in the end. */
static void print_rows(const page *r, long first) {
    print("month X1 X2 X3 index modified mark\n");
    for (size_t i = 0; i < r->rows; i++) {
        const card_shown *row = &r->row[i];
        long when = first + (long)i;
        print("%04ld-%02ld %" PRId32 " %" PRId32 " %" PRId32 " ", when / 12, when % 12 + 1, row->x1, row->x2,
              row->x3);
        print("%" PRId32 " %" PRId32 " %c\n", row->index, row->month.modified, letter(row->mark));
    }
}

/* A row for each month: its water, and what the layers stored at its end. A month that was added as a Z had no
 * water. */
static void print_water(const page *r, long first) {
    print("month P PE ET R L RO surface underlying\n");
    for (size_t i = 0; i < r->rows; i++) {
        const card_record *m = &r->row[i].month;
        long when = first + (long)i;
        print("%04ld-%02ld ", when / 12, when % 12 + 1);
        if (m->water != CARD_HAD_WATER)
            print("- - - - - - ");
        else
            print("%s %" PRId32 " %" PRId32 " %" PRId32 " %" PRId32 " %" PRId32 " ",
                  rain((uint32_t)m->p, (uint32_t)m->kind), m->pe, m->et, m->r, m->l, m->ro);
        print("%" PRId32 " %" PRId32 "\n", m->surface, m->underlying);
    }
}

/* The head of this file has it at more length. */
static void print_help(void) {
    print("station [MONTHS] <FILE\n"
          "station --repair REPAIRS <FILE\n"
          "station --constants <FILE\n"
          "station --send STATE DIVISION FOLDER <FILE\n"
          "\n"
          "Reads a station file from standard input, adds its months to a run and prints what the card shows.\n"
          "MONTHS, 1 to %d: adds so many months in a call, as a card that was offline; else one by one.\n"
          "With --repair it then repairs the months of the file REPAIRS, one after another.\n"
          "With --constants it works the constants out of the months. The file may then have weights in their place.\n"
          "With --send it writes the months' indexes and Z to FOLDER, as lines of STATE and DIVISION, one or two digits.\n"
          "\n"
          "Printed are three tables; water, Z, X and both indexes in thousandths:\n"
          "  month P PE CAFEC Z percent index modified settled   each month as it was added, and how many that\n"
          "                                                      settled; with MONTHS each call, as\n"
          "                                                      season added settled index modified\n"
          "  month X1 X2 X3 index modified mark                  each month as it stands in the end, S settled\n"
          "                                                      or O open\n"
          "  month P PE ET R L RO surface underlying             its water, and the soil at its end\n"
          "With --repair stands in place of the first, for each repair, its month, how many months it changed, as\n"
          "repair YYYY-MM changed COUNT, and a table of these:\n"
          "  month index_before index_after mark_before mark_after\n"
          "With --constants stands in place of all three what the constants were made from, and they; sums and D in\n"
          "thousandths of an inch:\n"
          "  years COUNT FIRST to LAST                           the whole years, January to December\n"
          "  month ET PE R PR RO PRO L PL                        each calendar month's sums over these years\n"
          "  month D weight product                              D, the mean size of P - CAFEC, and D x weight;\n"
          "                                                      then sum SUM, of the products\n"
          "  constants alpha beta gamma delta K                  thirteen lines, as a station file has them\n"
          "With --send FOLDER has then index.txt, z.txt and modified.txt, a line a year in the nClimDiv layout, open months\n"
          "held back; files that had these names are replaced, and where anything fails none is. Printed is one line:\n"
          "  years COUNT FIRST to LAST index MONTHS open MONTHS z MONTHS modified MONTHS\n"
          "\n"
          "T for a month's precipitation, in the file and as P, is a trace: rain too little to measure, which\n"
          "counts as 0. PE is always a number. With MONTHS a trace is printed 0: such a call cannot tell it.\n"
          "\n"
          "Status: 0 done; 1 a file or a month in it is refused; 2 wrong arguments, or input that cannot be\n"
          "read; 3 output that cannot be written. What is wrong is said on standard error, in one line.\n"
          "\n"
          "The format of the file stands in the head of samples/western-kansas-station.txt and in README.md, that of\n"
          "a file of repairs in the head of samples/western-kansas-repairs.txt, that of weights in the head of\n"
          "samples/thirty-years-station.txt.\n",
          CARD_MOST_MONTHS);
}

/* How many months are added in a call, by the program's argument. */
static size_t months_in_a_call(const char *argument) {
    word w = {argument, strlen(argument), {"", 0, 0}};
    size_t n = 0;
    for (size_t i = 0; is_digit(w, i); i++)
        if (n <= CARD_MOST_MONTHS) n = 10 * n + (size_t)(w.text[i] - '0');
    if (after_digits(w, 0) < w.length || n < 1 || n > CARD_MOST_MONTHS)
        stop(NOT_READ, "\"%s\" is no number of months; expected: 1 to %d, digits only", said(w),
             CARD_MOST_MONTHS);
    return n;
}

/* The whole of an input, of which the text is to have a byte more than may be in it: a zero byte comes after it. */
static scanner read_input(FILE *from, char *text, const char *input, const char *file) {
    size_t length = from == NULL ? 0 : fread(text, 1, MOST_BYTES + 1, from);
    if (from == NULL || ferror(from)) stop(NOT_READ, "%s cannot be read", input);
    if (length > MOST_BYTES) stop(REFUSED, "%s is larger than %d bytes", file, MOST_BYTES);
    text[length] = 0;
    scanner s = {.file = "", .text = text, .length = length};
    return s;
}

static scanner read_standard_input(void) {
    static char text[MOST_BYTES + 1];
    return read_input(stdin, text, "standard input", "the file");
}

static scanner read_file_of_repairs(const char *name) {
    static char text[MOST_BYTES + 1];
    FILE *from = fopen(name, "rb");
    scanner s = read_input(from, text, "the file of repairs", "the file of repairs");
    s.file = REPAIRS;
    fclose(from);
    return s;
}

/* ---- Repairs ---------------------------------------------------------------------------------------------- */

/* A reading of a repair: for a = the recorded one, as its kind is. */
static card_reading new_reading(const station *st, const measure *m, int32_t recorded, int32_t kind) {
    if (!is(m->word, "=")) return m->reading;
    return kind == CARD_TRACE ? st->unit(SMALLEST) : card_whole(recorded);
}

/* Repairs the months one after another. */
static card_run repair_months(const station *st, const repairs *rs, card_columns columns, card_run run,
                              int printing) {
    static card_change report[CARD_MOST_MONTHS];
    for (size_t i = 0; i < rs->count; i++) {
        month m = rs->months[i];
        size_t row = (size_t)(date_of(m.date) - st->first);
        card_record recorded = card_row_in(columns, run, row).month;
        m.precipitation.reading = new_reading(st, &m.precipitation, recorded.p, recorded.kind);
        m.pe.reading = new_reading(st, &m.pe, recorded.pe, CARD_NONE);
        card_repaired a = card_repair_in(columns, run, row, m.precipitation.reading, m.pe.reading, report);
        if (a.number != CARD_DONE) refuse_month(st, &m, a.number);
        if (printing) print_report(&m, &a, report, st->first);
        run = a.run;
    }
    return run;
}

/* Once every repair was found good: all from the start again, and each report is printed as it comes. There may be
 * too many to hold back. */
static void print_reports(const station *st, const repairs *rs, card_columns columns, page *r) {
    r->steps = 0;
    repair_months(st, rs, columns, add_singly(st, columns, start(st), r), 1);
}

/* ---- The constants worked out ----------------------------------------------------------------------------- */

/* Each weight twelve times, of a run without months: the library asks for the weights before it asks for years. */
static void ask_weights(const station *st, card_columns columns, card_run fresh) {
    for (int m = 0; m < CARD_WEIGHTS; m++) {
        int32_t same[CARD_WEIGHTS];
        for (int i = 0; i < CARD_WEIGHTS; i++) same[i] = st->weights[m].value;
        if (card_work_out_in(columns, fresh, same, CARD_WEIGHTS).number == CARD_CONSTANT)
            refuse_whole(st->weights[m], "weight", CARD_CONSTANT, "0 to 100000");
    }
}

/* The year of the first January. */
static long first_year(const station *st) { return (st->first + 11) / 12; }

/* Too few years, or a month among them that had no water. */
static void refuse_years(const station *st, uint8_t number) {
    long end = st->next - 1, years = st->next / 12 - first_year(st);
    if (years < 0) years = 0;
    stop(REFUSED,
         "the constants are refused (%d: %s), %04ld-%02ld to %04ld-%02ld has %ld whole year%s, January to December, "
         "and %s",
         number, card_meaning(number), st->first / 12, st->first % 12 + 1, end / 12, end % 12 + 1, years,
         years == 1 ? "" : "s", years < 10 ? "ten are needed" : "a month of them had no water");
}

/* The first gamma that is out of its range. */
static void refuse_gamma(card_columns columns, card_run run, uint8_t number) {
    for (int m = 0; m < CARD_WEIGHTS; m++) {
        card_sums s = card_sum_month_in(columns, run, m + 1).sums;
        uint64_t gamma = s.pro == 0 ? 0 : (20000 * (uint64_t)s.ro + s.pro) / (2 * (uint64_t)s.pro);
        if (gamma > 50000)
            stop(REFUSED,
                 "the gamma of %s is refused (%d: %s), 10000 x RO %" PRIu32 " / PRO %" PRIu32 " is %" PRIu64
                 ", and gamma is 0 to 50000; the capacity may be too small",
                 CALENDAR[m], number, card_meaning(number), s.ro, s.pro, gamma);
    }
}

/* A K of 0: if there is one, that of the smallest weight is. */
static void refuse_zero_k(const station *st, uint8_t number) {
    int m = 0;
    for (int i = 1; i < CARD_WEIGHTS; i++)
        if (st->weights[i].value < st->weights[m].value) m = i;
    whole least = st->weights[m];
    refuse(least.word.at,
           "%s %s is refused (%d: %s), the K of %s comes to 0: no weight is to be 0, or very small beside the others",
           st->lost ? "weight" : "K", said(least.word), number, card_meaning(number), CALENDAR[m]);
}

/* Says why no constants were worked out. */
static void refuse_constants(const station *st, card_columns columns, card_run run, uint8_t number) {
    if (number == CARD_FEW_YEARS) refuse_years(st, number);
    if (number == CARD_GAMMA) refuse_gamma(columns, run, number);
    if (number == CARD_ZERO_K) refuse_zero_k(st, number);
    stop(REFUSED, "the constants are refused (%d: %s)%s", number, card_meaning(number),
         number == CARD_K ? ", every D x weight is 0, or a K is above 100000: the years hardly differ, or a weight is "
                            "very large beside the others"
                          : "");
}

/* The years and the sums of each calendar month. */
static void print_sums(const station *st, const card_summed *months) {
    long first = first_year(st), years = (long)months[0].years;
    print("years %ld %04ld to %04ld\n", years, first, first + years - 1);
    print("month ET PE R PR RO PRO L PL\n");
    for (int m = 0; m < CARD_WEIGHTS; m++) {
        const card_sums *s = &months[m].sums;
        print("%s %" PRIu32 " %" PRIu32 " %" PRIu32 " %" PRIu32, CALENDAR[m], s->et, s->pe, s->r, s->pr);
        print(" %" PRIu32 " %" PRIu32 " %" PRIu32 " %" PRIu32 "\n", s->ro, s->pro, s->l, s->pl);
    }
}

/* What each K was made from. */
static void print_departures(const station *st, const card_worked_out *a) {
    uint64_t sum = 0;
    print("month D weight product\n");
    for (int m = 0; m < CARD_WEIGHTS; m++) {
        uint64_t product = (uint64_t)a->departures[m] * (uint64_t)st->weights[m].value;
        print("%s %" PRIu32 " %" PRId32 " %" PRIu64 "\n", CALENDAR[m], a->departures[m], st->weights[m].value,
              product);
        sum += product;
    }
    print("sum %" PRIu64 "\n", sum);
}

/* The constants, as a station file has them. */
static void print_constants(const card_worked_out *a) {
    print("constants");
    for (int k = 0; k < 5; k++) print(" %s", CONSTANT[k]);
    for (int i = 0; i < CARD_CONSTANTS; i++) {
        if (i % 5 == 0) print("\n%s", CALENDAR[i / 5]);
        print(" %" PRId32, a->constants[i]);
    }
    print("\n");
}

/* Works the constants out of the months, and prints them below what they were made from. */
static void work_out(const station *st, card_columns columns, card_run run) {
    int32_t weights[CARD_WEIGHTS];
    card_summed months[CARD_WEIGHTS];
    for (int m = 0; m < CARD_WEIGHTS; m++) weights[m] = st->weights[m].value;
    card_worked_out a = card_work_out_in(columns, run, weights, CARD_WEIGHTS);
    if (a.number != CARD_DONE) refuse_constants(st, columns, run, a.number);
    for (int m = 0; m < CARD_WEIGHTS; m++) {
        months[m] = card_sum_month_in(columns, run, m + 1);
        if (months[m].number != CARD_DONE) refuse_constants(st, columns, run, months[m].number);
    }
    print_sums(st, months);
    print_departures(st, &a);
    print_constants(&a);
}

/* ---- The record sent out ---------------------------------------------------------------------------------- */

/* In how many calendar years months can lie, and the bytes of a year's line, closed. */
enum { MOST_YEARS = CARD_MOST_MONTHS / 12 + 1, CLOSED_LINE = CARD_LINE + 1 };

/* What is sent of a month, in thousandths; NULL where nothing is. */
static const int32_t *sent_index(const card_shown *row) { return row->mark == CARD_SETTLED ? &row->index : NULL; }

static const int32_t *sent_z(const card_shown *row) { return &row->month.z; }

static const int32_t *sent_modified(const card_shown *row) { return &row->month.modified; }

/* One of the three elements, and its file. */
typedef struct element {
    const char *name;
    const int32_t *(*sent)(const card_shown *);
    uint8_t (*write)(card_columns, card_run, uint32_t, uint32_t, uint32_t, uint32_t, uint8_t *, size_t);
    const char *file;
    const char *part;  /* its name until all three are whole, */
    const char *aside; /* and that of the file in whose place it comes, until all three are in theirs */
} element;

enum { ELEMENTS = 3 };
static const element ELEMENT[ELEMENTS] = {
    {"index", sent_index, card_write_index_line_in, "index.txt", "index.txt.part", "index.txt.aside"},
    {"Z", sent_z, card_write_z_line_in, "z.txt", "z.txt.part", "z.txt.aside"},
    {"modified index", sent_modified, card_write_modified_line_in, "modified.txt", "modified.txt.part",
     "modified.txt.aside"}};

/* What was done about each file. */
static struct {
    int made_part;
    int made_aside; /* empty at first, so that nothing but a file can be moved there */
    int moved;      /* whether there was a file of its name, which is now aside */
    int placed;
} done[ELEMENTS];

/* A state or a division, by the program's argument. */
static uint32_t two_digits(const char *argument, const char *name) {
    word w = {argument, strlen(argument), {"", 0, 0}};
    uint32_t n = 0;
    if (w.length < 1 || w.length > 2 || after_digits(w, 0) < w.length)
        stop(NOT_READ, "\"%s\" is no %s; expected: one or two digits", said(w), name);
    for (size_t i = 0; i < w.length; i++) n = 10 * n + (uint32_t)(w.text[i] - '0');
    return n;
}

/* From here on names are those of its files. */
static void enter_folder(const char *name) {
    if (chdir(name) != 0)
        stop(NOT_READ, "\"%s\" cannot be entered; expected: a FOLDER that is there", shown(name, strlen(name)));
}

/* Says why a line was refused: the first month of its element that does not fit. The years come in order, so it is of
 * this one. */
static void refuse_line(const station *st, const page *r, const element *e, long year, uint8_t number) {
    for (size_t i = 0; i < r->rows; i++) {
        const int32_t *sent = e->sent(&r->row[i]);
        int32_t n = sent == NULL ? 0 : (*sent + (*sent < 0 ? -5 : 5)) / 10;
        place line = {"", st->months[i].date.at.line, 0};
        if (n == -9999 || n < -99999 || n > 999999)
            refuse(line,
                   "the %s of %s is refused (%d: %s), it comes to %" PRId32 " hundredths, and -99999 to 999999 are "
                   "sent but for -9999, the mark of a missing month",
                   e->name, said(st->months[i].date), number, card_meaning(number), n);
    }
    stop(REFUSED, "the %s of the year %04ld is refused (%d: %s)", e->name, year, number, card_meaning(number));
}

/* Of a file that cannot be written. What was done about it and the others is undone by put_back. */
static void no_file(const element *e) {
    stop(NOT_WRITTEN, "%s cannot be written in the folder, and none of the three files is", e->file);
}

/* Makes a file that is not there yet (x, of C11, which C libraries have had before). */
static FILE *make(const element *e, const char *name, int *made) {
    FILE *to = fopen(name, "wbx");
    if (to == NULL && errno == EEXIST)
        stop(NOT_WRITTEN, "%s is in the folder already; if no other --send is at work there, remove it", name);
    if (to == NULL) no_file(e);
    *made = 1;
    return to;
}

/* The folder as it was, where the program ends before all is done. */
static void put_back(void) {
    for (int k = 0; k < ELEMENTS; k++) {
        if (done[k].moved)
            rename(ELEMENT[k].aside, ELEMENT[k].file);
        else if (done[k].placed)
            remove(ELEMENT[k].file);
        if (done[k].made_aside && !done[k].moved) remove(ELEMENT[k].aside);
        if (done[k].made_part && !done[k].placed) remove(ELEMENT[k].part);
    }
}

/* Writes the three files under other names, and then puts them in their places. Nobody ends the program meanwhile, and
 * a file that may grow no further is then a write that fails. */
static void write_files(uint8_t text[ELEMENTS][MOST_YEARS * CLOSED_LINE], size_t length) {
    static const int SIGNALS[4] = {SIGHUP, SIGINT, SIGTERM, SIGXFSZ};
    for (int i = 0; i < 4; i++) signal(SIGNALS[i], SIG_IGN);
    atexit(put_back);
    for (int k = 0; k < ELEMENTS; k++) {
        FILE *to = make(&ELEMENT[k], ELEMENT[k].part, &done[k].made_part);
        size_t n = fwrite(text[k], 1, length, to);
        if (fclose(to) != 0 || n < length) no_file(&ELEMENT[k]);
        fclose(make(&ELEMENT[k], ELEMENT[k].aside, &done[k].made_aside));
    }
    for (int k = 0; k < ELEMENTS; k++) {
        done[k].moved = rename(ELEMENT[k].file, ELEMENT[k].aside) == 0;
        if (!done[k].moved && errno != ENOENT) no_file(&ELEMENT[k]);
        done[k].placed = rename(ELEMENT[k].part, ELEMENT[k].file) == 0;
        if (!done[k].placed) no_file(&ELEMENT[k]);
    }
}

/* All is done: of what stood in the places nothing is kept. */
static void forget(void) {
    for (int k = 0; k < ELEMENTS; k++) remove(ELEMENT[k].aside);
    memset(done, 0, sizeof done);
}

/* Writes the station's record to the folder, and prints what it has: every line before the first file. */
static void send_record(const station *st, const page *r, card_columns columns, card_run run, uint32_t state,
                        uint32_t division) {
    static uint8_t text[ELEMENTS][MOST_YEARS * CLOSED_LINE];
    long first = st->first / 12, years = (st->next - 1) / 12 - first + 1;
    size_t sent[ELEMENTS] = {0};
    for (int k = 0; k < ELEMENTS; k++) {
        for (long i = 0; i < years; i++) {
            uint8_t *line = text[k] + i * CLOSED_LINE;
            uint8_t number =
                ELEMENT[k].write(columns, run, state, division, (uint32_t)first, (uint32_t)i, line, CARD_LINE);
            if (number != CARD_DONE) refuse_line(st, r, &ELEMENT[k], first + i, number);
            line[CARD_LINE] = '\n';
        }
        for (size_t i = 0; i < r->rows; i++) sent[k] += ELEMENT[k].sent(&r->row[i]) != NULL;
    }
    write_files(text, (size_t)years * CLOSED_LINE);
    print("years %ld %04ld to %04ld index %zu open %zu z %zu modified %zu\n", years, first, first + years - 1, sent[0],
          r->rows - sent[0], sent[1], sent[2]);
    flush();
    forget();
}

int main(int argc, char **argv) {
    static station st;
    static repairs rs;
    static page r;
    static int32_t x1[CARD_MOST_MONTHS], x2[CARD_MOST_MONTHS], x3[CARD_MOST_MONTHS], index[CARD_MOST_MONTHS];
    static uint8_t mark[CARD_MOST_MONTHS];
    static card_record records[CARD_MOST_MONTHS];
    static int64_t v[CARD_MOST_MONTHS];
    card_columns columns = card_columns_of(x1, x2, x3, index, mark, records, v, CARD_MOST_MONTHS);
    int repairing = argc >= 2 && strcmp(argv[1], "--repair") == 0;
    int working_out = argc >= 2 && strcmp(argv[1], "--constants") == 0;
    int sending = argc >= 2 && strcmp(argv[1], "--send") == 0;
    uint32_t state = 0, division = 0;
    /* a pipe that nobody reads is then a write that fails, and is said */
    signal(SIGPIPE, SIG_IGN);
    if (repairing && argc != 3)
        stop(NOT_READ, "--repair and %d arguments more; expected: --repair and the name of a file", argc - 2);
    if (working_out && argc != 2)
        stop(NOT_READ, "--constants and %d more; expected: --constants alone", argc - 2);
    if (sending && argc != 5)
        stop(NOT_READ, "--send and %d arguments more; expected: --send, a STATE, a DIVISION and a FOLDER", argc - 2);
    if (!repairing && !sending && argc > 2)
        stop(NOT_READ, "%d arguments; expected: none, or how many months are added in a call", argc - 1);
    if (argc == 2 && strcmp(argv[1], "--help") == 0) {
        print_help();
        flush();
        return 0;
    }
    size_t most = argc == 2 && !working_out ? months_in_a_call(argv[1]) : 0;
    if (sending) {
        state = two_digits(argv[2], "STATE");
        division = two_digits(argv[3], "DIVISION");
        enter_folder(argv[4]);
    }
    scanner s = read_standard_input(), of_repairs = {0};
    if (repairing) of_repairs = read_file_of_repairs(argv[2]);
    read_station(&s, &st, working_out);
    if (repairing) read_repairs(&of_repairs, &st, &rs);
    card_run run = start(&st);
    if (working_out) ask_weights(&st, columns, run);
    run = most == 0 ? add_singly(&st, columns, run, &r) : add_seasons(&st, columns, run, &r, most);
    if (working_out) {
        work_out(&st, columns, run);
        flush();
        return 0;
    }
    run = repair_months(&st, &rs, columns, run, 0);
    look_back(columns, run, &r);
    if (sending) {
        send_record(&st, &r, columns, run, state, division);
        return 0;
    }
    if (repairing)
        print_reports(&st, &rs, columns, &r);
    else if (most == 0)
        print_singly(&r, st.first);
    else
        print_seasons(&r);
    print_rows(&r, st.first);
    print_water(&r, st.first);
    flush();
    return 0;
}
