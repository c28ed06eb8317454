/* A record read back, in C over the card's library: of a division file of index, Z or modified index a row for each year
 * of a state and a division. station.c with --send writes such files; published ones are read too.
 *
 *   receive ELEMENT STATE DIVISION <FILE
 *
 * ELEMENT is index, z or modified, STATE and DIVISION are one or two digits, as 14 and 07. FILE is in the nClimDiv layout,
 * of any size, its lines of any length and closed by a line feed; the last one may also be closed by the end of the input.
 *
 * Printed are the year, twelve values in hundredths or a dash where the month is missing, and how many months are there.
 * Lines of another state, division or element are passed over. The first line that is taken may be of any year, each
 * later one is to be of the year that follows (16); a line that is malformed (14) ends the reading, whosever it is. Where
 * no line was taken, that is 15 on the last line's number. Then standard output has only the word refused, the line's
 * number and the refusal's, and standard error says it in words. No row is printed before all is read. The status is
 *
 *   0  done
 *   1  a line is refused, or none was taken
 *   2  wrong arguments, or an input that cannot be read
 *   3  standard output cannot be written
 *
 * What a line says is the library's to tell; here bytes are only moved, and a refusal is put in words. */
#include "card.h"

#include <inttypes.h>
#include <signal.h>
#include <stdarg.h>
#include <stdio.h>
#include <stdlib.h>
#include <string.h>

enum { REFUSED = 1, NOT_READ = 2, NOT_WRITTEN = 3 };
/* Where a line's values begin, and the columns of one. */
enum { FIRST_VALUE = 11, VALUE = 7 };
/* What a row has at most, and how many there can be: each year has four digits and follows the one before. */
enum { ROW = 96, MOST_ROWS = 10000, PIECE = 65536 };

typedef struct element {
    const char *argument;
    const char *name;
    card_line_figures (*read)(const uint8_t *, size_t, uint32_t, uint32_t, uint32_t);
} element;

static const element ELEMENT[3] = {{"index", "the index, element 05", card_read_index_line},
                                   {"z", "the Z, element 07", card_read_z_line},
                                   {"modified", "the modified index, element 08", card_read_modified_line}};

/* What was read. */
typedef struct reading {
    const element *element;
    uint32_t state;
    uint32_t division;
    uint64_t lines; /* how many lines were judged */
    /* Of the line at hand the first CARD_LINE bytes, and after them the first that is no space: it is judged as the whole
     * line would be. */
    uint8_t line[CARD_LINE + 1];
    size_t kept;
    size_t rows;
    uint32_t next; /* the year that is to follow, where there are rows */
    char text[ROW * MOST_ROWS];
    size_t length;
} reading;

/* Says a line on standard error and ends the program. */
static void stop(int status, const char *format, ...) {
    va_list values;
    va_start(values, format);
    fputs("receive: ", stderr);
    vfprintf(stderr, format, values);
    fputc('\n', stderr);
    va_end(values);
    exit(status);
}

/* Prints all there is to print, or says that it cannot. */
static void print(const char *text, size_t length) {
    if (fwrite(text, 1, length, stdout) < length || fflush(stdout) != 0)
        stop(NOT_WRITTEN, "the output cannot be written");
}

/* ---- What is refused -------------------------------------------------------------------------------------- */

/* 14, of the field that begins at a column. A value's fault goes by the line's own element: precipitation has a range. */
static const char *fault_of(const reading *r, uint32_t column) {
    if (column < FIRST_VALUE)
        return r->line[0] == 0xef ? "a byte order mark; save the file without it" : "no digits";
    if (column > CARD_LINE)
        return r->line[CARD_LINE] == '\r'
                   ? "a carriage return; the file has CR LF line ends, and the layout a line feed alone"
                   : "something after the last value that is no space";
    return memcmp(r->line + 4, "01", 2) == 0 ? "neither -9.99 nor 0.00 to 100.00 inches, as the layout has them"
                                             : "no number with two decimals, as the layout has them";
}

/* 14: where the line is at fault. */
static void refuse_fault(const reading *r) {
    uint32_t column = card_line_fault(r->line, r->kept);
    if (r->kept < CARD_LINE)
        stop(REFUSED, "line %" PRIu64 ": it ends after column %zu, and the layout has %d", r->lines, r->kept,
             CARD_LINE);
    if (column < FIRST_VALUE || column > CARD_LINE)
        stop(REFUSED, "line %" PRIu64 ", column %" PRIu32 ": %s", r->lines, column, fault_of(r, column));
    stop(REFUSED, "line %" PRIu64 ", column %" PRIu32 ": month %" PRIu32 " is %s", r->lines, column,
         (column - FIRST_VALUE) / VALUE + 1, fault_of(r, column));
}

/* Prints the refusal, and says why the reading stopped; the line that stopped it is still kept. */
static void refuse(const reading *r, uint8_t number) {
    char text[ROW];
    print(text, (size_t)snprintf(text, ROW, "refused %" PRIu64 " %d\n", r->lines, number));
    if (number == CARD_MALFORMED) refuse_fault(r);
    if (number == CARD_NOT_THE_YEAR)
        stop(REFUSED, "line %" PRIu64 ": the year is %" PRIu32 ", and %" PRIu32 " was to follow", r->lines,
             card_line_year(r->line, r->kept), r->next);
    if (r->lines == 0) stop(REFUSED, "the input is empty");
    stop(REFUSED, "no line up to line %" PRIu64 " is %s, of state %" PRIu32 ", division %" PRIu32, r->lines,
         r->element->name, r->state, r->division);
}

/* ---- Lines ------------------------------------------------------------------------------------------------ */

/* A row: there is room for it, since no line is of the year after 9999. */
static void add_row(reading *r, uint32_t year, const card_line_figures *f) {
    char *at = r->text + r->length;
    at += sprintf(at, "%" PRIu32, year);
    for (int m = 0; m < CARD_LINE_MONTHS; m++)
        at += f->present >> m & 1 ? sprintf(at, " %" PRId32, f->hundredths[m]) : sprintf(at, " -");
    at += sprintf(at, " %" PRIu32 "\n", f->count);
    r->length = (size_t)(at - r->text);
    r->rows++;
    r->next = year + 1;
}

/* Judges the line that is kept. */
static void judge(reading *r) {
    uint32_t year = r->rows == 0 ? card_line_year(r->line, r->kept) : r->next;
    card_line_figures f = r->element->read(r->line, r->kept, r->state, r->division, year);
    r->lines++;
    if (f.number == CARD_DONE)
        add_row(r, year, &f);
    else if (f.number != CARD_OTHER_LINE)
        refuse(r, f.number);
    r->kept = 0;
}

/* Keeps what is needed of more bytes of a line. */
static void keep(reading *r, const uint8_t *bytes, size_t count) {
    size_t room = CARD_LINE - (r->kept < CARD_LINE ? r->kept : CARD_LINE), n = count < room ? count : room;
    memcpy(r->line + r->kept, bytes, n);
    for (r->kept += n; n < count && r->kept == CARD_LINE; n++)
        if (bytes[n] != ' ') r->line[r->kept++] = bytes[n];
}

/* A piece of the input, which may begin and end in a line. */
static void take(reading *r, const uint8_t *bytes, size_t count) {
    const uint8_t *end = bytes + count, *feed;
    for (; (feed = memchr(bytes, '\n', (size_t)(end - bytes))) != NULL; bytes = feed + 1) {
        keep(r, bytes, (size_t)(feed - bytes));
        judge(r);
    }
    keep(r, bytes, (size_t)(end - bytes));
}

/* A state or a division, by the program's argument. */
static uint32_t two_digits(const char *argument, const char *name) {
    size_t length = strlen(argument);
    if (length < 1 || length > 2 || strspn(argument, "0123456789") < length)
        stop(NOT_READ, "%s is one or two digits, as 07", name);
    return (uint32_t)atoi(argument);
}

static const element *named(const char *argument) {
    for (int i = 0; i < 3; i++)
        if (strcmp(argument, ELEMENT[i].argument) == 0) return &ELEMENT[i];
    stop(NOT_READ, "ELEMENT is index, z or modified");
    return NULL;
}

int main(int argc, char **argv) {
    static reading r;
    static uint8_t piece[PIECE];
    size_t count;
    /* a pipe that nobody reads is then a write that fails, and is said */
    signal(SIGPIPE, SIG_IGN);
    if (argc != 4) stop(NOT_READ, "%d arguments; expected: ELEMENT STATE DIVISION, as index 14 07", argc - 1);
    r.element = named(argv[1]);
    r.state = two_digits(argv[2], "STATE");
    r.division = two_digits(argv[3], "DIVISION");
    while ((count = fread(piece, 1, PIECE, stdin)) > 0) take(&r, piece, count);
    if (ferror(stdin)) stop(NOT_READ, "the input cannot be read");
    if (r.kept > 0) judge(&r);
    if (r.rows == 0) refuse(&r, CARD_OTHER_LINE);
    print(r.text, r.length);
    return 0;
}
