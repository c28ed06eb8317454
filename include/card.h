/* card.h: Palmer's drought index on a rain station's card.
 *
 * Palmer's 1965 index in whole-number arithmetic. Water is in whole thousandths of an inch; Z and all X
 * are in thousandths; the constants and K are in ten-thousandths. "Nearest" means the nearest whole
 * number, halves away from zero.
 *
 * HOW IT IS USED
 *
 * Start a run with the station's sixty constants, then add one month after another, as water or as a Z.
 * The library keeps nothing of its own: the run goes in by value and comes back in the answer, and the
 * seven columns that hold the months are the caller's memory, lent for the call. Keep the run that comes
 * back; hand the same columns in each time.
 *
 *     static int32_t x1[600], x2[600], x3[600], indexes[600];
 *     static uint8_t marks[600];
 *     static card_record records[600];
 *     static int64_t v[600];
 *
 *     card_columns columns = card_columns_of(x1, x2, x3, indexes, marks, records, v, 600);
 *     card_started start = card_start(constants, CARD_CONSTANTS, 6000, 0, 1330, 6);   // from June on
 *     if (start.number != CARD_DONE) return complain(card_meaning(start.number));
 *     card_run run = start.run;
 *
 *     card_added june = card_add_water_in(columns, run, card_inches(5.56f), card_inches(4.8f));
 *     if (june.number != CARD_DONE) return complain(card_meaning(june.number));
 *     run = june.run;
 *
 *     card_record water = card_row_in(columns, run, 0).month;   // June: ET, runoff, the soil at its end
 *
 * Every month is marked open or settled. An open month shows a provisional index and may still change. A
 * settled month is changed by nothing but a repair, and its index is what hindsight over the whole series, as
 * it stands since the last repair, would have chosen.
 *
 * Beside Palmer's index each month has the modified index of Heddinghaus and Sabol, for whoever cannot wait
 * until a month is settled. It is fixed when the month is added, and only a repair changes it; while a spell
 * abates it stands between X3 and the other side, X1 or X2, by the chance that the spell has ended: see
 * card_record.
 *
 * A trace is rain that fell, but too little to measure. It counts as no water, and is told from no rain all the
 * same: in the reading's answer, in the month's figures and in its record. See card_read.
 *
 * A month that was added with a wrong reading, as from a gauge that was found tilted, is put right by a
 * repair, which reworks it and all months after it: see card_repair_in.
 *
 * A station whose constants are lost has them worked out again from its own record, of ten years at least: see
 * card_work_out_in.
 *
 * The record is sent out as lines of a division file, in the nClimDiv layout: a line has a calendar year of the
 * index, of Z or of the modified index, in hundredths, and -99.99 where a month is missing. An index that is not
 * settled is not sent. A line is read back by the same rules: see card_write_index_line_in, card_read_index_line.
 *
 * Each call that can refuse answers with a number: 0 where it did what it was asked, and otherwise the refusal,
 * from the list below. A refused call writes nothing that was lent, answers with all figures 0 and hands back the
 * run as it was given (a refused start: a run of zeros). Where several refusals hold, the first in the
 * order given with the call is the answer. A season, many months in one call, is refused month by month:
 * the months before the refused one stay added, and of that month and those after it nothing is written.
 *
 * WHAT IS PROMISED, AND WHAT THE CALLER OWES
 *
 * Any value of any argument's type gets its answer or its refusal: a run of any bytes, any reading, any
 * lengths. What each call of the library answers and writes is proved for every such input; the inline
 * functions of this header, which only hand on to it, are tested (tests/header). No call allocates, blocks,
 * keeps a pointer or touches memory that was not lent to it, and there is no state between calls, so
 * calls on different columns may run at the same time.
 *
 * The types cannot say the following, and the library cannot test it. The caller sees to it that
 * - a pointer and the length after it belong together: so many elements stand there, all of them set,
 *   aligned as their type asks, and they may be written where the pointer is not to const;
 * - lists of one call do not overlap, unless both are to const;
 * - nothing else reads or writes a list that is lent for writing, or writes any lent list, until the call
 *   returns;
 * - a pointer is not NULL, unless the length beside it is 0: there the pointer is not looked at, and the
 *   list is empty. NULL beside any other length is the caller's fault, and no call finds it out.
 *
 * BUILDING AND LINKING
 *
 * In the project's top folder, `host/build card` proves the library and writes it to
 * target/staticlib/libcard.a (by `rt lib --cpu x86-64`, in crates/card). A program that includes this header, in C99 or later or in C++11 or later,
 * is compiled and linked there with
 *
 *     cc -Iinclude program.c target/staticlib/libcard.a
 *
 * The archive is for x86-64 Linux and links only into x86-64 programs; the firmware of another processor
 * needs another build of the kit's compiler. Of its host the library needs memcpy and memset, and nothing
 * else.
 *
 * STACK
 *
 * The deepest stack of each call of the library in bytes, as bench/run measures it:
 *
 *     card_read                    8
 *     card_start                 360
 *     card_add_water             864
 *     card_add_inches            816
 *     card_add_z                 608
 *     card_add_season           1072
 *     card_repair                768
 *     card_row                   392
 *     card_sum_month             488
 *     card_work_out             2344
 *     card_whole_series          104
 *     card_write_index_line      568
 *     card_write_z_line          568
 *     card_write_modified_line   568
 *     card_read_index_line       472
 *     card_read_z_line           472
 *     card_read_modified_line    472
 *
 * It is counted from the return address, which is included, down to the lowest word of 8 bytes that was
 * written by the call or by what it calls, memcpy and memset included. Not counted is what the caller
 * keeps: the arguments that are passed on the stack (a run alone is 288 bytes), the room for the answer
 * (card_started 296 bytes, card_added 376, card_season 384, card_repaired 296, card_shown 88, card_summed 40,
 * card_worked_out 292, card_line_figures 64) and what the inline functions of this header put into the caller's
 * frame; nor is an interrupt. The figures are the deepest seen over months and refusals of all sorts: measured,
 * not proved.
 */
#ifndef CARD_H
#define CARD_H

#include <stddef.h>
#include <stdint.h>

#ifdef __cplusplus
extern "C" {
#endif

/* The numbers that calls answer with. */
enum {
    CARD_DONE = 0,
    CARD_LENGTHS = 1,        /* the columns, or the lists of a whole series, not all of one length, or
                                length 0 or above CARD_MOST_MONTHS; the two lists of a season not of one
                                length; the report of a repair not as long as the columns */
    CARD_NOT_SIXTY = 2,      /* constants not sixty numbers; weights not twelve */
    CARD_CONSTANT = 3,       /* a constant outside its range; a weight outside 0 to 100,000 */
    CARD_CAPACITY = 4,       /* capacity outside its range, 100 to 30,000 */
    CARD_STORAGE = 5,        /* a start storage negative or above its layer: see card_soil */
    CARD_START_MONTH = 6,    /* start month, or calendar month to be summed, not 1 to 12 */
    CARD_NOT_A_RUN = 7,      /* not a run, or not the run of these columns: see card_run; of a repair also
                                a recorded figure outside its range: see card_repair_in; of a sum and of
                                working constants out also a month of water that no add gives: see
                                card_sum_month_in */
    CARD_MISSING_READING = 8,/* reading missing */
    CARD_BAD_READING = 9,    /* reading not acceptable */
    CARD_FULL = 10,          /* months already equal the column length */
    CARD_NO_ROW = 11,        /* row number not below the months added */
    CARD_BAD_Z = 12,         /* Z outside its range */
    CARD_MALFORMED = 14,     /* a line is malformed, or of precipitation that is neither missing nor 0 to 100
                                inches: see card_read_index_line */
    CARD_OTHER_LINE = 15,    /* a line of another state, division or element */
    CARD_NOT_THE_YEAR = 16,  /* a line of another year */
    CARD_WATERLESS = 17,     /* no water in that month: it was added as a Z, and has no reading to repair */
    CARD_FEW_YEARS = 18,     /* fewer than ten years, January to December, in the run; or a month of one of
                                them had no water: see card_sum_month_in */
    CARD_GAMMA = 19,         /* a gamma worked out is above 50,000 */
    CARD_K = 20,             /* no departures to weigh, or a K worked out is above 100,000 */
    CARD_ZERO_K = 21,        /* a K of 0, given or worked out: every such month would count for nothing */
    CARD_UNFIT = 24,         /* a value that does not fit its seven characters or would read as missing; or a
                                state, division or year that does not fit its digits: see
                                card_write_index_line_in */
    CARD_SHORT_LINE = 25     /* the list for a line has fewer than CARD_LINE bytes */
};

/* What a number means, in words. */
static inline const char *card_meaning(uint8_t number) {
    switch (number) {
    case CARD_DONE: return "done";
    case CARD_LENGTHS: return "lists not all of one length, or length 0 or above 12,000";
    case CARD_NOT_SIXTY: return "constants not sixty numbers";
    case CARD_CONSTANT: return "a constant outside its range";
    case CARD_CAPACITY: return "capacity outside its range";
    case CARD_STORAGE: return "a start storage negative or above its layer";
    case CARD_START_MONTH: return "start month not 1 to 12";
    case CARD_NOT_A_RUN: return "not a run";
    case CARD_MISSING_READING: return "reading missing";
    case CARD_BAD_READING: return "reading not acceptable";
    case CARD_FULL: return "months already equal the column length";
    case CARD_NO_ROW: return "row number not below the months added";
    case CARD_BAD_Z: return "Z outside its range";
    case CARD_MALFORMED: return "a line is malformed, or its precipitation outside 0 to 100 inches";
    case CARD_OTHER_LINE: return "a line of another state, division or element";
    case CARD_NOT_THE_YEAR: return "a line of another year";
    case CARD_WATERLESS: return "no water in that month";
    case CARD_FEW_YEARS: return "fewer than ten whole years, or one with a month without water";
    case CARD_GAMMA: return "a gamma worked out is outside its range";
    case CARD_K: return "no departures to weigh, or a K worked out is outside its range";
    case CARD_ZERO_K: return "a K of 0, by which a month counts for nothing";
    case CARD_UNFIT: return "a value, state, division or year does not fit, or a value would read as missing";
    case CARD_SHORT_LINE: return "the list is too short for a line";
    default: return "no number of this library";
    }
}

/* What a column holds at most, how many constants a station has, with how many weights they are worked out,
 * and how many bytes and how many months a line of a division file has. */
#define CARD_MOST_MONTHS 12000
#define CARD_CONSTANTS 60
#define CARD_WEIGHTS 12
#define CARD_LINE 94
#define CARD_LINE_MONTHS 12

/* The two marks of a month. */
enum { CARD_OPEN = 1, CARD_SETTLED = 2 };

/* ---- Readings ------------------------------------------------------------------------------------- */

/* The four kinds of a reading. Any other kind is a reading that is not acceptable (9). */
enum {
    CARD_MISSING = 0,     /* no reading; neither number is looked at */
    CARD_WHOLE = 1,       /* `whole`, thousandths of an inch, 0 to 100,000 */
    CARD_INCHES = 2,      /* `measure`, inches, 0 to 100 */
    CARD_MILLIMETRES = 3  /* `measure`, millimetres, 0 to 2,540 */
};

/* A reading: its kind, and the number that this kind looks at. The other number is not looked at. */
typedef struct card_reading {
    uint32_t kind;
    int32_t whole;
    float measure;
} card_reading;

static inline card_reading card_missing(void) {
    card_reading r = {CARD_MISSING, 0, 0.0f};
    return r;
}

static inline card_reading card_whole(int32_t thousandths) {
    card_reading r = {CARD_WHOLE, thousandths, 0.0f};
    return r;
}

static inline card_reading card_inches(float inches) {
    card_reading r = {CARD_INCHES, 0, inches};
    return r;
}

static inline card_reading card_millimetres(float millimetres) {
    card_reading r = {CARD_MILLIMETRES, 0, millimetres};
    return r;
}

/* The kinds of a reading's answer: see card_read. */
enum {
    CARD_NONE = 0,    /* no rain, or a refused reading: the water is 0 */
    CARD_TRACE = 1,   /* rain, but too little to measure: it counts as no water, and the water is 0 */
    CARD_MEASURED = 2 /* the water is above 0 */
};

/* What a reading gives: its number, its kind, and thousandths of an inch, 0 where it is refused. */
typedef struct card_answer {
    uint8_t number;
    uint8_t kind; /* CARD_NONE, CARD_TRACE or CARD_MEASURED */
    uint32_t water;
} card_answer;

/* Reads a reading. Refusals: 8 where it is missing, 9 where it is not acceptable.
 *
 * The water is the nearest thousandth of an inch to the exact value of the number; for millimetres that
 * is the value x 5000/127. Negative zero is 0. NaN, infinities, negatives and anything above the range
 * are not acceptable. 0.0625 inch gives 63; 7.9375 mm gives 313; 2,540 mm gives 100,000.
 *
 * The exact value is the float's: 0.0025f is a little less than 0.0025 and gives 2. Whoever has decimals
 * and wants their halves exact makes thousandths of them and uses card_whole.
 *
 * The kind is
 * - CARD_MEASURED where the water is above 0;
 * - CARD_TRACE where the water is 0 and the number, inches or millimetres, is above zero: from the smallest
 *   float there is up to 0.00049999997f inch and 0.0126999998f mm. 0.0005f inch gives 1, and 0.0127f mm, which
 *   is a little less than 0.0127, is a trace;
 * - CARD_NONE where the number is zero, negative zero too, or a whole 0, and with every refusal. The amounts of
 *   a division file are whole, so its 0.00 is none.
 *
 * A whole number cannot say a trace. For a gauge or an observer that says T, hand in any number that is one, as
 * card_inches(0.0001f). */
card_answer card_read(card_reading reading);

/* ---- A run ---------------------------------------------------------------------------------------- */

/* The two layers of soil, in thousandths of an inch. The surface layer holds 1,000 or, in a thin soil, whose
 * capacity is less, all of it; the underlying layer holds the rest, which is nothing in a thin soil. */
typedef struct card_soil {
    uint32_t capacity;   /* C, 100 to 30,000 */
    uint32_t surface;    /* what the surface layer stores, 0 to the smaller of 1,000 and C */
    uint32_t underlying; /* what the underlying layer stores, 0 to C - 1,000; 0 where C is below 1,000 */
} card_soil;

/* The running values, as the last month left them. */
typedef struct card_values {
    int32_t x1;
    int32_t x2;
    int32_t x3;
    int64_t v; /* what the months since the spell began to abate have brought */
} card_values;

/* A run: what a station's card keeps between months, beside the columns. card_start makes one, and each
 * add and each repair hands back the next. It is plain data and may be stored and copied as such, 288 bytes
 * in the host's byte order; between its fields are bytes that mean nothing, so two runs are compared field by
 * field and not with memcmp.
 *
 * A run and its columns belong together. Store both or neither: a card that may lose power between the two
 * keeps the last whole pair to go back to. Of a pair that does not belong together the calls see, beside columns
 * too short for the months, only that the record of the run's last month does not end with the run's storages
 * (7):
 * - A run of after an add, with the columns of before it, is held against a place that this add has not
 *   written. It is refused, unless both storages stand there by chance, as in columns of zeros where the soil
 *   is empty.
 * - A run of before an add, with the columns of after it, is taken: it is held against the record of its own
 *   last month, which the add left as it was. Its settled months may then change.
 * - A run of before a repair, with the columns of after it, or the other way round, is refused only where the
 *   repair changed a storage at the end of the last month. Where it is taken, months to come may be wrong.
 * - A run with the columns of another is refused, unless both storages are the same there, as in two soils that
 *   are empty, or of one capacity and full.
 * - A run of no months is held against nothing.
 *
 * These are not a run, and the calls refuse them (7): months above the column length; open months above
 * months; a constant, the capacity or a storage out of range; a K of 0; a calendar month not 1 to 12; an X
 * beyond 13,000,000 in size; X1 negative or X2 positive; V beyond 4,000,150 x months in size; V above 0
 * without X3 below 0, or V below 0 without X3 above 0; after any month, the last record's storages at its
 * end are not the run's. Nothing else of what the columns hold is asked, but by a repair (see card_repair_in),
 * by a sum and where constants are worked out (see card_sum_month_in).
 *
 * A card may hold a run that was started with a K of 0 before that was refused. Every call refuses it now,
 * card_row too: not even its rows are shown. Where run.constants[5 * month - 1] is 0, month 1 to 12, put
 * the station's K for that month there, and it is a run again, with its columns as they stand and the two
 * lists beside them that such a card has not yet (see card_columns). If only Z were added to it nothing is
 * amiss, and any K will do. Otherwise what the columns hold is not made right by that: each month of water
 * of that name was added with a Z of 0, and settled months stay as they are. To have them judged with the
 * K, start anew and add all months again, in other columns.
 *
 * 7 is no checksum. What was damaged, in the run or in the columns, and is still none of these is taken,
 * and so are constants that were copied in the wrong order: whoever swaps a card compares all sixty with
 * the station's own list. */
typedef struct card_run {
    uint32_t months;   /* how many months it holds */
    uint32_t opens;    /* how many of them, the last ones, are open */
    uint32_t calendar; /* the calendar month of the month to come, 1 to 12 */
    card_soil soil;
    card_values values;
    int32_t constants[CARD_CONSTANTS]; /* its own copy: January first, alpha, beta, gamma, delta, K */
} card_run;

typedef struct card_started {
    uint8_t number;
    card_run run;
} card_started;

/* Starts a run of no months. Refusals, in this order: 2, 3, 21, 4, 5, 6. It takes no columns and writes
 * nothing that is lent.
 *
 * constants: sixty numbers, January first, each month in the order alpha, beta, gamma, delta, K. Alpha,
 * beta, delta 0 to 10,000; gamma 0 to 50,000; K 1 to 100,000. Zero is a value, never "missing"; of the K
 * alone it is refused, with a number of its own (21), since the Z of such a month is 0 whatever falls. 3 comes
 * first, for any of the sixty. A K of 1 is taken, and weighs as good as nothing.
 * capacity: 100 to 30,000. surface: what the surface layer stores at the start, 0 to the smaller of 1,000 and
 * capacity. underlying: the same of the underlying layer, 0 to capacity - 1,000; 0 where capacity is below
 * 1,000. month: the calendar month of the first month to be added, 1 to 12.
 *
 * A run to which Z alone will be added is started with sixty ones and any soil: a Z that is given is not
 * reckoned with them. It is for no month of water.
 *
 * The constants are those that were worked out with this capacity: another capacity needs others. A lost set is
 * worked out again by card_work_out_in, and a start takes what that answers with. A thin soil keeps little of the
 * months before. With a capacity of 100, a month whose PE passes its rain by a tenth of an inch leaves the soil
 * empty, and one whose rain passes its PE by as much leaves it full, whatever it held. */
card_started card_start(const int32_t *constants, size_t constants_length,
                        int32_t capacity, int32_t surface, int32_t underlying, int32_t month);

/* ---- Columns -------------------------------------------------------------------------------------- */

/* Whether a month had water, as its record says: only 1 is water. */
enum { CARD_HAD_NO_WATER = 0, CARD_HAD_WATER = 1 };

/* A month's record: its Z, its water, what the soil stored and its modified index, in thousandths, of an inch
 * but for Z and the index; and the kind of its precipitation. It is 56 bytes without gaps. No number but Z and
 * the modified index is ever below 0.
 *
 * The add that takes the month writes its record, at the month's place, and no add to the run that it hands
 * back writes it again: the index of an open month may change, its record does not. A repair alone writes it
 * anew, of its own month and of all after it. Places after the last month are never written.
 *
 * The balance of a month of water is read from its record. What fell went back to the air, ran off or stayed
 * in the soil, and where the soil lost, the gain is below 0:
 *
 *     p = et + ro + gain      gain = surface + underlying - ss - su = r - l
 *
 * An added Z has no water: p to ro are 0, and the storages at its end are those at its start. A run's first
 * month starts with the storages that card_start was given, every other with those at the end of the month
 * before.
 *
 * Where p is 0, kind tells a trace (CARD_TRACE) from no rain (CARD_NONE); where p is above 0 it is
 * CARD_MEASURED. An added Z has CARD_NONE, and water tells it from a month without rain. The kind of the PE is
 * not kept.
 *
 * The modified index is, nearest, with the X1, X2 and X3 that the month leaves,
 *
 *     (1 - p) X3 + p X1      while a drought abates, where percent is 1 to 99 and X3 below 0
 *     (1 - p) X3 + p X2      while a wet spell abates, where percent is 1 to 99 and X3 above 0
 *
 * p is the chance that the spell has ended, before it is rounded to the percent. In every other month it is
 * what index was when the month was added: X3 if that is not 0, else the larger in size of X1 and X2, X2 where
 * they tie. */
typedef struct card_record {
    int32_t z;          /* Z, as it was reckoned or given */
    int32_t p;          /* precipitation */
    int32_t pe;         /* potential evapotranspiration */
    int32_t et;         /* evapotranspiration */
    int32_t r;          /* recharge */
    int32_t l;          /* loss from both layers, Ls + Lu */
    int32_t ro;         /* runoff */
    int32_t ss;         /* Ss, what the surface layer stored at the month's start */
    int32_t su;         /* Su, what the underlying layer stored then */
    int32_t surface;    /* what the surface layer stored at the month's end */
    int32_t underlying; /* what the underlying layer stored then */
    int32_t water;      /* CARD_HAD_WATER, or of an added Z CARD_HAD_NO_WATER */
    int32_t modified;   /* the modified index */
    int32_t kind;       /* CARD_NONE, CARD_TRACE or CARD_MEASURED: the kind of the precipitation */
} card_record;

/* The seven columns that hold a run's months, each with its length: X1, X2, X3, index and mark, the records,
 * and V after each month, which is written as a record is. They are to be of one length, 1 to
 * CARD_MOST_MONTHS, which is how many months the run can come to hold; a month takes 81 bytes in all, the
 * longest columns 972,000. A struct of zeros is seven lists of length 0, and refused with 1.
 *
 * A card may hold five columns, from before records and V were kept. It goes on with the same run and two
 * lists more, as long as the five. It has no record of its months, and of the last one every call wants the
 * storages (7): where run.months is not 0, put run.soil's surface and underlying into the record at place
 * run.months - 1. That is the least, and all else in the two lists may be 0. A row then shows these months
 * without water and with a Z, a V, a modified index and a kind of 0, and that says nothing of them. V after the
 * last one is run.values.v; the rest is had only by adding all months again, to a new run in other columns.
 * None of these months can be repaired (17), nor constants be worked out where one of them is in a whole year
 * (18). Of the months added since, those after the first that settled any can be repaired, as if all had records;
 * up to that one the lists do not tell where the run stood, and a repair takes their zeros for it.
 *
 * A card may hold records of 52 bytes, from before the kind of the precipitation was kept: the first thirteen
 * numbers of a record as it is now. Copy each into the beginning of a longer one and put 0 (CARD_NONE) for
 * kind: a repair asks that it is 0 to 2 and keeps it, but for the month repaired; no other call asks for it, and
 * a row shows it as it stands. The run and the other six lists stay as they are. Whether a p of 0 was a trace is
 * had only by adding all months again, from their readings.
 *
 * A card may hold records of 48 bytes, from before the modified index was kept: the first twelve numbers of a
 * record as it is now. They are copied in the same way, with 0 for modified too. The modified indexes of these
 * months are had by adding all months again; or, where the first month had water, by repairing it with its
 * readings as recorded, which reworks them all.
 *
 * What a call answers and writes hangs on that length only where the months do not fit in (7) or fill it
 * (10). So columns made for 2,400, which was the most once, stay usable and give the same answers. And a
 * run that has filled its columns, also one that was stored so, goes on in longer ones, up to
 * CARD_MOST_MONTHS: copy its months, all seven lists, to their beginning and hand them in with the same
 * run. It comes to what it would have come to there from its first month on; what stands after the months
 * is not looked at. At CARD_MOST_MONTHS a new run is needed, in other columns.
 *
 * The calls whose names end in _in take the columns so, and are the usual way. The same calls with each
 * list by itself stand further down. card_row_in, card_sum_month_in, card_work_out_in and the three that write a
 * line only read them; with each list by itself these six take const columns. */
typedef struct card_columns {
    int32_t *x1;
    size_t x1_length;
    int32_t *x2;
    size_t x2_length;
    int32_t *x3;
    size_t x3_length;
    int32_t *index;
    size_t index_length;
    uint8_t *mark;
    size_t mark_length;
    card_record *records;
    size_t records_length;
    int64_t *v;
    size_t v_length;
} card_columns;

/* Columns that are all of one length. */
static inline card_columns card_columns_of(int32_t *x1, int32_t *x2, int32_t *x3, int32_t *index,
                                           uint8_t *mark, card_record *records, int64_t *v, size_t length) {
    card_columns columns = {x1, length, x2, length, x3, length, index, length,
                            mark, length, records, length, v, length};
    return columns;
}

/* ---- Adding a month ------------------------------------------------------------------------------- */

/* The kinds of a month's two readings, CARD_NONE, CARD_TRACE or CARD_MEASURED each, as card_read gives them. */
typedef struct card_month_kinds {
    uint8_t p;  /* of the precipitation */
    uint8_t pe; /* of the PE */
} card_month_kinds;

/* The water of a month, in thousandths of an inch, and the kinds of the readings that it came from. All 0, the
 * kinds too (CARD_NONE), for an added Z. Of these the month's record keeps p, pe, et, r, ro, ls + lu and
 * kinds.p. */
typedef struct card_water {
    uint32_t p;     /* precipitation */
    uint32_t pe;    /* potential evapotranspiration */
    uint32_t ls;    /* loss from the surface layer */
    uint32_t lu;    /* loss from the underlying layer */
    uint32_t et;    /* evapotranspiration */
    uint32_t r;     /* recharge */
    uint32_t ro;    /* runoff */
    uint32_t pr;    /* potential recharge */
    uint32_t pro;   /* potential runoff */
    uint32_t pl;    /* potential loss */
    int32_t cafec;  /* expected (CAFEC) precipitation */
    card_month_kinds kinds;
} card_water;

/* A month's figures. */
typedef struct card_figures {
    card_water water;
    int32_t z;
    uint32_t percent; /* the chance that the spell has ended, 0 to 100 */
    int32_t x1;
    int32_t x2;
    int32_t x3;
    int32_t index;    /* provisional where the mark is CARD_OPEN */
    uint8_t mark;     /* CARD_OPEN or CARD_SETTLED */
    int32_t modified; /* the modified index, as the month's record keeps it */
} card_figures;

typedef struct card_added {
    uint8_t number;
    uint32_t settled;     /* how many months this call settled, its own included: the open months before
                             it plus one if it decides, else 0 */
    card_figures figures; /* of the month added */
    card_run run;         /* the run with the month added */
} card_added;

/* Adds a month of water from two readings. Refusals, in this order: 1, 7, precipitation 8 or 9, PE 8 or
 * 9, 10.
 *
 * The call writes the new month's place in the seven columns (place run.months, counted from 0), and index
 * and mark of the open months that it settles, and nothing else. It takes the run's open months as the
 * columns hold them and does not check what they hold.
 *
 * A trace, as precipitation or as PE, comes to what 0 comes to, but for its kind in the figures and, of the
 * precipitation, in the record. */
static inline card_added card_add_water_in(card_columns columns, card_run run,
                                           card_reading precipitation, card_reading pe);

/* One month's precipitation and PE, both in inches, 0 to 100. */
typedef struct card_month_inches {
    float p;
    float pe;
} card_month_inches;

/* The same from precipitation and PE that arrive together as inches, their kinds included. Refusals, in this
 * order: 1, 7, precipitation 9, PE 9, 10. There is no missing reading here: NaN is 9. */
static inline card_added card_add_inches_in(card_columns columns, card_run run, card_month_inches month);

/* Adds a Z, -4,000,000 to 4,000,000: the storages stay, the calendar moves on. Refusals, in this order:
 * 1, 7, 12, 10. It writes the places that card_add_water_in writes; its record says that it had no water. There
 * was no reading, so both kinds of its figures and the record's are CARD_NONE. */
static inline card_added card_add_z_in(card_columns columns, card_run run, int32_t z);

/* ---- Adding a season ------------------------------------------------------------------------------ */

/* What stands in a season's lists for a missing reading. */
#define CARD_NO_READING (-1)

/* What a season came to. All but the number tells of the months that were added, also where one was then
 * refused. */
typedef struct card_season {
    uint8_t number;       /* 0 where all months were added, and otherwise the refusal of the first that was
                             not */
    uint32_t added;       /* how many were added: the lists' place of the month that was refused */
    uint32_t settled;     /* how many months they settled, all together */
    card_figures figures; /* of the last month added, all 0 where none was */
    card_run run;         /* the run with these months added */
} card_season;

/* Adds months of water in order, as card_add_water_in would one by one: the run, the columns, the counts
 * and the figures are those of the single adds. For a card that comes back with several months at once.
 *
 * precipitation and pe: lists of one length, any length, 0 included; whole thousandths of an inch, 0 to
 * 100,000, or CARD_NO_READING. card_read makes thousandths of inches and millimetres.
 *
 * Whole thousandths cannot say a trace: 0 is CARD_NONE here, and no month is CARD_TRACE. A card that wants its
 * traces kept adds those months singly, by card_add_water_in, and the months between them as seasons.
 *
 * Refusals: before the first month 1 (the seven columns as ever, and the two lists of unequal length), then
 * 7; then of each month, in this order, precipitation 8 or 9, PE 8 or 9, 10. At the first month refused the
 * call stops: the months before it stay added, and nothing of it or of those after it is written. With 1 or
 * 7, or with empty lists, nothing is added. */
static inline card_season card_add_season_in(card_columns columns, card_run run,
                                             const int32_t *precipitation, size_t precipitation_length,
                                             const int32_t *pe, size_t pe_length);

/* ---- Missing months ------------------------------------------------------------------------------- */

/* A month whose precipitation or PE is missing is refused with 8: nothing is written, and the run comes
 * back with its calendar still at that month (a season stops there, and `added` is its place). No later
 * month can be added in its right place before something is done about this one. Never add the next
 * month's water in its stead: it would be judged by the wrong month's constants, and so would every month
 * after it. What the card's holder may do, and what it means for the index:
 *
 * - Wait. The index stands still, and the card shows the last month that was added. When the reading
 *   comes, add it and then the months after it; card_add_season_in takes them in one call.
 * - Add an estimate, as from neighbouring stations. The month is reckoned like any other, its water balance
 *   included, and nothing in the card tells that it was an estimate: the holder's own log must. Should the
 *   true reading turn up later, card_repair_in puts it in the estimate's place.
 * - Add a Z of 0 (card_add_z_in). The calendar moves on, the storages stay as they were before the month,
 *   its record says that it had no water, and the month counts as normal: X1, X2 and X3 fade to 2691/3000
 *   of themselves, a spell in force abates, and one whose X3 is at most 613 in size ends. A drought may
 *   seem to weaken or to end that did not. Such a month cannot be repaired (17): should its reading turn up
 *   later, the card is put right only by starting again with it, from the first month or from a copy of run
 *   and columns from before that month. Nor can constants be worked out from a run that has one in a whole
 *   year (18).
 * - Start a new run, in other columns: in the same ones it would write over the past months. It knows no
 *   spell (X1, X2, X3 all 0) and needs start storages; months must pass before its index says anything.
 * - Never give 0 for a missing reading, nor a trace. A month without rain is a dry month that nobody measured,
 *   and it can found a drought. Nor a code that stands for one: 99.99 is within the range of inches, and is
 *   taken.
 *
 * This project recommends: wait as long as the reading may still come, for the index is monthly and a late
 * one is better than a wrong one. Then take an estimate from neighbouring stations, written down as such. A
 * Z of 0 is only for where no estimate can be had and rain and PE were near the normal of that month. */

/* ---- Repairing a month ---------------------------------------------------------------------------- */

/* A month whose index or mark a repair changed. It is 20 bytes without gaps. */
typedef struct card_change {
    int32_t row;          /* its row, counted from 0 */
    int32_t index_before; /* its index before the call, */
    int32_t index_after;  /* and now */
    int32_t mark_before;  /* its mark, CARD_OPEN or CARD_SETTLED, before the call, */
    int32_t mark_after;   /* and now */
} card_change;

typedef struct card_repaired {
    uint8_t number;
    uint32_t changed; /* how many months the report has */
    card_run run;     /* the run after its last month, with the month repaired */
} card_repaired;

/* Repairs a month of water: puts two new readings in the place of those that it was added with, and reworks
 * it and all months after it. Refusals, in this order: 1, 7, 11, 17, precipitation 8 or 9, PE 8 or 9. A refused
 * repair writes nothing, the report neither, and hands back the run as it was given, with changed 0.
 *
 * row: the month's, counted from 0. precipitation and pe: its new readings, of any of the four kinds. One that
 * is to be kept is handed in again as the month's record has it, card_whole(month.p), card_whole(month.pe), and
 * a trace, where month.kind is CARD_TRACE, as a trace. A missing reading is 8, and never "as it was". A month
 * that was added as a Z has no reading to repair (17).
 *
 * The run goes back to where it stood before the month, and the month and all after it are added again: the
 * month from its new readings, a later one from its record, of water its p, pe and kind, of an added Z its z.
 * So nothing else that was read is asked for again. Written are X1, X2, X3, index, mark, record and V of these
 * months; and index and mark of those that were open before the month, which are open again and settled as
 * they come to be. A repair may so alter settled months, and is the only call that does. All months before
 * these keep every figure.
 *
 * In columns that only this run's own calls have written, from its start on, each on the run that the one
 * before handed back, a repair leaves the columns and the run that a fresh run over the corrected months comes
 * to. Several months are repaired by a call each, in any order.
 *
 * Columns that somebody else wrote are answered by the same rule, from what stands there, and need not come to
 * that. X1, X2, X3 and V before the month are those of the row before it, all 0 at row 0; the storages are ss
 * and su of its own record; the calendar is the run's, back by the months from this one on. The open months
 * before it are those, counted back from it without a gap, of which V is not 0 or neither X1 nor X2 is 0; their
 * index becomes X3 if that is not 0, else the larger in size of X1 and X2, X2 where they tie.
 *
 * report: a list as long as the columns, in the caller's memory and lent as they are; beside the longest it
 * takes 240,000 bytes. It is written whole. Its first `changed` places are the months whose index or mark is
 * now another than before the call, oldest first; in all places after them the five numbers are 0. A month with
 * both as they were is not in it, though its water or its modified index may be another. What the list held
 * before is not looked at.
 *
 * 7 asks more here than of an add or a row. Of every row below run.months, those before the month too, each
 * figure is to be in its range:
 * - X1 0 to 13,000,000, X2 -13,000,000 to 0, X3, index and modified at most 13,000,000 in size; mark CARD_OPEN
 *   or CARD_SETTLED;
 * - V at most 4,000,150 x (row + 1) in size, above 0 only with X3 below 0, below 0 only with X3 above 0;
 * - z at most 4,000,000 in size; p, pe, et, r, l and ro 0 to 100,000; ss, su, surface and underlying within
 *   their layers, by run.soil.capacity (see card_soil); water 0 or 1; kind 0 to 2.
 * What a run's own calls have written is so, and so are records from before, copied as card_columns says.
 *
 * The time is linear in the months: each row is looked at, each from the month on is reworked, and each place
 * of the report is written. A card that may lose power meanwhile keeps run and columns of before it, as with
 * an add: see card_run. */
static inline card_repaired card_repair_in(card_columns columns, card_run run, size_t row,
                                           card_reading precipitation, card_reading pe, card_change *report);

/* ---- Looking back --------------------------------------------------------------------------------- */

/* What the seven columns hold of a month. */
typedef struct card_shown {
    uint8_t number;
    int32_t x1;
    int32_t x2;
    int32_t x3;
    int32_t index;
    uint8_t mark;
    card_record month; /* its water, its soil, its modified index and the kind of its precipitation, */
    int64_t v;         /* and V after it, all as its add, or a repair since, wrote them */
} card_shown;

/* Shows a month's row, counted from 0: index and mark as they stand now, all else as the month left it.
 * Refusals, in this order: 1, 7, 11. It writes nothing. */
static inline card_shown card_row_in(card_columns columns, card_run run, size_t row);

/* The whole series of a list of Z: fills a list of indexes and one of marks, equal in length, 1 to
 * CARD_MOST_MONTHS, as adding them one by one to a fresh run would. Refusals, in this order: 1, 12. It
 * answers with its number alone; a refused call writes nothing. The indexes are Palmer's: it gives no modified
 * ones. */
uint8_t card_whole_series(const int32_t *z, size_t z_length,
                          int32_t *index, size_t index_length,
                          uint8_t *mark, size_t mark_length);

/* ---- Working the constants out again -------------------------------------------------------------- */

/* Sums over the years of one calendar month, in thousandths of an inch. They are 32 bytes without gaps. */
typedef struct card_sums {
    uint32_t et;  /* evapotranspiration */
    uint32_t pe;  /* potential evapotranspiration */
    uint32_t r;   /* recharge */
    uint32_t pr;  /* potential recharge */
    uint32_t ro;  /* runoff */
    uint32_t pro; /* potential runoff */
    uint32_t l;   /* loss from both layers, Ls + Lu */
    uint32_t pl;  /* potential loss */
} card_sums;

typedef struct card_summed {
    uint8_t number;
    uint32_t years; /* how many years were summed */
    card_sums sums;
} card_summed;

/* Sums the water of a calendar month over the years of the run, from which alpha, beta, gamma and delta are
 * worked out: see card_work_out_in. Refusals, in this order: 1, 7, 6, 18. It writes nothing. Refused, years and
 * sums are 0.
 *
 * month: 1 to 12, January is 1 (6).
 *
 * The years are every January to December of which all twelve months are in the run. A run that starts in April
 * has its first year from its first January on. The months before the first year and after the last are summed
 * nowhere. The years are to be ten at least, and all their months to have water (18): a year with an added Z is
 * not left out, it refuses the call, and so does a month from before there were records (see card_columns). An
 * added Z before the first year or after the last does not matter.
 *
 * ET, PE, R, RO and L are summed as the records have them. The potentials are not recorded. They are worked out
 * again from each record's storages at its start and its PE, with C = run.soil.capacity:
 *
 *     PR = C - ss - su      PRO = ss + su      PL = PLs + PLu
 *     PLs = smaller of pe and ss      PLu = nearest to (pe - PLs) x su / C, at most su
 *
 * The sum of the precipitation is et + r + ro - l.
 *
 * 7 asks more here than of an add or a row. Every record below run.months whose water is CARD_HAD_WATER, those
 * before the first year and after the last too, is to be one that an add of water gives:
 * - p and pe 0 to 100,000; ss and su within their layers, by run.soil.capacity (see card_soil);
 * - et, r, l, ro, surface and underlying what an add of p and pe comes to from ss, su and that capacity.
 * Beyond that, and what every call asks (see card_run), nothing is asked: not z, modified or kind, no X, V, index
 * or mark, not that a month starts where the one before it ended, and of a record without water nothing at all.
 * What a run's own calls have written is so, and so are records from before, copied as card_columns says. Most
 * records that were damaged are found, but 7 is no checksum here either.
 *
 * The time is linear in the months. */
static inline card_summed card_sum_month_in(card_columns columns, card_run run, int32_t month);

typedef struct card_worked_out {
    uint8_t number;
    int32_t constants[CARD_CONSTANTS]; /* January first, alpha, beta, gamma, delta, K: as card_start takes them */
    uint32_t departures[CARD_WEIGHTS]; /* D of each calendar month, January first, in thousandths of an inch */
} card_worked_out;

/* Works out the sixty constants of the run's station from the years of the run, with twelve first weights.
 * Refusals, in this order: 1, 7, 2, 3, 18, 19, 20, 21, where 7 and 18 are as of card_sum_month_in. It writes
 * nothing. Refused, constants and departures are 0. Constants that come with the number 0 are always taken by
 * card_start.
 *
 * For each calendar month, with the sums that card_sum_month_in gives of it,
 *
 *     alpha = 10,000 ET / PE      beta = 10,000 R / PR      gamma = 10,000 RO / PRO      delta = 10,000 L / PL
 *
 * nearest, and 0 where the divisor is 0. Alpha, beta and delta are never above 10,000; a gamma above 50,000 is
 * refused (19). D, the departure, is the mean size of P - CAFEC over the years, nearest, where CAFEC is the whole
 * number that an add of the month answers with under the new constants. With S, the sum of D x weight over the
 * twelve months,
 *
 *     K = 176,700,000 x weight / S
 *
 * nearest. It is 20 where S is 0, as where no month ever departed, or where some K is above 100,000; it is 21
 * where none is and some K is 0.
 *
 * weights: twelve numbers (2), January first, 0 to 100,000 each (3): Palmer's K' in ten-thousandths. Only their
 * proportions matter: twelve that are all so many times as large give the same constants. Equal weights weigh all
 * months alike: K is the same in all twelve. A weight of 0 passes 3 and can never succeed: K is 0 too, which is
 * 21, where no other refusal comes first. K is 0 also where a weight is very small beside the others, below S /
 * 353,400,000: 1 beside eleven of 100,000 is so where the eleven departures come to more than 3,534 together.
 *
 * Palmer's own K' of a calendar month is, by his equation (26), with the means of that month and D in inches,
 *
 *     1.5 log10(((PE + R + RO) / (P + L) + 2.80) / D) + 0.50
 *
 * The means come from card_sum_month_in, D from a call with equal weights. That call is never refused with 21,
 * and with 20 only where the twelve departures come to less than 1,767 together. The equation gives no weight
 * where D is 0, or so large that it comes out at 0 or below.
 *
 * How a lost set is worked out again, from the months' readings:
 * - Start a run with the station's capacity and storages and any constants that a start takes, as 0 0 0 0 1
 *   twelve times, and add the months to it. What water and soil come to does not hang on the constants; Z and
 *   all indexes do, and mean nothing yet.
 * - Call this with the weights.
 * - Start anew with the constants that it answers with, and add the months again.
 *
 *     card_worked_out found = card_work_out_in(columns, run, weights, CARD_WEIGHTS);
 *     if (found.number != CARD_DONE) return complain(card_meaning(found.number));
 *     start = card_start(found.constants, CARD_CONSTANTS, 6000, 0, 1330, 6);
 *
 * A run that stands needs no first start. Its own constants are not reckoned with, though 7 wants them in range
 * and no K of 0: where they were lost in the run, put 0 0 0 0 1 there twelve times.
 *
 * The time is linear in the months.
 *
 * When not to use it. The call takes the record for the climate of its place. Whether it is that, no call can
 * tell:
 * - Ten years are few. Palmer asks for a long series of years, and took 71 for western Kansas, 27 for central
 *   Iowa, 30 for northwestern North Dakota. In ten, one very wet May is a tenth of all that is known of May.
 * - A drought in most years of the record makes drought normal: the next one like it hardly shows. Rain that was
 *   plenty in most years makes an ordinary year a drought.
 * - A gauge that was moved, or long stood wrong, has the record of two stations. Repair the wrong months, or take
 *   those since it was moved.
 * - Wrong storages at the start go on into the months until the soil is once full or once empty. Where they have
 *   to be guessed, start in a month when it is surely one of these; or add the months before to a run of their
 *   own, and start with the storages that it ends with.
 * - Estimates are taken as if they had been measured. Months filled in with the normal of their name depart too
 *   little, and every K comes out too large.
 * - Where every PE of a calendar month was 0 its alpha is 0, where Palmer takes 1. The PE of a later month of
 *   that name then counts for nothing in its CAFEC.
 * Whoever has the station's own set keeps it. */
static inline card_worked_out card_work_out_in(card_columns columns, card_run run,
                                               const int32_t *weights, size_t weights_length);

/* ---- Sending the record out ----------------------------------------------------------------------- */

/* A line of a division file, in the nClimDiv layout, is one calendar year of one element, CARD_LINE bytes of
 * ASCII:
 *
 *     columns 1 to 2      state, two digits
 *     columns 3 to 4      division, two digits
 *     columns 5 to 6      element, two digits: 05 the index, 07 Z, 08 the modified index
 *     columns 7 to 10     year, four digits
 *     columns 11 to 94    twelve values of seven characters, January first
 *
 * State, division, element and year have zeros on the left. A value has spaces on the left, then a minus where
 * it is below 0, one digit at least, the point in the fifth of the seven characters, and two digits: "   0.05",
 * "  -0.05", "9999.99", "-999.99". " -99.99" is the mark of a missing month, for all three elements. A line has
 * no line feed. */

/* Writes the line of one of the run's years with the index of each of its settled months. Refusals, in this
 * order: 1, 7, 24, 25. It answers with its number alone. The columns are only read; the line is written, and
 * nothing else. A refused call writes nothing.
 *
 * state and division: 0 to 99. year: the calendar year that row 0 lies in. which: which of the run's years,
 * from 0; year 0 is the one that row 0 lies in, and may have fewer than twelve months of the run. The line's
 * year is year + which, at most 9,999, and the sum does not wrap. The ranges that are published, of states,
 * divisions and years, are not asked for.
 *
 * Where a month of the line stands in the columns hangs on c, the calendar month of row 0, which is the run's
 * calendar back by its months:
 *
 *     c = (run.calendar + 11 - run.months % 12) % 12 + 1      January is row 12 x which - (c - 1)
 *
 * The other eleven are the rows after January's. A month whose row is below 0, or not below run.months, is
 * outside the run, and sent as missing. So a part of a year is sent too: of a run that starts in June, year 0
 * has -99.99 from January to May, and January of year 1 is row 7. The last year of a run is c + run.months - 2
 * divided by 12, without the rest. A year that the run has no month of, and so every year of a run of no
 * months, is twelve times -99.99, and not refused.
 *
 * Nothing unsettled is sent. Of the run's months, those whose mark is CARD_SETTLED are sent, and every other
 * one is missing, whatever the column of marks holds of it. Once a month is settled its line can be written
 * anew; what was sent of others stays, but for a repair.
 *
 * A value is in hundredths, nearest to thousandths / 10: an index of -5 is sent as -0.01, and one of -4 as
 * 0.00, never as -0.00.
 *
 * It is 24 where
 * - a month that is to be sent has hundredths outside -99,999 to 999,999, for which seven characters are too
 *   few: an index below -999,994 or above 9,999,994;
 * - a month that is to be sent has -9,999 hundredths, which would be read as missing: an index of -99,994 to
 *   -99,985;
 * - state or division is above 99, or year + which above 9,999.
 * What is sent as missing refuses nothing, whatever the index of an open month is.
 *
 * line: CARD_LINE bytes at least (25). The first CARD_LINE are the line, without a line feed or a 0 at its end;
 * all bytes after them stay as they were.
 *
 *     uint8_t line[CARD_LINE];
 *     uint8_t sent = card_write_index_line_in(columns, run, 14, 7, 1932, 0, line, CARD_LINE);
 *     if (sent != CARD_DONE) return complain(card_meaning(sent));
 *     fwrite(line, 1, CARD_LINE, file);
 *     fputc('\n', file);
 *
 * The time does not hang on the months. */
static inline uint8_t card_write_index_line_in(card_columns columns, card_run run, uint32_t state,
                                               uint32_t division, uint32_t year, uint32_t which,
                                               uint8_t *line, size_t line_length);

/* The same with Z, as the records have it, and of every month of the run, whatever its mark: no later month
 * changes a Z. It is 24 also for a Z that an add takes, below -999,994 or of -99,994 to -99,985.
 *
 * A month from before there were records (see card_columns) is sent with what was put there for it, a Z of 0 as
 * 0.00, and nothing in the line tells that this says nothing of it. */
static inline uint8_t card_write_z_line_in(card_columns columns, card_run run, uint32_t state,
                                           uint32_t division, uint32_t year, uint32_t which,
                                           uint8_t *line, size_t line_length);

/* The same with the modified index, as the records have it, and of every month of the run, whatever its mark:
 * it was fixed when the month was added. A month from before it was kept (see card_columns) is sent with what
 * was put there for it, as a Z from before there were records is. */
static inline uint8_t card_write_modified_line_in(card_columns columns, card_run run, uint32_t state,
                                                  uint32_t division, uint32_t year, uint32_t which,
                                                  uint8_t *line, size_t line_length);

/* What a line says of its year. Refused, all but the number is 0. */
typedef struct card_line_figures {
    uint8_t number;
    int32_t hundredths[CARD_LINE_MONTHS]; /* January first; 0 where the month is missing */
    uint32_t present;                     /* the months that are not missing: January is bit 0, December bit 11 */
    uint32_t count;                       /* how many these are */
    uint32_t first_missing;               /* the first missing month, 1 to 12; 0 where none is missing */
} card_line_figures;

/* Reads a line of the index (element 05), of a named state, division and year. Refusals, in this order: 14, 15,
 * 16. It writes nothing.
 *
 * line: one line, without its line feed. After column 94 there may be spaces. Lines that others wrote, as those
 * of published files, are read by the same rule.
 *
 * It is 14, a malformed line, where
 * - it has fewer than CARD_LINE bytes, or after column 94 anything but spaces: a carriage return is 14;
 * - one of its first ten bytes is no digit;
 * - one of its values is no number of the layout: spaces, perhaps a minus, digits with no zero too many in
 *   front or none at all, the point in the fifth place, two digits. "    .73" and "   -.05" are numbers,
 *   "  07.03" and "  +7.03" are not;
 * - its own element is 01, which is precipitation, and one of its values is neither -9.99 nor 0.00 to 100.00,
 *   whichever element was asked for.
 * It is 15 where its state, its division or its element is another, and 16 where its year is: a state or
 * division above 99, or a year above 9,999, is no line's.
 *
 * Every number but -99.99 is a value, from -999.99 to 9999.99. "  -0.00" is 0, and -9.99, which is the mark of
 * precipitation, is a value here. A missing month is told, and never filled in.
 *
 * Of a line that card_write_index_line_in wrote it gives exactly the hundredths that were written, and as
 * missing exactly the months that were sent as missing: of an open month nothing. The thousandths that the
 * columns have are not in it. */
card_line_figures card_read_index_line(const uint8_t *line, size_t line_length,
                                       uint32_t state, uint32_t division, uint32_t year);

/* The same of a line of Z (element 07). */
card_line_figures card_read_z_line(const uint8_t *line, size_t line_length,
                                   uint32_t state, uint32_t division, uint32_t year);

/* The same of a line of the modified index (element 08). */
card_line_figures card_read_modified_line(const uint8_t *line, size_t line_length,
                                          uint32_t state, uint32_t division, uint32_t year);

/* For a person: the year that columns 7 to 10 of a line say, or 0 where they hold no four digits. Nothing else
 * of the line is looked at, no line is refused, and nothing is written. */
uint32_t card_line_year(const uint8_t *line, size_t line_length);

/* For a person: the column, counted from 1, where the first field at fault begins, of a line that is refused
 * with 14, and 0 of any other. Of a short line it is the first column that is missing, whatever else is wrong
 * with it; 95 is for anything after the last value. It writes nothing. */
uint32_t card_line_fault(const uint8_t *line, size_t line_length);

/* ---- The same calls, each list by itself ---------------------------------------------------------- */

/* The calls above as the library has them, with each column and its length as two arguments. Each does and
 * answers what the call with _in does. */
card_added card_add_water(card_run run, card_reading precipitation, card_reading pe,
                          int32_t *x1, size_t x1_length,
                          int32_t *x2, size_t x2_length,
                          int32_t *x3, size_t x3_length,
                          int32_t *index, size_t index_length,
                          uint8_t *mark, size_t mark_length,
                          card_record *records, size_t records_length,
                          int64_t *v, size_t v_length);

card_added card_add_inches(card_run run, card_month_inches month,
                           int32_t *x1, size_t x1_length,
                           int32_t *x2, size_t x2_length,
                           int32_t *x3, size_t x3_length,
                           int32_t *index, size_t index_length,
                           uint8_t *mark, size_t mark_length,
                           card_record *records, size_t records_length,
                           int64_t *v, size_t v_length);

card_added card_add_z(card_run run, int32_t z,
                      int32_t *x1, size_t x1_length,
                      int32_t *x2, size_t x2_length,
                      int32_t *x3, size_t x3_length,
                      int32_t *index, size_t index_length,
                      uint8_t *mark, size_t mark_length,
                      card_record *records, size_t records_length,
                      int64_t *v, size_t v_length);

card_season card_add_season(card_run run,
                            const int32_t *precipitation, size_t precipitation_length,
                            const int32_t *pe, size_t pe_length,
                            int32_t *x1, size_t x1_length,
                            int32_t *x2, size_t x2_length,
                            int32_t *x3, size_t x3_length,
                            int32_t *index, size_t index_length,
                            uint8_t *mark, size_t mark_length,
                            card_record *records, size_t records_length,
                            int64_t *v, size_t v_length);

card_repaired card_repair(card_run run, size_t row, card_reading precipitation, card_reading pe,
                          int32_t *x1, size_t x1_length,
                          int32_t *x2, size_t x2_length,
                          int32_t *x3, size_t x3_length,
                          int32_t *index, size_t index_length,
                          uint8_t *mark, size_t mark_length,
                          card_record *records, size_t records_length,
                          int64_t *v, size_t v_length,
                          card_change *report, size_t report_length);

card_shown card_row(card_run run, size_t row,
                    const int32_t *x1, size_t x1_length,
                    const int32_t *x2, size_t x2_length,
                    const int32_t *x3, size_t x3_length,
                    const int32_t *index, size_t index_length,
                    const uint8_t *mark, size_t mark_length,
                    const card_record *records, size_t records_length,
                    const int64_t *v, size_t v_length);

card_summed card_sum_month(card_run run, int32_t month,
                           const int32_t *x1, size_t x1_length,
                           const int32_t *x2, size_t x2_length,
                           const int32_t *x3, size_t x3_length,
                           const int32_t *index, size_t index_length,
                           const uint8_t *mark, size_t mark_length,
                           const card_record *records, size_t records_length,
                           const int64_t *v, size_t v_length);

card_worked_out card_work_out(card_run run, const int32_t *weights, size_t weights_length,
                              const int32_t *x1, size_t x1_length,
                              const int32_t *x2, size_t x2_length,
                              const int32_t *x3, size_t x3_length,
                              const int32_t *index, size_t index_length,
                              const uint8_t *mark, size_t mark_length,
                              const card_record *records, size_t records_length,
                              const int64_t *v, size_t v_length);

uint8_t card_write_index_line(card_run run, uint32_t state, uint32_t division, uint32_t year, uint32_t which,
                              const int32_t *x1, size_t x1_length,
                              const int32_t *x2, size_t x2_length,
                              const int32_t *x3, size_t x3_length,
                              const int32_t *index, size_t index_length,
                              const uint8_t *mark, size_t mark_length,
                              const card_record *records, size_t records_length,
                              const int64_t *v, size_t v_length,
                              uint8_t *line, size_t line_length);

uint8_t card_write_z_line(card_run run, uint32_t state, uint32_t division, uint32_t year, uint32_t which,
                          const int32_t *x1, size_t x1_length,
                          const int32_t *x2, size_t x2_length,
                          const int32_t *x3, size_t x3_length,
                          const int32_t *index, size_t index_length,
                          const uint8_t *mark, size_t mark_length,
                          const card_record *records, size_t records_length,
                          const int64_t *v, size_t v_length,
                          uint8_t *line, size_t line_length);

uint8_t card_write_modified_line(card_run run, uint32_t state, uint32_t division, uint32_t year, uint32_t which,
                                 const int32_t *x1, size_t x1_length,
                                 const int32_t *x2, size_t x2_length,
                                 const int32_t *x3, size_t x3_length,
                                 const int32_t *index, size_t index_length,
                                 const uint8_t *mark, size_t mark_length,
                                 const card_record *records, size_t records_length,
                                 const int64_t *v, size_t v_length,
                                 uint8_t *line, size_t line_length);

/* ---- NULL beside the length 0 --------------------------------------------------------------------- */

/* A caller need read no further. The library itself must never be handed NULL, so the functions below
 * stand before it and lend something of their own in place of a list of length 0. At the end each call that
 * takes lists becomes a macro for its function here, as C's own library has it with getc: card_start(..)
 * is card_start_lent(..), while (card_start)(..) and &card_start are the library's function, which takes
 * no NULL. The cost is a test for each list, and with some compilers one more copy of the run.
 *
 * A further column is a field of card_columns, a line of card_not_null and two arguments of CARD_EACH; one
 * of another kind is a field of card_none too. */

/* One of each kind that lists are of, to stand for a list of length 0. */
typedef struct card_none {
    int32_t number;
    uint8_t mark;
    card_record record;
    int64_t v;
    card_change change;
} card_none;

static inline card_none card_nothing(void) {
    card_none none = {0, 0, {0, 0, 0, 0, 0, 0, 0, 0, 0, 0, 0, 0, 0, 0}, 0, {0, 0, 0, 0, 0}};
    return none;
}

/* The columns with their empty lists at an address. */
static inline card_columns card_not_null(card_columns columns, card_none *none) {
    if (columns.x1_length == 0) columns.x1 = &none->number;
    if (columns.x2_length == 0) columns.x2 = &none->number;
    if (columns.x3_length == 0) columns.x3 = &none->number;
    if (columns.index_length == 0) columns.index = &none->number;
    if (columns.mark_length == 0) columns.mark = &none->mark;
    if (columns.records_length == 0) columns.records = &none->record;
    if (columns.v_length == 0) columns.v = &none->v;
    return columns;
}

/* The columns as the library's calls take them. */
#define CARD_EACH(columns)                                                                              \
    (columns).x1, (columns).x1_length, (columns).x2, (columns).x2_length, (columns).x3,                 \
        (columns).x3_length, (columns).index, (columns).index_length, (columns).mark,                   \
        (columns).mark_length, (columns).records, (columns).records_length, (columns).v, (columns).v_length

static inline card_added card_add_water_in(card_columns columns, card_run run,
                                           card_reading precipitation, card_reading pe) {
    card_none none = card_nothing();
    columns = card_not_null(columns, &none);
    return (card_add_water)(run, precipitation, pe, CARD_EACH(columns));
}

static inline card_added card_add_inches_in(card_columns columns, card_run run, card_month_inches month) {
    card_none none = card_nothing();
    columns = card_not_null(columns, &none);
    return (card_add_inches)(run, month, CARD_EACH(columns));
}

static inline card_added card_add_z_in(card_columns columns, card_run run, int32_t z) {
    card_none none = card_nothing();
    columns = card_not_null(columns, &none);
    return (card_add_z)(run, z, CARD_EACH(columns));
}

static inline card_season card_add_season_in(card_columns columns, card_run run,
                                             const int32_t *precipitation, size_t precipitation_length,
                                             const int32_t *pe, size_t pe_length) {
    card_none none = card_nothing();
    columns = card_not_null(columns, &none);
    return (card_add_season)(run, precipitation_length ? precipitation : &none.number, precipitation_length,
                             pe_length ? pe : &none.number, pe_length, CARD_EACH(columns));
}

static inline card_repaired card_repair_in(card_columns columns, card_run run, size_t row,
                                           card_reading precipitation, card_reading pe, card_change *report) {
    card_none none = card_nothing();
    size_t length = columns.x1_length;
    columns = card_not_null(columns, &none);
    return (card_repair)(run, row, precipitation, pe, CARD_EACH(columns), length ? report : &none.change,
                         length);
}

static inline card_shown card_row_in(card_columns columns, card_run run, size_t row) {
    card_none none = card_nothing();
    columns = card_not_null(columns, &none);
    return (card_row)(run, row, CARD_EACH(columns));
}

static inline card_summed card_sum_month_in(card_columns columns, card_run run, int32_t month) {
    card_none none = card_nothing();
    columns = card_not_null(columns, &none);
    return (card_sum_month)(run, month, CARD_EACH(columns));
}

static inline card_worked_out card_work_out_in(card_columns columns, card_run run,
                                               const int32_t *weights, size_t weights_length) {
    card_none none = card_nothing();
    columns = card_not_null(columns, &none);
    return (card_work_out)(run, weights_length ? weights : &none.number, weights_length, CARD_EACH(columns));
}

static inline uint8_t card_write_index_line_in(card_columns columns, card_run run, uint32_t state,
                                               uint32_t division, uint32_t year, uint32_t which,
                                               uint8_t *line, size_t line_length) {
    card_none none = card_nothing();
    columns = card_not_null(columns, &none);
    return (card_write_index_line)(run, state, division, year, which, CARD_EACH(columns),
                                   line_length ? line : &none.mark, line_length);
}

static inline uint8_t card_write_z_line_in(card_columns columns, card_run run, uint32_t state,
                                           uint32_t division, uint32_t year, uint32_t which,
                                           uint8_t *line, size_t line_length) {
    card_none none = card_nothing();
    columns = card_not_null(columns, &none);
    return (card_write_z_line)(run, state, division, year, which, CARD_EACH(columns),
                               line_length ? line : &none.mark, line_length);
}

static inline uint8_t card_write_modified_line_in(card_columns columns, card_run run, uint32_t state,
                                                  uint32_t division, uint32_t year, uint32_t which,
                                                  uint8_t *line, size_t line_length) {
    card_none none = card_nothing();
    columns = card_not_null(columns, &none);
    return (card_write_modified_line)(run, state, division, year, which, CARD_EACH(columns),
                                      line_length ? line : &none.mark, line_length);
}

static inline card_added card_add_water_lent(card_run run, card_reading precipitation, card_reading pe,
                                             int32_t *x1, size_t x1_length,
                                             int32_t *x2, size_t x2_length,
                                             int32_t *x3, size_t x3_length,
                                             int32_t *index, size_t index_length,
                                             uint8_t *mark, size_t mark_length,
                                             card_record *records, size_t records_length,
                                             int64_t *v, size_t v_length) {
    card_columns columns = {x1, x1_length, x2, x2_length, x3, x3_length, index, index_length,
                            mark, mark_length, records, records_length, v, v_length};
    card_none none = card_nothing();
    columns = card_not_null(columns, &none);
    return (card_add_water)(run, precipitation, pe, CARD_EACH(columns));
}

static inline card_added card_add_inches_lent(card_run run, card_month_inches month,
                                              int32_t *x1, size_t x1_length,
                                              int32_t *x2, size_t x2_length,
                                              int32_t *x3, size_t x3_length,
                                              int32_t *index, size_t index_length,
                                              uint8_t *mark, size_t mark_length,
                                              card_record *records, size_t records_length,
                                              int64_t *v, size_t v_length) {
    card_columns columns = {x1, x1_length, x2, x2_length, x3, x3_length, index, index_length,
                            mark, mark_length, records, records_length, v, v_length};
    card_none none = card_nothing();
    columns = card_not_null(columns, &none);
    return (card_add_inches)(run, month, CARD_EACH(columns));
}

static inline card_added card_add_z_lent(card_run run, int32_t z,
                                         int32_t *x1, size_t x1_length,
                                         int32_t *x2, size_t x2_length,
                                         int32_t *x3, size_t x3_length,
                                         int32_t *index, size_t index_length,
                                         uint8_t *mark, size_t mark_length,
                                         card_record *records, size_t records_length,
                                         int64_t *v, size_t v_length) {
    card_columns columns = {x1, x1_length, x2, x2_length, x3, x3_length, index, index_length,
                            mark, mark_length, records, records_length, v, v_length};
    card_none none = card_nothing();
    columns = card_not_null(columns, &none);
    return (card_add_z)(run, z, CARD_EACH(columns));
}

static inline card_season card_add_season_lent(card_run run,
                                               const int32_t *precipitation, size_t precipitation_length,
                                               const int32_t *pe, size_t pe_length,
                                               int32_t *x1, size_t x1_length,
                                               int32_t *x2, size_t x2_length,
                                               int32_t *x3, size_t x3_length,
                                               int32_t *index, size_t index_length,
                                               uint8_t *mark, size_t mark_length,
                                               card_record *records, size_t records_length,
                                               int64_t *v, size_t v_length) {
    card_columns columns = {x1, x1_length, x2, x2_length, x3, x3_length, index, index_length,
                            mark, mark_length, records, records_length, v, v_length};
    card_none none = card_nothing();
    columns = card_not_null(columns, &none);
    return (card_add_season)(run, precipitation_length ? precipitation : &none.number, precipitation_length,
                             pe_length ? pe : &none.number, pe_length, CARD_EACH(columns));
}

static inline card_repaired card_repair_lent(card_run run, size_t row,
                                             card_reading precipitation, card_reading pe,
                                             int32_t *x1, size_t x1_length,
                                             int32_t *x2, size_t x2_length,
                                             int32_t *x3, size_t x3_length,
                                             int32_t *index, size_t index_length,
                                             uint8_t *mark, size_t mark_length,
                                             card_record *records, size_t records_length,
                                             int64_t *v, size_t v_length,
                                             card_change *report, size_t report_length) {
    card_columns columns = {x1, x1_length, x2, x2_length, x3, x3_length, index, index_length,
                            mark, mark_length, records, records_length, v, v_length};
    card_none none = card_nothing();
    columns = card_not_null(columns, &none);
    return (card_repair)(run, row, precipitation, pe, CARD_EACH(columns),
                         report_length ? report : &none.change, report_length);
}

static inline card_shown card_row_lent(card_run run, size_t row,
                                       const int32_t *x1, size_t x1_length,
                                       const int32_t *x2, size_t x2_length,
                                       const int32_t *x3, size_t x3_length,
                                       const int32_t *index, size_t index_length,
                                       const uint8_t *mark, size_t mark_length,
                                       const card_record *records, size_t records_length,
                                       const int64_t *v, size_t v_length) {
    card_none none = card_nothing();
    return (card_row)(run, row,
                      x1_length ? x1 : &none.number, x1_length,
                      x2_length ? x2 : &none.number, x2_length,
                      x3_length ? x3 : &none.number, x3_length,
                      index_length ? index : &none.number, index_length,
                      mark_length ? mark : &none.mark, mark_length,
                      records_length ? records : &none.record, records_length,
                      v_length ? v : &none.v, v_length);
}

static inline card_summed card_sum_month_lent(card_run run, int32_t month,
                                              const int32_t *x1, size_t x1_length,
                                              const int32_t *x2, size_t x2_length,
                                              const int32_t *x3, size_t x3_length,
                                              const int32_t *index, size_t index_length,
                                              const uint8_t *mark, size_t mark_length,
                                              const card_record *records, size_t records_length,
                                              const int64_t *v, size_t v_length) {
    card_none none = card_nothing();
    return (card_sum_month)(run, month,
                            x1_length ? x1 : &none.number, x1_length,
                            x2_length ? x2 : &none.number, x2_length,
                            x3_length ? x3 : &none.number, x3_length,
                            index_length ? index : &none.number, index_length,
                            mark_length ? mark : &none.mark, mark_length,
                            records_length ? records : &none.record, records_length,
                            v_length ? v : &none.v, v_length);
}

static inline card_worked_out card_work_out_lent(card_run run, const int32_t *weights, size_t weights_length,
                                                 const int32_t *x1, size_t x1_length,
                                                 const int32_t *x2, size_t x2_length,
                                                 const int32_t *x3, size_t x3_length,
                                                 const int32_t *index, size_t index_length,
                                                 const uint8_t *mark, size_t mark_length,
                                                 const card_record *records, size_t records_length,
                                                 const int64_t *v, size_t v_length) {
    card_none none = card_nothing();
    return (card_work_out)(run, weights_length ? weights : &none.number, weights_length,
                           x1_length ? x1 : &none.number, x1_length,
                           x2_length ? x2 : &none.number, x2_length,
                           x3_length ? x3 : &none.number, x3_length,
                           index_length ? index : &none.number, index_length,
                           mark_length ? mark : &none.mark, mark_length,
                           records_length ? records : &none.record, records_length,
                           v_length ? v : &none.v, v_length);
}

static inline card_started card_start_lent(const int32_t *constants, size_t constants_length,
                                           int32_t capacity, int32_t surface,
                                           int32_t underlying, int32_t month) {
    int32_t none = 0;
    return (card_start)(constants_length ? constants : &none, constants_length,
                        capacity, surface, underlying, month);
}

static inline uint8_t card_whole_series_lent(const int32_t *z, size_t z_length,
                                             int32_t *index, size_t index_length,
                                             uint8_t *mark, size_t mark_length) {
    int32_t none = 0;
    uint8_t no_mark = 0;
    return (card_whole_series)(z_length ? z : &none, z_length,
                               index_length ? index : &none, index_length,
                               mark_length ? mark : &no_mark, mark_length);
}

static inline uint8_t card_write_index_line_lent(card_run run, uint32_t state, uint32_t division,
                                                 uint32_t year, uint32_t which,
                                                 const int32_t *x1, size_t x1_length,
                                                 const int32_t *x2, size_t x2_length,
                                                 const int32_t *x3, size_t x3_length,
                                                 const int32_t *index, size_t index_length,
                                                 const uint8_t *mark, size_t mark_length,
                                                 const card_record *records, size_t records_length,
                                                 const int64_t *v, size_t v_length,
                                                 uint8_t *line, size_t line_length) {
    card_none none = card_nothing();
    return (card_write_index_line)(run, state, division, year, which,
                                   x1_length ? x1 : &none.number, x1_length,
                                   x2_length ? x2 : &none.number, x2_length,
                                   x3_length ? x3 : &none.number, x3_length,
                                   index_length ? index : &none.number, index_length,
                                   mark_length ? mark : &none.mark, mark_length,
                                   records_length ? records : &none.record, records_length,
                                   v_length ? v : &none.v, v_length,
                                   line_length ? line : &none.mark, line_length);
}

static inline uint8_t card_write_z_line_lent(card_run run, uint32_t state, uint32_t division,
                                             uint32_t year, uint32_t which,
                                             const int32_t *x1, size_t x1_length,
                                             const int32_t *x2, size_t x2_length,
                                             const int32_t *x3, size_t x3_length,
                                             const int32_t *index, size_t index_length,
                                             const uint8_t *mark, size_t mark_length,
                                             const card_record *records, size_t records_length,
                                             const int64_t *v, size_t v_length,
                                             uint8_t *line, size_t line_length) {
    card_none none = card_nothing();
    return (card_write_z_line)(run, state, division, year, which,
                               x1_length ? x1 : &none.number, x1_length,
                               x2_length ? x2 : &none.number, x2_length,
                               x3_length ? x3 : &none.number, x3_length,
                               index_length ? index : &none.number, index_length,
                               mark_length ? mark : &none.mark, mark_length,
                               records_length ? records : &none.record, records_length,
                               v_length ? v : &none.v, v_length,
                               line_length ? line : &none.mark, line_length);
}

static inline uint8_t card_write_modified_line_lent(card_run run, uint32_t state, uint32_t division,
                                                    uint32_t year, uint32_t which,
                                                    const int32_t *x1, size_t x1_length,
                                                    const int32_t *x2, size_t x2_length,
                                                    const int32_t *x3, size_t x3_length,
                                                    const int32_t *index, size_t index_length,
                                                    const uint8_t *mark, size_t mark_length,
                                                    const card_record *records, size_t records_length,
                                                    const int64_t *v, size_t v_length,
                                                    uint8_t *line, size_t line_length) {
    card_none none = card_nothing();
    return (card_write_modified_line)(run, state, division, year, which,
                                      x1_length ? x1 : &none.number, x1_length,
                                      x2_length ? x2 : &none.number, x2_length,
                                      x3_length ? x3 : &none.number, x3_length,
                                      index_length ? index : &none.number, index_length,
                                      mark_length ? mark : &none.mark, mark_length,
                                      records_length ? records : &none.record, records_length,
                                      v_length ? v : &none.v, v_length,
                                      line_length ? line : &none.mark, line_length);
}

static inline card_line_figures card_read_index_line_lent(const uint8_t *line, size_t line_length,
                                                          uint32_t state, uint32_t division, uint32_t year) {
    uint8_t none = 0;
    return (card_read_index_line)(line_length ? line : &none, line_length, state, division, year);
}

static inline card_line_figures card_read_z_line_lent(const uint8_t *line, size_t line_length,
                                                      uint32_t state, uint32_t division, uint32_t year) {
    uint8_t none = 0;
    return (card_read_z_line)(line_length ? line : &none, line_length, state, division, year);
}

static inline card_line_figures card_read_modified_line_lent(const uint8_t *line, size_t line_length,
                                                             uint32_t state, uint32_t division, uint32_t year) {
    uint8_t none = 0;
    return (card_read_modified_line)(line_length ? line : &none, line_length, state, division, year);
}

static inline uint32_t card_line_year_lent(const uint8_t *line, size_t line_length) {
    uint8_t none = 0;
    return (card_line_year)(line_length ? line : &none, line_length);
}

static inline uint32_t card_line_fault_lent(const uint8_t *line, size_t line_length) {
    uint8_t none = 0;
    return (card_line_fault)(line_length ? line : &none, line_length);
}

#define card_start(...) card_start_lent(__VA_ARGS__)
#define card_whole_series(...) card_whole_series_lent(__VA_ARGS__)
#define card_add_water(...) card_add_water_lent(__VA_ARGS__)
#define card_add_inches(...) card_add_inches_lent(__VA_ARGS__)
#define card_add_z(...) card_add_z_lent(__VA_ARGS__)
#define card_add_season(...) card_add_season_lent(__VA_ARGS__)
#define card_repair(...) card_repair_lent(__VA_ARGS__)
#define card_row(...) card_row_lent(__VA_ARGS__)
#define card_sum_month(...) card_sum_month_lent(__VA_ARGS__)
#define card_work_out(...) card_work_out_lent(__VA_ARGS__)
#define card_write_index_line(...) card_write_index_line_lent(__VA_ARGS__)
#define card_write_z_line(...) card_write_z_line_lent(__VA_ARGS__)
#define card_write_modified_line(...) card_write_modified_line_lent(__VA_ARGS__)
#define card_read_index_line(...) card_read_index_line_lent(__VA_ARGS__)
#define card_read_z_line(...) card_read_z_line_lent(__VA_ARGS__)
#define card_read_modified_line(...) card_read_modified_line_lent(__VA_ARGS__)
#define card_line_year(...) card_line_year_lent(__VA_ARGS__)
#define card_line_fault(...) card_line_fault_lent(__VA_ARGS__)

#ifdef __cplusplus
}
#endif

#endif
