/* Marks of count files over 01's log, wish 3 of 02: keeping with each mark, dropping by mark and by time, 18 and what
 * goes before and after it, and the audit. Every field of every answer, and all lent memory byte by byte. It reads as
 * C99, C11 and C++17. */
#include <stddef.h>
#include <stdio.h>
#include <stdlib.h>
#include <string.h>

#include "yokefennel.h"

/* Six count files, two entries past that capacity, and some bytes that are no whole area. */
enum { LOG = 24 + 24 * 8, INDEX = 6, LIMIT = 4, TABLE = 8 * LIMIT, FILES = 6, ENTRIES = FILES + 2 };
enum { AREAS = FILES * TABLE + 5, OUT = 24 * LIMIT, WORK = 16 * LIMIT, UNTOUCHED = 0xEE };

typedef struct memory {
    uint8_t log[LOG];
    uint64_t index[INDEX];
    uint8_t table[TABLE];
    yk_entry entries[ENTRIES];
    uint8_t areas[AREAS];
} memory;

static memory lent, before, wanted;
static yk_numbers numbers;
static uint32_t most; /* files held at once since the start: areas from there on are untouched */

#define STORE                                                                                                  \
    lent.log, LOG, lent.index, INDEX, lent.table, TABLE, lent.entries, ENTRIES, lent.areas, AREAS

static void require(int holds, const char *what) {
    if (!holds) {
        fprintf(stderr, "marks: %s\n", what);
        exit(1);
    }
}

/* ---- what is right */

/* A table of 01's log: the time from which it holds, its rows and its bytes. */
typedef struct day {
    uint64_t time;
    uint32_t rows;
    uint8_t bytes[TABLE];
} day;

static const day DAYS[FILES] = {
    {10, 1, {7, 0, 0, 0, 50}},
    {20, 2, {3, 0, 0, 0, 12, 0, 0, 0, 7, 0, 0, 0, 50}},
    {30, 2, {3, 0, 0, 0, 12, 0, 0, 0, 7, 0, 0, 0, 44}},
    {40, 1, {7, 0, 0, 0, 44}},
    {50, 2, {7, 0, 0, 0, 44, 0, 0, 0, 9, 0, 0, 0, 5}},
    {60, 2, {7, 0, 0, 0, 44, 0, 0, 0, 9, 0, 0, 0, 6}},
};

/* Neither 0, 5 nor 7; some are 0, 5 or 7 in their low bytes. */
static const uint32_t WRONG[] = {1, 2, 3, 4, 6, 8, 9, 57, 255, 256, 261, 263, 65536, 65541, 65543, 0x05000000,
    0x07000000, 0x80000000, 0x80000005, 0x80000007, UINT32_MAX};
enum { WRONGS = sizeof WRONG / sizeof WRONG[0] };

/* A count file as the tests name it; its table is the last of DAYS at or before its time. */
typedef struct file {
    uint64_t time;
    uint32_t mark;
} file;

static int numbers_are(yk_numbers found, uint32_t files) {
    return found.order == 3 && found.page == 2 && found.limit == LIMIT && found.records == 8 && found.last == 60
        && found.live == 2 && found.files == files;
}

/* The lent memory is what it was before but for entries and areas, which hold these files and nothing else: zeros
 * behind them in the catalogue and in each area that ever held a file, and past those what was there at the start. */
static void stored(const file *files, uint32_t count, const char *what) {
    most = count > most ? count : most;
    memcpy(&wanted, &before, sizeof wanted);
    memset(wanted.entries, UNTOUCHED, sizeof wanted.entries);
    memset(wanted.entries, 0, FILES * sizeof wanted.entries[0]);
    memset(wanted.areas, UNTOUCHED, sizeof wanted.areas);
    memset(wanted.areas, 0, (size_t)most * TABLE);
    for (uint32_t i = 0; i < count; i++) {
        const day *held = NULL;
        for (int k = 0; k < FILES; k++) {
            held = DAYS[k].time <= files[i].time ? &DAYS[k] : held;
        }
        wanted.entries[i].time = files[i].time;
        wanted.entries[i].mark = files[i].mark;
        if (held != NULL) {
            wanted.entries[i].rows = held->rows;
            memcpy(wanted.areas + (size_t)i * TABLE, held->bytes, TABLE);
        }
    }
    require(memcmp(lent.log, wanted.log, LOG) == 0, what);
    require(memcmp(lent.index, wanted.index, sizeof lent.index) == 0, what);
    require(memcmp(lent.table, wanted.table, TABLE) == 0, what);
    require(memcmp(lent.entries, wanted.entries, sizeof lent.entries) == 0, what);
    require(memcmp(lent.areas, wanted.areas, AREAS) == 0, what);
    require(numbers_are(numbers, count), what);
    require(yk_audit(numbers, STORE) == 1, what);
}

/* ---- the calls */

/* What keep and drop answer: the question, the number of files left, and no record. */
static void changes(yk_change answer, int question, uint32_t files, const char *what) {
    require(answer.question == question && answer.record == 0 && numbers_are(answer.numbers, files), what);
    numbers = answer.numbers;
}

static void keep(uint64_t time, uint32_t mark, int question, uint32_t files, const char *what) {
    changes(yk_keep(numbers, STORE, time, mark), question, files, what);
}

static void drop(uint64_t time, int question, uint32_t files, const char *what) {
    changes(yk_drop(numbers, STORE, time), question, files, what);
}

static void drop_marked(uint32_t mark, int question, uint32_t gone, uint32_t files, const char *what) {
    yk_drop_marked_answer answer = yk_drop_marked(numbers, STORE, mark);
    require(answer.question == question && answer.gone == gone && numbers_are(answer.numbers, files), what);
    numbers = answer.numbers;
}

/* 01's log, with no file: all that no call writes is UNTOUCHED. */
static void build(void) {
    memset(&lent, UNTOUCHED, sizeof lent);
    most = 0;
    numbers = yk_fresh(3, 2, LIMIT, lent.log, LOG, lent.table, TABLE, lent.entries, ENTRIES, lent.areas, AREAS)
                  .numbers;
    numbers = yk_insert(numbers, STORE, 10, 7, 50).numbers;
    numbers = yk_insert(numbers, STORE, 20, 3, 12).numbers;
    numbers = yk_update(numbers, STORE, 30, 7, 44).numbers;
    numbers = yk_delete(numbers, STORE, 40, 3).numbers;
    numbers = yk_insert(numbers, STORE, 50, 9, 5).numbers;
    numbers = yk_update(numbers, STORE, 60, 9, 6).numbers;
    memcpy(&before, &lent, sizeof before);
    stored(NULL, 0, "01's log");
}

/* 01's log with these files, kept from the last to the first, so that each keep moves all others up. */
static void build_with(const file *files, uint32_t count) {
    build();
    for (uint32_t i = count; i-- > 0;) {
        keep(files[i].time, files[i].mark, YK_ACCEPTED, count - i, "keep a file");
    }
    stored(files, count, "the files kept");
}

/* ---- what is answered whatever files are held */

/* Positions, tables, units and net changes of all times to 62, without where they are worked out from. */
typedef struct answers {
    uint32_t position[63][2];
    uint32_t rows[63];
    uint8_t tables[63][TABLE];
    uint64_t units[63];
    int64_t differences[63][63];
    uint32_t entries[63][63];
    uint8_t lists[63][63][OUT];
} answers;

static answers first, second;

static void ask(answers *all) {
    uint8_t work[WORK];
    memset(all, 0, sizeof *all);
    for (uint64_t a = 0; a < 63; a++) {
        yk_position_answer position = yk_position(numbers, STORE, a);
        yk_table_answer rows = yk_table(numbers, STORE, a, all->tables[a], TABLE);
        yk_units_answer units = yk_units(numbers, STORE, a);
        require(position.question == 0 && rows.question == 0 && units.question == 0, "each time is answered");
        all->position[a][0] = position.page;
        all->position[a][1] = position.requests;
        all->rows[a] = rows.rows;
        all->units[a] = units.units;
        for (uint64_t b = 0; b < 63; b++) {
            yk_net_change_answer change
                = yk_net_change(numbers, STORE, a, b, all->lists[a][b], OUT, work, WORK);
            yk_units_between_answer difference = yk_units_between(numbers, STORE, a, b);
            require(change.question == 0 && difference.question == 0, "each pair of times is answered");
            all->entries[a][b] = change.entries;
            all->differences[a][b] = difference.units;
        }
    }
}

/* Where the table of a time is worked out from: table and view say the same. */
static void starts(uint64_t time, int place, uint32_t area, int later, uint32_t between, const char *what) {
    uint8_t out[TABLE];
    yk_table_answer rows = yk_table(numbers, STORE, time, out, TABLE);
    yk_view_answer view = yk_view(numbers, STORE, time);
    require(rows.question == 0 && rows.later == later && rows.requests_between == between, what);
    require(view.question == 0 && view.place == place && view.area == area && view.later == later
            && view.requests_between == between && view.start == (place == YK_AREA ? (size_t)area * TABLE : 0),
        what);
}

/* ---- keeping */

static void layout(void) {
    require(sizeof(yk_entry) == 16, "an entry is 16 bytes");
    require(offsetof(yk_entry, time) == 0 && offsetof(yk_entry, rows) == 8 && offsetof(yk_entry, mark) == 12,
        "time, rows and mark fill them");
    require(YK_PERMANENT == 0 && YK_FRIDAY == 5 && YK_SUNDAY == 7 && YK_WRONG_MARK == 18, "the papers' numbers");
}

static void keep_each(void) {
    static const file one[] = {{20, 5}}, two[] = {{20, 5}, {40, 0}}, three[] = {{10, 7}, {20, 5}, {40, 0}};
    static const file four[] = {{5, 5}, {10, 7}, {20, 5}, {40, 0}};
    static const file five[] = {{5, 5}, {10, 7}, {20, 5}, {40, 0}, {60, 7}};
    build();
    keep(20, YK_FRIDAY, YK_ACCEPTED, 1, "keep 20 until Friday");
    stored(one, 1, "20 until Friday");
    keep(40, YK_PERMANENT, YK_ACCEPTED, 2, "keep 40 for good");
    stored(two, 2, "40 for good");
    keep(10, YK_SUNDAY, YK_ACCEPTED, 3, "keep 10 until Sunday");
    stored(three, 3, "marks move up with their files");
    keep(5, YK_FRIDAY, YK_ACCEPTED, 4, "keep 5, before the first request");
    stored(four, 4, "a marked file without rows");
    keep(60, YK_SUNDAY, YK_ACCEPTED, 5, "keep the last time");
    stored(five, 5, "a marked file of the last time");
}

/* 1, 12, 18, 14 and 15, in this order; each leaves memory and numbers as they were. */
static void refuse_keeps(void) {
    static const file some[] = {{10, 7}, {20, 5}, {40, 0}};
    static const file full[] = {{5, 7}, {10, 7}, {15, 0}, {20, 5}, {40, 0}, {60, 5}};
    static const uint32_t right[3] = {YK_PERMANENT, YK_FRIDAY, YK_SUNDAY};
    build_with(some, 3);
    for (int i = 0; i < WRONGS; i++) {
        keep(30, WRONG[i], YK_WRONG_MARK, 3, "keep 30 with a wrong mark");
        keep(0, WRONG[i], YK_WRONG_MARK, 3, "18 goes before 14 at time 0");
        keep(20, WRONG[i], YK_WRONG_MARK, 3, "18 goes before 14 at a kept time");
        keep(61, WRONG[i], YK_TIME_AFTER_LAST, 3, "12 goes before 18");
        keep(UINT64_MAX, WRONG[i], YK_TIME_AFTER_LAST, 3, "12 goes before 18 at the latest time");
    }
    for (int i = 0; i < 3; i++) {
        keep(61, right[i], YK_TIME_AFTER_LAST, 3, "12 with each mark");
        keep(0, right[i], YK_NOT_TO_KEEP, 3, "time 0 with each mark");
        keep(20, right[i], YK_NOT_TO_KEEP, 3, "a kept time with each mark");
    }
    stored(some, 3, "refused keeps change nothing, no mark either");

    yk_numbers wrong = numbers;
    wrong.records = 7;
    yk_change answer = yk_keep(wrong, STORE, 61, 9);
    require(answer.question == YK_HEADER && answer.record == 0 && answer.numbers.records == 7
            && answer.numbers.files == 3,
        "1 goes before 12 and 18");
    require(yk_keep(wrong, STORE, 30, 9).question == YK_HEADER, "1 goes before 18");
    stored(some, 3, "a keep with wrong numbers");

    build_with(full, FILES);
    keep(30, 9, YK_WRONG_MARK, FILES, "18 goes before 15");
    keep(0, 9, YK_WRONG_MARK, FILES, "18 goes before 14 and 15");
    keep(61, 9, YK_TIME_AFTER_LAST, FILES, "12 goes before 18 and 15");
    for (int i = 0; i < 3; i++) {
        keep(30, right[i], YK_CATALOGUE_FULL, FILES, "15 with each mark");
        keep(40, right[i], YK_NOT_TO_KEEP, FILES, "14 goes before 15");
    }
    stored(full, FILES, "a full catalogue");
}

/* ---- dropping by mark */

/* From these files the mark takes so many, and leaves those. */
static void leaves(const file *files, uint32_t count, uint32_t mark, const file *left, uint32_t stay,
    const char *what) {
    build_with(files, count);
    drop_marked(mark, YK_ACCEPTED, count - stay, stay, what);
    stored(left, stay, what);
    drop_marked(mark, YK_ACCEPTED, 0, stay, "none is left");
    stored(left, stay, "and nothing changes");
}

static void drop_by_hand(void) {
    static const file mixed[] = {{10, 5}, {20, 7}, {30, 0}, {40, 5}, {50, 7}, {60, 5}};
    static const file no_fridays[] = {{20, 7}, {30, 0}, {50, 7}}, no_sundays[] = {{10, 5}, {30, 0}, {40, 5}, {60, 5}};
    static const file together[] = {{10, 0}, {20, 5}, {30, 5}, {40, 7}, {50, 7}, {60, 0}};
    static const file no_20_30[] = {{10, 0}, {40, 7}, {50, 7}, {60, 0}};
    static const file no_40_50[] = {{10, 0}, {20, 5}, {30, 5}, {60, 0}};
    static const file ends[] = {{10, 5}, {20, 7}, {30, 0}, {40, 7}}, no_first[] = {{20, 7}, {30, 0}, {40, 7}};
    static const file last[] = {{10, 0}, {20, 5}, {30, 7}}, no_last[] = {{10, 0}, {20, 5}};
    static const file fridays[] = {{10, 5}, {20, 5}, {60, 5}}, sundays[] = {{5, 7}, {40, 7}};
    static const file stays[] = {{10, 0}, {40, 0}};
    leaves(mixed, 6, YK_FRIDAY, no_fridays, 3, "first, last and one between, each with neighbours that stay");
    leaves(mixed, 6, YK_SUNDAY, no_sundays, 4, "7 takes no 5 along");
    leaves(together, 6, YK_FRIDAY, no_20_30, 4, "two side by side, next to the other mark");
    leaves(together, 6, YK_SUNDAY, no_40_50, 4, "the same of Sunday");
    leaves(ends, 4, YK_FRIDAY, no_first, 3, "the first alone: all others move down");
    leaves(last, 3, YK_SUNDAY, no_last, 2, "the last alone: none moves");
    leaves(fridays, 3, YK_FRIDAY, NULL, 0, "all");
    leaves(sundays, 2, YK_SUNDAY, NULL, 0, "all of Sunday");
    leaves(fridays, 3, YK_SUNDAY, fridays, 3, "none with this mark");
    leaves(stays, 2, YK_FRIDAY, stays, 2, "permanent files stay");
    leaves(NULL, 0, YK_FRIDAY, NULL, 0, "no files at all");
    leaves(mixed, 1, YK_FRIDAY, NULL, 0, "the only one");
}

/* Every choice of marks for up to five files. */
static void drop_all_choices(void) {
    static const uint32_t marks[3] = {YK_PERMANENT, YK_FRIDAY, YK_SUNDAY};
    uint32_t choices = 1;
    for (uint32_t count = 0; count <= 5; count++, choices *= 3) {
        for (uint32_t choice = 0; choice < choices; choice++) {
            for (int which = 1; which < 3; which++) {
                file files[5], left[5];
                uint32_t stay = 0, rest = choice;
                for (uint32_t i = 0; i < count; i++, rest /= 3) {
                    files[i].time = DAYS[i].time;
                    files[i].mark = marks[rest % 3];
                    if (files[i].mark != marks[which]) {
                        left[stay++] = files[i];
                    }
                }
                leaves(files, count, marks[which], left, stay, "a choice of marks");
            }
        }
    }
}

static void refuse_marked(void) {
    static const file some[] = {{10, 7}, {20, 5}, {40, 0}};
    build_with(some, 3);
    drop_marked(YK_PERMANENT, YK_WRONG_MARK, 0, 3, "0 is refused by 18");
    for (int i = 0; i < WRONGS; i++) {
        drop_marked(WRONG[i], YK_WRONG_MARK, 0, 3, "a wrong mark");
    }
    stored(some, 3, "a refused deletion changes nothing");

    yk_numbers wrong = numbers;
    wrong.records = 7;
    static const uint32_t asked[4] = {0, 5, 6, 7};
    for (int i = 0; i < 4; i++) {
        yk_drop_marked_answer answer = yk_drop_marked(wrong, STORE, asked[i]);
        require(answer.question == YK_HEADER && answer.gone == 0 && answer.numbers.order == 3
                && answer.numbers.page == 2 && answer.numbers.limit == LIMIT && answer.numbers.records == 7
                && answer.numbers.last == 60 && answer.numbers.live == 2 && answer.numbers.files == 3,
            "1 goes before 18, and the numbers come back");
    }
    wrong = numbers;
    wrong.files = FILES + 1;
    require(yk_drop_marked(wrong, STORE, YK_FRIDAY).question == YK_HEADER, "more files than the capacity");
    stored(some, 3, "a deletion with wrong numbers");
}

/* No entries, no areas: nothing to delete. No request: the same. */
static void drop_marked_without_files(void) {
    build();
    yk_drop_marked_answer answer = yk_drop_marked(numbers, lent.log, LOG, lent.index, INDEX, lent.table, TABLE,
        lent.entries, 0, lent.areas, 0, YK_FRIDAY);
    require(answer.question == YK_ACCEPTED && answer.gone == 0 && numbers_are(answer.numbers, 0), "nothing lent");
    stored(NULL, 0, "nothing is touched");
    yk_change empty
        = yk_fresh(3, 2, LIMIT, lent.log, LOG, lent.table, TABLE, lent.entries, ENTRIES, lent.areas, AREAS);
    memcpy(&before, &lent, sizeof before);
    answer = yk_drop_marked(empty.numbers, STORE, YK_SUNDAY);
    require(answer.question == YK_ACCEPTED && answer.gone == 0 && answer.numbers.files == 0
            && answer.numbers.records == 0 && answer.numbers.order == 3,
        "no requests");
    require(memcmp(&before, &lent, sizeof before) == 0, "an empty store stays as it is");
}

/* ---- dropping by time, and keeping again */

static void drop_by_time(void) {
    static const file all[] = {{10, 7}, {20, 5}, {30, 0}, {40, 5}};
    static const file no_20[] = {{10, 7}, {30, 0}, {40, 5}}, no_10[] = {{30, 0}, {40, 5}}, no_30[] = {{40, 5}};
    static const file again[] = {{20, 0}, {40, 5}}, only_20[] = {{20, 0}};
    build_with(all, 4);
    drop(20, YK_ACCEPTED, 3, "drop a file of Friday by its time");
    stored(no_20, 3, "marks move down with their files");
    drop(20, YK_NOT_KEPT, 3, "it is gone");
    drop(10, YK_ACCEPTED, 2, "drop a file of Sunday by its time");
    stored(no_10, 2, "without 10");
    drop(30, YK_ACCEPTED, 1, "drop a permanent file by its time");
    stored(no_30, 1, "without 30");
    keep(20, YK_PERMANENT, YK_ACCEPTED, 2, "keep 20 again, with another mark");
    stored(again, 2, "its new mark");
    drop_marked(YK_FRIDAY, YK_ACCEPTED, 1, 1, "20 no longer goes on Friday");
    stored(only_20, 1, "20 stays");
}

/* ---- no table may differ because a marked file has gone */

static void same_answers(void) {
    static const file mixed[] = {{10, 5}, {20, 7}, {30, 0}, {40, 5}, {50, 7}, {60, 5}};
    build();
    ask(&first);
    build_with(mixed, 6);
    ask(&second);
    require(memcmp(&first, &second, sizeof first) == 0, "the same with six files");
    drop_marked(YK_FRIDAY, YK_ACCEPTED, 3, 3, "Friday's deletion");
    ask(&second);
    require(memcmp(&first, &second, sizeof first) == 0, "the same without Friday's files");
    drop_marked(YK_SUNDAY, YK_ACCEPTED, 2, 1, "Sunday's deletion");
    ask(&second);
    require(memcmp(&first, &second, sizeof first) == 0, "the same without Sunday's files");
}

/* Where a table is worked out from may differ, and does not depend on a mark. Requests at or before 10, 20, 30, 40,
 * 45 and 60: 1, 2, 4, 5, 5 and 8. */
static void other_starts(void) {
    static const uint32_t marks[3] = {YK_PERMANENT, YK_FRIDAY, YK_SUNDAY};
    static const file files[] = {{10, 0}, {40, 7}};
    for (int i = 0; i < 3; i++) {
        build();
        keep(20, marks[i], YK_ACCEPTED, 1, "keep 20 with each mark");
        starts(45, YK_AREA, 0, 0, 3, "45 with 20 kept: a tie of three, from 20");
    }
    drop_marked(YK_SUNDAY, YK_ACCEPTED, 1, 0, "20 goes");
    starts(45, YK_CURRENT, 0, 1, 3, "45 without files: 5 and 3");
    build_with(files, 2);
    starts(30, YK_AREA, 1, 1, 1, "30 with 10 and 40 kept: 3 and 1");
    drop_marked(YK_SUNDAY, YK_ACCEPTED, 1, 1, "40 goes");
    starts(30, YK_AREA, 0, 0, 3, "30 with 10 kept: 3 and 4");
}

/* ---- the audit */

static void audit(void) {
    static const file some[] = {{10, 7}, {20, 5}, {40, 0}};
    static const uint32_t right[3] = {YK_PERMANENT, YK_FRIDAY, YK_SUNDAY};
    build_with(some, 3);
    for (int k = 0; k < 3; k++) {
        for (int i = 0; i < WRONGS; i++) {
            lent.entries[k].mark = WRONG[i];
            require(yk_audit(numbers, STORE) == 0, "a wrong mark");
        }
        for (int i = 0; i < 3; i++) {
            lent.entries[k].mark = right[i];
            require(yk_audit(numbers, STORE) == 1, "any of the three marks: a keep could have left it");
        }
        lent.entries[k].mark = some[k].mark;
    }
    for (int k = 3; k < FILES; k++) {
        for (int i = 1; i < 3; i++) {
            lent.entries[k].mark = right[i];
            require(yk_audit(numbers, STORE) == 0, "a stray mark in an unused entry");
        }
        lent.entries[k].mark = WRONG[k];
        require(yk_audit(numbers, STORE) == 0, "a stray number in an unused entry");
        lent.entries[k].mark = 0;
    }
    lent.entries[FILES].mark = 5;
    require(yk_audit(numbers, STORE) == 1, "entries past the capacity are no part of the catalogue");
    memset(&lent.entries[FILES], UNTOUCHED, sizeof lent.entries[FILES]);
    stored(some, 3, "the mended store");
}

/* A fresh store and an opening make every mark zero. */
static void start_without_marks(void) {
    static const file some[] = {{10, 7}, {20, 5}, {40, 0}};
    build_with(some, 3);
    memset(lent.entries, UNTOUCHED, sizeof lent.entries);
    require(yk_audit(numbers, STORE) == 0, "entries of a stranger");
    yk_change answer = yk_open(STORE);
    require(answer.question == YK_ACCEPTED && answer.record == 0 && numbers_are(answer.numbers, 0), "an opening");
    numbers = answer.numbers;
    for (int i = 0; i < ENTRIES; i++) {
        uint64_t time = i < FILES ? 0 : UINT64_C(0xEEEEEEEEEEEEEEEE);
        uint32_t rest = i < FILES ? 0 : UINT32_C(0xEEEEEEEE);
        yk_entry entry = lent.entries[i];
        require(entry.time == time && entry.rows == rest && entry.mark == rest, "zero entries up to the capacity");
    }
    drop_marked(YK_FRIDAY, YK_ACCEPTED, 0, 0, "no file is left");
    require(yk_audit(numbers, STORE) == 1, "audit of the opened store");
}

int main(void) {
    layout();
    keep_each();
    refuse_keeps();
    drop_by_hand();
    drop_all_choices();
    refuse_marked();
    drop_marked_without_files();
    drop_by_time();
    same_answers();
    other_starts();
    audit();
    start_without_marks();
    puts("marks: ok");
    return 0;
}
