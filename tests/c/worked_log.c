/* 01's log by hand, built by calls from C: its bytes, its index words, every call, every field of every answer
 * and every question. The argument is the written log, samples/log-by-hand.log. */
#include <stdbool.h>
#include <stdio.h>
#include <stdlib.h>
#include <string.h>

#include "yokefennel.h"

/* Eight records and space for one more; four count files and some bytes that are no whole area. */
enum { LOG = 24 + 24 * 8, LENT_LOG = LOG + 24, INDEX = 8, LIMIT = 4, TABLE = 8 * LIMIT };
enum { FILES = 4, ENTRIES = FILES + 1, AREAS = FILES * TABLE + 5, OUT = 24 * LIMIT, WORK = 16 * LIMIT };

/* All that is lent, and the store's numbers. */
static struct {
    uint8_t log[LENT_LOG];
    uint64_t index[INDEX];
    uint8_t table[TABLE];
    yk_entry entries[ENTRIES];
    uint8_t areas[AREAS];
} lent;
static yk_numbers numbers;

#define STORE lent.log, LENT_LOG, lent.index, INDEX, lent.table, TABLE, lent.entries, ENTRIES, lent.areas, AREAS

static void require(bool holds, const char *what) {
    if (!holds) {
        fprintf(stderr, "worked log: %s\n", what);
        exit(1);
    }
}

/* ---- the calls, on the lent memory */

/* Takes up the numbers of an answer; the question answered no. */
static int taken(yk_change answer) {
    numbers = answer.numbers;
    require(answer.record == 0, "a record only at 17");
    return answer.question;
}

static int fresh(uint16_t order, uint16_t page, uint32_t limit) {
    return taken(yk_fresh(order, page, limit, lent.log, LENT_LOG, lent.table, TABLE, lent.entries, ENTRIES,
        lent.areas, AREAS));
}

static int insert(uint64_t time, uint32_t article, uint32_t count) {
    return taken(yk_insert(numbers, STORE, time, article, count));
}

static int delete_article(uint64_t time, uint32_t article) {
    return taken(yk_delete(numbers, STORE, time, article));
}

static int update(uint64_t time, uint32_t article, uint32_t count) {
    return taken(yk_update(numbers, STORE, time, article, count));
}

/* The files here are permanent; marks.c has the marks. */
static int keep(uint64_t time) {
    return taken(yk_keep(numbers, STORE, time, YK_PERMANENT));
}

static int drop(uint64_t time) {
    return taken(yk_drop(numbers, STORE, time));
}

static yk_table_answer table(uint64_t time, uint8_t out[TABLE]) {
    return yk_table(numbers, STORE, time, out, TABLE);
}

static bool audit(void) {
    uint8_t answer = yk_audit(numbers, STORE);
    require(answer <= 1, "an audit answers 1 or 0");
    return answer == 1;
}

/* ---- what is right */

static bool numbers_are(int order, int page, uint32_t limit, uint32_t records, uint64_t last, uint32_t live,
    uint32_t files) {
    return numbers.order == order && numbers.page == page && numbers.limit == limit
        && numbers.records == records && numbers.last == last && numbers.live == live
        && numbers.files == files;
}

static bool entry_is(int i, uint64_t time, uint32_t rows) {
    return lent.entries[i].time == time && lent.entries[i].rows == rows && lent.entries[i].mark == 0;
}

static bool zero(const uint8_t *bytes, size_t length) {
    for (size_t i = 0; i < length; i++) {
        if (bytes[i] != 0) {
            return false;
        }
    }
    return true;
}

/* 01's tables, and its net change from 20 to 45. */
static const uint8_t TABLE_10[TABLE] = {7, 0, 0, 0, 50};
static const uint8_t TABLE_20[TABLE] = {3, 0, 0, 0, 12, 0, 0, 0, 7, 0, 0, 0, 50};
static const uint8_t TABLE_30[TABLE] = {3, 0, 0, 0, 12, 0, 0, 0, 7, 0, 0, 0, 44};
static const uint8_t TABLE_45[TABLE] = {7, 0, 0, 0, 44};
static const uint8_t TABLE_60[TABLE] = {7, 0, 0, 0, 44, 0, 0, 0, 9, 0, 0, 0, 6};
static const uint8_t FROM_20_TO_45[OUT] = {12, 0, 3, 0, 3, 0, 0, 0, 12, 0, 0, 0, 12, 0, 3, 0, 7, 0, 0, 0, 50, 0,
    0, 0, 12, 0, 2, 0, 7, 0, 0, 0, 44};

/* From 20 to 60 and back; 61 and later times are answered as 60. */
static const uint8_t FROM_20_TO_60[OUT] = {12, 0, 3, 0, 3, 0, 0, 0, 12, 0, 0, 0, 12, 0, 3, 0, 7, 0, 0, 0, 50, 0,
    0, 0, 12, 0, 2, 0, 7, 0, 0, 0, 44, 0, 0, 0, 12, 0, 2, 0, 9, 0, 0, 0, 6};
static const uint8_t FROM_60_TO_20[OUT] = {12, 0, 2, 0, 3, 0, 0, 0, 12, 0, 0, 0, 12, 0, 3, 0, 7, 0, 0, 0, 44, 0,
    0, 0, 12, 0, 2, 0, 7, 0, 0, 0, 50, 0, 0, 0, 12, 0, 3, 0, 9, 0, 0, 0, 6};
static const uint8_t FROM_69_TO_70[OUT] = {12, 0, 3, 0, 9, 0, 0, 0, 6}; /* with a deletion of 9 at 70 */
static const uint8_t NO_ENTRIES[OUT] = {0};

/* 01's numbers of the questions. */
static void compare_constants(void) {
    static const int constants[][2] = {{YK_ACCEPTED, 0}, {YK_HEADER, 1}, {YK_ORDER, 2}, {YK_PAGE_SIZE, 3},
        {YK_ROW_LIMIT, 4}, {YK_MEMORY, 5}, {YK_TIME_NOT_ABOVE, 6}, {YK_ARTICLE_PRESENT, 7},
        {YK_ARTICLE_ABSENT, 8}, {YK_ROWS_FULL, 9}, {YK_LOG_FULL, 10}, {YK_INDEX_FULL, 11},
        {YK_TIME_AFTER_LAST, 12}, {YK_OUTPUT_SHORT, 13}, {YK_NOT_TO_KEEP, 14}, {YK_CATALOGUE_FULL, 15},
        {YK_NOT_KEPT, 16}, {YK_WRONG_RECORD, 17}, {YK_WRONG_MARK, 18}, {YK_EMPTY, 0}, {YK_AREA, 1},
        {YK_CURRENT, 2}, {YK_PERMANENT, 0}, {YK_FRIDAY, 5}, {YK_SUNDAY, 7}};
    for (size_t i = 0; i < sizeof constants / sizeof constants[0]; i++) {
        require(constants[i][0] == constants[i][1], "a constant has 01's number");
    }
}

/* ---- 01's log */

static void build(void) {
    require(fresh(3, 2, LIMIT) == YK_ACCEPTED && numbers_are(3, 2, 4, 0, 0, 0, 0), "fresh store");
    for (int i = 0; i < FILES; i++) {
        require(entry_is(i, 0, 0), "a fresh store zeroes the catalogue");
    }
    require(audit(), "audit of a fresh store");
    require(insert(10, 7, 50) == YK_ACCEPTED && numbers_are(3, 2, 4, 1, 10, 1, 0), "insert 7 at 10");
    require(insert(20, 3, 12) == YK_ACCEPTED && numbers_are(3, 2, 4, 2, 20, 2, 0), "insert 3 at 20");
    require(update(30, 7, 44) == YK_ACCEPTED && numbers_are(3, 2, 4, 4, 30, 2, 0), "update 7 at 30");
    require(delete_article(40, 3) == YK_ACCEPTED && numbers_are(3, 2, 4, 5, 40, 1, 0), "delete 3 at 40");
    require(insert(50, 9, 5) == YK_ACCEPTED && numbers_are(3, 2, 4, 6, 50, 2, 0), "insert 9 at 50");
    require(update(60, 9, 6) == YK_ACCEPTED && numbers_are(3, 2, 4, 8, 60, 2, 0), "update 9 at 60");
    require(memcmp(lent.table, TABLE_60, TABLE) == 0, "the current table");
    require(audit(), "audit of the log");
}

static void compare_index(void) {
    static const uint64_t words[6] = {10, 30, 30, 0, 40, 60};
    require(memcmp(lent.index, words, sizeof words) == 0, "index words");
}

static void compare_log(const char *name) {
    uint8_t written[LOG + 1];
    FILE *file = fopen(name, "rb");
    require(file != NULL, "the written log can be read");
    size_t length = fread(written, 1, sizeof written, file);
    fclose(file);
    require(length == LOG, "the written log has eight records");
    require(memcmp(lent.log, written, LOG) == 0, "the log is the written one");
}

static bool position_is(uint64_t time, uint32_t page, uint32_t requests) {
    yk_position_answer answer = yk_position(numbers, STORE, time);
    return answer.question == YK_ACCEPTED && answer.page == page && answer.requests == requests;
}

static void compare_positions(void) {
    static const uint64_t asked[10] = {0, 9, 10, 29, 30, 35, 40, 60, 61, UINT64_MAX};
    static const uint32_t pages[10] = {0, 0, 0, 0, 1, 1, 2, 3, 3, 3};
    static const uint32_t requests[10] = {0, 0, 1, 2, 4, 4, 5, 8, 8, 8};
    for (int i = 0; i < 10; i++) {
        require(position_is(asked[i], pages[i], requests[i]), "page and requests of a position");
    }
}

static bool table_is(uint64_t time, const uint8_t *bytes, uint32_t rows, int later, uint32_t between) {
    uint8_t out[TABLE + 1];
    memset(out, 0xA5, sizeof out);
    yk_table_answer answer = table(time, out);
    return answer.question == YK_ACCEPTED && answer.rows == rows && answer.later == later
        && answer.requests_between == between && memcmp(out, bytes, TABLE) == 0 && out[TABLE] == 0xA5;
}

/* Entries, output and workspace of a net change, and nothing is written past them. */
static bool net_change_is(uint64_t a, uint64_t b, uint32_t entries, const uint8_t *list, const uint8_t *table_a,
    const uint8_t *table_b) {
    uint8_t out[OUT + 1], work[WORK + 1];
    memset(out, 0xA5, sizeof out);
    memset(work, 0xA5, sizeof work);
    yk_net_change_answer answer = yk_net_change(numbers, STORE, a, b, out, OUT, work, WORK);
    return answer.question == YK_ACCEPTED && answer.entries == entries && memcmp(out, list, OUT) == 0
        && memcmp(work, table_a, TABLE) == 0 && memcmp(work + TABLE, table_b, TABLE) == 0 && out[OUT] == 0xA5
        && work[WORK] == 0xA5;
}

static void compare_net_changes(void) {
    uint8_t out[OUT], work[WORK];
    require(net_change_is(20, 45, 3, FROM_20_TO_45, TABLE_20, TABLE_45), "net change 20 to 45 has three entries");
    require(net_change_is(30, 35, 0, NO_ENTRIES, TABLE_30, TABLE_30), "net change 30 to 35");
    require(net_change_is(20, 60, 4, FROM_20_TO_60, TABLE_20, TABLE_60), "net change 20 to 60");
    require(net_change_is(60, 20, 4, FROM_60_TO_20, TABLE_60, TABLE_20), "and back");
    yk_net_change_answer answer = yk_net_change(numbers, STORE, 10, 60, out, OUT, work, WORK);
    require(answer.question == YK_ACCEPTED && answer.entries == 3, "net change 10 to 60, whose totals agree");
}

/* ---- units on hand */

/* Both fields of the answer, and nothing is written. */
static bool units_are(uint64_t time, uint64_t units) {
    static uint8_t before[sizeof lent];
    memcpy(before, &lent, sizeof lent);
    yk_units_answer answer = yk_units(numbers, STORE, time);
    return answer.question == YK_ACCEPTED && answer.units == units && memcmp(before, &lent, sizeof lent) == 0;
}

static bool difference_is(uint64_t a, uint64_t b, int64_t units) {
    static uint8_t before[sizeof lent];
    memcpy(before, &lent, sizeof lent);
    yk_units_between_answer answer = yk_units_between(numbers, STORE, a, b);
    return answer.question == YK_ACCEPTED && answer.units == units && memcmp(before, &lent, sizeof lent) == 0;
}

/* The same whatever files are kept. */
static void compare_units(void) {
    static const uint64_t asked[12] = {0, 9, 10, 19, 20, 30, 40, 45, 50, 60, 61, UINT64_MAX};
    static const int64_t units[12] = {0, 0, 50, 50, 62, 56, 44, 44, 49, 50, 50, 50};
    for (int i = 0; i < 12; i++) {
        require(units_are(asked[i], (uint64_t)units[i]), "units of a time");
        for (int k = 0; k < 12; k++) {
            require(difference_is(asked[i], asked[k], units[k] - units[i]), "units between two times");
        }
    }
    require(difference_is(20, 45, -18) && difference_is(45, 20, 18), "20 to 45 and back");
    require(difference_is(45, 50, 5), "45 to 50");
    require(difference_is(10, 60, 0) && difference_is(60, 10, 0), "10 to 60: the totals agree, the tables differ");
    require(difference_is(20, 61, -12) && difference_is(61, 20, 12), "20 to 61, which is answered as 60, and back");
}

/* ---- count files and views */

/* All fields of a view, and the part that it makes. */
static bool view_is(uint64_t time, int place, uint32_t area, uint32_t rows, int later, uint32_t between,
    const uint8_t *part) {
    yk_view_answer view = yk_view(numbers, STORE, time);
    const uint8_t *region = place == 1 ? lent.areas : lent.table;
    yk_part found = yk_view_part(view, lent.areas, lent.table);
    return view.question == YK_ACCEPTED && view.place == place && view.area == area && view.rows == rows
        && view.later == later && view.requests_between == between && view.start == (size_t)(part - region)
        && view.length == 8 * rows && found.bytes == part && found.length == 8 * rows;
}

/* Requests at or before 10, 20, 30, 40, 45 and 60: 1, 2, 4, 5, 5 and 8. */
static void keep_none(void) {
    require(table_is(20, TABLE_20, 2, 0, 2), "the table of 20: 2 requests from time 0, 6 to the last");
    require(table_is(30, TABLE_30, 2, 0, 4), "the table of 30: 4 and 4");
    require(table_is(45, TABLE_45, 1, 1, 3), "the table of 45: 5 and 3");
    require(table_is(60, TABLE_60, 2, 1, 0), "the table of 60: 8 and none");
    require(view_is(0, YK_EMPTY, 0, 0, 0, 0, lent.table), "view of time 0");
    require(view_is(30, YK_EMPTY, 0, 0, 0, 4, lent.table), "view of 30");
    require(view_is(45, YK_CURRENT, 0, 2, 1, 3, lent.table), "view of 45");
}

static void keep_one(void) {
    require(keep(20) == YK_ACCEPTED && numbers_are(3, 2, 4, 8, 60, 2, 1), "keep 20");
    require(entry_is(0, 20, 2) && entry_is(1, 0, 0), "the entry of 20");
    require(memcmp(lent.areas, TABLE_20, TABLE) == 0, "the area of 20");
    require(table_is(45, TABLE_45, 1, 0, 3), "with 20 kept, 45 is a tie of three and starts from 20");
    require(view_is(45, YK_AREA, 0, 2, 0, 3, lent.areas), "view of 45 with 20 kept");
    compare_units();
    require(audit(), "audit with 20 kept");
    require(drop(20) == YK_ACCEPTED && numbers_are(3, 2, 4, 8, 60, 2, 0), "drop 20");
    require(entry_is(0, 0, 0) && zero(lent.areas, TABLE), "the entry and the area of 20 are zero");

    require(keep(40) == YK_ACCEPTED, "keep 40");
    require(table_is(30, TABLE_30, 2, 1, 1), "with only 40 kept, 30 starts from 40");
    require(view_is(30, YK_AREA, 0, 1, 1, 1, lent.areas), "view of 30 with only 40 kept");
    compare_units();
    require(keep(10) == YK_ACCEPTED, "keep 10");
    require(table_is(30, TABLE_30, 2, 1, 1), "with 10 and 40 kept, 30 starts from 40: three requests against one");
    require(view_is(30, YK_AREA, 1, 1, 1, 1, lent.areas + TABLE), "view of 30 with 10 and 40 kept");
    compare_units();
    require(drop(10) == YK_ACCEPTED && drop(40) == YK_ACCEPTED, "drop 10 and 40");
}

static void keep_several(void) {
    require(keep(20) == YK_ACCEPTED && keep(5) == YK_ACCEPTED, "keep 20, then 5");
    require(keep(10) == YK_ACCEPTED && keep(6) == YK_ACCEPTED, "keep 10, then 6");
    require(numbers_are(3, 2, 4, 8, 60, 2, 4), "four files");
    require(entry_is(0, 5, 0) && entry_is(1, 6, 0) && entry_is(2, 10, 1) && entry_is(3, 20, 2),
        "entries ascend by time");
    require(zero(lent.areas, 2 * TABLE) && memcmp(lent.areas + 2 * TABLE, TABLE_10, TABLE) == 0
            && memcmp(lent.areas + 3 * TABLE, TABLE_20, TABLE) == 0,
        "area i is the table of entry i");
    require(view_is(30, YK_AREA, 3, 2, 0, 2, lent.areas + 3 * TABLE), "view of 30 with 20 kept");
    compare_units();
    require(audit(), "audit with four files");

    require(drop(6) == YK_ACCEPTED && numbers_are(3, 2, 4, 8, 60, 2, 3), "drop 6");
    require(entry_is(0, 5, 0) && entry_is(1, 10, 1) && entry_is(2, 20, 2) && entry_is(3, 0, 0),
        "the later entries move down");
    require(memcmp(lent.areas + TABLE, TABLE_10, TABLE) == 0
            && memcmp(lent.areas + 2 * TABLE, TABLE_20, TABLE) == 0 && zero(lent.areas + 3 * TABLE, TABLE),
        "the later areas move down, and the last one is zero");
    require(view_is(30, YK_AREA, 2, 2, 0, 2, lent.areas + 2 * TABLE), "view of 30 after drop 6");
    require(audit(), "audit with three files");
    require(keep(45) == YK_ACCEPTED && entry_is(3, 45, 1), "keep 45");
    yk_drop_marked_answer none = yk_drop_marked(numbers, STORE, YK_FRIDAY);
    require(none.question == YK_ACCEPTED && none.gone == 0 && none.numbers.files == 4, "permanent files stay");
    require(entry_is(3, 45, 1) && audit(), "the last one too");
}

/* ---- times after the last */

/* Each answer is that of 60: the rows come from the file of 60, in this area, or else from the current table. */
static void late_times(int kept, uint32_t area) {
    static const uint64_t asked[4] = {60, 61, 1000, UINT64_MAX};
    for (int i = 0; i < 4; i++) {
        require(position_is(asked[i], 3, 8), "position of a late time");
        require(table_is(asked[i], TABLE_60, 2, !kept, 0), "table of a late time");
        require(view_is(asked[i], kept ? YK_AREA : YK_CURRENT, area, 2, !kept, 0,
                    kept ? lent.areas + area * TABLE : lent.table),
            "view of a late time");
        require(net_change_is(20, asked[i], 4, FROM_20_TO_60, TABLE_20, TABLE_60), "net change to a late time");
        require(net_change_is(asked[i], 20, 4, FROM_60_TO_20, TABLE_60, TABLE_20), "net change from a late time");
        for (int k = 0; k < 4; k++) {
            require(net_change_is(asked[i], asked[k], 0, NO_ENTRIES, TABLE_60, TABLE_60), "both times late");
        }
    }
}

/* A file of the last time goes before the current table, here from area 0, then from area 1. */
static void keep_last(void) {
    late_times(false, 0);
    require(keep(60) == YK_ACCEPTED && entry_is(0, 60, 2) && memcmp(lent.areas, TABLE_60, TABLE) == 0, "keep 60");
    late_times(true, 0);
    compare_units();
    require(keep(20) == YK_ACCEPTED && entry_is(0, 20, 2) && entry_is(1, 60, 2), "keep 20 and 60");
    late_times(true, 1);
    compare_units();
    require(audit(), "audit with the last time kept");
    require(drop(60) == YK_ACCEPTED, "drop 60");
    late_times(false, 0);
    require(drop(20) == YK_ACCEPTED && numbers_are(3, 2, 4, 8, 60, 2, 0), "drop 20 again");
}

/* No request yet: every time is answered as time 0. */
static void no_requests(void) {
    static const uint64_t asked[3] = {0, 1, UINT64_MAX};
    require(fresh(3, 2, LIMIT) == YK_ACCEPTED, "an empty store");
    for (int i = 0; i < 3; i++) {
        require(position_is(asked[i], 0, 0), "positions of an empty store");
        require(table_is(asked[i], NO_ENTRIES, 0, 0, 0), "its tables");
        require(view_is(asked[i], YK_EMPTY, 0, 0, 0, 0, lent.table), "its views");
        require(units_are(asked[i], 0), "its units");
        for (int k = 0; k < 3; k++) {
            require(net_change_is(asked[i], asked[k], 0, NO_ENTRIES, NO_ENTRIES, NO_ENTRIES), "its net changes");
            require(difference_is(asked[i], asked[k], 0), "its differences");
        }
    }
    require(keep(0) == YK_NOT_TO_KEEP, "keep 0 in an empty store");
    require(keep(1) == YK_TIME_AFTER_LAST && keep(UINT64_MAX) == YK_TIME_AFTER_LAST, "keep after time 0");
    require(numbers_are(3, 2, 4, 0, 0, 0, 0) && audit(), "audit of the empty store");
}

/* One byte or number of the store damaged, seen by the audit, and mended. */
static void damage(void) {
    uint8_t *bytes[4] = {lent.log + 24 + 20, (uint8_t *)lent.index, lent.table + 4, lent.areas + 3 * TABLE};
    for (int i = 0; i < 4; i++) {
        *bytes[i] ^= 1;
        require(!audit(), "audit of a damaged byte");
        *bytes[i] ^= 1;
        require(audit(), "audit of the mended byte");
    }
    lent.entries[3].rows++;
    require(!audit(), "audit of a damaged entry");
    lent.entries[3].rows--;
    lent.entries[3].mark = 6;
    require(!audit(), "audit of a wrong mark");
    lent.entries[3].mark = 0;
    numbers.files--;
    require(!audit(), "audit of damaged numbers");
    numbers.files++;
    lent.areas[AREAS - 1] ^= 1;
    require(audit(), "audit of bytes past the whole areas");
}

/* ---- every question; the store holds 5, 10, 20 and 45 */

/* A refusal that leaves memory and numbers as they were. */
#define REFUSED(call, by, what)                                                                                \
    do {                                                                                                       \
        memcpy(&before, &lent, sizeof lent);                                                                   \
        require((call) == (by), what);                                                                         \
        require(memcmp(&before, &lent, sizeof lent) == 0, "a refusal leaves the memory");                      \
        require(numbers_are(3, 2, 4, 8, 60, 2, 4), "a refusal leaves the numbers");                            \
    } while (0)

static void refuse_later_calls(void) {
    static uint8_t before[sizeof lent];
    static uint8_t out[OUT], work[WORK];
    yk_numbers wrong = numbers;
    wrong.records--;
    REFUSED(yk_position(wrong, STORE, 0).question, YK_HEADER, "position with wrong numbers");
    REFUSED(yk_view(wrong, STORE, 0).question, YK_HEADER, "view with wrong numbers");
    REFUSED(yk_position(wrong, STORE, 61).question, YK_HEADER, "position of 61 with wrong numbers");
    REFUSED(yk_table(wrong, STORE, 61, out, 0).question, YK_HEADER, "table of 61 with wrong numbers");
    REFUSED(yk_net_change(wrong, STORE, 61, 61, out, 0, work, 0).question, YK_HEADER,
        "net change with wrong numbers");
    REFUSED(yk_units(wrong, STORE, 61).question, YK_HEADER, "units with wrong numbers");
    REFUSED(yk_units_between(wrong, STORE, 61, 61).question, YK_HEADER, "units between with wrong numbers");
    REFUSED(yk_keep(wrong, STORE, 61, 6).question, YK_HEADER, "keep with wrong numbers");
    require(yk_keep(wrong, STORE, 30, 0).numbers.records == 7, "a refusal answers the numbers it was given");
    REFUSED(yk_drop_marked(wrong, STORE, 6).question, YK_HEADER, "a marked deletion with wrong numbers");

    REFUSED(insert(60, 1, 1), YK_TIME_NOT_ABOVE, "insert at the last time");
    REFUSED(insert(61, 7, 1), YK_ARTICLE_PRESENT, "insert what is present");
    REFUSED(delete_article(61, 3), YK_ARTICLE_ABSENT, "delete what is absent");
    REFUSED(update(61, 3, 1), YK_ARTICLE_ABSENT, "update what is absent");
    REFUSED(update(61, 9, 7), YK_LOG_FULL, "an update with one record's space");
    REFUSED(taken(yk_delete(numbers, lent.log, LENT_LOG, lent.index, 6, lent.table, TABLE, lent.entries,
                ENTRIES, lent.areas, AREAS, 61, 9)),
        YK_INDEX_FULL, "a delete without space for its node");

    REFUSED(yk_table(numbers, STORE, 20, out, TABLE - 1).question, YK_OUTPUT_SHORT, "a short output");
    REFUSED(yk_table(numbers, STORE, 61, out, TABLE - 1).question, YK_OUTPUT_SHORT, "a short output for 61");
    REFUSED(yk_net_change(numbers, STORE, 20, 45, out, OUT - 1, work, WORK).question, YK_OUTPUT_SHORT,
        "a net change's short output");
    REFUSED(yk_net_change(numbers, STORE, 20, 45, out, OUT, work, WORK - 1).question, YK_OUTPUT_SHORT,
        "a short workspace");
    REFUSED(yk_net_change(numbers, STORE, 61, 20, out, OUT - 1, work, WORK).question, YK_OUTPUT_SHORT,
        "a net change's short output, from 61");
    REFUSED(yk_net_change(numbers, STORE, 20, 61, out, OUT, work, WORK - 1).question, YK_OUTPUT_SHORT,
        "a short workspace, to 61");
    require(zero(out, OUT) && zero(work, WORK), "a refusal leaves output and workspace");

    REFUSED(keep(61), YK_TIME_AFTER_LAST, "keep 61: 12 goes before 15");
    REFUSED(keep(UINT64_MAX), YK_TIME_AFTER_LAST, "keep the latest time");
    REFUSED(yk_keep(numbers, STORE, 61, 6).question, YK_TIME_AFTER_LAST, "12 goes before 18");
    REFUSED(yk_keep(numbers, STORE, 0, 6).question, YK_WRONG_MARK, "18 goes before 14");
    REFUSED(yk_keep(numbers, STORE, 30, 6).question, YK_WRONG_MARK, "18 goes before 15");
    REFUSED(keep(0), YK_NOT_TO_KEEP, "keep 0");
    REFUSED(keep(45), YK_NOT_TO_KEEP, "keep 45 again");
    REFUSED(keep(30), YK_CATALOGUE_FULL, "keep a fifth file");
    REFUSED(drop(30), YK_NOT_KEPT, "drop 30");
    REFUSED(yk_drop_marked(numbers, STORE, 0).question, YK_WRONG_MARK, "a deletion of all permanent files");
}

/* Where a refusal has zeros beside the question, and where a view's part is empty. */
static void refused_answers(void) {
    uint8_t out[OUT], work[WORK];
    yk_numbers wrong = numbers;
    wrong.records--;
    yk_position_answer position = yk_position(wrong, STORE, 45);
    yk_table_answer rows = yk_table(wrong, STORE, 45, out, TABLE);
    yk_view_answer view = yk_view(wrong, STORE, 45);
    yk_part part = yk_view_part(view, lent.areas, lent.table);
    require(position.question == YK_HEADER && position.page == 0 && position.requests == 0, "position: zeros");
    require(rows.question == YK_HEADER && rows.rows == 0 && rows.later == 0 && rows.requests_between == 0,
        "table: zeros");
    require(view.question == YK_HEADER && view.place == 0 && view.area == 0 && view.rows == 0 && view.later == 0
            && view.requests_between == 0 && view.start == 0 && view.length == 0 && part.bytes == lent.table
            && part.length == 0,
        "a refused view is empty");
    require(yk_units(wrong, STORE, 20).units == 0 && yk_units_between(wrong, STORE, 20, 45).units == 0,
        "wrong numbers: no units");
    require(yk_net_change(wrong, STORE, 20, 45, out, OUT, work, WORK).entries == 0, "wrong numbers: no entries");
    rows = yk_table(numbers, STORE, 61, out, TABLE - 1);
    require(rows.question == YK_OUTPUT_SHORT && rows.rows == 0 && rows.later == 0 && rows.requests_between == 0,
        "a short output: zeros");
    yk_net_change_answer change = yk_net_change(numbers, STORE, 20, 61, out, OUT - 1, work, WORK);
    require(change.question == YK_OUTPUT_SHORT && change.entries == 0, "a short output: no entries");
}

/* A ninth record: numbers that all differ. Times that were late are answered anew: 69 still as 60, but for the
 * request that now lies between it and the current table; 70 and later times without article 9. */
static void delete_9(void) {
    static const uint64_t asked[3] = {70, 71, UINT64_MAX};
    require(table_is(69, TABLE_60, 2, 1, 0) && table_is(70, TABLE_60, 2, 1, 0), "69 and 70 are late");
    require(delete_article(70, 9) == YK_ACCEPTED && numbers_are(3, 2, 4, 9, 70, 1, 4), "delete 9 at 70");
    require(position_is(69, 3, 8) && table_is(69, TABLE_60, 2, 1, 1) && units_are(69, 50), "69 is no longer late");
    require(view_is(69, YK_CURRENT, 0, 1, 1, 1, lent.table), "view of 69");
    for (int i = 0; i < 3; i++) {
        require(position_is(asked[i], 4, 9) && units_are(asked[i], 44), "position and units after a ninth record");
        require(table_is(asked[i], TABLE_45, 1, 1, 0), "table after a ninth record");
        require(view_is(asked[i], YK_CURRENT, 0, 1, 1, 0, lent.table), "view after a ninth record");
        require(difference_is(69, asked[i], -6), "9 went with its units");
        require(net_change_is(69, asked[i], 1, FROM_69_TO_70, TABLE_60, TABLE_45), "and nothing else did");
    }
    require(drop(5) == YK_ACCEPTED && drop(10) == YK_ACCEPTED && drop(45) == YK_ACCEPTED, "drop 5, 10 and 45");
    require(drop(20) == YK_ACCEPTED && numbers_are(3, 2, 4, 9, 70, 1, 0), "drop 20");
}

/* ---- opening */

static void open_again(void) {
    require(taken(yk_open(STORE)) == YK_ACCEPTED && numbers_are(3, 2, 4, 9, 70, 1, 0), "opening the log");
    require(audit(), "audit of the opened store");
    require(taken(yk_open(lent.log, LENT_LOG, lent.index, 7, lent.table, TABLE, lent.entries, ENTRIES,
                lent.areas, AREAS))
            == YK_MEMORY,
        "opening with a short index");
    require(numbers_are(0, 0, 0, 0, 0, 0, 0), "a refused opening answers zeros");

    lent.log[24 + 24 * 4 + 20] ^= 1;
    yk_change answer = yk_open(STORE);
    require(answer.question == YK_WRONG_RECORD && answer.record == 4, "opening with record 4 wrong");
    numbers = answer.numbers;
    require(numbers_are(0, 0, 0, 0, 0, 0, 0), "numbers at 17 are zero");
    require(zero((const uint8_t *)lent.index, 8 * INDEX) && zero(lent.table, TABLE), "so are index and table");
    lent.log[24 + 24 * 4 + 20] ^= 1;
    lent.log[16] ^= 1;
    answer = yk_open(STORE);
    require(answer.question == YK_WRONG_RECORD && answer.record == 9, "opening with the last time wrong");
    lent.log[16] ^= 1;
    lent.log[2] = 2;
    require(taken(yk_open(STORE)) == YK_HEADER, "opening without a header");
}

static void start_anew(void) {
    require(fresh(1, 2, LIMIT) == YK_ORDER, "order 1");
    require(fresh(3, 65, LIMIT) == YK_PAGE_SIZE, "65 records per page");
    require(fresh(3, 2, 1025) == YK_ROW_LIMIT, "row limit 1,025");
    require(fresh(3, 2, LIMIT + 1) == YK_MEMORY, "a short table");
    require(numbers_are(0, 0, 0, 0, 0, 0, 0) && !audit(), "a refused start answers zeros");
    require(fresh(3, 2, LIMIT) == YK_ACCEPTED, "fresh store again");
    for (uint32_t k = 1; k <= LIMIT; k++) {
        require(insert(k, k, k) == YK_ACCEPTED, "four live rows");
    }
    require(insert(5, 5, 5) == YK_ROWS_FULL && numbers_are(3, 2, 4, 4, 4, 4, 0), "a fifth live row");
}

/* Three rows of the largest count come, and go. */
static void pass_32_bits(void) {
    static const uint64_t units[7] = {0, 4294967295, 8589934590, 12884901885, 8589934590, 4294967295, 0};
    require(fresh(3, 2, LIMIT) == YK_ACCEPTED && units_are(0, 0) && difference_is(0, 0, 0), "no units yet");
    for (uint32_t k = 1; k <= 3; k++) {
        require(insert(k, k, UINT32_MAX) == YK_ACCEPTED && units_are(k, units[k]), "rows of the largest count");
    }
    for (uint32_t k = 4; k <= 6; k++) {
        require(delete_article(k, k - 3) == YK_ACCEPTED && units_are(k, units[k]), "and without them");
    }
    for (uint32_t k = 0; k <= 6; k++) {
        require(units_are(k, units[k]), "totals past 32 bits");
    }
    require(difference_is(3, 6, -12884901885) && difference_is(6, 3, 12884901885), "differences past 32 bits");
    require(difference_is(0, 3, 12884901885) && difference_is(3, 4, -4294967295), "and of one row");
    require(difference_is(1, 5, 0) && difference_is(0, 6, 0), "totals that come back");
}

int main(int many, char **arguments) {
    require(many == 2, "usage: worked_log LOG");
    memset(&lent, 0xA5, sizeof lent);
    compare_constants();
    build();
    compare_log(arguments[1]);
    compare_index();
    compare_positions();
    compare_net_changes();
    compare_units();
    keep_none();
    keep_one();
    keep_last();
    keep_several();
    damage();
    refuse_later_calls();
    refused_answers();
    const yk_entry past = lent.entries[FILES];
    require(past.time == 0xA5A5A5A5A5A5A5A5 && past.rows == 0xA5A5A5A5 && past.mark == 0xA5A5A5A5,
        "entries past the capacity stay");
    compare_index();
    delete_9();
    open_again();
    start_anew();
    no_requests();
    pass_32_bits();
    puts("worked log: ok");
    return 0;
}
