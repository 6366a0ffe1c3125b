/* The handle: each of its functions, and regions that are not lent. It reads as C99, C11 and C++17. */
#include <stdio.h>
#include <stdlib.h>
#include <string.h>

#include "yokefennel.h"

enum { LIMIT = 4, LOG = 24 + 24 * 9, INDEX = 8, FILES = 2 };

static uint8_t log_bytes[LOG], table[8 * LIMIT], areas[FILES * 8 * LIMIT], out[24 * LIMIT], work[16 * LIMIT];
static uint64_t index_words[INDEX];
static yk_entry entries[FILES];

static void require(int holds, const char *what) {
    if (!holds) {
        fprintf(stderr, "handle: %s\n", what);
        exit(1);
    }
}

static yk_store over(int with_files) {
    yk_store store;
    memset(&store, 0, sizeof store);
    store.log = log_bytes;
    store.log_length = LOG;
    store.index = index_words;
    store.index_length = INDEX;
    store.table = table;
    store.table_length = sizeof table;
    if (with_files) {
        store.entries = entries;
        store.entries_length = FILES;
        store.areas = areas;
        store.areas_length = sizeof areas;
    }
    return store;
}

/* 01's log by hand. */
static void build(yk_store *store) {
    require(yk_store_fresh(store, 3, 2, LIMIT) == YK_ACCEPTED && yk_store_log_bytes(store) == 24, "fresh");
    require(yk_store_insert(store, 10, 7, 50) == YK_ACCEPTED, "insert 7");
    require(yk_store_insert(store, 20, 3, 12) == YK_ACCEPTED, "insert 3");
    require(yk_store_update(store, 30, 7, 44) == YK_ACCEPTED, "update 7");
    require(yk_store_delete(store, 40, 3) == YK_ACCEPTED, "delete 3");
    require(yk_store_insert(store, 50, 9, 5) == YK_ACCEPTED, "insert 9");
    require(yk_store_update(store, 60, 9, 6) == YK_ACCEPTED, "update 9");
    require(store->numbers.records == 8 && store->numbers.last == 60 && store->numbers.live == 2, "numbers");
    require(yk_store_log_bytes(store) == 24 + 24 * 8 && yk_store_audit(store), "what to save");
}

static int row_is(yk_row row, uint32_t article, uint32_t count) {
    return row.article == article && row.count == count;
}

static int step_is(yk_step step, int kind, uint32_t article, uint32_t count) {
    return step.kind == kind && step.article == article && step.count == count;
}

static int units_are(const yk_store *store, uint64_t time, uint64_t units) {
    yk_units_answer answer = yk_store_units(store, time);
    return answer.question == YK_ACCEPTED && answer.units == units;
}

static int difference_is(const yk_store *store, uint64_t a, uint64_t b, int64_t units) {
    yk_units_between_answer answer = yk_store_units_between(store, a, b);
    return answer.question == YK_ACCEPTED && answer.units == units;
}

static void ask_units(const yk_store *store) {
    require(units_are(store, 10, 50) && units_are(store, 20, 62) && units_are(store, 30, 56), "units of 10, 20, 30");
    require(units_are(store, 40, 44) && units_are(store, 50, 49) && units_are(store, 60, 50), "units of 40, 50, 60");
    require(units_are(store, 0, 0) && units_are(store, 9, 0), "no units before the first");
    require(difference_is(store, 20, 45, -18) && difference_is(store, 45, 20, 18), "20 to 45 and back");
    require(difference_is(store, 45, 50, 5), "45 to 50");
    require(difference_is(store, 10, 60, 0), "10 to 60: the totals agree, the tables differ");
    require(units_are(store, 61, 50) && units_are(store, UINT64_MAX, 50), "units of late times: those of 60");
    require(difference_is(store, 61, 20, 12) && difference_is(store, 20, 61, -12), "61 to 20 and back");
    require(difference_is(store, 61, UINT64_MAX, 0) && difference_is(store, 0, UINT64_MAX, 50), "two late times, one");
}

/* The table of 60. */
static int last_rows_are(const uint8_t *rows) {
    return row_is(yk_row_at(rows, 0), 7, 44) && row_is(yk_row_at(rows, 1), 9, 6);
}

/* All fields of the answers to a time after the last: those of 60, which a file holds or else the current table. */
static void ask_late(const yk_store *store, uint64_t time, int kept) {
    yk_position_answer at = yk_store_position(store, time);
    require(at.question == YK_ACCEPTED && at.page == 3 && at.requests == 8, "position of a late time");
    yk_table_answer day = yk_store_table(store, time, out, sizeof out);
    require(day.question == YK_ACCEPTED && day.rows == 2 && day.later == !kept && day.requests_between == 0,
        "the table of a late time");
    require(last_rows_are(out), "its rows");
    yk_view_answer view = yk_store_view(store, time);
    yk_part part = yk_store_view_part(store, view);
    require(view.question == YK_ACCEPTED && view.place == (kept ? YK_AREA : YK_CURRENT) && view.area == 0
            && view.rows == 2 && view.later == !kept && view.requests_between == 0 && view.start == 0
            && view.length == 16,
        "view of a late time");
    require(part.bytes == (kept ? areas : table) && part.length == 16 && last_rows_are(part.bytes), "its part");
    yk_net_change_answer change = yk_store_net_change(store, 20, time, out, sizeof out, work, sizeof work);
    require(change.question == YK_ACCEPTED && change.entries == 4, "net change to a late time");
    require(step_is(yk_step_at(out, 0), YK_DELETION, 3, 12) && step_is(yk_step_at(out, 1), YK_DELETION, 7, 50)
            && step_is(yk_step_at(out, 2), YK_INSERTION, 7, 44) && step_is(yk_step_at(out, 3), YK_INSERTION, 9, 6),
        "its entries");
    change = yk_store_net_change(store, time, 61, out, sizeof out, work, sizeof work);
    require(change.question == YK_ACCEPTED && change.entries == 0, "net change from one late time to another");
    require(last_rows_are(work) && last_rows_are(work + 8 * LIMIT), "its workspace");
    require(yk_store_table(store, time, out, 8 * LIMIT - 1).question == YK_OUTPUT_SHORT, "a late time's output");
}

static void ask(const yk_store *store) {
    yk_table_answer day = yk_store_table(store, 20, out, sizeof out);
    require(day.question == YK_ACCEPTED && day.rows == 2, "the table of 20");
    require(row_is(yk_row_at(out, 0), 3, 12) && row_is(yk_row_at(out, 1), 7, 50), "its rows");
    yk_position_answer at = yk_store_position(store, 40);
    require(at.question == YK_ACCEPTED && at.page == 2 && at.requests == 5, "position");
    yk_net_change_answer change = yk_store_net_change(store, 20, 45, out, sizeof out, work, sizeof work);
    require(change.question == YK_ACCEPTED && change.entries == 3, "net change");
    require(step_is(yk_step_at(out, 0), YK_DELETION, 3, 12) && step_is(yk_step_at(out, 1), YK_DELETION, 7, 50)
            && step_is(yk_step_at(out, 2), YK_INSERTION, 7, 44),
        "its entries");
    ask_units(store);
    ask_late(store, 61, 0);
    ask_late(store, UINT64_MAX, 0);
    require(yk_store_table(store, 20, NULL, 32).question == YK_OUTPUT_SHORT, "no output");
    require(yk_store_net_change(store, 20, 45, NULL, 0, NULL, 0).question == YK_OUTPUT_SHORT, "no outputs");
}

static void count_files(yk_store *store) {
    require(yk_store_keep(store, 20, YK_PERMANENT) == YK_ACCEPTED && store->numbers.files == 1, "keep");
    yk_view_answer view = yk_store_view(store, 30);
    yk_part part = yk_store_view_part(store, view);
    require(view.place == YK_AREA && part.bytes == areas && part.length == 16, "view");
    require(view.later == 0 && view.requests_between == 2, "an update between");
    require(row_is(yk_row_at(part.bytes, 1), 7, 50), "a view's row");
    ask_units(store);
    require(yk_store_keep(store, 20, YK_FRIDAY) == YK_NOT_TO_KEEP && store->numbers.files == 1,
        "numbers of a refusal");
    require(yk_store_keep(store, 61, YK_FRIDAY) == YK_TIME_AFTER_LAST && store->numbers.files == 1,
        "keep a late time");
    require(yk_store_keep(store, UINT64_MAX, YK_SUNDAY) == YK_TIME_AFTER_LAST, "keep the latest");
    require(yk_store_drop(store, 20) == YK_ACCEPTED && store->numbers.files == 0, "drop");
    require(yk_store_keep(store, store->numbers.last, YK_SUNDAY) == YK_ACCEPTED, "keep the last time");
    ask_units(store);
    ask_late(store, 61, 1);
    ask_late(store, UINT64_MAX, 1);
    require(yk_store_drop(store, 60) == YK_ACCEPTED && store->numbers.files == 0, "drop it, whatever its mark");
}

static int entry_is(yk_entry entry, uint64_t time, uint32_t rows, uint32_t mark) {
    return entry.time == time && entry.rows == rows && entry.mark == mark;
}

/* The answer, and that the handle goes on with the number of files that are left. */
static int goes(yk_store *store, uint32_t mark, int question, uint32_t gone, uint32_t left) {
    uint32_t records = store->numbers.records;
    store->record = 1;
    yk_drop_marked_answer answer = yk_store_drop_marked(store, mark);
    return answer.question == question && answer.gone == gone && answer.numbers.files == left
        && store->numbers.files == left && store->numbers.records == records && store->record == 0;
}

static void marks(yk_store *store) {
    require(yk_store_keep(store, 40, YK_SUNDAY) == YK_ACCEPTED, "keep 40 until Sunday");
    require(yk_store_keep(store, 20, YK_FRIDAY) == YK_ACCEPTED, "keep 20 until Friday");
    require(entry_is(entries[0], 20, 2, 5) && entry_is(entries[1], 40, 1, 7), "a mark goes with its file");
    require(goes(store, YK_PERMANENT, YK_WRONG_MARK, 0, 2), "permanent files do not go so");
    /* the last ones are right in some of their bytes */
    static const uint32_t wrong[] = {6, 8, 0x105, 0x107, 0x10000, 0x10005, 0x05000000, 0x07000000, 0x80000007};
    for (size_t i = 0; i < sizeof wrong / sizeof wrong[0]; i++) {
        require(yk_store_keep(store, 30, wrong[i]) == YK_WRONG_MARK && store->numbers.files == 2, "no such mark");
        require(goes(store, wrong[i], YK_WRONG_MARK, 0, 2), "nor here");
    }
    require(goes(store, YK_FRIDAY, YK_ACCEPTED, 1, 1), "Friday's deletion");
    require(entry_is(entries[0], 40, 1, 7) && entry_is(entries[1], 0, 0, 0), "what stays moves down");
    require(row_is(yk_row_at(areas, 0), 7, 44), "its rows too");
    ask_units(store);
    require(goes(store, YK_FRIDAY, YK_ACCEPTED, 0, 1), "none is left for Friday");
    require(goes(store, YK_SUNDAY, YK_ACCEPTED, 1, 0) && yk_store_audit(store), "Sunday's deletion");
}

/* No request yet: every time is answered as time 0. */
static void no_requests(void) {
    static const uint64_t asked[3] = {0, 1, UINT64_MAX};
    yk_store store = over(1);
    require(yk_store_fresh(&store, 3, 2, LIMIT) == YK_ACCEPTED, "an empty store");
    for (int i = 0; i < 3; i++) {
        yk_position_answer at = yk_store_position(&store, asked[i]);
        require(at.question == YK_ACCEPTED && at.page == 0 && at.requests == 0, "its positions");
        yk_table_answer day = yk_store_table(&store, asked[i], out, sizeof out);
        require(day.question == YK_ACCEPTED && day.rows == 0 && day.later == 0 && day.requests_between == 0,
            "its tables");
        yk_view_answer view = yk_store_view(&store, asked[i]);
        require(view.question == YK_ACCEPTED && view.place == YK_EMPTY && view.area == 0 && view.rows == 0
                && view.later == 0 && view.requests_between == 0 && view.start == 0 && view.length == 0,
            "its views");
        require(units_are(&store, asked[i], 0), "its units");
        for (int k = 0; k < 3; k++) {
            yk_net_change_answer change
                = yk_store_net_change(&store, asked[i], asked[k], out, sizeof out, work, sizeof work);
            require(change.question == YK_ACCEPTED && change.entries == 0, "its net changes");
            require(difference_is(&store, asked[i], asked[k], 0), "its differences");
        }
    }
    require(yk_store_keep(&store, 0, YK_PERMANENT) == YK_NOT_TO_KEEP, "time 0 is not kept");
    require(yk_store_keep(&store, 1, YK_PERMANENT) == YK_TIME_AFTER_LAST, "nothing to keep");
    require(goes(&store, YK_FRIDAY, YK_ACCEPTED, 0, 0), "nothing to delete");
}

static void open_again(void) {
    yk_store store = over(1);
    require(yk_store_log_bytes(&store) == 0, "nothing to save before a start");
    require(yk_store_open(&store) == YK_ACCEPTED && store.numbers.records == 8, "open");
    require(yk_store_audit(&store) == 1, "audit of the opened store");
    log_bytes[24 + 24 * 4 + 20] ^= 1;
    require(yk_store_open(&store) == YK_WRONG_RECORD && store.record == 4, "the first wrong record");
    require(store.numbers.order == 0 && store.numbers.records == 0, "numbers of a refused opening");
    log_bytes[24 + 24 * 7] ^= 1;
    log_bytes[16] ^= 1;
    require(yk_store_open(&store) == YK_WRONG_RECORD && store.record == 4, "the first of two wrong records");
    log_bytes[24 + 24 * 7] ^= 1;
    log_bytes[24 + 24 * 4 + 20] ^= 1;
    require(yk_store_open(&store) == YK_WRONG_RECORD && store.record == 8, "only the last time wrong");
    log_bytes[16] ^= 1;
}

/* Null regions: as if of length 0, whatever length stands beside them. */
static void not_lent(void) {
    yk_store store = over(0);
    build(&store);
    ask(&store);
    require(yk_store_keep(&store, 20, YK_FRIDAY) == YK_CATALOGUE_FULL, "keep without areas");
    require(goes(&store, YK_FRIDAY, YK_ACCEPTED, 0, 0), "a marked deletion without areas");
    require(yk_store_view_part(&store, yk_store_view(&store, 0)).length == 0, "an empty view");
    memset(&store, 0, sizeof store);
    store.log_length = store.table_length = 1000;
    require(yk_store_fresh(&store, 3, 2, LIMIT) == YK_MEMORY, "fresh with nothing lent");
    require(yk_store_open(&store) == YK_HEADER, "open with nothing lent");
    require(yk_store_insert(&store, 1, 1, 1) == YK_HEADER && !yk_store_audit(&store), "no store");
    require(goes(&store, YK_FRIDAY, YK_HEADER, 0, 0) && goes(&store, 6, YK_HEADER, 0, 0), "no store, no files");
    require(yk_store_units(&store, 0).question == YK_HEADER, "no store, no units");
    require(yk_store_units_between(&store, 0, 0).question == YK_HEADER, "no store, no difference");
}

/* Three rows of the largest count come, and go. */
static void past_32_bits(void) {
    yk_store store = over(1);
    require(yk_store_fresh(&store, 3, 2, LIMIT) == YK_ACCEPTED, "fresh again");
    for (uint32_t k = 1; k <= 3; k++) {
        require(yk_store_insert(&store, k, k, UINT32_MAX) == YK_ACCEPTED, "insert the largest count");
    }
    require(yk_store_keep(&store, 3, YK_PERMANENT) == YK_ACCEPTED, "keep all three");
    for (uint32_t k = 1; k <= 3; k++) {
        require(yk_store_delete(&store, 3 + k, k) == YK_ACCEPTED, "delete it");
    }
    require(units_are(&store, 3, 12884901885) && units_are(&store, 6, 0), "units past 32 bits");
    require(difference_is(&store, 3, 6, -12884901885) && difference_is(&store, 6, 3, 12884901885),
        "differences past 32 bits");
}

/* As much as the lengths say, in one block. */
static void lengths(void) {
    static uint64_t block[1000];
    yk_lengths need = yk_lengths_for(3, 2, LIMIT, 8, 1);
    require(need.question == YK_ACCEPTED && need.log == 24 + 24 * 8 && need.index == 6 && need.entries == 1, "lengths");
    require(need.table == 8 * LIMIT && need.areas == 8 * LIMIT && need.out == 24 * LIMIT && need.work == 16 * LIMIT,
        "lengths of tables");
    require(yk_store_bytes(need) == need.log + 48 + need.table + 16 + need.areas, "bytes of a block");
    yk_store store = yk_store_in(block, need);
    build(&store);
    require(yk_store_keep(&store, 20, YK_FRIDAY) == YK_ACCEPTED && yk_store_audit(&store), "a store in a block");
    require(yk_store_keep(&store, 30, YK_FRIDAY) == YK_CATALOGUE_FULL, "a file more");
    store = yk_store_in(NULL, need);
    require(yk_store_fresh(&store, 3, 2, LIMIT) == YK_MEMORY, "no block");
    need = yk_lengths_for(3, 65, LIMIT, 8, 1);
    require(need.question == YK_PAGE_SIZE && need.log == 0 && yk_store_bytes(need) == 0, "no lengths");
}

int main(void) {
    yk_store store = over(1);
    build(&store);
    ask(&store);
    count_files(&store);
    marks(&store);
    open_again();
    not_lent();
    no_requests();
    past_32_bits();
    lengths();
    puts("handle: ok");
    return 0;
}
