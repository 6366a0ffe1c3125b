/* A large store through the handle and its readers: the log byte by byte, tables, views, units and net changes of over
 * 300 entries row by row, count files, and the saved log opened again; then the most records there are. It reads as C99,
 * C11 and C++17. */
#define NAME "large"
#include "large_store.h"

enum { TIMES = 60 };

static uint8_t out[OUT], work[WORK];
static rows right, other;

/* A number, little-endian, at the end of bytes that are written one after another. */
static uint8_t *put(uint8_t *to, uint64_t number, int bytes) {
    for (int i = 0; i < bytes; i++) {
        *to++ = (uint8_t)(number >> (8 * i));
    }
    return to;
}

/* 01, "Log bytes": header and records. */
static void written_log(const yk_store *store) {
    static uint8_t wanted[24 + 24 * RECORDS];
    uint8_t *to = put(put(put(put(wanted, 24, 2), 1, 2), ORDER, 2), PAGE, 2);
    to = put(put(put(to, LIMIT, 4), RECORDS, 4), requests[RECORDS - 1].time, 8);
    for (uint32_t k = 0; k < RECORDS; k++) {
        to = put(put(put(to, 24, 2), requests[k].kind, 2), k, 4);
        to = put(put(put(to, requests[k].time, 8), requests[k].article, 4), requests[k].count, 4);
    }
    require(to == wanted + sizeof wanted && yk_store_log_bytes(store) == sizeof wanted, "how long the log is");
    require(memcmp(store->log, wanted, sizeof wanted) == 0, "the log");
}

/* Table, position and units of a time; the call under the handle writes the same. */
static void table(const yk_store *store, uint64_t time) {
    static uint8_t again[TABLE];
    uint32_t before = table_of(time, &right);
    yk_table_answer answer = yk_store_table(store, time, out, OUT);
    require(answer.question == YK_ACCEPTED && answer.rows == right.many, "how many rows a table has");
    require(rows_are(out, &right) && zeros(out, 8 * (size_t)right.many, TABLE), "the rows of a table");
    yk_table_answer under = yk_table(store->numbers, YK_LENT(*store), time, again, TABLE);
    require(under.rows == answer.rows && under.later == answer.later
            && under.requests_between == answer.requests_between && memcmp(out, again, TABLE) == 0,
        "the same table by yk_table");
    yk_position_answer position = yk_store_position(store, time);
    require(position.question == YK_ACCEPTED && position.requests == before, "requests of a position");
    require(position.page == (before == 0 ? 0 : (before - 1) / PAGE), "page of a position");
    yk_units_answer units = yk_store_units(store, time);
    require(units.question == YK_ACCEPTED && units.units == units_of(&right), "units");
}

/* The rows of a view are the table of the time that it is worked out from. */
static void view(const yk_store *store, uint64_t time) {
    yk_view_answer answer = yk_store_view(store, time);
    yk_part part = yk_store_view_part(store, answer);
    uint64_t from = 0;
    if (answer.place == YK_AREA) {
        require(answer.area < store->numbers.files, "the area of a view");
        from = store->entries[answer.area].time;
        require(part.bytes == store->areas + (size_t)TABLE * answer.area, "where a view begins");
    } else if (answer.place == YK_CURRENT) {
        from = store->numbers.last;
        require(part.bytes == store->table, "where a view of the current table begins");
    }
    uint32_t held = table_of(from, &right), here = table_of(time, &other);
    table_of(from, &right);
    require(answer.question == YK_ACCEPTED && answer.rows == right.many && part.length == 8 * (size_t)right.many,
        "how many rows a view has");
    require(answer.requests_between == (answer.later ? held - here : here - held), "requests between");
    require(rows_are(part.bytes, &right), "the rows of a view");
}

static int step_is(yk_step step, int kind, yk_row row) {
    return step.kind == kind && step.article == row.article && step.count == row.count;
}

/* Both tables in turn by article: a row of the first that the second lacks is deleted, one of the second inserted. */
static uint32_t entries_between(const rows *a, const rows *b) {
    uint32_t i = 0, k = 0, entry = 0;
    while (i < a->many || k < b->many) {
        int first = i < a->many && (k == b->many || a->row[i].article <= b->row[k].article);
        int second = k < b->many && (i == a->many || b->row[k].article <= a->row[i].article);
        if (!(first && second && a->row[i].count == b->row[k].count)) {
            require(!first || step_is(yk_step_at(out, entry++), YK_DELETION, a->row[i]), "a deletion");
            require(!second || step_is(yk_step_at(out, entry++), YK_INSERTION, b->row[k]), "an insertion");
        }
        i += (uint32_t)first;
        k += (uint32_t)second;
    }
    return entry;
}

/* Answers how many entries there are. */
static uint32_t net_change(const yk_store *store, uint64_t a, uint64_t b) {
    yk_net_change_answer answer = yk_store_net_change(store, a, b, out, OUT, work, WORK);
    table_of(a, &right);
    table_of(b, &other);
    require(answer.question == YK_ACCEPTED && answer.entries == entries_between(&right, &other), "its entries");
    require(zeros(out, 12 * (size_t)answer.entries, OUT), "zeros behind a net change");
    require(rows_are(work, &right) && rows_are(work + TABLE, &other), "both tables in the workspace");
    yk_units_between_answer units = yk_store_units_between(store, a, b);
    require(units.question == YK_ACCEPTED && units.units == (int64_t)units_of(&other) - (int64_t)units_of(&right),
        "units between");
    return answer.entries;
}

static void ask(const yk_store *store) {
    uint32_t long_ones = 0, most = 0;
    for (int i = 0; i < TIMES; i++) {
        uint64_t a = asked(), b = asked();
        table(store, a);
        view(store, a);
        uint32_t entries = net_change(store, a, b);
        long_ones += entries > 300;
        most = entries > most ? entries : most;
    }
    require(long_ones > TIMES / 2 && most > 1000, "net changes of over 300 entries, some of over 1,000");
    require(net_change(store, 0, UINT64_MAX) == live.many, "all rows are new");
    require(net_change(store, UINT64_MAX, requests[LIMIT].time) > 300, "a net change back");
}

/* Sixteen files, their times spread over the log and kept in no order. */
static void count_files(yk_store *store) {
    static const uint32_t marks[3] = {YK_PERMANENT, YK_FRIDAY, YK_SUNDAY};
    uint32_t gone = 0;
    for (uint32_t i = 0; i < FILES; i++) {
        uint32_t file = 5 * i % FILES;
        uint64_t time = requests[(file + 1) * (RECORDS / (FILES + 1))].time;
        require(yk_store_keep(store, time, marks[file % 3]) == YK_ACCEPTED, "keep");
    }
    require(yk_store_keep(store, 1, YK_FRIDAY) == YK_CATALOGUE_FULL, "a seventeenth file");
    for (uint32_t i = 0; i < FILES; i++) {
        yk_entry entry = store->entries[i];
        table_of(entry.time, &right);
        require(entry.time == requests[(i + 1) * (RECORDS / (FILES + 1))].time && entry.mark == marks[i % 3],
            "time and mark of a file");
        const uint8_t *area = store->areas + (size_t)TABLE * i;
        require(entry.rows == right.many && rows_are(area, &right), "the rows of a file");
        require(zeros(area, 8 * (size_t)right.many, TABLE), "zeros behind a file");
        gone += marks[i % 3] == YK_FRIDAY;
    }
    require(yk_store_audit(store) == 1, "audit with sixteen files");
    ask(store);
    yk_drop_marked_answer went = yk_store_drop_marked(store, YK_FRIDAY);
    require(went.question == YK_ACCEPTED && went.gone == gone && store->numbers.files == FILES - gone, "Friday");
    require(yk_store_drop(store, store->entries[3].time) == YK_ACCEPTED, "drop");
    require(store->numbers.files == FILES - gone - 1 && yk_store_audit(store) == 1, "what is left");
    ask(store);
}

static void opened_again(const yk_store *store) {
    yk_store opened = large_memory();
    size_t saved = yk_store_log_bytes(store);
    memcpy(opened.log, store->log, saved);
    require(yk_store_open_bytes(&opened, saved) == YK_ACCEPTED && yk_store_audit(&opened) == 1, "open");
    require(opened.numbers.records == RECORDS && opened.numbers.last == store->numbers.last
            && opened.numbers.live == live.many && opened.numbers.files == 0,
        "numbers of the opened store");
    require(memcmp(opened.table, store->table, TABLE) == 0, "its table");
    require(memcmp(opened.index, store->index, 8 * store->index_length) == 0, "its index");
    ask(&opened);
}

/* An article comes and goes until no record fits; the bytes to save are counted all the way. */
static void most_records(void) {
    yk_lengths need = yk_lengths_for(64, 64, 1, 65536, 0);
    void *block = malloc(yk_store_bytes(need));
    require(block != NULL && need.log == 24 + 24 * (size_t)65536, "memory for the most records");
    yk_store store = yk_store_in(block, need);
    require(yk_store_fresh(&store, 64, 64, 1) == YK_ACCEPTED, "fresh for the most records");
    for (uint32_t k = 0; k < 65536; k++) {
        enum yk_question no = k % 2 == 0 ? yk_store_insert(&store, k + 1, 7, k) : yk_store_delete(&store, k + 1, 7);
        require(no == YK_ACCEPTED && store.numbers.records == k + 1, "a record more");
        require(yk_store_log_bytes(&store) == 24 + 24 * ((size_t)k + 1), "bytes to save of the most records");
    }
    require(yk_store_insert(&store, 65537, 7, 1) == YK_LOG_FULL && store.numbers.records == 65536, "no record more");
    yk_position_answer position = yk_store_position(&store, UINT64_MAX);
    require(position.requests == 65536 && position.page == 1023, "the position of the last record");
    require(yk_store_units(&store, 65535).units == 65534, "units before the last record");
    size_t saved = yk_store_log_bytes(&store);
    require(yk_store_open_bytes(&store, saved - 1) == YK_MEMORY, "the most records but a byte");
    require(yk_store_open_bytes(&store, saved) == YK_ACCEPTED && yk_store_audit(&store) == 1, "the most records opened");
    free(block);
}

int main(void) {
    yk_store store = large_store();
    written_log(&store);
    require(yk_store_audit(&store) == 1 && rows_are(store.table, &live), "the current table");
    ask(&store);
    count_files(&store);
    opened_again(&store);
    most_records();
    puts("large: ok");
    return 0;
}
