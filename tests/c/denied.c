/* Memory and numbers that a stranger has written in, so that the audit denies them. Promised there are question 1, that a
 * refusal is by one of the call's own questions and changes nothing, and that no answer leads a reader past what was
 * written: a table has at most as many rows as the limit, a net change twice as many entries, and a view no more rows than
 * its part. It reads as C99, C11 and C++17. */
#define NAME "denied"
#include "large_store.h"

enum { ROUNDS = 1500 };

static yk_store store;
static yk_numbers given; /* the numbers before a call */
static uint8_t *block, *before, out[OUT], work[WORK];
static size_t block_bytes;
static int fits; /* whether question 1 is to be answered yes */

static uint64_t below(uint64_t end) {
    return drawn() % end;
}

static void put(uint8_t *to, uint64_t number, int bytes) {
    for (int i = 0; i < bytes; i++) {
        to[i] = (uint8_t)(number >> (8 * i));
    }
}

/* Numbers and header agree. All else that question 1 asks holds of every number drawn here. */
static int question_1(void) {
    uint8_t header[24];
    put(header, 24, 2);
    put(header + 2, 1, 2);
    put(header + 4, store.numbers.order, 2);
    put(header + 6, store.numbers.page, 2);
    put(header + 8, store.numbers.limit, 4);
    put(header + 12, store.numbers.records, 4);
    put(header + 16, store.numbers.last, 8);
    return memcmp(store.log, header, 24) == 0 && store.numbers.live <= store.numbers.limit;
}

/* ---- damage */

static void damage_entry(void) {
    static const uint32_t counts[6] = {0, 1, LIMIT, LIMIT + 1, 65536, UINT32_MAX};
    yk_entry *entry = store.entries + below(FILES);
    switch (below(3)) {
    case 0: entry->rows = counts[below(6)]; break;
    case 1: entry->time = asked(); break;
    default: entry->mark = (uint32_t)drawn(); break;
    }
}

/* Numbers and the header that has them too. */
static void other_numbers(void) {
    switch (below(5)) {
    case 0: store.numbers.live = (uint32_t)below(store.numbers.limit + 1); break;
    case 1: store.numbers.files = (uint32_t)below(FILES + 1); break;
    case 2:
        store.numbers.limit = 1 + (uint32_t)below(LIMIT);
        put(store.log + 8, store.numbers.limit, 4);
        break;
    case 3:
        store.numbers.records = 1 + (uint32_t)below(RECORDS);
        put(store.log + 12, store.numbers.records, 4);
        break;
    default:
        store.numbers.last = asked();
        put(store.log + 16, store.numbers.last, 8);
        break;
    }
}

static void damage(void) {
    switch (below(8)) {
    case 0: store.log[24 + below(24 * RECORDS)] ^= (uint8_t)(1 + below(255)); break;
    case 1: store.index[below(store.index_length)] = drawn(); break;
    case 2: store.table[below(TABLE)] ^= (uint8_t)(1 + below(255)); break;
    case 3: store.areas[below(store.areas_length)] ^= (uint8_t)(1 + below(255)); break;
    case 4: case 5: damage_entry(); break;
    case 6: other_numbers(); break;
    default: store.log[below(24)] ^= (uint8_t)(below(4) == 0); break;
    }
}

/* ---- what is promised */

static int same_numbers(yk_numbers a, yk_numbers b) {
    return a.order == b.order && a.page == b.page && a.limit == b.limit && a.records == b.records && a.last == b.last
        && a.live == b.live && a.files == b.files;
}

/* A refusal by 1 exactly where question 1 says no, else by one of the others, ended by 0. Nothing has changed then. */
static void refused(int question, const int *others, const char *what) {
    require((question == YK_HEADER) == !fits, "question 1");
    if (question == YK_ACCEPTED) {
        return;
    }
    while (fits && *others != 0 && *others != question) {
        others++;
    }
    if (fits && *others == 0) {
        fprintf(stderr, "denied: %s is refused by %d\n", what, question);
        exit(1);
    }
    require(same_numbers(store.numbers, given), "a refusal changes no number");
    require(memcmp(block, before, block_bytes) == 0, "a refusal changes no memory");
}

static void at_most(uint64_t got, uint64_t most, const char *what) {
    if (got > most) {
        fprintf(stderr, "denied: %s: %llu, at most %llu\n", what, (unsigned long long)got, (unsigned long long)most);
        exit(1);
    }
}

static const int NONE[] = {0}, OF_OUTPUT[] = {13, 0};

static void queries(uint64_t a, uint64_t b) {
    uint32_t limit = store.numbers.limit;
    yk_table_answer table = yk_store_table(&store, a, out, OUT);
    refused(table.question, OF_OUTPUT, "a table");
    at_most(table.rows, limit, "rows of a table");
    yk_net_change_answer change = yk_store_net_change(&store, a, b, out, OUT, work, WORK);
    refused(change.question, OF_OUTPUT, "a net change");
    at_most(change.entries, 2 * (uint64_t)limit, "entries of a net change");
    yk_view_answer view = yk_store_view(&store, a);
    refused(view.question, NONE, "a view");
    yk_part part = yk_store_view_part(&store, view);
    int in_area = view.place == YK_AREA;
    at_most((uint64_t)(part.bytes - (in_area ? store.areas : store.table)) + part.length,
        in_area ? store.areas_length : store.table_length, "the end of a view");
    at_most(8 * (uint64_t)view.rows, part.length, "bytes of a view's rows");
    refused(yk_store_position(&store, a).question, NONE, "a position");
    refused(yk_store_units(&store, a).question, NONE, "units");
    refused(yk_store_units_between(&store, a, b).question, NONE, "units between");
    require(memcmp(block, before, block_bytes) == 0, "a query changes no memory");
}

/* One call that may change the store, from the damaged state. */
static void change(uint64_t a) {
    static const int of_insert[] = {6, 7, 9, 10, 11, 0}, of_others[] = {6, 8, 10, 11, 0};
    static const int of_keep[] = {12, 18, 14, 15, 0}, of_drop[] = {16, 0}, of_mark[] = {18, 0};
    static const uint32_t marks[4] = {YK_PERMANENT, YK_FRIDAY, YK_SUNDAY, 6};
    uint64_t next = store.numbers.last + 1;
    uint32_t article = live.many == 0 ? 7 : live.row[below(live.many)].article;
    switch (below(6)) {
    case 0: refused(yk_store_insert(&store, next, article + 1, 50), of_insert, "insert"); break;
    case 1: refused(yk_store_delete(&store, next, article), of_others, "delete"); break;
    case 2: refused(yk_store_update(&store, next, article, 50), of_others, "update"); break;
    case 3: refused(yk_store_keep(&store, a, marks[below(4)]), of_keep, "keep"); break;
    case 4: refused(yk_store_drop(&store, store.entries[below(FILES)].time), of_drop, "drop"); break;
    default: refused(yk_store_drop_marked(&store, marks[below(4)]).question, of_mark, "drop by mark"); break;
    }
}

int main(void) {
    int denied = 0;
    store = large_store();
    for (uint32_t i = 1; i <= 12; i++) {
        require(yk_store_keep(&store, requests[400 * i].time, i % 3 == 0 ? YK_FRIDAY : YK_SUNDAY) == YK_ACCEPTED,
            "keep");
    }
    /* all regions lie in one block, which begins with the index */
    block = (uint8_t *)store.index;
    block_bytes = (size_t)(store.areas + store.areas_length - block);
    before = (uint8_t *)malloc(block_bytes);
    uint8_t *start = (uint8_t *)malloc(block_bytes);
    require(before != NULL && start != NULL, "malloc");
    memcpy(start, block, block_bytes);
    yk_numbers numbers = store.numbers;
    for (int round = 0; round < ROUNDS; round++) {
        memcpy(block, start, block_bytes);
        store.numbers = numbers;
        for (uint64_t more = below(3) + 1; more > 0; more--) {
            damage();
        }
        memcpy(before, block, block_bytes);
        given = store.numbers;
        fits = question_1();
        denied += !yk_store_audit(&store);
        queries(asked(), asked());
        queries(store.entries[below(FILES)].time, asked());
        change(asked());
    }
    require(denied > ROUNDS / 2, "most of these stores are denied");
    printf("denied: %d stores, ok\n", denied);
    free(before);
    free(start);
    return 0;
}
