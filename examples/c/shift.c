/* A week with a handheld counter: shifts of counting, a past day's table and its units, Friday's deletions, the
 * table by the clock, what a wholesaler gets, the count files that go on Friday, and the log written to a file and
 * opened again. The argument is the file to write.
 *
 *     gcc -std=c99 -Iinclude examples/c/shift.c target/staticlib/libembed.a -o shift && ./shift week.log */
#include <stdio.h>
#include <stdlib.h>

#include "yokefennel.h"

/* The maker's choice: settings, and how much the store is to hold. */
enum { ORDER = 8, PAGE = 16, LIMIT = 100, RECORDS = 1000, FILES = 2 };

static void *allocate(size_t bytes) {
    void *block = malloc(bytes);
    if (block == NULL) {
        perror("malloc");
        exit(1);
    }
    return block;
}

/* This maker's unit of time is the minute; Monday is day 1. */
static uint64_t at(int day, int hour, int minute) {
    return (uint64_t)(day * 24 + hour) * 60 + (uint64_t)minute;
}

enum { MONDAY = 1, TUESDAY, WEDNESDAY, THURSDAY, FRIDAY };

static void must(enum yk_question question) {
    if (question != YK_ACCEPTED) {
        fprintf(stderr, "refused by %d: %s\n", question, yk_question_text(question));
        exit(1);
    }
}

static void count_the_week(yk_store *store) {
    must(yk_store_insert(store, at(MONDAY, 8, 5), 4711, 20));
    must(yk_store_insert(store, at(MONDAY, 8, 9), 4712, 12));
    must(yk_store_insert(store, at(MONDAY, 8, 20), 4650, 7));
    must(yk_store_update(store, at(TUESDAY, 9, 0), 4711, 15));
    must(yk_store_update(store, at(WEDNESDAY, 9, 30), 4650, 4));
    must(yk_store_insert(store, at(THURSDAY, 10, 0), 4800, 30));
    must(yk_store_update(store, at(THURSDAY, 16, 45), 4711, 9));
}

/* What is no longer sold leaves on Friday. Thursday's last table is asked for often until the wholesaler has it,
 * so it is kept before, to go on Friday too; Tuesday's is asked for all year, and stays. */
static void friday(yk_store *store) {
    must(yk_store_keep(store, at(TUESDAY, 9, 0), YK_PERMANENT));
    must(yk_store_keep(store, at(THURSDAY, 16, 45), YK_FRIDAY));
    must(yk_store_delete(store, at(FRIDAY, 8, 0), 4712));
    must(yk_store_delete(store, at(FRIDAY, 8, 1), 4650));
    must(yk_store_insert(store, at(FRIDAY, 8, 30), 4900, 10));
}

static void print_table(const yk_store *store, const char *name, uint64_t time, uint8_t *out, yk_lengths need) {
    yk_table_answer answer = yk_store_table(store, time, out, need.out);
    must((enum yk_question)answer.question);
    printf("%s: %u articles\n", name, (unsigned)answer.rows);
    for (uint32_t i = 0; i < answer.rows; i++) {
        yk_row row = yk_row_at(out, i);
        printf("  %u: %u\n", (unsigned)row.article, (unsigned)row.count);
    }
    yk_units_answer sum = yk_store_units(store, time);
    must((enum yk_question)sum.question);
    printf("  %llu units\n", (unsigned long long)sum.units);
}

static void print_net_change(const yk_store *store, const char *name, uint64_t from, uint64_t to, uint8_t *out,
    uint8_t *work, yk_lengths need) {
    yk_net_change_answer answer = yk_store_net_change(store, from, to, out, need.out, work, need.work);
    must((enum yk_question)answer.question);
    yk_units_between_answer more = yk_store_units_between(store, from, to);
    must((enum yk_question)more.question);
    printf("%s: %u entries, %+lld units\n", name, (unsigned)answer.entries, (long long)more.units);
    for (uint32_t i = 0; i < answer.entries; i++) {
        yk_step step = yk_step_at(out, i);
        printf("  %s %u: %u\n", step.kind == YK_DELETION ? "delete" : "insert", (unsigned)step.article,
            (unsigned)step.count);
    }
}

static void save(const yk_store *store, const char *name) {
    size_t length = yk_store_log_bytes(store);
    FILE *file = fopen(name, "wb");
    if (file == NULL || fwrite(store->log, 1, length, file) != length || fclose(file) != 0) {
        perror(name);
        exit(1);
    }
    printf("saved %u bytes\n", (unsigned)length);
}

/* How many bytes were read: a file may have been cut, or be empty. */
static size_t load(uint8_t *log, size_t length, const char *name) {
    FILE *file = fopen(name, "rb");
    size_t bytes = file == NULL ? 0 : fread(log, 1, length, file);
    if (file == NULL || ferror(file) || fclose(file) != 0) {
        perror(name);
        exit(1);
    }
    return bytes;
}

int main(int many, char **arguments) {
    if (many != 2) {
        fprintf(stderr, "usage: shift FILE\n");
        return 2;
    }
    yk_lengths need = yk_lengths_for(ORDER, PAGE, LIMIT, RECORDS, FILES);
    must((enum yk_question)need.question);
    uint8_t *out = (uint8_t *)allocate(need.out), *work = (uint8_t *)allocate(need.work);
    void *block = allocate(yk_store_bytes(need));
    yk_store store = yk_store_in(block, need);
    must(yk_store_fresh(&store, ORDER, PAGE, LIMIT));
    count_the_week(&store);
    print_table(&store, "Tuesday evening", at(TUESDAY, 18, 0), out, need);
    friday(&store);
    /* The clock has gone on since the last request: such a time is answered as that of the last request. */
    uint64_t now = at(FRIDAY, 8, 45);
    print_table(&store, "now", now, out, need);
    print_net_change(&store, "Thursday to Friday", at(THURSDAY, 16, 45), now, out, work, need);
    yk_drop_marked_answer went = yk_store_drop_marked(&store, YK_FRIDAY);
    must((enum yk_question)went.question);
    printf("count files: %u went on Friday, %u left\n", (unsigned)went.gone, (unsigned)store.numbers.files);

    enum yk_question no = yk_store_insert(&store, at(FRIDAY, 9, 0), 4711, 8);
    printf("inserting 4711 is refused by %d: %s\n", no, yk_question_text(no));

    save(&store, arguments[1]);
    /* The memory still holds the log: as many bytes as were read are opened, and not what lies behind them. */
    yk_store opened = yk_store_in(block, need);
    must(yk_store_open_bytes(&opened, load(opened.log, opened.log_length, arguments[1])));
    printf("opened %u records, audit says %s\n", (unsigned)opened.numbers.records,
        yk_store_audit(&opened) ? "yes" : "no");
    must(yk_store_update(&opened, at(FRIDAY, 9, 0), 4711, 8));
    print_table(&opened, "Tuesday evening, from the file", at(TUESDAY, 18, 0), out, need);

    free(block);
    free(work);
    free(out);
    return 0;
}
