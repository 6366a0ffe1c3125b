/* A restart: the log saved to a file, and the file, whole, cut or empty, read into memory that held a log before. What was
 * read is opened and nothing behind it, and the store then has all of its memory. It reads as C99, C11 and C++17. */
#define NAME "restart"
#include "large_store.h"

/* Records of a second, shorter log. */
enum { FEW = 40 };

static uint8_t *block;
static size_t block_bytes;

/* A file with these bytes is read into the log of a store; what lies behind them stays. Answers how many were read. */
static size_t read_back(yk_store *store, const uint8_t *bytes, size_t many) {
    FILE *file = tmpfile();
    require(file != NULL && fwrite(bytes, 1, many, file) == many, "a file with the saved bytes");
    rewind(file);
    size_t got = fread(store->log, 1, store->log_length, file);
    require(got == many && !ferror(file) && fclose(file) == 0, "the file read back");
    return got;
}

/* Refused, with no number and no byte changed since the file was read. */
static void refused(yk_store *store, size_t got, int question, const char *what) {
    uint8_t *before = (uint8_t *)malloc(block_bytes);
    require(before != NULL, "malloc");
    memcpy(before, block, block_bytes);
    require((int)yk_store_open_bytes(store, got) == question, what);
    require(store->numbers.order == 0 && store->numbers.records == 0 && yk_store_log_bytes(store) == 0, "no store");
    require(memcmp(before, block, block_bytes) == 0, "a refused opening changes nothing");
    free(before);
}

/* A file cut anywhere, in memory that holds the whole log: it must not be taken up. */
static void cut(yk_store *store, const uint8_t *saved, size_t length) {
    for (size_t got = 0; got < length; got = got < 100 ? got + 1 : got + 1 + drawn() % 1999) {
        memcpy(store->log, saved, length);
        int question = got < 24 ? YK_HEADER : YK_MEMORY;
        refused(store, read_back(store, saved, got), question, "a file that was cut");
        /* why the bytes must be told: all of the log is the old one, whole */
        require(yk_store_open(store) == YK_ACCEPTED, "the log that the memory held before");
    }
    refused(store, read_back(store, saved, length - 1), YK_MEMORY, "a file without its last byte");
}

/* The whole file; then the store has all of its log for appends. */
static void whole(yk_store *store, const uint8_t *saved, size_t length) {
    memset(store->log, 0xA5, store->log_length);
    require(yk_store_open_bytes(store, read_back(store, saved, length)) == YK_ACCEPTED, "the whole file");
    require(store->numbers.records == RECORDS && yk_store_audit(store) == 1, "the opened store");
    uint64_t next = store->numbers.last + 1;
    require(yk_store_update(store, next, live.row[5].article, 9) == YK_ACCEPTED, "space behind the file");
    require(yk_store_log_bytes(store) == length + 48 && yk_store_audit(store) == 1, "two records more");
    require(yk_store_delete(store, next + 1, live.row[5].article) == YK_LOG_FULL, "the end of the log");
}

/* A short log in memory that held a long one: its own records, and space for more where the others were. */
static void shorter(yk_store *store, const uint8_t *saved, size_t length) {
    static uint8_t few[24 + 24 * FEW];
    memcpy(few, saved, sizeof few);
    few[12] = FEW;
    few[13] = 0;
    memcpy(few + 16, few + 24 * FEW + 8, 8);
    memcpy(store->log, saved, length);
    refused(store, read_back(store, few, sizeof few - 1), YK_MEMORY, "a short log that was cut");
    memcpy(store->log, saved, length);
    require(yk_store_open_bytes(store, read_back(store, few, sizeof few)) == YK_ACCEPTED, "a short log");
    require(store->numbers.records == FEW && store->numbers.last == requests[FEW - 1].time, "its numbers");
    for (uint64_t i = 1; i <= 200; i++) {
        require(yk_store_update(store, store->numbers.last + i, requests[i % FEW].article, (uint32_t)i) == YK_ACCEPTED,
            "an update behind it");
    }
    require(store->numbers.records == FEW + 400 && yk_store_audit(store) == 1, "400 records more");
}

int main(void) {
    static uint8_t saved[24 + 24 * RECORDS];
    yk_store store = large_store();
    size_t length = yk_store_log_bytes(&store);
    require(length == sizeof saved, "what to save");
    memcpy(saved, store.log, length);
    /* all regions lie in one block, which begins with the index */
    block = (uint8_t *)store.index;
    block_bytes = (size_t)(store.areas + store.areas_length - block);
    cut(&store, saved, length);
    whole(&store, saved, length);
    shorter(&store, saved, length);
    memcpy(store.log, saved, length);
    require(yk_store_open_bytes(&store, SIZE_MAX) == YK_ACCEPTED, "more than are lent count as all");
    store.log = NULL;
    require(yk_store_open_bytes(&store, length) == YK_HEADER, "no log lent");
    puts("restart: ok");
    return 0;
}
