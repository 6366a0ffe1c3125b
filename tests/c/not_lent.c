/* Each region by itself not lent to the handle: null with a length beside it, null with none, and not null with none. The
 * three are alike to every call, a region that no call needs then is not missed, and a refusal changes nothing. It reads
 * as C99, C11 and C++17. */
#define NAME "not lent"
#include "large_store.h"

enum region { LOG_REGION, INDEX_REGION, TABLE_REGION, ENTRIES_REGION, AREAS_REGION, REGIONS };
enum way { NULL_WITH_LENGTH, NULL_WITHOUT, LENGTH_0, WAYS };
enum call { FRESH, OPEN, INSERT, DELETE, UPDATE, POSITION, TABLE_OF, VIEW, NET_CHANGE, UNITS, BETWEEN, KEEP, DROP,
    DROP_MARKED, AUDIT, CALLS };

static const char *const REGION_NAMES[REGIONS] = {"log", "index", "table", "entries", "areas"};
static const char *const CALL_NAMES[CALLS] = {"fresh", "open", "insert", "delete", "update", "position", "table", "view",
    "net change", "units", "units between", "keep", "drop", "drop by mark", "audit"};

/* What each call answers without a region: 01's number, for the audit yes or no. With no file held the catalogue is only
 * missed by a keep. */
static const int NO_FILES[REGIONS][CALLS] = {
    {5, 1, 1, 1, 1, 1, 1, 1, 1, 1, 1, 1, 1, 1, 0},
    {0, 5, 1, 1, 1, 1, 1, 1, 1, 1, 1, 1, 1, 1, 0},
    {5, 5, 1, 1, 1, 1, 1, 1, 1, 1, 1, 1, 1, 1, 0},
    {0, 0, 0, 0, 0, 0, 0, 0, 0, 0, 0, 15, 16, 0, 1},
    {0, 0, 0, 0, 0, 0, 0, 0, 0, 0, 0, 15, 16, 0, 1},
};
static const int TWO_FILES[REGIONS][CALLS] = {
    {5, 1, 1, 1, 1, 1, 1, 1, 1, 1, 1, 1, 1, 1, 0},
    {0, 5, 1, 1, 1, 1, 1, 1, 1, 1, 1, 1, 1, 1, 0},
    {5, 5, 1, 1, 1, 1, 1, 1, 1, 1, 1, 1, 1, 1, 0},
    {0, 0, 1, 1, 1, 1, 1, 1, 1, 1, 1, 1, 1, 1, 0},
    {0, 0, 1, 1, 1, 1, 1, 1, 1, 1, 1, 1, 1, 1, 0},
};

static uint8_t out[OUT], work[WORK];

static yk_store without(yk_store store, enum region region, enum way way) {
    int null = way != LENGTH_0, length = way == NULL_WITH_LENGTH;
    switch (region) {
    case LOG_REGION:
        store.log = null ? NULL : store.log;
        store.log_length = length ? store.log_length : 0;
        break;
    case INDEX_REGION:
        store.index = null ? NULL : store.index;
        store.index_length = length ? store.index_length : 0;
        break;
    case TABLE_REGION:
        store.table = null ? NULL : store.table;
        store.table_length = length ? store.table_length : 0;
        break;
    case ENTRIES_REGION:
        store.entries = null ? NULL : store.entries;
        store.entries_length = length ? store.entries_length : 0;
        break;
    default:
        store.areas = null ? NULL : store.areas;
        store.areas_length = length ? store.areas_length : 0;
        break;
    }
    return store;
}

static int answer(yk_store *store, enum call call) {
    uint64_t next = requests[RECORDS - 1].time + 1, middle = requests[RECORDS / 2].time;
    uint32_t present = live.row[live.many / 2].article;
    switch (call) {
    case FRESH: return yk_store_fresh(store, ORDER, PAGE, LIMIT);
    case OPEN: return yk_store_open(store);
    case INSERT: return yk_store_insert(store, next, 7, 50);
    case DELETE: return yk_store_delete(store, next, present);
    case UPDATE: return yk_store_update(store, next, present, 50);
    case POSITION: return yk_store_position(store, middle).question;
    case TABLE_OF: return yk_store_table(store, middle, out, OUT).question;
    case VIEW: return yk_store_view(store, middle).question;
    case NET_CHANGE: return yk_store_net_change(store, middle, next, out, OUT, work, WORK).question;
    case UNITS: return yk_store_units(store, middle).question;
    case BETWEEN: return yk_store_units_between(store, middle, next).question;
    case KEEP: return yk_store_keep(store, middle, YK_FRIDAY);
    case DROP: return yk_store_drop(store, middle);
    case DROP_MARKED: return yk_store_drop_marked(store, YK_SUNDAY).question;
    default: return yk_store_audit(store);
    }
}

/* Every call without every region in every way. All regions lie in one block that begins with the index. */
static void compare(const yk_store *store, const int wanted[REGIONS][CALLS]) {
    size_t bytes = (size_t)(store->areas + store->areas_length - (uint8_t *)store->index);
    uint8_t *before = (uint8_t *)malloc(bytes);
    require(before != NULL, "malloc");
    memcpy(before, store->index, bytes);
    for (int region = 0; region < REGIONS; region++) {
        for (int way = 0; way < WAYS; way++) {
            for (int call = 0; call < CALLS; call++) {
                yk_store less = without(*store, (enum region)region, (enum way)way);
                int got = answer(&less, (enum call)call);
                int changed = memcmp(before, store->index, bytes) != 0;
                int refused = call == AUDIT || wanted[region][call] != 0;
                if (got != wanted[region][call] || (refused && changed)) {
                    fprintf(stderr, "not lent: %s without %s, way %d: %d, not %d%s\n", CALL_NAMES[call],
                        REGION_NAMES[region], way, got, wanted[region][call], changed ? ", memory changed" : "");
                    exit(1);
                }
                memcpy(store->index, before, bytes);
            }
        }
    }
    free(before);
}

/* Output and workspace, each by itself. */
static void outputs(const yk_store *store) {
    uint64_t time = requests[RECORDS / 2].time;
    require(yk_store_table(store, time, NULL, OUT).question == YK_OUTPUT_SHORT, "no output, but its length");
    require(yk_store_table(store, time, NULL, 0).question == YK_OUTPUT_SHORT, "no output");
    require(yk_store_table(store, time, out, 0).question == YK_OUTPUT_SHORT, "output of length 0");
    for (int i = 0; i < 2; i++) {
        size_t length = i == 0 ? WORK : 0;
        yk_net_change_answer no_work = yk_store_net_change(store, 0, time, out, OUT, NULL, length);
        yk_net_change_answer no_out = yk_store_net_change(store, 0, time, NULL, 2 * length, work, WORK);
        require(no_work.question == YK_OUTPUT_SHORT && no_work.entries == 0, "no workspace");
        require(no_out.question == YK_OUTPUT_SHORT && no_out.entries == 0, "no output of a net change");
    }
    require(yk_store_net_change(store, 0, time, out, OUT, work, 0).question == YK_OUTPUT_SHORT, "a short workspace");
    require(yk_store_net_change(store, 0, time, out, 0, work, WORK).question == YK_OUTPUT_SHORT, "a short output");
}

int main(void) {
    yk_store store = large_store();
    require(live.many < LIMIT && !is_in(&live, 7), "an insertion would be accepted");
    outputs(&store);
    compare(&store, NO_FILES);
    require(yk_store_keep(&store, requests[9].time, YK_SUNDAY) == YK_ACCEPTED, "keep");
    require(yk_store_keep(&store, requests[RECORDS - 9].time, YK_PERMANENT) == YK_ACCEPTED, "keep another");
    compare(&store, TWO_FILES);
    puts("not lent: ok");
    return 0;
}
