/* Yokefennel: a stock history store, called from C99 or C++. Link libembed.a (`./archive`).
 *
 * All memory is the caller's, and lent for one call at a time. Nothing is kept between calls but what is
 * in it and in the numbers, which pass by value: give each call the numbers that the last one answered.
 *
 * region   element   lengths that suffice, as yk_lengths_for answers them
 * log      byte      24 for the header and 24 for each record, at most 65,536 of them
 * index    word      order - 1 for each node of the packed tree
 * table    byte      8 x limit: the current table
 * entries  yk_entry  one for each count file, up to 16: the catalogue
 * areas    byte      8 x limit for each count file
 * out      byte      8 x limit for yk_table; 24 x limit for yk_net_change
 * work     byte      16 x limit
 *
 * A length is a number of elements. A pointer is never null, not even with length 0, and is aligned for its
 * element; regions of one call do not overlap. What lies past the lengths that suffice stays as it was.
 *
 * A table is its rows, ascending by article, and zeros after them to 8 x limit bytes. A row is article and
 * count, 4 bytes each, little-endian.
 *
 * A count file is the table of one time, kept so that tables near it are found sooner. The store holds as many
 * as there are entries and whole areas for, at most 16: the file of entry i has area i, times ascend, and the
 * entries behind the last file are zero. The files kept change no table, no net change and no units, only where
 * they are worked out from: for each time, of the last file at or before it (without one, the empty table of time
 * 0) and the first file at or after it (without one, the current table) the one with fewer requests between, the
 * earlier one on a tie.
 *
 * A refused call answers the number of the first question answered no, and leaves all memory and the numbers
 * as they were. But a refused yk_fresh or yk_open answers numbers that are all zero; and at 17 yk_open has
 * zeroed table and catalogue, and the index as far as the log's records need it. */

/* What a maker asks.
 *
 * Time         Its unit is the maker's own: seconds, minutes or a running number. Each request's time is
 *              above the last one's, so the first is 1 or more; time 0 is that of the empty table, and no
 *              request has it.
 * Late times   Position, table, view, units, units between and net change answer a time after the last
 *              request as they answer the last request's own, `later` and `requests_between` included: that
 *              is the time answered. With no request yet it is time 0. So the clock's time may be asked for.
 *              Nothing is remembered: after a further append such a time is answered anew. Only yk_keep
 *              refuses it, by 12, because a later request could make the file wrong.
 * Saving       Save the first 24 + 24 x records bytes of the log, which yk_store_log_bytes counts. Nothing
 *              else need be: yk_open makes index, table and numbers from them. Count files are not saved;
 *              keep them again.
 * Reading      Lend yk_open as many bytes of the log as were read, not all that there is space for: behind a
 *              file that was cut, or is empty, the memory may hold another log, and the opening would take
 *              that one up. A short log is refused by 1 or 5. Once it is accepted, lend all of the log: the
 *              opening of all of it would have done the same. yk_store_open_bytes does both.
 * Count files  No call needs one. Entries and areas may have length 0: then keep is refused by 15, and all
 *              else works.
 * Marks        A count file is kept with a mark: 0 permanent, 5 goes on Friday, 7 goes on Sunday. yk_drop_marked
 *              deletes every file with the one mark, 5 or 7, and leaves the others; yk_drop deletes one by its
 *              time, whatever its mark. The store knows no weekday: nothing goes until the maker calls for it. A
 *              mark stays as it is while its file is kept; for another one drop the file and keep it again.
 * Memory       yk_lengths_for answers what to lend for so many records and count files. With as much, no call
 *              is refused for want of memory until there are more of them. It is the least: with less of a
 *              region, the call that needs it is refused, be it the opening of so many records, the last
 *              append, the last keep or a net change.
 * At 11        An append may need two nodes, an inner one and a leaf.
 * Threads      The calls hold no state. Any number of stores may be used from any number of threads, one
 *              call at a time for each store.
 * Stack        No call takes more than 32 kB of it: yk_keep 27 kB, yk_table and yk_net_change 19 kB, yk_audit 10 kB,
 *              the others 2 kB at most. Nothing is allocated.
 * Damage       Whatever numbers and lent memory hold, every call ends and touches nothing else, and a
 *              refusal changes nothing (but for yk_open at 17). yk_audit says whether it is all such as
 *              accepted calls leave; yk_open makes a store from any legal log.
 * Platform     The archive is for x86-64 Linux, and takes memcpy, memmove and memset from the C library.
 * Handle       yk_store, further down, holds the numbers and the regions: yk_store_insert(&store, time,
 *              article, count) is yk_insert with them, and so on. */

#ifndef YOKEFENNEL_H
#define YOKEFENNEL_H

#include <stddef.h>
#include <stdint.h>
#include <string.h>

#ifdef __cplusplus
extern "C" {
#endif

/* Why a call was refused: the question answered no. */
enum yk_question {
    YK_ACCEPTED = 0,         /* none was */
    YK_HEADER = 1,           /* the numbers, the header and the lent lengths do not fit each other */
    YK_ORDER = 2,            /* order is not 2 to 64 */
    YK_PAGE_SIZE = 3,        /* records per page are not 2 to 64 */
    YK_ROW_LIMIT = 4,        /* the row limit is not 1 to 1,024 */
    YK_MEMORY = 5,           /* log, index or table is too short, or there are too many records */
    YK_TIME_NOT_ABOVE = 6,   /* the time is not above the last */
    YK_ARTICLE_PRESENT = 7,  /* to insert, the article must be absent */
    YK_ARTICLE_ABSENT = 8,   /* to delete or update, it must be present */
    YK_ROWS_FULL = 9,        /* as many rows are live as the limit allows */
    YK_LOG_FULL = 10,        /* no space for the record, or for an update's two */
    YK_INDEX_FULL = 11,      /* no space for the nodes then needed */
    YK_TIME_AFTER_LAST = 12, /* the time to keep is after the last; only a keep is refused by it */
    YK_OUTPUT_SHORT = 13,    /* the output or the workspace is too short */
    YK_NOT_TO_KEEP = 14,     /* time 0, or kept already */
    YK_CATALOGUE_FULL = 15,  /* no space for a count file */
    YK_NOT_KEPT = 16,        /* no count file of that time */
    YK_WRONG_RECORD = 17,    /* the log is not legal; `record` is the first wrong one */
    YK_WRONG_MARK = 18       /* the mark is not 0, 5 or 7; to drop by mark, not 5 or 7 */
};

/* Where the rows are that a table is worked out from. */
enum yk_place {
    YK_EMPTY = 0,  /* time 0: no rows, the empty part at the front of the current table */
    YK_AREA = 1,   /* the area of a count file */
    YK_CURRENT = 2 /* the current table */
};

/* What is to become of a count file: the numbers that yk_keep and yk_drop_marked take, and entries have. */
enum yk_mark {
    YK_PERMANENT = 0, /* it goes only when it is dropped by its time */
    YK_FRIDAY = 5,    /* it goes on Friday */
    YK_SUNDAY = 7     /* it goes on Sunday */
};

/* The store's numbers. */
typedef struct yk_numbers {
    uint16_t order;   /* order of the packed tree, 2 to 64 */
    uint16_t page;    /* records per page, 2 to 64 */
    uint32_t limit;   /* row limit, 1 to 1,024 */
    uint32_t records; /* records in the log */
    uint64_t last;    /* time of the last request, 0 if there is none */
    uint32_t live;    /* rows of the current table */
    uint32_t files;   /* count files held */
} yk_numbers;

/* One entry of the catalogue, 16 bytes. */
typedef struct yk_entry {
    uint64_t time; /* time of the count file */
    uint32_t rows; /* rows of its table */
    uint32_t mark; /* an enum yk_mark */
} yk_entry;

/* What a call that may change the store answers. */
typedef struct yk_change {
    yk_numbers numbers; /* for the next call */
    uint8_t question;   /* an enum yk_question */
    uint32_t record;    /* at 17 the first wrong record: the smallest k such that records 0 to k begin no legal
                           log, or the number of records where only the header's last time is wrong. Either
                           way so many records from the start are legal. Else 0 */
} yk_change;

/* What yk_drop_marked answers. */
typedef struct yk_drop_marked_answer {
    yk_numbers numbers; /* for the next call */
    uint8_t question;   /* an enum yk_question */
    uint32_t gone;      /* count files that went, 0 where refused */
} yk_drop_marked_answer;

typedef struct yk_position_answer {
    uint8_t question;  /* an enum yk_question; all else is 0 where refused */
    uint32_t page;     /* the page in which the time lies, 0 also before the first request */
    uint32_t requests; /* records at or before the time, two for an update; 0 before the first */
} yk_position_answer;

typedef struct yk_table_answer {
    uint8_t question;          /* an enum yk_question; all else is 0 where refused */
    uint32_t rows;             /* rows of the table */
    uint8_t later;             /* 1 if it was worked out from a table at or after the time answered, else 0 */
    uint32_t requests_between; /* how many requests lie between that table and that time, two for an update */
} yk_table_answer;

typedef struct yk_view_answer {
    uint8_t question;          /* an enum yk_question; all else is 0 where refused */
    uint8_t place;             /* an enum yk_place */
    uint32_t area;             /* at YK_AREA the number of the area, from 0; else 0 */
    uint32_t rows;             /* rows there */
    uint8_t later;             /* 1 if they are those of a time at or after the one answered, else 0 */
    uint32_t requests_between; /* how many requests lie between those two times, two for an update */
    size_t start;              /* the part they fill: its first byte in areas (YK_AREA) or in table */
    size_t length;             /* and its bytes, 8 for each row */
} yk_view_answer;

typedef struct yk_net_change_answer {
    uint8_t question; /* an enum yk_question */
    uint32_t entries; /* entries of the net change, 0 where refused */
} yk_net_change_answer;

typedef struct yk_units_answer {
    uint8_t question; /* an enum yk_question */
    uint64_t units;   /* units on hand, below 2^42 where yk_audit says 1; 0 where refused */
} yk_units_answer;

typedef struct yk_units_between_answer {
    uint8_t question; /* an enum yk_question */
    int64_t units;    /* units at b less units at a, negative where stock fell; 0 where refused */
} yk_units_between_answer;

/* How long each region must be. */
typedef struct yk_lengths {
    uint8_t question; /* an enum yk_question; all else is 0 where refused */
    size_t log;       /* bytes */
    size_t index;     /* words of 8 bytes */
    size_t table;     /* bytes */
    size_t entries;   /* yk_entry */
    size_t areas;     /* bytes */
    size_t out;       /* bytes, for a net change; a table takes a third of them */
    size_t work;      /* bytes */
} yk_lengths;

/* A part of lent memory. */
typedef struct yk_part {
    const uint8_t *bytes;
    size_t length;
} yk_part;

/* The lengths to lend for a store of these settings that is to hold so many records and count files: the least
 * that suffice, see "Memory" above. Refuses by 2, 3, 4, by 5 (over 65,536 records) and by 15 (over 16 files). */
yk_lengths yk_lengths_for(uint16_t order, uint16_t page, uint32_t limit, uint32_t records, uint32_t files);

/* Starts an empty store: writes the header, zeroes table and catalogue. Refuses by 2, 3, 4, 5. */
yk_change yk_fresh(uint16_t order, uint16_t page, uint32_t limit, uint8_t *log, size_t log_length,
    uint8_t *table, size_t table_length, yk_entry *entries, size_t entries_length, const uint8_t *areas,
    size_t areas_length);

/* Takes up a written log: makes index and table anew, zeroes the catalogue. Refuses by 1 to 5 and 17. */
yk_change yk_open(const uint8_t *log, size_t log_length, uint64_t *index, size_t index_length, uint8_t *table,
    size_t table_length, yk_entry *entries, size_t entries_length, const uint8_t *areas, size_t areas_length);

/* Adds an article with a count at a time above the last: writes header, record, table and the index where a
 * page begins. Refuses by 1, 6, 7, 9, 10, 11. */
yk_change yk_insert(yk_numbers numbers, uint8_t *log, size_t log_length, uint64_t *index, size_t index_length,
    uint8_t *table, size_t table_length, const yk_entry *entries, size_t entries_length, const uint8_t *areas,
    size_t areas_length, uint64_t time, uint32_t article, uint32_t count);

/* Removes a present article; writes as yk_insert does. Refuses by 1, 6, 8, 10, 11. */
yk_change yk_delete(yk_numbers numbers, uint8_t *log, size_t log_length, uint64_t *index, size_t index_length,
    uint8_t *table, size_t table_length, const yk_entry *entries, size_t entries_length, const uint8_t *areas,
    size_t areas_length, uint64_t time, uint32_t article);

/* Gives a present article another count, or the same: two records, a deletion and an insertion. Refuses by
 * 1, 6, 8, 10, 11. */
yk_change yk_update(yk_numbers numbers, uint8_t *log, size_t log_length, uint64_t *index, size_t index_length,
    uint8_t *table, size_t table_length, const yk_entry *entries, size_t entries_length, const uint8_t *areas,
    size_t areas_length, uint64_t time, uint32_t article, uint32_t count);

/* The calls from here to yk_units_between answer for any time; see "Late times" above. */

/* The position of a time: its page and its requests. Writes nothing. Refuses by 1. */
yk_position_answer yk_position(yk_numbers numbers, const uint8_t *log, size_t log_length, const uint64_t *index,
    size_t index_length, const uint8_t *table, size_t table_length, const yk_entry *entries,
    size_t entries_length, const uint8_t *areas, size_t areas_length, uint64_t time);

/* The table of a time, into the first 8 x limit bytes of out. Refuses by 1, 13. */
yk_table_answer yk_table(yk_numbers numbers, const uint8_t *log, size_t log_length, const uint64_t *index,
    size_t index_length, const uint8_t *table, size_t table_length, const yk_entry *entries,
    size_t entries_length, const uint8_t *areas, size_t areas_length, uint64_t time, uint8_t *out,
    size_t out_length);

/* The rows that the table of a time is worked out from, where they lie: yk_view_part makes a part of the
 * answer. Writes nothing. Refuses by 1. */
yk_view_answer yk_view(yk_numbers numbers, const uint8_t *log, size_t log_length, const uint64_t *index,
    size_t index_length, const uint8_t *table, size_t table_length, const yk_entry *entries,
    size_t entries_length, const uint8_t *areas, size_t areas_length, uint64_t time);

/* What leads from the table of time a to that of time b, a before or after b, into the first 24 x limit bytes
 * of out: entries of 12 bytes, and zeros after them. An entry is length 12 and kind (2 insertion, 3 deletion),
 * 2 bytes each, then article and count, 4 bytes each, little-endian; ascending by article, the deletion of an
 * article before its insertion. A row that is alike in both tables has none. Work then holds, in its first
 * 16 x limit bytes, the table of a and the table of b. Refuses by 1, 13. */
yk_net_change_answer yk_net_change(yk_numbers numbers, const uint8_t *log, size_t log_length,
    const uint64_t *index, size_t index_length, const uint8_t *table, size_t table_length,
    const yk_entry *entries, size_t entries_length, const uint8_t *areas, size_t areas_length, uint64_t a,
    uint64_t b, uint8_t *out, size_t out_length, uint8_t *work, size_t work_length);

/* The units on hand at a time: the counts of its table added up, which are the counts inserted up to then less
 * the counts deleted. Writes nothing. Refuses by 1. */
yk_units_answer yk_units(yk_numbers numbers, const uint8_t *log, size_t log_length, const uint64_t *index,
    size_t index_length, const uint8_t *table, size_t table_length, const yk_entry *entries,
    size_t entries_length, const uint8_t *areas, size_t areas_length, uint64_t time);

/* The units at time b less those at time a, a before or after b. 0 says that the totals agree, not that the
 * tables are the same. Writes nothing. Refuses by 1. */
yk_units_between_answer yk_units_between(yk_numbers numbers, const uint8_t *log, size_t log_length,
    const uint64_t *index, size_t index_length, const uint8_t *table, size_t table_length,
    const yk_entry *entries, size_t entries_length, const uint8_t *areas, size_t areas_length, uint64_t a,
    uint64_t b);

/* Keeps the table of a time as a count file with a mark: writes its entry and area, and moves the files of later
 * times up by one. Refuses by 1, 12 (a time after the last), 18 (not 0, 5 or 7), 14, 15, in this order. */
yk_change yk_keep(yk_numbers numbers, const uint8_t *log, size_t log_length, const uint64_t *index,
    size_t index_length, const uint8_t *table, size_t table_length, yk_entry *entries, size_t entries_length,
    uint8_t *areas, size_t areas_length, uint64_t time, uint32_t mark);

/* Gives up the count file of a time, whatever its mark: moves the files of later times down by one, and zeroes the
 * entry and the area that the last one leaves. Refuses by 1, 16. */
yk_change yk_drop(yk_numbers numbers, const uint8_t *log, size_t log_length, const uint64_t *index,
    size_t index_length, const uint8_t *table, size_t table_length, yk_entry *entries, size_t entries_length,
    uint8_t *areas, size_t areas_length, uint64_t time);

/* Gives up every count file with this mark: moves those that stay down, in their order, and zeroes the entries and
 * the areas set free. Answers how many went; none is no refusal, and changes nothing. Refuses by 1, 18 (not 5 or
 * 7: permanent files go one by one, by yk_drop). */
yk_drop_marked_answer yk_drop_marked(yk_numbers numbers, const uint8_t *log, size_t log_length,
    const uint64_t *index, size_t index_length, const uint8_t *table, size_t table_length, yk_entry *entries,
    size_t entries_length, uint8_t *areas, size_t areas_length, uint32_t mark);

/* 1 if the numbers and the lent memory are such as accepted calls from a fresh or opened store leave, else 0.
 * Writes nothing and refuses nothing, whatever the memory holds. The other calls but yk_fresh and yk_open
 * answer as promised where it says 1; elsewhere they stay within the lent memory. */
uint8_t yk_audit(yk_numbers numbers, const uint8_t *log, size_t log_length, const uint64_t *index,
    size_t index_length, const uint8_t *table, size_t table_length, const yk_entry *entries,
    size_t entries_length, const uint8_t *areas, size_t areas_length);

/* The rows that a view answered, as a part of the areas or the table it was asked of; empty where it was
 * refused. The part holds until a call writes there. */
static inline yk_part yk_view_part(yk_view_answer view, const uint8_t *areas, const uint8_t *table) {
    yk_part part;
    part.bytes = (view.place == YK_AREA ? areas : table) + view.start;
    part.length = view.length;
    return part;
}

/* The version of this header, and that of the archive as the one number that the header has as YK_VERSION_NUMBER. */
#define YK_VERSION_MAJOR 0
#define YK_VERSION_MINOR 5
#define YK_VERSION_PATCH 0
#define YK_VERSION "0.5.0"
#define YK_VERSION_NUMBER (65536u * YK_VERSION_MAJOR + 256u * YK_VERSION_MINOR + YK_VERSION_PATCH)

uint32_t yk_version(void);

/* A question answered no, in words. */
static inline const char *yk_question_text(unsigned question) {
    switch (question) {
    case YK_ACCEPTED: return "accepted";
    case YK_HEADER: return "the numbers, the log's header and the lent lengths do not fit each other";
    case YK_ORDER: return "the order is not 2 to 64";
    case YK_PAGE_SIZE: return "the records per page are not 2 to 64";
    case YK_ROW_LIMIT: return "the row limit is not 1 to 1,024";
    case YK_MEMORY: return "the log, the index or the table is too short, or there are over 65,536 records";
    case YK_TIME_NOT_ABOVE: return "the time is not above the last";
    case YK_ARTICLE_PRESENT: return "the article is there already";
    case YK_ARTICLE_ABSENT: return "the article is not there";
    case YK_ROWS_FULL: return "as many rows are live as the row limit allows";
    case YK_LOG_FULL: return "the log has no space for the request";
    case YK_INDEX_FULL: return "the index has no space for the nodes that the request needs";
    case YK_TIME_AFTER_LAST: return "the time to keep is after the last request";
    case YK_OUTPUT_SHORT: return "the output or the workspace is too short";
    case YK_NOT_TO_KEEP: return "the time is 0 or is kept already";
    case YK_CATALOGUE_FULL: return "there is no space for another count file";
    case YK_NOT_KEPT: return "no count file of that time is kept";
    case YK_WRONG_RECORD: return "the log is not legal";
    case YK_WRONG_MARK: return "the mark is not 0, 5 or 7; to drop by mark, not 5 or 7";
    default: return "no such question";
    }
}

/* ---- One handle: the numbers and the lent memory together
 *
 * Zero it, set the regions, and start it by yk_store_fresh, yk_store_open or yk_store_open_bytes; its functions
 * keep the numbers. A region that is null counts as one of length 0, and the calls get a pointer that is not null
 * for it. A copy of it shares the memory and is no second store: go on with one of them. Its queries answer for any
 * time, see "Late times" above; a program that must know whether a time is late compares it with numbers.last. */
typedef struct yk_store {
    uint8_t *log;
    size_t log_length;
    uint64_t *index;
    size_t index_length;
    uint8_t *table;
    size_t table_length;
    yk_entry *entries;
    size_t entries_length;
    uint8_t *areas;
    size_t areas_length;
    yk_numbers numbers; /* as the last call answered them; only the store's functions write them */
    uint32_t record;    /* as the last call answered it: at 17 the first wrong record, see yk_change */
} yk_store;

/* A row of a table. */
typedef struct yk_row {
    uint32_t article;
    uint32_t count;
} yk_row;

/* Which of the two an entry of a net change is. */
enum yk_kind {
    YK_INSERTION = 2,
    YK_DELETION = 3
};

/* An entry of a net change. */
typedef struct yk_step {
    uint16_t kind; /* an enum yk_kind */
    uint32_t article;
    uint32_t count;
} yk_step;

/* The bytes of one block that has room for the five regions of a store. */
static inline size_t yk_store_bytes(yk_lengths need) {
    return 8 * need.index + sizeof(yk_entry) * need.entries + need.log + need.table + need.areas;
}

/* A store whose regions lie in a block of yk_store_bytes(need) bytes, aligned for a uint64_t as malloc's are. Of a
 * null block nothing is lent, and yk_store_fresh is then refused by 5. */
static inline yk_store yk_store_in(void *block, yk_lengths need) {
    yk_store store;
    memset(&store, 0, sizeof store);
    if (!block) {
        return store;
    }
    store.index = (uint64_t *)block;
    store.index_length = need.index;
    store.entries = (yk_entry *)(store.index + need.index);
    store.entries_length = need.entries;
    store.log = (uint8_t *)(store.entries + need.entries);
    store.log_length = need.log;
    store.table = store.log + need.log;
    store.table_length = need.table;
    store.areas = store.table + need.table;
    store.areas_length = need.areas;
    return store;
}

/* A pointer that is not null. Nothing is read or written where it stands in for a null one. */
static inline void *yk_lent_pointer(void *pointer) {
    static uint64_t nothing;
    return pointer ? pointer : (void *)&nothing;
}

/* The store with a pointer that is not null and a length of 0 for each region that is not lent. */
static inline yk_store yk_store_lent(const yk_store *store) {
    yk_store lent = *store;
    lent.log = (uint8_t *)yk_lent_pointer(store->log);
    lent.log_length = store->log ? store->log_length : 0;
    lent.index = (uint64_t *)yk_lent_pointer(store->index);
    lent.index_length = store->index ? store->index_length : 0;
    lent.table = (uint8_t *)yk_lent_pointer(store->table);
    lent.table_length = store->table ? store->table_length : 0;
    lent.entries = (yk_entry *)yk_lent_pointer(store->entries);
    lent.entries_length = store->entries ? store->entries_length : 0;
    lent.areas = (uint8_t *)yk_lent_pointer(store->areas);
    lent.areas_length = store->areas ? store->areas_length : 0;
    return lent;
}

/* Takes up what a call answered. */
static inline enum yk_question yk_store_take(yk_store *store, yk_change answer) {
    store->numbers = answer.numbers;
    store->record = answer.record;
    return (enum yk_question)answer.question;
}

/* The regions of a store, as the calls take them. */
#define YK_LENT(s)                                                                                             \
    (s).log, (s).log_length, (s).index, (s).index_length, (s).table, (s).table_length, (s).entries,            \
        (s).entries_length, (s).areas, (s).areas_length

/* yk_fresh */
static inline enum yk_question yk_store_fresh(yk_store *store, uint16_t order, uint16_t page, uint32_t limit) {
    yk_store s = yk_store_lent(store);
    return yk_store_take(store, yk_fresh(order, page, limit, s.log, s.log_length, s.table, s.table_length,
        s.entries, s.entries_length, s.areas, s.areas_length));
}

/* yk_open of all of the lent log: it starts with the saved bytes, and none is missing. Where they were read from
 * a file, yk_store_open_bytes. */
static inline enum yk_question yk_store_open(yk_store *store) {
    yk_store s = yk_store_lent(store);
    return yk_store_take(store, yk_open(YK_LENT(s)));
}

/* yk_open of the first bytes of the lent log, as many as were read into it; see "Reading" above. What lies behind
 * them is not looked at, and is space for later appends as ever. More than are lent count as all of them. */
static inline enum yk_question yk_store_open_bytes(yk_store *store, size_t bytes) {
    yk_store s = yk_store_lent(store);
    s.log_length = bytes < s.log_length ? bytes : s.log_length;
    return yk_store_take(store, yk_open(YK_LENT(s)));
}

/* yk_insert */
static inline enum yk_question yk_store_insert(yk_store *store, uint64_t time, uint32_t article,
    uint32_t count) {
    yk_store s = yk_store_lent(store);
    return yk_store_take(store, yk_insert(s.numbers, YK_LENT(s), time, article, count));
}

/* yk_delete */
static inline enum yk_question yk_store_delete(yk_store *store, uint64_t time, uint32_t article) {
    yk_store s = yk_store_lent(store);
    return yk_store_take(store, yk_delete(s.numbers, YK_LENT(s), time, article));
}

/* yk_update */
static inline enum yk_question yk_store_update(yk_store *store, uint64_t time, uint32_t article,
    uint32_t count) {
    yk_store s = yk_store_lent(store);
    return yk_store_take(store, yk_update(s.numbers, YK_LENT(s), time, article, count));
}

/* yk_keep: a time from 1 to numbers.last, and an enum yk_mark. */
static inline enum yk_question yk_store_keep(yk_store *store, uint64_t time, uint32_t mark) {
    yk_store s = yk_store_lent(store);
    return yk_store_take(store, yk_keep(s.numbers, YK_LENT(s), time, mark));
}

/* yk_drop */
static inline enum yk_question yk_store_drop(yk_store *store, uint64_t time) {
    yk_store s = yk_store_lent(store);
    return yk_store_take(store, yk_drop(s.numbers, YK_LENT(s), time));
}

/* yk_drop_marked: YK_FRIDAY or YK_SUNDAY. Its numbers are the store's from then on. */
static inline yk_drop_marked_answer yk_store_drop_marked(yk_store *store, uint32_t mark) {
    yk_store s = yk_store_lent(store);
    yk_drop_marked_answer answer = yk_drop_marked(s.numbers, YK_LENT(s), mark);
    store->numbers = answer.numbers;
    store->record = 0;
    return answer;
}

/* yk_position */
static inline yk_position_answer yk_store_position(const yk_store *store, uint64_t time) {
    yk_store s = yk_store_lent(store);
    return yk_position(s.numbers, YK_LENT(s), time);
}

/* yk_table: the rows are read from out by yk_row_at. */
static inline yk_table_answer yk_store_table(const yk_store *store, uint64_t time, uint8_t *out,
    size_t out_length) {
    yk_store s = yk_store_lent(store);
    return yk_table(s.numbers, YK_LENT(s), time, (uint8_t *)yk_lent_pointer(out), out ? out_length : 0);
}

/* yk_view */
static inline yk_view_answer yk_store_view(const yk_store *store, uint64_t time) {
    yk_store s = yk_store_lent(store);
    return yk_view(s.numbers, YK_LENT(s), time);
}

/* The rows that a view of this store answered. */
static inline yk_part yk_store_view_part(const yk_store *store, yk_view_answer view) {
    yk_store s = yk_store_lent(store);
    return yk_view_part(view, s.areas, s.table);
}

/* yk_net_change: the entries are read from out by yk_step_at. */
static inline yk_net_change_answer yk_store_net_change(const yk_store *store, uint64_t a, uint64_t b,
    uint8_t *out, size_t out_length, uint8_t *work, size_t work_length) {
    yk_store s = yk_store_lent(store);
    return yk_net_change(s.numbers, YK_LENT(s), a, b, (uint8_t *)yk_lent_pointer(out),
        out ? out_length : 0, (uint8_t *)yk_lent_pointer(work), work ? work_length : 0);
}

/* yk_units */
static inline yk_units_answer yk_store_units(const yk_store *store, uint64_t time) {
    yk_store s = yk_store_lent(store);
    return yk_units(s.numbers, YK_LENT(s), time);
}

/* yk_units_between */
static inline yk_units_between_answer yk_store_units_between(const yk_store *store, uint64_t a, uint64_t b) {
    yk_store s = yk_store_lent(store);
    return yk_units_between(s.numbers, YK_LENT(s), a, b);
}

/* yk_audit */
static inline int yk_store_audit(const yk_store *store) {
    yk_store s = yk_store_lent(store);
    return yk_audit(s.numbers, YK_LENT(s));
}

/* How many bytes of the log to save, from its first: header and records. 0 where no store is started. */
static inline size_t yk_store_log_bytes(const yk_store *store) {
    return store->numbers.order == 0 ? 0 : 24 + (size_t)24 * store->numbers.records;
}

/* Four bytes, little-endian, as a number. */
static inline uint32_t yk_number_at(const uint8_t *bytes) {
    return (uint32_t)bytes[0] | (uint32_t)bytes[1] << 8 | (uint32_t)bytes[2] << 16 | (uint32_t)bytes[3] << 24;
}

/* Row i, from 0, of a table, a count file or a view's part; i is below the rows answered. */
static inline yk_row yk_row_at(const uint8_t *rows, uint32_t i) {
    yk_row row;
    row.article = yk_number_at(rows + (size_t)8 * i);
    row.count = yk_number_at(rows + (size_t)8 * i + 4);
    return row;
}

/* Entry i, from 0, of a net change; i is below the entries answered. */
static inline yk_step yk_step_at(const uint8_t *entries, uint32_t i) {
    const uint8_t *entry = entries + (size_t)12 * i;
    yk_step step;
    step.kind = (uint16_t)(entry[2] | entry[3] << 8);
    step.article = yk_number_at(entry + 4);
    step.count = yk_number_at(entry + 8);
    return step;
}

#ifdef __cplusplus
}
#endif

#endif
