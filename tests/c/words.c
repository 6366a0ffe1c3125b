/* Every question: its number, its name and its words, and the versions of header and archive. It reads as C99, C11 and
 * C++17. */
#include <stdio.h>
#include <string.h>

#include "yokefennel.h"

static const struct {
    int number, named;
    const char *words;
} QUESTIONS[] = {
    {0, YK_ACCEPTED, "accepted"},
    {1, YK_HEADER, "the numbers, the log's header and the lent lengths do not fit each other"},
    {2, YK_ORDER, "the order is not 2 to 64"},
    {3, YK_PAGE_SIZE, "the records per page are not 2 to 64"},
    {4, YK_ROW_LIMIT, "the row limit is not 1 to 1,024"},
    {5, YK_MEMORY, "the log, the index or the table is too short, or there are over 65,536 records"},
    {6, YK_TIME_NOT_ABOVE, "the time is not above the last"},
    {7, YK_ARTICLE_PRESENT, "the article is there already"},
    {8, YK_ARTICLE_ABSENT, "the article is not there"},
    {9, YK_ROWS_FULL, "as many rows are live as the row limit allows"},
    {10, YK_LOG_FULL, "the log has no space for the request"},
    {11, YK_INDEX_FULL, "the index has no space for the nodes that the request needs"},
    {12, YK_TIME_AFTER_LAST, "the time to keep is after the last request"},
    {13, YK_OUTPUT_SHORT, "the output or the workspace is too short"},
    {14, YK_NOT_TO_KEEP, "the time is 0 or is kept already"},
    {15, YK_CATALOGUE_FULL, "there is no space for another count file"},
    {16, YK_NOT_KEPT, "no count file of that time is kept"},
    {17, YK_WRONG_RECORD, "the log is not legal"},
    {18, YK_WRONG_MARK, "the mark is not 0, 5 or 7; to drop by mark, not 5 or 7"},
};
enum { MANY = sizeof QUESTIONS / sizeof QUESTIONS[0] };

static int fail(const char *what, int number) {
    fprintf(stderr, "words: %s %d\n", what, number);
    return 1;
}

int main(void) {
    for (int i = 0; i < MANY; i++) {
        if (QUESTIONS[i].number != i || QUESTIONS[i].named != i) {
            return fail("another name for question", i);
        }
        if (strcmp(yk_question_text((unsigned)i), QUESTIONS[i].words) != 0) {
            return fail("other words for question", i);
        }
    }
    for (unsigned none = MANY; none < 300; none++) {
        if (strcmp(yk_question_text(none), "no such question") != 0) {
            return fail("words for question", (int)none);
        }
    }
    char version[32];
    snprintf(version, sizeof version, "%d.%d.%d", YK_VERSION_MAJOR, YK_VERSION_MINOR, YK_VERSION_PATCH);
    if (strcmp(version, YK_VERSION) != 0 || yk_version() != YK_VERSION_NUMBER) {
        return fail("header and archive have not one version,", YK_VERSION_NUMBER);
    }
    puts("words: ok");
    return 0;
}
