/* include/kophdaen.h: with the length 0 a pointer may be NULL, and the call answers 1. Tried of areas, of an image, of the buffers,
 * of the pages that may be whole and of a page by columns. Prints nothing where it is so. */
#include <stdio.h>

#include "kophdaen.h"

enum { PAGES = 1, RECORDS = 4 };

static uint32_t stored[PAGES * KOPHDAEN_PAGE_WORDS], copies[PAGES * KOPHDAEN_PAGE_WORDS], received[PAGES * KOPHDAEN_PAGE_WORDS];
static uint32_t records[RECORDS * KOPHDAEN_RECORD_WORDS], counts[KOPHDAEN_COUNTS_WORDS], work[KOPHDAEN_WORK_WORDS(PAGES, RECORDS)];
#define LENT(area) area, sizeof area / sizeof *area

static int wrong;

static void answers(const char *what, uint64_t code, uint32_t number)
{
    if (KOPHDAEN_ANSWER(code) != number) {
        printf("%s answers %u, not %u\n", what, (unsigned)KOPHDAEN_ANSWER(code), (unsigned)number);
        wrong = 1;
    }
}

int main(void)
{
    uint32_t page[KOPHDAEN_PAGE_WORDS] = {0};
    const kophdaen_areas none = {NULL, 0, NULL, 0, NULL, 0, NULL, 0, NULL, 0, NULL, 0};
    const kophdaen_areas depot = {LENT(stored), LENT(copies), LENT(received), LENT(records), LENT(counts), LENT(work)};
    kophdaen_areas unlogged = depot;
    unlogged.log = NULL;
    unlogged.log_words = 0;
    answers("format of nothing", kophdaen_areas_format(&none), 1);
    answers("begin on nothing", kophdaen_areas_begin(&none, 0, 0), 1);
    answers("grant on nothing", kophdaen_areas_grant(&none, 0, 0, 2), 1);
    answers("mark on nothing", kophdaen_areas_mark(&none, 0, 0), 1);
    answers("back on nothing", kophdaen_areas_back(&none, 0, 0), 1);
    answers("reopen of nothing", kophdaen_areas_reopen(&none), 1);
    answers("format", kophdaen_areas_format(&depot), 0);
    answers("begin without a log", kophdaen_areas_begin(&unlogged, 0, 0), 1);
    answers("grant without a log", kophdaen_areas_grant(&unlogged, 0, 0, 2), 1);
    answers("grant", kophdaen_areas_grant(&depot, 0, 0, 2), 0);
    answers("begin", kophdaen_areas_begin(&depot, 0, 0), 0);
    answers("a lock for writing", kophdaen_areas_lock_write(&depot, 0, 0), 0);
    answers("mark", kophdaen_areas_mark(&depot, 0, 0), 0);
    answers("mark without a log", kophdaen_areas_mark(&unlogged, 0, 0), 1);
    answers("back without a log", kophdaen_areas_back(&unlogged, 0, 0), 1);
    answers("read into no buffer", kophdaen_areas_read(&depot, NULL, 0, 0, 1), 1);
    answers("flush of no image", kophdaen_areas_flush(&depot, NULL, 0, 0, 0), 1);
    answers("chain into no buffer", kophdaen_areas_chain(&depot, NULL, 0, 1), 1);
    answers("share into no buffer", kophdaen_areas_pass_share(&depot, NULL, 0, 1), 1);
    answers("whole of no pages", kophdaen_whole(NULL, 0), 1);
    answers("no page by columns", kophdaen_to_columns(NULL, 0, page, KOPHDAEN_PAGE_WORDS), 1);
    answers("columns into no page", kophdaen_to_columns(page, KOPHDAEN_PAGE_WORDS, NULL, 0), 1);
    answers("a page from no columns", kophdaen_from_columns(NULL, 0, page, KOPHDAEN_PAGE_WORDS), 1);
    answers("columns back into no page", kophdaen_from_columns(page, KOPHDAEN_PAGE_WORDS, NULL, 0), 1);
    return wrong;
}
