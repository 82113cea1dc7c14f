/* include/kophdaen.h: every held call beside the lent one, each form on a store of its own. They answer the same and leave the same
 * words, and the pages are whole. Prints nothing where it is so. */
#include <stdio.h>
#include <string.h>

#include "kophdaen.h"

enum { PAGES = 2, RECORDS = 16, CALLS = 52 };

typedef struct store {
    uint32_t stored[PAGES * KOPHDAEN_PAGE_WORDS], copies[PAGES * KOPHDAEN_PAGE_WORDS], received[PAGES * KOPHDAEN_PAGE_WORDS];
    uint32_t records[RECORDS * KOPHDAEN_RECORD_WORDS], counts[KOPHDAEN_COUNTS_WORDS], work[KOPHDAEN_WORK_WORDS(PAGES, RECORDS)];
    uint32_t buffer[KOPHDAEN_OBJECT_WORDS], chain[KOPHDAEN_CHAIN_WORDS], share[KOPHDAEN_SHARE_WORDS];
    uint64_t codes[CALLS];
} store;
#define LENT(area) area, sizeof area / sizeof *area

static int wrong;

static void expect(const char *what, int so)
{
    if (!so) {
        printf("not so: %s\n", what);
        wrong = 1;
    }
}

/* Makes the call in one form, which must answer this number. */
#define CALL(number, name, ...) \
    do { \
        *code = held ? kophdaen_areas_held_##name(__VA_ARGS__) : kophdaen_areas_##name(__VA_ARGS__); \
        expect(#name " answers " #number, KOPHDAEN_ANSWER(*code++) == number); \
    } while (0)

/* Client 0 may write page 0 and read page 1: what a lock needs beyond that is refused, and so is all after a reopening until a
 * right is given. An object is created under the root, with a word of its own, and is there after a reopening. Between, locks are
 * refused, and tell who has the page, and a pass begins, whose share is told. At the end one more is created after a mark, and uncreated by
 * going back. */
static void work(const kophdaen_areas *a, store *s, int held)
{
    uint64_t *code = s->codes;
    uint32_t image[KOPHDAEN_PAGE_WORDS];
    CALL(3, begin, a, 16, 0);
    CALL(3, begin, a, 0, 8);
    CALL(3, grant, a, 0, PAGES, 2);
    CALL(3, grant, a, 0, 0, 3);
    CALL(0, grant, a, 0, 0, 2);
    CALL(0, grant, a, 0, 1, 1);
    CALL(0, begin, a, 0, 0);
    CALL(4, grant, a, 0, 0, 1);
    CALL(0, grant, a, 7, 0, 1);
    CALL(0, lock_write, a, 0, 0);
    CALL(0, lock_read, a, 0, 1);
    CALL(19, lock_write, a, 0, 1);
    CALL(0, create, a, 0, 2);
    CALL(0, set_word, a, 0, 2, 4, 50118);
    CALL(0, set_word, a, 0, 1, 3, 2);
    CALL(0, read, a, LENT(s->buffer), 0, 2);
    memset(s->chain, 255, sizeof s->chain);
    CALL(15, chain, a, LENT(s->chain), 2);
    memcpy(image, s->received, sizeof image);
    CALL(0, flush, a, LENT(image), 0, 0);
    CALL(0, chain, a, LENT(s->chain), 2);
    expect("the chain is 1 2", KOPHDAEN_VALUE(code[-1]) == 2 && s->chain[0] == 1 && s->chain[1] == 2 && s->chain[2] == 0);
    CALL(3, chain, a, LENT(s->chain), 33);
    CALL(0, commit, a, 0);
    CALL(0, begin, a, 1, 0);
    CALL(0, lock_write, a, 1, 0);
    CALL(0, begin, a, 0, 0);
    CALL(6, lock_read, a, 0, 0);
    expect("transaction 1 has the page", KOPHDAEN_VALUE(code[-1]) == 1);
    CALL(6, lock_write, a, 0, 0);
    expect("transaction 1 has it still", KOPHDAEN_VALUE(code[-1]) == 1);
    CALL(0, abort, a, 0);
    CALL(0, abort, a, 1);
    for (int record = 0; record < 9; record++) CALL(0, force, a);
    CALL(0, start_pass, a);
    memset(s->share, 255, sizeof s->share);
    CALL(17, pass_share, a, LENT(s->share), 4097);
    expect("a refused share leaves its buffer", s->share[0] == UINT32_MAX && s->share[1] == UINT32_MAX);
    CALL(0, pass_share, a, LENT(s->share), 10);
    expect("the share of ten commits is 3, and 5", KOPHDAEN_VALUE(code[-1]) == 3 && s->share[0] == 3 && s->share[1] == 5);
    CALL(0, pass_step, a);
    CALL(0, store_page, a, 0);
    CALL(0, empty_log, a);
    expect("reopen is accepted", KOPHDAEN_ANSWER(kophdaen_areas_reopen(a)) == 0);
    CALL(2, begin, a, 0, 0);
    CALL(2, grant, a, 0, 0, 2);
    CALL(2, pass_share, a, LENT(s->share), 0);
    for (int page = 0; page <= PAGES; page++) CALL(0, reopen_step, a);
    CALL(0, begin, a, 0, 0);
    CALL(19, lock_read, a, 0, 0);
    CALL(0, abort, a, 0);
    CALL(0, grant, a, 0, 0, 2);
    CALL(0, begin, a, 0, 0);
    CALL(0, lock_write, a, 0, 0);
    CALL(3, mark, a, 0, 4);
    CALL(16, back, a, 0, 3);
    CALL(0, mark, a, 0, 3);
    CALL(0, create, a, 0, 3);
    CALL(0, read, a, LENT(s->buffer), 0, 3);
    CALL(0, back, a, 0, 3);
    CALL(7, read, a, LENT(s->buffer), 0, 3);
    expect("five records: begin, aborted, begin, create, uncreate", s->counts[0] == 5 && s->records[4 * KOPHDAEN_RECORD_WORDS] == 6);
}

static store stores[2];

int main(void)
{
    for (int held = 0; held < 2; held++) {
        store *s = &stores[held];
        const kophdaen_areas areas = {LENT(s->stored), LENT(s->copies), LENT(s->received), LENT(s->records), LENT(s->counts), LENT(s->work)};
        expect("format is accepted", KOPHDAEN_ANSWER(kophdaen_areas_format(&areas)) == 0);
        work(&areas, s, held);
        expect("the received pages are whole", kophdaen_whole(LENT(s->received)) == 1);
        s->received[0] ^= 2;
        expect("they are not without object 2", kophdaen_whole(LENT(s->received)) == 0);
    }
    expect("both forms answer the same and leave the same words", memcmp(&stores[0], &stores[1], sizeof(store)) == 0);
    return wrong;
}
