/* A depot's day through the C functions: a dispenser with two valves, one of them replaced, what
 * leads to the old one, a contractor's tablet, how a pass can be spread, a pass that frees it, a meter layout that is tried
 * and taken back, a page that another has, a power cut in the middle of a job, and the start after it.
 * docs/CALLING.md explains the calls; examples/depot.rs is the same day in Rust. */
#include <inttypes.h>
#include <stdio.h>
#include <stdlib.h>
#include <string.h>

#include "kophdaen.h"

enum { PAGES = 4, RECORDS = 64, PAGE_WORDS = KOPHDAEN_PAGE_WORDS, RECORD_WORDS = KOPHDAEN_RECORD_WORDS };
enum { ROOT = 1, DISPENSER = 17, OLD_VALVE = 18, OTHER_VALVE = 19, NEW_VALVE = 20, METER = 21, TRIED_METER = 22 };
enum { SHOP = 0, CONTRACTOR = 1 }; /* clients: docs/RIGHTS.md */
enum { READING = 1, WRITING = 2 };
enum { METER_WORD = 2 };          /* the dispenser's reference to its meter */
enum { SERIAL = 4 };              /* the data word with a valve's serial number */
enum { PHASE = 2, SWEEPING = 2 }; /* the pass phase in the working tables: docs/LAYOUT.md */

/* The six areas, each lent as a pointer and its length in words. */
static uint32_t stored[PAGES * PAGE_WORDS], copies[PAGES * PAGE_WORDS], received[PAGES * PAGE_WORDS];
static uint32_t records[RECORDS * RECORD_WORDS], counts[KOPHDAEN_COUNTS_WORDS];
static uint32_t work[KOPHDAEN_WORK_WORDS(PAGES, RECORDS)];
#define LENT(area) area, sizeof area / sizeof *area
static const kophdaen_areas depot = {LENT(stored), LENT(copies), LENT(received),
                                     LENT(records), LENT(counts), LENT(work)};

/* The disk: all that a cut leaves. Here it is memory; a server has a file. */
static struct {
    uint32_t pages[PAGES * PAGE_WORDS], records[RECORDS * RECORD_WORDS], stable;
} disk;

static void write_page(uint32_t page)
{
    memcpy(disk.pages + page * PAGE_WORDS, stored + page * PAGE_WORDS, PAGE_WORDS * sizeof *stored);
}

/* The records before the count: the count is what makes them stable. */
static void write_log(void)
{
    memcpy(disk.records, records, counts[1] * RECORD_WORDS * sizeof *records);
    disk.stable = counts[1];
}

/* The value of an accepted call. This day expects no refusals but those that it prints. */
static uint32_t done(uint64_t code)
{
    if (KOPHDAEN_ANSWER(code) != 0) {
        fprintf(stderr, "refused with %" PRIu32 "\n", KOPHDAEN_ANSWER(code));
        exit(1);
    }
    return KOPHDAEN_VALUE(code);
}

/* Rights are not on the disk: after each start the shop's tablets get all of them, and the contractor's
 * may read the page of the root. */
static void give_rights(void)
{
    for (uint32_t page = 0; page < PAGES; page++)
        done(kophdaen_areas_grant(&depot, SHOP, page, WRITING));
    done(kophdaen_areas_grant(&depot, CONTRACTOR, 0, READING));
}

/* A new store. */
static void format(void)
{
    done(kophdaen_areas_format(&depot));
    for (uint32_t page = 0; page < PAGES; page++)
        write_page(page);
    write_log();
    give_rights();
}

/* The start after a cut: areas of zeros, what the disk has, then the reopening. */
static void start(void)
{
    uint32_t page;
    memset(copies, 0, sizeof copies);
    memset(received, 0, sizeof received);
    memset(records, 0, sizeof records);
    memset(work, 0, sizeof work);
    memcpy(stored, disk.pages, sizeof stored);
    memcpy(records, disk.records, disk.stable * RECORD_WORDS * sizeof *records);
    counts[0] = 0;
    counts[1] = disk.stable;
    done(kophdaen_areas_reopen(&depot));
    do {
        page = done(kophdaen_areas_reopen_step(&depot));
        if (page < PAGES)
            write_page(page);
        else
            write_log();
    } while (page < PAGES);
    give_rights();
}

/* Makes every record stable: from here on no cut undoes a committed transaction. */
static void force_all(void)
{
    while (counts[1] < counts[0]) {
        done(kophdaen_areas_force(&depot));
        write_log();
    }
}

/* Makes room in the log: every page stored, then no record is needed any more. */
static void empty_log(void)
{
    force_all();
    for (uint32_t page = 0; page < PAGES; page++) {
        done(kophdaen_areas_store_page(&depot, page));
        write_page(page);
    }
    done(kophdaen_areas_empty_log(&depot));
    write_log();
}

/* A tablet sends its image of a page that it changed. */
static void flush(uint32_t t, uint32_t page)
{
    uint32_t image[PAGE_WORDS];
    memcpy(image, received + page * PAGE_WORDS, sizeof image);
    done(kophdaen_areas_flush(&depot, LENT(image), t, page));
}

/* The dispenser below the root, with two valves. */
static void install(uint32_t t)
{
    done(kophdaen_areas_begin(&depot, t, SHOP));
    done(kophdaen_areas_lock_write(&depot, t, 0));
    done(kophdaen_areas_lock_write(&depot, t, 1));
    done(kophdaen_areas_create(&depot, t, DISPENSER));
    done(kophdaen_areas_create(&depot, t, OLD_VALVE));
    done(kophdaen_areas_create(&depot, t, OTHER_VALVE));
    done(kophdaen_areas_set_word(&depot, t, ROOT, 0, DISPENSER));
    done(kophdaen_areas_set_word(&depot, t, DISPENSER, 0, OLD_VALVE));
    done(kophdaen_areas_set_word(&depot, t, DISPENSER, 1, OTHER_VALVE));
    done(kophdaen_areas_set_word(&depot, t, OLD_VALVE, SERIAL, 50118));
    flush(t, 0);
    flush(t, 1);
    done(kophdaen_areas_commit(&depot, t));
}

/* Transaction t begins, and finds its way from the root to the dispenser: what it read, it knows. */
static void reach_dispenser(uint32_t t)
{
    uint32_t words[KOPHDAEN_OBJECT_WORDS];
    done(kophdaen_areas_begin(&depot, t, SHOP));
    done(kophdaen_areas_lock_read(&depot, t, 0));
    done(kophdaen_areas_read(&depot, LENT(words), t, ROOT));
    done(kophdaen_areas_lock_write(&depot, t, 1));
    done(kophdaen_areas_read(&depot, LENT(words), t, DISPENSER));
}

static void replace_valve(uint32_t t)
{
    reach_dispenser(t);
    done(kophdaen_areas_create(&depot, t, NEW_VALVE));
    done(kophdaen_areas_set_word(&depot, t, DISPENSER, 0, NEW_VALVE));
    done(kophdaen_areas_set_word(&depot, t, NEW_VALVE, SERIAL, 50233));
    flush(t, 1);
    done(kophdaen_areas_commit(&depot, t));
}

/* How the steps of a pass can be spread over so many commits. */
static void spread(uint32_t commits)
{
    uint32_t share[KOPHDAEN_SHARE_WORDS];
    done(kophdaen_areas_pass_share(&depot, LENT(share), commits));
    printf("a pass over %" PRIu32 " commits: %" PRIu32 " steps each, the first %" PRIu32 " one more\n", commits, share[0],
           share[1]);
}

/* A whole pass; the number of slots that it freed. */
static uint32_t collect(void)
{
    uint32_t freed = 0;
    done(kophdaen_areas_start_pass(&depot));
    while (work[PHASE] != 0) {
        int sweeping = work[PHASE] == SWEEPING;
        uint32_t value = done(kophdaen_areas_pass_step(&depot));
        freed += sweeping ? value : 0;
    }
    return freed;
}

/* Reads the valve that the dispenser names in its word 0, then asks for the old one. */
static void show(uint32_t t)
{
    uint32_t words[KOPHDAEN_OBJECT_WORDS], valve;
    reach_dispenser(t);
    valve = done(kophdaen_areas_read(&depot, LENT(words), t, DISPENSER));
    done(kophdaen_areas_read(&depot, LENT(words), t, valve));
    printf("dispenser %d: valve %" PRIu32 ", serial number %" PRIu32 "\n", DISPENSER, valve, words[SERIAL]);
    printf("valve %d: answer %" PRIu32 "\n", OLD_VALVE,
           KOPHDAEN_ANSWER(kophdaen_areas_read(&depot, LENT(words), t, OLD_VALVE)));
    done(kophdaen_areas_commit(&depot, t));
}

/* Why is the old valve still here: the objects that lead to it from the root. */
static void why(void)
{
    uint32_t chain[KOPHDAEN_CHAIN_WORDS], objects = done(kophdaen_areas_chain(&depot, LENT(chain), OLD_VALVE));
    printf("chain to valve %d, %" PRIu32 " objects:", OLD_VALVE, objects);
    for (uint32_t i = 0; i < objects; i++)
        printf(" %" PRIu32, chain[i]);
    printf("\n");
}

/* A contractor's tablet finds the dispenser's number at the root, and may not look at its page. */
static void contract(uint32_t t)
{
    uint32_t words[KOPHDAEN_OBJECT_WORDS];
    done(kophdaen_areas_begin(&depot, t, CONTRACTOR));
    done(kophdaen_areas_lock_read(&depot, t, 0));
    printf("contractor: dispenser %" PRIu32, done(kophdaen_areas_read(&depot, LENT(words), t, ROOT)));
    printf(", its page: answer %" PRIu32 "\n", KOPHDAEN_ANSWER(kophdaen_areas_lock_read(&depot, t, 1)));
    done(kophdaen_areas_abort(&depot, t));
}

static void fit_meter(uint32_t t, uint32_t meter)
{
    done(kophdaen_areas_create(&depot, t, meter));
    done(kophdaen_areas_set_word(&depot, t, DISPENSER, METER_WORD, meter));
    flush(t, 1);
}

static void show_meter(uint32_t t, const char *when)
{
    uint32_t words[KOPHDAEN_OBJECT_WORDS];
    done(kophdaen_areas_read(&depot, LENT(words), t, DISPENSER));
    printf("%s: dispenser %d, meter %" PRIu32 "\n", when, DISPENSER, words[METER_WORD]);
}

/* A crew fits a meter, tries another layout, and goes back to the mark that it set between them. */
static void lay_out(uint32_t t)
{
    enum { FITTED = 0 }; /* marks are 0 to 3 */
    reach_dispenser(t);
    fit_meter(t, METER);
    done(kophdaen_areas_mark(&depot, t, FITTED));
    fit_meter(t, TRIED_METER);
    show_meter(t, "tried");
    done(kophdaen_areas_back(&depot, t, FITTED));
    show_meter(t, "back");
    flush(t, 1); /* going back touched the page */
    done(kophdaen_areas_commit(&depot, t));
}

/* Another crew asks for a page that is taken, and is told whom to call. */
static void who_has(uint32_t t, uint32_t page)
{
    uint64_t code;
    done(kophdaen_areas_begin(&depot, t, SHOP));
    code = kophdaen_areas_lock_read(&depot, t, page);
    printf("page %" PRIu32 ": answer %" PRIu32 ", transaction %" PRIu32 " has it\n", page, KOPHDAEN_ANSWER(code),
           KOPHDAEN_VALUE(code));
    done(kophdaen_areas_abort(&depot, t));
}

int main(void)
{
    format();
    install(0);
    show(0);
    why();
    contract(0);
    empty_log();
    replace_valve(1);
    why();
    spread(10);
    printf("slots freed: %" PRIu32 "\n", collect());
    lay_out(1);
    reach_dispenser(2);
    who_has(3, 1);
    done(kophdaen_areas_set_word(&depot, 2, DISPENSER, 0, 0)); /* a job that the cut stops */
    force_all();
    printf("power cut: %" PRIu32 " records stable\n", disk.stable);
    start();
    show(3);
    return 0;
}
