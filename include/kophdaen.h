/* The depot record server and its mark-sweep collector: the proved library's C functions.
 *
 * Every call on the store is lent the six areas of docs/LAYOUT.md, each as a pointer and its length
 * in words: stored pages, page copies, received pages (129 * P words each), the log (6 * L), the two
 * log counts (2) and the working tables (150 + 75 * P + L), with P from 1 to 256 and L from 1 to
 * 4096. kophdaen_whole and the two calls that arrange a page by columns are lent pages alone.
 * An area that a call only reads is const. The library keeps no pointer and allocates nothing. A
 * call takes the areas, then the buffer or the image that it is lent, then its numbers;
 * kophdaen_areas_NAME, at the end, takes the areas as one struct.
 *
 * What no call can look at is the caller's word: each pointer is valid for its length and aligned
 * as a uint32_t (with the length 0 it may be NULL, and the call answers 1), and what a call is lent
 * does not overlap, its image or buffer neither with an area.
 *
 * A call answers  answer number * 2^32 + value : number 0 where accepted, else the number of the
 * refusal (1 to 19), with every buffer as it was. A refusal's value is 0, but that of 6, which is a
 * transaction that has the page: see the locks. Any words may be lent, but to the held calls.
 * docs/CALLING.md has the refusals, what to write to the disk and when, and names whole programs.
 */
#ifndef KOPHDAEN_H
#define KOPHDAEN_H

#include <stddef.h>
#include <stdint.h>

#ifdef __cplusplus
extern "C" {
#endif

#define KOPHDAEN_ANSWER(code) ((uint32_t)((uint64_t)(code) >> 32))
#define KOPHDAEN_VALUE(code) ((uint32_t)(code))
#define KOPHDAEN_PAGE_WORDS 129u
#define KOPHDAEN_OBJECT_WORDS 8u
#define KOPHDAEN_CHAIN_WORDS 4096u
#define KOPHDAEN_SHARE_WORDS 2u
#define KOPHDAEN_RECORD_WORDS 6u
#define KOPHDAEN_COUNTS_WORDS 2u
#define KOPHDAEN_CLIENTS 8u
#define KOPHDAEN_WORK_WORDS(pages, records) (150u + 75u * (pages) + (records))

/* Makes the root and no other object. Checks lengths only. Value 0. */
uint64_t kophdaen_format(
    uint32_t *stored, size_t stored_words, uint32_t *copies, size_t copies_words,
    uint32_t *received, size_t received_words, uint32_t *log, size_t log_words,
    uint32_t *counts, size_t counts_words, uint32_t *work, size_t work_words);

/* Transactions t are 0 to 15; t begins as the tablet client, 0 to 7, whose rights decide what it may
 * lock. Refusals in order: 1, 2, 3 (t or client out of range), 4 (t active), 11. Value of begin, commit
 * and abort: the received count. */
uint64_t kophdaen_begin(
    const uint32_t *stored, size_t stored_words, const uint32_t *copies, size_t copies_words,
    uint32_t *received, size_t received_words, uint32_t *log, size_t log_words,
    uint32_t *counts, size_t counts_words, uint32_t *work, size_t work_words,
    uint32_t t, uint32_t client);

uint64_t kophdaen_commit(
    const uint32_t *stored, size_t stored_words, const uint32_t *copies, size_t copies_words,
    uint32_t *received, size_t received_words, uint32_t *log, size_t log_words,
    uint32_t *counts, size_t counts_words, uint32_t *work, size_t work_words, uint32_t t);

uint64_t kophdaen_abort(
    const uint32_t *stored, size_t stored_words, uint32_t *copies, size_t copies_words,
    uint32_t *received, size_t received_words, uint32_t *log, size_t log_words,
    uint32_t *counts, size_t counts_words, uint32_t *work, size_t work_words, uint32_t t);

/* Sets one of t's marks, 0 to 3, or sets it again: it is then the last one set. Marks end with t. Takes
 * no log record. Refusals in order: 1, 2, 3 (t or mark out of range), 4 (t not active). Value 0. */
uint64_t kophdaen_mark(
    const uint32_t *stored, size_t stored_words, const uint32_t *copies, size_t copies_words,
    const uint32_t *received, size_t received_words, const uint32_t *log, size_t log_words,
    const uint32_t *counts, size_t counts_words, uint32_t *work, size_t work_words,
    uint32_t t, uint32_t mark);

/* Undoes t's creates and sets since the mark that are not undone yet, newest first, each by a record of
 * its own. The mark stays, those set after it are dropped. The pages touched need flushing again; t no
 * longer knows the objects whose create is undone; it keeps its locks. Refusals in order: 1, 2, 3, 4,
 * 16 (mark not set), 11 (only in a state that no calls lead to). Value 0. */
uint64_t kophdaen_back(
    const uint32_t *stored, size_t stored_words, const uint32_t *copies, size_t copies_words,
    uint32_t *received, size_t received_words, uint32_t *log, size_t log_words,
    uint32_t *counts, size_t counts_words, uint32_t *work, size_t work_words,
    uint32_t t, uint32_t mark);

/* Gives client (0 to 7) the right on the page: 0 nothing, 1 reading, 2 reading and writing. A formatted
 * and a reopened store give nobody a right; they are not on the disk. Refusals in order: 1, 2, 3 (client,
 * page or right out of range), 4 (a transaction of that client is active). Value 0. */
uint64_t kophdaen_grant(
    const uint32_t *stored, size_t stored_words, const uint32_t *copies, size_t copies_words,
    const uint32_t *received, size_t received_words, const uint32_t *log, size_t log_words,
    const uint32_t *counts, size_t counts_words, uint32_t *work, size_t work_words,
    uint32_t client, uint32_t page, uint32_t right);

/* To lock a page for reading t's client needs the right 1, for writing 2; else 19, after 4 and before 6.
 * Locks never wait. Value 0; where the answer is 6, KOPHDAEN_VALUE(code) tells whom to call: the
 * lowest-numbered other transaction with any lock on the page, for reading or for writing (0 is
 * transaction 0). */
uint64_t kophdaen_lock_read(
    const uint32_t *stored, size_t stored_words, const uint32_t *copies, size_t copies_words,
    const uint32_t *received, size_t received_words, const uint32_t *log, size_t log_words,
    const uint32_t *counts, size_t counts_words, uint32_t *work, size_t work_words,
    uint32_t t, uint32_t page);

uint64_t kophdaen_lock_write(
    const uint32_t *stored, size_t stored_words, const uint32_t *copies, size_t copies_words,
    const uint32_t *received, size_t received_words, const uint32_t *log, size_t log_words,
    const uint32_t *counts, size_t counts_words, uint32_t *work, size_t work_words,
    uint32_t t, uint32_t page);

/* Puts the object's eight received words into buffer, of eight words. Value: word 0. */
uint64_t kophdaen_read(
    const uint32_t *stored, size_t stored_words, const uint32_t *copies, size_t copies_words,
    const uint32_t *received, size_t received_words, const uint32_t *log, size_t log_words,
    const uint32_t *counts, size_t counts_words, uint32_t *work, size_t work_words,
    uint32_t *buffer, size_t buffer_words, uint32_t t, uint32_t object);

/* Value: the received count. */
uint64_t kophdaen_create(
    const uint32_t *stored, size_t stored_words, const uint32_t *copies, size_t copies_words,
    uint32_t *received, size_t received_words, uint32_t *log, size_t log_words,
    uint32_t *counts, size_t counts_words, uint32_t *work, size_t work_words,
    uint32_t t, uint32_t object);

/* Into a reference word (field 0 to 3) go 0 and objects that t knows, but for the object itself: refused
 * with 18, after 7 and before 11, also where the word has it already. Data words take any word. Value:
 * the received count. */
uint64_t kophdaen_set_word(
    const uint32_t *stored, size_t stored_words, const uint32_t *copies, size_t copies_words,
    uint32_t *received, size_t received_words, uint32_t *log, size_t log_words,
    uint32_t *counts, size_t counts_words, uint32_t *work, size_t work_words,
    uint32_t t, uint32_t object, uint32_t field, uint32_t word);

/* image, of 129 words: each slot that is occupied in the received page has its eight words there.
 * The image's map and its other slots may be anything. The copy takes the received page. Value 0. */
uint64_t kophdaen_flush(
    const uint32_t *stored, size_t stored_words, uint32_t *copies, size_t copies_words,
    const uint32_t *received, size_t received_words, const uint32_t *log, size_t log_words,
    const uint32_t *counts, size_t counts_words, uint32_t *work, size_t work_words,
    const uint32_t *image, size_t image_words, uint32_t t, uint32_t page);

/* Makes one more record stable. Value: the stable count. */
uint64_t kophdaen_force(
    const uint32_t *stored, size_t stored_words, const uint32_t *copies, size_t copies_words,
    const uint32_t *received, size_t received_words, const uint32_t *log, size_t log_words,
    uint32_t *counts, size_t counts_words, const uint32_t *work, size_t work_words);

/* Writes one copy to the stored pages. Value 0. */
uint64_t kophdaen_store_page(
    uint32_t *stored, size_t stored_words, const uint32_t *copies, size_t copies_words,
    const uint32_t *received, size_t received_words, const uint32_t *log, size_t log_words,
    const uint32_t *counts, size_t counts_words, const uint32_t *work, size_t work_words,
    uint32_t page);

/* Sets both counts to 0, and the undoing words. Value 0. */
uint64_t kophdaen_empty_log(
    const uint32_t *stored, size_t stored_words, const uint32_t *copies, size_t copies_words,
    const uint32_t *received, size_t received_words, const uint32_t *log, size_t log_words,
    uint32_t *counts, size_t counts_words, uint32_t *work, size_t work_words);

/* Value 0. */
uint64_t kophdaen_start_pass(
    const uint32_t *stored, size_t stored_words, const uint32_t *copies, size_t copies_words,
    const uint32_t *received, size_t received_words, const uint32_t *log, size_t log_words,
    const uint32_t *counts, size_t counts_words, uint32_t *work, size_t work_words);

/* One object or one page; a page that someone has locked for writing is skipped. Value: the object
 * scanned or the slots freed; 0 for the turn. */
uint64_t kophdaen_pass_step(
    const uint32_t *stored, size_t stored_words, uint32_t *copies, size_t copies_words,
    uint32_t *received, size_t received_words, uint32_t *log, size_t log_words,
    uint32_t *counts, size_t counts_words, uint32_t *work, size_t work_words);

/* Replays the stable log over the stored pages. Checks lengths only for refusal 1. Takes 134 kB of
 * stack. Value 0. */
uint64_t kophdaen_reopen(
    const uint32_t *stored, size_t stored_words, uint32_t *copies, size_t copies_words,
    uint32_t *received, size_t received_words, const uint32_t *log, size_t log_words,
    uint32_t *counts, size_t counts_words, uint32_t *work, size_t work_words);

/* Stores one page, lastly empties the log. Value: the page stored, lastly P. */
uint64_t kophdaen_reopen_step(
    uint32_t *stored, size_t stored_words, const uint32_t *copies, size_t copies_words,
    const uint32_t *received, size_t received_words, const uint32_t *log, size_t log_words,
    uint32_t *counts, size_t counts_words, uint32_t *work, size_t work_words);

/* Puts a chain of references in the page copies, from the root to the object, into chain, of 4096
 * words: root first, then zeros; all zeros where there is none. It has the fewest links, and of equally
 * short ones it is the one with the lower object at the first difference, read from the root. Answers
 * 15 where the object's slot is free in the copies. Takes 33 kB of stack. Value: the chain's number of
 * objects, or 0. */
uint64_t kophdaen_chain(
    const uint32_t *stored, size_t stored_words, const uint32_t *copies, size_t copies_words,
    const uint32_t *received, size_t received_words, const uint32_t *log, size_t log_words,
    const uint32_t *counts, size_t counts_words, const uint32_t *work, size_t work_words,
    uint32_t *chain, size_t chain_words, uint32_t object);

/* Puts into share, of two words, what each of a number of commits, 1 to 4096, owes of the steps of a
 * pass, so that it is over after the last: the whole share, (17 * P + 1) / commits, then the remainder;
 * the first so many commits owe one step more. Answers 17 where commits is out of range. Value: the
 * whole share. */
uint64_t kophdaen_pass_share(
    const uint32_t *stored, size_t stored_words, const uint32_t *copies, size_t copies_words,
    const uint32_t *received, size_t received_words, const uint32_t *log, size_t log_words,
    const uint32_t *counts, size_t counts_words, const uint32_t *work, size_t work_words,
    uint32_t *share, size_t share_words, uint32_t commits);

/* Whether every object that the root reaches is occupied, in one page area: stored, copies or
 * received. Reaches: the root, and what words 0 to 3 of a reached object name, where not 0; an object
 * above 16 * P is not occupied. Answers 1 where the length is not 129 * P. Takes 33 kB of stack.
 * Value: 1 if so, else 0. */
uint64_t kophdaen_whole(const uint32_t *pages, size_t pages_words);

/* A page by columns, for a backup: out gets page's map, then eight rows of sixteen words, row w being
 * word w of slots 0 to 15 in order. kophdaen_from_columns is the inverse: out gets the page of which
 * page holds the columns. Either order gives the page back, whatever its words: none is tested. page is
 * only read, every word of out is written; the two must not overlap. No store is lent. Both answer 1
 * where either length is not 129. Value 0. */
uint64_t kophdaen_to_columns(const uint32_t *page, size_t page_words, uint32_t *out, size_t out_words);
uint64_t kophdaen_from_columns(const uint32_t *page, size_t page_words, uint32_t *out, size_t out_words);

/* Held calls: kophdaen_held_NAME is kophdaen_NAME, the same answer and the same words, but does not
 * look at every word of the areas for refusal 1. The caller guarantees instead, and nothing checks:
 *   - kophdaen_format has accepted the areas; or kophdaen_reopen has, with what a disk held, and
 *     kophdaen_whole then found the received pages whole (value 1), before the first reopening step;
 *   - since then only calls, lent or held, and cuts have changed the areas;
 *   - a read buffer has 8 words, an image 129, a chain's buffer 4096, a share's 2.
 * A held call on anything else may do anything. Refusal 2 and all others are answered as ever. An
 * audit is a lent call that changes nothing, as kophdaen_lock_read with t = 16: it answers 1 only
 * where some word is out of range, else 2 or 3. */
__typeof__(kophdaen_begin) kophdaen_held_begin;
__typeof__(kophdaen_commit) kophdaen_held_commit;
__typeof__(kophdaen_abort) kophdaen_held_abort;
__typeof__(kophdaen_mark) kophdaen_held_mark;
__typeof__(kophdaen_back) kophdaen_held_back;
__typeof__(kophdaen_grant) kophdaen_held_grant;
__typeof__(kophdaen_lock_read) kophdaen_held_lock_read;
__typeof__(kophdaen_lock_write) kophdaen_held_lock_write;
__typeof__(kophdaen_read) kophdaen_held_read;
__typeof__(kophdaen_create) kophdaen_held_create;
__typeof__(kophdaen_set_word) kophdaen_held_set_word;
__typeof__(kophdaen_flush) kophdaen_held_flush;
__typeof__(kophdaen_force) kophdaen_held_force;
__typeof__(kophdaen_store_page) kophdaen_held_store_page;
__typeof__(kophdaen_empty_log) kophdaen_held_empty_log;
__typeof__(kophdaen_start_pass) kophdaen_held_start_pass;
__typeof__(kophdaen_pass_step) kophdaen_held_pass_step;
__typeof__(kophdaen_reopen_step) kophdaen_held_reopen_step;
__typeof__(kophdaen_chain) kophdaen_held_chain;
__typeof__(kophdaen_pass_share) kophdaen_held_pass_share;

/* The six areas as one value, and every call on it: what stands above, with the areas in one argument. */
typedef struct kophdaen_areas {
    uint32_t *stored;
    size_t stored_words;
    uint32_t *copies;
    size_t copies_words;
    uint32_t *received;
    size_t received_words;
    uint32_t *log;
    size_t log_words;
    uint32_t *counts;
    size_t counts_words;
    uint32_t *work;
    size_t work_words;
} kophdaen_areas;

#define KOPHDAEN_LENT(a) \
    (a)->stored, (a)->stored_words, (a)->copies, (a)->copies_words, (a)->received, (a)->received_words, \
        (a)->log, (a)->log_words, (a)->counts, (a)->counts_words, (a)->work, (a)->work_words

static inline uint64_t kophdaen_areas_format(const kophdaen_areas *areas)
{
    return kophdaen_format(KOPHDAEN_LENT(areas));
}

static inline uint64_t kophdaen_areas_begin(const kophdaen_areas *areas, uint32_t t, uint32_t client)
{
    return kophdaen_begin(KOPHDAEN_LENT(areas), t, client);
}

static inline uint64_t kophdaen_areas_commit(const kophdaen_areas *areas, uint32_t t)
{
    return kophdaen_commit(KOPHDAEN_LENT(areas), t);
}

static inline uint64_t kophdaen_areas_abort(const kophdaen_areas *areas, uint32_t t)
{
    return kophdaen_abort(KOPHDAEN_LENT(areas), t);
}

static inline uint64_t kophdaen_areas_mark(const kophdaen_areas *areas, uint32_t t, uint32_t mark)
{
    return kophdaen_mark(KOPHDAEN_LENT(areas), t, mark);
}

static inline uint64_t kophdaen_areas_back(const kophdaen_areas *areas, uint32_t t, uint32_t mark)
{
    return kophdaen_back(KOPHDAEN_LENT(areas), t, mark);
}

static inline uint64_t kophdaen_areas_grant(
    const kophdaen_areas *areas, uint32_t client, uint32_t page, uint32_t right)
{
    return kophdaen_grant(KOPHDAEN_LENT(areas), client, page, right);
}

static inline uint64_t kophdaen_areas_lock_read(
    const kophdaen_areas *areas, uint32_t t, uint32_t page)
{
    return kophdaen_lock_read(KOPHDAEN_LENT(areas), t, page);
}

static inline uint64_t kophdaen_areas_lock_write(
    const kophdaen_areas *areas, uint32_t t, uint32_t page)
{
    return kophdaen_lock_write(KOPHDAEN_LENT(areas), t, page);
}

static inline uint64_t kophdaen_areas_read(
    const kophdaen_areas *areas, uint32_t *buffer, size_t buffer_words, uint32_t t, uint32_t object)
{
    return kophdaen_read(KOPHDAEN_LENT(areas), buffer, buffer_words, t, object);
}

static inline uint64_t kophdaen_areas_create(
    const kophdaen_areas *areas, uint32_t t, uint32_t object)
{
    return kophdaen_create(KOPHDAEN_LENT(areas), t, object);
}

static inline uint64_t kophdaen_areas_set_word(
    const kophdaen_areas *areas, uint32_t t, uint32_t object, uint32_t field, uint32_t word)
{
    return kophdaen_set_word(KOPHDAEN_LENT(areas), t, object, field, word);
}

static inline uint64_t kophdaen_areas_flush(
    const kophdaen_areas *areas, const uint32_t *image, size_t image_words, uint32_t t, uint32_t page)
{
    return kophdaen_flush(KOPHDAEN_LENT(areas), image, image_words, t, page);
}

static inline uint64_t kophdaen_areas_force(const kophdaen_areas *areas)
{
    return kophdaen_force(KOPHDAEN_LENT(areas));
}

static inline uint64_t kophdaen_areas_store_page(const kophdaen_areas *areas, uint32_t page)
{
    return kophdaen_store_page(KOPHDAEN_LENT(areas), page);
}

static inline uint64_t kophdaen_areas_empty_log(const kophdaen_areas *areas)
{
    return kophdaen_empty_log(KOPHDAEN_LENT(areas));
}

static inline uint64_t kophdaen_areas_start_pass(const kophdaen_areas *areas)
{
    return kophdaen_start_pass(KOPHDAEN_LENT(areas));
}

static inline uint64_t kophdaen_areas_pass_step(const kophdaen_areas *areas)
{
    return kophdaen_pass_step(KOPHDAEN_LENT(areas));
}

static inline uint64_t kophdaen_areas_reopen(const kophdaen_areas *areas)
{
    return kophdaen_reopen(KOPHDAEN_LENT(areas));
}

static inline uint64_t kophdaen_areas_reopen_step(const kophdaen_areas *areas)
{
    return kophdaen_reopen_step(KOPHDAEN_LENT(areas));
}

static inline uint64_t kophdaen_areas_chain(
    const kophdaen_areas *areas, uint32_t *chain, size_t chain_words, uint32_t object)
{
    return kophdaen_chain(KOPHDAEN_LENT(areas), chain, chain_words, object);
}

static inline uint64_t kophdaen_areas_pass_share(
    const kophdaen_areas *areas, uint32_t *share, size_t share_words, uint32_t commits)
{
    return kophdaen_pass_share(KOPHDAEN_LENT(areas), share, share_words, commits);
}

/* .. and the held ones. */
static inline uint64_t kophdaen_areas_held_begin(
    const kophdaen_areas *areas, uint32_t t, uint32_t client)
{
    return kophdaen_held_begin(KOPHDAEN_LENT(areas), t, client);
}

static inline uint64_t kophdaen_areas_held_commit(const kophdaen_areas *areas, uint32_t t)
{
    return kophdaen_held_commit(KOPHDAEN_LENT(areas), t);
}

static inline uint64_t kophdaen_areas_held_abort(const kophdaen_areas *areas, uint32_t t)
{
    return kophdaen_held_abort(KOPHDAEN_LENT(areas), t);
}

static inline uint64_t kophdaen_areas_held_mark(const kophdaen_areas *areas, uint32_t t, uint32_t mark)
{
    return kophdaen_held_mark(KOPHDAEN_LENT(areas), t, mark);
}

static inline uint64_t kophdaen_areas_held_back(const kophdaen_areas *areas, uint32_t t, uint32_t mark)
{
    return kophdaen_held_back(KOPHDAEN_LENT(areas), t, mark);
}

static inline uint64_t kophdaen_areas_held_grant(
    const kophdaen_areas *areas, uint32_t client, uint32_t page, uint32_t right)
{
    return kophdaen_held_grant(KOPHDAEN_LENT(areas), client, page, right);
}

static inline uint64_t kophdaen_areas_held_lock_read(
    const kophdaen_areas *areas, uint32_t t, uint32_t page)
{
    return kophdaen_held_lock_read(KOPHDAEN_LENT(areas), t, page);
}

static inline uint64_t kophdaen_areas_held_lock_write(
    const kophdaen_areas *areas, uint32_t t, uint32_t page)
{
    return kophdaen_held_lock_write(KOPHDAEN_LENT(areas), t, page);
}

static inline uint64_t kophdaen_areas_held_read(
    const kophdaen_areas *areas, uint32_t *buffer, size_t buffer_words, uint32_t t, uint32_t object)
{
    return kophdaen_held_read(KOPHDAEN_LENT(areas), buffer, buffer_words, t, object);
}

static inline uint64_t kophdaen_areas_held_create(
    const kophdaen_areas *areas, uint32_t t, uint32_t object)
{
    return kophdaen_held_create(KOPHDAEN_LENT(areas), t, object);
}

static inline uint64_t kophdaen_areas_held_set_word(
    const kophdaen_areas *areas, uint32_t t, uint32_t object, uint32_t field, uint32_t word)
{
    return kophdaen_held_set_word(KOPHDAEN_LENT(areas), t, object, field, word);
}

static inline uint64_t kophdaen_areas_held_flush(
    const kophdaen_areas *areas, const uint32_t *image, size_t image_words, uint32_t t, uint32_t page)
{
    return kophdaen_held_flush(KOPHDAEN_LENT(areas), image, image_words, t, page);
}

static inline uint64_t kophdaen_areas_held_force(const kophdaen_areas *areas)
{
    return kophdaen_held_force(KOPHDAEN_LENT(areas));
}

static inline uint64_t kophdaen_areas_held_store_page(const kophdaen_areas *areas, uint32_t page)
{
    return kophdaen_held_store_page(KOPHDAEN_LENT(areas), page);
}

static inline uint64_t kophdaen_areas_held_empty_log(const kophdaen_areas *areas)
{
    return kophdaen_held_empty_log(KOPHDAEN_LENT(areas));
}

static inline uint64_t kophdaen_areas_held_start_pass(const kophdaen_areas *areas)
{
    return kophdaen_held_start_pass(KOPHDAEN_LENT(areas));
}

static inline uint64_t kophdaen_areas_held_pass_step(const kophdaen_areas *areas)
{
    return kophdaen_held_pass_step(KOPHDAEN_LENT(areas));
}

static inline uint64_t kophdaen_areas_held_reopen_step(const kophdaen_areas *areas)
{
    return kophdaen_held_reopen_step(KOPHDAEN_LENT(areas));
}

static inline uint64_t kophdaen_areas_held_chain(
    const kophdaen_areas *areas, uint32_t *chain, size_t chain_words, uint32_t object)
{
    return kophdaen_held_chain(KOPHDAEN_LENT(areas), chain, chain_words, object);
}

static inline uint64_t kophdaen_areas_held_pass_share(
    const kophdaen_areas *areas, uint32_t *share, size_t share_words, uint32_t commits)
{
    return kophdaen_held_pass_share(KOPHDAEN_LENT(areas), share, share_words, commits);
}

#undef KOPHDAEN_LENT

#ifdef __cplusplus
}
#endif

#endif
