//! What a held call looks at and why, with its time.

use crate::report::{duration, head, line, Table};

/// By the name of its case: what the call looks at, what it writes, and which sentences of the definition need
/// it. A record has 6 words, of which a walk for what is left looks at the transaction; where it is one that is
/// walked for, at the kind too, and at the record's undoing word.
const CALLS: [(&str, &str, &str, &str); 23] = [
    (
        "begin",
        "3 words; 1 to 3 × R; 16 × P masks",
        "16 × P masks; a record; 3 words",
        "11: beyond what running transactions reserve, a record for each change that is left and one to end, \
         two must fit. t knows the root and nothing else, and its client is noted",
    ),
    (
        "commit",
        "4 words; P masks; 51 × P masks",
        "19 × P masks; 32 × P more, while a pass runs only the sixteens with t in one; 8 of t's marks; its \
         client; a record; 2 words",
        "10: no page has changes of t that are not flushed. t leaves every mask: readers, writers, unflushed, \
         known (19 × P); PRT and COT, where a flag stays while a pass runs (32 × P). Its marks end with it, and its client is \
         no longer noted",
    ),
    (
        "abort",
        "4 words; of each record since t's begin 1 to 3, twice, and 6 to 7; P masks; 129 for each page that t writes; \
         51 × P masks",
        "for each change left a record and what it changes; those pages' copies; masks, marks, client, a \
         record and 2 words as commit",
        "11: a record for each change that is left and one to end must fit. Those are undone, newest first; the \
         copies of the pages that t has locked for writing become the received pages; t leaves every mask",
    ),
    (
        "mark",
        "3 words; of each record since t's begin 1 to 3; the places of t's 4 marks",
        "those places; 1 word",
        "2, 4. The mark keeps how many changes of t are left, and becomes the last of t's marks",
    ),
    (
        "back",
        "5 words; of each record since t's begin 1 to 3, twice; 6 to 7 of each down to the oldest that is \
         undone; of each undone 1 mask, of a create 2; the places of t's 4 marks",
        "for each undone a record, what it changes, its undoing word and those masks; the count; 2 words of each \
         mark dropped",
        "2, 4; 16: the mark's place; 11: a record for each must fit. The changes since the mark that are left are \
         undone, newest first; unflushed gains t, known loses it; marks set later go",
    ),
    (
        "grant",
        "18 words",
        "1 word",
        "2; 4: the client of each transaction, beside the mask of those that are active. The right is the one given",
    ),
    (
        "lock_read",
        "6 words",
        "1 word",
        "2, 4; 19: t's client, and its right on the page; 6: no other writes the page, else who has it is told; t reads it, \
         unless it writes it",
    ),
    (
        "lock_write",
        "6 words",
        "2 words",
        "2, 4, 19 as of lock_read; 6: no other reads or writes the page, else who has it is told; t writes it, and reads it \
         no more",
    ),
    (
        "read",
        "5 words; the object's 8; a mask for each reference",
        "those masks; the buffer's 8",
        "2, 4; 5: either lock; 7: t knows the object. What the references name t knows now",
    ),
    (
        "create",
        "5 words; 1 to 3 × R; 3 masks",
        "those masks; a record; the count; the map and the slot's 8",
        "2, 4, 5; 8: the page's map; 11 as of begin. Unflushed, known and COT gain t",
    ),
    (
        "set_word",
        "5 words; 1 to 3 × R; of a reference 1 mask; the old word; 1 mask; of a reference that changes 3 words",
        "that mask; a record; the count; the word; of a reference that changes 1 mask, 1 colour",
        "2, 4, 5; 7: t knows the object and the new reference; 18: no word more; 11 as of begin. Unflushed gains t, \
         the PRT the old reference, which turns grey while the pass marks",
    ),
    (
        "flush",
        "4 words; the image's 128; the received page's 129, twice",
        "the copy's 129; 1 word",
        "2, 4, 5; 9: the image has what the received page's occupied slots have. The copy becomes the received page",
    ),
    ("force", "3 words", "1 word", "2; 4: a record is not stable"),
    (
        "store_page",
        "3 words; 2 × U; 129",
        "129",
        "2; 12: no record that names the page is unstable. The copy becomes the stored page",
    ),
    (
        "empty_log",
        "4 words; 2 × 129 × P",
        "2 words; L undoing words",
        "2; 13: none runs, all is stable, and each copy is its stored page. No record is left that going back appended",
    ),
    (
        "start_pass",
        "2 words; 32 × P masks, half of them twice",
        "32 × P masks; 16 × P colours; 3 words",
        "2, 4. Flagged entries leave PRT and COT; then the PRT makes the first colours",
    ),
    (
        "pass_step (mark)",
        "4 words; 16 for each page up to the lowest grey object's, on that page once more up to it; 1 + 4; \
         a colour for each reference",
        "its colour and those that turn grey; 3 words",
        "2, 4. The lowest grey object is scanned, if the copies have it",
    ),
    ("pass_step (turn)", "4 words; 16 × P", "3 words", "2, 4. No object is grey"),
    (
        "pass_step (sweep)",
        "6 words; 16 colours, 16 masks; where it frees 2 words, 1 to 3 × R and 2 × 129",
        "3 words; where it frees 2 × 129, a record and the count",
        "2, 4. Of a page that nobody writes all that is occupied, white and not in the COT is freed, in copy and \
         received page; 11: one record must fit beyond what is reserved",
    ),
    (
        "pass_step (skip)",
        "5 words; 16 colours, 16 masks",
        "3 words",
        "2, 4. Someone writes the page. By the paper's order its lock is tried where its colours and its COT leave \
         something to free, and the page is read after it",
    ),
    (
        "reopen_step",
        "2 words; 129",
        "129; 1 word",
        "4: the reopening runs. The copy becomes the stored page; after the last the counts, the undoing words and \
         the reopening are set",
    ),
    (
        "chain",
        "2 words; the 4 references of each object that the search takes until it has found this one",
        "the buffer's 4096",
        "2; 15: the copies' map. Of the chains with the fewest links the one with the lower object at the first \
         difference: the search finds objects in that order of their chains",
    ),
    ("pass_share", "1 word", "the buffer's 2", "2; 17: the number of commits. P, from a length, and that number make the share"),
];

/// With the times of a full log.
pub fn reads(table: &Table) -> String {
    let mut page = String::new();
    head(&mut page, &["call", "looks at", "writes", "why", "time"].map(String::from));
    for (call, seen, written, why) in CALLS {
        let row = table.rows.iter().find(|row| (row.name, row.number) == (call, 0)).expect("a case");
        let time = row.times[2].held.map_or("-".to_string(), duration);
        line(&mut page, &[&format!("`{call}`"), seen, written, why, &time].map(|cell| cell.to_string()));
    }
    page
}
