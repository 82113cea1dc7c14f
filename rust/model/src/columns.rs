//! Document 02, L5: "Copy pages by column."

use crate::faults::Fault;
use crate::layout::*;
use crate::{refuse, Answer};

/// "what precedes the rows": the map.
const HEAD_WORDS: usize = 1;
/// "sixteen rows of eight words"
const ROW_WORDS: usize = 8;

/// "Before a page goes to backup its sixteen rows of eight words become eight rows of sixteen".
pub fn to_columns(page: &[u32], out: &mut [u32], fault: Fault) -> Answer {
    let arranged = |page: &[u32]| match fault {
        Fault::ToColumnsTurnsBack => restored(page, fault),
        _ => by_columns(&carried(page, fault), fault),
    };
    fill(page, out, arranged, fault)
}

/// ".. and the inverse restores it."
pub fn from_columns(page: &[u32], out: &mut [u32], fault: Fault) -> Answer {
    let arranged = |page: &[u32]| match fault {
        Fault::FromColumnsTurnsOn => by_columns(page, fault),
        _ => carried(&restored(page, fault), fault),
    };
    fill(page, out, arranged, fault)
}

/// "It needs no store and fills a second lent page; a wrong length is 1." Accepted, the value is 0, and every word of
/// out is settled (DECISIONS 82).
fn fill(page: &[u32], out: &mut [u32], arranged: impl Fn(&[u32]) -> Vec<u32>, fault: Fault) -> Answer {
    written_early(page, out, fault);
    lengths(page.len(), out.len(), fault)?;
    refuse(14, fault == Fault::ColumnsUnsoundMapRefused && page[0] > 65535)?;

    let words = match fault {
        Fault::ColumnsOfSeveralPages => page.chunks(PAGE_WORDS).flat_map(arranged).collect(),
        Fault::ColumnsOfAnyLength | Fault::ColumnsOfEqualLengths => arranged(&cut_to_page(page)),
        _ => arranged(page),
    };
    put(out, words, fault);
    Ok(match fault {
        Fault::ColumnsTellWords => PAGE_WORDS as u32,
        Fault::ColumnsTellHead => out[0],
        _ => 0,
    })
}

fn put(out: &mut [u32], words: Vec<u32>, fault: Fault) {
    let written = match fault {
        Fault::ColumnsHeadUnwritten => HEAD_WORDS..out.len(),
        Fault::ColumnsLastWordUnwritten => 0..out.len() - 1,
        _ => 0..out.len(),
    };
    if fault == Fault::ColumnsIntoLongerOut {
        out.fill(0);
    }
    let places = out.iter_mut().zip(words).take(written.end).skip(written.start);
    places.for_each(|(place, word)| *place = word);
}

/// "a wrong length is 1": of either.
fn lengths(page: usize, out: usize, fault: Fault) -> Result<(), u32> {
    let [page_fits, out_fits] = [page, out].map(|words| words == PAGE_WORDS);
    let taken = match fault {
        Fault::ColumnsOfAnyLength => out_fits,
        Fault::ColumnsIntoAnyLength => page_fits,
        Fault::ColumnsIntoLongerOut => page_fits && out >= PAGE_WORDS,
        Fault::ColumnsOfEqualLengths => page == out,
        Fault::ColumnsOfSeveralPages => page == out && page > 0 && page.is_multiple_of(PAGE_WORDS),
        _ => page_fits && out_fits,
    };
    refuse(1, !taken)
}

/// "what precedes the rows staying first"
fn by_columns(page: &[u32], fault: Fault) -> Vec<u32> {
    let (head, rows) = page.split_at(HEAD_WORDS);
    match fault {
        Fault::ColumnsNotTurned => page.to_vec(),
        Fault::ColumnsHeadLast => [&turned(rows, fault), head].concat(),
        Fault::ColumnsHeadTurned => {
            let (rows, last) = page.split_at(PAGE_WORDS - HEAD_WORDS);
            [&turned(rows, fault), last].concat()
        }
        _ => [head, &turned(rows, fault)].concat(),
    }
}

/// "eight rows of sixteen, row w being word w of slots 0 to 15 in order"
fn turned(rows: &[u32], fault: Fault) -> Vec<u32> {
    let mut slots: Vec<&[u32]> = rows.chunks(ROW_WORDS).collect();
    if fault == Fault::ColumnsFromLastSlot {
        slots.reverse();
    }
    let word = |w: usize, slot: usize| match fault {
        Fault::ColumnsExchangedInSquare if slot < ROW_WORDS => slots[w][slot],
        _ => slots[slot][w],
    };
    let row = |w| (0..SLOTS).map(move |slot| (w, slot));
    (0..ROW_WORDS).flat_map(row).map(|(w, slot)| word(w, slot)).collect()
}

/// "the inverse restores it": each word goes back to the place that it is taken from.
fn restored(columns: &[u32], fault: Fault) -> Vec<u32> {
    let places: Vec<u32> = (0..PAGE_WORDS as u32).collect();
    let mut page = vec![0; PAGE_WORDS];
    for (&word, place) in columns.iter().zip(by_columns(&places, fault)) {
        page[place as usize] = word;
    }
    page
}

/// "for all words": a page is what it is, whatever its map and its references say.
fn carried(page: &[u32], fault: Fault) -> Vec<u32> {
    let mut page = page.to_vec();
    let (head, rows) = page.split_at_mut(HEAD_WORDS);
    for (slot, row) in rows.chunks_mut(ROW_WORDS).enumerate() {
        match fault {
            Fault::ColumnsFreeSlotsEmptied if head[0] & bit(slot as u32) == 0 => row.fill(0),
            Fault::ColumnsHighReferencesDropped => row[..4].iter_mut().filter(|r| **r > 4096).for_each(|r| *r = 0),
            _ => {}
        }
    }
    if fault == Fault::ColumnsMapMasked {
        head[0] &= 65535;
    }
    page
}

/// The faults that write before the lengths are tested.
fn written_early(page: &[u32], out: &mut [u32], fault: Fault) {
    match (fault, page.first(), out.first_mut()) {
        (Fault::ColumnsRefusedClearsOut, ..) => out.fill(0),
        (Fault::ColumnsHeadBeforeLengths, Some(&head), Some(first)) => *first = head,
        _ => {}
    }
}

/// A page of 129 words out of one that only a fault takes.
fn cut_to_page(page: &[u32]) -> Vec<u32> {
    let mut page = page.to_vec();
    page.resize(PAGE_WORDS, 0);
    page
}
