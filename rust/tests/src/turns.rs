//! Examples of a page by columns (document 02, L5), each with its answer and every word of out.

use model::layout::*;

use crate::columns::Turn::{self, *};
use crate::columns::TURNS;
use crate::run::{show, unlike, unwritten};
use crate::sides::Kind;

/// A page, and what out has after its turn.
struct Example {
    name: &'static str,
    turn: Turn,
    page: Vec<u32>,
    number: u32,
    out: Vec<u32>,
}

fn turned(name: &'static str, turn: Turn, page: &[u32], out: &[u32]) -> Example {
    Example { name, turn, page: page.to_vec(), number: 0, out: out.to_vec() }
}

/// Out, of so many words, keeps them.
fn refused(turn: Turn, page_words: usize, out_words: usize) -> Example {
    Example { name: "1: a wrong length", turn, page: counted(page_words), number: 1, out: unwritten(out_words) }
}

/// Words from 1 on: each tells where it stands.
fn counted(words: usize) -> Vec<u32> {
    (1..=words as u32).collect()
}

/// A page of zeros but for these words.
fn with(words: impl IntoIterator<Item = (usize, u32)>) -> Vec<u32> {
    let mut page = vec![0; PAGE_WORDS];
    words.into_iter().for_each(|(at, word)| page[at] = word);
    page
}

/// Slot 5 alone, with the words 1 to 8: where the first stands, and how far apart they stand.
fn slot_five(first: usize, apart: usize) -> Vec<u32> {
    with((0..8).map(|w| (first + apart * w, 1 + w as u32)).chain([(0, 32)]))
}

/// The page 1, 2, .. 129 by columns.
const COLUMNS: [[u32; 16]; 8] = [
    [2, 10, 18, 26, 34, 42, 50, 58, 66, 74, 82, 90, 98, 106, 114, 122],
    [3, 11, 19, 27, 35, 43, 51, 59, 67, 75, 83, 91, 99, 107, 115, 123],
    [4, 12, 20, 28, 36, 44, 52, 60, 68, 76, 84, 92, 100, 108, 116, 124],
    [5, 13, 21, 29, 37, 45, 53, 61, 69, 77, 85, 93, 101, 109, 117, 125],
    [6, 14, 22, 30, 38, 46, 54, 62, 70, 78, 86, 94, 102, 110, 118, 126],
    [7, 15, 23, 31, 39, 47, 55, 63, 71, 79, 87, 95, 103, 111, 119, 127],
    [8, 16, 24, 32, 40, 48, 56, 64, 72, 80, 88, 96, 104, 112, 120, 128],
    [9, 17, 25, 33, 41, 49, 57, 65, 73, 81, 89, 97, 105, 113, 121, 129],
];

/// The page of which 1, 2, .. 129 are the columns.
const ROWS: [[u32; 8]; 16] = [
    [2, 18, 34, 50, 66, 82, 98, 114],
    [3, 19, 35, 51, 67, 83, 99, 115],
    [4, 20, 36, 52, 68, 84, 100, 116],
    [5, 21, 37, 53, 69, 85, 101, 117],
    [6, 22, 38, 54, 70, 86, 102, 118],
    [7, 23, 39, 55, 71, 87, 103, 119],
    [8, 24, 40, 56, 72, 88, 104, 120],
    [9, 25, 41, 57, 73, 89, 105, 121],
    [10, 26, 42, 58, 74, 90, 106, 122],
    [11, 27, 43, 59, 75, 91, 107, 123],
    [12, 28, 44, 60, 76, 92, 108, 124],
    [13, 29, 45, 61, 77, 93, 109, 125],
    [14, 30, 46, 62, 78, 94, 110, 126],
    [15, 31, 47, 63, 79, 95, 111, 127],
    [16, 32, 48, 64, 80, 96, 112, 128],
    [17, 33, 49, 65, 81, 97, 113, 129],
];

/// A head of one word, then the rows.
fn page_of<const N: usize>(head: u32, rows: &[[u32; N]]) -> Vec<u32> {
    [&[head], rows.as_flattened()].concat()
}

/// Each word of the page 1, 2, .. 129, whatever its map says; and done twice.
fn counted_pages() -> Vec<Example> {
    let counted = counted(PAGE_WORDS);
    let [columns, rows] = [page_of(1, &COLUMNS), page_of(1, &ROWS)];
    let halves: Vec<[u32; 2]> = (0..64).map(|i| [2 + i, 66 + i]).collect();
    let evens_then_odds: Vec<u32> = (2..=128).step_by(2).chain((3..=129).step_by(2)).collect();
    vec![
        turned("L5: sixteen rows of eight words become eight rows of sixteen", ToColumns, &counted, &columns),
        turned("L5: the inverse restores it", FromColumns, &columns, &counted),
        turned("L5: the inverse by itself", FromColumns, &counted, &rows),
        turned("L5: either order gives the page back", ToColumns, &rows, &counted),
        turned("L5: done twice it is another page", ToColumns, &columns, &page_of(1, &halves)),
        turned("L5: .. and its inverse", FromColumns, &rows, &[vec![1], evens_then_odds].concat()),
    ]
}

/// One slot, or one word, the others 0.
fn single_words() -> Vec<Example> {
    let [rows, columns] = [slot_five(41, 1), slot_five(6, 16)];
    let mut examples = vec![
        turned("L5: row w being word w of slots 0 to 15 in order: slot 5", ToColumns, &rows, &columns),
        turned("L5: .. and back", FromColumns, &columns, &rows),
        turned("L5: word 1 of slot 0", ToColumns, &with([(2, 9)]), &with([(17, 9)])),
        turned("L5: word 0 of slot 1", ToColumns, &with([(9, 9)]), &with([(2, 9)])),
    ];
    let kept = [
        ("L5: what precedes the rows staying first", 0),
        ("L5: word 1 alone stays", 1),
        ("L5: word 128 alone stays", 128),
    ];
    for (name, at) in kept {
        examples.extend(TURNS.map(|turn| turned(name, turn, &with([(at, 9)]), &with([(at, 9)]))));
    }
    examples
}

/// "Either order gives the page back, for all words": the map, the references and the free slots do not matter.
fn all_words() -> Vec<Example> {
    let ones = [u32::MAX; PAGE_WORDS];
    let high = |words: &[u32]| words.iter().map(|&word| u32::MAX - word).collect::<Vec<_>>();
    let mut examples = Vec::from(TURNS.map(|turn| turned("L5: 129 words of 4294967295", turn, &ones, &ones)));
    for map in [0, 65535, 65536, u32::MAX] {
        let [plain, columns] = [[&[map], &counted(PAGE_WORDS)[1..]].concat(), page_of(map, &COLUMNS)];
        examples.extend([
            turned("L5: for all words: another map", ToColumns, &plain, &columns),
            turned("L5: .. and back", FromColumns, &columns, &plain),
            turned("L5: for all words: references above 16 x P", ToColumns, &high(&plain), &high(&columns)),
            turned("L5: .. and back", FromColumns, &high(&columns), &high(&plain)),
        ]);
    }
    examples
}

/// "a wrong length is 1": of page, of out, of both.
fn lengths() -> Vec<Example> {
    let mut examples = Vec::new();
    for turn in TURNS {
        for words in [0, 1, 128, 130, 145, 258] {
            let pairs = [(words, PAGE_WORDS), (PAGE_WORDS, words), (words, words)];
            examples.extend(pairs.map(|(page, out)| refused(turn, page, out)));
        }
        examples.extend([refused(turn, 128, 130), refused(turn, 258, 0)]);
    }
    examples
}

/// Runs every example on both sides: how many turns, or what went wrong.
pub fn run(left: Kind, right: Kind) -> Result<u64, String> {
    let examples = [counted_pages(), single_words(), all_words(), lengths()];
    let mut turns = 0;
    for Example { name, turn, page, number, out: expected } in examples.into_iter().flatten() {
        let told = |what| format!("{name}: {turn:?}: {what}");
        let (answer, out) = turn.made([left, right], &page, expected.len()).map_err(told)?;
        if answer != u64::from(number) << 32 {
            return Err(told(format!("answers {}", show(answer))));
        }
        unlike(&out, &expected).map_err(|what| told(format!("{what} by the example")))?;
        turns += 1;
    }
    Ok(turns)
}
