//! The search that the chains are held to: breadth-first, written by hand in plain Rust.

use kophdaen::CHAIN_WORDS;
use model::layout::{word_at, ROOT};

/// A shortest chain of references from the root to the object, root first, then zeros; the number of its objects,
/// 0 where there is none. Of equally short ones it is any: the references are taken in the order of the words.
#[inline(never)]
pub fn search(pages: &[u32], chain: &mut [u32], object: u32) -> u32 {
    let mut finders = [0; CHAIN_WORDS + 1];
    find(pages, &mut finders, object);
    let mut objects = 0;
    let mut at = object;
    while finders[at as usize] != 0 {
        chain[objects] = at;
        objects += 1;
        if at == ROOT {
            break;
        }
        at = finders[at as usize];
    }
    chain[..objects].reverse();
    chain[objects..].fill(0);
    objects as u32
}

/// Notes who found each object first, until the one that is looked for is found. The root is its own finder.
fn find(pages: &[u32], finders: &mut [u32; CHAIN_WORDS + 1], object: u32) {
    let mut queue = [0; CHAIN_WORDS];
    queue[0] = ROOT;
    finders[ROOT as usize] = ROOT;
    let (mut head, mut tail) = (0, 1);
    while head < tail && finders[object as usize] == 0 {
        let finder = queue[head];
        head += 1;
        let first = word_at(finder, 0);
        for &reference in &pages[first..first + 4] {
            if reference != 0 && finders[reference as usize] == 0 {
                finders[reference as usize] = finder;
                queue[tail] = reference;
                tail += 1;
            }
        }
    }
}

/// The object that a search of all that the root reaches finds last: with each object's references in ascending
/// order, or in the order of the words.
pub fn last_found(pages: &[u32], ascending: bool) -> u32 {
    let mut found = [false; CHAIN_WORDS + 1];
    let mut queue = vec![ROOT];
    found[ROOT as usize] = true;
    let mut head = 0;
    while head < queue.len() {
        let mut references = pages[word_at(queue[head], 0)..][..4].to_vec();
        if ascending {
            references.sort_unstable();
        }
        head += 1;
        references.retain(|&reference| reference != 0 && !std::mem::replace(&mut found[reference as usize], true));
        queue.extend(references);
    }
    queue[queue.len() - 1]
}
