//! A transaction that takes every slot of its pages, so that the root reaches all of them: a pass then takes as many
//! steps as a pass may.

use calls::Call;
use model::layout::*;

/// What it does next with the pages that it may write, if something is left.
pub fn next(a: &Areas, t: u32, written: &[u32]) -> Option<Call> {
    let slots = || written.iter().flat_map(|&page| (0..SLOTS).map(move |slot| object_at(page as usize, slot)));
    let knows = |object: u32| a.by_object(Table::Known, object) & bit(t) != 0;
    let own: Vec<u32> = slots().filter(|&o| knows(o) && occupied(&a.received, o)).collect();
    let unlinked = own.iter().find_map(|&object| link(a, t, object, &own));
    unlinked.or_else(|| slots().find(|&o| !occupied(&a.received, o)).map(|object| Call::Create(t, object)))
}

/// Where nothing names the object yet: a lower one is to name it, in a word that names nothing. So each is reached if
/// all below it are.
fn link(a: &Areas, t: u32, object: u32, own: &[u32]) -> Option<Call> {
    let names = |from: u32, word: u32| (0..4).find(|&field| a.received[word_at(from, field)] == word);
    if object == ROOT || (ROOT..object).any(|from| names(from, object).is_some()) {
        return None;
    }
    let mut lower = own.iter().filter(|&&from| from < object);
    lower.find_map(|&from| names(from, 0).map(|field| Call::SetWord(t, from, field as u32, object)))
}
