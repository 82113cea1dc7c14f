//! Whether whatever the root reaches in a page area is occupied.

use crate::faults::Fault;
use crate::layout::*;
use crate::old::names_itself;
use crate::{refuse, Answer};

/// Refusal 1 "where the length is not 129 x P with P from 1 to 256; else accepted with value 1 where
/// whatever the root reaches in these pages is occupied, and 0 where not".
pub fn whole(area: &[u32], fault: Fault) -> Answer {
    let pages = area.len() / PAGE_WORDS;
    let whole_pages = area.len() == PAGE_WORDS * pages || fault == Fault::WholeOfBrokenPage;
    let most = if fault == Fault::WholeOfMorePages { 257 } else { 256 };
    refuse(1, !whole_pages || !(1..=most).contains(&pages))?;
    Ok(u32::from(reaches_occupied_alone(area, pages, fault)))
}

/// Goes from the root to "what a reached object's references (words 0 to 3 other than 0) name".
fn reaches_occupied_alone(area: &[u32], pages: usize, fault: Fault) -> bool {
    let objects = SLOTS * pages;
    let mut reached = vec![false; objects + 1];
    let mut waiting = vec![ROOT];
    while let Some(object) = waiting.pop() {
        if object as usize > objects && fault == Fault::WholePassesOverAbove {
            continue;
        }
        if !is_occupied(area, object, objects, fault) {
            return false;
        }
        if !std::mem::replace(&mut reached[object as usize], true) {
            waiting.extend(references(area, object, fault));
        }
    }
    fault != Fault::WholeLooksAtUnreached || unreached_hold(area, objects)
}

/// "an object above 16 x P is not occupied"
fn is_occupied(area: &[u32], object: u32, objects: usize, fault: Fault) -> bool {
    let trusted = match fault {
        Fault::WholeTrustsRoot => object == ROOT,
        Fault::WholeMisreadsLastSlot => slot_of(object) == SLOTS - 1,
        _ => false,
    };
    let refused = fault == Fault::WholeRefusesOwn && object as usize <= objects && names_itself(area, object);
    object as usize <= objects && (trusted || occupied(area, object)) && !refused
}

fn references(area: &[u32], object: u32, fault: Fault) -> Vec<u32> {
    let fields = match fault {
        Fault::WholeOverlooksWordThree => 0..3,
        Fault::WholeFollowsData => 0..5,
        Fault::WholeLooksAtRootAlone => 0..0,
        Fault::WholeLooksOneStepFar if object != ROOT => 0..0,
        _ => 0..4,
    };
    fields.map(|field| area[word_at(object, field)]).filter(|&reference| reference != 0).collect()
}

/// The fault that looks at the references of every occupied object.
fn unreached_hold(area: &[u32], objects: usize) -> bool {
    let there = |object: u32| object as usize <= objects && occupied(area, object);
    let holds = |object: u32| references(area, object, Fault::None).into_iter().all(there);
    (1..=objects as u32).all(|object| !occupied(area, object) || holds(object))
}
