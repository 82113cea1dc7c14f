//! Refusal 1 by where the damage stands: who leaves the check early gains by it.

use model::layout::{Area, Table, PAGE_WORDS, RECORD_WORDS, REOPENING};

use crate::cases::{cases, Case, HIGH_BIT, NO_KIND};
use crate::states::{Fill, Size};

/// Each damage with the case that has it, on a full log.
pub fn damages(size: Size) -> Vec<(&'static str, Case)> {
    let list = cases(size, Fill::Full);
    let sound = list.into_iter().find(|case| (case.name, case.number) == ("lock_read", 0)).expect("a case");
    let pages = size.pages;
    let last_record = RECORD_WORDS * (sound.areas.received_count() - 1);
    let last_page = PAGE_WORDS * (pages - 1);
    let places = [
        ("first working word", Area::Work, REOPENING, 3),
        ("first mask of readers", Area::Work, Table::Readers.first(pages), HIGH_BIT),
        ("last colour", Area::Work, sound.areas.work.len() - 1, 3),
        ("map of the first received page", Area::Received, 0, HIGH_BIT),
        ("map of the last page copy", Area::Copies, last_page, HIGH_BIT),
        ("kind of the last record", Area::Log, last_record, NO_KIND),
    ];
    places
        .map(|(place, area, index, word)| {
            let mut areas = sound.areas.clone();
            areas.of_mut(area)[index] = word;
            (place, Case { number: 1, areas, image: Vec::new(), ..sound })
        })
        .into()
}
