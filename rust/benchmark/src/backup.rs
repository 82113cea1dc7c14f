//! A backup: the same pages by rows and by columns through compressors.

use std::path::Path;

use kophdaen::Held;
use model::layout::{PAGE_WORDS, SLOTS};

use crate::arranging::{arranged, FROM_COLUMNS, TO_COLUMNS};
use crate::compress::{compressed, Compressor, COMPRESSORS};
use crate::states::{crowded, populated, Size};
use crate::workload::{Depot, Plan};
use crate::yard::yard;

/// The stored pages of a store, raw and compressed.
pub struct Sizes {
    pub store: String,
    pub bytes: usize,
    /// Slots in all, and those that are occupied.
    pub slots: usize,
    pub occupied: u32,
    /// With each compressor that the machine has: by rows, and by columns.
    pub compressed: Vec<(Compressor, [usize; 2])>,
}

/// So many transactions of the workload leave its store as it stays.
const TRANSACTIONS: usize = 2000;

pub fn sizes(plans: &[Plan], large: Size, directory: &Path) -> Vec<Sizes> {
    let mut stores: Vec<(&str, Vec<u32>)> = plans.iter().map(|&plan| ("*A workload*", worked(plan))).collect();
    stores.push(("*Every call*", populated(large).stored));
    stores.push(("all occupied", crowded(large.pages)));
    stores.push(("a depot", yard(large)));
    stores.into_iter().map(|(store, pages)| sizes_of(store, &pages, directory)).collect()
}

/// The stored pages of the workload, its log emptied.
fn worked(plan: Plan) -> Vec<u32> {
    let mut depot = Depot::<Held>::new(plan, None);
    (0..TRANSACTIONS).for_each(|_| depot.transaction());
    depot.settle();
    depot.stored().to_vec()
}

fn sizes_of(store: &str, pages: &[u32], directory: &Path) -> Sizes {
    let columns = arranged(pages, TO_COLUMNS);
    assert!(arranged(&columns, FROM_COLUMNS) == pages, "{store}: the pages come back");
    let [rows, columns] = [("rows", pages), ("columns", &columns)].map(|(name, words)| {
        let bytes: Vec<u8> = words.iter().flat_map(|word| word.to_le_bytes()).collect();
        let file = directory.join(name);
        std::fs::write(&file, bytes).expect("written");
        file
    });
    let both = |&with| Some((with, [compressed(with, &rows)?, compressed(with, &columns)?]));
    let count = pages.len() / PAGE_WORDS;
    Sizes {
        store: format!("{store}, P = {count}"),
        bytes: 4 * pages.len(),
        slots: SLOTS * count,
        occupied: pages.iter().step_by(PAGE_WORDS).map(|map| map.count_ones()).sum(),
        compressed: COMPRESSORS.iter().filter_map(both).collect(),
    }
}
