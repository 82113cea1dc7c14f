//! What is known of a store while its server runs, and what of it the states that a cut may leave must keep.

use std::collections::HashMap;
use std::sync::{Arc, Mutex};

use depot::image::{self, Files};

use crate::committed::{reached_in_pages, reopened, Ledger, Objects};
use crate::faults::{as_read, Fault};
use crate::history::History;
use crate::platter::Drive;
use crate::power::Watch;
use crate::random::Random;
use crate::states::{self, Tried};

/// States of one moment beyond which they are taken by chance.
const MOST_STATES: usize = 4096;

type Reopened = HashMap<(Vec<u32>, Vec<u32>), Objects>;

pub struct Books {
    pub ledger: Ledger,
    history: Arc<Mutex<History>>,
    pub tried: Tried,
    /// What reopening makes of pages and records.
    reopened: Reopened,
}

/// Tries every state at each moment.
pub struct Watcher {
    pub books: Arc<Mutex<Books>>,
    pub fault: Fault,
    pub random: Random,
}

impl Watch for Watcher {
    fn look(&mut self, drive: &Drive) -> Result<(), String> {
        let mut books = self.books.lock().expect("no look panics");
        let fault = self.fault;
        let tried = states::each(drive, MOST_STATES, &mut self.random, &mut |files| {
            books.judge(&as_read(fault, files)).map(drop)
        })?;
        books.tried.add(tried);
        Ok(())
    }
}

impl Books {
    pub fn new(state: Objects, history: &Arc<Mutex<History>>) -> Books {
        let (ledger, history) = (Ledger::new(state), history.clone());
        Books { ledger, history, tried: Tried::default(), reopened: Reopened::new() }
    }

    /// After how many commits the files are.
    pub fn judge(&mut self, files: &Files) -> Result<usize, String> {
        let found = image::read(files).map_err(|damage| damage.to_string())?;
        self.history.lock().expect("no call panics").check(&found)?;
        let (ledger, room) = (&self.ledger, found.room);
        let state = remembered(&mut self.reopened, (found.pages, found.records), room)?;
        let [told, sent] = [ledger.told(), ledger.sent()];
        ledger
            .find(state)
            .ok_or_else(|| format!("the state of none of the commits {told} (told) to {sent} (sent)"))
    }
}

fn remembered(known: &mut Reopened, key: (Vec<u32>, Vec<u32>), room: usize) -> Result<&Objects, String> {
    const MOST_KNOWN: usize = 1000;
    if known.len() > MOST_KNOWN {
        known.clear();
    }
    if !known.contains_key(&key) {
        let state = reached_in_pages(&reopened(&key.0, &key.1, room)?)?;
        known.insert(key.clone(), state);
    }
    Ok(&known[&key])
}
