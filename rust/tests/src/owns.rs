//! Where objects name themselves (document 02, L8), followed in the pages of the side that took the calls: no own number
//! comes but where one stood at the start (DECISIONS 90).

use std::collections::BTreeSet;

use calls::{Call, Side};
use model::layout::*;

use crate::actions::{Action, Filling};

/// Object and word.
type Places = BTreeSet<(u32, usize)>;

/// Where own numbers stood at the start.
struct Old {
    /// .. by which received pages and copies are judged.
    pages: Places,
    /// .. and the stored pages.
    stored: Places,
}

#[derive(Default)]
pub struct Owns {
    /// None until a store is formatted, and once a word is written by hand: of such states nothing is claimed.
    old: Option<Old>,
    /// Where they stand in the received pages.
    now: Places,
    /// How many own numbers sets overwrote, aborts and going back put back, reopenings left, and sweeps freed.
    pub overwritten: u64,
    pub put_back: u64,
    pub reopened: u64,
    pub swept: u64,
}

/// The own numbers of a page area.
fn places(area: &[u32]) -> Places {
    let objects = ROOT..=(SLOTS * (area.len() / PAGE_WORDS)) as u32;
    let words = objects.flat_map(|object| (0..4).map(move |field| (object, field)));
    words.filter(|&(object, field)| area[word_at(object, field)] == object).collect()
}

/// .. and of records: old words and new ones.
fn in_records(log: &[u32]) -> Places {
    let own = |record: &&[u32]| record[0] == 3 && record[3] < 4 && record[4..].contains(&record[2]);
    log.chunks(RECORD_WORDS).filter(own).map(|record| (record[2], record[3] as usize)).collect()
}

impl Owns {
    /// Nothing is claimed any more; what was counted stays.
    pub fn forget(&mut self) {
        self.old = None;
    }

    /// From a store on that was reopened just now.
    pub fn reopened(&mut self, a: &Areas) {
        let pages = places(&a.received);
        self.old = Some(Old { stored: &pages | &places(&a.stored), pages });
    }

    /// Follows an action and its answer: what does not hold then.
    pub fn after(&mut self, action: &Action, answer: u64, side: &dyn Side) -> Result<(), String> {
        let accepted = action.call().filter(|_| answer >> 32 == 0);
        self.start(action, accepted, side);
        let now = places(side.area(Area::Received));
        self.count(accepted, &now);
        self.now = now;
        let Some(Old { pages, stored }) = &self.old else { return Ok(()) };
        let areas = [(Area::Received, pages), (Area::Copies, pages), (Area::Stored, stored)];
        for (area, old) in areas {
            if let Some((object, field)) = places(side.area(area)).difference(old).next() {
                return Err(format!("{area:?}: object {object} names itself in word {field}, and did not before"));
            }
        }
        Ok(())
    }

    /// A formatted store has none; an old one has those of its pages and of its records.
    fn start(&mut self, action: &Action, accepted: Option<Call>, side: &dyn Side) {
        match action {
            Action::Fill(Filling::Old, _) => {
                let pages = [Area::Stored, Area::Copies, Area::Received].map(|area| places(side.area(area)));
                let all = pages.iter().fold(in_records(side.area(Area::Log)), |all, area| &all | area);
                self.old = Some(Old { pages: all.clone(), stored: all });
            }
            Action::Fill(..) | Action::Poke(..) => self.old = None,
            _ if accepted == Some(Call::Format) => {
                self.old = Some(Old { pages: Places::new(), stored: Places::new() });
            }
            _ => {}
        }
    }

    fn count(&mut self, accepted: Option<Call>, now: &Places) {
        let gone = self.now.difference(now).count() as u64;
        match accepted {
            Some(Call::SetWord(..)) => self.overwritten += gone,
            Some(Call::PassStep) => self.swept += gone,
            Some(Call::Abort(_) | Call::Back(..)) => self.put_back += now.difference(&self.now).count() as u64,
            Some(Call::Reopen) => self.reopened += now.len() as u64,
            _ => {}
        }
    }
}
