//! The rights that a list gives (document 02, L9), and as whom its transactions begin.

use calls::Call;
use model::layout::*;

use crate::actions::{Filling, Request};
use crate::generate::Generator;
use crate::random::Random;
use crate::rubbish::odd_word;

/// Which rights a list gives where nobody has one.
#[derive(Clone, Copy, Debug, PartialEq)]
pub enum Giving {
    /// To one client all of them.
    One,
    /// To some clients all, to others some or none.
    Several,
    Nothing,
}

/// The right of t's client on a page.
pub fn right_of(a: &Areas, t: u32, page: u32) -> u32 {
    let client = a.get(Table::Clients, t as usize) % CLIENTS;
    a.get(Table::Rights, right_at(client, page as usize))
}

/// Nobody has a right.
fn bare(a: &Areas) -> bool {
    a.work[Table::Rights.range(a.pages(), a.records())].iter().all(|&right| right == NOTHING)
}

impl Generator {
    /// Where nobody has a right: the next grant, or the end of one that began too early. None where this list gives
    /// no more.
    pub fn start_giving(&mut self, a: &Areas, active: &[u32]) -> Option<Call> {
        let filled = self.style.filling.is_some_and(|filling| filling != Filling::Old);
        if self.giving.is_empty() && !filled && self.style.giving != Giving::Nothing && bare(a) {
            match self.random.pick(active) {
                Some(t) if self.random.percent(60) => return Some(Call::Abort(t)),
                Some(_) => return None,
                None => self.giving = self.rights(a),
            }
        }
        self.giving.pop()
    }

    /// The grants of a start, on the pages that the list is of.
    fn rights(&mut self, a: &Areas) -> Vec<Call> {
        let mut pages: Vec<u32> = if a.pages() <= 4 { (0..a.pages() as u32).collect() } else { self.hot.clone() };
        pages.sort();
        pages.dedup();
        let clients = match self.style.giving {
            Giving::One => 1,
            _ => self.random.pick(&[2, 3, 3, 4, 4, 8]).unwrap(),
        };
        let first = self.random.below(CLIENTS as usize) as u32;
        let mut grants = Vec::new();
        for n in 0..clients {
            let kind = if n == 0 { 0 } else { self.random.weighted(&[50, 20, 30]) };
            grants.extend(pages.iter().filter_map(|&page| {
                let right = match kind {
                    0 => WRITING,
                    1 => READING,
                    _ => self.random.below(3) as u32,
                };
                (right != NOTHING).then_some(Call::Grant((first + n) % CLIENTS, page, right))
            }));
        }
        grants
    }

    /// As whom a transaction begins: mostly one that may write.
    pub fn client(&mut self, a: &Areas) -> u32 {
        let may_write = |client: &u32| {
            self.hot.iter().any(|&page| a.get(Table::Rights, right_at(*client, page as usize)) == WRITING)
        };
        let writers: Vec<u32> = (0..CLIENTS).filter(may_write).collect();
        let any = self.random.below(CLIENTS as usize) as u32;
        match self.random.below(30) {
            0 => client_out_of_range(&mut self.random),
            1..=3 => any,
            _ => self.random.pick(&writers).unwrap_or(any),
        }
    }

    /// A grant in the midst of a list: mostly to a client of whom no transaction runs, and mostly everything.
    pub fn grant(&mut self, a: &Areas) -> Call {
        let runs = |client: u32| {
            (0..16).any(|t| a.work[ACTIVE] & bit(t) != 0 && a.get(Table::Clients, t as usize) == client)
        };
        let resting: Vec<u32> = (0..CLIENTS).filter(|&client| !runs(client)).collect();
        let any = self.random.below(CLIENTS as usize) as u32;
        let client = match self.random.below(25) {
            0 => client_out_of_range(&mut self.random),
            1..=8 => any,
            _ => self.random.pick(&resting).unwrap_or(any),
        };
        let page = match self.random.below(20) {
            0 => odd_word(a.pages() as u32, a.pages(), &mut self.random),
            _ => self.page(),
        };
        Call::Grant(client, page, self.random.weighted(&[16, 18, 62, 4]) as u32)
    }

    /// For writing a page of those that it may write, or for reading one that it may only read.
    pub fn lock_write(&mut self, a: &Areas, t: u32) -> Call {
        let others = |p: u32| (a.get(Table::Writers, p as usize) | a.get(Table::Readers, p as usize)) & !bit(t);
        let with = |right: u32| self.hot.iter().copied().filter(move |&page| right_of(a, t, page) >= right);
        let open: Vec<u32> = with(WRITING).filter(|&page| others(page) == 0).collect();
        let read: Vec<u32> = with(READING).collect();
        let roll = self.random.below(100);
        match (self.random.pick(&open), self.random.pick(&read)) {
            (Some(page), _) if roll < 85 => Call::LockWrite(t, page),
            (None, Some(page)) if roll < 50 => Call::LockRead(t, page),
            _ => Call::LockWrite(t, self.page()),
        }
    }

    /// One that can only be told 19, on the pages that the list is of, mostly ends soon.
    pub fn end_barred(&mut self, a: &Areas, t: u32) -> Option<Request> {
        let barred = self.hot.iter().all(|&page| right_of(a, t, page) == NOTHING);
        (barred && self.random.percent(40)).then(|| Call::Commit(t).into())
    }
}

fn client_out_of_range(r: &mut Random) -> u32 {
    let any = r.word();
    r.pick(&[8, 8, 9, 15, 16, u32::MAX, any]).unwrap()
}
