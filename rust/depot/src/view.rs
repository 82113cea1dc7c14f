//! What status, watch and the desk show.

use std::collections::VecDeque;
use std::fmt::Write;
use std::time::Duration;

use kophdaen::layout::*;

use crate::engine::Engine;

/// Since the server started.
#[derive(Clone, Copy, Default)]
pub struct Counters {
    pub commits: u64,
    pub aborts: u64,
    pub checkpoints: u64,
    pub passes: u64,
    pub steps: u64,
    pub freed: u64,
    pub checkpoint_longest_us: u64,
}

pub struct View {
    pub pages: usize,
    pub room: usize,
    pub received: u32,
    pub stable: u32,
    pub epoch: u64,
    pub uptime: u64,
    pub commits: u64,
    pub aborts: u64,
    pub checkpoints: u64,
    pub checkpoint_longest_us: u64,
    pub passes: u64,
    pub freed: u64,
    pub phase: u32,
    pub pass_page: u32,
    pub pass_step: u32,
    pub step_bound: u32,
    pub occupied: u32,
    pub connections: usize,
    pub waiting: usize,
    pub draining: bool,
    pub transactions: Vec<Transaction>,
    pub held: Vec<HeldPage>,
    pub samples: Vec<Sample>,
}

pub struct Transaction {
    pub slot: u32,
    /// The connection's number for it.
    pub own: u32,
    pub client: u32,
    /// As the file `clients` has it.
    pub client_name: String,
    pub name: String,
    pub seconds: u64,
    /// Seconds since its last line.
    pub quiet: u64,
}

pub struct HeldPage {
    pub page: usize,
    pub writer: Option<u32>,
    pub readers: Vec<u32>,
}

/// One for each second.
#[derive(Clone, Copy)]
pub struct Sample {
    pub second: u64,
    pub step: u32,
    pub steps: u64,
    pub occupied: u32,
    pub received: u32,
    pub freed: u64,
}

const MOST_SAMPLES: usize = 600;

/// The last ten minutes.
#[derive(Default)]
pub struct Samples(VecDeque<Sample>);

impl Samples {
    pub fn add(&mut self, sample: Sample) {
        self.0.push_back(sample);
        if self.0.len() > MOST_SAMPLES {
            self.0.pop_front();
        }
    }

    pub fn list(&self) -> Vec<Sample> {
        self.0.iter().copied().collect()
    }
}

fn bits(mask: u32) -> Vec<u32> {
    (0..TRANSACTIONS).filter(|t| mask >> t & 1 == 1).collect()
}

/// "A pass ends after at most 17 x P + 1 accepted steps" (L4).
pub fn step_bound(pages: usize) -> u32 {
    (SLOTS * pages + 1 + pages) as u32
}

impl Engine {
    fn occupied(&self) -> u32 {
        let maps = (0..self.pages()).map(|page| self.held.received()[page_range(page).start]);
        maps.map(u32::count_ones).sum()
    }

    pub fn sample(&self, uptime: Duration) -> Sample {
        Sample {
            second: uptime.as_secs(),
            step: self.held.work()[PASS_STEP],
            steps: self.counters.steps,
            occupied: self.occupied(),
            received: self.received() as u32,
            freed: self.counters.freed,
        }
    }

    fn transactions(&self) -> Vec<Transaction> {
        let running =
            self.running.iter().enumerate().filter_map(|(slot, running)| Some((slot, running.as_ref()?)));
        let shown = running.map(|(slot, running)| Transaction {
            slot: slot as u32,
            own: running.own,
            client: running.crew.client,
            client_name: self.rights.clients.name(running.crew.client).into(),
            name: running.crew.name.lock().expect("a name").clone(),
            seconds: running.began.elapsed().as_secs(),
            quiet: running.last.elapsed().as_secs(),
        });
        shown.collect()
    }

    fn held_pages(&self) -> Vec<HeldPage> {
        let work = self.held.work();
        let pages = (0..self.pages()).map(|page| HeldPage {
            page,
            writer: bits(work[writers_at(self.pages(), page)]).first().copied(),
            readers: bits(work[readers_at(page)]),
        });
        pages.filter(|held| held.writer.is_some() || !held.readers.is_empty()).collect()
    }

    /// All but the connections and the samples, which the server keeps.
    pub fn view(&self, uptime: Duration) -> View {
        let Counters { commits, aborts, checkpoints, passes, freed, checkpoint_longest_us, .. } = self.counters;
        let work = self.held.work();
        View {
            pages: self.pages(),
            room: self.room(),
            received: self.held.counts()[RECEIVED_COUNT],
            stable: self.held.counts()[STABLE_COUNT],
            epoch: self.journal.epoch(),
            uptime: uptime.as_secs(),
            commits,
            aborts,
            checkpoints,
            checkpoint_longest_us,
            passes,
            freed,
            phase: work[PASS_PHASE],
            pass_page: work[PASS_PAGE],
            pass_step: work[PASS_STEP],
            step_bound: step_bound(self.pages()),
            occupied: self.occupied(),
            connections: 0,
            waiting: self.line.len(),
            draining: self.draining(),
            transactions: self.transactions(),
            held: self.held_pages(),
            samples: Vec::new(),
        }
    }
}

pub fn phase_name(phase: u32) -> &'static str {
    match phase {
        NO_PASS => "none",
        MARKING => "marking",
        _ => "sweeping",
    }
}

impl View {
    /// For `depot status`: a line for each, key and value.
    pub fn text(&self) -> String {
        let slots = SLOTS * self.pages;
        let mut text = format!(
            "pages {}\nlog_room {}\nlog_received {}\nlog_stable {}\nepoch {}\nuptime_s {}\n\
             connections {}\ntransactions {}\nbegins_waiting {}\ndraining {}\n\
             commits {}\naborts {}\ncheckpoints {}\ncheckpoint_longest_us {}\n\
             slots {slots}\noccupied {}\npass {}\npass_page {}\npass_step {}\npass_steps_at_most {}\npasses {}\nfreed {}\n",
            self.pages, self.room, self.received, self.stable, self.epoch, self.uptime,
            self.connections, self.transactions.len(), self.waiting, if self.draining { "yes" } else { "no" },
            self.commits, self.aborts, self.checkpoints, self.checkpoint_longest_us,
            self.occupied, phase_name(self.phase), self.pass_page, self.pass_step, self.step_bound, self.passes, self.freed,
        );
        for running in &self.transactions {
            let Transaction { slot, own, client, client_name, name, seconds, quiet } = running;
            let name = if name.is_empty() { "-" } else { name };
            let _ = writeln!(
                text,
                "transaction {slot} client {client} {client_name} own {own} runs_s {seconds} quiet_s {quiet} name {name}"
            );
        }
        for HeldPage { page, writer, readers } in &self.held {
            let writer = writer.map_or(String::new(), |slot| format!(" writer {slot}"));
            let readers: String = readers.iter().map(|slot| format!(" reader {slot}")).collect();
            let _ = writeln!(text, "page {page}{writer}{readers}");
        }
        text
    }

    /// For `depot watch`: the columns of a second.
    pub fn row(&self) -> String {
        format!(
            "{} {} {} {} {} {} {} {} {}\n",
            self.uptime,
            phase_name(self.phase),
            self.pass_step,
            self.occupied,
            self.received,
            self.commits,
            self.freed,
            self.transactions.len(),
            self.waiting
        )
    }
}

pub const COLUMNS: &str = "second pass step occupied log_records commits freed transactions waiting\n";
