//! A depot's day through the Rust wrapper: a dispenser with two valves, one of them replaced, what
//! leads to the old one, a contractor's tablet, how a pass can be spread, a pass that frees it, a meter layout that is tried
//! and taken back, a page that another has, a power cut in the middle of a job, and the start after it.
//! docs/CALLING.md explains the calls; examples/depot.c is the same day in C.

use kophdaen::{Answer, Store, CHAIN_WORDS, OBJECT_WORDS, PAGE_WORDS, RECORD_WORDS, SHARE_WORDS};

const PAGES: usize = 4;
const RECORDS: usize = 64;
const ROOT: u32 = 1;
const DISPENSER: u32 = 17;
const OLD_VALVE: u32 = 18;
const OTHER_VALVE: u32 = 19;
const NEW_VALVE: u32 = 20;
const METER: u32 = 21;
const TRIED_METER: u32 = 22;
/// Clients, and their rights: docs/RIGHTS.md.
const SHOP: u32 = 0;
const CONTRACTOR: u32 = 1;
const READING: u32 = 1;
const WRITING: u32 = 2;
/// The dispenser's reference to its meter.
const METER_WORD: usize = 2;
/// The data word with a valve's serial number.
const SERIAL: usize = 4;
/// The pass phase in the working tables: docs/LAYOUT.md.
const PHASE: usize = 2;
const SWEEPING: u32 = 2;

/// The disk: all that a cut leaves. Here it is memory; a server has a file.
struct Disk {
    pages: Vec<u32>,
    records: Vec<u32>,
}

/// A store and the disk that its stable part is written to.
struct Server {
    store: Store,
    disk: Disk,
}

/// The value of an accepted call. This day expects no refusals but those that it prints.
fn done(answer: Answer) -> u32 {
    assert!(answer.accepted(), "refused with {}", answer.number);
    answer.value
}

impl Server {
    /// A new store.
    fn format() -> Server {
        let mut store = Store::new(PAGES, RECORDS);
        done(store.format());
        let disk = Disk {
            pages: store.stored.clone(),
            records: Vec::new(),
        };
        let mut server = Server { store, disk };
        server.give_rights();
        server
    }

    /// Rights are not on the disk: after each start the shop's tablets get all of them, and the
    /// contractor's may read the page of the root.
    fn give_rights(&mut self) {
        for page in 0..PAGES {
            done(self.store.grant(SHOP, page as u32, WRITING));
        }
        done(self.store.grant(CONTRACTOR, 0, READING));
    }

    /// The start after a cut: areas of zeros, what the disk has, then the reopening.
    fn start(disk: Disk) -> Server {
        let mut store = Store::new(PAGES, RECORDS);
        store.stored.copy_from_slice(&disk.pages);
        store.log[..disk.records.len()].copy_from_slice(&disk.records);
        store.counts[1] = (disk.records.len() / RECORD_WORDS) as u32;
        done(store.reopen());
        let mut server = Server { store, disk };
        loop {
            let page = done(server.store.reopen_step()) as usize;
            if page == PAGES {
                server.write_log();
                server.give_rights();
                return server;
            }
            server.write_page(page);
        }
    }

    fn write_page(&mut self, page: usize) {
        let words = PAGE_WORDS * page..PAGE_WORDS * (page + 1);
        self.disk.pages[words.clone()].copy_from_slice(&self.store.stored[words]);
    }

    /// The stable records, whose number is the stable count.
    fn write_log(&mut self) {
        let stable = RECORD_WORDS * self.store.counts[1] as usize;
        self.disk.records = self.store.log[..stable].to_vec();
    }

    /// Makes every record stable: from here on no cut undoes a committed transaction.
    fn force_all(&mut self) {
        while self.store.counts[1] < self.store.counts[0] {
            done(self.store.force());
            self.write_log();
        }
    }

    /// Makes room in the log: every page stored, then no record is needed any more.
    fn empty_log(&mut self) {
        self.force_all();
        for page in 0..PAGES {
            done(self.store.store_page(page as u32));
            self.write_page(page);
        }
        done(self.store.empty_log());
        self.write_log();
    }

    /// A tablet sends its image of a page that it changed.
    fn flush(&mut self, t: u32, page: usize) {
        let image = self.store.received[PAGE_WORDS * page..PAGE_WORDS * (page + 1)].to_vec();
        done(self.store.flush(&image, t, page as u32));
    }

    /// The dispenser below the root, with two valves.
    fn install(&mut self, t: u32) {
        done(self.store.begin(t, SHOP));
        done(self.store.lock_write(t, 0));
        done(self.store.lock_write(t, 1));
        done(self.store.create(t, DISPENSER));
        done(self.store.create(t, OLD_VALVE));
        done(self.store.create(t, OTHER_VALVE));
        done(self.store.set_word(t, ROOT, 0, DISPENSER));
        done(self.store.set_word(t, DISPENSER, 0, OLD_VALVE));
        done(self.store.set_word(t, DISPENSER, 1, OTHER_VALVE));
        done(self.store.set_word(t, OLD_VALVE, SERIAL as u32, 50118));
        self.flush(t, 0);
        self.flush(t, 1);
        done(self.store.commit(t));
    }

    /// Transaction t begins, and finds its way from the root to the dispenser: what it read, it
    /// knows.
    fn reach_dispenser(&mut self, t: u32) {
        done(self.store.begin(t, SHOP));
        done(self.store.lock_read(t, 0));
        done(self.store.read(&mut [0; OBJECT_WORDS], t, ROOT));
        done(self.store.lock_write(t, 1));
        done(self.store.read(&mut [0; OBJECT_WORDS], t, DISPENSER));
    }

    fn replace_valve(&mut self, t: u32) {
        self.reach_dispenser(t);
        done(self.store.create(t, NEW_VALVE));
        done(self.store.set_word(t, DISPENSER, 0, NEW_VALVE));
        done(self.store.set_word(t, NEW_VALVE, SERIAL as u32, 50233));
        self.flush(t, 1);
        done(self.store.commit(t));
    }

    /// How the steps of a pass can be spread over so many commits.
    fn spread(&mut self, commits: u32) {
        let mut share = [0; SHARE_WORDS];
        done(self.store.pass_share(&mut share, commits));
        let [each, more] = share;
        println!("a pass over {commits} commits: {each} steps each, the first {more} one more");
    }

    /// A whole pass; the number of slots that it freed.
    fn collect(&mut self) -> u32 {
        let mut freed = 0;
        done(self.store.start_pass());
        while self.store.work[PHASE] != 0 {
            let sweeping = self.store.work[PHASE] == SWEEPING;
            let value = done(self.store.pass_step());
            freed += if sweeping { value } else { 0 };
        }
        freed
    }

    /// Reads the valve that the dispenser names in its word 0, then asks for the old one.
    fn show(&mut self, t: u32) {
        let mut words = [0; OBJECT_WORDS];
        self.reach_dispenser(t);
        let valve = done(self.store.read(&mut words, t, DISPENSER));
        done(self.store.read(&mut words, t, valve));
        println!(
            "dispenser {DISPENSER}: valve {valve}, serial number {}",
            words[SERIAL]
        );
        println!(
            "valve {OLD_VALVE}: answer {}",
            self.store.read(&mut words, t, OLD_VALVE).number
        );
        done(self.store.commit(t));
    }

    /// Why is the old valve still here: the objects that lead to it from the root.
    fn why(&mut self) {
        let mut chain = [0; CHAIN_WORDS];
        let objects = done(self.store.chain(&mut chain, OLD_VALVE)) as usize;
        print!("chain to valve {OLD_VALVE}, {objects} objects:");
        chain[..objects]
            .iter()
            .for_each(|object| print!(" {object}"));
        println!();
    }

    /// A contractor's tablet finds the dispenser's number at the root, and may not look at its page.
    fn contract(&mut self, t: u32) {
        done(self.store.begin(t, CONTRACTOR));
        done(self.store.lock_read(t, 0));
        let dispenser = done(self.store.read(&mut [0; OBJECT_WORDS], t, ROOT));
        let answer = self.store.lock_read(t, 1).number;
        println!("contractor: dispenser {dispenser}, its page: answer {answer}");
        done(self.store.abort(t));
    }

    fn fit_meter(&mut self, t: u32, meter: u32) {
        done(self.store.create(t, meter));
        done(self.store.set_word(t, DISPENSER, METER_WORD as u32, meter));
        self.flush(t, 1);
    }

    fn show_meter(&mut self, t: u32, when: &str) {
        let mut words = [0; OBJECT_WORDS];
        done(self.store.read(&mut words, t, DISPENSER));
        println!("{when}: dispenser {DISPENSER}, meter {}", words[METER_WORD]);
    }

    /// A crew fits a meter, tries another layout, and goes back to the mark that it set between
    /// them.
    fn lay_out(&mut self, t: u32) {
        const FITTED: u32 = 0; // marks are 0 to 3
        self.reach_dispenser(t);
        self.fit_meter(t, METER);
        done(self.store.mark(t, FITTED));
        self.fit_meter(t, TRIED_METER);
        self.show_meter(t, "tried");
        done(self.store.back(t, FITTED));
        self.show_meter(t, "back");
        self.flush(t, 1); // going back touched the page
        done(self.store.commit(t));
    }

    /// Another crew asks for a page that is taken, and is told whom to call.
    fn who_has(&mut self, t: u32, page: u32) {
        done(self.store.begin(t, SHOP));
        let answer = self.store.lock_read(t, page);
        let holder = answer.holder().expect("refused with 6");
        println!(
            "page {page}: answer {}, transaction {holder} has it",
            answer.number
        );
        done(self.store.abort(t));
    }
}

fn main() {
    let mut server = Server::format();
    server.install(0);
    server.show(0);
    server.why();
    server.contract(0);
    server.empty_log();
    server.replace_valve(1);
    server.why();
    server.spread(10);
    println!("slots freed: {}", server.collect());
    server.lay_out(1);
    server.reach_dispenser(2);
    server.who_has(3, 1);
    done(server.store.set_word(2, DISPENSER, 0, 0)); // a job that the cut stops
    server.force_all();
    println!(
        "power cut: {} records stable",
        server.disk.records.len() / RECORD_WORDS
    );
    let mut server = Server::start(server.disk);
    server.show(3);
}
