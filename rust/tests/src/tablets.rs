//! A tablet that is left open: its transaction keeps pages locked for reading and reads them again and again, unlinks
//! something that it still reads, and flushes.

use calls::Call;
use model::layout::*;

use crate::grants::right_of;
use crate::random::Random;

/// A reference to an object on another page: object, field, target.
type Link = (u32, u32, u32);

/// The store as a transaction has it.
struct View<'a> {
    a: &'a Areas,
    t: u32,
    known: Vec<u32>,
}

impl View<'_> {
    fn new(a: &Areas, t: u32) -> View<'_> {
        let knows = |object: &u32| a.by_object(Table::Known, *object) & bit(t) != 0;
        View { a, t, known: (ROOT..=a.objects()).filter(knows).collect() }
    }

    fn has(&self, table: Table, page: usize) -> bool {
        self.a.get(table, page) & bit(self.t) != 0
    }

    fn pages(&self, table: Table) -> Vec<u32> {
        (0..self.a.pages() as u32).filter(|&page| self.has(table, page as usize)).collect()
    }

    fn reads(&self, object: u32) -> bool {
        self.has(Table::Readers, page_of(object))
    }

    fn writes(&self, object: u32) -> bool {
        self.has(Table::Writers, page_of(object))
    }

    fn may(&self, page: usize, right: u32) -> bool {
        right_of(self.a, self.t, page as u32) >= right
    }

    /// Nobody else has the page.
    fn alone(&self, page: usize) -> bool {
        (self.a.get(Table::Readers, page) | self.a.get(Table::Writers, page)) & !bit(self.t) == 0
    }

    fn known_where(&self, which: impl Fn(u32) -> bool) -> Vec<u32> {
        self.known.iter().copied().filter(|&object| which(object)).collect()
    }

    fn word(&self, object: u32, field: u32) -> u32 {
        self.a.received[word_at(object, field as usize)]
    }

    /// From known objects.
    fn links(&self) -> Vec<Link> {
        let fields = self.known.iter().flat_map(|&from| (0..4).map(move |field| (from, field)));
        let links = fields.map(|(from, field)| (from, field, self.word(from, field)));
        links.filter(|&(from, _, to)| to != 0 && to <= self.a.objects() && page_of(to) != page_of(from)).collect()
    }

    /// For reading, a page of something known.
    fn lock(&self, r: &mut Random) -> Option<Call> {
        let closed = self.known_where(|object| {
            !self.reads(object) && !self.writes(object) && self.may(page_of(object), READING)
        });
        r.pick(&closed).map(|object| Call::LockRead(self.t, page_of(object) as u32))
    }

    /// For writing, a page that it reads alone and that names something on another page.
    fn upgrade(&self, r: &mut Random) -> Option<Call> {
        let mut links = self.links();
        let may_write = |page| self.alone(page) && self.may(page, WRITING);
        links.retain(|&(from, ..)| self.reads(from) && may_write(page_of(from)));
        r.pick(&links).map(|(from, ..)| Call::LockWrite(self.t, page_of(from) as u32))
    }

    /// Something whose page it reads on.
    fn unlink(&self, r: &mut Random) -> Option<Call> {
        let mut links = self.links();
        links.retain(|&(from, _, to)| self.writes(from) && self.reads(to));
        r.pick(&links).map(|(from, field, _)| Call::SetWord(self.t, from, field, 0))
    }

    fn read(&self, r: &mut Random) -> Option<Call> {
        let open = self.known_where(|object| self.reads(object) || self.writes(object));
        r.pick(&open).map(|object| Call::Read(self.t, object))
    }

    /// Names, on another page, an object that it may write and that nothing there names.
    fn link(&self, r: &mut Random) -> Option<Call> {
        let own = self.known_where(|object| self.writes(object) && occupied(&self.a.received, object));
        let named = |to: u32| own.iter().any(|&from| (0..4).any(|field| self.word(from, field) == to));
        let to = own.iter().copied().find(|&object| object != ROOT && !named(object))?;
        let from: Vec<u32> = own.iter().copied().filter(|&from| page_of(from) != page_of(to)).collect();
        r.pick(&from).map(|from| Call::SetWord(self.t, from, r.below(4) as u32, to))
    }
}

/// What a tablet does next, if it is one of these. One that may write and reads nothing has built, and ends.
pub fn next(a: &Areas, t: u32, r: &mut Random) -> Option<Call> {
    let view = View::new(a, t);
    let [read, written, unflushed] =
        [Table::Readers, Table::Writers, Table::Unflushed].map(|table| view.pages(table));
    let flush = r.pick(&unflushed).map(|page| Call::Flush(t, page));
    let other = match r.below(8) {
        _ if read.is_empty() && !written.is_empty() => flush.or(Some(Call::Commit(t))),
        0 | 1 => view.lock(r),
        2 => view.upgrade(r),
        3 => view.unlink(r),
        4 if a.work[PHASE] == MARKING => view.unlink(r),
        4..=6 => flush,
        _ => None,
    };
    other.or_else(|| view.read(r))
}

/// Whether there is little to read, next to no object naming one on another page, and t does not read any.
pub fn builds(a: &Areas, t: u32) -> bool {
    let every = View { a, t, known: (ROOT..=a.objects()).collect() };
    a.pages() > 1 && every.pages(Table::Readers).is_empty() && every.links().len() < 3
}

/// What it does then: it takes page 0 and this other page, makes objects there, and links them.
pub fn build(a: &Areas, t: u32, other: u32, r: &mut Random) -> Option<Call> {
    let view = View::new(a, t);
    let mut pages = [0, other].into_iter();
    if let Some(page) = pages.find(|&page| !view.has(Table::Writers, page as usize)) {
        let may_write = view.alone(page as usize) && view.may(page as usize, WRITING);
        return may_write.then_some(Call::LockWrite(t, page));
    }
    let place = object_at(r.pick(&[0, other, other]).unwrap() as usize, r.below(SLOTS));
    let made = match occupied(&a.received, place) {
        true => Call::SetWord(t, place, 4 + r.below(4) as u32, r.word()),
        false => Call::Create(t, place),
    };
    view.link(r).or(Some(made))
}
