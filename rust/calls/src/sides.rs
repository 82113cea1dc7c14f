//! Who makes calls: the library, lent its areas or holding them, and the model.

use kophdaen::{Held, Store};
use model::layout::{Area, Areas};
use model::{Fault, Model};

use crate::{Call, Lent};

/// Has the six areas, shows them, and takes calls.
pub trait Server {
    /// A server over these areas, and the areas back from it.
    ///
    /// # Safety
    ///
    /// Of one that holds its areas: what [`Held::assume`] asks for. Of the others nothing is asked.
    unsafe fn over(areas: Areas) -> Self
    where
        Self: Sized;
    fn into_areas(self) -> Areas
    where
        Self: Sized;

    /// Makes the call; the answer as the C functions code it.
    fn perform(&mut self, call: Call, lent: Lent) -> u64;
    fn area(&self, area: Area) -> &[u32];
}

/// A server whose areas may hold anything: library and model, which are compared.
pub trait Side: Server {
    fn cut(&mut self);
    fn area_mut(&mut self, area: Area) -> &mut Vec<u32>;
}

impl Server for Model {
    unsafe fn over(areas: Areas) -> Model {
        Model { areas, fault: Fault::None }
    }

    fn into_areas(self) -> Areas {
        self.areas
    }

    fn perform(&mut self, call: Call, lent: Lent) -> u64 {
        call.on_model(self, lent)
    }

    fn area(&self, area: Area) -> &[u32] {
        self.areas.of(area)
    }
}

impl Side for Model {
    fn cut(&mut self) {
        Model::cut(self);
    }

    fn area_mut(&mut self, area: Area) -> &mut Vec<u32> {
        self.areas.of_mut(area)
    }
}

impl Server for Store {
    unsafe fn over(a: Areas) -> Store {
        let Areas { stored, copies, received, log, counts, work } = a;
        Store { stored, copies, received, log, counts, work }
    }

    fn into_areas(self) -> Areas {
        let Store { stored, copies, received, log, counts, work } = self;
        Areas { stored, copies, received, log, counts, work }
    }

    fn perform(&mut self, call: Call, lent: Lent) -> u64 {
        call.on_library(self, lent)
    }

    fn area(&self, area: Area) -> &[u32] {
        match area {
            Area::Stored => &self.stored,
            Area::Copies => &self.copies,
            Area::Received => &self.received,
            Area::Log => &self.log,
            Area::Counts => &self.counts,
            Area::Work => &self.work,
        }
    }
}

impl Side for Store {
    fn cut(&mut self) {
        Store::cut(self);
    }

    fn area_mut(&mut self, area: Area) -> &mut Vec<u32> {
        match area {
            Area::Stored => &mut self.stored,
            Area::Copies => &mut self.copies,
            Area::Received => &mut self.received,
            Area::Log => &mut self.log,
            Area::Counts => &mut self.counts,
            Area::Work => &mut self.work,
        }
    }
}

/// Makes the held form of a call; it takes none that has no held form.
impl Server for Held {
    unsafe fn over(areas: Areas) -> Held {
        Held::assume(Store::over(areas))
    }

    fn into_areas(self) -> Areas {
        self.into_store().into_areas()
    }

    fn perform(&mut self, call: Call, lent: Lent) -> u64 {
        call.on_held(self, lent).expect("a call with a held form")
    }

    fn area(&self, area: Area) -> &[u32] {
        match area {
            Area::Stored => self.stored(),
            Area::Copies => self.copies(),
            Area::Received => self.received(),
            Area::Log => self.log(),
            Area::Counts => self.counts(),
            Area::Work => self.work(),
        }
    }
}
