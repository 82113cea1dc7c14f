//! The things compared: the proved library, the model with or without a fault, and who makes the held forms of calls.

use calls::{Call, Lent, Server, Side};
use kophdaen::{Held, Store};
use model::{Fault, Model};

#[derive(Clone, Copy, PartialEq, Eq, Debug)]
pub enum Kind {
    Model(Fault),
    Library,
    /// The model, and a model with a fault that makes the held forms.
    Held(Fault),
}

pub const MODEL: Kind = Kind::Model(Fault::None);

fn faulty(fault: Fault, pages: usize, records: usize) -> Model {
    Model { fault, ..Model::new(pages, records) }
}

impl Kind {
    pub fn make(self, pages: usize, records: usize) -> Box<dyn Side> {
        match self {
            Kind::Model(fault) => Box::new(faulty(fault, pages, records)),
            Kind::Library => Box::new(Store::new(pages, records)),
            Kind::Held(_) => Box::new(Model::new(pages, records)),
        }
    }

    /// Who makes the held forms beside it, if it has them.
    pub fn holder(self, pages: usize, records: usize) -> Option<Holder> {
        match self {
            Kind::Model(_) => None,
            Kind::Library => Some(Holder::Library(Store::new(pages, records))),
            Kind::Held(fault) => Some(Holder::Model(faulty(fault, pages, records))),
        }
    }

    pub fn name(self) -> String {
        match self {
            MODEL => "model".to_string(),
            Kind::Model(fault) => format!("model with {fault:?}"),
            Kind::Library => "library".to_string(),
            Kind::Held(fault) => format!("model, held with {fault:?}"),
        }
    }
}

/// Makes the held forms of calls.
pub enum Holder {
    Library(Store),
    Model(Model),
}

impl Holder {
    pub fn side(&self) -> &dyn Side {
        match self {
            Holder::Library(store) => store,
            Holder::Model(model) => model,
        }
    }

    pub fn side_mut(&mut self) -> &mut (dyn Side + 'static) {
        match self {
            Holder::Library(store) => store,
            Holder::Model(model) => model,
        }
    }

    /// Makes the held form of a call, or the call where it has none. The model has one form for both.
    ///
    /// # Safety
    ///
    /// The store must be well formed.
    pub unsafe fn perform(self, call: Call, lent: Lent) -> (Holder, u64) {
        match self {
            Holder::Library(store) if call.can_be_held() => {
                let mut held = Held::assume(store);
                let answer = held.perform(call, lent);
                (Holder::Library(held.into_store()), answer)
            }
            Holder::Library(mut store) => {
                let answer = store.perform(call, lent);
                (Holder::Library(store), answer)
            }
            Holder::Model(mut model) => {
                let answer = model.perform(call, lent);
                (Holder::Model(model), answer)
            }
        }
    }
}
