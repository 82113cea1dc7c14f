//! What running transactions have read, kept from calls, their answers and cuts alone: "Records that a reader knows
//! stay safe as before" (document 02, L6). What a transaction has read of an object it reads again, but for its own
//! sets.

use std::collections::BTreeMap;

use calls::Call;
use kophdaen::OBJECT_WORDS;

use crate::actions::Action;

/// By transaction and object.
type Shown = BTreeMap<(u32, u32), [u32; OBJECT_WORDS]>;

#[derive(Default)]
pub struct Reads {
    /// What the last accepted read showed, with the sets since; a create shows zeros. None until a store is formatted,
    /// and once a word is written by hand: of such states nothing is claimed.
    shown: Option<Shown>,
    /// Reads that were held to what was shown before.
    pub again: u64,
}

impl Reads {
    /// Of a store that was reopened just now.
    pub fn reopened() -> Reads {
        Reads { shown: Some(Shown::new()), again: 0 }
    }

    /// Follows an action, its answer and its buffer: what does not hold of the answer.
    pub fn after(&mut self, action: &Action, answer: u64, buffer: &[u32]) -> Result<(), String> {
        if let (Some(shown), Some(Call::Read(t, object))) = (&self.shown, action.call()) {
            if let Some(before) = shown.get(&(t, object)) {
                holds(answer >> 32, before, buffer)?;
                self.again += 1;
            }
        }
        self.follow(action, answer, buffer);
        Ok(())
    }

    /// The end of a transaction and its going back forget what it read; cuts and reopenings forget all.
    fn follow(&mut self, action: &Action, answer: u64, buffer: &[u32]) {
        let accepted = action.call().filter(|_| answer >> 32 == 0);
        if accepted == Some(Call::Format) {
            self.shown = Some(Shown::new());
        }
        if let Action::Poke(..) | Action::Fill(..) = action {
            self.shown = None;
        }
        let Some(shown) = &mut self.shown else { return };
        match accepted {
            _ if *action == Action::Cut => shown.clear(),
            Some(Call::Reopen) => shown.clear(),
            Some(Call::Begin(t, _) | Call::Commit(t) | Call::Abort(t) | Call::Back(t, _)) => {
                shown.retain(|&(of, _), _| of != t);
            }
            Some(Call::Create(t, object)) => {
                shown.insert((t, object), [0; OBJECT_WORDS]);
            }
            Some(Call::SetWord(t, object, field, word)) => {
                shown.entry((t, object)).and_modify(|words| words[field as usize] = word);
            }
            Some(Call::Read(t, object)) => {
                shown.insert((t, object), buffer[..OBJECT_WORDS].try_into().unwrap());
            }
            _ => {}
        }
    }
}

/// A read of what was shown before: accepted, it shows the same; and lock and knowledge are still there.
fn holds(number: u64, before: &[u32], buffer: &[u32]) -> Result<(), String> {
    match number {
        0 if buffer == before => Ok(()),
        0 => Err(format!("read as {buffer:?} what was {before:?}")),
        4 | 5 | 7 => Err(format!("read before, and now refused with {number}")),
        _ => Ok(()),
    }
}
