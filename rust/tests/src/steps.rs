//! A tally of a pass's steps (document 02, L4), kept from calls, their answers and cuts alone, and what holds of it in
//! the words of the side that took them (DECISIONS 81).

use calls::{Call, Lent, Side};
use model::layout::*;

use crate::actions::Action;

#[derive(Default)]
pub struct Steps {
    /// Accepted steps since the pass began. None until a store is formatted, and once a word is written by hand: of
    /// such states nothing is claimed.
    tally: Option<u32>,
    /// Passes that took as many steps as a pass may take.
    pub full_passes: u64,
}

impl Steps {
    /// Of a store that was reopened just now.
    pub fn reopened() -> Steps {
        Steps { tally: Some(0), full_passes: 0 }
    }

    /// Follows an action and its answer: what does not hold of the tally then on the side that took it.
    pub fn after(&mut self, action: &Action, answer: u64, side: &mut dyn Side) -> Result<(), String> {
        let before = self.tally;
        self.follow(action, answer);
        let Some(tally) = self.tally else { return Ok(()) };
        let most = holds(tally, side)?;
        self.full_passes += u64::from(tally == most && before != self.tally);
        Ok(())
    }

    /// "an accepted start of a pass, an accepted reopen and a cut make it 0, an accepted step adds 1, nothing else
    /// changes it"
    fn follow(&mut self, action: &Action, answer: u64) {
        let accepted = action.call().filter(|_| answer >> 32 == 0);
        self.tally = match (action, accepted) {
            (Action::Poke(..) | Action::Fill(..), _) => None,
            (_, Some(Call::Format)) => Some(0),
            (Action::Cut, _) | (_, Some(Call::StartPass | Call::Reopen)) => self.tally.map(|_| 0),
            (_, Some(Call::PassStep)) => self.tally.map(|steps| steps + 1),
            _ => self.tally,
        };
    }
}

/// The most steps of a pass; or what does not hold: "It never passes 17 x P + 1 .. While a pass runs the step number is
/// the tally, at most 17 x P, and where none runs it is 0 .. black objects while marking, these and the turn and the
/// pages swept while sweeping. Where the tally is 17 x P + 1 a step is answered 4."
fn holds(tally: u32, side: &mut dyn Side) -> Result<u32, String> {
    let pages = side.area(Area::Stored).len() / PAGE_WORDS;
    let most = 17 * pages as u32 + 1;
    let [phase, page, number] = [PHASE, PASS_PAGE, PASS_STEP].map(|word| side.area(Area::Work)[word]);
    let holds = match phase {
        NO_PASS => tally <= most && number == 0,
        MARKING => tally < most && number == tally && tally == scanned(side, pages),
        _ => tally < most && number == tally && tally == scanned(side, pages) + 1 + page,
    };
    if !holds {
        return Err(format!("{tally} steps taken: pass phase {phase}, page {page}, step number {number}"));
    }
    let nothing = Lent { buffer: &mut [], image: &[] };
    if tally == most && side.perform(Call::PassStep, nothing) != 4 << 32 {
        return Err(format!("{tally} steps taken, and one more is not answered 4"));
    }
    Ok(most)
}

/// Objects that are black.
fn scanned(side: &dyn Side, pages: usize) -> u32 {
    let colours = &side.area(Area::Work)[Table::Colours.first(pages)..][..SLOTS * pages];
    colours.iter().filter(|&&colour| colour == BLACK).count() as u32
}
