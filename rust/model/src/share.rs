//! Document 02, L4: "How long can a pass take?"

use crate::faults::Fault;
use crate::layout::*;
use crate::{refuse, Answer, Model};

/// The whole share, then its remainder (docs/LAYOUT.md).
const SHARE_WORDS: usize = 2;

impl Model {
    /// "We spread the steps over a stated number n of commits .. Give the whole share, 17 x P + 1
    /// divided by n, and its remainder r, below n .. Errors: 17, n out of range, after 2."
    pub fn pass_share(&mut self, buffer: &mut [u32], commits: u32) -> Answer {
        if self.has(Fault::ShareLengthAfterTwo) {
            self.ready()?;
        }
        self.share_buffer(buffer.len())?;
        if self.has(Fault::ShareRefusedClearsBuffer) {
            buffer.fill(0);
        }
        if self.has(Fault::SeventeenBeforeTwo) {
            self.checked()?;
            self.number_of_commits(commits)?;
        }
        self.ready()?;
        refuse(4, self.has(Fault::ShareNeedsPass) && self.areas.work[PHASE] == NO_PASS)?;
        self.number_of_commits(commits)?;

        let [whole, rest] = self.share_of(self.most_steps(), commits.max(1)); // 0 by a fault alone
        let shown = if self.has(Fault::ShareExchanged) { [rest, whole] } else { [whole, rest] };
        buffer.iter_mut().zip(shown).for_each(|(word, share)| *word = share);
        if self.has(Fault::ShareForgetsSteps) {
            self.areas.work[PASS_STEP] = 0;
        }
        Ok(match self.fault {
            Fault::ShareTellsRemainder => rest,
            Fault::ShareTellsNothing => 0,
            Fault::ShareTellsBoth => whole << 16 | rest,
            _ => whole,
        })
    }

    /// "the whole share .. and its remainder r"
    fn share_of(&self, steps: u32, commits: u32) -> [u32; 2] {
        let [whole, rest] = [steps / commits, steps % commits];
        match self.fault {
            Fault::ShareRoundedUp => [steps.div_ceil(commits), rest],
            Fault::ShareWithoutRemainder => [whole, 0],
            _ => [whole, rest],
        }
    }

    /// "16 x P objects scanned, one turn, P pages", however far a pass is (DECISIONS 79).
    fn most_steps(&self) -> u32 {
        let pages = self.areas.pages() as u32;
        let steps = 16 * pages + 1 + pages;
        match self.fault {
            Fault::ShareWithoutTurn => steps - 1,
            Fault::ShareWithoutPages => steps - pages,
            Fault::ShareOfOneStepMore => steps + 1,
            Fault::ShareByRecords => 17 * self.areas.records() as u32 + 1,
            Fault::ShareOfStepsLeft => steps - self.areas.work[PASS_STEP],
            Fault::ShareOfObjectsThere => {
                let there = |&object: &u32| occupied(&self.areas.copies, object);
                (ROOT..=self.areas.objects()).filter(there).count() as u32 + 1 + pages
            }
            _ => steps,
        }
    }

    /// Refusal 1, the buffer's part of it.
    fn share_buffer(&self, words: usize) -> Result<(), u32> {
        let taken = match self.fault {
            Fault::ShareLongBufferTaken => words >= SHARE_WORDS,
            Fault::ShareShortBufferTaken => (1..=SHARE_WORDS).contains(&words),
            _ => words == SHARE_WORDS,
        };
        refuse(1, !taken)
    }

    /// Refusal 17, where n is not "1 to 4096".
    fn number_of_commits(&self, commits: u32) -> Result<(), u32> {
        let taken = match self.fault {
            Fault::ShareOfNoCommits => 0..=4096,
            Fault::ShareOfOneCommitMore => 1..=4097,
            Fault::ShareOfFewerCommits => 1..=4095,
            Fault::ShareAboveStepsRefused => 1..=self.most_steps().min(4096),
            _ => 1..=4096,
        };
        refuse(if self.has(Fault::ShareOutOfRangeIsThree) { 3 } else { 17 }, !taken.contains(&commits))
    }
}
