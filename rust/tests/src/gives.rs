//! What the bench program gives its client (document 02, L9; DECISIONS 95), and what may be wrong with that.

use calls::Call;
use model::layout::{CLIENTS, READING, WRITING};

use crate::bench::PAGES;

/// "The bench gives client 0 all rights, again after each finished reopening, and its begins name client 0."
/// (document 02, L9), or what is wrong with that.
#[derive(Clone, Copy, PartialEq, Eq, Debug)]
pub enum Gives {
    AllAgain,
    Never,
    OnceFormatted,
    OnceReopened,
    /// After the reopen, and not after its last step.
    AtReopen,
    /// After the step that stores page P - 1.
    AtLastPage,
    /// Once in a script.
    AfterFirstReopening,
    ReadingAlone,
    PageZeroAlone,
    AllPagesButLast,
    ToClientOne,
    BeginsAsClientOne,
    BeginsAsTransaction,
    GrantsHaveLines,
}

/// Every wrong one with what it does.
pub const GIVING_FAULTS: [(Gives, &str); 13] = [
    (Gives::Never, "nobody is given a right"),
    (Gives::OnceFormatted, "rights are given after formatting alone"),
    (Gives::OnceReopened, "rights are given after finished reopenings alone"),
    (Gives::AtReopen, "rights are given after `reopen`, where they are refused, and not after its last step"),
    (Gives::AtLastPage, "rights are given after the step that stores page P - 1, where they are refused"),
    (Gives::AfterFirstReopening, "rights are given again after the first finished reopening alone"),
    (Gives::ReadingAlone, "the right 1 is given"),
    (Gives::PageZeroAlone, "rights are given on page 0 alone"),
    (Gives::AllPagesButLast, "rights are given on pages 0 to P - 2"),
    (Gives::ToClientOne, "rights are given to client 1"),
    (Gives::BeginsAsClientOne, "begins name client 1"),
    (Gives::BeginsAsTransaction, "begins name the transaction's number, modulo 8, as client"),
    (Gives::GrantsHaveLines, "each grant is counted as a line"),
];

impl Gives {
    /// As whom a begin of t names itself.
    pub fn client(self, t: u32) -> u32 {
        match self {
            Gives::BeginsAsClientOne => 1,
            Gives::BeginsAsTransaction => t % CLIENTS,
            _ => 0,
        }
    }

    /// The grants after formatting, or after a call with its answer, where so many reopenings have finished before.
    pub fn grants(self, call: Call, answer: u64, finished: u64) -> Vec<Call> {
        let last = PAGES as u32;
        let [formatted, reopened] = [call == Call::Format, call == Call::ReopenStep && answer == u64::from(last)];
        let given = match self {
            Gives::Never => false,
            Gives::OnceFormatted => formatted,
            Gives::OnceReopened => reopened,
            Gives::AtReopen => formatted || call == Call::Reopen,
            Gives::AtLastPage => formatted || (call == Call::ReopenStep && answer == u64::from(last - 1)),
            Gives::AfterFirstReopening => formatted || (reopened && finished == 0),
            _ => formatted || reopened,
        };
        let pages = match self {
            _ if !given => 0..0,
            Gives::PageZeroAlone => 0..1,
            Gives::AllPagesButLast => 0..last - 1,
            _ => 0..last,
        };
        let (client, right) = match self {
            Gives::ToClientOne => (1, WRITING),
            Gives::ReadingAlone => (0, READING),
            _ => (0, WRITING),
        };
        pages.map(|page| Call::Grant(client, page, right)).collect()
    }
}
