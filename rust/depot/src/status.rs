//! How a command ends: an exit status, and what it says.

use std::fmt;

pub const FAILED: u8 = 1;
pub const USAGE: u8 = 2;
/// The store is damaged, or is none.
pub const DAMAGED: u8 = 3;
/// Another server has the folder.
pub const TAKEN: u8 = 4;
/// No server runs on the folder.
pub const NOT_RUNNING: u8 = 5;

/// Why a command did not do what it was asked.
#[derive(Debug, Clone)]
pub struct Stop {
    pub status: u8,
    pub text: String,
}

impl Stop {
    pub fn new(status: u8, text: impl Into<String>) -> Stop {
        Stop { status, text: text.into() }
    }

    pub fn failed(text: impl Into<String>) -> Stop {
        Stop::new(FAILED, text)
    }
}

impl fmt::Display for Stop {
    fn fmt(&self, out: &mut fmt::Formatter) -> fmt::Result {
        out.write_str(&self.text)
    }
}
