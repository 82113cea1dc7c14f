//! The depot's record server: the proved calls, held, over files with syncs, served to tablets. docs/SERVER.md is for
//! whoever runs it, and says why each state that a power cut can leave on the disk is one that stood between two calls.

pub mod backup;
pub mod checkpoint;
pub mod checksum;
pub mod client;
pub mod clients;
pub mod collector;
pub mod commands;
pub mod control;
pub mod desk;
pub mod desk_json;
pub mod disk;
pub mod engine;
pub mod housekeeper;
pub mod image;
pub mod journal;
pub mod json;
pub mod line;
pub mod listen;
pub mod rights;
pub mod serve;
pub mod server;
pub mod session;
pub mod signals;
pub mod status;
pub mod timed;
pub mod trace;
pub mod view;
pub mod words;

use std::io::Write;

/// To standard error. A server goes on where nobody listens.
pub fn say(text: &str) {
    let _ = writeln!(std::io::stderr(), "depot: {text}");
}

/// To standard output.
pub fn tell(text: &str) {
    let _ = writeln!(std::io::stdout(), "depot: {text}");
}
