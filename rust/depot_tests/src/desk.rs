//! The desk beside the clients: it looks at the store, takes backups, has the rights read again, and at last may
//! stop the server.

use std::sync::atomic::{AtomicU32, Ordering};
use std::sync::Arc;
use std::time::Duration;

use depot::clients::Clients;
use depot::server::Server;

use crate::committed::{reached_in_pages, reopened};
use crate::crew::{Crew, Stopped};
use crate::pair::Reader;
use crate::random::Random;

pub struct Desk {
    /// To read each client's records, and what it was told last of them.
    crews: Vec<(Reader, [Arc<AtomicU32>; 2])>,
    looks: usize,
    stops: bool,
    random: Random,
}

impl Desk {
    pub fn new(crews: &[Crew], stops: bool, mut random: Random) -> Desk {
        let crews = crews.iter().map(|crew| (crew.reader(), crew.shown())).collect();
        Desk { crews, looks: random.below(8), stops, random }
    }

    pub fn work(&mut self, server: &Server) -> Result<(), Stopped> {
        for _ in 0..self.looks {
            std::thread::sleep(Duration::from_micros(self.random.below(600) as u64));
            self.look(server).map_err(Stopped::Wrong)?;
        }
        match self.stops {
            true => server.stop().map_err(Stopped::Ended),
            false => Ok(()),
        }
    }

    fn look(&mut self, server: &Server) -> Result<(), String> {
        match self.random.below(4) {
            0 => drop(server.view()),
            1 => drop(server.chain(1 + self.random.below(64) as u32)),
            2 => drop(server.change_rights(Clients::all())),
            _ => return self.back_up(server),
        }
        Ok(())
    }

    /// A backup has each client's records, not older than what was told when it was asked for.
    fn back_up(&self, server: &Server) -> Result<(), String> {
        let least: Vec<[u32; 2]> = self.crews.iter().map(|(_, shown)| told(shown)).collect();
        let Ok((pages, records, room)) = server.stable() else { return Ok(()) };
        let objects = reached_in_pages(&reopened(&pages, &records, room)?)?;
        self.crews.iter().zip(least).try_for_each(|((reader, _), least)| {
            let found =
                reader.read(&mut |object| objects.get(&object).copied().ok_or("not reached".to_string()))?;
            match found.count >= least[0] && found.note >= least[1] {
                true => Ok(()),
                false => {
                    Err(format!("a backup has counts {} and {}, told were {least:?}", found.count, found.note))
                }
            }
        })
    }
}

/// What was told of the pair and of the note.
pub fn told(shown: &[Arc<AtomicU32>; 2]) -> [u32; 2] {
    shown.each_ref().map(|count| count.load(Ordering::SeqCst))
}
