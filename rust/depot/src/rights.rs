//! What clients may do, as the file `clients` says it and as it is given in the store. A right is changed only while
//! no transaction of its client runs (L9); until then that client's begins wait.

use kophdaen::CLIENTS;

use crate::clients::Clients;
use crate::engine::Engine;

pub struct Rights {
    pub clients: Clients,
    /// What the store gives, by page and client.
    given: Vec<[u32; CLIENTS as usize]>,
    /// Clients of whom something is still to be given or taken, a bit each.
    waiting: u32,
}

impl Rights {
    /// In a store that was just opened nobody has a right.
    pub fn new(clients: Clients, pages: usize) -> Rights {
        Rights { clients, given: vec![[0; CLIENTS as usize]; pages], waiting: 0 }
    }

    pub fn waits(&self, client: u32) -> bool {
        self.waiting >> client & 1 == 1
    }

    pub fn right(&self, client: u32, page: usize) -> u32 {
        self.given[page][client as usize]
    }
}

impl Engine {
    /// Goes by this file from now on.
    pub(crate) fn change_rights(&mut self, clients: Clients) {
        self.rights.clients = clients;
        self.rights.waiting = (1 << CLIENTS) - 1;
        self.settle();
    }

    /// Gives what is to be given to clients without a running transaction.
    pub(crate) fn give_rights(&mut self) {
        if self.rights.waiting == 0 {
            return;
        }
        for client in 0..CLIENTS {
            let runs = self.running.iter().flatten().any(|running| running.crew.client == client);
            if !runs && self.rights.waits(client) {
                (0..self.pages()).for_each(|page| self.give(client, page));
                self.rights.waiting &= !(1 << client);
            }
        }
    }

    fn give(&mut self, client: u32, page: usize) {
        let right = self.rights.clients.right(client, page);
        if self.rights.right(client, page) == right {
            return;
        }
        let answer = self.held.grant(client, page as u32, right);
        self.rights.given[page][client as usize] = right;
        if !answer.accepted() {
            self.broken = Some(format!("grant was answered {}, which cannot be", answer.number));
        }
    }
}
