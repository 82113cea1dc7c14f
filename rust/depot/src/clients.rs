//! The file `clients` of a store's folder: which clients there are, where they connect, and what they may do. Rights
//! are not in the store (docs/RIGHTS.md): they are given anew from this file at each start.
//!
//! ```text
//! client 0 shop
//! right 0 all write
//! client 1 contractor listen 127.0.0.1:7401
//! right 1 0 read
//! right 1 16-31 write
//! ```

use std::net::SocketAddr;
use std::path::Path;

use kophdaen::CLIENTS;

use crate::status::{Stop, USAGE};

pub const FILE: &str = "clients";

/// What `depot format` writes.
pub const FIRST: &str = "\
# Clients and their rights; `depot rights DIR` reads this file again. docs/SERVER.md, *Clients and rights*.
#   client NUMBER NAME [listen ADDRESS]     clients are 0 to 7; --listen is client 0's address
#   right NUMBER PAGES none|read|write      pages: 7, 0-15 or all; a later line wins
client 0 shop
right 0 all write
";

#[derive(Clone, Debug, PartialEq, Eq)]
pub struct Client {
    pub number: u32,
    pub name: String,
    pub listen: Option<SocketAddr>,
}

#[derive(Clone, Debug)]
struct Line {
    client: u32,
    first: usize,
    last: usize,
    right: u32,
}

#[derive(Clone, Debug, Default)]
pub struct Clients {
    pub clients: Vec<Client>,
    rights: Vec<Line>,
}

impl Clients {
    /// Client 0 may read and write every page.
    pub fn all() -> Clients {
        Clients::parse(FIRST, usize::MAX).expect("the first file is right")
    }

    pub fn read(folder: &Path, pages: usize) -> Result<Clients, Stop> {
        let path = folder.join(FILE);
        let wrong = |text: String| Stop::new(USAGE, format!("{}: {text}", path.display()));
        let text = std::fs::read_to_string(&path).map_err(|error| wrong(error.to_string()))?;
        Clients::parse(&text, pages).map_err(wrong)
    }

    pub fn parse(text: &str, pages: usize) -> Result<Clients, String> {
        let mut clients = Clients::default();
        for (number, line) in text.lines().enumerate() {
            let words: Vec<&str> = line.split('#').next().unwrap_or("").split_whitespace().collect();
            clients.take(&words, pages).map_err(|text| format!("line {}: {text}", number + 1))?;
        }
        Ok(clients)
    }

    fn take(&mut self, words: &[&str], pages: usize) -> Result<(), String> {
        match *words {
            [] => Ok(()),
            ["client", number, name] => self.add(number, name, None),
            ["client", number, name, "listen", address] => {
                let address =
                    address.parse().map_err(|_| format!("{address}: no address, as 127.0.0.1:7401 is"))?;
                self.add(number, name, Some(address))
            }
            ["right", number, range, right] => self.give(number, range, right, pages),
            _ => {
                Err("neither `client NUMBER NAME [listen ADDRESS]` nor `right NUMBER PAGES none|read|write`"
                    .into())
            }
        }
    }

    fn add(&mut self, number: &str, name: &str, listen: Option<SocketAddr>) -> Result<(), String> {
        let number = client_number(number)?;
        if self.clients.iter().any(|client| client.number == number) {
            return Err(format!("client {number} was there before"));
        }
        self.clients.push(Client { number, name: name.into(), listen });
        Ok(())
    }

    fn give(&mut self, number: &str, range: &str, right: &str, pages: usize) -> Result<(), String> {
        let client = client_number(number)?;
        if !self.clients.iter().any(|known| known.number == client) {
            return Err(format!("client {client} has no line before this one"));
        }
        let (first, last) = page_range(range, pages).ok_or(format!("{range}: no pages of this store"))?;
        let rights = ["none", "read", "write"];
        let right =
            rights.iter().position(|name| *name == right).ok_or(format!("{right}: not none, read or write"))?;
        self.rights.push(Line { client, first, last, right: right as u32 });
        Ok(())
    }

    /// What the client may do on the page: 0 nothing, 1 read, 2 also write.
    pub fn right(&self, client: u32, page: usize) -> u32 {
        let of = |line: &&Line| line.client == client && (line.first..=line.last).contains(&page);
        self.rights.iter().rev().find(of).map_or(0, |line| line.right)
    }

    pub fn name(&self, number: u32) -> &str {
        self.clients.iter().find(|client| client.number == number).map_or("", |client| &client.name)
    }
}

fn client_number(word: &str) -> Result<u32, String> {
    word.parse().ok().filter(|number| *number < CLIENTS).ok_or(format!("{word}: clients are 0 to {}", CLIENTS - 1))
}

fn page_range(word: &str, pages: usize) -> Option<(usize, usize)> {
    let (first, last) = match word.split_once('-') {
        _ if word == "all" => (0, pages - 1),
        Some((first, last)) => (first.parse().ok()?, last.parse().ok()?),
        None => (word.parse().ok()?, word.parse().ok()?),
    };
    (first <= last && last < pages).then_some((first, last))
}

#[cfg(test)]
mod tests {
    use super::*;

    #[test]
    fn a_later_line_wins() {
        let text = "client 1 contractor listen 127.0.0.1:7401\nright 1 all read # look\nright 1 2-3 write\nright 1 3 none";
        let clients = Clients::parse(text, 4).expect("right");
        assert_eq!([0, 1, 2, 3].map(|page| clients.right(1, page)), [1, 1, 2, 0]);
        assert_eq!(clients.right(0, 0), 0);
        assert_eq!(clients.clients[0].listen, Some("127.0.0.1:7401".parse().expect("an address")));
    }

    #[test]
    fn what_is_refused() {
        for text in
            ["client 8 x", "right 0 all read", "client 0 x\nright 0 4 read", "client 0 x\nright 0 2-1 read"]
        {
            assert!(Clients::parse(text, 4).is_err(), "{text}");
        }
        for text in ["client 0 x\nclient 0 y", "client 0 x\nright 0 1 all", "hello", "client 0 x listen here"] {
            assert!(Clients::parse(text, 4).is_err(), "{text}");
        }
    }
}
