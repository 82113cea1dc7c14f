//! A connection to the server, over TCP or within the process: lines there, one reply for each back.

use std::io::{BufRead, BufReader, Write};
use std::net::TcpStream;
use std::sync::Arc;
use std::time::Duration;

use depot::server::Server;
use depot::session::Session;

/// An answer of the server's: `n,answer,value` and what follows.
#[derive(Clone, Debug, PartialEq, Eq)]
pub struct Reply {
    pub line: u64,
    pub answer: u32,
    /// The fields behind the answer.
    pub rest: Vec<String>,
}

impl Reply {
    pub fn read(text: &str) -> Result<Reply, String> {
        let bad = || format!("no answer: {text:?}");
        let mut fields = text.strip_suffix("\r\n").ok_or_else(bad)?.split(',');
        let line = fields.next().and_then(|field| field.parse().ok()).ok_or_else(bad)?;
        let answer = fields.next().and_then(|field| field.parse().ok()).ok_or_else(bad)?;
        Ok(Reply { line, answer, rest: fields.map(str::to_string).collect() })
    }

    /// The words of a read.
    pub fn words(&self) -> Vec<u32> {
        self.rest.iter().filter_map(|field| field.parse().ok()).collect()
    }

    pub fn text(&self) -> String {
        format!("{},{},{}", self.line, self.answer, self.rest.join(","))
    }
}

/// Why no reply came: the connection or the server has ended.
pub type Ended = String;

pub trait Channel: Send {
    /// Sends lines, each ending in LF, in one write, and takes a reply for each. Those that came before an end
    /// stay.
    fn exchange(&mut self, lines: &str, replies: &mut Vec<Reply>) -> Result<(), Ended>;

    fn ask(&mut self, line: &str) -> Result<Reply, Ended> {
        let mut replies = Vec::new();
        self.exchange(&format!("{line}\n"), &mut replies)?;
        replies.pop().ok_or_else(|| "no reply".to_string())
    }
}

pub struct Tcp {
    pub stream: TcpStream,
    reader: BufReader<TcpStream>,
}

const PATIENCE: Duration = Duration::from_secs(20);

impl Tcp {
    pub fn connect(address: &str) -> Result<Tcp, Ended> {
        let stream = TcpStream::connect(address).map_err(|error| error.to_string())?;
        let set = stream.set_nodelay(true).and_then(|()| stream.set_read_timeout(Some(PATIENCE)));
        set.and_then(|()| stream.set_write_timeout(Some(PATIENCE))).map_err(|error| error.to_string())?;
        let reader = stream.try_clone().map_err(|error| error.to_string())?;
        Ok(Tcp { stream, reader: BufReader::new(reader) })
    }

    pub fn send(&mut self, bytes: &[u8]) -> Result<(), Ended> {
        self.stream.write_all(bytes).map_err(|error| error.to_string())
    }

    /// The next answer as it came, with its CRLF.
    pub fn answer(&mut self) -> Result<String, Ended> {
        let mut text = Vec::new();
        match self.reader.read_until(b'\n', &mut text) {
            Ok(0) => Err("the connection has ended".to_string()),
            Ok(_) => String::from_utf8(text).map_err(|_| "an answer that is no text".to_string()),
            Err(error) => Err(error.to_string()),
        }
    }

    pub fn reply(&mut self) -> Result<Reply, Ended> {
        Reply::read(&self.answer()?)
    }
}

impl Channel for Tcp {
    fn exchange(&mut self, lines: &str, replies: &mut Vec<Reply>) -> Result<(), Ended> {
        self.send(lines.as_bytes())?;
        (0..lines.matches('\n').count()).try_for_each(|_| {
            replies.push(self.reply()?);
            Ok(())
        })
    }
}

pub struct Inside {
    session: Session,
}

impl Inside {
    pub fn connect(server: &Arc<Server>, name: &str) -> Inside {
        Inside { session: server.connect(0, name) }
    }
}

impl Channel for Inside {
    fn exchange(&mut self, lines: &str, replies: &mut Vec<Reply>) -> Result<(), Ended> {
        let mut bytes = Vec::new();
        let taken = self.session.take(lines.as_bytes(), &mut |part| {
            bytes.extend_from_slice(part);
            Ok(())
        });
        let text = String::from_utf8(bytes).map_err(|_| "an answer that is no text".to_string())?;
        let before = replies.len();
        for answer in text.split_inclusive('\n') {
            replies.push(Reply::read(answer)?);
        }
        match taken {
            Ok(()) if replies.len() - before == lines.matches('\n').count() => Ok(()),
            Ok(()) => Err(format!("{} replies to {lines:?}", replies.len() - before)),
            Err(_) => Err("the session has ended".to_string()),
        }
    }
}
