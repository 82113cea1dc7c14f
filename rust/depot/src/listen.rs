//! Tablets over TCP: a thread for each connection, which reads its lines, has them answered and writes the answers.
//! A tablet that does not read its answers holds up nobody else.

use std::io::{self, ErrorKind, Read};
use std::net::{TcpListener, TcpStream};
use std::sync::Arc;
use std::time::{Duration, Instant};

use crate::engine::BUSY;
use crate::say;
use crate::server::Server;
use crate::session::Session;
use crate::timed;

pub const MOST_CONNECTIONS: usize = 64;
const READ_BYTES: usize = 1 << 14;
const WRITE_TIME: Duration = Duration::from_secs(5);
/// Without a line for so long, a connection ends.
const QUIET_TIME: Duration = Duration::from_secs(600);

/// Takes connections, all as this client.
pub fn start(server: Arc<Server>, listener: TcpListener, client: u32) {
    std::thread::spawn(move || {
        while let Some(stream) = accept(&listener) {
            let peer = stream.peer_addr().map(|peer| peer.to_string()).unwrap_or_default();
            let taken = server.connections() < MOST_CONNECTIONS;
            let session = taken.then(|| server.connect(client, &peer));
            let threaded = std::thread::Builder::new().spawn(move || match session {
                Some(session) => drop(serve(session, stream)),
                None => drop(refuse(stream)),
            });
            if let Err(error) = threaded {
                say(&format!("a connection was not taken: {error}"));
            }
        }
    });
}

/// The next connection; where there are too many open files, a little later.
fn accept(listener: &TcpListener) -> Option<TcpStream> {
    loop {
        match listener.accept() {
            Ok((stream, _)) => return Some(stream),
            Err(error) if error.kind() == ErrorKind::InvalidInput => return None,
            Err(_) => std::thread::sleep(Duration::from_millis(50)),
        }
    }
}

fn refuse(mut stream: TcpStream) -> io::Result<()> {
    timed::write_all(&mut stream, format!("0,{BUSY},0\r\n").as_bytes(), Instant::now() + WRITE_TIME)
}

fn serve(mut session: Session, mut stream: TcpStream) -> io::Result<()> {
    stream.set_nodelay(true)?;
    stream.set_read_timeout(Some(QUIET_TIME))?;
    let mut writer = stream.try_clone()?;
    let mut send = |bytes: &[u8]| timed::write_all(&mut writer, bytes, Instant::now() + WRITE_TIME);
    let mut buffer = vec![0; READ_BYTES];
    loop {
        let count = stream.read(&mut buffer)?;
        if count == 0 || session.take(&buffer[..count], &mut send).is_err() {
            return Ok(());
        }
    }
}
