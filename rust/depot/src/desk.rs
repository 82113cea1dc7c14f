//! The desk's page over HTTP, read-only: desk.html, and what it asks for as JSON. A request is answered by a short
//! thread of its own, and its connection closed. The records shown are those of the page copies.

use std::io::{self, ErrorKind, Read};
use std::net::{Ipv4Addr, Ipv6Addr, Shutdown, SocketAddr, TcpListener, TcpStream};
use std::sync::atomic::{AtomicUsize, Ordering};
use std::sync::Arc;
use std::thread;
use std::time::{Duration, Instant};

use crate::desk_json::{children, in_range, object, state, Named};
use crate::json;
use crate::server::Server;
use crate::timed;

const PAGE: &str = include_str!("desk.html");
const AT_ONCE: usize = 16;
const HEAD_BYTES: usize = 8192;
const PATIENCE: Duration = Duration::from_secs(5);
/// How often a quiet desk looks for a request, and whether the server has stopped.
const LOOK: Duration = Duration::from_millis(20);
/// Objects that one request may name.
const NAMED: usize = 256;

const HTML: &str = "text/html; charset=utf-8";
const JSON: &str = "application/json; charset=utf-8";
/// Nothing from elsewhere, nothing to elsewhere, and no other page around it.
const HEADERS: &str = "Cache-Control: no-store\r\n\
    Content-Security-Policy: default-src 'none'; style-src 'unsafe-inline'; script-src 'unsafe-inline'; \
    connect-src 'self'; img-src data:; base-uri 'none'; form-action 'none'; frame-ancestors 'none'\r\n\
    X-Content-Type-Options: nosniff\r\n\
    Cross-Origin-Resource-Policy: same-origin\r\n\
    Referrer-Policy: no-referrer\r\n\
    Connection: close\r\n";

/// The desk knows no users: whoever reaches it sees every record. So it is on this machine alone.
pub fn check_loopback(addr: &SocketAddr) -> Result<(), String> {
    match addr.ip().is_loopback() {
        true => Ok(()),
        false => Err(format!("the desk's address must be a loopback one such as 127.0.0.1, and {addr} is none")),
    }
}

/// Answers requests until the server stops or fails. What comes while sixteen are being answered waits.
pub fn serve(server: Arc<Server>, listener: TcpListener) {
    if listener.set_nonblocking(true).is_err() {
        return;
    }
    let places = Arc::new(AtomicUsize::new(0));
    while !server.stopped() && server.failed().is_none() {
        match Place::take(&places).map(|place| (place, listener.accept())) {
            Some((place, Ok((stream, _)))) => begin(&server, stream, place),
            _ => thread::sleep(LOOK),
        }
    }
}

/// One of the sixteen, given back when it is dropped, however its thread ends.
struct Place(Arc<AtomicUsize>);

impl Place {
    /// Only the listening thread takes one, so looking first is enough.
    fn take(places: &Arc<AtomicUsize>) -> Option<Place> {
        if places.load(Ordering::SeqCst) >= AT_ONCE {
            return None;
        }
        places.fetch_add(1, Ordering::SeqCst);
        Some(Place(places.clone()))
    }
}

impl Drop for Place {
    fn drop(&mut self) {
        self.0.fetch_sub(1, Ordering::SeqCst);
    }
}

/// A browser that goes away, or a thread that the system refuses, costs that one request.
fn begin(server: &Arc<Server>, stream: TcpStream, place: Place) {
    let server = server.clone();
    let _ = thread::Builder::new().name(String::from("desk")).spawn(move || {
        let _place = place;
        let _ = exchange(&server, stream);
    });
}

fn exchange(server: &Server, mut stream: TcpStream) -> io::Result<()> {
    stream.set_nonblocking(false)?;
    let mut buffer = [0; HEAD_BYTES];
    let head = read_head(&mut stream, &mut buffer, Instant::now() + PATIENCE)?;
    let (reply, bodiless) = match head.map(Request::parse) {
        None => (Reply::error("431 Request Header Fields Too Large", "the request's head is too long"), false),
        Some(None) => (Reply::error("400 Bad Request", "this is no request"), false),
        Some(Some(request)) => (request.answer(server), request.method == "HEAD"),
    };
    timed::write_all(&mut stream, &reply.bytes(bodiless), Instant::now() + PATIENCE)?;
    finish(&mut stream)
}

/// The head up to its empty line; none where the buffer is full before it ends.
fn read_head<'a>(stream: &mut TcpStream, buffer: &'a mut [u8], deadline: Instant) -> io::Result<Option<&'a [u8]>> {
    let mut length = 0;
    while length < buffer.len() {
        stream.set_read_timeout(Some(timed::left(deadline)?))?;
        match stream.read(&mut buffer[length..])? {
            0 => return Err(ErrorKind::UnexpectedEof.into()),
            count => length += count,
        }
        if let Some(end) = buffer[..length].windows(4).position(|four| four == b"\r\n\r\n") {
            return Ok(Some(&buffer[..end]));
        }
    }
    Ok(None)
}

/// Closing with something unread, such as a body that was not asked for, would take back what was just written.
fn finish(stream: &mut TcpStream) -> io::Result<()> {
    stream.shutdown(Shutdown::Write)?;
    let deadline = Instant::now() + Duration::from_secs(1);
    let mut scrap = [0; HEAD_BYTES];
    let mut count = 1;
    while count != 0 {
        stream.set_read_timeout(Some(timed::left(deadline)?))?;
        count = stream.read(&mut scrap)?;
    }
    Ok(())
}

struct Request<'a> {
    method: &'a str,
    path: &'a str,
    query: &'a str,
    host: &'a str,
}

impl<'a> Request<'a> {
    /// None for what is no request of HTTP/1, or does not name exactly one host.
    fn parse(head: &'a [u8]) -> Option<Request<'a>> {
        let mut lines = std::str::from_utf8(head).ok()?.split("\r\n");
        let mut words = lines.next()?.split(' ');
        let (method, target, version) = (words.next()?, words.next()?, words.next()?);
        let mut hosts = lines
            .filter_map(|line| line.split_once(':'))
            .filter_map(|(name, value)| name.eq_ignore_ascii_case("host").then_some(value.trim()));
        let host = hosts.next()?;
        let one = hosts.next().is_none() && words.next().is_none();
        let (path, query) = target.split_once('?').unwrap_or((target, ""));
        let sound = one && version.starts_with("HTTP/1.") && path.starts_with('/');
        sound.then_some(Request { method, path, query, host })
    }

    /// A name of elsewhere that was made to lead here must not read the store for its own page, so the host comes first.
    fn answer(&self, server: &Server) -> Reply {
        if !is_loopback_host(self.host) {
            return Reply::error("403 Forbidden", "the desk answers to 127.0.0.1, localhost and [::1] alone");
        }
        if !matches!(self.method, "GET" | "HEAD") {
            return Reply::error("405 Method Not Allowed", "the desk is read-only");
        }
        let answered = match self.path {
            "/" => return Reply { status: OK, kind: HTML, body: String::from(PAGE) },
            "/state" => Ok(state(server, self.value("since"))),
            "/object" => self.objects(server).and_then(|named| object(server, &named)),
            "/children" => self.objects(server).map(|named| children(&named)),
            _ => return Reply::error("404 Not Found", "there is no such page"),
        };
        match answered {
            Ok(body) => Reply { status: OK, kind: JSON, body },
            Err(what) => Reply::error("400 Bad Request", what),
        }
    }

    fn value(&self, name: &str) -> Option<&'a str> {
        self.query
            .split('&')
            .filter_map(|pair| pair.split_once('='))
            .find(|pair| pair.0 == name)
            .map(|pair| pair.1)
    }

    /// The objects of `n=17` or `n=1,17,18`, each of them in range.
    fn objects(&self, server: &Server) -> Result<Named, &'static str> {
        let copies = server.copies();
        let numbers = self.value("n").unwrap_or_default().split(',').take(NAMED + 1);
        let objects: Option<Vec<u32>> = numbers.map(|number| number.parse().ok()).collect();
        match objects {
            Some(objects) if objects.len() > NAMED => Err("too many objects"),
            Some(objects) if objects.iter().all(|object| in_range(&copies, *object)) => {
                Ok(Named { objects, copies })
            }
            _ => Err("no object has this number"),
        }
    }
}

/// `127.0.0.1`, `localhost` or `[::1]`, with or without a port.
fn is_loopback_host(host: &str) -> bool {
    let (name, port) = match host.rsplit_once(':') {
        Some((name, port)) if !port.ends_with(']') => (name, port),
        _ => (host, ""),
    };
    let known = name.eq_ignore_ascii_case("localhost")
        || name == Ipv4Addr::LOCALHOST.to_string()
        || name == format!("[{}]", Ipv6Addr::LOCALHOST);
    known && port.bytes().all(|byte| byte.is_ascii_digit())
}

const OK: &str = "200 OK";

struct Reply {
    status: &'static str,
    kind: &'static str,
    body: String,
}

impl Reply {
    fn error(status: &'static str, what: &str) -> Reply {
        Reply { status, kind: JSON, body: json::object(&[("error", json::text(what))]) }
    }

    fn bytes(&self, bodiless: bool) -> Vec<u8> {
        let allow = if self.status.starts_with("405") { "Allow: GET, HEAD\r\n" } else { "" };
        let (status, kind, length) = (self.status, self.kind, self.body.len());
        let body = if bodiless { "" } else { &self.body };
        format!(
            "HTTP/1.1 {status}\r\nContent-Type: {kind}\r\nContent-Length: {length}\r\n{HEADERS}{allow}\r\n{body}"
        )
        .into_bytes()
    }
}

#[cfg(test)]
mod tests {
    use super::*;

    #[test]
    fn hosts_of_this_machine() {
        for host in ["127.0.0.1", "127.0.0.1:7480", "localhost:1", "LOCALHOST", "[::1]", "[::1]:7480"] {
            assert!(is_loopback_host(host), "{host}");
        }
    }

    #[test]
    fn hosts_of_elsewhere() {
        for host in
            ["", "depot.example", "127.0.0.1.example:80", "localhost.", "::1", "127.0.0.1:80:80", "a:[::1]"]
        {
            assert!(!is_loopback_host(host), "{host}");
        }
    }

    #[test]
    fn requests_are_told_from_others() {
        let whole = Request::parse(b"GET /object?a=2&n=17 HTTP/1.1\r\nHOST:  localhost \r\nAccept: */*").unwrap();
        assert_eq!((whole.method, whole.path, whole.host), ("GET", "/object", "localhost"));
        assert_eq!((whole.value("n"), whole.value("m")), (Some("17"), None));
        let wrong = ["", "GET / HTTP/1.1", "GET / HTTP/2\r\nHost: a", "GET http://a/ HTTP/1.1\r\nHost: a"];
        assert!(wrong.iter().all(|head| Request::parse(head.as_bytes()).is_none()));
        assert!(Request::parse(b"GET / HTTP/1.1\r\nHost: a\r\nHost: b").is_none());
        assert!(Request::parse(b"GET / HTTP/1.1\r\nHost: \xff").is_none());
    }

    #[test]
    fn an_address_of_elsewhere_is_refused() {
        assert!(check_loopback(&"127.0.0.1:7480".parse().unwrap()).is_ok());
        assert!(check_loopback(&"[::1]:0".parse().unwrap()).is_ok());
        assert!(check_loopback(&"0.0.0.0:7480".parse().unwrap()).is_err());
    }
}
