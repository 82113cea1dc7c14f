//! The operator's socket `control` in the store's folder, for its owner alone: a line asks, bytes answer, and the
//! connection ends. An answer begins with `ok` or `no`, and a line end.

use std::fs::File;
use std::io::{self, BufRead, BufReader, ErrorKind, Read, Write};
use std::os::fd::AsRawFd;
use std::os::unix::fs::PermissionsExt;
use std::os::unix::net::{UnixListener, UnixStream};
use std::path::{Path, PathBuf};
use std::sync::Arc;
use std::time::Duration;

use crate::backup::Backup;
use crate::clients::Clients;
use crate::server::Server;
use crate::status::{Stop, NOT_RUNNING};
use crate::view::COLUMNS;

const SOCKET: &str = "control";
const ASK_BYTES: u64 = 64;
const OWNER_ALONE: u32 = 0o600;

/// A socket's path may have some hundred bytes and a folder's more: so the folder is named by what it is opened as. The
/// file is to live as long as the path is used.
fn socket(folder: &Path) -> io::Result<(File, PathBuf)> {
    let opened = File::open(folder)?;
    let path = format!("/proc/self/fd/{}/{SOCKET}", opened.as_raw_fd());
    Ok((opened, path.into()))
}

/// The socket of a server that was killed is still there: the folder's lock is held, so it is nobody's.
pub fn start(server: Arc<Server>, folder: &Path) -> Result<(), Stop> {
    remove(folder);
    let made = socket(folder).and_then(|(_opened, path)| {
        let listener = UnixListener::bind(&path)?;
        std::fs::set_permissions(&path, PermissionsExt::from_mode(OWNER_ALONE))?;
        Ok(listener)
    });
    let path = folder.join(SOCKET);
    let listener = made.map_err(|error| Stop::failed(format!("cannot make {}: {error}", path.display())))?;
    let folder = folder.to_path_buf();
    std::thread::spawn(move || {
        for stream in listener.incoming().flatten() {
            let (server, folder) = (server.clone(), folder.clone());
            std::thread::spawn(move || answer(&server, &folder, stream));
        }
    });
    Ok(())
}

/// A server that stops leaves no socket.
pub fn remove(folder: &Path) {
    let _ = std::fs::remove_file(folder.join(SOCKET));
}

fn answer(server: &Server, folder: &Path, mut stream: UnixStream) -> io::Result<()> {
    stream.set_read_timeout(Some(Duration::from_secs(5)))?;
    stream.set_write_timeout(Some(Duration::from_secs(5)))?;
    let mut ask = String::new();
    BufReader::new((&stream).take(ASK_BYTES)).read_line(&mut ask)?;
    match ask.trim_end() {
        "status" => write!(stream, "ok\n{}", server.view().text()),
        "watch" => watch(server, &mut stream),
        "backup" => match server.stable() {
            Ok((pages, records, room)) => {
                stream.write_all(b"ok\n")?;
                stream.write_all(&Backup { pages, records, room }.bytes())
            }
            Err(_) => stream.write_all(b"no\nthe server has ended"),
        },
        "rights" => match Clients::read(folder, server.pages()) {
            Ok(clients) => rights(server, clients, &mut stream),
            Err(stop) => write!(stream, "no\n{stop}"),
        },
        "stop" => match server.stop() {
            Ok(()) => stream.write_all(b"ok\n"),
            Err(text) => write!(stream, "no\n{text}"),
        },
        _ => stream.write_all(b"no\nnot understood"),
    }
}

fn rights(server: &Server, clients: Clients, stream: &mut UnixStream) -> io::Result<()> {
    match server.change_rights(clients) {
        Ok(()) => stream.write_all(b"ok\n"),
        Err(_) => stream.write_all(b"no\nthe server has ended"),
    }
}

/// A row each second, until the other side has enough.
fn watch(server: &Server, stream: &mut UnixStream) -> io::Result<()> {
    write!(stream, "ok\n{COLUMNS}")?;
    while !server.stopped() {
        stream.write_all(server.view().row().as_bytes())?;
        std::thread::sleep(Duration::from_secs(1));
    }
    Ok(())
}

/// Asks the server of this folder; what it answers behind its `ok` is read from the stream.
pub fn ask(folder: &Path, line: &str) -> Result<BufReader<UnixStream>, Stop> {
    let failed = |error: io::Error| match error.kind() {
        ErrorKind::NotFound | ErrorKind::ConnectionRefused => {
            Stop::new(NOT_RUNNING, format!("no server runs on {}", folder.display()))
        }
        _ => Stop::failed(format!("cannot ask the server of {}: {error}", folder.display())),
    };
    let connected = socket(folder).and_then(|(_opened, path)| UnixStream::connect(path));
    let mut stream = connected.map_err(failed)?;
    writeln!(stream, "{line}").map_err(failed)?;
    let mut reader = BufReader::new(stream);
    let mut first = String::new();
    reader.read_line(&mut first).map_err(failed)?;
    match first.trim_end() {
        "ok" => Ok(reader),
        "no" => {
            let mut text = String::new();
            reader.read_to_string(&mut text).map_err(failed)?;
            Err(Stop::failed(text))
        }
        _ => Err(Stop::failed("the server ended before it answered")),
    }
}
