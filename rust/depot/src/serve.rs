//! `depot serve`.

use std::net::{self, TcpListener};
use std::os::linux::net::SocketAddrExt;
use std::os::unix::ffi::OsStrExt;
use std::os::unix::net::{SocketAddr, UnixDatagram};
use std::path::{Path, PathBuf};
use std::sync::Arc;
use std::time::Duration;

use kophdaen::layout::SLOTS;

use crate::clients::Clients;
use crate::disk::Folder;
use crate::server::{Options, Server};
use crate::status::Stop;
use crate::trace::Trace;
use crate::words::Words;
use crate::{control, desk, image, listen, say, signals, tell};

pub const LISTEN: &str = "127.0.0.1:7400";
pub const DESK: &str = "127.0.0.1:7480";

fn options(words: &mut Words) -> Result<Options, Stop> {
    const MOST_COMMITS: usize = 4096; // L4: n is 1 to 4096
    let usual = Options::default();
    Ok(Options {
        per_connection: words.count("--per-connection", 1..=SLOTS, usual.per_connection)?,
        begin_wait: words.seconds("--begin-wait", usual.begin_wait)?,
        idle: words.seconds("--idle", usual.idle)?,
        drain_grace: words.seconds("--drain-grace", usual.drain_grace)?,
        pass_commits: words.count("--pass-commits", 0..=MOST_COMMITS, usual.pass_commits as usize)? as u32,
        stop_grace: words.seconds("--stop-grace", usual.stop_grace)?,
        trace: words.option::<PathBuf>("--trace")?.map_or(Ok(Trace::default()), |path| Trace::to(&path))?,
    })
}

fn bind(address: &net::SocketAddr) -> Result<TcpListener, Stop> {
    let another = "--listen and --desk take other addresses, and so does the file clients";
    TcpListener::bind(address)
        .map_err(|error| Stop::failed(format!("cannot listen at {address}: {error}; {another}")))
}

pub fn serve(mut words: Words) -> Result<(), Stop> {
    let options = options(&mut words)?;
    let listen: net::SocketAddr = words.option("--listen")?.unwrap_or(LISTEN.parse().expect("an address"));
    let desk: String = words.option("--desk")?.unwrap_or(DESK.into());
    words.end()?;
    let [folder] = words.names("depot serve DIR")?;
    let folder = Path::new(folder);
    let started = std::time::Instant::now();
    let mut progress = |text: &str| say(&format!("{text} ({:.1} s)", started.elapsed().as_secs_f64()));
    let (disk, files) = Folder::open(folder)?;
    let pages = image::read(&files).map_or(0, |found| found.pages.len() / kophdaen::PAGE_WORDS);
    let clients = if pages == 0 { Clients::all() } else { Clients::read(folder, pages)? };
    let tablets = tablets(&clients, listen)?;
    let desk = desk_listener(&desk)?;
    let server = Server::start(Arc::new(disk), &files, clients, options, &mut progress)?;
    panic_ends();
    signals::catch();
    if let Err(stop) = control::start(server.clone(), folder) {
        say(&format!("{stop}; goes on without: status and stop do not work, a signal still ends it"));
    }
    ready(&server, folder, tablets, desk);
    watch_signals(server.clone());
    server.wait_over().map_err(|text| Stop::failed(format!("ended: {text}")))?;
    std::thread::sleep(Duration::from_millis(50)); // `depot stop` hears of it
    control::remove(folder);
    say("stopped; the log is empty");
    Ok(())
}

/// The address of client 0, and those that the file names for others.
fn tablets(clients: &Clients, listen: net::SocketAddr) -> Result<Vec<(u32, TcpListener)>, Stop> {
    let others = clients.clients.iter().filter_map(|client| Some((client.number, client.listen?)));
    let all = std::iter::once((0, listen)).chain(others);
    all.map(|(client, address)| Ok((client, bind(&address)?))).collect()
}

fn desk_listener(address: &str) -> Result<Option<TcpListener>, Stop> {
    if address == "none" {
        return Ok(None);
    }
    let wrong = || Stop::new(crate::status::USAGE, format!("--desk {address}: no address, nor none"));
    let address: net::SocketAddr = address.parse().map_err(|_| wrong())?;
    desk::check_loopback(&address).map_err(|text| Stop::new(crate::status::USAGE, text))?;
    bind(&address).map(Some)
}

fn ready(server: &Arc<Server>, folder: &Path, tablets: Vec<(u32, TcpListener)>, desk: Option<TcpListener>) {
    let place = |listener: &TcpListener| listener.local_addr().map(|at| at.to_string()).unwrap_or_default();
    for (client, listener) in tablets {
        match client {
            0 => tell(&format!("serving {}, tablets at {}", folder.display(), place(&listener))),
            _ => tell(&format!("tablets of client {client} at {}", place(&listener))),
        }
        listen::start(server.clone(), listener, client);
    }
    if let Some(listener) = desk {
        tell(&format!("desk at http://{}/", place(&listener)));
        let server = server.clone();
        std::thread::spawn(move || desk::serve(server, listener));
    }
    tell("ready");
    notify("READY=1");
}

/// A panic in any thread ends the server at once, as a cut would: nothing was told that is not on the disk.
fn panic_ends() {
    let usual = std::panic::take_hook();
    std::panic::set_hook(Box::new(move |panic| {
        usual(panic);
        std::process::exit(crate::status::FAILED.into());
    }));
}

fn watch_signals(server: Arc<Server>) {
    std::thread::spawn(move || {
        while !signals::asked_to_stop() {
            std::thread::sleep(Duration::from_millis(50));
        }
        say("stopping");
        notify("STOPPING=1");
        let _ = server.stop();
    });
}

/// Tells systemd, where it started the server and wants to know.
fn notify(state: &str) {
    let Some(name) = std::env::var_os("NOTIFY_SOCKET") else {
        return;
    };
    let address = match name.as_bytes() {
        [b'@', rest @ ..] => SocketAddr::from_abstract_name(rest),
        _ => SocketAddr::from_pathname(&name),
    };
    let sent = address.and_then(|address| UnixDatagram::unbound()?.send_to_addr(state.as_bytes(), &address));
    if let Err(error) = sent {
        say(&format!("systemd was not told {state}: {error}"));
    }
}
