//! `depot client`: a tablet at the terminal. Lines in, answers out, each with what it means in words.

use std::io::{self, BufRead, BufReader, IsTerminal, Write};
use std::net::{Shutdown, TcpStream};

use crate::line;
use crate::status::{Stop, USAGE};
use crate::words::Words;

const HELP: &str = "\
begin,t            a transaction; t is 0 to 15, your own number for it
lockr,t,page       lock a page for reading; lockw,t,page for writing
read,t,object      the eight words: four references, four of data. You know the root, 1, and what you read leads to
create,t,object    a new record in a free slot: page = (object - 1) / 16
set,t,object,field,word
flush,t,page       send the page back; commit,t needs it
commit,t           ends it; answered once it is on the disk.  abort,t undoes it
commitall,t        commits if none of its lines was refused, for lines that are sent ahead
mark,t,m  back,t,m  a mark, 0 to 3, and back to it
chain,object       why is this record still here: the shortest way to it from the root
hello,NAME         your name, for whoever finds you holding a page
";

/// What an answer's number means, for a person. docs/CALLING.md has the table.
pub fn meaning(number: u32) -> &'static str {
    match number {
        0 => "done",
        1 => "not understood: `help` has the lines",
        3 => "a number is out of range",
        4 => "no such transaction runs, or it runs already",
        5 => "lock the page first",
        6 => "another has a lock in the way",
        7 => "not known to this transaction: read the way to it from the root",
        8 => "that slot is occupied: another one",
        9 => "the page has other words than this image",
        10 => "flush the pages that you changed, then commit",
        11 => "the log is full: abort, and begin again",
        15 => "there is no such record",
        16 => "that mark is not set",
        18 => "a part cannot contain itself",
        19 => "this client has no right to it",
        100 => "busy: try again",
        101 => "the server has aborted this transaction: begin again",
        102 => "the server stops",
        103 => "this connection has as many transactions as it may",
        104 => "a line of it was refused: abort, or commit what there is",
        _ => "refused",
    }
}

pub fn client(mut words: Words) -> Result<(), Stop> {
    let name: Option<String> = words.option("--name")?;
    let raw = words.flag("--raw");
    words.end()?;
    let [address] = words.names("depot client ADDRESS, as 127.0.0.1:7400")?;
    if let Some(name) = name.as_deref().filter(|name| !line::is_name(name)) {
        let text = format!("--name {name}: 1 to {} letters, digits, spaces, and . _ -", line::NAME_BYTES);
        return Err(Stop::new(USAGE, text));
    }
    let failed = |error: io::Error| Stop::failed(format!("{address}: {error}"));
    let mut stream = TcpStream::connect(address).map_err(failed)?;
    stream.set_nodelay(true).map_err(failed)?;
    if let Some(name) = name {
        write!(stream, "hello,{name}\r\n").map_err(failed)?;
    }
    let answers = stream.try_clone().map_err(failed)?;
    let printer = std::thread::spawn(move || print(answers, raw));
    send(&mut stream, raw).map_err(failed)?;
    stream.shutdown(Shutdown::Write).map_err(failed)?;
    printer.join().unwrap_or(Ok(())).map_err(failed)
}

/// Sends the lines of standard input.
fn send(stream: &mut TcpStream, raw: bool) -> io::Result<()> {
    let terminal = io::stdin().is_terminal() && !raw;
    if terminal {
        println!("lines as begin,0 or read,0,1; `help` lists them; end with ctrl-D");
    }
    for line in io::stdin().lock().split(b'\n') {
        let line = line?;
        if terminal && line == b"help" {
            print!("{HELP}");
            continue;
        }
        stream.write_all(&[line.strip_suffix(b"\r").unwrap_or(&line), b"\r\n"].concat())?;
    }
    Ok(())
}

fn print(answers: TcpStream, raw: bool) -> io::Result<()> {
    for line in BufReader::new(answers).lines() {
        let line = line?;
        match raw {
            true => writeln!(io::stdout(), "{line}")?,
            false => writeln!(io::stdout(), "{line:24} {}", explained(&line))?,
        }
    }
    Ok(())
}

fn explained(line: &str) -> String {
    let fields: Vec<&str> = line.splitn(6, ',').collect();
    let number = fields.get(1).and_then(|number| number.parse().ok()).unwrap_or(u32::MAX);
    match fields[..] {
        [_, "6", slot, client, _, name] => format!("{name} has it: transaction {slot}, client {client}"),
        _ => meaning(number).into(),
    }
}
