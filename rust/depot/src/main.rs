use std::process::ExitCode;

use depot::status::{Stop, USAGE};
use depot::words::Words;
use depot::{client, commands, serve};

const HELP: &str = "\
depot: the depot's record server, over files, for tablets

  depot format DIR [--pages P] [--records L]   a new store: 1 to 256 pages (64), a log of 1 to 4096 records (4096)
  depot serve DIR [--listen ADDRESS]           serves it: tablets at 127.0.0.1:7400, as client 0
                  [--desk ADDRESS|none]        the desk's page, on loopback alone: 127.0.0.1:7480
  depot client ADDRESS [--name NAME] [--raw]   a tablet at the terminal: lines in, answers out
  depot status DIR                             what the server does, a line each
  depot watch DIR                              the same as columns, each second
  depot rights DIR                             reads DIR/clients again
  depot backup DIR FILE                        what a power cut now would leave, at any moment; - is standard output
  depot restore DIR FILE                       a new store from a backup; - is standard input
  depot check DIR                              whether a server may start; writes nothing
  depot stop DIR                               lets transactions run out, empties the log, ends the server

More options of serve, with what holds without them:
  --per-connection N    transactions of one connection (4; there are 16 in all)
  --begin-wait S        seconds that a begin waits in line for a transaction or for log room (5)
  --idle S              a transaction without a line for so long is aborted (60)
  --drain-grace S       a begin waits so long for the log to be emptied before those that run are aborted (2)
  --pass-commits N      a pass is spread over so many commits, 1 to 4096; 0: it goes on in idle moments alone (256)
  --stop-grace S        how long those that run may go on once the server is to stop (10)
  --trace FILE          writes down each call on the store, and its answer

Exit status: 0 done, 1 failed, 2 wrong words, 3 the store is damaged or is none, 4 another server has the folder,
5 no server runs. docs/SERVER.md is for whoever runs it.
";

fn run(words: &[String]) -> Result<(), Stop> {
    let Some((command, rest)) = words.split_first() else {
        return Err(Stop::new(USAGE, HELP));
    };
    if words.iter().any(|word| word == "--help" || word == "-h") || command == "help" {
        print!("{HELP}");
        return Ok(());
    }
    let words = Words::new(rest, &["--raw"])?;
    match command.as_str() {
        "format" => commands::format(words),
        "serve" => serve::serve(words),
        "client" => client::client(words),
        "status" => commands::status(words),
        "watch" => commands::watch(words),
        "rights" => commands::rights(words),
        "backup" => commands::backup(words),
        "restore" => commands::restore(words),
        "check" => commands::check(words),
        "stop" => commands::stop(words),
        _ => Err(Stop::new(USAGE, format!("{command}: no such command; `depot --help` has them"))),
    }
}

fn main() -> ExitCode {
    let words: Vec<String> = std::env::args().skip(1).collect();
    match run(&words) {
        Ok(()) => ExitCode::SUCCESS,
        Err(stop) => {
            eprintln!("depot: {stop}");
            ExitCode::from(stop.status)
        }
    }
}
