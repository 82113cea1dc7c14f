//! The program `depot` as a process: formatted folders, a server that runs, and commands that end.

use std::io::{BufRead, BufReader, Read};
use std::path::{Path, PathBuf};
use std::process::{Child, Command, ExitStatus, Output, Stdio};
use std::sync::mpsc::{channel, Receiver};
use std::time::{Duration, Instant};

use depot::disk::Part;
use depot::image::Files;

/// How long a start, a stop or a command may take.
const PATIENCE: Duration = Duration::from_secs(30);

/// How a process ended, and what it said.
#[derive(Debug)]
pub struct Exit {
    /// None where a signal ended it.
    pub code: Option<i32>,
    pub said: String,
}

impl Exit {
    fn of(output: Output) -> Exit {
        Exit { code: output.status.code(), said: String::from_utf8_lossy(&output.stderr).into_owned() }
    }

    /// This exit status, with something said where it is not 0, and no panic.
    pub fn is(&self, code: i32) -> Result<(), String> {
        let said = code == 0 || self.said.len() > 1;
        match self.code == Some(code) && said && !self.said.contains("panicked") {
            true => Ok(()),
            false => Err(format!("exit status {code} is wanted: {self:?}")),
        }
    }
}

/// The program, and how it is run: behind another command, with variables.
#[derive(Clone)]
pub struct Program {
    pub path: String,
    pub variables: Vec<(String, String)>,
    /// A line of bash before it, such as a limit.
    pub before: Option<String>,
}

impl Program {
    pub fn new(path: &str) -> Program {
        Program { path: path.to_string(), variables: Vec::new(), before: None }
    }

    pub fn with(&self, name: &str, value: &str) -> Program {
        let mut program = self.clone();
        program.variables.push((name.to_string(), value.to_string()));
        program
    }

    pub fn behind(&self, line: &str) -> Program {
        Program { before: Some(line.to_string()), ..self.clone() }
    }

    fn command(&self, words: &[&str]) -> Command {
        let mut command = match &self.before {
            None => Command::new(&self.path),
            Some(line) => {
                let mut bash = Command::new("bash");
                bash.args(["-c", &format!("{line}; exec \"$0\" \"$@\""), &self.path]);
                bash
            }
        };
        command.args(words).envs(self.variables.iter().map(|(name, value)| (name, value))).stdin(Stdio::null());
        command
    }

    /// Runs a command to its end.
    pub fn run(&self, words: &[&str]) -> Result<Exit, String> {
        self.command(words).output().map(Exit::of).map_err(|error| format!("{}: {error}", self.path))
    }

    /// .. which must be exit status 0.
    pub fn done(&self, words: &[&str]) -> Result<Exit, String> {
        let exit = self.run(words)?;
        exit.is(0).map(|()| exit)
    }

    pub fn format(&self, folder: &Path, pages: usize, records: usize) -> Result<(), String> {
        let (pages, records) = (pages.to_string(), records.to_string());
        self.done(&["format", text(folder), "--pages", &pages, "--records", &records]).map(drop)
    }

    /// Starts a server and waits until it is ready; where it ends before, how.
    pub fn serve(&self, folder: &Path, options: &[&str]) -> Result<Serving, Exit> {
        let mut serving = self.spawn(folder, options);
        match serving.wait_ready() {
            true => Ok(serving),
            false => Err(serving.wait()),
        }
    }

    /// .. which must become ready.
    pub fn ready(&self, folder: &Path, options: &[&str]) -> Result<Serving, String> {
        self.serve(folder, options).map_err(|exit| format!("the server does not start: {exit:?}"))
    }

    /// Starts a server and does not wait.
    pub fn spawn(&self, folder: &Path, options: &[&str]) -> Serving {
        let mut words = vec!["serve", text(folder), "--desk", "none"];
        words.extend(options);
        if !words.contains(&"--listen") {
            words.extend(["--listen", "127.0.0.1:0"]);
        }
        let mut command = self.command(&words);
        let spawned = command.stdout(Stdio::piped()).stderr(Stdio::piped()).spawn();
        let mut child = spawned.unwrap_or_else(|error| panic!("{}: {error}", self.path));
        let out = lines_of(child.stdout.take().expect("standard output is piped"));
        let said = lines_of(child.stderr.take().expect("standard error is piped"));
        Serving { child, out, said, addresses: Vec::new() }
    }
}

pub fn text(path: &Path) -> &str {
    path.to_str().expect("a path that is text")
}

fn lines_of(stream: impl Read + Send + 'static) -> Receiver<String> {
    let (sender, receiver) = channel();
    std::thread::spawn(move || {
        for line in BufReader::new(stream).lines().map_while(Result::ok) {
            if sender.send(line).is_err() {
                break;
            }
        }
    });
    receiver
}

/// A server that runs. It is killed when it is dropped.
pub struct Serving {
    child: Child,
    out: Receiver<String>,
    said: Receiver<String>,
    /// Where tablets connect: client 0's address first.
    pub addresses: Vec<String>,
}

impl Serving {
    /// Reads what it says up to `depot: ready`.
    fn wait_ready(&mut self) -> bool {
        while let Ok(line) = self.out.recv_timeout(PATIENCE) {
            if let Some((_, address)) = line.split_once(" at ").filter(|_| line.contains("tablets")) {
                self.addresses.push(address.to_string());
            }
            if line == "depot: ready" {
                return true;
            }
        }
        false
    }

    pub fn address(&self) -> &str {
        &self.addresses[0]
    }

    pub fn id(&self) -> u32 {
        self.child.id()
    }

    pub fn kill(mut self) -> Exit {
        let _ = self.child.kill();
        self.wait()
    }

    /// Sends a signal by its name.
    pub fn signal(&self, name: &str) -> Result<(), String> {
        let sent = Command::new("kill").args([format!("-{name}"), self.id().to_string()]).status();
        sent.map(drop).map_err(|error| error.to_string())
    }

    pub fn is_running(&mut self) -> bool {
        matches!(self.child.try_wait(), Ok(None))
    }

    /// Waits until it has ended; one that does not is killed.
    pub fn wait(&mut self) -> Exit {
        let until = Instant::now() + PATIENCE;
        while self.is_running() && Instant::now() < until {
            std::thread::sleep(Duration::from_millis(2));
        }
        let late = self.is_running();
        let _ = self.child.kill();
        let status: Option<ExitStatus> = self.child.wait().ok();
        let said = self.said.iter().collect::<Vec<_>>().join("\n") + if late { "\nit did not end" } else { "" };
        Exit { code: status.and_then(|status| status.code()).filter(|_| !late), said }
    }
}

impl Drop for Serving {
    fn drop(&mut self) {
        let _ = self.child.kill();
        let _ = self.child.wait();
    }
}

/// A new, empty folder for a case; what a case of that name left before is taken away.
pub fn fresh(out: &Path, name: &str) -> Result<PathBuf, String> {
    let folder = out.join(name);
    let failed = |error: std::io::Error| format!("{}: {error}", folder.display());
    if folder.exists() {
        std::fs::remove_dir_all(&folder).map_err(failed)?;
    }
    std::fs::create_dir_all(&folder).map_err(failed)?;
    Ok(folder)
}

const PARTS: [Part; 3] = [Part::Snapshot(0), Part::Snapshot(1), Part::Log];

/// The bytes of a folder's three files.
pub fn files_in(folder: &Path) -> Result<Files, String> {
    let read = |part: Part| std::fs::read(folder.join(part.name())).map_err(|error| error.to_string());
    let [first, second, log] = PARTS.map(read);
    Ok(Files { snapshots: [first?, second?], log: log? })
}

pub fn put_files(folder: &Path, files: &Files) -> Result<(), String> {
    let [first, second] = &files.snapshots;
    let bytes = [first, second, &files.log];
    let put = |(part, bytes): (&Part, &Vec<u8>)| std::fs::write(folder.join(part.name()), bytes);
    PARTS.iter().zip(bytes).try_for_each(put).map_err(|error| error.to_string())
}
