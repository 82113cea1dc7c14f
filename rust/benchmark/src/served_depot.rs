//! The server's program: formatted, served, asked for its figures, ended.

use std::fs::File;
use std::io::{BufRead, BufReader};
use std::path::{Path, PathBuf};
use std::process::{Child, ChildStdout, Command, Stdio};

use crate::states::Size;

/// The program, and the folder that it keeps its store in.
#[derive(Clone)]
pub struct Program {
    pub file: PathBuf,
    pub store: PathBuf,
}

/// A server that runs. Its standard output stays open, so that it can write there.
pub struct Depot {
    program: Program,
    child: Child,
    pub address: String,
    _output: BufReader<ChildStdout>,
}

/// What it has counted since its start.
#[derive(Clone, Copy, Default)]
pub struct Counts {
    pub commits: u64,
    pub passes: u64,
    pub freed: u64,
    pub checkpoints: u64,
    /// Microseconds that a checkpoint held the store, at most.
    pub longest: u64,
}

/// Kilobytes of the process: now, and at most so far.
#[derive(Clone, Copy, Default)]
pub struct Memory {
    pub now: u64,
    pub peak: u64,
}

impl Program {
    fn command(&self, word: &str) -> Command {
        let mut command = Command::new(&self.file);
        command.arg(word).arg(&self.store);
        command
    }

    /// What it prints; it must end well.
    fn run(&self, mut command: Command) -> String {
        let told = command.stderr(Stdio::inherit()).output().expect("the server's program");
        assert!(told.status.success(), "{command:?}: {}", told.status);
        String::from_utf8_lossy(&told.stdout).into_owned()
    }

    /// A new store.
    pub fn format(&self, size: Size) {
        let _ = std::fs::remove_dir_all(&self.store);
        let mut command = self.command("format");
        command.args(["--pages", &size.pages.to_string(), "--records", &size.records.to_string()]);
        self.run(command);
    }

    /// Answers once it is ready.
    pub fn serve(&self) -> Depot {
        let mut command = self.command("serve");
        command.args(["--listen", "127.0.0.1:0", "--desk", "none"]);
        let said = File::options().create(true).append(true).open(self.store.with_extension("errors"));
        command.stdout(Stdio::piped()).stderr(said.expect("a file for what it says"));
        let mut child = command.spawn().expect("the server starts");
        let mut output = BufReader::new(child.stdout.take().expect("its output"));
        let mut address = String::new();
        let mut line = String::new();
        while line.trim_end() != "depot: ready" {
            line.clear();
            let bytes = output.read_line(&mut line).expect("its output");
            assert!(bytes > 0, "the server ended before it was ready");
            if let Some((_, at)) = line.split_once(", tablets at ") {
                address = at.trim_end().to_string();
            }
        }
        Depot { program: self.clone(), child, address, _output: output }
    }
}

impl Depot {
    /// By what `depot status` tells.
    pub fn counts(&self) -> Counts {
        let told = self.program.run(self.program.command("status"));
        let of = |name: &str| {
            let line = told.lines().find_map(|line| line.strip_prefix(name)?.strip_prefix(' '));
            line.and_then(|number| number.parse().ok()).unwrap_or_else(|| panic!("no {name} in: {told}"))
        };
        let [commits, passes, freed] = ["commits", "passes", "freed"].map(of);
        let [checkpoints, longest] = ["checkpoints", "checkpoint_longest_us"].map(of);
        Counts { commits, passes, freed, checkpoints, longest }
    }

    pub fn memory(&self) -> Memory {
        let file = Path::new("/proc").join(self.child.id().to_string()).join("status");
        let told = std::fs::read_to_string(file).expect("a process that runs");
        let of = |name: &str| {
            let line = told.lines().find(|line| line.starts_with(name));
            line.and_then(|line| line.split_whitespace().nth(1)).and_then(|word| word.parse().ok()).unwrap_or(0)
        };
        Memory { now: of("VmRSS:"), peak: of("VmHWM:") }
    }

    /// By signal 9.
    pub fn kill(mut self) {
        self.child.kill().expect("killed");
        self.child.wait().expect("ended");
    }

    /// As its operator does.
    pub fn stop(mut self) {
        self.program.run(self.program.command("stop"));
        let status = self.child.wait().expect("ended");
        assert!(status.success(), "the server stopped with {status}");
    }
}

impl Drop for Depot {
    fn drop(&mut self) {
        let _ = self.child.kill();
        let _ = self.child.wait();
    }
}
