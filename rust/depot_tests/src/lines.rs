//! Random lines over one connection, against the bench program: the server's trace has every call that it made on
//! the store; the bench program is given its lines, and must answer as the trace has it; and so must the
//! connection have been.

use std::collections::BTreeMap;
use std::io::Write;
use std::process::{Command, Stdio};

use crate::channel::{Reply, Tcp};
use crate::options::Options;
use crate::process::{fresh, text, Program};
use crate::random::Random;
use crate::report::Row;
use crate::scribble::Scribble;

/// A call as the trace has it: the line, the answer and the value.
struct Traced {
    line: Vec<u8>,
    answer: String,
}

/// What the connection sent and was answered.
struct Asked {
    line: Vec<u8>,
    reply: Reply,
}

/// Answers of the server's own, of which the store knows nothing.
const OWN: std::ops::RangeInclusive<u32> = 100..=103;

/// Sends so many lines, in bursts.
fn scribble(channel: &mut Tcp, lines: u64, mut random: Random) -> Result<Vec<Asked>, String> {
    let mut scribble = Scribble::new(Random::new(random.next()));
    let mut asked: Vec<Asked> = Vec::new();
    while (asked.len() as u64) < lines {
        let burst: Vec<Vec<u8>> = (0..random.between(1, 12)).map(|_| scribble.line()).collect();
        let end: &[u8] = if random.percent(50) { b"\r\n" } else { b"\n" };
        channel.send(&burst.iter().flat_map(|line| [&line[..], end].concat()).collect::<Vec<u8>>())?;
        burst.into_iter().try_for_each(|line| {
            let reply = channel.reply()?;
            scribble.learn(&line, &reply);
            asked.push(Asked { line, reply });
            Ok::<(), String>(())
        })?;
    }
    Ok(asked)
}

fn read_trace(bytes: &[u8]) -> Result<Vec<Traced>, String> {
    let bytes = bytes.strip_suffix(b"\r\n").ok_or("the trace ends inside a line")?;
    let lines = bytes.split(|&byte| byte == b'\n').map(|line| line.strip_suffix(b"\r").unwrap_or(line));
    let parted = |line: &[u8]| {
        let tab = line.iter().rposition(|&byte| byte == b'\t').ok_or("a line of the trace without a tab")?;
        let answer = String::from_utf8_lossy(&line[tab + 1..]).into_owned();
        Ok(Traced { line: line[..tab].to_vec(), answer })
    };
    lines.map(parted).collect()
}

/// The bench program's output for the trace's lines.
fn bench(program: &str, trace: &[Traced]) -> Result<Vec<String>, String> {
    let input: Vec<u8> = trace.iter().flat_map(|traced| [&traced.line[..], b"\r\n"].concat()).collect();
    let failed = |error: std::io::Error| format!("{program}: {error}");
    let spawned = Command::new(program).stdin(Stdio::piped()).stdout(Stdio::piped()).spawn();
    let mut child = spawned.map_err(failed)?;
    let mut stdin = child.stdin.take().ok_or("no standard input")?;
    let writer = std::thread::spawn(move || stdin.write_all(&input));
    let output = child.wait_with_output().map_err(failed)?;
    writer.join().map_err(|_| "writing panicked")?.map_err(failed)?;
    Ok(String::from_utf8_lossy(&output.stdout).lines().map(str::to_string).collect())
}

/// The bench program answers each line as the server's store did.
fn compare_bench(trace: &[Traced], output: &[String]) -> Result<(), String> {
    if trace.len() != output.len() {
        return Err(format!("{} calls are traced, and the bench program answers {}", trace.len(), output.len()));
    }
    for (i, (traced, answer)) in trace.iter().zip(output).enumerate() {
        let wanted = format!("{},{}", i + 1, traced.answer);
        if *answer != wanted {
            let line = String::from_utf8_lossy(&traced.line);
            return Err(format!("{line:?}: the trace has {wanted}, the bench program {answer}"));
        }
    }
    Ok(())
}

/// A call that the server may make beside the connection's: its own, an abort, or a begin that has to wait.
fn is_servers(traced: &Traced) -> bool {
    let line = String::from_utf8_lossy(&traced.line);
    let name = line.split(',').next().unwrap_or("");
    ["force", "store", "empty", "pass", "step"].contains(&name)
        || name == "abort" && traced.answer.starts_with("0,")
        || name == "begin" && traced.answer.starts_with("11,")
}

/// Each line of the connection was answered as the trace has it, in the same order, and nothing else is traced but
/// what the server did by itself.
fn compare_connection(asked: &[Asked], trace: &[Traced]) -> Result<(), String> {
    let mut trace = trace.iter();
    for asked in asked.iter().filter(|asked| !OWN.contains(&asked.reply.answer)) {
        let Reply { answer, rest, .. } = &asked.reply;
        let wanted = format!("{answer},{}", rest.first().map_or("", String::as_str));
        let is = |traced: &&Traced| traced.line == asked.line && traced.answer == wanted;
        let mut between = Vec::new();
        let found = trace.by_ref().find(|traced| {
            is(traced) || {
                between.push(*traced);
                false
            }
        });
        let strange = between.iter().find(|traced| !is_servers(traced));
        if found.is_none() || strange.is_some() {
            let line = String::from_utf8_lossy(&asked.line);
            let strange = strange.map(|traced| String::from_utf8_lossy(&traced.line));
            return Err(format!("{line:?} was answered {}; traced before it: {strange:?}", asked.reply.text()));
        }
    }
    Ok(())
}

/// How often each answer came.
fn tally(asked: &[Asked]) -> String {
    let mut counts: BTreeMap<u32, usize> = BTreeMap::new();
    asked.iter().for_each(|asked| *counts.entry(asked.reply.answer).or_default() += 1);
    counts.iter().map(|(answer, count)| format!(" {answer}: {count}")).collect()
}

/// Ten thousand lines from one seed.
fn lines(options: &Options, seed: u64, count: u64, row: &mut Row) -> Result<(), String> {
    let program = Program::new(options.named(0, "DEPOT")?);
    let folder = fresh(&options.out, "lines")?;
    let (store, file) = (folder.join("store"), folder.join("trace"));
    program.format(&store, 4, 64)?;
    let words =
        ["--per-connection", "16", "--drain-grace", "0.02", "--pass-commits", "20", "--trace", text(&file)];
    let mut serving = program.ready(&store, &words)?;
    let mut channel = Tcp::connect(serving.address())?;
    let asked = scribble(&mut channel, count, Random::new(seed))?;
    drop(channel);
    program.done(&["stop", text(&store)])?;
    serving.wait().is(0)?;
    let trace = read_trace(&std::fs::read(&file).map_err(|error| error.to_string())?)?;
    options.say(&format!("lines: seed {seed}, {} calls on the store; answers{}", trace.len(), tally(&asked)));
    row.rounds += asked.len() as u64;
    compare_connection(&asked, &trace)?;
    compare_bench(&trace, &bench(options.named(1, "BENCH")?, &trace)?)
}

pub fn run(options: &Options) -> Row {
    const LINES: u64 = 10_000;
    let budget = options.budget(LINES);
    let mut random = Random::new(options.seed);
    let mut row = Row::new("lines", "lines");
    while budget.allows(row.rounds) && row.good() {
        let seed = random.next();
        let result = lines(options, seed, LINES.min(options.rounds(LINES)), &mut row);
        row.note(result.map_err(|what| format!("seed {seed}: {what}")));
    }
    row.end()
}
