//! The model against the Python oracle, over the oracle's line protocol: the answer of every call
//! and, by `dumpall`, every word after it. The protocol cannot say a wrong length of an area or of
//! a read buffer; such calls go with the right one. It has no chain, mark, back or share; such calls
//! are left out.
//!
//! One known difference is kept out of the lists: the oracle has no bound on the pass's step number,
//! which docs/LAYOUT.md ends at 17 x P (DECISIONS 35). Others are those of document 02: the oracle is
//! of document 01, where refusal 6 has the value 0 and there are no marks, whose words stay 0; where a
//! page with any lock is skipped, so the model does likewise here; where an image must equal the
//! received page, so that one which the model takes goes as that page; where a set may write an
//! object's own number, so that one which the model refuses with 18 is left out; and where there are no
//! clients, so that a begin goes without its client, a grant is made on the model alone, and a lock which
//! the model refuses with 19 is left out. In areas that are filled every client has all rights.

use std::fmt::Write as _;
use std::io::Write as _;
use std::process::{Command, Stdio};
use std::time::Instant;

use calls::{Call, Lent, Server};
use kophdaen::OBJECT_WORDS;
use model::layout::*;
use model::{Fault, Model};

use crate::actions::*;
use crate::generate::{plan, Generator, Scope};
use crate::random::Random;
use crate::rubbish::fill;
use crate::run::{readers_of_swept, Tally};

const SINGLES: [&str; 6] = ["reopening", "reopening_page", "phase", "pass_page", "pass_steps", "active"];
/// The protocol's tables: name, table, number of the first entry.
const NAMES: [(&str, Table, usize); 7] = [
    ("colour", Table::Colours, 1),
    ("readers", Table::Readers, 0),
    ("writers", Table::Writers, 0),
    ("unflushed", Table::Unflushed, 0),
    ("known", Table::Known, 1),
    ("prt", Table::Pruned, 1),
    ("cot", Table::Created, 1),
];

/// A list as the protocol writes it, and what the model says to each line.
struct Script {
    input: String,
    /// The lines expected, each with the index of its action.
    expected: Vec<(usize, String)>,
}

/// The model, with document 01's sweeping.
fn model(pages: usize, records: usize) -> Model {
    Model { fault: Fault::ReadersHoldUpSweeping, ..Model::new(pages, records) }
}

fn script(list: &List) -> Script {
    let mut model = model(list.pages, list.records);
    let init = format!("init,{},{}\n", list.pages, list.records);
    let mut script = Script { input: init.clone(), expected: Vec::new() };
    model.format().unwrap();
    for (i, action) in list.actions.iter().enumerate() {
        match action {
            Action::Call(request) | Action::Resized(_, _, request) if request.call == Call::Format => {
                model.format().unwrap();
                script.input.push_str(&init);
            }
            Action::Call(request) | Action::Resized(_, _, request) => script.call(i, &mut model, request),
            Action::Cut => {
                model.cut();
                script.input.push_str("cut\n");
                script.expected.push((i, "cut".to_string()));
            }
            Action::Poke(area, index, value) => script.poke(&mut model, *area, *index, *value),
            Action::Fill(filling, seed) => {
                let wanted = filled(*filling, *seed, list.pages, list.records);
                for area in AREAS {
                    for (index, &value) in wanted.of(area).iter().enumerate() {
                        if model.areas.of(area)[index] != value {
                            script.poke(&mut model, area, index, value);
                        }
                    }
                }
            }
        }
        script.input.push_str("dumpall\n");
        script.dump(i, &model.areas);
    }
    script
}

impl Script {
    fn call(&mut self, i: usize, model: &mut Model, request: &Request) {
        let call = request.call;
        let mut buffer = [0; OBJECT_WORDS];
        let image = request.image(&model.areas.received, &model.areas.copies);
        let answer = model.perform(call, Lent { buffer: &mut buffer, image: &image });
        if [18, 19].contains(&(answer >> 32)) || matches!(call, Call::Grant(..)) {
            return;
        }
        match call {
            Call::Begin(t, _) => writeln!(self.input, "begin,{t}").unwrap(),
            Call::Read(t, object) => writeln!(self.input, "readw,{t},{object}").unwrap(),
            Call::Flush(t, page) => {
                let taken = answer >> 32 == 0;
                let sent = if taken { &model.areas.received[page_range(page as usize)] } else { &image };
                write!(self.input, "flushi,{t},{page}").unwrap();
                sent.iter().for_each(|word| write!(self.input, ",{word}").unwrap());
                self.input.push('\n');
            }
            _ => writeln!(self.input, "{call}").unwrap(),
        }
        if call == Call::PassStep && model.areas.work[PASS_STEP] == 17 * model.areas.pages() as u32 {
            // the oracle counts on past the bound of DECISIONS 35
            writeln!(self.input, "poke,W,pass_steps,0,{}", model.areas.work[PASS_STEP]).unwrap();
        }
        let number = answer >> 32;
        let value = if number == 6 { 0 } else { answer as u32 }; // the oracle tells no holder
        self.expected.push((
            i,
            match call {
                Call::Read(..) if number == 0 => {
                    let words: Vec<String> = buffer.iter().map(u32::to_string).collect();
                    format!("0,{}", words.join(","))
                }
                Call::Read(..) => number.to_string(),
                _ => format!("{number},{value}"),
            },
        ));
    }

    fn poke(&mut self, model: &mut Model, area: Area, index: usize, value: u32) {
        let pages = model.areas.pages();
        model.areas.of_mut(area)[index] = value;
        if area == Area::Work && index >= Table::LeftAtMarks.first(pages) {
            return; // the oracle does not have these words
        }
        let place = match area {
            Area::Stored => format!("S,{index}"),
            Area::Copies => format!("C,{index}"),
            Area::Received => format!("R,{index}"),
            Area::Log => format!("LOG,{index}"),
            Area::Counts => format!("{},0", ["RC", "SC"][index]),
            Area::Work if index < SINGLES.len() => format!("W,{},0", SINGLES[index]),
            Area::Work => {
                let (name, table, from) = NAMES
                    .into_iter()
                    .find(|(_, table, _)| table.range(pages, model.areas.records()).contains(&index))
                    .unwrap();
                format!("W,{name},{}", index - table.first(pages) + from)
            }
        };
        writeln!(self.input, "poke,{place},{value}").unwrap();
    }

    fn dump(&mut self, i: usize, a: &Areas) {
        let sparse = |name: &str, words: &[u32], from: usize| {
            let shown: Vec<String> = (0..words.len())
                .filter(|&k| words[k] != 0)
                .map(|k| format!("{}={}", k + from, words[k]))
                .collect();
            format!("{name}:{}", shown.join(" "))
        };
        let mut lines = vec![
            sparse("S", &a.stored, 0),
            sparse("C", &a.copies, 0),
            sparse("R", &a.received, 0),
            sparse("LOG", &a.log, 0),
            format!("RC:{}", a.counts[0]),
            format!("SC:{}", a.counts[1]),
        ];
        lines.extend(SINGLES.iter().enumerate().map(|(k, name)| format!("{name}:{}", a.work[k])));
        for (name, table, from) in NAMES {
            lines.push(sparse(name, &a.work[table.range(a.pages(), a.records())], from));
        }
        self.expected.extend(lines.into_iter().map(|line| (i, line)));
    }
}

/// The oracle's answer to a batch of lists, by line.
fn ask(program: &str, input: String) -> Vec<String> {
    let mut child = Command::new("python3")
        .arg(program)
        .stdin(Stdio::piped())
        .stdout(Stdio::piped())
        .spawn()
        .expect("python3 runs");
    let mut pipe = child.stdin.take().unwrap();
    let writer = std::thread::spawn(move || pipe.write_all(input.as_bytes()));
    let output = child.wait_with_output().expect("the oracle ends");
    let _ = writer.join();
    String::from_utf8_lossy(&output.stdout).lines().map(str::to_string).collect()
}

/// Where the oracle and the model differ: the list, the action, the two lines.
fn differs(program: &str, lists: &[List]) -> Option<(usize, usize, String)> {
    let scripts: Vec<Script> = lists.iter().map(script).collect();
    let input: String = scripts.iter().map(|script| script.input.as_str()).collect();
    let mut said = ask(program, input).into_iter();
    for (n, script) in scripts.iter().enumerate() {
        for (action, line) in &script.expected {
            let other = said.next().unwrap_or_else(|| "nothing".to_string());
            if *line != other {
                return Some((n, *action, format!("model   {line}\n  oracle  {other}")));
            }
        }
    }
    None
}

fn shrink(program: &str, list: &List) -> (List, String) {
    let mut best = list.clone();
    let mut what = String::new();
    let mut run = best.actions.len();
    while run > 0 {
        let mut at = 0;
        while at < best.actions.len() {
            let mut tried = best.clone();
            if run < best.actions.len() {
                tried.actions.drain(at..(at + run).min(best.actions.len()));
            }
            match differs(program, std::slice::from_ref(&tried)) {
                Some((_, action, lines)) => {
                    tried.actions.truncate(action + 1);
                    let same = tried.actions.len() == best.actions.len();
                    (best, what) = (tried, lines);
                    if same {
                        break;
                    }
                }
                None => at += run,
            }
        }
        run /= 2;
    }
    (best, what)
}

pub fn run(program: &str, seed: u64, calls: u64, scope: Scope) -> bool {
    let started = Instant::now();
    let mut seeds = Random::new(seed);
    let mut tally = Tally::new();
    while tally.calls < calls {
        let mut lists = Vec::new();
        let batch = if scope == Scope::Large { 200 } else { 4000 };
        let until = (tally.calls + batch).min(calls);
        while tally.calls < until {
            let mut random = Random::new(seeds.next());
            let (pages, records, style, length) = plan(&mut random, scope);
            let mut generator = Generator::new(random, style, pages);
            let mut model = model(pages, records);
            let mut list = List { pages, records, actions: vec![Call::Format.into()] };
            model.format().unwrap();
            while list.actions.len() < length && tally.calls < until {
                let swept = readers_of_swept(&model.areas);
                let Some(action) = sayable(generator.next(&model.areas), pages) else { continue };
                let answer = follow(&mut model, &action);
                tally.note(&action, answer, swept);
                list.actions.push(action);
            }
            lists.push(list);
        }
        if let Some((n, _, lines)) = differs(program, &lists) {
            println!("DIFFERENCE between model and oracle:\n  {lines}");
            let (short, what) = shrink(program, &lists[n]);
            println!("shrunk list, {short}\n  {what}");
            return false;
        }
    }
    let seconds = started.elapsed().as_secs_f64();
    tally.print();
    println!("{seconds:.1} s, {:.0} calls per second, seed {seed}", tally.calls as f64 / seconds);
    println!("oracle: model against {program}, no difference");
    true
}

/// Areas so filled, but for the words that the oracle does not have: no marks, and all rights.
fn filled(filling: Filling, seed: u64, pages: usize, records: usize) -> Areas {
    let mut areas = fill(filling, seed, pages, records);
    areas.work[Table::LeftAtMarks.first(pages)..].fill(0);
    areas.table(Table::Rights).fill(WRITING);
    areas
}

/// The action as the protocol can say it, if it can. The oracle has no bound on the step number
/// (DECISIONS 35 has one), so that one is not damaged above it.
fn sayable(action: Action, pages: usize) -> Option<Action> {
    match action.call() {
        Some(Call::Chain(_) | Call::Mark(..) | Call::Back(..) | Call::PassShare(_)) => return None,
        Some(call @ Call::Read(..)) => return Some(call.into()),
        Some(Call::Begin(t, client)) => return Some(Call::Begin(t, client % CLIENTS).into()),
        _ => {}
    }
    Some(match action {
        Action::Poke(Area::Work, index, _) if index >= Table::LeftAtMarks.first(pages) => return None,
        Action::Resized(_, _, request) => Action::Call(request),
        Action::Poke(Area::Work, PASS_STEP, value) => {
            Action::Poke(Area::Work, PASS_STEP, value % (17 * pages as u32 + 1))
        }
        action => action,
    })
}

/// The action on the model alone.
fn follow(model: &mut Model, action: &Action) -> u64 {
    match action {
        Action::Call(request) | Action::Resized(_, _, request) => {
            let image = request.image(&model.areas.received, &model.areas.copies);
            return model.perform(request.call, Lent { buffer: &mut [0; OBJECT_WORDS], image: &image });
        }
        Action::Cut => model.cut(),
        Action::Poke(area, index, value) => model.areas.of_mut(*area)[*index] = *value,
        Action::Fill(filling, seed) => {
            model.areas = filled(*filling, *seed, model.areas.pages(), model.areas.records());
        }
    }
    0
}
