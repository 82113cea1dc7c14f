//! What the numbers were taken on.

use std::fs::read_to_string;
use std::process::Command;

/// Lines of a table: what, and which.
pub fn describe(sync_time: f64) -> Vec<(&'static str, String)> {
    vec![
        ("processor", format!("{}; processors: {}", processor(), processors())),
        ("caches", caches()),
        ("memory", memory()),
        ("system", format!("Linux {}", kernel())),
        (
            "library",
            format!("`rt lib`, {}, compiled for x86-64 without extensions", first_word("rt", &["version"])),
        ),
        ("model, floor", format!("{}, release without overflow checks", output("rustc", &["--version"]))),
        ("SQLite", crate::sqlite::version()),
        ("compressors", ["gzip", "zstd"].map(version).join(", ")),
        ("disk", format!("an append of 28 bytes with its sync takes {sync_time:.0} µs (median)")),
        ("date", output("date", &["-u", "+%F"])),
    ]
}

fn processor() -> String {
    field("/proc/cpuinfo", "model name").unwrap_or_else(|| "unknown".to_string())
}

fn processors() -> usize {
    std::thread::available_parallelism().map_or(1, |n| n.get())
}

fn memory() -> String {
    let kilobytes: f64 = field("/proc/meminfo", "MemTotal")
        .and_then(|line| line.split_whitespace().next().and_then(|word| word.parse().ok()))
        .unwrap_or(0.0);
    format!("{:.0} GiB", kilobytes / 1024.0 / 1024.0)
}

/// The version number alone: what follows it names the builder.
fn kernel() -> String {
    let release = read_to_string("/proc/sys/kernel/osrelease").unwrap_or_default();
    release.trim().split('-').next().unwrap_or_default().to_string()
}

fn caches() -> String {
    let of = |index: usize, file: &str| {
        read_to_string(format!("/sys/devices/system/cpu/cpu0/cache/index{index}/{file}"))
            .map(|text| text.trim().to_string())
    };
    let known = |index| match (of(index, "level"), of(index, "type"), of(index, "size")) {
        (Ok(level), Ok(kind), Ok(size)) if kind != "Instruction" => Some(format!("L{level} {size}")),
        _ => None,
    };
    (0..8).filter_map(known).collect::<Vec<String>>().join(", ")
}

/// What follows the colon of the first line that starts so.
fn field(file: &str, name: &str) -> Option<String> {
    let text = read_to_string(file).ok()?;
    let line = text.lines().find(|line| line.starts_with(name))?;
    Some(line.split_once(':')?.1.trim().to_string())
}

fn output(program: &str, words: &[&str]) -> String {
    let told = Command::new(program).args(words).output();
    told.map_or("unknown".to_string(), |told| String::from_utf8_lossy(&told.stdout).trim().to_string())
}

fn first_word(program: &str, words: &[&str]) -> String {
    output(program, words).split_whitespace().next().unwrap_or("unknown").to_string()
}

/// The program and the first number that it tells of itself.
fn version(program: &str) -> String {
    let told = output(program, &["--version"]);
    let mut words = told.split_whitespace().map(|word| word.trim_matches(['v', ',']));
    let number = words.find(|word| word.starts_with(|first: char| first.is_ascii_digit()));
    format!("{program} {}", number.unwrap_or("none"))
}
