//! The compressors of the machine, run as commands.

use std::fs::File;
use std::path::Path;
use std::process::Command;

/// Program and level.
pub type Compressor = [&'static str; 2];

/// Each at the level that it has unless told, and at the highest that needs no other option.
pub const COMPRESSORS: [Compressor; 4] = [["gzip", "-6"], ["gzip", "-9"], ["zstd", "-3"], ["zstd", "-19"]];

/// Bytes that the file takes compressed; none where the machine does not have the program.
pub fn compressed([program, level]: Compressor, file: &Path) -> Option<usize> {
    let input = File::open(file).expect("the file to compress");
    let run = Command::new(program).args([level, "-c"]).stdin(input).output().ok()?;
    assert!(run.status.success(), "{program} {level}: {}", String::from_utf8_lossy(&run.stderr));
    Some(run.stdout.len())
}
