//! The list of calls that the server makes on its store, written down in the bench program's words: `LINE<TAB>ANSWER,VALUE`,
//! each line that is no call among them. The bench program can be held to it.

use std::fs::File;
use std::io::{BufWriter, Write};
use std::path::Path;

use kophdaen::Answer;

use crate::status::Stop;

/// None: nothing is written.
#[derive(Default)]
pub struct Trace(Option<Box<dyn Write + Send + Sync>>);

impl Trace {
    pub fn into(out: Box<dyn Write + Send + Sync>) -> Trace {
        Trace(Some(out))
    }

    pub fn to(path: &Path) -> Result<Trace, Stop> {
        let file = File::create(path).map_err(|error| Stop::failed(format!("{}: {error}", path.display())))?;
        Ok(Trace::into(Box::new(BufWriter::new(file))))
    }

    pub fn is_on(&self) -> bool {
        self.0.is_some()
    }

    pub fn call(&mut self, name: &str, numbers: &[u32], answer: Answer) -> Answer {
        if self.is_on() {
            let numbers: String = numbers.iter().map(|number| format!(",{number}")).collect();
            self.line(format!("{name}{numbers}").as_bytes(), answer);
        }
        answer
    }

    /// A trace that cannot be written is given up: it is no part of the store.
    pub fn line(&mut self, line: &[u8], answer: Answer) {
        if let Some(file) = &mut self.0 {
            let Answer { number, value } = answer;
            let written = file.write_all(line).and_then(|()| write!(file, "\t{number},{value}\r\n"));
            if written.is_err() {
                self.0 = None;
            }
        }
    }

    pub fn flush(&mut self) {
        if let Some(file) = &mut self.0 {
            let _ = file.flush();
        }
    }
}
