//! A line of a connection: a call by name, with its numbers. The bench program's grammar (document 01), and some
//! lines more.

use kophdaen::layout::{MARKS, SLOTS};
use kophdaen::{OBJECT_WORDS, PAGE_WORDS};

/// The longest line: a flush with an image has some 1440 bytes.
pub const MOST_BYTES: usize = 2048;
pub const NAME_BYTES: usize = 32;

#[derive(Debug, PartialEq, Eq)]
pub enum Line<'a> {
    Begin {
        t: u32,
    },
    /// A call of the transaction t.
    Of {
        t: u32,
        call: Call,
    },
    Chain {
        object: u32,
    },
    Hello {
        name: &'a str,
    },
}

#[derive(Debug, PartialEq, Eq)]
pub enum Call {
    Commit,
    /// Commits if every line of the transaction was accepted.
    CommitAll,
    Abort,
    LockRead {
        page: u32,
    },
    LockWrite {
        page: u32,
    },
    /// Without an image the received page itself is sent.
    Flush {
        page: u32,
        image: Option<Vec<u32>>,
    },
    Read {
        object: u32,
    },
    Create {
        object: u32,
    },
    Set {
        object: u32,
        field: u32,
        word: u32,
    },
    Mark {
        mark: u32,
    },
    Back {
        mark: u32,
    },
}

impl Call {
    /// Its name, and its numbers behind t. An image is left out.
    pub fn words(&self) -> (&'static str, Vec<u32>) {
        match *self {
            Call::Commit | Call::CommitAll => ("commit", vec![]),
            Call::Abort => ("abort", vec![]),
            Call::LockRead { page } => ("lockr", vec![page]),
            Call::LockWrite { page } => ("lockw", vec![page]),
            Call::Flush { page, .. } => ("flush", vec![page]),
            Call::Read { object } => ("read", vec![object]),
            Call::Create { object } => ("create", vec![object]),
            Call::Set { object, field, word } => ("set", vec![object, field, word]),
            Call::Mark { mark } => ("mark", vec![mark]),
            Call::Back { mark } => ("back", vec![mark]),
        }
    }

    pub fn commits(&self) -> bool {
        matches!(self, Call::Commit | Call::CommitAll)
    }

    pub fn ends(&self) -> bool {
        self.commits() || *self == Call::Abort
    }

    /// Whether page, object, field and mark are those of a store of so many pages: else refusal 3.
    pub fn in_range(&self, pages: usize) -> bool {
        let objects = 1..=(SLOTS * pages) as u32;
        match *self {
            Call::Commit | Call::CommitAll | Call::Abort => true,
            Call::LockRead { page } | Call::LockWrite { page } | Call::Flush { page, .. } => {
                (page as usize) < pages
            }
            Call::Read { object } | Call::Create { object } => objects.contains(&object),
            Call::Set { object, field, .. } => objects.contains(&object) && (field as usize) < OBJECT_WORDS,
            Call::Mark { mark } | Call::Back { mark } => mark < MARKS,
        }
    }
}

/// None where the line is no call.
pub fn parse(line: &[u8]) -> Option<Line<'_>> {
    let line = std::str::from_utf8(line).ok()?;
    let (name, rest) = line.split_once(',')?;
    if name == "hello" {
        return is_name(rest).then_some(Line::Hello { name: rest });
    }
    let numbers: Vec<u32> = rest.split(',').map(number).collect::<Option<_>>()?;
    let (&t, own) = numbers.split_first()?;
    let call = match (name, own) {
        ("begin", []) => return Some(Line::Begin { t }),
        ("chain", []) => return Some(Line::Chain { object: t }),
        ("commit", []) => Call::Commit,
        ("commitall", []) => Call::CommitAll,
        ("abort", []) => Call::Abort,
        ("lockr", &[page]) => Call::LockRead { page },
        ("lockw", &[page]) => Call::LockWrite { page },
        ("flush", &[page]) => Call::Flush { page, image: None },
        ("flush", [page, image @ ..]) if image.len() == PAGE_WORDS => {
            Call::Flush { page: *page, image: Some(image.to_vec()) }
        }
        ("read", &[object]) => Call::Read { object },
        ("create", &[object]) => Call::Create { object },
        ("set", &[object, field, word]) => Call::Set { object, field, word },
        ("mark", &[mark]) => Call::Mark { mark },
        ("back", &[mark]) => Call::Back { mark },
        _ => return None,
    };
    Some(Line::Of { t, call })
}

/// "Numbers have no leading zeros and 32 bits."
fn number(word: &str) -> Option<u32> {
    let plain = word.bytes().all(|byte| byte.is_ascii_digit()) && (word == "0" || !word.starts_with('0'));
    plain.then(|| word.parse().ok()).flatten()
}

pub fn is_name(name: &str) -> bool {
    let plain = |byte: u8| byte.is_ascii_alphanumeric() || b" ._-".contains(&byte);
    (1..=NAME_BYTES).contains(&name.len()) && name.bytes().all(plain)
}

#[cfg(test)]
mod tests {
    use super::*;

    #[test]
    fn calls() {
        assert_eq!(parse(b"begin,0"), Some(Line::Begin { t: 0 }));
        assert_eq!(
            parse(b"set,4294967295,1,0,17"),
            Some(Line::Of { t: u32::MAX, call: Call::Set { object: 1, field: 0, word: 17 } })
        );
        assert_eq!(parse(b"hello,van 3"), Some(Line::Hello { name: "van 3" }));
    }

    #[test]
    fn no_calls() {
        let lines: [&[u8]; 14] = [
            b"",
            b"begin",
            b"begin,",
            b"begin,00",
            b"begin,+1",
            b"begin, 1",
            b"begin,4294967296",
            b"begin,1,",
            b"Begin,1",
            b"begin,1,1",
            b"force",
            b"flush,0,0,1",
            b"hello,",
            b"begin,\xff",
        ];
        lines.iter().for_each(|line| assert_eq!(parse(line), None));
    }
}
