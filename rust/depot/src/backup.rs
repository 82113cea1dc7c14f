//! A backup file: what a cut at some moment would have left, with the pages by columns (L5), since like words squeeze
//! better side by side. `depot backup DIR - | zstd` squeezes it.

use kophdaen::{from_columns, to_columns, PAGE_WORDS, RECORD_WORDS};

use crate::checksum::Sum;
use crate::image::{bytes_to_words, in_bounds, words_to_bytes, WORD_BYTES};

const MAGIC: &[u8; 8] = b"kophback";
const VERSION: u32 = 1;
const HEAD_BYTES: usize = 24;
const SUM_BYTES: usize = 8;

/// Stored pages, stable records, and the log's room.
#[derive(Debug, PartialEq, Eq)]
pub struct Backup {
    pub pages: Vec<u32>,
    pub records: Vec<u32>,
    pub room: usize,
}

fn turned(pages: &[u32], turn: fn(&[u32], &mut [u32]) -> kophdaen::Answer) -> Vec<u32> {
    let mut out = vec![0; pages.len()];
    for (page, out) in pages.chunks_exact(PAGE_WORDS).zip(out.chunks_exact_mut(PAGE_WORDS)) {
        turn(page, out);
    }
    out
}

impl Backup {
    pub fn bytes(&self) -> Vec<u8> {
        let counts =
            [VERSION as usize, self.pages.len() / PAGE_WORDS, self.room, self.records.len() / RECORD_WORDS];
        let mut bytes = MAGIC.to_vec();
        bytes.extend(words_to_bytes(&counts.map(|count| count as u32)));
        bytes.extend(words_to_bytes(&turned(&self.pages, to_columns)));
        bytes.extend(words_to_bytes(&self.records));
        let sum = Sum::empty().and(&bytes).value();
        bytes.extend(sum.to_le_bytes());
        bytes
    }

    /// None where the bytes are no whole backup.
    pub fn read(bytes: &[u8]) -> Option<Backup> {
        let (body, sum) = bytes.split_at_checked(bytes.len().checked_sub(SUM_BYTES)?)?;
        let (head, words) = body.split_at_checked(HEAD_BYTES)?;
        let counts = bytes_to_words(&head[MAGIC.len()..]);
        let [version, pages, room, records] = counts[..].try_into().ok()?;
        let [pages, room, records] = [pages, room, records].map(|count: u32| count as usize);
        let right = head.starts_with(MAGIC)
            && version == VERSION
            && in_bounds(pages, room)
            && records <= room
            && words.len() == WORD_BYTES * (PAGE_WORDS * pages + RECORD_WORDS * records)
            && Sum::empty().and(body).value().to_le_bytes() == *sum;
        right.then(|| {
            let mut pages_words = bytes_to_words(words);
            let records = pages_words.split_off(PAGE_WORDS * pages);
            Backup { pages: turned(&pages_words, from_columns), records, room }
        })
    }
}

#[cfg(test)]
mod tests {
    use super::*;

    #[test]
    fn there_and_back() {
        let pages: Vec<u32> = (0..2 * PAGE_WORDS as u32).map(|word| word * word).collect();
        let backup = Backup { pages, records: (0..3 * RECORD_WORDS as u32).collect(), room: 4 };
        let bytes = backup.bytes();
        assert_eq!(Backup::read(&bytes), Some(backup));
        (0..bytes.len()).for_each(|cut| assert_eq!(Backup::read(&bytes[..cut]), None));
        for at in 0..bytes.len() {
            let mut changed = bytes.clone();
            changed[at] ^= 1;
            assert_eq!(Backup::read(&changed), None);
        }
    }
}
