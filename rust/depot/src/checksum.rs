//! CRC-64 (the polynomial of ECMA-182, reflected, as in XZ), eight bytes at a turn.

const POLYNOMIAL: u64 = 0xC96C_5795_D787_0F42;
const TURN: usize = 8;

static TABLES: [[u64; 256]; TURN] = tables();

const fn tables() -> [[u64; 256]; TURN] {
    let mut tables = [[0; 256]; TURN];
    let mut i = 0;
    while i < 256 * TURN {
        let (table, byte) = (i / 256, i % 256);
        tables[table][byte] = match table {
            0 => of_byte(byte as u64),
            _ => tables[0][(tables[table - 1][byte] & 255) as usize] ^ tables[table - 1][byte] >> 8,
        };
        i += 1;
    }
    tables
}

const fn of_byte(byte: u64) -> u64 {
    let mut sum = byte;
    let mut bit = 0;
    while bit < 8 {
        sum = if sum & 1 == 1 { sum >> 1 ^ POLYNOMIAL } else { sum >> 1 };
        bit += 1;
    }
    sum
}

/// A sum over bytes that come in parts.
pub struct Sum(u64);

impl Sum {
    /// Of no bytes.
    pub fn empty() -> Sum {
        Sum(!0)
    }

    pub fn and(mut self, bytes: &[u8]) -> Sum {
        let turns = bytes.chunks_exact(TURN);
        let rest = turns.remainder();
        for turn in turns {
            let word = self.0 ^ u64::from_le_bytes(turn.try_into().expect("eight bytes"));
            self.0 = (0..TURN).fold(0, |sum, i| sum ^ TABLES[TURN - 1 - i][(word >> (8 * i) & 255) as usize]);
        }
        self.0 =
            rest.iter().fold(self.0, |sum, &byte| TABLES[0][((sum ^ u64::from(byte)) & 255) as usize] ^ sum >> 8);
        self
    }

    pub fn value(self) -> u64 {
        !self.0
    }
}

#[cfg(test)]
mod tests {
    use super::Sum;

    /// The check value that catalogues of such sums give for this one.
    #[test]
    fn check_value() {
        assert_eq!(Sum::empty().and(b"123456789").value(), 0x995D_C9BB_DF19_39FA);
        assert_eq!(Sum::empty().and(b"1234").and(b"56789").value(), 0x995D_C9BB_DF19_39FA);
    }
}
