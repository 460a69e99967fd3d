//! What the library did otherwise than the oracle.

use std::fmt;

#[derive(Clone, Debug, PartialEq, Eq)]
pub enum Difference {
    /// Answer and bytes written: the library's, then the oracle's.
    Reply([(u64, usize); 2]),
    /// The first byte of a region that differs: the library's value, then the oracle's.
    Byte { region: &'static str, at: usize, values: [u8; 2] },
    /// A refused call changed a byte of the library's regions.
    RefusedChanged { region: &'static str, at: usize },
    /// A byte before or behind the regions was changed.
    Guard,
}

impl fmt::Display for Difference {
    fn fmt(&self, f: &mut fmt::Formatter<'_>) -> fmt::Result {
        match self {
            Difference::Reply([(answer, written), (expected, expected_written)]) => write!(
                f,
                "the library answers {answer} and writes {written} bytes, the oracle answers {expected} and writes {expected_written}"
            ),
            Difference::Byte { region, at, values: [library, oracle] } => {
                write!(f, "{region}, byte {at}: the library leaves {library:02x}, the oracle {oracle:02x}")
            }
            Difference::RefusedChanged { region, at } => write!(f, "a refused call changed byte {at} of {region}"),
            Difference::Guard => write!(f, "bytes beside a region were changed"),
        }
    }
}

const REGIONS: [&str; 4] = ["counters", "memory", "store", "output"];

/// The region and place of the first byte in which the two differ.
pub fn first_byte(one: [&[u8]; 4], two: [&[u8]; 4]) -> Option<(usize, usize)> {
    (0..4).filter(|&i| one[i] != two[i]).find_map(|i| {
        let at = one[i].iter().zip(two[i]).position(|(a, b)| a != b)?;
        Some((i, at))
    })
}

/// Against the oracle's regions.
pub fn against_oracle(library: [&[u8]; 4], oracle: [&[u8]; 4]) -> Option<Difference> {
    let (i, at) = first_byte(library, oracle)?;
    Some(Difference::Byte { region: REGIONS[i], at, values: [library[i][at], oracle[i][at]] })
}

/// Against what stood there before a refused call.
pub fn against_before(after: [&[u8]; 4], before: [&[u8]; 4]) -> Option<Difference> {
    let (i, at) = first_byte(after, before)?;
    Some(Difference::RefusedChanged { region: REGIONS[i], at })
}
