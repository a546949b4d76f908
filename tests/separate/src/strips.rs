//! What accepted strips meet of the packed coin table, told by their numbers alone. The comparison program of direct calls
//! counts it.

use crate::coin::PATTERN;
use crate::tally::occurred;

pub const EVENTS: [&str; 6] = [
    "strip: a row goes round the table's end",
    "strip: ends on the last entry, never gone round",
    "strip: a row begins at a byte's first entry",
    "strip: a row begins within a byte",
    "strip: rows of fewer than 8 phases",
    "strip: rows of more than 8 phases",
];

/// The events of an accepted strip: "slot s, phase p the entry (c + 32s + p − 1) mod 511", "eight entries to a byte".
pub fn met(slots: usize, phases: usize, start: usize) -> Vec<&'static str> {
    let begins: Vec<usize> = (0..slots).map(|slot| (start + 32 * slot) % PATTERN).collect();
    let reaches = start + 32 * (slots - 1) + phases - 1;
    occurred([
        ("strip: a row goes round the table's end", begins.iter().any(|entry| entry + phases > PATTERN)),
        ("strip: ends on the last entry, never gone round", reaches == PATTERN - 1),
        ("strip: a row begins at a byte's first entry", begins.iter().any(|entry| entry % 8 == 0)),
        ("strip: a row begins within a byte", begins.iter().any(|entry| entry % 8 != 0)),
        ("strip: rows of fewer than 8 phases", phases < 8),
        ("strip: rows of more than 8 phases", phases > 8),
    ])
}

#[cfg(test)]
mod tests {
    use super::*;

    /// The events by their numbers.
    fn numbered(events: [usize; 3]) -> Vec<&'static str> {
        events.map(|event| EVENTS[event]).to_vec()
    }

    /// C11's row begins at entry 510; the others end there, and one entry further.
    #[test]
    fn tells_the_end_of_the_table() {
        assert_eq!(met(1, 2, 510), numbered([0, 3, 4]));
        assert_eq!(met(16, 31, 0), numbered([1, 2, 5]));
        assert_eq!(met(16, 32, 0), numbered([0, 2, 5]));
    }

    /// Row 16 begins at entry 512, which is 1.
    #[test]
    fn tells_rows_that_begin_within_a_byte() {
        assert_eq!(met(16, 8, 0), [EVENTS[2]]);
        assert_eq!(met(17, 8, 0), [EVENTS[2], EVENTS[3]]);
    }
}
