//! The coin table, kept packed, and the strip that is filled from it.

use crate::numbers::{MOST_PHASES, MOST_SLOTS};
use crate::refusal::Refusal;

/// The 511-bit pattern of ITU-T O.150.
pub const PATTERN: usize = 511;

/// "eight entries to a byte, 64 bytes in all, with the last bit unused."
const BYTES: usize = 64;
static COINS: [u8; BYTES] = packed(&pattern());

/// "entries 0 to 8 are 1, and each later entry is the sum modulo 2 of those 5 and 9 places before it." The table is
/// packed from them, and the comparison asks for them; strips are filled from the table alone.
pub const fn pattern() -> [u8; PATTERN] {
    let mut coins = [1; PATTERN];
    let mut entry = 9;
    while entry < PATTERN {
        coins[entry] = (coins[entry - 5] + coins[entry - 9]) % 2;
        entry += 1;
    }
    coins
}

/// A byte's highest bit is the first of its entries; so the unused bit is the lowest of the last byte.
const fn packed(entries: &[u8; PATTERN]) -> [u8; BYTES] {
    let mut bytes = [0; BYTES];
    let mut entry = 0;
    while entry < entries.len() {
        bytes[entry / 8] |= entries[entry] << (7 - entry % 8);
        entry += 1;
    }
    bytes
}

/// One of the 511 entries, by its number.
fn looked_up(entry: usize) -> u8 {
    (COINS[entry / 8] >> (7 - entry % 8)) & 1
}

/// "Strip: 1, 2." No phase limit of 0 here: it stands for 16 in an opening only.
pub fn fill_strip(slots: usize, phases: usize, start: usize, strip: &mut [u8]) -> Result<(), Refusal> {
    let within = (1..=MOST_SLOTS).contains(&slots) && (1..=MOST_PHASES).contains(&phases) && start < PATTERN;
    if !within {
        return Err(Refusal::BadPlan);
    }
    if strip.len() < slots * phases {
        return Err(Refusal::ShortTable);
    }
    fill(slots, phases, start, strip);
    Ok(())
}

/// "gives slot s, phase p the entry (c + 32s + p − 1) mod 511".
pub(crate) fn fill(slots: usize, phases: usize, start: usize, strip: &mut [u8]) {
    for (slot, row) in strip.chunks_exact_mut(phases).take(slots).enumerate() {
        for (earlier, coin) in row.iter_mut().enumerate() {
            *coin = looked_up((start + 32 * slot + earlier) % PATTERN);
        }
    }
}

#[cfg(test)]
mod tests {
    use super::*;

    #[test]
    fn begins_as_document_01_says() {
        assert_eq!(pattern()[..20], [1, 1, 1, 1, 1, 1, 1, 1, 1, 0, 0, 0, 0, 0, 1, 1, 1, 1, 0, 1]);
    }

    /// A pattern of the greatest length for 9 bits: it meets each window of 9 bits but 0 once, around the end too.
    #[test]
    fn is_a_longest_pattern() {
        let (coins, mut met) = (pattern(), [false; PATTERN + 1]);
        for start in 0..PATTERN {
            let window =
                (0..9).fold(0, |bits, place| 2 * bits + usize::from(coins[(start + place) % PATTERN]));
            assert!(window != 0 && !met[window]);
            met[window] = true;
        }
    }

    /// In the order of document 01's "111111111 00000 1111 0 1".
    #[test]
    fn is_packed_with_the_last_bit_unused() {
        assert_eq!((COINS.len(), COINS[63] & 1), (64, 0));
        assert_eq!(COINS[..2], [0b1111_1111, 0b1000_0011]);
    }

    #[test]
    fn looks_up_every_entry() {
        let coins: Vec<u8> = (0..PATTERN).map(looked_up).collect();
        assert_eq!(coins, pattern());
    }

    #[test]
    fn c11_wraps_around() {
        let mut strip = [9; 9];
        assert_eq!(fill_strip(1, 8, 510, &mut strip), Ok(()));
        assert_eq!((strip[0], strip[1], strip[8]), (pattern()[510], 1, 9));
    }

    #[test]
    fn refuses_in_order() {
        assert_eq!(fill_strip(1, 0, 0, &mut []), Err(Refusal::BadPlan));
        assert_eq!(fill_strip(1025, 1, 0, &mut [0; 1025]), Err(Refusal::BadPlan));
        assert_eq!(fill_strip(1, 1, 511, &mut [0]), Err(Refusal::BadPlan));
        assert_eq!(fill_strip(2, 2, 510, &mut [0; 3]), Err(Refusal::ShortTable));
    }
}
