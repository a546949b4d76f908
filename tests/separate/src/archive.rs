//! Logs laid out for the archive, byte plane by byte plane, and read back from there.

use crate::refusal::Refusal;
use std::array;

/// "the highest byte of every entry first, then the next, to the eighth."
pub const PLANES: usize = 8;
/// "1 above 1,024 entries or 8,192 stored bytes".
pub const MOST_ENTRIES: usize = 1024;
pub const MOST_STORED: usize = 8192;

/// Refusals 1, 2. A plane has a byte of every entry, in the order of the entries.
pub fn to_planes(entries: &[u64], stored: &mut [u8]) -> Result<(), Refusal> {
    let count = entries.len();
    if count > MOST_ENTRIES {
        return Err(Refusal::BadPlan);
    }
    if stored.len() < PLANES * count {
        return Err(Refusal::ShortTable);
    }
    for plane in 0..PLANES {
        let bytes = &mut stored[plane * count..][..count];
        for (byte, entry) in bytes.iter_mut().zip(entries) {
            *byte = entry.to_be_bytes()[plane];
        }
    }
    Ok(())
}

/// Refusals 1, 24, 2.
pub fn to_entries(stored: &[u8], entries: &mut [u64]) -> Result<(), Refusal> {
    if stored.len() > MOST_STORED {
        return Err(Refusal::BadPlan);
    }
    if !stored.len().is_multiple_of(PLANES) {
        return Err(Refusal::OddLength);
    }
    let count = stored.len() / PLANES;
    if entries.len() < count {
        return Err(Refusal::ShortTable);
    }
    for (place, entry) in entries[..count].iter_mut().enumerate() {
        *entry = u64::from_be_bytes(array::from_fn(|plane| stored[plane * count + place]));
    }
    Ok(())
}
