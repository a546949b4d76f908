//! Logs laid out for the archive. It keeps a log by byte plane: the highest byte of every entry first, then the next, to the
//! eighth. An entry is a tag, and 0 an empty slot.
//!
//! ```
//! use rushhopper::{archive, Numbers, Plan, Rack, Refusal, Replica, URGENT};
//!
//! let plan = Plan { numbers: Numbers { n: 3, f: 1, slots: 2, phases: 0, room: 4 }, start: 0 };
//! let mut rack = Rack::open(plan)?;
//! rack.submit(Replica(0), 7)?;
//! rack.submit(Replica(1), URGENT + 9)?;
//! rack.conduct()?;
//! rack.conduct()?;
//! let stored = archive::planes(rack.log(Replica(2)))?;
//! assert_eq!(stored, [128, 0, 0, 0, 0, 0, 0, 0, 0, 0, 0, 0, 0, 0, 9, 7]);
//! assert_eq!(archive::entries(&stored), Ok(vec![URGENT + 9, 7]));
//! assert_eq!(archive::entries(&stored[1..]), Err(Refusal::OddLength));
//! # Ok::<(), Refusal>(())
//! ```

use crate::raw;
use crate::refusal::Refusal;

/// How many entries are taken at once. No run has a longer log.
pub const MOST_ENTRIES: usize = 1024;

/// How many stored bytes are taken at once: those of so many entries.
pub const MOST_STORED: usize = PLANES * MOST_ENTRIES;

/// Planes, and so bytes of an entry.
const PLANES: usize = 8;

/// From entries to planes: 8 bytes an entry, from the front of `stored`. The rest of it is not touched.
///
/// Refused, in this order and with nothing written, with
/// - [`Refusal::BadPlan`] above [`MOST_ENTRIES`];
/// - [`Refusal::ShortTable`] if `stored` has fewer than 8 bytes an entry.
pub fn to_planes(entries: &[u64], stored: &mut [u8]) -> Result<(), Refusal> {
    raw::to_planes(entries, stored)
}

/// From planes to entries: one for 8 bytes, from the front of `entries`. The rest of it is not touched.
///
/// Refused, in this order and with nothing written, with
/// - [`Refusal::BadPlan`] above [`MOST_STORED`] bytes;
/// - [`Refusal::OddLength`] if the bytes are no multiple of 8;
/// - [`Refusal::ShortTable`] if `entries` is shorter than an eighth of `stored`.
pub fn to_entries(stored: &[u8], entries: &mut [u64]) -> Result<(), Refusal> {
    raw::to_entries(stored, entries)
}

/// The planes of these entries, as [`to_planes`] writes them.
pub fn planes(entries: &[u64]) -> Result<Vec<u8>, Refusal> {
    // too many entries are refused whatever the room, and room for them might not fit the machine
    let mut stored = vec![0; PLANES * entries.len().min(MOST_ENTRIES)];
    to_planes(entries, &mut stored)?;
    Ok(stored)
}

/// The entries of these planes, as [`to_entries`] writes them.
pub fn entries(stored: &[u8]) -> Result<Vec<u64>, Refusal> {
    let mut entries = vec![0; stored.len().min(MOST_STORED) / PLANES];
    to_entries(stored, &mut entries)?;
    Ok(entries)
}
