//! What the archive's calls meet, told by the lengths that they are lent and by their answers, and what logs have in them.
//! The comparison programs count it.

use crate::archive::{MOST_ENTRIES, MOST_STORED, PLANES};
use crate::rank::is_urgent;
use crate::tally::occurred;

/// A call of the archive that was made.
pub struct Asked {
    /// The cells that it was lent.
    pub cells: usize,
    /// Those of its output, and those that the result would take.
    pub room: usize,
    pub needed: usize,
    /// 0, or the refusal's number.
    pub answer: usize,
}

impl Asked {
    fn gets(&self, answer: usize, cells: usize) -> bool {
        self.answer == answer && self.cells == cells
    }

    /// Whether so many cells are lent behind the result of a log that has entries.
    fn leaves(&self, cells: usize) -> bool {
        self.answer == 0 && self.cells > 0 && self.room == self.needed + cells
    }

    /// The cells that are lacking.
    fn lacks(&self) -> usize {
        self.needed.saturating_sub(self.room)
    }

    /// By the bytes behind the last whole eight.
    fn is_odd_by(&self, bytes: usize) -> bool {
        self.answer == 24 && self.cells % PLANES == bytes
    }
}

/// An event of calls, and whether a call is one.
pub type Event = (&'static str, fn(&Asked) -> bool);

const TOO_MANY: usize = MOST_ENTRIES + 1;

pub static TO_PLANES: [Event; 19] = [
    ("to planes: no entries, no room", |asked| asked.gets(0, 0) && asked.room == 0),
    ("to planes: no entries, some room", |asked| asked.gets(0, 0) && asked.room > 0),
    ("to planes: one entry", |asked| asked.gets(0, 1)),
    ("to planes: 255 entries", |asked| asked.gets(0, 255)),
    ("to planes: 256 entries", |asked| asked.gets(0, 256)),
    ("to planes: 1,023 entries", |asked| asked.gets(0, MOST_ENTRIES - 1)),
    ("to planes: 1,024 entries", |asked| asked.gets(0, MOST_ENTRIES)),
    ("to planes: just room", |asked| asked.leaves(0)),
    ("to planes: room for a byte more", |asked| asked.leaves(1)),
    ("to planes: room for an entry more", |asked| asked.leaves(PLANES)),
    ("to planes: refused 2, a byte short", |asked| asked.answer == 2 && asked.lacks() == 1),
    ("to planes: refused 2, a byte for each entry", |asked| asked.answer == 2 && asked.room == asked.cells),
    ("to planes: refused 2, no room", |asked| asked.answer == 2 && asked.room == 0),
    ("to planes: refused 2, 1,024 entries, a byte short", |asked| {
        asked.gets(2, MOST_ENTRIES) && asked.lacks() == 1
    }),
    ("to planes: refused 1, 1,025 entries, just room", |asked| {
        asked.gets(1, TOO_MANY) && asked.room == asked.needed
    }),
    ("to planes: refused 1, 1,025 entries, a byte short", |asked| {
        asked.gets(1, TOO_MANY) && asked.lacks() == 1
    }),
    ("to planes: refused 1, 1,025 entries, room for 1,024", |asked| {
        asked.gets(1, TOO_MANY) && asked.room == MOST_STORED
    }),
    ("to planes: refused 1, 1,025 entries, no room", |asked| asked.gets(1, TOO_MANY) && asked.room == 0),
    ("to planes: refused 1, over 2,048 entries", |asked| asked.answer == 1 && asked.cells > 2 * MOST_ENTRIES),
];

/// The fewest bytes that are too many, and the fewest of a multiple of 8.
const ONE_OVER: usize = MOST_STORED + 1;
const EIGHT_OVER: usize = MOST_STORED + PLANES;

pub static TO_ENTRIES: [Event; 33] = [
    ("to entries: no bytes, no room", |asked| asked.gets(0, 0) && asked.room == 0),
    ("to entries: no bytes, some room", |asked| asked.gets(0, 0) && asked.room > 0),
    ("to entries: 8 bytes", |asked| asked.gets(0, PLANES)),
    ("to entries: 2,040 bytes", |asked| asked.gets(0, 2040)),
    ("to entries: 2,048 bytes", |asked| asked.gets(0, 2048)),
    ("to entries: 8,184 bytes", |asked| asked.gets(0, MOST_STORED - PLANES)),
    ("to entries: 8,192 bytes", |asked| asked.gets(0, MOST_STORED)),
    ("to entries: just room", |asked| asked.leaves(0)),
    ("to entries: room for an entry more", |asked| asked.leaves(1)),
    ("to entries: room for two entries more", |asked| asked.leaves(2)),
    ("to entries: refused 2, an entry short", |asked| asked.answer == 2 && asked.lacks() == 1),
    ("to entries: refused 2, no room", |asked| asked.answer == 2 && asked.room == 0),
    ("to entries: refused 2, 8,192 bytes, an entry short", |asked| {
        asked.gets(2, MOST_STORED) && asked.lacks() == 1
    }),
    ("to entries: refused 24, 1 byte over", |asked| asked.is_odd_by(1)),
    ("to entries: refused 24, 2 bytes over", |asked| asked.is_odd_by(2)),
    ("to entries: refused 24, 3 bytes over", |asked| asked.is_odd_by(3)),
    ("to entries: refused 24, 4 bytes over", |asked| asked.is_odd_by(4)),
    ("to entries: refused 24, 5 bytes over", |asked| asked.is_odd_by(5)),
    ("to entries: refused 24, 6 bytes over", |asked| asked.is_odd_by(6)),
    ("to entries: refused 24, 7 bytes over", |asked| asked.is_odd_by(7)),
    ("to entries: refused 24, under 8 bytes, no room", |asked| {
        asked.answer == 24 && asked.cells < PLANES && asked.room == 0
    }),
    ("to entries: refused 24, under 8 bytes, some room", |asked| {
        asked.answer == 24 && asked.cells < PLANES && asked.room > 0
    }),
    ("to entries: refused 24, 8,191 bytes", |asked| asked.gets(24, MOST_STORED - 1)),
    ("to entries: refused 24, room for the whole eights", |asked| {
        asked.answer == 24 && asked.room == asked.needed
    }),
    ("to entries: refused 24, room for an entry more", |asked| {
        asked.answer == 24 && asked.room == asked.needed + 1
    }),
    ("to entries: refused 24, also short", |asked| asked.answer == 24 && asked.lacks() > 0),
    ("to entries: refused 1, 8,200 bytes, just room", |asked| {
        asked.gets(1, EIGHT_OVER) && asked.room == asked.needed
    }),
    ("to entries: refused 1, 8,200 bytes, room for 1,024", |asked| {
        asked.gets(1, EIGHT_OVER) && asked.room == MOST_ENTRIES
    }),
    ("to entries: refused 1, 8,200 bytes, no room", |asked| asked.gets(1, EIGHT_OVER) && asked.room == 0),
    ("to entries: refused 1, 8,193 bytes, room for more", |asked| {
        asked.gets(1, ONE_OVER) && asked.room > asked.needed
    }),
    ("to entries: refused 1, 8,193 bytes, room for 1,024", |asked| {
        asked.gets(1, ONE_OVER) && asked.room == MOST_ENTRIES
    }),
    ("to entries: refused 1, 8,193 bytes, also short", |asked| asked.gets(1, ONE_OVER) && asked.lacks() > 0),
    ("to entries: refused 1, over 16,384 bytes", |asked| asked.answer == 1 && asked.cells > 2 * MOST_STORED),
];

/// An event of logs, and whether a log is one.
pub type LogEvent = (&'static str, fn(&[u64]) -> bool);

pub static LOGS: [LogEvent; 6] = [
    ("log: empty slots only", |log| !log.is_empty() && log.iter().all(|&entry| entry == 0)),
    ("log: an empty slot among orders", |log| log.contains(&0) && log.iter().any(|&entry| entry != 0)),
    ("log: urgent tags and others", |log| {
        log.iter().any(|&tag| is_urgent(tag)) && log.iter().any(|&tag| !is_urgent(tag))
    }),
    ("log: bytes of 255 only", |log| !log.is_empty() && log.iter().all(|&tag| tag == u64::MAX)),
    ("log: tags that differ in the lowest byte alone", |log| differ_within(log, 0xff)),
    ("log: tags that differ in the highest byte alone", |log| differ_within(log, 0xff << 56)),
];

/// Whether there are entries that differ, and only in these bits.
fn differ_within(log: &[u64], bits: u64) -> bool {
    let differences = || log.windows(2).map(|pair| pair[0] ^ pair[1]);
    differences().all(|difference| difference & !bits == 0) && differences().any(|difference| difference != 0)
}

/// What is met of a run's log.
pub const EVENTS_OF_RUNS: [&str; 3] = [
    "archive: a run's log",
    "archive: a run's log of more than 255 entries",
    "archive: a run's log with an empty slot",
];

pub fn met_in_run(log: &[u64]) -> Vec<&'static str> {
    let facts = [!log.is_empty(), log.len() > 255, log.contains(&0)];
    occurred(EVENTS_OF_RUNS.into_iter().zip(facts))
}

#[cfg(test)]
mod tests {
    use super::*;

    fn names(events: &[Event], asked: Asked) -> Vec<&'static str> {
        occurred(events.iter().map(|(event, is_met)| (*event, is_met(&asked))))
    }

    #[test]
    fn tells_what_is_stored() {
        let asked = |cells, room| names(&TO_PLANES, Asked { cells, room, needed: 8 * cells, answer: 0 });
        assert_eq!(asked(0, 9), ["to planes: no entries, some room"]);
        assert_eq!(asked(1, 9), ["to planes: one entry", "to planes: room for a byte more"]);
        assert_eq!(asked(1024, 8192), ["to planes: 1,024 entries", "to planes: just room"]);
    }

    /// Of bytes that are too many, no multiple of 8 and more than there is room for.
    #[test]
    fn tells_refusals_where_several_conditions_hold() {
        let asked =
            |cells, room, answer| names(&TO_ENTRIES, Asked { cells, room, needed: cells / 8, answer });
        assert_eq!(asked(8193, 1023, 1), ["to entries: refused 1, 8,193 bytes, also short"]);
        let odd = ["to entries: refused 24, 5 bytes over", "to entries: refused 24, also short"];
        assert_eq!(asked(805, 99, 24), odd);
        let under = [
            "to entries: refused 24, 7 bytes over",
            "to entries: refused 24, under 8 bytes, no room",
            "to entries: refused 24, room for the whole eights",
        ];
        assert_eq!(asked(7, 0, 24), under);
    }

    #[test]
    fn tells_logs() {
        let met = |log: &[u64]| LOGS.map(|(_, is_met)| is_met(log));
        assert_eq!(met(&[]), [false; 6]);
        assert_eq!(met(&[0, 0]), [true, false, false, false, false, false]);
        assert_eq!(met(&[u64::MAX]), [false, false, false, true, false, false]);
        assert_eq!(met(&[5, 0, 5]), [false, true, false, false, true, false]);
        assert_eq!(met(&[5, (1 << 63) + 5]), [false, false, true, false, false, true]);
    }
}
