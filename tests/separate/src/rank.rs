//! Request 5 of document 02: urgent orders first. Which of several tags is taken; whether two are the same goes by the whole
//! number, as before.

/// "A tag with its highest bit set is urgent".
pub const URGENT: u64 = 1 << 63;

/// Pairs of pending tags, of which the first is taken: C10, document 02's row, and those at the ends of both kinds.
pub const RANKED: [(u64, u64); 10] = [
    (5, 9),
    (URGENT + 9, 5),
    (URGENT + 5, 5),
    (URGENT + 5, URGENT + 9),
    (URGENT, 1),
    (URGENT, URGENT + 1),
    (u64::MAX, 1),
    (u64::MAX, URGENT - 1),
    (URGENT + (1 << 62), u64::MAX),
    (1, 1 << 62),
];

pub fn is_urgent(tag: u64) -> bool {
    tag & URGENT != 0
}

/// "urgent and ranks before the rest; then the smaller number counts." The smaller rank comes first.
pub fn rank(tag: u64) -> (bool, u64) {
    (!is_urgent(tag), tag)
}

pub fn first_ranked(tags: impl Iterator<Item = u64>) -> Option<u64> {
    tags.min_by_key(|&tag| rank(tag))
}
