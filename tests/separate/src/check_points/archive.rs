//! Request 7 of document 02, logs laid out for the archive.

use crate::archive::{to_entries, to_planes};
use crate::random::Random;
use crate::refusal::Refusal;

/// What no call leaves by chance.
const UNTOUCHED: u8 = 0xa5;
const UNTOUCHED_ENTRY: u64 = 0xa5a5_a5a5_a5a5_a5a5;

/// Two logs and their planes, written out by hand.
const TWO: [u64; 2] = [0x0102_0304_0506_0708, 0x1112_1314_1516_1718];
const TWO_STORED: [u8; 16] = [1, 17, 2, 18, 3, 19, 4, 20, 5, 21, 6, 22, 7, 23, 8, 24];
/// An empty slot, the last urgent tag and the first, and an order of second 1; a row for each plane.
const FOUR: [u64; 4] = [0, u64::MAX, 1 << 63, (1 << 32) + 1];
const FOUR_STORED: [[u8; 4]; 8] = [
    [0, 255, 128, 0],
    [0, 255, 0, 0],
    [0, 255, 0, 0],
    [0, 255, 0, 1],
    [0, 255, 0, 0],
    [0, 255, 0, 0],
    [0, 255, 0, 0],
    [0, 255, 0, 1],
];

/// The answer, and what is left in an output of so many bytes.
fn planes(entries: &[u64], length: usize) -> (Result<(), Refusal>, Vec<u8>) {
    let mut stored = vec![UNTOUCHED; length];
    (to_planes(entries, &mut stored), stored)
}

/// As `planes`, the other way.
fn entries(stored: &[u8], length: usize) -> (Result<(), Refusal>, Vec<u64>) {
    let mut entries = vec![UNTOUCHED_ENTRY; length];
    (to_entries(stored, &mut entries), entries)
}

fn drawn_log(random: &mut Random, count: usize) -> Vec<u64> {
    (0..count).map(|_| random.word()).collect()
}

fn drawn_bytes(random: &mut Random, length: usize) -> Vec<u8> {
    (0..length).map(|_| random.word() as u8).collect()
}

#[test]
fn the_highest_byte_of_every_entry_first() {
    assert_eq!(planes(&TWO, 16), (Ok(()), TWO_STORED.to_vec()));
    assert_eq!(planes(&FOUR, 32), (Ok(()), FOUR_STORED.concat()));
    assert_eq!(planes(&TWO[..1], 8), (Ok(()), vec![1, 2, 3, 4, 5, 6, 7, 8]));
}

#[test]
fn and_read_back() {
    assert_eq!(entries(&TWO_STORED, 2), (Ok(()), TWO.to_vec()));
    assert_eq!(entries(&FOUR_STORED.concat(), 4), (Ok(()), FOUR.to_vec()));
    assert_eq!(entries(&TWO_STORED[..8], 1), (Ok(()), vec![0x0111_0212_0313_0414]));
}

#[test]
fn a_log_of_no_entries_is_one() {
    for length in [0, 1, 7, 8, 9] {
        assert_eq!(planes(&[], length), (Ok(()), vec![UNTOUCHED; length]));
        assert_eq!(entries(&[], length), (Ok(()), vec![UNTOUCHED_ENTRY; length]));
    }
}

/// "Output past the result is not touched."
#[test]
fn a_longer_output_keeps_its_rest() {
    for more in [1, 7, 8, 100] {
        let (answer, stored) = planes(&TWO, 16 + more);
        assert_eq!((answer, &stored[..16]), (Ok(()), &TWO_STORED[..]));
        assert_eq!(stored[16..], vec![UNTOUCHED; more]);
        let (answer, read) = entries(&FOUR_STORED.concat(), 4 + more);
        assert_eq!((answer, &read[..4]), (Ok(()), &FOUR[..]));
        assert_eq!(read[4..], vec![UNTOUCHED_ENTRY; more]);
    }
}

/// "Doing both, from either side, returns the start."
#[test]
fn both_ways_return_the_start() {
    let mut random = Random::new(7);
    for count in (0..=70).chain([255, 256, 257, 1023, 1024]) {
        let log = drawn_log(&mut random, count);
        assert_eq!(entries(&planes(&log, 8 * count).1, count), (Ok(()), log));
        let stored = drawn_bytes(&mut random, 8 * count);
        assert_eq!(planes(&entries(&stored, count).1, 8 * count), (Ok(()), stored));
    }
}

/// "the stored bytes are the log's own, each as often, reordered."
#[test]
fn each_byte_is_stored_as_often_as_the_log_has_it() {
    let mut random = Random::new(8);
    for count in (0..=70).chain([256, 1024]) {
        let log = drawn_log(&mut random, count);
        let (answer, mut stored) = planes(&log, 8 * count);
        let mut own: Vec<u8> = log.into_iter().flat_map(u64::to_le_bytes).collect();
        stored.sort_unstable();
        own.sort_unstable();
        assert_eq!((answer, stored), (Ok(()), own));
    }
}

/// Its first two bytes count up and its last two down.
#[test]
fn the_largest_log_is_stored() {
    let log: Vec<u64> = (0..1024).map(|entry| (entry << 48) + 1023 - entry).collect();
    let (answer, stored) = planes(&log, 8192);
    let plane = |plane: usize| [0, 255, 256, 1023].map(|entry| stored[1024 * plane + entry]);
    assert_eq!((answer, plane(0), plane(1)), (Ok(()), [0, 0, 1, 3], [0, 255, 0, 255]));
    assert_eq!((plane(2), plane(5)), ([0; 4], [0; 4]));
    assert_eq!((plane(6), plane(7)), ([3, 3, 2, 0], [255, 0, 255, 0]));
    assert_eq!(entries(&stored, 1024), (Ok(()), log));
}

/// A call of this many cells into an output of that many is refused, and nothing is written.
#[track_caller]
fn assert_not_stored(count: usize, length: usize, refusal: Refusal) {
    assert_eq!(planes(&vec![7; count], length), (Err(refusal), vec![UNTOUCHED; length]));
}

#[track_caller]
fn assert_not_read(stored: usize, length: usize, refusal: Refusal) {
    assert_eq!(entries(&vec![7; stored], length), (Err(refusal), vec![UNTOUCHED_ENTRY; length]));
}

#[test]
fn refusal_1_above_1024_entries_whatever_the_output() {
    for count in [1025, 1026, 2048, 3000] {
        for length in [0, 1, 8191, 8192, 8 * count - 1, 8 * count, 8 * count + 1] {
            assert_not_stored(count, length, Refusal::BadPlan);
        }
    }
}

/// Whether they are a multiple of 8 or not.
#[test]
fn refusal_1_above_8192_bytes_whatever_the_output() {
    for stored in [8193, 8194, 8196, 8199, 8200, 8201, 16_384, 20_000] {
        for length in [0, 1023, 1024, 1025, stored / 8, stored] {
            assert_not_read(stored, length, Refusal::BadPlan);
        }
    }
}

/// The number is that of document 02.
#[test]
fn refusal_24_for_every_length_between_whatever_the_output() {
    assert_eq!(Refusal::OddLength.number(), 24);
    for stored in (0..=8192).filter(|stored| stored % 8 != 0) {
        for length in [0, stored / 8, stored / 8 + 1] {
            assert_not_read(stored, length, Refusal::OddLength);
        }
    }
}

#[test]
fn refusal_2_for_an_output_that_is_short_by_one_or_more() {
    for count in [1, 2, 3, 8, 255, 256, 1023, 1024] {
        for length in [0, count, 8 * count - 8, 8 * count - 1] {
            assert_not_stored(count, length, Refusal::ShortTable);
        }
        for length in [0, count / 2, count - 1] {
            assert_not_read(8 * count, length, Refusal::ShortTable);
        }
    }
}

/// "1 ...; then 24 ...; then 2": where several hold, the first.
#[test]
fn refusals_come_in_their_order() {
    assert_not_stored(1025, 0, Refusal::BadPlan);
    assert_not_read(8193, 0, Refusal::BadPlan);
    assert_not_read(8200, 0, Refusal::BadPlan);
    assert_not_read(9, 0, Refusal::OddLength);
    assert_not_read(7, 0, Refusal::OddLength);
    assert_not_read(8191, 1023, Refusal::OddLength);
    assert_not_read(8, 0, Refusal::ShortTable);
    assert_not_read(8192, 1023, Refusal::ShortTable);
    assert_eq!(entries(&[7; 8192], 1024).0, Ok(()));
    assert_eq!(planes(&[7; 1024], 8192).0, Ok(()));
}
