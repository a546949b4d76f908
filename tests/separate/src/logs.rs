//! Draws what the archive's calls are lent: logs and stored bytes, and outputs to write into.

use crate::archive::{MOST_ENTRIES, MOST_STORED, PLANES};
use crate::framed::Framed;
use crate::orders::Orders;
use crate::random::Random;
use crate::script::order;
use std::fmt::Debug;

/// An entry of a log, or a stored byte.
pub trait Cell: Copy + PartialEq + Debug {
    /// How many a call takes.
    const MOST: usize;
    /// How many a call is lent: few as a rule, else at the limit or beyond it.
    fn length(random: &mut Random) -> usize;
    /// As logs or the archive have them.
    fn likely(random: &mut Random, length: usize) -> Vec<Self>;
    fn any(random: &mut Random, length: usize) -> Vec<Self>;
    fn bytes(cells: &[Self]) -> Vec<u8>;
}

impl Cell for u64 {
    const MOST: usize = MOST_ENTRIES;

    fn length(random: &mut Random) -> usize {
        match random.below(32) {
            0 => 0,
            1 => 1,
            2 => random.between(Self::MOST - 1, Self::MOST + 1),
            3 if random.one_in(2) => random.between(Self::MOST + 1, 3000),
            3 => random.below(Self::MOST),
            4 => random.between(254, 258),
            _ => random.below(40),
        }
    }

    fn likely(random: &mut Random, length: usize) -> Vec<u64> {
        match random.below(8) {
            0 => vec![random.pick(&[0, u64::MAX]); length],
            1 => counting(random).take(length).collect(),
            2 => (0..length).map(|_| 0xff << (8 * random.below(PLANES))).collect(),
            3 | 4 => drawn_orders(random, length),
            5 => with_empty_slots(random, length),
            _ => u64::any(random, length),
        }
    }

    fn any(random: &mut Random, length: usize) -> Vec<u64> {
        (0..length).map(|_| random.word()).collect()
    }

    fn bytes(cells: &[u64]) -> Vec<u8> {
        cells.iter().flat_map(|entry| entry.to_be_bytes()).collect()
    }
}

/// More than half of the lengths are multiples of 8.
impl Cell for u8 {
    const MOST: usize = MOST_STORED;

    fn length(random: &mut Random) -> usize {
        match random.below(32) {
            0 => random.below(PLANES),
            1 => random.between(Self::MOST - PLANES, Self::MOST + PLANES),
            2 if random.one_in(2) => random.between(Self::MOST + 1, 20_000),
            2 => random.below(Self::MOST),
            3..14 => random.below(40 * PLANES),
            _ => PLANES * u64::length(random),
        }
    }

    fn likely(random: &mut Random, length: usize) -> Vec<u8> {
        cut(u64::likely(random, length.div_ceil(PLANES)), length)
    }

    fn any(random: &mut Random, length: usize) -> Vec<u8> {
        cut(u64::any(random, length.div_ceil(PLANES)), length)
    }

    fn bytes(cells: &[u8]) -> Vec<u8> {
        cells.to_vec()
    }
}

/// So many of the entries' bytes.
fn cut(entries: Vec<u64>, length: usize) -> Vec<u8> {
    let mut bytes = u64::bytes(&entries);
    bytes.truncate(length);
    bytes
}

/// Tags that share all bytes but some: the lowest, those of an order a second, or the highest.
fn counting(random: &mut Random) -> impl Iterator<Item = u64> {
    let (first, step) = (random.word(), random.pick(&[1, order(1), 1 << 56]));
    (0..).map(move |place| first.wrapping_add(step.wrapping_mul(place)))
}

fn drawn_orders(random: &mut Random, length: usize) -> Vec<u64> {
    let orders = Orders::draw(random);
    let mut order = || {
        let number = random.between(1, 300);
        orders.tag(random, number)
    };
    (0..length).map(|_| order()).collect()
}

fn with_empty_slots(random: &mut Random, length: usize) -> Vec<u64> {
    let orders = drawn_orders(random, length);
    orders.into_iter().map(|tag| if random.one_in(3) { 0 } else { tag }).collect()
}

/// So many drawn cells, with others of their kind around them. Bytes begin at any address so.
pub fn framed<T: Cell>(
    random: &mut Random,
    length: usize,
    draw: fn(&mut Random, usize) -> Vec<T>,
) -> Framed<T> {
    let (front, behind) = (random.below(9), random.between(1, 9));
    Framed::within(draw(random, front + length + behind), front, behind)
}

/// The length of an output for a call that is lent so many cells and needs so many for them.
pub fn room<Out: Cell>(random: &mut Random, lent: usize, needed: usize) -> usize {
    match random.below(16) {
        0..5 => needed,
        5 | 6 => needed + 1,
        7 | 8 => needed + random.between(2, 40),
        9..12 => needed.saturating_sub(1),
        12 => random.below(needed + 1),
        13 => lent,
        14 => Out::MOST,
        _ => 0,
    }
}
