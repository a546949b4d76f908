//! Draws the tags of orders, urgent ones and others.

use crate::random::Random;
use crate::rank::URGENT;

/// What the orders of a run are like.
pub struct Orders {
    /// An odd number that spreads their tags over the bits below the highest.
    spread: u64,
    /// How many of three are urgent.
    urgent: usize,
}

impl Orders {
    /// Tags as small as their numbers.
    pub const SMALL: Orders = Orders { spread: 1, urgent: 1 };

    pub fn draw(random: &mut Random) -> Orders {
        Orders {
            spread: random.pick(&[1, (1 << 32) + 1, 0x9e37_79b9_7f4a_7c15]),
            urgent: random.pick(&[0, 1, 1, 3]),
        }
    }

    /// The order of this number, urgent or not, so that two may differ by the highest bit alone. Now and then it is the first
    /// or the last urgent one.
    pub fn tag(&self, random: &mut Random, number: usize) -> u64 {
        let tag = self.spread.wrapping_mul(number as u64) & !URGENT;
        match random.below(3) < self.urgent {
            true if random.one_in(8) => random.pick(&[URGENT, u64::MAX]),
            true => tag | URGENT,
            false => tag,
        }
    }
}
