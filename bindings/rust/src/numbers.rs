//! The numbers of a run, the three kinds of index, and what a conductor counts. Those that cross the boundary are laid out
//! as in C.

/// The number of a replica, from 0.
#[repr(C)]
#[derive(Clone, Copy, Debug, PartialEq, Eq, PartialOrd, Ord, Hash)]
pub struct Replica(pub usize);

/// The index of a slot, from 0.
#[repr(C)]
#[derive(Clone, Copy, Debug, PartialEq, Eq, PartialOrd, Ord, Hash)]
pub struct Slot(pub usize);

/// The index of a phase, from 1.
#[repr(C)]
#[derive(Clone, Copy, Debug, PartialEq, Eq, PartialOrd, Ord, Hash)]
pub struct Phase(pub usize);

/// The numbers of a run. Any can be handed in; those beyond the limits are refused.
#[repr(C)]
#[derive(Clone, Copy, Debug, Default, PartialEq, Eq)]
pub struct Numbers {
    /// Replicas, 1 to 15.
    pub n: usize,
    /// How many of them may crash; 2f + 1 is at most n.
    pub f: usize,
    /// 1 to 1,024.
    pub slots: usize,
    /// To a slot, 1 to 32. In an opening, and only there, 0 stands for [`Numbers::DEFAULT_PHASES`].
    pub phases: usize,
    /// How many tags can be known, 1 to 1,024.
    pub room: usize,
}

/// How many steps a conductor made in a slot.
#[repr(C)]
#[derive(Clone, Copy, Debug, PartialEq, Eq, Hash)]
pub struct Conducted {
    /// Begins, hears and advances: 3L² + L for L running replicas.
    pub steps: usize,
    /// Relays, at most L - 1.
    pub relays: usize,
}

/// What an opening asks for.
#[derive(Clone, Copy, Debug, PartialEq, Eq)]
pub struct Plan {
    pub numbers: Numbers,
    /// The entry of the coin table, 0 to 510, from which the strip is filled.
    pub start: usize,
}

impl Numbers {
    /// The largest run within the limits.
    pub const LARGEST: Numbers = Numbers { n: 15, f: 7, slots: 1024, phases: 32, room: 1024 };

    /// What the rehearsal program has memories for.
    pub const REHEARSAL: Numbers = Numbers { n: 7, f: 3, slots: 16, phases: 16, room: 64 };

    /// What a phase limit of 0 stands for in an opening.
    pub const DEFAULT_PHASES: usize = 16;

    /// Numbers to make memories for. Those beyond the limits are cut to them: no run has them, and their memories might
    /// not fit the machine.
    pub(crate) fn of_memories(self) -> Numbers {
        let phases = if self.phases == 0 { Numbers::DEFAULT_PHASES } else { self.phases };
        Numbers {
            n: self.n.min(Numbers::LARGEST.n),
            f: self.f,
            slots: self.slots.min(Numbers::LARGEST.slots),
            phases: phases.min(Numbers::LARGEST.phases),
            room: self.room.min(Numbers::LARGEST.room),
        }
    }

    /// Where the logs start in the orders: behind the known tags and the proposals.
    pub(crate) fn logs_start(self) -> usize {
        self.room + self.slots * self.n
    }
}
