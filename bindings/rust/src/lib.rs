//! Rushhopper for Rust: a safe wrapper of the proved order log's C interface (`include/rushhopper.h`).
//!
//! A [`Rack`] owns the memories of one run and lends them to the library at every call. A refused call changes nothing.
//!
//! The header asks its callers that no two of what a call is lent overlap, and for one call at a time on a rack. Here Rust's
//! borrows give both: a rack's memories are its own, each apart; a step borrows the rack as `&mut`; and what a call writes
//! beside them, a report or the archive's output, is borrowed as `&mut`, too, and so apart from what it reads.
//!
//! ```
//! use rushhopper::{Numbers, Plan, Rack, Refusal, Replica};
//!
//! let plan = Plan { numbers: Numbers { n: 1, f: 0, slots: 2, phases: 4, room: 4 }, start: 0 };
//! let mut rack = Rack::open(plan)?;
//! rack.submit(Replica(0), 7)?;
//! rack.begin(Replica(0))?;
//! assert_eq!(rack.run_on(Replica(0)), Ok(3));
//! assert_eq!(rack.log(Replica(0)), [7]);
//! assert_eq!(rack.advance(Replica(0)), Err(Refusal::NotBegun));
//! # Ok::<(), Refusal>(())
//! ```
//!
//! Nobody has to name each hearing: [`Rack::conduct`] takes all running replicas through a slot.
//!
//! ```
//! use rushhopper::{Conducted, Numbers, Plan, Rack, Refusal, Replica};
//!
//! let plan = Plan { numbers: Numbers { n: 3, f: 1, slots: 2, phases: 0, room: 4 }, start: 0 };
//! let mut rack = Rack::open(plan)?;
//! rack.submit(Replica(1), 7)?;
//! assert_eq!(rack.conduct(), Ok(Conducted { steps: 30, relays: 2 }));
//! for who in rack.replicas() {
//!     assert_eq!(rack.log(who), [7]);
//! }
//! assert_eq!(rack.conduct(), Err(Refusal::NothingPending));
//! # Ok::<(), Refusal>(())
//! ```
//!
//! [`archive`] lays a log out for the archive, by byte plane, and back.
//!
//! Replicas, slots and phases are separate types, and one is not accepted for another:
//!
//! ```compile_fail,E0308
//! # fn hear(rack: &mut rushhopper::Rack) {
//! use rushhopper::{Message, Phase, Replica, Slot};
//! rack.hear(Replica(0), Replica(1), Message::Vote(Phase(1), Slot(0)));
//! # }
//! ```
//!
//! Document 01 says "controller" for replica, "spare" for f, "quota" for quorum, "lit" for running and "dark" for crashed.

pub mod archive;
mod numbers;
mod play;
mod rack;
mod raw;
mod refusal;

pub use numbers::{Conducted, Numbers, Phase, Plan, Replica, Slot};
pub use play::{play, play_within};
pub use rack::{Message, Rack, Record, Round};
pub use refusal::Refusal;

/// The highest bit of a tag. A tag with it is urgent and ranks before all without it; then the smaller number counts.
pub const URGENT: u64 = 1 << 63;
