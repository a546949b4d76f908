//! A log laid out for the archive, and read back. Two of three controllers quarrel about slot 0, which stays empty; then the
//! conductor closes three slots, the first with an urgent order. Writes a log's byte planes, the entries that are read back,
//! and what the library says if a byte is lost. If a file is named, the stored bytes are written there; tools/archive.py
//! shows them.
//!
//!     RUSHHOPPER_LIB=FOLDER cargo run --example archive FILE

use std::error::Error;
use std::{env, fs};

use rushhopper::{archive, Message, Numbers, Phase, Plan, Rack, Refusal, Replica, Slot, URGENT};

const ZERO: Replica = Replica(0);
const ONE: Replica = Replica(1);
const TWO: Replica = Replica(2);

const FIRST: Slot = Slot(0);
const PHASE: Phase = Phase(1);

/// What the controllers send in slot 0, round by round.
const ROUNDS: [Message; 3] =
    [Message::Proposal(FIRST), Message::State(FIRST, PHASE), Message::Vote(FIRST, PHASE)];

/// A tag is its time times 2^32 plus the order's number.
const fn tag(time: u64, number: u64) -> u64 {
    (time << 32) + number
}

/// Controllers 0 and 1 each propose their own order, neither has a majority, and they close slot 0 as empty. Controller 2
/// hears of it.
fn quarrel(rack: &mut Rack) -> Result<(), Refusal> {
    for (who, order) in [(ZERO, tag(900, 1)), (ONE, tag(900, 2))] {
        rack.submit(who, order)?;
        rack.begin(who)?;
    }
    for message in ROUNDS {
        rack.hear(ZERO, ONE, message)?;
        rack.hear(ONE, ZERO, message)?;
        rack.advance(ZERO)?;
        rack.advance(ONE)?;
    }
    rack.hear(TWO, ZERO, Message::Notice(FIRST))?;
    rack.advance(TWO)
}

fn conduct(rack: &mut Rack) -> Result<(), Refusal> {
    rack.submit(TWO, URGENT + tag(1015, 3))?;
    for _ in 0..3 {
        rack.conduct()?;
    }
    Ok(())
}

fn print_planes(stored: &[u8]) {
    for (plane, bytes) in stored.chunks(stored.len() / 8).enumerate() {
        print!("plane {}:", plane + 1);
        for byte in bytes {
            print!(" {byte:02x}");
        }
        println!();
    }
}

/// As tools/archive.py shows it: an urgent order has a mark instead of its highest bit.
fn shown(entry: u64) -> String {
    let order = entry & !URGENT;
    match entry {
        0 => "empty".to_string(),
        _ => format!("{}{}:{}", if entry == order { "" } else { "!" }, order >> 32, order as u32),
    }
}

/// Once as it was stored, and once without the last byte.
fn read_back(stored: &[u8]) -> Result<(), Refusal> {
    println!("read back:");
    for (slot, entry) in archive::entries(stored)?.into_iter().enumerate() {
        println!("slot {slot} {}", shown(entry));
    }
    if let Err(refusal) = archive::entries(&stored[..stored.len() - 1]) {
        println!("with a byte lost: refused, {}: {refusal}", refusal.number());
    }
    Ok(())
}

fn main() -> Result<(), Box<dyn Error>> {
    // a phase limit of 0 stands for 16
    let numbers = Numbers { n: 3, f: 1, slots: 4, phases: 0, room: 4 };
    let mut rack = Rack::open(Plan { numbers, start: 0 })?;
    quarrel(&mut rack)?;
    conduct(&mut rack)?;
    let log = rack.log(TWO);
    let stored = archive::planes(log)?;
    println!("controller {}, {} slots closed: {} bytes stored", TWO.0, log.len(), stored.len());
    print_planes(&stored);
    read_back(&stored)?;
    if let Some(file) = env::args_os().nth(1) {
        fs::write(file, &stored)?;
    }
    Ok(())
}
