//! A sweep of 300 orders by the conductor alone: each of three controllers is handed every third order. Writes how many steps
//! it took, what the conductor says once all slots are closed, and some entries of every log.
//!
//!     RUSHHOPPER_LIB=FOLDER cargo run --example sweep

use rushhopper::{Numbers, Plan, Rack, Refusal, Replica};

const ORDERS: usize = 300;

/// Nine o'clock: a tag is its time times 2^32 plus the order's number.
const NINE: u64 = 900 << 32;

fn hand_in(rack: &mut Rack) -> Result<(), Refusal> {
    (1..=ORDERS).try_for_each(|number| rack.submit(Replica(number % 3), NINE + number as u64))
}

/// Slot after slot, until the conductor is refused.
fn sweep(rack: &mut Rack) {
    let (mut slots, mut steps, mut relays) = (0, 0, 0);
    let refusal = loop {
        match rack.conduct() {
            Ok(conducted) => {
                slots += 1;
                steps += conducted.steps;
                relays += conducted.relays;
            }
            Err(refusal) => break refusal,
        }
    };
    println!("{slots} slots closed in {steps} steps and {relays} relays");
    println!("then refused, {}: {refusal}", refusal.number());
}

/// The first slot, those on both sides of a byte's end, and the last.
fn print_log(rack: &Rack, who: Replica) {
    let log = rack.log(who);
    let shown = [0, 255, 256, ORDERS - 1].map(|slot| {
        let tag = log[slot];
        format!("{slot} has {}:{}", tag >> 32, tag as u32)
    });
    println!("controller {}, {} slots closed: {}", who.0, log.len(), shown.join(", "));
}

fn main() -> Result<(), Refusal> {
    // a phase limit of 0 stands for 16
    let numbers = Numbers { n: 3, f: 1, slots: ORDERS, phases: 0, room: ORDERS };
    let mut rack = Rack::open(Plan { numbers, start: 0 })?;
    hand_in(&mut rack)?;
    sweep(&mut rack);
    for who in rack.replicas() {
        print_log(&rack, who);
    }
    Ok(())
}
