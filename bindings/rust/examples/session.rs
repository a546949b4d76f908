//! Document 01's worked session through the library's calls. Writes what the rehearsal program writes of it.
//!
//!     RUSHHOPPER_LIB=FOLDER cargo run --example session

use rushhopper::{Message, Numbers, Phase, Plan, Rack, Refusal, Replica, Slot};

const ZERO: Replica = Replica(0);
const ONE: Replica = Replica(1);
const TWO: Replica = Replica(2);

const PROPOSAL: Message = Message::Proposal(Slot(0));
const STATE: Message = Message::State(Slot(0), Phase(1));
const VOTE: Message = Message::Vote(Slot(0), Phase(1));

/// A rack, and the calls made so far as the report counts them: the opening is the first.
struct Session {
    rack: Rack,
    calls: usize,
}

impl Session {
    fn open(plan: Plan) -> Result<Session, Refusal> {
        let rack = Rack::open(plan)?;
        println!("controllers {} spare {}", rack.numbers().n, rack.numbers().f);
        Ok(Session { rack, calls: 1 })
    }

    fn make(&mut self, call: impl FnOnce(&mut Rack) -> Result<(), Refusal>) {
        self.calls += 1;
        if let Err(refusal) = call(&mut self.rack) {
            println!("refused {} {}", self.calls, refusal.number());
        }
    }

    fn hear(&mut self, receiver: Replica, sender: Replica, message: Message) {
        self.make(|rack| rack.hear(receiver, sender, message));
    }

    fn advance(&mut self, who: Replica) {
        self.make(|rack| rack.advance(who));
    }

    /// Replicas 0 and 1 have order 5, replica 2 has order 9; all propose.
    fn propose(&mut self) {
        self.make(|rack| rack.submit(ZERO, 5));
        self.make(|rack| rack.relay(ONE, 5));
        self.make(|rack| rack.submit(TWO, 9));
        for who in [ZERO, ONE, TWO] {
            self.make(|rack| rack.begin(who));
        }
    }

    /// Replicas 0 and 1 hear each other and advance.
    fn exchange_and_vote(&mut self) {
        for message in [PROPOSAL, STATE] {
            self.hear(ZERO, ONE, message);
            self.advance(ZERO);
            self.hear(ONE, ZERO, message);
            self.advance(ONE);
        }
    }

    /// Replica 0 closes the slot, and is idle at its second advance. Replica 2 has heard no other proposal, and the
    /// crashed replica's vote was heard before.
    fn close_slot(&mut self) {
        self.hear(ZERO, ONE, VOTE);
        self.advance(ZERO);
        self.advance(ZERO);
        self.hear(TWO, ZERO, VOTE);
        self.advance(TWO);
        self.make(|rack| rack.crash(ONE));
        self.hear(ZERO, ONE, VOTE);
    }

    fn print_bench(&self, who: Replica) {
        let log = self.rack.log(who);
        let crashed = self.rack.record(who).is_some_and(|record| record.crashed);
        print!("bench {} {} {}", who.0, if crashed { "dark" } else { "lit" }, log.len());
        for entry in log {
            match entry {
                0 => print!(" -"),
                tag => print!(" {tag}"),
            }
        }
        println!();
    }
}

fn main() -> Result<(), Refusal> {
    let numbers = Numbers { n: 3, f: 1, slots: 2, phases: 4, room: 4 };
    let mut session = Session::open(Plan { numbers, start: 0 })?;
    session.propose();
    session.exchange_and_vote();
    session.close_slot();
    for who in session.rack.replicas() {
        session.print_bench(who);
    }
    Ok(())
}
