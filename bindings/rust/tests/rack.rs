//! Runs through the calls of a rack.

use rushhopper::{
    Conducted, Message, Numbers, Phase, Plan, Rack, Record, Refusal, Replica, Round, Slot, URGENT,
};

const FIRST: Slot = Slot(0);

/// As an opening leaves every replica.
const OPENED: Record = Record { crashed: false, round: Round::Idle, slot: FIRST, empty: 0, fast: 0 };

fn plan(n: usize, f: usize, slots: usize) -> Plan {
    Plan { numbers: Numbers { n, f, slots, phases: 4, room: 4 }, start: 0 }
}

fn state(phase: usize) -> Message {
    Message::State(FIRST, Phase(phase))
}

fn vote(phase: usize) -> Message {
    Message::Vote(FIRST, Phase(phase))
}

/// Each receiver hears one sender, and then each receiver advances.
fn round(rack: &mut Rack, message: Message, hearings: &[(usize, usize)]) {
    for &(receiver, sender) in hearings {
        assert_eq!(rack.hear(Replica(receiver), Replica(sender), message), Ok(()));
    }
    for &(receiver, _) in hearings {
        assert_eq!(rack.advance(Replica(receiver)), Ok(()));
    }
}

/// Three replicas in the exchange of slot 0: 0 and 1 have proposed 5, and 2 has proposed 9.
fn proposed() -> Rack {
    proposed_by(plan(3, 1, 2))
}

/// The same in a run of three by another plan.
fn proposed_by(plan: Plan) -> Rack {
    let mut rack = Rack::open(plan).expect("a plan within the limits");
    assert_eq!(rack.submit(Replica(0), 5), Ok(()));
    assert_eq!(rack.relay(Replica(1), 5), Ok(()));
    assert_eq!(rack.submit(Replica(2), 9), Ok(()));
    for who in rack.replicas() {
        assert_eq!(rack.begin(who), Ok(()));
    }
    rack
}

/// Replicas 0 and 1 have closed slot 0 with 5 in phase 1, and 2 has gone on to phase 2 alone.
fn left_behind() -> Rack {
    let mut rack = proposed();
    for message in [Message::Proposal(FIRST), state(1), vote(1)] {
        round(&mut rack, message, &[(0, 1), (1, 0), (2, 0)]);
    }
    rack
}

/// What a replica's record counts: its empty slots, as many as its log has, and those closed with an outcome of phase 1.
fn counts(rack: &Rack, who: usize) -> (usize, usize) {
    let record = rack.record(Replica(who)).expect("a replica of the rack");
    assert_eq!(record.empty, rack.log(Replica(who)).iter().filter(|&&entry| entry == 0).count());
    (record.empty, record.fast)
}

#[test]
fn openings() {
    assert_eq!(Rack::open(plan(4, 2, 1)), Err(Refusal::BadPlan));
    assert_eq!(Rack::open(plan(5, 2, 1025)), Err(Refusal::BadPlan));
    assert_eq!(Rack::open(plan(usize::MAX, usize::MAX, usize::MAX)), Err(Refusal::BadPlan));
    assert_eq!(Rack::open(Plan { start: 511, ..plan(5, 2, 64) }), Err(Refusal::BadPlan));
    assert_eq!(Rack::open(Plan { numbers: Numbers::default(), start: 0 }), Err(Refusal::BadPlan));
    let largest = Rack::open(Plan { numbers: Numbers::LARGEST, start: 510 });
    assert_eq!(largest.map(|rack| rack.numbers()), Ok(Numbers::LARGEST));
}

/// A plan of three replicas and so many slots, with room for a tag to each.
fn band(slots: usize) -> Plan {
    Plan { numbers: Numbers { n: 3, f: 1, slots, phases: 2, room: slots }, start: 0 }
}

#[test]
fn bands_have_up_to_1024_slots() {
    for slots in [64, 65, 255, 256, 257, 1024] {
        assert_eq!(Rack::open(band(slots)).map(|rack| rack.numbers()), Ok(band(slots).numbers));
    }
    let opened_with = |slots, room| {
        let numbers = Numbers { slots, room, ..band(4).numbers };
        Rack::open(Plan { numbers, start: 0 }).map(|_| ())
    };
    assert_eq!(opened_with(1024, 1), Ok(()));
    assert_eq!(opened_with(1, 1024), Ok(()));
    for beyond in [1025, 65_536, 65_537, usize::MAX] {
        assert_eq!(opened_with(beyond, 4), Err(Refusal::BadPlan));
        assert_eq!(opened_with(4, beyond), Err(Refusal::BadPlan));
    }
    assert_eq!((Numbers::LARGEST.slots, Numbers::LARGEST.room), (1024, 1024));
}

#[test]
fn a_phase_limit_of_0_stands_for_16() {
    let numbers = Numbers { phases: 0, ..plan(5, 2, 64).numbers };
    let rack = Rack::open(Plan { numbers, start: 0 }).expect("a plan within the limits");
    assert_eq!(rack.numbers(), Numbers { phases: 16, ..numbers });
    assert_eq!(Numbers::DEFAULT_PHASES, 16);
}

/// In each phase 1 votes 0 and the others `?`; then 0 takes the coin, which is 1 up to phase 9, and the others go on with 0.
#[test]
fn a_busy_day_goes_on_past_phase_8() {
    let numbers = Numbers { phases: 0, ..plan(3, 1, 2).numbers };
    let mut rack = proposed_by(Plan { numbers, start: 0 });
    round(&mut rack, Message::Proposal(FIRST), &[(0, 1), (1, 2), (2, 0)]);
    for phase in 1..=9 {
        let busy = Record { round: Round::State(Phase(phase)), ..OPENED };
        assert_eq!(rack.record(Replica(0)), Some(busy));
        round(&mut rack, state(phase), &[(0, 2), (1, 2), (2, 0)]);
        round(&mut rack, vote(phase), &[(0, 2), (1, 2), (2, 1)]);
    }
    assert_eq!(rack.hear(Replica(0), Replica(1), state(16)), Err(Refusal::NotSent));
    assert_eq!(rack.hear(Replica(0), Replica(1), state(17)), Err(Refusal::NoSuchMessage));
}

#[test]
fn refused_steps_change_nothing() {
    let mut rack = proposed();
    let before = rack.clone();
    let (who, far) = (Replica(0), Replica(usize::MAX));
    assert_eq!(rack.submit(Replica(3), 5), Err(Refusal::NoSuchReplica));
    assert_eq!(rack.submit(who, 0), Err(Refusal::BlankTag));
    assert_eq!(rack.submit(who, 5), Err(Refusal::AlreadyHeld));
    assert_eq!(rack.relay(who, 6), Err(Refusal::UnknownTag));
    assert_eq!(rack.begin(who), Err(Refusal::Busy));
    assert_eq!(rack.advance(who), Err(Refusal::TooFewHeard));
    assert_eq!(rack.run_on(who), Err(Refusal::TooFewHeard));
    assert_eq!(rack.crash(far), Err(Refusal::NoSuchReplica));
    assert_eq!(rack.fill_strip(511), Err(Refusal::BadPlan));
    assert_eq!(rack.hear(who, far, vote(1)), Err(Refusal::NoSuchReplica));
    assert_eq!(rack.hear(who, Replica(1), vote(5)), Err(Refusal::NoSuchMessage));
    assert_eq!(rack.hear(who, Replica(1), Message::Proposal(Slot(2))), Err(Refusal::NoSuchMessage));
    assert_eq!(rack.hear(who, who, Message::Proposal(FIRST)), Err(Refusal::AlreadyHeard));
    assert_eq!(rack.hear(who, who, state(1)), Err(Refusal::NotSent));
    assert_eq!(rack, before);
}

#[test]
fn a_replica_that_the_rack_does_not_have() {
    let rack = proposed();
    for replica in [Replica(3), Replica(usize::MAX)] {
        assert_eq!((rack.record(replica), rack.entry(replica, FIRST)), (None, None));
        assert!(rack.log(replica).is_empty());
    }
}

#[test]
fn tags_are_known_once() {
    let mut rack = proposed();
    assert_eq!(rack.known(), 2);
    assert_eq!(rack.submit(Replica(1), 9), Ok(()));
    assert_eq!(rack.known(), 2);
    assert_eq!(rack.submit(Replica(1), 7), Ok(()));
    assert_eq!(rack.known(), 3);
}

/// A replica alone closes a slot with each of its tags, by their ranks.
#[test]
fn urgent_tags_are_proposed_first() {
    let mut rack = Rack::open(plan(1, 0, 4)).expect("a plan within the limits");
    let who = Replica(0);
    for tag in [9, URGENT + 9, 5, URGENT] {
        assert_eq!(rack.submit(who, tag), Ok(()));
    }
    for _ in 0..4 {
        assert_eq!((rack.begin(who), rack.run_on(who)), (Ok(()), Ok(3)));
    }
    assert_eq!(rack.log(who), [URGENT, URGENT + 9, 5, 9]);
    assert_eq!(URGENT, 9_223_372_036_854_775_808);
}

#[test]
fn a_crash_marks_its_own_record() {
    let mut rack = proposed();
    let others = [rack.record(Replica(0)), rack.record(Replica(2))];
    assert_eq!(rack.crash(Replica(1)), Ok(()));
    let crashed = Record { crashed: true, round: Round::Exchange, ..OPENED };
    assert_eq!(rack.record(Replica(1)), Some(crashed));
    assert_eq!([rack.record(Replica(0)), rack.record(Replica(2))], others);
    assert_eq!(rack.crash(Replica(1)), Err(Refusal::Crashed));
    assert_eq!(rack.advance(Replica(1)), Err(Refusal::Crashed));
    assert_eq!(rack.hear(Replica(0), Replica(1), Message::Proposal(FIRST)), Ok(()));
}

/// Replicas 0 and 1 have closed slot 0 with 5 in phase 1; 2 has reached the outcome too, and looks for the order.
fn in_find() -> Rack {
    let mut rack = proposed();
    round(&mut rack, Message::Proposal(FIRST), &[(0, 1), (1, 0), (2, 0)]);
    assert_eq!(rack.hear(Replica(2), Replica(1), state(1)), Ok(()));
    round(&mut rack, state(1), &[(0, 1), (1, 0), (2, 0)]);
    round(&mut rack, vote(1), &[(0, 1), (1, 0), (2, 0)]);
    rack
}

#[test]
fn the_find_round_waits_for_a_majority() {
    let mut rack = in_find();
    assert_eq!(rack.log(Replica(0)), [5]);
    assert_eq!((rack.entry(Replica(0), FIRST), rack.entry(Replica(0), Slot(1))), (Some(5), None));
    assert_eq!(rack.entry(Replica(2), FIRST), None);
    let finding = Record { round: Round::Find, ..OPENED };
    assert_eq!((rack.record(Replica(2)), rack.log(Replica(2))), (Some(finding), &[][..]));
    assert_eq!(rack.advance(Replica(2)), Err(Refusal::TooFewHeard));
    assert_eq!(rack.hear(Replica(2), Replica(1), Message::Proposal(FIRST)), Ok(()));
    assert_eq!(rack.run_on(Replica(2)), Ok(1));
    assert_eq!(rack.log(Replica(2)), [5]);
    assert_eq!(rack.begin(Replica(0)), Err(Refusal::NothingPending));
    assert_eq!(rack.begin(Replica(2)), Ok(()));
}

/// The outcome of phase 1 counts when the slot closes, if it closes with the order found and not by a notice.
#[test]
fn an_order_found_is_fast() {
    for (told, fast) in [(false, 1), (true, 0)] {
        let mut rack = in_find();
        assert_eq!((counts(&rack, 0), counts(&rack, 1), counts(&rack, 2)), ((0, 1), (0, 1), (0, 0)));
        assert_eq!(rack.hear(Replica(2), Replica(1), Message::Proposal(FIRST)), Ok(()));
        if told {
            assert_eq!(rack.hear(Replica(2), Replica(1), Message::Notice(FIRST)), Ok(()));
        }
        assert_eq!(rack.advance(Replica(2)), Ok(()));
        assert_eq!((rack.log(Replica(2)), counts(&rack, 2)), (&[5][..], (0, fast)));
    }
}

#[test]
fn a_replica_left_behind_closes_by_a_notice() {
    let mut rack = left_behind();
    let waiting = Record { round: Round::State(Phase(2)), ..OPENED };
    assert_eq!(rack.record(Replica(2)), Some(waiting));
    assert_eq!(rack.advance(Replica(2)), Err(Refusal::TooFewHeard));
    assert_eq!(rack.hear(Replica(2), Replica(0), state(2)), Err(Refusal::NotSent));
    assert_eq!(rack.hear(Replica(2), Replica(0), Message::Notice(FIRST)), Ok(()));
    assert_eq!(rack.advance(Replica(2)), Ok(()));
    let closed = Record { round: Round::Idle, slot: Slot(1), ..waiting };
    assert_eq!((rack.record(Replica(2)), rack.log(Replica(2))), (Some(closed), &[5][..]));
    assert_eq!(rack.advance(Replica(2)), Err(Refusal::NotBegun));
    assert_eq!(rack.hear(Replica(0), Replica(2), Message::Notice(FIRST)), Ok(()));
    assert_eq!(rack.advance(Replica(0)), Err(Refusal::NotBegun));
}

#[test]
fn refused_notices_change_nothing() {
    let mut rack = left_behind();
    assert_eq!(rack.hear(Replica(2), Replica(1), Message::Notice(FIRST)), Ok(()));
    let before = rack.clone();
    let mut hear =
        |receiver, sender, slot| rack.hear(Replica(receiver), Replica(sender), Message::Notice(slot));
    assert_eq!(hear(2, 3, FIRST), Err(Refusal::NoSuchReplica));
    assert_eq!(hear(2, 1, Slot(2)), Err(Refusal::NoSuchMessage));
    assert_eq!(hear(2, 1, Slot(1)), Err(Refusal::NotSent));
    assert_eq!(hear(0, 2, FIRST), Err(Refusal::NotSent));
    assert_eq!(hear(2, 2, FIRST), Err(Refusal::NotSent));
    assert_eq!(hear(2, 1, FIRST), Err(Refusal::AlreadyHeard));
    assert_eq!(hear(1, 1, FIRST), Err(Refusal::AlreadyHeard));
    assert_eq!(rack, before);
}

/// Replicas 0 and 1 propose different tags and close slot 0 as empty. Replica 2 is told while idle, and may begin first.
#[test]
fn an_empty_slot_has_a_notice() {
    for begins in [false, true] {
        let mut rack = Rack::open(plan(3, 1, 2)).expect("a plan within the limits");
        for (who, tag) in [(0, 5), (1, 9)] {
            assert_eq!(rack.submit(Replica(who), tag), Ok(()));
            assert_eq!(rack.begin(Replica(who)), Ok(()));
        }
        for message in [Message::Proposal(FIRST), state(1), vote(1)] {
            round(&mut rack, message, &[(0, 1), (1, 0)]);
        }
        assert_eq!(rack.crash(Replica(1)), Ok(()));
        assert_eq!((counts(&rack, 0), counts(&rack, 1), counts(&rack, 2)), ((1, 1), (1, 1), (0, 0)));
        assert_eq!(rack.run_on(Replica(2)), Err(Refusal::NotBegun));
        assert_eq!(rack.hear(Replica(2), Replica(1), Message::Notice(FIRST)), Ok(()));
        if begins {
            assert_eq!(rack.submit(Replica(2), 7), Ok(()));
            assert_eq!(rack.begin(Replica(2)), Ok(()));
        }
        assert_eq!(rack.run_on(Replica(2)), Ok(1));
        assert_eq!((rack.log(Replica(2)), counts(&rack, 2)), (&[0][..], (1, 0)));
    }
}

/// Replica 2 has closed slot 0 in phase 1, and slot 1 by a notice: its record still has that phase then.
#[test]
fn a_notice_after_phase_1_is_not_fast() {
    let mut rack = Rack::open(plan(3, 1, 2)).expect("a plan within the limits");
    assert_eq!(rack.submit(Replica(0), 5), Ok(()));
    for who in rack.replicas() {
        assert_eq!(rack.record(who), Some(OPENED));
    }
    assert_eq!(rack.conduct(), conducted(30, 2));
    let (second, phase) = (Slot(1), Phase(1));
    for who in [0, 1] {
        assert_eq!(rack.submit(Replica(who), 7), Ok(()));
        assert_eq!(rack.begin(Replica(who)), Ok(()));
    }
    for message in [Message::Proposal(second), Message::State(second, phase), Message::Vote(second, phase)] {
        round(&mut rack, message, &[(0, 1), (1, 0)]);
    }
    assert_eq!(rack.hear(Replica(2), Replica(0), Message::Notice(second)), Ok(()));
    assert_eq!(rack.advance(Replica(2)), Ok(()));
    assert_eq!(rack.log(Replica(2)), [5, 7]);
    assert_eq!((counts(&rack, 0), counts(&rack, 1), counts(&rack, 2)), ((0, 2), (0, 2), (0, 1)));
}

/// All vote `?` in phase 1; entry 0 of the coin table is 1, entry 9 is 0.
#[test]
fn the_strip_decides_a_quarrel() {
    for (start, logged) in [(0, 5), (9, 0)] {
        let mut rack = proposed();
        assert_eq!(rack.fill_strip(start), Ok(()));
        round(&mut rack, Message::Proposal(FIRST), &[(0, 1), (1, 0), (2, 0)]);
        round(&mut rack, state(1), &[(0, 2), (1, 2), (2, 0)]);
        let voting = Record { round: Round::Vote(Phase(1)), ..OPENED };
        assert_eq!(rack.record(Replica(0)), Some(voting));
        round(&mut rack, vote(1), &[(0, 1), (1, 2), (2, 0)]);
        let second = Record { round: Round::State(Phase(2)), ..voting };
        assert_eq!(rack.record(Replica(0)), Some(second));
        round(&mut rack, state(2), &[(0, 1), (1, 2), (2, 0)]);
        assert_eq!(rack.hear(Replica(2), Replica(1), Message::Proposal(FIRST)), Ok(()));
        round(&mut rack, vote(2), &[(0, 1), (1, 2), (2, 0)]);
        for who in rack.replicas() {
            assert_eq!((rack.log(who), counts(&rack, who.0)), (&[logged][..], (usize::from(logged == 0), 0)));
        }
    }
}

/// The replicas that run, in their order.
fn running(rack: &Rack) -> Vec<Replica> {
    let runs = |who: &Replica| rack.record(*who).is_some_and(|record| !record.crashed);
    rack.replicas().filter(runs).collect()
}

/// What a conductor does in the first slot with this tag, by single steps, each of which is accepted.
fn conducted_by_hand(rack: &mut Rack, tag: u64) -> Conducted {
    let running = running(rack);
    let (mut steps, mut relays) = (0, 0);
    for &who in &running {
        match rack.relay(who, tag) {
            Ok(()) => relays += 1,
            held => assert_eq!(held, Err(Refusal::AlreadyHeld)),
        }
    }
    for &who in &running {
        assert_eq!(rack.begin(who), Ok(()));
        steps += 1;
    }
    for message in [Message::Proposal(FIRST), state(1), vote(1)] {
        for &receiver in &running {
            for &sender in running.iter().filter(|&&sender| sender != receiver) {
                assert_eq!(rack.hear(receiver, sender, message), Ok(()));
                steps += 1;
            }
        }
        for &who in &running {
            assert_eq!(rack.advance(who), Ok(()));
            steps += 1;
        }
    }
    Conducted { steps, relays }
}

fn conducted(steps: usize, relays: usize) -> Result<Conducted, Refusal> {
    Ok(Conducted { steps, relays })
}

/// The conductor is refused and changes nothing.
fn not_conducted(rack: &mut Rack, refusal: Refusal) {
    let before = rack.clone();
    assert_eq!(rack.conduct(), Err(refusal));
    assert_eq!(*rack, before);
}

#[test]
fn the_smallest_pending_tag_is_conducted() {
    let mut rack = Rack::open(plan(3, 1, 2)).expect("a plan within the limits");
    assert_eq!(rack.submit(Replica(0), 9), Ok(()));
    assert_eq!(rack.relay(Replica(1), 9), Ok(()));
    assert_eq!(rack.submit(Replica(2), 5), Ok(()));
    assert_eq!(rack.conduct(), conducted(30, 2));
    let closed = Record { slot: Slot(1), fast: 1, ..OPENED };
    for who in rack.replicas() {
        assert_eq!((rack.record(who), rack.log(who)), (Some(closed), &[5][..]));
    }
    assert_eq!(rack.conduct(), conducted(30, 1));
    for who in rack.replicas() {
        assert_eq!(rack.log(who), [5, 9]);
    }
    not_conducted(&mut rack, Refusal::LogFull);
    assert_eq!(rack.submit(Replica(0), 7), Ok(()));
    not_conducted(&mut rack, Refusal::LogFull);
}

/// All hold the smaller tag, and one alone the urgent one.
#[test]
fn an_urgent_tag_is_conducted_first() {
    let mut rack = Rack::open(plan(3, 1, 2)).expect("a plan within the limits");
    for who in rack.replicas() {
        assert_eq!(rack.submit(who, 5), Ok(()));
    }
    assert_eq!(rack.submit(Replica(2), URGENT + 9), Ok(()));
    assert_eq!((rack.conduct(), rack.conduct()), (conducted(30, 2), conducted(30, 0)));
    for who in rack.replicas() {
        assert_eq!(rack.log(who), [URGENT + 9, 5]);
    }
}

/// A band of 1,024 slots of which 301 were conducted, each with an order that was handed in at one replica.
fn swept() -> Rack {
    let mut rack = Rack::open(band(1024)).expect("a plan within the limits");
    for slot in 0..=300 {
        assert_eq!(rack.submit(Replica(slot % 3), order(slot)), Ok(()));
        assert_eq!(rack.conduct(), conducted(30, 2));
    }
    rack
}

fn order(slot: usize) -> u64 {
    1000 + slot as u64
}

#[test]
fn a_band_is_conducted_past_slot_255() {
    let rack = swept();
    let log: Vec<u64> = (0..=300).map(order).collect();
    let closed = Record { slot: Slot(301), fast: 301, ..OPENED };
    for who in rack.replicas() {
        assert_eq!((rack.record(who), rack.log(who)), (Some(closed), &log[..]));
        assert_eq!((rack.entry(who, Slot(300)), rack.entry(who, Slot(301))), (Some(1300), None));
    }
    assert_eq!(rack.known(), 301);
}

#[test]
fn notices_of_slots_past_255() {
    let mut rack = swept();
    for (slot, answer) in [
        (0, Ok(())),
        (256, Ok(())),
        (256, Err(Refusal::AlreadyHeard)),
        (300, Ok(())),
        (301, Err(Refusal::NotSent)),
        (1023, Err(Refusal::NotSent)),
        (1024, Err(Refusal::NoSuchMessage)),
        (65_536 + 1, Err(Refusal::NoSuchMessage)),
    ] {
        assert_eq!(rack.hear(Replica(0), Replica(2), Message::Notice(Slot(slot))), answer);
    }
}

/// The conductor let each hear each other.
#[test]
fn messages_of_slots_past_255() {
    let mut rack = swept();
    let phase = Phase(1);
    let rows = [(255, Refusal::AlreadyHeard), (300, Refusal::AlreadyHeard), (301, Refusal::NotSent)];
    for (slot, refusal) in rows.map(|(slot, refusal)| (Slot(slot), refusal)) {
        for message in [Message::Proposal(slot), Message::State(slot, phase), Message::Vote(slot, phase)] {
            assert_eq!(rack.hear(Replica(1), Replica(2), message), Err(refusal));
        }
    }
}

/// Of 256 slots: past the last of them nothing is begun or conducted.
#[test]
fn a_band_is_full() {
    let mut rack = Rack::open(band(256)).expect("a plan within the limits");
    for slot in 0..256 {
        assert_eq!(rack.submit(Replica(0), order(slot)), Ok(()));
        assert_eq!(rack.conduct(), conducted(30, 2));
    }
    assert_eq!(rack.submit(Replica(0), 7), Err(Refusal::TagRoomFull));
    assert_eq!(rack.begin(Replica(0)), Err(Refusal::LogFull));
    not_conducted(&mut rack, Refusal::LogFull);
}

/// In every rack with any number of crashed replicas that a quorum allows; the tag is held by one, or by all.
#[test]
fn a_conductor_makes_the_single_steps() {
    for n in 1..=15 {
        let f = (n - 1) / 2;
        for (crashes, all_hold) in (0..=f).flat_map(|crashes| [(crashes, false), (crashes, true)]) {
            let mut rack = Rack::open(plan(n, f, 1)).expect("a plan within the limits");
            let last = Replica(n - 1);
            assert_eq!(rack.submit(last, 5), Ok(()));
            for who in 0..crashes {
                assert_eq!(rack.crash(Replica(2 * who)), Ok(()));
            }
            let running = running(&rack);
            for &who in running.iter().filter(|&&who| all_hold && who != last) {
                assert_eq!(rack.relay(who, 5), Ok(()));
            }
            let mut by_hand = rack.clone();
            let expected = conducted_by_hand(&mut by_hand, 5);
            let relays = if all_hold { 0 } else { running.len() - 1 };
            assert_eq!(expected, Conducted { steps: 3 * running.len().pow(2) + running.len(), relays });
            assert_eq!((rack.conduct(), &rack), (Ok(expected), &by_hand));
            for who in rack.replicas() {
                assert_eq!(rack.log(who), if running.contains(&who) { &[5][..] } else { &[] });
            }
        }
    }
}

/// Its order waits, since no other holds it; what one has sent before it crashed stands in the way for good.
#[test]
fn crashed_replicas_take_no_part() {
    let mut rack = Rack::open(plan(5, 2, 2)).expect("a plan within the limits");
    assert_eq!(rack.submit(Replica(1), 5), Ok(()));
    assert_eq!(rack.crash(Replica(1)), Ok(()));
    not_conducted(&mut rack, Refusal::NothingPending);
    assert_eq!(rack.submit(Replica(4), 9), Ok(()));
    assert_eq!(rack.conduct(), conducted(52, 3));
    assert_eq!((rack.log(Replica(0)), rack.log(Replica(1))), (&[9][..], &[][..]));
    assert_eq!(rack.submit(Replica(2), 7), Ok(()));
    assert_eq!(rack.begin(Replica(2)), Ok(()));
    not_conducted(&mut rack, Refusal::NotLevel);
    assert_eq!(rack.crash(Replica(2)), Ok(()));
    assert_eq!(rack.submit(Replica(0), 8), Ok(()));
    not_conducted(&mut rack, Refusal::NotLevel);
    assert_eq!(rack.crash(Replica(3)), Ok(()));
    not_conducted(&mut rack, Refusal::TooFewRunning);
    for who in [0, 4] {
        assert_eq!(rack.crash(Replica(who)), Ok(()));
        not_conducted(&mut rack, Refusal::TooFewRunning);
    }
}

/// Also where f + 1 replicas are fewer than a quorum.
#[test]
fn a_conductor_wants_a_quorum() {
    for (n, f) in [(1, 0), (2, 0), (3, 0), (3, 1), (4, 1), (6, 2), (9, 3), (15, 0), (15, 7)] {
        let mut rack = Rack::open(plan(n, f, 1)).expect("a plan within the limits");
        let last = Replica(n - 1);
        assert_eq!(rack.submit(last, 5), Ok(()));
        for who in 0..f {
            assert_eq!(rack.crash(Replica(who)), Ok(()));
        }
        let quorum = n - f;
        assert_eq!(rack.clone().conduct(), conducted(3 * quorum * quorum + quorum, quorum - 1));
        assert_eq!(rack.crash(Replica(f)), Ok(()));
        not_conducted(&mut rack, Refusal::TooFewRunning);
    }
}

/// One replica, whichever it is, stands idle before the slot that both others have closed.
#[test]
fn a_conductor_wants_all_at_the_same_slot() {
    for (behind, one, other) in [(0, 1, 2), (1, 0, 2), (2, 0, 1)] {
        let mut rack = Rack::open(plan(3, 1, 2)).expect("a plan within the limits");
        for who in [one, other] {
            assert_eq!(rack.submit(Replica(who), 5), Ok(()));
            assert_eq!(rack.begin(Replica(who)), Ok(()));
        }
        for message in [Message::Proposal(FIRST), state(1), vote(1)] {
            round(&mut rack, message, &[(one, other), (other, one)]);
        }
        assert_eq!(rack.submit(Replica(behind), 9), Ok(()));
        not_conducted(&mut rack, Refusal::NotLevel);
        assert_eq!(rack.hear(Replica(behind), Replica(one), Message::Notice(FIRST)), Ok(()));
        assert_eq!(rack.advance(Replica(behind)), Ok(()));
        assert_eq!(rack.conduct(), conducted(30, 2));
    }
}

/// Replica 2 is in a round that the others have left. It draws level by a notice; a conductor hears none.
#[test]
fn a_conductor_wants_all_idle() {
    let mut rack = left_behind();
    not_conducted(&mut rack, Refusal::NotLevel);
    assert_eq!(rack.hear(Replica(2), Replica(1), Message::Notice(FIRST)), Ok(()));
    not_conducted(&mut rack, Refusal::NotLevel);
    assert_eq!(rack.advance(Replica(2)), Ok(()));
    assert_eq!(rack.conduct(), conducted(30, 2));
    for who in rack.replicas() {
        assert_eq!(rack.log(who), [5, 9]);
    }
    assert_eq!(rack.hear(Replica(0), Replica(2), Message::Notice(Slot(1))), Ok(()));
}
