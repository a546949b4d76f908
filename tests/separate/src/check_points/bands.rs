//! Request 6 of document 02, longer bands.

use super::{heard_ballots, worked_session, WORKED_OUTPUT};
use crate::call::Call;
use crate::coin::{self, pattern};
use crate::long_runs::{go_through, CatchUp};
use crate::memories::{Memories, ONE, UNDECIDED, ZERO};
use crate::numbers::{Message, Numbers, Sort, LARGEST};
use crate::random::Random;
use crate::refusal::Refusal;
use crate::rules::{self, Advanced};
use crate::script::{order, Script};
use crate::step_file::{play, read_record, report, write_record, Form, Played};

fn plan(slots: usize, room: usize) -> Numbers {
    Numbers { n: 3, f: 1, slots, phases: 2, room }
}

/// A record of an opening, followed by nothing.
fn opening(slots: usize, form: Form) -> Vec<u8> {
    let mut file = Vec::new();
    write_record(&mut file, &Call::Open { plan: plan(slots, 4), start: 0 }, form);
    file
}

#[test]
fn refusal_1_begins_at_1025_slots_and_at_room_1025() {
    let mut memories = Memories::of_run(&plan(1024, 1024));
    let mut answer = |slots, room| rules::open(&plan(slots, room), 0, &mut memories);
    for number in [1, 64, 65, 255, 256, 257, 1023, 1024] {
        assert_eq!(answer(number, 4), Ok(plan(number, 4)));
        assert_eq!(answer(4, number), Ok(plan(4, number)));
    }
    for number in [0, 1025, 65_535, 65_536 + 64, usize::MAX] {
        assert_eq!(answer(number, 4), Err(Refusal::BadPlan));
        assert_eq!(answer(4, number), Err(Refusal::BadPlan));
    }
    assert_eq!(answer(1024, 1024), Ok(plan(1024, 1024)));
}

#[test]
fn of_a_strip_too() {
    let mut strip = [0; 1025];
    for slots in [64, 65, 255, 256, 1024] {
        assert_eq!(coin::fill_strip(slots, 1, 0, &mut strip), Ok(()));
    }
    assert_eq!(coin::fill_strip(1025, 1, 0, &mut strip), Err(Refusal::BadPlan));
    assert_eq!(coin::fill_strip(1024, 1, 0, &mut strip[..1023]), Err(Refusal::ShortTable));
}

/// The largest run has its cells: 1,014,875 words.
#[test]
fn the_largest_run_opens() {
    let mut memories = Memories::of_run(&LARGEST);
    assert_eq!((memories.words.len(), memories.orders.len()), (1_014_875, 31_744));
    assert_eq!((memories.ballots.len(), memories.strip.len()), (983_040, 32_768));
    assert_eq!(rules::open(&LARGEST, 510, &mut memories), Ok(LARGEST));
    memories.words.pop();
    assert_eq!(rules::open(&LARGEST, 510, &mut memories), Err(Refusal::ShortTable));
}

#[test]
fn slots_65_open_by_either_kind() {
    let most = plan(1024, 4);
    for (slots, form) in
        [(65, Form::Old), (255, Form::Old), (65, Form::New), (256, Form::New), (1024, Form::New)]
    {
        let file = opening(slots, form);
        assert_eq!(file[0], if form == Form::Old { 0 } else { 8 });
        let Played { opened, .. } = play(&most, &file, &mut Memories::of_run(&most));
        assert_eq!(opened, Some(plan(slots, 4)));
    }
}

/// A slot count or slot that needs two bytes is written in two.
#[test]
fn the_old_form_is_left_where_it_is_too_small() {
    assert_eq!(opening(256, Form::Old), [8, 3, 1, 0, 1, 2, 4, 0, 0, 0]);
    assert_eq!(opening(255, Form::Old), [0, 3, 1, 255, 2, 4, 0, 0, 0]);
    let mut hears = Vec::new();
    for slot in [255, 256, 1023] {
        write_record(&mut hears, &Call::Hear { receiver: 2, sender: 1, sort: 3, slot, phase: 7 }, Form::Old);
    }
    assert_eq!(hears, [4, 2, 1, 3, 255, 7, 9, 2, 1, 3, 0, 1, 7, 9, 2, 1, 3, 255, 3, 7]);
}

/// The record of an old kind, and the new kind's with a 0 as the second byte of the slot count or slot.
fn both_forms(random: &mut Random, kind: u8, slot: u8) -> [Vec<u8>; 2] {
    let (new_kind, length, place) = if kind == 0 { (8, 8, 3) } else { (9, 5, 4) };
    let mut old: Vec<u8> = (0..=length).map(|_| random.word() as u8).collect();
    (old[0], old[place]) = (kind, slot);
    let mut new = old.clone();
    new[0] = new_kind;
    new.insert(place + 1, 0);
    [old, new]
}

#[test]
fn each_old_record_and_its_new_form_give_the_same_call() {
    let mut random = Random::new(6);
    for slot in (0..=255).cycle().take(256 * 40) {
        for kind in [0, 4] {
            let [old, new] = both_forms(&mut random, kind, slot);
            let (call, end) = read_record(&old, 0).expect("a whole record");
            assert_eq!((read_record(&new, 0), end), (Ok((call, new.len())), old.len()));
        }
    }
}

/// The whole of document 01's session, in either form of each record.
#[test]
fn the_worked_session_in_the_new_form() {
    let mut random = Random::new(1);
    for _ in 0..64 {
        let mut file = Vec::new();
        for call in worked_session() {
            write_record(&mut file, &call, random.pick(&[Form::Old, Form::New]));
        }
        assert_eq!(String::from_utf8(report(&file)).as_deref(), Ok(WORKED_OUTPUT));
    }
}

#[test]
fn both_bytes_are_read_the_lowest_first() {
    let hear = |bytes: [u8; 2]| match read_record(&[9, 0, 1, 4, bytes[0], bytes[1], 0], 0) {
        Ok((Call::Hear { slot, .. }, 7)) => slot,
        other => panic!("{other:?}"),
    };
    let open = |bytes: [u8; 2]| match read_record(&[8, 3, 1, bytes[0], bytes[1], 2, 4, 0, 0, 0], 0) {
        Ok((Call::Open { plan, .. }, 10)) => plan.slots,
        other => panic!("{other:?}"),
    };
    for (bytes, number) in
        [([1, 0], 1), ([0, 1], 256), ([255, 3], 1023), ([0, 4], 1024), ([255, 255], 65_535)]
    {
        assert_eq!((hear(bytes), open(bytes)), (number, number));
    }
}

#[test]
fn bodies_cut_at_every_length_get_20() {
    for (kind, length) in [(0, 8), (4, 5), (8, 9), (9, 6)] {
        let record = [vec![kind], vec![1; length]].concat();
        for end in 1..=length {
            assert_eq!(read_record(&record[..end], 0), Err(Refusal::CutRecord));
        }
        assert!(read_record(&record, 0).is_ok_and(|(_, end)| end == length + 1));
    }
}

#[test]
fn kinds_from_10_on_are_unknown() {
    for kind in 10..=255 {
        assert_eq!(read_record(&[kind; 20], 0), Err(Refusal::UnknownKind));
    }
}

#[test]
fn new_openings_out_of_place() {
    let twice = [opening(2, Form::Old), opening(2, Form::New), opening(2, Form::Old)].concat();
    let output = String::from_utf8(report(&twice)).expect("text");
    assert!(output.starts_with("controllers 3 spare 1\nrefused 2 21\nrefused 3 21\nbench 0"));
    assert_eq!(report(&[9, 0, 1, 1, 0, 0, 0]), b"refused 1 21\n");
}

/// The program's tables have 16 slots, as before.
#[test]
fn the_rehearsal_program_refuses_with_2_above_16_and_with_1_above_1024() {
    let answer = |slots, form| String::from_utf8(report(&opening(slots, form))).expect("text");
    for form in [Form::Old, Form::New] {
        assert!(answer(16, form).starts_with("controllers 3 spare 1\n"));
        for slots in [17, 64, 65, 255, 256, 1024] {
            assert_eq!(answer(slots, form), "refused 1 2\n");
        }
        for slots in [0, 1025, 65_535] {
            assert_eq!(answer(slots, form), "refused 1 1\n");
        }
    }
}

/// Three through all 1,024 slots, by a file: the messages of slots 1 and 256 are not one another's.
#[test]
fn the_last_slot_by_a_step_file() {
    let mut script = Script::open(&plan(1024, 16));
    go_through(&mut script, 0..1024, CatchUp::Advance);
    assert_eq!(script.refused, None);
    let most = script.numbers;
    let mut memories = Memories::of_run(&most);
    let mut file = script.file(|| Form::New);
    play(&most, &file, &mut memories);
    assert_eq!(memories, script.memories);
    let hear = |slot| Call::Hear { receiver: 2, sender: 1, sort: 4, slot, phase: 0 };
    for slot in [256, 1023, 1024] {
        write_record(&mut file, &hear(slot), Form::New);
    }
    play(&most, &file, &mut memories);
    let answers = [1, 256, 1023, 1024].map(|slot| hear(slot).make(&most, &mut memories).err());
    let heard = Some(Refusal::Heard);
    assert_eq!(answers, [heard, heard, heard, Some(Refusal::NoSuchMessage)]);
    let log = |who| memories.log(&most, who, 1024);
    assert_eq!((log(0)[255], log(0)[254], log(2)[1023]), ((1 << 63) + 255, 0, (1 << 63) + 1023));
    assert_eq!(rules::begin(&most, 0, &mut memories), Err(Refusal::LogFull));
    assert_eq!(rules::advance(&most, 0, &mut memories), Err(Refusal::Idle));
}

#[test]
fn a_tag_room_of_1024_is_full_at_1024() {
    let mut script = Script::open(&plan(2, 1024));
    for second in 1..=1024 {
        script.share(order(second), [0]);
    }
    assert_eq!((script.refused, script.memories.known()), (None, 1024));
    let mut submit =
        |who, second| rules::submit(&script.numbers, who, order(second), &mut script.memories).err();
    assert_eq!((submit(0, 1025), submit(0, 1024)), (Some(Refusal::TagRoomFull), Some(Refusal::Held)));
    assert_eq!(submit(1, 1024), None);
}

/// From start 0: 32 · 64 mod 511 = 4, then 495, 16 and 32.
#[test]
fn coins_of_late_slots() {
    let numbers = plan(1024, 4);
    for (slot, entry) in [(64, 4), (255, 495), (256, 16), (1023, 32)] {
        let votes = Message { sort: Sort::Vote, slot, phase: 1 };
        let mut memories = heard_ballots(&numbers, votes, &[UNDECIDED, UNDECIDED]);
        let coins = [numbers.coin_cell(slot, 1), numbers.coin_cell(slot, 2)].map(|cell| memories.strip[cell]);
        assert_eq!(coins, [pattern()[entry], pattern()[entry + 1]]);
        let state = if pattern()[entry] == 0 { ZERO } else { ONE };
        assert_eq!(rules::advance(&numbers, 0, &mut memories), Ok(Advanced::NextByCoin(state)));
    }
}
