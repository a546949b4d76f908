//! What calls and records meet of longer bands, told by the memories after them. The comparison programs count it; what the
//! conductor meets stands in `conducted`.

use crate::call::{Call, Done};
use crate::memories::Memories;
use crate::numbers::{Numbers, LARGEST, MOST_ROOM, MOST_SLOTS};
use crate::refusal::Refusal;
use crate::rules::{Advanced, Ran, Stop, Submitted};
use crate::tally::{occurred, Facts};

/// Of any call.
pub const EVENTS: [&str; 35] = [
    "opened with 65 slots",
    "opened with 256 slots",
    "opened with 1,024 slots",
    "opened with room 257",
    "opened with room 1,024",
    "refused 1 for 1,025 slots",
    "refused 1 for room 1,025",
    "submitted the 257th tag",
    "submitted the 1,024th tag",
    "refused 8 with 1,024 tags known",
    "relayed a tag behind 256 others",
    "proposed a tag behind 256 others",
    "proposed in a slot above 63",
    "proposed in a slot above 255",
    "proposed in slot 1,023",
    "heard of a slot above 63",
    "heard of a slot above 255",
    "heard of slot 256, which is slot 1 with its bytes changed about",
    "heard of slot 1,023",
    "went on by coin in a slot above 63",
    "went on by coin in a slot above 255",
    "went on by coin in slot 1,023",
    "closed a slot above 63",
    "closed a slot above 255",
    "closed slot 1,023",
    "closed by notice a slot above 63",
    "closed by notice a slot above 255",
    "closed by notice slot 1,023",
    "run on closed a slot above 255",
    "run on closed slot 1,023",
    "refused 11 with 1,024 slots closed",
    "refused 13 with 1,024 slots closed",
    "refused 16 for slot 1,024 of 1,024",
    "refused 16 for slot 256 of 256",
    "refused 17 for slot 1,023",
];

/// What only direct calls meet: of the largest run, which no step file is drawn for, and of damaged memories.
pub const EVENTS_OF_CALLS: [&str; 4] = [
    "opened the largest run",
    "heard in the largest run",
    "refused 3 for slot 1,025 of 1,024",
    "refused 3 for 1,025 tags of 1,024",
];

/// Of the records of a step file that was played on large memories.
pub const EVENTS_OF_RECORDS: [&str; 14] = [
    "opened by kind 0",
    "opened by kind 0 with more than 64 slots",
    "opened by kind 8",
    "opened by kind 8 with 65 to 255 slots",
    "opened by kind 8 with more than 255 slots",
    "heard by kind 4",
    "heard by kind 4 of a slot above 63",
    "heard by kind 9",
    "heard by kind 9 of slots 64 to 255",
    "heard by kind 9 of a slot above 255",
    "heard by kind 9 of slot 1,023",
    "refused 16 by kind 4",
    "refused 16 by kind 9",
    "refused 16 by kind 9 for slot 1,024 of 1,024",
];

/// Of the rehearsal program's tables for 16 slots, where nothing else of the plan is refused.
pub const EVENTS_OF_REHEARSAL: [&str; 8] = [
    "opened 16 slots by kind 0",
    "opened 16 slots by kind 8",
    "refused 2 for 17 slots by kind 0",
    "refused 2 for 17 slots by kind 8",
    "refused 2 for 255 slots by kind 0",
    "refused 2 for 1,024 slots by kind 8",
    "refused 1 for 1,025 slots by kind 8",
    "refused 1 for 65,535 slots by kind 8",
];

const LAST: usize = MOST_SLOTS - 1;

/// The events of a call by these numbers.
pub fn met(
    call: &Call,
    numbers: &Numbers,
    result: &Result<Done, Refusal>,
    memories: &Memories,
) -> Vec<&'static str> {
    let slot_of = |who| memories.slot(who);
    occurred(match (*call, *result) {
        (Call::Open { .. }, Ok(Done::Opened(numbers))) => opened(&numbers),
        (Call::Open { plan, .. }, Err(Refusal::BadPlan)) => beyond(&plan),
        (_, Ok(Done::Submitted(Submitted::New))) => submitted(memories.known()),
        (Call::Submit { .. }, Err(Refusal::TagRoomFull)) => {
            vec![("refused 8 with 1,024 tags known", memories.known() == MOST_ROOM)]
        }
        (Call::Relay { tag, .. }, Ok(_)) => {
            vec![("relayed a tag behind 256 others", memories.place(tag) > Some(255))]
        }
        (Call::Begin { who }, Ok(Done::Begun(tag))) => begun(slot_of(who), memories.place(tag)),
        (Call::Begin { who }, Err(Refusal::LogFull)) => {
            vec![("refused 11 with 1,024 slots closed", slot_of(who) == MOST_SLOTS)]
        }
        (Call::Hear { slot, .. }, Ok(_)) => heard(numbers, slot),
        (Call::Hear { slot, .. }, Err(refusal)) => not_heard(numbers, slot, refusal),
        (Call::Advance { who }, Ok(Done::Advanced(advanced))) => advance(slot_of(who), advanced),
        (Call::Advance { who }, Err(Refusal::Idle)) => {
            vec![("refused 13 with 1,024 slots closed", slot_of(who) == MOST_SLOTS)]
        }
        (Call::RunOn { who }, Ok(Done::RanOn(Ran { stop: Stop::Closed(_), .. }))) => vec![
            ("run on closed a slot above 255", slot_of(who) > 256),
            ("run on closed slot 1,023", slot_of(who) == MOST_SLOTS),
        ],
        (_, Err(Refusal::SpoiledRecord)) if numbers.within_limits() => spoiled(numbers, memories),
        _ => Vec::new(),
    })
}

fn opened(numbers: &Numbers) -> Facts {
    let Numbers { slots, room, .. } = *numbers;
    vec![
        ("opened with 65 slots", slots == 65),
        ("opened with 256 slots", slots == 256),
        ("opened with 1,024 slots", slots == MOST_SLOTS),
        ("opened with room 257", room == 257),
        ("opened with room 1,024", room == MOST_ROOM),
        ("opened the largest run", *numbers == LARGEST),
    ]
}

/// Of a plan that has one number too large: with the largest that can be, no other is.
fn beyond(plan: &Numbers) -> Facts {
    let (fewer, less) = (Numbers { slots: MOST_SLOTS, ..*plan }, Numbers { room: MOST_ROOM, ..*plan });
    vec![
        ("refused 1 for 1,025 slots", plan.slots == MOST_SLOTS + 1 && fewer.within_limits()),
        ("refused 1 for room 1,025", plan.room == MOST_ROOM + 1 && less.within_limits()),
    ]
}

fn submitted(known: usize) -> Facts {
    vec![("submitted the 257th tag", known == 257), ("submitted the 1,024th tag", known == MOST_ROOM)]
}

fn begun(slot: usize, place: Option<usize>) -> Facts {
    vec![
        ("proposed a tag behind 256 others", place > Some(255)),
        ("proposed in a slot above 63", slot > 63),
        ("proposed in a slot above 255", slot > 255),
        ("proposed in slot 1,023", slot == LAST),
    ]
}

fn heard(numbers: &Numbers, slot: usize) -> Facts {
    vec![
        ("heard of a slot above 63", slot > 63),
        ("heard of a slot above 255", slot > 255),
        ("heard of slot 256, which is slot 1 with its bytes changed about", slot == 256),
        ("heard of slot 1,023", slot == LAST),
        ("heard in the largest run", *numbers == LARGEST),
    ]
}

fn not_heard(numbers: &Numbers, slot: usize, refusal: Refusal) -> Facts {
    let behind = refusal == Refusal::NoSuchMessage && slot == numbers.slots;
    vec![
        ("refused 16 for slot 1,024 of 1,024", behind && slot == MOST_SLOTS),
        ("refused 16 for slot 256 of 256", behind && slot == 256),
        ("refused 17 for slot 1,023", refusal == Refusal::Unsent && slot == LAST),
    ]
}

/// The replica stands behind the slot that it has closed.
fn advance(slot: usize, advanced: Advanced) -> Facts {
    match advanced {
        Advanced::NextByCoin(_) => vec![
            ("went on by coin in a slot above 63", slot > 63),
            ("went on by coin in a slot above 255", slot > 255),
            ("went on by coin in slot 1,023", slot == LAST),
        ],
        Advanced::ByNotice { .. } => vec![
            ("closed by notice a slot above 63", slot > 64),
            ("closed by notice a slot above 255", slot > 256),
            ("closed by notice slot 1,023", slot == MOST_SLOTS),
        ],
        closed if closed.closes() => vec![
            ("closed a slot above 63", slot > 64),
            ("closed a slot above 255", slot > 256),
            ("closed slot 1,023", slot == MOST_SLOTS),
        ],
        _ => Vec::new(),
    }
}

fn spoiled(numbers: &Numbers, memories: &Memories) -> Facts {
    let beyond = (0..numbers.n).any(|who| memories.slot(who) == MOST_SLOTS + 1);
    vec![
        ("refused 3 for slot 1,025 of 1,024", numbers.slots == MOST_SLOTS && beyond),
        ("refused 3 for 1,025 tags of 1,024", numbers.room == MOST_ROOM && memories.known() == MOST_ROOM + 1),
    ]
}

/// The events of a record on large memories, by its kind beside its call.
pub fn met_by_record(
    kind: u8,
    call: &Call,
    numbers: &Numbers,
    result: &Result<Done, Refusal>,
) -> Vec<&'static str> {
    occurred(match (*call, result) {
        (Call::Open { plan: Numbers { slots, .. }, .. }, Ok(_)) => opened_by(kind, slots),
        (Call::Hear { slot, .. }, Ok(_)) => heard_by(kind, slot),
        (Call::Hear { slot, .. }, Err(Refusal::NoSuchMessage)) => vec![
            ("refused 16 by kind 4", kind == 4),
            ("refused 16 by kind 9", kind == 9),
            (
                "refused 16 by kind 9 for slot 1,024 of 1,024",
                kind == 9 && slot == MOST_SLOTS && slot == numbers.slots,
            ),
        ],
        _ => Vec::new(),
    })
}

fn opened_by(kind: u8, slots: usize) -> Facts {
    vec![
        ("opened by kind 0", kind == 0),
        ("opened by kind 0 with more than 64 slots", kind == 0 && slots > 64),
        ("opened by kind 8", kind == 8),
        ("opened by kind 8 with 65 to 255 slots", kind == 8 && (65..256).contains(&slots)),
        ("opened by kind 8 with more than 255 slots", kind == 8 && slots > 255),
    ]
}

fn heard_by(kind: u8, slot: usize) -> Facts {
    vec![
        ("heard by kind 4", kind == 4),
        ("heard by kind 4 of a slot above 63", kind == 4 && slot > 63),
        ("heard by kind 9", kind == 9),
        ("heard by kind 9 of slots 64 to 255", kind == 9 && (64..256).contains(&slot)),
        ("heard by kind 9 of a slot above 255", kind == 9 && slot > 255),
        ("heard by kind 9 of slot 1,023", kind == 9 && slot == LAST),
    ]
}

/// The events of an opening in the rehearsal program.
pub fn met_in_rehearsal(kind: u8, call: &Call, result: &Result<Done, Refusal>) -> Vec<&'static str> {
    let Call::Open { plan: Numbers { slots, .. }, .. } = *call else { return Vec::new() };
    let short = *result == Err(Refusal::ShortTable);
    let bad = *result == Err(Refusal::BadPlan);
    occurred([
        ("opened 16 slots by kind 0", kind == 0 && slots == 16 && result.is_ok()),
        ("opened 16 slots by kind 8", kind == 8 && slots == 16 && result.is_ok()),
        ("refused 2 for 17 slots by kind 0", kind == 0 && slots == 17 && short),
        ("refused 2 for 17 slots by kind 8", kind == 8 && slots == 17 && short),
        ("refused 2 for 255 slots by kind 0", kind == 0 && slots == 255 && short),
        ("refused 2 for 1,024 slots by kind 8", kind == 8 && slots == MOST_SLOTS && short),
        ("refused 1 for 1,025 slots by kind 8", kind == 8 && slots == MOST_SLOTS + 1 && bad),
        ("refused 1 for 65,535 slots by kind 8", kind == 8 && slots == 65_535 && bad),
    ])
}
