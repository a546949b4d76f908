//! Step files: writing and reading their records, playing them, and the report of the rehearsal program.

use crate::call::{Call, Done};
use crate::memories::Memories;
use crate::numbers::Numbers;
use crate::refusal::Refusal;
use crate::rules;
use std::io::Write;

/// The rehearsal program has "tables for 7 controllers, 16 slots, 8 phases and 64 tags", which "grow to 16 phases".
pub const REHEARSAL: Numbers = Numbers { n: 7, f: 3, slots: 16, phases: 16, room: 64 };
/// "It takes the first 65,536 bytes of its input and reads no more".
pub const REHEARSAL_BYTES: usize = 65_536;

/// An opening and a hear have two forms, with one byte for the slot count or slot and with two. Other records have one form.
#[derive(Clone, Copy, Debug, PartialEq, Eq)]
pub enum Form {
    Old,
    New,
}

/// The opened run, if any, and the report.
pub struct Played {
    pub opened: Option<Numbers>,
    pub report: Vec<u8>,
}

/// What the rehearsal program writes for this input.
pub fn report(input: &[u8]) -> Vec<u8> {
    let taken = &input[..input.len().min(REHEARSAL_BYTES)];
    play(&REHEARSAL, taken, &mut Memories::of_run(&REHEARSAL)).report
}

/// Plays a step file on memories for at most the numbers `most`.
pub fn play(most: &Numbers, file: &[u8], memories: &mut Memories) -> Played {
    play_seen(most, file, memories, |_, _, _, _, _| ())
}

/// As `play`; `seen` is shown each whole record by its kind and its call, the run's numbers (zeros if none is open), what came
/// of the record and the memories after it.
pub fn play_seen(
    most: &Numbers,
    file: &[u8],
    memories: &mut Memories,
    mut seen: impl FnMut(u8, &Call, &Numbers, &Result<Done, Refusal>, &Memories),
) -> Played {
    let mut played = Played { opened: None, report: Vec::new() };
    let mut place = 0;
    let mut number = 0;
    while place < file.len() {
        number += 1;
        // "At 19 or 20 reading stops."
        let (call, next) = match read_record(file, place) {
            Ok(read) => read,
            Err(refusal) => {
                played.refused(number, refusal);
                break;
            }
        };
        let kind = file[place];
        place = next;
        let result = played.take(most, &call, memories);
        if let Err(refusal) = result {
            played.refused(number, refusal);
        }
        seen(kind, &call, &played.opened.unwrap_or_default(), &result, memories);
    }
    played.benches(memories);
    played
}

impl Played {
    /// "step before an accepted opening, or opening after one" is out of place; else the record is the call it makes.
    fn take(&mut self, most: &Numbers, call: &Call, memories: &mut Memories) -> Result<Done, Refusal> {
        match (*call, self.opened) {
            (Call::Open { plan, start }, None) => {
                if is_larger(&rules::planned(&plan, start)?, most) {
                    return Err(Refusal::ShortTable);
                }
                let numbers = rules::open(&plan, start, memories)?;
                self.opened = Some(numbers);
                self.line(format_args!("controllers {} spare {}", numbers.n, numbers.f));
                Ok(Done::Opened(numbers))
            }
            (Call::Open { .. }, Some(_)) | (_, None) => Err(Refusal::OutOfPlace),
            (_, Some(numbers)) => call.make(&numbers, memories),
        }
    }

    fn refused(&mut self, number: usize, refusal: Refusal) {
        self.line(format_args!("refused {number} {}", refusal.number()));
    }

    /// "at the end, if opened, a line per controller".
    fn benches(&mut self, memories: &Memories) {
        let Some(numbers) = self.opened else { return };
        for replica in 0..numbers.n {
            let record = memories.record(replica).unwrap_or_default();
            let light = if record.crashed == 0 { "lit" } else { "dark" };
            let log = memories.log(&numbers, replica, record.slot.into());
            let entries: String = log.iter().map(entry).collect();
            self.line(format_args!("bench {replica} {light} {}{entries}", record.slot));
        }
    }

    fn line(&mut self, line: std::fmt::Arguments) {
        writeln!(self.report, "{line}").expect("writing to memory");
    }
}

/// "each entry in decimal, `-` for empty."
fn entry(tag: &u64) -> String {
    match tag {
        0 => " -".to_string(),
        tag => format!(" {tag}"),
    }
}

/// "larger openings get refusal 2", also where the memories happen to be long enough.
fn is_larger(numbers: &Numbers, most: &Numbers) -> bool {
    numbers.n > most.n
        || numbers.slots > most.slots
        || numbers.phases > most.phases
        || numbers.room > most.room
}

/// "then a body whose length the kind fixes".
pub fn body_length(kind: u8) -> Option<usize> {
    match kind {
        0 | 8 => Some(7 + slot_bytes(kind)),
        1 | 2 => Some(9),
        3 | 5 | 6 | 7 => Some(1),
        4 | 9 => Some(4 + slot_bytes(kind)),
        _ => None,
    }
}

/// "A new opening, kind 8, and a new hear, kind 9, carry the slot count or slot in two bytes; kinds 0 and 4 are still read as
/// before."
fn slot_bytes(kind: u8) -> usize {
    if matches!(kind, 8 | 9) {
        2
    } else {
        1
    }
}

/// The record at a place before the end of the file, and the place after it.
pub(crate) fn read_record(file: &[u8], place: usize) -> Result<(Call, usize), Refusal> {
    let kind = file[place];
    let length = body_length(kind).ok_or(Refusal::UnknownKind)?;
    let body = file[place + 1..].get(..length).ok_or(Refusal::CutRecord)?;
    Ok((decode(kind, body), place + 1 + length))
}

/// The call of a whole record of a known kind: its numbers stand one behind the other.
fn decode(kind: u8, body: &[u8]) -> Call {
    let mut rest = body;
    let mut next = |bytes: usize| {
        let (number, behind) = rest.split_at(bytes);
        rest = behind;
        lowest_first(number)
    };
    let who = next(1) as usize;
    match kind {
        0 | 8 => {
            let [f, slots, phases, room, start] =
                [1, slot_bytes(kind), 1, 2, 2].map(|bytes| next(bytes) as usize);
            Call::Open { plan: Numbers { n: who, f, slots, phases, room }, start }
        }
        1 => Call::Submit { who, tag: next(8) },
        2 => Call::Relay { who, tag: next(8) },
        3 => Call::Begin { who },
        4 | 9 => {
            let [sender, sort, slot, phase] = [1, 1, slot_bytes(kind), 1].map(|bytes| next(bytes) as usize);
            Call::Hear { receiver: who, sender, sort, slot, phase }
        }
        5 => Call::Advance { who },
        6 => Call::Crash { who },
        _ => Call::RunOn { who },
    }
}

/// "longer numbers have the lowest byte first."
fn lowest_first(bytes: &[u8]) -> u64 {
    bytes.iter().rev().fold(0, |number, &byte| number << 8 | u64::from(byte))
}

/// Writes a call as a record, in the new form also where a slot does not fit the old one. Other numbers that do not fit their
/// bytes lose their high part.
pub fn write_record(file: &mut Vec<u8>, call: &Call, form: Form) {
    let kind = |old, new, slot: usize| if form == Form::Old && slot < 256 { old } else { new };
    let slot_field = |kind, slot: usize| (slot as u16).to_le_bytes().into_iter().take(slot_bytes(kind));
    match *call {
        Call::Open { plan, start } => {
            let kind = kind(0, 8, plan.slots);
            file.extend([kind, plan.n as u8, plan.f as u8]);
            file.extend(slot_field(kind, plan.slots));
            file.push(plan.phases as u8);
            file.extend((plan.room as u16).to_le_bytes());
            file.extend((start as u16).to_le_bytes());
        }
        Call::Submit { who, tag } => {
            file.extend([1, who as u8]);
            file.extend(tag.to_le_bytes());
        }
        Call::Relay { who, tag } => {
            file.extend([2, who as u8]);
            file.extend(tag.to_le_bytes());
        }
        Call::Begin { who } => file.extend([3, who as u8]),
        Call::Hear { receiver, sender, sort, slot, phase } => {
            let kind = kind(4, 9, slot);
            file.extend([kind, receiver as u8, sender as u8, sort as u8]);
            file.extend(slot_field(kind, slot));
            file.push(phase as u8);
        }
        Call::Advance { who } => file.extend([5, who as u8]),
        Call::Crash { who } => file.extend([6, who as u8]),
        Call::RunOn { who } => file.extend([7, who as u8]),
        Call::Conduct => unreachable!("no kind of record is a conductor's call"),
    }
}
