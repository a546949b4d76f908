//! `sessions --program PATH [--seed N] [--runs K]`: K step files, given to the rehearsal program and to the library's
//! player. Every byte of output and every cell must be that of the separate implementation, and each refusal and
//! event must have occurred.

use separate::bands;
use separate::call::{Call, Done};
use separate::compare::{compare_play, first_line, Difference};
use separate::counts;
use separate::damage::{lent, DAMAGES};
use separate::generate::{
    broken_session, busy_session, left_behind_session, long_session, record_places, session, wild_session,
};
use separate::long_runs::{self, LARGE};
use separate::memories::Memories;
use separate::notices;
use separate::numbers::{Numbers, LARGEST};
use separate::options::{number, option};
use separate::phases;
use separate::random::Random;
use separate::refusal::Refusal;
use separate::step_file::{body_length, play_seen, report, REHEARSAL, REHEARSAL_BYTES};
use separate::tally::{Tally, EVENTS};
use separate::urgent;
use std::io::{self, Write};
use std::process::{Command, ExitCode, Output, Stdio};
use std::thread;

/// Holds any long run of three.
const LONG: Numbers = Numbers { n: 3, f: 1, phases: 16, ..LARGEST };

const FILES: [&str; 17] = [
    "file, empty",
    "file over 65,536 bytes",
    "file of a record that ends at byte 65,536",
    "file of a record that straddles byte 65,536",
    "file with a cut record",
    "file with a cut record of kind 8",
    "file with a cut record of kind 9",
    "file with an unknown kind",
    "file with kind 10",
    "file with both kinds of opening",
    "file with both kinds of hear",
    "played on short memories",
    "played on the largest memories",
    "played with a short buffer",
    "file without an opening first",
    "refused 2 for 17 phases alone",
    "played a long run",
];

fn main() -> ExitCode {
    let program = option("--program").expect("--program: the rehearsal program");
    let (seed, runs) = (number("--seed", 1), number("--runs", 2000));
    let mut tally = Tally::expecting(expected());
    for run_seed in seed..seed + runs {
        if let Err(difference) = compare_session(&program, run_seed, &mut tally) {
            println!("difference at --seed {run_seed} --runs 1: {difference}");
            return ExitCode::FAILURE;
        }
    }
    println!("{runs} sessions, no difference");
    tally.verdict()
}

/// A step file meets every refusal but 3: its opening leaves no record spoiled.
fn expected() -> impl Iterator<Item = String> {
    let refusals = (1..=21).filter(|&refusal| refusal != 3).map(|refusal| format!("refused {refusal}"));
    let events = EVENTS.into_iter().chain(notices::EVENTS).chain(phases::EVENTS).chain(urgent::EVENTS);
    let bands = bands::EVENTS.into_iter().chain(bands::EVENTS_OF_RECORDS).chain(bands::EVENTS_OF_REHEARSAL);
    refusals.chain(events.chain(bands).chain(counts::EVENTS).chain(FILES).map(str::to_string))
}

fn compare_session(program: &str, seed: u64, tally: &mut Tally) -> Result<(), Difference> {
    let mut random = Random::new(seed);
    let long = random.one_in(20);
    let file = if long { long_runs::session(&mut random) } else { draw_file(&mut random) };
    note_file(&file, tally);
    note_rehearsal(&file, tally);
    let ours = report(&file);
    let output = run(program, &file).map_err(|error| format!("{program}: {error}"))?;
    if output.status.code().is_none() {
        return Err(format!("{program}: {}", output.status));
    }
    if output.stdout != ours {
        return Err(format!("{program}\n{}", first_line(&ours, &output.stdout)));
    }
    if long {
        note_long(&file, tally);
        return compare_play(&LONG, &file, random.pick(&[100, 1 << 17]), lent(&mut random, &LONG));
    }
    compare_with_player(&mut random, &file, tally)
}

fn draw_file(random: &mut Random) -> Vec<u8> {
    let most = if random.one_in(16) { LARGE } else { REHEARSAL };
    match random.below(100) {
        0 => long_session(random, &most),
        1..18 => wild_session(random, &most),
        18..36 => broken_session(random, &most),
        36..46 => left_behind_session(random, &most),
        46..52 => busy_session(random, &most),
        _ => session(random, &most),
    }
}

/// The library's player on memories that fit the rehearsal, are the largest, or are short somewhere.
fn compare_with_player(random: &mut Random, file: &[u8], tally: &mut Tally) -> Result<(), Difference> {
    let (most, memories) = match random.below(32) {
        0 => {
            tally.note("played on the largest memories");
            (LARGEST, lent(random, &LARGEST))
        }
        1..7 => {
            tally.note("played on short memories");
            (REHEARSAL, short(random, &REHEARSAL))
        }
        _ => (REHEARSAL, lent(random, &REHEARSAL)),
    };
    let length = report(file).len();
    let room = match random.below(8) {
        0 => {
            tally.note("played with a short buffer");
            random.below(length + 1)
        }
        1 => length,
        _ => 2 * length + 4000,
    };
    compare_play(&most, file, room, memories)
}

/// Memories of which one is shorter than the largest run that is let in needs; smaller runs may still fit.
fn short(random: &mut Random, most: &Numbers) -> Memories {
    let mut memories = lent(random, most);
    let shortenings: Vec<_> = DAMAGES.iter().filter(|(name, _)| name.starts_with("short ")).collect();
    let (_, shorten) = random.pick(&shortenings);
    shorten(random, most, &mut memories);
    memories
}

fn note_file(file: &[u8], tally: &mut Tally) {
    let places = record_places(file);
    let straddles = places.windows(2).any(|pair| pair[0] < REHEARSAL_BYTES && REHEARSAL_BYTES < pair[1]);
    let end = *places.last().unwrap_or(&0);
    let has = |kind| places.iter().any(|&place| place < end && file[place] == kind);
    let rest = file.get(end).copied();
    let cut = rest.filter(|&kind| body_length(kind).is_some());
    let facts = [
        ("file, empty", file.is_empty()),
        ("file over 65,536 bytes", file.len() > REHEARSAL_BYTES),
        ("file of a record that ends at byte 65,536", places.contains(&REHEARSAL_BYTES)),
        ("file of a record that straddles byte 65,536", straddles),
        ("file with a cut record", cut.is_some()),
        ("file with a cut record of kind 8", cut == Some(8)),
        ("file with a cut record of kind 9", cut == Some(9)),
        ("file with an unknown kind", rest.is_some() && cut.is_none()),
        ("file with kind 10", rest == Some(10)),
        ("file with both kinds of opening", has(0) && has(8)),
        ("file with both kinds of hear", has(4) && has(9)),
        ("file without an opening first", !file.is_empty() && !matches!(file[0], 0 | 8)),
    ];
    for (fact, _) in facts.into_iter().filter(|(_, holds)| *holds) {
        tally.note(fact);
    }
}

/// Counts the refusals by the report's lines and the events by the records.
fn note_rehearsal(file: &[u8], tally: &mut Tally) {
    let taken = &file[..file.len().min(REHEARSAL_BYTES)];
    let note = |kind, call: &_, numbers: &_, result: &_, memories: &_| {
        tally.note_events(call, numbers, result, memories);
        bands::met_in_rehearsal(kind, call, result).into_iter().for_each(|event| tally.note(event));
        if is_refused_for_phases(call, result) {
            tally.note("refused 2 for 17 phases alone");
        }
    };
    let played = play_seen(&REHEARSAL, taken, &mut Memories::of_run(&REHEARSAL), note);
    let text = String::from_utf8_lossy(&played.report).into_owned();
    for refusal in text.lines().filter_map(|line| line.strip_prefix("refused ")?.split(' ').nth(1)) {
        tally.note(&format!("refused {refusal}"));
    }
}

/// Counts the events of a long run, which the rehearsal program's tables do not hold.
fn note_long(file: &[u8], tally: &mut Tally) {
    tally.note("played a long run");
    let note = |kind, call: &_, numbers: &_, result: &_, memories: &_| {
        tally.note_events(call, numbers, result, memories);
        bands::met_by_record(kind, call, numbers, result).into_iter().for_each(|event| tally.note(event));
    };
    play_seen(&LONG, file, &mut Memories::of_run(&LONG), note);
}

/// By the rehearsal program's tables, which hold everything else of the plan.
fn is_refused_for_phases(call: &Call, result: &Result<Done, Refusal>) -> bool {
    let Call::Open { plan, .. } = *call else { return false };
    let held = plan.n <= REHEARSAL.n && plan.slots <= REHEARSAL.slots && plan.room <= REHEARSAL.room;
    held && plan.phases == 17 && *result == Err(Refusal::ShortTable)
}

fn run(program: &str, input: &[u8]) -> io::Result<Output> {
    let mut child = Command::new(program).stdin(Stdio::piped()).stdout(Stdio::piped()).spawn()?;
    let stdin = child.stdin.take();
    thread::scope(|scope| {
        // The program need not read to the end, so a broken pipe is no fault.
        scope.spawn(move || stdin.map(|mut stdin| stdin.write_all(input)));
        child.wait_with_output()
    })
}
