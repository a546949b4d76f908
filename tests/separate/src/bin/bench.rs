//! `bench [--quick]`: nanoseconds and steps per second of each call of the library beside the separate
//! implementation, how the library's grow, those of the longest run and those of the archive, as four Markdown tables.
//! `--quick` takes a tenth of the samples.
//! `bench --callgrind CALL N`: the library's call many times in a rack of N replicas, or of the archive with N entries, to
//! count instructions.

use separate::archive::MOST_ENTRIES;
use separate::batch::{clock, Batch, Side};
use separate::cases::{Case, Kind, ARCHIVE_KINDS, KINDS, LONG_KINDS};
use separate::numbers::{Numbers, MOST_ROOM, MOST_SLOTS, USUAL_PHASES};
use separate::script::Fill;
use std::env;
use std::process::ExitCode;

const SAMPLES: usize = 4000;
const RACKS: [usize; 3] = [3, 5, 15];
const HALF: Fill = Fill { known: 128, closed: 32 };
const NEARLY_EMPTY: Fill = Fill { known: 1, closed: 0 };
/// Of the step file that is played.
const PLAYED: Fill = Fill { known: 16, closed: 8 };
/// All but one of the slots of the longest run are closed, and all its tags known, or all but the one that is submitted.
const FULL: Fill = Fill { known: 1024, closed: 1023 };
const BUT_ONE: Fill = Fill { known: 1023, closed: 1023 };
const PLAYED_LONG: Fill = Fill { known: 8, closed: 1024 };
/// How a begin of the longest run grows, beside `FULL`.
const GROWN: [Fill; 3] =
    [Fill { known: 64, closed: 63 }, Fill { known: 256, closed: 255 }, Fill { known: 1024, closed: 0 }];
/// The entries of logs for the archive.
const ARCHIVED: [usize; 3] = [16, 64, MOST_ENTRIES];
/// What is said of a call of both sides.
const COLUMNS: &str =
    "library, ns | separate, ns | library, million/s | separate, million/s | ratio | 10 % to 90 %";
/// Calls that take long by themselves.
const SLOW: [&str; 7] = [
    "play",
    "play-full",
    "play-long",
    "begin-in-order",
    "begin-shuffled",
    "conduct-in-order",
    "conduct-shuffled",
];
/// The calls whose cost depends on the known tags and closed slots.
const BY_FILL: [&str; 6] = ["submit-new", "submit-known", "relay", "begin", "conduct", "conduct-steps"];
/// The rack in which known tags and slots grow.
const GROWING: usize = 5;

/// The run and the fill of one case.
type Point = (Numbers, Fill);

/// A call's cost as one number grows.
struct Series {
    name: &'static str,
    growing: &'static str,
    values: &'static [usize],
    point: fn(usize) -> Point,
}

const fn grow(
    name: &'static str,
    growing: &'static str,
    values: &'static [usize],
    point: fn(usize) -> Point,
) -> Series {
    Series { name, growing, values, point }
}

/// A submit of a new tag needs a room that is not full.
static SERIES: [Series; 31] = [
    grow("hear-proposal", "slots", &[1, 8, 64], last_slot),
    grow("hear-state", "slots", &[1, 8, 64], last_slot),
    grow("hear-vote", "slots", &[1, 8, 64], last_slot),
    grow("hear-notice", "slots", &[1, 8, 64], last_slot),
    grow("hear-proposal", "known tags", &[1, 64, 256], known),
    grow("hear-state", "known tags", &[1, 64, 256], known),
    grow("hear-vote", "known tags", &[1, 64, 256], known),
    grow("hear-notice", "known tags", &[1, 64, 256], known),
    grow("hear-vote", "n", &[3, 5, 9, 15], rack),
    grow("hear-notice", "n", &[3, 5, 9, 15], rack),
    grow("submit-blank", "n", &[3, 5, 9, 15], rack),
    grow("submit-new", "known tags", &[16, 64, 255], known),
    grow("submit-known", "known tags", &[16, 64, 256], known),
    grow("relay", "known tags", &[16, 64, 256], known),
    grow("begin", "n", &[3, 5, 9, 15], rack),
    grow("begin", "known tags", &[16, 64, 256], known),
    grow("begin", "closed slots (64 known tags)", &[0, 16, 63], closed_of_64),
    grow("begin", "closed slots (256 known tags)", &[0, 16, 63], closed_of_256),
    grow("exchange", "n", &[3, 5, 9, 15], rack),
    grow("exchange-apart", "n", &[3, 5, 9, 15], rack),
    grow("state", "n", &[3, 5, 9, 15], rack),
    grow("vote-close", "n", &[3, 5, 9, 15], rack),
    grow("vote-coin", "n", &[3, 5, 9, 15], rack),
    grow("find", "n", &[3, 5, 9, 15], rack),
    grow("notice-idle", "n", &[3, 5, 9, 15], rack),
    grow("notice-state", "n", &[3, 5, 9, 15], rack),
    grow("run-on", "n", &[3, 5, 9, 15], rack),
    grow("conduct", "n", &[3, 5, 9, 15], rack),
    grow("conduct-steps", "n", &[3, 5, 9, 15], rack),
    grow("conduct", "known tags", &[16, 64, 256], known),
    grow("play", "closed slots (64 known tags)", &[1, 8, 64], closed_of_64),
];

fn rack(n: usize) -> Point {
    (numbers(n, 64), HALF)
}

/// A message of the last slot of a run.
fn last_slot(slots: usize) -> Point {
    (numbers(GROWING, slots), Fill { known: 64, closed: slots - 1 })
}

fn known(known: usize) -> Point {
    (numbers(GROWING, 64), Fill { known, closed: 0 })
}

fn closed_of_64(closed: usize) -> Point {
    (numbers(GROWING, 64), Fill { known: 64, closed })
}

fn closed_of_256(closed: usize) -> Point {
    (numbers(GROWING, 64), Fill { known: 256, closed })
}

fn main() -> ExitCode {
    let arguments: Vec<String> = env::args().skip(1).collect();
    let arguments: Vec<&str> = arguments.iter().map(String::as_str).collect();
    let done = match arguments[..] {
        [] => print_tables(SAMPLES),
        ["--quick"] => print_tables(SAMPLES / 10),
        ["--callgrind", name, n] => repeat(name, n),
        _ => Err("bench [--quick | --callgrind CALL N]".to_string()),
    };
    match done {
        Ok(()) => ExitCode::SUCCESS,
        Err(message) => {
            eprintln!("{message}");
            ExitCode::FAILURE
        }
    }
}

fn numbers(n: usize, slots: usize) -> Numbers {
    Numbers { n, f: (n - 1) / 2, slots, phases: USUAL_PHASES, room: 256 }
}

fn longest(n: usize) -> Numbers {
    Numbers { room: MOST_ROOM, ..numbers(n, MOST_SLOTS) }
}

/// Where a call is measured in a rack of n, if not said otherwise; one of the archive with n entries.
fn usual_point(kind: &Kind, n: usize) -> Point {
    match kind.name {
        "play" => (numbers(n, 64), PLAYED),
        "play-long" => (longest(n), PLAYED_LONG),
        "submit-last" => (longest(n), BUT_ONE),
        name if LONG_KINDS.iter().any(|long| long.name == name) => (longest(n), FULL),
        _ if is_archive(kind) => (numbers(GROWING, n), Fill { known: n, closed: n }),
        _ => rack(n),
    }
}

fn is_archive(kind: &Kind) -> bool {
    ARCHIVE_KINDS.iter().any(|other| other.name == kind.name)
}

fn case(kind: &Kind, (numbers, fill): Point) -> Case {
    kind.case(&numbers, fill)
}

fn named(name: &str) -> Result<&'static Kind, String> {
    Kind::named(name).ok_or_else(|| {
        let names: Vec<&str> = Kind::all().map(|kind| kind.name).collect();
        format!("{name} is none of {}", names.join(", "))
    })
}

/// All is checked before anything is measured or printed.
fn print_tables(samples: usize) -> Result<(), String> {
    let (beside, longest, archive) = (cases_beside(), cases_longest(), cases_archive());
    for &(kind, point) in beside.iter().chain(&cases_growing()?).chain(&longest).chain(&archive) {
        let case = case(kind, point);
        case.check().map_err(|difference| format!("{}: {difference}", case.name))?;
    }
    print_beside(beside, samples)?;
    println!("\n| call | n | growing | values | library, ns | last / first |");
    println!("|---|---:|---|---|---|---:|");
    for series in &SERIES {
        println!("{}", row_growing(series, samples)?);
    }
    println!("\nThe longest run:\n");
    print_beside(longest, samples)?;
    println!("\nLogs for the archive:\n");
    print_archive(archive, samples)
}

fn print_beside(cases: Vec<(&Kind, Point)>, samples: usize) -> Result<(), String> {
    println!("| call | known tags, closed slots | n | {COLUMNS} |");
    println!("|---|---:|---:|---:|---:|---:|---:|---:|---:|");
    for (kind, point) in cases {
        let (Numbers { n, .. }, Fill { known, closed }) = point;
        println!("| {} | {known}, {closed} | {n} | {} |", kind.words, beside(kind, point, samples)?);
    }
    Ok(())
}

fn print_archive(cases: Vec<(&Kind, Point)>, samples: usize) -> Result<(), String> {
    println!("| call | entries | {COLUMNS} |");
    println!("|---|---:|---:|---:|---:|---:|---:|---:|");
    for (kind, point) in cases {
        let (_, Fill { closed, .. }) = point;
        println!("| {} | {closed} | {} |", kind.words, beside(kind, point, samples)?);
    }
    Ok(())
}

fn cases_beside() -> Vec<(&'static Kind, Point)> {
    let mut cases = Vec::new();
    for kind in &KINDS {
        if BY_FILL.contains(&kind.name) {
            cases.extend(RACKS.map(|n| (kind, (numbers(n, 64), NEARLY_EMPTY))));
        }
        cases.extend(RACKS.map(|n| (kind, usual_point(kind, n))));
    }
    cases
}

/// A play's file is of three replicas, whatever the rack.
fn cases_longest() -> Vec<(&'static Kind, Point)> {
    let mut cases = Vec::new();
    for kind in &LONG_KINDS {
        if kind.name.starts_with("begin") {
            cases.extend(GROWN.map(|fill| (kind, (longest(GROWING), fill))));
        }
        let racks = if kind.name.starts_with("play") { &RACKS[..1] } else { &RACKS[..] };
        cases.extend(racks.iter().map(|&n| (kind, usual_point(kind, n))));
    }
    cases
}

fn cases_archive() -> Vec<(&'static Kind, Point)> {
    ARCHIVE_KINDS.iter().flat_map(|kind| ARCHIVED.map(|entries| (kind, usual_point(kind, entries)))).collect()
}

fn cases_growing() -> Result<Vec<(&'static Kind, Point)>, String> {
    let mut cases = Vec::new();
    for Series { name, values, point, .. } in &SERIES {
        let kind = named(name)?;
        cases.extend(values.iter().map(|&value| (kind, point(value))));
    }
    Ok(cases)
}

/// The `COLUMNS` of a case.
fn beside(kind: &Kind, point: Point, samples: usize) -> Result<String, String> {
    let mut batches = [Batch::of(case(kind, point))];
    let measured = interleave(&mut batches, &[Side::Library, Side::Separate], samples_of(kind, samples))?;
    let [library, separate] = [&measured[0], &measured[1]];
    let ratios: Vec<f64> =
        library.iter().zip(separate).map(|(library, separate)| library / separate).collect();
    let [library, separate] = [library, separate].map(|times| percentile(times, 50));
    Ok(format!(
        "{} | {} | {} | {} | {:.2} | {:.2} to {:.2}",
        rounded(library),
        rounded(separate),
        millions(library),
        millions(separate),
        percentile(&ratios, 50),
        percentile(&ratios, 10),
        percentile(&ratios, 90),
    ))
}

fn row_growing(series: &Series, samples: usize) -> Result<String, String> {
    let kind = named(series.name)?;
    let batch = |&value: &usize| Batch::of(case(kind, (series.point)(value)));
    let mut batches: Vec<Batch> = series.values.iter().map(batch).collect();
    let measured = interleave(&mut batches, &[Side::Library], samples_of(kind, samples))?;
    let medians: Vec<f64> = measured.iter().map(|samples| percentile(samples, 50)).collect();
    let rack = if series.growing == "n" { String::new() } else { GROWING.to_string() };
    Ok(format!(
        "| {} | {rack} | {} | {} | {} | {:.2} |",
        kind.words,
        series.growing,
        listed(series.values.iter().map(usize::to_string)),
        listed(medians.iter().copied().map(rounded)),
        medians[medians.len() - 1] / medians[0],
    ))
}

fn samples_of(kind: &Kind, samples: usize) -> usize {
    match kind.name {
        "play-full" => samples / 100,
        name if SLOW.contains(&name) => samples / 20,
        _ => samples,
    }
}

/// Nanoseconds by batch and side, all in turn in each sample, so that a busy moment of the machine meets all alike.
fn interleave(batches: &mut [Batch], sides: &[Side], samples: usize) -> Result<Vec<Vec<f64>>, String> {
    let mut measured = vec![Vec::with_capacity(samples); batches.len() * sides.len()];
    let (warming, clock) = (samples / 10, clock());
    for sample in 0..warming + samples {
        for (batch, measured) in batches.iter_mut().zip(measured.chunks_mut(sides.len())) {
            for (&side, times) in sides.iter().zip(measured) {
                let time = batch.measure(side, clock);
                if sample >= warming {
                    times.push(time);
                }
            }
        }
    }
    match batches.iter().find(|batch| !batch.is_restored()) {
        Some(batch) => Err(format!("{}: not restored", batch.name())),
        None => Ok(measured),
    }
}

fn percentile(samples: &[f64], percent: usize) -> f64 {
    let mut sorted = samples.to_vec();
    sorted.sort_by(f64::total_cmp);
    sorted[(sorted.len() - 1) * percent / 100]
}

fn rounded(nanoseconds: f64) -> String {
    if nanoseconds < 100.0 {
        format!("{nanoseconds:.1}")
    } else {
        format!("{nanoseconds:.0}")
    }
}

/// Millions of calls in a second.
fn millions(nanoseconds: f64) -> String {
    let millions = 1000.0 / nanoseconds;
    match millions {
        ..0.001 => format!("{millions:.6}"),
        ..1.0 => format!("{millions:.3}"),
        _ => format!("{millions:.1}"),
    }
}

fn listed(values: impl Iterator<Item = String>) -> String {
    values.collect::<Vec<_>>().join(", ")
}

/// Under callgrind: `valgrind --tool=callgrind --toggle-collect='rushhopper_*'` counts the library alone.
fn repeat(name: &str, n: &str) -> Result<(), String> {
    let kind = named(name)?;
    let n: usize = n.parse().map_err(|_| format!("{n} is no number"))?;
    let (within, wanted) = if is_archive(kind) {
        (1..=MOST_ENTRIES, "the archive wants 1 to 1,024 entries")
    } else {
        (3..=15, "the scripts want 3 to 15 replicas")
    };
    if !within.contains(&n) {
        return Err(wanted.to_string());
    }
    let mut batch = Batch::of(case(kind, usual_point(kind, n)));
    let rounds = if SLOW.contains(&kind.name) { 10 } else { 100 };
    let calls: usize = (0..rounds).map(|_| batch.repeat(Side::Library)).sum();
    println!("{calls} calls");
    Ok(())
}
