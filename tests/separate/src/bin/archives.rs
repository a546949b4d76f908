//! `archives [--seed N] [--runs K]`: K calls of the archive of the library beside the separate implementation, and after
//! each accepted one the call that undoes it. Answers and every cell must be equal after each, and each refusal of each
//! call and each event must have occurred.

use separate::archive::{MOST_ENTRIES, MOST_STORED, PLANES};
use separate::archived::{Way, TO_ENTRIES, TO_PLANES};
use separate::compare::Difference;
use separate::framed::Framed;
use separate::library;
use separate::logs::{framed, room, Cell};
use separate::options::number;
use separate::planes::{Asked, LOGS};
use separate::random::Random;
use separate::tally::{answer_name, Tally};
use std::process::ExitCode;

fn main() -> ExitCode {
    let (seed, runs) = (number("--seed", 1), number("--runs", 1_000_000));
    let mut tally = Tally::expecting(expected());
    if let Err(difference) = compare_fixed() {
        println!("difference: {difference}");
        return ExitCode::FAILURE;
    }
    for run_seed in seed..seed + runs {
        if let Err(difference) = compare_drawn(&mut Random::new(run_seed), &mut tally) {
            println!("difference at --seed {run_seed} --runs 1: {difference}");
            return ExitCode::FAILURE;
        }
    }
    println!("{runs} calls, no difference");
    tally.verdict()
}

fn expected() -> impl Iterator<Item = String> {
    let logs = LOGS.iter().map(|(event, _)| event.to_string());
    expected_of(&TO_PLANES).chain(expected_of(&TO_ENTRIES)).chain(logs)
}

fn expected_of<In, Out>(way: &Way<In, Out>) -> impl Iterator<Item = String> {
    let (name, events) = (way.name, way.events.iter().map(|(event, _)| event.to_string()));
    way.answers.iter().map(move |&answer| answer_name(name, answer)).chain(events)
}

/// Whatever the seed: a log written out by hand; every length, with an output that is too short, one that is just long
/// enough and a longer one.
fn compare_fixed() -> Result<(), Difference> {
    compare_example()?;
    let mut random = Random::new(0);
    for entries in 0..=MOST_ENTRIES + 1 {
        compare_length(&mut random, &TO_PLANES, &TO_ENTRIES, entries)?;
    }
    for stored in 0..=MOST_STORED + PLANES {
        compare_length(&mut random, &TO_ENTRIES, &TO_PLANES, stored)?;
    }
    Ok(())
}

/// "the highest byte of every entry first, then the next, to the eighth.", asked of the library.
fn compare_example() -> Result<(), Difference> {
    let log = [0x0102_0304_0506_0708, 0x1112_1314_1516_1718, 1 << 63];
    let planes =
        [[1, 17, 128], [2, 18, 0], [3, 19, 0], [4, 20, 0], [5, 21, 0], [6, 22, 0], [7, 23, 0], [8, 24, 0]];
    let (planes, mut stored, mut entries) = (planes.concat(), [9; 25], [9; 4]);
    let answers = [library::to_planes(&log, &mut stored), library::to_entries(&planes, &mut entries)];
    let right = (&stored[..24], stored[24], &entries[..3], entries[3]) == (&planes[..], 9, &log[..], 9);
    let shown = format!("three entries: {answers:?}, {stored:?}, {entries:x?}");
    (answers == [0, 0] && right).then_some(()).ok_or(shown)
}

fn compare_length<In: Cell, Out: Cell>(
    random: &mut Random,
    way: &Way<In, Out>,
    back: &Way<Out, In>,
    cells: usize,
) -> Result<(), Difference> {
    let needed = (way.needed)(cells);
    for room in [needed.saturating_sub(1), needed, needed + random.between(1, 9)] {
        let input = framed(random, cells, In::any);
        compare_call(random, way, back, &input, room)?;
    }
    Ok(())
}

/// One of the two calls, counted.
fn compare_drawn(random: &mut Random, tally: &mut Tally) -> Result<(), Difference> {
    if random.one_in(2) {
        compare_way(random, &TO_ENTRIES, &TO_PLANES, tally)?;
        return Ok(());
    }
    let (entries, asked) = compare_way(random, &TO_PLANES, &TO_ENTRIES, tally)?;
    for (event, is_met) in &LOGS {
        if asked.answer == 0 && is_met(entries.cells()) {
            tally.note(event);
        }
    }
    Ok(())
}

fn compare_way<In: Cell, Out: Cell>(
    random: &mut Random,
    way: &Way<In, Out>,
    back: &Way<Out, In>,
    tally: &mut Tally,
) -> Result<(Framed<In>, Asked), Difference> {
    let cells = In::length(random);
    let room = room::<Out>(random, cells, (way.needed)(cells));
    let input = framed(random, cells, In::likely);
    let asked = compare_call(random, way, back, &input, room)?;
    tally.note(&answer_name(way.name, asked.answer));
    for (event, is_met) in way.events {
        if is_met(&asked) {
            tally.note(event);
        }
    }
    Ok((input, asked))
}

/// A call that is lent so much room; where it is accepted, also the other one on its result.
fn compare_call<In: Cell, Out: Cell>(
    random: &mut Random,
    way: &Way<In, Out>,
    back: &Way<Out, In>,
    input: &Framed<In>,
    room: usize,
) -> Result<Asked, Difference> {
    let mut output = framed(random, room, Out::any);
    let asked = way.compare(input, &mut output)?;
    if asked.answer == 0 {
        let longer = random.pick(&[0, 0, 1, 20]);
        let returned = framed(random, asked.cells + longer, In::any);
        way.compare_back(back, input, &output, returned)?;
    }
    Ok(asked)
}
