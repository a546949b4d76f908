//! One call or one step file, made of both implementations on equal memories.

use crate::call::{Answer, Call, Done};
use crate::coin;
use crate::library;
use crate::memories::Memories;
use crate::numbers::Numbers;
use crate::refusal::Refusal;
use crate::step_file::{self, Played};
use std::fmt::Debug;

/// What differed, in words.
pub type Difference = String;

/// The memories of both; equal before and after each call, or there is a difference.
pub struct Pair {
    pub ours: Memories,
    pub theirs: Memories,
}

impl Pair {
    pub fn of(memories: Memories) -> Pair {
        Pair { theirs: memories.clone(), ours: memories }
    }

    /// Makes one call of both and compares the answers and every cell.
    pub fn call(&mut self, call: &Call, numbers: &Numbers) -> Result<Result<Done, Refusal>, Difference> {
        let result = call.make(numbers, &mut self.ours);
        let ours = Answer::from(&result);
        let theirs = library::make(call, numbers, &mut self.theirs);
        let shown = format_args!("{call:?} of {numbers:?}");
        if ours != theirs {
            return Err(format!("{shown}\nours {ours:?}\nlibrary's {theirs:?}"));
        }
        if self.ours != self.theirs {
            return Err(format!("{shown}, answer {ours:?}\n{}", first_difference(&self.ours, &self.theirs)));
        }
        Ok(result)
    }
}

/// Fills a strip with both on equal cells: the library's answer and every cell must be ours, which are left in it.
pub fn compare_strip(
    slots: usize,
    phases: usize,
    start: usize,
    strip: &mut [u8],
) -> Result<Result<(), Refusal>, Difference> {
    let mut theirs = strip.to_vec();
    let result = coin::fill_strip(slots, phases, start, strip);
    let refusal = library::fill_strip(slots, phases, start, &mut theirs);
    let shown = format_args!("strip of {slots} slots, {phases} phases from {start}");
    if result.map_or_else(Refusal::number, |()| 0) != refusal {
        return Err(format!("{shown}: ours {result:?}, library's {refusal}"));
    }
    first_cell("strip", strip, &theirs)
        .map_or(Ok(result), |cell| Err(format!("{shown}, answer {refusal}\n{cell}")))
}

/// Plays a step file with both on equal memories: the library's answer, report and every cell must be ours. The
/// library's buffer is `room` bytes long; it cuts a longer report there and leaves the rest of the buffer alone.
pub fn compare_play(most: &Numbers, file: &[u8], room: usize, lent: Memories) -> Result<(), Difference> {
    const UNTOUCHED: u8 = 0xa5;
    let mut pair = Pair::of(lent);
    let Played { opened, mut report } = step_file::play(most, file, &mut pair.ours);
    let mut buffer = vec![UNTOUCHED; room];
    let theirs = library::play(most, file, &mut buffer, &mut pair.theirs);
    report.truncate(room);
    let ours = library::Played {
        written: report.len(),
        opened: usize::from(opened.is_some()),
        numbers: opened.unwrap_or_default(),
    };
    if ours != theirs {
        return Err(format!("play\nours {ours:?}\nlibrary's {theirs:?}"));
    }
    report.resize(room, UNTOUCHED);
    if report != buffer {
        return Err(format!("play\n{}", first_line(&report, &buffer)));
    }
    if pair.ours != pair.theirs {
        return Err(format!("play\n{}", first_difference(&pair.ours, &pair.theirs)));
    }
    Ok(())
}

/// The first line in which two reports differ.
pub fn first_line(ours: &[u8], theirs: &[u8]) -> Difference {
    let lines =
        |report: &[u8]| String::from_utf8_lossy(report).lines().map(str::to_string).collect::<Vec<_>>();
    let (ours, theirs) = (lines(ours), lines(theirs));
    let line =
        (0..).find(|&line| ours.get(line) != theirs.get(line) || line >= ours.len()).unwrap_or_default();
    format!("line {}\nours {:?}\nlibrary's {:?}", line + 1, ours.get(line), theirs.get(line))
}

fn first_difference(ours: &Memories, theirs: &Memories) -> Difference {
    first_cell("words", &ours.words, &theirs.words)
        .or_else(|| first_cell("orders", &ours.orders, &theirs.orders))
        .or_else(|| first_cell("ballots", &ours.ballots, &theirs.ballots))
        .or_else(|| first_cell("strip", &ours.strip, &theirs.strip))
        .unwrap_or_default()
}

/// The first cell in which two memories of equal length differ.
pub fn first_cell<T: PartialEq + Debug>(memory: &str, ours: &[T], theirs: &[T]) -> Option<Difference> {
    let place = ours.iter().zip(theirs).position(|(one, other)| one != other)?;
    Some(format!("{memory}, cell {place}\nours {:?}\nlibrary's {:?}", ours[place], theirs[place]))
}
