//! The archive's two calls, made of both implementations on equal cells.

use crate::archive::{self, PLANES};
use crate::compare::{first_cell, Difference};
use crate::framed::Framed;
use crate::library;
use crate::logs::Cell;
use crate::planes::{self, Asked, Event};
use crate::refusal::Refusal;

/// One of the two calls.
pub struct Way<In, Out> {
    pub name: &'static str,
    /// Which answers it can give; 0 is accepted.
    pub answers: &'static [usize],
    pub events: &'static [Event],
    /// The cells of output that it needs for so many of input.
    pub needed: fn(usize) -> usize,
    ours: fn(&[In], &mut [Out]) -> Result<(), Refusal>,
    theirs: fn(&[In], &mut [Out]) -> usize,
}

pub static TO_PLANES: Way<u64, u8> = Way {
    name: "to planes",
    answers: &[0, 1, 2],
    events: &planes::TO_PLANES,
    needed: |entries| PLANES * entries,
    ours: archive::to_planes,
    theirs: library::to_planes,
};

pub static TO_ENTRIES: Way<u8, u64> = Way {
    name: "to entries",
    answers: &[0, 1, 2, 24],
    events: &planes::TO_ENTRIES,
    needed: |stored| stored / PLANES,
    ours: archive::to_entries,
    theirs: library::to_entries,
};

impl<In: Cell, Out: Cell> Way<In, Out> {
    /// Makes the call of both. The library's answer and every cell of its output must be ours, which are left in the output,
    /// and its input must be as it was.
    pub fn compare(&self, input: &Framed<In>, output: &mut Framed<Out>) -> Result<Asked, Difference> {
        let (lent, mut theirs) = (input.clone(), output.clone());
        let result = (self.ours)(input.cells(), output.cells_mut());
        let answer = (self.theirs)(lent.cells(), theirs.cells_mut());
        let (cells, room) = (input.cells().len(), output.cells().len());
        let ours = result.map_or_else(Refusal::number, |()| 0);
        let asked = Asked { cells, room, needed: (self.needed)(cells), answer: ours };
        let shown = format_args!("{} with {cells} cells and room for {room}", self.name);
        if ours != answer {
            return Err(format!("{shown}: ours {result:?}, library's {answer}"));
        }
        if *output == theirs && *input == lent {
            return Ok(asked);
        }
        let cell = first_cell("output's memory", &output.memory, &theirs.memory)
            .or_else(|| first_cell("input's memory", &input.memory, &lent.memory));
        let fronts = format_args!("input from cell {}, output from cell {}", input.front(), output.front());
        Err(format!("{shown}, answer {answer}, {fronts}\n{}", cell.unwrap_or_default()))
    }

    /// Of an accepted call: "Doing both, from either side, returns the start.", here into `returned`. "the stored bytes are
    /// the log's own, each as often, reordered."
    pub fn compare_back(
        &self,
        back: &Way<Out, In>,
        input: &Framed<In>,
        output: &Framed<Out>,
        mut returned: Framed<In>,
    ) -> Result<(), Difference> {
        let result = output.first((self.needed)(input.cells().len()));
        let Asked { answer, .. } = back.compare(&result, &mut returned)?;
        if answer != 0 || !returned.cells().starts_with(input.cells()) {
            return Err(format!("{}, then {}: answer {answer}, not the start", self.name, back.name));
        }
        if counts(&In::bytes(input.cells())) != counts(&Out::bytes(result.cells())) {
            return Err(format!("{}: other bytes than before", self.name));
        }
        Ok(())
    }
}

/// How often each byte stands there.
fn counts(bytes: &[u8]) -> [usize; 256] {
    let mut counts = [0; 256];
    bytes.iter().for_each(|&byte| counts[usize::from(byte)] += 1);
    counts
}

/// Stores the log of a run and reads it back, with room to spare.
pub fn compare_log(log: &[u64]) -> Result<(), Difference> {
    let entries = Framed::within(log.to_vec(), 0, 0);
    let mut stored = Framed::within(vec![0xa5; PLANES * log.len() + 5], 1, 1);
    TO_PLANES.compare(&entries, &mut stored)?;
    let returned = Framed::within(vec![u64::MAX; log.len() + 2], 0, 1);
    TO_PLANES.compare_back(&TO_ENTRIES, &entries, &stored, returned)
}
