//! Why a call is turned away.

use std::error::Error;
use std::fmt;

/// The refusals of documents 01 and 02 with their numbers; `Display` gives the document's own word. 19, 20 and 21 occur in
/// step files only, 22, 23 and 24 in none.
#[derive(Clone, Copy, Debug, PartialEq, Eq, Hash)]
pub enum Refusal {
    BadPlan = 1,
    ShortTable = 2,
    SpoiledRecord = 3,
    NoSuchReplica = 4,
    Crashed = 5,
    BlankTag = 6,
    AlreadyHeld = 7,
    TagRoomFull = 8,
    UnknownTag = 9,
    Busy = 10,
    LogFull = 11,
    NothingPending = 12,
    NotBegun = 13,
    TooFewHeard = 14,
    PhasesUsedUp = 15,
    NoSuchMessage = 16,
    NotSent = 17,
    AlreadyHeard = 18,
    UnknownKind = 19,
    CutRecord = 20,
    OutOfPlace = 21,
    NotLevel = 22,
    TooFewRunning = 23,
    OddLength = 24,
}

/// By their numbers, from 1.
const WORDS: [(Refusal, &str); 24] = [
    (Refusal::BadPlan, "bad plan"),
    (Refusal::ShortTable, "short table"),
    (Refusal::SpoiledRecord, "spoiled record"),
    (Refusal::NoSuchReplica, "no such bench"),
    (Refusal::Crashed, "dark"),
    (Refusal::BlankTag, "blank tag"),
    (Refusal::AlreadyHeld, "held"),
    (Refusal::TagRoomFull, "tag room full"),
    (Refusal::UnknownTag, "unknown tag"),
    (Refusal::Busy, "busy"),
    (Refusal::LogFull, "log full"),
    (Refusal::NothingPending, "nothing pending"),
    (Refusal::NotBegun, "idle"),
    (Refusal::TooFewHeard, "too few heard"),
    (Refusal::PhasesUsedUp, "phases used up"),
    (Refusal::NoSuchMessage, "no such message"),
    (Refusal::NotSent, "unsent"),
    (Refusal::AlreadyHeard, "heard"),
    (Refusal::UnknownKind, "unknown kind"),
    (Refusal::CutRecord, "cut record"),
    (Refusal::OutOfPlace, "out of place"),
    (Refusal::NotLevel, "not level"),
    (Refusal::TooFewRunning, "too few lit"),
    (Refusal::OddLength, "odd length"),
];

impl Refusal {
    pub fn number(self) -> usize {
        self as usize
    }

    /// The document's word.
    pub fn word(self) -> &'static str {
        WORDS[self.number() - 1].1
    }

    /// The refusal of a number, if there is one.
    pub fn of_number(number: usize) -> Option<Refusal> {
        WORDS.get(number.checked_sub(1)?).map(|&(refusal, _)| refusal)
    }
}

impl fmt::Display for Refusal {
    fn fmt(&self, out: &mut fmt::Formatter) -> fmt::Result {
        out.write_str(self.word())
    }
}

impl Error for Refusal {}

/// What the library's answer means; it has no other numbers than those of the table.
pub(crate) fn accepted(answer: usize) -> Result<(), Refusal> {
    match answer {
        0 => Ok(()),
        number => Err(Refusal::of_number(number).expect("an answer of the documents' table")),
    }
}

#[cfg(test)]
mod tests {
    use super::*;

    #[test]
    fn words_stand_by_their_numbers() {
        for (place, &(refusal, word)) in WORDS.iter().enumerate() {
            assert_eq!(refusal.number(), place + 1);
            assert_eq!(Refusal::of_number(place + 1), Some(refusal));
            assert_eq!(refusal.to_string(), word);
        }
        assert_eq!((Refusal::of_number(0), Refusal::of_number(25)), (None, None));
    }
}
