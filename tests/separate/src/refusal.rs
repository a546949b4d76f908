//! The refusals of document 01, in the order of its table, and behind them those of document 02.

/// "A refusal returns its number and changes nothing at all."
#[derive(Clone, Copy, Debug, PartialEq, Eq)]
pub enum Refusal {
    BadPlan = 1,
    ShortTable,
    SpoiledRecord,
    NoSuchBench,
    Dark,
    BlankTag,
    Held,
    TagRoomFull,
    UnknownTag,
    Busy,
    LogFull,
    NothingPending,
    Idle,
    TooFewHeard,
    PhasesUsedUp,
    NoSuchMessage,
    Unsent,
    Heard,
    UnknownKind,
    CutRecord,
    OutOfPlace,
    NotLevel,
    TooFewLit,
    OddLength,
}

impl Refusal {
    pub fn number(self) -> usize {
        self as usize
    }
}
