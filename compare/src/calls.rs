//! The calls, what they answer, and the refusals with their numbers.

/// A call as a record of a tape holds it. Whether the numbers mean anything is for the catalogue to say.
#[derive(Clone, Copy, PartialEq, Eq, Debug)]
pub enum Call<'tape> {
    Make { nodes: u8, placement: &'tape [u8] },
    Begin { kind: Kind },
    Read { transaction: u8, key: u8, node: u8 },
    Write { transaction: u8, key: u8, value: u64 },
    Offer { transaction: u8 },
    Prepare { transaction: u8, node: u8 },
    Decide { transaction: u8 },
    Cancel { transaction: u8 },
    Learn { transaction: u8, node: u8 },
    Apply { node: u8 },
    Finish { transaction: u8 },
}

#[derive(Clone, Copy, PartialEq, Eq, Debug)]
pub enum Kind {
    Search,
    Update,
}

#[derive(Clone, Copy, PartialEq, Eq, Debug)]
pub enum Answer {
    Done,
    Begun(u8),
    Value { value: u64, writer: u8 },
    Polls(u32),
    Yes(u32),
    NoOvertaken(u8),
    NoPlace(u8),
    Commit(u32),
    Abort,
    Applied(u8),
}

/// The refusals that a run of a tape can answer. Number 9 belongs to the writer of tapes alone.
#[derive(Clone, Copy, PartialEq, Eq, Debug)]
#[repr(u8)]
pub enum Refusal {
    MakeOutOfBounds = 1,
    NoSuchTransaction = 2,
    NoSuchNode = 3,
    NoSuchKey = 4,
    KeyNotHeld = 5,
    UnreadableTape = 6,
    BadRecord = 7,
    MakeOutOfOrder = 8,
    NumbersUsedUp = 10,
    WrongState = 11,
    NotYet = 12,
    Overtaken = 13,
    TooManyKeysRead = 14,
    TooManyKeysWritten = 15,
    NotPolled = 16,
    AlreadyDone = 17,
    Busy = 18,
    VotesOutstanding = 19,
    NothingToApply = 20,
    NotLearned = 21,
}

pub type Reply = Result<Answer, Refusal>;
