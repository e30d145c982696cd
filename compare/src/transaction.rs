//! What is kept of a transaction and of a node.

use crate::calls::Kind;
use crate::clock::Clock;
use crate::limits::MOST_NODES;
use crate::sets::{KeySet, KeyTable, NodeSet};

/// Only an open transaction can be of either kind: a search is then finished, and all else is an update.
#[derive(Clone, Copy, PartialEq, Eq, Debug)]
pub enum State {
    OpenSearch,
    OpenUpdate,
    Offered,
    Committed,
    Aborted,
    Finished,
}

/// A transaction. Its commit clock is kept apart, by the catalogue, beside those of the others.
#[derive(Debug)]
pub struct Transaction {
    pub state: State,
    /// What it has read lies within this clock.
    pub clock: Clock,
    pub nodes_read: NodeSet,
    /// For each key that an update has read, the writer of the version that it got.
    pub noted: KeyTable<u8>,
    /// For each key that it writes, the value that it wrote last.
    pub written: KeyTable<u64>,
    /// The nodes that must vote on it: the holders of all keys that it noted or wrote.
    pub polled: NodeSet,
    /// The holders of the keys that it writes.
    pub write_nodes: NodeSet,
    pub voted: NodeSet,
    /// Whether a node voted no.
    pub refused: bool,
    /// The nodes where it is engaged: from their yes until they release it.
    pub engaged: NodeSet,
    /// Its number at each write node that voted yes.
    pub numbers: [u32; MOST_NODES],
    /// The join of the clocks that the yes votes carried.
    pub vote_clock: Clock,
    /// The nodes that have learned what was decided.
    pub learned: NodeSet,
    /// The stamp of a committed update.
    pub stamp: u32,
}

impl Transaction {
    pub fn new(kind: Kind) -> Self {
        Transaction {
            state: match kind {
                Kind::Search => State::OpenSearch,
                Kind::Update => State::OpenUpdate,
            },
            clock: Clock::ZERO,
            nodes_read: NodeSet::EMPTY,
            noted: KeyTable::new(),
            written: KeyTable::new(),
            polled: NodeSet::EMPTY,
            write_nodes: NodeSet::EMPTY,
            voted: NodeSet::EMPTY,
            refused: false,
            engaged: NodeSet::EMPTY,
            numbers: [0; MOST_NODES],
            vote_clock: Clock::ZERO,
            learned: NodeSet::EMPTY,
            stamp: 0,
        }
    }

    /// Whether the two may not both be engaged at a node that holds these keys: one of them writes a key
    /// there that the other notes or writes.
    pub fn conflicts_with(&self, other: &Transaction, held: KeySet) -> bool {
        let (my_notes, my_writes) = (self.noted.keys(), self.written.keys());
        let (their_notes, their_writes) = (other.noted.keys(), other.written.keys());
        let by_their_writes = their_writes.and(my_notes.or(my_writes));
        let by_my_writes = my_writes.and(their_notes);
        !by_their_writes.or(by_my_writes).and(held).is_empty()
    }
}

/// A node of the catalogue.
#[derive(Default, Debug)]
pub struct Node {
    /// The keys that it holds.
    pub held: KeySet,
    /// The highest number that it has given to an update or learned of one.
    pub counter: u32,
    /// The stamp of the update that it applied last.
    pub frontier: u32,
    /// The join of the commit clocks of the committed updates that it has released.
    pub seen: Clock,
    /// The updates that are engaged here, in no order.
    pub engaged: Vec<u8>,
    /// The updates that it has applied.
    pub applied: Vec<u8>,
}
