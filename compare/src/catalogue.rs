//! The ten calls on a catalogue.

use crate::calls::{Answer, Call, Kind, Refusal, Reply};
use crate::clock::{next, stamp, Clock};
use crate::limits::{MOST_KEYS, MOST_NODES, MOST_TRANSACTIONS};
use crate::sets::{KeySet, NodeSet};
use crate::store::{Store, Version, FIRST_VERSION};
use crate::transaction::{Node, State, Transaction};

pub struct Catalogue<S> {
    nodes: Vec<Node>,
    /// For each key, the nodes that hold it.
    holders: Vec<NodeSet>,
    /// Transaction t stands at t - 1.
    transactions: Vec<Transaction>,
    /// The commit clock of transaction t stands at t. At 0 stands that of the first versions, which is zero.
    commit_clocks: Vec<Clock>,
    store: S,
}

impl<S: Store> Catalogue<S> {
    /// A new catalogue. Bit h of a key's byte of the placement says that node h holds the key.
    pub fn make(nodes: u8, placement: &[u8]) -> Result<Self, Refusal> {
        let node_count = usize::from(nodes);
        if !(1..=MOST_NODES).contains(&node_count) || !(1..=MOST_KEYS).contains(&placement.len()) {
            return Err(Refusal::MakeOutOfBounds);
        }
        let mut nodes: Vec<Node> = (0..node_count).map(|_| Node::default()).collect();
        for (key, &bits) in placement.iter().enumerate() {
            if bits == 0 || u32::from(bits) >> node_count != 0 {
                return Err(Refusal::MakeOutOfBounds);
            }
            for (node, record) in nodes.iter_mut().enumerate() {
                if NodeSet(bits).has(node) {
                    record.held.insert(key);
                }
            }
        }
        let mut commit_clocks = Vec::with_capacity(1 + MOST_TRANSACTIONS);
        commit_clocks.push(Clock::ZERO);
        Ok(Catalogue {
            nodes,
            holders: placement.iter().map(|&bits| NodeSet(bits)).collect(),
            transactions: Vec::with_capacity(MOST_TRANSACTIONS),
            commit_clocks,
            store: S::new(),
        })
    }

    /// Answers any call but a make. A refused call changes nothing.
    pub fn call(&mut self, call: Call) -> Reply {
        match call {
            Call::Make { .. } => Err(Refusal::MakeOutOfOrder),
            Call::Begin { kind } => self.begin(kind),
            Call::Read { transaction, key, node } => self.read(transaction, key, node),
            Call::Write { transaction, key, value } => self.write(transaction, key, value),
            Call::Offer { transaction } => self.offer(transaction),
            Call::Prepare { transaction, node } => self.prepare(transaction, node),
            Call::Decide { transaction } => self.decide(transaction),
            Call::Cancel { transaction } => self.cancel(transaction),
            Call::Learn { transaction, node } => self.learn(transaction, node),
            Call::Apply { node } => self.apply(node),
            Call::Finish { transaction } => self.finish(transaction),
        }
    }

    // The checks that several calls make.

    /// Check 2: where the transaction stands, if it has begun.
    fn begun(&self, transaction: u8) -> Result<usize, Refusal> {
        let index = usize::from(transaction).wrapping_sub(1);
        if index < self.transactions.len() {
            Ok(index)
        } else {
            Err(Refusal::NoSuchTransaction)
        }
    }

    /// Check 3.
    fn node(&self, node: u8) -> Result<usize, Refusal> {
        let node = usize::from(node);
        if node < self.nodes.len() {
            Ok(node)
        } else {
            Err(Refusal::NoSuchNode)
        }
    }

    /// Check 4.
    fn key(&self, key: u8) -> Result<usize, Refusal> {
        let key = usize::from(key);
        if key < self.holders.len() {
            Ok(key)
        } else {
            Err(Refusal::NoSuchKey)
        }
    }

    /// Checks 2 and 11, for the calls that need one state.
    fn in_state(&mut self, transaction: u8, state: State) -> Result<&mut Transaction, Refusal> {
        let index = self.begun(transaction)?;
        let record = &mut self.transactions[index];
        if record.state == state {
            Ok(record)
        } else {
            Err(Refusal::WrongState)
        }
    }

    // Beginning, reading and writing.

    fn begin(&mut self, kind: Kind) -> Reply {
        if self.transactions.len() == MOST_TRANSACTIONS {
            return Err(Refusal::NumbersUsedUp);
        }
        self.transactions.push(Transaction::new(kind));
        self.commit_clocks.push(Clock::ZERO);
        Ok(Answer::Begun(self.transactions.len() as u8))
    }

    fn read(&mut self, transaction: u8, key: u8, node: u8) -> Reply {
        let index = self.begun(transaction)?;
        let node = self.node(node)?;
        let key = self.key(key)?;
        if !self.holders[key].has(node) {
            return Err(Refusal::KeyNotHeld);
        }
        let record = &self.transactions[index];
        if record.state != State::OpenSearch && record.state != State::OpenUpdate {
            return Err(Refusal::WrongState);
        }
        if let Some(value) = record.written.get(key) {
            return Ok(Answer::Value { value, writer: transaction });
        }
        if record.clock.slot(node) > self.nodes[node].frontier {
            return Err(Refusal::NotYet);
        }
        let clock = self.clock_at(record, node);
        let mut nodes_read = record.nodes_read;
        nodes_read.insert(node);
        let version = self.newest_passing(key, node, &clock, nodes_read);
        if record.state == State::OpenUpdate {
            self.note(index, key, node, version.writer)?;
        }
        let record = &mut self.transactions[index];
        record.clock = clock;
        record.nodes_read = nodes_read;
        Ok(Answer::Value { value: version.value, writer: version.writer })
    }

    /// The clock with which a transaction reads at a node. At its first read there it takes in the commit
    /// clocks of the updates applied there that pass for it as it is before the read.
    fn clock_at(&self, record: &Transaction, node: usize) -> Clock {
        let mut clock = record.clock;
        if !record.nodes_read.has(node) {
            for &update in &self.nodes[node].applied {
                let commit_clock = &self.commit_clocks[usize::from(update)];
                if commit_clock.passes(&record.clock, record.nodes_read) {
                    clock.join(commit_clock);
                }
            }
        }
        clock
    }

    /// The newest version of a key at a node whose commit clock passes.
    fn newest_passing(&self, key: usize, node: usize, clock: &Clock, nodes_read: NodeSet) -> Version {
        self.store
            .chain(node, key)
            .find(|version| self.commit_clocks[usize::from(version.writer)].passes(clock, nodes_read))
            .unwrap_or(FIRST_VERSION)
    }

    /// Notes that an update got this writer's version of a key at a node.
    fn note(&mut self, index: usize, key: usize, node: usize, writer: u8) -> Result<(), Refusal> {
        if self.store.newest(node, key).writer != writer {
            return Err(Refusal::Overtaken);
        }
        let noted = &mut self.transactions[index].noted;
        if noted.is_full_for(key) {
            return Err(Refusal::TooManyKeysRead);
        }
        if !noted.keys().has(key) {
            noted.set(key, writer);
        }
        Ok(())
    }

    fn write(&mut self, transaction: u8, key: u8, value: u64) -> Reply {
        self.begun(transaction)?;
        let key = self.key(key)?;
        let record = self.in_state(transaction, State::OpenUpdate)?;
        if record.written.is_full_for(key) {
            return Err(Refusal::TooManyKeysWritten);
        }
        record.written.set(key, value);
        Ok(Answer::Done)
    }

    // Offering and voting.

    fn offer(&mut self, transaction: u8) -> Reply {
        let record = self.in_state(transaction, State::OpenUpdate)?;
        let (noted, written) = (record.noted.keys(), record.written.keys());
        let write_nodes = self.holders_of(written);
        let mut polled = self.holders_of(noted);
        polled.add_all(write_nodes);
        let record = self.in_state(transaction, State::OpenUpdate)?;
        record.state = State::Offered;
        record.write_nodes = write_nodes;
        record.polled = polled;
        Ok(Answer::Polls(polled.count()))
    }

    fn holders_of(&self, keys: KeySet) -> NodeSet {
        let mut nodes = NodeSet::EMPTY;
        for key in keys {
            nodes.add_all(self.holders[key]);
        }
        nodes
    }

    fn prepare(&mut self, transaction: u8, node: u8) -> Reply {
        let index = self.begun(transaction)?;
        let node = self.node(node)?;
        let record = &self.transactions[index];
        if record.state != State::Offered {
            return Err(Refusal::WrongState);
        }
        if !record.polled.has(node) {
            return Err(Refusal::NotPolled);
        }
        if record.voted.has(node) {
            return Err(Refusal::AlreadyDone);
        }
        if self.is_busy(index, node) {
            return Err(Refusal::Busy);
        }
        let vote = self.vote(index, node);
        let record = &mut self.transactions[index];
        record.voted.insert(node);
        record.refused |= !matches!(vote, Answer::Yes(_));
        Ok(vote)
    }

    /// Whether an update that is engaged at the node conflicts there with this one.
    fn is_busy(&self, index: usize, node: usize) -> bool {
        let record = &self.transactions[index];
        let here = &self.nodes[node];
        here.engaged
            .iter()
            .any(|&other| record.conflicts_with(&self.transactions[usize::from(other) - 1], here.held))
    }

    /// The vote of a node that is not busy.
    fn vote(&mut self, index: usize, node: usize) -> Answer {
        if let Some(key) = self.overtaken_key(index, node) {
            return Answer::NoOvertaken(key as u8);
        }
        let written_here = self.transactions[index].written.keys().and(self.nodes[node].held);
        if let Some(key) = self.set_aside_all(node, written_here) {
            return Answer::NoPlace(key as u8);
        }
        let transaction = (index + 1) as u8;
        let record = &mut self.transactions[index];
        let here = &mut self.nodes[node];
        record.engaged.insert(node);
        here.engaged.push(transaction);
        record.vote_clock.join(&here.seen);
        if written_here.is_empty() {
            return Answer::Yes(0);
        }
        here.counter = next(here.counter, transaction);
        record.numbers[node] = here.counter;
        Answer::Yes(here.counter)
    }

    /// The lowest noted key that the node holds in a newest version by another writer than the noted one.
    fn overtaken_key(&self, index: usize, node: usize) -> Option<usize> {
        let noted = &self.transactions[index].noted;
        noted
            .keys()
            .and(self.nodes[node].held)
            .find(|&key| noted.get(key) != Some(self.store.newest(node, key).writer))
    }

    /// Sets a place aside for each key. Where one is refused, gives back those before it and answers the key.
    fn set_aside_all(&mut self, node: usize, keys: KeySet) -> Option<usize> {
        for key in keys {
            if !self.store.set_aside(node, key) {
                for earlier in keys.take_while(|&earlier| earlier < key) {
                    self.store.give_back(node, earlier);
                }
                return Some(key);
            }
        }
        None
    }

    // Deciding.

    fn decide(&mut self, transaction: u8) -> Reply {
        let record = self.in_state(transaction, State::Offered)?;
        if record.refused {
            record.state = State::Aborted;
            return Ok(Answer::Abort);
        }
        if record.voted != record.polled {
            return Err(Refusal::VotesOutstanding);
        }
        let mut commit_clock = record.clock;
        commit_clock.join(&record.vote_clock);
        if !record.write_nodes.is_empty() {
            record.stamp = stamp(&record.numbers, &commit_clock, transaction);
            commit_clock.set_slots(record.write_nodes, record.stamp);
        }
        record.state = State::Committed;
        let stamp = record.stamp;
        self.commit_clocks[usize::from(transaction)] = commit_clock;
        Ok(Answer::Commit(stamp))
    }

    fn cancel(&mut self, transaction: u8) -> Reply {
        let index = self.begun(transaction)?;
        let record = &mut self.transactions[index];
        if record.state != State::OpenUpdate && record.state != State::Offered {
            return Err(Refusal::WrongState);
        }
        record.state = State::Aborted;
        Ok(Answer::Done)
    }

    fn finish(&mut self, transaction: u8) -> Reply {
        self.in_state(transaction, State::OpenSearch)?.state = State::Finished;
        Ok(Answer::Done)
    }

    // Learning and applying.

    fn learn(&mut self, transaction: u8, node: u8) -> Reply {
        let index = self.begun(transaction)?;
        let node = self.node(node)?;
        let record = &mut self.transactions[index];
        let committed = record.state == State::Committed;
        if !committed && record.state != State::Aborted {
            return Err(Refusal::WrongState);
        }
        if !record.polled.has(node) {
            return Err(Refusal::NotPolled);
        }
        if record.learned.has(node) {
            return Err(Refusal::AlreadyDone);
        }
        record.learned.insert(node);
        if committed && record.write_nodes.has(node) {
            record.numbers[node] = record.stamp;
            let here = &mut self.nodes[node];
            here.counter = here.counter.max(record.stamp);
        } else if committed {
            self.release_committed(index, node);
        } else if record.engaged.has(node) {
            let written_here = record.written.keys().and(self.nodes[node].held);
            for key in written_here {
                self.store.give_back(node, key);
            }
            self.release(index, node);
        }
        Ok(Answer::Done)
    }

    fn apply(&mut self, node: u8) -> Reply {
        let node = self.node(node)?;
        let transaction = self.first_waiting(node).ok_or(Refusal::NothingToApply)?;
        let index = usize::from(transaction) - 1;
        let record = &self.transactions[index];
        if !record.learned.has(node) {
            return Err(Refusal::NotLearned);
        }
        let here = &mut self.nodes[node];
        for key in record.written.keys().and(here.held) {
            let value = record.written.get(key).unwrap_or_default();
            self.store.put(node, key, Version { value, writer: transaction });
        }
        here.frontier = record.stamp;
        here.applied.push(transaction);
        self.release_committed(index, node);
        Ok(Answer::Applied(transaction))
    }

    /// Of the updates that are engaged at a node and write there, the one with the least number there.
    fn first_waiting(&self, node: usize) -> Option<u8> {
        let record = |update: u8| &self.transactions[usize::from(update) - 1];
        self.nodes[node]
            .engaged
            .iter()
            .copied()
            .filter(|&update| record(update).write_nodes.has(node))
            .min_by_key(|&update| record(update).numbers[node])
    }

    fn release(&mut self, index: usize, node: usize) {
        self.transactions[index].engaged.remove(node);
        let engaged = &mut self.nodes[node].engaged;
        if let Some(place) = engaged.iter().position(|&update| usize::from(update) == index + 1) {
            engaged.swap_remove(place);
        }
    }

    fn release_committed(&mut self, index: usize, node: usize) {
        self.release(index, node);
        self.nodes[node].seen.join(&self.commit_clocks[index + 1]);
    }
}
