//! Clocks, and the numbers that nodes give to updates.

use crate::limits::MOST_NODES;
use crate::sets::NodeSet;

/// A number for each node.
#[derive(Clone, Copy, Default, PartialEq, Eq, Debug)]
pub struct Clock(pub [u32; MOST_NODES]);

impl Clock {
    pub const ZERO: Clock = Clock([0; MOST_NODES]);

    pub fn slot(&self, node: usize) -> u32 {
        self.0[node]
    }

    /// Raises each slot to at least that of the other clock.
    pub fn join(&mut self, other: &Clock) {
        for (mine, theirs) in self.0.iter_mut().zip(&other.0) {
            *mine = (*mine).max(*theirs);
        }
    }

    pub fn highest_slot(&self) -> u32 {
        self.0.iter().fold(0, |highest, slot| highest.max(*slot))
    }

    /// Puts the number in the slots of these nodes.
    pub fn set_slots(&mut self, nodes: NodeSet, number: u32) {
        for (node, slot) in self.0.iter_mut().enumerate() {
            if nodes.has(node) {
                *slot = number;
            }
        }
    }

    /// Whether no slot of these nodes is above the slot of the bound. The other slots are not looked at.
    pub fn passes(&self, bound: &Clock, nodes: NodeSet) -> bool {
        let mut above = 0;
        for node in 0..MOST_NODES {
            above |= u8::from(self.0[node] > bound.0[node]) << node;
        }
        above & nodes.0 == 0
    }
}

/// The least number above `number` that leaves `transaction` when it is divided by 256.
pub fn next(number: u32, transaction: u8) -> u32 {
    let candidate = number & !0xff | u32::from(transaction);
    if candidate > number {
        candidate
    } else {
        candidate + 256
    }
}

/// The stamp of an update with these numbers at its write nodes: the least number that leaves the update's
/// own when it is divided by 256, is not below any of the numbers, and is above every slot of the base.
pub fn stamp(numbers: &[u32; MOST_NODES], base: &Clock, transaction: u8) -> u32 {
    // Each of its numbers leaves the update's own too.
    let highest_number = Clock(*numbers).highest_slot();
    next(base.highest_slot(), transaction).max(highest_number)
}

#[cfg(test)]
mod tests {
    use super::*;

    #[test]
    fn numbers_of_the_document() {
        assert_eq!(next(0, 1), 1);
        assert_eq!(next(255, 1), 257);
        assert_eq!(next(3, 2), 258);
        assert_eq!(next(511, 255), 767);
    }

    #[test]
    fn stamps_of_the_document() {
        let numbers = [258, 0, 514, 0, 0, 0, 0, 0];
        assert_eq!(stamp(&numbers, &Clock([0, 500, 3, 0, 0, 0, 0, 0]), 2), 514);
        assert_eq!(stamp(&numbers, &Clock([0, 0, 0, 0, 0, 0, 0, 600]), 2), 770);
    }

    #[test]
    fn only_the_slots_of_the_nodes_are_looked_at() {
        let clock = Clock([1, 5, 0, 0, 0, 0, 0, 9]);
        let bound = Clock([1, 4, 0, 0, 0, 0, 0, 9]);
        assert!(clock.passes(&bound, NodeSet(0b1000_0001)));
        assert!(!clock.passes(&bound, NodeSet(0b0000_0010)));
        assert!(clock.passes(&bound, NodeSet::EMPTY));
    }
}
