//! Sets of nodes and of keys, one bit for each member, and a small table by key.

use crate::limits::MOST_KEYS_OF_A_TRANSACTION;

/// A set of nodes 0 to 7.
#[derive(Clone, Copy, Default, PartialEq, Eq, Debug)]
pub struct NodeSet(pub u8);

impl NodeSet {
    pub const EMPTY: NodeSet = NodeSet(0);

    pub fn has(self, node: usize) -> bool {
        self.0 >> node & 1 != 0
    }

    pub fn insert(&mut self, node: usize) {
        self.0 |= 1 << node;
    }

    pub fn remove(&mut self, node: usize) {
        self.0 &= !(1 << node);
    }

    pub fn add_all(&mut self, others: NodeSet) {
        self.0 |= others.0;
    }

    pub fn is_empty(self) -> bool {
        self.0 == 0
    }

    pub fn count(self) -> u32 {
        self.0.count_ones()
    }
}

/// A set of keys 0 to 63.
#[derive(Clone, Copy, Default, PartialEq, Eq, Debug)]
pub struct KeySet(pub u64);

impl KeySet {
    pub const EMPTY: KeySet = KeySet(0);

    pub fn has(self, key: usize) -> bool {
        self.0 >> key & 1 != 0
    }

    pub fn insert(&mut self, key: usize) {
        self.0 |= 1 << key;
    }

    pub fn is_empty(self) -> bool {
        self.0 == 0
    }

    pub fn and(self, other: KeySet) -> KeySet {
        KeySet(self.0 & other.0)
    }

    pub fn or(self, other: KeySet) -> KeySet {
        KeySet(self.0 | other.0)
    }

    pub fn count(self) -> usize {
        self.0.count_ones() as usize
    }

    /// How many members are smaller than this key.
    fn count_below(self, key: usize) -> usize {
        KeySet(self.0 & ((1 << key) - 1)).count()
    }
}

/// The members in ascending order.
impl Iterator for KeySet {
    type Item = usize;

    fn next(&mut self) -> Option<usize> {
        if self.0 == 0 {
            return None;
        }
        let lowest = self.0.trailing_zeros() as usize;
        self.0 &= self.0 - 1;
        Some(lowest)
    }
}

/// At most eight keys, each with something that belongs to it. What belongs to the keys lies in ascending
/// order of the keys, so the place of a key is the number of smaller keys in the set.
#[derive(Clone, Copy, Debug)]
pub struct KeyTable<T> {
    keys: KeySet,
    items: [T; MOST_KEYS_OF_A_TRANSACTION],
}

impl<T: Copy + Default> KeyTable<T> {
    pub fn new() -> Self {
        KeyTable { keys: KeySet::EMPTY, items: [T::default(); MOST_KEYS_OF_A_TRANSACTION] }
    }

    pub fn keys(&self) -> KeySet {
        self.keys
    }

    pub fn get(&self, key: usize) -> Option<T> {
        if self.keys.has(key) {
            Some(self.items[self.keys.count_below(key)])
        } else {
            None
        }
    }

    /// Whether the key is not in the table and could not be added to it.
    pub fn is_full_for(&self, key: usize) -> bool {
        !self.keys.has(key) && self.keys.count() == MOST_KEYS_OF_A_TRANSACTION
    }

    /// Sets what belongs to the key. The table must not be full for it.
    pub fn set(&mut self, key: usize, item: T) {
        let place = self.keys.count_below(key);
        if !self.keys.has(key) {
            let count = self.keys.count();
            self.items.copy_within(place..count, place + 1);
            self.keys.insert(key);
        }
        self.items[place] = item;
    }
}

#[cfg(test)]
mod tests {
    use super::*;

    #[test]
    fn a_table_keeps_eight_keys_in_any_order() {
        let mut table = KeyTable::new();
        for key in [63, 0, 7, 8, 31, 32, 5, 62] {
            assert!(!table.is_full_for(key));
            table.set(key, key as u64 + 100);
        }
        table.set(31, 9);
        assert!(table.is_full_for(1));
        assert!(!table.is_full_for(31));
        assert_eq!(table.keys().collect::<Vec<_>>(), [0, 5, 7, 8, 31, 32, 62, 63]);
        let items: Vec<_> = table.keys().map(|key| table.get(key).unwrap()).collect();
        assert_eq!(items, [100, 105, 107, 108, 9, 132, 162, 163]);
        assert_eq!(table.get(1), None);
    }
}
