//! The two stores. Each keeps, for every node and key, a chain of versions with the newest first, and a
//! number of places that are set aside for versions to come.

use crate::limits::{MOST_KEYS, MOST_NODES, PLACES_OF_A_SHELF, PLACES_OF_THE_ROLL};

/// A value and the transaction that wrote it.
#[derive(Clone, Copy, Default, PartialEq, Eq, Debug)]
pub struct Version {
    pub value: u64,
    pub writer: u8,
}

/// The version at the end of every chain. It takes no place.
pub const FIRST_VERSION: Version = Version { value: 0, writer: 0 };

const CHAINS: usize = MOST_NODES * MOST_KEYS;

/// Where the chain of a node and key stands among all chains.
fn chain_index(node: usize, key: usize) -> usize {
    node * MOST_KEYS + key
}

pub trait Store {
    fn new() -> Self;

    /// Sets a place aside, if one is free. Answers whether it did.
    fn set_aside(&mut self, node: usize, key: usize) -> bool;

    /// Gives a place back that is set aside.
    fn give_back(&mut self, node: usize, key: usize);

    /// Puts a newest version in a place that is set aside.
    fn put(&mut self, node: usize, key: usize, version: Version);

    /// The versions of a chain, the newest first, without the first version.
    fn chain(&self, node: usize, key: usize) -> impl Iterator<Item = Version> + '_;

    fn newest(&self, node: usize, key: usize) -> Version {
        self.chain(node, key).next().unwrap_or(FIRST_VERSION)
    }
}

/// The store with four places for each chain.
pub struct Shelf {
    chains: Vec<ShelfChain>,
}

#[derive(Clone, Copy, Default)]
struct ShelfChain {
    /// The oldest first; only the first `stored` of them count.
    versions: [Version; PLACES_OF_A_SHELF],
    stored: u8,
    aside: u8,
}

impl Store for Shelf {
    fn new() -> Self {
        Shelf { chains: vec![ShelfChain::default(); CHAINS] }
    }

    fn set_aside(&mut self, node: usize, key: usize) -> bool {
        let chain = &mut self.chains[chain_index(node, key)];
        let free = usize::from(chain.stored + chain.aside) < PLACES_OF_A_SHELF;
        chain.aside += u8::from(free);
        free
    }

    fn give_back(&mut self, node: usize, key: usize) {
        self.chains[chain_index(node, key)].aside -= 1;
    }

    fn put(&mut self, node: usize, key: usize, version: Version) {
        let chain = &mut self.chains[chain_index(node, key)];
        chain.aside -= 1;
        chain.versions[usize::from(chain.stored)] = version;
        chain.stored += 1;
    }

    fn chain(&self, node: usize, key: usize) -> impl Iterator<Item = Version> + '_ {
        let chain = &self.chains[chain_index(node, key)];
        chain.versions[..usize::from(chain.stored)].iter().rev().copied()
    }
}

/// The store with 512 places for all chains together.
pub struct Roll {
    /// All versions in the order in which they were put.
    entries: Vec<RollEntry>,
    /// Where the newest version of each chain is among the entries.
    newest: Vec<Link>,
    /// How many places are set aside for each chain, and how many in all.
    aside: Vec<u16>,
    all_aside: usize,
}

#[derive(Clone, Copy)]
struct RollEntry {
    version: Version,
    /// The next older version of the same chain.
    older: Link,
}

/// One more than the place of an entry, or 0 where there is none.
#[derive(Clone, Copy, Default)]
struct Link(u16);

impl Store for Roll {
    fn new() -> Self {
        Roll {
            entries: Vec::with_capacity(PLACES_OF_THE_ROLL),
            newest: vec![Link::default(); CHAINS],
            aside: vec![0; CHAINS],
            all_aside: 0,
        }
    }

    fn set_aside(&mut self, node: usize, key: usize) -> bool {
        let free = self.entries.len() + self.all_aside < PLACES_OF_THE_ROLL;
        self.aside[chain_index(node, key)] += u16::from(free);
        self.all_aside += usize::from(free);
        free
    }

    fn give_back(&mut self, node: usize, key: usize) {
        self.aside[chain_index(node, key)] -= 1;
        self.all_aside -= 1;
    }

    fn put(&mut self, node: usize, key: usize, version: Version) {
        self.give_back(node, key);
        let newest = &mut self.newest[chain_index(node, key)];
        self.entries.push(RollEntry { version, older: *newest });
        *newest = Link(self.entries.len() as u16);
    }

    fn chain(&self, node: usize, key: usize) -> impl Iterator<Item = Version> + '_ {
        let mut link = self.newest[chain_index(node, key)];
        std::iter::from_fn(move || {
            let entry = self.entries.get(usize::from(link.0).checked_sub(1)?)?;
            link = entry.older;
            Some(entry.version)
        })
    }
}

#[cfg(test)]
mod tests {
    use super::*;

    fn version(writer: u8) -> Version {
        Version { value: u64::from(writer) * 1000, writer }
    }

    fn writers(store: &impl Store, node: usize, key: usize) -> Vec<u8> {
        store.chain(node, key).map(|version| version.writer).collect()
    }

    fn chains_are_kept_apart<S: Store>() {
        let mut store = S::new();
        assert_eq!(store.newest(7, 63), FIRST_VERSION);
        for writer in 1..4 {
            assert!(store.set_aside(7, 63));
            assert!(store.set_aside(0, 63));
            store.put(7, 63, version(writer));
            store.put(0, 63, version(writer + 10));
        }
        assert_eq!(writers(&store, 7, 63), [3, 2, 1]);
        assert_eq!(writers(&store, 0, 63), [13, 12, 11]);
        assert_eq!(writers(&store, 0, 62), []);
        assert_eq!(store.newest(7, 63), version(3));
    }

    #[test]
    fn both_stores_keep_chains_apart() {
        chains_are_kept_apart::<Shelf>();
        chains_are_kept_apart::<Roll>();
    }

    #[test]
    fn a_shelf_has_four_places_for_each_chain() {
        let mut shelf = Shelf::new();
        for _ in 0..4 {
            assert!(shelf.set_aside(1, 2));
        }
        assert!(!shelf.set_aside(1, 2));
        assert!(shelf.set_aside(1, 3));
        shelf.give_back(1, 2);
        assert!(shelf.set_aside(1, 2));
        shelf.put(1, 2, version(9));
        assert!(!shelf.set_aside(1, 2));
    }

    #[test]
    fn a_roll_has_512_places_for_all_chains() {
        let mut roll = Roll::new();
        for place in 0..512 {
            assert!(roll.set_aside(place % 8, place % 5));
        }
        assert!(!roll.set_aside(7, 63));
        roll.put(0, 0, version(1));
        assert!(!roll.set_aside(7, 63));
        roll.give_back(1, 1);
        assert!(roll.set_aside(7, 63));
        assert!(!roll.set_aside(7, 63));
    }
}
