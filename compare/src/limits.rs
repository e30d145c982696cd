//! The fixed numbers of the catalogue.

pub const MOST_NODES: usize = 8;
pub const MOST_KEYS: usize = 64;
pub const MOST_TRANSACTIONS: usize = 255;

/// How many keys one update may note, and how many it may write.
pub const MOST_KEYS_OF_A_TRANSACTION: usize = 8;

/// A longer tape is not read at all.
pub const LONGEST_TAPE: usize = 32_768;

/// How many versions, the first not counted, one chain of the shelf has room for.
pub const PLACES_OF_A_SHELF: usize = 4;

/// How many versions, the first ones not counted, the whole roll has room for.
pub const PLACES_OF_THE_ROLL: usize = 512;
