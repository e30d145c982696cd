//! Prints the listing of the tape on standard input, over the store that the argument names.
//!
//! This is the archive catalogue written a second time, from `docs/PROTOCOL.md`, `docs/REFUSALS.md`,
//! `docs/STORES.md` and `docs/TAPE.md` alone, to be compared with the proved programs.

mod calls;
mod catalogue;
mod clock;
mod limits;
mod listing;
mod run;
mod sets;
mod store;
mod tape;
#[cfg(test)]
mod tests;
mod transaction;

use std::io::{self, Read, Write};
use std::process::ExitCode;

use crate::limits::LONGEST_TAPE;
use crate::store::{Roll, Shelf};

fn main() -> ExitCode {
    let listing_of = match std::env::args().nth(1).as_deref() {
        Some("shelf") => run::listing_of::<Shelf>,
        Some("roll") => run::listing_of::<Roll>,
        _ => {
            eprintln!("usage: compare shelf|roll < TAPE");
            return ExitCode::from(2);
        }
    };
    match print_listing(listing_of) {
        Ok(()) => ExitCode::SUCCESS,
        Err(error) => {
            eprintln!("compare: {error}");
            ExitCode::FAILURE
        }
    }
}

fn print_listing(listing_of: fn(&[u8]) -> Vec<u8>) -> io::Result<()> {
    // Of a tape that is too long no more is needed than that it is.
    let mut tape = Vec::with_capacity(LONGEST_TAPE + 1);
    io::stdin().lock().take(LONGEST_TAPE as u64 + 1).read_to_end(&mut tape)?;
    let listing = listing_of(&tape);
    let mut output = io::stdout().lock();
    output.write_all(&listing)?;
    output.flush()
}
