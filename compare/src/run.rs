//! A run of a tape on a new unit, which has no catalogue until a make is accepted.

use crate::calls::{Answer, Call, Refusal, Reply};
use crate::catalogue::Catalogue;
use crate::listing::Listing;
use crate::store::Store;
use crate::tape::Reader;

/// The listing of a tape.
pub fn listing_of<S: Store>(tape: &[u8]) -> Vec<u8> {
    let mut catalogue: Option<Catalogue<S>> = None;
    let mut listing = Listing::for_tape_of(tape.len());
    for record in Reader::new(tape) {
        let reply = match record.call {
            Ok(call) => answer(&mut catalogue, call),
            Err(refusal) => Err(refusal),
        };
        listing.add(record.place, reply);
    }
    listing.into_bytes()
}

fn answer<S: Store>(catalogue: &mut Option<Catalogue<S>>, call: Call) -> Reply {
    match (catalogue, call) {
        (Some(made), call) => made.call(call),
        (none, Call::Make { nodes, placement }) => {
            *none = Some(Catalogue::make(nodes, placement)?);
            Ok(Answer::Done)
        }
        (None, _) => Err(Refusal::MakeOutOfOrder),
    }
}
