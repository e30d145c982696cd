//! Reading a tape: the records one after another, each with its place.

use crate::calls::{Call, Kind, Refusal};
use crate::limits::LONGEST_TAPE;

/// One record of a tape.
#[derive(Clone, Copy, PartialEq, Eq, Debug)]
pub struct Record<'tape> {
    /// How many bytes of the tape come before the record.
    pub place: usize,
    pub call: Result<Call<'tape>, Refusal>,
}

/// Gives the records of a tape in order.
pub struct Reader<'tape> {
    tape: &'tape [u8],
    place: usize,
    /// A tape that is too long has one record alone, which is refused.
    too_long: bool,
}

impl<'tape> Reader<'tape> {
    pub fn new(tape: &'tape [u8]) -> Self {
        Reader { tape, place: 0, too_long: tape.len() > LONGEST_TAPE }
    }

    /// Answers that the tape cannot be read here, and ends the reading.
    fn stop(&mut self) -> Record<'tape> {
        let place = self.place;
        self.place = self.tape.len();
        Record { place, call: Err(Refusal::UnreadableTape) }
    }
}

impl<'tape> Iterator for Reader<'tape> {
    type Item = Record<'tape>;

    fn next(&mut self) -> Option<Record<'tape>> {
        let rest = &self.tape[self.place..];
        if rest.is_empty() {
            return None;
        }
        if self.too_long {
            return Some(self.stop());
        }
        let [low, high, behind @ ..] = rest else {
            return Some(self.stop());
        };
        let length = usize::from(u16::from_le_bytes([*low, *high]));
        let Some(contents) = behind.get(..length) else {
            return Some(self.stop());
        };
        let place = self.place;
        self.place += 2 + length;
        Some(Record { place, call: parse(contents).ok_or(Refusal::BadRecord) })
    }
}

/// The call that the kind and body of a record make, if they make one.
fn parse(contents: &[u8]) -> Option<Call<'_>> {
    let [kind, 0, body @ ..] = contents else {
        return None;
    };
    let call = match (*kind, body) {
        (0, &[nodes, keys, ref placement @ ..]) if placement.len() == usize::from(keys) => {
            Call::Make { nodes, placement }
        }
        (1, &[0]) => Call::Begin { kind: Kind::Search },
        (1, &[1]) => Call::Begin { kind: Kind::Update },
        (2, &[transaction, key, node]) => Call::Read { transaction, key, node },
        (3, &[transaction, key, ref value @ ..]) => {
            Call::Write { transaction, key, value: u64::from_le_bytes(value.try_into().ok()?) }
        }
        (4, &[transaction]) => Call::Offer { transaction },
        (5, &[transaction, node]) => Call::Prepare { transaction, node },
        (6, &[transaction]) => Call::Decide { transaction },
        (7, &[transaction]) => Call::Cancel { transaction },
        (8, &[transaction, node]) => Call::Learn { transaction, node },
        (9, &[node]) => Call::Apply { node },
        (10, &[transaction]) => Call::Finish { transaction },
        _ => return None,
    };
    Some(call)
}

#[cfg(test)]
mod tests {
    use super::*;

    fn calls(tape: &[u8]) -> Vec<(usize, Result<Call<'_>, Refusal>)> {
        Reader::new(tape).map(|record| (record.place, record.call)).collect()
    }

    #[test]
    fn an_empty_tape_has_no_records() {
        assert_eq!(calls(&[]), []);
    }

    #[test]
    fn bad_records_are_skipped_by_their_length() {
        let tape = [0, 0, 1, 0, 9, 2, 0, 11, 0, 3, 0, 1, 0, 2, 3, 0, 9, 0, 5];
        let bad = Err(Refusal::BadRecord);
        let apply = Ok(Call::Apply { node: 5 });
        assert_eq!(calls(&tape), [(0, bad), (2, bad), (5, bad), (9, bad), (14, apply)]);
    }

    #[test]
    fn a_cut_record_ends_the_reading() {
        let cut = Err(Refusal::UnreadableTape);
        assert_eq!(calls(&[7]), [(0, cut)]);
        assert_eq!(calls(&[1, 0]), [(0, cut)]);
        assert_eq!(calls(&[3, 0, 9, 0, 5, 3, 0, 9, 0]), [(0, Ok(Call::Apply { node: 5 })), (5, cut)]);
    }

    #[test]
    fn a_tape_that_is_too_long_is_not_read() {
        let longest = vec![0; LONGEST_TAPE];
        assert_eq!(calls(&longest).len(), LONGEST_TAPE / 2);
        let longer = vec![0; LONGEST_TAPE + 1];
        assert_eq!(calls(&longer), [(0, Err(Refusal::UnreadableTape))]);
    }

    #[test]
    fn a_make_has_a_byte_for_each_key() {
        let make = Ok(Call::Make { nodes: 2, placement: &[1, 3] });
        assert_eq!(calls(&[6, 0, 0, 0, 2, 2, 1, 3]), [(0, make)]);
        let bad = Err(Refusal::BadRecord);
        assert_eq!(calls(&[6, 0, 0, 0, 2, 3, 1, 3]), [(0, bad)]);
        assert_eq!(calls(&[3, 0, 0, 0, 2]), [(0, bad)]);
        assert_eq!(calls(&[2, 0, 0, 0]), [(0, bad)]);
    }
}
