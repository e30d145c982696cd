//! The listing: a line for each record of a tape.

use crate::calls::{Answer, Reply};

/// The lines of a listing, as bytes.
pub struct Listing {
    bytes: Vec<u8>,
}

impl Listing {
    /// An empty listing with room for that of a tape of this many bytes, as a rule.
    pub fn for_tape_of(length: usize) -> Self {
        Listing { bytes: Vec::with_capacity(4 * length + 64) }
    }

    pub fn into_bytes(self) -> Vec<u8> {
        self.bytes
    }

    /// Adds the line of the record at this place.
    pub fn add(&mut self, place: usize, reply: Reply) {
        self.number(place as u64);
        self.text(" ");
        match reply {
            Ok(answer) => self.answer(answer),
            Err(refusal) => self.text_and_number("refused ", refusal as u64),
        }
        self.text("\n");
    }

    fn answer(&mut self, answer: Answer) {
        match answer {
            Answer::Done => self.text("ok"),
            Answer::Begun(transaction) => self.text_and_number("t ", transaction.into()),
            Answer::Value { value, writer } => {
                self.text_and_number("value ", value);
                self.text_and_number(" from ", writer.into());
            }
            Answer::Polls(count) => self.text_and_number("polls ", count.into()),
            Answer::Yes(number) => self.text_and_number("yes ", number.into()),
            Answer::NoOvertaken(key) => self.text_and_number("no overtaken ", key.into()),
            Answer::NoPlace(key) => self.text_and_number("no place ", key.into()),
            Answer::Commit(stamp) => self.text_and_number("commit ", stamp.into()),
            Answer::Abort => self.text("abort"),
            Answer::Applied(transaction) => self.text_and_number("applied ", transaction.into()),
        }
    }

    fn text_and_number(&mut self, text: &str, number: u64) {
        self.text(text);
        self.number(number);
    }

    fn text(&mut self, text: &str) {
        self.bytes.extend_from_slice(text.as_bytes());
    }

    /// Adds a number in decimal.
    fn number(&mut self, mut number: u64) {
        const MOST_DIGITS: usize = 20;
        let mut digits = [0; MOST_DIGITS];
        let mut start = MOST_DIGITS;
        loop {
            start -= 1;
            digits[start] = b'0' + (number % 10) as u8;
            number /= 10;
            if number == 0 {
                break;
            }
        }
        self.bytes.extend_from_slice(&digits[start..]);
    }
}

#[cfg(test)]
mod tests {
    use super::*;
    use crate::calls::Refusal;

    #[test]
    fn lines_of_the_document() {
        let mut listing = Listing::for_tape_of(0);
        listing.add(0, Ok(Answer::Done));
        listing.add(10, Ok(Answer::Value { value: u64::MAX, writer: 255 }));
        listing.add(32767, Err(Refusal::NotLearned));
        listing.add(99, Ok(Answer::NoOvertaken(63)));
        let text = "0 ok\n10 value 18446744073709551615 from 255\n32767 refused 21\n99 no overtaken 63\n";
        assert_eq!(listing.into_bytes(), text.as_bytes());
    }
}
