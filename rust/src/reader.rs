//! The calls that read a section, under one name for the proved code and for what is held against it.
use crate::chars::invalid_chunks;
use crate::layout::{Rules, Walked, decoded, walk};
use crate::record::{Outcome, Refusal, reference};

/// The reference is not asked to read a section for which it would ask for more bytes at once than this: where the
/// machine does not give them, the process is aborted (docs/DIFFERENCES.md, 8).
pub const MOST_ASKED: usize = 1 << 24;

/// How many numbers an answer of `read` has, and one of `find_text`.
pub const READ_NUMBERS: usize = 4;
pub const FIND_NUMBERS: usize = 5;

/// Reads sections, as document 01 says. A number that an answer has no place for is dropped, and no other place of an
/// answer changes.
pub trait Reader {
    /// Fills the tables with the flat record. The answer is document 01's number and three values: the third is how many
    /// characters were replaced in all texts, where the section is read.
    fn read(&self, section: &[u8], words: &mut [u32], texts: &mut [u8], answer: &mut [usize]);

    /// Finds a text. The answer is document 01's number and four values: the fourth is how many characters were replaced,
    /// where the text is found.
    fn find_text(&self, section: &[u8], text: usize, scratch: &mut [u8], answer: &mut [usize]);
}

/// A refusal's number and values, with zeros behind them: the numbers of an answer that has so many.
pub fn refused<const N: usize>(refusal: &Refusal) -> [usize; N] {
    let mut numbers = [0; N];
    numbers[..3].copy_from_slice(&refusal.numbers());
    numbers
}

/// How many characters a reading replaces, by the standard library on the bytes of each text.
pub fn invalid_in(section: &[u8], walked: &Walked) -> usize {
    walked.places.iter().map(|place| invalid_chunks(place.bytes(section))).sum()
}

/// What `read` answers where a section has this outcome, and so many characters are replaced.
fn answer_read(outcome: &Outcome, replaced: usize, words: &mut [u32], texts: &mut [u8], answer: &mut [usize]) {
    let numbers: [usize; READ_NUMBERS] = match outcome {
        Err(refusal) => refused(refusal),
        Ok(flat) => {
            let needs = (flat.words.len(), flat.texts.len());
            if needs.0 > words.len() || needs.1 > texts.len() {
                [5, needs.0, needs.1, 0]
            } else {
                words[..needs.0].copy_from_slice(&flat.words);
                texts[..needs.1].copy_from_slice(&flat.texts);
                [0, needs.0, needs.1, replaced]
            }
        }
    };
    store(&numbers, answer);
}

/// What `find_text` answers where a section has this outcome and these places of texts.
fn answer_text(section: &[u8], walked: &Walked, rules: &Rules, text: usize, scratch: &mut [u8], answer: &mut [usize]) {
    let numbers: [usize; FIND_NUMBERS] = match (&walked.outcome, walked.places.get(text)) {
        (Err(refusal), _) => refused(refusal),
        (Ok(_), None) => [10, 0, 0, 0, 0],
        (Ok(_), Some(place)) => {
            let raw = place.bytes(section);
            let (text, replaced) = decoded(raw, rules);
            if text == raw {
                [0, 0, place.start, place.len, 0]
            } else if text.len() > scratch.len() {
                [5, 0, text.len(), 0, 0]
            } else {
                scratch[..text.len()].copy_from_slice(&text);
                [0, 1, 0, text.len(), replaced]
            }
        }
    };
    store(&numbers, answer);
}

/// Stores an answer's numbers, as many as it has places for.
pub fn store(numbers: &[usize], answer: &mut [usize]) {
    for (place, &number) in answer.iter_mut().zip(numbers) {
        *place = number;
    }
}

/// The reference behind the calls. Where a text lies the reference does not say; that is the layout's. It does not count
/// what it replaces either; that is the standard library's.
pub struct ByReference;

impl Reader for ByReference {
    fn read(&self, section: &[u8], words: &mut [u32], texts: &mut [u8], answer: &mut [usize]) {
        let walked = walk(section, &Rules::DOCUMENT, usize::MAX).unwrap();
        let replaced = invalid_in(section, &walked);
        let outcome = if walked.asked > MOST_ASKED { walked.outcome } else { reference(section) };
        answer_read(&outcome, replaced, words, texts, answer);
    }

    fn find_text(&self, section: &[u8], text: usize, scratch: &mut [u8], answer: &mut [usize]) {
        ByLayout(Rules::DOCUMENT).find_text(section, text, scratch, answer);
    }
}

/// The walk over the layout behind the calls, with document 01's rules or mistaken ones.
pub struct ByLayout(pub Rules);

impl ByLayout {
    fn walk(&self, section: &[u8]) -> Walked {
        walk(section, &self.0, usize::MAX).unwrap()
    }
}

impl Reader for ByLayout {
    fn read(&self, section: &[u8], words: &mut [u32], texts: &mut [u8], answer: &mut [usize]) {
        let walked = self.walk(section);
        answer_read(&walked.outcome, walked.replaced(), words, texts, answer);
    }

    fn find_text(&self, section: &[u8], text: usize, scratch: &mut [u8], answer: &mut [usize]) {
        answer_text(section, &self.walk(section), &self.0, text, scratch, answer);
    }
}
