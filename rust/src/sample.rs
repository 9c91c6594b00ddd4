//! A sample of small sections with the reference's answers, for a program that has no reference beside it.
//!
//! The sample is cases one after another, up to its end: these, and behind them those of `sample_records.rs`. All numbers
//! are little-endian. A case is
//!
//! | bytes | |
//! |---|---|
//! | 1 | 0: a section to read |
//! | 2 | the section's length n |
//! | n | the section |
//! | 2, 2 | the tables' lengths: words, text bytes |
//! | 4, 4, 4, 4 | the answer: document 01's number, and its three values a, b and c (0 where there is none) |
//! | 4 a, b | where the number is 0: the record's words and its text bytes |
//!
//! The program reads each section into tables of these lengths that it has filled with something. The answer must be the
//! one that stands here; the tables must begin with the words and bytes that stand here, if the number is 0, and be
//! otherwise as they were. If the number is 0, c is how many characters were replaced: the program finds each of the
//! section's texts, and the sum of what is told there must be c too.
//!
//! The sections are those of `sections.rs`: some that are the same for every seed, and of each random kind and each
//! outcome about as many. Of the sections that are read, some get tables that fit exactly, some longer ones, and some
//! tables that lack a word, a byte, or much. The answers are those of the reference in document 01's numbers; a section
//! that it should not be asked to read (`MOST_ASKED`) is left out, and so are all that the bounds below exclude. The
//! reference does not count what it replaces: c is the standard library's count of invalid chunks, in the bytes of each
//! text.
use std::collections::HashMap;

use crate::layout::{Rules, walk};
use crate::reader::{FIND_NUMBERS, MOST_ASKED, READ_NUMBERS, Reader, invalid_in, refused};
use crate::record::reference;
use crate::sections::{Maker, REPLACED, fixed_sections, random_sections};

/// The longest section, and the longest tables: what the program must have room for.
pub const SECTION: usize = 320;
pub const WORDS: usize = 256;
pub const TEXTS: usize = 320;

/// The most cases of one kind with one outcome.
const ALIKE: usize = 140;
pub const SEED: u64 = 20_261_115;
/// The first byte of a case.
const KIND: usize = 0;

#[derive(Default)]
pub struct Sample {
    pub bytes: Vec<u8>,
    pub cases: usize,
    /// How many cases have each number as their answer.
    pub numbers: [usize; 6],
    /// Of the sections that are read, the texts that are well-formed where they lie, and the others.
    pub texts: [usize; 2],
    /// Of these sections, how many characters are replaced.
    pub replaced: usize,
}

/// Makes the sample, always the same.
pub fn sample() -> Sample {
    let mut out = Sample::default();
    let mut alike = HashMap::new();
    let mut choice = Maker::new(SEED);
    let mut take = |kind: &str, section: &[u8], share: usize| {
        let Some(seen) = walk(section, &Rules::DOCUMENT, 10_000) else { return };
        if section.len() > SECTION || seen.asked > MOST_ASKED {
            return;
        }
        let outcome = reference(section);
        let number = outcome.as_ref().map_or_else(|refusal| refusal.numbers()[0], |_| 0);
        let alike: &mut usize = alike.entry((kind.to_owned(), number)).or_default();
        if *alike == ALIKE || choice.random.below(share) != 0 {
            return;
        }
        let random = &mut choice.random;
        let replaced = invalid_in(section, &seen);
        let (room, answer): (_, [usize; READ_NUMBERS]) = match &outcome {
            Err(refusal) => ((random.below(40), random.below(40)), refused(refusal)),
            Ok(flat) => {
                let (n, m) = (flat.words.len(), flat.texts.len());
                // the sections that are there for their count are all read
                match *alike % if kind == REPLACED { 3 } else { 5 } {
                    0 | 1 => ((n, m), [0, n, m, replaced]),
                    2 => ((n + random.below(20), m + random.below(20)), [0, n, m, replaced]),
                    3 if m > 0 => ((n + random.below(9), m - 1), [5, n, m, 0]),
                    3 => ((random.below(n), random.below(9)), [5, n, m, 0]),
                    _ => ((n - 1, m + random.below(9)), [5, n, m, 0]),
                }
            }
        };
        if room.0 > WORDS || room.1 > TEXTS {
            return;
        }
        *alike += 1;
        out.cases += 1;
        out.numbers[answer[0]] += 1;
        put(&mut out.bytes, KIND, 1);
        put(&mut out.bytes, section.len(), 2);
        out.bytes.extend(section);
        put(&mut out.bytes, room.0, 2);
        put(&mut out.bytes, room.1, 2);
        for value in answer {
            put(&mut out.bytes, value, 4);
        }
        if let (Ok(flat), 0) = (&outcome, answer[0]) {
            out.bytes.extend(flat.words.iter().flat_map(|word| word.to_le_bytes()));
            out.bytes.extend(&flat.texts);
            out.replaced += replaced;
            for place in seen.places {
                out.texts[usize::from(std::str::from_utf8(place.bytes(section)).is_err())] += 1;
            }
        }
    };
    let whole = ["document 01's exercises", REPLACED];
    fixed_sections(&mut |kind, section| take(kind, section, if whole.contains(&kind) { 1 } else { 4 }));
    random_sections(&mut Maker::new(SEED), 200_000, &mut |kind, section| take(kind, section, 8));
    out
}

/// Appends a number of `width` bytes.
pub fn put(bytes: &mut Vec<u8>, number: usize, width: usize) {
    assert!(number >> (8 * width) == 0);
    bytes.extend(&number.to_le_bytes()[..width]);
}

/// Takes a number of `width` bytes.
pub fn get(bytes: &mut &[u8], width: usize) -> usize {
    let (number, rest) = bytes.split_at(width);
    *bytes = rest;
    number.iter().rev().fold(0, |n, &b| n << 8 | b as usize)
}

/// The sum of the replaced characters of a section's texts, each found by its number with a scratch of this length.
fn found(section: &[u8], scratch: usize, reader: &dyn Reader) -> usize {
    let mut scratch = vec![0; scratch];
    let mut sum = 0;
    for text in 0.. {
        let mut answer = [0; FIND_NUMBERS];
        reader.find_text(section, text, &mut scratch, &mut answer);
        if answer[0] != 0 {
            break;
        }
        sum += answer[4];
    }
    sum
}

/// Reads every section of a sample, as the program does that the sample is made for. The number of cases, and the first
/// that is not as it should be.
pub fn replay(mut bytes: &[u8], reader: &dyn Reader) -> (usize, Option<usize>) {
    let mut cases = 0;
    let mut first = None;
    while !bytes.is_empty() {
        assert_eq!(get(&mut bytes, 1), KIND);
        let len = get(&mut bytes, 2);
        let (section, rest) = bytes.split_at(len);
        bytes = rest;
        let (n, m) = (get(&mut bytes, 2), get(&mut bytes, 2));
        let wanted = [(); READ_NUMBERS].map(|()| get(&mut bytes, 4));
        let mut words: Vec<u32> = (0..n as u32).map(|i| 0xA5A5_0000 + i).collect();
        let mut texts: Vec<u8> = (0..m).map(|i| 0xA5 ^ i as u8).collect();
        let (mut wanted_words, mut wanted_texts) = (words.clone(), texts.clone());
        if let [0, n, m, _] = wanted {
            for word in &mut wanted_words[..n] {
                *word = get(&mut bytes, 4) as u32;
            }
            for byte in &mut wanted_texts[..m] {
                *byte = get(&mut bytes, 1) as u8;
            }
        }
        let mut answer = [0; READ_NUMBERS];
        reader.read(section, &mut words, &mut texts, &mut answer);
        let summed = wanted[0] != 0 || found(section, wanted[2], reader) == wanted[3];
        if (answer, words, texts) != (wanted, wanted_words, wanted_texts) || !summed {
            first = first.or(Some(cases));
        }
        cases += 1;
    }
    (cases, first)
}
