//! A sample of small records with the reference's bytes, for a program that has no reference beside it: cases of another kind,
//! which stand behind those of `sample.rs`. A case is
//!
//! | bytes | |
//! |---|---|
//! | 1 | 1: a record to write |
//! | 2, 2, 2 | the lengths of the record's words n and text bytes m, and of the output |
//! | 4 n, m | the words and the text bytes |
//! | 4, 4 | the answer: document 01's number, and its value a |
//! | a | where the number is 0: the section |
//!
//! The program writes each record into an output of that length that it has filled with something. The answer must be the one
//! that stands here; the output must begin with the section, if the number is 0, and be otherwise as it was.
//!
//! The records are those of `records.rs`: some that are the same for every seed, and of each random kind and each outcome about
//! as many. Of the records that are written, some get an output that fits exactly, some a longer one, and some one that lacks a
//! byte, or much. The bytes are the reference's. What it cannot be asked, records beyond the limits, is answered by the judging
//! walk. No record of this size is longer than the limit as a section, so no case has refusal 8.
use std::collections::HashMap;

use crate::bflan::file::BflanSections;
use crate::judging::written;
use crate::record::flat;
use crate::records::{Given, fixed_records, random_records};
use crate::sample::{SEED, TEXTS, WORDS, get, put};
use crate::sections::Maker;
use crate::writer::Writer;
use crate::{parse, serialize};

/// The longest output: what the program must have room for.
pub const OUTPUT: usize = 512;

/// The kinds of which no record is left out.
const WHOLE: [&str; 4] = [
    "document 01's exercises",
    "the first out of range at every word",
    "targets around their number",
    "several faults",
];
/// The most cases of another kind with one outcome.
const ALIKE: usize = 15;
/// The first byte of a case.
const KIND: usize = 1;

#[derive(Default)]
pub struct Sample {
    pub bytes: Vec<u8>,
    pub cases: usize,
    /// How many cases have each number as their answer.
    pub numbers: [usize; 10],
}

/// Makes the sample, always the same.
pub fn sample() -> Sample {
    let mut out = Sample::default();
    let mut alike = HashMap::new();
    let mut choice = Maker::new(SEED);
    let mut take = |kind: &str, given: Given, share: usize| {
        let whole = WHOLE.contains(&kind);
        let (record, bytes) = match given {
            Given::Lists(record) => (record.clone(), None),
            Given::Section(section) => match parse(section) {
                Ok(BflanSections::PaneAnimInfo(tree)) => (flat(&tree), Some(serialize(&tree))),
                _ => return,
            },
        };
        let outcome = written(&record.words, &record.texts);
        // the reference's bytes of the record that it read itself, where there are any
        assert!(outcome.is_err() || bytes.is_none() || outcome.as_ref().ok() == bytes.as_ref());
        let number = outcome.as_ref().map_or_else(|refusal| refusal[0], |_| 0);
        let alike: &mut usize = alike.entry((kind.to_owned(), number)).or_default();
        if !whole && (*alike == ALIKE || choice.random.below(share) != 0) {
            return;
        }
        let random = &mut choice.random;
        let (room, answer) = match &outcome {
            // little room, or enough for what a writer would write that lets it through
            Err(refusal) => (random.below(40) + if *alike % 2 == 0 { 0 } else { OUTPUT - 40 }, *refusal),
            Ok(section) => {
                let len = section.len();
                match *alike % 5 {
                    0 | 1 => (len, [0, len]),
                    2 => (len + random.below(20), [0, len]),
                    3 => (len - 1, [9, len]),
                    _ => (random.below(len), [9, len]),
                }
            }
        };
        if record.words.len() > WORDS || record.texts.len() > TEXTS || room > OUTPUT {
            return;
        }
        *alike += 1;
        out.cases += 1;
        out.numbers[answer[0]] += 1;
        put(&mut out.bytes, KIND, 1);
        for length in [record.words.len(), record.texts.len(), room] {
            put(&mut out.bytes, length, 2);
        }
        out.bytes.extend(record.words.iter().flat_map(|word| word.to_le_bytes()));
        out.bytes.extend(&record.texts);
        for value in answer {
            put(&mut out.bytes, value, 4);
        }
        if let (Ok(section), 0) = (&outcome, answer[0]) {
            out.bytes.extend(section);
        }
    };
    fixed_records(&mut |kind, given| take(kind, given, 5));
    random_records(&mut Maker::new(SEED), 200_000, &mut |kind, given| take(kind, given, 40));
    out
}

/// Writes every record of a sample, as the program does that the sample is made for. The number of cases, and the first that is
/// not as it should be.
pub fn replay(mut bytes: &[u8], writer: &dyn Writer) -> (usize, Option<usize>) {
    let mut cases = 0;
    let mut first = None;
    while !bytes.is_empty() {
        assert_eq!(get(&mut bytes, 1), KIND);
        let (n, m, room) = (get(&mut bytes, 2), get(&mut bytes, 2), get(&mut bytes, 2));
        let words: Vec<u32> = (0..n).map(|_| get(&mut bytes, 4) as u32).collect();
        let (texts, rest) = bytes.split_at(m);
        bytes = rest;
        let wanted = [get(&mut bytes, 4), get(&mut bytes, 4)];
        let mut out: Vec<u8> = (0..room).map(|i| 0xA5 ^ i as u8).collect();
        let mut wanted_out = out.clone();
        if let [0, len] = wanted {
            let (section, rest) = bytes.split_at(len);
            wanted_out[..len].copy_from_slice(section);
            bytes = rest;
        }
        let mut answer = [0; 3];
        writer.write(&words, texts, &mut out, &mut answer);
        if (answer, out) != ([wanted[0], wanted[1], 0], wanted_out) {
            first = first.or(Some(cases));
        }
        cases += 1;
    }
    (cases, first)
}
