use std::fmt;

use crate::LIMIT;

/// Why a call did nothing: document 01's refusals, with the values that it lists for each. A refused call changes nothing
/// that was given to it.
#[derive(Clone, Copy, Debug, PartialEq, Eq, Hash)]
pub enum Refusal {
    /// 1: the section's letters are not `pai1`.
    NotPai1 {
        /// The letters that stand there.
        letters: [u8; 4],
    },
    /// 2: the section is longer than [`LIMIT`].
    TooLong {
        /// Its length.
        length: usize,
    },
    /// 3: the section asks for bytes past its end.
    PastEnd {
        /// Where they would begin.
        offset: usize,
        /// How many were asked for; where an offset leads past the end, how far past it.
        requested: usize,
    },
    /// 4: a text of the section does not end.
    NoZero {
        /// Where it starts.
        start: usize,
    },
    /// 5: the section reads, but its record is larger than the tables.
    TablesTooShort {
        /// The words that are needed.
        words: usize,
        /// The text bytes that are needed.
        texts: usize,
    },
    /// 5 as well: the text, decoded, is longer than the scratch.
    ScratchTooShort {
        /// The bytes that are needed.
        bytes: usize,
    },
    /// 6: a word of the record is missing, out of range or left over.
    BadWord {
        /// Which word.
        index: usize,
    },
    /// 7: a byte of the record's texts is missing, ill-formed, a zero, or left over.
    BadText {
        /// Which byte.
        index: usize,
    },
    /// 8: the section would be longer than [`LIMIT`].
    OverLimit,
    /// 9: the section is longer than the output.
    OutputTooShort {
        /// The section's length.
        length: usize,
    },
    /// 10: the section has no such text or field.
    NoSuchPlace,
    /// 11: the field does not take the new value.
    Unfit,
    /// 12: the journal has no room for another entry.
    JournalFull {
        /// How many entries it has room for.
        capacity: usize,
    },
    /// 13: there is no edit to take back.
    NothingToUndo,
    /// 14: the count is above what the journal has room for; or the last entry's byte count is none of 1, 2, 4, 6 and 12,
    /// its fill is not zero, or its bytes lie past the section. Nothing else is tested.
    BadJournal {
        /// How many entries the journal is said to have.
        count: usize,
    },
}

impl Refusal {
    /// Document 01's number.
    pub fn number(&self) -> usize {
        match self {
            Refusal::NotPai1 { .. } => 1,
            Refusal::TooLong { .. } => 2,
            Refusal::PastEnd { .. } => 3,
            Refusal::NoZero { .. } => 4,
            Refusal::TablesTooShort { .. } | Refusal::ScratchTooShort { .. } => 5,
            Refusal::BadWord { .. } => 6,
            Refusal::BadText { .. } => 7,
            Refusal::OverLimit => 8,
            Refusal::OutputTooShort { .. } => 9,
            Refusal::NoSuchPlace => 10,
            Refusal::Unfit => 11,
            Refusal::JournalFull { .. } => 12,
            Refusal::NothingToUndo => 13,
            Refusal::BadJournal { .. } => 14,
        }
    }
}

/// The values of an accepted answer, or the refusal.
pub(crate) fn accepted<const N: usize>(answer: [usize; N]) -> Result<[usize; N], Refusal> {
    let (a, b) = (answer[1], answer[2]);
    Err(match answer[0] {
        0 => return Ok(answer),
        1 => Refusal::NotPai1 { letters: (a as u32).to_le_bytes() },
        2 => Refusal::TooLong { length: a },
        3 => Refusal::PastEnd { offset: a, requested: b },
        4 => Refusal::NoZero { start: a },
        // a record has at least four words, and a text that needs a scratch at least a byte
        5 if a == 0 => Refusal::ScratchTooShort { bytes: b },
        5 => Refusal::TablesTooShort { words: a, texts: b },
        6 => Refusal::BadWord { index: a },
        7 => Refusal::BadText { index: a },
        8 => Refusal::OverLimit,
        9 => Refusal::OutputTooShort { length: a },
        10 => Refusal::NoSuchPlace,
        11 => Refusal::Unfit,
        12 => Refusal::JournalFull { capacity: a },
        13 => Refusal::NothingToUndo,
        14 => Refusal::BadJournal { count: a },
        number => unreachable!("the contracts of the calls have no answer {number}"),
    })
}

/// The letters, which can be any bytes, as the programs of the repository show them: a quote and a backslash behind a
/// backslash, and what is no printable ASCII as `\x` with two digits.
fn shown(letters: [u8; 4]) -> String {
    let one = |byte: u8| match byte {
        b'"' | b'\\' => format!("\\{}", char::from(byte)),
        b' '..=b'~' => char::from(byte).to_string(),
        _ => format!("\\x{byte:02X}"),
    };
    letters.map(one).concat()
}

/// A count with what is counted.
fn of(count: usize, one: &str, more: &str) -> String {
    format!("{count} {}", if count == 1 { one } else { more })
}

impl fmt::Display for Refusal {
    fn fmt(&self, f: &mut fmt::Formatter<'_>) -> fmt::Result {
        match *self {
            Refusal::NotPai1 { letters } => {
                write!(f, "the section's letters are \"{}\" and not \"pai1\"", shown(letters))
            }
            Refusal::TooLong { length } => {
                write!(f, "the section has {}, and at most {LIMIT} are read", of(length, "byte", "bytes"))
            }
            Refusal::PastEnd { offset, requested } => {
                write!(f, "the section asks for {} at offset {offset}, past its end", of(requested, "byte", "bytes"))
            }
            Refusal::NoZero { start } => write!(f, "the text at offset {start} has no zero byte at its end"),
            Refusal::TablesTooShort { words, texts } => {
                write!(
                    f,
                    "the section's record needs {} and {}",
                    of(words, "word", "words"),
                    of(texts, "text byte", "text bytes")
                )
            }
            Refusal::ScratchTooShort { bytes } => write!(f, "the decoded text needs {}", of(bytes, "byte", "bytes")),
            Refusal::BadWord { index } => {
                write!(f, "word {index} of the record is missing, out of range or left over")
            }
            Refusal::BadText { index } => {
                write!(f, "byte {index} of the record's texts is missing, ill-formed, a zero or left over")
            }
            Refusal::OverLimit => write!(f, "the record's section would have more than {LIMIT} bytes"),
            Refusal::OutputTooShort { length } => {
                write!(f, "the record's section has {}, more than the output", of(length, "byte", "bytes"))
            }
            Refusal::NoSuchPlace => write!(f, "the section has no such text or field"),
            Refusal::Unfit => write!(f, "the field does not take this value"),
            Refusal::JournalFull { capacity } => {
                write!(f, "the journal is full: it has room for {}", of(capacity, "entry", "entries"))
            }
            Refusal::NothingToUndo => write!(f, "there is no edit to undo"),
            Refusal::BadJournal { count } => {
                write!(
                    f,
                    "the journal's last entry ({count} in all) is not there, or its byte count is none of 1, 2, 4, 6 and \
                     12, or its fill is not zero, or its bytes lie past the section"
                )
            }
        }
    }
}

impl std::error::Error for Refusal {}
