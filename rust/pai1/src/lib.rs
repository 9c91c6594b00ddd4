//! Reads, writes and edits pai1 sections, the animations of BFLAN files, by code that is proved to do what document 01 of
//! its repository says.
//!
//! Any bytes end in an answer: a result, or a [`Refusal`] that says what is wrong and has changed nothing. Nothing here
//! is unsafe to call, and no argument has to be checked before.
//!
//! - [`read`] gives a section's [`Record`], and [`text`] one of its texts alone. [`read_counted`] and [`text_counted`] also
//!   say how many characters were replaced since the bytes are not UTF-8: a name that was saved in another encoding.
//! - [`write()`] gives a record's section. A record that is written is read back bit for bit.
//! - [`edit`] changes a field of a finished section in place, and [`undo`] takes the last edit back by its [`Journal`].
//!   A [`Section`] has the bytes and the journal together.
//! - [`field_at`] says what stands in a field now, as the [`Change`] that puts it there.
//!
//! ```
//! use pai1::{Record, read};
//!
//! // 60 frames, looping, no texture and no content
//! let section = Record::new(vec![60, 1, 0, 0], vec![])?.write()?;
//! assert_eq!(section, b"pai1\x14\0\0\0\x3C\0\x01\0\0\0\0\0\x14\0\0\0");
//! let record = read(&section)?;
//! assert!(record.is_looping());
//! assert_eq!(read(&section[..6]).unwrap_err().to_string(), "the section asks for 4 bytes at offset 4, past its end");
//! # Ok::<(), pai1::Refusal>(())
//! ```
//!
//! # What a reading can cost
//!
//! Many offsets of a section may lead to one part. So its record, and the time that any call takes that reads it, is
//! bounded by what the offsets lead to and not by the section's length: see [`read_within`].
#![deny(missing_docs)]
#![deny(unsafe_code)]

use std::borrow::Cow;

mod change;
mod counted;
mod journal;
mod names;
pub mod raw;
mod record;
mod refusal;
mod section;

pub use change::{Change, Place, TargetPlace, ValuePlace};
pub use counted::{Reading, Text};
pub use journal::{Entry, Journal};
pub use names::{AnimInfoType, AnimType, TargetIndex};
pub use record::{
    AnimContent, AnimInfo, AnimTarget, Curve, ExtendedUserDataAnim, HermiteKey, Key, Keys, Parts, Record, StepKey,
};
pub use refusal::Refusal;
pub use section::Section;

use refusal::accepted;

/// The most bytes that a section may have.
pub const LIMIT: usize = 16_777_216;

/// How much a section's record needs: words, and text bytes.
///
/// Refused with [`Refusal::TooLong`], [`Refusal::PastEnd`], [`Refusal::NotPai1`] or [`Refusal::NoZero`].
pub fn needs(section: &[u8]) -> Result<(usize, usize), Refusal> {
    let mut answer = [0; 3];
    raw::read(section, &mut [], &mut [], &mut answer);
    match accepted(answer) {
        // a record has at least four words, so this is what a section that reads is answered with
        Err(Refusal::TablesTooShort { words, texts }) => Ok((words, texts)),
        Err(refusal) => Err(refusal),
        Ok(_) => unreachable!("no record has no word"),
    }
}

/// Reads a section.
///
/// Refused as [`needs`] is, and with [`Refusal::TablesTooShort`] where the memory that the record needs is not to be had.
pub fn read(section: &[u8]) -> Result<Record, Refusal> {
    read_within(section, usize::MAX, usize::MAX)
}

/// Reads a section if its record needs at most so many words and text bytes.
///
/// A section's record can be far larger than the section: 65,535 contents may be one content that is named 65,535 times,
/// and its infos and their targets likewise. A program that reads sections of strangers should say what it is ready to
/// hold.
///
/// Refused as [`needs`] is, and with [`Refusal::TablesTooShort`] where the record needs more.
pub fn read_within(section: &[u8], most_words: usize, most_texts: usize) -> Result<Record, Refusal> {
    read_counted(section, most_words, most_texts).map(|reading| reading.record)
}

/// Reads a section as [`read_within`] does, and says how many characters were replaced in the record's texts.
///
/// A text of a section should be UTF-8. Where it is not, each maximal ill-formed subpart becomes one U+FFFD, and what stood
/// there cannot be told from the record. The count says that this has happened: as a rule, some program has saved the names
/// in another encoding, and writing the record would lose them. A U+FFFD that the section itself holds, well-formed, is a
/// character like another and not counted, so looking for U+FFFD in the texts does not tell.
///
/// Refused as [`read_within`] is.
///
/// ```
/// // content `P`, a Pane, with a Step key (0.0, 1) for its visibility
/// let flvi = u32::from_le_bytes(*b"FLVI");
/// let words = vec![60, 0, 0, 1, 1, 0, 1, flvi, 1, 0, 0, 1, 1, 0, 1];
/// let mut section = pai1::Record::new(words, b"P".to_vec())?.write()?;
/// assert_eq!(pai1::read_counted(&section, 100, 100)?.replaced, 0);
///
/// // the name is the byte 80, which is no UTF-8
/// section[24] = 0x80;
/// let reading = pai1::read_counted(&section, 100, 100)?;
/// assert_eq!((reading.record.words().len(), reading.record.texts(), reading.replaced), (15, "\u{FFFD}", 1));
///
/// // the name is a U+FFFD
/// section[24..27].copy_from_slice("\u{FFFD}".as_bytes());
/// let there = pai1::read_counted(&section, 100, 100)?;
/// assert_eq!((there.record, there.replaced), (reading.record, 0));
/// # Ok::<(), pai1::Refusal>(())
/// ```
pub fn read_counted(section: &[u8], most_words: usize, most_texts: usize) -> Result<Reading, Refusal> {
    let (words, texts) = needs(section)?;
    let too_short = Refusal::TablesTooShort { words, texts };
    if words > most_words || texts > most_texts {
        return Err(too_short);
    }
    let mut word_table: Vec<u32> = zeros(words).ok_or(too_short)?;
    let mut text_table: Vec<u8> = zeros(texts).ok_or(too_short)?;
    let mut answer = [0; 4];
    raw::read(section, &mut word_table, &mut text_table, &mut answer);
    let [_, _, _, replaced] = accepted(answer)?;
    Ok(Reading { record: Record::shaped(word_table, text_table), replaced })
}

/// So many zeros, if there is memory for them.
fn zeros<T: Clone + From<u8>>(count: usize) -> Option<Vec<T>> {
    let mut table = Vec::new();
    table.try_reserve_exact(count).ok()?;
    table.resize(count, T::from(0));
    Some(table)
}

/// One text of a section by its number: texture names first, then each content's name and the keys of its extended data.
/// It is borrowed where it is well-formed in the section, and otherwise decoded, each maximal ill-formed subpart as
/// U+FFFD.
///
/// Refused as [`needs`] is, and with [`Refusal::NoSuchPlace`].
///
/// ```
/// let section = pai1::Record::new(vec![0, 0, 1, 0, 1], b"a".to_vec())?.write()?;
/// assert_eq!(pai1::text(&section, 0)?, "a");
/// assert_eq!(pai1::text(&section, 1), Err(pai1::Refusal::NoSuchPlace));
/// # Ok::<(), pai1::Refusal>(())
/// ```
pub fn text(section: &[u8], number: usize) -> Result<Cow<'_, str>, Refusal> {
    text_counted(section, number).map(|found| found.text)
}

/// One text of a section as [`text`] gives it, and how many of its characters were replaced: none where it is borrowed, and
/// at least one where it is not. The sum over a section's texts is what [`read_counted`] says.
///
/// Refused as [`text`] is.
///
/// ```
/// let mut section = pai1::Record::new(vec![0, 0, 1, 0, 3], b"fin".to_vec())?.write()?;
/// assert_eq!(pai1::text_counted(&section, 0)?.replaced, 0);
/// // the texture's name begins with the two bytes C0 80, neither of which begins a character
/// section[24..26].copy_from_slice(b"\xC0\x80");
/// let found = pai1::text_counted(&section, 0)?;
/// assert_eq!((&*found.text, found.replaced), ("\u{FFFD}\u{FFFD}n", 2));
/// # Ok::<(), pai1::Refusal>(())
/// ```
pub fn text_counted(section: &[u8], number: usize) -> Result<Text<'_>, Refusal> {
    let mut scratch = Vec::new();
    let mut answer = [0; 5];
    raw::find_text(section, number, &mut scratch, &mut answer);
    if let Err(Refusal::ScratchTooShort { bytes }) = accepted(answer) {
        scratch.resize(bytes, 0);
        raw::find_text(section, number, &mut scratch, &mut answer);
    }
    let [_, source, start, len, replaced] = accepted(answer)?;
    const WELL_FORMED: &str = "a text that is found is well-formed";
    let text = match source {
        0 => Cow::Borrowed(std::str::from_utf8(&section[start..start + len]).expect(WELL_FORMED)),
        _ => Cow::Owned(String::from_utf8(scratch).expect(WELL_FORMED)),
    };
    Ok(Text { text, replaced })
}

/// Writes a record's section.
///
/// A record that [`Record::new`] gave is never refused. One that was read may be beyond the limits of a record that is
/// written: [`Refusal::BadWord`] where a name of 28 ill-formed bytes has become longer, [`Refusal::OverLimit`] where
/// parts that were shared in the section it comes from are written one by one.
pub fn write(record: &Record) -> Result<Vec<u8>, Refusal> {
    let (words, texts) = (record.words(), record.texts().as_bytes());
    let mut answer = [0; 3];
    raw::write(words, texts, &mut [], &mut answer);
    let mut section = Vec::new();
    if let Err(Refusal::OutputTooShort { length }) = accepted(answer) {
        section.resize(length, 0);
        raw::write(words, texts, &mut section, &mut answer);
    }
    accepted(answer)?;
    Ok(section)
}

/// What stands in a field of a section now, as the change that puts it there: of the same field and place, with the value
/// that reading gives. Nothing is read into tables for it.
///
/// Looping and a target's number are as the record has them: a looping byte of 5 is true, a target at or above its letters'
/// number is 0, and every target of an invalid info is 255. So the change always fits its place. An edit by it changes the
/// byte where it was another.
///
/// Refused as [`needs`] is, then with [`Refusal::NoSuchPlace`].
///
/// ```
/// use pai1::{Change, Journal, Key, Place, Record, Refusal, StepKey, TargetPlace, edit, field_at};
///
/// // content `P`, a Pane, with a Step key (0.0, 1) for its visibility
/// let flvi = u32::from_le_bytes(*b"FLVI");
/// let words = vec![60, 0, 0, 1, 1, 0, 1, flvi, 1, 0, 0, 1, 1, 0, 1];
/// let mut section = Record::new(words, b"P".to_vec())?.write()?;
///
/// let place = TargetPlace { content: 0, info: 0, target: 0 };
/// let before = field_at(&section, Place::Key(place, 0))?;
/// assert_eq!(before, Change::Key(place, 0, Key::Step(StepKey { frame: 0.0, value: 1 })));
/// assert_eq!(field_at(&section, Place::Key(place, 1)), Err(Refusal::NoSuchPlace));
///
/// // another key, and the one before it put back
/// let (written, mut journal) = (section.clone(), Journal::new());
/// let new = Change::Key(place, 0, Key::Step(StepKey { frame: 0.0, value: 0 }));
/// edit(&mut section, &mut journal, &new)?;
/// assert_eq!(field_at(&section, new.place())?, new);
/// edit(&mut section, &mut journal, &before)?;
/// assert_eq!(section, written);
/// # Ok::<(), pai1::Refusal>(())
/// ```
pub fn field_at(section: &[u8], place: Place) -> Result<Change, Refusal> {
    let [_, count, values @ ..] = accepted(place.call(section))?;
    Ok(place.with(&values.map(|value| value as u32)[..count]))
}

/// Changes one field of a section in place, and keeps what stood there as a new entry of the journal. Only the field's
/// bytes change. Returns how many edits can now be taken back.
///
/// Refused as [`needs`] is, then with [`Refusal::NoSuchPlace`], [`Refusal::Unfit`] or [`Refusal::JournalFull`].
pub fn edit(section: &mut [u8], journal: &mut Journal, change: &Change) -> Result<usize, Refusal> {
    journal.edit(section, change)
}

/// Takes the last edit of the journal back: the bytes that it changed are as they were. Returns how many are left.
///
/// An entry of another section's journal is not noticed: its bytes are restored where they lie within this section, and
/// what stood there is lost. So keep a journal with its section, as [`Section`] does.
///
/// Refused with [`Refusal::TooLong`], [`Refusal::NothingToUndo`] or [`Refusal::BadJournal`].
pub fn undo(section: &mut [u8], journal: &mut Journal) -> Result<usize, Refusal> {
    journal.undo(section)
}
