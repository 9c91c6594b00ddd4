use crate::change::{Change, Place};
use crate::counted::Reading;
use crate::journal::Journal;
use crate::record::Record;
use crate::refusal::Refusal;
use crate::{edit, field_at, read, read_counted, read_within, undo};

/// A section that is edited: its bytes, and the journal of its edits.
///
/// ```
/// use pai1::{Change, Key, Record, Section, StepKey, TargetPlace};
///
/// // content `P`, a Pane, with a Step key (0.0, 1) for its visibility
/// let flvi = u32::from_le_bytes(*b"FLVI");
/// let words = vec![0, 0, 0, 1, 1, 0, 1, flvi, 1, 0, 0, 1, 1, 0, 1];
/// let bytes = Record::new(words, b"P".to_vec())?.write()?;
///
/// let mut section = Section::new(bytes.clone())?;
/// let place = TargetPlace { content: 0, info: 0, target: 0 };
/// section.edit(&Change::Key(place, 0, Key::Step(StepKey { frame: 0.0, value: 0 })))?;
/// assert_eq!((bytes[88], section.bytes()[88]), (1, 0));
/// section.undo()?;
/// assert_eq!(section.bytes(), bytes);
/// # Ok::<(), pai1::Refusal>(())
/// ```
#[derive(Clone, Debug)]
pub struct Section {
    bytes: Vec<u8>,
    journal: Journal,
}

impl Section {
    /// A section with an empty journal that grows. It is refused as a reading of it would be.
    pub fn new(bytes: Vec<u8>) -> Result<Section, Refusal> {
        crate::needs(&bytes)?;
        Ok(Section::with_journal(bytes, Journal::new()))
    }

    /// Any bytes with any journal. Calls answer as document 01 says, whatever these are.
    pub fn with_journal(bytes: Vec<u8>, journal: Journal) -> Section {
        Section { bytes, journal }
    }

    /// The bytes as they are now.
    pub fn bytes(&self) -> &[u8] {
        &self.bytes
    }

    /// The journal as it is now.
    pub fn journal(&self) -> &Journal {
        &self.journal
    }

    /// The bytes and the journal, for whoever works on.
    pub fn into_parts(self) -> (Vec<u8>, Journal) {
        (self.bytes, self.journal)
    }

    /// Reads the section: [`read`](crate::read).
    pub fn read(&self) -> Result<Record, Refusal> {
        read(&self.bytes)
    }

    /// Reads the section if its record needs at most so many words and text bytes:
    /// [`read_within`](crate::read_within). A section of a stranger can ask for tables far longer than itself.
    pub fn read_within(&self, most_words: usize, most_texts: usize) -> Result<Record, Refusal> {
        read_within(&self.bytes, most_words, most_texts)
    }

    /// Reads the section as [`read_within`](Section::read_within) does, and says how many characters were replaced:
    /// [`read_counted`](crate::read_counted).
    pub fn read_counted(&self, most_words: usize, most_texts: usize) -> Result<Reading, Refusal> {
        read_counted(&self.bytes, most_words, most_texts)
    }

    /// What stands in a field now, as the change that puts it there: [`field_at`](crate::field_at).
    pub fn field_at(&self, place: Place) -> Result<Change, Refusal> {
        field_at(&self.bytes, place)
    }

    /// Changes a field, and returns how many edits can now be taken back: [`edit`](crate::edit).
    pub fn edit(&mut self, change: &Change) -> Result<usize, Refusal> {
        edit(&mut self.bytes, &mut self.journal, change)
    }

    /// Takes the last edit back, and returns how many are left: [`undo`](crate::undo).
    pub fn undo(&mut self) -> Result<usize, Refusal> {
        undo(&mut self.bytes, &mut self.journal)
    }

    /// Takes all edits back, and returns how many there were. Where an entry is refused with [`Refusal::BadJournal`], it
    /// stays with those before it, and those behind it are taken back. An entry of another section's journal is restored
    /// as [`undo`](crate::undo) says.
    pub fn undo_all(&mut self) -> Result<usize, Refusal> {
        let edits = self.journal.count();
        while self.journal.count() > 0 {
            self.undo()?;
        }
        Ok(edits)
    }
}
