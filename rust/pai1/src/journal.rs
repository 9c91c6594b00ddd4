use crate::change::Change;
use crate::raw;
use crate::refusal::{Refusal, accepted};

/// The words of an entry.
const ENTRY_WORDS: usize = 5;

/// What is needed to take edits back: document 01's list of words with how many entries of it count.
#[derive(Clone, Debug)]
pub struct Journal {
    words: Vec<u32>,
    count: usize,
    grows: bool,
}

impl Journal {
    /// An empty journal that grows with the edits, so that none is refused for want of room.
    pub fn new() -> Journal {
        Journal { words: Vec::new(), count: 0, grows: true }
    }

    /// An empty journal with room for so many entries and no more: the next edit is refused with
    /// [`Refusal::JournalFull`].
    pub fn bounded(entries: usize) -> Journal {
        Journal { words: vec![0; ENTRY_WORDS * entries], count: 0, grows: false }
    }

    /// A journal as it was kept: any words and any count. It grows as that of [`new`](Journal::new) does, unless the count
    /// is above what the words have room for, a fifth as many entries: then entries are missing, and an edit is refused
    /// with [`Refusal::JournalFull`].
    pub fn of_words(words: Vec<u32>, count: usize) -> Journal {
        Journal { words, count, grows: true }
    }

    /// The words, also those behind the entries that count.
    pub fn words(&self) -> &[u32] {
        &self.words
    }

    /// How many entries count: as many edits can be taken back.
    pub fn count(&self) -> usize {
        self.count
    }

    /// The entries that count, the oldest first. None where an entry is none that an edit makes.
    pub fn entries(&self) -> impl DoubleEndedIterator<Item = Option<Entry>> {
        self.words.chunks_exact(ENTRY_WORDS).take(self.count).map(Entry::of)
    }

    /// Edits a section, and keeps what stood there.
    pub(crate) fn edit(&mut self, section: &mut [u8], change: &Change) -> Result<usize, Refusal> {
        let mut answer = accepted(change.call(section, &mut self.words, self.count));
        // no entry is made up where the count is above the room
        if self.grows && answer == Err(Refusal::JournalFull { capacity: self.count }) {
            let room = 2 * self.words.len() + ENTRY_WORDS;
            self.words.resize(room, 0);
            answer = accepted(change.call(section, &mut self.words, self.count));
        }
        self.count = answer?[1];
        Ok(self.count)
    }

    /// Takes the last edit back.
    pub(crate) fn undo(&mut self, section: &mut [u8]) -> Result<usize, Refusal> {
        let mut answer = [0; 3];
        raw::undo(section, &self.words, self.count, &mut answer);
        self.count = accepted(answer)?[1];
        Ok(self.count)
    }
}

/// [`Journal::new`]: an empty journal that grows.
impl Default for Journal {
    fn default() -> Journal {
        Journal::new()
    }
}

/// An entry of a journal: the bytes that stood at an offset before an edit.
#[derive(Clone, Copy, Debug, PartialEq, Eq)]
pub struct Entry {
    offset: u32,
    old: [u8; 12],
    size: usize,
}

impl Entry {
    fn of(words: &[u32]) -> Option<Entry> {
        let size = words[1] as usize;
        let mut old = [0; 12];
        for (bytes, word) in old.chunks_exact_mut(4).zip(&words[2..]) {
            bytes.copy_from_slice(&word.to_le_bytes());
        }
        let made = matches!(size, 1 | 2 | 4 | 6 | 12) && old[size..].iter().all(|&byte| byte == 0);
        made.then_some(Entry { offset: words[0], old, size })
    }

    /// Where the bytes stood.
    pub fn offset(&self) -> usize {
        self.offset as usize
    }

    /// The bytes.
    pub fn old(&self) -> &[u8] {
        &self.old[..self.size]
    }
}
