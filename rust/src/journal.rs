//! Document 01's journal: an entry is five words, the byte offset, the byte count, and the old bytes in three words that
//! are filled up with zeros.

/// The words of an entry.
pub const ENTRY_WORDS: usize = 5;
/// The byte counts that a field can have.
pub const FIELD_SIZES: [usize; 5] = [1, 2, 4, 6, 12];

/// Bytes that stood at an offset.
#[derive(Clone, Debug)]
pub struct Entry {
    pub at: usize,
    pub old: Vec<u8>,
}

impl Entry {
    /// The words of an entry.
    pub fn words(&self) -> [u32; ENTRY_WORDS] {
        let mut bytes = [0; 12];
        bytes[..self.old.len()].copy_from_slice(&self.old);
        let word = |i: usize| u32::from_le_bytes(bytes[4 * i..4 * i + 4].try_into().unwrap());
        [self.at as u32, self.old.len() as u32, word(0), word(1), word(2)]
    }

    /// The entry of these words, if it can be undone in a section of `len` bytes.
    pub fn sound(words: &[u32], len: usize) -> Option<Entry> {
        let (at, count) = (words[0] as usize, words[1] as usize);
        let bytes: Vec<u8> = words[2..].iter().flat_map(|word| word.to_le_bytes()).collect();
        let sound = FIELD_SIZES.contains(&count) && bytes[count..].iter().all(|&byte| byte == 0) && at + count <= len;
        sound.then(|| Entry { at, old: bytes[..count].to_vec() })
    }
}
