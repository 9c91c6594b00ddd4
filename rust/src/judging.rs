//! Document 01's judging of a flat record ('Flat record', 'Writing', and refusals 6 and 7), written from those pages and
//! apart from the proved code: the record that two lists are, as the reference's tree, or the first fault that a walk
//! through them meets.
use crate::bflan::anim_info::{AnimContent, AnimInfo, AnimInfoType, AnimType, ExtendedUserDataAnim, PaneAnimInfo};
use crate::bflan::curves::{Curve, HermiteKey, StepKey};
use crate::bflan::targets::{AnimTarget, TargetIndex};
use crate::layout::{FLEU, TARGET_NUMBERS};
use crate::record::LIMIT;
use crate::serialize;

/// The most bytes of a content's name.
pub const NAME: u32 = 28;
/// The greatest number of a field of one byte, and of two.
const U8: u32 = u8::MAX as u32;
const U16: u32 = u16::MAX as u32;

/// Why two lists are no record within the limits.
#[derive(Clone, Copy, Debug, PartialEq, Eq)]
pub enum Fault {
    /// The index of a word that is missing, out of range or over (6).
    Word(usize),
    /// Where among the texts a fault stands (7).
    Text(usize),
}

/// A section's bytes, or document 01's number of a refusal with its value.
pub type Written = Result<Vec<u8>, [usize; 2]>;

/// What writing two lists gives, with room enough: the reference's bytes of the record that they are, or the refusal.
pub fn written(words: &[u32], texts: &[u8]) -> Written {
    match judge(words, texts) {
        Err(Fault::Word(index)) => Err([6, index]),
        Err(Fault::Text(index)) => Err([7, index]),
        Ok(record) => Some(serialize(&record)).filter(|bytes| bytes.len() <= LIMIT).ok_or([8, LIMIT]),
    }
}

/// The record that two lists are.
pub fn judge(words: &[u32], texts: &[u8]) -> Result<PaneAnimInfo, Fault> {
    let mut walk = Walk { words, texts, word: 0, byte: 0 };
    let record = walk.section()?;
    if walk.word < words.len() {
        return Err(Fault::Word(walk.word));
    }
    if walk.byte < texts.len() {
        return Err(Fault::Text(walk.byte));
    }
    Ok(record)
}

/// How far the lists are walked through.
struct Walk<'a> {
    words: &'a [u32],
    texts: &'a [u8],
    word: usize,
    byte: usize,
}

impl Walk<'_> {
    /// The next word, of which `fits` must hold.
    fn word_that(&mut self, fits: impl FnOnce(u32) -> bool) -> Result<u32, Fault> {
        let index = self.word;
        let word = self.words.get(index).copied().filter(|&word| fits(word)).ok_or(Fault::Word(index))?;
        self.word += 1;
        Ok(word)
    }

    /// The next word, at most `most`.
    fn word(&mut self, most: u32) -> Result<u32, Fault> {
        self.word_that(|word| word <= most)
    }

    /// The next word as a float.
    fn float(&mut self) -> Result<f32, Fault> {
        self.word(u32::MAX).map(f32::from_bits)
    }

    /// The next text, of at most `most` bytes: its length is a word.
    fn text(&mut self, most: u32) -> Result<String, Fault> {
        let len = self.word(most)? as usize;
        let start = self.byte;
        let bytes = self.texts[start..].get(..len).ok_or(Fault::Text(self.texts.len()))?;
        let zero = bytes.iter().position(|&byte| byte == 0);
        let ill = std::str::from_utf8(bytes).err().map(|error| error.valid_up_to());
        if let Some(fault) = zero.into_iter().chain(ill).min() {
            return Err(Fault::Text(start + fault));
        }
        self.byte += len;
        Ok(String::from_utf8(bytes.to_vec()).unwrap())
    }

    /// `count` things, one after another. Nothing is asked of the memory before it is known that they are there.
    fn list<T>(&mut self, count: u32, one: impl Fn(&mut Self) -> Result<T, Fault>) -> Result<Vec<T>, Fault> {
        let mut list = Vec::new();
        for _ in 0..count {
            list.push(one(self)?);
        }
        Ok(list)
    }

    fn section(&mut self) -> Result<PaneAnimInfo, Fault> {
        let frame_count = self.word(U16)? as u16;
        let is_looping = self.word(1)? == 1;
        let textures = self.word(U16)?;
        let contents = self.word(U16)?;
        let textures = self.list(textures, |walk| walk.text(u32::MAX))?;
        let contents = self.list(contents, Walk::content)?;
        Ok(PaneAnimInfo { frame_count, is_looping, textures, contents })
    }

    fn content(&mut self) -> Result<AnimContent, Fault> {
        let name = self.text(NAME)?;
        let anim_type = AnimType::from(self.word(4)? as u8);
        let infos = self.word(U8)?;
        Ok(AnimContent { name, anim_type, infos: self.list(infos, Walk::info)? })
    }

    fn info(&mut self) -> Result<AnimInfo, Fault> {
        let listed = |letters| TARGET_NUMBERS.iter().find(|(code, _)| u32::from_le_bytes(**code) == letters);
        let letters = self.word_that(|word| word == 0 || word == FLEU || listed(word).is_some())?;
        let anim_type = AnimInfoType::from(letters);
        let count = self.word(U8)?;
        if letters == FLEU {
            return Ok(AnimInfo::ExtendedUserData { anim_type, data: self.list(count, Walk::datum)? });
        }
        let numbers = listed(letters).map(|&(_, numbers)| numbers as u32);
        let targets = self.list(count, |walk| walk.target(anim_type, numbers))?;
        Ok(AnimInfo::Standard { anim_type, targets })
    }

    /// A target of letters that have so many numbers, or that are not listed.
    fn target(&mut self, letters: AnimInfoType, numbers: Option<u32>) -> Result<AnimTarget, Fault> {
        let layer = self.word(U8)? as u8;
        let target = self.word_that(|word| numbers.map_or(word == 255, |numbers| word < numbers))?;
        let target = TargetIndex::resolve(&letters, target as u8);
        let curve = self.word(2)?;
        let count = self.word(U16)?;
        let curve = match curve {
            0 => Curve::Constant(self.list(count, Walk::float)?),
            1 => Curve::Step(
                self.list(count, |walk| Ok(StepKey { frame: walk.float()?, value: walk.word(U16)? as u16 }))?,
            ),
            _ => Curve::Hermite(self.list(count, |walk| {
                Ok(HermiteKey { frame: walk.float()?, value: walk.float()?, slope: walk.float()? })
            })?),
        };
        Ok(AnimTarget { layer, target, curve })
    }

    fn datum(&mut self) -> Result<ExtendedUserDataAnim, Fault> {
        let header_size = self.word(u32::MAX)?;
        let unk_1 = self.word(U16)? as u16;
        let unk_2 = self.word(U16)? as u16;
        let base_count = self.word(u32::MAX)?;
        let unk_3 = self.word(u32::MAX)?;
        let values = self.list(3, |walk| walk.list(base_count, Walk::float))?;
        let key = self.text(u32::MAX)?;
        Ok(ExtendedUserDataAnim { header_size, unk_1, unk_2, base_count, unk_3, values, key })
    }
}
