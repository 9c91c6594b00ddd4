use std::fmt;
use std::marker::PhantomData;

use crate::names::{AnimInfoType, AnimType, TargetIndex};
use crate::refusal::{Refusal, accepted};
use crate::{raw, write};

/// Document 01's flat record: a list of words, and the texts one behind another. nnbfl's `PaneAnimInfo` holds the same.
///
/// Its parts are read off in place, under the names that nnbfl gives them, and nothing is copied:
///
/// ```
/// use pai1::{AnimInfo, AnimType, Curve, Key, Record, StepKey};
///
/// let flvi = u32::from_le_bytes(*b"FLVI");
/// let words = vec![60, 1, 0, 1, 1, 0, 1, flvi, 1, 0, 0, 1, 1, 0, 1];
/// let record = Record::new(words, b"P".to_vec())?;
/// assert_eq!(record.frame_count(), 60);
/// for content in record.contents() {
///     assert_eq!((content.name, content.anim_type), ("P", AnimType::Pane));
///     for info in content.infos {
///         let AnimInfo::Standard { targets, .. } = info else { panic!() };
///         for target in targets {
///             assert_eq!(target.target.name(), "Visibility");
///             let keys: Vec<Key> = target.curve.keys().collect();
///             assert_eq!(keys, [Key::Step(StepKey { frame: 0.0, value: 1 })]);
///         }
///     }
/// }
/// # Ok::<(), pai1::Refusal>(())
/// ```
#[derive(Clone, PartialEq, Eq)]
pub struct Record {
    // in the shape of a record: every count is followed by as many parts
    words: Vec<u32>,
    texts: String,
}

impl Record {
    /// The record of these words and texts, if they are one within document 01's limits.
    ///
    /// Refused with [`Refusal::BadWord`], [`Refusal::BadText`] or [`Refusal::OverLimit`].
    pub fn new(words: Vec<u32>, texts: Vec<u8>) -> Result<Record, Refusal> {
        let mut answer = [0; 3];
        raw::write(&words, &texts, &mut [], &mut answer);
        match accepted(answer) {
            // a section has at least 20 bytes, so this is what a record within the limits is answered with
            Err(Refusal::OutputTooShort { .. }) => Ok(Record::shaped(words, texts)),
            Err(refusal) => Err(refusal),
            Ok(_) => unreachable!("no section has no byte"),
        }
    }

    /// The record of words and texts that are in the shape of one.
    pub(crate) fn shaped(words: Vec<u32>, texts: Vec<u8>) -> Record {
        let texts = String::from_utf8(texts).expect("texts of a record are well-formed");
        Record { words, texts }
    }

    /// The words.
    pub fn words(&self) -> &[u32] {
        &self.words
    }

    /// The texts, one behind another: texture names, then each content's name and the keys of its extended data.
    pub fn texts(&self) -> &str {
        &self.texts
    }

    /// The two lists.
    pub fn into_parts(self) -> (Vec<u32>, String) {
        (self.words, self.texts)
    }

    /// How many frames the animation has.
    pub fn frame_count(&self) -> u16 {
        self.words[0] as u16
    }

    /// Whether it begins again at its end.
    pub fn is_looping(&self) -> bool {
        self.words[1] != 0
    }

    /// The names of its textures.
    pub fn textures(&self) -> Parts<'_, &str> {
        let walk = Walk { words: &self.words[4..], texts: &self.texts, anim_type: AnimInfoType::Invalid };
        Parts::new(self.words[2] as usize, walk)
    }

    /// Its contents.
    pub fn contents(&self) -> Parts<'_, AnimContent<'_>> {
        Parts::new(self.words[3] as usize, self.textures().behind())
    }

    /// Writes the section of this record: [`write`](crate::write).
    pub fn write(&self) -> Result<Vec<u8>, Refusal> {
        write(self)
    }
}

impl fmt::Debug for Record {
    fn fmt(&self, f: &mut fmt::Formatter<'_>) -> fmt::Result {
        f.debug_struct("Record")
            .field("frame_count", &self.frame_count())
            .field("is_looping", &self.is_looping())
            .field("textures", &self.textures())
            .field("contents", &self.contents())
            .finish()
    }
}

/// What is left of a record behind some part of it.
#[derive(Clone, Copy)]
pub struct Walk<'a> {
    words: &'a [u32],
    texts: &'a str,
    /// The kind of the info whose parts come next.
    anim_type: AnimInfoType,
}

impl<'a> Walk<'a> {
    fn words(&mut self, count: usize) -> &'a [u32] {
        let (taken, left) = self.words.split_at(count);
        self.words = left;
        taken
    }

    fn word(&mut self) -> u32 {
        self.words(1)[0]
    }

    fn text(&mut self) -> &'a str {
        let len = self.word() as usize;
        let (taken, left) = self.texts.split_at(len);
        self.texts = left;
        taken
    }

    fn keys<K: Bits>(&mut self, count: usize) -> Keys<'a, K> {
        Keys { words: self.words(count * K::WORDS), of: PhantomData }
    }

    /// The count that comes next, and as many parts.
    fn parts<T: Part<'a>>(&mut self) -> Parts<'a, T> {
        let count = self.word() as usize;
        let parts = Parts::new(count, *self);
        *self = parts.behind();
        parts
    }
}

/// A part of a record that is taken off what is left of it.
pub trait Part<'a>: Sized {
    /// Takes the part.
    fn take(walk: &mut Walk<'a>) -> Self;
}

/// Parts of a record, one behind another.
pub struct Parts<'a, T> {
    left: usize,
    walk: Walk<'a>,
    of: PhantomData<T>,
}

impl<'a, T: Part<'a>> Parts<'a, T> {
    fn new(left: usize, walk: Walk<'a>) -> Self {
        Parts { left, walk, of: PhantomData }
    }

    /// What is left of the record behind them.
    fn behind(&self) -> Walk<'a> {
        let mut parts = self.clone();
        parts.by_ref().for_each(drop);
        parts.walk
    }
}

// not derived, since a part need not be one for its iterator to be
impl<T> Clone for Parts<'_, T> {
    fn clone(&self) -> Self {
        Parts { ..*self }
    }
}

impl<'a, T: Part<'a>> Iterator for Parts<'a, T> {
    type Item = T;

    fn next(&mut self) -> Option<T> {
        self.left = self.left.checked_sub(1)?;
        Some(T::take(&mut self.walk))
    }

    fn size_hint(&self) -> (usize, Option<usize>) {
        (self.left, Some(self.left))
    }
}

impl<'a, T: Part<'a>> ExactSizeIterator for Parts<'a, T> {}

impl<'a, T: Part<'a> + fmt::Debug> fmt::Debug for Parts<'a, T> {
    fn fmt(&self, f: &mut fmt::Formatter<'_>) -> fmt::Result {
        f.debug_list().entries(self.clone()).finish()
    }
}

impl<'a> Part<'a> for &'a str {
    fn take(walk: &mut Walk<'a>) -> Self {
        walk.text()
    }
}

/// What is animated under one name.
#[derive(Clone, Debug)]
pub struct AnimContent<'a> {
    /// The name of the pane, the material or what else is animated.
    pub name: &'a str,
    /// Which of these it is.
    pub anim_type: AnimType,
    /// The animations.
    pub infos: Parts<'a, AnimInfo<'a>>,
}

impl<'a> Part<'a> for AnimContent<'a> {
    fn take(walk: &mut Walk<'a>) -> Self {
        AnimContent { name: walk.text(), anim_type: AnimType::of(walk.word()), infos: walk.parts() }
    }
}

/// One animation of a content.
#[derive(Clone, Debug)]
pub enum AnimInfo<'a> {
    /// Curves for targets.
    Standard {
        /// What they animate.
        anim_type: AnimInfoType,
        /// The targets.
        targets: Parts<'a, AnimTarget<'a>>,
    },
    /// Extended data of the user's.
    ExtendedUserData {
        /// The data.
        data: Parts<'a, ExtendedUserDataAnim<'a>>,
    },
}

impl AnimInfo<'_> {
    /// What is animated.
    pub fn anim_type(&self) -> AnimInfoType {
        match self {
            AnimInfo::Standard { anim_type, .. } => *anim_type,
            AnimInfo::ExtendedUserData { .. } => AnimInfoType::ExtendedUserDataAnim,
        }
    }
}

impl<'a> Part<'a> for AnimInfo<'a> {
    fn take(walk: &mut Walk<'a>) -> Self {
        let anim_type = AnimInfoType::of_letters(walk.word().to_le_bytes());
        walk.anim_type = anim_type;
        match anim_type {
            AnimInfoType::ExtendedUserDataAnim => AnimInfo::ExtendedUserData { data: walk.parts() },
            _ => AnimInfo::Standard { anim_type, targets: walk.parts() },
        }
    }
}

/// A target: what is animated, and the curve that says how.
#[derive(Clone, Debug)]
pub struct AnimTarget<'a> {
    /// The layer.
    pub layer: u8,
    /// What is animated.
    pub target: TargetIndex,
    /// How.
    pub curve: Curve<'a>,
}

impl<'a> Part<'a> for AnimTarget<'a> {
    fn take(walk: &mut Walk<'a>) -> Self {
        let layer = walk.word() as u8;
        let target = TargetIndex { anim_type: walk.anim_type, number: walk.word() as u8 };
        let (curve, count) = (walk.word(), walk.word() as usize);
        let curve = match curve {
            0 => Curve::Constant(walk.keys(count)),
            1 => Curve::Step(walk.keys(count)),
            _ => Curve::Hermite(walk.keys(count)),
        };
        AnimTarget { layer, target, curve }
    }
}

/// A datum of the user's: three lists of values under a key.
#[derive(Clone, Debug)]
pub struct ExtendedUserDataAnim<'a> {
    /// The size of its header, as the section has it.
    pub header_size: u32,
    /// A number of unknown meaning.
    pub unk_1: u16,
    /// Another.
    pub unk_2: u16,
    /// How many values each list has.
    pub base_count: u32,
    /// A third number of unknown meaning.
    pub unk_3: u32,
    /// The lists.
    pub values: [Keys<'a, f32>; 3],
    /// The key.
    pub key: &'a str,
}

impl<'a> Part<'a> for ExtendedUserDataAnim<'a> {
    fn take(walk: &mut Walk<'a>) -> Self {
        let (header_size, unk_1, unk_2) = (walk.word(), walk.word() as u16, walk.word() as u16);
        let (base_count, unk_3) = (walk.word(), walk.word());
        let values = std::array::from_fn(|_| walk.keys(base_count as usize));
        ExtendedUserDataAnim { header_size, unk_1, unk_2, base_count, unk_3, values, key: walk.text() }
    }
}

/// A curve, by its keys.
#[derive(Clone, Copy, Debug)]
pub enum Curve<'a> {
    /// Values.
    Constant(Keys<'a, f32>),
    /// A whole number from each frame on.
    Step(Keys<'a, StepKey>),
    /// Values at frames with their slopes.
    Hermite(Keys<'a, HermiteKey>),
}

impl<'a> Curve<'a> {
    /// How many keys it has.
    pub fn len(&self) -> usize {
        match self {
            Curve::Constant(keys) => keys.len(),
            Curve::Step(keys) => keys.len(),
            Curve::Hermite(keys) => keys.len(),
        }
    }

    /// Whether it has none.
    pub fn is_empty(&self) -> bool {
        self.len() == 0
    }

    /// A key.
    pub fn get(&self, index: usize) -> Option<Key> {
        match self {
            Curve::Constant(keys) => keys.get(index).map(Key::Constant),
            Curve::Step(keys) => keys.get(index).map(Key::Step),
            Curve::Hermite(keys) => keys.get(index).map(Key::Hermite),
        }
    }

    /// All of them.
    pub fn keys(&self) -> impl ExactSizeIterator<Item = Key> + use<'a> {
        let curve = *self;
        (0..self.len()).map(move |index| curve.get(index).expect("below the length"))
    }
}

/// Keys or values of a record.
pub struct Keys<'a, K> {
    words: &'a [u32],
    of: PhantomData<K>,
}

impl<'a, K: Bits> Keys<'a, K> {
    /// How many there are.
    pub fn len(&self) -> usize {
        self.words.len() / K::WORDS
    }

    /// Whether there is none.
    pub fn is_empty(&self) -> bool {
        self.words.is_empty()
    }

    /// One of them.
    pub fn get(&self, index: usize) -> Option<K> {
        self.words.chunks_exact(K::WORDS).nth(index).map(K::of)
    }

    /// All of them.
    pub fn iter(&self) -> impl ExactSizeIterator<Item = K> + use<'a, K> {
        self.words.chunks_exact(K::WORDS).map(K::of)
    }
}

impl<K> Clone for Keys<'_, K> {
    fn clone(&self) -> Self {
        *self
    }
}

impl<K> Copy for Keys<'_, K> {}

impl<K: Bits + fmt::Debug> fmt::Debug for Keys<'_, K> {
    fn fmt(&self, f: &mut fmt::Formatter<'_>) -> fmt::Result {
        f.debug_list().entries(self.iter()).finish()
    }
}

/// What a record keeps as words. Floats are kept by their bits.
pub trait Bits {
    /// How many words.
    const WORDS: usize;

    /// What these words are.
    fn of(words: &[u32]) -> Self;
}

impl Bits for f32 {
    const WORDS: usize = 1;

    fn of(words: &[u32]) -> f32 {
        f32::from_bits(words[0])
    }
}

/// A key of a Step curve. Two are equal if their bits are.
#[derive(Clone, Copy, Debug, Default)]
pub struct StepKey {
    /// The frame.
    pub frame: f32,
    /// The value from there on.
    pub value: u16,
}

impl Bits for StepKey {
    const WORDS: usize = 2;

    fn of(words: &[u32]) -> StepKey {
        StepKey { frame: f32::from_bits(words[0]), value: words[1] as u16 }
    }
}

impl PartialEq for StepKey {
    fn eq(&self, other: &StepKey) -> bool {
        (self.frame.to_bits(), self.value) == (other.frame.to_bits(), other.value)
    }
}

impl Eq for StepKey {}

/// A key of a Hermite curve. Two are equal if their bits are.
#[derive(Clone, Copy, Debug, Default)]
pub struct HermiteKey {
    /// The frame.
    pub frame: f32,
    /// The value there.
    pub value: f32,
    /// The slope there.
    pub slope: f32,
}

impl HermiteKey {
    fn bits(&self) -> [u32; 3] {
        [self.frame, self.value, self.slope].map(f32::to_bits)
    }
}

impl Bits for HermiteKey {
    const WORDS: usize = 3;

    fn of(words: &[u32]) -> HermiteKey {
        let [frame, value, slope] = [words[0], words[1], words[2]].map(f32::from_bits);
        HermiteKey { frame, value, slope }
    }
}

impl PartialEq for HermiteKey {
    fn eq(&self, other: &HermiteKey) -> bool {
        self.bits() == other.bits()
    }
}

impl Eq for HermiteKey {}

/// A key of any curve. Two are equal if they are of the same kind and their bits are equal.
#[derive(Clone, Copy, Debug)]
pub enum Key {
    /// Of a Constant curve: a value.
    Constant(f32),
    /// Of a Step curve.
    Step(StepKey),
    /// Of a Hermite curve.
    Hermite(HermiteKey),
}

impl PartialEq for Key {
    fn eq(&self, other: &Key) -> bool {
        match (self, other) {
            (Key::Constant(a), Key::Constant(b)) => a.to_bits() == b.to_bits(),
            (Key::Step(a), Key::Step(b)) => a == b,
            (Key::Hermite(a), Key::Hermite(b)) => a == b,
            _ => false,
        }
    }
}

impl Eq for Key {}
