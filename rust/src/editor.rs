//! The calls that change a section or say what stands in a field of it, under one name for the proved code and for what is
//! held against it; and what document 01 says of them for any bytes, written from its pages over the walk of `layout`.
use crate::change::{Change, FIELD_NUMBERS, Place, field_answer};
use crate::journal::{ENTRY_WORDS, Entry};
use crate::layout::{InfoAt, PartsAt, Rules, TargetAt, Walked, targets_of, walk};
use crate::reader::store;
use crate::record::LIMIT;

/// Edits sections, takes edits back and says what stands in a field, as document 01 says. The answer of an edit or an undo
/// is its number and two values. A number that an answer has no place for is dropped, and no other place of an answer
/// changes.
pub trait Editor {
    /// Changes one field of the section, and keeps its old bytes in the journal as entry `count`.
    fn edit(&self, section: &mut [u8], journal: &mut [u32], count: usize, change: &Change, answer: &mut [usize]);

    /// Takes the last of `count` edits back. The journal stays; an editor could change it here, so that one that does is
    /// seen.
    fn undo(&self, section: &mut [u8], journal: &mut [u32], count: usize, answer: &mut [usize]);

    /// Says what stands at a place now: 0, how many values there are and the values, or document 01's number and values,
    /// and zeros behind them. The section stays; an editor could change it here, so that one that does is seen.
    fn field_at(&self, section: &mut [u8], place: &Place, answer: &mut [usize]);
}

/// Where the field at a place stands.
#[derive(Clone, Debug)]
struct Located {
    /// Where its first byte stands.
    at: usize,
    /// How many bytes each of its numbers has.
    widths: &'static [usize],
    /// The letters of its info, if it is in one.
    letters: u32,
}

/// How far the keys of a curve stand apart, and the widths of their numbers: a Step key's two skipped bytes are not its
/// own.
const KEYS: [(usize, &[usize]); 3] = [(4, &[4]), (8, &[4, 2]), (12, &[4, 4, 4])];

/// Where the field at a place stands in a section that was walked over, if the place is there.
fn located(walked: &Walked, place: &Place) -> Option<Located> {
    let in_target = |place: [usize; 3], ahead: usize| {
        let (info, target) = target_at(walked, place)?;
        Some(Located { at: target.start + ahead, widths: &[1], letters: info.letters })
    };
    match *place {
        Place::FrameCount => Some(Located { at: 8, widths: &[2], letters: 0 }),
        Place::Looping => Some(Located { at: 10, widths: &[1], letters: 0 }),
        Place::Layer(place) => in_target(place, 0),
        Place::Target(place) => in_target(place, 1),
        Place::Key([content, info, target, key]) => {
            let (info, target) = target_at(walked, [content, info, target])?;
            let (stride, widths) = KEYS[target.curve];
            let there = key < target.key_count;
            there.then(|| Located { at: target.keys + stride * key, widths, letters: info.letters })
        }
        Place::Value([content, info, datum, list, value]) => {
            let info = info_at(walked, content, info)?;
            let PartsAt::Data(data) = &info.of else { return None };
            let datum = data.get(datum)?;
            let there = list < 3 && value < datum.base_count;
            let at = || datum.values + 4 * (list * datum.base_count + value);
            there.then(|| Located { at: at(), widths: &[4], letters: info.letters })
        }
    }
}

/// The field that a change is about.
#[derive(Clone, Debug)]
pub struct Field {
    /// Where its first byte stands.
    pub at: usize,
    /// How many bytes it has.
    pub size: usize,
    /// Its new bytes, unless the new value is unfit.
    pub new: Option<Vec<u8>>,
}

/// The field of a change in a section that was walked over, if the place is there.
pub fn field(walked: &Walked, change: &Change) -> Option<Field> {
    let Located { at, widths, letters } = located(walked, &change.place())?;
    let values = change.values();
    // a key of another kind has another number of values
    let of_its_kind = values.len() == widths.len();
    let in_width = values.iter().zip(widths).all(|(&value, width)| u64::from(value) < 1 << (8 * width));
    let allowed = match *change {
        Change::Looping(value) => value <= 1,
        Change::Target(_, number) => targets_of(letters).contains(&number),
        _ => true,
    };
    let bytes = || values.iter().zip(widths).flat_map(|(value, &width)| value.to_le_bytes().into_iter().take(width));
    let new = (of_its_kind && in_width && allowed).then(|| bytes().collect());
    Some(Field { at, size: widths.iter().sum(), new })
}

/// What stands at a place of a section that was walked over, if the place is there: the numbers of its bytes, as they are
/// read.
fn standing(walked: &Walked, section: &[u8], place: &Place) -> Option<Vec<u32>> {
    let Located { mut at, widths, letters } = located(walked, place)?;
    let mut values = Vec::new();
    for width in widths {
        let number = section[at..at + width].iter().rev().fold(0, |number, &byte| number << 8 | u32::from(byte));
        values.push(match place {
            Place::Looping => (number != 0).into(),
            // 255 under letters that are not listed, and otherwise 0 at or above their number
            Place::Target(_) if !targets_of(letters).contains(&number) => targets_of(letters).start,
            _ => number,
        });
        at += width;
    }
    Some(values)
}

/// What is answered of a place of a section that was walked over.
pub fn field_at(walked: &Walked, section: &[u8], place: &Place) -> [usize; FIELD_NUMBERS] {
    match &walked.outcome {
        Ok(_) => field_answer(standing(walked, section, place)),
        Err(refusal) => {
            let [number, a, b] = refusal.numbers();
            [number, a, b, 0, 0]
        }
    }
}

/// The info at a place.
fn info_at(walked: &Walked, content: usize, info: usize) -> Option<&InfoAt> {
    walked.contents.get(content)?.get(info)
}

/// The target at a place, with its info.
fn target_at(walked: &Walked, [content, info, target]: [usize; 3]) -> Option<(&InfoAt, &TargetAt)> {
    let info = info_at(walked, content, info)?;
    match &info.of {
        PartsAt::Targets(targets) => Some((info, targets.get(target)?)),
        PartsAt::Data(_) => None,
    }
}

/// What an edit does to a section that was walked over, and answers.
pub fn edited(walked: &Walked, section: &mut [u8], journal: &mut [u32], count: usize, change: &Change) -> [usize; 3] {
    if let Err(refusal) = &walked.outcome {
        return refusal.numbers();
    }
    let Some(Field { at, size, new }) = field(walked, change) else { return [10, 0, 0] };
    let Some(new) = new else { return [11, 0, 0] };
    let capacity = journal.len() / ENTRY_WORDS;
    if count >= capacity {
        return [12, capacity, 0];
    }
    let bytes = &mut section[at..at + size];
    let entry = Entry { at, old: bytes.to_vec() };
    journal[ENTRY_WORDS * count..][..ENTRY_WORDS].copy_from_slice(&entry.words());
    bytes.copy_from_slice(&new);
    [0, count + 1, 0]
}

/// What an undo does, and answers.
pub fn undone(section: &mut [u8], journal: &[u32], count: usize) -> [usize; 3] {
    if section.len() > LIMIT {
        return [2, section.len(), 0];
    }
    if count == 0 {
        return [13, 0, 0];
    }
    if count > journal.len() / ENTRY_WORDS {
        return [14, count, 0];
    }
    let words = &journal[ENTRY_WORDS * (count - 1)..][..ENTRY_WORDS];
    let Some(Entry { at, old }) = Entry::sound(words, section.len()) else { return [14, count, 0] };
    section[at..at + old.len()].copy_from_slice(&old);
    [0, count - 1, 0]
}

/// These definitions behind the calls.
pub struct ByLayout;

impl Editor for ByLayout {
    fn edit(&self, section: &mut [u8], journal: &mut [u32], count: usize, change: &Change, answer: &mut [usize]) {
        let walked = walk(section, &Rules::DOCUMENT, usize::MAX).unwrap();
        store(&edited(&walked, section, journal, count, change), answer);
    }

    fn undo(&self, section: &mut [u8], journal: &mut [u32], count: usize, answer: &mut [usize]) {
        store(&undone(section, journal, count), answer);
    }

    fn field_at(&self, section: &mut [u8], place: &Place, answer: &mut [usize]) {
        let walked = walk(section, &Rules::DOCUMENT, usize::MAX).unwrap();
        store(&field_at(&walked, section, place), answer);
    }
}
