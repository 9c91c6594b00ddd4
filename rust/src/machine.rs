//! Document 01's plain machine: a record, a stack of records and a capacity. It knows neither bytes nor a journal.
use crate::bflan::anim_info::{AnimInfo, AnimInfoType, ExtendedUserDataAnim, PaneAnimInfo};
use crate::bflan::curves::{Curve, HermiteKey, StepKey};
use crate::bflan::targets::{AnimTarget, TargetIndex};
use crate::change::{Call, Change, NewKey, field_answer};
use crate::journal::ENTRY_WORDS;
use crate::layout::targets_of;
use crate::record::values_at;

/// The refusals of a machine.
const NO_PLACE: usize = 10;
const UNFIT: usize = 11;
const FULL: usize = 12;
const NOTHING: usize = 13;

/// The machine. What it is fed is each call's kind and, for an edit, its field, place and new value.
pub struct Machine {
    /// The record as it is now.
    pub record: PaneAnimInfo,
    /// The records before each edit that is not taken back.
    pub stack: Vec<PaneAnimInfo>,
    /// How high the stack may get.
    pub capacity: usize,
}

impl Machine {
    /// A machine that starts from a record, beside a journal of so many words.
    pub fn new(record: PaneAnimInfo, journal_words: usize) -> Machine {
        Machine { record, stack: Vec::new(), capacity: journal_words / ENTRY_WORDS }
    }

    /// Takes one call. The answer is its number and the value that is returned with it, or what its record has in a field.
    pub fn turn(&mut self, call: &Call) -> Vec<usize> {
        let [number, value] = match call {
            Call::Edit(change) => self.edit(change),
            Call::Undo => self.undo(),
            Call::FieldAt(place) => return field_answer(values_at(&self.record, place)).to_vec(),
        };
        vec![number, value, 0]
    }

    fn edit(&mut self, change: &Change) -> [usize; 2] {
        let mut changed = self.record.clone();
        if let Err(number) = replace(&mut changed, change) {
            return [number, 0];
        }
        if self.stack.len() >= self.capacity {
            return [FULL, self.capacity];
        }
        self.stack.push(std::mem::replace(&mut self.record, changed));
        [0, self.stack.len()]
    }

    fn undo(&mut self) -> [usize; 2] {
        match self.stack.pop() {
            None => [NOTHING, 0],
            Some(record) => {
                self.record = record;
                [0, self.stack.len()]
            }
        }
    }
}

/// Replaces a field, or says which refusal it is.
fn replace(record: &mut PaneAnimInfo, change: &Change) -> Result<(), usize> {
    match *change {
        Change::FrameCount(value) => record.frame_count = fit(value)?,
        Change::Looping(value) => record.is_looping = one_bit(value)?,
        Change::Layer(place, value) => {
            let (_, target) = target(record, place)?;
            target.layer = fit(value)?;
        }
        Change::Target(place, value) => {
            let (letters, target) = target(record, place)?;
            target.target = numbered(letters, value)?;
        }
        Change::Key([content, info, at, key], new) => {
            set_key(&mut target(record, [content, info, at])?.1.curve, key, new)?;
        }
        Change::Value([content, info, datum, list, at], bits) => {
            let lists = &mut self::datum(record, [content, info, datum])?.values;
            let value = lists.get_mut(list).and_then(|list| list.get_mut(at)).ok_or(NO_PLACE)?;
            *value = f32::from_bits(bits);
        }
    }
    Ok(())
}

/// A value of the field's width.
fn fit<T: TryFrom<u32>>(value: u32) -> Result<T, usize> {
    T::try_from(value).map_err(|_| UNFIT)
}

/// Looping is 0 or 1.
fn one_bit(value: u32) -> Result<bool, usize> {
    match value {
        0 => Ok(false),
        1 => Ok(true),
        _ => Err(UNFIT),
    }
}

/// A target's number that the record's limits allow.
fn numbered(letters: AnimInfoType, number: u32) -> Result<TargetIndex, usize> {
    if !targets_of(letters.into()).contains(&number) {
        return Err(UNFIT);
    }
    Ok(TargetIndex::resolve(&letters, number as u8))
}

/// The info at a place.
fn info(record: &mut PaneAnimInfo, content: usize, info: usize) -> Result<&mut AnimInfo, usize> {
    record.contents.get_mut(content).and_then(|content| content.infos.get_mut(info)).ok_or(NO_PLACE)
}

/// The target at a place, with its info's letters.
fn target(
    record: &mut PaneAnimInfo,
    [content, at, target]: [usize; 3],
) -> Result<(AnimInfoType, &mut AnimTarget), usize> {
    match info(record, content, at)? {
        AnimInfo::Standard { anim_type, targets } => Ok((*anim_type, targets.get_mut(target).ok_or(NO_PLACE)?)),
        AnimInfo::ExtendedUserData { .. } => Err(NO_PLACE),
    }
}

/// The extended datum at a place.
fn datum(record: &mut PaneAnimInfo, [content, at, datum]: [usize; 3]) -> Result<&mut ExtendedUserDataAnim, usize> {
    match info(record, content, at)? {
        AnimInfo::Standard { .. } => Err(NO_PLACE),
        AnimInfo::ExtendedUserData { data, .. } => data.get_mut(datum).ok_or(NO_PLACE),
    }
}

/// Puts a key in. A place that is not there is refused before a key of another kind.
fn set_key(curve: &mut Curve, at: usize, new: NewKey) -> Result<(), usize> {
    match curve {
        Curve::Constant(keys) => {
            let key = keys.get_mut(at).ok_or(NO_PLACE)?;
            let NewKey::Constant(value) = new else { return Err(UNFIT) };
            *key = f32::from_bits(value);
        }
        Curve::Step(keys) => {
            let key = keys.get_mut(at).ok_or(NO_PLACE)?;
            let NewKey::Step { frame, value } = new else { return Err(UNFIT) };
            *key = StepKey { frame: f32::from_bits(frame), value: fit(value)? };
        }
        Curve::Hermite(keys) => {
            let key = keys.get_mut(at).ok_or(NO_PLACE)?;
            let NewKey::Hermite { frame, value, slope } = new else { return Err(UNFIT) };
            *key =
                HermiteKey { frame: f32::from_bits(frame), value: f32::from_bits(value), slope: f32::from_bits(slope) };
        }
    }
    Ok(())
}
