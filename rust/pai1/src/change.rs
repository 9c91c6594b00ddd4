use crate::raw;
use crate::record::{Bits, HermiteKey, Key, StepKey};

/// Where a target stands, counted from 0.
#[derive(Clone, Copy, Debug, PartialEq, Eq, Hash)]
pub struct TargetPlace {
    /// Which content of the section.
    pub content: usize,
    /// Which info of that content.
    pub info: usize,
    /// Which target of that info.
    pub target: usize,
}

/// Where a value of extended data stands, counted from 0.
#[derive(Clone, Copy, Debug, PartialEq, Eq, Hash)]
pub struct ValuePlace {
    /// Which content of the section.
    pub content: usize,
    /// Which info of that content.
    pub info: usize,
    /// Which datum of that info.
    pub datum: usize,
    /// Which of the datum's three lists.
    pub list: usize,
    /// Which value of that list.
    pub index: usize,
}

/// A field that can be edited, and its place.
#[derive(Clone, Copy, Debug, PartialEq, Eq, Hash)]
pub enum Place {
    /// The frame count.
    FrameCount,
    /// Whether the animation loops.
    Looping,
    /// A target's layer.
    Layer(TargetPlace),
    /// A target's number.
    Target(TargetPlace),
    /// A key of a target's curve, by its number.
    Key(TargetPlace, usize),
    /// A value of extended data.
    Value(ValuePlace),
}

impl Place {
    /// Asks what stands there. The answer is 0, how many values there are, and the values; or document 01's number and
    /// values.
    pub(crate) fn call(&self, section: &[u8]) -> [usize; 5] {
        let mut answer = [0; 5];
        match *self {
            Place::FrameCount => raw::field_frame_count(section, &mut answer),
            Place::Looping => raw::field_looping(section, &mut answer),
            Place::Layer(TargetPlace { content, info, target }) => {
                raw::field_layer(section, content, info, target, &mut answer);
            }
            Place::Target(TargetPlace { content, info, target }) => {
                raw::field_target(section, content, info, target, &mut answer);
            }
            Place::Key(TargetPlace { content, info, target }, key) => {
                raw::field_key(section, content, info, target, key, &mut answer);
            }
            Place::Value(ValuePlace { content, info, datum, list, index }) => {
                raw::field_value(section, content, info, datum, list, index, &mut answer);
            }
        }
        answer
    }

    /// The change that puts these values there.
    pub(crate) fn with(self, values: &[u32]) -> Change {
        match self {
            Place::FrameCount => Change::FrameCount(values[0] as u16),
            Place::Looping => Change::Looping(values[0] != 0),
            Place::Layer(place) => Change::Layer(place, values[0] as u8),
            Place::Target(place) => Change::Target(place, values[0] as u8),
            Place::Key(place, key) => Change::Key(place, key, key_of(values)),
            Place::Value(place) => Change::Value(place, f32::of(values)),
        }
    }
}

/// The key of one value, of two or of three.
fn key_of(values: &[u32]) -> Key {
    match values.len() {
        f32::WORDS => Key::Constant(f32::of(values)),
        StepKey::WORDS => Key::Step(StepKey::of(values)),
        _ => Key::Hermite(HermiteKey::of(values)),
    }
}

/// A field that can be edited, its place, and its new value; or what stands there now, as the change that puts it there.
/// Two are equal if their floats' bits are.
#[derive(Clone, Copy, Debug)]
pub enum Change {
    /// The frame count.
    FrameCount(u16),
    /// Whether the animation loops.
    Looping(bool),
    /// A target's layer.
    Layer(TargetPlace, u8),
    /// A target's number. Only those that its letters have fit, and 255 in an invalid info.
    Target(TargetPlace, u8),
    /// A key of a target's curve, by its number. Only a key of the curve's kind fits.
    Key(TargetPlace, usize, Key),
    /// A value of extended data.
    Value(ValuePlace, f32),
}

impl PartialEq for Change {
    fn eq(&self, other: &Change) -> bool {
        match (*self, *other) {
            (Change::FrameCount(a), Change::FrameCount(b)) => a == b,
            (Change::Looping(a), Change::Looping(b)) => a == b,
            (Change::Layer(p, a), Change::Layer(q, b)) => (p, a) == (q, b),
            (Change::Target(p, a), Change::Target(q, b)) => (p, a) == (q, b),
            (Change::Key(p, i, a), Change::Key(q, j, b)) => (p, i, a) == (q, j, b),
            (Change::Value(p, a), Change::Value(q, b)) => (p, a.to_bits()) == (q, b.to_bits()),
            _ => false,
        }
    }
}

impl Eq for Change {}

impl Change {
    /// The field and its place.
    pub fn place(&self) -> Place {
        match *self {
            Change::FrameCount(_) => Place::FrameCount,
            Change::Looping(_) => Place::Looping,
            Change::Layer(place, _) => Place::Layer(place),
            Change::Target(place, _) => Place::Target(place),
            Change::Key(place, key, _) => Place::Key(place, key),
            Change::Value(place, _) => Place::Value(place),
        }
    }

    /// Calls the edit of this field. The answer is document 01's number and two values.
    pub(crate) fn call(&self, section: &mut [u8], journal: &mut [u32], count: usize) -> [usize; 3] {
        let mut answer = [0; 3];
        match *self {
            Change::FrameCount(value) => {
                raw::edit_frame_count(section, journal, count, value.into(), &mut answer);
            }
            Change::Looping(value) => raw::edit_looping(section, journal, count, value.into(), &mut answer),
            Change::Layer(TargetPlace { content, info, target }, value) => {
                raw::edit_layer(section, journal, count, content, info, target, value.into(), &mut answer);
            }
            Change::Target(TargetPlace { content, info, target }, value) => {
                raw::edit_target(section, journal, count, content, info, target, value.into(), &mut answer);
            }
            Change::Key(TargetPlace { content, info, target }, key, new) => match new {
                Key::Constant(value) => {
                    let value = value.to_bits();
                    raw::edit_constant_key(section, journal, count, content, info, target, key, value, &mut answer);
                }
                Key::Step(new) => {
                    let (frame, value) = (new.frame.to_bits(), new.value.into());
                    raw::edit_step_key(section, journal, count, content, info, target, key, frame, value, &mut answer);
                }
                Key::Hermite(new) => {
                    let [frame, value, slope] = [new.frame, new.value, new.slope].map(f32::to_bits);
                    raw::edit_hermite_key(
                        section,
                        journal,
                        count,
                        content,
                        info,
                        target,
                        key,
                        frame,
                        value,
                        slope,
                        &mut answer,
                    );
                }
            },
            Change::Value(ValuePlace { content, info, datum, list, index }, value) => {
                let value = value.to_bits();
                raw::edit_value(section, journal, count, content, info, datum, list, index, value, &mut answer);
            }
        }
        answer
    }
}
