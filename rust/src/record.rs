//! Document 01's flat record of what the reference reads, and its answers in document 01's numbers.
use crate::bflan::anim_info::{AnimInfo, AnimType, PaneAnimInfo};
use crate::bflan::curves::Curve;
use crate::bflan::file::BflanSections;
use crate::change::Place;
use crate::core::FormatError;
use crate::parse;

/// The most bytes that a section may have.
pub const LIMIT: usize = 16_777_216;
/// A section's letters, as the number that stands there.
pub const PAI1: u32 = u32::from_le_bytes(*b"pai1");

/// The two lists of a flat record.
#[derive(Clone, Debug, Default, PartialEq, Eq)]
pub struct Flat {
    pub words: Vec<u32>,
    pub texts: Vec<u8>,
}

impl Flat {
    fn count(&mut self, count: usize) {
        self.words.push(count as u32);
    }

    fn bits(&mut self, value: f32) {
        self.words.push(value.to_bits());
    }

    fn text(&mut self, text: &str) {
        self.count(text.len());
        self.texts.extend_from_slice(text.as_bytes());
    }
}

/// Why a section is refused.
#[derive(Clone, Copy, Debug, PartialEq, Eq)]
pub enum Refusal {
    Letters(u32),
    Length(usize),
    End { offset: usize, requested: usize },
    NoZero { start: usize },
}

impl Refusal {
    /// The number, and the values that are returned with it.
    pub fn numbers(self) -> [usize; 3] {
        match self {
            Refusal::Letters(letters) => [1, letters as usize, 0],
            Refusal::Length(length) => [2, length, 0],
            Refusal::End { offset, requested } => [3, offset, requested],
            Refusal::NoZero { start } => [4, start, 0],
        }
    }
}

pub type Outcome = Result<Flat, Refusal>;

/// The flat record of a record.
pub fn flat(info: &PaneAnimInfo) -> Flat {
    let mut out = Flat::default();
    out.count(info.frame_count as usize);
    out.count(info.is_looping as usize);
    out.count(info.textures.len());
    out.count(info.contents.len());
    for texture in &info.textures {
        out.text(texture);
    }
    for content in &info.contents {
        out.text(&content.name);
        out.count(match content.anim_type {
            AnimType::Pane => 0,
            AnimType::Material => 1,
            AnimType::User => 2,
            AnimType::PaneExt => 3,
            AnimType::StateMachine => 4,
        });
        out.count(content.infos.len());
        for info in &content.infos {
            info_words(info, &mut out);
        }
    }
    out
}

fn info_words(info: &AnimInfo, out: &mut Flat) {
    match info {
        AnimInfo::Standard { anim_type, targets } => {
            out.words.push((*anim_type).into());
            out.count(targets.len());
            for target in targets {
                out.count(target.layer as usize);
                out.count(target.target.to_raw() as usize);
                curve_words(&target.curve, out);
            }
        }
        AnimInfo::ExtendedUserData { anim_type, data } => {
            out.words.push((*anim_type).into());
            out.count(data.len());
            for datum in data {
                out.words.push(datum.header_size);
                out.count(datum.unk_1 as usize);
                out.count(datum.unk_2 as usize);
                out.words.push(datum.base_count);
                out.words.push(datum.unk_3);
                for &value in datum.values.iter().flatten() {
                    out.bits(value);
                }
                out.text(&datum.key);
            }
        }
    }
}

fn curve_words(curve: &Curve, out: &mut Flat) {
    match curve {
        Curve::Constant(keys) => {
            out.count(0);
            out.count(keys.len());
            for &key in keys {
                out.bits(key);
            }
        }
        Curve::Step(keys) => {
            out.count(1);
            out.count(keys.len());
            for key in keys {
                out.bits(key.frame);
                out.count(key.value as usize);
            }
        }
        Curve::Hermite(keys) => {
            out.count(2);
            out.count(keys.len());
            for key in keys {
                out.bits(key.frame);
                out.bits(key.value);
                out.bits(key.slope);
            }
        }
    }
}

/// What a record has at a place, if the place is there.
pub fn values_at(record: &PaneAnimInfo, place: &Place) -> Option<Vec<u32>> {
    let info_at = |content: usize, info: usize| record.contents.get(content)?.infos.get(info);
    let target_at = |[content, info, target]: [usize; 3]| match info_at(content, info)? {
        AnimInfo::Standard { targets, .. } => targets.get(target),
        AnimInfo::ExtendedUserData { .. } => None,
    };
    match *place {
        Place::FrameCount => Some(vec![record.frame_count.into()]),
        Place::Looping => Some(vec![record.is_looping.into()]),
        Place::Layer(place) => Some(vec![target_at(place)?.layer.into()]),
        Place::Target(place) => Some(vec![target_at(place)?.target.to_raw().into()]),
        Place::Key([content, info, target, key]) => key_at(&target_at([content, info, target])?.curve, key),
        Place::Value([content, info, datum, list, value]) => match info_at(content, info)? {
            AnimInfo::Standard { .. } => None,
            AnimInfo::ExtendedUserData { data, .. } => {
                Some(vec![data.get(datum)?.values.get(list)?.get(value)?.to_bits()])
            }
        },
    }
}

/// The numbers of a key, if it is there.
fn key_at(curve: &Curve, key: usize) -> Option<Vec<u32>> {
    match curve {
        Curve::Constant(keys) => keys.get(key).map(|key| vec![key.to_bits()]),
        Curve::Step(keys) => keys.get(key).map(|key| vec![key.frame.to_bits(), key.value.into()]),
        Curve::Hermite(keys) => keys.get(key).map(|key| [key.frame, key.value, key.slope].map(f32::to_bits).to_vec()),
    }
}

/// What the reference makes of a section, in document 01's numbers. The limit and the letters are judged here, since the
/// reference has no limit and reads other sections too (docs/DIFFERENCES.md, 1 and 3).
pub fn reference(section: &[u8]) -> Outcome {
    if section.len() > LIMIT {
        return Err(Refusal::Length(section.len()));
    }
    if section.len() >= 8 {
        let letters = u32::from_le_bytes(section[..4].try_into().unwrap());
        if letters != PAI1 {
            return Err(Refusal::Letters(letters));
        }
    }
    match parse(section) {
        Ok(BflanSections::PaneAnimInfo(info)) => Ok(flat(&info)),
        Err(FormatError::UnexpectedEof { offset, requested_bytes }) => {
            Err(Refusal::End { offset, requested: requested_bytes })
        }
        Err(FormatError::MalformedSection { section_type, offset, .. }) if section_type == "StringPool" => {
            Err(Refusal::NoZero { start: offset })
        }
        other => panic!("no answer that a pai1 section can have: {other:?}"),
    }
}
