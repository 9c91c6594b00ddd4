//! Document 01's layout of a section, walked by positions and apart from the reference. It says what the reference
//! cannot be asked: where each text and each field lies, how much a reading asks for, and the answer where the reference
//! would ask for more memory than there is (docs/DIFFERENCES.md, 8). Wherever the reference is asked too, the two are
//! compared.
use std::ops::Range;

use crate::chars::first_piece;
use crate::record::{Flat, LIMIT, Outcome, PAI1, Refusal};

/// The letters of standard infos with how many target numbers they have.
pub const TARGET_NUMBERS: [(&[u8; 4], u8); 18] = [
    (b"FLCC", 16),
    (b"FLCT", 2),
    (b"FLPA", 10),
    (b"FLVC", 17),
    (b"FLVI", 1),
    (b"FLDS", 19),
    (b"FLMT", 5),
    (b"FLPS", 52),
    (b"FLWN", 4),
    (b"FSMA", 1),
    (b"FLAC", 1),
    (b"FLFS", 7),
    (b"FLIM", 3),
    (b"FLMC", 28),
    (b"FLTS", 5),
    (b"FLTP", 1),
    (b"FTBR", 7),
    (b"FVGA", 1),
];

/// The numbers that a target of a record may have under these letters, or under word 0.
pub fn targets_of(letters: u32) -> Range<u32> {
    match TARGET_NUMBERS.iter().find(|(code, _)| u32::from_le_bytes(**code) == letters) {
        Some(&(_, numbers)) => 0..numbers as u32,
        None => 255..256,
    }
}

/// The letters of extended data.
pub const FLEU: u32 = u32::from_le_bytes(*b"FLEU");

/// The rules that are easily got wrong. A reader with another of them is a mistaken one, which the comparison has to
/// catch.
#[derive(Clone, Copy)]
pub struct Rules {
    /// What texture offsets are measured from.
    pub textures_from: usize,
    /// What the offset of a key text is counted from, as seen from the offset's own position.
    pub key_text_from: usize,
    /// Whether a target at or above its letters' number reads as 0.
    pub targets_bounded: bool,
    /// Whether every byte of an ill-formed subpart becomes a U+FFFD of its own.
    pub one_for_each_byte: bool,
    /// What is counted as a replaced character.
    pub counted: Counted,
}

/// What can be taken for a replaced character.
#[derive(Clone, Copy, Debug, PartialEq, Eq)]
pub enum Counted {
    /// A maximal ill-formed subpart, which is right.
    Subpart,
    /// A byte of one.
    Byte,
    /// A U+FFFD of the decoding, also one that the text held already.
    Shown,
}

impl Rules {
    pub const DOCUMENT: Rules = Rules {
        textures_from: 20,
        key_text_from: 0,
        targets_bounded: true,
        one_for_each_byte: false,
        counted: Counted::Subpart,
    };
}

/// Where a text lies in the section, before it is decoded, and how many characters its decoding replaces.
#[derive(Clone, Copy, Debug)]
pub struct TextAt {
    pub start: usize,
    pub len: usize,
    pub replaced: usize,
}

impl TextAt {
    /// The text's bytes.
    pub fn bytes<'a>(&self, section: &'a [u8]) -> &'a [u8] {
        &section[self.start..self.start + self.len]
    }
}

/// Where the fields of a target lie: its layer at `start`, its number behind that, its keys from `keys` on.
#[derive(Clone, Copy, Debug)]
pub struct TargetAt {
    pub start: usize,
    /// 0 to 2; a curve above has no key.
    pub curve: usize,
    pub key_count: usize,
    pub keys: usize,
}

/// Where the three lists of an extended datum lie, one behind another.
#[derive(Clone, Copy, Debug)]
pub struct DatumAt {
    pub base_count: usize,
    pub values: usize,
}

/// An info's letters, as the record has them, and where its fields lie.
#[derive(Clone, Debug)]
pub struct InfoAt {
    pub letters: u32,
    pub of: PartsAt,
}

/// The parts of an info, as many as were met.
#[derive(Clone, Debug)]
pub enum PartsAt {
    Targets(Vec<TargetAt>),
    Data(Vec<DatumAt>),
}

/// What a walk over a section gives.
pub struct Walked {
    /// The record, or why there is none.
    pub outcome: Outcome,
    /// Where the texts lie, as many as were met.
    pub places: Vec<TextAt>,
    /// The infos of each content, as many as were met.
    pub contents: Vec<Vec<InfoAt>>,
    /// The most bytes that the reference asks for at once for a list that does not fit the section.
    pub asked: usize,
}

impl Walked {
    /// How many characters a reading replaces: those of each text, as often as the record has it.
    pub fn replaced(&self) -> usize {
        self.places.iter().map(|place| place.replaced).sum()
    }
}

enum Stop {
    Refused(Refusal),
    TooLong,
}

/// Walks over a section. None if the record's words and its texts' bytes, before decoding, are more than `most`.
pub fn walk(section: &[u8], rules: &Rules, most: usize) -> Option<Walked> {
    let mut walk =
        Walk { section, rules, left: most, flat: Flat::default(), places: Vec::new(), contents: Vec::new(), asked: 0 };
    let outcome = match walk.section() {
        Ok(()) => Ok(walk.flat),
        Err(Stop::Refused(refusal)) => Err(refusal),
        Err(Stop::TooLong) => return None,
    };
    Some(Walked { outcome, places: walk.places, contents: walk.contents, asked: walk.asked })
}

/// The decoding of a text, and how many characters it replaces.
pub fn decoded(text: &[u8], rules: &Rules) -> (Vec<u8>, usize) {
    let (mut out, mut replaced) = (Vec::with_capacity(text.len()), 0);
    let mut rest = text;
    while !rest.is_empty() {
        let (len, character) = first_piece(rest);
        let (piece, behind) = rest.split_at(len);
        rest = behind;
        if character {
            out.extend_from_slice(piece);
            replaced += usize::from(rules.counted == Counted::Shown && piece == REPLACEMENT);
        } else {
            let one = if rules.one_for_each_byte { len } else { 1 };
            out.extend_from_slice(&REPLACEMENT.repeat(one));
            replaced += if rules.counted == Counted::Byte { len } else { one };
        }
    }
    (out, replaced)
}

/// U+FFFD.
const REPLACEMENT: &[u8] = "\u{FFFD}".as_bytes();

struct Walk<'a> {
    section: &'a [u8],
    rules: &'a Rules,
    left: usize,
    flat: Flat,
    places: Vec<TextAt>,
    contents: Vec<Vec<InfoAt>>,
    asked: usize,
}

impl Walk<'_> {
    /// The number of `width` bytes at `at`.
    fn number(&self, at: usize, width: usize) -> Result<usize, Stop> {
        if at + width > self.section.len() {
            return Err(Stop::Refused(Refusal::End { offset: at, requested: width }));
        }
        let bytes = &self.section[at..at + width];
        Ok(bytes.iter().rev().fold(0, |number, &byte| number << 8 | byte as usize))
    }

    fn seek(&self, at: usize) -> Result<usize, Stop> {
        let end = self.section.len();
        if at > end { Err(Stop::Refused(Refusal::End { offset: end, requested: at - end })) } else { Ok(at) }
    }

    /// The offsets of a table.
    fn table(&mut self, at: usize, count: usize) -> Result<Vec<usize>, Stop> {
        (0..count).map(|i| self.number(at + 4 * i, 4)).collect()
    }

    fn spend(&mut self, cost: usize) -> Result<(), Stop> {
        self.left = self.left.checked_sub(cost).ok_or(Stop::TooLong)?;
        Ok(())
    }

    fn word(&mut self, word: usize) -> Result<(), Stop> {
        self.spend(1)?;
        self.flat.words.push(word as u32);
        Ok(())
    }

    /// Takes a number of 4 bytes as a word, and returns the position after it.
    fn bits(&mut self, at: usize) -> Result<usize, Stop> {
        let bits = self.number(at, 4)?;
        self.word(bits)?;
        Ok(at + 4)
    }

    fn text(&mut self, start: usize, len: usize) -> Result<(), Stop> {
        self.spend(len)?;
        let (text, replaced) = decoded(&self.section[start..start + len], self.rules);
        self.word(text.len())?;
        self.flat.texts.extend_from_slice(&text);
        self.places.push(TextAt { start, len, replaced });
        Ok(())
    }

    /// Takes a text that a zero ends, and returns the position after the zero.
    fn ended_text(&mut self, start: usize) -> Result<usize, Stop> {
        match self.section[start..].iter().position(|&b| b == 0) {
            Some(len) => self.text(start, len).map(|()| start + len + 1),
            None => Err(Stop::Refused(Refusal::NoZero { start })),
        }
    }

    fn section(&mut self) -> Result<(), Stop> {
        if self.section.len() > LIMIT {
            return Err(Stop::Refused(Refusal::Length(self.section.len())));
        }
        let letters = self.number(0, 4)? as u32;
        let size = self.number(4, 4)?;
        if letters != PAI1 {
            return Err(Stop::Refused(Refusal::Letters(letters)));
        }
        let frame_count = self.number(8, 2)?;
        let looping = self.number(10, 1)?;
        self.number(11, 1)?;
        let texture_count = self.number(12, 2)?;
        let content_count = self.number(14, 2)?;
        let content_table = self.number(16, 4)?;
        for word in [frame_count, (looping != 0) as usize, texture_count, content_count] {
            self.word(word)?;
        }
        for offset in self.table(20, texture_count)? {
            let start = self.seek(self.rules.textures_from + offset)?;
            self.ended_text(start)?;
        }
        let table = self.seek(content_table)?;
        for offset in self.table(table, content_count)? {
            self.content(offset)?;
        }
        self.seek(size)?;
        Ok(())
    }

    fn content(&mut self, offset: usize) -> Result<(), Stop> {
        let start = self.seek(offset)?;
        let field = &self.section[start..(start + 28).min(self.section.len())];
        if field.is_empty() {
            return Err(Stop::Refused(Refusal::End { offset: start, requested: 28 }));
        }
        let len = field.iter().position(|&b| b == 0).unwrap_or(field.len());
        let after = start + field.len();
        let info_count = self.number(after, 1)?;
        let sort = self.number(after + 1, 1)?;
        self.number(after + 2, 2)?;
        let sort = if sort > 4 { 0 } else { sort };
        let mut table = after + 4;
        if sort == 2 {
            table = self.seek(start + self.number(table, 4)?)?;
        }
        self.text(start, len)?;
        self.word(sort)?;
        self.word(info_count)?;
        self.contents.push(Vec::new());
        for offset in self.table(table, info_count)? {
            self.info(start + offset)?;
        }
        Ok(())
    }

    fn info(&mut self, at: usize) -> Result<(), Stop> {
        let start = self.seek(at)?;
        let letters = self.number(start, 4)? as u32;
        let count = self.number(start + 4, 1)?;
        self.number(start + 5, 1)?;
        self.number(start + 6, 2)?;
        let listed = TARGET_NUMBERS.iter().find(|(code, _)| u32::from_le_bytes(**code) == letters);
        let known = if letters == FLEU || listed.is_some() { letters } else { 0 };
        self.word(known as usize)?;
        self.word(count)?;
        let of = if letters == FLEU { PartsAt::Data(Vec::new()) } else { PartsAt::Targets(Vec::new()) };
        self.contents.last_mut().unwrap().push(InfoAt { letters: known, of });
        if letters == FLEU {
            let mut at = start + 8;
            for _ in 0..count {
                at = self.datum(at)?;
            }
            return Ok(());
        }
        let numbers = listed.map(|&(_, numbers)| numbers as usize);
        for offset in self.table(start + 8, count)? {
            self.target(start + offset, numbers)?;
        }
        Ok(())
    }

    /// Notes a part of the info that is walked over.
    fn met(&mut self, note: impl FnOnce(&mut PartsAt)) {
        note(&mut self.contents.last_mut().unwrap().last_mut().unwrap().of);
    }

    fn target(&mut self, at: usize, numbers: Option<usize>) -> Result<(), Stop> {
        let start = self.seek(at)?;
        let layer = self.number(start, 1)?;
        let target = self.number(start + 1, 1)?;
        let curve = self.number(start + 2, 1)?;
        self.number(start + 3, 1)?;
        let key_count = self.number(start + 4, 2)?;
        self.number(start + 6, 2)?;
        let key_offset = self.number(start + 8, 4)?;
        let mut at = self.seek(start + key_offset)?;
        self.word(layer)?;
        self.word(match numbers {
            None => 255,
            Some(numbers) if self.rules.targets_bounded && target >= numbers => 0,
            Some(_) => target,
        })?;
        let (curve, key_count) = if curve > 2 { (0, 0) } else { (curve, key_count) };
        self.word(curve)?;
        self.word(key_count)?;
        self.met(|of| {
            if let PartsAt::Targets(targets) = of {
                targets.push(TargetAt { start, curve, key_count, keys: at });
            }
        });
        for _ in 0..key_count {
            at = self.bits(at)?;
            match curve {
                0 => {}
                1 => {
                    let value = self.number(at, 2)?;
                    self.word(value)?;
                    at += 4;
                }
                _ => {
                    at = self.bits(at)?;
                    at = self.bits(at)?;
                }
            }
        }
        Ok(())
    }

    /// Takes an extended datum, and returns the position after its key text's zero.
    fn datum(&mut self, start: usize) -> Result<usize, Stop> {
        let header = [(0, 4), (4, 2), (6, 2), (8, 4), (12, 4)];
        for (at, width) in header {
            let number = self.number(start + at, width)?;
            self.word(number)?;
        }
        let base_count = self.number(start + 8, 4)?;
        let mut at = start + 16;
        self.met(|of| {
            if let PartsAt::Data(data) = of {
                data.push(DatumAt { base_count, values: at });
            }
        });
        if at + 12 * base_count > self.section.len() {
            self.asked = self.asked.max(4 * base_count);
        }
        for _ in 0..3 * base_count {
            at = self.bits(at)?;
        }
        let text = at + self.rules.key_text_from + self.number(at, 4)?;
        let text = self.seek(text)?;
        self.ended_text(text)
    }
}
