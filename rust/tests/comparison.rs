//! The comparison of readers finds what it is there to find: the reference agrees with itself, and each of these mistaken
//! readers is caught.
mod slips;

use std::collections::BTreeMap;

use compare::bflan::file::BflanSections;
use compare::chars::invalid_chunks;
use compare::comparison::Comparison;
use compare::layout::{Counted, FLEU, Rules, walk};
use compare::proved::Proved;
use compare::random::Random;
use compare::reader::{ByLayout, ByReference, Reader};
use compare::record::{Flat, Refusal, reference};
use compare::sample::{replay, sample};
use compare::sections::{
    Maker, Placing, READABLE, Shape, Target, content_p, fixed_sections, placed, random_sections, speed,
};
use compare::{parse, serialize};
use slips::slips;

fn compared(reader: &dyn Reader) -> Comparison<'_> {
    let mut comparison = Comparison::new(reader, 3);
    fixed_sections(&mut |kind, section| comparison.look(kind, section));
    random_sections(&mut Maker::new(4), 1, &mut |kind, section| comparison.look(kind, section));
    comparison
}

#[test]
fn the_reference_agrees() {
    let comparison = compared(&ByReference);
    assert_eq!(comparison.differences, 0, "{:?}", comparison.smallest);
    let sections: u64 = comparison.kinds.iter().map(|kind| kind.sections).sum();
    assert!(sections > 10_000);
}

/// The smallest section on which a reader is caught.
fn caught(reader: &dyn Reader) -> (Vec<u8>, String) {
    let mut comparison = compared(reader);
    assert!(comparison.differences > 0);
    comparison.shrink();
    let (section, what) = comparison.smallest.unwrap();
    println!("{what}: {section:02X?}");
    (section, what)
}

#[test]
fn texture_offsets_from_0_are_caught() {
    // a texture's offset is needed, and a zero behind it is there already
    let (section, _) = caught(&ByLayout(Rules { textures_from: 0, ..Rules::DOCUMENT }));
    assert!((24..=25).contains(&section.len()));
}

#[test]
fn an_extended_offset_from_after_its_field_is_caught() {
    let (section, _) = caught(&ByLayout(Rules { key_text_from: 4, ..Rules::DOCUMENT }));
    assert!(section.windows(4).any(|letters| letters == FLEU.to_le_bytes()));
}

#[test]
fn a_target_above_its_number_is_caught() {
    caught(&ByLayout(Rules { targets_bounded: false, ..Rules::DOCUMENT }));
}

#[test]
fn a_replacement_for_each_byte_is_caught() {
    caught(&ByLayout(Rules { one_for_each_byte: true, ..Rules::DOCUMENT }));
}

#[test]
fn a_count_of_each_bad_byte_is_caught() {
    let (section, what) = caught(&ByLayout(Rules { counted: Counted::Byte, ..Rules::DOCUMENT }));
    // a texture of two bytes that are one subpart is enough
    assert!((26..=28).contains(&section.len()), "{what}");
}

#[test]
fn a_count_of_a_replacement_character_that_was_there_is_caught() {
    let (section, what) = caught(&ByLayout(Rules { counted: Counted::Shown, ..Rules::DOCUMENT }));
    assert!(section.windows(3).any(|text| text == "\u{FFFD}".as_bytes()), "{what}");
}

slips! {
    /// What a reader can do wrong with the lists that it is given, or in the order of its refusals.
    READERS:
        StoresBeforeRefusing,
        StoresPastTheRecord,
        StoresPastTheList,
        NeedsOneWordMore,
        NeedsOneByteMore,
        RefusesTheRoomFirst,
        RefusesAnExactFit,
        AnswersLikeAnother,
        FillsTheScratch,
        CopiesWellFormedTexts,
        FindsOneTextMore,
        FindsBeforeReading,
        FindsAnEqualText;
    /// What a reader can do wrong in telling how many characters were replaced.
    COUNTERS:
        CountsTheLastTextAlone,
        CountsInBothWalks,
        CountsSharedTextsOnce,
        CountsBehindANamesZero,
        CountsNoCharacterThatANamesEndCuts,
        CountsWhereRefused,
        CountsWhereTheTextIsInTheSection,
        CountsAllTextsForOne,
        CountsNothingForOne;
}

struct Slipping(Slip);

const RIGHT: ByLayout = ByLayout(Rules::DOCUMENT);

impl Reader for Slipping {
    fn read(&self, section: &[u8], words: &mut [u32], texts: &mut [u8], answer: &mut [usize]) {
        RIGHT.read(section, words, texts, answer);
        let &mut [number, n, m, replaced] = answer else { return };
        let walked = walk(section, &Rules::DOCUMENT, usize::MAX).unwrap();
        match self.0 {
            Slip::StoresBeforeRefusing if number != 0 && !words.is_empty() => words[0] = 60,
            Slip::StoresPastTheRecord if number == 0 && texts.len() > m => texts[m] = 0,
            Slip::StoresPastTheList if number == 0 && words.len() == n => unsafe { *words.as_mut_ptr().add(n) = 0 },
            Slip::NeedsOneWordMore if number == 5 => answer[1] += 1,
            Slip::NeedsOneByteMore if number == 5 => answer[2] += 1,
            Slip::RefusesTheRoomFirst if number == 3 && words.len() < 4 => answer.copy_from_slice(&[5, 4, 0, 0]),
            Slip::RefusesAnExactFit if number == 0 && words.len() == n => answer[0] = 5,
            Slip::AnswersLikeAnother if number == 4 => answer[2] = 1,
            Slip::CountsTheLastTextAlone if number == 0 => {
                answer[3] = walked.places.last().map_or(0, |place| place.replaced);
            }
            Slip::CountsInBothWalks if number == 0 => answer[3] = 2 * replaced,
            Slip::CountsSharedTextsOnce if number == 0 => {
                let texts: BTreeMap<usize, usize> =
                    walked.places.iter().map(|place| (place.start, place.replaced)).collect();
                answer[3] = texts.values().sum();
            }
            Slip::CountsBehindANamesZero if number == 0 => {
                for name in walked.places.iter().skip(words[2] as usize) {
                    let behind = section.get(name.start + name.len..name.start + 28).unwrap_or(&[]);
                    // a key of extended data may be taken for a name here, which is a mistake as well
                    answer[3] += invalid_chunks(behind);
                }
            }
            Slip::CountsNoCharacterThatANamesEndCuts if number == 0 => {
                let cut = |end: &[u8]| std::str::from_utf8(end).is_err_and(|error| error.error_len().is_none());
                for name in walked.places.iter().skip(words[2] as usize).filter(|place| place.len == 28) {
                    let last = name.bytes(section).utf8_chunks().last();
                    answer[3] -= usize::from(last.is_some_and(|chunk| cut(chunk.invalid())));
                }
            }
            Slip::CountsWhereRefused if number == 5 => answer[3] = walked.replaced(),
            _ => {}
        }
    }

    fn find_text(&self, section: &[u8], text: usize, scratch: &mut [u8], answer: &mut [usize]) {
        RIGHT.find_text(section, text, scratch, answer);
        let &mut [number, source, start, len, replaced] = answer else { return };
        let sum = walk(section, &Rules::DOCUMENT, usize::MAX).unwrap().replaced();
        match self.0 {
            Slip::FillsTheScratch if number == 0 && source == 1 => scratch[len..].fill(0),
            Slip::CopiesWellFormedTexts if number == 0 && source == 0 && scratch.len() >= len => {
                scratch[..len].copy_from_slice(&section[start..start + len]);
                answer.copy_from_slice(&[0, 1, 0, len, 0]);
            }
            Slip::FindsOneTextMore if number == 10 && text < 9 => answer.copy_from_slice(&[0; 5]),
            Slip::FindsBeforeReading if number == 3 && text > 9 => answer.copy_from_slice(&[10, 0, 0, 0, 0]),
            Slip::FindsAnEqualText if number == 0 && source == 0 => {
                answer[2] =
                    section.windows(len.max(1)).position(|w| w[..len] == section[start..start + len]).unwrap_or(start);
            }
            Slip::CountsWhereTheTextIsInTheSection if number == 0 && source == 0 => answer[4] = sum,
            Slip::CountsAllTextsForOne if number == 0 && source == 1 => answer[4] = sum,
            Slip::CountsNothingForOne if number == 0 && replaced > 1 => answer[4] = 0,
            _ => {}
        }
    }
}

#[test]
fn slips_are_caught() {
    for &slip in READERS.iter().chain(COUNTERS) {
        let reader = Slipping(slip);
        let comparison = compared(&reader);
        assert!(comparison.differences > 0, "{slip:?}");
    }
}

/// The flat record of document 01's exercises.
#[test]
fn flat_records() {
    let written = |shape: &Shape| placed(shape, Placing::Written, &mut Random(0)).bytes;
    let smallest = written(&Shape { frame_count: 60, looping: 1, ..Shape::default() });
    assert_eq!(smallest, b"pai1\x14\0\0\0\x3C\0\x01\0\0\0\0\0\x14\0\0\0");
    assert_eq!(reference(&smallest), Ok(Flat { words: vec![60, 1, 0, 0], texts: vec![] }));
    let texture = written(&Shape { textures: vec![b"a".to_vec()], ..Shape::default() });
    assert_eq!(reference(&texture), Ok(Flat { words: vec![0, 0, 1, 0, 1], texts: b"a".to_vec() }));
    let letters = u32::from_le_bytes(*b"FLVI");
    let words = vec![60, 0, 0, 1, 1, 0, 1, letters, 1, 0, 0, 1, 1, 0, 1];
    assert_eq!(reference(&content_p()), Ok(Flat { words, texts: b"P".to_vec() }));
    assert_eq!(reference(b""), Err(Refusal::End { offset: 0, requested: 4 }));
    assert_eq!(reference(b"quux\0\0"), Err(Refusal::End { offset: 4, requested: 4 }));
    assert_eq!(reference(b"quux\0\0\0\0"), Err(Refusal::Letters(u32::from_le_bytes(*b"quux"))));
}

/// What is placed as the writer places it is what the writer writes.
#[test]
fn placed_as_the_writer_writes() {
    let (_, style, placing) = READABLE[0];
    let mut maker = Maker::new(5);
    let small = (0..5_000).map(|_| maker.section(style, placing).bytes);
    for section in small.chain(speed::sections().into_iter().map(|(_, section)| section)) {
        let Ok(BflanSections::PaneAnimInfo(info)) = parse(&section) else { panic!("{} bytes", section.len()) };
        assert!(serialize(&info) == section, "{} bytes", section.len());
    }
}

/// Every NaN comes through the reference's `f32` with its bits, as do the patterns around them, in reading and in writing.
#[test]
fn every_nan_keeps_its_bits() {
    let mut patterns = (0x7F7F_FFF0..=0x7FFF_FFFF).chain(0xFF7F_FFF0..=0xFFFF_FFFF).peekable();
    while patterns.peek().is_some() {
        let keys: Vec<u32> = patterns.by_ref().take(65_535).collect();
        let target = Target {
            key_count: keys.len() as u16,
            keys: keys.iter().flat_map(|key: &u32| key.to_le_bytes()).collect(),
            ..Target::default()
        };
        let section = compare::sections::one_target(*b"FLPA", target);
        let flat = reference(&section).unwrap();
        assert!(flat.words[13..] == keys);
        let Ok(BflanSections::PaneAnimInfo(info)) = parse(&section) else { panic!("{} keys", keys.len()) };
        assert!(serialize(&info) == section);
    }
}

/// The sample holds every outcome but the limit's, is small, and is what the reader answers.
#[test]
fn the_sample_is_replayed() {
    let sample = sample();
    assert!(sample.bytes.len() < 1 << 20);
    assert!(sample.cases > 2_000);
    assert!([0, 1, 3, 4, 5].iter().all(|&number| sample.numbers[number] > 100), "{:?}", sample.numbers);
    assert_eq!(replay(&sample.bytes, &ByReference), (sample.cases, None));
    assert_eq!(replay(&sample.bytes, &Proved), (sample.cases, None));
    // and it catches the mistaken readers too
    let right = Rules::DOCUMENT;
    for rules in [
        Rules { textures_from: 0, ..right },
        Rules { key_text_from: 4, ..right },
        Rules { targets_bounded: false, ..right },
        Rules { one_for_each_byte: true, ..right },
        Rules { counted: Counted::Byte, ..right },
        Rules { counted: Counted::Shown, ..right },
    ] {
        assert!(replay(&sample.bytes, &ByLayout(rules)).1.is_some());
    }
    for &slip in COUNTERS {
        assert!(replay(&sample.bytes, &Slipping(slip)).1.is_some(), "{slip:?}");
    }
}
