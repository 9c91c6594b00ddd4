//! The comparison of writers finds what it is there to find: the judging walk with the reference agrees with itself, and
//! each of these mistaken writers is caught.
mod slips;

use compare::bflan::anim_info::{AnimInfo, AnimType, PaneAnimInfo};
use compare::judging::{Fault, judge, written};
use compare::layout::Rules;
use compare::proved::Proved;
use compare::reader::ByLayout;
use compare::record::{Flat, LIMIT, flat};
use compare::records::{Given, content_p, fixed_records, named, random_records, user_k};
use compare::sample::sample;
use compare::sample_records::{self, replay};
use compare::sections::Maker;
use compare::writer::{ByJudging, Writer};
use compare::writing::Writing;
use slips::slips;

const READER: ByLayout = ByLayout(Rules::DOCUMENT);

fn compared(writer: &dyn Writer) -> Writing<'_> {
    let mut writing = Writing::new(&READER, writer, 3);
    fixed_records(&mut |kind, given| writing.look(kind, given));
    random_records(&mut Maker::new(4), 1, &mut |kind, given| writing.look(kind, given));
    // a section that is longer than the limit
    let record = Flat { words: vec![0, 0, 1, 0, LIMIT as u32], texts: vec![b'a'; LIMIT] };
    writing.look("large", Given::Lists(&record));
    writing
}

#[test]
fn the_judging_walk_agrees() {
    let writing = compared(&ByJudging);
    assert_eq!(writing.differences, 0, "{:?}", writing.smallest);
    for (i, number) in ["written", "6", "7", "8"].into_iter().enumerate() {
        assert!(writing.kinds.iter().any(|kind| kind.outcomes[i] > 0), "{number}");
    }
    assert!(writing.kinds.iter().map(|kind| kind.records).sum::<u64>() > 15_000);
}

slips! {
    /// What a writer can do wrong with the layout, with the limits, in the order of its refusals, or with the lists that
    /// it is given: what shows on small records, within the output.
    SMALL:
        PaddingInTotalSize,
        KeysInTotalSize,
        LoopingRaw,
        SizeUnpadded,
        WordsOver,
        BytesOver,
        CountsCut,
        LongNameCut,
        TargetNotBounded,
        InvalidTargetFree,
        UnlistedLetters,
        ZeroLetThrough,
        IllFormedLetThrough,
        IllFormedAtItsEnd,
        IllFormedBeforeMissing,
        TextsAfterWords,
        BytesOverBeforeWords,
        TextIndexWithinItsText,
        MissingWordAtTheFirst,
        RoomBeforeTheRecord,
        ExactRoomRefused,
        NeedsOneByteMore,
        StoresBeforeRefusing,
        StoresPastTheSection;
    /// What shows on others.
    LARGE:
        RoomBeforeTheLimit,
        LimitIsLess,
        StoresPastTheOutput,
        AnswersFourNumbers;
}

struct Slipping(Slip);

/// A record with its words changed, written.
fn with_words(words: &[u32], texts: &[u8], change: impl FnOnce(&mut Vec<u32>), out: &mut [u8], answer: &mut [usize]) {
    let mut copy = words.to_vec();
    change(&mut copy);
    ByJudging.write(&copy, texts, out, answer);
}

/// Changes the total size of each User content of a section that was written, given what its extended data leave out.
fn change_totals(record: &PaneAnimInfo, out: &mut [u8], change: impl Fn(u32, u32) -> u32) {
    let word = |out: &[u8], at: usize| u32::from_le_bytes(out[at..at + 4].try_into().unwrap());
    let table = word(out, 16) as usize;
    for (i, content) in record.contents.iter().enumerate() {
        if content.anim_type != AnimType::User {
            continue;
        }
        let at = word(out, table + 4 * i) as usize + 36;
        let keys = content.infos.iter().map(|info| match info {
            AnimInfo::ExtendedUserData { data, .. } => data.iter().map(|datum| 5 + datum.key.len() as u32).sum(),
            AnimInfo::Standard { .. } => 0,
        });
        let total = change(word(out, at), keys.sum());
        out[at..at + 4].copy_from_slice(&total.to_le_bytes());
    }
}

impl Writer for Slipping {
    fn write(&self, words: &[u32], texts: &[u8], out: &mut [u8], answer: &mut [usize]) {
        ByJudging.write(words, texts, out, answer);
        let &mut [number, value, _] = answer else {
            if let (Slip::AnswersFourNumbers, [_, _, _, fourth, ..]) = (self.0, answer) {
                *fourth = 0;
            }
            return;
        };
        match self.0 {
            Slip::PaddingInTotalSize if number == 0 => {
                let record = judge(words, texts).unwrap();
                change_totals(&record, out, |total, keys| (total + keys).next_multiple_of(4) - keys);
            }
            Slip::KeysInTotalSize if number == 0 => {
                change_totals(&judge(words, texts).unwrap(), out, |total, keys| total + keys);
            }
            Slip::LoopingRaw if (number, value) == (6, 1) && words.len() > 1 && words[1] < 256 => {
                with_words(words, texts, |copy| copy[1] = 1, out, answer);
                if answer[0] == 0 {
                    out[10] = words[1] as u8;
                }
            }
            Slip::SizeUnpadded if number == 0 => {
                let record = judge(words, texts).unwrap();
                if record.contents.is_empty() && !record.textures.is_empty() {
                    let names: usize = record.textures.iter().map(|name| 5 + name.len()).sum();
                    out[4..8].copy_from_slice(&(20 + names as u32).to_le_bytes());
                }
            }
            Slip::WordsOver if number == 6 && value < words.len() => {
                ByJudging.write(&words[..value], texts, out, answer);
                if !matches!(answer[0], 0 | 9) {
                    answer.copy_from_slice(&[6, value, 0]);
                }
            }
            Slip::BytesOver if number == 7 => {
                ByJudging.write(words, &texts[..value], out, answer);
                if !matches!(answer[0], 0 | 9) {
                    answer.copy_from_slice(&[7, value, 0]);
                }
            }
            Slip::CountsCut if (number, value) == (6, 2) && words.len() > 2 => {
                with_words(words, texts, |copy| copy[2] &= 0xFFFF, out, answer);
            }
            Slip::LongNameCut if number == 6 && words.get(value) == Some(&29) => {
                let texts = &texts[..texts.len().min(28)];
                with_words(words, texts, |copy| copy[value] = 28, out, answer);
            }
            Slip::TargetNotBounded if number == 6 && words.get(value).is_some_and(|&word| word == 1) => {
                with_words(words, texts, |copy| copy[value] = 0, out, answer);
                if !matches!(answer[0], 0 | 9) {
                    answer.copy_from_slice(&[6, value, 0]);
                }
            }
            Slip::InvalidTargetFree if number == 6 && words.get(value) == Some(&0) => {
                with_words(words, texts, |copy| copy[value] = 255, out, answer);
                if !matches!(answer[0], 0 | 9) {
                    answer.copy_from_slice(&[6, value, 0]);
                }
            }
            Slip::UnlistedLetters if number == 6 && words.get(value).is_some_and(|&word| word > 0x4000_0000) => {
                with_words(words, texts, |copy| copy[value] = 0, out, answer);
                if !matches!(answer[0], 0 | 9) {
                    answer.copy_from_slice(&[6, value, 0]);
                }
            }
            Slip::ZeroLetThrough if number == 7 && texts.get(value) == Some(&0) => {
                let mut copy = texts.to_vec();
                copy[value] = b'0';
                ByJudging.write(words, &copy, out, answer);
            }
            Slip::IllFormedLetThrough if number == 7 && texts.get(value).is_some_and(|&byte| byte >= 0x80) => {
                let mut copy = texts.to_vec();
                copy[value] = b'?';
                ByJudging.write(words, &copy, out, answer);
            }
            Slip::IllFormedAtItsEnd if number == 7 && texts.get(value).is_some_and(|&byte| byte >= 0xC2) => {
                answer[1] += 1;
            }
            Slip::IllFormedBeforeMissing if number == 7 && value == texts.len() => {
                if let Err(error) = std::str::from_utf8(texts) {
                    answer[1] = error.valid_up_to();
                }
            }
            Slip::TextsAfterWords if number == 7 => {
                // with the texts made good, is there a fault in the words?
                let total = words.iter().filter(|&&word| word < 1_000).sum::<u32>() as usize;
                if let Err(Fault::Word(index)) = judge(words, &vec![b'a'; total]) {
                    if index < words.len() && words[index] > 1_000 {
                        answer.copy_from_slice(&[6, index, 0]);
                    }
                }
            }
            Slip::BytesOverBeforeWords if number == 6 && value < words.len() => {
                if let Err(Fault::Text(index)) = judge(&words[..value], texts) {
                    answer.copy_from_slice(&[7, index, 0]);
                }
            }
            Slip::TextIndexWithinItsText if number == 7 && words.len() > 5 && words[2] == 2 && value < texts.len() => {
                answer[1] -= (words[4] as usize).min(value);
            }
            Slip::MissingWordAtTheFirst if number == 6 && value == words.len() && value > 0 => answer[1] -= 1,
            Slip::RoomBeforeTheLimit if number == 8 => answer.copy_from_slice(&[9, LIMIT + 28, 0]),
            Slip::RoomBeforeTheRecord if number == 7 && out.len() < 20 => answer.copy_from_slice(&[9, 20, 0]),
            Slip::LimitIsLess if number == 0 && value > 2_000 => {
                answer.copy_from_slice(&[8, LIMIT, 0]);
            }
            Slip::ExactRoomRefused if number == 0 && value == out.len() => answer[0] = 9,
            Slip::NeedsOneByteMore if number == 9 => answer[1] += 1,
            Slip::StoresBeforeRefusing if number != 0 && !out.is_empty() => out[0] = b'p',
            Slip::StoresPastTheSection if number == 0 && out.len() > value => out[value] = !out[value],
            Slip::StoresPastTheOutput if number == 0 && out.len() == value => unsafe {
                let past = out.as_mut_ptr().add(value);
                *past = !*past;
            },
            _ => {}
        }
    }
}

#[test]
fn slips_are_caught() {
    for &slip in SMALL.iter().chain(LARGE) {
        let writer = Slipping(slip);
        assert!(compared(&writer).differences > 0, "{slip:?}");
    }
}

/// The sample holds every outcome but the limit's, is what the writer answers, catches the mistaken writers too, and is the one
/// that is stored.
#[test]
fn the_sample_is_replayed() {
    let records = sample_records::sample();
    assert!(records.cases > 500);
    assert!([0, 6, 7, 9].iter().all(|&number| records.numbers[number] > 50), "{:?}", records.numbers);
    assert_eq!(replay(&records.bytes, &ByJudging), (records.cases, None));
    assert_eq!(replay(&records.bytes, &Proved), (records.cases, None));
    for &slip in SMALL {
        assert!(replay(&records.bytes, &Slipping(slip)).1.is_some(), "{slip:?}");
    }
    let stored = std::fs::read(concat!(env!("CARGO_MANIFEST_DIR"), "/../crates/replay_sections/stdin")).unwrap();
    assert!(stored == [sample().bytes, records.bytes].concat());
}

/// The record that is shown of a difference is the smallest that shows it.
#[test]
fn a_difference_is_made_small() {
    let smallest = |slip| {
        let writer = Slipping(slip);
        let mut writing = Writing::new(&READER, &writer, 3);
        // a texture before, contents behind, a word and a byte over
        let mut record = user_k();
        record.words[2] = 1;
        record.words.insert(4, 2);
        record.words.push(0);
        record.texts.splice(0..0, *b"\x80b");
        writing.look("", Given::Lists(&record));
        record.words[1] = 9;
        writing.look("", Given::Lists(&record));
        writing.shrink();
        writing.smallest.unwrap().0
    };
    assert_eq!(smallest(Slip::LoopingRaw), Flat { words: vec![0, 2], texts: vec![] });
    assert_eq!(smallest(Slip::IllFormedLetThrough), Flat { words: vec![0, 0, 1, 0, 1], texts: vec![0x80] });
}

/// The judging walk on what document 01 says.
#[test]
fn judged() {
    let words = |words: &[u32], texts: &[u8]| written(words, texts);
    assert_eq!(words(&[60, 1, 0, 0], b"").unwrap(), b"pai1\x14\0\0\0\x3C\0\x01\0\0\0\0\0\x14\0\0\0");
    assert_eq!(words(&[0, 0, 1, 0, 1], b"a").unwrap().len(), 28);
    for record in [content_p(), user_k(), named(28, &[b'a'; 28])] {
        assert_eq!(flat(&judge(&record.words, &record.texts).unwrap()), record);
    }
    assert_eq!(words(&named(29, &[b'a'; 29]).words, &[b'a'; 29]), Err([6, 4]));
    // looping, a word missing, a word over
    assert_eq!(words(&[0, 2, 0, 0], b""), Err([6, 1]));
    assert_eq!(words(&[0, 0, 0], b""), Err([6, 3]));
    assert_eq!(words(&[0, 0, 0, 0, 0], b""), Err([6, 4]));
    // bytes missing, judged before a zero; a zero; an ill-formed subpart, where it starts; a byte over
    assert_eq!(words(&[0, 0, 1, 0, 3], b"\0a"), Err([7, 2]));
    assert_eq!(words(&[0, 0, 1, 0, 3], b"a\0\x80"), Err([7, 1]));
    assert_eq!(words(&[0, 0, 2, 0, 1, 3], b"aa\xE2\x82"), Err([7, 2]));
    assert_eq!(words(&[0, 0, 1, 0, 1], b"ab"), Err([7, 1]));
    // a text before the word behind its length, and a word over before a byte over
    assert_eq!(words(&[0, 0, 0, 1, 1, 9, 0], b"\0"), Err([7, 0]));
    assert_eq!(words(&[0, 0, 1, 0, 1, 0], b"ab"), Err([6, 5]));
}
