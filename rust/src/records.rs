//! Records to write: those that the sections of `sections.rs` are read as, lists that are such a record changed in some
//! place, and noise. The same seed gives the same records.
use crate::bflan::anim_info::{AnimInfo, PaneAnimInfo};
use crate::bflan::curves::Curve;
use crate::bflan::file::BflanSections;
use crate::judging::{Fault, judge};
use crate::layout::{FLEU, TARGET_NUMBERS};
use crate::parse;
use crate::random::Random;
use crate::record::{Flat, LIMIT, flat};
use crate::sections::{Maker, Placing, READABLE, Style, speed};

/// What is to be written.
#[derive(Clone, Copy)]
pub enum Given<'a> {
    /// The record that this section is read as.
    Section(&'a [u8]),
    /// These lists, whatever they are.
    Lists(&'a Flat),
}

/// Is handed each record, with the name of its kind.
pub type See<'a> = &'a mut dyn FnMut(&str, Given);

/// Kinds of record within the limits, given as the sections that the writer writes of them.
const WITHIN: [(&str, Style); 3] = [
    ("within the limits", KEPT),
    ("the same, extended data", Style { extended: 7, ..KEPT }),
    ("the same, more parts and keys", Style { most: 8, most_keys: 40, ..KEPT }),
];
const KEPT: Style = Style { kept: true, extended: 2, most: 4, most_keys: 4 };

/// Records of at most so many words are changed at every place.
const CHANGED: usize = 48;

const FLVI: u32 = u32::from_le_bytes(*b"FLVI");
const FLPA: u32 = u32::from_le_bytes(*b"FLPA");

/// Numbers around which a word begins or ceases to be in range.
const EDGES: [u32; 28] = [
    0,
    1,
    2,
    3,
    4,
    5,
    9,
    10,
    27,
    28,
    29,
    30,
    254,
    255,
    256,
    257,
    65_534,
    65_535,
    65_536,
    65_537,
    0x7FFF_FFFF,
    0x8000_0000,
    u32::MAX,
    FLVI,
    FLVI ^ 1,
    FLPA,
    FLEU,
    u32::from_be_bytes(*b"FLVI"),
];

fn lists(words: &[u32], texts: &[u8]) -> Flat {
    Flat { words: words.to_vec(), texts: texts.to_vec() }
}

/// Content `P` of document 01's exercises: Pane, FLVI, Step key (0.0, 1).
pub fn content_p() -> Flat {
    lists(&[0, 0, 0, 1, 1, 0, 1, FLVI, 1, 0, 0, 1, 1, 0, 1], b"P")
}

/// One User content of document 01's exercises, with one FLEU datum: base count 1, key `k`.
pub fn user_k() -> Flat {
    lists(&[0, 0, 0, 1, 0, 2, 1, FLEU, 1, 0, 0, 0, 1, 0, 0, 0, 0, 1], b"k")
}

/// One content without infos, whose name has `len` bytes as its word says.
pub fn named(len: usize, name: &[u8]) -> Flat {
    lists(&[0, 0, 0, 1, len as u32, 0, 0], name)
}

/// A record with a target under letters, without keys.
fn one_target(letters: u32, target: u32, curve: u32) -> Flat {
    lists(&[0, 0, 0, 1, 1, 0, 1, letters, 1, 0, target, curve, 0], b"P")
}

/// Records that are the same for every seed.
pub fn fixed_records(see: See) {
    let mut see = |kind: &str, record: &Flat| see(kind, Given::Lists(record));
    let texture = lists(&[0, 0, 1, 0, 1], b"a");
    let exercises = [lists(&[60, 1, 0, 0], b""), texture, content_p(), user_k()];
    for record in &exercises {
        see("document 01's exercises", record);
        for at in 0..record.words.len() {
            let with = |word: u32| {
                let mut copy = record.clone();
                copy.words[at] = word;
                copy
            };
            for edge in EDGES {
                see("every edge at every word", &with(edge));
            }
            let beyond = |word: &u32| judge(&with(*word).words, &record.texts).err() == Some(Fault::Word(at));
            if let Some(word) = (0..=65_536).find(beyond) {
                see("the first out of range at every word", &with(word));
            }
        }
    }
    see("no words", &lists(&[], b""));
    see("no words", &lists(&[], b"a"));

    for len in 0..40 {
        let letters = vec![b'a'; len];
        see("names around 28 bytes", &named(len, &letters));
        // a byte more or less than the word says
        see("names around 28 bytes", &named(len + 1, &letters));
        see("names around 28 bytes", &named(len, &[&letters[..], b"b"].concat()));
        for last in ["é", "€", "🎬"] {
            let name = [&letters[..], last.as_bytes()].concat();
            see("names around 28 bytes", &named(name.len(), &name));
            // cut inside its last character
            see("names around 28 bytes", &named(name.len() - 1, &name[..name.len() - 1]));
        }
    }

    let mut codes: Vec<u32> = TARGET_NUMBERS.iter().map(|(code, _)| u32::from_le_bytes(**code)).collect();
    codes.extend([0, 1, FLEU, u32::from_le_bytes(*b"XXXX"), u32::from_le_bytes(*b"flvi"), u32::MAX]);
    for (code, numbers) in TARGET_NUMBERS {
        for target in [numbers - 1, numbers] {
            see("targets around their number", &one_target(u32::from_le_bytes(*code), target as u32, 0));
        }
    }
    for target in [0, 254, 255, 256] {
        see("targets around their number", &one_target(0, target, 0));
    }
    for letters in codes {
        for target in (0..=260).chain([65_535, 65_536, u32::MAX]) {
            see("every target number", &one_target(letters, target, 0));
        }
        for bit in 0..32 {
            see("letters with a bit changed", &one_target(letters ^ 1 << bit, 0, 0));
        }
    }
    for word in 0..=260 {
        see("every type, curve and looping", &lists(&[0, 0, 0, 1, 0, word, 0], b""));
        see("every type, curve and looping", &one_target(FLPA, 0, word));
        see("every type, curve and looping", &lists(&[0, word, 0, 0], b""));
    }
    // an order of refusals: each of these has two faults or more
    for record in [
        // a length, its text, and the next length
        lists(&[0, 0, 2, 0, 1, 9], b"\x80"),
        lists(&[0, 0, 2, 0, 2, 9], b"a\0"),
        lists(&[0, 0, 2, 0, 1], b"\x80"),
        lists(&[0, 0, 2, 0, 1], b"a"),
        // a name and its type
        lists(&[0, 0, 0, 1, 1, 9, 0], b"\0"),
        lists(&[0, 0, 0, 1, 29, 9, 0], b""),
        lists(&[0, 0, 0, 1, 2, 9, 0], b"a"),
        // bytes missing before a zero, a zero before an ill-formed subpart, and the other way
        lists(&[0, 0, 1, 0, 4], b"\0\x80a"),
        lists(&[0, 0, 1, 0, 3], b"a\0\x80"),
        lists(&[0, 0, 1, 0, 3], b"a\x80\0"),
        // a word over before a byte over, and a fault before either
        lists(&[0, 0, 1, 0, 1, 7], b"ab"),
        lists(&[0, 0, 1, 0, 1, 7], b"\0b"),
        lists(&[0, 2, 1, 0, 1, 7], b"\0b"),
    ] {
        see("several faults", &record);
    }
}

/// Where a record's words are counts, and where the lengths of its texts.
fn places(record: &PaneAnimInfo) -> (Vec<usize>, Vec<usize>) {
    let mut counts = vec![2, 3];
    let mut at = 4 + record.textures.len();
    let mut lengths: Vec<usize> = (4..at).collect();
    for content in &record.contents {
        lengths.push(at);
        counts.push(at + 2);
        at += 3;
        for info in &content.infos {
            counts.push(at + 1);
            at += 2;
            match info {
                AnimInfo::Standard { targets, .. } => {
                    for target in targets {
                        counts.push(at + 3);
                        at += 4 + match &target.curve {
                            Curve::Constant(keys) => keys.len(),
                            Curve::Step(keys) => 2 * keys.len(),
                            Curve::Hermite(keys) => 3 * keys.len(),
                        };
                    }
                }
                AnimInfo::ExtendedUserData { data, .. } => {
                    for datum in data {
                        counts.push(at + 3);
                        at += 5 + 3 * datum.base_count as usize;
                        lengths.push(at);
                        at += 1;
                    }
                }
            }
        }
    }
    (counts, lengths)
}

/// A number that a word may be changed to.
fn changed_word(random: &mut Random, word: u32, bound: usize) -> u32 {
    match random.below(6) {
        0 => word.wrapping_add(1),
        1 => word.wrapping_sub(1),
        2 => *random.one(&EDGES),
        3 => random.next() as u32,
        4 => word ^ 1 << random.below(32),
        _ => random.below(bound + 1) as u32,
    }
}

/// A byte that a text's byte may be changed to.
fn changed_byte(random: &mut Random, byte: u8) -> u8 {
    match random.below(4) {
        0 => 0,
        1 => byte ^ 1 << random.below(8),
        2 => *random.one(&[0x7F, 0x80, 0xBF, 0xC0, 0xC2, 0xE0, 0xED, 0xF0, 0xF4, 0xF5, 0xFF]),
        _ => random.byte(),
    }
}

/// Puts a piece into one of the record's texts, whose length follows.
fn put_piece(random: &mut Random, pieces: &[Vec<u8>], lengths: &[usize], record: &mut Flat) {
    let text = random.below(lengths.len());
    let start: usize = lengths[..text].iter().map(|&at| record.words[at] as usize).sum();
    let len = record.words[lengths[text]] as usize;
    let at = start + random.below(len + 1);
    let piece = random.one(pieces);
    record.texts.splice(at..at, piece.iter().copied());
    record.words[lengths[text]] += piece.len() as u32;
}

/// Every pair of lists that is cut or changed in one place from a record's, and some that are in several.
fn changes(maker: &mut Maker, record: &PaneAnimInfo, see: See) {
    let Maker { random, pieces } = maker;
    let whole = flat(record);
    let (counts, lengths) = places(record);
    let (n, m) = (whole.words.len(), whole.texts.len());
    let mut see = |kind: &str, record: &Flat| see(kind, Given::Lists(record));

    for len in 0..n {
        see("words cut at every length", &lists(&whole.words[..len], &whole.texts));
    }
    for len in 0..m {
        see("texts cut at every length", &lists(&whole.words, &whole.texts[..len]));
    }
    let mut copy = whole.clone();
    for at in 0..n {
        for _ in 0..8 {
            copy.words[at] = changed_word(random, whole.words[at], n);
            see("a word changed, at every place", &copy);
        }
        copy.words[at] = whole.words[at];
    }
    for at in 0..m {
        for _ in 0..4 {
            copy.texts[at] = changed_byte(random, whole.texts[at]);
            see("a text byte changed, at every place", &copy);
        }
        copy.texts[at] = whole.texts[at];
    }
    for (kind, at) in [("a count changed", &counts), ("a text's length changed", &lengths)] {
        for &at in at {
            for _ in 0..6 {
                copy.words[at] = changed_word(random, whole.words[at], n.max(m));
                see(kind, &copy);
            }
            copy.words[at] = whole.words[at];
        }
    }
    for _ in 0..12 {
        let mut copy = whole.clone();
        let (more, bytes) = *random.one(&[(1, 0), (0, 1), (1, 1), (9, 0), (0, 9)]);
        copy.words.extend((0..more).map(|_| *random.one(&EDGES)));
        copy.texts.extend((0..bytes).map(|_| *random.one(&[b'a', 0, 0x80])));
        see("words or text bytes over", &copy);
    }
    for _ in 0..if lengths.is_empty() { 0 } else { 60 } {
        let mut copy = whole.clone();
        put_piece(random, pieces, &lengths, &mut copy);
        see("an edge of Table 3-7 in a text", &copy);
    }
    for _ in 0..60 {
        let mut copy = whole.clone();
        for _ in 0..random.within(2, 4) {
            match random.below(6) {
                0 => copy.words.truncate(n - random.below(3)),
                1 => copy.texts.truncate(m.saturating_sub(random.below(3))),
                2 if !copy.texts.is_empty() => {
                    let at = random.below(copy.texts.len());
                    copy.texts[at] = changed_byte(random, copy.texts[at]);
                }
                3 => copy.words.push(0),
                _ => {
                    let at = random.below(copy.words.len());
                    copy.words[at] = changed_word(random, copy.words[at], n);
                }
            }
        }
        see("several changes", &copy);
    }
}

/// Words and text bytes that follow nothing.
fn noise(maker: &mut Maker) -> Flat {
    let (n, m) = (maker.few(40), maker.few(30));
    let random = &mut maker.random;
    let sort = random.below(3);
    let words = (0..n).map(|_| match sort {
        0 => random.next() as u32,
        1 => random.below(4) as u32,
        _ => *random.one(&EDGES),
    });
    let words = words.collect();
    Flat { words, texts: (0..m).map(|_| random.byte()).collect() }
}

/// Noise that gets further: few textures and contents, and words that are mostly in range somewhere.
fn guided_noise(maker: &mut Maker) -> Flat {
    let random = &mut maker.random;
    let mut words =
        vec![random.below(65_536) as u32, random.below(2) as u32, random.below(3) as u32, random.below(4) as u32];
    let n = random.below(60);
    words.extend((0..n).map(|_| match random.below(8) {
        0 => u32::from_le_bytes(*random.one(&TARGET_NUMBERS).0),
        1 => FLEU,
        2 => 255,
        3 => random.next() as u32,
        _ => random.below(4) as u32,
    }));
    let m = random.below(12);
    Flat { words, texts: vec![b'a'; m] }
}

/// A record within the limits that is small enough to be changed at every place, from one of the kinds of section.
fn small(maker: &mut Maker, kind: usize) -> PaneAnimInfo {
    let (_, style, placing) = READABLE[kind];
    loop {
        let section = maker.section(style, placing).bytes;
        let Ok(BflanSections::PaneAnimInfo(record)) = parse(&section) else { continue };
        let lists = flat(&record);
        if lists.words.len() <= CHANGED && judge(&lists.words, &lists.texts).is_ok() {
            return record;
        }
    }
}

/// At least `count` records of the kinds that are made at random.
pub fn random_records(maker: &mut Maker, count: u64, see: See) {
    let mut made = 0;
    let mut see = |kind: &str, given: Given| {
        made += 1;
        see(kind, given);
        made
    };
    loop {
        for (kind, style) in WITHIN {
            for _ in 0..2_000 {
                see(kind, Given::Section(&maker.section(style, Placing::Written).bytes));
            }
        }
        for (i, (kind, style, placing)) in READABLE.into_iter().enumerate() {
            // the first of them are records within the limits, as above
            for _ in 0..if i == 0 { 0 } else { 800 } {
                see(kind, Given::Section(&maker.section(style, placing).bytes));
            }
            let record = small(maker, i);
            changes(maker, &record, &mut |kind, given| {
                see(kind, given);
            });
        }
        for _ in 0..400 {
            see("noise", Given::Lists(&noise(maker)));
            if see("guided noise", Given::Lists(&guided_noise(maker))) >= count {
                return;
            }
        }
    }
}

/// `count` words 0, as often as `times`, behind a head.
fn repeated(head: &[u32], part: &[u32], times: usize) -> Vec<u32> {
    let mut words = head.to_vec();
    words.extend(part.iter().copied().cycle().take(times * part.len()));
    words
}

/// Records whose sections are as long as the limit and longer, and counts as great as they can be and greater.
pub fn large_records(maker: &mut Maker, see: See) {
    let kind = "large";
    for (_, section) in speed::sections() {
        see(kind, Given::Section(&section));
    }
    let mut see = |record: &Flat| see(kind, Given::Lists(record));

    // one texture: 25 bytes and the name, padded
    for len in [LIMIT - 29, LIMIT - 28, LIMIT - 25, LIMIT - 24, LIMIT - 20, LIMIT] {
        let mut record = Flat { words: vec![0, 0, 1, 0, len as u32], texts: vec![b'a'; len] };
        see(&record);
        // a fault at its end, and a byte or a word over
        for byte in [0x80, 0] {
            record.texts[len - 1] = byte;
            see(&record);
        }
        record.texts[len - 1] = b'a';
        record.texts.push(b'a');
        see(&record);
        record.words.push(0);
        see(&record);
        record.words.pop();
        record.texts.truncate(len - 1);
        see(&record);
    }
    // one datum: 97 bytes, 12 for each of its base count, and the key, padded
    let base_count = (LIMIT - 97) / 12;
    let left = LIMIT - 97 - 12 * base_count;
    for key in [left, left + 1, left + 4] {
        let mut words = vec![0, 0, 0, 1, 0, 2, 1, FLEU, 1, 0, 0, 0, base_count as u32, 0];
        words.extend((0..3 * base_count).map(|_| maker.pattern()));
        words.push(key as u32);
        see(&Flat { words, texts: vec![b'k'; key] });
    }
    // 24 bytes, the content's 36 with its info's 8, and for each target 16 and its keys
    for (curve, size, count) in [(0, 4, 65_535), (1, 8, 32_768), (2, 12, 5_460), (2, 12, 65_535)] {
        for more in [0, 1] {
            let targets = (LIMIT - 68) / (16 + size * count) + more;
            if targets <= 255 {
                let mut words = vec![0, 0, 0, 1, 1, 0, 1, FLPA, targets as u32];
                let key = &[0x7FC0_0001, 0xFFFF, 0xFF80_0001][..size / 4];
                for _ in 0..targets {
                    words.extend(repeated(&[0, 9, curve, count as u32], key, count));
                }
                see(&Flat { words, texts: b"P".to_vec() });
            }
        }
    }
    // 65,535 contents of 36 bytes, and 12 for each info without targets
    for infos in [18, 19, 20] {
        let content = repeated(&[0, 0, infos], &[FLPA, 0], infos as usize);
        see(&Flat { words: repeated(&[0, 0, 0, 65_535], &content, 65_535), texts: vec![] });
    }
    // the greatest counts, and one more of each
    for more in [0, 1] {
        let content = [0, 0, 0, 1, 0, 0, 1, FLPA, 1, 0, 0];
        for words in [
            repeated(&[0, 0, 65_535 + more as u32, 0], &[0], 65_535 + more),
            repeated(&[0, 0, 0, 65_535 + more as u32], &[0, 0, 0], 65_535 + more),
            repeated(&[0, 0, 0, 1, 0, 0, 255 + more as u32], &[0, 0], 255 + more),
            repeated(&[0, 0, 0, 1, 0, 0, 1, FLPA, 255 + more as u32], &[0, 9, 2, 0], 255 + more),
            repeated(&[0, 0, 0, 1, 0, 0, 1, FLEU, 255 + more as u32], &[0; 6], 255 + more),
            repeated(&[&content[..], &[0, 65_535 + more as u32]].concat(), &[5], 65_535 + more),
            repeated(&[&content[..], &[1, 65_535 + more as u32]].concat(), &[5, 6], 65_535 + more),
            repeated(&[&content[..], &[2, 65_535 + more as u32]].concat(), &[5, 6, 7], 65_535 + more),
        ] {
            see(&Flat { words, texts: vec![] });
        }
    }
}
