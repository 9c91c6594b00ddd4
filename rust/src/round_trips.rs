//! Samples for the program `round_trip`: inputs of different kinds, and what it must write. What that is comes from document 01
//! and the reference, which parses a section and serializes what it read.
use crate::bflan::file::BflanSections;
use crate::judging::written;
use crate::random::Random;
use crate::record::{flat, reference};
use crate::sections::{
    Content, Info, Maker, Of, Placing, READABLE, Shape, Target, content_p, datum_k, field, one_target, placed,
};
use crate::{parse, serialize};

/// The longest input and output, and the longest tables (document 01, 'The round-trip program').
const BYTES: usize = 65_536;
const WORDS: usize = 16_384;

/// What the program writes for an input.
pub fn answer(input: &[u8]) -> Vec<u8> {
    let refused = |number: usize| format!("refused {number}\n").into_bytes();
    if input.len() > BYTES {
        return refused(2);
    }
    if let Err(refusal) = reference(input) {
        return refused(refusal.numbers()[0]);
    }
    let Ok(BflanSections::PaneAnimInfo(tree)) = parse(input) else { unreachable!() };
    let record = flat(&tree);
    if record.words.len() > WORDS || record.texts.len() > BYTES {
        return refused(5);
    }
    if let Err([number, _]) = written(&record.words, &record.texts) {
        return refused(number);
    }
    let section = serialize(&tree);
    if section.len() > BYTES { refused(9) } else { section }
}

fn put(section: &mut [u8], at: usize, number: usize) {
    section[at..at + 4].copy_from_slice(&(number as u32).to_le_bytes());
}

fn section_of(shape: &Shape) -> Vec<u8> {
    placed(shape, Placing::Written, &mut Random(0)).bytes
}

fn texture(text: &[u8]) -> Vec<u8> {
    section_of(&Shape { textures: vec![text.to_vec()], ..Shape::default() })
}

fn contents(name: &[u8], sort: u8, infos: Vec<Info>) -> Vec<u8> {
    let content = Content { name: field(name), sort, reserve: 0, infos };
    section_of(&Shape { contents: vec![content], ..Shape::default() })
}

/// `section` with its size, cut or filled with zeros.
fn sized(mut section: Vec<u8>, len: usize) -> Vec<u8> {
    section.resize(len, 0);
    put(&mut section, 4, len);
    section
}

/// The samples: a name, and an input.
pub fn inputs() -> Vec<(&'static str, Vec<u8>)> {
    let user_k = Info { letters: crate::layout::FLEU, reserves: [0; 3], of: Of::Data(vec![datum_k()]) };
    let mut all = vec![
        // the sections of document 01
        ("smallest", b"pai1\x14\0\0\0\x3C\0\x01\0\0\0\0\0\x14\0\0\0".to_vec()),
        ("texture_a", texture(b"a")),
        ("content_p", content_p()),
        ("user_k", contents(b"", 2, vec![user_k])),
        ("name_of_28", contents(&[b'n'; 28], 0, vec![])),
        // what the record does not keep
        ("ill_formed_texture", texture(b"a\xE2\x82b\xC0\x80")),
        ("type_5", contents(b"P", 5, vec![])),
        ("unlisted_letters", one_target(*b"XXXX", Target { target: 3, ..Target::default() })),
        ("target_at_its_number", one_target(*b"FLVI", Target { target: 1, ..Target::default() })),
        ("curve_3", one_target(*b"FLPA", Target { curve: 3, key_count: 9, ..Target::default() })),
        ("step_key_cut", sized(content_p(), 90)),
        ("zeros_behind", {
            let mut section = content_p();
            section.resize(BYTES, 0);
            section
        }),
        // refused
        ("refused_empty", vec![]),
        ("refused_six_bytes", b"pai1\x14\0".to_vec()),
        ("refused_letters", b"pai2\x14\0\0\0\x3C\0\x01\0\0\0\0\0\x14\0\0\0".to_vec()),
        ("refused_cut", content_p()[..80].to_vec()),
        ("refused_text_without_zero", {
            let mut section = texture(b"abc");
            section[27] = b'd';
            put(&mut section, 16, 0);
            section
        }),
        // 28 bytes that decode to 84
        ("refused_name_of_84", contents(&[0x80; 28], 0, vec![])),
        ("refused_over_65536", sized(content_p(), BYTES + 1)),
    ];
    // reserve bytes, and a looping that is neither 0 nor 1
    let mut section = content_p();
    for (at, byte) in
        [(10, 7), (11, 0xFF), (54, 1), (55, 2), (65, 3), (66, 4), (75, 5), (78, 6), (79, 7), (90, 8), (91, 9)]
    {
        section[at] = byte;
    }
    all.push(("reserves", section));
    let names = ["in_order", "gaps", "scattered", "shared", "extended_shared", "more_scattered"];
    for (seed, (name, (_, style, placing))) in names.into_iter().zip(READABLE).enumerate() {
        // a section of some size that is written again
        let mut maker = Maker::new(seed as u64);
        let section = loop {
            let section = maker.section(style, placing).bytes;
            if (200..1_200).contains(&section.len()) && !answer(&section).starts_with(b"refused") {
                break section;
            }
        };
        all.push((name, section));
    }
    // 255 targets at one place, of 100 keys: more words than the table has
    let target = Target { key_count: 100, keys: vec![0; 400], ..Target::default() };
    let info = Info { letters: u32::from_le_bytes(*b"FLPA"), reserves: [0; 3], of: Of::Targets(vec![target]) };
    let mut section = contents(b"P", 0, vec![info]);
    let info = 60;
    section[info + 4] = 255;
    let target = section.split_off(info + 12);
    section.resize(info + 8 + 4 * 255, 0);
    for i in 0..255 {
        put(&mut section, info + 8 + 4 * i, 8 + 4 * 255);
    }
    section.extend(target);
    let len = section.len();
    all.push(("refused_tables_too_short", sized(section, len)));
    // 5,000 contents at one place: a longer section than the output
    let mut section = contents(b"P", 0, vec![]);
    let content = section.split_off(24);
    section[14..16].copy_from_slice(&5_000u16.to_le_bytes());
    section.resize(20 + 4 * 5_000, 0);
    for i in 0..5_000 {
        put(&mut section, 20 + 4 * i, 20 + 4 * 5_000);
    }
    section.extend(content);
    let len = section.len();
    all.push(("refused_output_too_short", sized(section, len)));
    all
}
