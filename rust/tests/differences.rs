//! What the reference does on the inputs of docs/DIFFERENCES.md, and what the proved reader and writer answer. Each test is one
//! entry there.
use std::panic::{AssertUnwindSafe, catch_unwind};
use std::process::Command;

use compare::bflan::anim_info::{AnimContent, AnimInfo, AnimInfoType, AnimType, ExtendedUserDataAnim, PaneAnimInfo};
use compare::bflan::curves::{Curve, StepKey};
use compare::bflan::file::BflanSections;
use compare::bflan::targets::{AnimTarget, TargetIndex};
use compare::core::FormatError;
use compare::proved::Proved;
use compare::reader::{READ_NUMBERS, Reader};
use compare::record::{Flat, LIMIT, flat};
use compare::writer::Writer;
use compare::{parse, serialize};

fn read(section: &[u8]) -> PaneAnimInfo {
    match parse(section) {
        Ok(BflanSections::PaneAnimInfo(info)) => info,
        other => panic!("not read as a pai1 section: {other:?}"),
    }
}

fn eof(section: &[u8]) -> (usize, usize) {
    match parse(section) {
        Err(FormatError::UnexpectedEof { offset, requested_bytes }) => (offset, requested_bytes),
        other => panic!("not refused at the end: {other:?}"),
    }
}

/// What the reader answers, with tables of no length and without the count of replaced characters, which is 0 then.
fn here(section: &[u8]) -> [usize; 3] {
    let mut answer = [usize::MAX; READ_NUMBERS];
    Proved.read(section, &mut [], &mut [], &mut answer);
    let [number, a, b, 0] = answer else { panic!("{answer:?}") };
    [number, a, b]
}

/// What the writer answers for the flat record of a record, with room enough for what the reference writes.
fn written_here(record: &PaneAnimInfo) -> (usize, usize) {
    let Flat { words, texts } = flat(record);
    let mut answer = [usize::MAX; 3];
    Proved.write(&words, &texts, &mut vec![0; serialize(record).len()], &mut answer);
    (answer[0], answer[1])
}

fn half(bytes: &[u8], at: usize) -> u16 {
    u16::from_le_bytes(bytes[at..at + 2].try_into().unwrap())
}

fn visible(curve: Curve) -> AnimTarget {
    AnimTarget { layer: 0, target: TargetIndex::resolve(&AnimInfoType::VisibilityAnim, 0), curve }
}

fn info(targets: Vec<AnimTarget>) -> AnimInfo {
    AnimInfo::Standard { anim_type: AnimInfoType::VisibilityAnim, targets }
}

fn content(name: &str, infos: Vec<AnimInfo>) -> AnimContent {
    AnimContent { name: name.to_owned(), anim_type: AnimType::Pane, infos }
}

fn with_contents(contents: Vec<AnimContent>) -> PaneAnimInfo {
    PaneAnimInfo { contents, ..Default::default() }
}

fn with_textures(textures: Vec<String>) -> PaneAnimInfo {
    PaneAnimInfo { textures, ..Default::default() }
}

/// The section with words 60,1,0,0.
fn smallest() -> Vec<u8> {
    serialize(&PaneAnimInfo { frame_count: 60, is_looping: true, ..Default::default() })
}

#[test]
fn entry_1_a_longer_slice_is_read() {
    let mut section = smallest();
    section.resize(LIMIT + 1, 0);
    assert_eq!(read(&section).frame_count, 60);
    assert_eq!(here(&section), [2, LIMIT + 1, 0]);
    assert_eq!(here(&section[..LIMIT]), [5, 4, 0]);
}

#[test]
fn entry_2_a_longer_section_is_written() {
    let record = with_textures(vec!["a".repeat(LIMIT)]);
    let section = serialize(&record);
    assert_eq!(section.len(), LIMIT + 28);
    assert_eq!(read(&section).textures[0].len(), LIMIT);
    assert_eq!(written_here(&record), (8, LIMIT));
    // at the limit it is written
    assert_eq!(written_here(&with_textures(vec!["a".repeat(LIMIT - 25)])), (0, LIMIT));
}

#[test]
fn entry_3_other_letters() {
    let Ok(BflanSections::Unknown(header, data)) = parse(b"abcd\x0A\0\0\0xy") else { panic!("refused") };
    assert_eq!((header.section_size, &data[..]), (10, &b"xy"[..]));
    // a size below 8: overflow is checked in a debug build and wraps in a release build
    let said = catch_unwind(AssertUnwindSafe(|| eof(b"abcd\x04\0\0\0")));
    if cfg!(debug_assertions) {
        assert!(said.is_err());
    } else {
        assert_eq!(said.unwrap(), (8, 4_294_967_292));
    }
    assert!(matches!(parse(b"usd1\x0C\0\0\0\0\0\0\0"), Ok(BflanSections::UserData(_))));
    let mut tag = b"pat1\x20\0\0\0".to_vec();
    tag.resize(32, 0);
    assert!(matches!(parse(&tag), Ok(BflanSections::PaneAnimTag(_))));
    for section in [&b"abcd\x0A\0\0\0xy"[..], b"abcd\x04\0\0\0", b"usd1\x0C\0\0\0\0\0\0\0", &tag] {
        let letters = u32::from_le_bytes(section[..4].try_into().unwrap());
        assert_eq!(here(section), [1, letters as usize, 0]);
        assert_eq!(here(&section[..7]), [3, 4, 4]);
    }
}

#[test]
fn entry_4_a_long_name_is_cut() {
    let name = "a".repeat(29);
    let record = with_contents(vec![content(&name, vec![])]);
    assert_eq!(read(&serialize(&record)).contents[0].name, name[..28]);
    assert_eq!(written_here(&record), (6, 4));
    // inside a character, which then reads as U+FFFD
    let name = "a".repeat(27) + "é";
    let record = with_contents(vec![content(&name, vec![])]);
    assert_eq!(read(&serialize(&record)).contents[0].name, "a".repeat(27) + "\u{FFFD}");
    assert_eq!(written_here(&record), (6, 4));
    // a name that was read: 28 bytes that decode to 84, of which the Rust writes 28 again
    let mut section = serialize(&with_contents(vec![content("", vec![])]));
    section[24..52].fill(0x80);
    let record = read(&section);
    assert_eq!(record.contents[0].name, "\u{FFFD}".repeat(28));
    assert_eq!(read(&serialize(&record)).contents[0].name, "\u{FFFD}".repeat(10));
    assert_eq!(written_here(&record), (6, 4));
}

#[test]
fn entry_5_counts_are_cut() {
    // 65,536 textures and 65,536 contents: both counts are written as 0
    let record = with_textures(vec![String::new(); 65_536]);
    let section = serialize(&record);
    assert_eq!((half(&section, 12), read(&section).textures.len()), (0, 0));
    assert_eq!(written_here(&record), (6, 2));
    let record = with_contents(vec![content("", vec![]); 65_536]);
    let section = serialize(&record);
    assert_eq!((half(&section, 14), read(&section).contents.len()), (0, 0));
    assert_eq!(written_here(&record), (6, 3));
    // 256 infos in a content at 24, 256 targets in its info at 60, 65,536 keys in the target at 72
    let record = with_contents(vec![content("P", vec![info(vec![]); 256])]);
    assert_eq!(serialize(&record)[24 + 28], 0);
    assert_eq!(written_here(&record), (6, 6));
    let targets = vec![visible(Curve::default()); 256];
    let record = with_contents(vec![content("P", vec![info(targets)])]);
    assert_eq!(serialize(&record)[60 + 4], 0);
    assert_eq!(written_here(&record), (6, 8));
    let keys = Curve::Constant(vec![0.0; 65_536]);
    let record = with_contents(vec![content("P", vec![info(vec![visible(keys)])])]);
    assert_eq!(half(&serialize(&record), 72 + 4), 0);
    assert_eq!(written_here(&record), (6, 12));
}

#[test]
fn entry_6_a_zero_in_a_text_is_written() {
    let record = with_textures(vec!["a\0b".to_owned()]);
    let section = serialize(&record);
    assert_eq!(&section[24..28], b"a\0b\0");
    assert_eq!(read(&section).textures, ["a"]);
    assert_eq!(written_here(&record), (7, 1));
    let record = with_contents(vec![content("a\0b", vec![])]);
    assert_eq!(read(&serialize(&record)).contents[0].name, "a");
    assert_eq!(written_here(&record), (7, 1));
}

/// One User content with one FLEU datum, base count 1, key `k`.
fn extended() -> PaneAnimInfo {
    let datum = ExtendedUserDataAnim {
        header_size: 0,
        unk_1: 0,
        unk_2: 0,
        base_count: 1,
        unk_3: 0,
        values: vec![vec![0.0]; 3],
        key: "k".to_owned(),
    };
    let info = AnimInfo::ExtendedUserData { anim_type: AnimInfoType::ExtendedUserDataAnim, data: vec![datum] };
    let content = AnimContent { name: String::new(), anim_type: AnimType::User, infos: vec![info] };
    with_contents(vec![content])
}

#[test]
fn entry_7_records_with_no_flat_form_are_written() {
    // a base count that is not the lists' length: the reading back takes the key's offset for a value
    let mut record = extended();
    let AnimInfo::ExtendedUserData { data, .. } = &mut record.contents[0].infos[0] else { panic!() };
    data[0].base_count = 0;
    let section = serialize(&record);
    assert!(parse(&section).is_err() || read(&section) != record);
    // standard targets under the letters FLEU
    let odd =
        AnimInfo::Standard { anim_type: AnimInfoType::ExtendedUserDataAnim, targets: vec![visible(Curve::default())] };
    let record = with_contents(vec![content("P", vec![odd])]);
    let section = serialize(&record);
    assert!(parse(&section).is_err() || read(&section) != record);
    // a target of another kind than its letters: written as 9, and read as 0
    let target =
        AnimTarget { layer: 0, target: TargetIndex::resolve(&AnimInfoType::PaneSrtAnim, 9), curve: Curve::default() };
    let record = with_contents(vec![content("P", vec![info(vec![target])])]);
    let section = serialize(&record);
    assert_eq!(section[72 + 1], 9);
    assert_eq!(written_here(&record), (6, 10));
    assert_eq!(read(&section), with_contents(vec![content("P", vec![info(vec![visible(Curve::default())])])]));
}

/// The section of `extended`, with base count 4,294,967,295, at 84.
fn huge_base_count() -> Vec<u8> {
    let mut section = serialize(&extended());
    assert_eq!((section.len(), &section[84..88]), (112, &[1, 0, 0, 0][..]));
    section[84..88].copy_from_slice(&u32::MAX.to_le_bytes());
    section
}

/// 65,535 texture offsets that all lead to one text of a mebibyte.
fn one_text_many_times() -> Vec<u8> {
    let mut section = serialize(&with_textures(vec![String::new(); 65_535]));
    let text = section.len();
    for i in 0..65_535 {
        section[20 + 4 * i..24 + 4 * i].copy_from_slice(&(text as u32 - 20).to_le_bytes());
    }
    section.resize(text + (1 << 20), b'a');
    section.push(0);
    section
}

/// Runs an ignored test of this file in a process that may have 1 GiB of memory; whether it was aborted.
fn aborts(test: &str) -> bool {
    let said = Command::new("sh")
        .args(["-c", "ulimit -v 1048576; exec \"$0\" --exact --ignored \"$1\""])
        .arg(std::env::current_exe().unwrap())
        .arg(test)
        .output()
        .unwrap();
    let errors = String::from_utf8_lossy(&said.stderr);
    !said.status.success() && errors.contains("memory allocation of")
}

#[test]
#[ignore = "run by entry_8"]
fn parses_huge_base_count() {
    let _ = parse(&huge_base_count());
}

#[test]
#[ignore = "run by entry_8"]
fn parses_one_text_many_times() {
    let _ = parse(&one_text_many_times());
}

#[test]
fn entry_8_an_allocation_that_fails_aborts() {
    assert!(aborts("parses_huge_base_count"));
    assert!(aborts("parses_one_text_many_times"));
    // the values begin at 92, and there are 112 bytes
    assert_eq!(here(&huge_base_count()), [3, 112, 4]);
}

#[test]
fn entry_9_skipped_bytes_are_not_tested() {
    let key = |value| StepKey { frame: 0.0, value };
    let one = with_contents(vec![content("P", vec![info(vec![visible(Curve::Step(vec![key(1)]))])])]);
    let mut section = serialize(&one);
    // the last key without its two skipped bytes reads (the size is taken back with them)
    section.truncate(90);
    section[4..8].copy_from_slice(&90u32.to_le_bytes());
    assert_eq!(read(&section), one);
    assert_eq!(here(&section), [5, 15, 1]);
    // two keys asked for: the next read starts two bytes past the end, and is refused there
    section[76..78].copy_from_slice(&2u16.to_le_bytes());
    assert_eq!(eof(&section), (92, 4));
    assert_eq!(here(&section), [3, 92, 4]);
}
