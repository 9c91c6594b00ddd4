//! Document 01's exercises and refusals for reading and writing, put to the proved calls. What is expected are the pages' own
//! numbers and bytes; the reference is not asked.
use compare::proved::Proved;
use compare::reader::{FIND_NUMBERS, READ_NUMBERS, Reader};
use compare::writer::Writer;

const LIMIT: usize = 16_777_216;
const FLVI: u32 = u32::from_le_bytes(*b"FLVI");
const FLEU: u32 = u32::from_le_bytes(*b"FLEU");

/// Words 60,1,0,0.
const SMALLEST: [u8; 20] = *b"pai1\x14\0\0\0\x3C\0\x01\0\0\0\0\0\x14\0\0\0";

/// What stands in a list before a call.
const MARK: u8 = 0xA5;

/// Reads into tables of so many words and bytes: the answer, and the tables.
fn read(section: &[u8], words: usize, texts: usize) -> ([usize; READ_NUMBERS], Vec<u32>, Vec<u8>) {
    let (mut words, mut texts) = (vec![MARK as u32; words], vec![MARK; texts]);
    let mut answer = [usize::MAX; READ_NUMBERS];
    Proved.read(section, &mut words, &mut texts, &mut answer);
    (answer, words, texts)
}

/// The record of a section that is read, and how many of its characters were replaced.
fn counted(section: &[u8]) -> (Vec<u32>, Vec<u8>, usize) {
    let ([5, n, m, 0], _, _) = read(section, 0, 0) else { panic!("not read: {:?}", read(section, 0, 0).0) };
    let ([0, stored, bytes, replaced], words, texts) = read(section, n, m) else { panic!("{n} words, {m} text bytes") };
    assert_eq!((stored, bytes), (n, m));
    (words, texts, replaced)
}

/// The record of a section that is read, in which no character was replaced.
fn record(section: &[u8]) -> (Vec<u32>, Vec<u8>) {
    let (words, texts, replaced) = counted(section);
    assert_eq!(replaced, 0);
    (words, texts)
}

/// Where a text is found, its start and its length there, and how many of its characters were replaced.
fn found(section: &[u8], text: usize) -> [usize; 4] {
    let mut answer = [usize::MAX; FIND_NUMBERS];
    Proved.find_text(section, text, &mut [MARK; 99], &mut answer);
    let [0, found @ ..] = answer else { panic!("{answer:?}") };
    found
}

/// Writes into an output of so many bytes: the number and the value, and the output.
fn write(words: &[u32], texts: &[u8], room: usize) -> ((usize, usize), Vec<u8>) {
    let mut out = vec![MARK; room];
    let mut answer = [usize::MAX; 3];
    Proved.write(words, texts, &mut out, &mut answer);
    assert_eq!(answer[2], 0);
    ((answer[0], answer[1]), out)
}

/// The section of a record that is written, into an output that is longer; it is read as that record.
fn section(words: &[u32], texts: &[u8]) -> Vec<u8> {
    let ((0, len), mut out) = write(words, texts, 4_096) else {
        panic!("not written: {:?}", write(words, texts, 4_096).0)
    };
    assert!(out[len..].iter().all(|&byte| byte == MARK));
    out.truncate(len);
    assert_eq!(record(&out), (words.to_vec(), texts.to_vec()));
    out
}

/// A refusal that leaves the output as it was.
fn refused(words: &[u32], texts: &[u8], room: usize) -> (usize, usize) {
    let (answer, out) = write(words, texts, room);
    assert!(out.iter().all(|&byte| byte == MARK));
    answer
}

fn word(section: &[u8], at: usize) -> u32 {
    u32::from_le_bytes(section[at..at + 4].try_into().unwrap())
}

/// Content `P`, Pane, FLVI, Step key (0.0, 1).
fn content_p() -> (Vec<u32>, Vec<u8>) {
    (vec![0, 0, 0, 1, 1, 0, 1, FLVI, 1, 0, 0, 1, 1, 0, 1], b"P".to_vec())
}

/// One content without infos, of a type.
fn one_content(name: &[u8], sort: u32) -> (Vec<u32>, Vec<u8>) {
    (vec![0, 0, 0, 1, name.len() as u32, sort, 0], name.to_vec())
}

#[test]
fn words_60_1_0_0() {
    assert_eq!(section(&[60, 1, 0, 0], b""), SMALLEST);
}

/// Size 28, content table 28, texture offset 4, which counts from 20.
#[test]
fn texture_a() {
    let section = section(&[0, 0, 1, 0, 1], b"a");
    assert_eq!((section.len(), word(&section, 4), word(&section, 16), word(&section, 20)), (28, 28, 28, 4));
    assert_eq!(&section[24..], b"a\0\0\0");
}

/// Size 92, content at 24, info 60, target 72, key 84.
#[test]
fn content_with_a_step_key() {
    let (words, texts) = content_p();
    let section = section(&words, &texts);
    assert_eq!((section.len(), word(&section, 4), word(&section, 20)), (92, 92, 24));
    assert_eq!((24 + word(&section, 56), &section[60..64]), (60, &b"FLVI"[..]));
    assert_eq!((60 + word(&section, 68), 72 + word(&section, 80)), (72, 84));
    assert_eq!(section[84..], [0, 0, 0, 0, 1, 0, 0, 0]);
}

/// Total size 80, section 112: neither the padding nor the key with its offset and its zero is in the total size. The key's
/// offset counts from its own position.
#[test]
fn user_content_with_a_datum() {
    let words = [0, 0, 0, 1, 0, 2, 1, FLEU, 1, 0, 0, 0, 1, 0, 5, 6, 7, 1];
    let section = section(&words, b"k");
    assert_eq!((section.len(), word(&section, 4)), (112, 112));
    // the content at 24: its info table at 40, and the total size
    assert_eq!((word(&section, 24 + 32), word(&section, 24 + 36)), (40, 80));
    // the info at 68, the datum at 76, its values at 92, the key's offset at 104
    assert_eq!((word(&section, 92), word(&section, 96), word(&section, 100)), (5, 6, 7));
    assert_eq!((word(&section, 104), &section[108..]), (4, &b"k\0\0\0"[..]));
}

/// One, two and three U+FFFD: one for each maximal subpart.
#[test]
fn ill_formed_texts() {
    for (text, count) in [(&b"\xE2\x82"[..], 1), (b"\xC0\x80", 2), (b"\xED\xA0\x80", 3)] {
        let mut section = b"pai1\x1C\0\0\0\0\0\0\0\x01\0\0\0\x1C\0\0\0\x04\0\0\0\0\0\0\0".to_vec();
        section[24..24 + text.len()].copy_from_slice(text);
        let words = vec![0, 0, 1, 0, 3 * count as u32];
        assert_eq!(counted(&section), (words, b"\xEF\xBF\xBD".repeat(count), count));
        assert_eq!(found(&section, 0), [1, 0, 3 * count, count]);
        // as a record's text it is refused where the first subpart starts
        assert_eq!(refused(&[0, 0, 1, 0, text.len() as u32], text, 64), (7, 0));
    }
}

/// A U+FFFD that the section holds is a character, and not counted.
#[test]
fn a_replacement_character_that_was_there() {
    let section = section(&[0, 0, 1, 0, 3], b"\xEF\xBF\xBD");
    assert_eq!(counted(&section), (vec![0, 0, 1, 0, 3], b"\xEF\xBF\xBD".to_vec(), 0));
    assert_eq!(found(&section, 0), [0, 24, 3, 0]);
}

/// Content `P` with the byte 80 for its name: 15 words, 3 text bytes, 1 replaced.
#[test]
fn a_name_of_one_ill_formed_byte() {
    let (mut words, texts) = content_p();
    let mut section = section(&words, &texts);
    section[24] = 0x80;
    assert_eq!(read(&section, 15, 3).0, [0, 15, 3, 1]);
    words[4] = 3;
    assert_eq!(counted(&section), (words, b"\xEF\xBF\xBD".to_vec(), 1));
    assert_eq!(found(&section, 0), [1, 0, 3, 1]);
}

#[test]
fn too_short() {
    assert_eq!(read(b"", 9, 9).0, [3, 0, 4, 0]);
    assert_eq!(read(b"pai1\x14\0", 9, 9).0, [3, 4, 4, 0]);
}

#[test]
fn curve_3_has_no_keys() {
    let (mut words, texts) = content_p();
    words.truncate(12);
    words[11] = 0;
    words.push(0);
    let mut section = section(&words, &texts);
    section[72 + 2] = 3;
    section[72 + 4] = 9;
    assert_eq!(record(&section), (words, texts));
}

#[test]
fn type_4_stays_and_5_reads_0() {
    let (words, texts) = one_content(b"P", 4);
    let mut four = section(&words, &texts);
    four[24 + 29] = 5;
    assert_eq!(record(&four), one_content(b"P", 0));
    let (words, texts) = one_content(b"P", 5);
    assert_eq!(refused(&words, &texts, 64), (6, 5));
}

#[test]
fn a_name_of_28_bytes_is_written_and_of_29_refused() {
    let (words, texts) = one_content(&[b'n'; 28], 0);
    let section = section(&words, &texts);
    assert_eq!((section.len(), &section[24..52]), (56, &[b'n'; 28][..]));
    // the length is word 4
    let (words, texts) = one_content(&[b'n'; 29], 0);
    assert_eq!(refused(&words, &texts, 64), (6, 4));
}

#[test]
fn a_last_step_key_without_its_skipped_bytes_reads() {
    let (words, texts) = content_p();
    let whole = section(&words, &texts);
    let mut cut = whole[..90].to_vec();
    cut[4] = 90;
    assert_eq!(record(&cut), (words, texts));
    // a byte less, and the value is not whole
    cut.pop();
    assert_eq!(read(&cut, 99, 99).0, [3, 88, 2, 0]);
    // the size is sought at last
    assert_eq!(read(&whole[..90], 99, 99).0, [3, 90, 2, 0]);
}

/// The refusals of reading, with what is returned; no list changes.
#[test]
fn refusals_of_reading() {
    let mut long = SMALLEST.to_vec();
    long.resize(LIMIT + 1, 0);
    let mut other = SMALLEST;
    other[0] = b'q';
    let unended = *b"pai1\x1C\0\0\0\0\0\0\0\x01\0\0\0\x1C\0\0\0\x04\0\0\0aaaa";
    let letters = u32::from_le_bytes(*b"qai1") as usize;
    for (section, room, wanted) in [
        (&other[..], (4, 0), [1, letters, 0, 0]),
        (&long, (4, 0), [2, LIMIT + 1, 0, 0]),
        (&SMALLEST[..19], (4, 0), [3, 16, 4, 0]),
        (&unended, (9, 9), [4, 24, 0, 0]),
        (&SMALLEST, (3, 0), [5, 4, 0, 0]),
    ] {
        let (answer, words, texts) = read(section, room.0, room.1);
        assert_eq!(answer, wanted);
        assert!(words.iter().all(|&word| word == MARK as u32) && texts.iter().all(|&byte| byte == MARK));
    }
    // the limit itself
    assert_eq!(read(&long[..LIMIT], 4, 0).0, [0, 4, 0, 0]);
}

/// The refusals of writing, with what is returned; the output does not change.
#[test]
fn refusals_of_writing() {
    for (words, texts, wanted) in [
        // a word missing, out of range, over
        (&[60, 1, 0][..], &b""[..], (6, 3)),
        (&[60, 2, 0, 0], b"", (6, 1)),
        (&[65_536, 1, 0, 0], b"", (6, 0)),
        (&[60, 1, 0, 0, 0], b"", (6, 4)),
        // a text missing, judged before its faults; with a zero; ill-formed; over
        (&[60, 1, 1, 0, 4], b"\x80\0a", (7, 3)),
        (&[60, 1, 1, 0, 4], b"ab\0\x80", (7, 2)),
        (&[60, 1, 1, 0, 4], b"a\xE2\x82\0", (7, 1)),
        (&[60, 1, 1, 0, 1], b"ab", (7, 1)),
        // a length before its text, a text before the next word, a word over before a byte over
        (&[0, 0, 0, 1, 29, 0, 0], b"", (6, 4)),
        (&[0, 0, 0, 1, 1, 9, 0], b"\0", (7, 0)),
        (&[60, 1, 0, 0, 0], b"a", (6, 4)),
    ] {
        assert_eq!(refused(words, texts, 64), wanted, "{words:?} {texts:?}");
        // whatever the room
        assert_eq!(refused(words, texts, 0), wanted, "{words:?} {texts:?}");
    }
    // the output too short by a byte, and of no length
    assert_eq!(refused(&[60, 1, 0, 0], b"", 19), (9, 20));
    assert_eq!(refused(&[60, 1, 0, 0], b"", 0), (9, 20));
}

/// One texture name: 25 bytes and its own, padded to a multiple of 4. The limit comes before the room.
#[test]
fn sections_at_the_limit() {
    let name = vec![b'a'; LIMIT - 24];
    let fits = &name[..LIMIT - 25];
    assert_eq!(write(&[0, 0, 1, 0, fits.len() as u32], fits, LIMIT).0, (0, LIMIT));
    assert_eq!(refused(&[0, 0, 1, 0, fits.len() as u32], fits, 100), (9, LIMIT));
    assert_eq!(refused(&[0, 0, 1, 0, name.len() as u32], &name, 100), (8, LIMIT));
}
