//! The comparison of decoders finds what it is there to find: a decoder that is written apart from the proved ones agrees with
//! the standard library, and each of these mistaken ones is caught.
use compare::chars::invalid_chunks;
use compare::layout::{Counted, Rules, decoded};
use compare::texts::{DECODERS, Decode, Texts};

/// Decodes by these rules: by the rows of the Unicode Standard's Table 3-7.
fn decode_by(rules: &Rules, text: &[u8], out: &mut [u8], at: usize, replaced: &mut usize) -> usize {
    let (bytes, count) = decoded(text, rules);
    let room = out.get_mut(at..).unwrap_or_default();
    let stored = bytes.len().min(room.len());
    room[..stored].copy_from_slice(&bytes[..stored]);
    *replaced = count;
    bytes.len()
}

fn right(text: &[u8], out: &mut [u8], at: usize, replaced: &mut usize) -> usize {
    decode_by(&Rules::DOCUMENT, text, out, at, replaced)
}

const RIGHT: &[(&str, Decode)] = &[("right", right)];

fn compared(decoders: &'static [(&'static str, Decode)]) -> Texts {
    let mut texts = Texts::new(decoders, 5);
    for len in 0..=2 {
        texts.every(len);
    }
    texts.longer(20_000);
    texts
}

#[test]
fn the_table_and_the_proved_decoders_agree() {
    for decoders in [RIGHT, DECODERS] {
        let texts = compared(decoders);
        assert_eq!(texts.differences, 0);
        assert!(texts.kinds.iter().map(|kind| kind.replaced).sum::<u64>() > 100_000);
    }
}

/// What a decoder can do wrong in telling how many characters it replaced, or what it is told with.
const MISTAKEN: [&[(&str, Decode)]; 12] = [
    &[("one for each byte that is replaced", |text, out, at, replaced| {
        decode_by(&Rules { counted: Counted::Byte, ..Rules::DOCUMENT }, text, out, at, replaced)
    })],
    &[("a U+FFFD that was there too", |text, out, at, replaced| {
        decode_by(&Rules { counted: Counted::Shown, ..Rules::DOCUMENT }, text, out, at, replaced)
    })],
    &[("a U+FFFD for each byte, and as many counted", |text, out, at, replaced| {
        decode_by(&Rules { one_for_each_byte: true, ..Rules::DOCUMENT }, text, out, at, replaced)
    })],
    &[("by what the text grows", |text, out, at, replaced| {
        let len = right(text, out, at, replaced);
        *replaced = len.saturating_sub(text.len()).div_ceil(2);
        len
    })],
    &[("whether any was replaced", |text, out, at, replaced| {
        let len = right(text, out, at, replaced);
        *replaced = (*replaced).min(1);
        len
    })],
    &[("twice", |text, out, at, replaced| {
        let len = right(text, out, at, replaced);
        *replaced *= 2;
        len
    })],
    &[("beside what stood there", |text, out, at, replaced| {
        let before = *replaced;
        let len = right(text, out, at, replaced);
        *replaced = replaced.wrapping_add(before);
        len
    })],
    &[("not stored where it is 0", |text, out, at, replaced| {
        let before = *replaced;
        let len = right(text, out, at, replaced);
        if *replaced == 0 {
            *replaced = before;
        }
        len
    })],
    &[("only what is stored", |text, out, at, replaced| {
        let len = right(text, out, at, replaced);
        let stored = len.min(out.len().saturating_sub(at));
        // the subparts whose decoding has a place
        let mut end = 0;
        *replaced = 0;
        for chunk in text.utf8_chunks() {
            end += chunk.valid().len();
            if !chunk.invalid().is_empty() {
                end += 3;
                *replaced += usize::from(end <= stored);
            }
        }
        len
    })],
    &[("without a last subpart that the text's end cuts", |text, out, at, replaced| {
        let len = right(text, out, at, replaced);
        if std::str::from_utf8(text).is_err_and(|e| e.error_len().is_none()) {
            *replaced -= 1;
        }
        len
    })],
    &[("of the first 64 bytes", |text, out, at, replaced| {
        let len = right(text, out, at, replaced);
        *replaced = invalid_chunks(&text[..text.len().min(64)]);
        len
    })],
    &[("into the number behind as well", |text, out, at, replaced| {
        let len = right(text, out, at, replaced);
        // the comparison has another number there
        unsafe { *std::ptr::from_mut(replaced).add(1) = 0 };
        len
    })],
];

#[test]
fn mistaken_decoders_are_caught() {
    for mistaken in MISTAKEN {
        assert!(compared(mistaken).differences > 0, "{}", mistaken[0].0);
    }
}
