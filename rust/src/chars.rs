//! The pieces that texts are made of.
use crate::random::Random;

/// The rows of the Unicode Standard's Table 3-7: the range of each byte of a well-formed sequence.
pub const ROWS: [&[(u8, u8)]; 9] = [
    &[(0x00, 0x7F)],
    &[(0xC2, 0xDF), (0x80, 0xBF)],
    &[(0xE0, 0xE0), (0xA0, 0xBF), (0x80, 0xBF)],
    &[(0xE1, 0xEC), (0x80, 0xBF), (0x80, 0xBF)],
    &[(0xED, 0xED), (0x80, 0x9F), (0x80, 0xBF)],
    &[(0xEE, 0xEF), (0x80, 0xBF), (0x80, 0xBF)],
    &[(0xF0, 0xF0), (0x90, 0xBF), (0x80, 0xBF), (0x80, 0xBF)],
    &[(0xF1, 0xF3), (0x80, 0xBF), (0x80, 0xBF), (0x80, 0xBF)],
    &[(0xF4, 0xF4), (0x80, 0x8F), (0x80, 0xBF), (0x80, 0xBF)],
];

/// The first piece of a text that is not empty: its length, and whether it is a character. Otherwise it is a maximal
/// ill-formed subpart: the bytes that go along with a row, or one byte that no row begins with.
pub fn first_piece(text: &[u8]) -> (usize, bool) {
    for row in ROWS {
        let along = row.iter().zip(text).take_while(|&(&(low, high), byte)| (low..=high).contains(byte)).count();
        if along > 0 {
            return (along, along == row.len());
        }
    }
    (1, false)
}

/// How many characters a decoding replaces, by the standard library.
pub fn invalid_chunks(text: &[u8]) -> usize {
    text.utf8_chunks().filter(|chunk| !chunk.invalid().is_empty()).count()
}

/// Of every row the first and the last sequence, and each of these with one byte put just outside its range, or cut
/// short after any byte.
pub fn boundary_pieces() -> Vec<Vec<u8>> {
    let mut pieces = Vec::new();
    for row in ROWS {
        for last in [false, true] {
            let edge: Vec<u8> = row.iter().map(|&(low, high)| if last { high } else { low }).collect();
            for (i, &(low, high)) in row.iter().enumerate() {
                for outside in [low.checked_sub(1), high.checked_add(1)].into_iter().flatten() {
                    let mut piece = edge.clone();
                    piece[i] = outside;
                    pieces.push(piece);
                }
                pieces.push(edge[..=i].to_vec());
            }
        }
    }
    pieces
}

/// A character whose UTF-8 has `len` bytes.
pub fn char_of_len(random: &mut Random, len: usize) -> char {
    let (low, high) = [(0x20, 0x7E), (0x80, 0x7FF), (0x800, 0xFFFF), (0x1_0000, 0x10_FFFF)][len - 1];
    loop {
        if let Some(c) = char::from_u32(random.within(low, high) as u32) {
            return c;
        }
    }
}

/// Appends a character of any length.
pub fn push_char(random: &mut Random, text: &mut Vec<u8>) {
    let len = random.within(1, 4);
    push(text, char_of_len(random, len));
}

pub fn push(text: &mut Vec<u8>, c: char) {
    text.extend_from_slice(c.encode_utf8(&mut [0; 4]).as_bytes());
}

/// Changes, drops, doubles or puts in one byte somewhere.
pub fn damage(random: &mut Random, text: &mut Vec<u8>) {
    if text.is_empty() {
        return;
    }
    let i = random.below(text.len());
    match random.below(5) {
        0 => text[i] = random.byte(),
        1 => text[i] ^= 1 << random.below(8),
        2 => drop(text.remove(i)),
        3 => text.insert(i, text[i]),
        _ => text.insert(i, 0x80 | random.byte() & 0x3F),
    }
}

/// Words in several scripts, of one to four bytes a character.
pub const WORDS: [&str; 24] = [
    "animation",
    "frame",
    "Pane_00",
    "texture",
    "naïve",
    "Größe",
    "přehrát",
    "déjà",
    "κίνηση",
    "πλαίσιο",
    "анимация",
    "слой",
    "אנימציה",
    "إطار",
    "ऐनिमेशन",
    "ภาพเคลื่อนไหว",
    "アニメーション",
    "画面",
    "レイアウト",
    "动画",
    "圖層",
    "애니메이션",
    "🎬🎞️",
    "𝔉𝔯𝔞𝔪𝔢",
];
