//! The call that writes a record, under one name for the proved code and for what is held against it.
use crate::judging::written;
use crate::reader::store;

/// Writes records, as document 01 says. A number that an answer has no place for is dropped, and no other place of an
/// answer changes.
pub trait Writer {
    /// Writes the section of a flat record. The answer is document 01's number and its value, and a 0 for the second value
    /// that reading has.
    fn write(&self, words: &[u32], texts: &[u8], out: &mut [u8], answer: &mut [usize]);
}

/// The judging walk and the reference behind the call.
pub struct ByJudging;

impl Writer for ByJudging {
    fn write(&self, words: &[u32], texts: &[u8], out: &mut [u8], answer: &mut [usize]) {
        let [number, value] = match written(words, texts) {
            Err(refusal) => refusal,
            Ok(section) if section.len() > out.len() => [9, section.len()],
            Ok(section) => {
                out[..section.len()].copy_from_slice(&section);
                [0, section.len()]
            }
        };
        store(&[number, value, 0], answer);
    }
}
