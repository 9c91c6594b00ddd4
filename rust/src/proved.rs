//! The proved calls under the names that the drivers use. `pai1::raw` has each as a safe function, so nothing is unsafe
//! here.
use crate::change::{Change, NewKey, Place};
use crate::editor::Editor;
use crate::reader::Reader;
use crate::writer::Writer;
use pai1::raw;
use std::hint::black_box;

pub use pai1::raw::{decode_into, decode_plain, decoded_len, first_fault, first_ill, first_zero, well_formed};

/// The proved reader, writer and editor.
pub struct Proved;

impl Reader for Proved {
    fn read(&self, section: &[u8], words: &mut [u32], texts: &mut [u8], answer: &mut [usize]) {
        raw::read(section, words, texts, answer)
    }

    fn find_text(&self, section: &[u8], text: usize, scratch: &mut [u8], answer: &mut [usize]) {
        raw::find_text(section, text, scratch, answer)
    }
}

impl Writer for Proved {
    fn write(&self, words: &[u32], texts: &[u8], out: &mut [u8], answer: &mut [usize]) {
        raw::write(words, texts, out, answer)
    }
}

impl Editor for Proved {
    fn edit(&self, s: &mut [u8], journal: &mut [u32], n: usize, change: &Change, answer: &mut [usize]) {
        match *change {
            Change::FrameCount(value) => raw::edit_frame_count(s, journal, n, value, answer),
            Change::Looping(value) => raw::edit_looping(s, journal, n, value, answer),
            Change::Layer([a, b, c], value) => raw::edit_layer(s, journal, n, a, b, c, value, answer),
            Change::Target([a, b, c], value) => raw::edit_target(s, journal, n, a, b, c, value, answer),
            Change::Key([a, b, c, d], NewKey::Constant(value)) => {
                raw::edit_constant_key(s, journal, n, a, b, c, d, value, answer)
            }
            Change::Key([a, b, c, d], NewKey::Step { frame, value }) => {
                raw::edit_step_key(s, journal, n, a, b, c, d, frame, value, answer)
            }
            Change::Key([a, b, c, d], NewKey::Hermite { frame, value, slope }) => {
                raw::edit_hermite_key(s, journal, n, a, b, c, d, frame, value, slope, answer)
            }
            Change::Value([a, b, c, d, e], value) => raw::edit_value(s, journal, n, a, b, c, d, e, value, answer),
        }
    }

    fn undo(&self, section: &mut [u8], journal: &mut [u32], count: usize, answer: &mut [usize]) {
        raw::undo(section, journal, count, answer);
        // the journal is handed over to be read: whether it is changed is to be seen, and not taken for granted
        black_box(journal);
    }

    fn field_at(&self, section: &mut [u8], place: &Place, answer: &mut [usize]) {
        field_at(section, place, answer);
        // so is the section here
        black_box(section);
    }
}

/// What stands at a place of a section, which is only read.
pub fn field_at(section: &[u8], place: &Place, answer: &mut [usize]) {
    match *place {
        Place::FrameCount => raw::field_frame_count(section, answer),
        Place::Looping => raw::field_looping(section, answer),
        Place::Layer([a, b, c]) => raw::field_layer(section, a, b, c, answer),
        Place::Target([a, b, c]) => raw::field_target(section, a, b, c, answer),
        Place::Key([a, b, c, d]) => raw::field_key(section, a, b, c, d, answer),
        Place::Value([a, b, c, d, e]) => raw::field_value(section, a, b, c, d, e, answer),
    }
}
