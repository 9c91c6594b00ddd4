use std::borrow::Cow;

use crate::record::Record;

/// A record that was read, with how many characters were replaced in it: [`read_counted`](crate::read_counted).
#[derive(Clone, Debug, PartialEq, Eq)]
pub struct Reading {
    /// The record.
    pub record: Record,
    /// How many U+FFFD the reading put into its texts, all of them together. A text that two offsets of the section lead to
    /// is twice in the record, and counts twice.
    pub replaced: usize,
}

/// A text that was found, with how many characters were replaced in it: [`text_counted`](crate::text_counted).
#[derive(Clone, Debug, PartialEq, Eq)]
pub struct Text<'a> {
    /// The text, borrowed where nothing was replaced.
    pub text: Cow<'a, str>,
    /// How many U+FFFD the decoding put into it.
    pub replaced: usize,
}
