//! The exported functions of the proved library, as safe functions on slices: one for each, with the same numbers. The
//! rest of this crate is made of them.
//!
//! No function asks anything of its caller but what a Rust slice is anyway. So each of these only takes its slices apart
//! into the address and the length that C passes.
//!
//! A call that can be refused stores document 01's number and values in `answer`, with zeros behind them: three numbers,
//! four for [`read`], five for [`find_text`] and for what stands in a field. What `answer` has no place for is dropped, and
//! no other place of it changes.
//!
//! A decoding, a reading and a text that is found tell how many characters were replaced: the maximal ill-formed subparts,
//! each of which becomes one U+FFFD. A U+FFFD that the bytes held already is a character like another, and not counted.
#![allow(unsafe_code)]
#![allow(clippy::too_many_arguments)]

unsafe extern "C" {
    fn nnbfl_decoded_len(text: *const u8, text_len: usize) -> usize;
    fn nnbfl_decode_into(
        text: *const u8,
        text_len: usize,
        out: *mut u8,
        out_len: usize,
        at: usize,
        replaced: *mut usize,
    ) -> usize;
    fn nnbfl_decode_plain(
        text: *const u8,
        text_len: usize,
        out: *mut u8,
        out_len: usize,
        at: usize,
        replaced: *mut usize,
    ) -> usize;
    fn nnbfl_well_formed(text: *const u8, text_len: usize) -> bool;
    fn nnbfl_first_ill(text: *const u8, text_len: usize) -> usize;
    fn nnbfl_first_zero(text: *const u8, text_len: usize) -> usize;
    fn nnbfl_first_fault(text: *const u8, text_len: usize) -> usize;
    fn nnbfl_read(
        section: *const u8,
        section_len: usize,
        words: *mut u32,
        words_len: usize,
        texts: *mut u8,
        texts_len: usize,
        answer: *mut usize,
        answer_len: usize,
    );
    fn nnbfl_find_text(
        section: *const u8,
        section_len: usize,
        text: usize,
        scratch: *mut u8,
        scratch_len: usize,
        answer: *mut usize,
        answer_len: usize,
    );
    fn nnbfl_text_part(
        section: *const u8,
        section_len: usize,
        scratch: *const u8,
        scratch_len: usize,
        source: usize,
        start: usize,
        len: usize,
        out: *mut u8,
        out_len: usize,
    ) -> usize;
    fn nnbfl_write(
        words: *const u32,
        words_len: usize,
        texts: *const u8,
        texts_len: usize,
        out: *mut u8,
        out_len: usize,
        answer: *mut usize,
        answer_len: usize,
    );
    fn nnbfl_undo(
        section: *mut u8,
        section_len: usize,
        journal: *const u32,
        journal_len: usize,
        count: usize,
        answer: *mut usize,
        answer_len: usize,
    );
}

/// The length of the decoding of `text`.
pub fn decoded_len(text: &[u8]) -> usize {
    unsafe { nnbfl_decoded_len(text.as_ptr(), text.len()) }
}

/// Stores the decoding of `text` in `out` from `at` on, without what would stand past the end, and returns its whole
/// length. How many characters were replaced in the whole of it is stored in `replaced`, whatever stood there.
pub fn decode_into(text: &[u8], out: &mut [u8], at: usize, replaced: &mut usize) -> usize {
    unsafe { nnbfl_decode_into(text.as_ptr(), text.len(), out.as_mut_ptr(), out.len(), at, replaced) }
}

/// The same, one character at a time.
pub fn decode_plain(text: &[u8], out: &mut [u8], at: usize, replaced: &mut usize) -> usize {
    unsafe { nnbfl_decode_plain(text.as_ptr(), text.len(), out.as_mut_ptr(), out.len(), at, replaced) }
}

/// Whether `text` is well-formed UTF-8.
pub fn well_formed(text: &[u8]) -> bool {
    unsafe { nnbfl_well_formed(text.as_ptr(), text.len()) }
}

/// Where the first ill-formed subpart starts, or the length.
pub fn first_ill(text: &[u8]) -> usize {
    unsafe { nnbfl_first_ill(text.as_ptr(), text.len()) }
}

/// Where the first zero byte stands, or the length.
pub fn first_zero(text: &[u8]) -> usize {
    unsafe { nnbfl_first_zero(text.as_ptr(), text.len()) }
}

/// The earlier of the two.
pub fn first_fault(text: &[u8]) -> usize {
    unsafe { nnbfl_first_fault(text.as_ptr(), text.len()) }
}

/// Fills the tables with a section's flat record. The answer is 0 with the words and the text bytes that were filled and
/// the replaced characters of all texts, or a refusal.
pub fn read(section: &[u8], words: &mut [u32], texts: &mut [u8], answer: &mut [usize]) {
    unsafe {
        nnbfl_read(
            section.as_ptr(),
            section.len(),
            words.as_mut_ptr(),
            words.len(),
            texts.as_mut_ptr(),
            texts.len(),
            answer.as_mut_ptr(),
            answer.len(),
        )
    }
}

/// Finds a section's text by its number. The answer is 0 with where it lies (0 for the section, 1 for the scratch), its
/// start there, its length and its replaced characters (0 of them where it lies in the section), or a refusal.
pub fn find_text(section: &[u8], text: usize, scratch: &mut [u8], answer: &mut [usize]) {
    unsafe {
        nnbfl_find_text(
            section.as_ptr(),
            section.len(),
            text,
            scratch.as_mut_ptr(),
            scratch.len(),
            answer.as_mut_ptr(),
            answer.len(),
        )
    }
}

/// Stores the part that [`find_text`]'s source, start and length say, of the section or of the scratch, in `out` from its start on,
/// without what would stand past the end, and returns its whole length. The part is empty where the numbers run past that
/// slice or the source is neither 0 nor 1.
pub fn text_part(section: &[u8], scratch: &[u8], source: usize, start: usize, len: usize, out: &mut [u8]) -> usize {
    unsafe {
        nnbfl_text_part(
            section.as_ptr(),
            section.len(),
            scratch.as_ptr(),
            scratch.len(),
            source,
            start,
            len,
            out.as_mut_ptr(),
            out.len(),
        )
    }
}

/// Writes the section of a flat record. The answer is 0 with the section's length, or a refusal.
pub fn write(words: &[u32], texts: &[u8], out: &mut [u8], answer: &mut [usize]) {
    unsafe {
        nnbfl_write(
            words.as_ptr(),
            words.len(),
            texts.as_ptr(),
            texts.len(),
            out.as_mut_ptr(),
            out.len(),
            answer.as_mut_ptr(),
            answer.len(),
        )
    }
}

/// Takes back the last of `count` edits. The answer is 0 with the new count, or a refusal.
pub fn undo(section: &mut [u8], journal: &[u32], count: usize, answer: &mut [usize]) {
    unsafe {
        nnbfl_undo(
            section.as_mut_ptr(),
            section.len(),
            journal.as_ptr(),
            journal.len(),
            count,
            answer.as_mut_ptr(),
            answer.len(),
        )
    }
}

/// Each edit as it is exported and as a safe function: they differ only in the place and the new value.
macro_rules! edits {
    ($($(#[$doc:meta])* $name:ident = $exported:ident($($number:ident: $type:ty),*);)*) => {
        unsafe extern "C" {
            $(fn $exported(
                section: *mut u8,
                section_len: usize,
                journal: *mut u32,
                journal_len: usize,
                count: usize,
                $($number: $type,)*
                answer: *mut usize,
                answer_len: usize,
            );)*
        }
        $(
            $(#[$doc])*
            ///
            /// The bytes that stood there become entry `count` of the journal. The answer is 0 with the new count, or a
            /// refusal.
            pub fn $name(
                section: &mut [u8],
                journal: &mut [u32],
                count: usize,
                $($number: $type,)*
                answer: &mut [usize],
            ) {
                unsafe {
                    $exported(
                        section.as_mut_ptr(),
                        section.len(),
                        journal.as_mut_ptr(),
                        journal.len(),
                        count,
                        $($number,)*
                        answer.as_mut_ptr(),
                        answer.len(),
                    )
                }
            }
        )*
    };
}

edits! {
    /// Changes the frame count.
    edit_frame_count = nnbfl_edit_frame_count(value: u32);
    /// Changes whether the animation loops: 1 or 0.
    edit_looping = nnbfl_edit_looping(value: u32);
    /// Changes a target's layer.
    edit_layer = nnbfl_edit_layer(content: usize, info: usize, target: usize, value: u32);
    /// Changes a target's number.
    edit_target = nnbfl_edit_target(content: usize, info: usize, target: usize, value: u32);
    /// Changes a key of a Constant curve, given by its bits.
    edit_constant_key = nnbfl_edit_constant_key(
        content: usize, info: usize, target: usize, key: usize, value: u32
    );
    /// Changes a key of a Step curve, its frame given by the bits.
    edit_step_key = nnbfl_edit_step_key(
        content: usize, info: usize, target: usize, key: usize, frame: u32, value: u32
    );
    /// Changes a key of a Hermite curve, given by its bits.
    edit_hermite_key = nnbfl_edit_hermite_key(
        content: usize, info: usize, target: usize, key: usize, frame: u32, value: u32, slope: u32
    );
    /// Changes a value of extended data, given by its bits.
    edit_value = nnbfl_edit_value(
        content: usize, info: usize, datum: usize, list: usize, index: usize, value: u32
    );
}

/// What stands in each field as it is exported and as a safe function: they differ only in the place.
macro_rules! fields {
    ($($(#[$doc:meta])* $name:ident = $exported:ident($($number:ident),*);)*) => {
        unsafe extern "C" {
            $(fn $exported(
                section: *const u8,
                section_len: usize,
                $($number: usize,)*
                answer: *mut usize,
                answer_len: usize,
            );)*
        }
        $(
            $(#[$doc])*
            ///
            /// The answer is 0 with how many values there are and the values, as the record has them, or a refusal.
            pub fn $name(section: &[u8], $($number: usize,)* answer: &mut [usize]) {
                unsafe {
                    $exported(section.as_ptr(), section.len(), $($number,)* answer.as_mut_ptr(), answer.len())
                }
            }
        )*
    };
}

fields! {
    /// The frame count.
    field_frame_count = nnbfl_field_frame_count();
    /// Whether the animation loops: 1 or 0.
    field_looping = nnbfl_field_looping();
    /// A target's layer.
    field_layer = nnbfl_field_layer(content, info, target);
    /// A target's number.
    field_target = nnbfl_field_target(content, info, target);
    /// A key: of a Constant curve one value, of a Step curve two, of a Hermite curve three; floats by their bits.
    field_key = nnbfl_field_key(content, info, target, key);
    /// A value of extended data, by its bits.
    field_value = nnbfl_field_value(content, info, datum, list, index);
}
