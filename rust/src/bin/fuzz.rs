//! Calls every exported function on random and damaged inputs. Each slice stands against a page that faults on touch, at
//! its start or at its end, and what a call may only read it cannot write. Usage: fuzz [SEED] [MINUTES] [FROM].
//!
//! Of each call it is asked whether the answer is one that document 01 lists for it, whether a refused call changed
//! nothing and an accepted one nothing but what it stored, and whether the answer and what was stored are the same
//! wherever the slices stand. A fault ends the program with the number of the section that it happened on; with that
//! number as FROM the same section is the first that is tried. That the answers are right is for `differential` to see.
use std::collections::BTreeMap;
use std::ffi::{c_int, c_void};
use std::process::ExitCode;
use std::sync::atomic::{AtomicU64, Ordering};
use std::time::Instant;

use compare::args::Args;
use compare::calls;
use compare::change::{Call, FIELD_NUMBERS, Place};
use compare::chars::damage;
use compare::editor::Editor;
use compare::journal::ENTRY_WORDS;
use compare::layout::{Rules, TARGET_NUMBERS, walk};
use compare::pages::{Access, Pages};
use compare::proved::{self, Proved};
use compare::random::Random;
use compare::reader::{FIND_NUMBERS, READ_NUMBERS};
use compare::record::LIMIT;
use compare::sections::{Maker, READABLE, fixed_sections, large_sections, random_sections};
use pai1::raw;

unsafe extern "C" {
    fn signal(number: c_int, handler: extern "C" fn(c_int)) -> usize;
    fn write(file: c_int, bytes: *const c_void, len: usize) -> isize;
    fn _exit(status: c_int) -> !;
}

// Linux's numbers
const SIGBUS: c_int = 7;
const SIGSEGV: c_int = 11;

/// The section and the call that are being tried, for the report of a fault.
static SECTION: AtomicU64 = AtomicU64::new(0);
static CALL: AtomicU64 = AtomicU64::new(0);

/// The calls, as they are counted.
const CALLS: [&str; 26] = [
    "decoded_len",
    "decode_into",
    "decode_plain",
    "well_formed",
    "first_ill",
    "first_zero",
    "first_fault",
    "read",
    "find_text",
    "text_part",
    "write",
    "edit_frame_count",
    "edit_looping",
    "edit_layer",
    "edit_target",
    "edit_constant_key",
    "edit_step_key",
    "edit_hermite_key",
    "edit_value",
    "undo",
    "field_frame_count",
    "field_looping",
    "field_layer",
    "field_target",
    "field_key",
    "field_value",
];
const READING: usize = 7;
const FINDING: usize = 8;
const PARTING: usize = 9;
const WRITING: usize = 10;
const FIRST_EDIT: usize = 11;
const UNDOING: usize = 19;
const FIELD_FRAME_COUNT: usize = 20;
const FIELD_LOOPING: usize = 21;
const FIELD_LAYER: usize = 22;

/// The answers that document 01 lists for a call.
fn listed(call: usize) -> &'static [usize] {
    match call {
        READING => &[0, 1, 2, 3, 4, 5],
        FINDING => &[0, 1, 2, 3, 4, 5, 10],
        WRITING => &[0, 6, 7, 8, 9],
        UNDOING => &[0, 2, 13, 14],
        FIELD_FRAME_COUNT | FIELD_LOOPING => &[0, 1, 2, 3, 4],
        FIELD_LAYER.. => &[0, 1, 2, 3, 4, 10],
        _ => &[0, 1, 2, 3, 4, 10, 11, 12],
    }
}

/// Says where a fault happened. No part of it may allocate.
extern "C" fn fault(_: c_int) {
    let mut line = *b"FAULT in call .. on section ....................\n";
    let mut digits = |from: usize, to: usize, mut number: u64| {
        for place in line[from..to].iter_mut().rev() {
            *place = b'0' + (number % 10) as u8;
            number /= 10;
        }
    };
    digits(14, 16, CALL.load(Ordering::Relaxed));
    digits(28, 48, SECTION.load(Ordering::Relaxed));
    unsafe {
        write(2, line.as_ptr().cast(), line.len());
        _exit(2)
    }
}

type Decode = fn(&[u8], &mut [u8], usize, &mut usize) -> usize;

/// What a call answered and stored at the first place where it was tried.
type First<S> = Option<(Vec<usize>, S)>;

/// Whether a list is as it was, but for so many places at its start.
fn behind<T: PartialEq>(before: &[T], now: &[T], stored: usize) -> bool {
    stored <= before.len() && before[stored..] == now[stored..]
}

/// The calls, and what came of them.
struct Run {
    /// Sections, texts and words that are only read.
    bytes_in: Pages<u8>,
    words_in: Pages<u32>,
    /// Sections and journals that are changed, tables, scratch and output.
    bytes: Pages<u8>,
    words: Pages<u32>,
    texts: Pages<u8>,
    answer: Pages<usize>,
    outcomes: BTreeMap<(usize, usize), u64>,
    differences: u64,
}

impl Run {
    fn new() -> Run {
        let most = LIMIT + 8192;
        Run {
            bytes_in: Pages::new(most, Access::Read),
            words_in: Pages::new(most / 4, Access::Read),
            bytes: Pages::new(most, Access::ReadWrite),
            words: Pages::new(most / 4, Access::ReadWrite),
            texts: Pages::new(most, Access::ReadWrite),
            answer: Pages::new(8, Access::ReadWrite),
            outcomes: BTreeMap::new(),
            differences: 0,
        }
    }

    fn differs(&mut self, call: usize, what: &str) {
        self.differences += 1;
        if self.differences <= 20 {
            let section = SECTION.load(Ordering::Relaxed);
            println!("DIFFERS on section {section}, {}: {what}", CALLS[call]);
        }
    }

    fn must(&mut self, call: usize, holds: bool, what: &str) {
        if !holds {
            self.differs(call, what);
        }
    }

    /// Makes a call, and notes which it is.
    fn make<R>(&mut self, call: usize, make: impl FnOnce(&mut Run) -> R) -> R {
        CALL.store(call as u64, Ordering::Relaxed);
        make(self)
    }

    fn count(&mut self, call: usize, outcome: usize) {
        *self.outcomes.entry((call, outcome)).or_default() += 1;
    }

    /// The slices that a call may store in stand among the same bytes as before.
    fn around(&mut self, call: usize) {
        let kept = self.bytes.kept_around()
            && self.words.kept_around()
            && self.texts.kept_around()
            && self.answer.kept_around();
        self.must(call, kept, "a byte outside of a slice was changed");
    }

    /// The answer of a call that knows so many numbers. Those that it had no place for are taken from the first answer to
    /// the same call, which had.
    fn answered<S>(
        &mut self,
        call: usize,
        before: &[usize],
        numbers: usize,
        first: Option<&(Vec<usize>, S)>,
    ) -> Vec<usize> {
        let mut said = self.answer.now().to_vec();
        self.must(call, said.iter().zip(before).skip(numbers).all(|(a, b)| a == b), "the answer is too long");
        said.truncate(numbers);
        if let Some((first, _)) = first {
            said.extend_from_slice(&first[said.len()..]);
        }
        self.must(call, listed(call).contains(&said[0]), "an answer that is not listed");
        self.count(call, said[0]);
        said
    }

    /// The functions of texts, at both ends.
    fn texts(&mut self, random: &mut Random, text: &[u8]) {
        let room = random.below(3 * text.len().min(100) + 8);
        let out: Vec<u8> = (0..room).map(|_| random.byte()).collect();
        let at = match random.below(6) {
            0 => random.next() as usize,
            1 => usize::MAX - random.below(4),
            _ => random.below(room + 4),
        };
        let before = random.next() as usize;
        let mut first = None;
        for ends in [0, 1] {
            self.bytes_in.place(text, ends == 1);
            let len = self.make(0, |run| raw::decoded_len(run.bytes_in.given()));
            let mut decoded = Vec::new();
            for (call, decode) in [(1, raw::decode_into as Decode), (2, raw::decode_plain)] {
                self.bytes.place(&out, ends == 1);
                self.answer.place(&[before], ends == 1);
                let said = self.make(call, |run| {
                    let Run { bytes_in, bytes, answer, .. } = run;
                    decode(bytes_in.given(), bytes.given_mut(), at, &mut answer.given_mut()[0])
                });
                self.must(call, said == len, "the length is another");
                let replaced = self.answer.now()[0];
                self.must(call, replaced <= text.len() && 3 * replaced <= len, "more was replaced than is there");
                let from = at.min(room);
                let to = room.min(from.saturating_add(len));
                let now = self.bytes.now().to_vec();
                self.must(call, now[..from] == out[..from] && now[to..] == out[to..], "a byte outside was stored");
                decoded.push((now, replaced));
                self.around(call);
                self.count(call, 0);
            }
            self.must(2, decoded[0] == decoded[1], "the two decodings differ");
            let formed = self.make(3, |run| raw::well_formed(run.bytes_in.given()));
            let ill = self.make(4, |run| raw::first_ill(run.bytes_in.given()));
            let zero = self.make(5, |run| raw::first_zero(run.bytes_in.given()));
            let fault = self.make(6, |run| raw::first_fault(run.bytes_in.given()));
            self.must(3, formed == (ill == text.len()), "well-formed and ill-formed");
            self.must(1, formed == (decoded[0].1 == 0), "well-formed and replaced");
            self.must(6, fault == ill.min(zero) && ill.max(zero) <= text.len(), "not the first fault");
            for call in [0, 3, 4, 5, 6] {
                self.count(call, 0);
            }
            let all = (len, decoded, formed, ill, zero, fault);
            match &first {
                None => first = Some(all),
                Some(first) => self.must(0, *first == all, "another answer at another place"),
            }
        }
    }

    /// What a call answered and stored is what it did where the slices stood otherwise.
    fn same<S: PartialEq>(&mut self, call: usize, first: &mut First<S>, said: Vec<usize>, now: S) {
        match first {
            None => *first = Some((said, now)),
            Some(first) => self.must(call, *first == (said, now), "another answer at another place"),
        }
    }

    /// Reads into tables of these lengths.
    fn read(&mut self, random: &mut Random, section: &[u8], words: usize, texts: usize) {
        let words: Vec<u32> = (0..words.min(self.words.most())).map(|_| random.next() as u32).collect();
        let texts: Vec<u8> = (0..texts.min(self.texts.most())).map(|_| random.byte()).collect();
        let mut first: First<(Vec<u32>, Vec<u8>)> = None;
        for (ends, answer) in placings(random, READ_NUMBERS) {
            self.bytes_in.place(section, ends & 1 != 0);
            self.words.place(&words, ends & 2 != 0);
            self.texts.place(&texts, ends & 4 != 0);
            self.answer.place(&answer, ends & 8 != 0);
            self.make(READING, |run| {
                let Run { bytes_in, words, texts, answer, .. } = run;
                raw::read(bytes_in.given(), words.given_mut(), texts.given_mut(), answer.given_mut());
            });
            self.around(READING);
            let said = self.answered(READING, &answer, READ_NUMBERS, first.as_ref());
            let (w, t) = if said[0] == 0 { (said[1], said[2]) } else { (0, 0) };
            self.must(READING, 3 * said[3] <= t, "more was replaced than is there");
            let (words_now, texts_now) = (self.words.now().to_vec(), self.texts.now().to_vec());
            let kept = behind(&words, &words_now, w) && behind(&texts, &texts_now, t);
            self.must(READING, kept, "more was stored than was said");
            self.same(READING, &mut first, said, (words_now, texts_now));
        }
    }

    /// Looks for a text with a scratch of this length.
    fn find(&mut self, random: &mut Random, section: &[u8], text: usize, scratch: usize) {
        let scratch: Vec<u8> = (0..scratch.min(self.texts.most())).map(|_| random.byte()).collect();
        let mut first: First<Vec<u8>> = None;
        for (ends, answer) in placings(random, FIND_NUMBERS) {
            self.bytes_in.place(section, ends & 1 != 0);
            self.texts.place(&scratch, ends & 2 != 0);
            self.answer.place(&answer, ends & 4 != 0);
            self.make(FINDING, |run| {
                let Run { bytes_in, texts, answer, .. } = run;
                raw::find_text(bytes_in.given(), text, texts.given_mut(), answer.given_mut());
            });
            self.around(FINDING);
            let said = self.answered(FINDING, &answer, FIND_NUMBERS, first.as_ref());
            let now = self.texts.now().to_vec();
            let stored = if said[0] == 0 && said[1] == 1 { said[3] } else { 0 };
            self.must(FINDING, behind(&scratch, &now, stored), "more was stored than was said");
            if said[0] == 0 {
                let list = if said[1] == 0 { section } else { &now };
                let part = list.get(said[2]..).and_then(|list| list.get(..said[3]));
                let formed = part.is_some_and(|part| std::str::from_utf8(part).is_ok());
                self.must(FINDING, said[1] <= 1 && formed, "no text is there");
                // what is copied is so because something was replaced
                let replaced = if said[1] == 0 { said[4] == 0 } else { (3..=said[3]).contains(&(3 * said[4])) };
                self.must(FINDING, replaced, "another number was replaced than can be");
            } else {
                self.must(FINDING, said[3..] == [0, 0], "values that this answer has not");
            }
            self.same(FINDING, &mut first, said, now);
        }
    }

    /// Takes a part of the section or of a scratch, into an output of any length.
    fn part(&mut self, random: &mut Random, section: &[u8]) {
        let scratch: Vec<u8> = (0..random.below(20)).map(|_| random.byte()).collect();
        let source = if random.below(8) == 0 { random.next() as usize } else { random.below(3) };
        let list = if source == 0 { section } else { &scratch };
        let mut place = |most: usize| match random.below(8) {
            0 => usize::MAX - random.below(4),
            1 => most + random.below(3),
            _ => random.below(most + 1),
        };
        let start = place(list.len());
        let len = place(list.len().saturating_sub(start));
        let wanted = match start.checked_add(len) {
            Some(end) if source <= 1 => list.get(start..end).unwrap_or(&[]),
            _ => &[],
        };
        let out: Vec<u8> = (0..near(random, wanted.len())).map(|_| random.byte()).collect();
        let mut stored = out.clone();
        let fits = out.len().min(wanted.len());
        stored[..fits].copy_from_slice(&wanted[..fits]);
        for ends in [0, 7, random.below(8)] {
            self.bytes_in.place(section, ends & 1 != 0);
            self.texts.place(&scratch, ends & 2 != 0);
            self.bytes.place(&out, ends & 4 != 0);
            let said = self.make(PARTING, |run| {
                let Run { bytes_in, texts, bytes, .. } = run;
                raw::text_part(bytes_in.given(), texts.given(), source, start, len, bytes.given_mut())
            });
            self.around(PARTING);
            let right = said == wanted.len() && self.bytes.now() == stored && self.texts.now() == scratch;
            self.must(PARTING, right, "another part");
            self.count(PARTING, 0);
        }
    }

    /// Writes a record into an output of this length. Returns the length that was said to be needed.
    fn write(&mut self, random: &mut Random, words: &[u32], texts: &[u8], out: usize) -> usize {
        let out: Vec<u8> = (0..out.min(self.bytes.most())).map(|_| random.byte()).collect();
        let mut first: First<Vec<u8>> = None;
        for (ends, answer) in placings(random, 3) {
            self.words_in.place(words, ends & 1 != 0);
            self.bytes_in.place(texts, ends & 2 != 0);
            self.bytes.place(&out, ends & 4 != 0);
            self.answer.place(&answer, ends & 8 != 0);
            self.make(WRITING, |run| {
                let Run { words_in, bytes_in, bytes, answer, .. } = run;
                raw::write(words_in.given(), bytes_in.given(), bytes.given_mut(), answer.given_mut());
            });
            self.around(WRITING);
            let said = self.answered(WRITING, &answer, 3, first.as_ref());
            let now = self.bytes.now().to_vec();
            let stored = if said[0] == 0 { said[1] } else { 0 };
            self.must(WRITING, behind(&out, &now, stored), "more was stored than was said");
            self.same(WRITING, &mut first, said, now);
        }
        match first {
            Some((said, _)) if said[0] == 9 => said[1],
            _ => 0,
        }
    }

    /// Makes an edit or an undo.
    fn change(&mut self, random: &mut Random, section: &[u8], journal: &[u32], count: usize, call: &Call) {
        let number = FIRST_EDIT + call.kind();
        let mut first: First<(Vec<u8>, Vec<u32>)> = None;
        for (ends, answer) in placings(random, 3) {
            self.bytes.place(section, ends & 1 != 0);
            self.words.place(journal, ends & 2 != 0);
            self.words_in.place(journal, ends & 2 != 0);
            self.answer.place(&answer, ends & 4 != 0);
            self.make(number, |run| {
                let Run { bytes, words, words_in, answer, .. } = run;
                match call {
                    Call::Edit(change) => {
                        Proved.edit(bytes.given_mut(), words.given_mut(), count, change, answer.given_mut())
                    }
                    Call::Undo => raw::undo(bytes.given_mut(), words_in.given(), count, answer.given_mut()),
                    Call::FieldAt(_) => unreachable!("no change"),
                }
            });
            self.around(number);
            let said = self.answered(number, &answer, 3, first.as_ref());
            let (now, journal_now) = (self.bytes.now().to_vec(), self.words.now().to_vec());
            // an accepted call changes the field of its entry, and an edit that entry
            let (mut wanted, mut journal_wanted) = (section.to_vec(), journal.to_vec());
            if said[0] == 0 {
                let entry = ENTRY_WORDS * if matches!(call, Call::Undo) { count - 1 } else { count };
                let entry = entry..entry + ENTRY_WORDS;
                let field = journal_now[entry.start] as usize;
                let field = field..field + journal_now[entry.start + 1] as usize;
                wanted[field.clone()].copy_from_slice(&now[field]);
                journal_wanted[entry.clone()].copy_from_slice(&journal_now[entry]);
            }
            self.must(number, now == wanted && journal_now == journal_wanted, "more was changed than a field");
            self.same(number, &mut first, said, (now, journal_now));
        }
    }

    /// Asks what stands at a place.
    fn field(&mut self, random: &mut Random, section: &[u8], place: &Place) {
        let number = FIRST_EDIT + Call::FieldAt(*place).kind();
        let mut first: First<()> = None;
        for (ends, answer) in placings(random, FIELD_NUMBERS) {
            self.bytes_in.place(section, ends & 1 != 0);
            self.answer.place(&answer, ends & 2 != 0);
            self.make(number, |run| {
                let Run { bytes_in, answer, .. } = run;
                proved::field_at(bytes_in.given(), place, answer.given_mut());
            });
            self.around(number);
            let said = self.answered(number, &answer, FIELD_NUMBERS, first.as_ref());
            let most = if matches!(place, Place::Key(_)) { 3 } else { 1 };
            let formed =
                said[0] != 0 || (1..=most).contains(&said[1]) && said[2 + said[1]..].iter().all(|&behind| behind == 0);
            self.must(number, formed, "an answer of another form");
            self.same(number, &mut first, said, ());
        }
    }

    /// Every call on a section.
    fn section(&mut self, maker: &mut Maker, section: &[u8]) {
        let from = maker.random.below(section.len() + 1);
        let to = maker.random.within(from, section.len());
        self.texts(&mut maker.random, &section[from..to.min(from + 300)]);
        if section.len() > self.bytes_in.most() {
            return;
        }

        let (words, texts) = pai1::needs(section).unwrap_or((20, 20));
        let random = &mut maker.random;
        for _ in 0..2 {
            let (w, t) = (near(random, words), near(random, texts));
            self.read(random, section, w, t);
        }
        for _ in 0..2 {
            let text = match random.below(8) {
                0 => random.next() as usize,
                1 => usize::MAX,
                _ => random.below(6),
            };
            let mut answer = [0; FIND_NUMBERS];
            raw::find_text(section, text, &mut [], &mut answer);
            let scratch = near(random, if answer[0] == 5 { answer[2] } else { 10 });
            self.find(random, section, text, scratch);
            self.part(random, section);
        }

        // the record that is there, or another, whole and then damaged
        let (mut record, mut names) = match record(section) {
            Some(record) => record,
            None => {
                let (_, style, placing) = READABLE[0];
                record(&maker.section(style, placing).bytes).unwrap_or_default()
            }
        };
        for _ in 0..2 {
            let random = &mut maker.random;
            spoil(random, &mut record, &mut names);
            let need = self.write(random, &record, &names, 0);
            let out = near(random, need);
            self.write(random, &record, &names, out);
        }

        let contents = walk(section, &Rules::DOCUMENT, 1 << 24).map_or(Vec::new(), |walked| walked.contents);
        for _ in 0..3 {
            let len = maker.few(40);
            let journal = if maker.random.below(2) == 0 {
                calls::journal(maker, len, section.len())
            } else {
                calls::garbage(maker, len)
            };
            let count = calls::count(maker, len);
            let call =
                if maker.random.below(4) == 0 { Call::Undo } else { Call::Edit(calls::change(maker, &contents)) };
            self.change(&mut maker.random, section, &journal, count, &call);
        }
        for _ in 0..3 {
            let place = calls::change(maker, &contents).place();
            self.field(&mut maker.random, section, &place);
        }
    }
}

/// The words and texts of a section's record, if it has one that is not too long to be tried.
fn record(section: &[u8]) -> Option<(Vec<u32>, Vec<u8>)> {
    let record = pai1::read_within(section, LIMIT / 4, LIMIT).ok()?;
    let (words, texts) = record.into_parts();
    Some((words, texts.into_bytes()))
}

/// Where the slices of a call stand (each bit says whether at its memory's end), and the answer that it is given: all at
/// their starts, all at their ends, and now and then a mixture with an answer of another length.
fn placings(random: &mut Random, numbers: usize) -> Vec<(usize, Vec<usize>)> {
    let mut placings = vec![(0, numbers), (15, numbers)];
    if random.below(4) == 0 {
        placings.push((random.below(16), random.below(numbers + 3)));
    }
    placings.into_iter().map(|(ends, len)| (ends, (0..len).map(|_| random.next() as usize).collect())).collect()
}

/// A length near the one that is needed.
fn near(random: &mut Random, needed: usize) -> usize {
    match random.below(8) {
        0 => 0,
        1 => needed.saturating_sub(1),
        2 => random.below(needed.min(1 << 20) + 1),
        3 => needed + random.below(20),
        _ => needed,
    }
}

/// Changes a record in some places, or makes another of it.
fn spoil(random: &mut Random, words: &mut Vec<u32>, texts: &mut Vec<u8>) {
    let word = |random: &mut Random| match random.below(8) {
        0 => random.next() as u32,
        1 => u32::MAX,
        2 => u32::from_le_bytes(*random.one(&TARGET_NUMBERS).0),
        3 => u32::from_le_bytes(*b"FLEU"),
        4 => 1 << random.below(32),
        _ => random.below(4) as u32,
    };
    match random.below(10) {
        0 => words.truncate(random.below(words.len() + 1)),
        1 => words.push(word(random)),
        2 | 3 if !words.is_empty() => {
            let at = random.below(words.len());
            words[at] = word(random);
        }
        4 => damage(random, texts),
        5 => texts.truncate(random.below(texts.len() + 1)),
        6 => {
            *words = (0..random.below(30)).map(|_| word(random)).collect();
            *texts = (0..random.below(30)).map(|_| b'a' + random.below(26) as u8).collect();
        }
        _ => {}
    }
}

/// Records of one texture name around the longest that is written.
fn long_names(run: &mut Run, random: &mut Random) {
    // a name of n letters makes a section of 24 + n + 1 bytes, and zeros up to a multiple of 4
    for len in [LIMIT - 26, LIMIT - 25, LIMIT - 24, LIMIT] {
        let words = [0, 0, 1, 0, len as u32];
        for out in [0, LIMIT - 1, LIMIT] {
            run.write(random, &words, &vec![b'a'; len], out);
        }
    }
}

fn main() -> ExitCode {
    let mut args = Args::new("fuzz [SEED] [MINUTES] [FROM]");
    let seed: u64 = args.number().unwrap_or(1);
    let minutes = args.number().unwrap_or(1.0);
    let from: u64 = args.number().unwrap_or(0);
    args.end();
    unsafe {
        signal(SIGSEGV, fault);
        signal(SIGBUS, fault);
    }
    let begun = Instant::now();
    let over = || begun.elapsed().as_secs_f64() >= 60.0 * minutes;
    let mut run = Run::new();
    long_names(&mut run, &mut Random(seed));
    // what is called depends on the seed and the section's number alone, so that one section can be tried again
    let mut tried = Maker::new(0);
    let mut kinds: BTreeMap<String, u64> = BTreeMap::new();
    let mut number = 0;
    let mut see = |kind: &str, section: &[u8]| {
        number += 1;
        if number < from || over() {
            return;
        }
        SECTION.store(number, Ordering::Relaxed);
        tried.random = Random((seed << 32).wrapping_add(number).wrapping_mul(0x9E37_79B9_7F4A_7C15));
        run.section(&mut tried, section);
        *kinds.entry(kind.to_owned()).or_default() += 1;
    };
    let mut maker = Maker::new(seed);
    fixed_sections(&mut see);
    large_sections(&mut maker, &mut see);
    while !over() {
        random_sections(&mut maker, 1, &mut see);
    }

    let seconds = begun.elapsed().as_secs_f64();
    println!("Seed {seed}, {seconds:.0} seconds.\n\n| sections | |\n|---|---|");
    for (kind, count) in &kinds {
        println!("| {kind} | {count} |");
    }
    println!("| all | {} |", kinds.values().sum::<u64>());
    println!("\n| call | calls | by outcome |\n|---|---|---|");
    for (call, name) in CALLS.iter().enumerate() {
        let of = run.outcomes.range((call, 0)..=(call, usize::MAX));
        let outcome = |(&(_, outcome), count): (&(usize, usize), &u64)| format!("{outcome}: {count}");
        let calls: u64 = of.clone().map(|(_, count)| count).sum();
        let outcomes: Vec<String> = of.map(outcome).collect();
        let outcomes = if call < READING { "-".to_owned() } else { outcomes.join(", ") };
        println!("| {name} | {calls} | {outcomes} |");
    }
    println!("\n{} calls, {} differences", run.outcomes.values().sum::<u64>(), run.differences);
    if run.differences == 0 { ExitCode::SUCCESS } else { ExitCode::FAILURE }
}
