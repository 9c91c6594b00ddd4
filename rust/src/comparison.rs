//! Holds a reader against the reference: every answer, every word and byte that a call stores, and the places around and
//! behind them, which no call may change.
use crate::chars::invalid_chunks;
use crate::guarded::Guarded;
use crate::layout::{Rules, Walked, walk};
use crate::random::Random;
use crate::reader::{FIND_NUMBERS, MOST_ASKED, READ_NUMBERS, Reader, refused};
use crate::record::{Flat, reference};
use crate::sections::{Maker, fixed_sections, large_sections, random_sections};

/// The words and bytes of a record above which a section is left out, and the same for the large ones.
const MOST: usize = 300_000;
const MOST_LARGE: usize = 80_000_000;
/// One of so many sections has its texts looked for, and so many of them; in a large section only some.
const SHARE: usize = 4;
const TEXTS: usize = 24;
const TEXTS_LARGE: usize = 2;

/// What was seen of one kind of section.
#[derive(Clone, Default)]
pub struct Kind {
    pub name: String,
    pub sections: u64,
    /// How many were read, or had each of the refusals 1 to 4.
    pub outcomes: [u64; 5],
    /// How many of those that were read have characters replaced, and how many characters in all.
    pub ill: u64,
    pub replaced: u64,
    /// How many of them the reference was not asked to read.
    pub by_layout: u64,
    /// How many were not looked at, since their records are too long.
    pub left_out: u64,
    pub reads: u64,
    /// How many of the reads had a table that is too short.
    pub short: u64,
    /// How many times a text was looked for.
    pub finds: u64,
    pub bytes: u64,
}

pub struct Comparison<'a> {
    reader: &'a dyn Reader,
    random: Random,
    pub kinds: Vec<Kind>,
    /// The kind of the section that is looked at.
    present: usize,
    pub differences: u64,
    /// The smallest section that showed a difference, and what it was.
    pub smallest: Option<(Vec<u8>, String)>,
    words: Guarded<u32>,
    texts: Guarded<u8>,
    answer: Guarded<usize>,
    /// The section between bytes that do not belong to it.
    held: Vec<u8>,
}

impl<'a> Comparison<'a> {
    pub fn new(reader: &'a dyn Reader, seed: u64) -> Comparison<'a> {
        Comparison {
            reader,
            random: Random(seed),
            kinds: Vec::new(),
            present: 0,
            differences: 0,
            smallest: None,
            words: Guarded::default(),
            texts: Guarded::default(),
            answer: Guarded::default(),
            held: Vec::new(),
        }
    }

    /// Compares all that a run compares: the fixed sections, at least `count` random ones, and the large ones.
    pub fn run(&mut self, seed: u64, count: u64) {
        let mut maker = Maker::new(seed);
        fixed_sections(&mut |kind, section| self.look(kind, section));
        random_sections(&mut maker, count, &mut |kind, section| self.look(kind, section));
        large_sections(&mut maker, &mut |kind, section| self.look_at(kind, section, MOST_LARGE, TEXTS_LARGE));
    }

    /// Compares all that can be asked of one section.
    pub fn look(&mut self, kind: &str, section: &[u8]) {
        let texts = if self.random.below(SHARE) == 0 { TEXTS } else { 0 };
        self.look_at(kind, section, MOST, texts);
    }

    fn look_at(&mut self, kind: &str, section: &[u8], most: usize, texts: usize) {
        if self.kinds.get(self.present).is_none_or(|present| present.name != kind) {
            self.present = self.kinds.iter().position(|k| k.name == kind).unwrap_or(self.kinds.len());
            if self.present == self.kinds.len() {
                self.kinds.push(Kind { name: kind.to_owned(), ..Kind::default() });
            }
        }
        let Some(walked) = walk(section, &Rules::DOCUMENT, most) else {
            self.count(|kind| kind.left_out += 1);
            return;
        };
        let by_layout = walked.asked > MOST_ASKED;
        if !by_layout {
            let said = reference(section);
            if said != walked.outcome {
                self.differs(section, format!("the layout gives {:?}, the reference {said:?}", walked.outcome));
                return;
            }
        }
        // the reference does not count what it replaces: the standard library does, where the layout says that texts lie
        let counts: Vec<usize> = walked.places.iter().map(|place| invalid_chunks(place.bytes(section))).collect();
        if let Some(i) = (0..counts.len()).find(|&i| counts[i] != walked.places[i].replaced) {
            let (layout, library) = (walked.places[i].replaced, counts[i]);
            let what = format!("in text {i} the layout counts {layout} replaced, the standard library {library}");
            self.differs(section, what);
            return;
        }
        let number = walked.outcome.as_ref().map_or_else(|refusal| refusal.numbers()[0], |_| 0);
        let replaced = if number == 0 { counts.iter().sum() } else { 0 };
        self.count(|kind| {
            kind.sections += 1;
            kind.outcomes[number] += 1;
            kind.ill += (replaced > 0) as u64;
            kind.replaced += replaced as u64;
            kind.by_layout += by_layout as u64;
            kind.bytes += section.len() as u64;
        });

        let before = self.random.below(9);
        let fill = *self.random.one(&[0x00, 0x00, 0x41, 0x80, 0xFF]);
        let mut held = std::mem::take(&mut self.held);
        held.clear();
        held.resize(before, fill);
        held.extend_from_slice(section);
        held.resize(before + section.len() + 16, fill);
        let placed = &held[before..before + section.len()];
        self.reads(placed, &walked, replaced);
        if texts > 0 {
            self.finds(placed, &walked, &counts, texts);
        }
        if placed != section {
            self.differs(section, "the section was changed".to_owned());
        }
        self.held = held;
    }

    fn count(&mut self, change: impl FnOnce(&mut Kind)) {
        change(&mut self.kinds[self.present]);
    }

    fn differs(&mut self, section: &[u8], what: String) {
        self.differences += 1;
        if self.smallest.as_ref().is_none_or(|(smallest, _)| section.len() < smallest.len()) {
            self.smallest = Some((section.to_vec(), what));
        }
    }

    /// A number of places for an answer of `len` numbers: mostly as many.
    fn answer_room(&mut self, len: usize) -> usize {
        match self.random.below(16) {
            0 => self.random.below(len),
            1 => len + 1 + self.random.below(4),
            _ => len,
        }
    }

    fn read(&mut self, section: &[u8], room: (usize, usize), wanted: [usize; READ_NUMBERS], stored: Option<&Flat>) {
        let salt = self.random.next();
        let answers = self.answer_room(READ_NUMBERS);
        let words = self.words.list(salt, room.0);
        let texts = self.texts.list(salt, room.1);
        let answer = self.answer.list(salt, answers);
        self.reader.read(section, words, texts, answer);
        let (words, texts) = stored.map_or((&[][..], &[][..]), |flat| (&flat.words[..], &flat.texts[..]));
        let found = self
            .answer
            .differs("answer", &wanted[..answers.min(READ_NUMBERS)])
            .or_else(|| self.words.differs("words", words))
            .or_else(|| self.texts.differs("texts", texts));
        if let Some(what) = found {
            let (n, m) = room;
            let what = format!("read into {n} words and {m} text bytes, which answers {wanted:?}: {what}");
            self.differs(section, what);
        }
        self.count(|kind| {
            kind.reads += 1;
            kind.short += (wanted[0] == 5) as u64;
        });
    }

    /// Reads into tables of the sizes that matter, a section in whose texts so many characters are replaced.
    fn reads(&mut self, section: &[u8], walked: &Walked, replaced: usize) {
        match &walked.outcome {
            Err(refusal) => {
                let wanted = refused(refusal);
                self.read(section, (0, 0), wanted, None);
                let room = (self.random.below(80), self.random.below(80));
                self.read(section, room, wanted, None);
            }
            Ok(flat) => {
                let (n, m) = (flat.words.len(), flat.texts.len());
                self.read(section, (n, m), [0, n, m, replaced], Some(flat));
                let more = (n + self.random.below(20), m + self.random.below(20));
                self.read(section, more, [0, n, m, replaced], Some(flat));
                let spare = self.random.below(9);
                self.read(section, (n - 1, m + spare), [5, n, m, 0], None);
                if m > 0 {
                    self.read(section, (n + spare, m - 1), [5, n, m, 0], None);
                }
                let less = (self.random.below(n), self.random.below(m + 1));
                self.read(section, less, [5, n, m, 0], None);
            }
        }
    }

    fn find(&mut self, section: &[u8], text: usize, room: usize, wanted: [usize; FIND_NUMBERS], stored: &[u8]) {
        let salt = self.random.next();
        let answers = self.answer_room(FIND_NUMBERS);
        let scratch = self.texts.list(salt, room);
        let answer = self.answer.list(salt, answers);
        self.reader.find_text(section, text, scratch, answer);
        let found = self
            .answer
            .differs("answer", &wanted[..answers.min(FIND_NUMBERS)])
            .or_else(|| self.texts.differs("scratch", stored));
        if let Some(what) = found {
            self.differs(
                section,
                format!("find text {text} with a scratch of {room}, which answers {wanted:?}: {what}"),
            );
        }
        self.count(|kind| kind.finds += 1);
    }

    /// Looks for every text, or for `most` of them, and for texts that are not there. `counts` says how many characters are
    /// replaced in each.
    fn finds(&mut self, section: &[u8], walked: &Walked, counts: &[usize], most: usize) {
        let room = self.random.below(40);
        if let Err(refusal) = &walked.outcome {
            for text in [0, self.random.below(4), usize::MAX] {
                self.find(section, text, room, refused(refusal), &[]);
            }
            return;
        }
        let count = walked.places.len();
        for text in [count, count + 1 + self.random.below(9), usize::MAX] {
            self.find(section, text, room, [10, 0, 0, 0, 0], &[]);
        }
        for i in 0..count.min(most) {
            let text = if count > most { self.random.below(count) } else { i };
            let raw = walked.places[text].bytes(section);
            if std::str::from_utf8(raw).is_ok() {
                let (start, len) = (walked.places[text].start, raw.len());
                let room = *self.random.one(&[0, len.saturating_sub(1), len, len + 5]);
                self.find(section, text, room, [0, 0, start, len, 0], &[]);
                continue;
            }
            let decoded = String::from_utf8_lossy(raw).into_owned().into_bytes();
            let needed = decoded.len();
            self.find(section, text, needed, [0, 1, 0, needed, counts[text]], &decoded);
            let more = needed + 1 + self.random.below(20);
            self.find(section, text, more, [0, 1, 0, needed, counts[text]], &decoded);
            self.find(section, text, needed - 1, [5, 0, needed, 0, 0], &[]);
            let less = self.random.below(needed);
            self.find(section, text, less, [5, 0, needed, 0, 0], &[]);
        }
    }

    /// Makes the smallest failing section smaller still, by cutting it and by putting zeros.
    pub fn shrink(&mut self) {
        let Some((mut section, mut what)) = self.smallest.take() else { return };
        let reader = self.reader;
        let fails = |section: &[u8]| {
            // the choices within a look are random: some are tried
            let mut fresh = Comparison::new(reader, 1);
            for _ in 0..4 {
                fresh.look_at("", section, MOST, TEXTS);
            }
            fresh.smallest.map(|(_, what)| what)
        };
        if section.len() > 4_096 || fails(&section).is_none() {
            self.smallest = Some((section, what));
            return;
        }
        loop {
            let len = section.len();
            let cut = (0..len).find_map(|n| fails(&section[..n]).map(|found| (n, found)));
            if let Some((n, found)) = cut {
                section.truncate(n);
                what = found;
            }
            for i in 0..section.len() {
                let byte = section[i];
                for smaller in [0, 1, byte / 2, byte.saturating_sub(1)] {
                    if smaller >= section[i] {
                        continue;
                    }
                    let kept = std::mem::replace(&mut section[i], smaller);
                    match fails(&section) {
                        Some(found) => what = found,
                        None => section[i] = kept,
                    }
                }
            }
            if section.len() == len {
                break;
            }
        }
        self.smallest = Some((section, what));
    }

    /// Prints the counts, and the smallest section that showed a difference.
    pub fn print(&self) {
        println!(
            "{:<32} {:>9} {:>9} {:>10} {:>10} {:>7} {:>4} {:>9} {:>7} {:>9} {:>8} {:>9} {:>9} {:>9} {:>11}",
            "kind",
            "sections",
            "read",
            "ill-formed",
            "replaced",
            "1",
            "2",
            "3",
            "4",
            "by layout",
            "left out",
            "reads",
            "short (5)",
            "texts",
            "bytes"
        );
        let mut sum = Kind { name: "all".to_owned(), ..Kind::default() };
        for kind in &self.kinds {
            line(kind);
            for (all, one) in sum.outcomes.iter_mut().zip(kind.outcomes) {
                *all += one;
            }
            sum.sections += kind.sections;
            sum.ill += kind.ill;
            sum.replaced += kind.replaced;
            sum.by_layout += kind.by_layout;
            sum.left_out += kind.left_out;
            sum.reads += kind.reads;
            sum.short += kind.short;
            sum.finds += kind.finds;
            sum.bytes += kind.bytes;
        }
        line(&sum);
        if let Some((section, what)) = &self.smallest {
            let hex: Vec<String> = section.iter().take(4_096).map(|byte| format!("{byte:02X}")).collect();
            let more = if section.len() > 4_096 { " .." } else { "" };
            println!("DIFFERS {what}\nin the section of {} bytes: {}{more}", section.len(), hex.join(" "));
        }
        println!("{} differences", self.differences);
    }
}

fn line(k: &Kind) {
    let [read, letters, length, end, zero] = k.outcomes;
    println!(
        "{:<32} {:>9} {read:>9} {:>10} {:>10} {letters:>7} {length:>4} {end:>9} {zero:>7} {:>9} {:>8} {:>9} {:>9} {:>9} {:>11}",
        k.name, k.sections, k.ill, k.replaced, k.by_layout, k.left_out, k.reads, k.short, k.finds, k.bytes
    );
}
