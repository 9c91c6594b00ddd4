//! Holds a writer against the reference: every answer, every byte that a call stores, and the places around and behind
//! them, which no call may change.
use crate::bflan::file::BflanSections;
use crate::guarded::Guarded;
use crate::judging::{NAME, Written, written};
use crate::layout::{Rules, walk};
use crate::random::Random;
use crate::reader::{MOST_ASKED, READ_NUMBERS, Reader, invalid_in};
use crate::record::{Flat, LIMIT, flat};
use crate::records::{Given, fixed_records, large_records, random_records};
use crate::sections::Maker;
use crate::writer::Writer;
use crate::{parse, serialize};

/// Records of more bytes than this are not made smaller.
const SHRUNK: usize = 2_000;
/// The words and bytes of a record above which a section is left out.
const MOST: usize = 80_000_000;
/// The refusals that do not depend on the output.
const REFUSALS: [usize; 3] = [6, 7, 8];

/// What was seen of one kind of record.
#[derive(Clone, Default)]
pub struct Kind {
    pub name: String,
    pub records: u64,
    /// How many of them were a section that was read first.
    pub read: u64,
    /// How many were written, or had each of `REFUSALS`.
    pub outcomes: [u64; 4],
    pub writes: u64,
    /// How many of the writes had an output that is too short (9).
    pub short: u64,
    /// The bytes of the sections that were written.
    pub bytes: u64,
}

pub struct Writing<'a> {
    reader: &'a dyn Reader,
    writer: &'a dyn Writer,
    random: Random,
    pub kinds: Vec<Kind>,
    /// The kind of the record that is looked at.
    present: usize,
    pub differences: u64,
    /// The smallest record that showed a difference, and what it was.
    pub smallest: Option<(Flat, String)>,
    out: Guarded<u8>,
    answer: Guarded<usize>,
    /// The record's lists between places that do not belong to them.
    words: Vec<u32>,
    texts: Vec<u8>,
}

fn size(record: &Flat) -> usize {
    4 * record.words.len() + record.texts.len()
}

impl<'a> Writing<'a> {
    /// The reader reads the sections whose records are written.
    pub fn new(reader: &'a dyn Reader, writer: &'a dyn Writer, seed: u64) -> Writing<'a> {
        Writing {
            reader,
            writer,
            random: Random(seed),
            kinds: Vec::new(),
            present: 0,
            differences: 0,
            smallest: None,
            out: Guarded::default(),
            answer: Guarded::default(),
            words: Vec::new(),
            texts: Vec::new(),
        }
    }

    /// Compares all that a run compares: the fixed records, at least `count` random ones, and the large ones.
    pub fn run(&mut self, seed: u64, count: u64) {
        let mut maker = Maker::new(seed);
        fixed_records(&mut |kind, given| self.look(kind, given));
        random_records(&mut maker, count, &mut |kind, given| self.look(kind, given));
        large_records(&mut maker, &mut |kind, given| self.look(kind, given));
    }

    /// Compares all that can be asked of one record.
    pub fn look(&mut self, kind: &str, given: Given) {
        if self.kinds.get(self.present).is_none_or(|present| present.name != kind) {
            self.present = self.kinds.iter().position(|k| k.name == kind).unwrap_or(self.kinds.len());
            if self.present == self.kinds.len() {
                self.kinds.push(Kind { name: kind.to_owned(), ..Kind::default() });
            }
        }
        match given {
            Given::Lists(record) => self.write_all(record, &written(&record.words, &record.texts)),
            Given::Section(section) => self.read_and_write(section),
        }
    }

    fn count(&mut self, change: impl FnOnce(&mut Kind)) {
        change(&mut self.kinds[self.present]);
    }

    fn differs(&mut self, record: &Flat, what: String) {
        self.differences += 1;
        if self.smallest.as_ref().is_none_or(|(smallest, _)| size(record) < size(smallest)) {
            self.smallest = Some((record.clone(), what));
        }
    }

    /// Reads a section and writes what was read. The bytes are those that the reference writes of what it reads itself,
    /// unless that is beyond the limits.
    fn read_and_write(&mut self, section: &[u8]) {
        let Some(walked) = walk(section, &Rules::DOCUMENT, MOST) else { return };
        if walked.asked > MOST_ASKED {
            return;
        }
        let Ok(BflanSections::PaneAnimInfo(tree)) = parse(section) else { return };
        let wanted = flat(&tree);
        let (n, m) = (wanted.words.len(), wanted.texts.len());
        let mut record = Flat { words: vec![0; n], texts: vec![0; m] };
        let mut answer = [0; READ_NUMBERS];
        self.reader.read(section, &mut record.words, &mut record.texts, &mut answer);
        if answer != [0, n, m, invalid_in(section, &walked)] || record != wanted {
            return self
                .differs(&wanted, format!("a section is read with the answer {answer:?}, or not as this record"));
        }
        self.count(|kind| kind.read += 1);

        let bytes = serialize(&tree);
        let outcome = written(&record.words, &record.texts);
        let long_name = tree.contents.iter().any(|content| content.name.len() > NAME as usize);
        let agrees = match &outcome {
            Ok(judged) => *judged == bytes && !long_name,
            Err([6, _]) => long_name,
            Err([8, _]) => bytes.len() > LIMIT,
            Err(_) => false,
        };
        if !agrees {
            self.differs(&record, format!("the judging walk gives {outcome:?}, the reference {} bytes", bytes.len()));
        }
        self.write_all(&record, &outcome);
    }

    /// Writes a record into outputs of the sizes that matter.
    fn write_all(&mut self, record: &Flat, outcome: &Written) {
        let number = outcome.as_ref().map_or_else(|refusal| refusal[0], |_| 0);
        let place = REFUSALS.iter().position(|&refusal| refusal == number).map_or(0, |i| i + 1);
        self.count(|kind| {
            kind.records += 1;
            kind.outcomes[place] += 1;
            kind.bytes += outcome.as_ref().map_or(0, Vec::len) as u64;
        });

        let before = self.random.below(5);
        let fill = *self.random.one(&[0, 0, 1, 0x61, u32::MAX]);
        let mut words = std::mem::take(&mut self.words);
        words.clear();
        words.resize(before, fill);
        words.extend_from_slice(&record.words);
        words.resize(before + record.words.len() + 8, fill);
        let mut texts = std::mem::take(&mut self.texts);
        texts.clear();
        texts.resize(before, fill as u8);
        texts.extend_from_slice(&record.texts);
        texts.resize(before + record.texts.len() + 32, fill as u8);
        let lists = (&words[before..][..record.words.len()], &texts[before..][..record.texts.len()]);

        match outcome {
            Err(refusal) => {
                self.write(record, lists, 0, *refusal, &[]);
                let room = self.random.below(400);
                self.write(record, lists, room, *refusal, &[]);
            }
            Ok(bytes) => {
                let len = bytes.len();
                let more = 1 + self.random.below(40);
                let less = self.random.below(len);
                self.write(record, lists, len, [0, len], bytes);
                self.write(record, lists, len + more, [0, len], bytes);
                for room in [len - 1, less, 0] {
                    self.write(record, lists, room, [9, len], &[]);
                }
            }
        }
        if *lists.0 != record.words || *lists.1 != record.texts {
            self.differs(record, "a list of the record was changed".to_owned());
        }
        (self.words, self.texts) = (words, texts);
    }

    /// Writes into an output of `room` bytes.
    fn write(&mut self, record: &Flat, lists: (&[u32], &[u8]), room: usize, wanted: [usize; 2], stored: &[u8]) {
        let wanted = [wanted[0], wanted[1], 0];
        let salt = self.random.next();
        // mostly as many places as the answer has numbers
        let places = match self.random.below(16) {
            0 => self.random.below(3),
            1 => 4 + self.random.below(4),
            _ => 3,
        };
        let out = self.out.list(salt, room);
        let answer = self.answer.list(salt, places);
        self.writer.write(lists.0, lists.1, out, answer);
        let found =
            self.answer.differs("answer", &wanted[..places.min(3)]).or_else(|| self.out.differs("output", stored));
        if let Some(what) = found {
            self.differs(record, format!("written into {room} bytes, which answers {wanted:?}: {what}"));
        }
        self.count(|kind| {
            kind.writes += 1;
            kind.short += (wanted[0] == 9) as u64;
        });
    }

    /// Makes the smallest failing record smaller still, by dropping words and text bytes and by lowering words.
    pub fn shrink(&mut self) {
        let Some((mut record, mut what)) = self.smallest.take() else { return };
        let (reader, writer) = (self.reader, self.writer);
        let fails = |record: &Flat| {
            // the choices within a look are random: some are tried
            let mut fresh = Writing::new(reader, writer, 1);
            for _ in 0..4 {
                fresh.look("", Given::Lists(record));
            }
            fresh.smallest.map(|(_, what)| what)
        };
        let mut smaller = size(&record) <= SHRUNK && fails(&record).is_some();
        while smaller {
            smaller = false;
            let mut tries: Vec<Flat> = Vec::new();
            for i in 0..record.words.len() {
                let mut copy = record.clone();
                copy.words.remove(i);
                tries.push(copy);
                // to 0, to a half and so on, at last by 1
                for less in (0..32).map(|shift| record.words[i] >> shift).take_while(|&less| less > 0) {
                    let mut copy = record.clone();
                    copy.words[i] -= less;
                    tries.push(copy);
                }
            }
            for i in 0..record.texts.len() {
                let mut copy = record.clone();
                copy.texts.remove(i);
                tries.push(copy);
            }
            if let Some((copy, found)) = tries.into_iter().find_map(|copy| fails(&copy).map(|found| (copy, found))) {
                (record, what, smaller) = (copy, found, true);
            }
        }
        self.smallest = Some((record, what));
    }

    /// Prints the counts, and the smallest record that showed a difference.
    pub fn print(&self) {
        println!(
            "{:<36} {:>9} {:>9} {:>9} {:>9} {:>9} {:>6} {:>9} {:>9} {:>11}",
            "kind", "records", "read", "written", "6", "7", "8", "writes", "short (9)", "bytes"
        );
        let mut sum = Kind { name: "all".to_owned(), ..Kind::default() };
        for kind in &self.kinds {
            line(kind);
            for (all, one) in sum.outcomes.iter_mut().zip(kind.outcomes) {
                *all += one;
            }
            sum.records += kind.records;
            sum.read += kind.read;
            sum.writes += kind.writes;
            sum.short += kind.short;
            sum.bytes += kind.bytes;
        }
        line(&sum);
        if let Some((record, what)) = &self.smallest {
            let Flat { words, texts } = record;
            println!("DIFFERS {what}\nin the record of {} words and {} text bytes:", words.len(), texts.len());
            println!("words {:?}", &words[..words.len().min(2_000)]);
            println!("texts {:02X?}", &texts[..texts.len().min(2_000)]);
        }
        println!("{} differences", self.differences);
    }
}

fn line(k: &Kind) {
    let [all, word, text, limit] = k.outcomes;
    println!(
        "{:<36} {:>9} {:>9} {all:>9} {word:>9} {text:>9} {limit:>6} {:>9} {:>9} {:>11}",
        k.name, k.records, k.read, k.writes, k.short, k.bytes
    );
}
