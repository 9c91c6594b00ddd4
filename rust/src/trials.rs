//! Holds an editor against document 01 over lists of calls, each call handed what the one before left. On any bytes it is
//! held against the definitions of `editor`; on a section that the reference wrote, against the plain machine as well, with
//! the reference's writing and reading of the machine's record. What it says to stand in a field is held against these
//! definitions and against the record: the machine's, or what the reference reads.
use crate::bflan::anim_info::PaneAnimInfo;
use crate::bflan::file::BflanSections;
use crate::calls::{calls, count, garbage, journal, with_fields};
use crate::change::{Call, Change, Place, field_answer};
use crate::editor::{Editor, edited, field, field_at, undone};
use crate::guarded::Guarded;
use crate::journal::ENTRY_WORDS;
use crate::layout::{Rules, TARGET_NUMBERS, Walked, walk};
use crate::machine::Machine;
use crate::proved::Proved;
use crate::reader::{READ_NUMBERS, Reader};
use crate::record::{flat, reference, values_at};
use crate::sections::{
    Maker, Placing, READABLE, Style, Target, fixed_sections, large_sections, one_target, placed, random_sections, speed,
};
use crate::{parse, serialize};

/// The words and bytes of a record above which a section is left out, and the same for the large ones.
const MOST: usize = 300_000;
const MOST_LARGE: usize = 80_000_000;
/// The edits and undos on a section that was made in any way.
const CALLS_ON_ANY: usize = 4;

/// The sections that are written.
const WRITTEN: [(&str, Style); 3] = [
    ("written", READABLE[0].1),
    ("written, mostly extended data", Style { extended: 7, ..READABLE[0].1 }),
    ("written, more parts and keys", Style { most: 8, most_keys: 40, ..READABLE[0].1 }),
];

/// A list of calls, and what the first of them is given.
#[derive(Clone)]
pub struct Trial {
    pub section: Vec<u8>,
    pub journal: Vec<u32>,
    pub count: usize,
    pub calls: Vec<Call>,
    /// The record that the section was written from, to hold the calls against the machine.
    pub record: Option<PaneAnimInfo>,
}

impl Trial {
    /// Calls on a section that the reference writes, beside a journal with count 0.
    pub fn on_written(record: PaneAnimInfo, journal: Vec<u32>, calls: Vec<Call>) -> Trial {
        Trial { section: serialize(&record), journal, count: 0, calls, record: Some(record) }
    }
}

/// What was seen of one kind of section or of call.
#[derive(Clone, Default)]
pub struct Kind {
    pub name: String,
    pub lists: u64,
    /// How many lists were left before their end, since the section's record is too long.
    pub left_out: u64,
    pub calls: u64,
    /// The calls by the number of their answers.
    pub outcomes: [u64; 15],
}

impl Kind {
    /// Counts a call.
    fn answered(&mut self, number: usize) {
        self.calls += 1;
        self.outcomes[number] += 1;
    }
}

/// The machine beside a list of calls.
struct Beside {
    machine: Machine,
    /// The bytes of the edits that are not taken back: where they start, and how many they are.
    parts: Vec<(usize, usize)>,
}

impl Beside {
    /// Takes a call, and says in what the editor differs: it was handed `before`, and left `after` and an answer.
    fn turn(
        &mut self,
        call: &Call,
        walked: &Walked,
        before: &[u8],
        after: &[u8],
        answer: &[usize],
    ) -> Result<(), String> {
        let wanted = self.machine.turn(call);
        let number = wanted[0];
        let told = answer.len().min(wanted.len());
        if answer[..told] != wanted[..told] {
            return Err(format!("the machine answers {wanted:?}, the editor {answer:?}"));
        }
        let part = match call {
            _ if number != 0 => (0, 0),
            Call::FieldAt(_) => (0, 0),
            Call::Edit(change) => {
                let field = field(walked, change).ok_or("the machine has a place that the section has not")?;
                self.parts.push((field.at, field.size));
                (field.at, field.size)
            }
            Call::Undo => self.parts.pop().unwrap(),
        };
        let outside = |i: &usize| !(part.0..part.0 + part.1).contains(i);
        if let Some(i) = (0..before.len()).filter(outside).find(|&i| after[i] != before[i]) {
            return Err(format!("byte {i} was {}, is {}, and lies outside of {part:?}", before[i], after[i]));
        }
        if matches!(call, Call::FieldAt(_)) {
            return Ok(());
        }
        let record = &self.machine.record;
        if serialize(record) != after {
            return Err("the reference writes other bytes for the machine's record".to_owned());
        }
        if number == 0 {
            let wanted = flat(record);
            if reference(after).as_ref() != Ok(&wanted) {
                return Err("the reference reads another record than the machine's".to_owned());
            }
            let (mut words, mut texts) = (vec![0; wanted.words.len()], vec![0; wanted.texts.len()]);
            let mut said = [9; READ_NUMBERS];
            Proved.read(after, &mut words, &mut texts, &mut said);
            // what the writer has written is well-formed
            if said != [0, words.len(), texts.len(), 0] || words != wanted.words || texts != wanted.texts {
                return Err("the reader reads another record than the machine's".to_owned());
            }
        }
        Ok(())
    }
}

/// What a section is known to be before a call.
struct Known {
    walked: Walked,
    /// What the reference reads from it, if that is asked for and it reads.
    read: Option<PaneAnimInfo>,
}

impl Known {
    /// Looks at a section, unless its record is too long. The reference is asked where no machine has the record.
    fn of(section: &[u8], most: usize, by_reference: bool) -> Option<Known> {
        let walked = walk(section, &Rules::DOCUMENT, most)?;
        let read = (by_reference && walked.outcome.is_ok()).then(|| record_of(section));
        Some(Known { walked, read })
    }
}

/// The trials of one editor.
pub struct Trials<'a> {
    editor: &'a dyn Editor,
    maker: Maker,
    /// By kind of section.
    pub kinds: Vec<Kind>,
    /// By kind of call, as `Call::KINDS` has them.
    pub calls: Vec<Kind>,
    /// How many lists had a call that differs; none is gone on with behind it.
    pub differences: u64,
    /// The shortest of these lists, and what differs.
    pub smallest: Option<(Trial, String)>,
    section: Guarded<u8>,
    journal: Guarded<u32>,
    answer: Guarded<usize>,
}

impl<'a> Trials<'a> {
    /// Trials whose calls are the same for the same seed.
    pub fn new(editor: &'a dyn Editor, seed: u64) -> Trials<'a> {
        Trials {
            editor,
            maker: Maker::new(seed),
            kinds: Vec::new(),
            calls: Call::KINDS.map(|name| Kind { name: name.to_owned(), ..Kind::default() }).to_vec(),
            differences: 0,
            smallest: None,
            section: Guarded::default(),
            journal: Guarded::default(),
            answer: Guarded::default(),
        }
    }

    /// Tries all that a run tries: at least `count` edits and undos beside the machine, and as many on any bytes; behind
    /// each it is asked what stands at a place.
    pub fn run(&mut self, seed: u64, count: u64) {
        self.on_written(count);
        let mut maker = Maker::new(seed);
        fixed_sections(&mut |kind, section| self.on_any(kind, section, MOST));
        let sections = count / CALLS_ON_ANY as u64;
        random_sections(&mut maker, sections, &mut |kind, section| self.on_any(kind, section, MOST));
        large_sections(&mut maker, &mut |kind, section| self.on_any(kind, section, MOST_LARGE));
        for (_, section) in speed::sections() {
            self.on_record("written, large", record_of(&section), 16, MOST_LARGE);
        }
    }

    /// Calls on sections that the reference wrote: every number of a target, and at least `count` random ones.
    pub fn on_written(&mut self, count: u64) {
        for letters in TARGET_NUMBERS.map(|(letters, _)| *letters).into_iter().chain([[0; 4]]) {
            let record = record_of(&one_target(letters, Target::default()));
            let numbers = (0..300).chain([511, 512, 65_536, 1 << 24, u32::MAX]);
            let call = |n: u32| [Call::Edit(Change::Target([0; 3], n)), Call::FieldAt(Place::Target([0; 3]))];
            let calls: Vec<Call> = numbers.flat_map(call).collect();
            let journal = vec![7; ENTRY_WORDS * 300];
            self.try_list("every number of a target", &Trial::on_written(record, journal, calls), MOST);
        }
        let mut tried = 0;
        while tried < count {
            for (kind, style) in WRITTEN {
                let mut shape = self.maker.shape(style);
                while shape.contents.is_empty() && self.maker.random.below(8) > 0 {
                    shape = self.maker.shape(style);
                }
                let section = placed(&shape, Placing::Written, &mut self.maker.random).bytes;
                let most = if self.maker.random.below(8) == 0 { 400 } else { 60 };
                let len = self.maker.random.within(1, most);
                self.on_record(kind, record_of(&section), len, MOST);
                tried += len as u64;
            }
        }
    }

    /// A list of `len` edits and undos on the section that the reference writes for a record.
    fn on_record(&mut self, kind: &str, record: PaneAnimInfo, len: usize, most: usize) {
        let room = ENTRY_WORDS * self.maker.few(len.min(30)) + self.maker.random.below(ENTRY_WORDS);
        let journal = garbage(&mut self.maker, room);
        let mut trial = Trial::on_written(record, journal, Vec::new());
        let walked = walk(&trial.section, &Rules::DOCUMENT, most).unwrap();
        let changes = calls(&mut self.maker, &walked.contents, len);
        trial.calls = with_fields(&mut self.maker, &walked.contents, &changes);
        self.try_list(kind, &trial, most);
    }

    /// Some calls on a section of any bytes, with a journal and a count of any kind.
    pub fn on_any(&mut self, kind: &str, section: &[u8], most: usize) {
        let Some(walked) = walk(section, &Rules::DOCUMENT, most) else {
            self.kind(kind).left_out += 1;
            return;
        };
        let maker = &mut self.maker;
        let room = ENTRY_WORDS * maker.few(6) + maker.random.below(ENTRY_WORDS);
        let journal = journal(maker, room, section.len());
        let count = count(maker, room);
        let changes = calls(maker, &walked.contents, CALLS_ON_ANY);
        let calls = with_fields(maker, &walked.contents, &changes);
        self.try_list(kind, &Trial { section: section.to_vec(), journal, count, calls, record: None }, most);
    }

    /// What was seen of a kind of section.
    fn kind(&mut self, name: &str) -> &mut Kind {
        let at = self.kinds.iter().position(|kind| kind.name == name).unwrap_or(self.kinds.len());
        if at == self.kinds.len() {
            self.kinds.push(Kind { name: name.to_owned(), ..Kind::default() });
        }
        &mut self.kinds[at]
    }

    /// Makes the calls of a trial, up to one that differs.
    pub fn try_list(&mut self, kind: &str, trial: &Trial, most: usize) {
        self.kind(kind).lists += 1;
        let mut now = trial.clone();
        let mut beside = trial
            .record
            .clone()
            .map(|record| Beside { machine: Machine::new(record, trial.journal.len()), parts: Vec::new() });
        let mut known = Known::of(&now.section, most, beside.is_none());
        for (i, call) in trial.calls.iter().enumerate() {
            let Some(before) = &known else {
                self.kind(kind).left_out += 1;
                return;
            };
            match self.try_call(&mut now, before, call, &mut beside) {
                Ok(number) => {
                    self.calls[call.kind()].answered(number);
                    self.kind(kind).answered(number);
                    if number == 0 && !matches!(call, Call::FieldAt(_)) {
                        known = Known::of(&now.section, most, beside.is_none());
                    }
                }
                Err(what) => {
                    let calls = trial.calls[..=i].to_vec();
                    self.differs(Trial { calls, ..trial.clone() }, what);
                    return;
                }
            }
        }
    }

    /// Makes one call on what `now` has, and puts there what it hands on. Says the answer's number, or in what the call
    /// differs.
    fn try_call(
        &mut self,
        now: &mut Trial,
        known: &Known,
        call: &Call,
        beside: &mut Option<Beside>,
    ) -> Result<usize, String> {
        let walked = &known.walked;
        let random = &mut self.maker.random;
        let salt = random.next();
        // mostly as many places as an answer has numbers
        let numbers = call.numbers();
        let room = match random.below(16) {
            0 => random.below(numbers),
            1 => numbers + 1 + random.below(4),
            _ => numbers,
        };
        let section = self.section.list(salt, now.section.len());
        section.copy_from_slice(&now.section);
        let journal = self.journal.list(salt, now.journal.len());
        journal.copy_from_slice(&now.journal);
        let answer = self.answer.list(salt, room);
        match call {
            Call::Edit(change) => self.editor.edit(section, journal, now.count, change, answer),
            Call::Undo => self.editor.undo(section, journal, now.count, answer),
            Call::FieldAt(place) => self.editor.field_at(section, place, answer),
        }
        if let Some(beside) = beside {
            beside.turn(call, walked, &now.section, self.section.now(), self.answer.now())?;
        }
        let wanted = match call {
            Call::Edit(change) => edited(walked, &mut now.section, &mut now.journal, now.count, change).to_vec(),
            Call::Undo => undone(&mut now.section, &now.journal, now.count).to_vec(),
            Call::FieldAt(place) => field_at(walked, &now.section, place).to_vec(),
        };
        if let (Call::FieldAt(place), Some(record)) = (call, &known.read) {
            let read = field_answer(values_at(record, place));
            if wanted != read {
                return Err(format!("the reference reads {read:?}, the layout has {wanted:?}"));
            }
        }
        let found = self
            .answer
            .differs("answer", &wanted[..room.min(numbers)])
            .or_else(|| self.section.differs("section", &now.section))
            .or_else(|| self.journal.differs("journal", &now.journal));
        if let Some(what) = found {
            return Err(format!("{what}, where the answer is {wanted:?}"));
        }
        if wanted[0] == 0 && !matches!(call, Call::FieldAt(_)) {
            now.count = wanted[1];
        }
        if let Some(Beside { machine, .. }) = beside
            && machine.stack.len() != now.count
        {
            return Err(format!("the machine's stack is {} high, the count is {}", machine.stack.len(), now.count));
        }
        Ok(wanted[0])
    }

    /// Counts a difference, and keeps the shortest list that has one.
    fn differs(&mut self, trial: Trial, what: String) {
        self.differences += 1;
        let size = |trial: &Trial| (trial.calls.len(), trial.section.len());
        if self.smallest.as_ref().is_none_or(|(smallest, _)| size(&trial) < size(smallest)) {
            self.smallest = Some((trial, what));
        }
    }

    /// Leaves calls out of the shortest list as long as it still differs.
    pub fn shrink(&mut self) {
        let Some((mut trial, mut what)) = self.smallest.take() else { return };
        let mut i = 0;
        while i < trial.calls.len() {
            let mut less = trial.clone();
            less.calls.remove(i);
            // how many places an answer has is random: some are tried
            let mut fresh = Trials::new(self.editor, 1);
            for _ in 0..4 {
                fresh.try_list("", &less, MOST_LARGE);
            }
            match fresh.smallest {
                Some(smaller) => (trial, what) = smaller,
                None => i += 1,
            }
        }
        self.smallest = Some((trial, what));
    }

    /// Prints the counts, and the shortest list that showed a difference.
    pub fn print(&self) {
        table("kind of section", &self.kinds);
        let lists: u64 = self.kinds.iter().map(|kind| kind.lists).sum();
        let left_out: u64 = self.kinds.iter().map(|kind| kind.left_out).sum();
        println!("{lists} lists of calls; {left_out} were left, since the section's record is too long\n");
        table("kind of call", &self.calls);
        let calls = |kinds: &[Kind]| kinds.iter().map(|kind| kind.calls).sum::<u64>();
        let (edits, others) = self.calls.split_at(Call::EDITS);
        let (undo, fields) = others.split_at(1);
        println!("{} edits, {} undos, {} times field_at", calls(edits), calls(undo), calls(fields));
        if let Some((trial, what)) = &self.smallest {
            let hex: Vec<String> = trial.section.iter().take(4_096).map(|byte| format!("{byte:02X}")).collect();
            let more = if trial.section.len() > 4_096 { " .." } else { "" };
            println!("DIFFERS {what}\nafter {:?}", trial.calls);
            println!("with the count {} and the journal {:X?}", trial.count, trial.journal);
            println!("on the section of {} bytes: {}{more}", trial.section.len(), hex.join(" "));
        }
        println!("{} differences", self.differences);
    }
}

/// The answers that a call can have.
const NUMBERS: [usize; 10] = [0, 1, 2, 3, 4, 10, 11, 12, 13, 14];

/// Prints the calls of each kind, and of all, by their answers.
fn table(title: &str, kinds: &[Kind]) {
    let line = |name: &str, cells: Vec<String>| {
        print!("{name:<32}");
        cells.iter().for_each(|cell| print!(" {cell:>9}"));
        println!();
    };
    let counts = |kind: &Kind| {
        let outcomes = NUMBERS.iter().map(|&number| kind.outcomes[number].to_string());
        [kind.calls.to_string()].into_iter().chain(outcomes).collect()
    };
    line(title, ["calls".to_owned()].into_iter().chain(NUMBERS.map(|number| number.to_string())).collect());
    let mut sum = Kind::default();
    for kind in kinds {
        line(&kind.name, counts(kind));
        sum.calls += kind.calls;
        for (all, one) in sum.outcomes.iter_mut().zip(kind.outcomes) {
            *all += one;
        }
    }
    line("all", counts(&sum));
}

/// What the reference reads.
fn record_of(section: &[u8]) -> PaneAnimInfo {
    match parse(section) {
        Ok(BflanSections::PaneAnimInfo(record)) => record,
        other => panic!("not read as a pai1 section: {other:?}"),
    }
}
