//! Times the proved code beside the Rust, on the same bytes in the same program: the best of many repetitions, in bytes of
//! input a second. Usage: benchmark [texts|sections|records|edits] [SECONDS a cell]; without a part, all.
//!
//! texts: the decoding beside Rust's own. sections: reading beside the reference's `BflanSections::parse`. records: writing
//! beside the reference's `BflanSectionsRef::serialize`, in bytes of the section. edits: an edit beside a reading of the same
//! section, what stands in the field of an edit, and an undo.
use std::hint::black_box;
use std::time::{Duration, Instant};

use compare::args::Args;
use compare::bflan::file::BflanSections;
use compare::change::{Change, FIELD_NUMBERS, NewKey, field_answer};
use compare::chars::{WORDS, char_of_len, damage, push, push_char};
use compare::editor::Editor;
use compare::journal::ENTRY_WORDS;
use compare::layout::{InfoAt, PartsAt, Rules, walk};
use compare::proved::{self, Proved};
use compare::random::Random;
use compare::reader::{READ_NUMBERS, Reader};
use compare::record::{LIMIT, flat};
use compare::sections::{content_p, speed};
use compare::writer::Writer;
use compare::{parse, serialize};

/// The input of one line: texts one after another, each given by where it ends.
struct Input {
    name: &'static str,
    bytes: Vec<u8>,
    ends: Vec<usize>,
}

impl Input {
    fn each(&self, mut use_text: impl FnMut(&[u8])) {
        let mut start = 0;
        for &end in &self.ends {
            use_text(&self.bytes[start..end]);
            start = end;
        }
    }
}

const LONG: usize = 1 << 20;
const NAME: usize = 20;
const NAMES: usize = LONG / NAME;

/// Appends something of a kind to a text.
type Grow = fn(&mut Random, &mut Vec<u8>);
const KINDS: [(&str, Grow); 8] = [
    ("ASCII", |random, text| text.push(0x20 + random.byte() % 0x5F)),
    ("mostly ASCII", |random, text| {
        if random.below(20) == 0 {
            let len = random.within(2, 4);
            push(text, char_of_len(random, len));
        } else {
            text.push(0x20 + random.byte() % 0x5F);
        }
    }),
    ("words in several scripts", |random, text| {
        text.extend_from_slice(random.one(&WORDS).as_bytes());
        text.push(b' ');
    }),
    ("characters of all lengths", push_char),
    ("characters of 3 bytes", |random, text| push(text, char_of_len(random, 3))),
    ("words, damaged", |random, text| {
        let mut word = random.one(&WORDS).as_bytes().to_vec();
        if random.below(10) == 0 {
            damage(random, &mut word);
        }
        text.extend_from_slice(&word);
        text.push(b' ');
    }),
    ("random bytes", |random, text| text.push(random.byte())),
    ("the byte 80 alone", |_, text| text.push(0x80)),
];

fn inputs() -> Vec<(&'static str, Vec<Input>)> {
    let mut random = Random(20_261_031);
    let mut long = Vec::new();
    let mut names = Vec::new();
    for (name, grow) in KINDS {
        let mut bytes = Vec::new();
        while bytes.len() < LONG {
            grow(&mut random, &mut bytes);
        }
        long.push(Input { name, ends: vec![bytes.len()], bytes });

        // A name has 20 bytes, or up to three fewer where the 20 would end inside a character.
        let (mut bytes, mut ends) = (Vec::new(), Vec::new());
        for _ in 0..NAMES {
            let mut text = Vec::new();
            while text.len() < NAME {
                grow(&mut random, &mut text);
            }
            let end = match std::str::from_utf8(&text) {
                Ok(s) => (0..=NAME).rev().find(|&n| s.is_char_boundary(n)).unwrap(),
                Err(_) => NAME,
            };
            bytes.extend_from_slice(&text[..end]);
            ends.push(bytes.len());
        }
        names.push(Input { name, bytes, ends });
    }
    vec![("one text of 1 MiB", long), ("names of 20 bytes", names)]
}

/// The shortest time of one pass over the input, tried again until `budget` is spent.
fn best(budget: Duration, mut pass: impl FnMut()) -> f64 {
    best_of(budget, || {
        let start = Instant::now();
        pass();
        start.elapsed()
    })
}

/// The shortest of the times that passes give, tried again until `budget` is spent.
fn best_of(budget: Duration, mut pass: impl FnMut() -> Duration) -> f64 {
    let begun = Instant::now();
    let mut least = f64::INFINITY;
    let mut tries = 0;
    while tries < 5 || begun.elapsed() < budget {
        least = least.min(pass().as_secs_f64());
        tries += 1;
    }
    least
}

/// The shortest time of one call, by passes of as many as are worth timing.
fn best_call(budget: Duration, mut call: impl FnMut()) -> f64 {
    let calls = (2e-4 / best(Duration::ZERO, &mut call).max(1e-9)).ceil();
    best(budget, || (0..calls as usize).for_each(|_| call())) / calls
}

fn main() {
    let mut args = Args::new("benchmark [texts|sections|records|edits] [SECONDS]");
    let part = args.part(&["texts", "sections", "records", "edits"]);
    let seconds = args.number().unwrap_or(0.5);
    args.end();
    let budget = Duration::from_secs_f64(seconds);
    if let Ok(info) = std::fs::read_to_string("/proc/cpuinfo") {
        let model = info.lines().find(|l| l.starts_with("model name")).unwrap_or("");
        println!("{}", model.split(':').nth(1).unwrap_or("").trim());
    }
    println!("Best of at least 5 passes, {seconds} s a cell. GB/s of input.\n");
    match part {
        Some("texts") => texts(budget),
        Some("sections") => sections(budget),
        Some("records") => records(budget),
        Some(_) => edits(budget),
        None => {
            texts(budget);
            sections(budget);
            records(budget);
            edits(budget);
        }
    }
}

/// Reads each section by both, the reference with what it makes dropped within the time and without.
fn sections(budget: Duration) {
    println!("nnbfl_read fills tables that were made and touched before. A ratio is the reference's time divided by");
    println!("the reader's: above 1, the reader takes less.\n");
    println!("| one section | MB | read | parse | ratio | parse, not dropped | ratio |");
    println!("|---|---|---|---|---|---|---|");
    for (name, section) in speed::sections() {
        let mut answer = [0; READ_NUMBERS];
        Proved.read(&section, &mut [], &mut [], &mut answer);
        let [5, words, texts, 0] = answer else { panic!("{name}: {answer:?}") };
        let (mut words, mut texts) = (vec![1u32; words], vec![1u8; texts]);
        let read = best(budget, || {
            Proved.read(black_box(&section), &mut words, &mut texts, &mut answer);
            black_box((&words, &texts));
        });
        assert_eq!(answer[..3], [0, words.len(), texts.len()]);
        let whole = best(budget, || drop(black_box(parse(black_box(&section)))));
        let parsed = best_of(budget, || {
            let start = Instant::now();
            let record = black_box(parse(black_box(&section)));
            let time = start.elapsed();
            drop(record);
            time
        });
        let size = section.len() as f64 / 1e9;
        println!(
            "| {name} | {:.1} | {:.3} | {:.3} | {:.2} | {:.3} | {:.2} |",
            size * 1e3,
            size / read,
            size / whole,
            whole / read,
            size / parsed,
            parsed / read
        );
    }
    println!();
}

/// Writes the record of each section by both. Ours is given the flat record; what is timed is the whole call, the judging
/// included, into an output that was made and touched before; and the judging alone, with no output. The reference is given its tree, and what is timed is
/// `serialize` with the writer that it makes: the buffer that grows, and the name that it keeps of each part it begins. The
/// buffer is its result, which is dropped within the time, or not.
fn records(budget: Duration) {
    println!(
        "nnbfl_write judges a flat record and fills an output that was made and touched before; \"judged\" is the call"
    );
    println!(
        "with an output of no length, which is refused. A ratio is the reference's time divided by the writer's: above"
    );
    println!("1, the writer takes less.\n");
    println!("| the record of | MB | write | of it judged | serialize | ratio | serialize, not dropped | ratio |");
    println!("|---|---|---|---|---|---|---|---|");
    for (name, section) in speed::sections() {
        let Ok(BflanSections::PaneAnimInfo(tree)) = parse(&section) else { panic!("{name}") };
        let record = flat(&tree);
        let mut out = vec![1u8; section.len()];
        let mut answer = [0; 3];
        let write = best(budget, || {
            Proved.write(black_box(&record.words), black_box(&record.texts), &mut out, &mut answer);
            black_box(&out);
        });
        assert!(answer == [0, section.len(), 0] && out == section, "{name}");
        let judged = best(budget, || {
            Proved.write(black_box(&record.words), black_box(&record.texts), &mut [], &mut answer);
        });
        assert_eq!(answer, [9, section.len(), 0], "{name}");
        let whole = best(budget, || drop(black_box(serialize(black_box(&tree)))));
        let serialized = best_of(budget, || {
            let start = Instant::now();
            let bytes = black_box(serialize(black_box(&tree)));
            let time = start.elapsed();
            drop(bytes);
            time
        });
        let size = section.len() as f64 / 1e9;
        println!(
            "| {name} | {:.1} | {:.3} | {:.1} % | {:.3} | {:.2} | {:.3} | {:.2} |",
            size * 1e3,
            size / write,
            100.0 * judged / write,
            size / whole,
            whole / write,
            size / serialized,
            serialized / write
        );
    }
    println!();
}

/// The change of a key or an extended value: of one in the middle of the section, or of its last.
fn change_at(contents: &[Vec<InfoAt>], last: bool) -> Option<Change> {
    let place = |count: usize| if last { count - 1 } else { count / 2 };
    let filled: Vec<usize> = (0..contents.len()).filter(|&c| !contents[c].is_empty()).collect();
    if filled.is_empty() {
        return None;
    }
    let content = filled[place(filled.len())];
    let info = place(contents[content].len());
    let pi = std::f32::consts::PI.to_bits();
    match &contents[content][info].of {
        PartsAt::Targets(targets) => {
            let at = place(targets.len());
            let new = match targets[at].curve {
                0 => NewKey::Constant(pi),
                1 => NewKey::Step { frame: pi, value: 1 },
                _ => NewKey::Hermite { frame: pi, value: pi, slope: pi },
            };
            Some(Change::Key([content, info, at, place(targets[at].key_count)], new))
        }
        PartsAt::Data(data) => {
            let at = place(data.len());
            Some(Change::Value([content, info, at, place(3), place(data[at].base_count)], pi))
        }
    }
}

/// Edits each section beside reading it, into tables that fit and into none; and takes an edit back.
fn edits(budget: Duration) {
    println!(
        "Times in microseconds, of an undo in nanoseconds. \"measured\" is a read into empty tables, which is refused"
    );
    println!(
        "with what it needs. A ratio is the edit's time divided by the read's and by the measured one's. \"field_at\""
    );
    println!("asks what stands in the last key, and its ratio is to the edit of that key.\n");
    println!(
        "| one section | MB | read | measured | last key | ratios | key in the middle | ratios | frame count | ratios | \
         field_at | ratio | undo |"
    );
    println!("|---|---|---|---|---|---|---|---|---|---|---|---|---|");
    let mut sections = speed::sections();
    sections.insert(0, ("content `P`", content_p()));
    sections.push(("one info of 255 extended data", speed::one_extended_info()));
    let mut longest = content_p();
    longest.resize(LIMIT, 0);
    sections.push(("content `P`, with zeros to the limit", longest));
    for (name, mut section) in sections {
        let mut answer = [0; READ_NUMBERS];
        let measured = best_call(budget, || Proved.read(black_box(&section), &mut [], &mut [], &mut answer));
        let [5, words, texts, 0] = answer else { panic!("{name}: {answer:?}") };
        let (mut words, mut texts) = (vec![1u32; words], vec![1u8; texts]);
        let read = best_call(budget, || {
            Proved.read(black_box(&section), &mut words, &mut texts, &mut answer);
            black_box((&words, &texts));
        });
        assert_eq!(answer[0], 0);
        let mut answer = [0; 3];
        let contents = walk(&section, &Rules::DOCUMENT, usize::MAX).unwrap().contents;
        let mut journal = [0; ENTRY_WORDS];
        let mut cells = vec![format!("{:.1}", section.len() as f64 / 1e6)];
        cells.extend([read, measured].map(|time| format!("{:.3}", time * 1e6)));
        let (last, frame_count) = (change_at(&contents, true), Some(Change::FrameCount(7)));
        let mut times = Vec::new();
        for change in [last, change_at(&contents, false), frame_count] {
            let Some(change) = change else {
                cells.extend(["-".to_owned(), "-".to_owned()]);
                continue;
            };
            let time =
                best_call(budget, || Proved.edit(black_box(&mut section), &mut journal, 0, &change, &mut answer));
            assert_eq!(answer, [0, 1, 0], "{name}: {change:?}");
            cells.push(format!("{:.3}", time * 1e6));
            cells.push(format!("{:.2}, {:.2}", time / read, time / measured));
            times.push(time);
        }
        match last {
            None => cells.extend(["-".to_owned(), "-".to_owned()]),
            Some(change) => {
                let mut shown = [0; FIELD_NUMBERS];
                let time =
                    best_call(budget, || proved::field_at(black_box(&section), &change.place(), black_box(&mut shown)));
                assert_eq!(shown, field_answer(Some(change.values())), "{name}: {change:?}");
                cells.push(format!("{:.3}", time * 1e6));
                cells.push(format!("{:.2}", time / times[0]));
            }
        }
        let undo = best_call(budget, || Proved.undo(black_box(&mut section), &mut journal, 1, &mut answer));
        assert_eq!(answer, [0, 0, 0]);
        cells.push(format!("{:.1}", undo * 1e9));
        println!("| {name} | {} |", cells.join(" | "));
    }
    println!();
}

fn texts(budget: Duration) {
    println!(
        "A ratio above 1 means that decode_into (or well_formed) takes less time than the call it is named after.\n"
    );
    let mut out = vec![0u8; 4 * LONG];
    let mut replaced = 0;
    for (title, inputs) in inputs() {
        println!(
            "| {title} | decode_into | from_utf8_lossy | ratio | decode_plain | ratio | well_formed | from_utf8 | ratio |"
        );
        println!("|---|---|---|---|---|---|---|---|---|");
        for input in &inputs {
            let size = input.bytes.len() as f64 / 1e9;
            let decode = best(budget, || {
                input.each(|text| {
                    black_box(proved::decode_into(black_box(text), &mut out, 0, &mut replaced));
                })
            });
            let lossy = best(budget, || {
                input.each(|text| {
                    black_box(String::from_utf8_lossy(black_box(text)).into_owned());
                })
            });
            let plain = best(budget, || {
                input.each(|text| {
                    black_box(proved::decode_plain(black_box(text), &mut out, 0, &mut replaced));
                })
            });
            let formed = best(budget, || {
                input.each(|text| {
                    black_box(proved::well_formed(black_box(text)));
                })
            });
            let utf8 = best(budget, || {
                input.each(|text| {
                    black_box(std::str::from_utf8(black_box(text)).is_ok());
                })
            });
            let decoding = [size / decode, size / lossy, lossy / decode, size / plain, plain / decode];
            // a single text that is ill-formed near its start says nothing of the speed
            let stops = input.ends.len() == 1 && std::str::from_utf8(&input.bytes).is_err();
            let judging = [size / formed, size / utf8, utf8 / formed].map(|x| if stops { f64::NAN } else { x });
            let cells: Vec<String> = decoding
                .iter()
                .chain(&judging)
                .map(|x| if x.is_nan() { "-".to_owned() } else { format!("{x:.2}") })
                .collect();
            println!("| {} | {} |", input.name, cells.join(" | "));
        }
        println!();
    }
}
