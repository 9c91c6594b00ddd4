//! Times the calls on sections whose offsets all lead to the same parts, so that a reading takes as long as it can for
//! their length. Usage: adversarial [SECONDS] [BYTES]; a call that would take longer than that is timed on some of the
//! contents or textures, and the time for all is computed from it, since each of them takes the same. Without a length,
//! three lengths up to the limit.
use std::ffi::{c_int, c_long};
use std::hint::black_box;

use compare::args::Args;
use compare::layout::FLEU;
use compare::reader::FIND_NUMBERS;
use compare::record::{LIMIT, PAI1};
use pai1::raw;

#[repr(C)]
#[derive(Default)]
struct Time {
    seconds: c_long,
    nanoseconds: c_long,
}

unsafe extern "C" {
    fn clock_gettime(clock: c_int, time: *mut Time) -> c_int;
}

/// The processor time of this program, so that other work on the machine is not counted.
fn processor_seconds() -> f64 {
    /// Linux's number.
    const CLOCK_PROCESS_CPUTIME_ID: c_int = 2;
    let mut time = Time::default();
    let told = unsafe { clock_gettime(CLOCK_PROCESS_CPUTIME_ID, &mut time) };
    assert_eq!(told, 0, "no clock");
    time.seconds as f64 + time.nanoseconds as f64 / 1e9
}

/// A section, where the count stands of what its table repeats, and that count.
struct Section {
    bytes: Vec<u8>,
    counted_at: usize,
    count: u16,
    /// Where its one target stands, whose first key is itself.
    target: Option<usize>,
}

impl Section {
    fn new(bytes: Vec<u8>, counted_at: usize, target: Option<usize>) -> Section {
        let count = u16::from_le_bytes([bytes[counted_at], bytes[counted_at + 1]]);
        Section { bytes, counted_at, count, target }
    }

    /// The section with so many of what it repeats.
    fn with(&mut self, count: u16) -> &mut [u8] {
        self.bytes[self.counted_at..][..2].copy_from_slice(&count.to_le_bytes());
        &mut self.bytes
    }

    /// How many words and text bytes its record has, by those of one and of two of what it repeats.
    fn record(&mut self) -> [usize; 2] {
        let [(a, b), (c, d)] = [1, 2].map(|count| pai1::needs(self.with(count)).expect("it reads"));
        let others = self.count as usize - 1;
        [a + others * (c - a), b + others * (d - b)]
    }

    /// Times a call, whose answer must be as given: on the whole section if that takes at most so many seconds, and
    /// otherwise as the shortest of three times on a part of it. Returns the time, and whether it is computed so.
    fn time(&mut self, most: f64, wanted: usize, mut call: impl FnMut(&mut [u8], &mut [usize])) -> (f64, bool) {
        let all = self.count;
        let mut timed = |count: u16| {
            let section = self.with(count);
            let mut answer = [0; FIND_NUMBERS];
            let start = processor_seconds();
            call(black_box(section), &mut answer);
            let time = processor_seconds() - start;
            assert_eq!(answer[0], wanted);
            time
        };
        let (mut count, mut taken) = (1, timed(1));
        while count < all && taken < most / 100.0 {
            count = count.saturating_mul(4).min(all);
            taken = timed(count);
        }
        for _ in 0..2 {
            taken = taken.min(timed(count));
        }
        let computed = taken * all as f64 / count as f64;
        if count == all || computed > most { (computed, count < all) } else { (timed(all), false) }
    }
}

fn put(bytes: &mut [u8], at: usize, number: usize) {
    bytes[at..at + 4].copy_from_slice(&(number as u32).to_le_bytes());
}

/// The header, with a content table that begins at `table`.
fn header(size: usize, table: usize) -> Vec<u8> {
    let mut bytes = vec![0; 20];
    put(&mut bytes, 0, PAI1 as usize);
    put(&mut bytes, 4, size);
    put(&mut bytes, 16, table);
    bytes
}

/// A table of as many contents as fit and are counted, all of them the one at 20.
fn contents(mut bytes: Vec<u8>, size: usize) -> Vec<u8> {
    let table = bytes.len();
    put(&mut bytes, 16, table);
    let count = ((size - table) / 4).min(0xFFFF);
    bytes[14..16].copy_from_slice(&(count as u16).to_le_bytes());
    for _ in 0..count {
        bytes.extend(20u32.to_le_bytes());
    }
    bytes.resize(size, 0);
    bytes
}

/// A content of 255 infos, all of them the one behind it.
fn content(bytes: &mut Vec<u8>) {
    bytes.extend([0; 28]);
    bytes.extend([255, 0, 0, 0]);
    for _ in 0..255 {
        bytes.extend((32 + 4 * 255u32).to_le_bytes());
    }
}

/// 255 targets, all of them one. Its keys are itself and whatever follows.
fn targets(size: usize) -> Section {
    let mut bytes = header(size, 0);
    content(&mut bytes);
    bytes.extend(b"FLPA\xFF\0\0\0");
    for _ in 0..255 {
        bytes.extend((8 + 4 * 255u32).to_le_bytes());
    }
    let target = bytes.len();
    let keys = ((size - target) / 12).min(0xFFFF) as u16;
    bytes.extend([0, 0, 2, 0]);
    bytes.extend(keys.to_le_bytes());
    bytes.extend([0; 6]);
    Section::new(contents(bytes, size), 14, Some(target))
}

/// 255 extended data without values or keys.
fn data(size: usize) -> Section {
    let mut bytes = header(size, 0);
    content(&mut bytes);
    bytes.extend(FLEU.to_le_bytes());
    bytes.extend([255, 0, 0, 0]);
    for _ in 0..255 {
        bytes.extend([0; 16]);
        bytes.extend(4u32.to_le_bytes());
        bytes.push(0);
    }
    Section::new(contents(bytes, size), 14, None)
}

/// A text of ASCII, and the slowest ill-formed one that is known: each byte is a subpart of its own.
const ASCII: u8 = b'a';
const ILL_FORMED: u8 = 0xC3;

/// One extended datum with a key text, half of the section or what the table leaves.
fn key_text(size: usize, text: u8) -> Section {
    let mut bytes = header(size, 0);
    content(&mut bytes);
    bytes.extend(FLEU.to_le_bytes());
    bytes.extend([1, 0, 0, 0]);
    bytes.extend([0; 16]);
    bytes.extend(4u32.to_le_bytes());
    let len = (size / 2).max(size.saturating_sub(bytes.len() + 4 * 0xFFFF + 1));
    bytes.resize(bytes.len() + len, text);
    bytes.push(0);
    Section::new(contents(bytes, size), 14, None)
}

/// As many textures as pay, all of them one text.
fn textures(size: usize, text: u8) -> Section {
    let mut bytes = header(size, size);
    let count = (size / 8).min(0xFFFF);
    bytes[12..14].copy_from_slice(&(count as u16).to_le_bytes());
    for _ in 0..count {
        bytes.extend((4 * count as u32).to_le_bytes());
    }
    bytes.resize(size - 1, text);
    bytes.push(0);
    Section::new(bytes, 12, None)
}

/// A time as the table has it.
fn shown((seconds, computed): (f64, bool)) -> String {
    let shown = match seconds {
        s if s < 1.0 => format!("{:.1} ms", s * 1e3),
        s if s < 600.0 => format!("{s:.1} s"),
        s if s < 36_000.0 => format!("{:.0} min", s / 60.0),
        s if s < 360_000.0 => format!("{:.0} h", s / 3600.0),
        s => format!("{:.0} days", s / 86_400.0),
    };
    if computed { format!("({shown})") } else { shown }
}

fn main() {
    let mut args = Args::new("adversarial [SECONDS] [LENGTH]");
    let most = args.number().unwrap_or(20.0);
    let sizes = args.number().map_or(vec![1 << 16, 1 << 20, LIMIT], |length| vec![length]);
    args.end();
    println!("| bytes | | words | text bytes | read | find_text | edit of the frame count | edit of a key |");
    println!("|---|---|---|---|---|---|---|---|");
    for size in sizes {
        for (name, mut section) in [
            ("all targets one", targets(size)),
            ("all infos one, of 255 extended data", data(size)),
            ("all textures one ASCII text", textures(size, ASCII)),
            ("all textures one ill-formed text", textures(size, ILL_FORMED)),
            ("all key texts one ASCII text", key_text(size, ASCII)),
            ("all key texts one ill-formed text", key_text(size, ILL_FORMED)),
        ] {
            let [words, texts] = section.record();
            let mut journal = [0; 5];
            let mut times = vec![
                // into no tables: only measured
                section.time(most, 5, |bytes, answer| raw::read(bytes, &mut [], &mut [], answer)),
                // a text that is not there
                section.time(most, 10, |bytes, answer| raw::find_text(bytes, usize::MAX, &mut [], answer)),
                section.time(most, 0, |bytes, answer| raw::edit_frame_count(bytes, &mut journal, 0, 7, answer)),
            ];
            if let Some(at) = section.target {
                // with the bits that it has, so that the section stays
                let bits = |i: usize| u32::from_le_bytes(section.bytes[at + 4 * i..][..4].try_into().unwrap());
                let [frame, value, slope] = [0, 1, 2].map(bits);
                times.push(section.time(most, 0, |bytes, answer| {
                    raw::edit_hermite_key(bytes, &mut journal, 0, 0, 254, 254, 0, frame, value, slope, answer)
                }));
            }
            let mut times: Vec<String> = times.into_iter().map(shown).collect();
            times.resize(4, "-".to_owned());
            println!("| {size} | {name} | {words:.1e} | {texts:.1e} | {} |", times.join(" | "));
        }
    }
}
