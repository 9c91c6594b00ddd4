//! Holds the functions of texts against the standard library: every answer, every byte that a decoding stores, and the places
//! around them, which no call may change.
use crate::chars::{WORDS, boundary_pieces, char_of_len, damage, invalid_chunks, push, push_char};
use crate::proved;
use crate::random::Random;
use std::hint::black_box;

/// What stands in an output before a call, and must still stand where the call may not write.
const GUARD: u8 = 0xA5;
/// How many bytes of it stand on each side of an output.
const MARGIN: usize = 40;
/// The same for the count of replaced characters, and on each side of it.
const COUNT_GUARD: usize = 0xA5A5_A5A5_A5A5_A5A5;

/// One kind of text: how many were looked at, and what they held.
#[derive(Default)]
pub struct Kind {
    pub name: String,
    pub texts: u64,
    pub ill: u64,
    /// How many characters were replaced.
    pub replaced: u64,
    pub bytes: u64,
    pub calls: u64,
}

/// Stores a text's decoding in the output from a place on, and the count of replaced characters. Returns the decoding's
/// length.
pub type Decode = fn(&[u8], &mut [u8], usize, &mut usize) -> usize;

/// The proved decoders.
pub const DECODERS: &[(&str, Decode)] = &[("decode_into", proved::decode_into), ("decode_plain", proved::decode_plain)];

/// The comparison of decoders, with the other functions of texts beside them.
pub struct Texts {
    decoders: &'static [(&'static str, Decode)],
    random: Random,
    pub kinds: Vec<Kind>,
    pub differences: u64,
    buffer: Vec<u8>,
}

impl Texts {
    pub fn new(decoders: &'static [(&'static str, Decode)], seed: u64) -> Texts {
        Texts { decoders, random: Random(seed), kinds: Vec::new(), differences: 0, buffer: Vec::new() }
    }

    /// Every text of so many bytes: at most three.
    pub fn every(&mut self, len: usize) {
        self.kind(["no byte", "every byte", "every two bytes", "every three bytes"][len]);
        for n in 0..1u32 << (8 * len) {
            self.look(&n.to_be_bytes()[4 - len..]);
        }
    }

    /// Every two edges of Table 3-7, and so many texts of the kinds that are made at random.
    pub fn longer(&mut self, count: u64) {
        let pieces = boundary_pieces();
        self.kind("every two edges of Table 3-7");
        for a in &pieces {
            for b in &pieces {
                self.look_amid(&[a.as_slice(), b].concat());
            }
        }
        for (name, make) in MAKERS {
            self.kind(name);
            for _ in 0..count / MAKERS.len() as u64 {
                let n = length(&mut self.random);
                let text = make(&mut self.random, &pieces, n);
                self.look_amid(&text);
            }
        }
        self.kind("long, of each kind");
        for _ in 0..count / 5_000 {
            let n = self.random.within(1_000, 20_000);
            let (_, make) = *self.random.one(&MAKERS);
            let mut text = make(&mut self.random, &pieces, n);
            while text.len() < n {
                let (_, more) = *self.random.one(&MAKERS);
                text.extend_from_slice(&more(&mut self.random, &pieces, 300));
            }
            self.look_amid(&text);
        }
    }

    fn kind(&mut self, name: &str) {
        self.kinds.push(Kind { name: name.to_owned(), ..Kind::default() });
    }

    fn differs(&mut self, text: &[u8], call: &str, said: &dyn std::fmt::Debug, wanted: &dyn std::fmt::Debug) {
        self.differences += 1;
        if self.differences <= 20 {
            let shown = &text[..text.len().min(64)];
            println!("DIFFERS {call}: text of {} bytes {shown:02X?}: {said:?}, wanted {wanted:?}", text.len());
        }
    }

    fn same<T: PartialEq + std::fmt::Debug>(&mut self, text: &[u8], call: &str, said: T, wanted: T) {
        self.kinds.last_mut().unwrap().calls += 1;
        if said != wanted {
            self.differs(text, call, &said, &wanted);
        }
    }

    /// Decodes into an output of `room` bytes from `at` on, and looks at the count of replaced characters between two other
    /// numbers, and at every byte of the output and its margins.
    fn decoded(&mut self, text: &[u8], wanted: &[u8], replaced: usize, room: usize, at: usize) {
        for (name, decode) in self.decoders {
            let mut buffer = std::mem::take(&mut self.buffer);
            buffer.clear();
            buffer.resize(MARGIN + room + MARGIN, GUARD);
            let mut counts = [COUNT_GUARD; 3];
            let said = decode(text, &mut buffer[MARGIN..MARGIN + room], at, &mut counts[1]);
            // whether the numbers beside it are changed is to be seen, and not taken for granted
            black_box(&mut counts);
            self.same(text, name, (said, counts), (wanted.len(), [COUNT_GUARD, replaced, COUNT_GUARD]));
            let from = at.min(room);
            let stored = wanted.len().min(room - from);
            let (before, rest) = buffer.split_at(MARGIN + from);
            let (middle, after) = rest.split_at(stored);
            if middle != &wanted[..stored] {
                let call = format!("{name} into {room} bytes from {at}");
                self.differs(text, &call, &middle, &&wanted[..stored]);
            }
            if before.iter().chain(after).any(|&b| b != GUARD) {
                let call = format!("{name} into {room} bytes from {at}");
                self.differs(text, &call, &"a byte outside was written", &"none");
            }
            self.buffer = buffer;
        }
    }

    /// All that is compared of one text.
    fn look(&mut self, text: &[u8]) {
        let lossy = String::from_utf8_lossy(text);
        let wanted = lossy.as_bytes();
        let ill = std::str::from_utf8(text).err().map(|e| e.valid_up_to());
        let zero = text.iter().position(|&b| b == 0).unwrap_or(text.len());
        let first_ill = ill.unwrap_or(text.len());
        let replaced = invalid_chunks(text);

        let kind = self.kinds.last_mut().unwrap();
        kind.texts += 1;
        kind.ill += ill.is_some() as u64;
        kind.replaced += replaced as u64;
        kind.bytes += text.len() as u64;

        self.same(text, "decoded_len", proved::decoded_len(text), wanted.len());
        self.same(text, "well_formed", proved::well_formed(text), ill.is_none());
        self.same(text, "first_ill", proved::first_ill(text), first_ill);
        self.same(text, "first_zero", proved::first_zero(text), zero);
        self.same(text, "first_fault", proved::first_fault(text), zero.min(first_ill));

        // an output that fits, with bytes to spare on both sides or none
        let (before, after) = match self.random.below(4) {
            0 => (0, 0),
            1 => (0, self.random.below(MARGIN)),
            2 => (self.random.below(MARGIN), 0),
            _ => (self.random.below(MARGIN), self.random.below(MARGIN)),
        };
        self.decoded(text, wanted, replaced, before + wanted.len() + after, before);
        // one that is too short by some bytes or by nearly all
        let most = wanted.len().saturating_sub(1);
        let short = match self.random.below(3) {
            0 => most.saturating_sub(self.random.below(5)),
            1 => self.random.below(most + 1).min(self.random.below(40)),
            _ => self.random.below(most + 1),
        };
        let before = if self.random.below(2) == 0 { 0 } else { self.random.below(MARGIN) };
        self.decoded(text, wanted, replaced, before + short, before);
        // a start at the end or past it
        if self.random.below(8) == 0 {
            let room = self.random.below(MARGIN);
            let past = match self.random.below(4) {
                0 => room,
                1 => room + 1 + self.random.below(100),
                2 => usize::MAX - self.random.below(text.len() + 9),
                _ => usize::MAX,
            };
            self.decoded(text, wanted, replaced, room, past);
        }
    }

    /// Looks at a text that stands at any place in memory, between bytes that do not belong to it.
    fn look_amid(&mut self, text: &[u8]) {
        let before = self.random.below(33);
        let after = self.random.below(33);
        let mut held = Vec::with_capacity(before + text.len() + after);
        let fill = *self.random.one(&[0x00, 0x41, 0x80, 0xBF, 0xC3, 0xE2, 0xF0, 0xFF]);
        held.resize(before, fill);
        held.extend_from_slice(text);
        held.resize(before + text.len() + after, fill);
        self.look(&held[before..before + text.len()]);
    }

    /// Prints the counts.
    pub fn print(&self) {
        println!(
            "{:<30} {:>12} {:>12} {:>13} {:>14} {:>13}",
            "kind", "texts", "ill-formed", "replaced", "bytes", "calls"
        );
        let mut sum = Kind { name: "all".to_owned(), ..Kind::default() };
        for kind in &self.kinds {
            line(kind);
            sum.texts += kind.texts;
            sum.ill += kind.ill;
            sum.replaced += kind.replaced;
            sum.bytes += kind.bytes;
            sum.calls += kind.calls;
        }
        line(&sum);
        println!("{} differences", self.differences);
    }
}

fn line(k: &Kind) {
    println!("{:<30} {:>12} {:>12} {:>13} {:>14} {:>13}", k.name, k.texts, k.ill, k.replaced, k.bytes, k.calls);
}

/// A length from 0 to 200, the small ones and those around a multiple of 32 more often.
fn length(random: &mut Random) -> usize {
    match random.below(3) {
        0 => random.below(201),
        1 => random.below(40),
        _ => (32 * random.within(1, 6) + random.below(7)).saturating_sub(3),
    }
}

/// A run of ASCII or of characters of one length, of a number of bytes around a multiple of 32, or of 8.
fn push_run(random: &mut Random, text: &mut Vec<u8>) {
    let unit = *random.one(&[8, 32, 32, 64]);
    let bytes = (unit * random.within(1, 4) + random.below(7)).saturating_sub(3);
    let len = *random.one(&[1, 1, 1, 2, 3, 4]);
    let end = text.len() + bytes;
    while text.len() + len <= end {
        push(text, char_of_len(random, len));
    }
}

/// The kinds of longer text, each with its maker.
type Make = fn(&mut Random, &[Vec<u8>], usize) -> Vec<u8>;
const MAKERS: [(&str, Make); 11] = [
    ("random bytes", |random, _, n| (0..n).map(|_| random.byte()).collect()),
    ("bytes from 80 on", |random, _, n| (0..n).map(|_| 0x80 | random.byte()).collect()),
    ("ASCII", |random, _, n| (0..n).map(|_| random.byte() & 0x7F).collect()),
    ("characters of all lengths", |random, _, n| {
        let mut text = Vec::new();
        while text.len() < n {
            push_char(random, &mut text);
        }
        text
    }),
    ("the same, cut at a byte", |random, _, n| {
        let mut text = Vec::new();
        while text.len() < n {
            push_char(random, &mut text);
        }
        text.truncate(n);
        text
    }),
    ("the same, damaged", |random, _, n| {
        let mut text = Vec::new();
        while text.len() < n {
            push_char(random, &mut text);
        }
        for _ in 0..random.within(1, 4) {
            damage(random, &mut text);
        }
        text
    }),
    ("words, damaged", |random, _, n| {
        let mut text = Vec::new();
        while text.len() < n {
            text.extend_from_slice(random.one(&WORDS).as_bytes());
            text.push(b' ');
        }
        for _ in 0..random.below(3) {
            damage(random, &mut text);
        }
        text
    }),
    ("edges of Table 3-7", |random, pieces, n| {
        let mut text = Vec::new();
        while text.len() < n {
            text.extend_from_slice(random.one(pieces).as_slice());
        }
        text
    }),
    ("U+FFFD among edges", |random, pieces, n| {
        let mut text = Vec::new();
        while text.len() < n {
            match random.below(3) {
                0 => push(&mut text, '\u{FFFD}'),
                1 => text.extend_from_slice(random.one(pieces).as_slice()),
                _ => text.push(0x20 + random.byte() % 0x5F),
            }
        }
        text
    }),
    ("ASCII with one edge", |random, pieces, n| {
        let mut text: Vec<u8> = (0..n).map(|_| 0x20 + random.byte() % 0x5F).collect();
        let at = random.below(n + 1);
        text.splice(at..at, random.one(pieces).iter().copied());
        text
    }),
    ("runs around 32 bytes", |random, pieces, _| {
        let mut text = Vec::new();
        for _ in 0..random.within(1, 3) {
            push_run(random, &mut text);
            if random.below(2) == 0 {
                text.extend_from_slice(random.one(pieces).as_slice());
            } else {
                push_char(random, &mut text);
            }
        }
        if random.below(2) == 0 {
            damage(random, &mut text);
        }
        text
    }),
];
