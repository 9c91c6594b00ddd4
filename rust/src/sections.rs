//! Sections to read: what one holds (`Shape`), where its parts lie (`placed`), and the kinds of section that are looked
//! at, from those of the writer to noise. The same seed gives the same sections.
use crate::chars::{WORDS, boundary_pieces, char_of_len, damage, push, push_char};
use crate::layout::{FLEU, Rules, TARGET_NUMBERS, walk};
use crate::random::Random;
use crate::record::{LIMIT, PAI1};

/// What a section holds, with the bytes that no reader looks at.
#[derive(Clone, Default)]
pub struct Shape {
    pub frame_count: u16,
    pub looping: u8,
    pub reserve: u8,
    pub textures: Vec<Vec<u8>>,
    pub contents: Vec<Content>,
}

#[derive(Clone)]
pub struct Content {
    pub name: [u8; 28],
    pub sort: u8,
    pub reserve: u16,
    pub infos: Vec<Info>,
}

#[derive(Clone)]
pub struct Info {
    pub letters: u32,
    pub reserves: [u8; 3],
    pub of: Of,
}

#[derive(Clone)]
pub enum Of {
    Targets(Vec<Target>),
    Data(Vec<Datum>),
}

#[derive(Clone, Default)]
pub struct Target {
    pub layer: u8,
    pub target: u8,
    pub curve: u8,
    pub reserve: u8,
    pub key_count: u16,
    pub reserve2: u16,
    pub keys: Vec<u8>,
}

#[derive(Clone, Default)]
pub struct Datum {
    pub header_size: u32,
    pub a: u16,
    pub b: u16,
    pub base_count: u32,
    pub c: u32,
    /// The three lists, one after another.
    pub values: Vec<u32>,
    pub key: Vec<u8>,
}

/// A section's bytes, and the places in them that lead a reader.
pub struct Section {
    pub bytes: Vec<u8>,
    /// Where an offset of four bytes stands.
    pub offsets: Vec<usize>,
    /// Where a count stands, and of how many bytes.
    pub counts: Vec<(usize, usize)>,
}

/// A content's field of 28 bytes for a name, which is cut there.
pub fn field(name: &[u8]) -> [u8; 28] {
    let mut field = [0; 28];
    let len = name.len().min(28);
    field[..len].copy_from_slice(&name[..len]);
    field
}

/// How parts are placed.
#[derive(Clone, Copy, PartialEq, Eq)]
pub enum Placing {
    /// As the writer places them, with its size, padding and total sizes.
    Written,
    /// In the writer's order, with bytes between and behind.
    Gaps,
    /// In any order that the offsets allow, at any places.
    Scattered,
    /// The same, where offsets also lead to another part, or into the middle of one.
    Shared,
}

/// What an offset leads to.
#[derive(Clone, Copy, PartialEq, Eq)]
enum To {
    Root,
    Text,
    ContentTable,
    Content,
    InfoTable,
    Info,
    Target,
    /// Keys of so many bytes.
    Keys(usize),
    /// A key text with what follows it, and whether anything does.
    KeyText {
        last: bool,
    },
}

/// Bytes that lie together, somewhere behind the part that their offset counts from.
struct Part {
    bytes: Vec<u8>,
    to: To,
    under: usize,
}

/// An offset: it stands in a part, counts from a place in a part, and leads to a part.
struct Link {
    part: usize,
    at: usize,
    from: (usize, usize),
    to: usize,
}

#[derive(Default)]
struct Parts {
    parts: Vec<Part>,
    links: Vec<Link>,
    counts: Vec<(usize, usize, usize)>,
    /// User contents: the part, the last part that belongs to it, and what its total size leaves out.
    users: Vec<(usize, usize, usize)>,
}

impl Parts {
    fn part(&mut self, bytes: Vec<u8>, to: To, under: usize) -> usize {
        self.parts.push(Part { bytes, to, under });
        self.parts.len() - 1
    }

    fn link(&mut self, part: usize, at: usize, from: (usize, usize), to: usize) {
        self.links.push(Link { part, at, from, to });
    }

    /// The parts of a shape in the writer's order.
    fn of(shape: &Shape) -> Parts {
        let mut all = Parts::default();
        let mut root = PAI1.to_le_bytes().to_vec();
        root.extend([0; 4]);
        root.extend(shape.frame_count.to_le_bytes());
        root.extend([shape.looping, shape.reserve]);
        root.extend((shape.textures.len() as u16).to_le_bytes());
        root.extend((shape.contents.len() as u16).to_le_bytes());
        root.resize(20 + 4 * shape.textures.len(), 0);
        let root = all.part(root, To::Root, 0);
        all.counts.extend([(root, 12, 2), (root, 14, 2)]);
        for (i, texture) in shape.textures.iter().enumerate() {
            let text = all.part([texture, &[0][..]].concat(), To::Text, root);
            all.link(root, 20 + 4 * i, (root, 20), text);
        }
        let table = all.part(vec![0; 4 * shape.contents.len()], To::ContentTable, root);
        all.link(root, 16, (root, 0), table);
        for (i, content) in shape.contents.iter().enumerate() {
            let part = all.content(content, root);
            all.link(table, 4 * i, (root, 0), part);
        }
        all
    }

    fn content(&mut self, content: &Content, root: usize) -> usize {
        let mut head = content.name.to_vec();
        head.extend([content.infos.len() as u8, content.sort]);
        head.extend(content.reserve.to_le_bytes());
        let user = content.sort == 2;
        let own = 4 * content.infos.len();
        head.resize(32 + if user { 8 } else { own }, 0);
        let part = self.part(head, To::Content, root);
        self.counts.push((part, 28, 1));
        let (table, first) = if user {
            let table = self.part(vec![0; own], To::InfoTable, part);
            self.link(part, 32, (part, 0), table);
            (table, 0)
        } else {
            (part, 32)
        };
        let mut left_out = 0;
        for (i, info) in content.infos.iter().enumerate() {
            let to = self.info(info, part);
            self.link(table, first + 4 * i, (part, 0), to);
            if let Of::Data(data) = &info.of {
                left_out += data.iter().map(|datum| 5 + datum.key.len()).sum::<usize>();
            }
        }
        if user {
            self.users.push((part, self.parts.len() - 1, left_out));
        }
        part
    }

    fn info(&mut self, info: &Info, content: usize) -> usize {
        let mut head = info.letters.to_le_bytes().to_vec();
        let count = match &info.of {
            Of::Targets(targets) => targets.len(),
            Of::Data(data) => data.len(),
        };
        head.push(count as u8);
        head.extend(info.reserves);
        match &info.of {
            Of::Targets(targets) => {
                head.resize(8 + 4 * count, 0);
                let part = self.part(head, To::Info, content);
                self.counts.push((part, 4, 1));
                for (i, target) in targets.iter().enumerate() {
                    let to = self.target(target, part);
                    self.link(part, 8 + 4 * i, (part, 0), to);
                }
                part
            }
            Of::Data(data) => {
                let info = self.part(head, To::Info, content);
                self.counts.push((info, 4, 1));
                let mut part = info;
                for (i, datum) in data.iter().enumerate() {
                    part = self.datum(datum, part, i + 1 == data.len());
                }
                info
            }
        }
    }

    fn target(&mut self, target: &Target, info: usize) -> usize {
        let mut bytes = vec![target.layer, target.target, target.curve, target.reserve];
        bytes.extend(target.key_count.to_le_bytes());
        bytes.extend(target.reserve2.to_le_bytes());
        bytes.extend([0; 4]);
        let part = self.part(bytes, To::Target, info);
        self.counts.push((part, 4, 2));
        let keys = self.part(target.keys.clone(), To::Keys(target.keys.len()), part);
        self.link(part, 8, (part, 0), keys);
        part
    }

    /// Adds a datum at the end of a part, and returns the part that its key text begins.
    fn datum(&mut self, datum: &Datum, part: usize, last: bool) -> usize {
        let bytes = &mut self.parts[part].bytes;
        let start = bytes.len();
        bytes.extend(datum.header_size.to_le_bytes());
        bytes.extend(datum.a.to_le_bytes());
        bytes.extend(datum.b.to_le_bytes());
        bytes.extend(datum.base_count.to_le_bytes());
        bytes.extend(datum.c.to_le_bytes());
        bytes.extend(datum.values.iter().flat_map(|value| value.to_le_bytes()));
        let at = bytes.len();
        bytes.extend([0; 4]);
        self.counts.push((part, start + 8, 4));
        let text = self.part([&datum.key, &[0][..]].concat(), To::KeyText { last }, part);
        self.link(part, at, (part, at), text);
        text
    }

    /// The order in which the parts are placed: any part after the one that its offset counts from.
    fn order(&self, placing: Placing, random: &mut Random) -> Vec<usize> {
        if matches!(placing, Placing::Written | Placing::Gaps) {
            return (0..self.parts.len()).collect();
        }
        let mut order = Vec::new();
        let mut ready = vec![0];
        while !ready.is_empty() {
            let next = ready.swap_remove(random.below(ready.len()));
            order.push(next);
            ready.extend((1..self.parts.len()).filter(|&i| self.parts[i].under == next));
        }
        order
    }
}

/// Appends bytes that belong to no part.
fn push_gap(random: &mut Random, bytes: &mut Vec<u8>) {
    let fill = *random.one(&[0x00, 0x00, 0xFF, 0x41]);
    for _ in 0..random.below(6) {
        let byte = if fill == 0xFF { random.byte() } else { fill };
        bytes.push(byte);
    }
}

fn put(bytes: &mut [u8], at: usize, number: usize) {
    bytes[at..at + 4].copy_from_slice(&(number as u32).to_le_bytes());
}

fn align4(bytes: &mut Vec<u8>) {
    bytes.resize(bytes.len().next_multiple_of(4), 0);
}

/// The section of a shape.
pub fn placed(shape: &Shape, placing: Placing, random: &mut Random) -> Section {
    let all = Parts::of(shape);
    let mut bytes = Vec::new();
    let mut starts = vec![0; all.parts.len()];
    let mut ends = vec![0; all.parts.len()];
    for part in all.order(placing, random) {
        let Part { bytes: own, to, .. } = &all.parts[part];
        if placing == Placing::Written {
            if matches!(to, To::ContentTable | To::Content) {
                align4(&mut bytes);
            }
        } else if *to != To::Root && random.below(2) == 0 {
            push_gap(random, &mut bytes);
        }
        starts[part] = bytes.len();
        bytes.extend_from_slice(own);
        ends[part] = bytes.len();
    }
    if placing == Placing::Written {
        align4(&mut bytes);
    } else {
        push_gap(random, &mut bytes);
    }
    let mut offsets = vec![4];
    for link in &all.links {
        let at = starts[link.part] + link.at;
        let from = starts[link.from.0] + link.from.1;
        let mut to = starts[link.to];
        if placing == Placing::Shared && random.below(3) == 0 {
            to = another(&all, &starts, &bytes, all.parts[link.to].to, from, random).unwrap_or(to);
        }
        put(&mut bytes, at, to - from);
        offsets.push(at);
    }
    for &(content, last, left_out) in &all.users {
        let total = match placing {
            Placing::Written => ends[last] - starts[content] - left_out,
            _ => random.next() as usize,
        };
        put(&mut bytes, starts[content] + 36, total);
    }
    let size = match random.below(8) {
        _ if placing == Placing::Written => bytes.len(),
        0 => 0,
        1 => random.below(bytes.len() + 1),
        _ => bytes.len(),
    };
    put(&mut bytes, 4, size);
    let counts = all.counts.iter().map(|&(part, at, width)| (starts[part] + at, width)).collect();
    Section { bytes, offsets, counts }
}

/// Another place that an offset may lead to, not before `from`.
fn another(all: &Parts, starts: &[usize], bytes: &[u8], to: To, from: usize, random: &mut Random) -> Option<usize> {
    let within = |last: Option<usize>, random: &mut Random| {
        last.filter(|&last| last >= from)
            .map(|last| if random.below(4) == 0 { from } else { random.within(from, last) })
    };
    match to {
        To::Text | To::KeyText { last: true } => within(bytes.iter().rposition(|&b| b == 0), random),
        To::Keys(len) => within(bytes.len().checked_sub(len), random),
        To::Target if random.below(3) == 0 => Some(from),
        To::Content | To::Info | To::Target => {
            let same = |i: &usize| all.parts[*i].to == to && starts[*i] >= from;
            let others: Vec<usize> = (0..all.parts.len()).filter(same).collect();
            Some(starts[*random.one(&others)])
        }
        To::Root | To::ContentTable | To::InfoTable | To::KeyText { last: false } => None,
    }
}

/// How a shape is made.
#[derive(Clone, Copy)]
pub struct Style {
    /// Only what the writer writes: reserves zero, listed letters, well-formed texts and so on.
    pub kept: bool,
    /// How many of eight infos are extended data.
    pub extended: usize,
    /// The most parts of a kind.
    pub most: usize,
    /// The most keys of a curve and values of a list.
    pub most_keys: usize,
}

pub struct Maker {
    pub random: Random,
    /// Sequences at the edges of Table 3-7.
    pub pieces: Vec<Vec<u8>>,
}

impl Maker {
    pub fn new(seed: u64) -> Maker {
        Maker { random: Random(seed), pieces: boundary_pieces() }
    }

    /// A number up to `most`, the small ones somewhat likelier.
    pub fn few(&mut self, most: usize) -> usize {
        let most = if self.random.below(4) == 0 { self.random.below(most + 1) } else { most };
        self.random.below(most + 1)
    }

    /// A number of two bytes, those at the edges likelier.
    pub fn half(&mut self) -> u16 {
        match self.random.below(4) {
            0 => 0,
            1 => self.random.below(300) as u16,
            2 => *self.random.one(&[1, 0x7FFF, 0x8000, 0xFFFF]),
            _ => self.random.next() as u16,
        }
    }

    fn reserve(&mut self, style: Style) -> u8 {
        if style.kept || self.random.below(3) == 0 { 0 } else { self.random.byte() }
    }

    /// A float's pattern: numbers, and NaNs of both kinds with any payload.
    pub fn pattern(&mut self) -> u32 {
        let sign = (self.random.next() as u32) & 0x8000_0000;
        let payload = self.random.within(1, 0x7F_FFFF) as u32;
        match self.random.below(8) {
            0 => sign,
            1 => (self.random.below(1000) as f32).to_bits() | sign,
            2 => sign | 0x7F80_0000,
            3 => sign | 0x7F80_0000 | payload & 0x3F_FFFF | 1,
            4 => sign | 0x7FC0_0000 | payload,
            5 => *self.random.one(&[0x7F80_0001, 0x7FBF_FFFF, 0x7FC0_0000, 0xFFC0_0000, 0xFFFF_FFFF, 0xFF80_0001]),
            6 => sign | payload,
            _ => self.random.next() as u32,
        }
    }

    /// A text without a zero.
    fn text(&mut self, kept: bool, most: usize) -> Vec<u8> {
        let n = self.few(most);
        let mut text = Vec::new();
        let sort = self.random.below(if kept { 4 } else { 8 });
        while text.len() < n {
            match sort {
                0 | 1 => text.push(b'!' + self.random.byte() % 94),
                2 => text.extend_from_slice(self.random.one(&WORDS).as_bytes()),
                3 => push_char(&mut self.random, &mut text),
                4 => text.push(self.random.byte() | 0x80),
                5 => text.extend_from_slice(self.random.one(&self.pieces).as_slice()),
                6 => text.push(self.random.byte()),
                _ => {
                    push_char(&mut self.random, &mut text);
                    if self.random.below(4) == 0 {
                        damage(&mut self.random, &mut text);
                    }
                }
            }
        }
        text.retain(|&b| b != 0);
        if !kept && self.random.below(6) == 0 {
            text.truncate(n);
        }
        text
    }

    fn name(&mut self, style: Style) -> [u8; 28] {
        if style.kept {
            let mut text = String::from_utf8(self.text(true, 28)).unwrap();
            while text.len() > 28 {
                text.pop();
            }
            return field(text.as_bytes());
        }
        let sort = self.random.below(4);
        let mut name = field(&self.text(false, if sort == 0 { 56 } else { 28 }));
        if sort == 1 {
            // bytes behind the zero, which no reader takes
            let zero = name.iter().position(|&b| b == 0).unwrap_or(28);
            for byte in name.iter_mut().skip(zero + 1) {
                *byte = self.random.byte();
            }
        } else if sort == 2 {
            // no zero
            for byte in &mut name {
                if *byte == 0 {
                    *byte = *self.random.one(&[b'x', 0xC3, 0x80, 0xF0, 0xFF]);
                }
            }
        }
        name
    }

    fn letters(&mut self, style: Style) -> u32 {
        let listed = u32::from_le_bytes(*self.random.one(&TARGET_NUMBERS).0);
        match self.random.below(10) {
            0 => 0,
            1 if !style.kept => self.random.next() as u32,
            2 if !style.kept => listed ^ 1 << self.random.below(32),
            3 if !style.kept => listed.swap_bytes(),
            _ => listed,
        }
    }

    fn target(&mut self, letters: u32, style: Style) -> Target {
        let numbers = TARGET_NUMBERS.iter().find(|(code, _)| u32::from_le_bytes(**code) == letters);
        let target = match (numbers, self.random.below(4)) {
            (Some(&(_, numbers)), 0) => numbers - 1,
            (Some(&(_, numbers)), 1) if !style.kept => numbers,
            (None, _) if style.kept => 255,
            (Some(&(_, numbers)), _) if style.kept => self.random.below(numbers as usize) as u8,
            (Some(&(_, numbers)), 2) => self.random.below(numbers as usize) as u8,
            _ => self.random.byte(),
        };
        let curve = match self.random.below(5) {
            3 if !style.kept => 3,
            4 if !style.kept => self.random.byte(),
            n => n as u8 % 3,
        };
        let key_count = if curve > 2 { self.half() } else { self.few(style.most_keys) as u16 };
        let mut keys = Vec::new();
        for _ in 0..if curve > 2 { 0 } else { key_count } {
            keys.extend(self.pattern().to_le_bytes());
            match curve {
                0 => {}
                1 => {
                    keys.extend(self.half().to_le_bytes());
                    keys.extend([self.reserve(style), self.reserve(style)]);
                }
                _ => {
                    keys.extend(self.pattern().to_le_bytes());
                    keys.extend(self.pattern().to_le_bytes());
                }
            }
        }
        let layer = self.half() as u8;
        let reserve2 = u16::from_le_bytes([self.reserve(style), self.reserve(style)]);
        Target { layer, target, curve, reserve: self.reserve(style), key_count, reserve2, keys }
    }

    fn datum(&mut self, style: Style) -> Datum {
        let base_count = self.few(style.most_keys);
        Datum {
            header_size: self.random.next() as u32,
            a: self.half(),
            b: self.half(),
            base_count: base_count as u32,
            c: self.pattern(),
            values: (0..3 * base_count).map(|_| self.pattern()).collect(),
            key: self.text(style.kept, 12),
        }
    }

    fn info(&mut self, style: Style) -> Info {
        let reserves = [self.reserve(style), self.reserve(style), self.reserve(style)];
        let count = self.few(style.most);
        if self.random.below(8) < style.extended {
            let data = (0..count).map(|_| self.datum(style)).collect();
            return Info { letters: FLEU, reserves, of: Of::Data(data) };
        }
        let letters = self.letters(style);
        let targets = (0..count).map(|_| self.target(letters, style)).collect();
        Info { letters, reserves, of: Of::Targets(targets) }
    }

    pub fn shape(&mut self, style: Style) -> Shape {
        let textures = (0..self.few(style.most)).map(|_| self.text(style.kept, 20)).collect();
        let mut contents = Vec::new();
        for _ in 0..self.few(style.most) {
            let sort = match self.random.below(6) {
                5 if !style.kept => self.random.byte(),
                5 => 2,
                n => n as u8,
            };
            let reserve = u16::from_le_bytes([self.reserve(style), self.reserve(style)]);
            let infos = (0..self.few(style.most)).map(|_| self.info(style)).collect();
            contents.push(Content { name: self.name(style), sort, reserve, infos });
        }
        let looping = match self.random.below(4) {
            3 if !style.kept => self.random.byte(),
            n => n as u8 & 1,
        };
        Shape { frame_count: self.half(), looping, reserve: self.reserve(style), textures, contents }
    }

    pub fn section(&mut self, style: Style, placing: Placing) -> Section {
        let shape = self.shape(style);
        placed(&shape, placing, &mut self.random)
    }
}

const SMALL: Style = Style { kept: false, extended: 2, most: 4, most_keys: 4 };
/// The kinds of readable section: nearly all of them are read.
pub const READABLE: [(&str, Style, Placing); 6] = [
    ("as the writer writes", Style { kept: true, ..SMALL }, Placing::Written),
    ("in order, with gaps", SMALL, Placing::Gaps),
    ("scattered", SMALL, Placing::Scattered),
    ("shared and overlapping", SMALL, Placing::Shared),
    ("extended data", Style { extended: 7, ..SMALL }, Placing::Shared),
    ("more parts and keys", Style { most: 8, most_keys: 40, ..SMALL }, Placing::Scattered),
];

/// Sections of at most so many bytes are cut and changed at every place.
const CHANGED: usize = 320;

/// The letters of a section and `count` bytes behind them.
fn noise(maker: &mut Maker, count: usize) -> Vec<u8> {
    let random = &mut maker.random;
    let mut bytes = b"pai1".to_vec();
    let sort = random.below(4);
    while bytes.len() < 4 + count {
        match sort {
            0 => bytes.push(random.byte()),
            // mostly zeros
            1 => bytes.push(if random.below(4) == 0 { random.byte() } else { 0 }),
            // words below the length, so that many offsets lead somewhere
            2 => bytes.extend((random.below(count + 4) as u32).to_le_bytes()),
            _ => bytes.push(random.below(6) as u8),
        }
    }
    bytes.truncate(4 + count);
    bytes
}

/// Noise that gets further: a header with few parts, and words that are letters, small numbers or offsets.
fn guided_noise(maker: &mut Maker, count: usize) -> Vec<u8> {
    let mut bytes = vec![0; 20];
    put(&mut bytes, 0, PAI1 as usize);
    bytes[8..12].copy_from_slice(&(maker.random.next() as u32).to_le_bytes());
    bytes[12] = maker.random.below(3) as u8;
    bytes[14] = maker.random.below(4) as u8;
    while bytes.len() < 20 + count {
        let word = match maker.random.below(8) {
            0 => u32::from_le_bytes(*maker.random.one(&TARGET_NUMBERS).0),
            1 => FLEU,
            2 => maker.random.below(3) as u32,
            3 => (maker.random.below(3) << 16 | maker.random.below(256)) as u32,
            4 => maker.pattern(),
            5 => 0,
            _ => maker.random.below(count + 20) as u32,
        };
        bytes.extend(word.to_le_bytes());
    }
    bytes.truncate(20 + count);
    let table = maker.random.below(bytes.len());
    put(&mut bytes, 16, table);
    let size = maker.random.below(bytes.len() + 1);
    put(&mut bytes, 4, size);
    bytes
}

/// A word that an offset or a count may be changed to.
fn changed_word(maker: &mut Maker, word: usize, len: usize) -> usize {
    match maker.random.below(10) {
        0 => 0,
        1 => len,
        2 => word.wrapping_add(1),
        3 => word.wrapping_sub(1),
        4 => (len + 24).wrapping_sub(maker.random.below(48)),
        5 => *maker.random.one(&[u32::MAX as usize, 0x8000_0000, 0x7FFF_FFFF, 0xFFFF, 0x1_0000, 0xFFFF_FFE8]),
        6 => maker.random.next() as usize,
        _ => maker.random.below(len + 1),
    }
}

/// Is handed each section, with the name of its kind.
pub type See<'a> = &'a mut dyn FnMut(&str, &[u8]);

/// Every section that is cut or changed in one place from this one.
fn changes(maker: &mut Maker, section: &Section, see: See) {
    let bytes = &section.bytes;
    let mut copy = bytes.clone();
    for len in 0..bytes.len() {
        see("cut at every length", &bytes[..len]);
        if len >= 8 {
            put(&mut copy, 4, maker.random.below(len + 1));
            see("the same, size within", &copy[..len]);
        }
    }
    copy.copy_from_slice(bytes);
    for i in 0..bytes.len() {
        let byte = bytes[i];
        let near = if maker.random.below(2) == 0 { byte.wrapping_add(1) } else { byte.wrapping_sub(1) };
        let edge = *maker.random.one(&[0x00, 0x7F, 0x80, 0xFF]);
        for changed in [near, edge, byte ^ 1 << maker.random.below(8), maker.random.byte()] {
            if changed != byte {
                copy[i] = changed;
                see("a byte changed, at every place", &copy);
            }
        }
        copy[i] = byte;
    }
    for &at in &section.offsets {
        let word = u32::from_le_bytes(bytes[at..at + 4].try_into().unwrap()) as usize;
        for _ in 0..8 {
            put(&mut copy, at, changed_word(maker, word, bytes.len()));
            see("an offset changed", &copy);
        }
        put(&mut copy, at, word);
    }
    for &(at, width) in &section.counts {
        let old = bytes[at..at + width].to_vec();
        let word = old.iter().rev().fold(0, |n, &b| n << 8 | b as usize);
        for _ in 0..6 {
            let count = changed_word(maker, word, bytes.len()).to_le_bytes();
            copy[at..at + width].copy_from_slice(&count[..width]);
            see("a count changed", &copy);
        }
        copy[at..at + width].copy_from_slice(&old);
    }
    for _ in 0..40 {
        let cut = if maker.random.below(3) == 0 { maker.random.below(bytes.len() + 1) } else { bytes.len() };
        let mut copy = bytes[..cut].to_vec();
        for _ in 0..maker.random.within(1, 4) {
            if maker.random.below(2) == 0 {
                damage(&mut maker.random, &mut copy);
            } else {
                let at = *maker.random.one(&section.offsets);
                if at + 4 <= copy.len() {
                    let word = u32::from_le_bytes(copy[at..at + 4].try_into().unwrap()) as usize;
                    put(&mut copy, at, changed_word(maker, word, cut));
                }
            }
        }
        see("several changes", &copy);
    }
}

/// A section with other bytes where its texts lie: characters, U+FFFD among them, and pieces that are ill-formed.
fn respelled(maker: &mut Maker, mut section: Vec<u8>) -> Vec<u8> {
    let Some(walked) = walk(&section, &Rules::DOCUMENT, 100_000) else { return section };
    for place in walked.places {
        let mut text = Vec::new();
        while text.len() < place.len {
            match maker.random.below(4) {
                0 => push(&mut text, '\u{FFFD}'),
                1 => text.extend_from_slice(maker.random.one(&maker.pieces).as_slice()),
                2 => push_char(&mut maker.random, &mut text),
                _ => text.push(b'a'),
            }
            text.retain(|&byte| byte != 0);
        }
        section[place.start..place.start + place.len].copy_from_slice(&text[..place.len]);
    }
    section
}

/// At least `count` sections of the kinds that are made at random.
pub fn random_sections(maker: &mut Maker, count: u64, see: See) {
    let mut made = 0;
    let mut see = |kind: &str, section: &[u8]| {
        made += 1;
        see(kind, section);
        made
    };
    loop {
        for (kind, style, placing) in READABLE {
            for _ in 0..200 {
                see(kind, &maker.section(style, placing).bytes);
            }
            let small = loop {
                let section = maker.section(style, placing);
                if section.bytes.len() <= CHANGED {
                    break section;
                }
            };
            changes(maker, &small, &mut |kind, section| {
                see(kind, section);
            });
        }
        for (_, style, placing) in READABLE {
            for _ in 0..100 {
                let section = maker.section(style, placing).bytes;
                see("other texts", &respelled(maker, section));
            }
        }
        for _ in 0..800 {
            let count = maker.few(200);
            see("noise behind the letters", &noise(maker, count));
            let count = maker.few(300);
            see("guided noise", &guided_noise(maker, count));
        }
        let mut other = noise(maker, 40);
        for i in 0..=other.len() {
            // all lengths with letters that are not those of a section, near them or far
            let letters =
                *maker.random.one(&[*b"pai2", *b"qai1", *b"pat1", *b"usd1", *b"PAI1", *b"1iap", *b"\0\0\0\0"]);
            other[..4].copy_from_slice(&letters);
            if maker.random.below(2) == 0 {
                other[maker.random.below(4)] = maker.random.byte();
            }
            if see("other letters", &other[..i]) >= count && i == other.len() {
                return;
            }
        }
    }
}

fn one_content(sort: u8, infos: Vec<Info>) -> Shape {
    let content = Content { name: field(b"P"), sort, reserve: 0, infos };
    Shape { frame_count: 60, contents: vec![content], ..Shape::default() }
}

fn one_info(letters: u32, targets: Vec<Target>) -> Shape {
    one_content(0, vec![Info { letters, reserves: [0; 3], of: Of::Targets(targets) }])
}

fn one_datum(datum: Datum) -> Shape {
    one_content(2, vec![Info { letters: FLEU, reserves: [0; 3], of: Of::Data(vec![datum]) }])
}

fn written(shape: &Shape) -> Vec<u8> {
    placed(shape, Placing::Written, &mut Random(0)).bytes
}

/// A content `P` with one target under these letters.
pub fn one_target(letters: [u8; 4], target: Target) -> Vec<u8> {
    written(&one_info(u32::from_le_bytes(letters), vec![target]))
}

/// Content `P` of document 01's exercises: Pane, FLVI, Step key (0.0, 1).
pub fn content_p() -> Vec<u8> {
    let target = Target { curve: 1, key_count: 1, keys: vec![0, 0, 0, 0, 1, 0, 0, 0], ..Target::default() };
    one_target(*b"FLVI", target)
}

/// The datum of document 01's exercises: base count 1, key `k`.
pub fn datum_k() -> Datum {
    Datum { base_count: 1, values: vec![0; 3], key: b"k".to_vec(), ..Datum::default() }
}

/// Two texture names, the first of every length up to 40: as they are written, with the second one's offset beside its place,
/// and with a byte of the first that ends it or is not ASCII.
fn two_names(see: See) {
    let kind = "names of every length";
    for len in 0..=40 {
        let name = (0..len).map(|i| b'a' + i as u8 % 26).collect();
        let section = written(&Shape { textures: vec![name, b"last".to_vec()], ..Shape::default() });
        see(kind, &section);
        for offset in [0, 9 + len - 1, 9 + len + 1, 9 + len + 8] {
            let mut section = section.clone();
            put(&mut section, 24, offset);
            see(kind, &section);
        }
        for place in (0..len).step_by(7).chain(len.checked_sub(1)) {
            for byte in [0, 0x80, 0xC3] {
                let mut section = section.clone();
                section[28 + place] = byte;
                see(kind, &section);
            }
        }
    }
}

/// The kind of `replaced_characters`.
pub const REPLACED: &str = "replaced characters";

/// Texts in which characters are replaced, and such with a U+FFFD, which is not.
const ILL_FORMED: [&[u8]; 14] = [
    b"\x80",
    b"\xE2\x82",
    b"\xC0\x80",
    b"\xED\xA0\x80",
    b"\xF0\x90\x80",
    b"\xF4\x8F\xBF",
    b"\xEF\xBF",
    b"\xEF\xBF\xBD",
    b"\xEF\xBF\xBDa\xEF\xBF\xBD",
    b"\x80\xEF\xBF\xBD\x80",
    b"\xEF\xBF\xBD\xEF\xBF",
    b"a\xE2\x82b\xFFc\xF0\x9F\x8E",
    // in Latin-1 and in Shift-JIS
    b"Gr\xF6\xDFe",
    b"\x89\xE6\x96\xCA",
];

/// Textures, names and keys of extended data that are ill-formed: each of them alone, several together, and texts that more
/// than one offset leads to.
fn replaced_characters(see: See) {
    let named = |name: &[u8]| {
        let mut shape = one_content(0, vec![]);
        shape.contents[0].name = field(name);
        shape
    };
    let keyed = |key: &[u8]| one_datum(Datum { key: key.to_vec(), ..datum_k() });
    for text in ILL_FORMED {
        see(REPLACED, &written(&Shape { textures: vec![text.to_vec()], ..Shape::default() }));
        see(REPLACED, &written(&named(text)));
        see(REPLACED, &written(&keyed(text)));
    }
    let mut section = content_p();
    section[24] = 0x80;
    see(REPLACED, &section);
    // a name that is cut inside a character, one of 28 subparts, and what lies behind a name's zero
    for end in [&b"\xC3\xA9"[..], b"\xC3", b"\xE2\x82", b"\xF0\x9F\x8E", b"\xEF\xBF\xBD", b"\xEF\xBF"] {
        let mut name = [b'a'; 28];
        name[28 - end.len()..].copy_from_slice(end);
        see(REPLACED, &written(&named(&name)));
    }
    see(REPLACED, &written(&named(&[0x80; 28])));
    see(REPLACED, &written(&named(b"a\0\x80\xFF")));
    see(REPLACED, &written(&named(b"\x80\0\x80\xFF")));
    // the sum over all sorts of texts, the last of them well-formed and not
    for last in [&b"k"[..], b"\xEF\xBF\xBD", b"\xED\xA0\x80"] {
        let mut shape = keyed(last);
        shape.textures = vec![b"\x80".to_vec(), b"a".to_vec(), b"\xC0\x80".to_vec()];
        shape.contents[0].name = field(b"\xE2\x82P\xFF\xFF");
        see(REPLACED, &written(&shape));
        let content = shape.contents[0].clone();
        shape.contents.insert(0, content);
        see(REPLACED, &written(&shape));
    }
    for text in [&b"\xC0\x80"[..], "\u{E9}t\u{E9}".as_bytes(), b"\xF0\x9F\x8E"] {
        // two textures that are one, and the second from the middle of the first on
        let section = written(&Shape { textures: vec![text.to_vec(), b"b".to_vec()], ..Shape::default() });
        for offset in 8..8 + text.len() {
            let mut section = section.clone();
            put(&mut section, 24, offset);
            see(REPLACED, &section);
        }
        // two contents that are one
        let mut shape = named(text);
        shape.contents.push(shape.contents[0].clone());
        let mut section = written(&shape);
        section.copy_within(20..24, 24);
        see(REPLACED, &section);
        // a texture that is a content's name, and one that is a key
        for mut shape in [named(text), keyed(text)] {
            shape.textures = vec![b"b".to_vec()];
            let mut section = written(&shape);
            let at = section.windows(text.len()).position(|part| part == text).unwrap();
            put(&mut section, 20, at - 20);
            see(REPLACED, &section);
        }
    }
}

/// Sections that are the same for every seed.
pub fn fixed_sections(see: See) {
    two_names(see);
    replaced_characters(see);
    let kind = "document 01's exercises";
    see(kind, &[]);
    see(kind, b"pai1\x14\0");
    see(kind, &written(&Shape { frame_count: 60, looping: 1, ..Shape::default() }));
    see(kind, &written(&Shape { textures: vec![b"a".to_vec()], ..Shape::default() }));
    for text in [&b"\xE2\x82"[..], b"\xC0\x80", b"\xED\xA0\x80"] {
        see(kind, &written(&Shape { textures: vec![text.to_vec()], ..Shape::default() }));
    }
    see(kind, &content_p());
    see(kind, &written(&one_datum(datum_k())));
    let curve3 = Target { curve: 3, key_count: 9, ..Target::default() };
    see(kind, &one_target(*b"FLPA", curve3));
    see(kind, &written(&one_content(4, vec![])));
    see(kind, &written(&one_content(5, vec![])));
    // the last Step key without its two skipped bytes, and a further key behind it
    for (key_count, cut) in [(1, 90), (2, 90), (2, 91), (2, 92)] {
        let mut section = content_p();
        section.truncate(cut);
        put(&mut section, 4, cut);
        section[76] = key_count;
        see(kind, &section);
    }

    let mut codes: Vec<u32> = TARGET_NUMBERS.iter().map(|(code, _)| u32::from_le_bytes(**code)).collect();
    codes.extend([0, u32::from_le_bytes(*b"XXXX"), u32::from_le_bytes(*b"flvi"), u32::MAX]);
    for letters in codes {
        let numbers = TARGET_NUMBERS.iter().find(|(code, _)| u32::from_le_bytes(**code) == letters).map_or(1, |n| n.1);
        let targets = [0, numbers - 1, numbers, 255].map(|target| Target { target, ..Target::default() });
        see("targets around their number", &written(&one_info(letters, targets.to_vec())));
        // an info has at most 255 targets
        for numbers in [0..=127, 128..=255] {
            let targets = numbers.map(|target| Target { target, ..Target::default() }).collect();
            see("every target number", &written(&one_info(letters, targets)));
        }
    }
    for byte in 0..=255 {
        see("every content type", &written(&one_content(byte, vec![])));
        let mut section = written(&one_content(2, vec![]));
        section[24 + 29] = byte;
        see("every content type", &section);
        let keys = vec![0x55; 36];
        let target = Target { curve: byte, key_count: 3, keys, ..Target::default() };
        see("every curve", &one_target(*b"FLPA", target));
        see("every looping", &written(&Shape { looping: byte, reserve: !byte, ..Shape::default() }));
        // a letter of the section's, and one of an info's
        for i in 0..4 {
            let mut section = content_p();
            section[i] = byte;
            see("every letter", &section);
            let mut section = content_p();
            section[60 + i] = byte;
            see("every letter", &section);
        }
    }
    // the key text at the offset's own bytes, or any place up to the end and behind it
    for offset in 0..24 {
        for next in 0..2 {
            let mut section = written(&one_content(
                2,
                vec![Info { letters: FLEU, reserves: [0; 3], of: Of::Data(vec![datum_k(), datum_k()]) }],
            ));
            section[68 + 4] = 1 + next;
            put(&mut section, 76 + 28, offset);
            see("every place of a key text", &section);
        }
    }
    // base counts whose lists do not fit, and lists that just fit or lack a byte
    for base_count in (0..12).chain([
        100,
        5_000_000,
        0x1555_5555,
        0x1555_5556,
        0x3FFF_FFFF,
        0x4000_0000,
        0x7FFF_FFFF,
        0x8000_0000,
        0xAAAA_AAAB,
        u32::MAX,
    ]) {
        for spare in 0..60 {
            let mut section = written(&one_datum(datum_k()));
            section[84..88].copy_from_slice(&base_count.to_le_bytes());
            section.resize(section.len() - 12 + spare, 0);
            let len = section.len();
            put(&mut section, 4, len);
            see("base counts", &section);
        }
    }
}

/// A few sections of up to the limit and one byte more.
pub fn large_sections(maker: &mut Maker, see: See) {
    let kind = "large";
    let smallest = written(&Shape { frame_count: 60, looping: 1, ..Shape::default() });
    for len in [LIMIT, LIMIT + 1, LIMIT + 4_096] {
        let mut section = smallest.clone();
        section.resize(len, 0);
        see(kind, &section);
        section[0] = b'q';
        see(kind, &section);
    }
    // the size at the limit's end and behind it
    for size in [LIMIT, LIMIT + 1] {
        let mut section = smallest.clone();
        section.resize(LIMIT, 0xFF);
        put(&mut section, 4, size);
        see(kind, &section);
    }
    for texture in [speed::names(&mut maker.random, 60_000), vec![Vec::new(); 65_535]] {
        see(kind, &written(&Shape { textures: texture, ..Shape::default() }));
    }
    // one text to the limit, well-formed and not, with its zero and without
    for byte in [b'a', 0x80, 0xE2] {
        let mut section = written(&Shape { textures: vec![Vec::new()], ..Shape::default() });
        section.truncate(24);
        section.resize(LIMIT - 1, byte);
        section.push(0);
        put(&mut section, 16, LIMIT);
        put(&mut section, 20, 4);
        see(kind, &section);
        section[LIMIT - 1] = byte;
        see(kind, &section);
    }
    // 65,535 contents at one place, with one target of one key
    let mut section = content_p();
    let table = section.len();
    section[14..16].copy_from_slice(&[0xFF, 0xFF]);
    put(&mut section, 16, table);
    for _ in 0..65_535 {
        section.extend(24u32.to_le_bytes());
    }
    see(kind, &section);
    // a target of 65,535 keys, and 255 targets at one place, whole and cut inside the last key
    for curve in 0..3 {
        let size = [4, 8, 12][curve as usize];
        let keys = (0..65_535 * size / 4).flat_map(|_| maker.pattern().to_le_bytes()).collect();
        let target = Target { curve, key_count: 65_535, keys, ..Target::default() };
        let section = one_target(*b"FLPA", target);
        see(kind, &section);
        see(kind, &section[..section.len() - 1]);
        see(kind, &section[..section.len() - 3]);
        see(kind, &section[..section.len() / 2]);
    }
    let target = Target { curve: 2, key_count: 900, keys: vec![0x7F; 10_800], ..Target::default() };
    let mut section = written(&one_info(u32::from_le_bytes(*b"FLPA"), vec![target; 255]));
    for i in 0..255 {
        put(&mut section, 68 + 4 * i, 8 + 4 * 255);
    }
    see(kind, &section);
    for (_, shape) in speed::shapes() {
        let section = written(&shape);
        see(kind, &section);
        see(kind, &section[..section.len() - 1]);
    }
    for _ in 0..10 {
        let style = Style { kept: false, extended: 2, most: 30, most_keys: 300 };
        see(kind, &maker.section(style, Placing::Shared).bytes);
    }
}

/// The sections whose reading is timed.
pub mod speed {
    use super::*;

    /// Names of about 20 letters; one of five has letters of several bytes.
    pub fn names(random: &mut Random, count: usize) -> Vec<Vec<u8>> {
        let name = |random: &mut Random| {
            let several = random.below(5) == 0;
            let mut name = Vec::new();
            for _ in 0..random.within(12, 28) {
                if several && random.below(4) == 0 {
                    let len = random.within(2, 4);
                    push(&mut name, char_of_len(random, len));
                } else {
                    name.push(*random.one(b"abcdefghijklmnopqrstuvwxyzABCDEFGHIJKLMNOPQRSTUVWXYZ_0123456789"));
                }
            }
            name
        };
        (0..count).map(|_| name(random)).collect()
    }

    fn number(random: &mut Random) -> u32 {
        (random.below(100_000) as f32 / 64.0).to_bits()
    }

    fn target(random: &mut Random, letters: &[u8; 4], curve: u8, key_count: u16) -> Target {
        let numbers = TARGET_NUMBERS.iter().find(|(code, _)| *code == letters).unwrap().1;
        let mut keys = Vec::new();
        for _ in 0..key_count {
            keys.extend(number(random).to_le_bytes());
            match curve {
                0 => {}
                1 => keys.extend((random.below(65_536) as u32).to_le_bytes()),
                _ => keys.extend([number(random).to_le_bytes(), number(random).to_le_bytes()].concat()),
            }
        }
        Target { target: random.below(numbers as usize) as u8, curve, key_count, keys, ..Target::default() }
    }

    fn content(random: &mut Random, sort: u8, infos: Vec<Info>) -> Content {
        let name = String::from_utf8(names(random, 1).remove(0)).unwrap();
        let end = (0..=28).rev().find(|&end| name.is_char_boundary(end)).unwrap();
        Content { name: field(name[..end].as_bytes()), sort, reserve: 0, infos }
    }

    fn standard(letters: &[u8; 4], targets: Vec<Target>) -> Info {
        Info { letters: u32::from_le_bytes(*letters), reserves: [0; 3], of: Of::Targets(targets) }
    }

    fn extended(random: &mut Random, count: usize, base_count: usize) -> Info {
        let datum = |random: &mut Random| Datum {
            header_size: 24,
            base_count: base_count as u32,
            values: (0..3 * base_count).map(|_| number(random)).collect(),
            key: names(random, 1).remove(0),
            ..Datum::default()
        };
        Info { letters: FLEU, reserves: [0; 3], of: Of::Data((0..count).map(|_| datum(random)).collect()) }
    }

    pub fn shapes() -> Vec<(&'static str, Shape)> {
        let random = &mut Random(20_261_101);
        let of = |contents| Shape { frame_count: 600, contents, ..Shape::default() };
        let mut shapes = Vec::new();

        let targets = |random: &mut Random| (0..10).map(|_| target(random, b"FLPA", 2, 10_000)).collect();
        let contents = (0..8).map(|_| vec![standard(b"FLPA", targets(random))]).collect::<Vec<_>>();
        let contents = contents.into_iter().map(|infos| content(random, 0, infos)).collect();
        shapes.push(("Hermite curves of 10,000 keys", of(contents)));

        let textures = names(random, 60_000);
        shapes.push(("60,000 texture names", Shape { textures, ..of(vec![]) }));

        let small = |random: &mut Random| {
            let targets = (0..4).map(|_| target(random, b"FLVI", 1, 2)).collect();
            content(random, 0, vec![standard(b"FLVI", targets)])
        };
        let contents = (0..20_000).map(|_| small(random)).collect();
        shapes.push(("20,000 contents of four Step targets", of(contents)));

        let contents = (0..10).map(|_| extended(random, 8, 5_000)).collect::<Vec<_>>();
        let contents = contents.into_iter().map(|info| content(random, 2, vec![info])).collect();
        shapes.push(("extended data of 5,000 values a list", of(contents)));

        let mixed = |random: &mut Random| {
            let mut infos = Vec::new();
            for (letters, curve) in [(b"FLPA", 2), (b"FLVI", 1), (b"FLMC", 2), (b"FLTP", 1), (b"FLTS", 0)] {
                if random.below(2) == 0 {
                    let count = random.within(1, 6);
                    let keys = random.within(1, 60) as u16;
                    infos.push(standard(letters, (0..count).map(|_| target(random, letters, curve, keys)).collect()));
                }
            }
            if random.below(10) == 0 {
                infos.push(extended(random, 2, 20));
            }
            let sort = random.below(5) as u8;
            content(random, sort, infos)
        };
        let contents = (0..1_500).map(|_| mixed(random)).collect();
        shapes.push(("a mixture", Shape { textures: names(random, 3_000), ..of(contents) }));
        shapes
    }

    /// One info of 255 extended data, and nothing else: the way to the last goes over all.
    pub fn one_extended_info() -> Vec<u8> {
        let random = &mut Random(20_261_116);
        let infos = vec![extended(random, 255, 2)];
        let contents = vec![content(random, 2, infos)];
        written(&Shape { contents, ..Shape::default() })
    }

    /// The sections, as the writer writes them.
    pub fn sections() -> Vec<(&'static str, Vec<u8>)> {
        shapes().into_iter().map(|(name, shape)| (name, written(&shape))).collect()
    }
}
