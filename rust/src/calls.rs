//! Calls to try on a section: changes at places that are there and that are not, with values that fit and that do not,
//! undos, what stands at such places, and journals of sound and other entries.
use crate::change::{Call, Change, NewKey};
use crate::journal::{ENTRY_WORDS, Entry, FIELD_SIZES};
use crate::layout::{DatumAt, InfoAt, PartsAt, TargetAt, targets_of};
use crate::sections::Maker;

/// A list of `len` calls on a section whose infos lie so: runs of edits, of undos and of both.
pub fn calls(maker: &mut Maker, contents: &[Vec<InfoAt>], len: usize) -> Vec<Call> {
    let mut calls = Vec::new();
    while calls.len() < len {
        // how many of four calls are undos
        let undos = *maker.random.one(&[0, 0, 1, 1, 2, 4]);
        for _ in 0..maker.random.within(1, 30) {
            let next = match calls.last() {
                _ if maker.random.below(4) < undos => Call::Undo,
                // the same again
                Some(&last) if maker.random.below(12) == 0 => last,
                _ => Call::Edit(change(maker, contents)),
            };
            calls.push(next);
        }
    }
    calls.truncate(len);
    calls
}

/// The list with one more call behind each, which asks what stands at a place now: at that of the last edit, or at another.
pub fn with_fields(maker: &mut Maker, contents: &[Vec<InfoAt>], calls: &[Call]) -> Vec<Call> {
    let mut last = change(maker, contents).place();
    let mut asked = Vec::new();
    for call in calls {
        if let Call::Edit(change) = call {
            last = change.place();
        }
        let place = if maker.random.below(2) == 0 { last } else { change(maker, contents).place() };
        asked.extend([*call, Call::FieldAt(place)]);
    }
    asked
}

/// A change. Mostly its place is there and its value fits.
pub fn change(maker: &mut Maker, contents: &[Vec<InfoAt>]) -> Change {
    let has = |parts: fn(&InfoAt) -> usize| contents.iter().flatten().any(|info| parts(info) > 0);
    let (targets, data) = (has(target_count), has(datum_count));
    let mut sort = maker.random.below(16);
    // mostly no target or datum is looked for where there is none
    while (sort >= 13 && !data || (2..13).contains(&sort) && !targets) && maker.random.below(16) > 0 {
        sort = maker.random.below(16);
    }
    match sort {
        0 => Change::FrameCount(around(maker, 0xFFFF)),
        1 => Change::Looping(around(maker, 1)),
        2..5 => {
            let (place, _, _) = target_place(maker, contents);
            Change::Layer(spoiled(maker, place), around(maker, 0xFF))
        }
        5..8 => {
            let (place, letters, _) = target_place(maker, contents);
            let number = target_number(maker, letters);
            Change::Target(spoiled(maker, place), number)
        }
        8..13 => {
            let ([content, info, at], _, target) = target_place(maker, contents);
            let key = maker.random.below(target.key_count.max(1));
            let curve = if maker.random.below(6) == 0 { maker.random.below(3) } else { target.curve };
            let new = new_key(maker, curve);
            Change::Key(spoiled(maker, [content, info, at, key]), new)
        }
        _ => {
            let ([content, info, at], datum) = datum_place(maker, contents);
            let value = maker.random.below(datum.base_count.max(1));
            let list = maker.random.below(3);
            let bits = maker.pattern();
            Change::Value(spoiled(maker, [content, info, at, list, value]), bits)
        }
    }
}

/// A value for a field that takes up to `most`.
fn around(maker: &mut Maker, most: u32) -> u32 {
    match maker.random.below(20) {
        0 => 0,
        1 => most,
        2 => most + 1,
        3 => most + 1 + maker.random.below(most as usize + 1) as u32,
        4 => u32::MAX,
        5 => maker.random.next() as u32,
        // what fits, with a bit that does not
        6 => maker.random.below(most as usize + 1) as u32 | 1 << maker.random.below(32),
        _ => maker.random.below(most as usize + 1) as u32,
    }
}

/// A target's number: mostly one that these letters have, else one near them.
fn target_number(maker: &mut Maker, letters: u32) -> u32 {
    let numbers = targets_of(letters);
    match maker.random.below(8) {
        0 => numbers.end,
        1 => numbers.end - 1,
        2 => around(maker, 0xFF),
        3 => *maker.random.one(&[0, 1, 254, 255, 256, 256 + numbers.start]),
        _ => maker.random.within(numbers.start as usize, numbers.end as usize - 1) as u32,
    }
}

/// A key of a curve.
fn new_key(maker: &mut Maker, curve: usize) -> NewKey {
    match curve {
        0 => NewKey::Constant(maker.pattern()),
        1 => NewKey::Step { frame: maker.pattern(), value: around(maker, 0xFFFF) },
        _ => NewKey::Hermite { frame: maker.pattern(), value: maker.pattern(), slope: maker.pattern() },
    }
}

/// The place with one number changed, for one of six.
fn spoiled<const N: usize>(maker: &mut Maker, mut place: [usize; N]) -> [usize; N] {
    if maker.random.below(6) == 0 {
        let number = &mut place[maker.random.below(N)];
        let random = &mut maker.random;
        *number = match random.below(8) {
            0 | 1 => *number + 1,
            2 => random.below(6),
            3 => random.below(300),
            4 => *number + (1 << random.within(8, 62)),
            5 => usize::MAX - random.below(3),
            6 => (usize::MAX / random.within(1, 12)).wrapping_add(random.below(5)),
            _ => random.next() as usize,
        };
    }
    place
}

/// The targets of an info.
fn target_count(info: &InfoAt) -> usize {
    match &info.of {
        PartsAt::Targets(targets) => targets.len(),
        PartsAt::Data(_) => 0,
    }
}

/// The extended data of an info.
fn datum_count(info: &InfoAt) -> usize {
    match &info.of {
        PartsAt::Targets(_) => 0,
        PartsAt::Data(data) => data.len(),
    }
}

/// The place of an info of which `parts` counts some, or of any for one of ten.
fn some_info(maker: &mut Maker, contents: &[Vec<InfoAt>], parts: impl Fn(&InfoAt) -> usize) -> Option<(usize, usize)> {
    let any = maker.random.below(10) == 0;
    let mut places = Vec::new();
    for (c, infos) in contents.iter().enumerate() {
        places.extend((0..infos.len()).filter(|&i| any || parts(&infos[i]) > 0).map(|i| (c, i)));
    }
    if places.is_empty() { None } else { Some(*maker.random.one(&places)) }
}

/// A target's place with its info's letters and itself, or places without one.
fn target_place(maker: &mut Maker, contents: &[Vec<InfoAt>]) -> ([usize; 3], u32, TargetAt) {
    let none = TargetAt { start: 0, curve: maker.random.below(3), key_count: 0, keys: 0 };
    let Some((c, i)) = some_info(maker, contents, target_count) else { return ([0; 3], 0, none) };
    let info = &contents[c][i];
    match &info.of {
        PartsAt::Targets(targets) if !targets.is_empty() => {
            let mut t = maker.random.below(targets.len());
            // rather one that has keys
            if targets[t].key_count == 0 {
                t = maker.random.below(targets.len());
            }
            ([c, i, t], info.letters, targets[t])
        }
        PartsAt::Targets(_) | PartsAt::Data(_) => ([c, i, 0], info.letters, none),
    }
}

/// A datum's place with itself, or places without one.
fn datum_place(maker: &mut Maker, contents: &[Vec<InfoAt>]) -> ([usize; 3], DatumAt) {
    let none = DatumAt { base_count: 1, values: 0 };
    let Some((c, i)) = some_info(maker, contents, datum_count) else { return ([0; 3], none) };
    match &contents[c][i].of {
        PartsAt::Data(data) if !data.is_empty() => {
            let d = maker.random.below(data.len());
            ([c, i, d], data[d])
        }
        PartsAt::Targets(_) | PartsAt::Data(_) => ([c, i, 0], none),
    }
}

/// A journal of `len` words that nothing was written to.
pub fn garbage(maker: &mut Maker, len: usize) -> Vec<u32> {
    (0..len).map(|_| maker.pattern()).collect()
}

/// A journal of `len` words whose entries are sound for a section of `size` bytes, or nearly so, or garbage.
pub fn journal(maker: &mut Maker, len: usize, size: usize) -> Vec<u32> {
    let mut journal = garbage(maker, len);
    for words in journal.chunks_exact_mut(ENTRY_WORDS) {
        if maker.random.below(8) > 0 {
            words.copy_from_slice(&entry(maker, size));
        }
    }
    journal
}

/// The words of an entry: sound, or with one word changed.
fn entry(maker: &mut Maker, size: usize) -> [u32; ENTRY_WORDS] {
    let count = *maker.random.one(&FIELD_SIZES);
    let last = size.saturating_sub(count);
    let at = match maker.random.below(8) {
        0 => last,
        1 => last + maker.random.below(14),
        _ => maker.random.below(last + 1),
    };
    let old = (0..count).map(|_| maker.random.byte()).collect();
    let mut words = Entry { at, old }.words();
    let random = &mut maker.random;
    match random.below(10) {
        0 => words[0] = *random.one(&[u32::MAX, 0x8000_0000, u32::MAX - 11, size as u32 + 1, 1 << 24]),
        1 => words[1] = *random.one(&[0, 3, 5, 7, 8, 9, 10, 11, 13, 16, 256, 257, 258, 260, 262, 268, u32::MAX]),
        2 => words[1] = *random.one(&FIELD_SIZES) as u32,
        // a bit of the old bytes or of the fill
        3 => words[random.within(2, 4)] ^= 1 << random.below(32),
        _ => {}
    }
    words
}

/// A count beside a journal of `len` words.
pub fn count(maker: &mut Maker, len: usize) -> usize {
    let capacity = len / ENTRY_WORDS;
    let random = &mut maker.random;
    match random.below(16) {
        0 => 0,
        1 => capacity,
        2 => capacity + 1,
        3 => capacity + 1 + random.below(9),
        4 => usize::MAX - random.below(2),
        // five times these is small again
        5 => (usize::MAX / ENTRY_WORDS).wrapping_add(random.below(4)),
        6 => random.below(capacity + 1) + (1 << random.within(8, 63)),
        _ => random.below(capacity + 1),
    }
}
