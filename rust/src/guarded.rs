//! Lists for a call to store in. Every place holds something before the call, and so does each around the list: what a call
//! has no business with is seen to have stayed.

/// How many places stand on each side of a list that a call is given.
const MARGIN: usize = 16;

/// What stands in a list before a call.
pub trait Guard: Copy + PartialEq + std::fmt::Debug {
    fn guard(salt: u64, i: usize) -> Self;
}

fn mixed(salt: u64, i: usize) -> u64 {
    (salt ^ i as u64).wrapping_mul(0x9E37_79B9_7F4A_7C15)
}

impl Guard for u8 {
    fn guard(salt: u64, i: usize) -> u8 {
        (mixed(salt, i) >> 56) as u8
    }
}

impl Guard for u32 {
    fn guard(salt: u64, i: usize) -> u32 {
        (mixed(salt, i) >> 32) as u32
    }
}

impl Guard for usize {
    fn guard(salt: u64, i: usize) -> usize {
        mixed(salt, i) as usize
    }
}

/// A list that a call may store in, between places that do not belong to it.
#[derive(Default)]
pub struct Guarded<T> {
    held: Vec<T>,
    salt: u64,
}

impl<T: Guard> Guarded<T> {
    /// Makes the list anew, with `len` places.
    pub fn list(&mut self, salt: u64, len: usize) -> &mut [T] {
        self.salt = salt;
        self.held.clear();
        self.held.extend((0..MARGIN + len + MARGIN).map(|i| T::guard(salt, i)));
        &mut self.held[MARGIN..MARGIN + len]
    }

    /// The list as it stands now.
    pub fn now(&self) -> &[T] {
        &self.held[MARGIN..self.held.len() - MARGIN]
    }

    /// What differs from a list that begins with `stored` and is otherwise as it was.
    pub fn differs(&self, what: &str, stored: &[T]) -> Option<String> {
        let end = MARGIN + stored.len();
        let wanted = |i: usize| if (MARGIN..end).contains(&i) { stored[i - MARGIN] } else { T::guard(self.salt, i) };
        if self.held[MARGIN..end] == *stored
            && (0..MARGIN).chain(end..self.held.len()).all(|i| self.held[i] == T::guard(self.salt, i))
        {
            return None;
        }
        let i = (0..self.held.len()).find(|&i| self.held[i] != wanted(i))?;
        let place = i as isize - MARGIN as isize;
        let len = self.held.len() - 2 * MARGIN;
        Some(format!("{what} of {len}: at {place} stands {:?}, wanted {:?}", self.held[i], wanted(i)))
    }
}
