//! What the calls that change a section, or say what stands in a field of it, are asked for. Places count from 0; floats
//! are given as their bits.

/// A new key.
#[derive(Clone, Copy, Debug)]
pub enum NewKey {
    Constant(u32),
    Step { frame: u32, value: u32 },
    Hermite { frame: u32, value: u32, slope: u32 },
}

/// A field, its place and its new value.
#[derive(Clone, Copy, Debug)]
pub enum Change {
    FrameCount(u32),
    Looping(u32),
    /// Of the target at content, info, target.
    Layer([usize; 3], u32),
    /// The number of the same.
    Target([usize; 3], u32),
    /// At content, info, target, key.
    Key([usize; 4], NewKey),
    /// At content, info, datum, list, value.
    Value([usize; 5], u32),
}

/// A field and its place, as a change has them.
#[derive(Clone, Copy, Debug)]
pub enum Place {
    FrameCount,
    Looping,
    Layer([usize; 3]),
    Target([usize; 3]),
    Key([usize; 4]),
    Value([usize; 5]),
}

impl Change {
    /// The field and its place.
    pub fn place(&self) -> Place {
        match *self {
            Change::FrameCount(_) => Place::FrameCount,
            Change::Looping(_) => Place::Looping,
            Change::Layer(place, _) => Place::Layer(place),
            Change::Target(place, _) => Place::Target(place),
            Change::Key(place, _) => Place::Key(place),
            Change::Value(place, _) => Place::Value(place),
        }
    }

    /// The new value: one number, or those of a key.
    pub fn values(&self) -> Vec<u32> {
        match *self {
            Change::FrameCount(value)
            | Change::Looping(value)
            | Change::Layer(_, value)
            | Change::Target(_, value)
            | Change::Value(_, value)
            | Change::Key(_, NewKey::Constant(value)) => vec![value],
            Change::Key(_, NewKey::Step { frame, value }) => vec![frame, value],
            Change::Key(_, NewKey::Hermite { frame, value, slope }) => vec![frame, value, slope],
        }
    }
}

/// The numbers that the answer of an edit or an undo has, and that of what stands in a field.
pub const CHANGE_NUMBERS: usize = 3;
pub const FIELD_NUMBERS: usize = 5;

/// The answer that these values stand in a field, or that there is no such place.
pub fn field_answer(values: Option<Vec<u32>>) -> [usize; FIELD_NUMBERS] {
    let mut answer = [0; FIELD_NUMBERS];
    match values {
        None => answer[0] = 10,
        Some(values) => {
            answer[1] = values.len();
            for (place, value) in answer[2..].iter_mut().zip(values) {
                *place = value as usize;
            }
        }
    }
    answer
}

/// One call of a list of them.
#[derive(Clone, Copy, Debug)]
pub enum Call {
    Edit(Change),
    Undo,
    /// What stands at a place now.
    FieldAt(Place),
}

impl Call {
    /// How many of the kinds are edits. The next is undo, and the others what stands in a field.
    pub const EDITS: usize = 8;

    /// The names of the kinds of call, as `kind` counts them.
    pub const KINDS: [&str; 15] = [
        "frame count",
        "looping",
        "layer",
        "target's number",
        "Constant key",
        "Step key",
        "Hermite key",
        "extended value",
        "undo",
        "field_at: frame count",
        "field_at: looping",
        "field_at: layer",
        "field_at: target's number",
        "field_at: key",
        "field_at: extended value",
    ];

    /// Which kind this is.
    pub fn kind(&self) -> usize {
        match self {
            Call::Edit(Change::FrameCount(_)) => 0,
            Call::Edit(Change::Looping(_)) => 1,
            Call::Edit(Change::Layer(..)) => 2,
            Call::Edit(Change::Target(..)) => 3,
            Call::Edit(Change::Key(_, NewKey::Constant(_))) => 4,
            Call::Edit(Change::Key(_, NewKey::Step { .. })) => 5,
            Call::Edit(Change::Key(_, NewKey::Hermite { .. })) => 6,
            Call::Edit(Change::Value(..)) => 7,
            Call::Undo => Call::EDITS,
            Call::FieldAt(Place::FrameCount) => 9,
            Call::FieldAt(Place::Looping) => 10,
            Call::FieldAt(Place::Layer(_)) => 11,
            Call::FieldAt(Place::Target(_)) => 12,
            Call::FieldAt(Place::Key(_)) => 13,
            Call::FieldAt(Place::Value(_)) => 14,
        }
    }

    /// How many numbers the answer has.
    pub fn numbers(&self) -> usize {
        match self {
            Call::Edit(_) | Call::Undo => CHANGE_NUMBERS,
            Call::FieldAt(_) => FIELD_NUMBERS,
        }
    }
}
