//! In place of the reference's ui2d/systemdata.rs, which is not among the files that this was made from. Only user data
//! entries with tag 3 reach it, and none of those is compared: its values hold nothing, and reading one is an error.
use serde::{Deserialize, Serialize};

use crate::core::{Cursor, FormatError, Writer};

#[derive(Debug, Serialize, Deserialize, Clone)]
pub enum SystemData {
    Pane(PaneData),
    Layout(LayoutData),
}

#[derive(Debug, Serialize, Deserialize, Clone)]
pub struct PaneData;

#[derive(Debug, Serialize, Deserialize, Clone)]
pub struct LayoutData;

fn absent<T>(cursor: &Cursor) -> Result<T, FormatError> {
    Err(FormatError::MissingContext { expected: "ui2d/systemdata.rs", offset: cursor.pos })
}

impl PaneData {
    pub fn parse(cursor: &mut Cursor) -> Result<Self, FormatError> {
        absent(cursor)
    }

    pub fn write(&self, _writer: &mut Writer) {}
}

impl LayoutData {
    pub fn parse(cursor: &mut Cursor) -> Result<Self, FormatError> {
        absent(cursor)
    }

    pub fn write(&self, _writer: &mut Writer) {}
}
