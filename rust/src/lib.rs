//! The Rust reference (nnbfl, commit af30eaf9a9), built unchanged, and the proved code beside it.
//!
//! The reference's files stand in modules of the names that they use for each other.
#![allow(clippy::all)]

#[allow(dead_code, unused_imports)]
pub mod core {
    include!(concat!(env!("OUT_DIR"), "/nnbfl/core/mod.rs"));
}

#[allow(dead_code)]
pub mod bflan {
    pub mod anim_info {
        include!(concat!(env!("OUT_DIR"), "/nnbfl/bflan/anim_info.rs"));
    }
    pub mod anim_tag {
        include!(concat!(env!("OUT_DIR"), "/nnbfl/bflan/anim_tag.rs"));
    }
    pub mod curves {
        include!(concat!(env!("OUT_DIR"), "/nnbfl/bflan/curves.rs"));
    }
    pub mod file {
        include!(concat!(env!("OUT_DIR"), "/nnbfl/bflan/file.rs"));

        /// What the private `BflanSectionsRef::serialize` writes into an empty buffer.
        pub fn serialize(info: &PaneAnimInfo) -> Vec<u8> {
            let mut writer = Writer::new();
            BflanSectionsRef::PaneAnimInfo(info).serialize(&mut writer);
            writer.buffer
        }
    }
    pub mod targets {
        include!(concat!(env!("OUT_DIR"), "/nnbfl/bflan/targets.rs"));
    }
}

pub mod ui2d {
    pub mod systemdata;
    pub mod userdata {
        include!(concat!(env!("OUT_DIR"), "/nnbfl/ui2d/userdata.rs"));
    }
}

pub mod args;
pub mod calls;
pub mod change;
pub mod chars;
pub mod comparison;
pub mod editor;
pub mod guarded;
pub mod journal;
pub mod judging;
pub mod layout;
pub mod machine;
pub mod pages;
pub mod proved;
pub mod random;
pub mod reader;
pub mod record;
pub mod records;
pub mod round_trips;
pub mod sample;
pub mod sample_records;
pub mod sections;
pub mod texts;
pub mod trials;
pub mod writer;
pub mod writing;

use crate::bflan::anim_info::PaneAnimInfo;
use crate::bflan::file::BflanSections;
use crate::core::{Cursor, FormatError};

/// `BflanSections::parse` on a cursor at 0.
pub fn parse(section: &[u8]) -> Result<BflanSections, FormatError> {
    let mut cursor = Cursor { data: section, ..Default::default() };
    BflanSections::parse(&mut cursor)
}

/// `BflanSectionsRef::serialize` into an empty buffer.
pub fn serialize(info: &PaneAnimInfo) -> Vec<u8> {
    bflan::file::serialize(info)
}
