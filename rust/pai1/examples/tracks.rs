//! Prints a section's tracks by name, edits a key and takes the edit back. Usage: tracks [FILE]; without one, the section
//! is read from standard input.
use std::error::Error;
use std::io::Read;

use pai1::{AnimInfo, Change, HermiteKey, Key, Reading, Record, Refusal, Section, StepKey, TargetPlace};

/// The most words and text bytes that a record may need: what a section of a stranger may ask for is not bounded by its
/// length.
const MOST: usize = 1 << 26;

fn main() -> Result<(), Box<dyn Error>> {
    let mut bytes = Vec::new();
    match std::env::args_os().nth(1) {
        Some(file) => bytes = std::fs::read(file)?,
        None => drop(std::io::stdin().read_to_end(&mut bytes)?),
    }
    if let Err(refusal) = show(bytes) {
        println!("refused {}: {refusal}", refusal.number());
    }
    Ok(())
}

/// Prints a section, edits a key of it, and takes the edit back.
fn show(bytes: Vec<u8>) -> Result<(), Refusal> {
    let mut section = Section::new(bytes)?;
    let Reading { record, replaced } = section.read_counted(MOST, MOST)?;
    print(&record);
    if replaced > 0 {
        println!("characters that are not UTF-8 and were replaced: {replaced}");
    }
    change_a_key(&mut section, &record)
}

/// Prints what a record holds. Names are quoted, since they may hold anything.
fn print(record: &Record) {
    let looping = if record.is_looping() { ", looping" } else { "" };
    println!("{} frames{looping}", record.frame_count());
    for (i, texture) in record.textures().enumerate() {
        println!("texture {i}: {texture:?}");
    }
    for (i, content) in record.contents().enumerate() {
        println!("content {i}: {:?}, {}", content.name, content.anim_type);
        for (j, info) in content.infos.enumerate() {
            println!("  info {j}: {}", info.anim_type());
            match info {
                AnimInfo::Standard { targets, .. } => {
                    for (k, target) in targets.enumerate() {
                        println!("    target {k}: {}, layer {}, {:?}", target.target, target.layer, target.curve);
                    }
                }
                AnimInfo::ExtendedUserData { data } => {
                    for (k, datum) in data.enumerate() {
                        println!("    datum {k}: {:?}, {:?}", datum.key, datum.values);
                    }
                }
            }
        }
    }
}

/// The first key of a record, with its place.
fn first_key(record: &Record) -> Option<(TargetPlace, Key)> {
    for (content, parts) in record.contents().enumerate() {
        for (info, parts) in parts.infos.enumerate() {
            let AnimInfo::Standard { targets, .. } = parts else { continue };
            for (target, parts) in targets.enumerate() {
                if let Some(key) = parts.curve.get(0) {
                    return Some((TargetPlace { content, info, target }, key));
                }
            }
        }
    }
    None
}

/// Adds 1 to the value of the first key, and takes that back.
fn change_a_key(section: &mut Section, record: &Record) -> Result<(), Refusal> {
    let Some((place, key)) = first_key(record) else {
        println!("no key to edit");
        return Ok(());
    };
    let new = match key {
        Key::Constant(value) => Key::Constant(value + 1.0),
        Key::Step(key) => Key::Step(StepKey { value: key.value.wrapping_add(1), ..key }),
        Key::Hermite(key) => Key::Hermite(HermiteKey { value: key.value + 1.0, ..key }),
    };
    let change = Change::Key(place, 0, new);
    section.edit(&change)?;
    println!("edited: there stood {key:?}, and now {:?}", section.field_at(change.place())?);
    let entry = section.journal().entries().flatten().last().expect("the entry of the edit");
    let now = &section.bytes()[entry.offset()..][..entry.old().len()];
    println!("bytes from {} on were {:02X?} and are {now:02X?}", entry.offset(), entry.old());
    let left = section.undo()?;
    println!(
        "undone, {left} edits left; the record is {}",
        if section.read_within(MOST, MOST)? == *record { "as it was" } else { "another" }
    );
    Ok(())
}
