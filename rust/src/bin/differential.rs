//! Compares the proved code with the Rust. Usage: differential [texts|sections|records] [SEED] [MILLIONS], or differential edits
//! [SEED] [CALLS]; without a part, all.
//!
//! texts: the decoding with `String::from_utf8_lossy` and `std::str::from_utf8`, and the count of replaced characters with
//! `utf8_chunks`: every text of up to three bytes, and some millions of longer ones. sections: reading with the reference's
//! `BflanSections::parse`, on some millions of sections; the count with `utf8_chunks` too. records: writing with the
//! reference's `BflanSectionsRef::serialize`, on some millions of records. edits: edits and undos with document 01's plain
//! machine and the reference's writing and reading of its record, and as many calls on sections, journals and counts of any
//! kind; behind each call, what stands at a place with the machine's record or with the reference's.
use std::process::ExitCode;

use compare::args::Args;
use compare::comparison::Comparison;
use compare::proved::Proved;
use compare::texts::{DECODERS, Texts};
use compare::trials::Trials;
use compare::writing::Writing;

/// The edits and undos that are tried beside the machine, without a number of them.
const CALLS: u64 = 1_000_000;

fn main() -> ExitCode {
    let mut args = Args::new("differential [texts|sections|records|edits] [SEED] [MILLIONS, or for edits CALLS]");
    let part = args.part(&["texts", "sections", "records", "edits"]);
    let seed = args.number().unwrap_or(20_261_031);
    let many = args.number();
    args.end();
    let millions = many.unwrap_or(5);
    let differences = match part {
        Some("texts") => texts(seed, millions),
        Some("sections") => sections(seed, millions),
        Some("records") => records(seed, millions),
        Some(_) => changes(seed, many.unwrap_or(CALLS)),
        None => texts(seed, millions) + sections(seed, millions) + records(seed, millions) + changes(seed, CALLS),
    };
    if differences == 0 { ExitCode::SUCCESS } else { ExitCode::FAILURE }
}

/// The functions of texts beside the standard library.
fn texts(seed: u64, millions: u64) -> u64 {
    println!("seed {seed}, {millions} million longer texts");
    let mut texts = Texts::new(DECODERS, seed);
    for len in 0..=3 {
        texts.every(len);
    }
    texts.longer(millions * 1_000_000);
    texts.print();
    texts.differences
}

/// Sections beside the reference.
fn sections(seed: u64, millions: u64) -> u64 {
    println!("seed {seed}, {millions} million sections");
    let mut comparison = Comparison::new(&Proved, seed);
    comparison.run(seed, millions * 1_000_000);
    comparison.shrink();
    comparison.print();
    comparison.differences
}

/// Records beside the reference.
fn records(seed: u64, millions: u64) -> u64 {
    println!("seed {seed}, {millions} million records");
    let mut writing = Writing::new(&Proved, &Proved, seed);
    writing.run(seed, millions * 1_000_000);
    writing.shrink();
    writing.print();
    writing.differences
}

/// Edits, undos and what stands in a field beside document 01.
fn changes(seed: u64, calls: u64) -> u64 {
    println!("seed {seed}, {calls} calls beside the machine, and as many on any bytes; field_at behind each");
    let mut trials = Trials::new(&Proved, seed);
    trials.run(seed, calls);
    trials.shrink();
    trials.print();
    trials.differences
}
