//! Writes the sample of sections with the reference's answers (src/sample.rs) and of records with its bytes
//! (src/sample_records.rs) to standard output, and what it holds to standard error. Usage: sample > FILE.
//!
//! With a folder, writes the samples of the program `round_trip` (src/round_trips.rs) into it. Usage: sample FOLDER.
use std::io::Write;
use std::path::Path;

use compare::round_trips::{answer, inputs};
use compare::sample::{SECTION, TEXTS, WORDS, sample};
use compare::sample_records::{self, OUTPUT};

fn main() -> std::io::Result<()> {
    match std::env::args_os().nth(1) {
        None => cases(),
        Some(folder) => round_trips(Path::new(&folder)),
    }
}

fn round_trips(folder: &Path) -> std::io::Result<()> {
    for (name, input) in inputs() {
        std::fs::write(folder.join(format!("{name}.in")), &input)?;
        std::fs::write(folder.join(format!("{name}.out")), answer(&input))?;
    }
    Ok(())
}

fn cases() -> std::io::Result<()> {
    let sections = sample();
    let [well_formed, others] = sections.texts;
    eprintln!("{} sections in {} bytes; answers 0 to 5: {:?}", sections.cases, sections.bytes.len(), sections.numbers);
    eprintln!(
        "texts of the sections that are read: {well_formed} well-formed, {others} others, in which {} characters are replaced",
        sections.replaced
    );
    let records = sample_records::sample();
    eprintln!("{} records in {} bytes; answers 0 to 9: {:?}", records.cases, records.bytes.len(), records.numbers);
    eprintln!(
        "sections of up to {SECTION} bytes, up to {WORDS} words and {TEXTS} text bytes, outputs of up to {OUTPUT} bytes"
    );
    let mut out = std::io::stdout();
    out.write_all(&sections.bytes)?;
    out.write_all(&records.bytes)
}
