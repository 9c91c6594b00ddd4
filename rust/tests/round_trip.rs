//! The program `round_trip` on its samples, crates/round_trip/samples: NAME.in is an input, and NAME.out what it must write.
mod programs;

use std::fs;
use std::path::PathBuf;

use compare::round_trips::{answer, inputs};
use programs::{output, program, root};

fn sample(name: &str, end: &str) -> PathBuf {
    root().join("crates/round_trip/samples").join(format!("{name}.{end}"))
}

/// What is stored is what the reference and document 01 say, and each of the refusals that there can be is among it.
#[test]
fn samples_are_the_references() {
    let mut seen = Vec::new();
    for (name, input) in inputs() {
        let output = answer(&input);
        assert!(fs::read(sample(name, "in")).unwrap() == input, "{name}.in");
        assert!(fs::read(sample(name, "out")).unwrap() == output, "{name}.out");
        assert_eq!(output.starts_with(b"refused "), name.starts_with("refused_"), "{name}");
        seen.push(output);
    }
    for number in [1, 2, 3, 4, 5, 6, 9] {
        assert!(seen.contains(&format!("refused {number}\n").into_bytes()), "{number}");
    }
    // with NAME.tracks, of the program show_tracks
    assert_eq!(fs::read_dir(root().join("crates/round_trip/samples")).unwrap().count(), 3 * seen.len());
}

/// What document 01 itself says of some.
#[test]
fn samples_of_document_01() {
    for (name, len) in [("smallest", 20), ("texture_a", 28), ("content_p", 92), ("user_k", 112)] {
        let (input, output) = (fs::read(sample(name, "in")).unwrap(), fs::read(sample(name, "out")).unwrap());
        assert_eq!((input.len(), input == output), (len, true), "{name}");
    }
    // a last Step key without its two skipped bytes comes back with them
    assert_eq!(fs::read(sample("step_key_cut", "out")).unwrap(), fs::read(sample("content_p", "out")).unwrap());
}

#[test]
fn the_program_writes_them() {
    let program = program("round_trip");
    for (name, input) in inputs() {
        assert!(output(&program, &[], &input) == fs::read(sample(name, "out")).unwrap(), "{name}");
    }
}
