//! The program `edit_section` beside document 01's definitions of the calls that it makes.
mod programs;

use std::io::Write;
use std::path::Path;
use std::process::{Command, Stdio};

use compare::calls::calls;
use compare::change::{Call, FIELD_NUMBERS, Place};
use compare::editor::{ByLayout, Editor};
use compare::layout::{Rules, walk};
use compare::sections::{Maker, content_p, random_sections};
use pai1::Refusal;
use programs::{output, program};

/// The words of the program's journal.
const JOURNAL: usize = 5000;

/// A place as the program is told it: the field's name and the place.
fn shown(place: &Place) -> (&'static str, Vec<usize>) {
    match *place {
        Place::FrameCount => ("frames", vec![]),
        Place::Looping => ("looping", vec![]),
        Place::Layer(place) => ("layer", place.to_vec()),
        Place::Target(place) => ("target", place.to_vec()),
        Place::Key(place) => ("key", place.to_vec()),
        Place::Value(place) => ("value", place.to_vec()),
    }
}

/// The names of a key by how many numbers it has.
const KEYS: [&str; 3] = ["constant", "step", "hermite"];

/// A call as the program is told it: a name, the place and the new value.
fn told(call: &Call) -> (&'static str, Vec<usize>, Vec<u32>) {
    let Call::Edit(change) = call else { return ("undo", vec![], vec![]) };
    let ((name, place), values) = (shown(&change.place()), change.values());
    (if name == "key" { KEYS[values.len() - 1] } else { name }, place, values)
}

/// A refusal's number and values, as the program writes them.
fn refused(answer: [usize; 3]) -> String {
    match answer {
        [number @ (10 | 11 | 13), ..] => format!("refused {number}"),
        [3, offset, requested] => format!("refused 3 ({offset}, {requested})"),
        [number, value, _] => format!("refused {number} ({value})"),
    }
}

/// What the program must write for these calls: the section, or how its answer begins. Where the section does not read, that
/// is the whole line, with the sentence of the crate pai1.
fn wanted(section: &[u8], calls: &[Call], starts: &[usize]) -> Result<Vec<u8>, String> {
    let (mut section, mut journal, mut count) = (section.to_vec(), vec![0; JOURNAL], 0);
    for (call, start) in calls.iter().zip(starts) {
        let mut answer = [0; 3];
        match call {
            Call::Edit(change) => ByLayout.edit(&mut section, &mut journal, count, change, &mut answer),
            Call::Undo => ByLayout.undo(&mut section, &mut journal, count, &mut answer),
            Call::FieldAt(_) => unreachable!("no change"),
        }
        if answer[0] != 0 {
            let why = match answer {
                [1, letters, _] => format!("{}\n", Refusal::NotPai1 { letters: (letters as u32).to_le_bytes() }),
                [3, offset, requested] => format!("{}\n", Refusal::PastEnd { offset, requested }),
                [4, start, _] => format!("{}\n", Refusal::NoZero { start }),
                _ => String::new(),
            };
            return Err(format!("{} at argument {start}: {why}", refused(answer)));
        }
        count = answer[1];
    }
    Ok(section)
}

/// Lists of calls on sections of every kind: the sections that they leave, and the refusals that end them.
#[test]
fn changes_are_made() {
    let program = program("edit_section");
    let mut maker = Maker::new(8);
    let (mut number, mut made, mut refused) = (0, 0, std::collections::BTreeMap::new());
    let mut look = |section: &[u8]| {
        number += 1;
        if number % 40 != 0 || section.len() > 65_536 {
            return;
        }
        let Some(walked) = walk(section, &Rules::DOCUMENT, 1 << 20) else { return };
        let len = 1 + maker.few(12);
        let mut calls = calls(&mut maker, &walked.contents, len);
        // a number of more than 32 bits cannot be told
        calls.retain(|call| told(call).1.iter().all(|&number| number <= u32::MAX as usize));
        // what is turned down ends a run, so a share of them is made without
        if number % 80 == 0 {
            let mut kept = Vec::new();
            for call in calls {
                kept.push(call);
                if wanted(section, &kept, &vec![1; kept.len()]).is_err() {
                    kept.pop();
                }
            }
            calls = kept;
        }
        if calls.is_empty() {
            return;
        }
        let (mut args, mut starts) = (Vec::new(), Vec::new());
        for call in &calls {
            let (name, place, values) = told(call);
            starts.push(1 + args.len());
            args.push(name.to_owned());
            args.extend(place.iter().map(|number| number.to_string()));
            args.extend(values.iter().map(
                |&bits| {
                    if bits % 2 == 0 { bits.to_string() } else { format!("0x{bits:X}") }
                },
            ));
        }
        let written = output(&program, &args, section);
        match wanted(section, &calls, &starts) {
            Ok(section) => {
                made += 1;
                assert!(written == section, "{args:?}");
            }
            Err(begins) => {
                *refused.entry(begins[..10].to_owned()).or_insert(0) += 1;
                assert!(written.starts_with(begins.as_bytes()) && written.ends_with(b"\n"), "{args:?}: {begins}");
            }
        }
    };
    random_sections(&mut Maker::new(9), 40_000, &mut |_, section| look(section));
    println!("{made} made, {refused:?}");
    assert!(made > 100 && refused.len() > 5, "{made} made, {refused:?}");
}

/// What a program says on standard error, when it writes nothing to standard output.
fn complaint(program: &Path, args: &[String], input: &[u8]) -> String {
    let mut run = Command::new(program);
    let mut run = run.args(args).stdin(Stdio::piped()).stdout(Stdio::piped()).stderr(Stdio::piped()).spawn().unwrap();
    run.stdin.take().unwrap().write_all(input).unwrap();
    let output = run.wait_with_output().unwrap();
    assert!(output.status.success() && output.stdout.is_empty(), "{args:?}");
    String::from_utf8(output.stderr).unwrap()
}

/// What is no list of changes is answered by what is wrong, and how to say one, on standard error.
#[test]
fn what_is_no_change_is_said() {
    let program = program("edit_section");
    let cases = [
        ("frame 1", "argument 1 is no name of a change\n"),
        ("frames 1 2", "argument 3 is no name of a change\n"),
        ("frames", "argument 1 is a change with too few numbers behind it\n"),
        ("frames 1 layer 0 0 0", "argument 3 is a change with too few numbers behind it\n"),
        ("frames x", "argument 2 is no number from 0 to 4294967295\n"),
        ("frames 0x", "argument 2 is no number from 0 to 4294967295\n"),
        ("frames 4294967296", "argument 2 is no number from 0 to 4294967295\n"),
        ("looping 1 layer 0 0 0 undo", "argument 7 is no number from 0 to 4294967295\n"),
    ];
    for (args, wrong) in cases {
        let words: Vec<String> = args.split_whitespace().map(str::to_owned).collect();
        let said = complaint(&program, &words, &content_p());
        assert!(said.starts_with(&format!("{wrong}usage: edit_section")), "{args}: {said}");
    }
    for args in [vec![], vec!["--help".to_owned()]] {
        let said = String::from_utf8(output(&program, &args, &[])).unwrap();
        assert!(said.starts_with("usage: edit_section"), "{args:?}: {said}");
    }
}

/// A section whose letters or whose end is not what it should be: the sentences, and the letters whatever their bytes.
#[test]
fn what_does_not_read_is_said() {
    let program = program("edit_section");
    let mut led = content_p();
    led[4] += 1;
    let cases: [(&[u8], &str); 4] = [
        (b"", "refused 3 (0, 4) at argument 1: the section asks for 4 bytes at offset 0, past its end\n"),
        (&led, "refused 3 (92, 1) at argument 1: the section asks for 1 byte at offset 92, past its end\n"),
        (b"pai2....", "refused 1 (845767024) at argument 1: the section's letters are \"pai2\" and not \"pai1\"\n"),
        (
            b"\"\\\n\xFF....",
            concat!(
                "refused 1 (4278869026) at argument 1: ",
                r#"the section's letters are "\"\\\x0A\xFF" and not "pai1""#,
                "\n"
            ),
        ),
    ];
    for (section, said) in cases {
        let words = ["frames".to_owned(), "1".to_owned()];
        assert_eq!(String::from_utf8(output(&program, &words, section)).unwrap(), said);
    }
}

/// A thousand changes, and one more.
#[test]
fn the_journal_has_an_end() {
    let program = program("edit_section");
    let thousand: Vec<String> = (0..1000).flat_map(|i| ["frames".to_owned(), i.to_string()]).collect();
    let undone: Vec<String> = thousand.iter().cloned().chain(vec!["undo".to_owned(); 1000]).collect();
    assert_eq!(output(&program, &undone, &content_p()), content_p());
    let more: Vec<String> = thousand.iter().cloned().chain(["frames".to_owned(), "7".to_owned()]).collect();
    let said = String::from_utf8(output(&program, &more, &content_p())).unwrap();
    assert!(said.starts_with("refused 12 (1000) at argument 2001: "), "{said}");
}

/// The line that the program shows a field by: the arguments that put it there, with floats by their bits.
fn line(place: &Place, values: &[usize]) -> String {
    let (name, numbers) = shown(place);
    let name = if name == "key" { KEYS[values.len() - 1] } else { name };
    let floats = match name {
        "step" => 1,
        "constant" | "hermite" | "value" => values.len(),
        _ => 0,
    };
    let place = numbers.iter().map(|number| format!(" {number}"));
    let bits = values[..floats].iter().map(|bits| format!(" 0x{bits:08X}"));
    let rest = values[floats..].iter().map(|value| format!(" {value}"));
    format!("{name}{}\n", place.chain(bits).chain(rest).collect::<String>())
}

/// What the program must write of these places: a line for each; where one is refused, the lines before it, and how the
/// refusal begins.
fn wanted_of(section: &[u8], places: &[Place], starts: &[usize]) -> (String, Option<String>) {
    let mut lines = String::new();
    for (place, start) in places.iter().zip(starts) {
        let mut answer = [0; FIELD_NUMBERS];
        ByLayout.field_at(&mut section.to_vec(), place, &mut answer);
        let [number, a, b, ..] = answer;
        if number != 0 {
            return (lines, Some(format!("{} at argument {start}: ", refused([number, a, b]))));
        }
        lines += &line(place, &answer[2..2 + answer[1]]);
    }
    (lines, None)
}

/// Places of sections of every kind are shown. What was shown, told to the program as changes, leaves a section that the
/// writer wrote as it was.
#[test]
fn places_are_shown() {
    let program = program("edit_section");
    let mut maker = Maker::new(10);
    let (mut number, mut lines, mut put_back, mut refused) = (0, 0, 0, std::collections::BTreeMap::new());
    let mut look = |kind: &str, section: &[u8]| {
        number += 1;
        if number % 40 != 0 || section.len() > 65_536 {
            return;
        }
        let Some(walked) = walk(section, &Rules::DOCUMENT, 1 << 20) else { return };
        let mut places: Vec<Place> =
            (0..1 + maker.few(8)).map(|_| compare::calls::change(&mut maker, &walked.contents).place()).collect();
        // a number of more than 32 bits cannot be told
        places.retain(|place| shown(place).1.iter().all(|&number| number <= u32::MAX as usize));
        // what is turned down ends a run, so a share of them is made without
        if number % 80 == 0 {
            places.retain(|place| wanted_of(section, &[*place], &[2]).1.is_none());
        }
        if places.is_empty() {
            return;
        }
        let (mut args, mut starts) = (vec!["show".to_owned()], Vec::new());
        for place in &places {
            let (name, numbers) = shown(place);
            starts.push(1 + args.len());
            args.push(name.to_owned());
            args.extend(numbers.iter().map(|number| number.to_string()));
        }
        let written = String::from_utf8(output(&program, &args, section)).unwrap();
        match wanted_of(section, &places, &starts) {
            (wanted, None) => {
                lines += places.len();
                assert_eq!(written, wanted, "{args:?}");
                // elsewhere looping and a target's number may stand there otherwise than they are read
                if kind == "as the writer writes" {
                    let changes: Vec<String> = written.split_whitespace().map(str::to_owned).collect();
                    assert!(output(&program, &changes, section) == section, "{changes:?}");
                    put_back += 1;
                }
            }
            (wanted, Some(begins)) => {
                *refused.entry(begins[..10].to_owned()).or_insert(0) += 1;
                let refusal = written.strip_prefix(&wanted).unwrap_or_default();
                let one_line = refusal.ends_with('\n') && refusal.lines().count() == 1;
                assert!(refusal.starts_with(&begins) && one_line, "{args:?}: {begins}");
            }
        }
    };
    random_sections(&mut Maker::new(11), 40_000, &mut look);
    println!("{lines} lines, {put_back} times put back, {refused:?}");
    assert!(lines > 100 && put_back > 10 && refused.len() > 3, "{lines} lines, {put_back} put back, {refused:?}");
}
