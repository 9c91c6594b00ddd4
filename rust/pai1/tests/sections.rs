//! Document 01's worked sections, through this crate.
use pai1::{
    AnimContent, AnimInfo, AnimInfoType, AnimTarget, AnimType, Change, Curve, HermiteKey, Journal, Key, LIMIT, Place,
    Record, Refusal, Section, StepKey, TargetIndex, TargetPlace, ValuePlace, edit, field_at, needs, read, read_counted,
    read_within, text, text_counted, undo, write,
};

fn letters(letters: &[u8; 4]) -> u32 {
    u32::from_le_bytes(*letters)
}

fn written(words: &[u32], texts: &[u8]) -> Vec<u8> {
    Record::new(words.to_vec(), texts.to_vec()).unwrap().write().unwrap()
}

fn number(section: &[u8], at: usize) -> u32 {
    u32::from_le_bytes(section[at..at + 4].try_into().unwrap())
}

const TARGET: TargetPlace = TargetPlace { content: 0, info: 0, target: 0 };

/// Content `P`, Pane, FLVI, Step key (0.0, 1).
fn content_p() -> Vec<u8> {
    written(&[0, 0, 0, 1, 1, 0, 1, letters(b"FLVI"), 1, 0, 0, 1, 1, 0, 1], b"P")
}

/// One User content without a name, one FLEU datum, base count 1, key `k`.
fn datum_k() -> Vec<u8> {
    written(&[0, 0, 0, 1, 0, 2, 1, letters(b"FLEU"), 1, 24, 5, 6, 1, 7, 10, 20, 30, 1], b"k")
}

/// A section with every kind of part: 2 textures, a Pane with a Hermite, a Constant and a Step curve, a material whose
/// letters are not listed, and extended data.
fn mixture() -> (Vec<u32>, &'static [u8]) {
    let mut words = vec![120, 1, 2, 3, 4, 0];
    words.extend([6, 0, 2]);
    words.extend([letters(b"FLPA"), 2]);
    words.extend([0, 9, 2, 2]);
    words.extend([0.0f32, 1.5, -2.0, 30.0, f32::INFINITY, -0.0].map(f32::to_bits));
    words.extend([255, 1, 0, 1, 0x7F80_0001]);
    words.extend([letters(b"FLMC"), 1, 3, 27, 1, 1, 10f32.to_bits(), 65_535]);
    words.extend([3, 1, 1]);
    words.extend([0, 1, 0, 255, 0, 0]);
    words.extend([0, 2, 1]);
    words.extend([letters(b"FLEU"), 2]);
    words.extend([24, 0xFFFF, 1, 2, u32::MAX, 1, 2, 3, 4, 5, 0xFFFF_FFFF, 3]);
    words.extend([0, 0, 0, 0, 0, 0]);
    (words, "iconP_base\u{e9}m\u{20ac}".as_bytes())
}

#[test]
fn no_content() {
    let section = written(&[60, 1, 0, 0], b"");
    assert_eq!(section, [0x70, 0x61, 0x69, 0x31, 0x14, 0, 0, 0, 0x3C, 0, 1, 0, 0, 0, 0, 0, 0x14, 0, 0, 0]);
    let record = read(&section).unwrap();
    assert_eq!((record.frame_count(), record.is_looping()), (60, true));
    assert_eq!((record.textures().len(), record.contents().len()), (0, 0));
}

#[test]
fn one_texture() {
    let section = written(&[0, 0, 1, 0, 1], b"a");
    assert_eq!(section.len(), 28);
    assert_eq!([4, 16, 20].map(|at| number(&section, at)), [28, 28, 4]);
    assert_eq!(read(&section).unwrap().textures().collect::<Vec<_>>(), ["a"]);
}

#[test]
fn one_key() {
    let section = content_p();
    assert_eq!(section.len(), 92);
    assert_eq!([20, 56, 68, 80].map(|at| number(&section, at)), [24, 36, 12, 12]);
    let record = read(&section).unwrap();
    let content = record.contents().next().unwrap();
    assert_eq!((content.name, content.anim_type, content.infos.len()), ("P", AnimType::Pane, 1));
    let Some(AnimInfo::Standard { anim_type, mut targets }) = content.infos.clone().next() else { panic!() };
    assert_eq!(anim_type, AnimInfoType::VisibilityAnim);
    let target = targets.next().unwrap();
    assert_eq!(target.target, TargetIndex { anim_type, number: 0 });
    assert!(matches!(target.curve, Curve::Step(_)));
    assert_eq!(target.curve.get(0), Some(Key::Step(StepKey { frame: 0.0, value: 1 })));
    assert_eq!(target.curve.get(1), None);
    assert!(targets.next().is_none());
}

#[test]
fn a_key_edited_and_taken_back() {
    let before = content_p();
    let mut section = Section::new(before.clone()).unwrap();
    let change = Change::Key(TARGET, 0, Key::Step(StepKey { frame: 0.0, value: 0 }));
    assert_eq!(section.edit(&change), Ok(1));
    let differ: Vec<usize> = (0..92).filter(|&i| section.bytes()[i] != before[i]).collect();
    assert_eq!(differ, [88]);
    assert_eq!(section.journal().words()[..5], [84, 6, 0, 1, 0]);
    let entry = section.journal().entries().next().unwrap().unwrap();
    assert_eq!((entry.offset(), entry.old()), (84, &[0, 0, 0, 0, 1, 0][..]));
    assert_eq!(section.undo(), Ok(0));
    assert_eq!(section.bytes(), before);
}

#[test]
fn extended_data() {
    let section = datum_k();
    assert_eq!(section.len(), 112);
    assert_eq!(number(&section, 24 + 36), 80);
    let record = read(&section).unwrap();
    let content = record.contents().next().unwrap();
    assert_eq!(content.anim_type, AnimType::User);
    let info = content.infos.clone().next().unwrap();
    assert_eq!(info.anim_type(), AnimInfoType::ExtendedUserDataAnim);
    let AnimInfo::ExtendedUserData { mut data } = info else { panic!() };
    let datum = data.next().unwrap();
    assert_eq!((datum.header_size, datum.unk_1, datum.unk_2, datum.unk_3), (24, 5, 6, 7));
    assert_eq!((datum.base_count, datum.key), (1, "k"));
    assert_eq!(datum.values.map(|list| list.get(0).map(f32::to_bits)), [Some(10), Some(20), Some(30)]);
}

#[test]
fn ill_formed_texts() {
    let ill: [(&[u8], &str); 3] =
        [(b"\xE2\x82", "\u{FFFD}"), (b"\xC0\x80", "\u{FFFD}\u{FFFD}"), (b"\xED\xA0\x80", "\u{FFFD}\u{FFFD}\u{FFFD}")];
    for (bytes, decoded) in ill {
        let mut section = written(&[0, 0, 1, 0, 3], b"abc");
        section[24..27].fill(0);
        section[24..24 + bytes.len()].copy_from_slice(bytes);
        assert_eq!(read(&section).unwrap().textures().collect::<Vec<_>>(), [decoded]);
        assert_eq!(text(&section, 0).unwrap(), decoded);
        assert!(matches!(text(&section, 0), Ok(std::borrow::Cow::Owned(_))));
    }
    let section = written(&[0, 0, 1, 0, 3], b"abc");
    assert!(matches!(text(&section, 0), Ok(std::borrow::Cow::Borrowed("abc"))));
}

/// A texture's name, and how many characters are replaced in it.
#[test]
fn replaced_characters_of_a_text() {
    for (bytes, replaced) in [
        (&b"abcd"[..], 0),
        (b"\xE2\x82", 1),
        (b"\xC0\x80", 2),
        (b"\xED\xA0\x80", 3),
        // three bytes that become three
        (b"\xF0\x90\x80", 1),
        // a U+FFFD that was there, alone and beside one that was not
        (b"\xEF\xBF\xBD", 0),
        (b"\xEF\xBF\xBD\xFF", 1),
        (b"\xEF\xBF\x80\xBD", 1),
        // names in Latin-1 and in Shift-JIS
        (b"Gr\xF6\xDF", 2),
        (b"\x89\xE6\x96\xCA", 3),
    ] {
        let mut section = written(&[0, 0, 1, 0, 4], b"abcd");
        section[24..28].fill(0);
        section[24..24 + bytes.len()].copy_from_slice(bytes);
        let found = text_counted(&section, 0).unwrap();
        assert_eq!(found.text, String::from_utf8_lossy(bytes), "{bytes:02X?}");
        assert_eq!(found.replaced, replaced, "{bytes:02X?}");
        assert_eq!(matches!(found.text, std::borrow::Cow::Owned(_)), replaced > 0);
        let reading = read_counted(&section, 5, found.text.len()).unwrap();
        assert_eq!(reading.replaced, replaced, "{bytes:02X?}");
        // the calls that do not say the count
        assert_eq!(text(&section, 0).unwrap(), found.text);
        assert_eq!(read(&section).unwrap(), reading.record);
        assert_eq!(read_within(&section, 5, found.text.len()).unwrap(), reading.record);
    }
}

/// The sum over textures, names and keys of extended data.
#[test]
fn replaced_characters_of_a_section() {
    let (words, texts) = mixture();
    let section = Section::new(written(&words, texts)).unwrap();
    let reading = section.read_counted(1_000, 1_000).unwrap();
    assert_eq!((reading.record, reading.replaced), (section.read().unwrap(), 0));
    // one text after another made ill-formed: each byte FF is a subpart of its own
    let (mut bytes, _) = section.into_parts();
    let mut before = 0;
    for name in [&b"icon"[..], b"P_base", b"\xC3\xA9m", b"\xE2\x82\xAC"] {
        let at = bytes.windows(name.len()).position(|part| part == name).unwrap();
        bytes[at..at + name.len()].fill(0xFF);
        let reading = read_counted(&bytes, 1_000, 1_000).unwrap();
        assert_eq!(reading.replaced, before + name.len());
        before = reading.replaced;
        let count = |text| text_counted(&bytes, text).map(|found| found.replaced);
        assert_eq!((0..).map_while(|text| count(text).ok()).sum::<usize>(), before);
    }
    assert_eq!(Section::new(bytes).unwrap().read_counted(1_000, 1_000).unwrap().replaced, before);
}

/// A content's name ends at its first zero, or is cut behind its 28 bytes; what lies behind is not counted.
#[test]
fn replaced_characters_of_a_name() {
    let mut section = content_p();
    section[24] = 0x80;
    let reading = read_counted(&section, 15, 3).unwrap();
    assert_eq!((reading.record.words().len(), reading.record.texts(), reading.replaced), (15, "\u{FFFD}", 1));
    assert_eq!(read_counted(&section, 15, 2), Err(Refusal::TablesTooShort { words: 15, texts: 3 }));
    // behind the zero
    section[24..28].copy_from_slice(b"P\0\x80\x80");
    assert_eq!(read_counted(&section, 15, 1).unwrap().replaced, 0);
    // cut inside a character: what is left of it counts once
    for (end, replaced) in [(&b"\xC3\xA9"[..], 0), (b"\xC3", 1), (b"\xE2\x82", 1), (b"\xF0\x9F\x8E", 1)] {
        section[24..52].fill(b'a');
        section[52 - end.len()..52].copy_from_slice(end);
        assert_eq!(read_counted(&section, 99, 99).unwrap().replaced, replaced, "{end:02X?}");
    }
}

/// A text that two offsets lead to is twice in the record.
#[test]
fn replaced_characters_count_as_often_as_the_record_has_them() {
    let mut section = written(&[0, 0, 2, 0, 2, 2], b"abcd");
    let first = number(&section, 20);
    section[24..28].copy_from_slice(&first.to_le_bytes());
    section[28..30].copy_from_slice(b"\xC0\x80");
    let reading = read_counted(&section, 99, 99).unwrap();
    assert_eq!(reading.record.textures().collect::<Vec<_>>(), ["\u{FFFD}\u{FFFD}"; 2]);
    assert_eq!(reading.replaced, 4);
    assert_eq!([0, 1].map(|text| text_counted(&section, text).unwrap().replaced), [2, 2]);
}

#[test]
fn curves_and_types_above_the_last() {
    let mut section = content_p();
    section[74] = 3;
    section[76] = 9;
    section[53] = 4;
    let record = read(&section).unwrap();
    let content = record.contents().next().unwrap();
    assert_eq!(content.anim_type, AnimType::StateMachine);
    let Some(AnimInfo::Standard { mut targets, .. }) = content.infos.clone().next() else { panic!() };
    let curve = targets.next().unwrap().curve;
    assert!(matches!(curve, Curve::Constant(_)) && curve.is_empty());
    section[53] = 5;
    assert_eq!(read(&section).unwrap().contents().next().unwrap().anim_type, AnimType::Pane);
}

#[test]
fn a_name_of_28_bytes() {
    let words = |len| vec![0, 0, 0, 1, len, 0, 0];
    assert!(Record::new(words(28), vec![b'n'; 28]).is_ok());
    assert_eq!(Record::new(words(29), vec![b'n'; 29]), Err(Refusal::BadWord { index: 4 }));
}

#[test]
fn the_last_step_key_without_its_skipped_bytes() {
    let mut section = content_p();
    section.truncate(90);
    section[4] = 90;
    assert_eq!(read(&section).unwrap(), read(&content_p()).unwrap());
}

#[test]
fn what_is_written_is_read_back() {
    let (words, texts) = mixture();
    let record = Record::new(words.clone(), texts.to_vec()).unwrap();
    let section = write(&record).unwrap();
    assert_eq!(needs(&section), Ok((words.len(), texts.len())));
    let back = read(&section).unwrap();
    assert_eq!(back, record);
    assert_eq!(back.words(), words);
    assert_eq!(back.texts().as_bytes(), texts);
    assert_eq!(back.write().unwrap(), section);
    assert_eq!(back.into_parts(), (words, String::from_utf8(texts.to_vec()).unwrap()));
}

#[test]
fn the_parts_of_a_mixture() {
    let (words, texts) = mixture();
    let record = Record::new(words, texts.to_vec()).unwrap();
    assert_eq!(record.textures().collect::<Vec<_>>(), ["icon", ""]);
    let contents: Vec<_> = record.contents().collect();
    assert_eq!(contents.iter().map(|content| content.name).collect::<Vec<_>>(), ["P_base", "\u{e9}m", ""]);

    let infos: Vec<_> = contents[0].infos.clone().collect();
    let AnimInfo::Standard { targets, .. } = &infos[0] else { panic!() };
    let targets: Vec<_> = targets.clone().collect();
    assert_eq!(targets[0].target.to_string(), "SizeY");
    let keys: Vec<_> = targets[0].curve.keys().collect();
    assert_eq!(
        keys,
        [
            Key::Hermite(HermiteKey { frame: 0.0, value: 1.5, slope: -2.0 }),
            Key::Hermite(HermiteKey { frame: 30.0, value: f32::INFINITY, slope: -0.0 }),
        ]
    );
    // by its bits: a slope of 0.0 is another
    assert_ne!(keys[1], Key::Hermite(HermiteKey { frame: 30.0, value: f32::INFINITY, slope: 0.0 }));
    assert_eq!((targets[1].layer, targets[1].target.name()), (255, "TranslateY"));
    assert_eq!(targets[1].curve.get(0), Some(Key::Constant(f32::from_bits(0x7F80_0001))));
    let AnimInfo::Standard { targets, .. } = &infos[1] else { panic!() };
    let target = targets.clone().next().unwrap();
    assert_eq!(target.target.name(), "Color4Alpha");
    assert_eq!(target.curve.get(0), Some(Key::Step(StepKey { frame: 10.0, value: 65_535 })));

    let Some(AnimInfo::Standard { anim_type, mut targets }) = contents[1].infos.clone().next() else { panic!() };
    assert_eq!(anim_type, AnimInfoType::Invalid);
    assert_eq!(targets.next().unwrap().target.name(), "Invalid");

    let Some(AnimInfo::ExtendedUserData { data }) = contents[2].infos.clone().next() else { panic!() };
    let data: Vec<_> = data.collect();
    assert_eq!((data[0].key, data[1].key), ("\u{20ac}", ""));
    let lists = data[0].values.map(|list| list.iter().map(f32::to_bits).collect::<Vec<_>>());
    assert_eq!(lists, [vec![1, 2], vec![3, 4], vec![5, 0xFFFF_FFFF]]);
    assert!(data[1].values.iter().all(|list| list.is_empty()));
}

/// Each field is changed and then taken back; what is read in between is the record with that word changed, and what stands
/// in the field is what was put there.
#[test]
fn every_field() {
    let (words, texts) = mixture();
    let before = Record::new(words.clone(), texts.to_vec()).unwrap().write().unwrap();
    let step = TargetPlace { info: 1, ..TARGET };
    let constant = TargetPlace { target: 1, ..TARGET };
    let value = ValuePlace { content: 2, info: 0, datum: 0, list: 2, index: 1 };
    let hermite = HermiteKey { frame: 1.0, value: f32::from_bits(0xFFC0_0001), slope: 3.0 };
    // the words that each change sets, the first found by its place in `mixture`
    let changes: [(Change, usize, &[u32]); 9] = [
        (Change::FrameCount(7), 0, &[7]),
        (Change::Looping(false), 1, &[0]),
        (Change::Layer(TARGET, 9), 11, &[9]),
        (Change::Target(TARGET, 3), 12, &[3]),
        (Change::Key(TARGET, 1, Key::Hermite(hermite)), 18, &[0x3F80_0000, 0xFFC0_0001, 0x4040_0000]),
        (Change::Key(constant, 0, Key::Constant(2.0)), 25, &[0x4000_0000]),
        (Change::Key(step, 0, Key::Step(StepKey { frame: 4.0, value: 513 })), 32, &[0x4080_0000, 513]),
        (Change::Target(TargetPlace { content: 1, ..TARGET }, 255), 40, &[255]),
        (Change::Value(value, 1.0), 58, &[0x3F80_0000]),
    ];
    let mut section = Section::new(before.clone()).unwrap();
    let mut expected = words.clone();
    for (i, (change, at, new)) in changes.iter().enumerate() {
        assert_eq!(section.edit(change), Ok(i + 1), "{change:?}");
        expected[*at..at + new.len()].copy_from_slice(new);
        assert_eq!(section.read().unwrap().words(), expected, "{change:?}");
        assert_eq!(section.field_at(change.place()), Ok(*change));
    }
    assert_eq!(section.journal().entries().flatten().count(), changes.len());
    assert_eq!(section.undo_all(), Ok(changes.len()));
    assert_eq!(section.undo_all(), Ok(0));
    assert_eq!(section.bytes(), before);
}

/// The fields of a record with what stands in them, and the places one past the last of each list.
fn fields(record: &Record) -> (Vec<Change>, Vec<Place>) {
    let mut there = vec![Change::FrameCount(record.frame_count()), Change::Looping(record.is_looping())];
    let mut past = vec![Place::Layer(TargetPlace { content: record.contents().len(), ..TARGET })];
    for (content, AnimContent { infos, .. }) in record.contents().enumerate() {
        past.push(Place::Target(TargetPlace { content, info: infos.len(), target: 0 }));
        for (info, parts) in infos.enumerate() {
            match parts {
                AnimInfo::Standard { targets, .. } => {
                    past.push(Place::Layer(TargetPlace { content, info, target: targets.len() }));
                    past.push(Place::Value(ValuePlace { content, info, datum: 0, list: 0, index: 0 }));
                    for (target, AnimTarget { layer, target: number, curve }) in targets.enumerate() {
                        let place = TargetPlace { content, info, target };
                        there.push(Change::Layer(place, layer));
                        there.push(Change::Target(place, number.number));
                        there.extend(curve.keys().enumerate().map(|(i, key)| Change::Key(place, i, key)));
                        past.extend([curve.len(), usize::MAX].map(|key| Place::Key(place, key)));
                    }
                }
                AnimInfo::ExtendedUserData { data } => {
                    past.push(Place::Value(ValuePlace { content, info, datum: data.len(), list: 0, index: 0 }));
                    past.push(Place::Target(TargetPlace { content, info, target: 0 }));
                    for (datum, parts) in data.enumerate() {
                        past.push(Place::Value(ValuePlace { content, info, datum, list: 3, index: 0 }));
                        for (list, values) in parts.values.iter().enumerate() {
                            let place = |index| ValuePlace { content, info, datum, list, index };
                            there.extend(values.iter().enumerate().map(|(i, value)| Change::Value(place(i), value)));
                            past.push(Place::Value(place(values.len())));
                        }
                    }
                }
            }
        }
    }
    (there, past)
}

/// The sections of the repository's samples, and those above.
fn samples() -> Vec<Vec<u8>> {
    let folder = concat!(env!("CARGO_MANIFEST_DIR"), "/../../crates/round_trip/samples");
    let files = std::fs::read_dir(folder).unwrap().map(|file| file.unwrap().path());
    let inputs = files.filter(|file| file.extension().is_some_and(|kind| kind == "in"));
    let mut sections: Vec<Vec<u8>> = inputs.map(|file| std::fs::read(file).unwrap()).collect();
    let (words, texts) = mixture();
    sections.extend([content_p(), datum_k(), written(&words, texts)]);
    sections
}

/// What stands in each field is what reading gives, and put in again it leaves the record as it was. Behind the last of
/// each list is nothing. A section that does not read is refused as reading refuses it.
#[test]
fn what_stands_in_every_field() {
    let (mut seen, mut refused) = (0, 0);
    for mut bytes in samples() {
        let record = match read(&bytes) {
            Ok(record) => record,
            Err(refusal) => {
                assert_eq!(field_at(&bytes, Place::FrameCount), Err(refusal));
                assert_eq!(field_at(&bytes, Place::Key(TARGET, 0)), Err(refusal));
                refused += 1;
                continue;
            }
        };
        let (there, past) = fields(&record);
        for field in &there {
            assert_eq!(field_at(&bytes, field.place()), Ok(*field));
        }
        for place in past {
            assert_eq!(field_at(&bytes, place), Err(Refusal::NoSuchPlace), "{place:?}");
        }
        let mut journal = Journal::new();
        for field in &there {
            edit(&mut bytes, &mut journal, field).unwrap();
        }
        assert_eq!(read(&bytes), Ok(record));
        seen += there.len();
    }
    assert!(seen > 100 && refused > 2, "{seen} fields, {refused} refused");
}

/// The byte of looping and a target's own number are not what the record has: that is what is said, and what an edit takes.
#[test]
fn what_stands_in_a_field_is_the_records() {
    let mut bytes = content_p();
    bytes[10] = 5;
    bytes[73] = 1;
    assert_eq!(field_at(&bytes, Place::Looping), Ok(Change::Looping(true)));
    assert_eq!(field_at(&bytes, Place::Target(TARGET)), Ok(Change::Target(TARGET, 0)));
    bytes[60] = b'f';
    assert_eq!(field_at(&bytes, Place::Target(TARGET)), Ok(Change::Target(TARGET, 255)));
    // the bytes behind a Step key's value are not its own
    bytes[90..].fill(0xFF);
    let key = Change::Key(TARGET, 0, Key::Step(StepKey { frame: 0.0, value: 1 }));
    assert_eq!(field_at(&bytes, key.place()), Ok(key));
    let mut section = Section::with_journal(bytes, Journal::new());
    for place in [Place::Looping, Place::Target(TARGET), key.place()] {
        section.edit(&section.field_at(place).unwrap()).unwrap();
    }
    assert_eq!([10, 73, 88, 90].map(|at| section.bytes()[at]), [1, 255, 1, 0xFF]);
}

/// A refusal is the one that is wanted, and says so; its number is noted.
fn is(met: &mut Vec<usize>, found: Refusal, wanted: Refusal, sentence: &str) {
    assert_eq!(found, wanted);
    assert_eq!(found.to_string(), sentence);
    met.push(found.number());
}

/// Each number of document 01 from 1 to 14.
#[test]
fn every_refusal() {
    let p = content_p();
    let mut met = Vec::new();

    let mut other = p.clone();
    other[3] = b'2';
    let refusal = Refusal::NotPai1 { letters: *b"pai2" };
    is(&mut met, read(&other).unwrap_err(), refusal, "the section's letters are \"pai2\" and not \"pai1\"");
    other[..4].copy_from_slice(b"\"\\\n\xFF");
    let sentence = r#"the section's letters are "\"\\\x0A\xFF" and not "pai1""#;
    assert_eq!(read(&other).unwrap_err().to_string(), sentence);

    let long = vec![0; LIMIT + 1];
    let refusal = Refusal::TooLong { length: LIMIT + 1 };
    is(&mut met, read(&long).unwrap_err(), refusal, "the section has 16777217 bytes, and at most 16777216 are read");

    let refusal = Refusal::PastEnd { offset: 0, requested: 4 };
    is(&mut met, read(b"").unwrap_err(), refusal, "the section asks for 4 bytes at offset 0, past its end");
    assert_eq!(read(&p[..6]), Err(Refusal::PastEnd { offset: 4, requested: 4 }));
    // an offset that leads a byte past the end
    let mut led = p.clone();
    led[4] += 1;
    let sentence = "the section asks for 1 byte at offset 92, past its end";
    assert_eq!(read(&led).unwrap_err().to_string(), sentence);

    let mut endless = written(&[0, 0, 1, 0, 3], b"abc");
    endless[27] = b'd';
    let refusal = Refusal::NoZero { start: 24 };
    is(&mut met, read(&endless).unwrap_err(), refusal, "the text at offset 24 has no zero byte at its end");

    // what stands in a field is refused as a reading is
    for section in [&other, &long, &led, &endless, &p[..6].to_vec()] {
        let refusal = read(section).unwrap_err();
        for place in [Place::FrameCount, Place::Looping, Place::Layer(TARGET), Place::Key(TARGET, 7)] {
            assert_eq!(field_at(section, place), Err(refusal));
        }
    }

    let refusal = Refusal::TablesTooShort { words: 15, texts: 1 };
    is(&mut met, read_within(&p, 14, 1).unwrap_err(), refusal, "the section's record needs 15 words and 1 text byte");
    assert_eq!(read_within(&p, 15, 0), Err(refusal));
    assert!(read_within(&p, 15, 1).is_ok());

    let refusal = Refusal::BadWord { index: 1 };
    let sentence = "word 1 of the record is missing, out of range or left over";
    is(&mut met, Record::new(vec![60, 2, 0, 0], vec![]).unwrap_err(), refusal, sentence);
    assert_eq!(Record::new(vec![60], vec![]), Err(refusal));
    assert_eq!(Record::new(vec![60, 1, 0, 0, 0], vec![]), Err(Refusal::BadWord { index: 4 }));

    let refusal = Refusal::BadText { index: 1 };
    let sentence = "byte 1 of the record's texts is missing, ill-formed, a zero or left over";
    is(&mut met, Record::new(vec![0, 0, 1, 0, 2], b"a\xFF".to_vec()).unwrap_err(), refusal, sentence);
    assert_eq!(Record::new(vec![0, 0, 1, 0, 2], b"a\0".to_vec()), Err(refusal));
    assert_eq!(Record::new(vec![0, 0, 1, 0, 2], b"a".to_vec()), Err(refusal));
    assert_eq!(Record::new(vec![0, 0, 1, 0, 1], b"ab".to_vec()), Err(refusal));

    let refusal = Refusal::OverLimit;
    let sentence = "the record's section would have more than 16777216 bytes";
    is(&mut met, Record::new(vec![0, 0, 1, 0, LIMIT as u32], vec![b'a'; LIMIT]).unwrap_err(), refusal, sentence);

    let mut out = [0; 19];
    let mut answer = [0; 3];
    pai1::raw::write(&[60, 1, 0, 0], &[], &mut out, &mut answer);
    assert_eq!((answer, out), ([9, 20, 0], [0; 19]));
    met.push(answer[0]);
    let sentence = "the record's section has 20 bytes, more than the output";
    assert_eq!(Refusal::OutputTooShort { length: 20 }.to_string(), sentence);

    let mut bytes = p.clone();
    let mut journal = Journal::bounded(1);
    let change = Change::Layer(TargetPlace { target: 1, ..TARGET }, 0);
    let sentence = "the section has no such text or field";
    is(&mut met, edit(&mut bytes, &mut journal, &change).unwrap_err(), Refusal::NoSuchPlace, sentence);
    assert_eq!(field_at(&bytes, change.place()), Err(Refusal::NoSuchPlace));
    assert_eq!(text(&p, 1), Err(Refusal::NoSuchPlace));

    let sentence = "the field does not take this value";
    let change = Change::Key(TARGET, 0, Key::Constant(1.0));
    is(&mut met, edit(&mut bytes, &mut journal, &change).unwrap_err(), Refusal::Unfit, sentence);
    assert_eq!(edit(&mut bytes, &mut journal, &Change::Target(TARGET, 1)), Err(Refusal::Unfit));

    let sentence = "there is no edit to undo";
    is(&mut met, undo(&mut bytes, &mut journal).unwrap_err(), Refusal::NothingToUndo, sentence);
    assert_eq!(bytes, p);

    assert_eq!(edit(&mut bytes, &mut journal, &Change::FrameCount(1)), Ok(1));
    let edited = bytes.clone();
    let refusal = Refusal::JournalFull { capacity: 1 };
    let sentence = "the journal is full: it has room for 1 entry";
    is(&mut met, edit(&mut bytes, &mut journal, &Change::FrameCount(2)).unwrap_err(), refusal, sentence);
    assert_eq!(bytes, edited);

    let refusal = Refusal::BadJournal { count: 2 };
    let sentence = "the journal's last entry (2 in all) is not there, or its byte count is none of 1, 2, 4, 6 and 12, or \
                    its fill is not zero, or its bytes lie past the section";
    let mut short = Journal::of_words(journal.words().to_vec(), 2);
    is(&mut met, undo(&mut bytes, &mut short).unwrap_err(), refusal, sentence);
    // 3 bytes; fill that is not zero; bytes past the section's end
    for words in [[8, 3, 0, 0, 0], [8, 2, 0x1_0000, 0, 0], [91, 2, 0, 0, 0]] {
        let mut bad = Journal::of_words(words.to_vec(), 1);
        assert_eq!(undo(&mut bytes, &mut bad), Err(Refusal::BadJournal { count: 1 }));
        assert_eq!(bad.count(), 1);
    }
    assert_eq!(bytes, edited);

    met.sort();
    assert_eq!(met, (1..=14).collect::<Vec<_>>());
}

#[test]
fn a_record_that_was_read_and_is_not_written() {
    let mut section = content_p();
    section[24..52].fill(0x80);
    let record = read(&section).unwrap();
    assert_eq!(record.contents().next().unwrap().name, "\u{FFFD}".repeat(28));
    assert_eq!(record.write(), Err(Refusal::BadWord { index: 4 }));
}

/// A journal that grows never refuses an edit, and takes all of them back.
#[test]
fn many_edits() {
    let before = content_p();
    let mut section = Section::new(before.clone()).unwrap();
    for i in 0..1000 {
        assert_eq!(section.edit(&Change::FrameCount(i as u16)), Ok(i + 1));
    }
    let refused = section.clone();
    assert_eq!(section.edit(&Change::Target(TARGET, 200)), Err(Refusal::Unfit));
    assert_eq!(section.journal().words(), refused.journal().words());
    assert_eq!(section.undo(), Ok(999));
    assert_eq!(section.read().unwrap().frame_count(), 998);
    assert_eq!(section.undo_all(), Ok(999));
    let (bytes, journal) = section.into_parts();
    assert_eq!((bytes, journal.count()), (before, 0));
}

/// The journal of the trait `Default` is that of `new`: it grows.
#[test]
fn the_default_journal_grows() {
    let mut bytes = content_p();
    let mut journal = Journal::default();
    for i in 0..10 {
        assert_eq!(edit(&mut bytes, &mut journal, &Change::FrameCount(i as u16)), Ok(i + 1));
    }
    for left in (0..10).rev() {
        assert_eq!(undo(&mut bytes, &mut journal), Ok(left));
    }
    assert_eq!(bytes, content_p());
}

/// A journal that was kept goes on as it was: it grows, also where words are over, and takes back what it had.
#[test]
fn a_kept_journal_grows() {
    let before = content_p();
    for over in 0..5 {
        let mut bytes = before.clone();
        let mut journal = Journal::bounded(2);
        assert_eq!(edit(&mut bytes, &mut journal, &Change::FrameCount(1)), Ok(1));
        assert_eq!(edit(&mut bytes, &mut journal, &Change::FrameCount(2)), Ok(2));
        assert_eq!(edit(&mut bytes, &mut journal, &Change::FrameCount(3)), Err(Refusal::JournalFull { capacity: 2 }));
        let kept = [journal.words(), &vec![7; over]].concat();
        let mut journal = Journal::of_words(kept, journal.count());
        for i in 2..20 {
            assert_eq!(edit(&mut bytes, &mut journal, &Change::FrameCount(i as u16 + 1)), Ok(i + 1));
        }
        for left in (0..20).rev() {
            assert_eq!(undo(&mut bytes, &mut journal), Ok(left));
            assert_eq!(read(&bytes).unwrap().frame_count(), left as u16);
        }
        assert_eq!(bytes, before);
    }
}

/// A count above the room: no entry is made up for those that are missing, and nothing is asked for.
#[test]
fn a_kept_journal_without_its_entries() {
    for (words, count) in [(0, 1), (4, 1), (5, 2), (9, 2), (10, 1 << 60), (10, usize::MAX)] {
        let mut bytes = content_p();
        let mut journal = Journal::of_words(vec![0; words], count);
        let refusal = Refusal::JournalFull { capacity: words / 5 };
        assert_eq!(edit(&mut bytes, &mut journal, &Change::FrameCount(1)), Err(refusal));
        assert_eq!(undo(&mut bytes, &mut journal), Err(Refusal::BadJournal { count }));
        assert_eq!((bytes, journal.words(), journal.count()), (content_p(), &vec![0; words][..], count));
    }
}

/// An entry of another section's journal is restored where its bytes lie within the section: nothing tells it apart.
#[test]
fn a_journal_of_another_section() {
    let mut other = Section::new(content_p()).unwrap();
    other.edit(&Change::Key(TARGET, 0, Key::Step(StepKey { frame: 0.0, value: 0 }))).unwrap();
    let (_, journal) = other.into_parts();
    let entry = journal.entries().next().unwrap().unwrap();
    let mut section = Section::with_journal(datum_k(), journal);
    assert_eq!(section.undo(), Ok(0));
    let mut restored = datum_k();
    restored[entry.offset()..][..entry.old().len()].copy_from_slice(entry.old());
    assert_ne!(restored, datum_k());
    assert_eq!(section.bytes(), restored);
}

/// A section is read if its record fits what the caller is ready to hold.
#[test]
fn a_section_read_within_a_bound() {
    let section = Section::new(content_p()).unwrap();
    assert_eq!(section.read_within(15, 1), section.read());
    for (words, texts) in [(14, 1), (15, 0), (0, 0)] {
        assert_eq!(section.read_within(words, texts), Err(Refusal::TablesTooShort { words: 15, texts: 1 }));
    }
}

/// A key that lies on its own target, so that the edit changes the curve: it goes where the reader goes, and the undo back.
#[test]
fn parts_that_overlap() {
    let mut before = content_p();
    before[74] = 0;
    before[80] = 0;
    let curve = |section: &Section| {
        let record = section.read().unwrap();
        let Some(AnimInfo::Standard { mut targets, .. }) = record.contents().next().unwrap().infos.next() else {
            panic!()
        };
        targets.next().unwrap().curve.get(0).unwrap()
    };
    let mut section = Section::new(before.clone()).unwrap();
    assert_eq!(curve(&section), Key::Constant(0.0));
    section.edit(&Change::Key(TARGET, 0, Key::Constant(f32::from_bits(0x0002_0000)))).unwrap();
    let [frame, value, slope] = [0x0002_0000, 1, 0].map(f32::from_bits);
    assert_eq!(curve(&section), Key::Hermite(HermiteKey { frame, value, slope }));
    section.undo().unwrap();
    assert_eq!(section.bytes(), before);
}

#[test]
fn names_of_letters_and_targets() {
    let numbers = [
        (b"FLCC", 16),
        (b"FLCT", 2),
        (b"FLPA", 10),
        (b"FLVC", 17),
        (b"FLVI", 1),
        (b"FLDS", 19),
        (b"FLMT", 5),
        (b"FLPS", 52),
        (b"FLWN", 4),
        (b"FSMA", 1),
        (b"FLAC", 1),
        (b"FLFS", 7),
        (b"FLIM", 3),
        (b"FLMC", 28),
        (b"FLTS", 5),
        (b"FLTP", 1),
        (b"FTBR", 7),
        (b"FVGA", 1),
    ];
    for (letters, count) in numbers {
        let anim_type = AnimInfoType::of_letters(*letters);
        assert_eq!((anim_type.letters(), anim_type.target_names().len()), (*letters, count));
        assert_eq!(TargetIndex { anim_type, number: count as u8 }.name(), "Invalid");
    }
    assert_eq!(AnimInfoType::ALL.len(), numbers.len() + 2);
    assert_eq!(AnimInfoType::of_letters(*b"FLEU"), AnimInfoType::ExtendedUserDataAnim);
    assert_eq!(AnimInfoType::of_letters(*b"flvi"), AnimInfoType::Invalid);
}

/// The part that three numbers say, of the section or of the scratch: every place of short lists, and the largest numbers.
#[test]
fn parts_of_two_lists() {
    let (section, scratch) = (b"section", b"text");
    let numbers: Vec<usize> = (0..10).chain([usize::MAX - 1, usize::MAX]).collect();
    for source in [0, 1, 2, usize::MAX] {
        let list: &[u8] = [&section[..], &scratch[..], &[]][source.min(2)];
        for &start in &numbers {
            for &len in &numbers {
                let end = start.checked_add(len).filter(|&end| end <= list.len());
                let part = end.map_or(&[][..], |end| &list[start..end]);
                for room in 0..10 {
                    let mut out = vec![b'.'; room];
                    let said = pai1::raw::text_part(section, scratch, source, start, len, &mut out);
                    let fits = room.min(part.len());
                    let stored = [&part[..fits], &vec![b'.'; room - fits]].concat();
                    assert_eq!((said, out), (part.len(), stored), "{source} {start} {len} {room}");
                }
            }
        }
    }
}
