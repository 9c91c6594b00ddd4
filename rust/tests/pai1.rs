//! The crate pai1 beside the reference: what it reads off a record, and what it calls things.
use compare::bflan::anim_info::{AnimInfo, AnimInfoType, PaneAnimInfo};
use compare::bflan::curves::Curve;
use compare::bflan::file::BflanSections;
use compare::bflan::targets::TargetIndex;
use compare::calls::change;
use compare::change::Place;
use compare::chars::invalid_chunks;
use compare::layout::{Rules, walk};
use compare::parse;
use compare::record::values_at;
use compare::sections::{Maker, READABLE};

/// The name inside of, say, `PaneSrt(TranslateX)`.
fn name(target: &TargetIndex) -> String {
    let shown = format!("{target:?}");
    shown.split(['(', ')']).nth(1).unwrap_or(&shown).to_owned()
}

#[test]
fn names() {
    for kind in pai1::AnimInfoType::ALL {
        let letters = AnimInfoType::from(u32::from_le_bytes(kind.letters()));
        assert_eq!(kind.to_string(), format!("{letters:?}"));
        for number in 0..=255 {
            let target = TargetIndex::resolve(&letters, number);
            if target.to_raw() == number {
                let here = pai1::TargetIndex { anim_type: *kind, number };
                assert_eq!(here.name(), name(&target), "{kind} {number}");
            } else {
                assert!(number as usize >= kind.target_names().len(), "{kind} {number}");
            }
        }
    }
}

fn keys(curve: &Curve) -> Vec<pai1::Key> {
    match curve {
        Curve::Constant(keys) => keys.iter().map(|&value| pai1::Key::Constant(value)).collect(),
        Curve::Step(keys) => {
            keys.iter().map(|key| pai1::Key::Step(pai1::StepKey { frame: key.frame, value: key.value })).collect()
        }
        Curve::Hermite(keys) => {
            let of = |key: &compare::bflan::curves::HermiteKey| pai1::HermiteKey {
                frame: key.frame,
                value: key.value,
                slope: key.slope,
            };
            keys.iter().map(|key| pai1::Key::Hermite(of(key))).collect()
        }
    }
}

fn bits(values: impl Iterator<Item = f32>) -> Vec<u32> {
    values.map(f32::to_bits).collect()
}

/// Every part of the record under the reference's name for it. Returns how many keys and values there were.
fn same(here: &pai1::Record, there: &PaneAnimInfo) -> usize {
    let mut seen = 0;
    assert_eq!((here.frame_count(), here.is_looping()), (there.frame_count, there.is_looping));
    assert!(here.textures().eq(&there.textures));
    assert_eq!(here.contents().len(), there.contents.len());
    for (here, there) in here.contents().zip(&there.contents) {
        assert_eq!(here.name, there.name);
        assert_eq!(here.anim_type.to_string(), format!("{:?}", there.anim_type));
        assert_eq!(here.infos.len(), there.infos.len());
        for (here, there) in here.infos.zip(&there.infos) {
            match (here, there) {
                (
                    pai1::AnimInfo::Standard { anim_type, targets },
                    AnimInfo::Standard { anim_type: kind, targets: others },
                ) => {
                    assert_eq!(anim_type.to_string(), format!("{kind:?}"));
                    assert_eq!(targets.len(), others.len());
                    for (here, there) in targets.zip(others) {
                        assert_eq!((here.layer, here.target.number), (there.layer, there.target.to_raw()));
                        assert_eq!(here.target.name(), name(&there.target));
                        let keys = keys(&there.curve);
                        assert!(here.curve.keys().eq(keys.iter().copied()));
                        seen += keys.len();
                    }
                }
                (pai1::AnimInfo::ExtendedUserData { data }, AnimInfo::ExtendedUserData { data: others, .. }) => {
                    assert_eq!(data.len(), others.len());
                    for (here, there) in data.zip(others) {
                        assert_eq!(
                            (here.header_size, here.unk_1, here.unk_2, here.base_count, here.unk_3, here.key),
                            (
                                there.header_size,
                                there.unk_1,
                                there.unk_2,
                                there.base_count,
                                there.unk_3,
                                there.key.as_str()
                            )
                        );
                        for (here, there) in here.values.iter().zip(&there.values) {
                            assert_eq!(bits(here.iter()), bits(there.iter().copied()));
                            seen += there.len();
                        }
                    }
                }
                (here, there) => panic!("{here:?} is not {there:?}"),
            }
        }
    }
    seen
}

#[test]
fn records() {
    let mut maker = Maker::new(20_261_116);
    for (kind, style, placing) in READABLE {
        let (mut read, mut seen) = (0, 0);
        for _ in 0..500 {
            let section = maker.section(style, placing).bytes;
            match (pai1::read(&section), parse(&section)) {
                (Ok(here), Ok(BflanSections::PaneAnimInfo(there))) => {
                    seen += same(&here, &there);
                    read += 1;
                }
                (here, there) => assert!(here.is_err() && there.is_err(), "{here:?} is not {there:?}"),
            }
        }
        assert!(read > 200 && seen > 500, "{kind}: {read} sections with {seen} keys and values are too few");
    }
}

/// How many characters are replaced in a section and in each of its texts, beside the standard library's count in the bytes
/// of the texts.
#[test]
fn replaced_characters() {
    let mut maker = Maker::new(20_261_118);
    let (mut ill, mut well) = (0, 0);
    for (_, style, placing) in READABLE {
        for _ in 0..300 {
            let section = maker.section(style, placing).bytes;
            let Ok(reading) = pai1::read_counted(&section, usize::MAX, usize::MAX) else { continue };
            let walked = walk(&section, &Rules::DOCUMENT, usize::MAX).unwrap();
            let mut sum = 0;
            for (number, place) in walked.places.iter().enumerate() {
                let bytes = place.bytes(&section);
                let found = pai1::text_counted(&section, number).unwrap();
                let wanted = invalid_chunks(bytes);
                assert_eq!((&*found.text, found.replaced), (&*String::from_utf8_lossy(bytes), wanted));
                assert_eq!(pai1::text(&section, number), Ok(found.text));
                sum += wanted;
            }
            assert_eq!(pai1::text(&section, walked.places.len()), Err(pai1::Refusal::NoSuchPlace));
            assert_eq!(reading.replaced, sum);
            assert_eq!(pai1::read(&section), Ok(reading.record));
            *(if sum > 0 { &mut ill } else { &mut well }) += 1;
        }
    }
    assert!(ill > 500 && well > 300, "{ill} with replaced characters, {well} without");
}

/// A place in the crate's words.
fn place_of(place: &Place) -> pai1::Place {
    let target = |[content, info, target]: [usize; 3]| pai1::TargetPlace { content, info, target };
    match *place {
        Place::FrameCount => pai1::Place::FrameCount,
        Place::Looping => pai1::Place::Looping,
        Place::Layer(place) => pai1::Place::Layer(target(place)),
        Place::Target(place) => pai1::Place::Target(target(place)),
        Place::Key([content, info, at, key]) => pai1::Place::Key(target([content, info, at]), key),
        Place::Value([content, info, datum, list, index]) => {
            pai1::Place::Value(pai1::ValuePlace { content, info, datum, list, index })
        }
    }
}

/// The numbers of a field as the crate says it.
fn values_of(change: &pai1::Change) -> Vec<u32> {
    match *change {
        pai1::Change::FrameCount(value) => vec![value.into()],
        pai1::Change::Looping(value) => vec![value.into()],
        pai1::Change::Layer(_, value) | pai1::Change::Target(_, value) => vec![value.into()],
        pai1::Change::Key(_, _, pai1::Key::Constant(value)) | pai1::Change::Value(_, value) => vec![value.to_bits()],
        pai1::Change::Key(_, _, pai1::Key::Step(key)) => vec![key.frame.to_bits(), key.value.into()],
        pai1::Change::Key(_, _, pai1::Key::Hermite(key)) => {
            [key.frame, key.value, key.slope].map(f32::to_bits).to_vec()
        }
    }
}

/// What stands at places that are there and that are not, beside the reference's record.
#[test]
fn fields() {
    let mut maker = Maker::new(20_261_117);
    let (mut there, mut none) = (0, 0);
    for (_, style, placing) in READABLE {
        for _ in 0..300 {
            let section = maker.section(style, placing).bytes;
            let Ok(BflanSections::PaneAnimInfo(record)) = parse(&section) else { continue };
            let contents = walk(&section, &Rules::DOCUMENT, usize::MAX).unwrap().contents;
            for _ in 0..10 {
                let asked = change(&mut maker, &contents).place();
                let (place, wanted) = (place_of(&asked), values_at(&record, &asked));
                match pai1::field_at(&section, place) {
                    Ok(found) => {
                        assert_eq!((found.place(), Some(values_of(&found))), (place, wanted));
                        there += 1;
                    }
                    Err(refusal) => {
                        assert_eq!((refusal, wanted), (pai1::Refusal::NoSuchPlace, None));
                        none += 1;
                    }
                }
            }
        }
    }
    assert!(there > 1000 && none > 1000, "{there} there, {none} not");
}
