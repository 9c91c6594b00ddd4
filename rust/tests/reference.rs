//! The reference builds and does what document 01's first exercises say: everything compared later leans on it.
use compare::bflan::anim_info::{AnimContent, AnimInfo, AnimInfoType, AnimType, PaneAnimInfo};
use compare::bflan::curves::{Curve, StepKey};
use compare::bflan::file::BflanSections;
use compare::bflan::targets::{AnimTarget, TargetIndex};
use compare::core::FormatError;
use compare::layout::TARGET_NUMBERS;
use compare::{parse, serialize};

/// Parses `bytes`, which must be a pai1 section that is written back as it is, and hands out the record.
fn both_ways(bytes: &[u8]) -> PaneAnimInfo {
    let Ok(BflanSections::PaneAnimInfo(info)) = parse(bytes) else {
        panic!("not read as a pai1 section: {bytes:02X?}")
    };
    assert_eq!(serialize(&info), bytes);
    info
}

fn word(bytes: &[u8], at: usize) -> u32 {
    u32::from_le_bytes(bytes[at..at + 4].try_into().unwrap())
}

#[test]
fn words_60_1_0_0() {
    let bytes = [0x70, 0x61, 0x69, 0x31, 0x14, 0, 0, 0, 0x3C, 0, 1, 0, 0, 0, 0, 0, 0x14, 0, 0, 0];
    let info = both_ways(&bytes);
    assert_eq!((info.frame_count, info.is_looping), (60, true));
    assert!(info.textures.is_empty() && info.contents.is_empty());
}

#[test]
fn texture_a() {
    let info = PaneAnimInfo { textures: vec!["a".to_owned()], ..Default::default() };
    let bytes = serialize(&info);
    assert_eq!(bytes.len(), 28);
    assert_eq!((word(&bytes, 4), word(&bytes, 16), word(&bytes, 20)), (28, 28, 4));
    assert_eq!(both_ways(&bytes), info);
}

/// Content `P`, Pane, FLVI, Step key (0.0, 1).
fn content_p() -> PaneAnimInfo {
    let target = AnimTarget {
        layer: 0,
        target: TargetIndex::resolve(&AnimInfoType::VisibilityAnim, 0),
        curve: Curve::Step(vec![StepKey { frame: 0.0, value: 1 }]),
    };
    let info = AnimInfo::Standard { anim_type: AnimInfoType::VisibilityAnim, targets: vec![target] };
    let content = AnimContent { name: "P".to_owned(), anim_type: AnimType::Pane, infos: vec![info] };
    PaneAnimInfo { contents: vec![content], ..Default::default() }
}

#[test]
fn content_p_with_a_step_key() {
    let info = content_p();
    let bytes = serialize(&info);
    assert_eq!(bytes.len(), 92);
    // the content table at 20 leads to the content at 24, that to the info at 60, and that to the target at 72
    assert_eq!((word(&bytes, 4), word(&bytes, 16), word(&bytes, 20)), (92, 20, 24));
    assert_eq!(&bytes[24..26], b"P\0");
    assert_eq!((word(&bytes, 24 + 32), &bytes[60..64]), (60 - 24, &b"FLVI"[..]));
    assert_eq!((word(&bytes, 60 + 8), word(&bytes, 72 + 8)), (72 - 60, 84 - 72));
    assert_eq!(bytes[84..92], [0, 0, 0, 0, 1, 0, 0, 0]);
    assert_eq!(both_ways(&bytes), info);
}

#[test]
fn ends_too_early() {
    for (bytes, at) in [(&b""[..], 0), (&b"pai1\x14\0"[..], 4)] {
        let Err(FormatError::UnexpectedEof { offset, requested_bytes }) = parse(bytes) else {
            panic!("read: {bytes:02X?}")
        };
        assert_eq!((offset, requested_bytes), (at, 4));
    }
}

/// The target numbers of each of the letters, as document 01 has them.
#[test]
fn target_numbers() {
    for (letters, number) in TARGET_NUMBERS {
        let code = u32::from_le_bytes(*letters);
        let kind = AnimInfoType::from(code);
        assert_eq!(u32::from(kind), code);
        for raw in 0..=255 {
            let wanted = if raw < number { raw } else { 0 };
            assert_eq!(TargetIndex::resolve(&kind, raw).to_raw(), wanted, "{letters:?} {raw}");
        }
    }
    let unlisted = AnimInfoType::from(u32::from_le_bytes(*b"XXXX"));
    assert_eq!(u32::from(unlisted), 0);
    assert_eq!(TargetIndex::resolve(&unlisted, 3).to_raw(), 255);
}
