//! The trials of editors find what they are there to find: document 01's definitions agree with its plain machine and with
//! what the reference reads, and each of these mistaken editors is caught.
mod slips;

use compare::change::{Call, Change, NewKey, Place};
use compare::editor::{ByLayout, Editor, edited, field, field_at, undone};
use compare::journal::ENTRY_WORDS;
use compare::layout::{Rules, walk};
use compare::proved::Proved;
use compare::reader::store;
use compare::sections::{Maker, content_p, fixed_sections, random_sections};
use compare::trials::{Kind, Trials};
use slips::slips;

const SEED: u64 = 6;

/// Calls on sections that the reference wrote, and on any.
fn tried(editor: &dyn Editor) -> Trials<'_> {
    let mut trials = Trials::new(editor, SEED);
    trials.on_written(20_000);
    fixed_sections(&mut |kind, section| trials.on_any(kind, section, 300_000));
    random_sections(&mut Maker::new(SEED), 1, &mut |kind, section| trials.on_any(kind, section, 300_000));
    trials
}

/// The definitions and the machine agree, and the trials have every outcome that they can have.
#[test]
fn the_definitions_agree_with_the_machine() {
    let trials = tried(&ByLayout);
    assert_eq!(trials.differences, 0, "{:?}", trials.smallest.map(|(_, what)| what));
    let outcomes = |kinds: &[Kind], name: &str| {
        let of = kinds.iter().filter(|kind| kind.name.starts_with(name));
        of.fold([0; 15], |sum: [u64; 15], kind| std::array::from_fn(|i| sum[i] + kind.outcomes[i]))
    };
    let written = outcomes(&trials.kinds, "written");
    assert!([0, 10, 11, 12, 13].iter().all(|&number| written[number] > 200), "{written:?}");
    assert!([1, 2, 3, 4, 14].iter().all(|&number| written[number] == 0), "{written:?}");
    let all = outcomes(&trials.kinds, "");
    assert!([1, 3, 4, 14].iter().all(|&number| all[number] > 200), "{all:?}");
    for name in Call::KINDS {
        let of = outcomes(&trials.calls, name);
        let expected: &[usize] = match name {
            "undo" => &[0, 13, 14],
            "frame count" | "looping" => &[0, 1, 3, 4, 11, 12],
            "extended value" => &[0, 1, 3, 4, 10, 12],
            "field_at: frame count" | "field_at: looping" => &[0, 1, 3, 4],
            _ if name.starts_with("field_at") => &[0, 1, 3, 4, 10],
            _ => &[0, 1, 3, 4, 10, 11, 12],
        };
        let seen: Vec<usize> = (0..15).filter(|&number| of[number] > 0).collect();
        assert_eq!(seen, expected, "{name}: {of:?}");
    }
    let calls = |kinds: &[Kind]| kinds.iter().map(|kind| kind.calls).sum::<u64>();
    let (changes, fields) = trials.calls.split_at(Call::EDITS + 1);
    assert!(calls(fields) >= calls(changes));
}

slips! {
    /// What document 01 throws out, and two editors that touch bytes that are not the field's.
    THROWN_OUT:
        WritesNothing,
        WritesTheFirstOnly,
        SaysNothingToUndo,
        SaysFull,
        KeepsTheCount,
        TakesEightBytesForAStepKey,
        WritesAByteBehind;
    /// What else an editor can do wrong.
    OTHERS:
        KeepsOtherBytes,
        KeepsTheNewBytes,
        LeavesTheSameOut,
        ClearsTheEntryTakenBack,
        AllowsATargetsNumberItself,
        QuietsNaNs,
        TakesLoopingRaw,
        CutsTheFrameCount,
        CutsAStepValue,
        CutsPlaces,
        JudgesTheJournalFirst,
        JudgesTheValueFirst,
        IsFullOneEarly,
        WritesTheJournalsEnd,
        EditsWhatDoesNotRead,
        UndoesTheFirst,
        TakesAnyByteCount,
        LeavesTheFillUntested,
        UndoesPastTheEnd,
        FindsTheJournalBadFirst,
        CutsTheCount,
        AnswersWithoutTheCapacity,
        ChangesTheJournalWhereRefused,
        WritesBehindTheSection,
        AnswersAThirdNumber;
    /// What can go wrong in saying what stands in a field, seen beside the machine.
    SHOWN:
        ShowsTheNeighbourKey,
        ShowsTheFirstValue,
        ShowsTheLayerForTheTarget,
        ShowsUnlistedTargetsAsZero,
        ShowsTheSlopeFirst,
        ShowsAKeyAsConstant,
        ShowsAKeyThatIsNotThere,
        ShowsNoKey,
        ShowsQuietNaNs,
        ShowsASixthNumber,
        ShowsNoZerosBehind;
    /// The same, seen on sections that the reference does not write, or that do not read.
    SHOWN_OF_ANY:
        ShowsLoopingRaw,
        ShowsTargetsRaw,
        ShowsSkippedBytes,
        ShowsAHeadThatDoesNotRead,
        WritesLoopingAsRead;
}

struct Slipping(Slip);

/// The change with its numbers cut.
fn cut(slip: Slip, change: &Change) -> Change {
    let low = |number: usize| number as u32 as usize;
    match (slip, *change) {
        (Slip::CutsTheFrameCount, Change::FrameCount(value)) => Change::FrameCount(value & 0xFFFF),
        (Slip::TakesLoopingRaw, Change::Looping(value)) => Change::Looping((value != 0) as u32),
        (Slip::CutsPlaces, Change::Layer(place, value)) => Change::Layer(place.map(low), value),
        (Slip::CutsAStepValue, Change::Key(place, NewKey::Step { frame, value })) => {
            Change::Key(place, NewKey::Step { frame, value: value & 0xFFFF })
        }
        (Slip::QuietsNaNs, Change::Value(place, bits)) if f32::from_bits(bits).is_nan() => {
            Change::Value(place, bits | 0x0040_0000)
        }
        (_, same) => same,
    }
}

impl Editor for Slipping {
    fn edit(&self, section: &mut [u8], journal: &mut [u32], count: usize, change: &Change, answer: &mut [usize]) {
        let slip = self.0;
        let (before, kept) = (section.to_vec(), journal.to_vec());
        let mut walked = walk(section, &Rules::DOCUMENT, usize::MAX).unwrap();
        let read = walked.outcome.is_ok();
        let in_head = matches!(change, Change::FrameCount(_) | Change::Looping(_)) && section.len() > 20;
        if matches!(slip, Slip::EditsWhatDoesNotRead) && in_head {
            walked.outcome = Ok(Default::default());
        }
        let change = &cut(slip, change);
        let capacity = journal.len() / ENTRY_WORDS;
        let mut numbers = edited(&walked, section, journal, count, change);
        let accepted = numbers[0] == 0;
        let field = field(&walked, change);
        match (slip, field) {
            (Slip::WritesNothing, _) => section.copy_from_slice(&before),
            (Slip::WritesTheFirstOnly, _) if count > 0 => section.copy_from_slice(&before),
            (Slip::SaysFull, _) if accepted => {
                section.copy_from_slice(&before);
                journal.copy_from_slice(&kept);
                numbers = [12, capacity, 0];
            }
            (Slip::TakesEightBytesForAStepKey, Some(field)) if accepted && field.size == 6 => {
                section[field.at + 6..field.at + 8].fill(0);
                journal[ENTRY_WORDS * count + 1] = 8;
            }
            (Slip::WritesAByteBehind, Some(field)) if accepted && field.at + field.size < section.len() => {
                section[field.at + field.size] ^= 1;
            }
            (Slip::KeepsOtherBytes, Some(field)) if accepted && field.size == 1 => {
                journal[ENTRY_WORDS * count + 2] = before[0] as u32;
            }
            (Slip::KeepsTheNewBytes, Some(field)) if accepted => {
                journal[ENTRY_WORDS * count + 2] =
                    field.new.unwrap().iter().take(4).rev().fold(0, |word, &byte| word << 8 | byte as u32);
            }
            (Slip::LeavesTheSameOut, _) if accepted && *section == before => {
                journal.copy_from_slice(&kept);
                numbers[1] = count;
            }
            (Slip::AllowsATargetsNumberItself, Some(field)) if numbers[0] == 11 && count < capacity => {
                if let Change::Target(place, number) = *change
                    && number > 0
                    && number < 256
                    && edited(&walked, section, journal, count, &Change::Target(place, number - 1))[0] == 0
                {
                    section[field.at] = number as u8;
                    numbers = [0, count + 1, 0];
                }
            }
            (Slip::JudgesTheJournalFirst, _) if read && count >= capacity => numbers = [12, capacity, 0],
            (Slip::JudgesTheValueFirst, None) if matches!(change, Change::Layer(_, 256..)) && read => {
                numbers = [11, 0, 0]
            }
            (Slip::IsFullOneEarly, _) if accepted && count + 1 == capacity => {
                section.copy_from_slice(&before);
                journal.copy_from_slice(&kept);
                numbers = [12, capacity, 0];
            }
            (Slip::WritesTheJournalsEnd, _) if accepted && journal.len() > ENTRY_WORDS * (count + 1) => {
                *journal.last_mut().unwrap() = 0;
            }
            (Slip::AnswersWithoutTheCapacity, _) if numbers[0] == 12 => numbers[1] = 0,
            (Slip::ChangesTheJournalWhereRefused, _) if !accepted && count < capacity => {
                journal[ENTRY_WORDS * count] = 0;
            }
            (Slip::WritesBehindTheSection, _) if accepted => unsafe { *section.as_mut_ptr().add(section.len()) ^= 1 },
            (Slip::AnswersAThirdNumber, _) if accepted => numbers[2] = 1,
            _ => {}
        }
        store(&numbers, answer);
    }

    fn undo(&self, section: &mut [u8], journal: &mut [u32], count: usize, answer: &mut [usize]) {
        let slip = self.0;
        let before = section.to_vec();
        let capacity = journal.len() / ENTRY_WORDS;
        let entry = |journal: &[u32]| journal[ENTRY_WORDS * (count - 1)..][..ENTRY_WORDS].to_vec();
        let mut numbers = undone(section, journal, count);
        let accepted = numbers[0] == 0;
        match slip {
            Slip::SaysNothingToUndo if accepted => {
                section.copy_from_slice(&before);
                numbers = [13, 0, 0];
            }
            Slip::KeepsTheCount if accepted => numbers[1] = count,
            Slip::ClearsTheEntryTakenBack if accepted => journal[ENTRY_WORDS * (count - 1)..][..ENTRY_WORDS].fill(0),
            Slip::UndoesTheFirst if accepted => {
                section.copy_from_slice(&before);
                undone(section, journal, 1);
            }
            Slip::TakesAnyByteCount if numbers[0] == 14 && count <= capacity => {
                let words = entry(journal);
                let (at, size) = (words[0] as usize, words[1] as usize);
                if size <= 12 && at + size <= section.len() {
                    let bytes: Vec<u8> = words[2..].iter().flat_map(|word| word.to_le_bytes()).collect();
                    section[at..at + size].copy_from_slice(&bytes[..size]);
                    numbers = [0, count - 1, 0];
                }
            }
            Slip::LeavesTheFillUntested if numbers[0] == 14 && count <= capacity => {
                let mut words = entry(journal);
                if words[1] == 4 {
                    words[3..].fill(0);
                    numbers = undone(section, &words, 1);
                    numbers[1] = if numbers[0] == 0 { count - 1 } else { count };
                }
            }
            Slip::UndoesPastTheEnd if numbers[0] == 14 && count <= capacity => {
                let words = entry(journal);
                let at = words[0] as usize;
                if words[1] == 2 && words[2] < 65_536 && words[3..] == [0, 0] && at + 1 == section.len() {
                    section[at] = words[2] as u8;
                    numbers = [0, count - 1, 0];
                }
            }
            Slip::FindsTheJournalBadFirst if count == 0 && capacity == 0 => numbers = [14, 0, 0],
            Slip::CutsTheCount if count > u32::MAX as usize => {
                let low = count as u32 as usize;
                numbers = undone(section, journal, low);
            }
            _ => {}
        }
        store(&numbers, answer);
    }

    fn field_at(&self, section: &mut [u8], place: &Place, answer: &mut [usize]) {
        let slip = self.0;
        let mut walked = walk(section, &Rules::DOCUMENT, usize::MAX).unwrap();
        let mut numbers = field_at(&walked, section, place);
        let accepted = numbers[0] == 0;
        // where the field stands: any change of it says that
        let at = |value: Change| field(&walked, &value).unwrap().at;
        match (slip, *place) {
            (Slip::ShowsTheNeighbourKey, Place::Key([c, i, t, key])) if accepted => {
                let other = field_at(&walked, section, &Place::Key([c, i, t, key + 1]));
                if other[0] == 0 {
                    numbers = other;
                }
            }
            (Slip::ShowsTheFirstValue, Place::Value([c, i, d, list, _])) if accepted => {
                numbers = field_at(&walked, section, &Place::Value([c, i, d, list, 0]));
            }
            (Slip::ShowsTheLayerForTheTarget, Place::Target(target)) => {
                numbers = field_at(&walked, section, &Place::Layer(target));
            }
            (Slip::ShowsTheSlopeFirst, Place::Key(_)) if numbers[..2] == [0, 3] => numbers[2..].reverse(),
            (Slip::ShowsAKeyAsConstant, Place::Key(_)) if numbers[..2] == [0, 2] => {
                numbers[1] = 1;
                numbers[3] = 0;
            }
            (Slip::ShowsAKeyThatIsNotThere, Place::Key([c, i, t, key])) if numbers[0] == 10 && key > 0 => {
                numbers = field_at(&walked, section, &Place::Key([c, i, t, key - 1]));
            }
            (Slip::ShowsNoKey, Place::Key(_)) if accepted => numbers = [10, 0, 0, 0, 0],
            (Slip::ShowsQuietNaNs, Place::Value(_)) if accepted && f32::from_bits(numbers[2] as u32).is_nan() => {
                numbers[2] |= 0x0040_0000;
            }
            (Slip::ShowsNoZerosBehind, _) if accepted && answer.len() == numbers.len() => {
                let behind = 2 + numbers[1];
                numbers[behind..].copy_from_slice(&answer[behind..]);
            }
            (Slip::ShowsLoopingRaw, Place::Looping) if accepted => numbers[2] = section[10].into(),
            (Slip::ShowsTargetsRaw, Place::Target(target)) if accepted && numbers[2] != 255 => {
                numbers[2] = section[at(Change::Target(target, 0))].into();
            }
            (Slip::ShowsUnlistedTargetsAsZero, Place::Target(_)) if accepted && numbers[2] == 255 => numbers[2] = 0,
            (Slip::ShowsSkippedBytes, Place::Key(key)) if numbers[..2] == [0, 2] => {
                let at = at(Change::Key(key, NewKey::Constant(0)));
                if let Some(bytes) = section.get(at + 4..at + 8) {
                    numbers[3] = u32::from_le_bytes(bytes.try_into().unwrap()) as usize;
                }
            }
            (Slip::ShowsAHeadThatDoesNotRead, Place::FrameCount | Place::Looping) if section.len() > 20 => {
                walked.outcome = Ok(Default::default());
                numbers = field_at(&walked, section, place);
            }
            (Slip::WritesLoopingAsRead, Place::Looping) if accepted => section[10] = numbers[2] as u8,
            _ => {}
        }
        store(&numbers, answer);
        if let (Slip::ShowsASixthNumber, Some(sixth)) = (slip, answer.get_mut(numbers.len())) {
            *sixth = 0;
        }
    }
}

/// The editors that document 01 throws out, and two that touch bytes that are not the field's, are caught beside the
/// machine, by at most two calls.
#[test]
fn what_document_01_throws_out_is_caught() {
    for &slip in THROWN_OUT {
        let editor = Slipping(slip);
        let mut trials = Trials::new(&editor, SEED);
        trials.on_written(5_000);
        assert!(trials.differences > 0, "{slip:?}");
        trials.shrink();
        let (trial, what) = trials.smallest.unwrap();
        println!("{slip:?} after {:?}: {what}", trial.calls);
        assert!(trial.calls.len() <= 2, "{slip:?}: {:?}", trial.calls);
    }
}

/// So are those that show something else than what stands in a field.
#[test]
fn what_is_shown_wrongly_is_caught() {
    for &slip in SHOWN {
        let editor = Slipping(slip);
        let mut trials = Trials::new(&editor, SEED);
        trials.on_written(20_000);
        assert!(trials.differences > 0, "{slip:?}");
        trials.shrink();
        let (trial, what) = trials.smallest.unwrap();
        println!("{slip:?} after {:?}: {what}", trial.calls);
        assert!(trial.calls.len() <= 2, "{slip:?}: {:?}", trial.calls);
    }
}

/// So is everything else that can go wrong, beside the machine or on any bytes.
#[test]
fn slips_are_caught() {
    for &slip in OTHERS.iter().chain(SHOWN_OF_ANY) {
        let editor = Slipping(slip);
        let mut trials = tried(&editor);
        assert!(trials.differences > 0, "{slip:?}");
        trials.shrink();
        let (trial, what) = trials.smallest.unwrap();
        println!("{slip:?} after {:?}: {what}", trial.calls);
    }
}

/// Document 01's exercise: the Step key of content `P` made (0.0, 0).
#[test]
fn the_value_of_content_p_made_0() {
    for editor in [&ByLayout as &dyn Editor, &Proved] {
        let mut section = content_p();
        let mut journal = [9; 7];
        let mut answer = [9; 3];
        let change = Change::Key([0; 4], NewKey::Step { frame: 0, value: 0 });
        editor.edit(&mut section, &mut journal, 0, &change, &mut answer);
        assert_eq!(answer, [0, 1, 0]);
        assert_eq!(journal, [84, 6, 0, 1, 0, 9, 9]);
        let mut wanted = content_p();
        assert_eq!(wanted[88], 1);
        wanted[88] = 0;
        assert_eq!(section, wanted);
        let mut shown = [9; 6];
        editor.field_at(&mut section, &change.place(), &mut shown);
        assert_eq!(shown, [0, 2, 0, 0, 0, 9]);
        editor.undo(&mut section, &mut journal, 1, &mut answer);
        assert_eq!(answer, [0, 0, 0]);
        assert_eq!(section, content_p());
        assert_eq!(journal, [84, 6, 0, 1, 0, 9, 9]);
        editor.field_at(&mut section, &change.place(), &mut shown);
        assert_eq!((shown, section), ([0, 2, 0, 1, 0, 9], content_p()));
    }
}
