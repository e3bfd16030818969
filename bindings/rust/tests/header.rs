//! The C header names the same replies and kinds.

use cellang::{
    Difference, Entry, FaultKind, Kind, ListReason, Missed, NotCompared, NotCounted, NotPlanned,
    NotWritten, Objection, Place, Reason, BUILT_IN, NAME_WORDS, WORDS,
};
use std::fmt::Debug;
use std::mem::size_of;

const HEADER: &str = include_str!("../../../include/cellang.h");

/// The number that the header gives a name.
fn named(name: &str) -> Option<u32> {
    let mut words = HEADER.split_whitespace();
    words.find(|&word| word == name)?;
    let mut next = words.next()?;
    if next == "=" {
        next = words.next()?;
    }
    next.trim_end_matches(',').parse().ok()
}

/// `CELLANG_NO_TOKEN` for `NoToken`; what stands in parentheses is left out.
fn name_of(variant: impl Debug) -> String {
    let mut name = "CELLANG".to_string();
    for letter in format!("{variant:?}")
        .chars()
        .take_while(|&letter| letter != '(')
    {
        if letter.is_uppercase() {
            name.push('_');
        }
        name.push(letter.to_ascii_uppercase());
    }
    name
}

#[test]
fn replies() {
    let reasons = [
        Reason::RoomLength,
        Reason::SourceTooLong,
        Reason::NoToken,
        Reason::LiteralTooLarge,
        Reason::TooManyTokens,
        Reason::NotTaken,
        Reason::NotAllowed,
        Reason::NameUnknown,
        Reason::NameUsed,
        Reason::WrongAccess,
        Reason::RelationOnRelation,
        Reason::NestedTooDeep,
        Reason::TooManyNames,
        Reason::BadDimensions,
        Reason::RangeReversed,
        Reason::LoopTooLong,
        Reason::TooManyFields,
        Reason::BadArraySize,
        Reason::ValueCount,
    ];
    let numbers = (1..=9).chain(12..=15).chain(40..=45);
    for (reason, number) in reasons.into_iter().zip(numbers) {
        assert_eq!(reason as u32, number);
        assert_eq!(named(&name_of(reason)), Some(number), "{reason:?}");
    }
    let objections = [
        Objection::BadShape,
        Objection::LentLength,
        Objection::BadTimes,
        Objection::IndexTooFar(Place(0)),
        Objection::EntryOutOfRange(Entry(0)),
    ];
    for (objection, number) in objections.into_iter().zip(20..) {
        assert_eq!(objection.number(), number);
        assert_eq!(named(&name_of(objection)), Some(number), "{objection:?}");
    }
    let faults = [
        FaultKind::ResultOutOfRange,
        FaultKind::ZeroDivisor,
        FaultKind::ArrayIndex,
        FaultKind::ValueOutsideField,
    ];
    for (fault, number) in faults.into_iter().zip(30..) {
        assert_eq!(fault as u32, number);
        assert_eq!(named(&name_of(fault)), Some(number), "{fault:?}");
    }
    let lists = [
        ListReason::BadLine,
        ListReason::OutsideGrid,
        ListReason::TooManyValues,
        ListReason::ValueOutOfRange,
        ListReason::TimeNotRising,
        ListReason::TimeBeforeStart,
        ListReason::TimePastEnd,
        ListReason::MovedZero,
    ];
    for (reason, number) in lists.into_iter().zip((50..=56).chain([58])) {
        assert_eq!(reason as u32, number);
        let name = name_of(reason).replacen("CELLANG", "CELLANG_LIST", 1);
        assert_eq!(named(&name), Some(number), "{reason:?}");
    }
    let (plan, none) = (Objection::BadPlan, NotPlanned::NoPlan);
    assert_eq!((none.number(), plan.number()), (59, 60));
    assert_eq!(named(&name_of(none)), Some(59));
    assert_eq!(named(&name_of(plan)), Some(60));
    let counts = Objection::BadCounts;
    assert_eq!((counts.number(), NotCounted.number()), (61, 61));
    assert_eq!(named(&name_of(counts)), Some(61));
    assert_eq!(named("CELLANG_NO_ZERO_ROW"), Some(62));
    let short = NotWritten::RoomTooShort;
    assert_eq!(short.number(), 57);
    assert_eq!(named(&name_of(short)), Some(57));
    assert_eq!(named("CELLANG_DONE"), Some(0));
}

#[test]
fn kinds_and_lengths() {
    let kinds = [
        Kind::Constant,
        Kind::ArrayConstant,
        Kind::Field,
        Kind::Variable,
        Kind::Index,
        Kind::ConstField,
    ];
    for (kind, number) in kinds.into_iter().zip(1..) {
        assert_eq!(kind as u32, number);
        assert_eq!(named(&name_of(kind)), Some(number), "{kind:?}");
    }
    assert_eq!(named("CELLANG_WORDS"), Some(WORDS as u32));
    assert_eq!(named("CELLANG_NAME_WORDS"), Some(NAME_WORDS as u32));
    let list = format!("#define CELLANG_BUILT_IN \"{}\"", BUILT_IN.escape_ascii());
    assert!(HEADER.lines().any(|line| line == list));
    let length = named("CELLANG_BUILT_IN_LENGTH");
    assert_eq!(length, Some(BUILT_IN.len() as u32));
}

#[test]
fn profile() {
    let reason = Reason::NotAllowed;
    let place = Place(0);
    for (missed, name) in [
        (
            Missed::Refused { reason, place },
            "CELLANG_MISSES_ACCEPTANCE",
        ),
        (Missed::Flag, "CELLANG_MISSES_FLAG"),
        (Missed::Statement, "CELLANG_MISSES_STATEMENT"),
    ] {
        assert_eq!(named(name), Some(missed.rule()));
    }
    assert_eq!(named("CELLANG_MOVES_ONCE"), Some(0));
}

#[test]
fn comparisons() {
    assert_eq!(named("CELLANG_LENT_LENGTH"), Some(NotCompared.number()));
    let numbers = size_of::<Difference>() / size_of::<i32>();
    assert_eq!(named("CELLANG_DIFFERENCE_LENGTH"), Some(numbers as u32));
}
