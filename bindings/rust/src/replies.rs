//! What calls answer: every numbered reply as a variant.

use crate::foreign;
use std::error::Error;
use std::fmt;

/// A place in a source: the number of a byte, from 0. The end of the source
/// is at its length.
#[derive(Clone, Copy, PartialEq, Eq, PartialOrd, Ord, Hash, Debug)]
pub struct Place(pub u32);

/// The number of a cell of a grid, from 0.
#[derive(Clone, Copy, PartialEq, Eq, PartialOrd, Ord, Hash, Debug)]
pub struct Cell(pub u32);

/// The number of an entry of a grid, from 0: a field of a cell.
#[repr(transparent)]
#[derive(Clone, Copy, PartialEq, Eq, PartialOrd, Ord, Hash, Debug, Default)]
pub struct Entry(pub u32);

/// The number of a line of a value list, from 1.
#[derive(Clone, Copy, PartialEq, Eq, PartialOrd, Ord, Hash, Debug)]
pub struct Line(pub u64);

impl Place {
    /// As an index of the source.
    pub fn index(self) -> usize {
        self.0 as usize
    }
}

impl Cell {
    /// As a number of cells before it.
    pub fn index(self) -> usize {
        self.0 as usize
    }
}

impl Entry {
    /// As an index of the grid.
    pub fn index(self) -> usize {
        self.0 as usize
    }
}

impl fmt::Display for Place {
    fn fmt(&self, f: &mut fmt::Formatter<'_>) -> fmt::Result {
        self.0.fmt(f)
    }
}

impl fmt::Display for Cell {
    fn fmt(&self, f: &mut fmt::Formatter<'_>) -> fmt::Result {
        self.0.fmt(f)
    }
}

impl fmt::Display for Entry {
    fn fmt(&self, f: &mut fmt::Formatter<'_>) -> fmt::Result {
        self.0.fmt(f)
    }
}

impl fmt::Display for Line {
    fn fmt(&self, f: &mut fmt::Formatter<'_>) -> fmt::Result {
        self.0.fmt(f)
    }
}

/// Why a source is refused: replies 1 to 9, 12 to 15 and 40 to 45.
#[derive(Clone, Copy, PartialEq, Eq, Hash, Debug)]
pub enum Reason {
    /// The word table or the name list is of the wrong length.
    RoomLength = 1,
    /// More than 65,535 bytes.
    SourceTooLong = 2,
    /// No token can be read.
    NoToken = 3,
    /// A literal over 2147483647.
    LiteralTooLarge = 4,
    /// The 4,097th token.
    TooManyTokens = 5,
    /// A form of the language that is not taken: `->`, `+%`, `-%`, `"`,
    /// `agent` or `random` anywhere; `[` after a field name being declared, an
    /// assignment's left side, or a name in an expression that is no array
    /// constant; a comma after an assigned expression; no `:` after a `forall`
    /// name; missing `.name`.
    NotTaken = 6,
    /// A token that the grammar does not allow.
    NotAllowed = 7,
    /// A name unknown, or of the wrong sort for a constant or index.
    NameUnknown = 8,
    /// A name already used, or not assignable.
    NameUsed = 9,
    /// `.` on a plain number, an unknown field, an array constant without
    /// `[`, or a wrong count of indices.
    WrongAccess = 12,
    /// A relation on a bare relation.
    RelationOnRelation = 13,
    /// The 17th nesting.
    NestedTooDeep = 14,
    /// A name declared where 256 are in use.
    TooManyNames = 15,
    /// Dimensions not 1 to 3.
    BadDimensions = 40,
    /// A range reversed, of a field or of a loop.
    RangeReversed = 41,
    /// A `forall` range of more than 4,096 values.
    LoopTooLong = 42,
    /// The ninth field.
    TooManyFields = 43,
    /// An array's size not 1 to 1,024.
    BadArraySize = 44,
    /// Too many values for an array constant, or too few.
    ValueCount = 45,
}

impl Reason {
    pub(crate) fn of(number: u32) -> Option<Reason> {
        Some(match number {
            1 => Reason::RoomLength,
            2 => Reason::SourceTooLong,
            3 => Reason::NoToken,
            4 => Reason::LiteralTooLarge,
            5 => Reason::TooManyTokens,
            6 => Reason::NotTaken,
            7 => Reason::NotAllowed,
            8 => Reason::NameUnknown,
            9 => Reason::NameUsed,
            12 => Reason::WrongAccess,
            13 => Reason::RelationOnRelation,
            14 => Reason::NestedTooDeep,
            15 => Reason::TooManyNames,
            40 => Reason::BadDimensions,
            41 => Reason::RangeReversed,
            42 => Reason::LoopTooLong,
            43 => Reason::TooManyFields,
            44 => Reason::BadArraySize,
            45 => Reason::ValueCount,
            _ => return None,
        })
    }
}

impl fmt::Display for Reason {
    fn fmt(&self, f: &mut fmt::Formatter<'_>) -> fmt::Result {
        f.write_str(match self {
            Reason::RoomLength => "word table or name list of wrong length",
            Reason::SourceTooLong => "source longer than 65535 bytes",
            Reason::NoToken => "no token can be read",
            Reason::LiteralTooLarge => "literal over 2147483647",
            Reason::TooManyTokens => "more than 4096 tokens",
            Reason::NotTaken => "a form of the language that is not taken",
            Reason::NotAllowed => "token not allowed by the grammar",
            Reason::NameUnknown => "name unknown, or of the wrong sort for a constant or index",
            Reason::NameUsed => "name already used, or not assignable",
            Reason::WrongAccess => {
                "`.` on a plain number, unknown field, array constant without `[`, or wrong index count"
            }
            Reason::RelationOnRelation => "relation on a bare relation",
            Reason::NestedTooDeep => "nested more than 16 deep",
            Reason::TooManyNames => "more than 256 names in use",
            Reason::BadDimensions => "dimensions not 1 to 3",
            Reason::RangeReversed => "range reversed",
            Reason::LoopTooLong => "loop range of more than 4096 values",
            Reason::TooManyFields => "more than 8 fields",
            Reason::BadArraySize => "array size not 1 to 1024",
            Reason::ValueCount => "wrong number of values for an array constant",
        })
    }
}

/// A source is refused. The refusal borrows the source, for the spelling.
#[derive(Clone, Copy, PartialEq, Eq, Hash, Debug)]
pub struct Refusal<'a> {
    /// Why.
    pub reason: Reason,
    /// Where: the first byte of the token that is named, or 0 where the
    /// reason is [`Reason::RoomLength`].
    pub place: Place,
    /// The token at the place: a part of the source that was passed, or, for
    /// `cell`, `time` and `random`, of [`BUILT_IN`](crate::BUILT_IN), in lower
    /// case. Where no token can be read it is the one byte at the place. It is
    /// empty at the end of the source, and for [`Reason::RoomLength`] and
    /// [`Reason::SourceTooLong`].
    pub spelling: &'a [u8],
}

impl Refusal<'_> {
    /// The number of the reply.
    pub fn number(&self) -> u32 {
        self.reason as u32
    }
}

impl fmt::Display for Refusal<'_> {
    fn fmt(&self, f: &mut fmt::Formatter<'_>) -> fmt::Result {
        let (number, place, reason) = (self.number(), self.place, self.reason);
        write!(f, "refused {number} at {place}: {reason}")?;
        if !self.spelling.is_empty() {
            write!(f, ": `{}`", self.spelling.escape_ascii())?;
        }
        Ok(())
    }
}

impl Error for Refusal<'_> {}

/// Why a run, or a call on bands of rows, is not admitted although its source is
/// accepted: replies 20 to 24; 60 for a plan or a band; and 61 for a run with row
/// counts.
#[derive(Clone, Copy, PartialEq, Eq, Hash, Debug)]
pub enum Objection {
    /// 20: the number or size of dimensions, or the total of cells, is wrong.
    BadShape,
    /// 21: grid or scratch is not cells times fields long, or marks not one
    /// byte a cell. Of [`Held`](crate::Held): the planner's room does not have two
    /// entries a row, the rows passed are not the band's with borders, or the room
    /// for the next ones is not as long as the band. Of
    /// [`BandedRun`](crate::BandedRun): the room does not have as many rows as can be
    /// held.
    LentLength,
    /// 22: start or steps is negative, or their sum over 2147483647.
    BadTimes,
    /// 23: an index, or an end of an index variable's range, is larger in size
    /// than its dimension; the first one in the source.
    IndexTooFar(Place),
    /// 24: a field is out of range on entry; the lowest one in the grid, or in
    /// the rows that a band is passed.
    EntryOutOfRange(Entry),
    /// 60: the plan is not accepted, or the band could be part of no accepted plan.
    BadPlan,
    /// 61: there is no field with the number whose zeros are to be counted, or
    /// counts are not one a row.
    BadCounts,
}

impl Objection {
    fn of(number: u32, place: u32) -> Option<Objection> {
        Some(match number {
            20 => Objection::BadShape,
            21 => Objection::LentLength,
            22 => Objection::BadTimes,
            23 => Objection::IndexTooFar(Place(place)),
            24 => Objection::EntryOutOfRange(Entry(place)),
            60 => Objection::BadPlan,
            61 => Objection::BadCounts,
            _ => return None,
        })
    }

    /// The number of the reply.
    pub fn number(&self) -> u32 {
        match self {
            Objection::BadShape => 20,
            Objection::LentLength => 21,
            Objection::BadTimes => 22,
            Objection::IndexTooFar(_) => 23,
            Objection::EntryOutOfRange(_) => 24,
            Objection::BadPlan => 60,
            Objection::BadCounts => 61,
        }
    }
}

impl fmt::Display for Objection {
    fn fmt(&self, f: &mut fmt::Formatter<'_>) -> fmt::Result {
        write!(f, "not admitted {}", self.number())?;
        match self {
            Objection::BadShape => {
                f.write_str(": number or size of dimensions, or cell total, wrong")
            }
            Objection::LentLength => {
                f.write_str(": grid, scratch, marks, rows or room of wrong length")
            }
            Objection::BadTimes => f.write_str(": start or steps negative, or sum over 2147483647"),
            Objection::IndexTooFar(place) => {
                write!(f, " at {place}: index larger than its dimension")
            }
            Objection::EntryOutOfRange(entry) => {
                write!(f, " at grid entry {entry}: field out of range on entry")
            }
            Objection::BadPlan => {
                f.write_str(": plan not accepted, or band that could stand in no accepted plan")
            }
            Objection::BadCounts => f.write_str(": no such field, or counts not one a row"),
        }
    }
}

impl Error for Objection {}

/// Why a line of a value list is refused: replies 50 to 56 and 58.
#[derive(Clone, Copy, PartialEq, Eq, Hash, Debug)]
pub enum ListReason {
    /// The line is no time and no cell with values, or has no end; it is a
    /// cell before any time; its count of indices is wrong; or a number in it
    /// is over 2147483647.
    BadLine = 50,
    /// An index is not below the size of its dimension.
    OutsideGrid = 51,
    /// There are more values than fields, where missing ones count.
    TooManyValues = 52,
    /// A value lies outside the range of its field.
    ValueOutOfRange = 53,
    /// The time is not above the time before it.
    TimeNotRising = 54,
    /// The time is below the start.
    TimeBeforeStart = 55,
    /// The time is above start plus steps.
    TimePastEnd = 56,
    /// A value for the field `moved` is 0, in a rule that moves a pixel once: see
    /// [`check_one_move`](crate::check_one_move).
    MovedZero = 58,
}

impl ListReason {
    fn of(number: u32) -> Option<ListReason> {
        Some(match number {
            50 => ListReason::BadLine,
            51 => ListReason::OutsideGrid,
            52 => ListReason::TooManyValues,
            53 => ListReason::ValueOutOfRange,
            54 => ListReason::TimeNotRising,
            55 => ListReason::TimeBeforeStart,
            56 => ListReason::TimePastEnd,
            58 => ListReason::MovedZero,
            _ => return None,
        })
    }
}

impl fmt::Display for ListReason {
    fn fmt(&self, f: &mut fmt::Formatter<'_>) -> fmt::Result {
        f.write_str(match self {
            ListReason::BadLine => {
                "no time and no cell with values, no line end, cell before any time, wrong index count, or number over 2147483647"
            }
            ListReason::OutsideGrid => "cell outside the grid",
            ListReason::TooManyValues => "more values than fields",
            ListReason::ValueOutOfRange => "value outside the range of its field",
            ListReason::TimeNotRising => "time not above the time before it",
            ListReason::TimeBeforeStart => "time before the start",
            ListReason::TimePastEnd => "time past start plus steps",
            ListReason::MovedZero => "value 0 for `moved` in a rule that moves a pixel once",
        })
    }
}

/// A value list is refused, although the run would be admitted without it. The
/// line is the lowest one that is wrong.
#[derive(Clone, Copy, PartialEq, Eq, Hash, Debug)]
pub struct ListRefusal {
    /// Why.
    pub reason: ListReason,
    /// In which line.
    pub line: Line,
}

impl ListRefusal {
    /// The number of the reply.
    pub fn number(&self) -> u32 {
        self.reason as u32
    }
}

impl fmt::Display for ListRefusal {
    fn fmt(&self, f: &mut fmt::Formatter<'_>) -> fmt::Result {
        let (number, line, reason) = (self.number(), self.line, self.reason);
        write!(f, "list refused {number} at line {line}: {reason}")
    }
}

impl Error for ListRefusal {}

/// What a cell can do wrong: replies 30 to 33.
#[derive(Clone, Copy, PartialEq, Eq, Hash, Debug)]
pub enum FaultKind {
    /// An operation's result is out of range; the place is the operator's.
    ResultOutOfRange = 30,
    /// A divisor is zero; the place is the operator's.
    ZeroDivisor = 31,
    /// An array index is out of range; the place is that of the `[`.
    ArrayIndex = 32,
    /// An assigned value lies outside the field; the place is that of the
    /// `:=` before it.
    ValueOutsideField = 33,
}

impl FaultKind {
    fn of(number: u32) -> Option<FaultKind> {
        Some(match number {
            30 => FaultKind::ResultOutOfRange,
            31 => FaultKind::ZeroDivisor,
            32 => FaultKind::ArrayIndex,
            33 => FaultKind::ValueOutsideField,
            _ => return None,
        })
    }
}

impl fmt::Display for FaultKind {
    fn fmt(&self, f: &mut fmt::Formatter<'_>) -> fmt::Result {
        f.write_str(match self {
            FaultKind::ResultOutOfRange => "result out of range",
            FaultKind::ZeroDivisor => "zero divisor",
            FaultKind::ArrayIndex => "array index out of range",
            FaultKind::ValueOutsideField => "assigned value outside the field",
        })
    }
}

/// A run began, and ended at a fault: that of the lowest faulting cell of the
/// first faulting step.
#[derive(Clone, Copy, PartialEq, Eq, Hash, Debug)]
pub struct Fault {
    /// What is wrong.
    pub kind: FaultKind,
    /// Where in the source.
    pub place: Place,
    /// In which cell.
    pub cell: Cell,
    /// The steps done before, whose result the grid holds.
    pub steps: u32,
    /// How many times a cell was evaluated, the faulting one included.
    pub count: u64,
}

impl Fault {
    /// The number of the reply.
    pub fn number(&self) -> u32 {
        self.kind as u32
    }
}

impl fmt::Display for Fault {
    fn fmt(&self, f: &mut fmt::Formatter<'_>) -> fmt::Result {
        write!(f, "fault {} at {}", self.number(), self.place)?;
        write!(
            f,
            " in cell {} after {} steps: {}",
            self.cell, self.steps, self.kind
        )
    }
}

impl Error for Fault {}

/// A run did not do all its steps.
#[derive(Clone, PartialEq, Eq, Hash, Debug)]
pub enum Stop<'a> {
    /// The source is refused.
    Refused(Refusal<'a>),
    /// The source is accepted, but the run is not admitted.
    NotAdmitted(Objection),
    /// The source is accepted, but the value list is refused.
    ListRefused(ListRefusal),
    /// The run began, and a cell faulted.
    Faulted(Fault),
}

impl Stop<'_> {
    /// The number of the reply.
    pub fn number(&self) -> u32 {
        match self {
            Stop::Refused(refusal) => refusal.number(),
            Stop::NotAdmitted(objection) => objection.number(),
            Stop::ListRefused(refusal) => refusal.number(),
            Stop::Faulted(fault) => fault.number(),
        }
    }

    /// The place in the source, where the reply names one.
    pub fn place(&self) -> Option<Place> {
        match self {
            Stop::Refused(refusal) => Some(refusal.place),
            Stop::NotAdmitted(Objection::IndexTooFar(place)) => Some(*place),
            Stop::NotAdmitted(_) | Stop::ListRefused(_) => None,
            Stop::Faulted(fault) => Some(fault.place),
        }
    }

    /// The line of the value list, where the reply names one.
    pub fn line(&self) -> Option<Line> {
        match self {
            Stop::ListRefused(refusal) => Some(refusal.line),
            _ => None,
        }
    }
}

impl fmt::Display for Stop<'_> {
    fn fmt(&self, f: &mut fmt::Formatter<'_>) -> fmt::Result {
        match self {
            Stop::Refused(refusal) => refusal.fmt(f),
            Stop::NotAdmitted(objection) => objection.fmt(f),
            Stop::ListRefused(refusal) => refusal.fmt(f),
            Stop::Faulted(fault) => fault.fmt(f),
        }
    }
}

impl Error for Stop<'_> {}

/// All steps of a run are done.
#[derive(Clone, Copy, PartialEq, Eq, Hash, Debug)]
pub struct Done {
    /// The steps, all those requested.
    pub steps: u32,
    /// How many times a cell was evaluated.
    pub count: u64,
}

/// What a run returns.
pub type Outcome<'a> = Result<Done, Stop<'a>>;

/// A value list is not written.
#[derive(Clone, PartialEq, Eq, Hash, Debug)]
pub enum NotWritten<'a> {
    /// The source is refused.
    Refused(Refusal<'a>),
    /// The source is accepted, but one of the grids would not be admitted to a
    /// run of 0 steps that starts at the time. An entry out of range is the
    /// lowest one of the earlier grid, else of the later.
    NotAdmitted(Objection),
    /// 57: the room is shorter than the text.
    RoomTooShort,
}

impl NotWritten<'_> {
    /// The number of the reply.
    pub fn number(&self) -> u32 {
        match self {
            NotWritten::Refused(refusal) => refusal.number(),
            NotWritten::NotAdmitted(objection) => objection.number(),
            NotWritten::RoomTooShort => 57,
        }
    }

    /// The place in the source, where the reply names one.
    pub fn place(&self) -> Option<Place> {
        match self {
            NotWritten::Refused(refusal) => Some(refusal.place),
            NotWritten::NotAdmitted(Objection::IndexTooFar(place)) => Some(*place),
            NotWritten::NotAdmitted(_) | NotWritten::RoomTooShort => None,
        }
    }
}

impl fmt::Display for NotWritten<'_> {
    fn fmt(&self, f: &mut fmt::Formatter<'_>) -> fmt::Result {
        match self {
            NotWritten::Refused(refusal) => refusal.fmt(f),
            NotWritten::NotAdmitted(objection) => objection.fmt(f),
            NotWritten::RoomTooShort => {
                write!(
                    f,
                    "not written {}: room shorter than the text",
                    self.number()
                )
            }
        }
    }
}

impl Error for NotWritten<'_> {}

/// A call of [`Held`](crate::Held) that plans, or checks a plan, does not return
/// one or accept it.
#[derive(Clone, PartialEq, Eq, Hash, Debug)]
pub enum NotPlanned<'a> {
    /// The source is refused.
    Refused(Refusal<'a>),
    /// The source is accepted, but not for this shape, 20 or 23; the planner's
    /// room does not have two entries a row, 21; or the plan that is checked is
    /// not accepted, 60.
    NotAdmitted(Objection),
    /// 59: no plan is accepted, since with the border rows not one row can be
    /// held.
    NoPlan,
}

impl NotPlanned<'_> {
    /// The number of the reply.
    pub fn number(&self) -> u32 {
        match self {
            NotPlanned::Refused(refusal) => refusal.number(),
            NotPlanned::NotAdmitted(objection) => objection.number(),
            NotPlanned::NoPlan => 59,
        }
    }

    /// The place in the source, where the reply names one.
    pub fn place(&self) -> Option<Place> {
        match self {
            NotPlanned::Refused(refusal) => Some(refusal.place),
            NotPlanned::NotAdmitted(Objection::IndexTooFar(place)) => Some(*place),
            NotPlanned::NotAdmitted(_) | NotPlanned::NoPlan => None,
        }
    }
}

impl fmt::Display for NotPlanned<'_> {
    fn fmt(&self, f: &mut fmt::Formatter<'_>) -> fmt::Result {
        match self {
            NotPlanned::Refused(refusal) => refusal.fmt(f),
            NotPlanned::NotAdmitted(objection) => objection.fmt(f),
            NotPlanned::NoPlan => {
                write!(
                    f,
                    "not planned {}: with the border rows not one row can be held",
                    self.number()
                )
            }
        }
    }
}

impl Error for NotPlanned<'_> {}

/// The answer that the entries of a check hold.
pub(crate) fn check_answer<'a>(
    source: &'a [u8],
    list: &'a [u8],
    [number, place, stands, start, length]: [u32; foreign::REPLY],
) -> Result<(), Refusal<'a>> {
    if number == 0 {
        return Ok(());
    }
    let spelling = part_of(source, list, stands, start, length);
    match refusal_of(number, place, spelling) {
        Some(refusal) => Err(refusal),
        None => unreachable!("reply {number} to a check"),
    }
}

/// The part of the source or of the built-in list that three entries hold.
fn part_of<'a>(source: &'a [u8], list: &'a [u8], stands: u32, start: u32, length: u32) -> &'a [u8] {
    let whole = match stands {
        foreign::IN_SOURCE => source,
        foreign::IN_LIST => list,
        _ => return &[],
    };
    &whole[start as usize..][..length as usize]
}

fn refusal_of(number: u32, place: u32, spelling: &[u8]) -> Option<Refusal<'_>> {
    Reason::of(number).map(|reason| Refusal {
        reason,
        place: Place(place),
        spelling,
    })
}

/// The answer that the entries of a run hold.
pub(crate) fn run_answer<'a>(
    source: &'a [u8],
    list: &'a [u8],
    report: [u64; foreign::REPORT],
) -> Outcome<'a> {
    // All but the count and the line are numbers of 32 bits.
    let [number, place, cell, steps, _, stands, start, length, _] = report.map(|n| n as u32);
    let (count, line) = (report[4], Line(report[8]));
    if number == 0 {
        return Ok(Done { steps, count });
    }
    let spelling = part_of(source, list, stands, start, length);
    if let Some(refusal) = refusal_of(number, place, spelling) {
        return Err(Stop::Refused(refusal));
    }
    if let Some(objection) = Objection::of(number, place) {
        return Err(Stop::NotAdmitted(objection));
    }
    if let Some(reason) = ListReason::of(number) {
        return Err(Stop::ListRefused(ListRefusal { reason, line }));
    }
    let Some(kind) = FaultKind::of(number) else {
        unreachable!("reply {number} to a run");
    };
    let (place, cell) = (Place(place), Cell(cell));
    Err(Stop::Faulted(Fault {
        kind,
        place,
        cell,
        steps,
        count,
    }))
}

/// The answer that the entries of a writing hold: the length of the text.
pub(crate) fn written_answer<'a>(
    source: &'a [u8],
    list: &'a [u8],
    reply: [u64; foreign::WRITTEN],
) -> Result<usize, NotWritten<'a>> {
    // All but the text's length are numbers of 32 bits; it is no more than the
    // room's.
    let [number, place, _, stands, start, length] = reply.map(|n| n as u32);
    match number {
        0 => return Ok(reply[2] as usize),
        57 => return Err(NotWritten::RoomTooShort),
        _ => {}
    }
    let spelling = part_of(source, list, stands, start, length);
    if let Some(refusal) = refusal_of(number, place, spelling) {
        return Err(NotWritten::Refused(refusal));
    }
    match Objection::of(number, place) {
        Some(objection) => Err(NotWritten::NotAdmitted(objection)),
        None => unreachable!("reply {number} to the writer"),
    }
}

/// The answer that number, place and spelling hold of a plan or of border rows.
pub(crate) fn plan_answer<'a>(
    source: &'a [u8],
    list: &'a [u8],
    [number, place]: [u32; 2],
    [stands, start, length]: [u32; 3],
) -> Result<(), NotPlanned<'a>> {
    match number {
        0 => return Ok(()),
        59 => return Err(NotPlanned::NoPlan),
        _ => {}
    }
    let spelling = part_of(source, list, stands, start, length);
    if let Some(refusal) = refusal_of(number, place, spelling) {
        return Err(NotPlanned::Refused(refusal));
    }
    match Objection::of(number, place) {
        Some(objection) => Err(NotPlanned::NotAdmitted(objection)),
        None => unreachable!("reply {number} about a plan"),
    }
}
