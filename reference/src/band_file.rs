//! Cases on bands of rows of every kind, in one file, and the file read back.

use crate::band_case::{Asked, BandCase, BandedCase, BorderCase, PlanCase, PlannerCase};
use crate::bands::Band;
use crate::call_case::Call;
use crate::case::RunCase;
use crate::pausing::Manner;

/// A case of any kind. The binary form says which by its first number.
#[derive(Clone, Debug)]
pub enum AnyCase {
    Plan(PlanCase),
    Planner(PlannerCase),
    Band(BandCase),
    Run(BandedCase),
    Border(BorderCase),
}

impl AnyCase {
    /// The line that answers the case.
    pub fn line(&self) -> String {
        match self {
            AnyCase::Plan(case) => case.line(),
            AnyCase::Planner(case) => case.line(),
            AnyCase::Band(case) => case.line(),
            AnyCase::Run(case) => case.line(),
            AnyCase::Border(case) => case.line(),
        }
    }

    /// The binary form of the case.
    pub fn put(&self, out: &mut Vec<u8>) {
        match self {
            AnyCase::Plan(case) => case.put(out),
            AnyCase::Planner(case) => case.put(out),
            AnyCase::Band(case) => case.put(out),
            AnyCase::Run(case) => case.put(out),
            AnyCase::Border(case) => case.put(out),
        }
    }
}

/// The cases of a file, in order; none if it is no such file.
pub fn read(bytes: &[u8]) -> Option<Vec<AnyCase>> {
    let mut reader = Reader { rest: bytes };
    let mut cases = Vec::new();
    while !reader.rest.is_empty() {
        cases.push(reader.case()?);
    }
    Some(cases)
}

struct Reader<'a> {
    rest: &'a [u8],
}

impl Reader<'_> {
    fn bytes(&mut self, length: usize) -> Option<&[u8]> {
        let (front, rest) = self.rest.split_at_checked(length)?;
        self.rest = rest;
        Some(front)
    }

    fn number(&mut self) -> Option<u32> {
        let bytes = self.bytes(4)?.try_into().ok()?;
        Some(u32::from_le_bytes(bytes))
    }

    fn length(&mut self) -> Option<usize> {
        Some(self.number()? as usize)
    }

    fn time(&mut self) -> Option<i64> {
        let bytes = self.bytes(8)?.try_into().ok()?;
        Some(i64::from_le_bytes(bytes))
    }

    fn numbers(&mut self, count: usize) -> Option<Vec<u32>> {
        (0..count).map(|_| self.number()).collect()
    }

    /// Entries after their number.
    fn entries(&mut self) -> Option<Vec<i32>> {
        let length = self.length()?;
        (0..length).map(|_| Some(self.number()? as i32)).collect()
    }

    /// Bytes after their number.
    fn text(&mut self) -> Option<Vec<u8>> {
        let length = self.length()?;
        Some(self.bytes(length)?.to_vec())
    }

    fn case(&mut self) -> Option<AnyCase> {
        Some(match self.number()? {
            0 => AnyCase::Plan(self.plan()?),
            1 => AnyCase::Planner(PlannerCase {
                asked: self.asked()?,
                room: self.length()?,
            }),
            2 => AnyCase::Band(self.band()?),
            3 => AnyCase::Run(self.run()?),
            4 => AnyCase::Border(BorderCase {
                asked: self.asked()?,
            }),
            _ => return None,
        })
    }

    fn asked(&mut self) -> Option<Asked> {
        Some(Asked {
            source: self.text()?,
            words: self.length()?,
            names: self.length()?,
            shape: self.sizes()?,
            held: self.number()?,
        })
    }

    fn sizes(&mut self) -> Option<Vec<u32>> {
        let count = self.length()?;
        self.numbers(count)
    }

    fn plan(&mut self) -> Option<PlanCase> {
        let asked = self.asked()?;
        let count = self.length()?;
        let plan = self.numbers(count)?;
        Some(PlanCase { asked, plan })
    }

    fn band(&mut self) -> Option<BandCase> {
        Some(BandCase {
            asked: self.asked()?,
            band: Band::new(self.number()?, self.number()?),
            room: self.length()?,
            time: self.time()?,
            rows: self.entries()?,
        })
    }

    /// The request of the full run.
    fn full(&mut self) -> Option<RunCase> {
        Some(RunCase {
            source: self.text()?,
            words: self.length()?,
            names: self.length()?,
            shape: self.sizes()?,
            grid: self.entries()?,
            scratch: self.length()?,
            marks: self.length()?,
            start: self.time()?,
            steps: self.time()?,
            values: self.text()?,
        })
    }

    fn run(&mut self) -> Option<BandedCase> {
        let run = self.full()?;
        let counted = self.number()? != 0;
        let field = self.number()?;
        let [counts, held, plan, room] = self.numbers(4)?.try_into().ok()?;
        let marks = self.bytes(run.marks)?.to_vec();
        let counts = self.numbers(counts as usize)?;
        let call = Call {
            counted,
            field,
            counts,
            ..Call::new(run, Manner::Full, marks)
        };
        Some(BandedCase {
            call,
            held,
            plan: self.numbers(plan as usize)?,
            room: room as usize,
        })
    }
}
