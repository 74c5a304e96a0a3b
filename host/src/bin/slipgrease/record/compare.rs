//! Two sides of a comparison: a run and a second one, or a run and a receiver's dump.

use crate::record::cover::{Cover, Start};
use crate::record::dump::{self, Found};
use crate::record::run::{xor, Recorded, Run};
use crate::shown::listed;
use slipgrease::{Direction, Point, Rounds};

pub struct Pair {
    pub direction: Direction,
    pub rounds: Rounds,
    pub title: String,
    /// What they are called, as first and second, and what they are.
    pub called: [&'static str; 2],
    pub named: [String; 2],
    /// What of the second run is not as in the first.
    pub another: Option<String>,
    /// What stands over a side in a picture.
    pub captions: [String; 2],
    pub sides: [Recorded; 2],
    /// Whether the second side is a dump, which should be as the first, and where masks are due from then.
    pub is_dump: bool,
    pub due_from: Option<Start>,
    /// The other start at which the states of a dump are read that no mask explains.
    pub read_at: Option<Start>,
    /// Of the first byte of a dump that differs under the masks, a mask that would explain it by itself.
    pub alone: Option<Cover>,
    /// Whether either side has masks.
    pub masked: bool,
}

/// How a byte of the one side compares with that of the other.
#[derive(Clone, Copy, Debug, PartialEq)]
pub enum Kind {
    Same,
    /// The bytes under the masks are the same.
    ByMasks,
    /// The bytes under the masks differ, whether or not what is recorded does.
    Under,
}

/// Bytes that differ as they are recorded, under the masks or by these alone; and those that differ under the masks where what is
/// recorded is the same.
#[derive(Clone, Copy, Debug, Default, PartialEq)]
pub struct Counts {
    pub under: usize,
    pub by_masks: usize,
    pub hidden: usize,
}

impl Counts {
    pub fn recorded(self) -> usize {
        self.under + self.by_masks
    }
}

impl Pair {
    pub fn of_runs(first: &Run, second: &Run) -> Pair {
        let sixteen = [first, second].iter().any(|run| run.masked.map_or(false, |masked| masked.start.one().is_none()));
        let another = |what: &str| match (what, first.masked) {
            ("masks", _) => "other masks".to_string(),
            ("offset", None) => if sixteen { "offsets" } else { "an offset" }.to_string(),
            ("offset", Some(_)) if sixteen => "other offsets".to_string(),
            (what, _) => format!("another {what}"),
        };
        let has: Vec<String> = first.another(second).into_iter().map(another).collect();
        let told = match has.is_empty() {
            true => "Both are given the same.".to_string(),
            false => format!("The second has {}.", listed(&has)),
        };
        Pair {
            direction: first.direction,
            rounds: first.rounds(),
            title: format!("Two runs of {} side by side", first.cipher()),
            called: ["first", "second"],
            named: [first.named(), second.named()],
            another: Some(told),
            captions: [format!("first, {}", first.kind()), format!("second, {}", second.kind())],
            sides: [first.recorded.clone(), second.recorded.clone()],
            is_dump: false,
            due_from: None,
            read_at: None,
            alone: None,
            masked: first.masked.is_some() || second.masked.is_some(),
        }
    }

    pub fn with_dump(run: &Run, name: &str, states: Vec<u8>) -> Pair {
        let Found { recorded, read_at, alone } = dump::found(run, states);
        Pair {
            direction: run.direction,
            rounds: run.rounds(),
            title: format!("A run of {} beside a receiver's dump", run.cipher()),
            called: ["run", "dump"],
            named: [run.named(), name.to_string()],
            another: None,
            captions: [format!("run, {}", run.kind()), "dump".to_string()],
            // A plain run has masks beside it only where the dump has some.
            masked: run.masked.is_some() || recorded.covers != run.recorded.covers,
            is_dump: true,
            due_from: run.masked.map(|masked| masked.start),
            read_at,
            alone,
            sides: [run.recorded.clone(), recorded],
        }
    }

    pub fn points(&self) -> impl Iterator<Item = Point> {
        self.direction.points(self.rounds)
    }

    /// Byte by byte, what is under the masks xored.
    pub fn under(&self) -> Vec<u8> {
        xor(&self.sides[0].plain, &self.sides[1].plain)
    }

    pub fn kind(&self, byte: usize) -> Kind {
        let [first, second] = &self.sides;
        match (first.plain[byte] != second.plain[byte], self.is_recorded(byte)) {
            (true, _) => Kind::Under,
            (false, true) => Kind::ByMasks,
            (false, false) => Kind::Same,
        }
    }

    pub fn kinds(&self) -> Vec<Kind> {
        (0..self.bytes()).map(|byte| self.kind(byte)).collect()
    }

    /// Whether what is recorded differs in a byte.
    fn is_recorded(&self, byte: usize) -> bool {
        self.sides[0].states[byte] != self.sides[1].states[byte]
    }

    pub fn bytes(&self) -> usize {
        16 * self.direction.states(self.rounds)
    }

    /// Of some bytes.
    fn counted(&self, bytes: impl Iterator<Item = usize>) -> Counts {
        bytes.fold(Counts::default(), |counts, byte| match (self.kind(byte), self.is_recorded(byte)) {
            (Kind::Under, true) => Counts { under: counts.under + 1, ..counts },
            (Kind::Under, false) => Counts { hidden: counts.hidden + 1, ..counts },
            (Kind::ByMasks, _) => Counts { by_masks: counts.by_masks + 1, ..counts },
            (Kind::Same, _) => counts,
        })
    }

    pub fn all(&self) -> Counts {
        self.counted(0..self.bytes())
    }

    pub fn at(&self, point: Point) -> Counts {
        self.counted(16 * point.number()..16 * point.number() + 16)
    }

    /// How many states differ as they are recorded.
    pub fn states(&self) -> usize {
        self.points().filter(|&point| self.at(point).recorded() > 0).count()
    }

    /// The first byte that differs as it is recorded.
    pub fn first(&self) -> Option<usize> {
        (0..self.bytes()).find(|&byte| self.is_recorded(byte))
    }

    /// The first that differs under the masks.
    pub fn first_under(&self) -> Option<usize> {
        (0..self.bytes()).find(|&byte| self.kind(byte) == Kind::Under)
    }

    /// The masks of both sides at a point; one name where they are of one name.
    pub fn covers(&self, point: Point) -> String {
        let [first, second] = [0, 1].map(|side| self.sides[side].covers[point.number()].name());
        if first == second {
            first
        } else {
            format!("{first} / {second}")
        }
    }
}
