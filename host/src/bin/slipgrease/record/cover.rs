//! Masks by the names that the rules have for them.

use slipgrease::{Offset, Offsets, Point, Step};
use std::fmt;

/// Where the labels of a run begin: at offsets, or so many labels on from them.
#[derive(Clone, Copy, PartialEq)]
pub struct Start {
    pub offsets: Offsets,
    /// What they are called where a mask's name has no room for sixteen numbers.
    name: &'static str,
    on: u8,
}

impl Start {
    pub fn new(offsets: impl Into<Offsets>, name: &'static str) -> Start {
        Start { offsets: offsets.into(), name, on: 0 }
    }

    /// So many labels on, 0 to 15.
    pub fn on(self, labels: u8) -> Start {
        Start { on: labels, ..self }
    }

    /// The one offset of a run that begins there, if it has one.
    pub fn one(self) -> Option<Offset> {
        self.reached().as_one()
    }

    /// The offsets of a run that begins there.
    pub fn reached(self) -> Offsets {
        self.offsets.advanced(self.on.into())
    }
}

/// As offset 7, or offsets o+4.
impl fmt::Display for Start {
    fn fmt(&self, f: &mut fmt::Formatter) -> fmt::Result {
        match (self.one(), self.on) {
            (Some(offset), _) => write!(f, "offset {offset}"),
            (None, 0) => write!(f, "offsets {}", self.name),
            (None, on) => write!(f, "offsets {}+{on}", self.name),
        }
    }
}

/// A mask by where the rules have it: at a point of a run with a start and a step. Nothing lies over the states of a plain run.
#[derive(Clone, Copy, PartialEq)]
pub struct Cover(pub Option<(Point, Start, Step)>);

impl Cover {
    /// As Mask(7) of one offset and Mask(o+4) of sixteen, with what else was done to it, or none.
    pub fn name(self) -> String {
        match self.0.map(|(point, start, step)| (start.one(), point, step)) {
            Some((Some(offset), point, step)) => point.mask(offset, step),
            _ => self.counted(),
        }
    }

    /// The same with its label counted from the offsets of the start, be it one: Mask(o+4).
    pub fn counted(self) -> String {
        let (point, start, step) = match self.0 {
            None => return "none".to_string(),
            Some(where_it_is) => where_it_is,
        };
        let from_zero = point.mask(Offset::new(start.on).expect("at most 15"), step);
        let (mask, itself) = (format!("Mask({}+", start.name), format!("Mask({})", start.name));
        from_zero.replace("Mask(", &mask).replace(&format!("{mask}0)"), &itself)
    }
}
