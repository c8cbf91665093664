//! Refusals: a number, a layer and a place.

use std::fmt;

/// Stands for "no entry" in a place of evidence.
pub const NO_ENTRY: usize = 2048;
/// Stands for "time" or "no rule" in a place of evidence.
pub const NO_RULE: usize = 64;

#[derive(Clone, Copy, Debug, PartialEq, Eq)]
pub enum Place {
    Byte(usize),
    Row(usize),
    Evidence { entry: usize, rule: usize, above: usize },
}

#[derive(Clone, Copy, Debug, PartialEq, Eq)]
pub struct Fault {
    pub number: u8,
    pub place: Place,
}

impl Fault {
    pub fn byte(number: u8, byte: usize) -> Self {
        Fault { number, place: Place::Byte(byte) }
    }

    pub fn row(number: u8, row: usize) -> Self {
        Fault { number, place: Place::Row(row) }
    }

    pub fn evidence(number: u8, entry: usize, rule: usize, above: usize) -> Self {
        Fault { number, place: Place::Evidence { entry, rule, above } }
    }

    pub fn layer(&self) -> &'static str {
        match self.number {
            1..=17 => "case",
            18..=22 => "evidence",
            23 => "text",
            _ => "record",
        }
    }
}

impl fmt::Display for Fault {
    fn fmt(&self, f: &mut fmt::Formatter) -> fmt::Result {
        write!(f, "refused {} {} ", self.number, self.layer())?;
        match self.place {
            Place::Byte(place) | Place::Row(place) => write!(f, "{place}"),
            Place::Evidence { entry, rule, above } => write!(f, "{entry} {rule} {above}"),
        }
    }
}
