//! Why a call was refused.

use std::error::Error;
use std::fmt;

/// Document 01's answers but 0, each with its number.
#[derive(Debug, Clone, Copy, PartialEq, Eq, PartialOrd, Ord, Hash)]
#[repr(u8)]
pub enum Refusal {
    /// A setting out of range, a text over 65,535 bytes, more than 13,107
    /// records, or record bytes that are no multiple of 5.
    Settings = 1,
    /// A record has a kind over 69, the length 0, a start before the previous
    /// record's end, or an end past the text.
    Records = 2,
    /// The starting environment is not in its form.
    Environment = 3,
    /// More marks would be open than the depth allows.
    Depth = 4,
    /// The scratch has too few whole records.
    Scratch = 5,
    /// The nodes have too little room.
    Nodes = 6,
    /// The findings have too little room.
    Findings = 7,
    /// The 1,025th fixity change, an infix name over 255 bytes, or a 257th
    /// entry of an environment.
    Fixities = 8,
    /// The final environment has too little room.
    Final = 9,
    /// One of the impossible cases of the source's `should_break_exp`.
    Impossible = 10,
}

use Refusal::{
    Depth, Environment, Final, Findings, Fixities, Impossible, Nodes, Records, Scratch, Settings,
};

impl Refusal {
    /// All of them, in the order of their numbers.
    pub const ALL: [Self; 10] = [
        Settings,
        Records,
        Environment,
        Depth,
        Scratch,
        Nodes,
        Findings,
        Fixities,
        Final,
        Impossible,
    ];

    /// Document 01's number of the answer.
    #[must_use]
    pub fn number(self) -> u8 {
        self as u8
    }

    /// The refusal of a number. 0 is none, and so is a number over 10.
    #[must_use]
    pub fn of_number(number: u8) -> Option<Self> {
        Self::ALL.into_iter().find(|it| it.number() == number)
    }
}

impl fmt::Display for Refusal {
    fn fmt(&self, f: &mut fmt::Formatter<'_>) -> fmt::Result {
        f.write_str(match self {
            Settings => "a setting or a length is out of range",
            Records => "a token record is not in its form",
            Environment => "the starting environment is not in its form",
            Depth => "the text nests deeper than the depth allows",
            Scratch => "the scratch is too small",
            Nodes => "the room for nodes is too small",
            Findings => "the room for findings is too small",
            Fixities => "too many fixities, or an infix name that is too long",
            Final => "the room for the final environment is too small",
            Impossible => "a case that the source calls impossible",
        })
    }
}

impl Error for Refusal {}
