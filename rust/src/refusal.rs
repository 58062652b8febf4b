//! What a call answers when it does not do what it was asked.
use std::fmt;

/// The reasons for which a call is refused, under their numbers. Where several hold, the smallest is given, but [`Refusal::Unknown`] and
/// [`Refusal::NotPermitted`] before [`Refusal::NotReady`]. A refused call has written nothing. Later versions may know more of them, so that a
/// `match` has an arm for the rest.
#[derive(Clone, Copy, Debug, PartialEq, Eq, PartialOrd, Ord, Hash)]
#[non_exhaustive]
#[repr(u32)]
pub enum Refusal {
    /// The width is not 1..=120 macroblocks, or the height not 1..=68.
    Size = 1,
    /// A stride, plane, map or list has not the length it must have, a count exceeds the picture, or a block's rows leave its buffer.
    Room = 2,
    /// The macroblock lies outside the picture.
    Place = 3,
    /// The macroblock is done already.
    Done = 4,
    /// An available neighbour that holds samples which the record reads is not done yet: offer the macroblock again later. What a mode reads
    /// [`reads_4x4`](crate::block::reads_4x4) and its companions answer.
    NotReady = 5,
    /// The kind or a mode is unknown, or an unused mode is not 0.
    Unknown = 6,
    /// A mode needs samples that are not available where it stands.
    NotPermitted = 7,
    /// A number lies outside -32768..=32767, or the inverse transform of a block of coefficients leaves the range that the standard demands of
    /// 8-bit samples (8.5.12.2, 8.5.13.2): a value that the clause names lies outside -32768..=32767, or above 32735 after the columns.
    Range = 8,
    /// The row counts or the turn list have another length than the picture has rows, or a row count disagrees with the done map: count anew.
    Rows = 9,
    /// The list of an order is not as long as the picture has macroblocks, or names an address outside the picture.
    Order = 13,
}

impl Refusal {
    /// Every refusal that this version knows, in the order of its number.
    pub const ALL: &'static [Refusal] = &[
        Refusal::Size,
        Refusal::Room,
        Refusal::Place,
        Refusal::Done,
        Refusal::NotReady,
        Refusal::Unknown,
        Refusal::NotPermitted,
        Refusal::Range,
        Refusal::Rows,
        Refusal::Order,
    ];

    /// The number of the refusal, as C callers get it.
    pub const fn number(self) -> u32 {
        self as u32
    }

    /// The refusal that has this number.
    pub fn from_number(number: u32) -> Option<Refusal> {
        Refusal::ALL.iter().copied().find(|r| r.number() == number)
    }

    /// An answer of the C functions as a result.
    pub(crate) fn check(answer: u32) -> Result<(), Refusal> {
        match answer {
            0 => Ok(()),
            n => Err(Refusal::from_number(n).unwrap_or_else(|| panic!("an archive of another version: it answers {n}"))),
        }
    }
}

impl fmt::Display for Refusal {
    fn fmt(&self, f: &mut fmt::Formatter<'_>) -> fmt::Result {
        f.write_str(match self {
            Refusal::Size => "the picture's size is out of range",
            Refusal::Room => "a stride, plane, map, list or count breaks the rules",
            Refusal::Place => "the macroblock lies outside the picture",
            Refusal::Done => "the macroblock is done",
            Refusal::NotReady => "a neighbour that the record reads is not done",
            Refusal::Unknown => "a kind or mode is unknown, or an unused mode is not 0",
            Refusal::NotPermitted => "a mode is not permitted where it stands",
            Refusal::Range => "a number or a block's transform is out of range",
            Refusal::Rows => "a row count disagrees with the done map, or the counts or the list have a wrong length",
            Refusal::Order => "the list of an order has a wrong length or names an address outside the picture",
        })
    }
}

impl std::error::Error for Refusal {}
