//! Macroblocks that are computed and not yet in their picture.
use std::fmt;
use std::sync::atomic::{AtomicU64, Ordering};

/// A start of a picture, by a number that no other start has. A computed macroblock knows its picture by it.
#[derive(Debug, PartialEq, Eq)]
pub(crate) struct Start(u64);

impl Start {
    pub(crate) fn new() -> Start {
        static STARTS: AtomicU64 = AtomicU64::new(1);
        Start(STARTS.fetch_add(1, Ordering::Relaxed))
    }

    /// The same start, for what belongs to it.
    pub(crate) fn same(&self) -> Start {
        Start(self.0)
    }
}

/// A clone of a picture is another picture, and so it has a start of its own.
impl Clone for Start {
    fn clone(&self) -> Start {
        Start::new()
    }
}

/// A macroblock that [`Picture::compute`](crate::Picture::compute) has made and [`Picture::commit`](crate::Picture::commit) puts into its picture. No other
/// call makes one, nothing alters it, and it knows its picture and that picture's start: a picture never takes one that is not its own.
///
/// It stays right while others are committed. It may be committed late, twice or never: nothing has to be taken back.
pub struct Computed {
    pub(crate) start: Start,
    pub(crate) x: u32,
    pub(crate) y: u32,
    pub(crate) samples: [u8; 384],
}

impl Computed {
    /// Room for one. No picture has its start.
    pub(crate) fn blank() -> Computed {
        Computed { start: Start(0), x: 0, y: 0, samples: [0; 384] }
    }

    /// Its column.
    pub fn x(&self) -> u32 {
        self.x
    }

    /// Its row.
    pub fn y(&self) -> u32 {
        self.y
    }

    /// The 256 samples of luma, in raster order.
    pub fn luma(&self) -> &[u8] {
        &self.samples[..256]
    }

    /// The 64 samples of Cb, in raster order.
    pub fn cb(&self) -> &[u8] {
        &self.samples[256..320]
    }

    /// The 64 samples of Cr, in raster order.
    pub fn cr(&self) -> &[u8] {
        &self.samples[320..]
    }
}

impl Clone for Computed {
    fn clone(&self) -> Computed {
        Computed { start: self.start.same(), ..*self }
    }
}

impl fmt::Debug for Computed {
    fn fmt(&self, f: &mut fmt::Formatter<'_>) -> fmt::Result {
        f.debug_struct("Computed").field("x", &self.x).field("y", &self.y).finish_non_exhaustive()
    }
}

/// Why a computed macroblock was not committed; nothing was changed. There is no other reason.
#[derive(Clone, Copy, Debug, PartialEq, Eq, Hash)]
pub enum NotCommitted {
    /// The macroblock is done already: another worker was faster. This is answer 4, [`Refusal::Done`](crate::Refusal::Done).
    Done,
    /// It was computed for another picture, or before the picture was started anew: drop it.
    Foreign,
}

impl fmt::Display for NotCommitted {
    fn fmt(&self, f: &mut fmt::Formatter<'_>) -> fmt::Result {
        f.write_str(match self {
            NotCommitted::Done => "the macroblock is done",
            NotCommitted::Foreign => "the macroblock was computed for another picture or before its start",
        })
    }
}

impl std::error::Error for NotCommitted {}
