//! Cases of 4x4 and 8x8 luma prediction turned on their side, for those who write tests: a case whose block is known gives another.
//!
//! Left is exchanged with the first samples above, and the mark of left with that of above. The mode's [partner](LumaMode::partner) is then refused
//! exactly where the mode was, and its block is the transposed one. That is proved of the library, for every case that `turned` gives
//! (`crates/turned`).
//!
//! ```
//! use jiwarbend::block::Marks;
//! use jiwarbend::turned::Case4x4;
//! use jiwarbend::LumaMode;
//!
//! let case = Case4x4 {
//!     mode: LumaMode::VerticalRight.number(),
//!     marks: Marks { above: true, left: true, corner: true },
//!     top: [10, 20, 30, 40, 50, 60, 70, 80],
//!     left: [12, 24, 36, 48],
//!     corner: 6,
//! };
//! let turned = case.turned([0; 4]).expect("the mode has a partner");
//! assert_eq!(turned.mode, LumaMode::HorizontalDown.number());
//! assert_eq!(turned.predict()?, Case4x4::transposed(&case.predict()?));
//! # Ok::<(), jiwarbend::Refusal>(())
//! ```
use crate::block::{intra4x4_pred, intra8x8_pred, Marks};
use crate::{LumaMode, Refusal};

/// What a predictor is handed.
#[derive(Clone, Copy, Debug, PartialEq, Eq)]
pub struct Case<const TOP: usize, const LEFT: usize> {
    /// The mode's number, any of them.
    pub mode: u8,
    /// Which samples are available.
    pub marks: Marks,
    /// The samples above, and then those above and to the right.
    pub top: [u8; TOP],
    /// The samples to the left.
    pub left: [u8; LEFT],
    /// The sample above the left column.
    pub corner: u8,
}

/// A case of 4x4 prediction.
pub type Case4x4 = Case<8, 4>;

/// A case of 8x8 prediction.
pub type Case8x8 = Case<16, 8>;

impl<const TOP: usize, const LEFT: usize> Case<TOP, LEFT> {
    fn exchanged(&self, right: [u8; LEFT]) -> Option<Self> {
        let mode = LumaMode::from_number(self.mode)?.partner()?.number();
        let marks = Marks { above: self.marks.left, left: self.marks.above, corner: self.marks.corner };
        let (mut top, mut left) = ([0; TOP], [0; LEFT]);
        top[..LEFT].copy_from_slice(&self.left);
        top[LEFT..].copy_from_slice(&right);
        left.copy_from_slice(&self.top[..LEFT]);
        Some(Case { mode, marks, top, left, corner: self.corner })
    }
}

impl Case4x4 {
    /// The block of the case.
    ///
    /// # Errors
    ///
    /// As [`intra4x4_pred`].
    pub fn predict(&self) -> Result<[u8; 16], Refusal> {
        intra4x4_pred(self.mode, self.marks, &self.top, &self.left, self.corner)
    }

    /// The case on its side, with any samples `right` above and to the right, or `None` where the mode has no partner.
    pub fn turned(&self, right: [u8; 4]) -> Option<Case4x4> {
        self.exchanged(right)
    }

    /// A block with rows and columns exchanged.
    pub fn transposed(block: &[u8; 16]) -> [u8; 16] {
        transposed(block, 4)
    }
}

impl Case8x8 {
    /// The block of the case.
    ///
    /// # Errors
    ///
    /// As [`intra8x8_pred`].
    pub fn predict(&self) -> Result<[u8; 64], Refusal> {
        intra8x8_pred(self.mode, self.marks, &self.top, &self.left, self.corner)
    }

    /// The case on its side, with the samples `right` above and to the right, or `None` where the mode has no partner, or where above is
    /// available and `top[8]` is another sample than `top[7]`, before the exchange or after it: the filter of the neighbours tells them apart.
    pub fn turned(&self, right: [u8; 8]) -> Option<Case8x8> {
        let level = |case: &Case8x8| !case.marks.above || case.top[8] == case.top[7];
        self.exchanged(right).filter(|turned| level(self) && level(turned))
    }

    /// A block with rows and columns exchanged.
    pub fn transposed(block: &[u8; 64]) -> [u8; 64] {
        transposed(block, 8)
    }
}

fn transposed<const B: usize>(block: &[u8; B], side: usize) -> [u8; B] {
    std::array::from_fn(|k| block[k % side * side + k / side])
}
