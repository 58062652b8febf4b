//! The routines on single blocks: intra prediction (clause 8.3), the inverse transforms and clipped sums (clause 8.5), and the small tables
//! beside them. A mode is a number, so that any may be tried; [`LumaMode`](crate::LumaMode) and its companions give the numbers names.
//!
//! A routine that returns an error has written nothing. Every `unsafe` block here passes slices and arrays as pointers with their lengths,
//! which is all that the C functions ask for.
use crate::{sys, Refusal};

/// Which samples beside a block are available.
#[derive(Clone, Copy, Debug, Default, PartialEq, Eq)]
pub struct Marks {
    /// The row above the block.
    pub above: bool,
    /// The column to its left.
    pub left: bool,
    /// The sample above its left column.
    pub corner: bool,
}

/// A luma quantisation parameter.
#[derive(Clone, Copy, Debug, PartialEq, Eq, PartialOrd, Ord)]
pub struct LumaQp(pub u8);

/// A chroma quantisation parameter.
#[derive(Clone, Copy, Debug, PartialEq, Eq, PartialOrd, Ord)]
pub struct ChromaQp(pub u8);

/// `v` brought into 0..=255.
pub fn clip_u8(v: i32) -> u8 {
    unsafe { sys::jiwarbend_clip_u8(v) }
}

/// The chroma QP of a luma QP, with an index offset of 0. A QP above 51 is taken as 51.
pub fn chroma_qp(qp: LumaQp) -> ChromaQp {
    ChromaQp(unsafe { sys::jiwarbend_chroma_qp(qp.0) })
}

/// The context `nC` from the numbers of coefficients of the blocks to the left and above.
pub fn nc_from_neighbors(a: Option<u8>, b: Option<u8>) -> i32 {
    unsafe { sys::jiwarbend_nc_from_neighbors(a.is_some(), a.unwrap_or(0), b.is_some(), b.unwrap_or(0)) }
}

/// The numbers of coefficients of a macroblock's 24 blocks, from scan order to raster order.
pub fn nnz_raster_from_z(n: &[u8; 24]) -> [u8; 24] {
    let mut out = [0; 24];
    unsafe { sys::jiwarbend_nnz_raster_from_z(n.as_ptr(), n.len(), out.as_mut_ptr(), out.len()) };
    out
}

/// The 4x4 luma modes that the marks permit: bit m for mode m.
pub fn permitted_4x4(marks: Marks) -> u16 {
    unsafe { sys::jiwarbend_permitted_4x4(marks.above, marks.left, marks.corner) }
}

/// The 8x8 luma modes that the marks permit: bit m for mode m.
pub fn permitted_8x8(marks: Marks) -> u16 {
    unsafe { sys::jiwarbend_permitted_8x8(marks.above, marks.left, marks.corner) }
}

/// The 16x16 luma modes that the marks permit: bit m for mode m.
pub fn permitted_16x16(marks: Marks) -> u16 {
    unsafe { sys::jiwarbend_permitted_16x16(marks.above, marks.left, marks.corner) }
}

/// The chroma modes that the marks permit: bit m for mode m.
pub fn permitted_chroma(marks: Marks) -> u16 {
    unsafe { sys::jiwarbend_permitted_chroma(marks.above, marks.left, marks.corner) }
}

/// A set of the groups of samples beside a block.
#[derive(Clone, Copy, Debug, PartialEq, Eq, Hash)]
pub struct Groups(u8);

impl Groups {
    /// Whether the row above the block is in the set.
    pub const fn above(self) -> bool {
        self.0 & 1 != 0
    }

    /// Whether the column to its left is.
    pub const fn left(self) -> bool {
        self.0 & 2 != 0
    }

    /// Whether the sample above its left column is.
    pub const fn corner(self) -> bool {
        self.0 & 4 != 0
    }

    /// Whether the samples above and to the right are.
    pub const fn above_right(self) -> bool {
        self.0 & 8 != 0
    }

    /// The set as the C functions answer it: 1 above, 2 left, 4 corner and 8 above-right, added up.
    pub const fn bits(self) -> u8 {
        self.0
    }
}

/// The groups that a 4x4 luma mode reads where the marks stand so; `above_right` marks the samples above and to the right. None for a mode
/// that is unknown or not permitted.
///
/// A permitted mode reads a group exactly when two neighbourhoods with the same marks that differ in the samples of this group alone can give
/// different predictions. Where above is available and above-right is not, the last sample above is repeated, and counts as above. A
/// macroblock [waits](Refusal::NotReady) for the neighbours that hold what it reads.
pub fn reads_4x4(mode: u8, marks: Marks, above_right: bool) -> Groups {
    Groups(unsafe { sys::jiwarbend_reads_4x4(mode, marks.above, marks.left, marks.corner, above_right) })
}

/// The groups that an 8x8 luma mode reads, as [`reads_4x4`] has it. What the filter of the neighbours reads counts.
///
/// ```
/// use jiwarbend::block::{reads_8x8, Marks};
/// use jiwarbend::LumaMode;
///
/// let all = Marks { above: true, left: true, corner: true };
/// let vertical = reads_8x8(LumaMode::Vertical.number(), all, true);
/// assert!(vertical.above() && vertical.corner() && vertical.above_right() && !vertical.left());
/// assert!(!reads_8x8(LumaMode::HorizontalDown.number(), all, true).above_right());
/// ```
pub fn reads_8x8(mode: u8, marks: Marks, above_right: bool) -> Groups {
    Groups(unsafe { sys::jiwarbend_reads_8x8(mode, marks.above, marks.left, marks.corner, above_right) })
}

/// The groups that a 16x16 luma mode reads, as [`reads_4x4`] has it. Above-right is never among them.
pub fn reads_16x16(mode: u8, marks: Marks) -> Groups {
    Groups(unsafe { sys::jiwarbend_reads_16x16(mode, marks.above, marks.left, marks.corner) })
}

/// The groups that a chroma mode reads, as [`reads_4x4`] has it. Above-right is never among them.
pub fn reads_chroma(mode: u8, marks: Marks) -> Groups {
    Groups(unsafe { sys::jiwarbend_reads_chroma(mode, marks.above, marks.left, marks.corner) })
}

macro_rules! predictors {
    ($($(#[$doc:meta])* $name:ident, $export:ident, $top:literal, $left:literal, $block:literal;)*) => {$(
        $(#[$doc])*
        pub fn $name(mode: u8, marks: Marks, top: &[u8; $top], left: &[u8; $left], corner: u8) -> Result<[u8; $block], Refusal> {
            let mut out = [0; $block];
            let answer = unsafe {
                sys::$export(
                    mode,
                    marks.above,
                    marks.left,
                    marks.corner,
                    top.as_ptr(),
                    top.len(),
                    left.as_ptr(),
                    left.len(),
                    corner,
                    out.as_mut_ptr(),
                    out.len(),
                )
            };
            Refusal::check(answer).map(|()| out)
        }
    )*};
}

predictors! {
    /// 4x4 luma prediction (8.3.1.2), modes 0 to 8. `top` holds the four samples above and the four above and to the right, which the
    /// caller fills with the last one above where they are not available.
    ///
    /// # Errors
    ///
    /// [`Refusal::Unknown`] for a mode above 8, [`Refusal::NotPermitted`] for one that the marks do not permit.
    intra4x4_pred, jiwarbend_intra4x4_pred, 8, 4, 16;
    /// 8x8 luma prediction (8.3.2.2), modes 0 to 8, with the neighbours filtered first. `top` holds the eight samples above and the
    /// eight above and to the right, which the caller fills with the last one above where they are not available.
    ///
    /// # Errors
    ///
    /// [`Refusal::Unknown`] for a mode above 8, [`Refusal::NotPermitted`] for one that the marks do not permit.
    intra8x8_pred, jiwarbend_intra8x8_pred, 16, 8, 64;
    /// 16x16 luma prediction (8.3.3), modes 0 to 3.
    ///
    /// # Errors
    ///
    /// [`Refusal::Unknown`] for a mode above 3, [`Refusal::NotPermitted`] for one that the marks do not permit.
    luma16x16_pred, jiwarbend_luma16x16_pred, 16, 16, 256;
    /// 8x8 chroma prediction (8.3.4), modes 0 to 3.
    ///
    /// # Errors
    ///
    /// [`Refusal::Unknown`] for a mode above 3, [`Refusal::NotPermitted`] for one that the marks do not permit.
    chroma8x8_pred, jiwarbend_chroma8x8_pred, 8, 8, 64;
}

/// The one sample that fills a 16x16 luma block in DC mode (8.3.3.3). The mark of the corner says nothing here.
pub fn luma16x16_dc(marks: Marks, top: &[u8; 16], left: &[u8; 16]) -> u8 {
    let mut out = [0; 1];
    let (t, l) = (top.as_ptr(), left.as_ptr());
    unsafe { sys::jiwarbend_luma16x16_dc(marks.above, marks.left, t, top.len(), l, left.len(), out.as_mut_ptr(), out.len()) };
    out[0]
}

/// The 8x8 chroma block of DC mode (8.3.4.1). The mark of the corner says nothing here.
pub fn chroma8x8_dc(marks: Marks, top: &[u8; 8], left: &[u8; 8]) -> [u8; 64] {
    let mut out = [0; 64];
    let (t, l) = (top.as_ptr(), left.as_ptr());
    unsafe { sys::jiwarbend_chroma8x8_dc(marks.above, marks.left, t, top.len(), l, left.len(), out.as_mut_ptr(), out.len()) };
    out
}

/// 16x16 luma prediction from the samples around place `base` of a plane, with both neighbours there, into the first 256 bytes of `pred`.
///
/// # Errors
///
/// [`Refusal::Room`] unless the stride is 1..=4096, corner, above row and left column lie in `rec`, and `pred` has 256 bytes;
/// [`Refusal::Unknown`] for a mode above 3.
pub fn i16x16_luma_pred(mode: u8, pred: &mut [u8], rec: &[u8], base: usize, stride: usize) -> Result<(), Refusal> {
    Refusal::check(unsafe { sys::jiwarbend_i16x16_luma_pred(mode, pred.as_mut_ptr(), pred.len(), rec.as_ptr(), rec.len(), base, stride) })
}

/// 8x8 chroma prediction, modes 2 and 3, from the samples around place `base` of a plane, into the first 64 bytes of `pred`.
///
/// # Errors
///
/// [`Refusal::Room`] unless the stride is 1..=4096, corner, above row and left column lie in `rec`, and `pred` has 64 bytes;
/// [`Refusal::Unknown`] for another mode.
pub fn chroma8x8_plane_pred(mode: u8, pred: &mut [u8], rec: &[u8], base: usize, stride: usize) -> Result<(), Refusal> {
    Refusal::check(unsafe {
        sys::jiwarbend_chroma8x8_plane_pred(mode, pred.as_mut_ptr(), pred.len(), rec.as_ptr(), rec.len(), base, stride)
    })
}

/// The residual of sixteen dequantised coefficients (8.5.12.2).
///
/// # Errors
///
/// [`Refusal::Range`] for a number outside -32768..=32767, or a block whose transform leaves the range of 8.5.12.2: alone at place 0, 32735 is
/// taken and 32736 is not.
pub fn inverse_4x4(deq: &[i32; 16]) -> Result<[i32; 16], Refusal> {
    let mut out = [0; 16];
    let answer = unsafe { sys::jiwarbend_inverse_4x4(deq.as_ptr(), deq.len(), out.as_mut_ptr(), out.len()) };
    Refusal::check(answer).map(|()| out)
}

/// The residual of 64 dequantised coefficients (8.5.13.2). Both are in raster order.
///
/// ```
/// use jiwarbend::block::inverse_8x8;
///
/// // The first coefficient moves all 64 samples by a sixty-fourth of it, the second moves the columns.
/// let mut deq = [0; 64];
/// deq[0] = 640;
/// deq[1] = 128;
/// let residual = inverse_8x8(&deq)?;
/// assert_eq!(residual[..8], [13, 13, 12, 11, 9, 9, 8, 7]);
/// assert!(residual.chunks(8).all(|row| row == &residual[..8]));
/// # Ok::<(), jiwarbend::Refusal>(())
/// ```
///
/// # Errors
///
/// [`Refusal::Range`] for a number outside -32768..=32767, or a block whose transform leaves the range of 8.5.13.2: alone at place 0, 32735 is
/// taken and 32736 is not.
pub fn inverse_8x8(deq: &[i32; 64]) -> Result<[i32; 64], Refusal> {
    let mut out = [0; 64];
    let answer = unsafe { sys::jiwarbend_inverse_8x8(deq.as_ptr(), deq.len(), out.as_mut_ptr(), out.len()) };
    Refusal::check(answer).map(|()| out)
}

macro_rules! sums {
    ($($(#[$doc:meta])* $name:ident, $export:ident, $first:ident, $block:literal;)*) => {$(
        $(#[$doc])*
        pub fn $name($first: &[i32; $block], pred: &[i32; $block]) -> Result<[u8; $block], Refusal> {
            let mut out = [0; $block];
            let answer = unsafe {
                sys::$export($first.as_ptr(), $first.len(), pred.as_ptr(), pred.len(), out.as_mut_ptr(), out.len())
            };
            Refusal::check(answer).map(|()| out)
        }
    )*};
}

sums! {
    /// The clipped sums of a 4x4 prediction and the residual of its coefficients.
    ///
    /// # Errors
    ///
    /// [`Refusal::Range`] for a number outside -32768..=32767, or a block whose transform leaves the range of 8.5.12.2.
    reconstruct_4x4, jiwarbend_reconstruct_4x4, deq, 16;
    /// The clipped sums of a 4x4 prediction and a residual.
    ///
    /// # Errors
    ///
    /// [`Refusal::Range`] for a number outside -32768..=32767.
    add_residual_4x4, jiwarbend_add_residual_4x4, res, 16;
    /// The clipped sums of an 8x8 prediction and a residual.
    ///
    /// # Errors
    ///
    /// [`Refusal::Range`] for a number outside -32768..=32767.
    add_residual_8x8, jiwarbend_add_residual_8x8, res, 64;
}

/// Four rows of four samples in a lent buffer: the first at `offset`, `stride` apart.
#[derive(Clone, Copy, Debug, PartialEq, Eq)]
pub struct Square {
    /// The place of the first sample.
    pub offset: usize,
    /// The distance of two rows.
    pub stride: usize,
}

/// The clipped sums of a prediction in a plane and the residual of its coefficients, written into another plane.
///
/// # Errors
///
/// [`Refusal::Room`] unless the prediction's stride is 0..=4096, the written one 4..=4096, and all rows lie in their buffers;
/// [`Refusal::Range`] for a number outside -32768..=32767, or a block whose transform leaves the range of 8.5.12.2.
pub fn reconstruct_4x4_into(deq: &[i32; 16], pred: &[u8], from: Square, rec: &mut [u8], to: Square) -> Result<(), Refusal> {
    Refusal::check(unsafe {
        sys::jiwarbend_reconstruct_4x4_into(
            deq.as_ptr(),
            deq.len(),
            pred.as_ptr(),
            pred.len(),
            from.offset,
            from.stride,
            rec.as_mut_ptr(),
            rec.len(),
            to.offset,
            to.stride,
        )
    })
}

/// The clipped sums of a prediction in a plane and one residual for all sixteen samples, written into another plane.
///
/// # Errors
///
/// [`Refusal::Room`] unless the prediction's stride is 0..=4096, the written one 4..=4096, and all rows lie in their buffers;
/// [`Refusal::Range`] for a number outside -32768..=32767.
pub fn reconstruct_4x4_dc_into(rval: i32, pred: &[u8], from: Square, rec: &mut [u8], to: Square) -> Result<(), Refusal> {
    Refusal::check(unsafe {
        sys::jiwarbend_reconstruct_4x4_dc_into(
            rval,
            pred.as_ptr(),
            pred.len(),
            from.offset,
            from.stride,
            rec.as_mut_ptr(),
            rec.len(),
            to.offset,
            to.stride,
        )
    })
}

/// The clipped sums of a prediction in a plane and a residual, written into another plane.
///
/// # Errors
///
/// [`Refusal::Room`] unless the prediction's stride is 0..=4096, the written one 4..=4096, and all rows lie in their buffers;
/// [`Refusal::Range`] for a number outside -32768..=32767.
pub fn add_residual_4x4_into(res: &[i32; 16], pred: &[u8], from: Square, rec: &mut [u8], to: Square) -> Result<(), Refusal> {
    Refusal::check(unsafe {
        sys::jiwarbend_add_residual_4x4_into(
            res.as_ptr(),
            res.len(),
            pred.as_ptr(),
            pred.len(),
            from.offset,
            from.stride,
            rec.as_mut_ptr(),
            rec.len(),
            to.offset,
            to.stride,
        )
    })
}
