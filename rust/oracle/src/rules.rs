//! Each routine inside the rules' domain is the Rust's own, and the 8x8 inverse the clause's; outside it, the refusal that the rules give.
use crate::{halfway, intra_pred, inverse_8x8, predict, transform};

pub const LOW: i32 = -32768;
pub const HIGH: i32 = 32767;

/// The marks of above, left and corner.
#[derive(Clone, Copy, Debug, PartialEq, Eq)]
pub struct Marks {
    pub above: bool,
    pub left: bool,
    pub corner: bool,
}

impl Marks {
    pub fn all() -> impl Iterator<Item = Marks> {
        (0..8u8).map(|b| Marks { above: b & 1 != 0, left: b & 2 != 0, corner: b & 4 != 0 })
    }
}

/// The modes that the rules permit for 4x4 and 8x8 luma blocks.
pub fn permitted_nxn(mode: u8, m: Marks) -> bool {
    match mode {
        0 | 3 | 7 => m.above,
        1 | 8 => m.left,
        2 => true,
        4..=6 => m.above && m.left && m.corner,
        _ => false,
    }
}

/// The same for 16x16 luma blocks.
pub fn permitted_16x16(mode: u8, m: Marks) -> bool {
    match mode {
        0 => m.above,
        1 => m.left,
        2 => true,
        3 => m.above && m.left && m.corner,
        _ => false,
    }
}

/// The same for chroma blocks.
pub fn permitted_chroma(mode: u8, m: Marks) -> bool {
    match mode {
        0 => true,
        1 => m.left,
        2 => m.above,
        3 => m.above && m.left && m.corner,
        _ => false,
    }
}

/// Bit m for each permitted mode m below `n`.
pub fn mode_set(n: u8, permitted: impl Fn(u8) -> bool) -> u32 {
    (0..n).filter(|&m| permitted(m)).map(|m| 1 << m).sum()
}

fn known(mode: u8, last: u8, permitted: bool) -> Result<(), u32> {
    if mode > last {
        return Err(6);
    }
    if !permitted {
        return Err(7);
    }
    Ok(())
}

/// The binary digits of the numbers' magnitudes put together, of -1 - n for a negative n: less than 2^k where every number lies in -2^k..2^k - 1. A way out
/// at the first number that does not would keep the loop from being computed several numbers at a time.
fn reach(numbers: &[i32]) -> i32 {
    numbers.iter().fold(0, |all, n| all | (n ^ (n >> 31)))
}

pub fn in_range(numbers: &[i32]) -> Result<(), u32> {
    if reach(numbers) <= HIGH {
        Ok(())
    } else {
        Err(8)
    }
}

/// Coefficients that reach no further than this are in range together, whatever they are, in a 4x4 block and in an 8x8 block.
const NEAR_4X4: i32 = 2_047;
const NEAR_8X8: i32 = 511;

/// The same of the sum of their distances from 0. In a 4x4 block a coefficient counts once at most in every value. In an 8x8 block it counts 9/4 times at
/// most, all together less than 63 times the furthest, and what is cut off on the way makes less than 43.
const SUM_4X4: i32 = 32_735;
const SUM_8X8: i32 = 14_500;

/// Whether coefficients are so near 0 that no value of their block can leave the range. It spares most blocks the look at their values.
fn surely_in_range(deq: &[i32]) -> bool {
    let (near, most) = if deq.len() == 16 { (NEAR_4X4, SUM_4X4) } else { (NEAR_8X8, SUM_8X8) };
    reach(deq) <= near || deq.iter().map(|v| v.unsigned_abs().min(32_768) as i32).sum::<i32>() <= most
}

/// What the inverse of a 4x4 or 8x8 block refuses: a number out of range, or a block that leaves the range on the way.
pub fn transformable(deq: &[i32]) -> Result<(), u32> {
    let mut res = [0; 64];
    if surely_in_range(deq) || (in_range(deq).is_ok() && halfway::residuals(deq, &mut res[..deq.len()])) {
        Ok(())
    } else {
        Err(8)
    }
}

/// Whether the coefficients of a macroblock of this kind are so near 0 that no value of any block can leave the range.
pub fn all_surely_in_range(kind: u8, numbers: &[i32]) -> bool {
    let (side, near) = if kind == 1 { (64, NEAR_8X8) } else { (16, NEAR_4X4) };
    let (luma, chroma) = numbers.split_at(256);
    reach(numbers) <= near || luma.chunks_exact(side).chain(chroma.chunks_exact(16)).all(surely_in_range)
}

/// The residuals of a macroblock of this kind, or 8.
pub fn all_residuals(kind: u8, numbers: &[i32]) -> Result<[i32; 384], u32> {
    let mut res = [0; 384];
    if in_range(numbers).is_ok() && halfway::residuals_of(kind, numbers, &mut res) {
        Ok(res)
    } else {
        Err(8)
    }
}

/// What a 4x4 or 8x8 predictor refuses: an unknown mode, or one that the marks do not permit.
pub fn mode_nxn(mode: u8, m: Marks) -> Result<(), u32> {
    known(mode, 8, permitted_nxn(mode, m))
}

/// The same for 16x16 luma blocks.
pub fn mode_16x16(mode: u8, m: Marks) -> Result<(), u32> {
    known(mode, 3, permitted_16x16(mode, m))
}

/// The same for chroma blocks.
pub fn mode_chroma(mode: u8, m: Marks) -> Result<(), u32> {
    known(mode, 3, permitted_chroma(mode, m))
}

pub fn intra4x4_pred(mode: u8, m: Marks, top: &[u8; 8], left: &[u8; 4], corner: u8) -> Result<[u8; 16], u32> {
    mode_nxn(mode, m)?;
    Ok(predict::intra4x4_pred(mode, m.above, m.left, top, left, corner))
}

pub fn intra8x8_pred(mode: u8, m: Marks, top: &[u8; 16], left: &[u8; 8], corner: u8) -> Result<[u8; 64], u32> {
    mode_nxn(mode, m)?;
    Ok(predict::intra8x8_pred(mode, m.above, m.left, m.corner, top, left, corner))
}

pub fn luma16x16_pred(mode: u8, m: Marks, top: &[u8; 16], left: &[u8; 16], corner: u8) -> Result<[u8; 256], u32> {
    mode_16x16(mode, m)?;
    Ok(predict::luma16x16_pred(predict::I16Mode::from_id(mode as u32), m.above, m.left, top, left, corner))
}

pub fn chroma8x8_pred(mode: u8, m: Marks, top: &[u8; 8], left: &[u8; 8], corner: u8) -> Result<[u8; 64], u32> {
    mode_chroma(mode, m)?;
    Ok(predict::chroma8x8_pred(mode, m.above, m.left, top, left, corner))
}

// Corner, above row and left column of a block of side n at `base` lie in `len` bytes.
fn around(n: usize, len: usize, base: usize, stride: usize) -> bool {
    let end = |last: Option<usize>| matches!(last, Some(last) if last < len);
    (1..=4096).contains(&stride)
        && base > stride
        && end((base - stride).checked_add(n - 1))
        && end((base - 1).checked_add((n - 1) * stride))
}

pub fn i16x16_luma_pred(mode: u8, pred: &mut [u8], rec: &[u8], base: usize, stride: usize) -> Result<(), u32> {
    if pred.len() < 256 || !around(16, rec.len(), base, stride) {
        return Err(2);
    }
    if mode > 3 {
        return Err(6);
    }
    intra_pred::i16x16_luma_pred(mode, pred, rec, base, stride);
    Ok(())
}

pub fn chroma8x8_plane_pred(mode: u8, pred: &mut [u8], rec: &[u8], base: usize, stride: usize) -> Result<(), u32> {
    if pred.len() < 64 || !around(8, rec.len(), base, stride) {
        return Err(2);
    }
    if mode != 2 && mode != 3 {
        return Err(6);
    }
    intra_pred::chroma8x8_pred(mode, pred, rec, base, stride);
    Ok(())
}

pub fn inverse_4x4(deq: &[i32; 16]) -> Result<[i32; 16], u32> {
    transformable(deq)?;
    Ok(transform::inverse_core(deq))
}

pub fn inverse_8x8(deq: &[i32; 64]) -> Result<[i32; 64], u32> {
    transformable(deq)?;
    Ok(inverse_8x8::inverse_8x8(deq))
}

pub fn reconstruct_4x4(deq: &[i32; 16], pred: &[i32; 16]) -> Result<[u8; 16], u32> {
    transformable(deq)?;
    in_range(pred)?;
    Ok(predict::reconstruct_4x4(deq, pred))
}

pub fn add_residual_4x4(res: &[i32; 16], pred: &[i32; 16]) -> Result<[u8; 16], u32> {
    in_range(res)?;
    in_range(pred)?;
    Ok(predict::add_residual_4x4(res, pred))
}

pub fn add_residual_8x8(res: &[i32; 64], pred: &[i32; 64]) -> Result<[u8; 64], u32> {
    in_range(res)?;
    in_range(pred)?;
    Ok(predict::add_residual_8x8(res, pred))
}

/// Four rows of four bytes in a buffer.
#[derive(Clone, Copy, Debug)]
pub struct Square {
    pub offset: usize,
    pub stride: usize,
}

impl Square {
    fn lies_in(self, len: usize, least: usize) -> bool {
        (least..=4096).contains(&self.stride) && matches!(self.offset.checked_add(3 * self.stride + 4), Some(end) if end <= len)
    }
}

fn squares(pred: &[u8], from: Square, rec: &[u8], to: Square) -> Result<(), u32> {
    if from.lies_in(pred.len(), 0) && to.lies_in(rec.len(), 4) {
        Ok(())
    } else {
        Err(2)
    }
}

pub fn reconstruct_4x4_into(deq: &[i32; 16], pred: &[u8], from: Square, rec: &mut [u8], to: Square) -> Result<(), u32> {
    squares(pred, from, rec, to)?;
    transformable(deq)?;
    predict::reconstruct_4x4_into(deq, pred, from.offset, from.stride, rec, to.offset, to.stride);
    Ok(())
}

pub fn reconstruct_4x4_dc_into(rval: i32, pred: &[u8], from: Square, rec: &mut [u8], to: Square) -> Result<(), u32> {
    squares(pred, from, rec, to)?;
    in_range(&[rval])?;
    predict::reconstruct_4x4_dc_into(rval, pred, from.offset, from.stride, rec, to.offset, to.stride);
    Ok(())
}

pub fn add_residual_4x4_into(res: &[i32; 16], pred: &[u8], from: Square, rec: &mut [u8], to: Square) -> Result<(), u32> {
    squares(pred, from, rec, to)?;
    in_range(res)?;
    predict::add_residual_4x4_into(res, pred, from.offset, from.stride, rec, to.offset, to.stride);
    Ok(())
}
