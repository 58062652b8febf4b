//! A driver over whole pictures that calls the Rust's routines and the 8x8 inverse: the rules' checks in their order, then the macroblock. What a macroblock
//! waits for it takes from the groups of samples that its modes read, which were found by trial (`reads`).
//!
//! It comes in forms for the benchmark. `CHECKS` says whether refusals 6 to 8 are looked for. `SHORT` gives blocks whose only coefficient is
//! the first, or which have none, one residual for all samples, which needs no inverse; a block without any keeps its prediction. `MADE` says that the
//! numbers are residuals already: where coefficients are not so near 0 that they must be in range, all are transformed before one sample is put, and their
//! range is found on the way.
use crate::inverse_8x8::inverse_8x8;
use crate::predict::{self, I16Mode, CHROMA_4X4_SCAN_XY, LUMA_4X4_SCAN_XY};
use crate::reads::{self, ABOVE, ABOVE_RIGHT, CORNER, LEFT};
use crate::rules::{self, Marks};

pub struct Plane<'a> {
    pub samples: &'a mut [u8],
    pub stride: usize,
}

#[derive(Clone, Copy, Debug, Default, PartialEq, Eq)]
pub struct Progress {
    pub count: u32,
    pub last: u32,
}

pub struct Picture<'a> {
    pub w: u32,
    pub h: u32,
    pub luma: Plane<'a>,
    pub cb: Plane<'a>,
    pub cr: Plane<'a>,
    pub done: &'a mut [u8],
    pub slices: &'a [u16],
    pub progress: &'a mut Progress,
}

/// Which of the four neighbour macroblocks are available: A left, B above, C above-right, D above-left.
#[derive(Clone, Copy)]
pub struct Near {
    pub a: bool,
    pub b: bool,
    pub c: bool,
    pub d: bool,
}

/// The neighbours of the macroblock in column `x` and row `y` that lie in the picture and in its slice.
pub fn near(w: usize, slices: &[u16], x: usize, y: usize) -> Near {
    let at = y * w + x;
    let same = |n: usize| slices[n] == slices[at];
    Near {
        a: x > 0 && same(at - 1),
        b: y > 0 && same(at - w),
        c: y > 0 && x + 1 < w && same(at + 1 - w),
        d: y > 0 && x > 0 && same(at - w - 1),
    }
}

pub(crate) fn sized(w: u32, h: u32) -> bool {
    (1..=120).contains(&w) && (1..=68).contains(&h)
}

pub fn start(w: u32, h: u32, done: &mut [u8], progress: &mut Progress) -> u32 {
    if !sized(w, h) {
        return 1;
    }
    if done.len() != (w * h) as usize {
        return 2;
    }
    done.fill(0);
    *progress = Progress { count: 0, last: 0 };
    0
}

impl Picture<'_> {
    fn room(&self, modes: &[u8], numbers: &[i32]) -> bool {
        let (w, h) = (self.w as usize, self.h as usize);
        let plane = |p: &Plane, n: usize| (n * w..=4096).contains(&p.stride) && p.samples.len() >= (n * h - 1) * p.stride + n * w;
        plane(&self.luma, 16)
            && plane(&self.cb, 8)
            && plane(&self.cr, 8)
            && self.done.len() == w * h
            && self.slices.len() == w * h
            && self.progress.count <= self.w * self.h
            && modes.len() == 16
            && numbers.len() == 384
    }

    /// Whether every available neighbour is done: then nothing is waited for, whatever the record reads.
    fn neighbours_done(&self, at: usize, n: Near) -> bool {
        let w = self.w as usize;
        let undone = |there: bool, back: usize| there && self.done[at - back] != 1;
        !(undone(n.a, 1) || undone(n.b, w) || (n.c && self.done[at + 1 - w] != 1) || undone(n.d, w + 1))
    }

    /// Whether an undone macroblock holds samples that a used block of the macroblock at `(x, y)` reads.
    #[cold]
    fn waits(&self, (x, y): (usize, usize), n: Near, kind: u8, modes: &[u8], chroma_mode: u8) -> bool {
        let whole = marks(0, 0, n);
        if self.holds_undone(reads::reads_chroma(chroma_mode, whole), (x, y), 1) {
            return true;
        }
        match kind {
            0 => LUMA_4X4_SCAN_XY.iter().enumerate().any(|(k, &(bx, by))| {
                let read = reads::reads_4x4(modes[k], marks(bx, by, n), right_4x4(k, n));
                self.holds_undone(read, (4 * x + bx, 4 * y + by), 4)
            }),
            1 => (0..4).any(|k| {
                let (bx, by) = (k % 2, k / 2);
                let read = reads::reads_8x8(modes[k], marks(bx, by, n), right_8x8(k, n));
                self.holds_undone(read, (2 * x + bx, 2 * y + by), 2)
            }),
            _ => self.holds_undone(reads::reads_16x16(modes[0], whole), (x, y), 1),
        }
    }

    /// Whether one of these groups, which are available, lies in another macroblock that is undone. The block is in column `bx` and row `by` of the
    /// picture's blocks, of which a macroblock has `side` in a row. A group lies in the block beside it, and so in that block's macroblock.
    fn holds_undone(&self, groups: u8, (bx, by): (usize, usize), side: usize) -> bool {
        let beside = [(ABOVE, (0, -1)), (LEFT, (-1, 0)), (CORNER, (-1, -1)), (ABOVE_RIGHT, (1, -1))];
        beside.into_iter().filter(|(group, _)| groups & group != 0).any(|(_, (right, down))| {
            let (x, y) = (bx.wrapping_add_signed(right) / side, by.wrapping_add_signed(down) / side);
            (x, y) != (bx / side, by / side) && self.done[y * self.w as usize + x] != 1
        })
    }

    /// Rebuilds the macroblock in column `x` and row `y`, or answers the refusal.
    pub fn rebuild(&mut self, x: u32, y: u32, kind: u8, modes: &[u8], chroma_mode: u8, numbers: &[i32]) -> u32 {
        self.rebuild_as::<true, false>(x, y, kind, modes, chroma_mode, numbers)
    }

    /// The same in one of the benchmark's forms.
    pub fn rebuild_as<const CHECKS: bool, const SHORT: bool>(
        &mut self,
        x: u32,
        y: u32,
        kind: u8,
        modes: &[u8],
        chroma_mode: u8,
        numbers: &[i32],
    ) -> u32 {
        if !sized(self.w, self.h) {
            return 1;
        }
        if !self.room(modes, numbers) {
            return 2;
        }
        if x >= self.w || y >= self.h {
            return 3;
        }
        let (x, y) = (x as usize, y as usize);
        let at = y * self.w as usize + x;
        if self.done[at] == 1 {
            return 4;
        }
        let n = near(self.w as usize, self.slices, x, y);
        let ready = self.neighbours_done(at, n);
        if CHECKS {
            if let Err(refusal) = modes_pass(kind, modes, chroma_mode, n) {
                return refusal;
            }
        }
        if !ready && self.waits((x, y), n, kind, modes, chroma_mode) {
            return 5;
        }
        let planes = [&mut self.luma, &mut self.cb, &mut self.cr];
        let answer = macroblock_as::<CHECKS, SHORT>(planes, (x, y), n, kind, modes, chroma_mode, numbers);
        if answer != 0 {
            return answer;
        }
        self.done[at] = 1;
        self.progress.last = at as u32;
        self.progress.count = (self.progress.count + 1).min(self.w * self.h);
        0
    }
}

/// Rebuilds the macroblock at `(x, y)` of luma, Cb and Cr, which lies in them with its available neighbours `n`, or answers 6, 7 or 8.
pub fn macroblock(
    planes: [&mut Plane; 3],
    place: (usize, usize),
    n: Near,
    kind: u8,
    modes: &[u8],
    chroma_mode: u8,
    numbers: &[i32],
) -> u32 {
    match modes_pass(kind, modes, chroma_mode, n) {
        Ok(()) => macroblock_as::<true, false>(planes, place, n, kind, modes, chroma_mode, numbers),
        Err(refusal) => refusal,
    }
}

/// Refusals 6 and 7.
fn modes_pass(kind: u8, modes: &[u8], chroma_mode: u8, n: Near) -> Result<(), u32> {
    if !known(kind, modes, chroma_mode) {
        return Err(6);
    }
    if !permitted(kind, modes, chroma_mode, n) {
        return Err(7);
    }
    Ok(())
}

/// The same of a record whose kind and modes are known and permitted.
fn macroblock_as<const CHECKS: bool, const SHORT: bool>(
    [luma, cb, cr]: [&mut Plane; 3],
    (x, y): (usize, usize),
    n: Near,
    kind: u8,
    modes: &[u8],
    chroma_mode: u8,
    numbers: &[i32],
) -> u32 {
    if CHECKS && !rules::all_surely_in_range(kind, numbers) {
        return match rules::all_residuals(kind, numbers) {
            Ok(res) => put_all::<SHORT, true>([luma, cb, cr], (x, y), n, kind, modes, chroma_mode, &res),
            Err(refusal) => refusal,
        };
    }
    put_all::<SHORT, false>([luma, cb, cr], (x, y), n, kind, modes, chroma_mode, numbers)
}

/// All blocks of a macroblock that is not refused.
fn put_all<const SHORT: bool, const MADE: bool>(
    [luma, cb, cr]: [&mut Plane; 3],
    (x, y): (usize, usize),
    n: Near,
    kind: u8,
    modes: &[u8],
    chroma_mode: u8,
    numbers: &[i32],
) -> u32 {
    match kind {
        0 => blocks_4x4::<SHORT, MADE>(luma, x, y, n, modes, numbers),
        1 => blocks_8x8::<SHORT, MADE>(luma, x, y, n, modes, numbers),
        _ => block_16x16::<SHORT, MADE>(luma, x, y, n, modes[0], numbers),
    }
    chroma::<SHORT, MADE>(cb, x, y, n, chroma_mode, &numbers[256..320]);
    chroma::<SHORT, MADE>(cr, x, y, n, chroma_mode, &numbers[320..384]);
    0
}

/// A 4x4 block's prediction and residual into the plane.
fn reconstruct<const SHORT: bool, const MADE: bool>(numbers: &[i32], pred: &[u8], p_off: usize, p_stride: usize, p: &mut Plane, at: usize) {
    let numbers: &[i32; 16] = numbers.try_into().unwrap();
    if MADE {
        return predict::add_residual_4x4_into(numbers, pred, p_off, p_stride, p.samples, at, p.stride);
    }
    match flat_residual::<SHORT>(numbers) {
        Some(0) => {
            for r in 0..4 {
                p.samples[at + r * p.stride..][..4].copy_from_slice(&pred[p_off + r * p_stride..][..4]);
            }
        }
        Some(flat) => predict::reconstruct_4x4_dc_into(flat, pred, p_off, p_stride, p.samples, at, p.stride),
        None => predict::reconstruct_4x4_into(numbers, pred, p_off, p_stride, p.samples, at, p.stride),
    }
}

/// The short way: the residual of every sample, where the coefficients are 0 but for the first.
fn flat_residual<const SHORT: bool>(deq: &[i32]) -> Option<i32> {
    (SHORT && deq[1..].iter().fold(0, |all, v| all | v) == 0).then(|| (deq[0] + 32) >> 6)
}

/// An 8x8 block's prediction and residual.
fn sums_8x8<const SHORT: bool, const MADE: bool>(numbers: &[i32; 64], pred: [u8; 64]) -> [u8; 64] {
    if MADE {
        return predict::add_residual_8x8(numbers, &pred.map(i32::from));
    }
    match flat_residual::<SHORT>(numbers) {
        Some(0) => pred,
        Some(flat) => pred.map(|v| predict::clip_u8(i32::from(v) + flat)),
        None => predict::add_residual_8x8(&inverse_8x8(numbers), &pred.map(i32::from)),
    }
}

fn known(kind: u8, modes: &[u8], chroma_mode: u8) -> bool {
    let (used, last) = match kind {
        0 => (16, 8),
        1 => (4, 8),
        2 => (1, 3),
        _ => return false,
    };
    modes[..used].iter().all(|&m| m <= last) && modes[used..].iter().all(|&m| m == 0) && chroma_mode <= 3
}

fn permitted(kind: u8, modes: &[u8], chroma_mode: u8, n: Near) -> bool {
    let whole = Marks { above: n.b, left: n.a, corner: n.d };
    let luma = match kind {
        0 => (0..16).all(|k| rules::permitted_nxn(modes[k], marks(LUMA_4X4_SCAN_XY[k].0, LUMA_4X4_SCAN_XY[k].1, n))),
        1 => (0..4).all(|k| rules::permitted_nxn(modes[k], marks(k % 2, k / 2, n))),
        _ => rules::permitted_16x16(modes[0], whole),
    };
    luma && rules::permitted_chroma(chroma_mode, whole)
}

/// The marks of the block in column `bx` and row `by` of a macroblock's blocks: a side has the availability of the macroblock that holds it.
pub fn marks(bx: usize, by: usize, n: Near) -> Marks {
    let corner = match (bx > 0, by > 0) {
        (true, true) => true,
        (true, false) => n.b,
        (false, true) => n.a,
        (false, false) => n.d,
    };
    Marks { above: by > 0 || n.b, left: bx > 0 || n.a, corner }
}

/// Whether the samples above and to the right of 4x4 block `k` are available.
fn right_4x4(k: usize, n: Near) -> bool {
    match k {
        3 | 7 | 11 | 13 | 15 => false,
        5 => n.c,
        0 | 1 | 4 => n.b,
        _ => true,
    }
}

/// The same of 8x8 block `k`.
fn right_8x8(k: usize, n: Near) -> bool {
    [n.b, n.c, true, false][k]
}

/// The row above, as far as `N` samples reach; the last `N / 2` repeat the one before them where they are not available.
fn above<const N: usize>(p: &Plane, at: usize, there: bool, right: bool) -> [u8; N] {
    let mut top = [0; N];
    if !there {
        return top;
    }
    let row = &p.samples[at - p.stride..];
    if right {
        top.copy_from_slice(&row[..N]);
    } else {
        top[..N / 2].copy_from_slice(&row[..N / 2]);
        top[N / 2..].fill(row[N / 2 - 1]);
    }
    top
}

fn left<const N: usize>(p: &Plane, at: usize, there: bool) -> [u8; N] {
    let mut column = [0; N];
    if there {
        for (r, v) in column.iter_mut().enumerate() {
            *v = p.samples[at + r * p.stride - 1];
        }
    }
    column
}

fn corner(p: &Plane, at: usize, there: bool) -> u8 {
    if there {
        p.samples[at - p.stride - 1]
    } else {
        0
    }
}

fn blocks_4x4<const SHORT: bool, const MADE: bool>(p: &mut Plane, x: usize, y: usize, n: Near, modes: &[u8], numbers: &[i32]) {
    for (k, &(bx, by)) in LUMA_4X4_SCAN_XY.iter().enumerate() {
        let m = marks(bx, by, n);
        let at = (y * 16 + by * 4) * p.stride + x * 16 + bx * 4;
        let top = above::<8>(p, at, m.above, right_4x4(k, n));
        let column = left::<4>(p, at, m.left);
        let pred = predict::intra4x4_pred(modes[k], m.above, m.left, &top, &column, corner(p, at, m.corner));
        reconstruct::<SHORT, MADE>(&numbers[16 * k..][..16], &pred, 0, 4, p, at);
    }
}

fn blocks_8x8<const SHORT: bool, const MADE: bool>(p: &mut Plane, x: usize, y: usize, n: Near, modes: &[u8], numbers: &[i32]) {
    for k in 0..4 {
        let (bx, by) = (k % 2, k / 2);
        let m = marks(bx, by, n);
        let at = (y * 16 + by * 8) * p.stride + x * 16 + bx * 8;
        let top = above::<16>(p, at, m.above, right_8x8(k, n));
        let column = left::<8>(p, at, m.left);
        let pred = predict::intra8x8_pred(modes[k], m.above, m.left, m.corner, &top, &column, corner(p, at, m.corner));
        let block = sums_8x8::<SHORT, MADE>(numbers[64 * k..][..64].try_into().unwrap(), pred);
        for (r, row) in block.chunks_exact(8).enumerate() {
            p.samples[at + r * p.stride..][..8].copy_from_slice(row);
        }
    }
}

fn block_16x16<const SHORT: bool, const MADE: bool>(p: &mut Plane, x: usize, y: usize, n: Near, mode: u8, numbers: &[i32]) {
    let at = y * 16 * p.stride + x * 16;
    let top: [u8; 16] = if n.b { p.samples[at - p.stride..][..16].try_into().unwrap() } else { [0; 16] };
    let column = left::<16>(p, at, n.a);
    let pred = predict::luma16x16_pred(I16Mode::from_id(mode as u32), n.b, n.a, &top, &column, corner(p, at, n.d));
    for (k, &(bx, by)) in LUMA_4X4_SCAN_XY.iter().enumerate() {
        let to = at + by * 4 * p.stride + bx * 4;
        reconstruct::<SHORT, MADE>(&numbers[16 * k..][..16], &pred, by * 64 + bx * 4, 16, p, to);
    }
}

fn chroma<const SHORT: bool, const MADE: bool>(p: &mut Plane, x: usize, y: usize, n: Near, mode: u8, numbers: &[i32]) {
    let at = y * 8 * p.stride + x * 8;
    let top: [u8; 8] = if n.b { p.samples[at - p.stride..][..8].try_into().unwrap() } else { [0; 8] };
    let column = left::<8>(p, at, n.a);
    let pred = predict::chroma8x8_pred(mode, n.b, n.a, &top, &column, corner(p, at, n.d));
    for (k, &(bx, by)) in CHROMA_4X4_SCAN_XY.iter().enumerate() {
        let to = at + by * 4 * p.stride + bx * 4;
        reconstruct::<SHORT, MADE>(&numbers[16 * k..][..16], &pred, by * 32 + bx * 4, 8, p, to);
    }
}
