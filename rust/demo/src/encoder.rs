//! A small encoder: it chooses kinds and modes by their cost, and rebuilds each block as a decoder will, so that the next one is predicted
//! from what will stand there.
use crate::scene::Scene;
use jiwarbend::block::{self, Marks, Square};
use jiwarbend::Record;

/// Where the sixteen 4x4 blocks of a macroblock stand, in scan order.
const SCAN: [(usize, usize); 16] =
    [(0, 0), (1, 0), (0, 1), (1, 1), (2, 0), (3, 0), (2, 1), (3, 1), (0, 2), (1, 2), (0, 3), (1, 3), (2, 2), (3, 2), (2, 3), (3, 3)];

/// The coefficients of a residual, rounded to a step: the forward transform, scaled so that the inverse gives the residual back.
fn coefficients(residual: &[i32; 16], step: f32) -> [i32; 16] {
    let line = |v: [i32; 4]| {
        let (a, b, c, d) = (v[0] + v[3], v[1] + v[2], v[1] - v[2], v[0] - v[3]);
        [a + b, 2 * d + c, a - b, d - 2 * c]
    };
    let mut rows = [0; 16];
    for r in 0..4 {
        rows[4 * r..][..4].copy_from_slice(&line(std::array::from_fn(|k| residual[4 * r + k])));
    }
    let norm = |k: usize| if k % 2 == 0 { 4.0 } else { 5.0 };
    let mut out = [0; 16];
    for c in 0..4 {
        let column = line(std::array::from_fn(|k| rows[4 * k + c]));
        for r in 0..4 {
            let exact = column[r] as f32 * 64.0 / (norm(r) * norm(c));
            out[4 * r + c] = to_step(exact, step);
        }
    }
    out
}

fn to_step(exact: f32, step: f32) -> i32 {
    ((exact / step).round() * step).round() as i32
}

/// What each of eight coefficients adds to a line of eight samples in the 8x8 inverse, in eighths. Any two of these are orthogonal.
const LINES_8X8: [[i32; 8]; 8] = [
    [8, 8, 8, 8, 8, 8, 8, 8],
    [12, 10, 6, 3, -3, -6, -10, -12],
    [8, 4, -4, -8, -8, -4, 4, 8],
    [10, -3, -12, -6, 6, 12, 3, -10],
    [8, -8, -8, 8, 8, -8, -8, 8],
    [6, -12, 3, 10, -10, -3, 12, -6],
    [4, -8, 8, -4, -4, 8, -8, 4],
    [3, -6, 10, -12, 12, -10, 6, -3],
];

/// The same for an 8x8 block: for each coefficient the residual multiplied by a line down and a line across, and divided by the squares of both.
/// The inverse divides by 64, and two lines in eighths do so too: these cancel out.
fn coefficients_8x8(residual: &[i32; 64], step: f32) -> [i32; 64] {
    let product = |a: [i32; 8], b: [i32; 8]| a.iter().zip(b).map(|(a, b)| a * b).sum::<i32>();
    let across = LINES_8X8.map(|line| std::array::from_fn(|y| product(line, std::array::from_fn(|x| residual[8 * y + x]))));
    let squares = LINES_8X8.map(|line| product(line, line) as f32 / 64.0);
    std::array::from_fn(|k| {
        let (r, c) = (k / 8, k % 8);
        to_step(product(LINES_8X8[r], across[c]) as f32 / (squares[r] * squares[c]), step)
    })
}

/// What a choice costs: the squared error, and something for each number that is not 0.
const PER_NUMBER: i64 = 60;

fn cost(wanted: &[u8], got: &[u8], numbers: &[i32]) -> i64 {
    let error: i64 = wanted.iter().zip(got).map(|(&a, &b)| (a as i64 - b as i64).pow(2)).sum();
    error + PER_NUMBER * numbers.iter().filter(|&&n| n != 0).count() as i64
}

/// Samples of a plane, read as neighbours and written as blocks.
struct Plane {
    samples: Vec<u8>,
    stride: usize,
}

impl Plane {
    fn block(&self, x: usize, y: usize, n: usize) -> Vec<u8> {
        (0..n).flat_map(|r| self.samples[(y + r) * self.stride + x..][..n].to_vec()).collect()
    }

    fn put(&mut self, x: usize, y: usize, n: usize, block: &[u8]) {
        for (r, row) in block.chunks(n).enumerate() {
            self.samples[(y + r) * self.stride + x..][..n].copy_from_slice(row);
        }
    }

    /// The row above, `N` samples of which `known` are there; the last of these is repeated.
    fn above<const N: usize>(&self, x: usize, y: usize, there: bool, known: usize) -> [u8; N] {
        std::array::from_fn(|k| if there { self.samples[(y - 1) * self.stride + x + k.min(known - 1)] } else { 0 })
    }

    fn left<const N: usize>(&self, x: usize, y: usize, there: bool) -> [u8; N] {
        std::array::from_fn(|k| if there { self.samples[(y + k) * self.stride + x - 1] } else { 0 })
    }

    fn corner(&self, x: usize, y: usize, there: bool) -> u8 {
        if there {
            self.samples[(y - 1) * self.stride + x - 1]
        } else {
            0
        }
    }
}

/// Which neighbours of a macroblock are available.
#[derive(Clone, Copy)]
struct Near {
    a: bool,
    b: bool,
    c: bool,
    d: bool,
}

/// The marks of the block in column `bx` and row `by` of a macroblock.
fn marks(bx: usize, by: usize, n: Near) -> Marks {
    let corner = [[n.d, n.b], [n.a, true]][(by > 0) as usize][(bx > 0) as usize];
    Marks { above: by > 0 || n.b, left: bx > 0 || n.a, corner }
}

/// A 4x4 block rebuilt from its prediction, at a place of a plane.
fn rebuild_4x4(plane: &mut Plane, x: usize, y: usize, coefficients: &[i32; 16], pred: &[u8], from: Square) {
    let to = Square { offset: y * plane.stride + x, stride: plane.stride };
    block::reconstruct_4x4_into(coefficients, pred, from, &mut plane.samples, to).expect("a block of the picture");
}

fn residual(wanted: &Plane, x: usize, y: usize, pred: &[u8], from: Square) -> [i32; 16] {
    std::array::from_fn(|k| {
        let there = wanted.samples[(y + k / 4) * wanted.stride + x + k % 4] as i32;
        there - pred[from.offset + k / 4 * from.stride + k % 4] as i32
    })
}

const STEP: f32 = 40.0;

/// Half of it: a coefficient of an 8x8 block moves four times as many samples, so that its rounding costs as much as one of a 4x4 block.
const STEP_8X8: f32 = STEP / 2.0;

fn try_4x4(wanted: &Plane, plane: &mut Plane, x: usize, y: usize, n: Near, record: &mut Record) -> i64 {
    record.kind = 0;
    let mut total = 400;
    for (k, (bx, by)) in SCAN.into_iter().enumerate() {
        let (x, y, m) = (x + 4 * bx, y + 4 * by, marks(bx, by, n));
        let right = match k {
            3 | 7 | 11 | 13 | 15 => false,
            5 => n.c,
            0 | 1 | 4 => n.b,
            _ => true,
        };
        let top = plane.above::<8>(x, y, m.above, if right { 8 } else { 4 });
        let (left, corner) = (plane.left::<4>(x, y, m.left), plane.corner(x, y, m.corner));
        let from = Square { offset: 0, stride: 4 };
        let there = wanted.block(x, y, 4);
        let best = (0..9u8).filter(|mode| block::permitted_4x4(m) >> mode & 1 == 1).map(|mode| {
            let pred = block::intra4x4_pred(mode, m, &top, &left, corner).expect("a permitted mode");
            let c = coefficients(&residual(wanted, x, y, &pred, from), STEP);
            rebuild_4x4(plane, x, y, &c, &pred, from);
            (cost(&there, &plane.block(x, y, 4), &c), mode, c, pred)
        });
        let (price, mode, c, pred) = best.min_by_key(|b| b.0).expect("DC is always permitted");
        rebuild_4x4(plane, x, y, &c, &pred, from);
        record.modes[k] = mode;
        record.numbers[16 * k..][..16].copy_from_slice(&c);
        total += price;
    }
    total
}

fn try_8x8(wanted: &Plane, plane: &mut Plane, x: usize, y: usize, n: Near, record: &mut Record) -> i64 {
    record.kind = 1;
    let mut total = 200;
    for k in 0..4 {
        let (bx, by) = (k % 2, k / 2);
        let (x, y, m) = (x + 8 * bx, y + 8 * by, marks(bx, by, n));
        let right = [n.b, n.c, true, false][k];
        let top = plane.above::<16>(x, y, m.above, if right { 16 } else { 8 });
        let (left, corner) = (plane.left::<8>(x, y, m.left), plane.corner(x, y, m.corner));
        let there = wanted.block(x, y, 8);
        let best = (0..9u8).filter(|mode| block::permitted_8x8(m) >> mode & 1 == 1).map(|mode| {
            let pred = block::intra8x8_pred(mode, m, &top, &left, corner).expect("a permitted mode");
            let pred: [i32; 64] = pred.map(i32::from);
            let c = coefficients_8x8(&std::array::from_fn(|i| there[i] as i32 - pred[i]), STEP_8X8);
            let residual = block::inverse_8x8(&c).expect("numbers in range");
            let got = block::add_residual_8x8(&residual, &pred).expect("numbers in range");
            (cost(&there, &got, &c), mode, c, got)
        });
        let (price, mode, c, got) = best.min_by_key(|b| b.0).expect("DC is always permitted");
        plane.put(x, y, 8, &got);
        record.modes[k] = mode;
        record.numbers[64 * k..][..64].copy_from_slice(&c);
        total += price;
    }
    total
}

fn try_16x16(wanted: &Plane, plane: &mut Plane, x: usize, y: usize, n: Near, record: &mut Record) -> i64 {
    record.kind = 2;
    let m = marks(0, 0, n);
    let top = plane.above::<16>(x, y, m.above, 16);
    let (left, corner) = (plane.left::<16>(x, y, m.left), plane.corner(x, y, m.corner));
    let there = wanted.block(x, y, 16);
    let mut best: Option<(i64, u8, Vec<i32>, Vec<u8>)> = None;
    for mode in (0..4u8).filter(|mode| block::permitted_16x16(m) >> mode & 1 == 1) {
        let pred = block::luma16x16_pred(mode, m, &top, &left, corner).expect("a permitted mode");
        let mut numbers = Vec::new();
        for (bx, by) in SCAN {
            let (x, y, from) = (x + 4 * bx, y + 4 * by, Square { offset: 64 * by + 4 * bx, stride: 16 });
            let c = coefficients(&residual(wanted, x, y, &pred, from), STEP);
            rebuild_4x4(plane, x, y, &c, &pred, from);
            numbers.extend(c);
        }
        let got = plane.block(x, y, 16);
        let price = cost(&there, &got, &numbers);
        if best.as_ref().map_or(true, |b| price < b.0) {
            best = Some((price, mode, numbers, got));
        }
    }
    let (price, mode, numbers, got) = best.expect("DC is always permitted");
    plane.put(x, y, 16, &got);
    record.modes[0] = mode;
    record.numbers[..256].copy_from_slice(&numbers);
    price
}

/// Both chroma blocks in one mode, with the numbers of Cb and Cr.
fn try_chroma(wanted: &[Plane; 2], planes: &mut [Plane; 2], x: usize, y: usize, m: Marks, mode: u8) -> (i64, [i32; 128]) {
    let mut numbers = [0; 128];
    let mut total = 0;
    for (i, (wanted, plane)) in wanted.iter().zip(planes).enumerate() {
        let top = plane.above::<8>(x, y, m.above, 8);
        let (left, corner) = (plane.left::<8>(x, y, m.left), plane.corner(x, y, m.corner));
        let pred = block::chroma8x8_pred(mode, m, &top, &left, corner).expect("a permitted mode");
        for k in 0..4 {
            let (bx, by) = (k % 2, k / 2);
            let (x, y, from) = (x + 4 * bx, y + 4 * by, Square { offset: 32 * by + 4 * bx, stride: 8 });
            let c = coefficients(&residual(wanted, x, y, &pred, from), STEP);
            rebuild_4x4(plane, x, y, &c, &pred, from);
            numbers[64 * i + 16 * k..][..16].copy_from_slice(&c);
        }
        total += cost(&wanted.block(x, y, 8), &plane.block(x, y, 8), &numbers[64 * i..][..64]);
    }
    (total, numbers)
}

/// A picture in records, and the planes that its decoder must give.
pub struct Coded {
    pub w: u32,
    pub h: u32,
    pub slices: Vec<u16>,
    pub records: Vec<Record>,
    pub luma: Vec<u8>,
    pub cb: Vec<u8>,
    pub cr: Vec<u8>,
}

/// The records of a scene, cut into slices of `slice` macroblocks.
pub fn encode(scene: &Scene, slice: usize) -> Coded {
    let (w, h) = (scene.width / 16, scene.height / 16);
    let slices: Vec<u16> = (0..w * h).map(|a| (a / slice) as u16).collect();
    let plane = |samples: &[u8], stride| Plane { samples: samples.to_vec(), stride };
    let empty = |len, stride| Plane { samples: vec![0; len], stride };
    let wanted = plane(&scene.luma, scene.width);
    let wanted_chroma = [plane(&scene.cb, scene.width / 2), plane(&scene.cr, scene.width / 2)];
    let mut luma = empty(scene.luma.len(), scene.width);
    let mut chroma = [empty(scene.cb.len(), scene.width / 2), empty(scene.cr.len(), scene.width / 2)];
    let mut records = Vec::new();
    for a in 0..w * h {
        let (x, y) = (a % w, a / w);
        let same = |there: bool, back: usize| there && slices[a - back] == slices[a];
        let n = Near { a: same(x > 0, 1), b: same(y > 0, w), c: same(y > 0 && x + 1 < w, w - 1), d: same(y > 0 && x > 0, w + 1) };
        // Each kind in turn; the cheapest stands.
        let mut best: Option<(i64, Record, Vec<u8>)> = None;
        for attempt in [try_4x4, try_8x8, try_16x16] {
            let mut record = Record::default();
            let price = attempt(&wanted, &mut luma, 16 * x, 16 * y, n, &mut record);
            if best.as_ref().map_or(true, |b| price < b.0) {
                best = Some((price, record, luma.block(16 * x, 16 * y, 16)));
            }
        }
        let (_, mut record, got) = best.expect("three kinds were tried");
        luma.put(16 * x, 16 * y, 16, &got);
        let m = marks(0, 0, n);
        let modes = (0..4u8).filter(|mode| block::permitted_chroma(m) >> mode & 1 == 1);
        let mode =
            modes.min_by_key(|&mode| try_chroma(&wanted_chroma, &mut chroma, 8 * x, 8 * y, m, mode).0).expect("DC is always permitted");
        record.chroma_mode = mode;
        record.numbers[256..].copy_from_slice(&try_chroma(&wanted_chroma, &mut chroma, 8 * x, 8 * y, m, mode).1);
        records.push(record);
    }
    let [cb, cr] = chroma.map(|p| p.samples);
    Coded { w: w as u32, h: h as u32, slices, records, luma: luma.samples, cb, cr }
}
