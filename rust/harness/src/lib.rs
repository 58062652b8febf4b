//! What the differential runs, the fixed lists and the benchmark share: numbers at random, records, and pictures over both sides.
pub mod ends;
pub mod list;
#[path = "../../tests/store/mod.rs"]
pub mod store;

use oracle::driver::{self, Near};
use oracle::rules;

/// Numbers at random, the same in every run.
pub struct Random(u64);

impl Random {
    pub fn new(seed: u64) -> Random {
        Random(seed.wrapping_mul(0x9e37_79b9_7f4a_7c15) | 1)
    }

    pub fn word(&mut self) -> u64 {
        self.0 ^= self.0 << 13;
        self.0 ^= self.0 >> 7;
        self.0 ^= self.0 << 17;
        self.0.wrapping_mul(0x2545_f491_4f6c_dd1d)
    }

    pub fn below(&mut self, n: usize) -> usize {
        ((self.word() >> 32) as usize * n) >> 32
    }

    pub fn byte(&mut self) -> u8 {
        (self.word() >> 56) as u8
    }

    pub fn one_in(&mut self, n: usize) -> bool {
        self.below(n) == 0
    }

    pub fn pick<T: Copy>(&mut self, from: &[T]) -> T {
        from[self.below(from.len())]
    }

    /// Samples of one of several kinds: anything, a flat run, a ramp, the two ends, or nearly flat.
    pub fn samples(&mut self, out: &mut [u8]) {
        let (first, step) = (self.byte(), self.below(64) as i32 - 32);
        let kind = self.below(5);
        for (i, v) in out.iter_mut().enumerate() {
            *v = match kind {
                0 => self.byte(),
                1 => first,
                2 => (first as i32 + step * i as i32).clamp(0, 255) as u8,
                3 => [0, 255][self.below(2)],
                _ => first.wrapping_add(self.below(3) as u8),
            };
        }
    }

    /// Numbers inside the range of a number, small, large or at its ends.
    pub fn numbers(&mut self, out: &mut [i32]) {
        let reach = self.pick(&[1, 40, 300, 5000, 32768]);
        let sparse = self.below(3);
        for v in out.iter_mut() {
            *v = match self.below(8) {
                0 if reach == 32768 => self.pick(&[rules::LOW, rules::HIGH]),
                k if k < 3 * sparse => 0,
                _ => (self.below(2 * reach + 1) as i32 - reach as i32).clamp(rules::LOW, rules::HIGH),
            };
        }
    }
}

/// A macroblock's record.
#[derive(Clone, Debug)]
pub struct Record {
    pub kind: u8,
    pub modes: [u8; 16],
    pub chroma_mode: u8,
    pub numbers: [i32; 384],
}

impl Record {
    /// The coefficients of each block: luma, Cb, Cr.
    pub fn blocks(&self) -> impl Iterator<Item = &[i32]> {
        let (luma, chroma) = self.numbers.split_at(256);
        luma.chunks_exact(luma_block(self.kind)).chain(chroma.chunks_exact(16))
    }

    /// The same, to be changed.
    pub fn blocks_mut(&mut self) -> impl Iterator<Item = &mut [i32]> {
        let (luma, chroma) = self.numbers.split_at_mut(256);
        luma.chunks_exact_mut(luma_block(self.kind)).chain(chroma.chunks_exact_mut(16))
    }

    /// One of the blocks of a plane: 0 is luma, 1 Cb and 2 Cr.
    pub fn block_of(&mut self, random: &mut Random, plane: usize) -> &mut [i32] {
        let (numbers, len) = match plane {
            0 => (&mut self.numbers[..256], luma_block(self.kind)),
            1 => (&mut self.numbers[256..320], 16),
            _ => (&mut self.numbers[320..], 16),
        };
        let blocks = numbers.len() / len;
        &mut numbers[len * random.below(blocks)..][..len]
    }
}

/// How many coefficients a luma block of a macroblock of this kind has.
fn luma_block(kind: u8) -> usize {
    if kind == 1 {
        64
    } else {
        16
    }
}

/// The marks of each block of a macroblock of this kind, in its order.
pub fn block_marks(kind: u8, n: Near) -> Vec<rules::Marks> {
    match kind {
        0 => oracle::predict::LUMA_4X4_SCAN_XY.iter().map(|&(bx, by)| driver::marks(bx, by, n)).collect(),
        1 => (0..4).map(|k| driver::marks(k % 2, k / 2, n)).collect(),
        _ => vec![driver::marks(0, 0, n)],
    }
}

/// A record of this kind that is acceptable between these neighbours.
pub fn good_record(random: &mut Random, kind: u8, n: Near) -> Record {
    let mut r = Record { kind, modes: [0; 16], chroma_mode: 0, numbers: [0; 384] };
    let luma = |mode, m| if kind == 2 { rules::permitted_16x16(mode, m) } else { rules::permitted_nxn(mode, m) };
    let choose = |random: &mut Random, permitted: &dyn Fn(u8) -> bool| {
        let modes: Vec<u8> = (0..9).filter(|&m| permitted(m)).collect();
        random.pick(&modes)
    };
    for (k, m) in block_marks(kind, n).into_iter().enumerate() {
        r.modes[k] = choose(random, &|mode| luma(mode, m));
    }
    let whole = driver::marks(0, 0, n);
    r.chroma_mode = choose(random, &|mode| rules::permitted_chroma(mode, whole));
    random.numbers(&mut r.numbers);
    r.blocks_mut().for_each(ends::bring_in);
    r
}

/// How many coefficients a picture has: the share of its macroblocks without any, and the share of blocks without any in the others.
#[derive(Clone, Copy, Debug)]
pub struct Density {
    pub bare_macroblocks: f64,
    pub bare_blocks: f64,
}

/// The places near the first coefficient of a block, as row and column.
const NEAR_FIRST: [(usize, usize); 7] = [(0, 1), (1, 0), (1, 1), (0, 2), (2, 0), (1, 2), (2, 1)];

impl Random {
    fn chance(&mut self, share: f64) -> bool {
        (self.below(1 << 20) as f64) < share * (1 << 20) as f64
    }

    /// The coefficients of a block as encoders leave them. Three in four 4x4 blocks, and one in four 8x8 blocks, have only the first; the
    /// rest have up to five more near it.
    fn few_coefficients(&mut self, block: &mut [i32]) {
        let step = 16 * (1 + self.below(8) as i32);
        let level = |random: &mut Random| step * (1 + random.below(3) as i32) * random.pick(&[-1, 1]);
        let (side, alone) = if block.len() == 64 { (8, 1) } else { (4, 3) };
        block[0] = level(self);
        if self.below(4) >= alone {
            for _ in 0..1 + self.below(5) {
                let (row, column) = self.pick(&NEAR_FIRST);
                block[side * row + column] = level(self);
            }
        }
    }
}

/// A record of this kind that is acceptable between these neighbours, with as few coefficients as real streams have.
fn sparse_record(random: &mut Random, kind: u8, n: Near, density: Density) -> Record {
    let mut r = good_record(random, kind, n);
    r.numbers.fill(0);
    if random.chance(density.bare_macroblocks) {
        return r;
    }
    for block in r.blocks_mut() {
        if !random.chance(density.bare_blocks) {
            random.few_coefficients(block);
        }
    }
    r
}

/// A sparse record for each macroblock. Of 20 macroblocks 9 are of 4x4, 2 of 8x8 and 9 of 16x16 prediction.
pub fn sparse_records(random: &mut Random, w: u32, h: u32, slices: &[u16], density: Density) -> Vec<Record> {
    (0..(w * h) as usize)
        .map(|a| {
            let n = driver::near(w as usize, slices, a % w as usize, a / w as usize);
            let kind = [0, 0, 0, 0, 0, 0, 0, 0, 0, 1, 1, 2, 2, 2, 2, 2, 2, 2, 2, 2][random.below(20)];
            sparse_record(random, kind, n, density)
        })
        .collect()
}

/// Of 100 blocks, how many have no coefficients. An 8x8 block counts as four.
pub fn bare_share(records: &[Record]) -> f64 {
    let bare = |block: &&[i32]| block.iter().all(|&v| v == 0);
    let numbers: usize = records.iter().flat_map(Record::blocks).filter(bare).map(<[i32]>::len).sum();
    100.0 * numbers as f64 / (384 * records.len()) as f64
}

/// A buffer between guards, which no call may write. Two that are compared are compared with their guards.
#[derive(Clone, Debug, PartialEq, Eq)]
pub struct Guarded<T>(Vec<T>);

impl<T: Copy + From<u8>> Guarded<T> {
    const GUARD: usize = 32;
    const FILL: u8 = 0xa5;

    pub fn new(elements: &[T]) -> Guarded<T> {
        let mut all = Vec::with_capacity(elements.len() + 2 * Self::GUARD);
        all.resize(Self::GUARD, Self::FILL.into());
        all.extend_from_slice(elements);
        all.resize(elements.len() + 2 * Self::GUARD, Self::FILL.into());
        Guarded(all)
    }

    /// A buffer of `len` elements that all have the guards' value.
    pub fn filled(len: usize) -> Guarded<T> {
        Guarded(vec![Self::FILL.into(); len + 2 * Self::GUARD])
    }

    /// The elements between the guards.
    pub fn inner(&mut self) -> &mut [T] {
        let end = self.0.len() - Self::GUARD;
        &mut self.0[Self::GUARD..end]
    }

    pub fn len(&self) -> usize {
        self.0.len() - 2 * Self::GUARD
    }

    pub fn is_empty(&self) -> bool {
        self.len() == 0
    }

    /// The first `len` elements, or all of them and zeros behind.
    pub fn resize(&mut self, len: usize) {
        let mut elements = self.inner().to_vec();
        elements.resize(len, 0.into());
        *self = Guarded::new(&elements);
    }
}

/// The memory of a picture, of which both sides get a copy.
#[derive(Clone, Debug, PartialEq, Eq)]
pub struct Memory {
    pub w: u32,
    pub h: u32,
    pub planes: [Guarded<u8>; 3],
    pub strides: [usize; 3],
    pub done: Guarded<u8>,
    pub slices: Guarded<u16>,
    /// The count and the last address.
    pub progress: Guarded<u32>,
}

impl Memory {
    /// Planes with anything in them, and `pad` bytes more in a row than the picture has.
    pub fn new(random: &mut Random, w: u32, h: u32, slices: Vec<u16>, pad: usize) -> Memory {
        let n = (w * h) as usize;
        let mut plane = |side: usize| {
            let stride = side * w as usize + pad;
            let mut samples = vec![0; (side * h as usize - 1) * stride + side * w as usize + pad];
            samples.iter_mut().for_each(|v| *v = random.byte());
            (Guarded::new(&samples), stride)
        };
        let [(luma, ls), (cb, cbs), (cr, crs)] = [plane(16), plane(8), plane(8)];
        Memory {
            w,
            h,
            planes: [luma, cb, cr],
            strides: [ls, cbs, crs],
            done: Guarded::new(&vec![0; n]),
            slices: Guarded::new(&slices),
            progress: Guarded::new(&[0, 0]),
        }
    }

    /// No macroblock is done.
    pub fn restart(&mut self) {
        self.done.inner().fill(0);
        self.progress.inner().fill(0);
    }

    /// Plane `p` with this stride and just as many bytes as it needs then.
    pub fn restride(&mut self, p: usize, stride: usize) {
        let side = [16, 8, 8][p];
        self.strides[p] = stride;
        self.planes[p].resize((side * self.h as usize - 1) * stride + side * self.w as usize);
    }

    /// A call of the port.
    pub fn port(&mut self, x: u32, y: u32, kind: u8, modes: &[u8], chroma_mode: u8, numbers: &[i32]) -> u32 {
        let [luma, cb, cr] = &mut self.planes;
        let [luma, cb, cr] = [luma.inner(), cb.inner(), cr.inner()];
        let (done, slices, progress) = (self.done.inner(), self.slices.inner(), self.progress.inner());
        unsafe {
            jiwarbend::sys::jiwarbend_rebuild(
                self.w,
                self.h,
                x,
                y,
                luma.as_mut_ptr(),
                luma.len(),
                self.strides[0],
                cb.as_mut_ptr(),
                cb.len(),
                self.strides[1],
                cr.as_mut_ptr(),
                cr.len(),
                self.strides[2],
                done.as_mut_ptr(),
                done.len(),
                slices.as_ptr(),
                slices.len(),
                progress.as_mut_ptr().cast(),
                kind,
                modes.as_ptr(),
                modes.len(),
                chroma_mode,
                numbers.as_ptr(),
                numbers.len(),
            )
        }
    }

    /// A call of the port that computes the macroblock into a block.
    pub fn compute(&mut self, x: u32, y: u32, kind: u8, modes: &[u8], chroma_mode: u8, numbers: &[i32], block: &mut [u8]) -> u32 {
        let [luma, cb, cr] = &mut self.planes;
        let [luma, cb, cr] = [luma.inner(), cb.inner(), cr.inner()];
        let (done, slices, progress) = (self.done.inner(), self.slices.inner(), self.progress.inner());
        unsafe {
            jiwarbend::sys::jiwarbend_compute(
                self.w,
                self.h,
                x,
                y,
                luma.as_ptr(),
                luma.len(),
                self.strides[0],
                cb.as_ptr(),
                cb.len(),
                self.strides[1],
                cr.as_ptr(),
                cr.len(),
                self.strides[2],
                done.as_ptr(),
                done.len(),
                slices.as_ptr(),
                slices.len(),
                progress.as_ptr().cast(),
                kind,
                modes.as_ptr(),
                modes.len(),
                chroma_mode,
                numbers.as_ptr(),
                numbers.len(),
                block.as_mut_ptr(),
                block.len(),
            )
        }
    }

    /// A call of the port that commits a block.
    pub fn commit(&mut self, x: u32, y: u32, block: &[u8]) -> u32 {
        let [luma, cb, cr] = &mut self.planes;
        let [luma, cb, cr] = [luma.inner(), cb.inner(), cr.inner()];
        let (done, slices, progress) = (self.done.inner(), self.slices.inner(), self.progress.inner());
        unsafe {
            jiwarbend::sys::jiwarbend_commit(
                self.w,
                self.h,
                x,
                y,
                luma.as_mut_ptr(),
                luma.len(),
                self.strides[0],
                cb.as_mut_ptr(),
                cb.len(),
                self.strides[1],
                cr.as_mut_ptr(),
                cr.len(),
                self.strides[2],
                done.as_mut_ptr(),
                done.len(),
                slices.as_ptr(),
                slices.len(),
                progress.as_mut_ptr().cast(),
                block.as_ptr(),
                block.len(),
            )
        }
    }

    /// What committing a block leaves where it is not refused, written once more.
    pub fn put(&mut self, x: u32, y: u32, block: &[u8]) {
        let (column, row, address) = (x as usize, y as usize, y * self.w + x);
        for (k, (side, from)) in [(16, 0), (8, 256), (8, 320)].into_iter().enumerate() {
            for (line, samples) in block[from..from + side * side].chunks(side).enumerate() {
                let at = (side * row + line) * self.strides[k] + side * column;
                self.planes[k].inner()[at..at + side].copy_from_slice(samples);
            }
        }
        self.done.inner()[address as usize] = 1;
        let count = self.progress.inner()[0];
        self.progress = Guarded::new(&[(count + 1).min(self.w * self.h), address]);
    }

    /// The same call of the driver over the Rust's routines.
    pub fn rust(&mut self, x: u32, y: u32, kind: u8, modes: &[u8], chroma_mode: u8, numbers: &[i32]) -> u32 {
        self.rust_as::<true, false>(x, y, kind, modes, chroma_mode, numbers)
    }

    /// The same in one of the driver's forms.
    pub fn rust_as<const CHECKS: bool, const SHORT: bool>(
        &mut self,
        x: u32,
        y: u32,
        kind: u8,
        modes: &[u8],
        chroma_mode: u8,
        numbers: &[i32],
    ) -> u32 {
        let progress = self.progress.inner();
        let mut after = driver::Progress { count: progress[0], last: progress[1] };
        let [luma, cb, cr] = &mut self.planes;
        let answer = driver::Picture {
            w: self.w,
            h: self.h,
            luma: driver::Plane { samples: luma.inner(), stride: self.strides[0] },
            cb: driver::Plane { samples: cb.inner(), stride: self.strides[1] },
            cr: driver::Plane { samples: cr.inner(), stride: self.strides[2] },
            done: self.done.inner(),
            slices: self.slices.inner(),
            progress: &mut after,
        }
        .rebuild_as::<CHECKS, SHORT>(x, y, kind, modes, chroma_mode, numbers);
        progress.copy_from_slice(&[after.count, after.last]);
        answer
    }
}

/// A slice map: one slice, runs of macroblocks, rows, or any numbers.
pub fn slice_map(random: &mut Random, w: u32, h: u32) -> Vec<u16> {
    let n = (w * h) as usize;
    let run = 1 + random.below(n);
    match random.below(4) {
        0 => vec![random.word() as u16; n],
        1 => (0..n).map(|a| (a / run) as u16).collect(),
        2 => (0..n).map(|a| (a / w as usize) as u16).collect(),
        _ => (0..n).map(|_| random.below(2) as u16).collect(),
    }
}

/// An order of 0..n.
pub fn shuffled(random: &mut Random, n: usize) -> Vec<usize> {
    let mut order: Vec<usize> = (0..n).collect();
    for i in (1..n).rev() {
        order.swap(i, random.below(i + 1));
    }
    order
}

/// The macroblocks by diagonals, each from its top right end down to the left: an order that passes, whatever the slices.
pub fn diagonal_order(w: u32, h: u32) -> Vec<u32> {
    let diagonal = |d: u32| (0..h).filter(move |&y| y <= d && d - y < w).map(move |y| y * w + d - y);
    (0..w + h - 1).flat_map(diagonal).collect()
}

/// An order at random in which each macroblock comes after all its available neighbours.
pub fn permitted_order(random: &mut Random, w: u32, slices: &[u16]) -> Vec<u32> {
    let (w, many) = (w as usize, slices.len());
    // For each macroblock those that wait for it, and how many it waits for itself.
    let (mut waiting, mut missing) = (vec![Vec::new(); many], vec![0; many]);
    for address in 0..many {
        let n = driver::near(w, slices, address % w, address / w);
        for (_, back) in [(n.a, 1), (n.b, w), (n.c, w - 1), (n.d, w + 1)].into_iter().filter(|&(there, _)| there) {
            waiting[address - back].push(address);
            missing[address] += 1;
        }
    }
    let mut ready: Vec<usize> = (0..many).filter(|&address| missing[address] == 0).collect();
    let mut order = Vec::with_capacity(many);
    while !ready.is_empty() {
        let address = ready.swap_remove(random.below(ready.len()));
        order.push(address as u32);
        for &next in &waiting[address] {
            missing[next] -= 1;
            if missing[next] == 0 {
                ready.push(next);
            }
        }
    }
    order
}

/// An acceptable record for each macroblock; its kind by `kind`.
pub fn good_records(random: &mut Random, w: u32, h: u32, slices: &[u16], kind: impl Fn(&mut Random) -> u8) -> Vec<Record> {
    (0..(w * h) as usize)
        .map(|a| {
            let n = driver::near(w as usize, slices, a % w as usize, a / w as usize);
            let kind = kind(random);
            good_record(random, kind, n)
        })
        .collect()
}
