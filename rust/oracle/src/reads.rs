//! The groups of neighbour samples that a mode reads, found by trial: the Rust's own predictors are run on neighbourhoods that differ in one group
//! alone, and a mode reads the group where two of their blocks differ. Nothing here says what a mode's formula is.
use crate::rules::{self, Marks};

/// The groups. A set of them is their sum.
pub const ABOVE: u8 = 1;
pub const LEFT: u8 = 2;
pub const CORNER: u8 = 4;
pub const ABOVE_RIGHT: u8 = 8;

/// How many pairs of neighbourhoods are tried.
const TRIALS: usize = 200;

/// The samples around a block of side `S`.
#[derive(Clone, Copy)]
struct Around<const S: usize> {
    above: [u8; S],
    left: [u8; S],
    corner: u8,
    above_right: [u8; S],
}

impl<const S: usize> Around<S> {
    fn flat(v: u8) -> Around<S> {
        Around { above: [v; S], left: [v; S], corner: v, above_right: [v; S] }
    }

    /// Each sample at random, or each group all 0, all 255, or at random one of the two.
    fn drawn(word: &mut impl FnMut() -> u32) -> Around<S> {
        let mut group = || -> [u8; S] {
            let kind = word() % 5;
            std::array::from_fn(|_| match kind {
                0 => 0,
                1 => 255,
                2 => [0, 255][word() as usize % 2],
                _ => word() as u8,
            })
        };
        Around { above: group(), left: group(), corner: group()[0], above_right: group() }
    }

    /// The row above and what follows it: the samples above and to the right, or the last one above repeated.
    fn top<const T: usize>(&self, right: bool) -> [u8; T] {
        std::array::from_fn(|k| match k {
            k if k < S => self.above[k],
            k if right => self.above_right[k - S],
            _ => self.above[S - 1],
        })
    }
}

/// The groups that a prediction reads; none where it is refused.
fn found<const S: usize, const B: usize>(predict: impl Fn(&Around<S>) -> Result<[u8; B], u32>) -> u8 {
    if predict(&Around::flat(0)).is_err() {
        return 0;
    }
    let mut state = 0x2545_f491u32;
    let mut word = || {
        state ^= state << 13;
        state ^= state >> 17;
        state ^= state << 5;
        state >> 8
    };
    let mut reads = 0;
    for trial in 0..TRIALS {
        let (one, other) = match trial {
            0 => (Around::flat(0), Around::flat(255)),
            1 => (Around::flat(255), Around::flat(0)),
            _ => (Around::drawn(&mut word), Around::drawn(&mut word)),
        };
        let changed = [
            (ABOVE, Around { above: other.above, ..one }),
            (LEFT, Around { left: other.left, ..one }),
            (CORNER, Around { corner: other.corner, ..one }),
            (ABOVE_RIGHT, Around { above_right: other.above_right, ..one }),
        ];
        let block = predict(&one);
        for (group, changed) in changed {
            if predict(&changed) != block {
                reads |= group;
            }
        }
    }
    reads
}

/// What every mode number reads with every set of marks, the mark of above-right among them.
type Table = Vec<[u8; 16]>;

fn table(found: impl Fn(u8, Marks, bool) -> u8) -> Table {
    let of = |mode: u8, bits: usize| {
        let m = Marks { above: bits & 1 != 0, left: bits & 2 != 0, corner: bits & 4 != 0 };
        found(mode, m, bits & 8 != 0)
    };
    (0..=255).map(|mode| std::array::from_fn(|bits| of(mode, bits))).collect()
}

fn look_up(table: &Table, mode: u8, m: Marks, right: bool) -> u8 {
    table[mode as usize][m.above as usize | (m.left as usize) << 1 | (m.corner as usize) << 2 | (right as usize) << 3]
}

// Each table is found once, where it is first asked.
thread_local! {
    static OF_4X4: Table = table(|mode, m, right| found(|a: &Around<4>| rules::intra4x4_pred(mode, m, &a.top(right), &a.left, a.corner)));
    static OF_8X8: Table = table(|mode, m, right| found(|a: &Around<8>| rules::intra8x8_pred(mode, m, &a.top(right), &a.left, a.corner)));
    static OF_16X16: Table = table(|mode, m, _| found(|a: &Around<16>| rules::luma16x16_pred(mode, m, &a.above, &a.left, a.corner)));
    static OF_CHROMA: Table = table(|mode, m, _| found(|a: &Around<8>| rules::chroma8x8_pred(mode, m, &a.above, &a.left, a.corner)));
}

pub fn reads_4x4(mode: u8, m: Marks, right: bool) -> u8 {
    OF_4X4.with(|table| look_up(table, mode, m, right))
}

pub fn reads_8x8(mode: u8, m: Marks, right: bool) -> u8 {
    OF_8X8.with(|table| look_up(table, mode, m, right))
}

pub fn reads_16x16(mode: u8, m: Marks) -> u8 {
    OF_16X16.with(|table| look_up(table, mode, m, false))
}

pub fn reads_chroma(mode: u8, m: Marks) -> u8 {
    OF_CHROMA.with(|table| look_up(table, mode, m, false))
}
