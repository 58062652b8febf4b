//! The range that clauses 8.5.12.2 and 8.5.13.2 of ITU-T H.264 demand of the values inside an inverse transform of 8-bit samples: a second writing, as
//! plain as it can be. Every value that a clause names is made, in the clause's letters, and looked at. What the columns end with must leave room for 32
//! more, and all others must fit into 16 bits.

/// The least of all values, the greatest of those before the last step, and the greatest of the last one.
pub const LOW: i32 = -32768;
pub const HIGH: i32 = 32767;
pub const LAST: i32 = 32735;

/// e and f of a row of a 4x4 block, or g and h of a column.
fn line_4([d0, d1, d2, d3]: [i32; 4]) -> [[i32; 4]; 2] {
    let (e0, e1, e2, e3) = (d0 + d2, d0 - d2, (d1 >> 1) - d3, d1 + (d3 >> 1));
    let (f0, f1, f2, f3) = (e0 + e3, e1 + e2, e1 - e2, e0 - e3);
    [[e0, e1, e2, e3], [f0, f1, f2, f3]]
}

/// e, f and g of a row of an 8x8 block, or h, k and m of a column.
fn line_8([d0, d1, d2, d3, d4, d5, d6, d7]: [i32; 8]) -> [[i32; 8]; 3] {
    let (e0, e2, e4, e6) = (d0 + d4, d0 - d4, (d2 >> 1) - d6, d2 + (d6 >> 1));
    let e1 = d5 - d3 - (d7 + (d7 >> 1));
    let e3 = d1 + d7 - (d3 + (d3 >> 1));
    let e5 = d7 - d1 + (d5 + (d5 >> 1));
    let e7 = d3 + d5 + (d1 + (d1 >> 1));
    let (f0, f2, f4, f6) = (e0 + e6, e2 + e4, e2 - e4, e0 - e6);
    let (f1, f7) = (e1 + (e7 >> 2), e7 - (e1 >> 2));
    let (f3, f5) = (e3 + (e5 >> 2), (e3 >> 2) - e5);
    let g = [f0 + f7, f2 + f5, f4 + f3, f6 + f1, f6 - f1, f4 - f3, f2 - f5, f0 - f7];
    [[e0, e1, e2, e3, e4, e5, e6, e7], [f0, f1, f2, f3, f4, f5, f6, f7], g]
}

/// A block after each step of its lines, whose numbers stand where `place` says.
fn pass<const SIDE: usize, const N: usize, const STEPS: usize>(
    block: &[i32; N],
    place: impl Fn(usize, usize) -> usize,
    line: impl Fn([i32; SIDE]) -> [[i32; SIDE]; STEPS],
) -> [[i32; N]; STEPS] {
    let mut after = [[0; N]; STEPS];
    for i in 0..SIDE {
        let steps = line(std::array::from_fn(|j| block[place(i, j)]));
        for (values, step) in after.iter_mut().zip(steps) {
            step.into_iter().enumerate().for_each(|(j, v)| values[place(i, j)] = v);
        }
    }
    after
}

/// d, e, f, g and h of a block whose coefficients are in range.
fn named_4x4(d: &[i32; 16]) -> [[i32; 16]; 5] {
    let [e, f] = pass(d, |i, j| 4 * i + j, line_4);
    let [g, h] = pass(&f, |j, i| 4 * i + j, line_4);
    [*d, e, f, g, h]
}

/// d, e, f, g, h, k and m of a block whose coefficients are in range.
fn named_8x8(d: &[i32; 64]) -> [[i32; 64]; 7] {
    let [e, f, g] = pass(d, |i, j| 8 * i + j, line_8);
    let [h, k, m] = pass(&g, |j, i| 8 * i + j, line_8);
    [*d, e, f, g, h, k, m]
}

/// The least and the greatest of the values of one letter, and the greatest that they may be.
#[derive(Clone, Copy, Debug, PartialEq, Eq)]
pub struct Span {
    pub letter: char,
    pub least: i32,
    pub greatest: i32,
    pub high: i32,
}

impl Span {
    /// Whether every one of the values is in range.
    pub fn fits(&self) -> bool {
        LOW <= self.least && self.greatest <= self.high
    }
}

fn spans_of<const N: usize, const STEPS: usize>(named: &[[i32; N]; STEPS], letters: [char; STEPS]) -> [Span; STEPS] {
    std::array::from_fn(|step| {
        let (least, greatest) = named[step].iter().fold((i32::MAX, i32::MIN), |(least, greatest), &v| (v.min(least), v.max(greatest)));
        Span { letter: letters[step], least, greatest, high: if step + 1 < STEPS { HIGH } else { LAST } }
    })
}

fn spans_4x4(d: &[i32; 16]) -> [Span; 5] {
    spans_of(&named_4x4(d), ['d', 'e', 'f', 'g', 'h'])
}

fn spans_8x8(d: &[i32; 64]) -> [Span; 7] {
    spans_of(&named_8x8(d), ['d', 'e', 'f', 'g', 'h', 'k', 'm'])
}

/// The values of each letter, for 16 or 64 coefficients in range.
pub fn spans(d: &[i32]) -> Vec<Span> {
    match d.len() {
        16 => spans_4x4(d.try_into().unwrap()).to_vec(),
        _ => spans_8x8(d.try_into().unwrap()).to_vec(),
    }
}

/// The letters whose values are not all in range. A coefficient that is not is told alone: with such a one 32 bits may not do.
pub fn leaves(d: &[i32]) -> String {
    if d.iter().any(|v| !(LOW..=HIGH).contains(v)) {
        return "d".into();
    }
    spans(d).iter().filter(|span| !span.fits()).map(|span| span.letter).collect()
}

/// Whether every value of a 4x4 block is in range.
pub fn in_range_4x4(d: &[i32; 16]) -> bool {
    d.iter().all(|v| (LOW..=HIGH).contains(v)) && spans_4x4(d).iter().all(Span::fits)
}

/// Whether every value of an 8x8 block is in range.
pub fn in_range_8x8(d: &[i32; 64]) -> bool {
    d.iter().all(|v| (LOW..=HIGH).contains(v)) && spans_8x8(d).iter().all(Span::fits)
}

/// The same of 16 or 64 coefficients.
pub fn in_range(d: &[i32]) -> bool {
    match d.len() {
        16 => in_range_4x4(d.try_into().unwrap()),
        _ => in_range_8x8(d.try_into().unwrap()),
    }
}

/// The residuals of coefficients that are in range themselves, and whether every value on the way is, as fast as it was found to go: of each pass only
/// the values that tell of all others are looked at, by the least and the greatest of them, while they are at hand.
pub fn residuals(d: &[i32], out: &mut [i32]) -> bool {
    let mut reach = Reach::default();
    match d.len() {
        16 => residuals_4x4(d, out, &mut reach),
        _ => residuals_8x8(d, out, &mut reach),
    }
    reach.fits()
}

/// The same of every block of a macroblock of this kind.
pub fn residuals_of(kind: u8, numbers: &[i32], out: &mut [i32; 384]) -> bool {
    let mut reach = Reach::default();
    let luma = if kind == 1 { 256 } else { 0 };
    for (d, res) in numbers[..luma].chunks_exact(64).zip(out[..luma].chunks_exact_mut(64)) {
        residuals_8x8(d, res, &mut reach);
    }
    for (d, res) in numbers[luma..].chunks_exact(16).zip(out[luma..].chunks_exact_mut(16)) {
        residuals_4x4(d, res, &mut reach);
    }
    reach.fits()
}

#[inline(always)]
fn residuals_4x4(d: &[i32], out: &mut [i32], reach: &mut Reach) {
    let rows: [[i32; 4]; 4] = std::array::from_fn(|i| {
        let [_, f] = line_4(std::array::from_fn(|j| d[4 * i + j]));
        reach.inside(&f);
        f
    });
    for j in 0..4 {
        let [_, h] = line_4(std::array::from_fn(|i| rows[i][j]));
        reach.after(&h);
        (0..4).for_each(|i| out[4 * i + j] = (h[i] + 32) >> 6);
    }
}

#[inline(always)]
fn residuals_8x8(d: &[i32], out: &mut [i32], reach: &mut Reach) {
    let rows: [[i32; 8]; 8] = std::array::from_fn(|i| {
        let [e, _, g] = line_8(std::array::from_fn(|j| d[8 * i + j]));
        reach.inside(&[e[1], e[3], e[5], e[7]]);
        g
    });
    for j in 0..8 {
        let column = std::array::from_fn(|i| rows[i][j]);
        let [h, _, m] = line_8(column);
        reach.inside(&column);
        reach.inside(&[h[1], h[3], h[5], h[7]]);
        reach.after(&m);
        (0..8).for_each(|i| out[8 * i + j] = (m[i] + 32) >> 6);
    }
}

/// The least of some values, the greatest of those inside the passes and the greatest of those after the second.
#[derive(Default)]
struct Reach {
    least: i32,
    greatest: i32,
    last: i32,
}

impl Reach {
    fn fits(&self) -> bool {
        LOW <= self.least && self.greatest <= HIGH && self.last <= LAST
    }

    fn inside(&mut self, values: &[i32]) {
        self.least = values.iter().fold(self.least, |a, &v| a.min(v));
        self.greatest = values.iter().fold(self.greatest, |a, &v| a.max(v));
    }

    fn after(&mut self, values: &[i32]) {
        self.least = values.iter().fold(self.least, |a, &v| a.min(v));
        self.last = values.iter().fold(self.last, |a, &v| a.max(v));
    }
}
