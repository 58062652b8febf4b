//! Blocks of coefficients by the range that the inverse transforms demand: brought into it, and at its very ends.
use crate::Random;
use oracle::halfway::{self, HIGH, LOW};

/// How far the furthest value of a block goes, as a share of what it may: above 1 the block is out of range.
fn reach(block: &[i32]) -> f64 {
    let share = |v: i32, end: i32| f64::from(v) / f64::from(end);
    halfway::spans(block).iter().map(|span| share(span.least, LOW).max(share(span.greatest, span.high))).fold(0.0, f64::max)
}

/// The block with every coefficient multiplied by a factor and rounded.
fn scale(block: &mut [i32], factor: f64) {
    block.iter_mut().for_each(|v| *v = (f64::from(*v) * factor).round() as i32);
}

/// Makes a block that is out of range smaller until it is in range: not much smaller, so that it comes close to an end.
pub fn bring_in(block: &mut [i32]) {
    if halfway::in_range(block) {
        return;
    }
    block.iter_mut().for_each(|v| *v = (*v).clamp(LOW, HIGH));
    scale(block, (1.0 / reach(block)).min(1.0));
    while !halfway::in_range(block) {
        block.iter_mut().for_each(|v| *v -= v.signum());
    }
}

/// Of a row of eight numbers, the one that moves an odd value of the first step furthest, and another by which the values of the later steps stay
/// smaller than that one, with the sign that it has then.
const ODD: [(usize, usize, i32); 4] = [(1, 7, -1), (7, 1, 1), (3, 5, 1), (5, 3, -1)];

/// A number on either side of 0 that is not small.
fn large(random: &mut Random) -> i32 {
    (4_000 + random.below(16_000) as i32) * random.pick(&[-1, 1])
}

/// A block that comes to a limit first in one of several ways: with values of any letter, with the rows' last ones, and of an 8x8 block also with odd
/// ones of the first step of a row or of a column.
fn shaped(random: &mut Random, block: &mut [i32]) {
    block.fill(0);
    let side = if block.len() == 64 { 8 } else { 4 };
    match random.below(side) {
        0 | 4 => {
            // The rows half and three halves down count against each other in a column: the smaller one keeps it below what the larger one's row has.
            let (at, sign) = random.pick(&[(side / 4, -1), (3 * side / 4, 1)]);
            let share = 20 + random.below(21) as i32;
            for _ in 0..1 + random.below(side) {
                let (column, v) = (random.below(side), large(random));
                block[side * at + column] = v;
                block[side * (side - at) + column] = sign * v * share / 100;
            }
        }
        5 | 6 => {
            let (far, near, sign) = random.pick(&ODD);
            let (line, across) = (2 * random.below(4), random.one_in(2));
            let place = |k: usize| if across { 8 * line + k } else { 8 * k + line };
            let (v, share) = (large(random), 10 + random.below(20) as i32);
            block[place(far)] = v;
            block[place(near)] = sign * v * share / 100;
            for _ in 0..random.below(3) {
                block[random.below(64)] += random.below(7) as i32 - 3;
            }
        }
        _ => {
            let few = random.pick(&[1, 2, 3, 6, block.len(), block.len()]);
            for k in 0..few {
                let place = if few == block.len() { k } else { random.below(block.len()) };
                block[place] = large(random);
            }
        }
    }
}

/// Coefficients whose furthest value comes within a few units of its limit, on one side of it or on the other.
pub fn at_an_end(random: &mut Random, block: &mut [i32]) {
    shaped(random, block);
    let factor = 1.0 / reach(block);
    scale(block, factor);
    for _ in 0..random.below(3) {
        let place = random.below(block.len());
        block[place] += random.below(5) as i32 - 2;
    }
}

/// The same, on the side that is refused.
pub fn past_an_end(random: &mut Random, block: &mut [i32]) {
    at_an_end(random, block);
    while halfway::in_range(block) {
        at_an_end(random, block);
    }
}
