//! Records of any kind, modes and coefficients that are acceptable where they stand.
use crate::memory::Numbers;
use jiwarbend::block::{permitted_16x16, permitted_4x4, permitted_8x8, permitted_chroma, Marks};
use jiwarbend::Record;

/// The sides of a macroblock that lie in its slice.
pub fn sides(w: u32, slices: &[u16], address: usize) -> Marks {
    let (w, x) = (w as usize, address % w as usize);
    let same = |inside: bool, back: usize| inside && slices[address - back] == slices[address];
    Marks { above: same(address >= w, w), left: same(x > 0, 1), corner: same(x > 0 && address >= w, w + 1) }
}

/// The sides of the block in a column and row of a macroblock with these sides. Blocks of the macroblock itself are always there.
fn sides_of_block(column: usize, row: usize, sides: Marks) -> Marks {
    let corner = match (column, row) {
        (0, 0) => sides.corner,
        (0, _) => sides.left,
        (_, 0) => sides.above,
        _ => true,
    };
    Marks { above: row > 0 || sides.above, left: column > 0 || sides.left, corner }
}

/// The permitted modes of each luma block of a macroblock of this kind, as bits.
fn permitted(kind: u8, sides: Marks) -> Vec<u16> {
    match kind {
        // Four blocks to a quarter: the even bits of a block's number give its column, the odd ones its row.
        0 => (0..16).map(|k| permitted_4x4(sides_of_block(k & 1 | k >> 1 & 2, k >> 1 & 1 | k >> 2 & 2, sides))).collect(),
        1 => (0..4).map(|k| permitted_8x8(sides_of_block(k & 1, k >> 1, sides))).collect(),
        _ => vec![permitted_16x16(sides)],
    }
}

/// Coefficients whose blocks are in range: none, some anywhere, or large ones that are alone in their blocks.
fn coefficients(numbers: &mut Numbers) -> [i32; 384] {
    let mut made = [0; 384];
    let (step, reach) = [(384, 0), (1 + numbers.below(9) as usize, 400), (64, 30_000)][numbers.below(3) as usize];
    made.iter_mut().step_by(step).for_each(|v| *v = numbers.below(2 * reach + 1) as i32 - reach as i32);
    made
}

/// A record of any kind, modes and coefficients that is acceptable between these sides.
pub fn acceptable(sides: Marks, numbers: &mut Numbers) -> Record {
    let one_of = |modes: u16, numbers: &mut Numbers| {
        let modes: Vec<u8> = (0..9).filter(|m| modes >> m & 1 == 1).collect();
        modes[numbers.below(modes.len() as u32) as usize]
    };
    let mut record = Record { kind: numbers.below(3) as u8, ..Record::default() };
    let luma = permitted(record.kind, sides);
    record.modes.iter_mut().zip(luma).for_each(|(mode, modes)| *mode = one_of(modes, numbers));
    record.chroma_mode = one_of(permitted_chroma(sides), numbers);
    record.numbers = coefficients(numbers);
    record
}

/// Such a record for each macroblock of a picture.
#[allow(dead_code)]
pub fn acceptable_all(w: u32, slices: &[u16], numbers: &mut Numbers) -> Vec<Record> {
    (0..slices.len()).map(|address| acceptable(sides(w, slices, address), numbers)).collect()
}
