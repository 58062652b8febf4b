//! Slice maps of every kind, lists in another order, and whether two pictures are the same.
use crate::memory::Numbers;
use jiwarbend::Picture;

/// One slice, slices of rows, of runs, scattered ones, a slice for each macroblock, a checkerboard and columns. Some numbers differ in one of their bytes only.
pub fn slice_map((w, h): (u32, u32), numbers: &mut Numbers) -> Vec<u16> {
    let run = 1 + numbers.below(2 * w);
    let scattered = |numbers: &mut Numbers| [0, 256, 65_535, 255][numbers.below(4) as usize];
    match numbers.below(7) {
        0 => vec![numbers.below(65_536) as u16; (w * h) as usize],
        1 => (0..w * h).map(|a| (a / w) as u16).collect(),
        2 => (0..w * h).map(|a| (a / run) as u16).collect(),
        3 => (0..w * h).map(|_| scattered(numbers)).collect(),
        4 => (0..w * h).map(|a| (a % w + a / w) as u16 % 2 * 256).collect(),
        5 => (0..w * h).map(|a| (a % w) as u16).collect(),
        _ => (0..w * h).map(|a| a as u16).collect(),
    }
}

pub fn shuffled(mut list: Vec<u32>, numbers: &mut Numbers) -> Vec<u32> {
    for last in (1..list.len()).rev() {
        list.swap(last, numbers.below(last as u32 + 1) as usize);
    }
    list
}

pub fn same_planes(a: &Picture, b: &Picture) -> bool {
    a.luma() == b.luma() && a.cb() == b.cb() && a.cr() == b.cr()
}
