//! Memory that is lent to a picture, and a generator of numbers.
use jiwarbend::{Lent, LentPlane, Progress, Record, Refusal};

/// A small generator of numbers, so that a failing run can be repeated.
pub struct Numbers(pub u64);

impl Numbers {
    pub fn below(&mut self, n: u32) -> u32 {
        self.0 = self.0.wrapping_mul(6364136223846793005).wrapping_add(1442695040888963407);
        ((self.0 >> 33) as u32) % n
    }
}

/// Memory of a picture, which a test may bend out of shape.
#[derive(Clone)]
pub struct Memory {
    pub w: u32,
    pub h: u32,
    pub planes: [Vec<u8>; 3],
    pub strides: [usize; 3],
    pub done: Vec<u8>,
    pub slices: Vec<u16>,
    pub progress: Progress,
}

impl Memory {
    /// A picture that is started, in planes of whole rows that hold `fill` everywhere.
    pub fn of((w, h): (u32, u32), strides: [usize; 3], slices: Vec<u16>, fill: u8) -> Memory {
        let plane = |k: usize| vec![fill; strides[k] * [16, 8, 8][k] * h as usize];
        Memory { w, h, planes: [plane(0), plane(1), plane(2)], strides, done: vec![0; slices.len()], slices, progress: Progress::new() }
    }

    pub fn lend(&mut self) -> Lent<'_> {
        let [luma, cb, cr] = &mut self.planes;
        let planes = [LentPlane::new(luma, self.strides[0]), LentPlane::new(cb, self.strides[1]), LentPlane::new(cr, self.strides[2])];
        Lent::new((self.w, self.h), planes, &mut self.done, &self.slices, &mut self.progress)
    }

    /// Offers a macroblock that is refused, and sees that nothing has changed.
    pub fn refused(&mut self, x: u32, y: u32, record: &Record) -> Refusal {
        let before = (self.planes.clone(), self.done.clone(), self.progress);
        let refusal = self.lend().rebuild(x, y, record).unwrap_err();
        assert_eq!((self.planes.clone(), self.done.clone(), self.progress), before);
        refusal
    }
}
