//! Writes the fixed list of macroblocks that the Rust's routines rebuilt to standard output: for each group, in the order of
//! crates/macroblocks/src/main.rt, the number of its cases in two bytes, and the cases as the program there reads them. Refusal 2, which
//! the Rust does not know, is given here; every other answer and every byte after a call is the driver's over those routines, and the 8x8
//! inverse and the range of both inverses beside them. The last group is wrong on purpose, so that the program shows that it sees a difference.
use harness::ends::bring_in;
use harness::list::{put, List};
use harness::{good_record, Random, Record};
use oracle::driver::{self, Near, Plane};
use oracle::{halfway, rules};

/// The side of a macroblock's square in luma, Cb and Cr.
const SIDES: [usize; 3] = [16, 8, 8];

/// Marks as one number.
const A: u8 = 1;
const B: u8 = 2;
const C: u8 = 4;
const D: u8 = 8;

fn near(marks: u8) -> Near {
    Near { a: marks & A != 0, b: marks & B != 0, c: marks & C != 0, d: marks & D != 0 }
}

/// A call: a place, the marks of its neighbours, a record, and the planes before it.
struct Case {
    x: usize,
    y: usize,
    marks: u8,
    record: Record,
    strides: [usize; 3],
    planes: [Vec<u8>; 3],
}

impl Case {
    /// A record that these marks permit, in planes of 3 by 2 macroblocks with any bytes in them, padding beside the rows and a few bytes after
    /// the last one. One plane in six ends with the macroblock.
    fn new(random: &mut Random, (x, y, marks): (usize, usize, u8), kind: u8) -> Case {
        let mut record = good_record(random, kind, near(marks));
        if random.one_in(2) {
            record.blocks_mut().for_each(|block| {
                random.numbers(block);
                bring_in(block);
            });
        }
        let strides = [48 + random.below(5), 24 + random.below(4), 24 + random.below(4)];
        let mut case = Case { x, y, marks, record, strides, planes: Default::default() };
        for p in 0..3 {
            let len = if random.one_in(6) { case.end(p, x, y) } else { case.end(p, 2, 1) + random.below(9) };
            case.planes[p] = (0..len).map(|_| random.byte()).collect();
        }
        case
    }

    /// The place after the last byte of the square at (x, y) of plane `p`.
    fn end(&self, p: usize, x: usize, y: usize) -> usize {
        (y * SIDES[p] + SIDES[p] - 1) * self.strides[p] + (x + 1) * SIDES[p]
    }

    /// Whether the square at (x, y) lies in plane `p`.
    fn holds(&self, p: usize, x: isize, y: isize) -> bool {
        x >= 0 && y >= 0 && (x as usize + 1) * SIDES[p] <= self.strides[p] && self.end(p, x as usize, y as usize) <= self.planes[p].len()
    }

    /// Whether the macroblock and each marked neighbour lie in every plane.
    fn has_room(&self) -> bool {
        let (x, y, n) = (self.x as isize, self.y as isize, near(self.marks));
        let squares = [(true, x, y), (n.a, x - 1, y), (n.b, x, y - 1), (n.c, x + 1, y - 1), (n.d, x - 1, y - 1)];
        (0..3).all(|p| squares.iter().all(|&(marked, x, y)| !marked || self.holds(p, x, y)))
    }

    /// The answer, and the planes after the call.
    fn answer(&self) -> (u32, [Vec<u8>; 3]) {
        let mut after = self.planes.clone();
        if !self.has_room() {
            return (2, after);
        }
        let [luma, cb, cr] = &mut after;
        let mut luma = Plane { samples: luma, stride: self.strides[0] };
        let mut cb = Plane { samples: cb, stride: self.strides[1] };
        let mut cr = Plane { samples: cr, stride: self.strides[2] };
        let r = &self.record;
        let place = (self.x, self.y);
        let answer =
            driver::macroblock([&mut luma, &mut cb, &mut cr], place, near(self.marks), r.kind, &r.modes, r.chroma_mode, &r.numbers);
        (answer, after)
    }

    /// Puts the case in the list; its answer must be the group's.
    fn list(&self, wanted: u32, out: &mut Vec<u8>) {
        let (answer, after) = self.answer();
        assert_eq!(answer, wanted);
        let r = &self.record;
        out.extend([answer as u8, self.x as u8, self.y as u8, self.marks, r.kind, r.chroma_mode]);
        out.extend(r.modes);
        for p in 0..3 {
            out.extend((self.strides[p] as u16).to_le_bytes());
            out.extend((self.planes[p].len() as u16).to_le_bytes());
        }
        put(out, &r.numbers);
        self.planes.iter().for_each(|plane| out.extend(plane));
        if answer == 0 {
            after.iter().for_each(|plane| out.extend(plane));
        } else {
            assert!(after == self.planes);
        }
    }

    /// Of the 8x8 blocks that have a residual: how many stay off the ends of 0..=255, so that nothing is clipped, and how many do not.
    fn residuals_8x8(&self) -> [usize; 2] {
        let (_, [luma, ..]) = self.answer();
        let mut many = [0; 2];
        for (k, deq) in self.record.blocks().take(4).enumerate() {
            let (x, y) = (16 * self.x + 8 * (k % 2), 16 * self.y + 8 * (k / 2));
            let mut samples = (y..y + 8).flat_map(|y| &luma[y * self.strides[0] + x..][..8]);
            if rules::inverse_8x8(deq.try_into().unwrap()) != Ok([0; 64]) {
                many[samples.any(|&v| v == 0 || v == 255) as usize] += 1;
            }
        }
        many
    }

    /// Puts these coefficients, and zeros beside them, into the block that has this one of the record's 24 or 12 blocks, which they take out of range
    /// on the way: their letters say where.
    fn overflow(&mut self, block: usize, (leaves, coefficients): Overflow) {
        let block = self.record.blocks_mut().nth(block).unwrap();
        block.fill(0);
        coefficients.iter().for_each(|&(place, v)| block[place] = v);
        assert!(rules::in_range(block).is_ok() && halfway::leaves(block) == leaves);
    }

    /// Breaks the rules after the one of this answer too.
    fn break_later(&mut self, answer: u32) {
        if answer < 6 {
            self.record.kind = 3;
        }
        if answer < 7 {
            self.marks &= !D;
            self.record.chroma_mode = 3;
        }
        if answer < 8 {
            self.record.numbers[383] = 32768;
        }
    }
}

/// Every place of 3 by 2 with every set of marks that neighbours there can have.
fn places() -> Vec<(usize, usize, u8)> {
    let mut out = Vec::new();
    for (x, y) in [(0, 0), (1, 0), (2, 0), (0, 1), (1, 1), (2, 1)] {
        let outside = [(A, x == 0), (B, y == 0), (C, y == 0 || x == 2), (D, x == 0 || y == 0)];
        let possible = |marks: u8| outside.iter().all(|&(mark, out)| !out || marks & mark == 0);
        out.extend((0..16).filter(|&marks| possible(marks)).map(|marks| (x, y, marks)));
    }
    out
}

/// A macroblock of this kind at each of the places, and five with all neighbours and the plane modes. Every mode occurs, and 8x8 blocks have
/// residuals that are clipped and residuals that are not.
fn accepted(list: &mut List, random: &mut Random, kind: u8) {
    let places = places();
    let (mut luma, mut chroma) = (0, 0);
    let mut residuals = [0; 2];
    list.part(places.len() + 5, |k, out| {
        let place = places.get(k).copied().unwrap_or((1, 1, A | B | C | D));
        let mut case = Case::new(random, place, kind);
        if k >= places.len() {
            case.record.chroma_mode = 3;
            if kind == 2 {
                case.record.modes[0] = 3;
            }
        }
        let used = [16, 4, 1][kind as usize];
        luma |= case.record.modes[..used].iter().fold(0, |seen, mode| seen | 1 << mode);
        chroma |= 1 << case.record.chroma_mode;
        if kind == 1 {
            residuals.iter_mut().zip(case.residuals_8x8()).for_each(|(all, n)| *all += n);
        }
        case.list(0, out);
    });
    assert_eq!((luma, chroma), ([0x1ff, 0x1ff, 0xf][kind as usize], 0xf));
    assert!(kind != 1 || residuals.iter().all(|&n| n >= 40), "8x8 blocks not clipped and clipped: {residuals:?}");
}

/// A refused call: a place, marks, a kind, and what spoils the call.
type Spoilt = (usize, usize, u8, u8, fn(&mut Case));

/// A plane has no room.
const NO_ROOM: [Spoilt; 14] = [
    (0, 1, A, 0, |_| ()),
    (1, 0, B, 1, |_| ()),
    (1, 0, A | C, 2, |_| ()),
    (2, 1, B | C, 0, |_| ()),
    (0, 1, D, 1, |_| ()),
    (2, 1, A, 2, |case| case.x = 3),
    (2, 0, D, 0, |_| ()),
    (2, 1, B, 1, |case| case.y = 2),
    (1, 1, A | B, 2, |case| case.planes[0].truncate(case.end(0, 1, 1) - 1)),
    (0, 1, B | C, 0, |case| case.planes[1].truncate(case.end(1, 0, 1) - 1)),
    (2, 1, D, 1, |case| case.planes[2].truncate(case.end(2, 2, 1) - 1)),
    (2, 0, 0, 2, |case| case.strides[0] = 47),
    (2, 0, A, 0, |case| case.strides[1] = 23),
    (1, 1, C, 1, |case| case.strides[2] = 23),
];

/// The kind or a mode is unknown, or an unused mode is not 0.
const UNKNOWN: [Spoilt; 12] = [
    (0, 0, 0, 0, |case| case.record.kind = 3),
    (1, 1, A | B | D, 2, |case| case.record.kind = 255),
    (1, 1, A | B | C | D, 0, |case| case.record.modes[0] = 9),
    (2, 0, A, 0, |case| case.record.modes[15] = 255),
    (0, 1, B | C, 1, |case| case.record.modes[3] = 9),
    (1, 1, B, 1, |case| case.record.modes[4] = 2),
    (1, 0, 0, 1, |case| case.record.modes[15] = 1),
    (2, 1, A | B | D, 2, |case| case.record.modes[0] = 4),
    (0, 0, 0, 2, |case| case.record.modes[1] = 2),
    (1, 1, A | B | C, 2, |case| case.record.modes[15] = 255),
    (2, 1, A | B | D, 0, |case| case.record.chroma_mode = 4),
    (0, 1, C, 1, |case| case.record.chroma_mode = 255),
];

/// The letters of the values that leave the range, and the coefficients of a block, by place, that have them do so.
type Overflow = (&'static str, &'static [(usize, i32)]);

/// Blocks that leave the range in the rows, in the columns, and with nothing but what the columns end with.
const ROWS_4X4: Overflow = ("f", &[(4, 20_000), (5, 18_000), (12, -12_000)]);
const COLUMNS_4X4: Overflow = ("gh", &[(0, -20_000), (8, -18_000)]);
const LAST_4X4: Overflow = ("h", &[(0, 20_000), (4, 12_750)]);
const FIRST_STEP_8X8: Overflow = ("e", &[(1, 22_000), (7, -4_000)]);
const ROWS_8X8: Overflow = ("efg", &[(16, -20_000), (20, -18_000), (48, 12_000)]);
const COLUMNS_8X8: Overflow = ("h", &[(8, 22_000), (56, -4_000)]);
const LAST_8X8: Overflow = ("m", &[(0, 20_000), (8, 8_500)]);

/// The number of the first block of Cb and of Cr: luma has four blocks in kind 1 and sixteen in the others.
fn chroma(kind: u8) -> [usize; 2] {
    if kind == 1 {
        [4, 8]
    } else {
        [16, 20]
    }
}

/// A mode is not permitted where it stands. In the last ones a block is out of range too.
const FORBIDDEN: [Spoilt; 18] = [
    (0, 0, 0, 0, |case| case.record.modes[0] = 0),
    (1, 0, A, 0, |case| case.record.modes[5] = 3),
    (1, 1, A | C | D, 0, |case| case.record.modes[4] = 7),
    (1, 1, B | D, 0, |case| case.record.modes[2] = 1),
    (1, 1, B | C | D, 0, |case| case.record.modes[10] = 8),
    (1, 1, A | B, 0, |case| case.record.modes[0] = 4),
    (0, 1, B | C, 0, |case| case.record.modes[8] = 5),
    (2, 0, A, 1, |case| case.record.modes[1] = 7),
    (0, 1, B, 1, |case| case.record.modes[2] = 1),
    (2, 1, A | B, 1, |case| case.record.modes[0] = 6),
    (2, 1, A | D, 2, |case| case.record.modes[0] = 0),
    (1, 1, B | D, 2, |case| case.record.modes[0] = 1),
    (1, 1, A | B | C, 2, |case| case.record.modes[0] = 3),
    (0, 1, B, 0, |case| case.record.chroma_mode = 1),
    (2, 1, A | B, 1, |case| case.record.chroma_mode = 3),
    (1, 1, A | B | C, 0, |case| {
        case.record.modes[0] = 4;
        case.overflow(7, ROWS_4X4);
    }),
    (0, 1, B | C, 1, |case| {
        case.record.modes[0] = 8;
        case.overflow(3, COLUMNS_8X8);
    }),
    (1, 0, A, 2, |case| {
        case.record.chroma_mode = 2;
        case.overflow(chroma(2)[1], LAST_4X4);
    }),
];

/// A number is out of range.
const TOO_FAR: [Spoilt; 12] = [
    (0, 0, 0, 0, |case| case.record.numbers[0] = -32769),
    (1, 1, A | B | C | D, 0, |case| case.record.numbers[255] = 32768),
    (2, 1, A | B | D, 1, |case| case.record.numbers[63] = -32769),
    (0, 1, B, 1, |case| case.record.numbers[128] = 32768),
    (1, 0, A, 2, |case| case.record.numbers[16] = 32768),
    (1, 1, A | D, 2, |case| case.record.numbers[240] = -32769),
    (2, 0, 0, 0, |case| case.record.numbers[256] = -32769),
    (1, 1, B | C, 1, |case| case.record.numbers[319] = 32768),
    (0, 1, 0, 2, |case| case.record.numbers[320] = 32768),
    (1, 1, A | B, 0, |case| case.record.numbers[383] = -32769),
    (2, 1, D, 1, |case| case.record.numbers[300] = 8_388_607),
    (0, 0, 0, 2, |case| case.record.numbers[0] = -8_388_608),
];

/// A block leaves the range on the way: of luma in each kind, of Cb and of Cr.
const HALFWAY: [Spoilt; 16] = [
    (0, 0, 0, 0, |case| case.overflow(0, ROWS_4X4)),
    (2, 1, A | B | D, 0, |case| case.overflow(6, COLUMNS_4X4)),
    (1, 1, A | B | C | D, 0, |case| case.overflow(15, LAST_4X4)),
    (1, 0, A, 1, |case| case.overflow(0, FIRST_STEP_8X8)),
    (2, 1, B, 1, |case| case.overflow(1, ROWS_8X8)),
    (0, 1, B | C, 1, |case| case.overflow(3, COLUMNS_8X8)),
    (1, 1, A | B | C | D, 1, |case| case.overflow(2, LAST_8X8)),
    (0, 0, 0, 2, |case| case.overflow(10, ROWS_4X4)),
    (1, 1, A | D, 2, |case| case.overflow(0, COLUMNS_4X4)),
    (2, 0, A, 2, |case| case.overflow(15, LAST_4X4)),
    (2, 1, A | B, 0, |case| case.overflow(chroma(0)[0], ROWS_4X4)),
    (1, 1, B | C, 1, |case| case.overflow(chroma(1)[0] + 3, COLUMNS_4X4)),
    (0, 1, 0, 2, |case| case.overflow(chroma(2)[0] + 1, LAST_4X4)),
    (1, 0, 0, 0, |case| case.overflow(chroma(0)[1] + 2, LAST_4X4)),
    (1, 1, A | B | D, 1, |case| case.overflow(chroma(1)[1], ROWS_4X4)),
    (0, 1, B, 2, |case| case.overflow(chroma(2)[1] + 3, COLUMNS_4X4)),
];

/// The refused calls of one answer; every third breaks later rules too.
fn refused(list: &mut List, random: &mut Random, answer: u32, calls: &[Spoilt]) {
    list.part(calls.len(), |k, out| {
        let (x, y, marks, kind, spoil) = calls[k];
        let mut case = Case::new(random, (x, y, marks), kind);
        if k % 3 == 2 {
            case.break_later(answer);
        }
        spoil(&mut case);
        case.list(answer, out);
    });
}

/// An accepted macroblock whose last byte after the call is not the driver's.
fn wrong(list: &mut List, random: &mut Random) {
    list.part(1, |_, out| {
        Case::new(random, (1, 1, A | B | C | D), 0).list(0, out);
        *out.last_mut().unwrap() ^= 1;
    });
}

fn main() {
    let mut random = Random::new(384);
    let mut list = List::default();
    for kind in 0..3 {
        accepted(&mut list, &mut random, kind);
    }
    refused(&mut list, &mut random, 2, &NO_ROOM);
    refused(&mut list, &mut random, 6, &UNKNOWN);
    refused(&mut list, &mut random, 7, &FORBIDDEN);
    refused(&mut list, &mut random, 8, &[&TOO_FAR[..], &HALFWAY].concat());
    wrong(&mut list, &mut random);
    list.print();
}
