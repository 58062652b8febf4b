//! Writes the fixed list of the Rust's answers to standard output: for each routine, in the order of crates/oracle_list/src/main.rt, the
//! number of its cases in two bytes, and the cases as the program there reads them. A refused case has the rules' answer and leaves zeros,
//! or the buffer as it was. The last two parts are wrong on purpose, so that the program shows that it sees a difference.
use harness::ends::{at_an_end, bring_in, past_an_end};
use harness::list::{put, List};
use harness::Random;
use oracle::predict;
use oracle::rules::{self, Marks, Square};

/// A block whose last byte is one more than the Rust's.
fn wrong_byte(list: &mut List) {
    list.part(1, |_, out| {
        let (top, left) = ([10, 20, 30, 40, 50, 60, 70, 80], [12, 24, 36, 48]);
        let mut block = rules::intra4x4_pred(8, Marks { above: true, left: true, corner: true }, &top, &left, 6).unwrap();
        block[15] += 1;
        out.extend([8, 7, 6, 0]);
        out.extend(top);
        out.extend(left);
        out.extend(block);
    });
}

/// A residual whose last number is one more than the Rust's.
fn wrong_number(list: &mut List) {
    list.part(1, |_, out| {
        let deq = std::array::from_fn(|k| 64 * k as i32);
        let mut residual = rules::inverse_4x4(&deq).unwrap();
        residual[15] += 1;
        out.push(0);
        put(out, &deq);
        put(out, &residual);
    });
}

/// Numbers, of which one in some lists is just out of range.
fn numbers<const N: usize>(random: &mut Random) -> [i32; N] {
    let mut out = [0; N];
    random.numbers(&mut out);
    if random.one_in(8) {
        out[random.below(N)] = random.pick(&[-32769, 32768, 100_000, -32768, 32767]);
    }
    out
}

/// Such numbers as the coefficients of a block, as they are or brought into the range, and blocks at an end of it and past one.
fn coefficients(random: &mut Random) -> [i32; 16] {
    let mut out = numbers(random);
    match random.below(4) {
        0 => (),
        1 => bring_in(&mut out),
        2 => at_an_end(random, &mut out),
        _ => past_an_end(random, &mut out),
    }
    out
}

fn answer<T>(result: &Result<T, u32>) -> u8 {
    result.as_ref().err().map_or(0, |&n| n as u8)
}

/// How often each answer was given in a part. Accepted cases and those that are refused for their range must not be rare.
#[derive(Default)]
struct Seen([usize; 9]);

impl Seen {
    fn add(&mut self, answer: u8) -> u8 {
        self.0[answer as usize] += 1;
        answer
    }

    fn both_often(&self) {
        assert!(self.0[0].min(self.0[8]) >= 25, "answers {:?}", self.0);
    }
}

fn predictor<const T: usize, const L: usize, const B: usize>(
    list: &mut List,
    random: &mut Random,
    cases: usize,
    last: u8,
    rust: impl Fn(u8, Marks, &[u8; T], &[u8; L], u8) -> Result<[u8; B], u32>,
) {
    list.part(cases, |k, out| {
        // Every mode with every set of marks first, then modes at random, most with all marks.
        let modes = last as usize + 2;
        let mode = if k < 8 * modes { (k % modes) as u8 } else { random.below(last as usize + 1) as u8 };
        let bits = if k < 8 * modes { k / modes } else { random.pick(&[7, 7, 7, 3, 5, 6]) };
        let m = Marks { above: bits & 1 != 0, left: bits & 2 != 0, corner: bits & 4 != 0 };
        let (mut top, mut left) = ([0; T], [0; L]);
        random.samples(&mut top);
        random.samples(&mut left);
        let corner = random.byte();
        let result = rust(mode, m, &top, &left, corner);
        out.extend([mode, bits as u8, corner, answer(&result)]);
        out.extend(top);
        out.extend(left);
        out.extend(result.unwrap_or([0; B]));
    });
}

fn from_plane<const B: usize, const P: usize>(
    list: &mut List,
    random: &mut Random,
    cases: usize,
    n: usize,
    rust: impl Fn(u8, &mut [u8], &[u8], usize, usize) -> Result<(), u32>,
) {
    list.part(cases, |_, out| {
        let mut plane = [0; P];
        random.samples(&mut plane);
        let stride = random.below(P / n);
        let base = stride + random.below(4);
        let mode = random.below(5) as u8;
        let mut block = [0; B];
        let result = rust(mode, &mut block, &plane, base, stride);
        out.extend([mode, base as u8, stride as u8, answer(&result)]);
        out.extend(plane);
        out.extend(block);
    });
}

fn sums<const B: usize>(
    list: &mut List,
    random: &mut Random,
    cases: usize,
    draw: impl Fn(&mut Random) -> [i32; B],
    rust: impl Fn(&[i32; B], &[i32; B]) -> Result<[u8; B], u32>,
) -> Seen {
    let mut seen = Seen::default();
    list.part(cases, |_, out| {
        let first = draw(random);
        let pred = if random.one_in(4) { numbers::<B>(random) } else { std::array::from_fn(|_| random.byte() as i32) };
        let result = rust(&first, &pred);
        out.push(seen.add(answer(&result)));
        put(out, &first);
        put(out, &pred);
        out.extend(result.unwrap_or([0; B]));
    });
    seen
}

fn into_plane<const K: usize>(
    list: &mut List,
    random: &mut Random,
    cases: usize,
    draw: impl Fn(&mut Random) -> [i32; K],
    rust: impl Fn(&[i32; K], &[u8], Square, &mut [u8], Square) -> Result<(), u32>,
) -> Seen {
    let mut seen = Seen::default();
    list.part(cases, |_, out| {
        let first = draw(random);
        let (mut pred, mut rec) = ([0; 40], [0; 60]);
        random.samples(&mut pred);
        random.samples(&mut rec);
        let from = Square { offset: random.below(8), stride: random.below(13) };
        let to = Square { offset: random.below(10), stride: 3 + random.below(16) };
        let before = rec;
        let result = rust(&first, &pred, from, &mut rec, to);
        out.extend([seen.add(answer(&result)), from.offset as u8, from.stride as u8, to.offset as u8, to.stride as u8]);
        put(out, &first);
        out.extend(pred);
        out.extend(before);
        out.extend(rec);
    });
    seen
}

fn main() {
    let mut random = Random::new(2026);
    let random = &mut random;
    let mut list = List::default();
    list.part(300, |k, out| {
        let v = if k < 200 { 4 * k as i32 - 300 } else { random.below(2_000_000) as i32 - 1_000_000 };
        put(out, &[v]);
        out.push(predict::clip_u8(v));
    });
    list.part(256, |k, out| out.extend([k as u8, predict::chroma_qp(k as u8)]));
    list.part(240, |k, out| {
        let (marks, a, b) = (k % 4, random.byte(), random.byte());
        let (a, b) = if k < 120 { (a % 17, b % 17) } else { (a, b) };
        let nc = predict::nc_from_neighbors((marks & 1 != 0).then_some(a), (marks & 2 != 0).then_some(b));
        out.extend([marks as u8, a, b, nc as u8]);
    });
    list.part(40, |_, out| {
        let n: [u8; 24] = std::array::from_fn(|_| random.byte());
        out.extend(n);
        out.extend(predict::nnz_raster_from_z(&n));
    });
    predictor(&mut list, random, 700, 8, rules::intra4x4_pred);
    predictor(&mut list, random, 400, 8, rules::intra8x8_pred);
    predictor(&mut list, random, 120, 3, rules::luma16x16_pred);
    predictor(&mut list, random, 250, 3, rules::chroma8x8_pred);
    from_plane::<256, 300>(&mut list, random, 60, 16, rules::i16x16_luma_pred);
    from_plane::<64, 100>(&mut list, random, 120, 8, rules::chroma8x8_plane_pred);
    let mut seen = Seen::default();
    list.part(300, |_, out| {
        let deq = coefficients(random);
        let result = rules::inverse_4x4(&deq);
        out.push(seen.add(answer(&result)));
        put(out, &deq);
        put(out, &result.unwrap_or([0; 16]));
    });
    seen.both_often();
    sums(&mut list, random, 200, coefficients, rules::reconstruct_4x4).both_often();
    sums(&mut list, random, 200, numbers, rules::add_residual_4x4);
    sums(&mut list, random, 60, numbers, rules::add_residual_8x8);
    into_plane(&mut list, random, 200, coefficients, rules::reconstruct_4x4_into).both_often();
    let flat = |first: &[i32; 1], pred: &[u8], from, rec: &mut [u8], to| rules::reconstruct_4x4_dc_into(first[0], pred, from, rec, to);
    into_plane(&mut list, random, 200, numbers, flat);
    into_plane(&mut list, random, 200, numbers, rules::add_residual_4x4_into);
    wrong_byte(&mut list);
    wrong_number(&mut list);
    list.print();
}
