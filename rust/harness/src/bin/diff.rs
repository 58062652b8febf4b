//! The port against the Rust it was ported from, call by call: answers, what was written and what was not.
//! Inside the rules' domain the Rust's own routine says what is right, and of the 8x8 inverse a second writing of its clause; outside it, the
//! rules' refusals do (`oracle::rules`), of which the range inside the inverses is a second writing too (`oracle::halfway`).
//! Every limit is drawn on both sides, every list in its own length, one short, one long and empty, and guards stand around every buffer. How
//! often each answer was given is counted: an answer that a call can give and has not given is a failure too, and so is one that a family of blocks
//! near the ends of the range gives seldom. What the Rust says of a 4x4 or 8x8 case is also due, transposed, of the case turned on its side.
//! What a mode reads, and so what a macroblock waits for, was found by trial with the Rust's predictors (`oracle::reads`); calls that are accepted beside an
//! undone neighbour are counted, and a run without them is a failure. The turn list has no Rust to be held against: a second writing of its rule stands
//! for it (`oracle::turns`). The number of turns is held against the turns that this one takes, and a run in which it never hangs on one of the neighbours is
//! a failure. So it is with the check of an order (`oracle::orders`): of the lists some pass and some do not, for each neighbour alone and for a macroblock
//! that is named twice. Computing and committing is held against the Rust's whole call, and a commit of any bytes against a second writing of it.
use harness::ends::{at_an_end, bring_in, past_an_end};
use harness::{
    block_marks, diagonal_order, good_record, good_records, permitted_order, shuffled, slice_map, Guarded, Memory, Random, Record,
};
use jiwarbend::sys::*;
use jiwarbend::turned::{Case, Case4x4, Case8x8};
use jiwarbend::{block, Refusal};
use oracle::rules::{self, Marks, Square};
use oracle::{driver, halfway, orders, predict, reads, turns};
use std::collections::BTreeMap;

/// The answers are below this number.
const ANSWERS: usize = 14;

struct Report {
    scale: usize,
    passed: usize,
    failed: usize,
    seen: [u64; ANSWERS],
}

/// The calls of one routine: which answers are due, how often each was given and in how many of a hundred cases it must be, how many cases came by
/// turning and how many in a hundred must, and what else the cases lack.
struct Routine<'a> {
    name: String,
    due: &'static [u32],
    seen: [u64; ANSWERS],
    least_each: u64,
    wrong: u64,
    turned: u64,
    least_turned: u64,
    lacks: String,
    report: &'a mut Report,
}

impl Report {
    fn routine(&mut self, name: impl Into<String>, due: &'static [u32]) -> Routine<'_> {
        let name = name.into();
        Routine { name, due, seen: [0; ANSWERS], least_each: 0, wrong: 0, turned: 0, least_turned: 0, lacks: String::new(), report: self }
    }

    /// Cases that are accepted or refused for their range, and often enough each.
    fn family(&mut self, name: &str, title: &str) -> Routine<'_> {
        let mut routine = self.routine(format!("{name}, {title}"), &[0, 8]);
        routine.least_each = 10;
        routine
    }

    /// `n` cases, or fewer where a short run was asked for.
    fn many(&self, n: usize) -> usize {
        (n * self.scale / 100).max(100)
    }
}

impl Routine<'_> {
    fn same<T: PartialEq>(&mut self, port: T, rust: T, say: impl FnOnce() -> String) {
        self.told((0, port), (0, rust), say);
    }

    /// The same of calls that may be refused: the answer comes first.
    fn told<T: PartialEq>(&mut self, port: (u32, T), rust: (u32, T), say: impl FnOnce() -> String) {
        self.seen[rust.0 as usize] += 1;
        if port != rust {
            self.wrong += 1;
            if self.wrong <= 3 {
                println!("{}: differs at {}: the answer is {} and should be {}", self.name, say(), port.0, rust.0);
            }
        }
    }
}

impl Drop for Routine<'_> {
    fn drop(&mut self) {
        let answers = || (0..ANSWERS as u32).filter(|&n| self.seen[n as usize] > 0);
        let missing: Vec<u32> = self.due.iter().copied().filter(|&n| self.seen[n as usize] == 0).collect();
        let odd: Vec<u32> = answers().filter(|n| !self.due.contains(n)).collect();
        let mut verdict = if self.wrong == 0 { "equal".to_string() } else { format!("{} DIFFER", self.wrong) };
        if !missing.is_empty() {
            verdict += &format!(", NEVER SEEN {missing:?}");
        }
        if !odd.is_empty() {
            verdict += &format!(", NOT DUE {odd:?}");
        }
        let cases: u64 = self.seen.iter().sum();
        let few = 100 * self.turned < self.least_turned * cases;
        if few {
            verdict += ", TOO FEW BY TURNING";
        }
        let seldom: Vec<u32> = self.due.iter().copied().filter(|&n| 100 * self.seen[n as usize] < self.least_each * cases).collect();
        if !seldom.is_empty() {
            verdict += &format!(", TOO FEW {seldom:?}");
        }
        verdict += &self.lacks;
        let counts: Vec<String> = answers().map(|n| format!("{n}: {}", self.seen[n as usize])).collect();
        let turned = if self.turned > 0 { format!(", {} of them by turning,", self.turned) } else { String::new() };
        println!("{:<32} {cases:>9} cases{turned} {verdict}; answers {}", self.name, counts.join(", "));
        if self.wrong == 0 && missing.is_empty() && odd.is_empty() && !few && seldom.is_empty() && self.lacks.is_empty() {
            self.report.passed += 1;
        } else {
            self.report.failed += 1;
        }
        self.report.seen.iter_mut().zip(self.seen).for_each(|(all, n)| *all += n);
    }
}

/// What a call that gives a block leaves in the buffer it was lent.
fn left_behind<E: Copy + From<u8>, T: AsRef<[E]>>(len: usize, result: Result<T, u32>) -> (u32, Guarded<E>) {
    let mut buffer = Guarded::filled(len);
    match result {
        Ok(block) => {
            buffer.inner().copy_from_slice(block.as_ref());
            (0, buffer)
        }
        Err(n) => (n, buffer),
    }
}

/// A list's length: as it must be, one short, one long, empty, and twice as long.
fn lengths_of(right: usize) -> [usize; 5] {
    [right, right.saturating_sub(1), right + 1, 0, 2 * right]
}

/// Three lists in all their lengths.
fn lengths(right: [usize; 3]) -> Vec<(usize, usize, usize)> {
    let [a, b, c] = right.map(lengths_of);
    a.into_iter().flat_map(|a| b.into_iter().flat_map(move |b| c.into_iter().map(move |c| (a, b, c)))).collect()
}

type Predictor = unsafe extern "C" fn(u8, bool, bool, bool, *const u8, usize, *const u8, usize, u8, *mut u8, usize) -> u32;

fn predicted(export: Predictor, mode: u8, m: Marks, top: &[u8], left: &[u8], corner: u8, len: usize) -> (u32, Guarded<u8>) {
    let mut buffer = Guarded::filled(len);
    let out = buffer.inner();
    let answer = unsafe {
        export(mode, m.above, m.left, m.corner, top.as_ptr(), top.len(), left.as_ptr(), left.len(), corner, out.as_mut_ptr(), out.len())
    };
    (answer, buffer)
}

/// How a case is turned: with samples above and to the right, and its block with it. At least so many cases in a hundred come so.
struct Turn<const T: usize, const L: usize, const B: usize> {
    case: fn(&Case<T, L>, [u8; L]) -> Option<Case<T, L>>,
    block: fn(&[u8; B]) -> [u8; B],
    least: u64,
}

fn predictor<const T: usize, const L: usize, const B: usize>(
    report: &mut Report,
    name: &'static str,
    export: Predictor,
    rust: impl Fn(u8, Marks, &[u8; T], &[u8; L], u8) -> Result<[u8; B], u32>,
    turn: Option<Turn<T, L, B>>,
) {
    let rounds = report.many(60_000);
    let mut routine = report.routine(name, &[0, 2, 6, 7]);
    routine.least_turned = turn.as_ref().map_or(0, |turn| turn.least);
    let (all, none) = (Marks { above: true, left: true, corner: true }, Marks { above: false, left: false, corner: false });
    let mut random = Random::new(name.len() as u64);
    let (mut top, mut left) = ([0; T], [0; L]);
    let one = |routine: &mut Routine, mode: u8, m: Marks, top: &[u8; T], left: &[u8; L], corner: u8| {
        let port = predicted(export, mode, m, top, left, corner, B);
        let due = rust(mode, m, top, left, corner);
        routine.told(port, left_behind(B, due), || format!("mode {mode}, {m:?}, top {top:?}, left {left:?}, corner {corner}"));
        // The same case on its side. Above and to the right the last sample above is repeated, or stands what stood there.
        let Some(turn) = &turn else { return };
        let case = Case { mode, marks: block::Marks { above: m.above, left: m.left, corner: m.corner }, top: *top, left: *left, corner };
        for c in [[left[L - 1]; L], std::array::from_fn(|k| top[T - L + k])].into_iter().filter_map(|right| (turn.case)(&case, right)) {
            let m = Marks { above: c.marks.above, left: c.marks.left, corner: c.marks.corner };
            let port = predicted(export, c.mode, m, &c.top, &c.left, c.corner, B);
            routine.told(port, left_behind(B, due.map(|b| (turn.block)(&b))), || format!("{c:?}, by turning"));
            routine.turned += 1;
        }
    };
    // Every mode number with every set of marks.
    for mode in 0..=255 {
        for m in Marks::all() {
            random.samples(&mut top);
            random.samples(&mut left);
            one(&mut routine, mode, m, &top, &left, random.byte());
        }
    }
    // Every neighbourhood of the two ends 0 and 255, where they are few enough.
    if T + L < 14 {
        for bits in 0..1u32 << (T + L + 1) {
            let end = |k: usize| if bits >> k & 1 == 1 { 255 } else { 0 };
            let top = std::array::from_fn(end);
            let left = std::array::from_fn(|k| end(T + k));
            for m in Marks::all() {
                for mode in 0..9 {
                    one(&mut routine, mode, m, &top, &left, end(T + L));
                }
            }
        }
    }
    // Neighbourhoods at random; in every second the first sample above and to the right repeats the last above, as 8x8 must have it to be turned.
    for round in 0..rounds {
        random.samples(&mut top);
        random.samples(&mut left);
        if turn.is_some() && round % 2 == 0 {
            top[L] = top[L - 1];
        }
        let corner = random.byte();
        for mode in 0..9 {
            let m = Marks::all().nth(random.below(8)).unwrap();
            one(&mut routine, mode, m, &top, &left, corner);
            one(&mut routine, mode, all, &top, &left, corner);
        }
    }
    // Lists of other lengths: they are refused before the mode is looked at.
    let bytes = [9; 600];
    for (t, l, b) in lengths([T, L, B]) {
        for (mode, m) in [(2, all), (9, all), (3, none)] {
            let port = predicted(export, mode, m, &bytes[..t], &bytes[..l], 9, b);
            let right = (t, l, b) == (T, L, B);
            let wanted = if right { left_behind(b, rust(mode, m, &[9; T], &[9; L], 9)) } else { (2, Guarded::filled(b)) };
            routine.told(port, wanted, || format!("mode {mode}, lengths {t}, {l}, {b}"));
        }
    }
}

type Mean = unsafe extern "C" fn(bool, bool, *const u8, usize, *const u8, usize, *mut u8, usize) -> u32;

fn mean<const N: usize, const B: usize>(
    report: &mut Report,
    name: &'static str,
    export: Mean,
    rust: impl Fn(bool, bool, &[u8; N], &[u8; N]) -> [u8; B],
) {
    let rounds = report.many(300_000);
    let mut routine = report.routine(name, &[0, 2]);
    let mut random = Random::new(12);
    let (mut top, mut left) = ([0; N], [0; N]);
    let call = |above, beside, top: &[u8], left: &[u8], len: usize| {
        let mut buffer = Guarded::filled(len);
        let out = buffer.inner();
        let (t, l) = (top.as_ptr(), left.as_ptr());
        let answer = unsafe { export(above, beside, t, top.len(), l, left.len(), out.as_mut_ptr(), out.len()) };
        (answer, buffer)
    };
    for _ in 0..rounds {
        random.samples(&mut top);
        random.samples(&mut left);
        for (above, beside) in [(false, false), (false, true), (true, false), (true, true)] {
            let wanted = left_behind(B, Ok(rust(above, beside, &top, &left)));
            routine.told(call(above, beside, &top, &left, B), wanted, || format!("{above} {top:?}, {beside} {left:?}"));
        }
    }
    let bytes = [9; 130];
    for (t, l, b) in lengths([N, N, B]) {
        let wanted = if (t, l, b) == (N, N, B) { left_behind(B, Ok([9; B])) } else { (2, Guarded::filled(b)) };
        routine.told(call(true, true, &bytes[..t], &bytes[..l], b), wanted, || format!("lengths {t}, {l}, {b}"));
    }
}

type FromPlane = unsafe extern "C" fn(u8, *mut u8, usize, *const u8, usize, usize, usize) -> u32;

fn from_plane(
    report: &mut Report,
    name: &'static str,
    n: usize,
    export: FromPlane,
    rust: impl Fn(u8, &mut [u8], &[u8], usize, usize) -> Result<(), u32>,
) {
    let rounds = report.many(1_500_000);
    let mut routine = report.routine(name, &[0, 2, 6]);
    let mut random = Random::new(77);
    let mut plane = vec![0; 1 << 17];
    random.samples(&mut plane);
    plane.iter_mut().for_each(|v| *v ^= random.byte() & 15);
    let one = |routine: &mut Routine, plane: &[u8], mode: u8, lent: usize, base: usize, stride: usize| {
        let (mut port, mut wanted) = (Guarded::filled(lent), Guarded::filled(lent));
        let out = port.inner();
        let answer = unsafe { export(mode, out.as_mut_ptr(), out.len(), plane.as_ptr(), plane.len(), base, stride) };
        let said = rust(mode, wanted.inner(), plane, base, stride).err().unwrap_or(0);
        let len = plane.len();
        routine.told((answer, port), (said, wanted), || format!("mode {mode}, lent {lent}, length {len}, base {base}, stride {stride}"));
    };
    // How many bytes the samples around a block need.
    let need = |base: usize, stride: usize| {
        let (left, above) = (base.wrapping_add(stride.wrapping_mul(n - 1)), base.wrapping_sub(stride).wrapping_add(n));
        left.max(above)
    };
    // Every limit on both sides: stride, place, length of the plane and of the prediction, mode.
    for stride in [0, 1, 2, n, 4095, 4096, 4097] {
        for base in [0, stride.wrapping_sub(1), stride, stride + 1, stride + 2, stride + n] {
            let right = need(base, stride).min(plane.len() - 1);
            for len in [right, right.wrapping_sub(1).min(plane.len()), right + 1, 0] {
                for lent in lengths_of(n * n) {
                    for mode in [0, 1, 2, 3, 4, 255] {
                        one(&mut routine, &plane[..len], mode, lent, base, stride);
                    }
                }
            }
        }
    }
    for round in 0..rounds {
        if round % 64 == 0 {
            random.samples(&mut plane[..2000]);
        }
        let stride = match random.below(12) {
            0 => random.pick(&[0, 1, 2, 4095, 4096, 4097, usize::MAX, usize::MAX / 15, 1 << 60]),
            _ => 1 + random.below(100),
        };
        let base = match random.below(12) {
            0 => random.pick(&[0, 1, usize::MAX, usize::MAX - 15, usize::MAX - stride]),
            1 => stride,
            2 => stride.wrapping_add(1),
            _ => stride.wrapping_add(1 + random.below(300)),
        };
        let need = need(base, stride);
        let len = match random.below(8) {
            0 => need.wrapping_sub(1),
            1 => need,
            2 => 0,
            _ => need.wrapping_add(random.below(40)),
        }
        .min(plane.len());
        let mode = if random.one_in(8) { random.byte() } else { random.below(4) as u8 };
        let lent = if random.one_in(4) { random.pick(&lengths_of(n * n)) } else { n * n };
        one(&mut routine, &plane[..len], mode, lent, base, stride);
    }
}

type Sums = unsafe extern "C" fn(*const i32, usize, *const i32, usize, *mut u8, usize) -> u32;

/// The numbers at the ends of the range, and the first ones past them; 32735 is the end of what a transform's last values may be.
const LIMITS: [i32; 6] = [-32768, -32769, 32735, 32736, 32767, 32768];

/// Numbers of which now and then one is out of range.
fn numbers(random: &mut Random, out: &mut [i32]) {
    random.numbers(out);
    if random.one_in(6) {
        let k = random.below(out.len());
        out[k] = random.pick(&[-32768, 32767, -32769, 32768, i32::MIN, i32::MAX, 65536, -65536]);
    }
}

/// What the first list of a sum holds: coefficients, whose block may leave the range on the way, or residuals.
#[derive(Clone, Copy, PartialEq)]
enum First {
    Coefficients,
    Residuals,
}

impl First {
    /// Numbers of one of the families of coefficients in turn, or numbers of which now and then one is out of range.
    fn draw(self, random: &mut Random, round: usize, out: &mut [i32]) {
        match self {
            First::Coefficients => coefficients(random, round % FAMILIES.len(), out),
            First::Residuals => numbers(random, out),
        }
    }
}

fn sums<const B: usize>(
    report: &mut Report,
    name: &'static str,
    of: First,
    export: Sums,
    rust: impl Fn(&[i32; B], &[i32; B]) -> Result<[u8; B], u32>,
) {
    let rounds = report.many(1_500_000);
    let mut routine = report.routine(name, &[0, 2, 8]);
    let mut random = Random::new(5);
    let (mut first, mut pred) = ([0; B], [0; B]);
    let call = |first: &[i32], pred: &[i32], len: usize| {
        let mut buffer = Guarded::filled(len);
        let out = buffer.inner();
        let answer = unsafe { export(first.as_ptr(), first.len(), pred.as_ptr(), pred.len(), out.as_mut_ptr(), out.len()) };
        (answer, buffer)
    };
    for round in 0..rounds {
        of.draw(&mut random, round, &mut first);
        if random.one_in(4) {
            numbers(&mut random, &mut pred);
        } else {
            pred = std::array::from_fn(|_| random.byte() as i32);
        }
        let wanted = left_behind(B, rust(&first, &pred));
        routine.told(call(&first, &pred, B), wanted, || format!("{first:?}, {pred:?}"));
    }
    // The limits on both sides, at every place of both lists.
    for place in 0..B {
        for v in LIMITS {
            let mut one = [0; B];
            one[place] = v;
            for (first, pred) in [(one, [9; B]), ([9; B], one)] {
                routine.told(call(&first, &pred, B), left_behind(B, rust(&first, &pred)), || format!("{v} at {place}"));
            }
        }
    }
    let (flat, wide) = ([0; 130], [32768; 130]);
    for (f, p, b) in lengths([B, B, B]) {
        let right = (f, p, b) == (B, B, B);
        let wanted = if right { left_behind(B, Ok([0; B])) } else { (2, Guarded::filled(b)) };
        routine.told(call(&flat[..f], &flat[..p], b), wanted, || format!("lengths {f}, {p}, {b}"));
        let wanted = (if right { 8 } else { 2 }, Guarded::filled(b));
        routine.told(call(&wide[..f], &wide[..p], b), wanted, || format!("lengths {f}, {p}, {b}, numbers too large"));
    }
    drop(routine);
    if of == First::Coefficients {
        let mut routine = report.family(name, "at an end");
        for _ in 0..rounds / 5 {
            at_an_end(&mut random, &mut first);
            pred = std::array::from_fn(|_| random.byte() as i32);
            let wanted = left_behind(B, rust(&first, &pred));
            routine.told(call(&first, &pred, B), wanted, || format!("{first:?}, {pred:?}"));
        }
    }
}

/// A square that lies in a buffer, just lies in it, just leaves it, or lies nowhere near.
fn square(random: &mut Random, len: usize) -> Square {
    let stride = match random.below(12) {
        0 => random.pick(&[0, 1, 3, 4095, 4096, 4097, usize::MAX, usize::MAX / 3, 1 << 62]),
        _ => 4 + random.below(20),
    };
    let end = stride.wrapping_mul(3).wrapping_add(4);
    let offset = match random.below(10) {
        0 => random.pick(&[usize::MAX, usize::MAX - 3, usize::MAX.wrapping_sub(end), len]),
        1 => len.wrapping_sub(end).wrapping_add(1),
        2 => len.wrapping_sub(end),
        _ => random.below(len.wrapping_sub(end).min(len) + 1),
    };
    Square { offset, stride }
}

fn into_plane(
    report: &mut Report,
    name: &'static str,
    of: First,
    port: impl Fn(&[i32], &[u8], Square, &mut [u8], Square) -> u32,
    rust: impl Fn(&[i32; 16], &[u8], Square, &mut [u8], Square) -> Result<(), u32>,
    lists: bool,
) {
    let rounds = report.many(1_500_000);
    let mut routine = report.routine(name, &[0, 2, 8]);
    let mut random = Random::new(9);
    let mut first = [0; 16];
    let mut samples = vec![0; 13_000];
    random.samples(&mut samples);
    let one = |routine: &mut Routine, first: &[i32; 16], pred: &[u8], from: Square, rec_len: usize, to: Square| {
        let (mut got, mut wanted) = (Guarded::filled(rec_len), Guarded::filled(rec_len));
        let answer = port(first, pred, from, got.inner(), to);
        let said = rust(first, pred, from, wanted.inner(), to).err().unwrap_or(0);
        let pred_len = pred.len();
        routine.told((answer, got), (said, wanted), || format!("{first:?}, prediction {pred_len} {from:?}, written {rec_len} {to:?}"));
    };
    // Every limit on both sides: strides and lengths of both squares.
    let lens = |end: usize| [end, end - 1, end + 1, 0];
    let near = Square { offset: 3, stride: 5 };
    for stride in [0, 1, 3, 4, 5, 4095, 4096, 4097] {
        for offset in [0, 1, 7] {
            let edge = Square { offset, stride };
            for len in lens(offset + 3 * stride + 4) {
                one(&mut routine, &[64; 16], &samples[..len], edge, 40, near);
                one(&mut routine, &[64; 16], &samples[..40], near, len, edge);
            }
        }
    }
    for (place, v) in (0..16).flat_map(|place| LIMITS.map(|v| (place, v))) {
        let mut numbers = [0; 16];
        numbers[place] = v;
        one(&mut routine, &numbers, &samples[..40], near, 40, near);
    }
    for round in 0..rounds {
        if round % 16 == 0 {
            random.samples(&mut samples[..300]);
        }
        of.draw(&mut random, round, &mut first);
        let (pred_len, rec_len) = if random.one_in(50) { (12_300, 12_310) } else { (random.below(140), random.below(140)) };
        let (from, to) = (square(&mut random, pred_len), square(&mut random, rec_len));
        one(&mut routine, &first, &samples[..pred_len], from, rec_len, to);
    }
    if lists {
        let square = Square { offset: 0, stride: 4 };
        for len in (0..40).filter(|&n| n != 16) {
            for v in [0, 32768] {
                let mut got = Guarded::filled(16);
                let answer = port(&vec![v; len], &samples[..16], square, got.inner(), square);
                routine.told((answer, got), (2, Guarded::filled(16)), || format!("a list of {len}"));
            }
        }
    }
    drop(routine);
    if of == First::Coefficients {
        let mut routine = report.family(name, "at an end");
        for _ in 0..rounds / 5 {
            at_an_end(&mut random, &mut first);
            let (from, to) = (random.below(200), random.below(200));
            let [from, to] = [from, to].map(|offset| Square { offset, stride: 4 + random.below(20) });
            one(&mut routine, &first, &samples[..300], from, 300, to);
        }
    }
}

fn small(report: &mut Report) {
    let many = report.many(2_000_000);
    let mut random = Random::new(3);
    let mut routine = report.routine("clip_u8", &[0]);
    let ends = [i32::MIN, i32::MAX, i32::MIN + 1, i32::MAX - 1];
    let anything: Vec<i32> = (0..many).map(|_| random.word() as i32).collect();
    for v in (-100_000..100_000).chain(ends).chain(anything) {
        routine.same(unsafe { jiwarbend_clip_u8(v) }, predict::clip_u8(v), || format!("{v}"));
    }
    drop(routine);

    let mut routine = report.routine("chroma_qp", &[0]);
    for qp in 0..=255 {
        routine.same(unsafe { jiwarbend_chroma_qp(qp) }, predict::chroma_qp(qp), || format!("{qp}"));
    }
    drop(routine);

    let mut routine = report.routine("nc_from_neighbors", &[0]);
    for (ha, hb) in [(false, false), (false, true), (true, false), (true, true)] {
        for (a, b) in (0..=255).flat_map(|a| (0..=255).map(move |b| (a, b))) {
            let port = unsafe { jiwarbend_nc_from_neighbors(ha, a, hb, b) };
            routine.same(port, predict::nc_from_neighbors(ha.then_some(a), hb.then_some(b)), || format!("{ha} {a}, {hb} {b}"));
        }
    }
    drop(routine);

    let mut routine = report.routine("nnz_raster_from_z", &[0, 2]);
    let call = |n: &[u8], len: usize| {
        let mut buffer = Guarded::filled(len);
        let out = buffer.inner();
        let answer = unsafe { jiwarbend_nnz_raster_from_z(n.as_ptr(), n.len(), out.as_mut_ptr(), out.len()) };
        (answer, buffer)
    };
    for _ in 0..many / 4 {
        let n: [u8; 24] = std::array::from_fn(|_| random.byte());
        routine.told(call(&n, 24), left_behind(24, Ok(predict::nnz_raster_from_z(&n))), || format!("{n:?}"));
    }
    for (n, out) in (0..50).flat_map(|n| (0..50).map(move |out| (n, out))).filter(|&p| p != (24, 24)) {
        routine.told(call(&[7; 50][..n], out), (2, Guarded::filled(out)), || format!("lengths {n}, {out}"));
    }
    drop(routine);

    type Set = unsafe extern "C" fn(bool, bool, bool) -> u16;
    let mut set = |name, export: Set, last, permitted: &dyn Fn(u8, Marks) -> bool, rust: &dyn Fn(u8, Marks) -> Option<bool>| {
        let mut routine = report.routine(name, &[0]);
        for m in Marks::all() {
            let port = unsafe { export(m.above, m.left, m.corner) };
            routine.same(port as u32, rules::mode_set(last + 1, |mode| permitted(mode, m)), || format!("{m:?}"));
            for mode in 0..=last {
                if let Some(says) = rust(mode, m) {
                    routine.same(port >> mode & 1 == 1, says, || format!("mode {mode}, {m:?}"));
                }
            }
        }
    };
    set("permitted_4x4", jiwarbend_permitted_4x4, 8, &rules::permitted_nxn, &|_, _| None);
    set("permitted_8x8", jiwarbend_permitted_8x8, 8, &rules::permitted_nxn, &|_, _| None);
    // The Rust's own tests do not ask for the corner: they say what is right except for plane without one.
    set("permitted_16x16", jiwarbend_permitted_16x16, 3, &rules::permitted_16x16, &|mode, m| {
        (mode != 3 || m.corner).then(|| predict::I16Mode::from_id(mode as u32).available(m.above, m.left))
    });
    set("permitted_chroma", jiwarbend_permitted_chroma, 3, &rules::permitted_chroma, &|mode, m| {
        (mode != 3 || m.corner).then(|| predict::chroma_mode_available(mode, m.above, m.left))
    });
}

/// The samples around a block as the predictors take them: above and above-right, left, and the corner.
type Around<const T: usize, const L: usize> = ([u8; T], [u8; L], u8);

/// Above-right that is not available is the last sample above, repeated.
fn completed<const T: usize, const L: usize>((mut top, left, corner): Around<T, L>, right: bool) -> Around<T, L> {
    if !right {
        let last = top[L - 1];
        top[L..].fill(last);
    }
    (top, left, corner)
}

/// The same samples in these groups, and any others in the rest.
fn others<const T: usize, const L: usize>(random: &mut Random, groups: u8, (top, left, corner): Around<T, L>) -> Around<T, L> {
    let mut one = |group: u8, v: u8| if groups & group == 0 { random.byte() } else { v };
    let top = std::array::from_fn(|k| one(if k < L { reads::ABOVE } else { reads::ABOVE_RIGHT }, top[k]));
    (top, std::array::from_fn(|k| one(reads::LEFT, left[k])), one(reads::CORNER, corner))
}

/// What a mode reads: every mode number with every set of marks against what was found by trial, and neighbourhoods that differ in all that is not read
/// against the predictor itself, which must give one block for both.
fn reads_of<const T: usize, const L: usize, const B: usize>(
    report: &mut Report,
    name: &'static str,
    port: impl Fn(u8, Marks, bool) -> u8,
    rust: impl Fn(u8, Marks, bool) -> u8,
    export: Predictor,
) {
    let rounds = report.many(2_000);
    let mut routine = report.routine(name, &[0]);
    let mut random = Random::new(14);
    for mode in 0..=255 {
        for (m, right) in Marks::all().flat_map(|m| [(m, false), (m, true)]) {
            let read = port(mode, m, right);
            routine.same(read, rust(mode, m, right), || format!("mode {mode}, {m:?}, above-right {right}"));
            for _ in 0..if mode < 9 { rounds } else { 1 } {
                let (mut top, mut left) = ([0; T], [0; L]);
                random.samples(&mut top);
                random.samples(&mut left);
                let one = completed((top, left, random.byte()), right);
                let other = completed(others(&mut random, read, one), right);
                let [one, other] = [one, other].map(|(top, left, corner)| predicted(export, mode, m, &top, &left, corner, B));
                routine.same(other, one, || format!("mode {mode}, {m:?}, above-right {right}: it reads {read} and shows another group"));
            }
        }
    }
}

type Inverse = unsafe extern "C" fn(*const i32, usize, *mut i32, usize) -> u32;

/// Any number in range.
fn anywhere(random: &mut Random) -> i32 {
    rules::LOW + random.below(65536) as i32
}

/// The families of coefficients: mixed and now and then out of range, anywhere in the range, at its two ends, a few among zeros, and blocks of which a
/// value on the way comes to an end of its range.
const FAMILIES: [&str; 5] = ["mixed", "anywhere", "two ends", "a few", "at an end"];

/// Coefficients of one of the families. Of the first four every second block is brought into the range, which most would leave on the way.
fn coefficients(random: &mut Random, family: usize, out: &mut [i32]) {
    match family {
        0 => numbers(random, out),
        1 => out.iter_mut().for_each(|v| *v = anywhere(random)),
        2 => out.iter_mut().for_each(|v| *v = random.pick(&[rules::LOW, rules::HIGH])),
        3 => {
            out.fill(0);
            for _ in 0..1 + random.below(6) {
                let v = anywhere(random);
                out[random.below(out.len())] = random.pick(&[rules::LOW, rules::HIGH, v, v / 64]);
            }
        }
        _ => return at_an_end(random, out),
    }
    if random.one_in(2) {
        bring_in(out);
    }
}

/// The two blocks that move a sample furthest: every coefficient at the end of the range by which it raises the sample, or lowers it.
fn furthest<const B: usize>(sample: usize, rust: impl Fn(&[i32; B]) -> Result<[i32; B], u32>) -> [[i32; B]; 2] {
    let raises: [bool; B] = std::array::from_fn(|place| {
        let mut alone = [0; B];
        alone[place] = 10_000;
        rust(&alone).expect("a number in range")[sample] > 0
    });
    [true, false].map(|wanted| raises.map(|raises| if raises == wanted { rules::HIGH } else { rules::LOW }))
}

/// How often the furthest value of a letter stood at an end of its range, with all values in range, and how often it stood one past it, with the values of
/// all other letters in range. An end is the lower one or the upper one.
#[derive(Default)]
struct Ends(BTreeMap<(char, bool), [u64; 2]>);

impl Ends {
    fn add(&mut self, deq: &[i32]) {
        if rules::in_range(deq).is_err() {
            return;
        }
        let spans = halfway::spans(deq);
        let out = spans.iter().filter(|span| !span.fits()).count();
        for span in spans {
            for (upper, past) in [(false, rules::LOW - span.least), (true, span.greatest - span.high)] {
                if past == out as i32 && out <= 1 {
                    self.0.entry((span.letter, upper)).or_default()[out] += 1;
                }
            }
        }
    }

    /// Every end that these letters have was met on both sides, at least once in a thousand cases.
    fn judge(&self, letters: &str, cases: usize, routine: &mut Routine) {
        for letter in letters.chars() {
            for upper in [false, true] {
                let [at, past] = self.0.get(&(letter, upper)).copied().unwrap_or_default();
                println!("  {letter} at its {} end {at:>6} times, past it alone {past:>6} times", if upper { "upper" } else { "lower" });
                if at.min(past) * 1000 < cases as u64 {
                    routine.lacks += &format!(", {letter} SELDOM AT AN END");
                }
            }
        }
    }
}

/// The letters of a block that can leave the range while those of all others stay in it. The others follow from them: each value of theirs is half the sum
/// or half the difference of two of the next step.
fn deciding(block: usize) -> &'static str {
    if block == 16 {
        "fh"
    } else {
        "eghm"
    }
}

fn inverse<const B: usize>(report: &mut Report, name: &'static str, export: Inverse, rust: impl Fn(&[i32; B]) -> Result<[i32; B], u32>) {
    let rounds = report.many(5_000_000);
    let mut routine = report.routine(name, &[0, 2, 8]);
    let mut random = Random::new(4);
    let mut deq = [0; B];
    let call = |deq: &[i32], len: usize| {
        let mut buffer = Guarded::filled(len);
        let out = buffer.inner();
        let answer = unsafe { export(deq.as_ptr(), deq.len(), out.as_mut_ptr(), out.len()) };
        (answer, buffer)
    };
    let one = |routine: &mut Routine, deq: &[i32; B]| {
        assert_eq!(rules::transformable(deq).is_ok(), halfway::in_range(deq), "the quick test and the plain one: {deq:?}");
        routine.told(call(deq, B), left_behind(B, rust(deq)), || format!("{deq:?}"));
    };
    // A lone coefficient at each place, through the whole range and past its ends.
    for place in 0..B {
        for v in (-32800..32800).step_by(if rounds < 100_000 { 97 } else { 1 }) {
            let mut deq = [0; B];
            deq[place] = v;
            one(&mut routine, &deq);
        }
    }
    // The limits on both sides at each place of blocks at random, anywhere in the range and next to 0.
    for place in 0..B {
        for v in LIMITS {
            coefficients(&mut random, 1, &mut deq);
            deq[place] = v;
            one(&mut routine, &deq);
            deq = std::array::from_fn(|_| random.below(5) as i32 - 2);
            deq[place] = v;
            one(&mut routine, &deq);
        }
        // The blocks that would have the largest residuals, and smaller ones with the same signs on both sides of what is taken.
        for mut deq in furthest(place, &rust) {
            one(&mut routine, &deq);
            bring_in(&mut deq);
            for more in -3..=3 {
                one(&mut routine, &deq.map(|v| v + more * v.signum()));
            }
        }
    }
    // Lists of other lengths: they are refused before the numbers are looked at.
    let any = 2 * B + 8;
    for (n, out) in (0..any).flat_map(|n| (0..any).map(move |out| (n, out))).filter(|&p| p != (B, B)) {
        for v in [0, 32768] {
            routine.told(call(&vec![v; n], out), (2, Guarded::filled(out)), || format!("lengths {n}, {out}, numbers {v}"));
        }
    }
    drop(routine);
    for (family, title) in FAMILIES.iter().enumerate() {
        let mut routine = report.family(name, title);
        let (mut ends, cases) = (Ends::default(), rounds / FAMILIES.len());
        for _ in 0..cases {
            coefficients(&mut random, family, &mut deq);
            one(&mut routine, &deq);
            if family == 4 {
                ends.add(&deq);
            }
        }
        if family == 4 {
            ends.judge(deciding(B), cases, &mut routine);
        }
    }
}

fn start(report: &mut Report) {
    let mut routine = report.routine("start", &[0, 1, 2]);
    let mut random = Random::new(8);
    let sizes = (0..=130u32).flat_map(|w| (0..=75u32).map(move |h| (w, h)));
    let far = [(u32::MAX, 1), (1, u32::MAX), (1 << 16, 1 << 16), (u32::MAX, u32::MAX), (1 << 31, 2)];
    for (w, h) in sizes.chain(far) {
        let right = (w as u64 * h as u64).min(9000) as usize;
        for len in [right, right + 1, right.saturating_sub(1), 0] {
            let mut port = Guarded::filled(len);
            port.inner().iter_mut().for_each(|v| *v = random.byte());
            let mut wanted = port.clone();
            let mut progress = Guarded::new(&[random.word() as u32, random.word() as u32]);
            let mut expected = progress.clone();
            let done = port.inner();
            let answer = unsafe { jiwarbend_start(w, h, done.as_mut_ptr(), done.len(), progress.inner().as_mut_ptr().cast()) };
            let mut after = driver::Progress { count: expected.inner()[0], last: expected.inner()[1] };
            let said = driver::start(w, h, wanted.inner(), &mut after);
            expected.inner().copy_from_slice(&[after.count, after.last]);
            routine.told((answer, (port, progress)), (said, (wanted, expected)), || format!("{w} by {h}, a map of {len}"));
        }
    }
}

/// A call of `rebuild`: the memory it is lent, the place, the record, and the lengths of the record's lists.
struct Call {
    memory: Memory,
    x: u32,
    y: u32,
    record: Record,
    modes: usize,
    numbers: usize,
}

impl Call {
    /// A call with a good record in a picture of this size, whose macroblocks are done or not. The planes have `pad` bytes more in a row.
    fn new(random: &mut Random, (w, h): (u32, u32), pad: usize, kind: u8) -> Call {
        let slices = slice_map(random, w, h);
        let a = random.below((w * h) as usize);
        let (x, y) = (a as u32 % w, a as u32 / w);
        let n = driver::near(w as usize, &slices, x as usize, y as usize);
        let mut memory = Memory::new(random, w, h, slices, pad);
        let share = random.below(4);
        for d in memory.done.inner() {
            *d = if share > 0 && random.one_in(share * 6) { random.pick(&[0, 2, 255]) } else { 1 };
        }
        memory.done.inner()[a] = random.pick(&[0, 0, 2, 255]);
        memory.progress = Guarded::new(&[random.below((w * h) as usize + 1) as u32, random.word() as u32]);
        Call { memory, x, y, record: good_record(random, kind, n), modes: 16, numbers: 384 }
    }

    /// Whether planes of its size can be made: another bend may have taken it far away.
    fn is_modest(&self) -> bool {
        (1..10).contains(&self.memory.w) && (1..10).contains(&self.memory.h)
    }

    /// Compares both sides: the answer, which it gives back, all that was lent with the guards around it, and the record's lists.
    fn compare(&self, routine: &mut Routine) -> u32 {
        let (mut modes, mut numbers) = (Guarded::new(&self.record.modes), Guarded::new(&self.record.numbers));
        modes.resize(self.modes);
        numbers.resize(self.numbers);
        let (modes_before, numbers_before) = (modes.clone(), numbers.clone());
        let (mut port, mut wanted, r) = (self.memory.clone(), self.memory.clone(), &self.record);
        let answer = port.port(self.x, self.y, r.kind, modes.inner(), r.chroma_mode, numbers.inner());
        let said = wanted.rust(self.x, self.y, r.kind, modes.inner(), r.chroma_mode, numbers.inner());
        let kept = modes == modes_before && numbers == numbers_before;
        routine.told((answer, (&port, kept)), (said, (&wanted, true)), || {
            let m = &self.memory;
            let lens: Vec<usize> = m.planes.iter().map(Guarded::len).collect();
            format!(
                "({}, {}) of {} by {}, strides {:?}, planes {lens:?}, done {}, slices {}, modes {}, numbers {}, kind {}",
                self.x,
                self.y,
                m.w,
                m.h,
                m.strides,
                m.done.len(),
                m.slices.len(),
                self.modes,
                self.numbers,
                r.kind
            )
        });
        said
    }

    /// The same in two calls, with a block of this length: what is computed is committed, and then once more.
    fn compare_halves(&self, routine: &mut Routine, block: usize) -> u32 {
        let (mut modes, mut numbers) = (Guarded::new(&self.record.modes), Guarded::new(&self.record.numbers));
        modes.resize(self.modes);
        numbers.resize(self.numbers);
        let (mut port, mut whole, r) = (self.memory.clone(), self.memory.clone(), &self.record);
        let mut lent = Guarded::filled(block);
        let answer = port.compute(self.x, self.y, r.kind, modes.inner(), r.chroma_mode, numbers.inner(), lent.inner());
        let only_read = port == self.memory;
        let mut after = Vec::new();
        if answer == 0 {
            after.extend([port.commit(self.x, self.y, lent.inner()), port.commit(self.x, self.y, lent.inner())]);
        }
        let untouched = lent == Guarded::filled(block);
        let said = match whole.rust(self.x, self.y, r.kind, modes.inner(), r.chroma_mode, numbers.inner()) {
            1 => 1,
            _ if block != 384 => 2,
            said => said,
        };
        let (wanted, due) = if said == 0 { (&whole, vec![0, 4]) } else { (&self.memory, vec![]) };
        routine.told((answer, (&port, only_read, after, answer == 0 || untouched)), (said, (wanted, true, due, true)), || {
            let m = &self.memory;
            format!("({}, {}) of {} by {}, strides {:?}, kind {}, a block of {block}", self.x, self.y, m.w, m.h, m.strides, r.kind)
        });
        said
    }

    /// A commit of any bytes: the Rust's whole call tells whether size, room, place and mark are right, and nothing else is asked for.
    fn compare_commit(&self, routine: &mut Routine, block: &mut Guarded<u8>) {
        let (mut port, mut whole, r) = (self.memory.clone(), self.memory.clone(), &self.record);
        let (before, answer) = (block.clone(), port.commit(self.x, self.y, block.inner()));
        let said = match whole.rust(self.x, self.y, r.kind, &r.modes, r.chroma_mode, &r.numbers) {
            1 => 1,
            _ if block.len() != 384 => 2,
            said if said <= 4 => said,
            _ => 0,
        };
        let mut wanted = self.memory.clone();
        if said == 0 {
            wanted.put(self.x, self.y, block.inner());
        }
        routine.told((answer, (&port, &*block)), (said, (&wanted, &before)), || {
            let m = &self.memory;
            format!("({}, {}) of {} by {}, strides {:?}, a block of {}", self.x, self.y, m.w, m.h, m.strides, block.len())
        });
    }
}

/// The ways in which a call is bent, each at its limit and one past it.
type Bend = fn(&mut Call, &mut Random);

fn resize<T: Copy + From<u8>>(list: &mut Guarded<T>, random: &mut Random) {
    let right = list.len();
    list.resize(random.pick(&lengths_of(right)));
}

const BENDS: [Bend; 27] = [
    |c, _| c.memory.w = 0,
    |c, _| c.memory.h = 0,
    |c, random| c.memory.w = random.pick(&[121, u32::MAX, c.memory.w + 1]),
    |c, random| c.memory.h = random.pick(&[69, u32::MAX, c.memory.h + 1]),
    // A stride of the width, one less and one more, with the bytes that it needs.
    |c, random| bend_stride(c, random, |width| [width, width - 1, width + 1]),
    // The largest stride and its neighbours. Only flat pictures take it, for their planes are large then.
    |c, random| {
        if c.memory.h == 1 {
            bend_stride(c, random, |_| [4095, 4096, 4097]);
        }
    },
    |c, random| c.memory.strides[random.below(3)] = random.pick(&[0, usize::MAX, 1 << 61, 4096, 4097]),
    // A plane of just the bytes it needs, one less, one more, and none.
    |c, random| {
        let (p, more) = (random.below(3), random.pick(&[0, 1, -1, isize::MIN]));
        if c.is_modest() {
            c.memory.restride(p, c.memory.strides[p].min(100));
            let right = c.memory.planes[p].len() as isize;
            c.memory.planes[p].resize(right.saturating_add(more).max(0) as usize);
        }
    },
    |c, random| resize(&mut c.memory.done, random),
    |c, random| resize(&mut c.memory.slices, random),
    |c, random| c.modes = random.pick(&lengths_of(16)),
    |c, random| c.numbers = random.pick(&lengths_of(384)),
    |c, random| {
        let all = c.memory.w.wrapping_mul(c.memory.h);
        c.memory.progress.inner()[0] = random.pick(&[all, all.wrapping_add(1), u32::MAX, 0]);
    },
    |c, random| c.x = random.pick(&[c.memory.w, c.memory.w.wrapping_sub(1), u32::MAX]),
    |c, random| c.y = random.pick(&[c.memory.h, c.memory.h.wrapping_sub(1), u32::MAX]),
    // The macroblock is done, or nearly.
    |c, random| {
        let a = c.y.wrapping_mul(c.memory.w).wrapping_add(c.x) as usize;
        if let Some(d) = c.memory.done.inner().get_mut(a) {
            *d = random.pick(&[1, 1, 0, 2]);
        }
    },
    // One neighbour is not done.
    |c, random| {
        let at = random.below(c.memory.done.len().max(1));
        if let Some(d) = c.memory.done.inner().get_mut(at) {
            *d = random.pick(&[0, 2, 255]);
        }
    },
    |c, random| c.record.kind = random.pick(&[0, 1, 2, 3, 255]),
    // A used mode at its limit: 8 and 9 for 4x4 and 8x8, 3 and 4 for 16x16.
    |c, random| {
        let (used, last) = [(16, 8), (4, 8), (1, 3), (1, 3)][c.record.kind.min(3) as usize];
        c.record.modes[random.below(used)] = random.pick(&[last, last + 1, 255]);
    },
    // An unused mode, if there is one.
    |c, random| {
        let used = [16, 4, 1, 1][c.record.kind.min(3) as usize];
        if used < 16 {
            c.record.modes[used + random.below(16 - used)] = random.pick(&[0, 1, 2, 255]);
        }
    },
    |c, random| c.record.modes[random.below(16)] = random.below(9) as u8,
    |c, random| c.record.chroma_mode = random.pick(&[1, 2, 3, 3, 4, 255]),
    |c, random| c.record.numbers[random.below(384)] = random.pick(&LIMITS),
    |c, random| c.record.numbers[random.pick(&[0, 255, 256, 319, 320, 383])] = random.pick(&[32768, -32769, i32::MIN, i32::MAX]),
    // One block comes to an end of the range on the way, or is alone at its first place there.
    |c, random| {
        let plane = random.below(3);
        let block = c.record.block_of(random, plane);
        at_an_end(random, block);
    },
    |c, random| {
        let plane = random.below(3);
        let block = c.record.block_of(random, plane);
        block.fill(0);
        block[0] = random.pick(&LIMITS);
    },
    // Numbers in range, whatever becomes of their blocks.
    |c, random| random.numbers(&mut c.record.numbers),
];

fn bend_stride(c: &mut Call, random: &mut Random, near: fn(usize) -> [usize; 3]) {
    let p = random.below(3);
    if c.is_modest() {
        let width = [16, 8, 8][p] * c.memory.w as usize;
        c.memory.restride(p, random.pick(&near(width)));
    }
}

/// Single calls over memory in any state: each bend by itself at many sizes, then several at once or none.
fn rebuild(report: &mut Report) {
    let rounds = report.many(400_000);
    let mut routine = report.routine("rebuild", &[0, 1, 2, 3, 4, 5, 6, 7, 8]);
    let mut random = Random::new(10);
    // Sizes at their limits with memory of that size, so that nothing else is wrong with them.
    for size in [(120, 1), (121, 1), (1, 68), (1, 69), (119, 2), (2, 67), (120, 2), (121, 2)] {
        for kind in 0..3 {
            (0..4).for_each(|_| {
                Call::new(&mut random, size, 0, kind).compare(&mut routine);
            });
        }
    }
    for bend in BENDS {
        for size in [(1, 1), (2, 1), (3, 1), (2, 2), (3, 3)] {
            for round in 0..60 {
                let mut call = Call::new(&mut random, size, round % 2, (round % 3) as u8);
                bend(&mut call, &mut random);
                call.compare(&mut routine);
            }
        }
    }
    for _ in 0..rounds {
        let mut call = any_call(&mut random);
        for _ in 0..random.pick(&[0, 0, 1, 1, 2, 4]) {
            random.pick(&BENDS)(&mut call, &mut random);
        }
        call.compare(&mut routine);
    }
}

/// Computing and committing over memory in any state, and commits of any bytes: each bend by itself, then several at once or none.
fn halves(report: &mut Report) {
    let rounds = report.many(200_000);
    let mut random = Random::new(31);
    let mut routine = report.routine("compute, then commit", &[0, 1, 2, 3, 4, 5, 6, 7, 8]);
    for size in [(120, 1), (121, 1), (1, 68), (1, 69), (119, 2), (2, 67), (120, 2), (121, 2)] {
        for kind in 0..3 {
            Call::new(&mut random, size, 0, kind).compare_halves(&mut routine, 384);
        }
    }
    for bend in BENDS {
        for size in [(1, 1), (2, 1), (3, 1), (2, 2), (3, 3)] {
            for round in 0..60 {
                let mut call = Call::new(&mut random, size, round % 2, (round % 3) as u8);
                bend(&mut call, &mut random);
                let block = if random.one_in(10) { random.pick(&lengths_of(384)) } else { 384 };
                call.compare_halves(&mut routine, block);
            }
        }
    }
    for _ in 0..rounds {
        let mut call = any_call(&mut random);
        for _ in 0..random.pick(&[0, 0, 1, 1, 2, 4]) {
            random.pick(&BENDS)(&mut call, &mut random);
        }
        let block = if random.one_in(20) { random.pick(&lengths_of(384)) } else { 384 };
        call.compare_halves(&mut routine, block);
    }
    drop(routine);
    let mut routine = report.routine("commit", &[0, 1, 2, 3, 4]);
    for _ in 0..rounds {
        let mut call = any_call(&mut random);
        for _ in 0..random.pick(&[0, 0, 1, 1, 2]) {
            random.pick(&BENDS)(&mut call, &mut random);
        }
        let len = if random.one_in(20) { random.pick(&lengths_of(384)) } else { 384 };
        let mut block = Guarded::new(&vec![0; len]);
        random.samples(block.inner());
        call.compare_commit(&mut routine, &mut block);
    }
}

/// A call for a picture of any small size, with a good record and some padding or none.
fn any_call(random: &mut Random) -> Call {
    let size = (1 + random.below(4) as u32, 1 + random.below(4) as u32);
    let (pad, kind) = (random.pick(&[0, 0, 1, 5]), random.below(3) as u8);
    Call::new(random, size, pad, kind)
}

/// Calls that are good but for one block, of luma, Cb or Cr, that comes to an end of the range on the way.
fn rebuild_at_an_end(report: &mut Report) {
    let rounds = report.many(30_000);
    let mut random = Random::new(13);
    for (kind, plane) in (0..3).flat_map(|kind| (0..3).map(move |plane| (kind, plane))) {
        let mut routine = report.family("rebuild", &format!("at an end, {} of kind {kind}", ["luma", "Cb", "Cr"][plane]));
        for _ in 0..rounds {
            let mut call = Call::new(&mut random, (2, 2), 0, kind);
            let a = (2 * call.y + call.x) as usize;
            call.memory.done.inner().iter_mut().enumerate().for_each(|(at, d)| *d = (at != a) as u8);
            let block = call.record.block_of(&mut random, plane);
            at_an_end(&mut random, block);
            call.compare(&mut routine);
        }
    }
}

/// Whole pictures, offered in a shuffled order with bad calls between, against the Rust in raster order.
fn pictures(report: &mut Report) {
    let rounds = report.many(3000) / 10;
    let mut routine = report.routine("pictures, any order", &[0]);
    let mut random = Random::new(11);
    for round in 0..rounds {
        let (w, h) = match round {
            0 => (120, 68),
            1 => (1, 1),
            2 => (1, 68),
            3 => (120, 1),
            _ => (1 + random.below(16) as u32, 1 + random.below(12) as u32),
        };
        let slices = slice_map(&mut random, w, h);
        let records = good_records(&mut random, w, h, &slices, |random| random.below(3) as u8);
        let pad = random.below(20);
        let mut port = Memory::new(&mut random, w, h, slices, pad);
        let mut wanted = port.clone();
        for (a, r) in records.iter().enumerate() {
            let said = wanted.rust(a as u32 % w, a as u32 / w, r.kind, &r.modes, r.chroma_mode, &r.numbers);
            assert_eq!(said, 0, "a good record is taken in raster order");
        }
        let mut left = shuffled(&mut random, (w * h) as usize);
        let mut steady = true;
        while !left.is_empty() {
            let before = left.len();
            left.retain(|&a| {
                let r = &records[a];
                let (x, y) = (a as u32 % w, a as u32 / w);
                if random.one_in(8) {
                    let kept = port.clone();
                    let bad = port.port(x, y, 3 + random.byte() % 8, &r.modes, r.chroma_mode, &r.numbers);
                    steady &= bad == 6 && port == kept;
                    let (mut past, plane) = (r.clone(), random.below(3));
                    let block = past.block_of(&mut random, plane);
                    past_an_end(&mut random, block);
                    let bad = port.port(x, y, past.kind, &past.modes, past.chroma_mode, &past.numbers);
                    steady &= (bad == 5 || bad == 8) && port == kept;
                }
                let answer = port.port(x, y, r.kind, &r.modes, r.chroma_mode, &r.numbers);
                steady &= answer == 0 || answer == 5;
                answer != 0
            });
            steady &= left.len() < before;
            if !steady {
                break;
            }
        }
        let count = port.progress.inner()[0];
        let finished = (steady, port.planes, port.done, port.slices, count);
        routine.same(finished, (true, wanted.planes, wanted.done, wanted.slices, w * h), || format!("picture {round}, {w} by {h}"));
    }
}

/// Whole pictures by computes, commits and whole calls in any mixture, as several cores make them, against the Rust in raster order. Results are committed
/// late, twice, or never.
fn pictures_by_halves(report: &mut Report) {
    let rounds = report.many(3000) / 10;
    let mut routine = report.routine("pictures, several cores", &[0]);
    let (mut random, mut late) = (Random::new(32), 0);
    for round in 0..rounds {
        let (w, h) = match round {
            0 => (120, 68),
            1 => (1, 68),
            2 => (120, 1),
            _ => (1 + random.below(12) as u32, 1 + random.below(9) as u32),
        };
        let slices = slice_map(&mut random, w, h);
        let records = good_records(&mut random, w, h, &slices, |random| random.below(3) as u8);
        let pad = random.below(20);
        let mut port = Memory::new(&mut random, w, h, slices, pad);
        let mut wanted = port.clone();
        for (a, r) in records.iter().enumerate() {
            let said = wanted.rust(a as u32 % w, a as u32 / w, r.kind, &r.modes, r.chroma_mode, &r.numbers);
            assert_eq!(said, 0, "a good record is taken in raster order");
        }
        let mut kept: Vec<(usize, [u8; 384])> = Vec::new();
        let mut steady = true;
        for a in (0..4).flat_map(|_| shuffled(&mut random, (w * h) as usize)).collect::<Vec<_>>() {
            let (x, y, r) = (a as u32 % w, a as u32 / w, &records[a]);
            let done = port.done.inner()[a] == 1;
            let expected = |answer: u32| matches!(answer, 0 | 5) && !done || answer == 4 && done;
            if random.one_in(8) {
                steady &= expected(port.port(x, y, r.kind, &r.modes, r.chroma_mode, &r.numbers));
                continue;
            }
            let mut block = [0; 384];
            let answer = port.compute(x, y, r.kind, &r.modes, r.chroma_mode, &r.numbers, &mut block);
            steady &= expected(answer);
            if answer == 0 {
                kept.push((a, block));
            }
            while !kept.is_empty() && random.one_in(2) {
                let (a, block) = kept.swap_remove(random.below(kept.len()));
                let done = port.done.inner()[a] == 1;
                let answer = port.commit(a as u32 % w, a as u32 / w, &block);
                steady &= answer == if done { 4 } else { 0 };
                late += 1;
            }
        }
        // What is left, in raster order.
        for (a, r) in records.iter().enumerate() {
            let (x, y, mut block) = (a as u32 % w, a as u32 / w, [0; 384]);
            if port.compute(x, y, r.kind, &r.modes, r.chroma_mode, &r.numbers, &mut block) == 0 {
                steady &= port.commit(x, y, &block) == 0;
            }
        }
        steady &= kept.into_iter().all(|(a, block)| port.commit(a as u32 % w, a as u32 / w, &block) == 4);
        let count = port.progress.inner()[0];
        let finished = (steady, port.planes, port.done, port.slices, count);
        routine.same(finished, (true, wanted.planes, wanted.done, wanted.slices, w * h), || format!("picture {round}, {w} by {h}"));
    }
    println!("  {late} blocks were committed after other calls");
}

/// Whether an available neighbour of the macroblock is undone, whatever its record reads.
fn beside_undone(memory: &mut Memory, x: u32, y: u32) -> bool {
    let (w, x, y) = (memory.w as usize, x as usize, y as usize);
    let n = driver::near(w, memory.slices.inner(), x, y);
    let done = memory.done.inner();
    let at = y * w + x;
    (n.a && done[at - 1] != 1) || (n.b && done[at - w] != 1) || (n.c && done[at - w + 1] != 1) || (n.d && done[at - w - 1] != 1)
}

/// Says how many calls were accepted beside an undone neighbour. There must be some: they are what waiting only for what is read is for.
fn judge_early(early: u64, routine: &mut Routine) {
    println!("  {early} calls were accepted beside an available neighbour that was not done");
    if early == 0 {
        routine.lacks += ", NONE BESIDE AN UNDONE NEIGHBOUR";
    }
}

/// Calls for the middle of the second row of 3 by 2 macroblocks, with every set of available neighbours and every set of undone ones. Some records have a mode
/// that is unknown or not permitted, or a number out of range.
fn rebuild_waiting(report: &mut Report) {
    let rounds = report.many(2_000) / 4;
    for kind in 0..3 {
        let mut routine = report.routine(format!("rebuild, waiting, kind {kind}"), &[0, 5, 6, 7, 8]);
        let mut random = Random::new(15 + u64::from(kind));
        let mut early = 0;
        for (available, undone) in (0..16).flat_map(|available| (0..16).map(move |undone| (available, undone))) {
            for _ in 0..rounds {
                let mut slices = vec![7; 6];
                let mut done = vec![1, 1, 1, 1, random.pick(&[0, 2, 255]), random.pick(&[0, 1])];
                for (k, address) in [3, 1, 2, 0].into_iter().enumerate() {
                    slices[address] = if available >> k & 1 == 1 { 7 } else { random.pick(&[6, 8, 65535]) };
                    done[address] = if undone >> k & 1 == 1 { random.pick(&[0, 2, 255]) } else { 1 };
                }
                let n = driver::near(3, &slices, 1, 1);
                let mut memory = Memory::new(&mut random, 3, 2, slices, 0);
                memory.done = Guarded::new(&done);
                let record = if random.one_in(2) { one_way(&mut random, kind, n) } else { good_record(&mut random, kind, n) };
                let mut call = Call { memory, x: 1, y: 1, record, modes: 16, numbers: 384 };
                match random.below(8) {
                    0 => call.record.modes[random.below([16, 4, 1][kind as usize])] = random.below(10) as u8,
                    1 => call.record.chroma_mode = random.below(5) as u8,
                    2 => call.record.numbers[random.below(384)] = random.pick(&LIMITS),
                    _ => (),
                }
                let beside = beside_undone(&mut call.memory, 1, 1);
                early += u64::from(call.compare(&mut routine) == 0 && beside);
            }
        }
        judge_early(early, &mut routine);
    }
}

/// An acceptable record whose modes are vertical, or horizontal, as far as the neighbours permit it, and DC elsewhere: most of its blocks read one side.
fn one_way(random: &mut Random, kind: u8, n: driver::Near) -> Record {
    let mut r = good_record(random, kind, n);
    let down = random.one_in(2);
    for (mode, m) in r.modes.iter_mut().zip(block_marks(kind, n)) {
        *mode = match down {
            true if m.above => 0,
            false if m.left => 1,
            _ => 2,
        };
    }
    r.chroma_mode = match down {
        true if n.b => 2,
        false if n.a => 1,
        _ => 0,
    };
    r
}

/// Whole pictures, offered at random to both sides call by call: answers and all that was lent are equal after each of them, and in the end the samples are
/// those of raster order. Now and then a record is offered that is refused for its modes, done neighbours or not.
fn pictures_early(report: &mut Report) {
    let rounds = report.many(2_000);
    let mut routine = report.routine("pictures, waiting for reads", &[0, 5, 6, 7]);
    let mut random = Random::new(16);
    let (mut early, mut early_pictures) = (0, 0);
    for round in 0..rounds {
        let (w, h) = (1 + random.below(9) as u32, 1 + random.below(8) as u32);
        let slices = slice_map(&mut random, w, h);
        // Any modes, or in every second picture modes of which most read one side.
        let mut records = good_records(&mut random, w, h, &slices, |random| random.below(3) as u8);
        if round % 2 == 1 {
            for (a, r) in records.iter_mut().enumerate() {
                let n = driver::near(w as usize, &slices, a % w as usize, a / w as usize);
                *r = one_way(&mut random, r.kind, n);
            }
        }
        let pad = random.below(3);
        let mut port = Memory::new(&mut random, w, h, slices, pad);
        let (mut wanted, mut raster) = (port.clone(), port.clone());
        for (a, r) in records.iter().enumerate() {
            let said = raster.rust(a as u32 % w, a as u32 / w, r.kind, &r.modes, r.chroma_mode, &r.numbers);
            assert_eq!(said, 0, "a good record is taken in raster order");
        }
        let (before, mut equal) = (early, true);
        let mut left: Vec<usize> = (0..records.len()).collect();
        while equal && !left.is_empty() {
            let k = random.below(left.len());
            let a = left[k];
            let (x, y) = (a as u32 % w, a as u32 / w);
            let mut r = records[a].clone();
            if random.one_in(8) {
                let n = driver::near(w as usize, wanted.slices.inner(), x as usize, y as usize);
                match random.below(3) {
                    0 => r.kind = 3,
                    1 => r.modes[0] = 9,
                    _ => r.chroma_mode = if n.a && n.b && n.d { 4 } else { 3 },
                }
            }
            let beside = beside_undone(&mut wanted, x, y);
            let answer = port.port(x, y, r.kind, &r.modes, r.chroma_mode, &r.numbers);
            let said = wanted.rust(x, y, r.kind, &r.modes, r.chroma_mode, &r.numbers);
            equal = (answer, &port) == (said, &wanted);
            routine.told((answer, &port), (said, &wanted), || format!("picture {round}, ({x}, {y}) of {w} by {h}, {} left", left.len()));
            if said == 0 {
                early += u64::from(beside);
                left.swap_remove(k);
            }
        }
        early_pictures += u64::from(early > before);
        routine.same((&port.planes, &port.done), (&raster.planes, &raster.done), || format!("picture {round}, {w} by {h}, in the end"));
    }
    println!("  {early_pictures} of {rounds} pictures came in an order with such calls");
    judge_early(early, &mut routine);
}

/// What the calls for a turn are lent, between guards.
#[derive(Clone, Debug, PartialEq, Eq)]
struct Maps {
    w: u32,
    h: u32,
    done: Guarded<u8>,
    slices: Guarded<u16>,
    rows: Guarded<u32>,
    list: Guarded<u32>,
    how_many: Guarded<u32>,
}

impl Maps {
    /// A picture of this size in any state, with the counts of its rows.
    fn new(random: &mut Random, (w, h): (u32, u32)) -> Maps {
        let n = (w * h) as usize;
        let slices = if random.one_in(5) { (0..n).map(|a| a as u16).collect() } else { slice_map(random, w, h) };
        // Done from the left on as far as a row may be, and beyond that here and there.
        let (least, strays) = (random.below(w as usize + 1), random.pick(&[2, 3, 20, 1 << 20]));
        let mut done = Vec::with_capacity(n);
        for _ in 0..h {
            let from_left = least + random.below(w as usize + 1 - least);
            done.extend((0..w as usize).map(|x| if x < from_left || random.one_in(strays) { 1 } else { random.pick(&[0, 0, 2, 255]) }));
        }
        let mut any = || random.word() as u32;
        let (mut rows, list): (Vec<u32>, Vec<u32>) = (0..h).map(|_| (any(), any())).unzip();
        let how_many = Guarded::new(&[any()]);
        let mut quick = rows.clone();
        assert_eq!(
            (turns::count_rows::<false, false>(w, h, &done, &mut rows), turns::count_rows::<false, true>(w, h, &done, &mut quick)),
            (0, 0)
        );
        assert_eq!(rows, quick, "the plain counts and the quick ones");
        let [rows, list] = [Guarded::new(&rows), Guarded::new(&list)];
        Maps { w, h, done: Guarded::new(&done), slices: Guarded::new(&slices), rows, list, how_many }
    }

    fn count_rows(&mut self) -> u32 {
        let (done, rows) = (self.done.inner(), self.rows.inner());
        unsafe { jiwarbend_count_rows(self.w, self.h, done.as_ptr(), done.len(), rows.as_mut_ptr(), rows.len()) }
    }

    fn turn(&mut self) -> u32 {
        let (done, slices, rows, list) = (self.done.inner(), self.slices.inner(), self.rows.inner(), self.list.inner());
        let (d, s, r, l, many) = (done.as_ptr(), slices.as_ptr(), rows.as_ptr(), list.as_mut_ptr(), self.how_many.inner().as_mut_ptr());
        unsafe { jiwarbend_turn(self.w, self.h, d, done.len(), s, slices.len(), r, rows.len(), l, list.len(), many) }
    }

    /// Compares both sides of a call: the answer, which it gives back, and all that was lent with the guards around it.
    fn compare(&self, routine: &mut Routine, port: fn(&mut Maps) -> u32, rust: fn(&mut Maps) -> u32) -> u32 {
        let (mut ours, mut wanted) = (self.clone(), self.clone());
        let (answer, said) = (port(&mut ours), rust(&mut wanted));
        routine.told((answer, ours), (said, wanted), || format!("{self:?}"));
        said
    }

    fn compare_count(&self, routine: &mut Routine) -> u32 {
        self.compare(routine, Maps::count_rows, |m| turns::count_rows::<true, false>(m.w, m.h, m.done.inner(), m.rows.inner()))
    }

    fn compare_turn(&self, routine: &mut Routine) -> u32 {
        self.compare(routine, Maps::turn, |m| {
            let (list, many) = (m.list.inner(), &mut m.how_many.inner()[0]);
            turns::turn::<true, false>(m.w, m.h, m.done.inner(), m.slices.inner(), m.rows.inner(), list, many)
        })
    }
}

/// The ways in which a call for a turn is bent.
const BENT_MAPS: [fn(&mut Maps, &mut Random); 10] = [
    |m, random| m.w = random.pick(&[0, 121, u32::MAX, 1 << 16, m.w + 1]),
    |m, random| m.h = random.pick(&[0, 69, u32::MAX, 1 << 16, m.h.wrapping_add(1)]),
    |m, random| resize(&mut m.done, random),
    |m, random| resize(&mut m.slices, random),
    |m, random| resize(&mut m.rows, random),
    |m, random| resize(&mut m.list, random),
    // A mark changes, and the counts do not follow.
    |m, random| {
        let at = random.below(m.done.len().max(1));
        if let Some(mark) = m.done.inner().get_mut(at) {
            *mark = random.pick(&[0, 1, 2, 255]);
        }
    },
    // A count that is one off, and one that is anything.
    |m, random| bend_count(m, random, |right, _| [right.wrapping_sub(1), right.wrapping_add(1)]),
    |m, random| bend_count(m, random, |_, any| [any, u32::MAX - any]),
    |m, random| {
        let w = m.w;
        m.rows.inner().iter_mut().for_each(|count| *count = random.below(w.clamp(1, 120) as usize + 2) as u32);
    },
];

fn bend_count(m: &mut Maps, random: &mut Random, others: fn(u32, u32) -> [u32; 2]) {
    let (at, any) = (random.below(m.rows.len().max(1)), random.below(130) as u32);
    if let Some(count) = m.rows.inner().get_mut(at) {
        *count = random.pick(&others(*count, any));
    }
}

/// The row counts and the turn list over maps in any state: sizes at their limits, each bend by itself, then several at once or none.
fn turn_lists(report: &mut Report) {
    let rounds = report.many(150_000);
    type Compared = fn(&Maps, &mut Routine) -> u32;
    for (name, compared) in [("count_rows", Maps::compare_count as Compared), ("turn", Maps::compare_turn)] {
        let mut routine = report.routine(name, &[0, 1, 2, 9]);
        let mut random = Random::new(name.len() as u64);
        for size in [(1, 1), (120, 1), (121, 1), (1, 68), (1, 69), (120, 68), (121, 68), (120, 69)] {
            (0..40).for_each(|_| {
                compared(&Maps::new(&mut random, size), &mut routine);
            });
        }
        let any_size = |random: &mut Random| (1 + random.below(9) as u32, 1 + random.below(8) as u32);
        for bend in BENT_MAPS {
            for _ in 0..rounds / 100 {
                let size = any_size(&mut random);
                let mut maps = Maps::new(&mut random, size);
                bend(&mut maps, &mut random);
                compared(&maps, &mut routine);
            }
        }
        let (mut several, mut empty) = (0, 0);
        for _ in 0..rounds {
            let size = any_size(&mut random);
            let mut maps = Maps::new(&mut random, size);
            for _ in 0..random.pick(&[0, 0, 0, 1, 1, 2, 4]) {
                random.pick(&BENT_MAPS)(&mut maps, &mut random);
            }
            if compared(&maps, &mut routine) == 0 && maps.turn() == 0 {
                several += u64::from(maps.how_many.inner()[0] > 1);
                empty += u64::from(maps.how_many.inner()[0] == 0);
            }
        }
        if name == "turn" {
            println!("  {several} turns had several macroblocks, and {empty} were of finished pictures");
            if several == 0 || empty == 0 {
                routine.lacks += ", NO LONG TURN OR NO EMPTY ONE";
            }
        }
    }
}

/// What the call for the number of turns is lent, between guards.
#[derive(Clone, Debug, PartialEq, Eq)]
struct Sliced {
    w: u32,
    h: u32,
    slices: Guarded<u16>,
    turns: Guarded<u32>,
}

impl Sliced {
    /// A picture of this size in slices of any kind. Some numbers differ in one of their bytes only.
    fn new(random: &mut Random, (w, h): (u32, u32)) -> Sliced {
        let (n, width) = ((w * h) as usize, w as usize);
        let (rows, run, few) = (1 + random.below(h as usize), 1 + random.below(3 * width), 2 + random.below(4));
        let of: &dyn Fn(&mut Random, usize) -> usize = match random.below(8) {
            0 => &|_, _| 0,
            1 => &|_, a| a / width / rows,
            2 => &|_, a| a / run,
            3 => &|_, a| (a % width + a / width) % 2,
            4 => &|_, a| a % width / rows,
            5 => &|_, a| (a % width + rows * (a / width)) % few,
            6 => &|random, _| [0, 256, 65_535, 255, 1][random.below(few)],
            _ => &|_, a| a,
        };
        let slices: Vec<u16> = (0..n).map(|a| of(random, a) as u16).collect();
        Sliced { w, h, slices: Guarded::new(&slices), turns: Guarded::new(&[random.word() as u32]) }
    }

    fn port(&mut self) -> u32 {
        let (slices, turns) = (self.slices.inner(), self.turns.inner());
        unsafe { jiwarbend_turns(self.w, self.h, slices.as_ptr(), slices.len(), turns.as_mut_ptr()) }
    }

    fn rust(&mut self, form: fn(u32, u32, &[u16], &mut u32) -> u32) -> u32 {
        form(self.w, self.h, self.slices.inner(), &mut self.turns.inner()[0])
    }

    /// Compares the port with the turns that are taken, and gives the answer. The forms of the benchmark say the same.
    fn compare(&self, routine: &mut Routine) -> u32 {
        let (mut ours, mut wanted) = (self.clone(), self.clone());
        let (answer, said) = (ours.port(), wanted.rust(turns::turns_taken));
        let with_checks = [turns::turns::<true, false>, turns::turns::<true, true>];
        let without = [turns::turns::<false, false>, turns::turns::<false, true>];
        for form in with_checks.into_iter().chain(without.into_iter().filter(|_| said == 0)) {
            let mut other = self.clone();
            assert_eq!((other.rust(form), &other), (said, &wanted), "the turns that are taken and those that are counted");
        }
        routine.told((answer, ours), (said, wanted), || format!("{self:?}"));
        said
    }

    /// The number of turns if none waited for one of its neighbours A, B, C and D, or for A only within a slice.
    fn without(&mut self, left_out: usize) -> u32 {
        let (w, slices) = (self.w as usize, self.slices.inner());
        let mut turns = vec![0; slices.len()];
        for at in 0..slices.len() {
            let n = driver::near(w, slices, at % w, at / w);
            let beside = [(n.a, 1), (n.b, w), (n.c, w - 1), (n.d, w + 1), (!n.a && at % w > 0, 1)];
            let waits = (0..5).filter(|&k| k != left_out && beside[k].0).map(|k| turns[at - beside[k].1]);
            turns[at] = 1 + waits.max().unwrap_or(0);
        }
        turns.into_iter().max().unwrap_or(0)
    }
}

/// The ways in which a call for the number of turns is bent.
const BENT_SLICED: [fn(&mut Sliced, &mut Random); 3] = [
    |s, random| s.w = random.pick(&[0, 121, u32::MAX, 1 << 16, s.w.wrapping_add(1), s.w.wrapping_sub(1)]),
    |s, random| s.h = random.pick(&[0, 69, u32::MAX, 1 << 16, s.h.wrapping_add(1), s.h.wrapping_sub(1)]),
    |s, random| resize(&mut s.slices, random),
];

/// The number of turns over slice maps of every kind: sizes at their limits, one column and one row, small and large ones, each as it is and bent.
fn turn_counts(report: &mut Report) {
    let (rounds, large) = (report.many(200_000), report.many(2_000));
    let mut routine = report.routine("turns", &[0, 1, 2]);
    let mut random = Random::new(23);
    let limits = [(1, 1), (120, 1), (121, 1), (1, 68), (1, 69), (120, 68), (121, 68), (120, 69), (119, 67)];
    let mut sizes: Vec<(u32, u32)> = limits.into_iter().flat_map(|size| [size; 40]).collect();
    sizes.extend((0..rounds).map(|k| {
        let mut up_to = |most: usize| 1 + random.below(most) as u32;
        match k % 16 {
            0 => (1, up_to(68)),
            1 => (up_to(120), 1),
            2 => (up_to(3), up_to(68)),
            3 => (up_to(120), up_to(3)),
            4 => (up_to(40), up_to(24)),
            _ => (up_to(9), up_to(8)),
        }
    }));
    sizes.extend((0..large).map(|k| if k % 2 == 0 { (120, 68) } else { (1 + random.below(120) as u32, 1 + random.below(68) as u32) }));
    let mut hangs = [0; 5];
    for size in sizes {
        let mut sliced = Sliced::new(&mut random, size);
        for _ in 0..random.pick(&[0, 0, 0, 0, 1, 2]) {
            random.pick(&BENT_SLICED)(&mut sliced, &mut random);
        }
        if sliced.compare(&mut routine) == 0 {
            let all = sliced.without(5);
            (0..5).for_each(|k| hangs[k] += u64::from(sliced.without(k) != all));
        }
    }
    let [a, b, c, d, other] = hangs;
    println!("  so many hang on A in the slice: {a}, on B: {b}, on C: {c}, on D: {d}, and on A in another slice: {other}");
    if hangs.contains(&0) {
        routine.lacks += ", NONE THAT HANGS ON A NEIGHBOUR";
    }
}

/// Whole pictures turn by turn, each turn in a shuffled order, against the Rust in raster order. The counts are kept by both sides, and bad calls come between.
fn pictures_by_turns(report: &mut Report) {
    let rounds = report.many(2_000) / 4;
    let mut routine = report.routine("pictures, turn by turn", &[0, 9]);
    let mut random = Random::new(17);
    let mut lists = 0;
    for round in 0..rounds {
        let size = if round == 0 { (120, 68) } else { (1 + random.below(12) as u32, 1 + random.below(9) as u32) };
        let (w, h) = size;
        let mut maps = Maps::new(&mut random, size);
        let slices = maps.slices.inner().to_vec();
        let records = good_records(&mut random, w, h, &slices, |random| random.below(3) as u8);
        let mut port = Memory::new(&mut random, w, h, slices, 0);
        let mut wanted = port.clone();
        for (a, r) in records.iter().enumerate() {
            let said = wanted.rust(a as u32 % w, a as u32 / w, r.kind, &r.modes, r.chroma_mode, &r.numbers);
            assert_eq!(said, 0, "a good record is taken in raster order");
        }
        let mut sliced = Sliced { w, h, slices: maps.slices.clone(), turns: Guarded::new(&[0]) };
        let (counted, before) = ((sliced.port(), sliced.turns.inner()[0]), lists);
        let mut steady = true;
        while steady && port.progress.inner()[0] < w * h {
            maps.done = port.done.clone();
            // The counts are those from before the last turn, which are refused, until they are made anew.
            maps.compare_turn(&mut routine);
            maps.compare_count(&mut routine);
            steady &= maps.count_rows() == 0 && maps.compare_turn(&mut routine) == 0 && maps.turn() == 0;
            let many = if steady { maps.how_many.inner()[0] as usize } else { 0 };
            let turn = maps.list.inner()[..many].to_vec();
            steady &= many > 0;
            for k in shuffled(&mut random, turn.len()) {
                let (a, r) = (turn[k], &records[turn[k] as usize]);
                steady &= port.port(a % w, a / w, r.kind, &r.modes, r.chroma_mode, &r.numbers) == 0;
            }
            lists += 1;
        }
        let (ours, due) = ((steady, counted, &port.planes, &port.done), (true, (0, lists - before), &wanted.planes, &wanted.done));
        routine.same(ours, due, || format!("picture {round}, {w} by {h}"));
    }
    println!("  {rounds} pictures took {lists} turns, as many as were counted before");
}

/// What the two calls for the check of an order are lent, between guards.
#[derive(Clone, Debug, PartialEq, Eq)]
struct Ordered {
    w: u32,
    h: u32,
    slices: Guarded<u16>,
    order: Guarded<u32>,
    /// The verdict or the place.
    said: Guarded<u32>,
}

impl Ordered {
    /// A picture of this size in slices of any kind, with an order that passes.
    fn new(random: &mut Random, size: (u32, u32)) -> Ordered {
        let Sliced { w, h, mut slices, .. } = Sliced::new(random, size);
        let order = match random.below(4) {
            0 => (0..w * h).collect(),
            1 => diagonal_order(w, h),
            _ => permitted_order(random, w, slices.inner()),
        };
        Ordered { w, h, slices, order: Guarded::new(&order), said: Guarded::new(&[random.word() as u32]) }
    }

    fn port(&mut self, export: CheckOrder) -> u32 {
        let (slices, order, said) = (self.slices.inner(), self.order.inner(), self.said.inner());
        unsafe { export(self.w, self.h, slices.as_ptr(), slices.len(), order.as_ptr(), order.len(), said.as_mut_ptr()) }
    }

    fn rust(&mut self, form: fn(u32, u32, &[u16], &[u32], &mut u32) -> u32) -> u32 {
        form(self.w, self.h, self.slices.inner(), self.order.inner(), &mut self.said.inner()[0])
    }

    /// Compares both calls of the port with the walk along the list, and gives the answer. The forms of the benchmark say the same.
    fn compare(&self, routine: &mut Routine) -> u32 {
        let [mut ours, mut ours_of_place, mut wanted, mut wanted_of_place] = [(); 4].map(|()| self.clone());
        let answers = (ours.port(jiwarbend_check_order), ours_of_place.port(jiwarbend_out_of_place));
        let said = wanted_of_place.rust(orders::out_of_place);
        if said == 0 {
            wanted.said.inner()[0] = u32::from(wanted_of_place.said.inner()[0] == self.w * self.h);
        }
        let with_checks = [orders::check_order::<true, false>, orders::check_order::<true, true>];
        let without = [orders::check_order::<false, false>, orders::check_order::<false, true>];
        for form in with_checks.into_iter().chain(without.into_iter().filter(|_| said == 0)) {
            let mut other = self.clone();
            assert_eq!((other.rust(form), &other), (said, &wanted), "the walk along the list and the forms of the check");
        }
        routine.told((answers.0, ours), (said, wanted), || format!("the verdict of {self:?}"));
        routine.told((answers.1, ours_of_place), (said, wanted_of_place), || format!("the place of {self:?}"));
        said
    }
}

type CheckOrder = unsafe extern "C" fn(u32, u32, *const u16, usize, *const u32, usize, *mut u32) -> u32;

/// Changes entries of a list, if it has any: two of them are chosen.
fn spoil(order: &mut [u32], random: &mut Random, change: fn(&mut [u32], [usize; 2], &mut Random)) {
    if !order.is_empty() {
        let two = [(); 2].map(|()| random.below(order.len()));
        change(order, two, random);
    }
}

/// The ways in which a list is spoilt that stays one of the picture's addresses: two entries are exchanged, wherever they stand or one behind the other, one
/// is moved, one is put over another, or all behind one are any.
const SPOILT: [fn(&mut [u32], [usize; 2], &mut Random); 5] = [
    |order, [one, other], _| order.swap(one, other),
    |order, [one, _], _| order.swap(one, (one + 1) % order.len()),
    |order, [one, other], _| order[one.min(other)..=one.max(other)].rotate_left(1),
    |order, [one, other], _| order[one] = order[other],
    |order, [one, _], random| {
        let many = order.len();
        order[one..].iter_mut().for_each(|address| *address = random.below(many) as u32);
    },
];

/// The ways in which a call for the check of an order is bent.
const BENT_ORDERED: [fn(&mut Ordered, &mut Random); 6] = [
    |o, random| o.w = random.pick(&[0, 121, u32::MAX, 1 << 16, o.w.wrapping_add(1), o.w.wrapping_sub(1)]),
    |o, random| o.h = random.pick(&[0, 69, u32::MAX, 1 << 16, o.h.wrapping_add(1), o.h.wrapping_sub(1)]),
    |o, random| resize(&mut o.slices, random),
    |o, random| resize(&mut o.order, random),
    // An address just outside the picture, one that is inside it in 16 bits, and any.
    |o, random| {
        let (most, any) = (o.w.wrapping_mul(o.h), random.word() as u32);
        let outside = random.pick(&[most, most.wrapping_add(1), most | 1 << 16, 1 << 16, 1 << 31, u32::MAX, any]);
        let at = random.below(o.order.len().max(1));
        if let Some(address) = o.order.inner().get_mut(at) {
            *address = outside;
        }
    },
    // A macroblock comes into another slice, and the list does not follow.
    |o, random| {
        let (at, from) = (random.below(o.slices.len().max(1)), random.below(o.slices.len().max(1)));
        let slices = o.slices.inner();
        if !slices.is_empty() {
            slices[at] = slices[from];
        }
    },
];

/// The check of an order: sizes at their limits, one column and one row, small and large ones; lists that pass, each as it is, spoilt and bent.
fn order_checks(report: &mut Report) {
    let (rounds, large) = (report.many(200_000), report.many(400));
    let mut routine = report.routine("check_order and out_of_place", &[0, 1, 2, 13]);
    let mut random = Random::new(29);
    let limits = [(1, 1), (120, 1), (121, 1), (1, 68), (1, 69), (120, 68), (121, 68), (120, 69), (119, 67)];
    let mut sizes: Vec<(u32, u32)> = limits.into_iter().flat_map(|size| [size; 20]).collect();
    sizes.extend((0..rounds).map(|k| {
        let mut up_to = |most: usize| 1 + random.below(most) as u32;
        match k % 32 {
            0 => (1, up_to(68)),
            1 => (up_to(120), 1),
            2 => (up_to(3), up_to(68)),
            3 => (up_to(120), up_to(3)),
            4 => (up_to(40), up_to(24)),
            _ => (up_to(9), up_to(8)),
        }
    }));
    sizes.extend((0..large).map(|k| if k % 2 == 0 { (120, 68) } else { (1 + random.below(120) as u32, 1 + random.below(68) as u32) }));
    let (mut yes, mut no, mut hangs) = (0u64, 0u64, [0u64; 5]);
    for size in sizes {
        let mut ordered = Ordered::new(&mut random, size);
        for _ in 0..random.pick(&[0, 0, 1, 1, 1, 2]) {
            let change = random.pick(&SPOILT);
            spoil(ordered.order.inner(), &mut random, change);
        }
        for _ in 0..random.pick(&[0, 0, 0, 0, 1, 2]) {
            random.pick(&BENT_ORDERED)(&mut ordered, &mut random);
        }
        if ordered.compare(&mut routine) == 0 {
            let (_, faults) = orders::walk(ordered.w, ordered.slices.inner(), ordered.order.inner());
            let kinds = faults.iter().filter(|&&fault| fault).count();
            yes += u64::from(kinds == 0);
            no += u64::from(kinds > 0);
            (0..5).filter(|&k| kinds == 1 && faults[k]).for_each(|k| hangs[k] += 1);
        }
    }
    let [a, b, c, d, twice] = hangs;
    println!("  {yes} lists passed and {no} did not, for A alone {a}, for B {b}, for C {c}, for D {d}, and for a macroblock twice {twice}");
    if yes == 0 || no == 0 || hangs.contains(&0) {
        routine.lacks += ", NO LIST OF SOME KIND";
    }
}

/// Whole pictures by lists that pass, and by spoilt ones, against the Rust in raster order. A list that passes is never refused, one that names a macroblock
/// twice always is, and one that does not pass for its neighbours may be accepted, as far as the records read less.
fn pictures_by_orders(report: &mut Report) {
    let rounds = report.many(1_000);
    let mut routine = report.routine("pictures, by an order", &[0]);
    let mut random = Random::new(31);
    let (mut passed, mut refused, mut accepted) = (0, 0, 0);
    for round in 0..rounds {
        let size = if round == 0 { (120, 68) } else { (1 + random.below(9) as u32, 1 + random.below(8) as u32) };
        let (w, h) = size;
        let mut ordered = Ordered::new(&mut random, size);
        let slices = ordered.slices.inner().to_vec();
        let mut records = good_records(&mut random, w, h, &slices, |random| random.below(3) as u8);
        if round % 2 == 1 {
            let change = random.pick(&SPOILT);
            spoil(ordered.order.inner(), &mut random, change);
            for (a, r) in records.iter_mut().enumerate() {
                *r = one_way(&mut random, r.kind, driver::near(w as usize, &slices, a % w as usize, a / w as usize));
            }
        }
        let mut port = Memory::new(&mut random, w, h, slices, 0);
        let mut wanted = port.clone();
        for (a, r) in records.iter().enumerate() {
            let said = wanted.rust(a as u32 % w, a as u32 / w, r.kind, &r.modes, r.chroma_mode, &r.numbers);
            assert_eq!(said, 0, "a good record is taken in raster order");
        }
        let (_, faults) = orders::walk(w, ordered.slices.inner(), ordered.order.inner());
        let (yes, twice) = (!faults.contains(&true), faults[4]);
        let checked = (ordered.port(jiwarbend_check_order), ordered.said.inner()[0]);
        let offers = ordered.order.inner().iter().map(|&a| {
            let r = &records[a as usize];
            port.port(a % w, a / w, r.kind, &r.modes, r.chroma_mode, &r.numbers)
        });
        let steady = offers.fold(true, |steady, answer| steady & (answer == 0));
        let as_due = (!yes || steady) && !(twice && steady);
        let is_same = !steady || (&port.planes, &port.done) == (&wanted.planes, &wanted.done);
        routine.same((checked, as_due, is_same), ((0, u32::from(yes)), true, true), || format!("picture {round}, {w} by {h}"));
        passed += u64::from(yes);
        refused += u64::from(!yes && !steady);
        accepted += u64::from(!yes && steady);
    }
    println!("  {passed} lists passed; of the others {refused} were refused and {accepted} accepted");
    if passed == 0 || refused == 0 || accepted == 0 {
        routine.lacks += ", NO LIST OF SOME KIND";
    }
}

fn main() {
    // A share of the random cases in percent: the whole run takes some minutes under an emulator.
    let scale = std::env::args().nth(1).map_or(100, |s| s.parse().expect("a share in percent"));
    let mut report = Report { scale, passed: 0, failed: 0, seen: [0; ANSWERS] };
    small(&mut report);
    let turn_4x4 = Turn { case: Case4x4::turned, block: Case4x4::transposed, least: 50 };
    let turn_8x8 = Turn { case: Case8x8::turned, block: Case8x8::transposed, least: 20 };
    predictor(&mut report, "intra4x4_pred", jiwarbend_intra4x4_pred, rules::intra4x4_pred, Some(turn_4x4));
    predictor(&mut report, "intra8x8_pred", jiwarbend_intra8x8_pred, rules::intra8x8_pred, Some(turn_8x8));
    predictor(&mut report, "luma16x16_pred", jiwarbend_luma16x16_pred, rules::luma16x16_pred, None);
    predictor(&mut report, "chroma8x8_pred", jiwarbend_chroma8x8_pred, rules::chroma8x8_pred, None);
    mean(&mut report, "luma16x16_dc", jiwarbend_luma16x16_dc, |above, beside, top, left| [predict::luma16x16_dc(above, beside, top, left)]);
    mean(&mut report, "chroma8x8_dc", jiwarbend_chroma8x8_dc, predict::chroma8x8_dc);
    from_plane(&mut report, "i16x16_luma_pred", 16, jiwarbend_i16x16_luma_pred, rules::i16x16_luma_pred);
    from_plane(&mut report, "chroma8x8_plane_pred", 8, jiwarbend_chroma8x8_plane_pred, rules::chroma8x8_plane_pred);
    let port = |mode, m: Marks, right| unsafe { jiwarbend_reads_4x4(mode, m.above, m.left, m.corner, right) };
    reads_of::<8, 4, 16>(&mut report, "reads_4x4", port, reads::reads_4x4, jiwarbend_intra4x4_pred);
    let port = |mode, m: Marks, right| unsafe { jiwarbend_reads_8x8(mode, m.above, m.left, m.corner, right) };
    reads_of::<16, 8, 64>(&mut report, "reads_8x8", port, reads::reads_8x8, jiwarbend_intra8x8_pred);
    let port = |mode, m: Marks, _| unsafe { jiwarbend_reads_16x16(mode, m.above, m.left, m.corner) };
    reads_of::<16, 16, 256>(&mut report, "reads_16x16", port, |mode, m, _| reads::reads_16x16(mode, m), jiwarbend_luma16x16_pred);
    let port = |mode, m: Marks, _| unsafe { jiwarbend_reads_chroma(mode, m.above, m.left, m.corner) };
    reads_of::<8, 8, 64>(&mut report, "reads_chroma", port, |mode, m, _| reads::reads_chroma(mode, m), jiwarbend_chroma8x8_pred);
    inverse(&mut report, "inverse_4x4", jiwarbend_inverse_4x4, rules::inverse_4x4);
    inverse(&mut report, "inverse_8x8", jiwarbend_inverse_8x8, rules::inverse_8x8);
    sums(&mut report, "reconstruct_4x4", First::Coefficients, jiwarbend_reconstruct_4x4, rules::reconstruct_4x4);
    sums(&mut report, "add_residual_4x4", First::Residuals, jiwarbend_add_residual_4x4, rules::add_residual_4x4);
    sums(&mut report, "add_residual_8x8", First::Residuals, jiwarbend_add_residual_8x8, rules::add_residual_8x8);
    type Into = unsafe extern "C" fn(*const i32, usize, *const u8, usize, usize, usize, *mut u8, usize, usize, usize) -> u32;
    let list = |export: Into| {
        move |first: &[i32], pred: &[u8], from: Square, rec: &mut [u8], to: Square| unsafe {
            let (p, r) = (pred.as_ptr(), rec.as_mut_ptr());
            export(first.as_ptr(), first.len(), p, pred.len(), from.offset, from.stride, r, rec.len(), to.offset, to.stride)
        }
    };
    let port = list(jiwarbend_reconstruct_4x4_into);
    into_plane(&mut report, "reconstruct_4x4_into", First::Coefficients, port, rules::reconstruct_4x4_into, true);
    into_plane(
        &mut report,
        "reconstruct_4x4_dc_into",
        First::Residuals,
        |first, pred, from, rec, to| unsafe {
            let (p, r) = (pred.as_ptr(), rec.as_mut_ptr());
            jiwarbend_reconstruct_4x4_dc_into(first[0], p, pred.len(), from.offset, from.stride, r, rec.len(), to.offset, to.stride)
        },
        |first, pred, from, rec, to| rules::reconstruct_4x4_dc_into(first[0], pred, from, rec, to),
        false,
    );
    let port = list(jiwarbend_add_residual_4x4_into);
    into_plane(&mut report, "add_residual_4x4_into", First::Residuals, port, rules::add_residual_4x4_into, true);
    start(&mut report);
    rebuild(&mut report);
    rebuild_at_an_end(&mut report);
    rebuild_waiting(&mut report);
    halves(&mut report);
    pictures(&mut report);
    pictures_early(&mut report);
    pictures_by_halves(&mut report);
    turn_lists(&mut report);
    turn_counts(&mut report);
    pictures_by_turns(&mut report);
    order_checks(&mut report);
    pictures_by_orders(&mut report);
    println!("\nall calls, by answer:");
    for answer in [0].into_iter().chain(Refusal::ALL.iter().map(|refusal| refusal.number())) {
        println!("{answer:>4} {:>9}", report.seen[answer as usize]);
    }
    println!("{} passed, {} failed", report.passed, report.failed);
    std::process::exit((report.failed > 0) as i32);
}
