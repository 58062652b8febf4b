//! The port and the Rust side by side in one run, on the same inputs. The Rust comes in the best forms that are known for it: with the same
//! checks as the port and without them, and for pictures each also with a short way for blocks of no or one coefficient; the faster of the two is
//! what the port is held against; so are turn lists, where the short way looks at eight marks together, numbers of turns, where it looks at no more of a row
//! than tells them, and checks of an order, where it compares the places of neighbours and does not walk along the list. The 8x8 inverse, the turn lists, the
//! numbers of turns and the checks are those that the differential runs compare with. All are timed in turns, many times; what is told is the median of the
//! ratios with the quartiles around it.
//!
//! `bench FOLDER [ROUNDS [PART]]` writes table.md, benchmark.svg and, of all rows, headline.md into the folder; with PART the rows that have it in
//! their names. Where valgrind is installed the table also has the instructions of each side: valgrind runs this program again with `count`, which
//! makes each call of the same rows a fixed number of times and times nothing.
use harness::{bare_share, diagonal_order, good_record, good_records, permitted_order, slice_map, sparse_records};
use harness::{Density, Guarded, Memory, Random, Record};
use jiwarbend::sys::*;
use oracle::inverse_8x8::inverse_8x8;
use oracle::predict::{self, I16Mode};
use oracle::rules::{self, Marks, Square};
use oracle::{driver, intra_pred, orders, transform, turns};
use std::fmt::Write;
use std::hint::black_box;
use std::path::Path;
use std::process::{Command, Stdio};
use std::time::Instant;

const INPUTS: usize = 256;

/// The sides: the Rust with the port's checks, the Rust without them, the port, and for pictures the same two with short cuts.
const CHECKED: usize = 0;
const BARE: usize = 1;
const PORT: usize = 2;
const SHORT: usize = 3;
const BARE_SHORT: usize = 4;

/// The port's time as a share of one side's: the median and the quartiles.
#[derive(Clone, Copy)]
struct Ratio {
    low: f64,
    middle: f64,
    high: f64,
}

struct Row {
    group: &'static str,
    name: String,
    per: f64,
    times: Vec<f64>,
    ratios: Vec<Ratio>,
    instructions: Option<Vec<f64>>,
}

impl Row {
    /// The faster of two sides, of which the second is there for pictures alone.
    fn faster(&self, side: usize, short: usize) -> usize {
        match self.times.get(short) {
            Some(&time) if time < self.times[side] => short,
            _ => side,
        }
    }

    /// The port's share of the best Rust's time, with the same checks or without.
    fn ratio(&self, checks: bool) -> Ratio {
        self.ratios[if checks { self.faster(CHECKED, SHORT) } else { self.faster(BARE, BARE_SHORT) }]
    }
}

type Timed<'a> = &'a mut dyn FnMut(usize);

fn nanoseconds(calls: usize, f: &mut dyn FnMut(usize)) -> f64 {
    let from = Instant::now();
    for i in 0..calls {
        f(i % INPUTS);
    }
    from.elapsed().as_nanos() as f64 / calls as f64
}

fn share_of(values: &mut [f64], share: f64) -> f64 {
    values.sort_by(f64::total_cmp);
    values[((values.len() - 1) as f64 * share).round() as usize]
}

fn argument(k: usize) -> Option<String> {
    std::env::args().nth(k)
}

fn counting() -> bool {
    argument(1).as_deref() == Some("count")
}

/// Whether a row is asked for: all are, or those whose names have the third argument in them.
fn asked(name: &str) -> bool {
    argument(3).map_or(true, |part| name.contains(&part))
}

fn rounds() -> usize {
    argument(2).map_or(41, |n| n.parse().expect("a number of rounds"))
}

/// How many calls are counted: one for each input, or one whole picture.
fn counted(per: f64) -> usize {
    if per > 1.0 {
        1
    } else {
        INPUTS
    }
}

/// Where it is entered, valgrind writes down the instructions since the last time. It knows the function by its name.
#[no_mangle]
#[inline(never)]
fn counted_mark() {
    black_box(());
}

fn counted_calls(calls: usize, f: &mut dyn FnMut(usize)) {
    counted_mark();
    for i in 0..calls {
        f(i % INPUTS);
    }
    counted_mark();
}

/// The instructions of each run of `counted_calls`, in their order, or nothing where there is no valgrind.
fn instructions(folder: &Path) -> Option<Vec<f64>> {
    Command::new("valgrind").arg("--version").stdout(Stdio::null()).status().ok()?;
    let counts = folder.join("counts");
    let _ = std::fs::remove_dir_all(&counts);
    std::fs::create_dir_all(&counts).unwrap();
    let status = Command::new("valgrind")
        .args(["--quiet", "--tool=callgrind", "--dump-before=counted_mark"])
        .arg(format!("--callgrind-out-file={}", counts.join("run").display()))
        .arg(std::env::current_exe().unwrap())
        .arg("count")
        .args(std::env::args().skip(2))
        .status()
        .unwrap();
    if !status.success() {
        println!("no instructions: valgrind ended with {status}");
        return None;
    }
    let since_last = |k: usize| {
        let text = std::fs::read_to_string(counts.join(format!("run.{k}"))).ok()?;
        text.lines().find_map(|line| line.strip_prefix("summary: ")?.parse().ok())
    };
    Some((2..).step_by(2).map_while(since_last).collect())
}

/// Times the sides in turns, in batches of about a millisecond, each call of `per` units of work. Every round another side is first.
fn compare(group: &'static str, name: String, per: f64, mut sides: Vec<Timed>) -> Row {
    let count = sides.len();
    if counting() && asked(&name) {
        sides.iter_mut().for_each(|side| counted_calls(counted(per), side));
    }
    if counting() || !asked(&name) {
        return Row { group, name, per, times: vec![0.0; count], ratios: Vec::new(), instructions: None };
    }
    let once = nanoseconds(1, sides[CHECKED]).max(nanoseconds(1, sides[CHECKED])).max(1.0);
    let calls = ((1e6 / once) as usize).clamp(1, 20_000);
    let (mut times, mut ratios) = (vec![Vec::new(); count], vec![Vec::new(); count]);
    for round in 0..rounds() + 2 {
        let mut now = vec![0.0; count];
        for turn in 0..count {
            let side = (round + turn) % count;
            now[side] = nanoseconds(calls, sides[side]);
        }
        // The first two rounds warm the caches.
        for side in (0..count).filter(|_| round >= 2) {
            times[side].push(now[side] / per);
            ratios[side].push(now[PORT] / now[side]);
        }
    }
    let ratio = |r: &mut Vec<f64>| Ratio { low: share_of(r, 0.25), middle: share_of(r, 0.5), high: share_of(r, 0.75) };
    let times: Vec<f64> = times.iter_mut().map(|t| share_of(t, 0.5)).collect();
    let ratios: Vec<Ratio> = ratios.iter_mut().map(ratio).collect();
    let row = Row { group, name, per, times, ratios, instructions: None };
    let short = row.times.get(SHORT).map_or(String::new(), |time| format!(", with short cuts {time:>8.1} ns"));
    println!(
        "{:<42} Rust {:>8.1} ns{short}, port {:>8.1} ns: {:.2} of the best with its checks, {:.2} of the best without",
        row.name,
        row.times[CHECKED],
        row.times[PORT],
        row.ratio(true).middle,
        row.ratio(false).middle
    );
    row
}

/// All three marks, which the compiler does not know.
fn marks() -> Marks {
    let there = black_box(true);
    Marks { above: there, left: there, corner: there }
}

/// The samples of many neighbourhoods and blocks.
struct Inputs {
    bytes: Vec<[u8; 40]>,
    numbers: Vec<[i32; 64]>,
    predictions: Vec<[i32; 64]>,
    plane: Vec<u8>,
}

impl Inputs {
    fn new() -> Inputs {
        let mut random = Random::new(1);
        let bytes = |random: &mut Random| std::array::from_fn(|_| random.byte());
        let mut plane = vec![0; 64 * 64];
        plane.iter_mut().for_each(|v| *v = random.byte());
        Inputs {
            bytes: (0..INPUTS).map(|_| bytes(&mut random)).collect(),
            numbers: (0..INPUTS).map(|_| std::array::from_fn(|_| random.below(801) as i32 - 400)).collect(),
            predictions: (0..INPUTS).map(|_| std::array::from_fn(|_| random.byte() as i32)).collect(),
            plane,
        }
    }

    fn part<const N: usize>(&self, i: usize, at: usize) -> &[u8; N] {
        self.bytes[i][at..][..N].try_into().unwrap()
    }
}

type Predictor = unsafe extern "C" fn(u8, bool, bool, bool, *const u8, usize, *const u8, usize, u8, *mut u8, usize) -> u32;

fn predictor<const T: usize, const L: usize, const B: usize>(
    inputs: &Inputs,
    name: &str,
    modes: u8,
    export: Predictor,
    rust: impl Fn(u8, Marks, &[u8; T], &[u8; L], u8) -> [u8; B],
    check: impl Fn(u8, Marks) -> Result<(), u32>,
) -> Vec<Row> {
    let one = |mode: u8| {
        let mut ours = [0; B];
        compare(
            "prediction",
            format!("{name}, mode {mode}"),
            1.0,
            vec![
                &mut |i| {
                    let (mode, m) = (black_box(mode), marks());
                    if let Err(refusal) = check(mode, m) {
                        panic!("{refusal}");
                    }
                    let block = rust(mode, m, inputs.part(i, 0), inputs.part(i, T), inputs.bytes[i][39]);
                    black_box(&block);
                },
                &mut |i| {
                    let block = rust(black_box(mode), marks(), inputs.part(i, 0), inputs.part(i, T), inputs.bytes[i][39]);
                    black_box(&block);
                },
                &mut |i| {
                    let (top, left): (&[u8; T], &[u8; L]) = (inputs.part(i, 0), inputs.part(i, T));
                    let (m, t, l, o) = (marks(), top.as_ptr(), left.as_ptr(), ours.as_mut_ptr());
                    let answer = unsafe { export(black_box(mode), m.above, m.left, m.corner, t, T, l, L, inputs.bytes[i][39], o, B) };
                    assert_eq!(answer, 0);
                    black_box(&ours);
                },
            ],
        )
    };
    (0..modes).map(one).collect()
}

type Mean = unsafe extern "C" fn(bool, bool, *const u8, usize, *const u8, usize, *mut u8, usize) -> u32;

/// DC alone. Arrays and marks of any values are taken, so that the Rust needs no checks.
fn mean<const N: usize, const B: usize>(
    inputs: &Inputs,
    name: &str,
    export: Mean,
    rust: impl Fn(bool, bool, &[u8; N], &[u8; N]) -> [u8; B],
) -> Row {
    let mut ours = [0; B];
    let theirs = |i: usize| {
        let m = marks();
        let block = rust(m.above, m.left, inputs.part(i, 0), inputs.part(i, N));
        black_box(&block);
    };
    compare(
        "prediction",
        name.into(),
        1.0,
        vec![&mut |i| theirs(i), &mut |i| theirs(i), &mut |i| {
            let (top, left): (&[u8; N], &[u8; N]) = (inputs.part(i, 0), inputs.part(i, N));
            let (m, t, l, o) = (marks(), top.as_ptr(), left.as_ptr(), ours.as_mut_ptr());
            let answer = unsafe { export(m.above, m.left, t, N, l, N, o, B) };
            assert_eq!(answer, 0);
            black_box(&ours);
        }],
    )
}

type FromPlane = unsafe extern "C" fn(u8, *mut u8, usize, *const u8, usize, usize, usize) -> u32;

fn from_plane<const B: usize>(
    inputs: &Inputs,
    name: &str,
    modes: &[u8],
    export: FromPlane,
    rust: impl Fn(u8, &mut [u8], &[u8], usize, usize),
    checked: impl Fn(u8, &mut [u8], &[u8], usize, usize) -> Result<(), u32>,
) -> Vec<Row> {
    let one = |&mode: &u8| {
        let (mut a, mut b, mut ours) = ([0; B], [0; B], [0; B]);
        let plane = &inputs.plane;
        compare(
            "prediction",
            format!("{name}, mode {mode}"),
            1.0,
            vec![
                &mut |i| {
                    checked(black_box(mode), &mut a, plane, 65 + i, black_box(64)).unwrap();
                    black_box(&a);
                },
                &mut |i| {
                    rust(black_box(mode), &mut b, plane, 65 + i, black_box(64));
                    black_box(&b);
                },
                &mut |i| {
                    let (p, r) = (ours.as_mut_ptr(), plane.as_ptr());
                    let answer = unsafe { export(black_box(mode), p, B, r, plane.len(), 65 + i, black_box(64)) };
                    assert_eq!(answer, 0);
                    black_box(&ours);
                },
            ],
        )
    };
    modes.iter().map(one).collect()
}

fn first<const N: usize>(of: &[i32; 64]) -> &[i32; N] {
    of[..N].try_into().unwrap()
}

/// A routine without checks, so that both forms of the Rust are one.
fn plain(name: &str, rust: impl Fn(usize), port: Timed) -> Row {
    compare("small", name.into(), 1.0, vec![&mut |i| rust(i), &mut |i| rust(i), port])
}

/// A set of permitted modes. The Rust answers mode by mode; as its best form these are masks.
fn set(name: &str, export: unsafe extern "C" fn(bool, bool, bool) -> u16, any: u16, above: u16, left: u16, all: u16) -> Row {
    let mask = |m: Marks| {
        let part = |there: bool, bits: u16| if there { bits } else { 0 };
        any | part(m.above, above) | part(m.left, left) | part(m.above && m.left && m.corner, all)
    };
    let eight: Vec<Marks> = Marks::all().collect();
    for &m in &eight {
        assert_eq!(mask(m), unsafe { export(m.above, m.left, m.corner) });
    }
    let port = |i: usize| {
        let m = black_box(eight[i % 8]);
        black_box(unsafe { export(m.above, m.left, m.corner) });
    };
    let rust = |i: usize| {
        black_box(mask(black_box(eight[i % 8])));
    };
    plain(name, rust, &mut |i| port(i))
}

fn small(inputs: &Inputs) -> Vec<Row> {
    let byte = |i: usize| inputs.bytes[i][0];
    let beside = |i: usize| ((i % 3 > 0).then_some(byte(i)), (i % 5 > 0).then_some(byte(i)));
    let mut ours = [0; 24];
    let mut maps = [vec![1; 120 * 68], vec![1; 120 * 68], vec![1; 120 * 68]];
    let [checked_map, bare_map, port_map] = &mut maps;
    let start = |map: &mut Vec<u8>| {
        let mut progress = driver::Progress { count: 7, last: 7 };
        assert_eq!(driver::start(black_box(120), black_box(68), map, &mut progress), 0);
        black_box((map, progress));
    };
    vec![
        plain(
            "clip_u8",
            |i| {
                black_box(predict::clip_u8(inputs.numbers[i][0]));
            },
            &mut |i| {
                black_box(unsafe { jiwarbend_clip_u8(inputs.numbers[i][0]) });
            },
        ),
        plain(
            "chroma_qp",
            |i| {
                black_box(predict::chroma_qp(byte(i)));
            },
            &mut |i| {
                black_box(unsafe { jiwarbend_chroma_qp(byte(i)) });
            },
        ),
        plain(
            "nc_from_neighbors",
            |i| {
                let (a, b) = black_box(beside(i));
                black_box(predict::nc_from_neighbors(a, b));
            },
            &mut |i| {
                let (a, b) = black_box(beside(i));
                black_box(unsafe { jiwarbend_nc_from_neighbors(a.is_some(), a.unwrap_or(0), b.is_some(), b.unwrap_or(0)) });
            },
        ),
        plain(
            "nnz_raster_from_z",
            |i| {
                let block = predict::nnz_raster_from_z(inputs.part(i, 0));
                black_box(&block);
            },
            &mut |i| {
                let n: &[u8; 24] = inputs.part(i, 0);
                let answer = unsafe { jiwarbend_nnz_raster_from_z(n.as_ptr(), 24, ours.as_mut_ptr(), 24) };
                assert_eq!(answer, 0);
                black_box(&ours);
            },
        ),
        set("permitted_4x4", jiwarbend_permitted_4x4, 1 << 2, 0b1000_1001, 0b1_0000_0010, 0b111_0000),
        set("permitted_8x8", jiwarbend_permitted_8x8, 1 << 2, 0b1000_1001, 0b1_0000_0010, 0b111_0000),
        set("permitted_16x16", jiwarbend_permitted_16x16, 1 << 2, 1, 1 << 1, 1 << 3),
        set("permitted_chroma", jiwarbend_permitted_chroma, 1, 1 << 2, 1 << 1, 1 << 3),
        compare(
            "small",
            "start, 120 by 68 macroblocks".into(),
            1.0,
            vec![&mut |_| start(checked_map), &mut |_| start(bare_map), &mut |_| {
                let mut progress = Progress { count: 7, last: 7 };
                let answer = unsafe { jiwarbend_start(120, 68, port_map.as_mut_ptr(), port_map.len(), &mut progress) };
                assert_eq!(answer, 0);
                black_box((&port_map, progress));
            }],
        ),
    ]
}

type Inverse = unsafe extern "C" fn(*const i32, usize, *mut i32, usize) -> u32;

fn inverse<const B: usize>(inputs: &Inputs, name: &str, export: Inverse, rust: impl Fn(&[i32; B]) -> [i32; B]) -> Row {
    let mut ours = [0; B];
    let numbers = |i: usize| -> &[i32; B] { first(&inputs.numbers[i]) };
    compare(
        "sums",
        name.into(),
        1.0,
        vec![
            &mut |i| {
                let deq = numbers(i);
                rules::transformable(deq).unwrap();
                let block = rust(deq);
                black_box(&block);
            },
            &mut |i| {
                let block = rust(numbers(i));
                black_box(&block);
            },
            &mut |i| {
                let answer = unsafe { export(numbers(i).as_ptr(), B, ours.as_mut_ptr(), B) };
                assert_eq!(answer, 0);
                black_box(&ours);
            },
        ],
    )
}

type Sums = unsafe extern "C" fn(*const i32, usize, *const i32, usize, *mut u8, usize) -> u32;

fn sums<const B: usize>(
    inputs: &Inputs,
    name: &str,
    export: Sums,
    rust: impl Fn(&[i32; B], &[i32; B]) -> [u8; B],
    check: impl Fn(&[i32]) -> Result<(), u32>,
) -> Row {
    let mut ours = [0; B];
    let both = |i: usize| -> (&[i32; B], &[i32; B]) { (first(&inputs.numbers[i]), first(&inputs.predictions[i])) };
    compare(
        "sums",
        name.into(),
        1.0,
        vec![
            &mut |i| {
                let (a, p) = both(i);
                check(a).unwrap();
                rules::in_range(p).unwrap();
                let block = rust(a, p);
                black_box(&block);
            },
            &mut |i| {
                let (a, p) = both(i);
                let block = rust(a, p);
                black_box(&block);
            },
            &mut |i| {
                let (a, p) = both(i);
                let answer = unsafe { export(a.as_ptr(), B, p.as_ptr(), B, ours.as_mut_ptr(), B) };
                assert_eq!(answer, 0);
                black_box(&ours);
            },
        ],
    )
}

type Into = unsafe extern "C" fn(*const i32, usize, *const u8, usize, usize, usize, *mut u8, usize, usize, usize) -> u32;

/// The forms into a plane: each side has a plane of its own.
fn into_plane(
    inputs: &Inputs,
    name: &str,
    rust: impl Fn(&[i32; 16], &[u8], Square, &mut [u8], Square),
    checked: impl Fn(&[i32; 16], &[u8], Square, &mut [u8], Square) -> Result<(), u32>,
    port: impl Fn(&[i32; 16], &[u8], Square, &mut [u8], Square) -> u32,
) -> Row {
    let [mut a, mut b, mut c] = [inputs.plane.clone(), inputs.plane.clone(), inputs.plane.clone()];
    let squares = |i: usize| (Square { offset: i, stride: black_box(16) }, Square { offset: 4 * i, stride: black_box(64) });
    let (numbers, pred) = (|i: usize| first(&inputs.numbers[i]), &inputs.plane);
    compare(
        "sums",
        name.into(),
        1.0,
        vec![
            &mut |i| {
                let (from, to) = squares(i);
                checked(numbers(i), pred, from, &mut a, to).unwrap();
                black_box(&a);
            },
            &mut |i| {
                let (from, to) = squares(i);
                rust(numbers(i), pred, from, &mut b, to);
                black_box(&b);
            },
            &mut |i| {
                let (from, to) = squares(i);
                assert_eq!(port(numbers(i), pred, from, &mut c, to), 0);
                black_box(&c);
            },
        ],
    )
}

fn blocks(inputs: &Inputs) -> Vec<Row> {
    let list = |export: Into| {
        move |n: &[i32; 16], pred: &[u8], from: Square, rec: &mut [u8], to: Square| {
            let (p, r) = (pred.as_ptr(), rec.as_mut_ptr());
            unsafe { export(n.as_ptr(), 16, p, pred.len(), from.offset, from.stride, r, rec.len(), to.offset, to.stride) }
        }
    };
    vec![
        inverse(inputs, "inverse_4x4", jiwarbend_inverse_4x4, transform::inverse_core),
        inverse(inputs, "inverse_8x8", jiwarbend_inverse_8x8, inverse_8x8),
        sums(inputs, "reconstruct_4x4", jiwarbend_reconstruct_4x4, predict::reconstruct_4x4, rules::transformable),
        sums(inputs, "add_residual_4x4", jiwarbend_add_residual_4x4, predict::add_residual_4x4, rules::in_range),
        sums(inputs, "add_residual_8x8", jiwarbend_add_residual_8x8, predict::add_residual_8x8, rules::in_range),
        into_plane(
            inputs,
            "reconstruct_4x4_into",
            |n, pred, p, rec, r| predict::reconstruct_4x4_into(n, pred, p.offset, p.stride, rec, r.offset, r.stride),
            rules::reconstruct_4x4_into,
            list(jiwarbend_reconstruct_4x4_into),
        ),
        into_plane(
            inputs,
            "add_residual_4x4_into",
            |n, pred, p, rec, r| predict::add_residual_4x4_into(n, pred, p.offset, p.stride, rec, r.offset, r.stride),
            rules::add_residual_4x4_into,
            list(jiwarbend_add_residual_4x4_into),
        ),
        into_plane(
            inputs,
            "reconstruct_4x4_dc_into",
            |n, pred, p, rec, r| predict::reconstruct_4x4_dc_into(n[0], pred, p.offset, p.stride, rec, r.offset, r.stride),
            |n, pred, p, rec, r| rules::reconstruct_4x4_dc_into(n[0], pred, p, rec, r),
            |n, pred, p, rec, r| unsafe {
                let (from, to) = (pred.as_ptr(), rec.as_mut_ptr());
                jiwarbend_reconstruct_4x4_dc_into(n[0], from, pred.len(), p.offset, p.stride, to, rec.len(), r.offset, r.stride)
            },
        ),
    ]
}

/// A whole picture in raster order, by macroblock, with the same order on every side.
fn picture(random: &mut Random, group: &'static str, name: String, (w, h): (u32, u32), slices: Vec<u16>, records: &[Record]) -> Row {
    let mut ours = Memory::new(random, w, h, slices, 0);
    let (mut checked, mut bare, mut short, mut bare_short) = (ours.clone(), ours.clone(), ours.clone(), ours.clone());
    let whole = |memory: &mut Memory, call: &dyn Fn(&mut Memory, u32, u32, &Record) -> u32| {
        memory.restart();
        for (a, r) in records.iter().enumerate() {
            let answer = call(memory, a as u32 % w, a as u32 / w, r);
            assert_eq!(answer, 0);
        }
        black_box(memory);
    };
    let row = compare(
        group,
        name,
        (w * h) as f64,
        vec![
            &mut |_| whole(&mut checked, &|m, x, y, r| m.rust_as::<true, false>(x, y, r.kind, &r.modes, r.chroma_mode, &r.numbers)),
            &mut |_| whole(&mut bare, &|m, x, y, r| m.rust_as::<false, false>(x, y, r.kind, &r.modes, r.chroma_mode, &r.numbers)),
            &mut |_| whole(&mut ours, &|m, x, y, r| m.port(x, y, r.kind, &r.modes, r.chroma_mode, &r.numbers)),
            &mut |_| whole(&mut short, &|m, x, y, r| m.rust_as::<true, true>(x, y, r.kind, &r.modes, r.chroma_mode, &r.numbers)),
            &mut |_| whole(&mut bare_short, &|m, x, y, r| m.rust_as::<false, true>(x, y, r.kind, &r.modes, r.chroma_mode, &r.numbers)),
        ],
    );
    for theirs in [&checked, &bare, &short, &bare_short] {
        assert!(ours.planes == theirs.planes, "every side rebuilt the same picture");
    }
    row
}

/// Calls that are refused as not ready, by kind: in the middle of the second row of 3 by 2 macroblocks in one slice, where the left neighbour is undone. Its
/// samples are read for chroma, or for luma alone.
fn waiting() -> Vec<Row> {
    let mut random = Random::new(5);
    let mut one = |kind: u8, chroma_mode: u8, name: &str| {
        let slices = vec![0; 6];
        let near = driver::near(3, &slices, 1, 1);
        let mut ours = Memory::new(&mut random, 3, 2, slices, 0);
        ours.done = Guarded::new(&[1, 1, 1, 0, 0, 0]);
        // What modes read the Rust has in tables, which the first calls find.
        let mut records = Vec::new();
        while records.len() < INPUTS {
            let r = Record { chroma_mode, ..good_record(&mut random, kind, near) };
            if ours.clone().rust(1, 1, r.kind, &r.modes, r.chroma_mode, &r.numbers) == 5 {
                records.push(r);
            }
        }
        let (mut checked, mut bare) = (ours.clone(), ours.clone());
        let refused = |memory: &mut Memory, r: &Record, call: &dyn Fn(&mut Memory, &Record) -> u32| {
            assert_eq!(call(memory, r), 5);
            black_box(memory);
        };
        let port = |m: &mut Memory, r: &Record| m.port(1, 1, r.kind, &r.modes, r.chroma_mode, &r.numbers);
        compare(
            "waiting",
            name.into(),
            1.0,
            vec![
                &mut |i| {
                    refused(&mut checked, &records[i], &|m, r| m.rust_as::<true, false>(1, 1, r.kind, &r.modes, r.chroma_mode, &r.numbers))
                },
                &mut |i| {
                    refused(&mut bare, &records[i], &|m, r| m.rust_as::<false, false>(1, 1, r.kind, &r.modes, r.chroma_mode, &r.numbers))
                },
                &mut |i| refused(&mut ours, &records[i], &port),
            ],
        )
    };
    let (dc, vertical) = (0, 2);
    vec![
        one(0, dc, "rebuild that waits for chroma, 4x4"),
        one(1, dc, "rebuild that waits for chroma, 8x8"),
        one(2, dc, "rebuild that waits for chroma, 16x16"),
        one(0, vertical, "rebuild that waits for luma, 4x4"),
        one(1, vertical, "rebuild that waits for luma, 8x8"),
        one(2, vertical, "rebuild that waits for luma, 16x16"),
    ]
}

const SIZES: [(u32, u32); 3] = [(11, 9), (40, 22), (120, 68)];

/// What the calls for turns are lent, in one slice.
#[derive(Clone, PartialEq, Eq)]
struct Maps {
    w: u32,
    h: u32,
    done: Vec<u8>,
    slices: Vec<u16>,
    rows: Vec<u32>,
    list: Vec<u32>,
    how_many: u32,
}

impl Maps {
    fn new(w: u32, h: u32) -> Maps {
        let n = (w * h) as usize;
        Maps { w, h, done: vec![0; n], slices: vec![0; n], rows: vec![0; h as usize], list: vec![0; h as usize], how_many: 0 }
    }

    /// The same in eight slices that end within a row.
    fn in_eight_slices(w: u32, h: u32) -> Maps {
        let of_slice = w * h / 8 + 1;
        Maps { slices: (0..w * h).map(|a| (a / of_slice) as u16).collect(), ..Maps::new(w, h) }
    }

    /// A picture of which half is done: of each turn one macroblock at random.
    fn half_done(random: &mut Random, w: u32, h: u32) -> Maps {
        let mut maps = Maps::new(w, h);
        for _ in 0..w * h / 2 {
            assert_eq!((maps.rust_count::<true, true>(), maps.rust_turn::<true, true>()), (0, 0));
            let turn = &maps.list[..maps.how_many as usize];
            maps.done[random.pick(turn) as usize] = 1;
        }
        assert_eq!(maps.rust_count::<true, true>(), 0);
        maps
    }

    fn rust_count<const CHECKS: bool, const SHORT: bool>(&mut self) -> u32 {
        turns::count_rows::<CHECKS, SHORT>(self.w, self.h, &self.done, &mut self.rows)
    }

    fn rust_turn<const CHECKS: bool, const SHORT: bool>(&mut self) -> u32 {
        turns::turn::<CHECKS, SHORT>(self.w, self.h, &self.done, &self.slices, &self.rows, &mut self.list, &mut self.how_many)
    }

    fn rust_turns<const CHECKS: bool, const SHORT: bool>(&mut self) -> u32 {
        turns::turns::<CHECKS, SHORT>(self.w, self.h, &self.slices, &mut self.how_many)
    }

    fn port_count(&mut self) -> u32 {
        let (done, rows) = (&self.done, &mut self.rows);
        unsafe { jiwarbend_count_rows(self.w, self.h, done.as_ptr(), done.len(), rows.as_mut_ptr(), rows.len()) }
    }

    fn port_turn(&mut self) -> u32 {
        let Maps { w, h, done, slices, rows, list, how_many } = self;
        let (d, s, r, l) = (done.as_ptr(), slices.as_ptr(), rows.as_ptr(), list.as_mut_ptr());
        unsafe { jiwarbend_turn(*w, *h, d, done.len(), s, slices.len(), r, rows.len(), l, list.len(), how_many) }
    }

    fn port_turns(&mut self) -> u32 {
        unsafe { jiwarbend_turns(self.w, self.h, self.slices.as_ptr(), self.slices.len(), &mut self.how_many) }
    }

    /// Takes turn after turn until all is done, and gives their number.
    fn take_all(&mut self, count: impl Fn(&mut Maps) -> u32, turn: impl Fn(&mut Maps) -> u32) -> u32 {
        self.done.fill(0);
        for turns in 0.. {
            assert_eq!((count(self), turn(self)), (0, 0));
            if self.how_many == 0 {
                return turns;
            }
            self.list[..self.how_many as usize].iter().for_each(|&address| self.done[address as usize] = 1);
        }
        unreachable!()
    }
}

/// A call over the same pictures on each side.
fn over_pictures<P: Clone + PartialEq>(group: &'static str, name: String, pictures: &[P], calls: [&dyn Fn(&mut P) -> u32; 5]) -> Row {
    let mut of_sides = vec![pictures.to_vec(); 5];
    let mut sides: Vec<_> = of_sides
        .iter_mut()
        .zip(calls)
        .map(|(pictures, call)| {
            move |i: usize| {
                let one = i % pictures.len();
                assert_eq!(call(black_box(&mut pictures[one])), 0);
            }
        })
        .collect();
    let row = compare(group, name, 1.0, sides.iter_mut().map(|side| side as Timed).collect());
    drop(sides);
    assert!(of_sides.iter().all(|of_side| *of_side == of_sides[PORT]), "every side said the same of each picture");
    row
}

/// The row counts and the turns of pictures that are half done, all turns of a picture with their counts, and their number.
fn turn_lists() -> Vec<Row> {
    let mut random = Random::new(5);
    let mut rows = Vec::new();
    for (w, h) in SIZES {
        let halves: Vec<Maps> = (0..16).map(|_| Maps::half_done(&mut random, w, h)).collect();
        let name = |call: &str| format!("{call} of {w} by {h} macroblocks");
        rows.push(over_pictures(
            "turns",
            name("count_rows, half"),
            &halves,
            [
                &Maps::rust_count::<true, false>,
                &Maps::rust_count::<false, false>,
                &Maps::port_count,
                &Maps::rust_count::<true, true>,
                &Maps::rust_count::<false, true>,
            ],
        ));
        rows.push(over_pictures(
            "turns",
            name("turn, half"),
            &halves,
            [
                &Maps::rust_turn::<true, false>,
                &Maps::rust_turn::<false, false>,
                &Maps::port_turn,
                &Maps::rust_turn::<true, true>,
                &Maps::rust_turn::<false, true>,
            ],
        ));
        let [mut a, mut b, mut c, mut d, mut e] = [(); 5].map(|()| Maps::new(w, h));
        let turns = a.take_all(Maps::rust_count::<true, false>, Maps::rust_turn::<true, false>);
        rows.push(compare(
            "turns",
            name("all turns"),
            turns.into(),
            vec![
                &mut |_| assert_eq!(black_box(&mut a).take_all(Maps::rust_count::<true, false>, Maps::rust_turn::<true, false>), turns),
                &mut |_| assert_eq!(black_box(&mut b).take_all(Maps::rust_count::<false, false>, Maps::rust_turn::<false, false>), turns),
                &mut |_| assert_eq!(black_box(&mut c).take_all(Maps::port_count, Maps::port_turn), turns),
                &mut |_| assert_eq!(black_box(&mut d).take_all(Maps::rust_count::<true, true>, Maps::rust_turn::<true, true>), turns),
                &mut |_| assert_eq!(black_box(&mut e).take_all(Maps::rust_count::<false, true>, Maps::rust_turn::<false, true>), turns),
            ],
        ));
        for (slices, maps) in [("one slice", Maps::new(w, h)), ("8 slices", Maps::in_eight_slices(w, h))] {
            rows.push(over_pictures(
                "turns",
                name(&format!("turns, {slices}")),
                &[maps],
                [
                    &Maps::rust_turns::<true, false>,
                    &Maps::rust_turns::<false, false>,
                    &Maps::port_turns,
                    &Maps::rust_turns::<true, true>,
                    &Maps::rust_turns::<false, true>,
                ],
            ));
        }
    }
    rows
}

/// What the check of an order is lent, in one slice.
#[derive(Clone, PartialEq, Eq)]
struct Ordered {
    w: u32,
    h: u32,
    slices: Vec<u16>,
    order: Vec<u32>,
    verdict: u32,
}

impl Ordered {
    fn new(w: u32, h: u32, order: Vec<u32>) -> Ordered {
        Ordered { w, h, slices: vec![0; (w * h) as usize], order, verdict: 0 }
    }

    fn rust<const CHECKS: bool, const SHORT: bool>(&mut self) -> u32 {
        orders::check_order::<CHECKS, SHORT>(self.w, self.h, &self.slices, &self.order, &mut self.verdict)
    }

    fn port(&mut self) -> u32 {
        let (slices, order) = (&self.slices, &self.order);
        unsafe { jiwarbend_check_order(self.w, self.h, slices.as_ptr(), slices.len(), order.as_ptr(), order.len(), &mut self.verdict) }
    }
}

/// The check of lists that pass: raster order, diagonals, and any order in which each comes after its neighbours.
fn order_checks() -> Vec<Row> {
    let mut random = Random::new(6);
    let mut rows = Vec::new();
    for (w, h) in SIZES {
        let slices = vec![0; (w * h) as usize];
        let any = (0..16).map(|_| permitted_order(&mut random, w, &slices)).collect();
        let lists: [(&str, Vec<Vec<u32>>); 3] =
            [("raster order", vec![(0..w * h).collect()]), ("diagonals", vec![diagonal_order(w, h)]), ("any order", any)];
        for (name, lists) in lists {
            let ordered: Vec<Ordered> = lists.into_iter().map(|order| Ordered::new(w, h, order)).collect();
            rows.push(over_pictures(
                "orders",
                format!("check {name}, {w} by {h}"),
                &ordered,
                [
                    &Ordered::rust::<true, false>,
                    &Ordered::rust::<false, false>,
                    &Ordered::port,
                    &Ordered::rust::<true, true>,
                    &Ordered::rust::<false, true>,
                ],
            ));
        }
    }
    rows
}

/// Pictures whose numbers are drawn at random, by kind of macroblock.
fn random_pictures() -> Vec<Row> {
    let mut random = Random::new(2);
    let mut rows = Vec::new();
    let mixes = [("4x4", 0b001), ("8x8", 0b010), ("16x16", 0b100), ("mixed", 0b111)];
    for (w, h) in SIZES {
        for (mix, kinds) in mixes {
            let slices = if mix == "mixed" { slice_map(&mut random, w, h) } else { vec![0; (w * h) as usize] };
            let of_mix: Vec<u8> = (0..3).filter(|k| kinds >> k & 1 == 1).collect();
            let records = good_records(&mut random, w, h, &slices, |random| random.pick(&of_mix));
            let name = format!("{} by {}, {mix}", 16 * w, 16 * h);
            rows.push(picture(&mut random, "random", name, (w, h), slices, &records));
        }
    }
    rows
}

/// A picture that an encoder coded, under the name of its test pattern.
fn coded_picture(pattern: &str, file: &[u8]) -> Row {
    let coded = harness::store::read(file);
    let record = |(kind, modes, chroma_mode, numbers)| Record { kind, modes, chroma_mode, numbers };
    let records: Vec<Record> = coded.records.into_iter().map(record).collect();
    let name = format!("{} by {}, {pattern}", 16 * coded.w, 16 * coded.h);
    picture(&mut Random::new(4), "coded", name, (coded.w, coded.h), coded.slices, &records)
}

/// Pictures that an encoder coded.
fn coded_pictures() -> Vec<Row> {
    vec![
        coded_picture("bars", include_bytes!("../../../tests/data/bars_q30_baseline.rmb1")),
        coded_picture("fractal", include_bytes!("../../../tests/data/fractal_q27.rmb1")),
        coded_picture("noise", include_bytes!("../../../tests/data/noise_q24.rmb1")),
        coded_picture("windmill at 20", include_bytes!("../../../tests/data/windmill_q20.rmb1")),
        coded_picture("windmill at 28", include_bytes!("../../../tests/data/windmill_q28.rmb1")),
        coded_picture("windmill at 36", include_bytes!("../../../tests/data/windmill_q36.rmb1")),
    ]
}

/// Pictures with as few coefficients as those have, at three densities and of three sizes.
fn sparse_pictures() -> Vec<Row> {
    let mut random = Random::new(3);
    let mut rows = Vec::new();
    let densities = [(0.10, 0.32), (0.17, 0.47), (0.35, 0.52)];
    for (w, h) in SIZES {
        for (bare_macroblocks, bare_blocks) in densities {
            let slices = vec![0; (w * h) as usize];
            let records = sparse_records(&mut random, w, h, &slices, Density { bare_macroblocks, bare_blocks });
            let name = format!("{} by {}, {:.0} of 100 blocks empty", 16 * w, 16 * h, bare_share(&records));
            rows.push(picture(&mut random, "sparse", name, (w, h), slices, &records));
        }
    }
    rows
}

fn predictions(inputs: &Inputs) -> Vec<Row> {
    let mut rows = Vec::new();
    rows.extend(predictor(
        inputs,
        "intra4x4_pred",
        9,
        jiwarbend_intra4x4_pred,
        |mode, m, top, left, corner| predict::intra4x4_pred(mode, m.above, m.left, top, left, corner),
        rules::mode_nxn,
    ));
    rows.extend(predictor(
        inputs,
        "intra8x8_pred",
        9,
        jiwarbend_intra8x8_pred,
        |mode, m, top, left, corner| predict::intra8x8_pred(mode, m.above, m.left, m.corner, top, left, corner),
        rules::mode_nxn,
    ));
    rows.extend(predictor(
        inputs,
        "luma16x16_pred",
        4,
        jiwarbend_luma16x16_pred,
        |mode, m, top, left, corner| predict::luma16x16_pred(I16Mode::from_id(mode as u32), m.above, m.left, top, left, corner),
        rules::mode_16x16,
    ));
    rows.extend(predictor(
        inputs,
        "chroma8x8_pred",
        4,
        jiwarbend_chroma8x8_pred,
        |mode, m, top, left, corner| predict::chroma8x8_pred(mode, m.above, m.left, top, left, corner),
        rules::mode_chroma,
    ));
    rows.push(mean(inputs, "luma16x16_dc", jiwarbend_luma16x16_dc, |above, beside, top, left| {
        [predict::luma16x16_dc(above, beside, top, left)]
    }));
    rows.push(mean(inputs, "chroma8x8_dc", jiwarbend_chroma8x8_dc, predict::chroma8x8_dc));
    let modes = [0, 1, 2, 3];
    rows.extend(from_plane::<256>(
        inputs,
        "i16x16_luma_pred",
        &modes,
        jiwarbend_i16x16_luma_pred,
        intra_pred::i16x16_luma_pred,
        rules::i16x16_luma_pred,
    ));
    rows.extend(from_plane::<64>(
        inputs,
        "chroma8x8_plane_pred",
        &modes[2..],
        jiwarbend_chroma8x8_plane_pred,
        intra_pred::chroma8x8_pred,
        rules::chroma8x8_plane_pred,
    ));
    rows
}

const GROUPS: [(&str, &str); 9] = [
    ("coded", "Whole pictures that x264 coded, nanoseconds for a macroblock"),
    ("sparse", "Whole pictures with as few coefficients as those, nanoseconds for a macroblock"),
    ("random", "Whole pictures with numbers at random, nanoseconds for a macroblock"),
    ("waiting", "Macroblocks that are refused as not ready, nanoseconds for a call"),
    ("turns", "Row counts, turn lists and numbers of turns, nanoseconds for a call; all turns of a picture, for a turn with its counts"),
    ("orders", "`check_order` of lists that pass, nanoseconds for a call"),
    ("prediction", "Prediction, nanoseconds for a block"),
    ("sums", "Inverses and clipped sums, nanoseconds for a block"),
    ("small", "Small routines and start, nanoseconds for a call"),
];

/// What a command says on its first line that has `key`, behind the key.
fn said(command: &str, key: &str) -> Option<String> {
    let mut words = command.split(' ');
    let out = Command::new(words.next()?).args(words).output().ok()?;
    let text = String::from_utf8(out.stdout).ok()?;
    text.lines().find_map(|line| Some(line.strip_prefix(key)?.trim().to_string()))
}

/// The machine, the compiler and the number of rounds.
fn circumstances() -> String {
    let cores = std::thread::available_parallelism().map_or(1, |n| n.get());
    let cpu = said("lscpu", "Model name:").unwrap_or_else(|| "an unnamed processor".into());
    let rustc = said("rustc --version", "rustc").unwrap_or_else(|| "of an unknown version".into());
    format!("Measured on {} ({cpu}, {cores} cores), rustc {rustc}, {} rounds.", std::env::consts::ARCH, rounds())
}

fn table(rows: &[Row]) -> String {
    let mut out = String::new();
    let counted = rows.iter().all(|r| r.instructions.is_some());
    for (group, title) in GROUPS {
        let of_group: Vec<&Row> = rows.iter().filter(|r| r.group == group).collect();
        let short = of_group.iter().all(|r| r.times.len() > SHORT);
        let also = |yes: bool, text: &str| if yes { text.to_string() } else { String::new() };
        let columns = 6 + 2 * short as usize + counted as usize;
        writeln!(
            out,
            "\n### {title}\n\n| | Rust |{} no checks |{} port | port / Rust | quartiles | port / no checks |{}\n|---|{}",
            also(short, " short cuts |"),
            also(short, " neither checks nor long ways |"),
            also(counted, " instructions |"),
            "---:|".repeat(columns)
        )
        .unwrap();
        let order: Vec<usize> = if short { vec![CHECKED, SHORT, BARE, BARE_SHORT, PORT] } else { vec![CHECKED, BARE, PORT] };
        for r in of_group {
            let mut cells = vec![r.name.clone()];
            cells.extend(order.iter().map(|&side| format!("{:.1}", r.times[side])));
            let ratio = r.ratio(true);
            cells.push(format!("**{:.2}**", ratio.middle));
            cells.push(format!("{:.2} to {:.2}", ratio.low, ratio.high));
            cells.push(format!("{:.2}", r.ratio(false).middle));
            if let Some(counts) = &r.instructions {
                let of_sides: Vec<String> = order.iter().map(|&side| format!("{:.0}", counts[side])).collect();
                cells.push(of_sides.join(" / "));
            }
            writeln!(out, "| {} |", cells.join(" | ")).unwrap();
        }
    }
    out
}

/// What the figures say, in sentences: the ranges of the ratios.
fn headline(rows: &[Row]) -> String {
    let range = |group: &str, checks: bool| {
        let of = rows.iter().filter(|r| r.group == group).map(|r| r.ratio(checks).middle);
        let (least, most) = of.fold((f64::MAX, 0.0), |(a, b): (f64, f64), v| (a.min(v), b.max(v)));
        format!("{least:.2} to {most:.2}")
    };
    let pictures = ["coded", "sparse", "random", "waiting", "turns", "orders"];
    let blocks: Vec<&Row> = rows.iter().filter(|r| !pictures.contains(&r.group)).collect();
    let slower = |checks: bool| blocks.iter().filter(|r| r.ratio(checks).middle > 1.0).count();
    format!(
        "- Pictures that x264 coded take {} of the time of the best Rust with the same checks, and {} of the best Rust without checks 6 to 8.\n\
         - Pictures of three sizes with as few coefficients take {} and {},\n  and pictures of numbers at random {} and {} of these times.\n\
         - Of {} block calls {} take longer than the best Rust with the same checks, and {} longer than the Rust without checks.\n",
        range("coded", true),
        range("coded", false),
        range("sparse", true),
        range("sparse", false),
        range("random", true),
        range("random", false),
        blocks.len(),
        slower(true),
        slower(false),
    )
}

fn plot(rows: &[Row]) -> String {
    let (left, scale, line) = (290.0, 220.0, 16.0);
    // A bar that would be longer ends at the edge and has its figure in it.
    let most = rows.iter().map(|r| r.ratio(true).high).fold(1.5, f64::max).ceil().min(4.0);
    let (width, height) = (left + scale * most + 20.0, 50.0 + line * rows.len() as f64);
    let mut out = String::new();
    writeln!(
        out,
        "<svg xmlns=\"http://www.w3.org/2000/svg\" viewBox=\"0 0 {width:.0} {height:.0}\" font-family=\"sans-serif\" font-size=\"11\">"
    )
    .unwrap();
    writeln!(out, "<rect width=\"{width:.0}\" height=\"{height:.0}\" fill=\"white\"/>").unwrap();
    let title = "time of the port as a share of the best Rust's with the same checks (median and quartiles)";
    writeln!(out, "<text x=\"8\" y=\"16\">{title}</text>").unwrap();
    for tick in 0..=(2.0 * most) as usize {
        let x = left + scale * tick as f64 / 2.0;
        let shade = if tick == 2 { "#333" } else { "#ddd" };
        writeln!(out, "<line x1=\"{x:.0}\" y1=\"36\" x2=\"{x:.0}\" y2=\"{:.0}\" stroke=\"{shade}\"/>", height - 8.0).unwrap();
        writeln!(out, "<text x=\"{x:.0}\" y=\"32\" text-anchor=\"middle\" fill=\"#555\">{}</text>", tick as f64 / 2.0).unwrap();
    }
    for (k, r) in rows.iter().enumerate() {
        let y = 42.0 + line * k as f64;
        let ratio = r.ratio(true);
        let colour = if ratio.middle <= 1.0 { "#4a8f5c" } else { "#c9803a" };
        writeln!(out, "<text x=\"{:.0}\" y=\"{:.1}\" text-anchor=\"end\">{}</text>", left - 8.0, y + 9.0, r.name).unwrap();
        let [low, middle, high] = [ratio.low, ratio.middle, ratio.high].map(|share| scale * share.min(most));
        writeln!(out, "<rect x=\"{left}\" y=\"{y:.1}\" width=\"{middle:.1}\" height=\"10\" fill=\"{colour}\"/>").unwrap();
        let (from, to) = (left + low, left + high);
        writeln!(out, "<line x1=\"{from:.1}\" y1=\"{0:.1}\" x2=\"{to:.1}\" y2=\"{0:.1}\" stroke=\"black\"/>", y + 5.0).unwrap();
        if ratio.middle > most {
            let x = left + middle - 6.0;
            writeln!(out, "<text x=\"{x:.0}\" y=\"{:.1}\" text-anchor=\"end\" fill=\"white\">{:.1}</text>", y + 9.0, ratio.middle).unwrap();
        }
    }
    out + "</svg>\n"
}

/// Writes the table, the headline and the plot, with the instructions where they can be counted.
fn write(rows: &mut [Row], folder: &Path) {
    std::fs::create_dir_all(folder).unwrap();
    // A short run is to see that all sides agree: it counts nothing.
    if let Some(counts) = if rounds() < 20 { None } else { instructions(folder) } {
        let mut counts = counts.into_iter();
        for row in rows.iter_mut() {
            let units = counted(row.per) as f64 * row.per;
            let of_row: Vec<f64> = counts.by_ref().take(row.times.len()).map(|n| n / units).collect();
            assert_eq!(of_row.len(), row.times.len(), "a count for every side");
            row.instructions = Some(of_row);
        }
        assert_eq!(counts.next(), None, "no more counts than sides");
    }
    std::fs::write(folder.join("table.md"), format!("{}\n{}", circumstances(), table(rows))).unwrap();
    if argument(3).is_none() {
        std::fs::write(folder.join("headline.md"), headline(rows)).unwrap();
    }
    std::fs::write(folder.join("benchmark.svg"), plot(rows)).unwrap();
}

fn main() {
    let inputs = Inputs::new();
    let mut rows = coded_pictures();
    rows.extend(sparse_pictures());
    rows.extend(random_pictures());
    rows.extend(waiting());
    rows.extend(turn_lists());
    rows.extend(order_checks());
    rows.extend(predictions(&inputs));
    rows.extend(blocks(&inputs));
    rows.extend(small(&inputs));
    if counting() {
        return;
    }
    rows.retain(|row| asked(&row.name));
    if let Some(folder) = argument(1) {
        write(&mut rows, Path::new(&folder));
    }
    if argument(3).is_none() {
        print!("{}", headline(&rows));
    }
}
