//! The routines on single blocks, on the rules' figures and at the edges of what is taken.
#[allow(dead_code)]
#[path = "../oracle/src/halfway.rs"]
mod halfway;

use jiwarbend::block::*;
use jiwarbend::turned::Case4x4;
use jiwarbend::{ChromaMode, Luma16x16Mode, LumaMode, Refusal};

const TOP: [u8; 8] = [10, 20, 30, 40, 50, 60, 70, 80];
const LEFT: [u8; 4] = [12, 24, 36, 48];

fn marks(above: bool, left: bool, corner: bool) -> Marks {
    Marks { above, left, corner }
}

/// The rules' figures of 4x4 prediction: mode, marks, column, row and sample.
fn figures_4x4() -> Vec<(u8, Marks, usize, usize, u8)> {
    let all = marks(true, true, true);
    let dc = [(all, 28), (marks(true, false, false), 25), (marks(false, true, false), 30), (marks(false, false, false), 128)];
    let slanted = [
        (3, 0, 0, 20),
        (3, 3, 3, 78),
        (8, 0, 0, 18),
        (8, 1, 0, 24),
        (8, 1, 2, 45),
        (8, 3, 3, 48),
        (5, 0, 0, 8),
        (5, 0, 1, 9),
        (5, 0, 2, 14),
        (6, 0, 0, 9),
    ];
    let flat = dc.iter().map(|&(m, v)| (2, m, 3, 1, v));
    flat.chain(slanted.iter().map(|&(mode, x, y, v)| (mode, all, x, y, v))).collect()
}

#[test]
fn figures_of_4x4_prediction() {
    let (mut given, mut by_turning) = (0, 0);
    for (mode, marks, x, y, v) in figures_4x4() {
        let case = Case4x4 { mode, marks, top: TOP, left: LEFT, corner: 6 };
        assert_eq!(case.predict().unwrap()[4 * y + x], v, "{case:?}");
        given += 1;
        // The same figure on its side: what stands above and to the right says nothing there.
        for turned in [[0; 4], [255; 4]].iter().filter_map(|&right| case.turned(right)) {
            assert_eq!(turned.predict().unwrap()[4 * x + y], v, "{turned:?}");
            by_turning += 1;
        }
    }
    assert_eq!((given, by_turning), (14, 16), "more than half of the cases come by turning");
}

#[test]
fn figures_of_the_larger_blocks() {
    let chroma =
        chroma8x8_pred(0, marks(true, true, true), &[0, 0, 0, 0, 100, 100, 100, 100], &[40, 40, 40, 40, 80, 80, 80, 80], 0).unwrap();
    assert_eq!((chroma[0], chroma[4], chroma[32], chroma[36]), (20, 100, 80, 90));
    let mut top = [0; 16];
    top[8..].fill(255);
    let plane = luma16x16_pred(3, marks(true, true, true), &top, &[0; 16], 0).unwrap();
    assert_eq!((plane[0], plane[7], plane[15]), (0, 128, 255));
    let mut wide = [0; 16];
    (wide[0], wide[1]) = (10, 20);
    let filtered = |corner| intra8x8_pred(0, marks(true, false, corner), &wide, &[0; 8], 6).unwrap()[0];
    assert_eq!((filtered(false), filtered(true)), (13, 12));
}

#[test]
fn dc_alone_is_the_mode() {
    let (top, left): ([u8; 16], [u8; 16]) = (std::array::from_fn(|k| 10 * k as u8), std::array::from_fn(|k| 255 - k as u8));
    let sample = |above, beside| luma16x16_dc(marks(above, beside, false), &top, &left);
    assert_eq!([sample(true, true), sample(true, false), sample(false, true), sample(false, false)], [161, 75, 248, 128]);
    let (short, low) = ([0, 0, 0, 0, 100, 100, 100, 100], [40, 40, 40, 40, 80, 80, 80, 80]);
    for bits in 0..8 {
        let m = marks(bits & 1 != 0, bits & 2 != 0, bits & 4 != 0);
        assert_eq!(luma16x16_pred(2, m, &top, &left, 6), Ok([luma16x16_dc(m, &top, &left); 256]));
        assert_eq!(chroma8x8_pred(0, m, &short, &low, 6), Ok(chroma8x8_dc(m, &short, &low)));
    }
    let chroma = chroma8x8_dc(marks(true, true, false), &short, &low);
    assert_eq!((chroma[0], chroma[4], chroma[32], chroma[36]), (20, 100, 80, 90));
}

/// A block with these coefficients at their places, and zeros beside them.
fn block<const N: usize>(coefficients: &[(usize, i32)]) -> [i32; N] {
    let mut out = [0; N];
    coefficients.iter().for_each(|&(place, v)| out[place] = v);
    out
}

/// A block whose coefficients are in range: the values of these letters leave it on the way, and its inverse takes it where there are none.
fn leaves<const N: usize>(
    inverse: fn(&[i32; N]) -> Result<[i32; N], Refusal>,
    coefficients: &[(usize, i32)],
    letters: &str,
) -> Option<[i32; N]> {
    let deq = block(coefficients);
    assert!(coefficients.iter().all(|(_, v)| (-32768..=32767).contains(v)));
    assert_eq!((halfway::in_range(&deq), halfway::leaves(&deq).as_str()), (letters.is_empty(), letters), "{coefficients:?}");
    let answer = inverse(&deq);
    assert_eq!(answer.err(), (!letters.is_empty()).then_some(Refusal::Range), "{coefficients:?}");
    answer.ok()
}

#[test]
fn figures_of_the_4x4_inverse() {
    let residual = |places: &[(usize, i32)]| inverse_4x4(&block(places)).unwrap();
    let wanted: [i32; 16] = std::array::from_fn(|k| [0, 11, 15].contains(&k) as i32);
    assert_eq!(residual(&[(0, 31), (5, 1)]), wanted);
    for (c, r) in [(31, 0), (32, 1), (-32, 0), (-33, -1), (32735, 511), (-32768, -512)] {
        assert_eq!(residual(&[(0, c)]), [r; 16]);
    }
    // Alone at a place: all but the first lower as much as they raise.
    for place in 0..16 {
        let (low, high) = (if place == 0 { -32768 } else { -32735 }, 32735);
        for v in [low, high] {
            assert!(inverse_4x4(&block(&[(place, v)])).is_ok(), "{v} at place {place}");
        }
        for v in [low - 1, high + 1, 32767, 32768, -32769, i32::MIN, i32::MAX] {
            assert_eq!(inverse_4x4(&block(&[(place, v)])), Err(Refusal::Range), "{v} at place {place}");
        }
    }
}

#[test]
fn a_4x4_block_may_not_leave_the_range_on_the_way() {
    let leaves = |coefficients: &[(usize, i32)], letters: &str| leaves(inverse_4x4, coefficients, letters);
    // In the rows and nowhere else: row 3 takes back in the columns what row 1 has too much. Coefficients and last values are in range.
    leaves(&[(4, 20_000), (5, 18_000), (12, -12_000)], "f");
    leaves(&[(4, -20_000), (5, -18_000), (12, 12_000)], "f");
    leaves(&[(4, 20_000), (6, 18_000), (12, -12_000)], "ef");
    // In the columns and nowhere else. It shows in their last values: each of the others is half the sum or half the difference of two of these.
    leaves(&[(0, 20_000), (8, 18_000)], "gh");
    leaves(&[(0, -20_000), (8, -18_000)], "gh");
    leaves(&[(0, 20_000), (4, 18_000)], "h");
    // At the very end and nowhere else: all values fit into 16 bits, but one has no room for 32 more.
    leaves(&[(0, 32_736)], "h");
    leaves(&[(0, 20_000), (4, 12_750)], "h");
    // Each limit on both sides. A last value of 32735 gives 511 and one of -32768 gives -512.
    leaves(&[(4, 20_000), (5, 12_767), (12, -12_000)], "");
    leaves(&[(4, 20_000), (5, 12_768), (12, -12_000)], "f");
    leaves(&[(4, -20_000), (5, -12_768), (12, 12_000)], "");
    leaves(&[(4, -20_000), (5, -12_769), (12, 12_000)], "f");
    assert_eq!(leaves(&[(0, 20_000), (4, 12_735)], "").unwrap()[0], 511);
    leaves(&[(0, 20_000), (4, 12_736)], "h");
    assert_eq!(leaves(&[(0, -20_000), (4, -12_768)], "").unwrap()[0], -512);
    leaves(&[(0, -20_000), (4, -12_769)], "h");
}

#[test]
fn an_8x8_block_may_not_leave_the_range_on_the_way() {
    let leaves = |coefficients: &[(usize, i32)], letters: &str| leaves(inverse_8x8, coefficients, letters);
    // In the rows and nowhere else: in their first step alone, which the next one takes back, and to their end, which row 6 takes back in the columns.
    leaves(&[(1, 22_000), (7, -4_000)], "e");
    leaves(&[(1, -22_000), (7, 4_000)], "e");
    leaves(&[(16, 20_000), (20, 18_000), (48, -12_000)], "efg");
    // In the first step of the columns and nowhere else.
    leaves(&[(8, 22_000), (56, -4_000)], "h");
    leaves(&[(8, -22_000), (56, 4_000)], "h");
    leaves(&[(0, 20_000), (16, 18_000)], "km");
    // At the very end and nowhere else.
    leaves(&[(0, 32_736)], "m");
    leaves(&[(0, 20_000), (8, 8_500)], "m");
    // Each limit on both sides.
    for (far, near) in [(1, 7), (8, 56)] {
        let (step, letter) = (if far == 1 { 3 } else { 24 }, if far == 1 { "e" } else { "h" });
        leaves(&[(far, 21_845), (near, -4_000)], "");
        leaves(&[(far, 21_845), (near, -4_000), (step, 1)], letter);
        leaves(&[(far, -21_845), (near, 4_000)], "");
        leaves(&[(far, -21_845), (near, 4_000), (step, -1)], letter);
    }
    leaves(&[(16, 20_001), (17, 8_511), (48, -12_000)], "");
    leaves(&[(16, 20_002), (17, 8_511), (48, -12_000)], "g");
    leaves(&[(16, -20_000), (17, -8_512), (48, 12_000)], "");
    leaves(&[(16, -20_001), (17, -8_512), (48, 12_000)], "g");
    assert_eq!(leaves(&[(0, 20_000), (8, 8_490)], "").unwrap()[0], 511);
    leaves(&[(0, 20_001), (8, 8_490)], "m");
    assert_eq!(leaves(&[(0, -20_000), (8, -8_512)], "").unwrap()[0], -512);
    leaves(&[(0, -20_001), (8, -8_512)], "m");
}

#[test]
fn the_range_is_asked_where_there_is_an_inverse_and_nowhere_else() {
    let (pred, from, to) = ([100; 16], Square { offset: 0, stride: 4 }, Square { offset: 2, stride: 5 });
    let into = |call: &dyn Fn(&mut [u8]) -> Result<(), Refusal>| {
        let mut rec = vec![1; 24];
        let answer = call(&mut rec);
        assert_eq!(answer.is_err(), rec == [1; 24], "a refused call writes nothing, and an accepted one all of its square");
        answer.map(|()| rec[to.offset])
    };
    let whole = |deq: &[i32; 16]| reconstruct_4x4(deq, &[100; 16]).map(|samples| samples[0]);
    let put = |deq: &[i32; 16]| into(&|rec| reconstruct_4x4_into(deq, &pred, from, rec, to));
    for (v, wanted) in [(32735, Ok(255)), (32736, Err(Refusal::Range)), (32767, Err(Refusal::Range)), (-32768, Ok(0))] {
        let deq = block(&[(0, v)]);
        assert_eq!((whole(&deq), put(&deq)), (wanted, wanted), "{v}");
    }
    for coefficients in [&[(4, 20_000), (5, 18_000), (12, -12_000)][..], &[(0, 20_000), (8, 18_000)], &[(0, 20_000), (4, 12_750)]] {
        let deq = block(coefficients);
        assert_eq!((whole(&deq), put(&deq)), (Err(Refusal::Range), Err(Refusal::Range)), "{coefficients:?}");
        // The rows that leave the buffer are the smaller refusal.
        let mut rec = [1; 16];
        assert_eq!(reconstruct_4x4_into(&deq, &pred, from, &mut rec, to), Err(Refusal::Room));
    }
    // The prediction is part of the same refusal, by its numbers alone.
    assert_eq!(reconstruct_4x4(&[0; 16], &[32767; 16]), Ok([255; 16]));
    assert_eq!(reconstruct_4x4(&[0; 16], &[32768; 16]), Err(Refusal::Range));
    // Residuals have no way: they go to the ends of 16 bits.
    for v in [32767, -32768] {
        let clipped = clip_u8(v);
        assert_eq!(add_residual_4x4(&[v; 16], &[0; 16]), Ok([clipped; 16]));
        assert_eq!(add_residual_8x8(&[v; 64], &[0; 64]), Ok([clipped; 64]));
        assert_eq!(into(&|rec| add_residual_4x4_into(&[v; 16], &pred, from, rec, to)), Ok(clipped));
        assert_eq!(into(&|rec| reconstruct_4x4_dc_into(v, &pred, from, rec, to)), Ok(clipped));
    }
}

#[test]
fn figures_of_the_8x8_inverse() {
    let alone = |place: usize, v: i32| inverse_8x8(&block(&[(place, v)]));
    for (c, r) in [(64, 1), (31, 0), (32, 1), (-32, 0), (-33, -1), (32735, 511), (-32768, -512)] {
        assert_eq!(alone(0, c), Ok([r; 64]));
    }
    for v in [32736, 32767] {
        assert_eq!(alone(0, v), Err(Refusal::Range), "{v}");
    }
    // Row 1, column 5. The columns before the rows, or rounding towards 0, would give other residuals.
    let wanted = [
        [3, -6, 1, 5, -5, -1, 6, -3],
        [3, -5, 1, 4, -4, -1, 5, -2],
        [2, -3, 1, 2, -2, -1, 3, -1],
        [1, -1, 0, 1, -1, 0, 1, -1],
        [-1, 2, 0, -1, 1, 0, -1, 1],
        [-1, 3, -1, -2, 2, 1, -3, 2],
        [-2, 5, -1, -4, 4, 1, -5, 3],
        [-3, 6, -1, -5, 5, 1, -6, 3],
    ];
    assert_eq!(alone(13, 170), Ok(std::array::from_fn(|k| wanted[k / 8][k % 8])));
    for place in 0..64 {
        for v in [32768, -32769, i32::MIN, i32::MAX] {
            assert_eq!(alone(place, v), Err(Refusal::Range), "{v} at place {place}");
        }
        // In an odd row or column a coefficient counts three halves at most. All but the first lower as much as they raise.
        let (low, high) = match (place, place / 8 % 2 + place % 2) {
            (0, _) => (-32768, 32735),
            (_, 0) => (-32735, 32735),
            (_, 1) => (-21823, 21823),
            _ => (-14548, 14549),
        };
        for (v, fits) in [(low, true), (low - 1, false), (high, true), (high + 1, false)] {
            assert_eq!(alone(place, v).is_ok(), fits, "{v} at place {place}");
        }
    }
}

#[test]
fn small_tables() {
    assert_eq!([29, 30, 51, 255].map(|q| chroma_qp(LumaQp(q)).0), [29, 29, 39, 39]);
    assert_eq!([-1, 0, 255, 256, i32::MIN, i32::MAX].map(clip_u8), [0, 0, 255, 255, 0, 255]);
    assert_eq!(nc_from_neighbors(Some(3), Some(4)), 4);
    assert_eq!((nc_from_neighbors(Some(3), None), nc_from_neighbors(None, Some(4)), nc_from_neighbors(None, None)), (3, 4, 0));
    let n: [u8; 24] = std::array::from_fn(|k| k as u8);
    assert_eq!(nnz_raster_from_z(&n)[..8], [0, 1, 4, 5, 2, 3, 6, 7]);
}

#[test]
fn permitted_sets_agree_with_the_predictors() {
    for bits in 0..8 {
        let m = marks(bits & 1 != 0, bits & 2 != 0, bits & 4 != 0);
        for mode in 0..16 {
            let says = |set: u16, answer: Option<Refusal>, last: u8| {
                let wanted = if mode > last {
                    Some(Refusal::Unknown)
                } else if set >> mode & 1 == 0 {
                    Some(Refusal::NotPermitted)
                } else {
                    None
                };
                assert_eq!(answer, wanted, "mode {mode}, marks {m:?}");
                assert_eq!(set >> (last + 1), 0);
            };
            says(permitted_4x4(m), intra4x4_pred(mode, m, &TOP, &LEFT, 6).err(), 8);
            says(permitted_8x8(m), intra8x8_pred(mode, m, &[9; 16], &[9; 8], 9).err(), 8);
            says(permitted_16x16(m), luma16x16_pred(mode, m, &[9; 16], &[9; 16], 9).err(), 3);
            says(permitted_chroma(m), chroma8x8_pred(mode, m, &[9; 8], &[9; 8], 9).err(), 3);
        }
    }
}

/// The groups by their bits, in the order of [`Around`].
const GROUPS: [u8; 4] = [1, 2, 4, 8];

/// The samples above, to the left, at the corner, and above and to the right of a block. A predictor takes the first ones of each, as many as it has.
type Around = [[u8; 16]; 4];

/// A predictor on a neighbourhood: mode, marks, the mark of above-right, and the samples. Above-right that is not marked repeats the last sample above.
type Predict = fn(u8, Marks, bool, &Around) -> Result<Vec<u8>, Refusal>;

fn top<const T: usize>(side: usize, right: bool, [above, _, _, above_right]: &Around) -> [u8; T] {
    std::array::from_fn(|k| match k {
        k if k < side => above[k],
        k if right => above_right[k - side],
        _ => above[side - 1],
    })
}

fn left<const L: usize>(around: &Around) -> [u8; L] {
    std::array::from_fn(|k| around[1][k])
}

/// What the library says that a predictor reads.
type Reads = fn(u8, Marks, bool) -> Groups;

/// Each predictor beside what the library says of it.
const READERS: [(&str, Reads, Predict); 4] = [
    ("4x4", reads_4x4, |mode, m, right, a| intra4x4_pred(mode, m, &top(4, right, a), &left(a), a[2][0]).map(|block| block.to_vec())),
    ("8x8", reads_8x8, |mode, m, right, a| intra8x8_pred(mode, m, &top(8, right, a), &left(a), a[2][0]).map(|block| block.to_vec())),
    (
        "16x16",
        |mode, m, _| reads_16x16(mode, m),
        |mode, m, _, a| luma16x16_pred(mode, m, &a[0], &a[1], a[2][0]).map(|block| block.to_vec()),
    ),
    (
        "chroma",
        |mode, m, _| reads_chroma(mode, m),
        |mode, m, _, a| chroma8x8_pred(mode, m, &top(8, false, a), &left(a), a[2][0]).map(|block| block.to_vec()),
    ),
];

/// Every mode number with every set of marks.
fn all_modes_and_marks() -> impl Iterator<Item = (u8, Marks, bool)> {
    let sixteen = |mode| (0..16).map(move |bits| (mode, marks(bits & 1 != 0, bits & 2 != 0, bits & 4 != 0), bits & 8 != 0));
    (0..=255).flat_map(sixteen)
}

#[test]
fn a_mode_reads_the_groups_whose_light_it_shows() {
    let mut read = 0;
    for (name, reads, predict) in READERS {
        for (mode, m, right) in all_modes_and_marks() {
            let dark = [[0; 16]; 4];
            let block = predict(mode, m, right, &dark);
            let mut shown = 0;
            for (k, group) in GROUPS.iter().enumerate() {
                let mut lit = dark;
                lit[k] = [255; 16];
                // A refused mode answers the same in the dark and in the light.
                shown |= if predict(mode, m, right, &lit) == block { 0 } else { *group };
            }
            let said = reads(mode, m, right);
            assert_eq!(said.bits(), shown, "{name}, mode {mode}, {m:?}, above-right {right}");
            assert_eq!([said.above(), said.left(), said.corner(), said.above_right()], GROUPS.map(|group| shown & group != 0));
            read += shown.count_ones();
        }
    }
    assert!(read > 200, "{read} groups of permitted modes are read");
}

#[test]
fn what_is_not_read_changes_no_prediction() {
    let mut state = 1u32;
    let mut byte = || {
        state = state.wrapping_mul(1664525).wrapping_add(1013904223);
        (state >> 24) as u8
    };
    let mut compared = 0;
    for (name, reads, predict) in READERS {
        for (mode, m, right) in all_modes_and_marks().filter(|&(mode, ..)| mode < 9) {
            let groups = reads(mode, m, right).bits();
            for _ in 0..20 {
                let one: Around = std::array::from_fn(|_| std::array::from_fn(|_| byte()));
                let other: Around = std::array::from_fn(|k| if groups & GROUPS[k] == 0 { std::array::from_fn(|_| byte()) } else { one[k] });
                let block = predict(mode, m, right, &one);
                assert_eq!(predict(mode, m, right, &other), block, "{name}, mode {mode}, {m:?}, above-right {right}");
                compared += block.is_ok() as u32;
            }
        }
    }
    assert!(compared > 2000, "{compared} predictions");
}

#[test]
fn named_modes_read_their_groups() {
    let all = marks(true, true, true);
    let set = |groups: Groups| [groups.above(), groups.left(), groups.corner(), groups.above_right()];
    let luma = |mode: LumaMode| mode.number();
    // Vertical copies the row above; in an 8x8 block that row is filtered first, with the corner and with the first sample above and to the right.
    assert_eq!(set(reads_4x4(luma(LumaMode::Vertical), all, true)), [true, false, false, false]);
    assert_eq!(set(reads_8x8(luma(LumaMode::Vertical), all, true)), [true, false, true, true]);
    assert_eq!(set(reads_8x8(luma(LumaMode::Vertical), all, false)), [true, false, true, false]);
    assert_eq!(set(reads_8x8(luma(LumaMode::Vertical), marks(true, true, false), true)), [true, false, false, true]);
    assert_eq!(set(reads_16x16(Luma16x16Mode::Vertical.number(), all)), [true, false, false, false]);
    assert_eq!(set(reads_chroma(ChromaMode::Vertical.number(), all)), [true, false, false, false]);
    // Horizontal-down ends before the last sample above, so that the filter does not bring above-right in. Vertical-right does not end there.
    for right in [false, true] {
        assert_eq!(set(reads_8x8(luma(LumaMode::HorizontalDown), all, right)), [true, true, true, false]);
        assert_eq!(set(reads_8x8(luma(LumaMode::VerticalRight), all, right)), [true, true, true, right]);
    }
    // Above-right that is not there is the last sample above, repeated.
    assert_eq!(set(reads_4x4(luma(LumaMode::DiagonalDownLeft), all, true)), [true, false, false, true]);
    assert_eq!(set(reads_4x4(luma(LumaMode::DiagonalDownLeft), all, false)), [true, false, false, false]);
    // DC reads the sides that there are.
    assert_eq!(set(reads_16x16(Luma16x16Mode::Dc.number(), all)), [true, true, false, false]);
    assert_eq!(set(reads_8x8(luma(LumaMode::Dc), marks(false, true, true), true)), [false, true, true, false]);
    assert_eq!(set(reads_chroma(ChromaMode::Dc.number(), marks(false, false, true))), [false; 4]);
    assert_eq!(set(reads_chroma(ChromaMode::Plane.number(), all)), [true, true, true, false]);
    // A mode that is refused reads nothing.
    assert_eq!(reads_4x4(luma(LumaMode::Vertical), marks(false, true, true), true).bits(), 0);
    assert_eq!(reads_8x8(luma(LumaMode::DiagonalDownRight), marks(true, true, false), true).bits(), 0);
    assert_eq!(reads_16x16(Luma16x16Mode::Plane.number(), marks(true, false, true)).bits(), 0);
    assert_eq!([reads_4x4(9, all, true), reads_8x8(255, all, true), reads_16x16(4, all), reads_chroma(4, all)].map(Groups::bits), [0; 4]);
}

#[test]
fn sums_clip_and_refuse() {
    assert_eq!(add_residual_4x4(&[300; 16], &[-10; 16]), Ok([255; 16]));
    assert_eq!(add_residual_8x8(&[-300; 64], &[10; 64]), Ok([0; 64]));
    assert_eq!(reconstruct_4x4(&[0; 16], &[77; 16]), Ok([77; 16]));
    assert_eq!(add_residual_4x4(&[32768; 16], &[0; 16]), Err(Refusal::Range));
    assert_eq!(add_residual_8x8(&[0; 64], &[-32769; 64]), Err(Refusal::Range));
    assert_eq!(reconstruct_4x4(&[i32::MIN; 16], &[0; 16]), Err(Refusal::Range));
    assert_eq!(inverse_4x4(&[i32::MAX; 16]), Err(Refusal::Range));
}

#[test]
fn blocks_into_a_plane() {
    let pred = [100; 16];
    let from = Square { offset: 0, stride: 4 };
    let to = Square { offset: 11, stride: 10 };
    let put = |call: &dyn Fn(&mut [u8]) -> Result<(), Refusal>| {
        let mut rec = vec![1; 60];
        call(&mut rec).unwrap();
        for (i, &v) in rec.iter().enumerate() {
            let inside = (1..5).contains(&(i / 10)) && (1..5).contains(&(i % 10));
            assert_eq!(v, if inside { 103 } else { 1 });
        }
    };
    let mut flat = [0; 16];
    flat[0] = 3 * 64;
    put(&|rec| reconstruct_4x4_into(&flat, &pred, from, rec, to));
    put(&|rec| reconstruct_4x4_dc_into(3, &pred, from, rec, to));
    put(&|rec| add_residual_4x4_into(&[3; 16], &pred, from, rec, to));

    let mut rec = vec![1; 45];
    let refused = |rec: &mut [u8], from, to| add_residual_4x4_into(&[3; 16], &pred, from, rec, to).unwrap_err();
    assert_eq!(refused(&mut rec, from, Square { offset: 12, stride: 10 }), Refusal::Room);
    assert_eq!(refused(&mut rec, from, Square { offset: usize::MAX, stride: 10 }), Refusal::Room);
    assert_eq!(refused(&mut rec, from, Square { offset: 0, stride: 3 }), Refusal::Room);
    assert_eq!(refused(&mut rec, Square { offset: 1, stride: 4 }, to), Refusal::Room);
    assert_eq!(refused(&mut rec, Square { offset: 0, stride: 4097 }, to), Refusal::Room);
    assert_eq!(reconstruct_4x4_dc_into(32768, &pred, from, &mut rec, Square { offset: 11, stride: 10 }), Err(Refusal::Range));
    assert_eq!(rec, vec![1; 45]);
}

#[test]
fn predictions_from_a_plane() {
    let rec: Vec<u8> = (0..32 * 20).map(|i| (i % 251) as u8).collect();
    let base = 33;
    let mut pred = [9; 300];
    i16x16_luma_pred(0, &mut pred, &rec, base, 32).unwrap();
    for y in 0..16 {
        assert_eq!(pred[16 * y..][..16], rec[1..17]);
    }
    assert!(pred[256..].iter().all(|&v| v == 9));
    chroma8x8_plane_pred(2, &mut pred, &rec, base, 32).unwrap();
    assert_eq!(pred[56..64], rec[1..9]);
    assert_eq!(i16x16_luma_pred(4, &mut pred, &rec, base, 32), Err(Refusal::Unknown));
    assert_eq!(chroma8x8_plane_pred(0, &mut pred, &rec, base, 32), Err(Refusal::Unknown));
    assert_eq!(i16x16_luma_pred(0, &mut pred, &rec, 32, 32), Err(Refusal::Room));
    assert_eq!(i16x16_luma_pred(0, &mut pred[..255], &rec, base, 32), Err(Refusal::Room));
    assert_eq!(i16x16_luma_pred(0, &mut pred, &rec, base, 0), Err(Refusal::Room));
    assert_eq!(i16x16_luma_pred(0, &mut pred, &rec, usize::MAX, 4096), Err(Refusal::Room));
}
