//! Cases on their side: the partner's answer and block follow from the mode's, and where that ends.
use jiwarbend::block::Marks;
use jiwarbend::turned::{Case4x4, Case8x8};
use jiwarbend::{LumaMode, Refusal};

const ALL: Marks = Marks { above: true, left: true, corner: true };
const TOP: [u8; 8] = [10, 20, 30, 40, 50, 60, 70, 80];
const LEFT: [u8; 4] = [12, 24, 36, 48];

fn marks() -> impl Iterator<Item = Marks> {
    (0..8).map(|b| Marks { above: b & 1 != 0, left: b & 2 != 0, corner: b & 4 != 0 })
}

/// Samples that are all over the place, others for each `seed`.
fn samples<const N: usize>(seed: usize) -> [u8; N] {
    std::array::from_fn(|k| (((seed * 31 + k * 7 + 1) * 2_654_435_761) >> 11) as u8)
}

/// The case on its side is refused as the case is, or its block is the transposed one. 1 where they are accepted, else 0.
fn agrees<const B: usize>(case: Result<[u8; B], Refusal>, turned: Result<[u8; B], Refusal>, transposed: fn(&[u8; B]) -> [u8; B]) -> usize {
    assert_eq!(turned, case.map(|block| transposed(&block)));
    case.is_ok() as usize
}

#[test]
fn cases_of_4x4() {
    let (mut given, mut by_turning, mut accepted) = (0, 0, 0);
    for seed in 0..40 {
        for (mode, marks) in (0..9).flat_map(|mode| marks().map(move |m| (mode, m))) {
            let case = Case4x4 { mode, marks, top: samples(seed), left: samples(seed + 100), corner: seed as u8 };
            given += 1;
            for turned in [samples(seed + 200), [case.left[3]; 4]].iter().filter_map(|&right| case.turned(right)) {
                accepted += agrees(case.predict(), turned.predict(), Case4x4::transposed);
                by_turning += 1;
            }
        }
    }
    assert_eq!((given, by_turning, accepted), (40 * 72, 40 * 96, 40 * 38));
}

#[test]
fn cases_of_8x8() {
    let (mut by_turning, mut accepted) = (0, 0);
    for seed in 0..40 {
        for (mode, marks) in (0..9).flat_map(|mode| marks().map(move |m| (mode, m))) {
            let mut case = Case8x8 { mode, marks, top: samples(seed), left: samples(seed + 100), corner: seed as u8 };
            case.top[8] = case.top[7];
            let mut right = samples(seed + 200);
            right[0] = case.left[7];
            if let Some(turned) = case.turned(right) {
                accepted += agrees(case.predict(), turned.predict(), Case8x8::transposed);
                by_turning += 1;
            }
        }
    }
    assert_eq!((by_turning, accepted), (40 * 48, 40 * 19));
}

#[test]
fn partners() {
    for &mode in LumaMode::ALL {
        assert!(mode.partner().map_or(true, |other| other.partner() == Some(mode)), "{mode:?}");
    }
    let alone: Vec<u8> = LumaMode::ALL.iter().filter(|mode| mode.partner().is_none()).map(|mode| mode.number()).collect();
    assert_eq!(alone, [3, 7, 8]);
    let unknown = Case4x4 { mode: 9, marks: ALL, top: TOP, left: LEFT, corner: 6 };
    assert_eq!((unknown.predict(), unknown.turned([0; 4])), (Err(Refusal::Unknown), None));
}

#[test]
fn vertical_left_and_horizontal_up_are_no_partners() {
    let left = Case4x4 { mode: 7, marks: ALL, top: TOP, left: LEFT, corner: 6 };
    let up = Case4x4 { mode: 8, marks: ALL, top: [12, 24, 36, 48, 0, 0, 0, 0], left: [10, 20, 30, 40], corner: 6 };
    assert_eq!((left.predict().unwrap()[15], up.predict().unwrap()[15]), (60, 40));
    let (above, beside) = ([10, 20, 30, 40, 50, 60, 70, 80], [12, 24, 36, 48, 60, 72, 84, 96]);
    let top = |first: [u8; 8], next: u8, rest: u8| std::array::from_fn(|k| if k < 8 { first[k] } else { [next, rest][(k > 8) as usize] });
    let left = Case8x8 { mode: 7, marks: ALL, top: top(above, 80, 160), left: beside, corner: 6 };
    let up = Case8x8 { mode: 8, marks: ALL, top: top(beside, 96, 0), left: above, corner: 6 };
    assert_eq!((left.predict().unwrap()[63], up.predict().unwrap()[63]), (160, 78));
}

#[test]
fn an_8x8_case_needs_sample_8_to_equal_sample_7() {
    let (above, beside) = ([10, 20, 30, 40, 50, 60, 70, 80], [12, 24, 36, 48, 60, 72, 84, 96]);
    let top = |first: [u8; 8], next: u8| std::array::from_fn(|k| *first.get(k).unwrap_or(&next));
    let vertical = |next| Case8x8 { mode: 0, marks: ALL, top: top(above, next), left: beside, corner: 6 };
    let horizontal = Case8x8 { mode: 1, marks: ALL, top: top(beside, 96), left: above, corner: 6 };
    assert_eq!(vertical(80).turned([96; 8]), Some(horizontal));
    assert_eq!((vertical(80).predict().unwrap()[7], horizontal.predict().unwrap()[56]), (78, 78));
    // Before the exchange, and after it.
    assert_eq!((vertical(90).turned([96; 8]), horizontal.turned([90; 8])), (None, None));
    assert_eq!(vertical(90).predict().unwrap()[7], 80);
    // A row that is not available may hold anything.
    let only_left = |case: Case8x8| Case8x8 { marks: Marks { above: false, left: true, corner: false }, ..case };
    let dc = only_left(Case8x8 { mode: 2, ..vertical(90) });
    assert_eq!(dc.turned([96; 8]).unwrap().predict(), dc.predict());
}
