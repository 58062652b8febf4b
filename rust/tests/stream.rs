//! Pictures as an encoder codes them and another decoder shows them: the library makes the same samples of them, in any order.
mod store;

use jiwarbend::{Picture, Record, Refusal};

/// Rebuilds a picture of so many macroblocks of 4x4, 8x8 and 16x16 prediction, and compares its samples with the other decoder's.
fn has_the_samples(file: &[u8], wanted: &[u8], kinds: [usize; 3]) {
    let pictured = store::read(file);
    let records: Vec<Record> =
        pictured.records.into_iter().map(|(kind, modes, chroma_mode, numbers)| Record { kind, modes, chroma_mode, numbers }).collect();
    let of_kind = |kind| records.iter().filter(|r| r.kind == kind).count();
    assert_eq!([of_kind(0), of_kind(1), of_kind(2)], kinds);

    let mut picture = Picture::with_slices(pictured.w, pictured.h, pictured.slices).unwrap();
    // Every seventh macroblock comes first, and from the last to the first.
    let many = records.len();
    let mut waiting: Vec<usize> = (0..many).map(|k| (many - 1 - k) * 7 % many).collect();
    assert_ne!(many % 7, 0, "seven and the number of macroblocks have no common factor, so that each comes once");
    while !waiting.is_empty() {
        let before = waiting.len();
        waiting.retain(|&a| {
            let answer = picture.rebuild(a as u32 % pictured.w, a as u32 / pictured.w, &records[a]);
            assert!(matches!(answer, Ok(()) | Err(Refusal::NotReady)), "{answer:?} for macroblock {a}");
            answer.is_err()
        });
        assert!(waiting.len() < before, "the first undone macroblock is never refused as not ready");
    }
    assert!(picture.is_finished());
    let got: Vec<u8> = [picture.luma(), picture.cb(), picture.cr()].iter().flat_map(|p| p.rows().flatten().copied()).collect();
    assert!(got == wanted, "{} samples differ", got.iter().zip(wanted).filter(|(a, b)| a != b).count());
}

#[test]
fn a_picture_of_two_kinds() {
    has_the_samples(include_bytes!("data/bars_q30_baseline.rmb1"), include_bytes!("data/bars_q30_baseline.yuv"), [51, 0, 345]);
}

#[test]
fn a_picture_of_three_kinds() {
    has_the_samples(include_bytes!("data/fractal_q27.rmb1"), include_bytes!("data/fractal_q27.yuv"), [81, 18, 297]);
}

#[test]
fn a_picture_without_an_empty_block() {
    has_the_samples(include_bytes!("data/noise_q24.rmb1"), include_bytes!("data/noise_q24.yuv"), [75, 114, 207]);
}

#[test]
fn one_picture_at_three_qualities() {
    has_the_samples(include_bytes!("data/windmill_q20.rmb1"), include_bytes!("data/windmill_q20.yuv"), [459, 113, 308]);
    has_the_samples(include_bytes!("data/windmill_q28.rmb1"), include_bytes!("data/windmill_q28.yuv"), [398, 67, 415]);
    has_the_samples(include_bytes!("data/windmill_q36.rmb1"), include_bytes!("data/windmill_q36.yuv"), [241, 153, 486]);
}
