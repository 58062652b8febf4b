//! Pictures as a service uses them: every refusal, any order, several threads.
mod memory;

use jiwarbend::{ChromaMode, Kind, Lent, LentPlane, Luma16x16Mode, LumaMode, Picture, Progress, Record, Refusal};
use memory::{Memory, Numbers};
use std::sync::{Condvar, Mutex};

/// An acceptable record for any place: DC prediction, and some coefficients.
fn record(numbers: &mut Numbers) -> Record {
    let mut r = Record { kind: numbers.below(3) as u8, ..Record::default() };
    let used = [16, 4, 1][r.kind as usize];
    r.modes[..used].fill(2);
    for _ in 0..40 {
        r.numbers[numbers.below(384) as usize] = numbers.below(4001) as i32 - 2000;
    }
    r
}

fn records(w: u32, h: u32, seed: u64) -> Vec<Record> {
    let mut numbers = Numbers(seed);
    (0..w * h).map(|_| record(&mut numbers)).collect()
}

fn slices(w: u32, h: u32) -> Vec<u16> {
    (0..w * h).map(|a| (a / (w * h / 3 + 1)) as u16).collect()
}

fn in_raster_order(w: u32, h: u32, records: &[Record]) -> Picture {
    let mut picture = Picture::with_slices(w, h, slices(w, h)).unwrap();
    for (a, record) in records.iter().enumerate() {
        picture.rebuild(a as u32 % w, a as u32 / w, record).unwrap();
    }
    picture
}

fn same_planes(a: &Picture, b: &Picture) -> bool {
    a.luma() == b.luma() && a.cb() == b.cb() && a.cr() == b.cr()
}

#[test]
fn a_picture_is_the_same_in_any_order() {
    let (w, h) = (7, 5);
    let records = records(w, h, 1);
    let wanted = in_raster_order(w, h, &records);
    let mut numbers = Numbers(2);
    for _ in 0..20 {
        let mut picture = Picture::with_slices(w, h, slices(w, h)).unwrap();
        while !picture.is_finished() {
            let a = numbers.below(w * h);
            let (x, y) = (a % w, a / w);
            let done = picture.is_done(x, y);
            match picture.rebuild(x, y, &records[a as usize]) {
                Ok(()) => assert!(!done),
                Err(Refusal::Done) => assert!(done),
                Err(refusal) => assert_eq!(refusal, Refusal::NotReady),
            }
            if let Some((x, y)) = picture.first_undone().filter(|_| numbers.below(4) == 0) {
                picture.rebuild(x, y, &records[(y * w + x) as usize]).unwrap();
            }
        }
        assert!(same_planes(&picture, &wanted));
    }
}

#[test]
fn threads_hand_macroblocks_in() {
    let (w, h) = (12, 9);
    let records = records(w, h, 3);
    let wanted = in_raster_order(w, h, &records);
    let shared = Mutex::new(Picture::with_slices(w, h, slices(w, h)).unwrap());
    let moved = Condvar::new();
    std::thread::scope(|scope| {
        for thread in 0..4 {
            let (shared, moved, records) = (&shared, &moved, &records);
            scope.spawn(move || {
                // Each thread has every fourth macroblock, from the last to the first, and waits while none of them is ready.
                let mut mine: Vec<u32> = (0..w * h).filter(|a| a % 4 == thread).rev().collect();
                let mut picture = shared.lock().unwrap();
                while !mine.is_empty() {
                    let before = mine.len();
                    mine.retain(|&a| match picture.rebuild(a % w, a / w, &records[a as usize]) {
                        Ok(()) => false,
                        Err(refusal) => {
                            assert_eq!(refusal, Refusal::NotReady);
                            true
                        }
                    });
                    if mine.len() < before {
                        moved.notify_all();
                    } else {
                        picture = moved.wait(picture).unwrap();
                    }
                }
            });
        }
    });
    let picture = shared.into_inner().unwrap();
    assert!(picture.is_finished());
    assert!(same_planes(&picture, &wanted));
}

impl Memory {
    /// A picture of 2 by 2 macroblocks with padding.
    fn new() -> Memory {
        Memory::of((2, 2), [40, 20, 20], vec![0; 4], 7)
    }
}

fn flat() -> Record {
    Record::of_16x16(Luma16x16Mode::Dc, ChromaMode::Dc)
}

#[test]
fn every_refusal_has_its_number() {
    let good = flat();
    let bent = |bend: &dyn Fn(&mut Memory)| {
        let mut memory = Memory::new();
        bend(&mut memory);
        memory.refused(0, 0, &good)
    };
    assert_eq!(bent(&|m| m.w = 0), Refusal::Size);
    assert_eq!(bent(&|m| m.w = 121), Refusal::Size);
    assert_eq!(bent(&|m| m.h = 69), Refusal::Size);
    assert_eq!(bent(&|m| m.strides[0] = 31), Refusal::Room);
    assert_eq!(bent(&|m| m.strides[1] = 4097), Refusal::Room);
    assert_eq!(bent(&|m| m.planes[2].truncate(20 * 15 + 15)), Refusal::Room);
    assert_eq!(bent(&|m| m.done.push(0)), Refusal::Room);
    assert_eq!(bent(&|m| m.slices.truncate(3)), Refusal::Room);
    assert_eq!(bent(&|m| m.progress = Progress::at(5, 0)), Refusal::Room);
    assert_eq!(bent(&|m| m.done[0] = 1), Refusal::Done);

    let mut memory = Memory::new();
    assert_eq!(memory.refused(2, 0, &good), Refusal::Place);
    assert_eq!(memory.refused(0, 2, &good), Refusal::Place);
    assert_eq!(memory.refused(1, 0, &good), Refusal::NotReady);
    assert_eq!(memory.refused(0, 0, &Record { kind: 3, ..flat() }), Refusal::Unknown);
    assert_eq!(memory.refused(0, 0, &Record { chroma_mode: 4, ..flat() }), Refusal::Unknown);
    assert_eq!(memory.refused(0, 0, &Record { modes: [2; 16], ..flat() }), Refusal::Unknown);
    assert_eq!(memory.refused(0, 0, &Record { chroma_mode: 3, ..flat() }), Refusal::NotPermitted);
    assert_eq!(memory.refused(0, 0, &Record { modes: [0; 16], ..flat() }), Refusal::NotPermitted);
    let mut wide = flat();
    wide.numbers[383] = 32768;
    assert_eq!(memory.refused(0, 0, &wide), Refusal::Range);
    wide.numbers[383] = 32736;
    assert_eq!(memory.refused(0, 0, &wide), Refusal::Range);
    wide.numbers[383] = 32735;
    assert_eq!(memory.lend().rebuild(0, 0, &wide), Ok(()));

    let mut lent = memory.lend();
    assert_eq!(lent.rebuild_from(1, 0, 2, &[2; 15], 0, &[0; 384]), Err(Refusal::Room));
    assert_eq!(lent.rebuild_from(1, 0, 2, &good.modes, 0, &[0; 385]), Err(Refusal::Room));
}

#[test]
fn the_first_refusal_of_the_order_is_given() {
    let mut memory = Memory::new();
    let wide = Record { numbers: [i32::MIN; 384], ..flat() };
    let bad = Record { kind: 9, chroma_mode: 3, numbers: [i32::MIN; 384], ..Record::default() };
    let mut answers = Vec::new();
    answers.push(memory.refused(0, 0, &wide));
    // All of these have an undone neighbour that DC reads. What is wrong with the modes comes before it, and what is wrong with the numbers after it.
    answers.push(memory.refused(1, 0, &wide));
    answers.push(memory.refused(1, 0, &Record { chroma_mode: 3, ..wide }));
    answers.push(memory.refused(1, 0, &bad));
    memory.done[1] = 1;
    answers.push(memory.refused(1, 0, &bad));
    answers.push(memory.refused(9, 0, &bad));
    memory.slices.clear();
    answers.push(memory.refused(9, 0, &bad));
    memory.w = 500;
    answers.push(memory.refused(9, 0, &bad));
    let numbers: Vec<u32> = answers.iter().map(|r| r.number()).collect();
    assert_eq!(numbers, [8, 5, 7, 6, 4, 3, 2, 1]);
}

/// The answer for the middle of the second row of 3 by 2 macroblocks in one slice, where all neighbours are done but these: `a` is to the left, `b`
/// above, `c` above and to the right, `d` above and to the left.
fn answer_without(undone: &str, record: &Record) -> Result<(), Refusal> {
    let (mut done, slices) = (vec![0; 6], vec![0; 6]);
    for (neighbour, address) in [('a', 3), ('b', 1), ('c', 2), ('d', 0)] {
        done[address] = !undone.contains(neighbour) as u8;
    }
    let mut progress = Progress::at(done.iter().map(|&d| u32::from(d)).sum(), 0);
    let (mut luma, mut cb, mut cr) = (vec![90; 48 * 32], vec![90; 24 * 16], vec![90; 24 * 16]);
    let planes = [LentPlane::new(&mut luma, 48), LentPlane::new(&mut cb, 24), LentPlane::new(&mut cr, 24)];
    Lent::new((3, 2), planes, &mut done, &slices, &mut progress).rebuild(1, 1, record)
}

/// The neighbours for which a record waits, each undone by itself.
fn waits_for(record: &Record) -> String {
    "abcd".chars().filter(|n| answer_without(&n.to_string(), record).is_err()).collect()
}

#[test]
fn a_macroblock_waits_for_the_neighbours_that_it_reads() {
    use LumaMode::*;
    let vertical = Record::of_16x16(Luma16x16Mode::Vertical, ChromaMode::Vertical);
    assert_eq!(waits_for(&vertical), "b");
    assert_eq!(answer_without("acd", &vertical), Ok(()));
    assert_eq!(answer_without("b", &vertical), Err(Refusal::NotReady));
    let of_16x16 = |luma, chroma| waits_for(&Record::of_16x16(luma, chroma));
    assert_eq!(of_16x16(Luma16x16Mode::Horizontal, ChromaMode::Horizontal), "a");
    assert_eq!(of_16x16(Luma16x16Mode::Vertical, ChromaMode::Horizontal), "ab");
    assert_eq!(of_16x16(Luma16x16Mode::Dc, ChromaMode::Dc), "ab");
    assert_eq!(of_16x16(Luma16x16Mode::Plane, ChromaMode::Vertical), "abd");
    assert_eq!(of_16x16(Luma16x16Mode::Vertical, ChromaMode::Plane), "abd");

    // The other blocks read above alone, so that what is waited for beside `b` is one block's.
    let of_4x4 = |block: usize, mode: LumaMode| {
        let mut modes = [Vertical; 16];
        modes[block] = mode;
        waits_for(&Record::of_4x4(modes, ChromaMode::Vertical))
    };
    assert_eq!(of_4x4(0, Vertical), "b");
    for (mode, wanted) in [(DiagonalDownLeft, "bc"), (VerticalLeft, "bc"), (DiagonalDownRight, "b"), (Horizontal, "b"), (Dc, "b")] {
        assert_eq!(of_4x4(5, mode), wanted, "block 5, {mode:?}");
    }
    // Only block 0 has its corner in `d`; that of block 2 is in `a`, and that of block 1 in `b`.
    assert_eq!([0, 1, 2, 3].map(|block| of_4x4(block, DiagonalDownRight)), ["abd", "b", "ab", "b"]);
    assert_eq!([0, 2, 8, 10, 15].map(|block| of_4x4(block, HorizontalUp)), ["ab", "ab", "ab", "ab", "b"]);
    // Above-right of the others in the first row is in `b`, and of block 7 it is nowhere.
    assert_eq!([0, 1, 4, 7].map(|block| of_4x4(block, DiagonalDownLeft)), ["b"; 4]);

    // The filter reads the corner, whatever the mode: block 0 has it in `d`, block 1 in `b` and block 2 in `a`. Above-right of block 1 is in `c`.
    let of_8x8 = |mode: LumaMode| waits_for(&Record::of_8x8([Horizontal, mode, Vertical, Vertical], ChromaMode::Vertical));
    for mode in [Vertical, Dc, DiagonalDownLeft, DiagonalDownRight, VerticalRight, VerticalLeft] {
        assert_eq!(of_8x8(mode), "abcd", "{mode:?}");
    }
    for mode in [Horizontal, HorizontalDown, HorizontalUp] {
        assert_eq!(of_8x8(mode), "abd", "{mode:?}");
    }
}

/// A record of any kind whose modes are permitted where neither side is absent, or DC where one is.
fn slanted(numbers: &mut Numbers, inside: bool) -> Record {
    let mut r = record(numbers);
    if inside {
        let (used, modes) = [(16, 9), (4, 9), (1, 4)][r.kind as usize];
        r.modes[..used].iter_mut().for_each(|mode| *mode = numbers.below(modes) as u8);
        r.chroma_mode = numbers.below(4) as u8;
    }
    r
}

#[test]
fn a_picture_is_the_same_in_orders_that_leave_neighbours_out() {
    let (w, h) = (6, 5);
    let mut numbers = Numbers(4);
    let mut early = 0;
    for round in 0..40 {
        // Pictures of any modes, and pictures whose macroblocks below the first row read what is above alone.
        let records: Vec<Record> = (0..w * h)
            .map(|a| match round % 2 {
                0 => slanted(&mut numbers, a % w > 0 && a / w > 0),
                _ if a < w => record(&mut numbers),
                _ => {
                    let coefficients = record(&mut numbers).numbers.map(|v| v / 8);
                    Record { numbers: coefficients, ..Record::of_16x16(Luma16x16Mode::Vertical, ChromaMode::Vertical) }
                }
            })
            .collect();
        let mut wanted = Picture::new(w, h).unwrap();
        (0..w * h).for_each(|a| wanted.rebuild(a % w, a / w, &records[a as usize]).unwrap());
        let mut picture = Picture::new(w, h).unwrap();
        while !picture.is_finished() {
            let a = numbers.below(w * h);
            let (x, y) = (a % w, a / w);
            let neighbours =
                [(x.wrapping_sub(1), y), (x, y.wrapping_sub(1)), (x + 1, y.wrapping_sub(1)), (x.wrapping_sub(1), y.wrapping_sub(1))];
            let all_done = neighbours.iter().all(|&(x, y)| x >= w || y >= h || picture.is_done(x, y));
            let done = picture.is_done(x, y);
            match picture.rebuild(x, y, &records[a as usize]) {
                Ok(()) => early += !all_done as u32,
                Err(Refusal::Done) => assert!(done),
                Err(refusal) => assert!(refusal == Refusal::NotReady && !all_done),
            }
        }
        assert!(same_planes(&picture, &wanted), "picture {round}");
    }
    assert!(early > 100, "{early} macroblocks were accepted beside an undone neighbour");
}

/// Coefficients of a block, by place.
type Block = &'static [(usize, i32)];

/// Blocks whose coefficients are in range and which leave it in the rows, in the columns, and at the very end: of 16 and of 64 coefficients.
const HALFWAY_4X4: [Block; 3] = [&[(4, 20_000), (5, 18_000), (12, -12_000)], &[(0, 20_000), (8, 18_000)], &[(0, 32_736)]];
const HALFWAY_8X8: [Block; 3] = [&[(1, 22_000), (7, -4_000)], &[(8, 22_000), (56, -4_000)], &[(0, 32_736)]];

#[test]
fn a_block_that_leaves_the_range_on_the_way_is_refused_in_every_plane() {
    let kinds = [
        Record::of_4x4([LumaMode::Dc; 16], ChromaMode::Dc),
        Record::of_8x8([LumaMode::Dc; 4], ChromaMode::Dc),
        Record::of_16x16(Luma16x16Mode::Dc, ChromaMode::Dc),
    ];
    let mut refusals = 0;
    for good in kinds {
        let (luma, of_luma) = if good.kind == 1 { (64, HALFWAY_8X8) } else { (16, HALFWAY_4X4) };
        let places = (0..256).step_by(luma).map(|at| (at, of_luma)).chain((256..384).step_by(16).map(|at| (at, HALFWAY_4X4)));
        for (at, blocks) in places {
            let mut memory = Memory::new();
            memory.lend().rebuild(0, 0, &good).unwrap();
            for block in blocks {
                let mut bad = good.clone();
                block.iter().for_each(|&(place, v)| bad.numbers[at + place] = v);
                assert!(bad.numbers.iter().all(|v| (-32768..=32767).contains(v)));
                assert_eq!(memory.refused(1, 0, &bad), Refusal::Range, "kind {}, {block:?} from number {at} on", good.kind);
                // A mode that is not permitted is the smaller refusal.
                assert_eq!(memory.refused(1, 0, &Record { chroma_mode: 2, ..bad }), Refusal::NotPermitted);
                refusals += 1;
            }
            assert_eq!((memory.progress, &memory.done[..]), (Progress::at(1, 0), &[1, 0, 0, 0][..]));
            memory.lend().rebuild(1, 0, &good).unwrap();
            assert_eq!((memory.progress, &memory.done[..]), (Progress::at(2, 1), &[1, 1, 0, 0][..]));
        }
    }
    assert_eq!(refusals, 3 * ((16 + 8) + (4 + 8) + (16 + 8)));
}

#[test]
fn blocks_at_the_ends_of_the_range_are_taken_in_every_plane() {
    for (v, sample) in [(32735, 255), (-32768, 0)] {
        for mut record in [Record::of_8x8([LumaMode::Dc; 4], ChromaMode::Dc), flat()] {
            let luma = if record.kind == 1 { 64 } else { 16 };
            (0..256).step_by(luma).chain((256..384).step_by(16)).for_each(|at| record.numbers[at] = v);
            let mut picture = Picture::new(1, 1).unwrap();
            picture.rebuild(0, 0, &record).unwrap();
            assert!([picture.luma(), picture.cb(), picture.cr()].iter().all(|plane| plane.rows().flatten().all(|&v| v == sample)));
        }
    }
}

#[test]
fn starting_clears_the_map_and_the_progress() {
    let mut memory = Memory::new();
    memory.done = vec![1, 9, 0, 1];
    memory.progress = Progress::at(77, 3);
    memory.lend().start().unwrap();
    assert_eq!((memory.done.clone(), memory.progress), (vec![0; 4], Progress::new()));

    memory.done = vec![5; 3];
    assert_eq!(memory.lend().start(), Err(Refusal::Room));
    memory.h = 0;
    assert_eq!(memory.lend().start(), Err(Refusal::Size));
    assert_eq!(memory.done, vec![5; 3]);
}

#[test]
fn padding_is_left_alone_and_counts_follow() {
    let mut memory = Memory::new();
    for a in 0..4 {
        memory.lend().rebuild(a % 2, a / 2, &flat()).unwrap();
        assert_eq!(memory.progress, Progress::at(a + 1, a));
    }
    for (plane, (stride, width)) in memory.planes.iter().zip([(40, 32), (20, 16), (20, 16)]) {
        for row in plane.chunks(stride) {
            assert!(row[..width].iter().all(|&v| v == 128));
            assert!(row[width..].iter().all(|&v| v == 7));
        }
    }
}

#[test]
fn an_8x8_macroblock_has_four_blocks_of_coefficients() {
    let mut record = Record::of_8x8([LumaMode::Dc; 4], ChromaMode::Dc);
    // Block 3: all samples by 10, and the columns by coefficient 1. The blocks before it stay as they are predicted, and it is predicted from them.
    (record.numbers[192], record.numbers[193]) = (640, 128);
    let mut picture = Picture::new(1, 1).unwrap();
    picture.rebuild(0, 0, &record).unwrap();
    for (y, row) in picture.luma().rows().enumerate() {
        assert_eq!(row[..8], [128; 8]);
        assert_eq!(row[8..], if y < 8 { [128; 8] } else { [141, 141, 140, 139, 137, 137, 136, 135] });
    }
    // Sums are clipped.
    record.numbers[192] = 32_000;
    picture.start();
    picture.rebuild(0, 0, &record).unwrap();
    assert!(picture.luma().rows().skip(8).all(|row| row[8..] == [255; 8]));
    // A number out of range is refused at either end of the four blocks.
    for place in [0, 255] {
        let mut wide = record.clone();
        wide.numbers[place] = -32769;
        picture.start();
        assert_eq!(picture.rebuild(0, 0, &wide), Err(Refusal::Range));
    }
}

#[test]
fn a_picture_that_cannot_be_is_refused_when_it_is_made() {
    assert_eq!(Picture::new(u32::MAX, u32::MAX).unwrap_err(), Refusal::Size);
    assert_eq!(Picture::with_slices(2, 2, vec![0; 5]).unwrap_err(), Refusal::Room);
    assert_eq!(Picture::with_strides(2, 2, vec![0; 4], 31, 16).unwrap_err(), Refusal::Room);
    assert_eq!(Picture::with_strides(2, 2, vec![0; 4], 32, 4097).unwrap_err(), Refusal::Room);
    assert!(Picture::with_strides(120, 68, vec![0; 120 * 68], 4096, 960).is_ok());
}

#[test]
fn names_have_the_numbers_of_the_records() {
    assert_eq!(Kind::ALL.iter().map(|k| k.number()).collect::<Vec<_>>(), [0, 1, 2]);
    assert_eq!(LumaMode::ALL.iter().map(|m| m.number()).collect::<Vec<_>>(), (0..9).collect::<Vec<_>>());
    assert_eq!([Luma16x16Mode::Vertical, Luma16x16Mode::Plane].map(u8::from), [0, 3]);
    assert_eq!([ChromaMode::Dc, ChromaMode::Horizontal, ChromaMode::Vertical, ChromaMode::Plane].map(u8::from), [0, 1, 2, 3]);
    assert_eq!((LumaMode::from_number(8), LumaMode::from_number(9)), (Some(LumaMode::HorizontalUp), None));
    assert_eq!((ChromaMode::from_number(3), ChromaMode::from_number(4)), (Some(ChromaMode::Plane), None));
    assert_eq!(Refusal::ALL.iter().map(|r| r.number()).collect::<Vec<_>>(), [1, 2, 3, 4, 5, 6, 7, 8, 9, 13]);
    assert!(Refusal::ALL.iter().all(|&r| Refusal::from_number(r.number()) == Some(r)));
    assert_eq!([0, 10, 11, 12, 14, u32::MAX].map(Refusal::from_number), [None; 6]);

    let mut picture = Picture::new(1, 1).unwrap();
    for record in [
        Record::of_4x4([LumaMode::Dc; 16], ChromaMode::Dc),
        Record::of_8x8([LumaMode::Dc; 4], ChromaMode::Dc),
        Record::of_16x16(Luma16x16Mode::Dc, ChromaMode::Dc),
    ] {
        picture.start();
        picture.rebuild(0, 0, &record).unwrap();
        assert!(picture.is_finished() && picture.luma().rows().flatten().all(|&v| v == 128));
    }
}

#[test]
#[should_panic(expected = "row 16 of a plane of 16 rows")]
fn a_row_below_the_plane_panics() {
    Picture::new(1, 1).unwrap().luma().row(16);
}

#[test]
#[should_panic(expected = "of a plane of 16 rows")]
fn a_row_that_would_wrap_panics() {
    // A stride of 16 times this number is 2 to the 64th.
    Picture::new(1, 1).unwrap().luma().row(1 << (usize::BITS - 4));
}

#[test]
fn pictures_can_be_sent_and_shared() {
    fn sent<T: Send>() {}
    fn shared<T: Sync>() {}
    sent::<Picture>();
    shared::<Picture>();
    sent::<Lent>();
    sent::<Refusal>();
}
