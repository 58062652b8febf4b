//! Several cores on one picture: computing and committing is rebuilding, whatever comes between the two; a result is committed to its own picture and start
//! alone; and pictures that several threads finish are those of raster order.
mod acceptable;
mod maps;
#[allow(dead_code)]
mod memory;
mod store;

use acceptable::{acceptable, acceptable_all, sides};
use jiwarbend::sys::{jiwarbend_commit, jiwarbend_compute};
use jiwarbend::{finish, ChromaMode, Computed, Lent, Luma16x16Mode, NotCommitted, Picture, Progress, Record, Refusal, Refused, Shared};
use maps::{same_planes, shuffled, slice_map};
use memory::{Memory, Numbers};
use std::sync::atomic::{AtomicBool, AtomicUsize, Ordering};

fn flat() -> Record {
    Record::of_16x16(Luma16x16Mode::Dc, ChromaMode::Dc)
}

impl Memory {
    /// A picture with padding in each plane, in planes that hold anything.
    fn at_random((w, h): (u32, u32), slices: Vec<u16>, numbers: &mut Numbers) -> Memory {
        let strides = [16, 8, 8].map(|side| (side * w + numbers.below(2 * side)) as usize);
        let mut memory = Memory::of((w, h), strides, slices, 0);
        memory.planes.iter_mut().flatten().for_each(|v| *v = numbers.below(256) as u8);
        memory
    }

    /// All that calls may write.
    fn written(&self) -> ([Vec<u8>; 3], Vec<u8>, Progress) {
        (self.planes.clone(), self.done.clone(), self.progress)
    }

    /// A call of `compute` into a block of this length, whatever is wrong with it. What else is lent must be as it was.
    fn compute(&mut self, (x, y): (u32, u32), record: &Record, block: &mut [u8]) -> u32 {
        self.compute_of((x, y), record, &record.modes, &record.numbers, block)
    }

    fn compute_of(&mut self, (x, y): (u32, u32), record: &Record, modes: &[u8], numbers: &[i32], block: &mut [u8]) -> u32 {
        let before = self.written();
        let [luma, cb, cr] = &self.planes;
        let [ls, cbs, crs] = self.strides;
        let (done, slices, progress) = (&self.done, &self.slices, [self.progress.count(), self.progress.last()]);
        let answer = unsafe {
            jiwarbend_compute(
                self.w,
                self.h,
                x,
                y,
                luma.as_ptr(),
                luma.len(),
                ls,
                cb.as_ptr(),
                cb.len(),
                cbs,
                cr.as_ptr(),
                cr.len(),
                crs,
                done.as_ptr(),
                done.len(),
                slices.as_ptr(),
                slices.len(),
                progress.as_ptr().cast(),
                record.kind,
                modes.as_ptr(),
                modes.len(),
                record.chroma_mode,
                numbers.as_ptr(),
                numbers.len(),
                block.as_mut_ptr(),
                block.len(),
            )
        };
        assert_eq!(self.written(), before, "compute only reads");
        answer
    }

    /// A call of `commit` with any bytes. Where it is refused all is as it was.
    fn commit(&mut self, (x, y): (u32, u32), block: &[u8]) -> u32 {
        let before = self.written();
        let [luma, cb, cr] = &mut self.planes;
        let [ls, cbs, crs] = self.strides;
        let mut progress = [self.progress.count(), self.progress.last()];
        let answer = unsafe {
            jiwarbend_commit(
                self.w,
                self.h,
                x,
                y,
                luma.as_mut_ptr(),
                luma.len(),
                ls,
                cb.as_mut_ptr(),
                cb.len(),
                cbs,
                cr.as_mut_ptr(),
                cr.len(),
                crs,
                self.done.as_mut_ptr(),
                self.done.len(),
                self.slices.as_ptr(),
                self.slices.len(),
                progress.as_mut_ptr().cast(),
                block.as_ptr(),
                block.len(),
            )
        };
        self.progress = Progress::at(progress[0], progress[1]);
        assert!(answer == 0 || self.written() == before, "a refused commit writes nothing");
        answer
    }

    fn rebuild(&mut self, (x, y): (u32, u32), record: &Record) -> u32 {
        self.lend().rebuild(x, y, record).map_or_else(Refusal::number, |()| 0)
    }
}

/// What stands where nothing has been written.
const UNTOUCHED: [u8; 384] = [0xa5; 384];

/// Offers a macroblock whole and in two calls, to two pictures in the same state: they are left in the same state, and the answers are the same.
fn see_both(whole: &mut Memory, at: (u32, u32), record: &Record) -> u32 {
    let (mut halves, mut block) = (whole.clone(), UNTOUCHED);
    let answer = halves.compute(at, record, &mut block);
    assert_eq!(answer, whole.rebuild(at, record), "of {at:?}");
    if answer == 0 {
        assert_eq!(halves.commit(at, &block), 0);
        // Whoever comes second is told so, with the same block or another one.
        assert_eq!([halves.commit(at, &block), halves.commit(at, &UNTOUCHED)], [4, 4]);
        assert_eq!(halves.compute(at, record, &mut block), 4);
    } else {
        assert_eq!(block, UNTOUCHED, "a refused compute leaves the block");
    }
    assert_eq!(halves.written(), whole.written());
    answer
}

/// A record that breaks a rule, or may.
fn garbled(record: &Record, numbers: &mut Numbers) -> Record {
    let mut record = record.clone();
    match numbers.below(7) {
        0 => record.kind = numbers.below(256) as u8,
        1 => record.modes[numbers.below(16) as usize] = numbers.below(256) as u8,
        2 => record.chroma_mode = numbers.below(5) as u8,
        3 => record.numbers[numbers.below(384) as usize] = [i32::MIN, -32_769, 32_768, i32::MAX][numbers.below(4) as usize],
        4 => record.numbers[16 * numbers.below(24) as usize] = 32_736,
        5 => record.modes = [numbers.below(9) as u8; 16],
        _ => record.numbers.fill(32_767),
    }
    record
}

const SIZES: [(u32, u32); 7] = [(1, 1), (1, 7), (7, 1), (2, 2), (3, 5), (6, 4), (9, 3)];

#[test]
fn both_halves_are_the_whole_in_every_state() {
    let (mut numbers, mut answers) = (Numbers(1), [0; 10]);
    for round in 0..200 {
        let size = SIZES[round % SIZES.len()];
        let slices = slice_map(size, &mut numbers);
        let records = acceptable_all(size.0, &slices, &mut numbers);
        let mut memory = Memory::at_random(size, slices, &mut numbers);
        while memory.done.contains(&0) {
            let address = numbers.below(size.0 * size.1);
            let at = (address % size.0, address / size.0);
            let record = &records[address as usize];
            let answer = match numbers.below(4) {
                0 => see_both(&mut memory, at, &garbled(record, &mut numbers)),
                1 => see_both(&mut memory, (numbers.below(size.0 + 1), numbers.below(size.1 + 2)), record),
                _ => see_both(&mut memory, at, record),
            };
            answers[answer as usize] += 1;
        }
        assert_eq!(memory.progress.count(), size.0 * size.1);
    }
    assert!([0, 3, 4, 5, 6, 7, 8].iter().all(|&n| answers[n] > 20), "{answers:?}");
}

#[test]
fn hostile_calls_are_answered_as_whole_ones() {
    let mut numbers = Numbers(2);
    let mut answers = [0; 10];
    for _ in 0..20_000 {
        let size = (1 + numbers.below(3), 1 + numbers.below(3));
        let slices = slice_map(size, &mut numbers);
        let address = numbers.below(size.0 * size.1) as usize;
        let mut record = acceptable(sides(size.0, &slices, address), &mut numbers);
        let mut memory = Memory::at_random(size, slices, &mut numbers);
        // Whatever is done, and with whatever byte it is not.
        memory.done.iter_mut().for_each(|mark| *mark = [1, 1, 1, 0, 2, 255][numbers.below(6) as usize]);
        memory.progress = Progress::at(numbers.below(size.0 * size.1 + 1), numbers.below(100));
        let (mut x, mut y) = (address as u32 % size.0, address as u32 / size.0);
        for _ in 0..numbers.below(3) {
            match numbers.below(14) {
                0 => memory.w = [0, 121, u32::MAX, size.0 + 1][numbers.below(4) as usize],
                1 => memory.h = [0, 69, u32::MAX, size.1 + 1][numbers.below(4) as usize],
                2 => memory.strides[numbers.below(3) as usize] = [0, 7, 4096, 4097, usize::MAX][numbers.below(5) as usize],
                3 => memory.planes[numbers.below(3) as usize].truncate(numbers.below(200) as usize),
                4 => memory.done.resize(numbers.below(11) as usize, 1),
                5 => memory.slices.resize(numbers.below(11) as usize, 0),
                6 => memory.progress = Progress::at([10, u32::MAX][numbers.below(2) as usize], 0),
                7 => x = [size.0, u32::MAX, size.0 - 1][numbers.below(3) as usize],
                8 => y = [size.1, u32::MAX, size.1 - 1][numbers.below(3) as usize],
                _ => record = garbled(&record, &mut numbers),
            }
        }
        answers[see_both(&mut memory, (x, y), &record) as usize] += 1;
    }
    assert!((0..=8).all(|n| answers[n] > 100), "{answers:?}");
}

#[test]
fn lists_of_other_lengths_are_refused() {
    let mut memory = Memory::of((2, 1), [40, 20, 20], vec![0; 2], 9);
    let record = flat();
    for len in [0, 1, 383, 385, 768] {
        let mut block = vec![7; len];
        assert_eq!(memory.compute((0, 0), &record, &mut block), 2, "a block of {len}");
        assert!(block.iter().all(|&v| v == 7));
        assert_eq!(memory.commit((0, 0), &block), 2, "a block of {len}");
        // Before it come 1, and behind it all else.
        assert_eq!([memory.compute((5, 0), &record, &mut block), memory.commit((5, 0), &block)], [2, 2]);
        let mut none = Memory { w: 0, ..memory.clone() };
        assert_eq!([none.compute((0, 0), &record, &mut block), none.commit((0, 0), &block)], [1, 1]);
    }
    let mut block = UNTOUCHED;
    for len in [0, 15, 17] {
        assert_eq!(memory.compute_of((0, 0), &record, &vec![0; len], &record.numbers, &mut block), 2, "{len} modes");
    }
    for len in [0, 383, 385] {
        assert_eq!(memory.compute_of((0, 0), &record, &record.modes, &vec![0; len], &mut block), 2, "{len} numbers");
    }
    assert_eq!(block, UNTOUCHED);
    assert_eq!(memory.compute((0, 0), &record, &mut block), 0);
    assert_eq!(memory.commit((0, 0), &block), 0);
}

#[test]
fn a_commit_asks_for_size_room_place_and_mark_alone() {
    let mut numbers = Numbers(3);
    let mut answers = [0; 10];
    for _ in 0..20_000 {
        let size = (1 + numbers.below(3), 1 + numbers.below(3));
        let slices = slice_map(size, &mut numbers);
        let mut memory = Memory::at_random(size, slices, &mut numbers);
        memory.done.iter_mut().for_each(|mark| *mark = [1, 0, 0, 255][numbers.below(4) as usize]);
        let at = (numbers.below(size.0 + 1), numbers.below(size.1 + 1));
        // Neighbours may be undone: a result has waited already.
        let block: Vec<u8> = (0..384).map(|_| numbers.below(256) as u8).collect();
        let wanted = match at {
            (x, y) if x == size.0 || y == size.1 => 3,
            (x, y) if memory.done[(y * size.0 + x) as usize] == 1 => 4,
            _ => 0,
        };
        let mut due = memory.clone();
        if wanted == 0 {
            let address = at.1 * size.0 + at.0;
            for ((plane, stride), (side, from)) in due.planes.iter_mut().zip(due.strides).zip([(16, 0), (8, 256), (8, 320)]) {
                for (k, row) in block[from..from + side * side].chunks(side).enumerate() {
                    plane[(at.1 as usize * side + k) * stride + at.0 as usize * side..][..side].copy_from_slice(row);
                }
            }
            due.done[address as usize] = 1;
            due.progress = Progress::at(1, address);
        }
        assert_eq!(memory.commit(at, &block), wanted);
        assert_eq!(memory.written(), due.written());
        answers[wanted as usize] += 1;
    }
    assert!([0, 3, 4].iter().all(|&n| answers[n] > 100), "{answers:?}");
    // The count never goes above the picture.
    let mut memory = Memory::of((1, 2), [16, 8, 8], vec![0; 2], 0);
    memory.progress = Progress::at(2, 1);
    assert_eq!(memory.commit((0, 0), &UNTOUCHED), 0);
    assert_eq!(memory.progress, Progress::at(2, 0));
}

fn in_raster_order((w, h): (u32, u32), slices: &[u16], records: &[Record]) -> Picture {
    let mut picture = Picture::with_slices(w, h, slices.to_vec()).unwrap();
    for (address, record) in records.iter().enumerate() {
        picture.rebuild(address as u32 % w, address as u32 / w, record).unwrap();
    }
    picture
}

#[test]
fn late_results_stay_right() {
    let (mut numbers, mut late) = (Numbers(4), 0);
    for round in 0..60 {
        let (w, h) = SIZES[round % SIZES.len()];
        let slices = slice_map((w, h), &mut numbers);
        let records = acceptable_all(w, &slices, &mut numbers);
        let wanted = in_raster_order((w, h), &slices, &records);
        let mut picture = Picture::with_slices(w, h, slices).unwrap();
        let mut kept: Vec<Computed> = Vec::new();
        while !picture.is_finished() {
            let address = numbers.below(w * h);
            let (x, y) = (address % w, address / w);
            match numbers.below(5) {
                0 => {
                    // A whole call, which may come before a result for the same macroblock is committed.
                    let done = picture.is_done(x, y);
                    let answer = picture.rebuild(x, y, &records[address as usize]);
                    assert!(matches!(answer, Ok(()) | Err(Refusal::NotReady)) || done && answer == Err(Refusal::Done));
                }
                1 if !kept.is_empty() => {
                    let one = kept.swap_remove(numbers.below(kept.len() as u32) as usize);
                    let done = picture.is_done(one.x(), one.y());
                    // A result for a macroblock that is not done is never refused.
                    assert_eq!(picture.commit(&one), if done { Err(NotCommitted::Done) } else { Ok(()) });
                    late += 1;
                }
                _ => kept.extend(picture.compute(x, y, &records[address as usize])),
            }
            let count = (0..w * h).filter(|a| picture.is_done(a % w, a / w)).count();
            assert_eq!(picture.progress().count() as usize, count);
        }
        assert!(same_planes(&picture, &wanted), "picture {round}");
        assert!(kept.iter().all(|one| picture.commit(one) == Err(NotCommitted::Done)));
    }
    assert!(late > 500, "{late} results were committed late");
}

#[test]
fn a_result_belongs_to_its_picture_and_its_start() {
    let mut picture = Picture::new(2, 2).unwrap();
    let one = picture.compute(0, 0, &flat()).unwrap();
    assert_eq!((one.x(), one.y()), (0, 0));
    assert_eq!((one.luma(), one.cb(), one.cr()), (&[128; 256][..], &[128; 64][..], &[128; 64][..]));
    assert_eq!(picture.progress(), Progress::new());

    // Another picture, and a clone of this one, of whatever state.
    let mut other = Picture::new(2, 2).unwrap();
    let mut clone = picture.clone();
    assert_eq!([other.commit(&one), clone.commit(&one)], [Err(NotCommitted::Foreign); 2]);
    assert!(!other.is_done(0, 0) && !clone.is_done(0, 0));
    let of_clone = clone.compute(0, 0, &flat()).unwrap();
    assert_eq!(picture.commit(&of_clone), Err(NotCommitted::Foreign));
    assert_eq!(clone.commit(&of_clone), Ok(()));

    // A copy of a result is as good as the result, and each is committed once.
    assert_eq!(picture.commit(&one.clone()), Ok(()));
    assert_eq!([picture.commit(&one), picture.commit(&one.clone())], [Err(NotCommitted::Done); 2]);
    assert_eq!(picture.progress(), Progress::at(1, 0));

    // A start makes it foreign, for a macroblock that is done again too.
    picture.start();
    assert_eq!(picture.commit(&one), Err(NotCommitted::Foreign));
    picture.rebuild(0, 0, &flat()).unwrap();
    assert_eq!(picture.commit(&one), Err(NotCommitted::Foreign));
    assert_eq!(picture.progress(), Progress::at(1, 0));

    // A picture keeps its start where it is moved, and two that are exchanged take theirs along.
    let two = picture.compute(1, 0, &flat()).unwrap();
    std::mem::swap(&mut picture, &mut other);
    assert_eq!(picture.commit(&two), Err(NotCommitted::Foreign));
    let mut moved = Box::new(other);
    assert_eq!(moved.commit(&two), Ok(()));
}

#[test]
fn a_result_of_lent_memory_belongs_to_the_loan() {
    let mut memory = Memory::of((2, 1), [40, 20, 20], vec![0; 2], 3);
    let mut lent = memory.lend();
    assert_eq!(lent.compute(1, 0, &flat()).unwrap_err(), Refusal::NotReady);
    assert_eq!(lent.compute_from(0, 0, 2, &[2; 15], 0, &[0; 384]).unwrap_err(), Refusal::Room);
    let one = lent.compute(0, 0, &flat()).unwrap();
    assert_eq!(lent.commit(&one), Ok(()));
    assert_eq!(lent.commit(&one), Err(NotCommitted::Done));
    let two = lent.compute(1, 0, &flat()).unwrap();
    lent.start().unwrap();
    assert_eq!(lent.commit(&one), Err(NotCommitted::Foreign));
    let one = lent.compute(0, 0, &flat()).unwrap();
    let mut again: Lent = memory.lend();
    assert_eq!([again.commit(&one), again.commit(&two)], [Err(NotCommitted::Foreign); 2]);
    assert_eq!(memory.progress, Progress::new());
    assert_eq!(Picture::new(2, 1).unwrap().commit(&one), Err(NotCommitted::Foreign));
}

#[test]
fn computing_says_what_rebuilding_would() {
    let picture = Picture::new(2, 2).unwrap();
    let refusal = |x, y, record: &Record| picture.compute(x, y, record).unwrap_err();
    assert_eq!(refusal(2, 0, &flat()), Refusal::Place);
    assert_eq!(refusal(1, 0, &flat()), Refusal::NotReady);
    assert_eq!(refusal(0, 0, &Record { kind: 3, ..flat() }), Refusal::Unknown);
    assert_eq!(refusal(0, 0, &Record { chroma_mode: 3, ..flat() }), Refusal::NotPermitted);
    assert_eq!(refusal(0, 0, &Record { numbers: [40_000; 384], ..flat() }), Refusal::Range);
    assert_eq!(picture.compute_from(0, 0, 2, &[2; 17], 0, &[0; 384]).unwrap_err(), Refusal::Room);
}

#[test]
fn threads_share_a_picture_in_every_way() {
    let mut numbers = Numbers(5);
    for round in 0..20 {
        let (w, h) = [(12, 9), (1, 20), (20, 1), (7, 13)][round % 4];
        let slices = slice_map((w, h), &mut numbers);
        let records = acceptable_all(w, &slices, &mut numbers);
        let wanted = in_raster_order((w, h), &slices, &records);
        let shared = Shared::new(Picture::with_slices(w, h, slices).unwrap());
        let committed = AtomicUsize::new(0);
        std::thread::scope(|scope| {
            for seed in 0..4 {
                let (shared, records, committed) = (&shared, &records, &committed);
                scope.spawn(move || {
                    let mut numbers = Numbers(100 * round as u64 + seed);
                    loop {
                        let turn = shared.turn();
                        if turn.is_empty() {
                            break;
                        }
                        let (x, y) = turn[numbers.below(turn.len() as u32) as usize];
                        let record = &records[(y * w + x) as usize];
                        let answer = match numbers.below(8) {
                            0 => shared.rebuild(x, y, record).map_err(|refusal| assert_eq!(refusal, Refusal::Done)),
                            // Abandoned.
                            1 => shared.compute(x, y, record).map(drop).map_err(drop).and(Err(())),
                            _ => match shared.compute(x, y, record) {
                                Ok(one) => shared.commit(&one).map_err(|why| assert_eq!(why, NotCommitted::Done)),
                                Err(refusal) => Err(assert_eq!(refusal, Refusal::Done)),
                            },
                        };
                        committed.fetch_add(answer.is_ok() as usize, Ordering::Relaxed);
                    }
                });
            }
        });
        let picture = shared.into_inner();
        assert_eq!((picture.progress().count(), committed.into_inner() as u32), (w * h, w * h));
        assert!(picture.is_finished() && same_planes(&picture, &wanted), "picture {round}");
    }
}

#[test]
fn a_thread_that_panics_under_the_lock_leaves_the_picture_to_the_others() {
    let shared = Shared::from(Picture::new(2, 1).unwrap());
    let spoilt = std::thread::scope(|scope| {
        let thread = scope.spawn(|| {
            let mut picture = shared.write();
            picture.rebuild(0, 0, &flat()).unwrap();
            panic!("on purpose");
        });
        thread.join()
    });
    assert!(spoilt.is_err());
    assert_eq!(shared.turn(), [(1, 0)]);
    let one = shared.compute(1, 0, &flat()).unwrap();
    shared.commit(&one).unwrap();
    assert!(shared.read().is_finished());
    shared.start();
    assert_eq!(shared.commit(&one), Err(NotCommitted::Foreign));
    assert_eq!(shared.into_inner().progress(), Progress::new());
}

#[test]
fn workers_finish_one_picture() {
    let mut numbers = Numbers(6);
    for (k, size) in [(1, 1), (1, 68), (2, 30), (120, 1), (3, 3), (13, 9), (40, 22)].into_iter().enumerate() {
        for workers in [0, 1, 2, 3, 8, 100] {
            let slices = slice_map(size, &mut numbers);
            let records = acceptable_all(size.0, &slices, &mut numbers);
            let wanted = in_raster_order(size, &slices, &records);
            let mut picture = Picture::with_slices(size.0, size.1, slices).unwrap();
            // Some are done before, here and there.
            for address in shuffled((0..size.0 * size.1).collect(), &mut numbers).into_iter().take(k * 10) {
                let _ = picture.rebuild(address % size.0, address / size.0, &records[address as usize]);
            }
            picture.finish(workers, |x, y| &records[(y * size.0 + x) as usize]).unwrap();
            assert!(picture.is_finished() && same_planes(&picture, &wanted), "{size:?} by {workers} workers");
            // Of a finished picture no record is asked for.
            picture.finish(workers, |_, _| -> Record { unreachable!() }).unwrap();
        }
    }
}

#[test]
fn workers_finish_many_pictures() {
    let mut numbers = Numbers(7);
    for workers in [1, 2, 5] {
        let mut records = Vec::new();
        let (mut pictures, mut wanted) = (Vec::new(), Vec::new());
        for k in 0..24 {
            let size = [(11, 9), (1, 12), (16, 2), (1, 1), (22, 18)][k % 5];
            let slices = slice_map(size, &mut numbers);
            records.push(acceptable_all(size.0, &slices, &mut numbers));
            wanted.push(in_raster_order(size, &slices, &records[k]));
            pictures.push(Picture::with_slices(size.0, size.1, slices).unwrap());
        }
        let columns: Vec<u32> = pictures.iter().map(Picture::w).collect();
        finish(&mut pictures, workers, |picture, x, y| &records[picture][(y * columns[picture] + x) as usize]).unwrap();
        assert!(pictures.iter().zip(&wanted).all(|(picture, wanted)| picture.is_finished() && same_planes(picture, wanted)));
    }
    finish(&mut [], 3, |_, _, _| -> Record { unreachable!() }).unwrap();
}

#[test]
fn a_coded_picture_is_that_of_the_other_decoder() {
    let coded = store::read(include_bytes!("data/windmill_q28.rmb1"));
    let of_store = |(kind, modes, chroma_mode, numbers)| Record { kind, modes, chroma_mode, numbers };
    let records: Vec<Record> = coded.records.into_iter().map(of_store).collect();
    let mut picture = Picture::with_slices(coded.w, coded.h, coded.slices).unwrap();
    picture.finish(3, |x, y| &records[(y * coded.w + x) as usize]).unwrap();
    let got: Vec<u8> = [picture.luma(), picture.cb(), picture.cr()].iter().flat_map(|p| p.rows().flatten().copied()).collect();
    assert!(got == include_bytes!("data/windmill_q28.yuv"));
}

#[test]
fn a_refused_record_is_named_and_the_other_pictures_are_finished() {
    let bad = (1, 5, 3);
    let bend = |mut record: Record, here: bool| {
        record.kind = if here { 3 } else { record.kind };
        record
    };
    for workers in [1, 2, 4] {
        let mut pictures: Vec<Picture> = (0..4).map(|_| Picture::new(9, 7).unwrap()).collect();
        let answer = finish(&mut pictures, workers, |picture, x, y| bend(flat(), (picture, x, y) == bad));
        assert_eq!(answer, Err(Refused { picture: 1, x: 5, y: 3, refusal: Refusal::Unknown }));
        assert_eq!(
            answer.unwrap_err().to_string(),
            "macroblock (5, 3) of picture 1: a kind or mode is unknown, or an unused mode is not 0"
        );
        let finished: Vec<bool> = pictures.iter().map(Picture::is_finished).collect();
        assert_eq!(finished, [true, false, true, true]);
        let left = &mut pictures[1];
        let count = (0..63).filter(|a| left.is_done(a % 9, a / 9)).count();
        assert_eq!((left.progress().count() as usize, left.is_done(5, 3)), (count, false));
        // With the right record it is finished from where it is.
        left.finish(workers, |_, _| flat()).unwrap();
        assert!(pictures[1].is_finished() && same_planes(&pictures[1], &pictures[0]));
    }
}

#[test]
fn a_worker_that_panics_gets_nobody_stuck() {
    for workers in [1, 2, 4] {
        // Once: the others take over.
        let (mut picture, first) = (Picture::new(20, 12).unwrap(), AtomicBool::new(true));
        let spoilt = std::panic::catch_unwind(std::panic::AssertUnwindSafe(|| {
            picture.finish(workers, |x, y| {
                assert!((x, y) != (7, 5) || !first.swap(false, Ordering::Relaxed), "on purpose");
                flat()
            })
        }));
        assert!(spoilt.is_err());
        assert!(picture.is_finished() || workers == 1, "by {workers} workers");
        // Always: each worker meets it, and the call ends.
        let mut picture = Picture::new(20, 12).unwrap();
        let spoilt = std::panic::catch_unwind(std::panic::AssertUnwindSafe(|| {
            picture.finish(workers, |x, y| {
                assert_ne!((x, y), (7, 5), "on purpose");
                flat()
            })
        }));
        assert!(spoilt.is_err() && !picture.is_done(7, 5));
        let count = (0..240).filter(|a| picture.is_done(a % 20, a / 20)).count();
        assert_eq!(picture.progress().count() as usize, count);
        picture.finish(workers, |_, _| flat()).unwrap();
        assert!(picture.is_finished());
    }
}

#[test]
fn what_is_shared_can_be_shared() {
    fn sent<T: Send>() {}
    fn shared<T: Sync>() {}
    sent::<Computed>();
    shared::<Computed>();
    sent::<Shared>();
    shared::<Shared>();
    shared::<Lent>();
    sent::<NotCommitted>();
    sent::<Refused>();
    assert_eq!(NotCommitted::Done.to_string(), "the macroblock is done");
}
