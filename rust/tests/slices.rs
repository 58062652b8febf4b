//! What a bad slice can touch. Whatever comes for it or stays away, the calls for the other slices are answered as if nothing had come, and they
//! leave the same marks and samples. Only the progress record is shared.
mod acceptable;
mod memory;
mod store;

use acceptable::{acceptable, sides};
use jiwarbend::block::Marks;
use jiwarbend::{ChromaMode, Luma16x16Mode, Picture, Progress, Record, Refusal};
use memory::{Memory, Numbers};

type Answer = Result<(), Refusal>;

/// What every byte of a picture's planes holds before the first call, samples and padding.
const FILL: u8 = 77;

/// A macroblock that comes, and the refusal that it always meets where its record is broken.
#[derive(Clone)]
struct Arrival {
    address: usize,
    record: Record,
    refusal: Option<Refusal>,
}

impl Arrival {
    fn of(address: usize, record: Record) -> Arrival {
        Arrival { address, record, refusal: None }
    }
}

impl Memory {
    /// A picture whose strides and lengths are chosen at random from those that it may have.
    fn at_random((w, h): (u32, u32), slices: &[u16], fill: u8, numbers: &mut Numbers) -> Memory {
        let strides = [16, 8, 8].map(|side| (side * w + numbers.below(3 * side)) as usize);
        let mut memory = Memory::of((w, h), strides, slices.to_vec(), fill);
        for ((plane, stride), side) in memory.planes.iter_mut().zip(strides).zip([16, 8, 8]) {
            let least = (side * h as usize - 1) * stride + side * w as usize;
            plane.resize(least + numbers.below(100) as usize, fill);
        }
        memory
    }

    /// Offers a macroblock, and sees that the progress record tells of it where it is accepted, and is as it was where it is refused.
    fn offer(&mut self, arrival: &Arrival) -> Answer {
        let (before, address) = (self.progress, arrival.address as u32);
        let (x, y) = (address % self.w, address / self.w);
        let answer = self.lend().rebuild(x, y, &arrival.record);
        let wanted = match answer {
            Ok(()) => Progress::at((before.count() + 1).min(self.w * self.h), address),
            Err(_) => before,
        };
        assert_eq!(self.progress, wanted);
        answer
    }

    /// The samples of a macroblock: those of luma, Cb and Cr, row by row.
    fn samples(&self, address: usize) -> Vec<u8> {
        let (x, y) = (address % self.w as usize, address / self.w as usize);
        let mut samples = Vec::with_capacity(384);
        for ((plane, stride), side) in self.planes.iter().zip(self.strides).zip([16, 8, 8]) {
            (side * y..side * (y + 1)).for_each(|row| samples.extend_from_slice(&plane[row * stride + side * x..][..side]));
        }
        samples
    }

    fn sides(&self, address: usize) -> Marks {
        sides(self.w, &self.slices, address)
    }

    fn is_done(&self, address: usize) -> bool {
        self.done[address] == 1
    }

    /// Whether a macroblock is undone and its samples are those from before the first call.
    fn is_untouched(&self, address: usize) -> bool {
        !self.is_done(address) && self.samples(address) == [FILL; 384]
    }

    /// Whether a macroblock has the same mark and the same samples in another picture.
    fn agrees(&self, other: &Memory, address: usize) -> bool {
        self.is_done(address) == other.is_done(address) && self.samples(address) == other.samples(address)
    }

    /// Puts any samples and any mark where a macroblock stands.
    fn scramble(&mut self, address: usize, numbers: &mut Numbers) {
        let (x, y) = (address % self.w as usize, address / self.w as usize);
        for ((plane, stride), side) in self.planes.iter_mut().zip(self.strides).zip([16, 8, 8]) {
            for row in side * y..side * (y + 1) {
                plane[row * stride + side * x..][..side].iter_mut().for_each(|v| *v = numbers.below(256) as u8);
            }
        }
        self.done[address] = [0, 1, 1, numbers.below(256) as u8][numbers.below(4) as usize];
    }

    /// The addresses of a slice, from the first.
    fn inside(&self, slice: u16) -> Vec<usize> {
        (0..self.slices.len()).filter(|&a| self.slices[a] == slice).collect()
    }

    /// The addresses of all other slices.
    fn outside(&self, slice: u16) -> Vec<usize> {
        (0..self.slices.len()).filter(|&a| self.slices[a] != slice).collect()
    }

    /// The slice numbers of the picture, each once.
    fn slice_numbers(&self) -> Vec<u16> {
        let mut once = self.slices.clone();
        once.sort_unstable();
        once.dedup();
        once
    }

    /// Whether every byte to the right of the rows and after the last one holds `fill`.
    fn padding_holds(&self, fill: u8) -> bool {
        self.planes.iter().zip(self.strides).zip([16, 8, 8]).all(|((plane, stride), side)| {
            let (width, height) = (side * self.w as usize, side * self.h as usize);
            let padding = |(row, bytes): (usize, &[u8])| bytes.iter().skip(if row < height { width } else { 0 }).all(|&v| v == fill);
            plane.chunks(stride).enumerate().all(padding)
        })
    }
}

/// A macroblock whose record is broken in one of several ways, with the refusal that it meets as long as nothing of its slice is done.
fn broken(address: usize, mut record: Record, sides: Marks, numbers: &mut Numbers) -> Arrival {
    // Every permitted chroma mode reads the macroblock above or to the left where there is one, and a wait is told before a number.
    let of_numbers = if sides.above || sides.left { Refusal::NotReady } else { Refusal::Range };
    let refusal = match numbers.below(6) {
        0 => {
            record.kind = 3 + numbers.below(253) as u8;
            Refusal::Unknown
        }
        1 => {
            // Unknown where sixteen modes are used, and not 0 where it is unused.
            record.modes[15] = 9 + numbers.below(247) as u8;
            Refusal::Unknown
        }
        2 => {
            record.chroma_mode = 4 + numbers.below(252) as u8;
            Refusal::Unknown
        }
        3 if !(sides.above && sides.left && sides.corner) => {
            record.chroma_mode = ChromaMode::Plane.number();
            Refusal::NotPermitted
        }
        4 => {
            // Each number is in range, and the block is not.
            record.numbers[256..272].fill(0);
            record.numbers[256] = 32_736;
            of_numbers
        }
        _ => {
            record.numbers[numbers.below(384) as usize] = [i32::MIN, -32_769, 32_768, i32::MAX][numbers.below(4) as usize];
            of_numbers
        }
    };
    Arrival { address, record, refusal: Some(refusal) }
}

/// A picture to which macroblocks come: those that wait to be offered, and the calls so far with their answers. Both name arrivals by their place.
struct UnderWay {
    memory: Memory,
    arrivals: Vec<Arrival>,
    waiting: Vec<usize>,
    calls: Vec<(usize, Answer)>,
}

impl UnderWay {
    fn new(memory: Memory, arrivals: Vec<Arrival>) -> UnderWay {
        UnderWay { memory, waiting: (0..arrivals.len()).collect(), arrivals, calls: Vec::new() }
    }

    /// Offers one that waits, taken at random, and gives its slice. It waits on if it is not ready, and some are offered again that need not be.
    fn step(&mut self, numbers: &mut Numbers) -> u16 {
        let at = numbers.below(self.waiting.len() as u32) as usize;
        let arrival = &self.arrivals[self.waiting[at]];
        let answer = self.memory.offer(arrival);
        self.calls.push((self.waiting[at], answer));
        let again = match arrival.refusal {
            Some(refusal) => {
                assert_eq!(answer, Err(refusal), "macroblock {}", arrival.address);
                numbers.below(8) > 0
            }
            None => {
                assert!(matches!(answer, Ok(()) | Err(Refusal::NotReady | Refusal::Done)), "{answer:?} for macroblock {}", arrival.address);
                answer == Err(Refusal::NotReady) || answer == Ok(()) && numbers.below(8) == 0
            }
        };
        let slice = self.memory.slices[arrival.address];
        if !again {
            self.waiting.swap_remove(at);
        }
        assert!(self.calls.len() < 1000 * self.arrivals.len(), "what waits never becomes ready");
        slice
    }

    /// Steps until nothing waits.
    fn run(&mut self, numbers: &mut Numbers) {
        while !self.waiting.is_empty() {
            self.step(numbers);
        }
    }

    /// A picture of this memory to which only the calls of some slices come, in the same order: each is answered as here.
    fn replayed(&self, mut alone: Memory, kept: impl Fn(u16) -> bool) -> Memory {
        for (n, &(k, answer)) in self.calls.iter().enumerate() {
            let arrival = &self.arrivals[k];
            if kept(self.memory.slices[arrival.address]) {
                assert_eq!(alone.offer(arrival), answer, "call {n}, macroblock {}", arrival.address);
            }
        }
        alone
    }
}

/// A picture that an encoder coded: its records, and its samples as another decoder gives them, with its slices.
struct Coded {
    records: Vec<Record>,
    wanted: Memory,
}

fn coded(file: &[u8], samples: &[u8]) -> Coded {
    let store::Pictured { w, h, slices, records } = store::read(file);
    let record = |(kind, modes, chroma_mode, numbers)| Record { kind, modes, chroma_mode, numbers };
    let mut wanted = Memory::of((w, h), [16, 8, 8].map(|side| side * w as usize), slices, 0);
    let mut rest = samples;
    for plane in &mut wanted.planes {
        let (these, after) = rest.split_at(plane.len());
        plane.copy_from_slice(these);
        rest = after;
    }
    assert!(rest.is_empty() && wanted.slice_numbers().len() > 1);
    Coded { records: records.into_iter().map(record).collect(), wanted }
}

fn coded_pictures() -> [Coded; 3] {
    [
        coded(include_bytes!("data/bars_q30_baseline.rmb1"), include_bytes!("data/bars_q30_baseline.yuv")),
        coded(include_bytes!("data/fractal_q27.rmb1"), include_bytes!("data/fractal_q27.yuv")),
        coded(include_bytes!("data/windmill_q36.rmb1"), include_bytes!("data/windmill_q36.yuv")),
    ]
}

/// Loses each slice of each coded picture in turn: `comes` makes what comes for it, and `left` looks at what has become of it. All others have the
/// other decoder's samples, and are answered as in a picture to which the lost one never comes.
fn each_slice_is_lost(
    numbers: &mut Numbers,
    comes: impl Fn(&Coded, &[usize], &mut Numbers) -> Vec<Arrival>,
    mut left: impl FnMut(&Coded, &[usize], &UnderWay),
) {
    for coded in coded_pictures() {
        let (wanted, size) = (&coded.wanted, (coded.wanted.w, coded.wanted.h));
        for slice in wanted.slice_numbers() {
            let (lost, others) = (wanted.inside(slice), wanted.outside(slice));
            let mut arrivals = comes(&coded, &lost, numbers);
            arrivals.extend(others.iter().map(|&a| Arrival::of(a, coded.records[a].clone())));
            let blank = Memory::at_random(size, &wanted.slices, FILL, numbers);
            let mut picture = UnderWay::new(blank.clone(), arrivals);
            picture.run(numbers);
            let alone = picture.replayed(blank, |of| of != slice);
            let given = |answer| picture.calls.iter().filter(|call| call.1 == answer).count();
            assert!(given(Ok(())) >= others.len() && given(Err(Refusal::NotReady)) > 0 && given(Err(Refusal::Done)) > 0);
            for memory in [&picture.memory, &alone] {
                assert!(others.iter().all(|&a| memory.is_done(a) && memory.samples(a) == wanted.samples(a)), "beside slice {slice}");
                assert!(memory.padding_holds(FILL));
            }
            assert!(lost.iter().all(|&a| alone.is_untouched(a)));
            left(&coded, &lost, &picture);
        }
    }
}

#[test]
fn a_garbled_slice_spoils_no_other() {
    let comes = |coded: &Coded, lost: &[usize], numbers: &mut Numbers| {
        lost.iter().map(|&a| Arrival::of(a, acceptable(coded.wanted.sides(a), numbers))).collect()
    };
    each_slice_is_lost(&mut Numbers(1), comes, |coded, lost, UnderWay { memory, .. }| {
        assert!(lost.iter().all(|&a| memory.is_done(a)));
        let spoilt = lost.iter().filter(|&&a| memory.samples(a) != coded.wanted.samples(a)).count();
        assert!(spoilt > lost.len() / 2, "{spoilt} macroblocks are spoilt");
    });
}

#[test]
fn a_refused_slice_spoils_no_other() {
    let comes = |coded: &Coded, lost: &[usize], numbers: &mut Numbers| {
        lost.iter().map(|&a| broken(a, coded.records[a].clone(), coded.wanted.sides(a), numbers)).collect()
    };
    let mut met = [0; 9];
    each_slice_is_lost(&mut Numbers(2), comes, |_, lost, picture| {
        assert!(lost.iter().all(|&a| picture.memory.is_untouched(a)));
        picture.arrivals.iter().filter_map(|arrival| arrival.refusal).for_each(|refusal| met[refusal.number() as usize] += 1);
    });
    assert!([5, 6, 7, 8].iter().all(|&number: &usize| met[number] > 0), "how many records met each refusal: {met:?}");
}

#[test]
fn an_abandoned_slice_spoils_no_other() {
    for many in [0, 1, 9] {
        let comes = |coded: &Coded, lost: &[usize], _: &mut Numbers| {
            lost.iter().take(many).map(|&a| Arrival::of(a, coded.records[a].clone())).collect()
        };
        each_slice_is_lost(&mut Numbers(3), comes, |coded, lost, UnderWay { memory, .. }| {
            let (come, left_out) = lost.split_at(many);
            assert!(come.iter().all(|&a| memory.is_done(a) && memory.samples(a) == coded.wanted.samples(a)));
            assert!(left_out.iter().all(|&a| memory.is_untouched(a)));
        });
    }
}

/// Small pictures, some of one column or one row.
const SIZES: [(u32, u32); 7] = [(1, 1), (1, 9), (12, 1), (2, 2), (3, 7), (5, 4), (8, 6)];

/// A slice number for each macroblock, at random. Some numbers differ in one of their bytes only.
fn scattered((w, h): (u32, u32), numbers: &mut Numbers) -> Vec<u16> {
    let many = 2 + numbers.below(3);
    (0..w * h).map(|_| [0, 256, 65_535, 255][numbers.below(many) as usize]).collect()
}

/// An acceptable record for each macroblock, from the first to the last.
fn acceptable_everywhere(memory: &Memory, numbers: &mut Numbers) -> Vec<Arrival> {
    (0..memory.slices.len()).map(|a| Arrival::of(a, acceptable(memory.sides(a), numbers))).collect()
}

/// Two pictures of one size and slice map whose records agree in one slice only. Strides, lengths and what the planes hold differ.
fn two_that_agree_in(slice: u16, size: (u32, u32), slices: &[u16], numbers: &mut Numbers) -> [UnderWay; 2] {
    let [first, second] = [FILL, !FILL].map(|fill| Memory::at_random(size, slices, fill, numbers));
    let arrivals = acceptable_everywhere(&first, numbers);
    let mut others = acceptable_everywhere(&second, numbers);
    first.inside(slice).into_iter().for_each(|a| others[a] = arrivals[a].clone());
    [UnderWay::new(first, arrivals), UnderWay::new(second, others)]
}

/// Steps, and sees that no mark and no sample of another slice has changed.
fn step_in_its_slice(picture: &mut UnderWay, numbers: &mut Numbers) {
    let before = picture.memory.clone();
    let slice = picture.step(numbers);
    assert!(before.outside(slice).iter().all(|&a| picture.memory.agrees(&before, a)));
}

#[test]
fn a_slice_is_the_same_beside_any_others() {
    let mut numbers = Numbers(4);
    let (mut compared, mut different) = (0, 0);
    for size in SIZES.into_iter().cycle().take(60 * SIZES.len()) {
        let slices = scattered(size, &mut numbers);
        let slice = slices[numbers.below(size.0 * size.1) as usize];
        let mut pictures = two_that_agree_in(slice, size, &slices, &mut numbers);
        let inside = pictures[0].memory.inside(slice);
        // In most rounds one of the two is ahead of the other.
        let pace = 1 + numbers.below(9);
        while pictures.iter().any(|p| !p.waiting.is_empty()) {
            let turn = &mut pictures[(numbers.below(10) < pace) as usize];
            if turn.waiting.is_empty() {
                continue;
            }
            step_in_its_slice(turn, &mut numbers);
            let [first, second] = [&pictures[0].memory, &pictures[1].memory];
            for &a in inside.iter().filter(|&&a| first.is_done(a) && second.is_done(a)) {
                assert_eq!(first.samples(a), second.samples(a), "macroblock {a} of {size:?}");
                compared += 1;
            }
        }
        let [first, second] = pictures.map(|p| p.memory);
        assert!(first.done.iter().chain(&second.done).all(|&mark| mark == 1));
        assert!(first.padding_holds(FILL) && second.padding_holds(!FILL));
        different += first.outside(slice).iter().filter(|&&a| !first.agrees(&second, a)).count();
    }
    assert!(compared > 50_000 && different > 1000, "{compared} comparisons, and {different} macroblocks of other slices differ");
}

/// What comes for a slice: all of it, all of it broken, or its first few.
fn whole_broken_or_few(memory: &Memory, slice: u16, numbers: &mut Numbers) -> Vec<Arrival> {
    let (inside, way) = (memory.inside(slice), numbers.below(3));
    let many = if way == 2 { numbers.below(inside.len() as u32) as usize } else { inside.len() };
    let mut arrival = |&a: &usize| {
        let record = acceptable(memory.sides(a), numbers);
        if way == 1 {
            broken(a, record, memory.sides(a), numbers)
        } else {
            Arrival::of(a, record)
        }
    };
    inside[..many].iter().map(&mut arrival).collect()
}

#[test]
fn a_slice_is_answered_as_if_the_others_had_never_come() {
    let mut numbers = Numbers(5);
    for size in SIZES.into_iter().cycle().take(60 * SIZES.len()) {
        let slices = scattered(size, &mut numbers);
        let blank = Memory::at_random(size, &slices, FILL, &mut numbers);
        let arrivals = blank.slice_numbers().into_iter().flat_map(|slice| whole_broken_or_few(&blank, slice, &mut numbers)).collect();
        let mut picture = UnderWay::new(blank.clone(), arrivals);
        picture.run(&mut numbers);
        assert!(picture.memory.padding_holds(FILL));
        for slice in blank.slice_numbers() {
            let alone = picture.replayed(blank.clone(), |of| of == slice);
            assert!(blank.inside(slice).iter().all(|&a| alone.agrees(&picture.memory, a)));
            assert!(blank.outside(slice).iter().all(|&a| alone.is_untouched(a)));
        }
    }
}

/// Two pictures in states that no run of calls need leave: any marks, samples and count. They agree in one slice, in all lengths and in the progress.
fn two_states_that_agree_in(slice: u16, size: (u32, u32), slices: &[u16], numbers: &mut Numbers) -> [Memory; 2] {
    let mut first = Memory::at_random(size, slices, FILL, numbers);
    // A count of one above the picture is among them.
    let many = slices.len() as u32;
    first.progress = Progress::at(numbers.below(many + 2), numbers.below(many));
    (0..slices.len()).for_each(|a| first.scramble(a, numbers));
    let mut second = first.clone();
    first.outside(slice).into_iter().for_each(|a| second.scramble(a, numbers));
    // Every mark but 1 is undone.
    first.inside(slice).into_iter().filter(|&a| !first.is_done(a)).for_each(|a| second.done[a] = 2 + numbers.below(254) as u8);
    [first, second]
}

#[test]
fn a_call_sees_its_own_slice_alone() {
    let mut numbers = Numbers(6);
    let mut given = [0; 9];
    for size in SIZES.into_iter().cycle().take(600 * SIZES.len()) {
        let slices = scattered(size, &mut numbers);
        let address = numbers.below(size.0 * size.1) as usize;
        let before = two_states_that_agree_in(slices[address], size, &slices, &mut numbers);
        let sides = before[0].sides(address);
        let mut arrival = Arrival::of(address, acceptable(sides, &mut numbers));
        if numbers.below(2) == 0 {
            arrival = broken(address, arrival.record, sides, &mut numbers);
        }
        let [mut first, mut second] = before.clone();
        let answer = first.offer(&arrival);
        assert_eq!(second.offer(&arrival), answer);
        assert!(first.inside(slices[address]).iter().all(|&a| first.agrees(&second, a)));
        assert!(first.outside(slices[address]).iter().all(|&a| first.agrees(&before[0], a) && second.agrees(&before[1], a)));
        assert!(first.padding_holds(FILL) && second.padding_holds(FILL));
        given[answer.map_or_else(Refusal::number, |()| 0) as usize] += 1;
    }
    assert!([0, 2, 4, 5, 6, 7, 8].iter().all(|&answer| given[answer] > 50), "how often each answer was given: {given:?}");
}

#[test]
fn the_first_undone_macroblock_of_a_slice_never_waits() {
    let mut numbers = Numbers(8);
    for size in SIZES.into_iter().cycle().take(10 * SIZES.len()) {
        let memory = Memory::of(size, [0; 3], scattered(size, &mut numbers), 0);
        let mut picture = Picture::with_slices(memory.w, memory.h, memory.slices.clone()).unwrap();
        let slices = memory.slice_numbers();
        // What comes for the lost one ends after some macroblocks.
        let (lost, mut few) = (slices[numbers.below(slices.len() as u32) as usize], numbers.below(9));
        loop {
            let open: Vec<u16> = slices.iter().copied().filter(|&s| !picture.is_slice_finished(s) && (s != lost || few > 0)).collect();
            if open.is_empty() {
                break;
            }
            let slice = open[numbers.below(open.len() as u32) as usize];
            few -= (slice == lost) as u32;
            let (x, y) = picture.first_undone_in(slice).unwrap();
            let address = (y * memory.w + x) as usize;
            assert!(memory.slices[address] == slice && !picture.is_done(x, y));
            assert_eq!(picture.rebuild(x, y, &acceptable(memory.sides(address), &mut numbers)), Ok(()));
        }
        for slice in slices {
            let whole = memory.inside(slice).iter().all(|&a| picture.is_done(a as u32 % memory.w, a as u32 / memory.w));
            assert!(whole || slice == lost);
            assert_eq!(picture.is_slice_finished(slice), whole);
        }
        assert!(picture.is_slice_finished(77) && picture.first_undone_in(77).is_none(), "no macroblock has this number");
    }
}

#[test]
fn the_progress_record_is_shared_and_changes_no_answer() {
    // Macroblocks 0 and 2, the left column, are one slice, and 1 and 3 the other.
    let blank = Memory::of((2, 2), [32, 16, 16], vec![0, 1, 0, 1], FILL);
    let flat = Record::of_16x16(Luma16x16Mode::Dc, ChromaMode::Dc);
    let offered = |addresses: &[usize]| {
        let mut memory = blank.clone();
        let mut call = |&a: &usize| (memory.offer(&Arrival::of(a, flat.clone())), memory.progress.count(), memory.progress.last());
        addresses.iter().map(&mut call).collect::<Vec<_>>()
    };
    let (not_ready, done) = (Err(Refusal::NotReady), Err(Refusal::Done));
    assert_eq!(offered(&[2, 0, 2, 0]), [(not_ready, 0, 0), (Ok(()), 1, 0), (Ok(()), 2, 2), (done, 2, 2)]);
    let with_the_other = [(Ok(()), 1, 1), (not_ready, 1, 1), (Ok(()), 2, 0), (Ok(()), 3, 3), (Ok(()), 4, 2), (done, 4, 2)];
    assert_eq!(offered(&[1, 2, 0, 3, 2, 0]), with_the_other);
}

#[test]
fn a_count_above_the_picture_stops_every_slice() {
    let mut numbers = Numbers(7);
    for size in SIZES {
        let slices = scattered(size, &mut numbers);
        let mut memory = Memory::at_random(size, &slices, FILL, &mut numbers);
        let (w, many, arrivals) = (memory.w, memory.w * memory.h, acceptable_everywhere(&memory, &mut numbers));
        for count in [many + 1, u32::MAX] {
            memory.progress = Progress::at(count, 0);
            for Arrival { address, record, .. } in &arrivals {
                assert_eq!(memory.refused(*address as u32 % w, *address as u32 / w, record), Refusal::Room);
            }
        }
        // The largest count that may be lent stops none of them, and stays.
        memory.progress = Progress::at(many, 0);
        for arrival in &arrivals {
            assert_eq!(memory.offer(arrival), Ok(()));
            assert_eq!(memory.progress, Progress::at(many, arrival.address as u32));
        }
    }
}
